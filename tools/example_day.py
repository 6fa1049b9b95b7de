#!/usr/bin/env python3
"""Print a file of the example day, which `bin/gasday --example` runs, or what is to be printed of it.

usage: tools/example_day.py day | volumes | printed | list
  day       crates/gasday/data/day: a day file of 24 hourly analyses around the gas of annex D of the standard, at 15/15; one is refused
  volumes   crates/gasday/data/volumes: their volumes in dm3, one a line; one is refused
  printed   crates/gasday/stdout: the counts, totals and means, in whole numbers of Python over tools/reading/
  list      what `bin/gasday --list --example` prints, likewise
"""
import struct
import sys
from math import isqrt

sys.dont_write_bytecode = True
from printed_tables import DIVISOR, GAS, HEAT, MOLAR_MASS, column, near

HOURS = range(24)
HIGH_NITROGEN = 9  # the hour whose analysis has nitrogen 400,000 and is refused by 11
HIGH_VOLUME = 17  # the hour whose volume is above 10,000,000 dm3 and is refused by 15
SUMMATION = column("table2.csv", "s_15", "0.0001")


def gas(hour):
    """The fractions of an hour: richer in ethane and propane at noon, nitrogen and carbon dioxide up and down; methane is the rest."""
    noon = 12 - abs(12 - hour)
    others = dict(GAS)
    del others[1]
    others[2] += 120 * noon
    others[3] += 35 * noon
    others[52] += 90 * (hour * 7 % 5) - 40 * noon
    others[54] += 15 * (hour * 3 % 7) - 10 * noon
    methane = 10**6 - sum(others.values())
    if hour == HIGH_NITROGEN:
        others[52] = 400000
    return {1: methane, **others}


def record(fractions):
    entries = (struct.pack("<BI", line, x) for line, x in fractions.items())
    return struct.pack("<3sHBBB", b"GCR", 1, 15, 15, len(fractions)) + b"".join(entries)


def blocks():
    return [record(gas(hour)) for hour in HOURS]


def day():
    return struct.pack("<3sH", b"GDF", 1) + b"".join(struct.pack("<H", len(block)) + block for block in blocks())


def volumes():
    """More by day than by night."""
    flow = [850000 + 60000 * (12 - abs(12 - hour)) + 1000 * (hour * 11 % 13) for hour in HOURS]
    flow[HIGH_VOLUME] = 99999999
    return flow


def properties(fractions):
    """Z, Hs, Hi, rho, d and W at 15/15."""

    def summed(numbers):
        return sum(x * numbers.get(line, 0) for line, x in fractions.items())

    z = near(10**18 - near(summed(SUMMATION), 10) ** 2, 10**9)
    hs, hi = (near(near(summed(HEAT[kind]) * 1013250, DIVISOR[15]) * 10**9, z) for kind in ("sup_15", "inf_15"))
    rho = near(near(summed(MOLAR_MASS) * 10132500, DIVISOR[15]) * 10**9, z)
    d = near(near(summed(MOLAR_MASS) * 99958, 289626000) * 10**9, z)
    return z, hs, hi, rho, d, near(hs * 10**9, isqrt(d * 10**10))


def printed():
    analyses = accepted = volume = superior = inferior = mass = 0
    for hour, more in zip(HOURS, volumes()):
        if hour != HIGH_NITROGEN:
            analyses += 1
            _, hs, hi, rho, _, _ = properties(gas(hour))
        if hour != HIGH_VOLUME:
            accepted += 1
            volume, superior, inferior, mass = volume + more, superior + more * hs, inferior + more * hi, mass + more * rho
    yield f"analyses {analyses}"
    yield f"volumes {accepted}"
    yield f"volume {volume}"
    for name, energy in ("superior", superior), ("inferior", inferior):
        yield f"{name}_mj {energy // 10**9}"
        yield f"{name}_rest {energy % 10**9}"
    yield f"mass_kg {mass // 10**11}"
    yield f"mass_rest {mass % 10**11}"
    yield f"mean {near(superior, volume)}"
    yield f"mean_inferior {near(inferior, volume)}"


def listed():
    offset = 5
    for hour, block in zip(HOURS, blocks()):
        answer = " ".join(f"{name} {value}" for name, value in zip(["Z", "Hs", "Hi", "rho", "d", "W"], properties(gas(hour))))
        yield f"{offset} {len(block)} {'refused 11' if hour == HIGH_NITROGEN else answer}"
        offset += 2 + len(block)


def lines(values):
    return "".join(f"{value}\n" for value in values).encode()


FILES = {"day": day, "volumes": lambda: lines(volumes()), "printed": lambda: lines(printed()), "list": lambda: lines(listed())}

if __name__ == "__main__":
    if len(sys.argv) != 2 or sys.argv[1] not in FILES:
        sys.exit(__doc__)
    sys.stdout.buffer.write(FILES[sys.argv[1]]())
