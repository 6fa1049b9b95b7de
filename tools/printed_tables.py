#!/usr/bin/env python3
"""Print what crates/printed_tables prints, its file `stdout`: the printed figures of tables 4 and 5 and annex D of source document 002,
against those calculated from its tables 1 to 3, in whole numbers of Python over the second transcription, tools/reading/.

usage: tools/printed_tables.py | diff - crates/printed_tables/stdout
"""
import csv
import os
from decimal import Decimal
from math import isqrt

READING = os.path.join(os.path.dirname(os.path.abspath(__file__)), "reading")


def column(table, name, unit):
    """A column of a table as whole numbers of a unit, by line."""
    with open(os.path.join(READING, table)) as file:
        return {int(row["line"]): int(Decimal(row[name]) / Decimal(unit)) for row in csv.DictReader(file)}


def near(n, q):
    """The whole number nearest to n/q, halves upward."""
    return (2 * n + q) // (2 * q)


class Figures:
    """Printed figures against calculated ones: the lines of those that differ, and how many are equal, one off and otherwise."""

    def __init__(self, title):
        self.title, self.lines, self.counts = title, [], [0, 0, 0]

    def compare(self, place, printed, n, q):
        """A figure as printed, and what it should be, n/q."""
        decimals = len(printed.partition(".")[2])
        shown, calculated = int(printed.replace(".", "")), near(n * 10**decimals, q)
        off = min(abs(shown - calculated), 2)
        self.counts[off] += 1
        if off:
            self.lines.append(f"{self.title}, {place}: printed {printed}, calculated {Decimal(calculated).scaleb(-decimals)}")

    def report(self):
        equal, one_off, otherwise = self.counts
        yield from self.lines
        yield f"{self.title}: {sum(self.counts)} figures, {equal} equal, {one_off} one off, {otherwise} otherwise"


def printed_table(number, calculated):
    """Table 4 or 5. A column's name is superior or inferior and a temperature or a pair; `calculated` gives n and q of a line's figure."""
    figures = Figures(f"table {number}")
    with open(os.path.join(READING, f"table{number}.csv")) as file:
        for row in csv.DictReader(file):
            line = int(row.pop("line"))
            for name, printed in row.items():
                kind, at = name.split("_")
                place = f"line {line}, {dict(sup='superior', inf='inferior')[kind]}, {at}"
                figures.compare(place, printed, *calculated(line, kind, at))
    yield from figures.report()
    yield f"not compared: the names of table {number}; it has no lines 49 to 55"


MOLAR_MASS = column("table1.csv", "molar_mass", "0.0001")
HEAT = {f"{kind}_{t}": column("table3.csv", f"{kind}_{t}", "0.001") for kind in ("sup", "inf") for t in (25, 20, 15, 0)}
DIVISOR = {metering: 831451 * T for metering, T in ((0, 27315), (15, 28815), (20, 29315))}


def per_cubic_metre(line, kind, pair):
    combustion, metering = pair.split("/")
    return near(HEAT[f"{kind}_{combustion}"][line] * 10**6 * 1013250, DIVISOR[int(metering)]), 10**6


def per_kilogram(line, kind, t):
    return near(HEAT[f"{kind}_{t}"][line] * 10**6, MOLAR_MASS[line]), 10**5


# table D.1: line, M, H, s, and their products with x
TABLE_D1 = """
1 16.043 891.56 0.0447 14.8350 824.43 0.04133
2 30.070 1562.14 0.0922 1.0525 54.67 0.00323
3 44.097 2221.10 0.1338 0.4322 21.77 0.00131
4 58.123 2879.76 0.1871 0.1279 6.34 0.00041
5 58.123 2870.58 0.1789 0.1976 9.76 0.00061
6 72.150 3538.60 0.2510 0.0433 2.12 0.00015
52 28.0135 0 0.0173 0.4902 0 0.00030
54 44.010 0 0.0748 0.2993 0 0.00051
"""


GAS = {1: 924700, 2: 35000, 3: 9800, 4: 2200, 5: 3400, 6: 600, 52: 17500, 54: 6800}  # the fractions x


def annex_d():
    M, H = MOLAR_MASS, HEAT["sup_15"]
    s = column("table2.csv", "s_15", "0.0001")
    figures = Figures("annex D")
    for row in TABLE_D1.split("\n")[1:-1]:
        line, *printed = row.split()
        k = int(line)
        numbers = [(M[k], 10**4), (H.get(k, 0), 10**3), (s[k], 10**4)]
        products = [(GAS[k] * n, 10**6 * q) for n, q in numbers]
        for name, figure, (n, q) in zip(["M", "H", "s", "x M", "x H", "x s"], printed, numbers + products):
            figures.compare(f"table D.1, line {line}, {name}", figure, n, q)
    xM, xH, xs = (sum(x * numbers.get(k, 0) for k, x in GAS.items()) for numbers in (M, H, s))
    Z, Hs, rho, d, W = 997709976, 38959473, 74087496, 60459367, 50105024  # as document 01 prints them, case K1
    ideal, ideal_rho, ideal_d = near(xH * 1013250, DIVISOR[15]), near(xM * 10132500, DIVISOR[15]), near(xM * 10**5, 289626000)
    parts_by_mass = sum(near(x * M[k] * 10**7, xM) * near(H.get(k, 0) * 10**6, M[k]) for k, x in GAS.items())
    parts_by_volume = sum(x * near(H.get(k, 0) * 10**6 * 1013250, DIVISOR[15]) for k, x in GAS.items())
    for place, printed, n, q in [
        ("table D.1, total x", "1.0000", sum(GAS.values()), 10**6),
        ("table D.1, total x M", "17.478", xM, 10**10),
        ("table D.1, total x H", "919.09", xH, 10**9),
        ("table D.1, total x s", "0.04785", xs, 10**10),
        ("D.1, ideal H per mole", "919.09", xH, 10**9),
        ("D.2, ideal H per kilogram", "52.586 52.59", near(xH * 10**6, xM), 10**5),
        ("D.2, by formula (7)", "52.59", parts_by_mass, 10**12),
        ("D.3, ideal H", "38.870 38.87", ideal, 10**6),
        ("D.3, by formula (9)", "38.87", parts_by_volume, 10**12),
        ("D.3, sum of x s", "0.04785", xs, 10**10),
        ("D.3, Z", "0.99771 0.9977", Z, 10**9),
        ("D.3, H", "38.959 38.96", Hs, 10**6),
        ("D.4.1, ideal d", "0.60347 0.6035", ideal_d, 10**8),
        ("D.4.1, d", "0.60460 0.6046", d, 10**8),
        ("D.4.2, ideal rho", "0.73918 0.7392", ideal_rho, 10**8),
        ("D.4.2, rho", "0.74088 0.7409", rho, 10**8),
        ("D.4.3, ideal W", "50.036 50.04", near(ideal * 10**9, isqrt(ideal_d * 10**10)), 10**6),
        ("D.4.3, W", "50.104 50.10", W, 10**6),
        ("D.4.3, W with all digits", "50.11", W, 10**6),
    ]:
        for figure in printed.split():
            figures.compare(place, figure, n, q)
    yield from figures.report()
    yield "not compared: the fractions x of table D.1, the input"
    yield "not compared: the constants p2, T2, R, molar mass of air, Z of air"
    yield "not compared: figures that a later formula of annex D repeats"
    yield "not compared: D.5 and table D.2, estimates of precision"


def printed():
    yield from printed_table(5, per_cubic_metre)
    yield from printed_table(4, per_kilogram)
    yield from annex_d()


if __name__ == "__main__":
    print("\n".join(printed()))
