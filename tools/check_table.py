#!/usr/bin/env python3
"""Hold the component table against source document 002, and the document against itself.

usage: tools/check_table.py SCAN     (SCAN: the text of source document 002)

Cuts tables 1 to 5 out of the scan, then checks
  second    every figure of tables 1 to 5 against the second transcription of the scan, tools/reading/;
  table     each of the 660 numbers, and each name, of crates/components/specs/Table.antt against tables 1 to 3;
  atoms     the hydrogen atoms of crates/components/specs/Rule.antt against the formulas below;
  mass      table 1 against the atomic masses that the source prints under it;
  factor    each s of table 2 against its z: s is the root of 1 - z, to its last digit;
  hydrogen  2 x (superior - inferior) of table 3 against hydrogen atoms x water's superior value: document 01's rule;
  steps     the values of table 3 from temperature to temperature: 15 - 20 °C as 20 - 25 °C to 0.05 kJ/mol, and 0 - 15 °C as
            three times 15 - 20 °C to 0.15; for lines with one decimal to 0.2 and 0.3;
  table 4   per kilogram, from table 3 and the molar mass before rounding, as its heading says;
  table 5   per cubic metre, from table 3 and p / (R T).
Each check prints how many figures are equal; how many differ by no more than the rounding of the printed figures that they
come from (for hydrogen, than document 01 allows); and how many otherwise; and, with its place, every figure that is not
equal. The exit status is 1 unless those that differ otherwise, or cannot be checked, are just those of KNOWN.
A figure of table 4 or 5 has two decimals, so it tells a value of table 3 to some 0.1 kJ/mol; hydrogen tells a difference of
two values to 0.01; steps tells a value at 25, 20 or 15 °C to some 0.05.
"""
import csv
import os
import re
import sys
from decimal import Decimal as D

# Where the scan does not show the number: (table, line, column) -> (what it shows, what is meant).
# docs/MISPRINTS.md says what decides each.
CORRECTED = {
    (2, 26, 1): ("02121", "0.2121"),
    (3, 23, 0): ("700.2", "2700.2"),
    (5, 6, 7): ("14596", "145.96"),
}
# What contradicts a check by more than rounding, or cannot be checked by it: (check, line). docs/MISPRINTS.md has each.
KNOWN = {("mass", 49), ("mass", 50), ("mass", 51), ("factor", 41), ("factor", 49), ("factor", 50), ("steps", 4)}

FORMULAS = """CH4 C2H6 C3H8 C4H10 C4H10 C5H12 C5H12 C5H12 C6H14 C6H14 C6H14 C6H14 C6H14 C7H16 C8H18 C9H20 C10H22 C2H4 C3H6
C4H8 C4H8 C4H8 C4H8 C5H10 C3H4 C4H6 C4H6 C2H2 C5H10 C6H12 C7H14 C6H12 C7H14 C8H16 C6H6 C7H8 C8H10 C8H10 CH4O CH4S H2 H2O
H2S H3N CHN CO COS CS2 He Ne Ar N2 O2 CO2 O2S""".split()
ATOMIC_MASS = {"C": D("12.011"), "H": D("1.00794"), "O": D("15.9994"), "N": D("14.00674"), "S": D("32.066")}
ONE_DECIMAL = (21, 22, 23, 45)  # the lines of table 3 that are printed with one decimal
TEMPERATURES = ("25", "20", "15", "0")
PAIRS = ("15/15", "0/0", "15/0", "25/0", "20/20", "25/20")
KELVIN = {"0": D("273.15"), "15": D("288.15"), "20": D("293.15")}
PRESSURE, GAS_CONSTANT = D("101.325"), D("8.314510")


class Scan:
    """The scan's lines, read forward."""

    def __init__(self, path):
        with open(path, encoding="utf-8") as text:
            self.lines = [line.strip() for line in text]
        self.at = 0

    def skip_while(self, test):
        while test(self.lines[self.at]):
            self.at += 1

    def rows(self, first, last, width, number):
        """Lines that are printed whole: the line's number, its name, and width numbers."""
        out = {}
        for line in range(first, last + 1):
            self.skip_while(lambda text: not re.match(rf"{line}\. ?\S", text))
            text = self.lines[self.at].replace("|", " ").split(".", 1)[1]
            out[line] = [plain(cell) for cell in re.findall(number, text)[-width:]]
            self.at += 1
        return out

    def columns(self, first, last, heights):
        """A page that is torn into columns: the lines' numbers, their names, then the columns one under the other."""
        named = lambda text: re.search(r"[^\W\d]{3}", text)
        self.skip_while(lambda text: text != f"{first}." and not (first == 1 and text.startswith("1. ")))
        self.skip_while(lambda text: not named(text))
        self.skip_while(lambda text: named(text) or not text)
        cells = []
        while len(cells) < sum(heights):
            text = plain(self.lines[self.at])
            if text:
                assert re.fullmatch(r"-?\d+(\.\d+)?", text), f"line {self.at + 1} of the scan: {text}"
                cells.append(text)
            self.at += 1
        out = {line: [] for line in range(first, last + 1)}
        for height in heights:
            for line in out:
                out[line].append(cells[line - first])
            cells = cells[height:]
        return out


def plain(text):
    return text.replace(" ", "").replace(",", ".")


def read(path):
    """The five tables as the scan shows them: table -> line -> list of decimals as text."""
    scan, tables = Scan(path), {number: {} for number in range(1, 6)}
    scan.skip_while(lambda text: not text.startswith("10. TA"))  # the chapter of tables
    tables[1].update(scan.columns(1, 14, [14]))
    tables[1].update(scan.columns(15, 34, [20]))
    tables[1].update(scan.columns(35, 54, [20]))
    tables[1].update(scan.rows(55, 55, 1, r"\d+,\d+"))
    factor = r"-?[01],\d{3,4}(?: \d(?![,\d]))?"
    tables[2].update(scan.rows(1, 18, 6, factor))
    tables[2].update(scan.columns(19, 38, [20] * 6))
    tables[2].update(scan.columns(39, 55, [18, 17] * 3))  # air has a z and no s
    heat = r"(?<![\d,])\d+(?:,\d+)?(?![\d,-])"
    tables[3].update(scan.rows(1, 10, 8, heat))
    tables[3].update(scan.columns(11, 30, [20] * 8))
    tables[3].update(scan.rows(31, 48, 8, heat))
    tables[4].update(scan.rows(1, 9, 8, heat))
    tables[4].update(scan.columns(10, 29, [20] * 8))
    tables[4].update(scan.columns(30, 48, [19] * 8))
    tables[5].update(scan.rows(1, 9, 12, heat))
    tables[5].update(scan.columns(10, 29, [20] * 12))
    tables[5].update(scan.columns(30, 48, [19] * 12))
    for (table, line, column), (shown, meant) in CORRECTED.items():
        assert tables[table][line][column] == shown, f"table {table}, line {line}: {tables[table][line][column]}"
        tables[table][line][column] = meant
    return tables


TOP = os.path.join(os.path.dirname(__file__), "..")


def second_reading(number):
    """A table of the second transcription: line -> list of decimals as text, the name first for table 1."""
    with open(os.path.join(TOP, "tools", "reading", f"table{number}.csv"), encoding="utf-8", newline="") as text:
        return {int(row[0]): row[1:] for row in list(csv.reader(text))[1:]}


def specification(name):
    with open(os.path.join(TOP, "crates", "components", "specs", name), encoding="utf-8") as text:
        return text.read()


def specified():
    """The rows of the component table of specs/: line -> (name, twelve whole numbers)."""
    rows = re.findall(r"^    line (.*) ∷  -- (\d+) (.*)$", specification("Table.antt"), re.M)
    signed = lambda row: re.sub(r"\((pos|neg) (\d+)\)", lambda m: m[2] if m[1] == "pos" else "-" + m[2], row)
    return {int(line): (name, [int(word) for word in signed(row).split()]) for row, line, name in rows}


def atoms(formula):
    """How many atoms of each element a molecule has, or None where the source prints no atomic mass."""
    counts = dict.fromkeys(ATOMIC_MASS, 0)
    for element, number in re.findall(r"([A-Z][a-z]?)(\d*)", formula):
        if element not in counts:
            return None
        counts[element] += int(number or 1)
    return counts


def mass(line):
    counts = atoms(FORMULAS[line - 1])
    return counts and sum(ATOMIC_MASS[element] * number for element, number in counts.items())


def half_unit(text):
    """Half a unit of the last digit of a printed number."""
    return D(1).scaleb(-len(text.partition(".")[2])) / 2


class Check:
    """Counts the figures of one check, and keeps those that are not equal."""

    def __init__(self, name):
        self.name, self.equal, self.rounding, self.other, self.said = name, 0, 0, set(), []

    def figure(self, line, place, printed, low, high):
        """A printed figure, and the least and the greatest value that the figures it comes from allow."""
        half, value = half_unit(printed), (low + high) / 2
        near = low - half <= D(printed) <= high + half
        self.compare(line, place, printed, round(value, 4), abs(D(printed) - value) <= half, near)

    def compare(self, line, place, printed, value, equal, near):
        if equal:
            self.equal += 1
            return
        self.rounding += near
        if not near:
            self.other.add((self.name, line))
        self.said.append(f"  line {line}, {place}: {printed}, against {value}" + ("" if near else "  OTHERWISE"))

    def unchecked(self, line, why):
        self.other.add((self.name, line))
        self.said.append(f"  line {line}: {why}  OTHERWISE")

    def report(self):
        print(f"{self.name}: {self.equal} equal, {self.rounding} by rounding, {len(self.said) - self.rounding} otherwise")
        print(*self.said, sep="\n", end="\n" if self.said else "")
        return self.other


def second(tables):
    """Every figure against the second transcription."""
    check = Check("second")
    for number, table in tables.items():
        transcribed = second_reading(number)
        for line, row in table.items():
            for column, (one, two) in enumerate(zip(row, transcribed[line][-len(row):], strict=True)):
                check.compare(line, f"table {number}, figure {column}", one, two, one == two, False)
    return check.report()


def component_table(tables):
    """The 660 numbers as whole multiples of the units of document 01, and the names of the lines."""
    check, table, names = Check("table"), specified(), second_reading(1)
    assert list(table) == list(range(1, 56)), "the lines of specs/Table.antt"
    for line, (name, own) in table.items():
        heats = tables[3].get(line, ["0"] * 8)
        printed = [D(tables[1][line][0]) * 10000, *(D(tables[2][line][c]) * 10000 for c in (1, 3, 5)), *(D(h) * 1000 for h in heats)]
        for column, (one, two) in enumerate(zip(own, printed, strict=True)):
            check.compare(line, f"column {column}", one, two, one == two, False)
        if name != names[line][0]:
            check.unchecked(line, f"name {name}, against {names[line][0]}")
    return check.report()


def hydrogen_atoms(tables):
    check = Check("atoms")
    own = re.search(r"^hydrogen_atoms =\n((?:    .*\n)+)", specification("Rule.antt"), re.M)[1].replace("[]", "").split("∷")[:-1]
    for line, (one, formula) in enumerate(zip(own, FORMULAS, strict=True), 1):
        two = (atoms(formula) or {"H": 0})["H"]
        check.compare(line, formula, one.strip(), two, int(one) == two, False)
    return check.report()


def masses(tables):
    check = Check("mass")
    for line, (printed,) in tables[1].items():
        if mass(line):
            check.figure(line, "molar mass", printed, mass(line), mass(line))
        else:
            check.unchecked(line, f"{printed}, an element with no atomic mass in the source")
    return check.report()


def factors(tables):
    check = Check("factor")
    for line, row in tables[2].items():
        for place, z, s in zip(("0", "15", "20"), row[0::2], row[1::2]):
            if D(z) <= 1:
                check.figure(line, f"s at {place} °C", s, (1 - D(z)).sqrt(), (1 - D(z)).sqrt())
            else:
                check.unchecked(line, f"s at {place} °C is {s}, and z is {z}, above 1")
    return check.report()


def hydrogens(tables):
    check = Check("hydrogen")
    for line, row in tables[3].items():
        for place, high, low, water in zip(TEMPERATURES, row[0::2], row[1::2], tables[3][42][0::2], strict=True):
            allowed = D("0.2") if line in ONE_DECIMAL else D("0.02")
            twice, rule = 2 * (D(high) - D(low)), atoms(FORMULAS[line - 1])["H"] * D(water)
            last = 2 * half_unit(high)  # what the last digit of the difference can tell
            check.compare(line, f"2 x (superior - inferior) at {place} °C", twice, rule, abs(twice - rule) <= last, abs(twice - rule) <= allowed)
    return check.report()


def steps(tables):
    check = Check("steps")
    for line, row in tables[3].items():
        near, far = (D("0.2"), D("0.3")) if line in ONE_DECIMAL else (D("0.05"), D("0.15"))
        for kind, values in (("superior", row[0::2]), ("inferior", row[1::2])):
            at25, at20, at15, at0 = map(D, values)
            check.compare(line, f"{kind}, 15 - 20 °C", at15 - at20, at20 - at25, abs((at15 - at20) - (at20 - at25)) <= near, False)
            check.compare(line, f"{kind}, 0 - 15 °C", at0 - at15, 3 * (at15 - at20), abs((at0 - at15) - 3 * (at15 - at20)) <= far, False)
    return check.report()


def per_kilogram(tables):
    check = Check("table 4")
    for line, row in tables[4].items():
        for column, (printed, heat) in enumerate(zip(row, tables[3][line], strict=True)):
            place = ("superior", "inferior")[column % 2] + f" at {TEMPERATURES[column // 2]} °C"
            low, high = (D(heat) - half_unit(heat)) / mass(line), (D(heat) + half_unit(heat)) / mass(line)
            check.figure(line, place, printed, low, high)
    return check.report()


def per_cubic_metre(tables):
    check = Check("table 5")
    for line, row in tables[5].items():
        for column, printed in enumerate(row):
            combustion, metering = PAIRS[column // 2].split("/")
            heat = tables[3][line][2 * TEMPERATURES.index(combustion) + column % 2]
            factor = PRESSURE / (GAS_CONSTANT * KELVIN[metering])
            place = ("superior", "inferior")[column % 2] + f" at {PAIRS[column // 2]}"
            check.figure(line, place, printed, (D(heat) - half_unit(heat)) * factor, (D(heat) + half_unit(heat)) * factor)
    return check.report()


def main():
    if len(sys.argv) != 2:
        sys.exit(__doc__)
    tables = read(sys.argv[1])
    print("tables 1 to 5:", sum(len(row) for table in tables.values() for row in table.values()), "figures,", len(CORRECTED), "of them corrected")
    found = set().union(*(check(tables) for check in (second, component_table, hydrogen_atoms, masses, factors, hydrogens, steps, per_kilogram, per_cubic_metre)))
    for name, line in sorted(found ^ KNOWN):
        print(f"{name}, line {line}:", "not in KNOWN" if (name, line) in found else "in KNOWN, and not found")
    sys.exit(1 if found != KNOWN else 0)


if __name__ == "__main__":
    main()
