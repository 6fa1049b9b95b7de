#!/usr/bin/env python3
"""Brings the repository's own definitions and lemmas to today's spelling: words in snake case, types and modules in camel case, ' for a prime.

usage: tools/respell.py [--list]     once, at the top, after /opt/rattle/port/port.py

Renamed is what crates/*/specs/*.antt and crates/*/proofs/*.antt declare, wherever these files, the proofs of functions, the clauses of
src/*.rt and the texts of must-fail/*.edit name it. Functions of src/, strings, inputs and outputs keep their names, and so do goals,
which Rattle names. A name that a file brings in from the library is not touched there. With --list it prints the names and writes nothing.
"""
import collections
import glob
import re
import sys

# A lemma about a definition has the definition's name and "_lem", where both would be spelled alike.
LEMMA = "_lem"

NAME = r"[^\s(){}\[\];:,.\"`|=λ]+"
TOKEN = re.compile(r"[^\s(){}\[\];,.\"`]+")
DECLARED = re.compile(r"^\s*(?:let |abbrev |unfoldable |pub |record |data )*(%s)(?: [({].*?)? ?: " % NAME)


def spelled(name):
    name = name.replace("′", "'")
    if re.match(r"[A-Z]", name):
        return name
    name = re.sub(r"(?<=[a-z0-9])([A-Z])(?=[a-z])", lambda m: "_" + m.group(1).lower(), name)
    name = re.sub(r"(?<=[a-z0-9])([A-Z]+)(?![a-z])", lambda m: "_" + m.group(1).lower(), name)
    return name.replace("-", "_")


def own_files():
    return sorted(glob.glob("crates/*/specs/*.antt") + glob.glob("crates/*/proofs/*.antt"))


def declared():
    names = collections.defaultdict(set)
    for path in own_files():
        for line in open(path):
            text = line.split(" -- ")[0]
            if text.lstrip().startswith(("--", "use ", "pub use ")):
                continue
            for piece in re.split(r"(?<= in) (?=let )|(?<=[=]) (?=let )", text):
                found = DECLARED.match(piece)
                if found and re.search(r"\w", found.group(1)):
                    names[found.group(1)].add(path)
    return names


def imported(text):
    """Names that a file brings in from modules that are not the repository's own."""
    crates = {line.split(":")[0].split()[0] for line in open("crates.txt") if ":" in line and not line.startswith("#")}
    names = set()
    for module, listed in re.findall(r"^(?:ghost |pub )?use ([^\s{]+)\.\{([^}]*)\}", text, re.M):
        parts = module.split(".")
        if parts[0] == "Rattle" and len(parts) > 1 and parts[1] in crates and "declared" not in parts:
            continue
        names.update(re.findall(r"[^\s,]+", listed))
    return names


def respell_tokens(text, names):
    return TOKEN.sub(lambda m: names.get(m.group(0), m.group(0)), text)


def respell_antt(text, names):
    lines = []
    for line in text.split("\n"):
        code, dashes, comment = line, "", ""
        found = re.search(r"(?:^|\s)-- ", line)
        if found:
            code, comment = line[: found.start()], line[found.start() :]
        comment = re.sub(r"`[^`]*`", lambda m: respell_tokens(m.group(0), names), comment)
        lines.append(respell_tokens(code, names) + comment)
    return "\n".join(lines)


def respell_rt(text, names):
    lines = []
    inside = False  # a clause of several lines
    for line in text.split("\n"):
        stripped = line.lstrip()
        if stripped.startswith("//"):
            line = re.sub(r"`[^`]*`", lambda m: respell_tokens(m.group(0), names), line)
        elif inside or stripped.startswith(("ghost ", "requires ", "ensures ", "requires* ", "ensures* ")):
            line = respell_tokens(line, names)
            opened = line.count("{") - line.count("}")
            inside = (inside + opened > 0) and inside + opened
        lines.append(line)
    return "\n".join(lines)


def new_names():
    known = declared()
    names = {old: spelled(old) for old in known}
    meet = collections.defaultdict(list)
    for old, new in names.items():
        meet[new].append(old)
    for new, olds in meet.items():
        lemmas = [old for old in olds if "-" in old]
        if len(olds) > 1:
            assert len(olds) == len(lemmas) + 1, olds
            for old in lemmas:
                names[old] = new + LEMMA
    assert len(set(names.values())) == len(names)
    return {old: new for old, new in names.items() if old != new}


def main():
    names = new_names()
    if "--list" in sys.argv[1:]:
        for old, new in sorted(names.items()):
            print(old, new)
        return
    paths = glob.glob("crates/*/specs/**/*.antt", recursive=True) + glob.glob("crates/*/proofs/**/*.antt", recursive=True)
    for path in sorted(paths) + sorted(glob.glob("crates/*/src/*.rt")) + sorted(glob.glob("crates/*/must-fail/*.edit")):
        text = open(path).read()
        library = imported(text)
        here = {old: new for old, new in names.items() if old not in library}
        for old, new in here.items():
            if new in library and re.search(r"(?<![^\s(){}\[\];,.`])%s(?![^\s(){}\[\];,.`])" % re.escape(old), text):
                print("look: %s: %s, now %s, is also a name of the library" % (path, old, new))
        if path.endswith(".antt"):
            new = respell_antt(text, here)
        elif path.endswith(".rt"):
            new = respell_rt(text, here)
        else:
            new = "\n".join(respell_tokens(line, here) if line.startswith(("old:", "new:")) else line for line in text.split("\n"))
        if new != text:
            open(path, "w").write(new)


main()
