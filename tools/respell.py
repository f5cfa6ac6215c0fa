#!/usr/bin/env python3
"""Respells the repository's own names: words of specifications and lemmas in snake case, as tools/respell.tsv lists them (old name, tab, new name).

usage: tools/respell.py [FOLDER]     the top of a checkout; '.' if none is given

Run once, after the kit's port.py. Names that a file brings in from another library keep their spelling there; so do strings. Rust's functions are in snake case
already and are not in the list. A module `Contracts` of specs/ gets the name `Promises`, since Rattle makes a module `contracts` itself.
"""
import os
import re
import sys

TOKEN = re.compile(r"(?<![\w'′-])[A-Za-z_][\w'′-]*")
USE = re.compile(r"use ([\w.'-]+)\.\{([^}]*)\}")
STRING = re.compile(r'b?"(?:[^"\\]|\\.)*"')


def table(at):
    with open(os.path.join(at, "respell.tsv"), encoding="utf-8") as f:
        return dict(line.rstrip("\n").split("\t") for line in f)


def kept(text, crates):
    """The names that a file brings in from elsewhere."""
    names = set()
    for path, list_ in USE.findall(text):
        parts = path.split(".")
        if not (parts[0] == "Rattle" and len(parts) > 1 and parts[1] in crates):
            names |= set(TOKEN.findall(list_))
    return names


def respelled(text, names, keep):
    return TOKEN.sub(lambda t: names[t[0]] if t[0] in names and t[0] not in keep else t[0], text)


def outside_strings(text, names, keep):
    at, out = 0, []
    for string in STRING.finditer(text):
        out += [respelled(text[at : string.start()], names, keep), string[0]]
        at = string.end()
    return "".join(out) + respelled(text[at:], names, keep)


def turn(path, names, crates):
    with open(path, encoding="utf-8") as f:
        text = f.read()
    new = text.replace(".specs.Contracts.", ".specs.Promises.").replace("pub mod Contracts\n", "pub mod Promises\n")
    keep = kept(text, crates)
    new = outside_strings(new, names, keep) if path.endswith(".rt") else respelled(new, names, keep)
    if new != text:
        with open(path, "w", encoding="utf-8") as f:
            f.write(new)
    return new != text


def main():
    top = sys.argv[1] if len(sys.argv) > 1 else "."
    names = table(os.path.dirname(os.path.abspath(__file__)))
    inside = os.path.join(top, "crates")
    crates, turned = set(os.listdir(inside)), 0
    for folder, dirs, files in os.walk(inside):
        dirs[:] = sorted(d for d in dirs if d not in ("out", "must-fail", "data"))
        for name in sorted(files):
            if name.endswith((".antt", ".rt")):
                turned += turn(os.path.join(folder, name), names, crates)
        if os.path.basename(folder) == "specs" and "Contracts.antt" in files:
            os.rename(os.path.join(folder, "Contracts.antt"), os.path.join(folder, "Promises.antt"))
    print(f"respell: {turned} files")


main()
