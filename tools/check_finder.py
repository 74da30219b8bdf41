#!/usr/bin/env python3
"""Checks that each name of the rule finder in docs/MAP.md exists: of a definition `crate: File.name, name` the file in
the crate's specs/ and each name in them, of code and laws `crate::name` or `Type::name` a word of the crate's sources,
of `crate`: `file.rt` the file, of a test program its stdin. Prints what is missing and ends with 1 if anything is."""
import glob
import os
import re
import sys

TOP = os.path.dirname(os.path.dirname(os.path.abspath(__file__)))


def text_of(crate, folder, kind):
    files = glob.glob(f"{TOP}/crates/{crate}/{folder}/**/*.{kind}", recursive=True)
    return "\n".join(open(it).read() for it in files)


def has_word(text, word):
    return re.search(rf"(?<![\w-]){re.escape(word)}(?![\w-])", text) is not None


def definition_faults(cell):
    found = re.match(r"`(\w+): (\w+)\.", cell)
    if not found:
        return [] if cell.startswith("[") or not cell else [f"no definition in {cell!r}"]
    crate, faults = found[1], []
    specs = text_of(crate, "specs", "antt")
    for name in re.findall(r"`([^`]*)`", cell):
        file, _, word = name.rpartition(": ")[2].rpartition(".")
        if file and not glob.glob(f"{TOP}/crates/{crate}/specs/**/{file}.antt", recursive=True):
            faults.append(f"{crate}: no specs/{file}.antt")
        if not has_word(specs, word):
            faults.append(f"{crate}: no {word} in specs/")
    return faults


def code_faults(cell):
    faults, crate = [], None
    for name in re.findall(r"`([^`]*)`", cell):
        parts = name.split("::")
        if os.path.isdir(f"{TOP}/crates/{parts[0]}"):
            crate = parts.pop(0)
        elif parts[0] == "Plan":
            crate = "flow_graph"
        sources = text_of(crate, "src", "rt") if crate else ""
        file = parts[-1].endswith(".rt") if parts else False
        if file and not glob.glob(f"{TOP}/crates/{crate}/src/**/{parts[-1]}", recursive=True):
            faults.append(f"{crate}: no src/{parts[-1]}")
        for word in [] if file else parts:
            if not has_word(sources, word) and not os.path.exists(f"{TOP}/crates/{word}/stdin"):
                faults.append(f"{crate}: no {word} in src/")
    return faults


def main():
    finder = open(f"{TOP}/docs/MAP.md").read().split("## Rule finder")[1]
    rows = [re.split(r"(?<!\\)\|", it)[1:-1] for it in finder.split("\n") if it.startswith("| ")][1:]
    faults = []
    for row in rows:
        rule, _, definition, code, law, worked = [it.strip() for it in row]
        law = "" if law.startswith(("clause", "contract")) else law
        for found in (definition_faults(definition), code_faults(code), code_faults(law), code_faults(worked)):
            faults += [f"{rule}: {it}" for it in found]
    print("\n".join(faults) or f"the names of {len(rows)} rules are there")
    return 1 if faults else 0


sys.exit(main())
