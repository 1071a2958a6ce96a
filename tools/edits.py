#!/usr/bin/env python3
"""Compares the must-fail edits with what docs/PROOFS.md says of them.

    tools/edits.py [--check]     say what is wrong, and end with 1 where something is
    tools/edits.py --list        each edit: crate, name, file, and the truth that it breaks

An edit is a wrong program, so each `file:` line of it names a file of src/. In the section 'Wrong
answers tried' names of edits stand before the crate, or the crates, that they belong to, which is in
brackets. Whether the prover refuses an edit, and for which fact, is rt's matter (`rt must-fail`).
"""
import glob
import os
import re
import sys

ROOT = os.path.dirname(os.path.dirname(os.path.abspath(__file__)))


def edits():
    """For each crate and edit: the files that it changes, and its comment."""
    found = {}
    for path in sorted(glob.glob(f"{ROOT}/crates/*/must-fail/*.edit")):
        crate, name = path.split("/")[-3], os.path.basename(path)[: -len(".edit")]
        lines = open(path).read().split("\n")
        files = [line[len("file: "):] for line in lines if line.startswith("file: ")]
        comment = " ".join(line[1:].strip() for line in lines if line.startswith("#"))
        found[crate, name] = files, comment
    return found


def named():
    """The names of edits in docs/PROOFS.md, each with the crates that it is said to belong to."""
    page = open(f"{ROOT}/docs/PROOFS.md").read()
    section = page.split("\n## Wrong answers tried\n", 1)[1].split("\n## ", 1)[0]
    names = []
    for row in section.split("\n"):
        cells = row.split(" | ")
        if not row.startswith("| ") or len(cells) < 2:
            continue
        waiting = []
        for name, crates in re.findall(r"`(\w+)`|\(([\w, ]+)\)", cells[1]):
            if name:
                waiting.append(name)
                continue
            names += [(edit, re.split(r", *", crates)) for edit in waiting]
            waiting = []
        names += [(edit, []) for edit in waiting]
    return names


def main():
    found = edits()
    if sys.argv[1:] == ["--list"]:
        for (crate, name), (files, comment) in found.items():
            print(f"{crate:16} {name:44} {' '.join(sorted(set(files)))}: {comment}")
        return
    if sys.argv[1:] not in ([], ["--check"]):
        sys.exit(__doc__)
    wrong = [
        f"{crate}/{name} changes {file}, which is no program"
        for (crate, name), (files, _) in found.items()
        for file in files
        if not file.startswith("src/")
    ]
    for name, crates in named():
        missing = [crate for crate in crates or ["no crate"] if (crate, name) not in found]
        if len(missing) == max(1, len(crates)):
            wrong.append(f"docs/PROOFS.md names {name}, which is no edit of {', '.join(missing)}")
    print("\n".join([*wrong, f"{len(found)} must-fail edits, {len(wrong)} wrong"]))
    sys.exit(1 if wrong else 0)


main()
