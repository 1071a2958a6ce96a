#!/usr/bin/env python3
"""Prints what the repository declares and does not use; it changes nothing.

    tools/unused.py

First the definitions and laws that serve no contract, no proof, no case and no law that a page
(README.md, docs/) names; then the definitions that serve only such laws; the functions of src/ that
neither a program nor C reaches; and the files of specs/ that hold definitions to believe
(tools/believed.py) beside others.
"""
import glob
import os
import re
import sys

sys.dont_write_bytecode = True

from believed import BEGIN, END, PINS, follow
from names import ROOT, Repository, functions, read, source_uses, sources, spec_uses
from names import without_comments


def pages():
    """README.md and docs/, without the list that tools/believed.py writes."""
    paths = [f"{ROOT}/README.md", *sorted(glob.glob(f"{ROOT}/docs/*.md"))]
    text = "\n".join(read(path) for path in paths)
    return re.sub(re.escape(BEGIN) + ".*?" + re.escape(END), "", text, flags=re.S)


def used(repository, told):
    """What contracts, proofs, cases and pages name, and all that these rest on."""
    left = []
    for path in sources() + glob.glob(f"{ROOT}/crates/*/proofs/**/*.antt", recursive=True):
        scope, aliases = repository.scope_of(spec_uses(read(path)))
        text = "\n".join(without_comments(read(path).split("\n")))
        text = re.sub(r"^(ghost )?use [^{;\n]*(\{[^}]*\})?.*$", "", text, flags=re.M)
        left += repository.named(text, scope, aliases)
    for made in repository.declarations():
        if made.is_law() and (made.path().endswith("Cases.antt") or f"`{made.name}`" in told):
            left.append(made)
    found = set()
    while left:
        made = left.pop()
        if made not in found and not isinstance(made, tuple):
            found.add(made)
            left += repository.mentions(made, whole=True)
    return found


def print_unused(repository):
    told = pages()
    unused = repository.declarations() - used(repository, told)
    rests = {made: set(repository.mentions(made, whole=True)) & unused for made in unused}
    ends = unused - {other for found in rests.values() for other in found}
    serves = {made: set() for made in unused}
    for end in ends:
        left = [end]
        while left:
            for other in rests[left.pop()]:
                if end not in serves[other]:
                    serves[other].add(end)
                    left.append(other)
    print("== Used by no contract, no proof, no case and no law that a page names")
    for made in in_order(ends):
        alone = sum(1 for found in serves.values() if found == {made})
        notes = [f"{alone} declarations serve it alone"] if alone else []
        notes += ["a page names the file"] if os.path.basename(made.path()) in told else []
        print("; ".join([f"{made.place()}:{made.lines[0] + 1} {made.kind} {made.name}", *notes]))
    print("\n== Definitions that serve only such laws")
    for made in in_order(made for made in unused - ends if not made.is_law()):
        names = " ".join(sorted(end.name for end in serves[made]))
        print(f"{made.place()}:{made.lines[0] + 1} {made.kind} {made.name}, for {names}")


def in_order(found):
    return sorted(found, key=lambda made: (made.place(), made.lines))


def print_uncalled():
    """A call is resolved by its path, by the file and by its `use` lines; a method by its name."""
    all_functions = {(made.path, made.name): made for path in sources() for made in functions(path)}
    named = {}
    for made in all_functions.values():
        named.setdefault(made.name, []).append(made)
    left = [made for made in all_functions.values() if made.is_exported or made.name == "main"]
    called = set(left)
    while left:
        made = left.pop()
        uses = source_uses(made.path)
        for where, name in set(re.findall(r"\b((?:\w+::)*)(\w+)\s*\(", made.body)):
            crate, *parts = where.split("::")
            there = f"{ROOT}/crates/{crate}/src/{'/'.join(parts[:-1]) or 'lib'}.rt"
            keys = [(there, name)] if where else [(made.path, name), uses.get(name)]
            found = [all_functions[key] for key in keys if key in all_functions]
            found = [other for other in found or named.get(name, []) if other not in called]
            left += found
            called |= set(found)
    print("\n== Functions of src/ that neither a program nor C reaches")
    for made in all_functions.values():
        if made not in called:
            print(os.path.relpath(made.path, ROOT), made.name)


def print_mixed(repository):
    reached, _ = follow(repository)
    print("\n== Files with definitions to believe and others")
    for path, file in repository.files.items():
        held = in_order(set(file.declared.values()))
        believed = [made for made in held if made in reached and not made.is_law()]
        believed = [made for made in believed if made.name not in PINS]
        others = [made for made in held if not made.is_law() and made not in believed]
        laws = sum(1 for made in held if made.is_law())
        if believed and (others or laws):
            print(f"{os.path.relpath(path, ROOT)}, {laws} laws")
            print("    believed: " + " ".join(made.name for made in believed))
            print("    others:   " + (" ".join(made.name for made in others) or "none"))


def main():
    if len(sys.argv) > 1:
        sys.exit(__doc__)
    repository = Repository()
    print_unused(repository)
    print_uncalled()
    print_mixed(repository)


main()
