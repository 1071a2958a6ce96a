#!/usr/bin/env python3
"""Brings the repository's own definitions and lemmas to the spelling of the library: snake case.

    python3 tools/snake_names.py            at the top of the repository, once, after port.py

A name that begins with a small letter and has a capital in it gets underscores, isDigits is is_digits. In a name that specs/ declares,
a hyphen after a definition's name stays, as it joins two names, and every other hyphen becomes an underscore: countOf-not-digits is
count_of-not_digits, count-begins is count_begins. Types, modules, functions of src/, exported names, strings, inputs and outputs
stay as they are. Where two names become one, both are printed: a lemma and a definition get
different names (_lem), the others are of different kinds (a function of src/ and a definition, a field and a variable) or modules.
"""
import collections
import glob
import os
import re
import sys

ROOT = os.path.dirname(os.path.dirname(os.path.abspath(__file__)))
NAME = r"[^\s(){}.;,@\"«»\[\]\\λ:`]+"
TOKEN = re.compile(r"(--[^\n]*)|(\"(?:[^\"\\]|\\.)*\")|([^\s(){}.;,@\"«»\[\]\\λ:`]+)")
DECLARED = re.compile(r"\s*((?:abbrev|unfoldable|pub|data|record|ruleset) )*(" + NAME + r") :(?: |$)")
# names of the library that a lemma of ours may begin with
OF_STD = set("length take drop map set get_or reverse and or not add sub mul div mod min max le lt eq sum fold".split())
# in specs/, names of a place that would fall together with a definition's
OTHER = {
    "first_group": "same_first_group",
    "is_found": "found_is",
    "goes_on": "going_on",
    "row_room": "room_of_rows",
    "block_room": "room_of_block",
    "group-end": "group_end_is",
}


def small(part):
    """isDigits is is_digits; a part that begins with a capital is a type and stays."""
    if not re.match(r"[a-z]", part) or part.endswith("ᵇ"):
        return part
    return re.sub(r"(?<=[a-z0-9'])([A-Z])", lambda m: "_" + m[1].lower(), part)


def files(*patterns):
    return sorted(path for pattern in patterns for path in glob.glob(f"{ROOT}/{pattern}", recursive=True))


def declared():
    """The names that specs/ declares, and which of them are fields or constructors."""
    names, fields = set(), set()
    for path in files("crates/*/specs/**/*.antt"):
        in_record = None
        for line in open(path):
            if line.lstrip().startswith("--"):
                continue
            found = DECLARED.match(line)
            depth = len(line) - len(line.lstrip())
            if line.strip() and in_record is not None and depth <= in_record:
                in_record = None
            if found:
                names.add(found[2])
                if in_record is not None:
                    fields.add(found[2])
            if re.match(r"\s*(pub )?(record|data) ", line):
                in_record = depth
    return names, fields


def table():
    names, fields = declared()
    heads = {name for name in names if "-" not in name} | OF_STD
    new = {}
    for name in names:
        parts = name.split("-")
        if len(parts) == 1 or "" in parts:
            new[name] = small(name)
        elif (parts[0] in heads or re.match(r"[A-Z]", parts[0])) and name not in fields:
            new[name] = small(parts[0]) + "-" + "_".join(map(small, parts[1:]))
        else:
            new[name] = "_".join(map(small, parts))
    plain = {new[name] for name in names if "-" not in name} | {name for name in names if "-" not in name}
    for name in names:
        if "-" in name and new[name] in plain:
            new[name] += "_lem"
    return {old: name for old, name in new.items() if old != name}


def is_local(word):
    return re.match(r"[a-z][A-Za-z0-9_']*$", word) and re.search(r"[a-z0-9][A-Z]", word)


class Turned:
    def __init__(self):
        self.table = table()
        self.clashes = collections.defaultdict(set)

    def word(self, word, hyphens=True):
        if word in self.table and (hyphens or "-" not in word or re.search(r"[a-z][A-Z]", word)):
            return self.table[word]
        if is_local(word):
            return small(word)
        return word

    def antt(self, path, text):
        seen = collections.defaultdict(set)

        def turn(found):
            if found[1]:
                return self.prose(found[1])
            if found[2]:
                return found[2]
            to = self.word(found[3])
            if "/specs/" in path and text[found.start() - 1] != "." and f"Rattle.{found[3]}" not in text:
                to = OTHER.get(found[3], to)
            if text[max(found.start() - 1, 0)] != "." and text[found.end():found.end() + 1] != ".":
                seen[to].add(found[3])
            return to

        text = TOKEN.sub(turn, text)
        for to, old in seen.items():
            if len(old) > 1:
                self.clashes[to].add((path, *sorted(old)))
        return text

    def prose(self, text):
        """A comment or a page: whole words; a hyphenated one only in backticks, or where it has a capital."""
        def turn(found):
            quoted = text[max(found.start() - 1, 0)] == "`"
            return self.word(found[0], quoted)
        return re.sub(r"(?<![\w/·])[A-Za-z][\w'-]*[\w']|(?<![\w/·])[A-Za-z]\w*", turn, text)

    def rattle(self, path, text):
        lines, seen = [], collections.defaultdict(set)
        for line in text.split("\n"):
            code, mark, comment = line.partition("//")
            is_ghost = line.startswith("ghost use") or re.search(r"\b(ensures|requires|ghost)\b", line) or "≡" in line
            def turn(found):
                if found[2]:
                    return found[2]
                word = found[3] or found[0]
                to = self.word(word) if is_ghost or is_local(word) else word
                seen[to].add(word)
                return to
            lines.append(TOKEN.sub(turn, code) + mark + (self.prose(comment) if mark else ""))
        for to, old in seen.items():
            if len(old) > 1 and not re.search(rf"\bfn {re.escape(to)}\b", text):
                self.clashes[to].add((path, *sorted(old)))
        return "\n".join(lines)


def main():
    turned, written = Turned(), {}
    for path in files("crates/*/specs/**/*.antt", "crates/*/proofs/**/*.antt"):
        written[path] = turned.antt(path, open(path).read())
    for path in files("crates/*/src/**/*.rt"):
        written[path] = turned.rattle(path, open(path).read())
    for path in files("README.md", "docs/*.md", "bench/*.md"):
        written[path] = re.sub(r"`[^`\n]*`", lambda found: turned.prose(found[0]), open(path).read())
    by_name = collections.defaultdict(set)
    for old, new in turned.table.items():
        by_name[new].add(old)
    names, _ = declared()
    for new, old in by_name.items():
        old = old | ({new} & names)
        if len(old) > 1:
            turned.clashes[new].add(("declared", *sorted(old)))
    for new, places in sorted(turned.clashes.items()):
        for path, *old in sorted(places):
            print(f"{new}: {' and '.join(old)} in {os.path.relpath(path, ROOT)}")
    for path, text in written.items():
        if open(path).read() != text:
            with open(path, "w") as file:
                file.write(text)
    print(f"{len(turned.table)} names")


main()
