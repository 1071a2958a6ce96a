#!/usr/bin/env python3
"""Counts, in crates/*/src of a commit or of the files as they stand, the places that docs/DESIGN-PASS.md speaks of.

usage: tools/places.py [--at COMMIT] [--list POINT]      POINT: 1 to 7"""
import re
import subprocess
import sys
from collections import defaultdict

PRIMITIVE = r"u8|u16|u32|u64|usize|bool"


def files(commit):
    """Name and text of each source file."""
    if commit is None:
        names = subprocess.run(["git", "ls-files", "crates/*/src/*.rt"], capture_output=True, text=True, check=True)
        return [(name, open(name).read()) for name in names.stdout.split()]
    names = subprocess.run(["git", "ls-tree", "-r", "--name-only", commit, "crates"], capture_output=True, text=True, check=True)
    wanted = [name for name in names.stdout.split("\n") if re.fullmatch(r"crates/\w+/src/\w+\.rt", name)]
    return [(name, subprocess.run(["git", "show", f"{commit}:{name}"], capture_output=True, text=True, check=True).stdout) for name in wanted]


def code(text):
    """The text without comments."""
    return re.sub(r"//[^\n]*", "", text)


def block(text, start):
    """The text from the brace at or after `start` to its partner."""
    first = text.index("{", start)
    depth = 0
    for place in range(first, len(text)):
        depth += (text[place] == "{") - (text[place] == "}")
        if depth == 0:
            return text[first:place + 1]
    return text[first:]


def functions(text):
    """Name, parameters, clauses and body of each function."""
    for found in re.finditer(r"\bfn (\w+)(?:<[^>(]*>)?\(", text):
        depth, place = 1, found.end()
        while depth:
            depth += (text[place] == "(") - (text[place] == ")")
            place += 1
        parameters = text[found.end():place - 1]
        rest = text[place:]
        body = re.search(r"^\s*\{$|\{$", rest, re.M)
        opening = re.search(r"(?m)^( *)\{\n", rest)
        inline = re.match(r"[^\n{]*\{", rest)
        if inline and not re.match(r"[^\n]*\n\s+(requires|ensures)", rest):
            clauses, start = "", inline.end() - 1
        elif opening:
            clauses, start = rest[:opening.start()], opening.start()
        elif body:
            clauses, start = rest[:body.start()], body.start()
        else:
            continue
        yield found.group(1), parameters, clauses, block(rest, start)


def bodies(sources):
    """File, name and body of each function."""
    for name, text in sources:
        for function, _, _, body in functions(code(text)):
            yield name, function, body


def enums(text):
    for found in re.finditer(r"\benum (\w+)[^{]*", text):
        inside = block(text, found.end() - 1)[1:-1]
        variants, depth, word = [], 0, ""
        for letter in inside + ",":
            depth += (letter in "({[") - (letter in ")}]")
            if letter == "," and depth == 0:
                if word.strip():
                    variants.append(re.sub(r"#\[[^\]]*\]", "", word).strip())
                word = ""
            else:
                word += letter
        yield found.group(1), variants


def structs(text):
    for found in re.finditer(r"\bstruct (\w+)[^{;(]*\{", text):
        yield found.group(1), block(text, found.end() - 1)


def shapes(sources):
    """1: enums of two cases of which one has nothing or a refusal, flags beside values, numbers for kinds."""
    for name, text in sources:
        for kind, variants in enums(code(text)):
            empty = [v for v in variants if not re.search(r"[({]", v)]
            refused = [v for v in variants if re.search(r"\((Refusal|Stop)\)", v)]
            if len(variants) == 2 and (len(empty) == 1 or refused):
                yield name, f"enum {kind}"
            elif len(variants) > 2 and any(re.fullmatch(r"No\w*|Nothing|Nowhere|Unknown|Other\w*", v) for v in variants):
                yield name, f"enum {kind}, a case for nothing"
        for kind, fields in structs(code(text)):
            if re.search(r": bool\b", fields) and len(re.findall(r":", fields)) > 1:
                yield name, f"struct {kind}, a flag beside values"
            if re.search(r": Option<Refusal>", fields):
                yield name, f"struct {kind}, an error beside a value"
        for found in re.finditer(r"const (\w+): u(?:8|32|64) = \d+;", code(text)):
            yield name, f"const {found.group(1)}, a number for a kind"
        for function, _, _, body in functions(code(text)):
            arms = re.findall(r"^\s*\d+ =>", body, re.M)
            if arms:
                yield name, f"fn {function}, a match on numbers"
            if len(re.findall(r"if kind == \d+|if \w+ == \d+ \{", body)) > 3:
                yield name, f"fn {function}, tests of a number"
            if re.search(r"\bNO_FORM\b", body):
                yield name, f"fn {function}, a number for none"


def twins(sources):
    """2: functions whose bodies are the same but for types, numbers, constants and names of types."""
    same = defaultdict(list)
    for name, function, body in bodies(sources):
        words = re.findall(r"b?'[^']*'|b?\"[^\"]*\"|\w+|[^\w\s]", body)
        plain = []
        for word in words:
            if re.fullmatch(r"\d\w*", word) or word[0] in "'\"" or word[:2] in ("b'", 'b"'):
                plain.append("0")
            elif re.fullmatch(PRIMITIVE, word):
                plain.append("T")
            elif re.fullmatch(r"[A-Z]\w*", word):
                plain.append("C")
            else:
                plain.append(word)
        if len(plain) > 4:
            same[" ".join(plain)].append((name, function))
    for group in same.values():
        if len(group) > 1:
            for name, function in group:
                yield name, f"fn {function}, one of {len(group)}"


def loops(sources):
    """3: loops that count by hand."""
    for name, function, body in bodies(sources):
        for found in re.finditer(r"\bwhile ([^{\n]*)", body):
            yield name, f"fn {function}, while {found.group(1).strip()}"
        for _ in re.finditer(r"\bloop \{", body):
            yield name, f"fn {function}, loop"


def by_hand(sources):
    """4: casts in functions of their own, flags as numbers, comparisons, kinds as numbers, copies field by field, printing."""
    for name, text in sources:
        for function, parameters, _, body in functions(code(text)):
            inside = body[1:-1].strip()
            if re.fullmatch(r"\w+ as (%s)" % PRIMITIVE, inside):
                yield name, f"fn {function}, a cast"
            if re.fullmatch(r"if \w+ \{\s*1\s*\} else \{\s*0\s*\}", inside):
                yield name, f"fn {function}, a flag as a number"
            if re.search(r"(?:is_same|same_\w+)$", function):
                yield name, f"fn {function}, a comparison"
            if len(re.findall(r"\w+::\w+[^\n]* => \d+,", inside)) > 2 or len(re.findall(r"number: \d+,", inside)) > 2:
                yield name, f"fn {function}, kinds as numbers"
            copied = re.findall(r"\b(\w+): (?:\w+\.)(\w+),", inside)
            if len([a for a, b in copied if a == b]) > 1:
                yield name, f"fn {function}, fields copied"
            if re.match(r"put_(text|number|labelled|kind|verdicts)$|print_line$", function):
                yield name, f"fn {function}, printing"


def repeated(sources):
    """5: facts that stand in the requires of three or more functions, parameters that always go together."""
    facts, together, alone = defaultdict(set), defaultdict(set), defaultdict(set)
    for name, text in sources:
        for function, parameters, clauses, _ in functions(code(text)):
            for clause in re.findall(r"requires[^{]*\{(.*?)\}\s*(?=\n|$)", clauses, re.S):
                for fact in re.split(r"×", re.sub(r"\s+", " ", clause)):
                    fact = re.sub(r"\.(now|old)\b", "", fact).strip(" ()")
                    fact = re.sub(r"\b\d{3,}\b", "N", fact)
                    if fact:
                        facts[fact].add((name, function))
            names = [(n, re.sub(r"\s+", " ", t.strip())) for n, t in re.findall(r"(\w+): ([^,]+)", parameters)]
            for n, _ in names:
                alone[n].add((name, function))
            for i, (a, _) in enumerate(names):
                for b, _ in names[i + 1:]:
                    together[(a, b)].add((name, function))
    for fact, places in facts.items():
        if len(places) > 2:
            for name, function in sorted(places):
                yield name, f"fn {function}: {fact}"
    for (a, b), places in together.items():
        if len(places) > 2 and len(alone[a]) == len(places) and len(alone[b]) >= len(places):
            for name, function in sorted(places):
                yield name, f"fn {function}: {a} with {b}"


def buffers(sources):
    """6: arrays of fixed size, searches of sorted words."""
    for name, function, body in bodies(sources):
        for found in re.finditer(r"\[\w+; ?\w+\]", body):
            yield name, f"fn {function}, {found.group(0)}"
        for _ in re.finditer(r"\bbinary_search\(", body):
            yield name, f"fn {function}, a search of sorted words"


def switches(sources):
    """7: enums without values, or taken by a function, that say which step to run: one function call in each arm."""
    for name, function, body in bodies(sources):
        for found in re.finditer(r"match (call|list|kind) \{", body):
            arms = block(body, found.end() - 1)
            if len(re.findall(r"=>\s*\{?\s*[\w:]+\(", arms)) > 1:
                yield name, f"fn {function}, match {found.group(1)}"


POINTS = {"1": shapes, "2": twins, "3": loops, "4": by_hand, "5": repeated, "6": buffers, "7": switches}


def proofs(commit):
    """8: answers and lines of the proof files, laws of specs/."""
    if commit is None:
        names = subprocess.run(["git", "ls-files", "crates"], capture_output=True, text=True, check=True).stdout.split()
        read = lambda name: open(name).read()
    else:
        names = subprocess.run(["git", "ls-tree", "-r", "--name-only", commit, "crates"], capture_output=True, text=True, check=True).stdout.split()
        read = lambda name: subprocess.run(["git", "show", f"{commit}:{name}"], capture_output=True, text=True, check=True).stdout
    answers = lines = spec_lines = 0
    for name in names:
        if re.fullmatch(r"crates/\w+/proofs/.*\.antt", name):
            text = read(name)
            lines += text.count("\n")
            if name.endswith("/Answers.antt"):
                answers += len(re.findall(r"^pub ", text, re.M))
        elif re.fullmatch(r"crates/\w+/specs/.*\.antt", name):
            spec_lines += read(name).count("\n")
    return f"8: {answers} answers, {lines} lines of proof files, {spec_lines} lines of specs"


def main():
    words = sys.argv[1:]
    commit = words[words.index("--at") + 1] if "--at" in words else None
    sources = files(commit)
    if "--list" in words:
        for name, what in POINTS[words[words.index("--list") + 1]](sources):
            print(f"{name}: {what}")
        return
    for point, find in POINTS.items():
        places = list(find(sources))
        print(f"{point}: {len(places)} places in {len({name for name, _ in places})} files")
    print(proofs(commit))


if __name__ == "__main__":
    main()
