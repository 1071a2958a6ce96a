#!/usr/bin/env python3
"""Prints the definitions that a reader of the gate's promises must believe.

    tools/believed.py            the list, as it stands in docs/PROOFS.md
    tools/believed.py --check    say where that page differs from the list
    tools/believed.py --write    put the list into the page
    tools/believed.py --why NAME the way from a call or a theorem to the definition

It starts at the contracts of the calls (every `extern "C"` function, and those in CALLS) and at the
statements of the theorems that the section 'The statements' of docs/PROOFS.md names in backquotes
beside a folder or a file of specs/. From a definition (`abbrev`, `unfoldable`, `data`, `record`, a
type of src/) it goes on to every name in its type and its body, from a law to the names in its type
alone. What belongs to the kit is named and not entered. A test that theorems pin (PINS) is not
entered either: whoever believes the definitions in the theorems' statements knows what it passes.
"""
import re
import sys
import textwrap

sys.dont_write_bytecode = True

from names import ROOT, Repository, crates, functions, read, sources, spec_uses

PAGE = f"{ROOT}/docs/PROOFS.md"
BEGIN, END = "<!-- tools/believed.py: begin -->", "<!-- tools/believed.py: end -->"
# calls of the gate's programs, which are not exported to C
CALLS = ["list", "list_line"]
# a test, and the theorems that say what it passes
PINS = {"is_layout": ["is_layout-exact"], "is_dictionary": ["accepted-pass", "pass_accepted"]}


def is_call(function):
    return function.is_exported or function.is_public and function.name in CALLS


def calls(repository):
    """The calls to start at, each with the declarations that its contract and signature name."""
    found = []
    for path in sources():
        for function in functions(path):
            if is_call(function):
                scope, aliases = repository.scope_of(spec_uses(read(path)))
                named = repository.named(function.contract, scope, aliases)
                found.append((function.name, named + repository.types_in(function.signature, path)))
    missing = set(CALLS) - {name for name, _ in found}
    if missing:
        sys.exit("no such call: " + " ".join(sorted(missing)))
    return found


def stated():
    """What the page's table of statements names: the crates of each row, and the names."""
    section = read(PAGE).split("\n## The statements\n", 1)[1].split("\n## ", 1)[0]
    places = [row.split("|")[-1] for row in re.findall(r"^\|(.*)\|$", section, re.M)]
    crate, name = re.compile(r"\b(\w+)/(?:specs|proofs)\b"), re.compile(r"`([^`\s]+)`")
    return [(crate.findall(place), name.findall(place)) for place in places]


def theorems(repository):
    """The theorems to start at: those that the page states, and those that pin a test."""
    wanted = [(in_crates, name) for in_crates, names in stated() for name in names]
    wanted += [(crates(), law) for laws in PINS.values() for law in laws]
    found = []
    for in_crates, name in wanted:
        named = [made for made in repository.named_in(name) if made.crate() in in_crates]
        if not named:
            places = " ".join(made.place() for made in repository.named_in(name)) or "nowhere"
            where = " ".join(in_crates)
            sys.exit(f"docs/PROOFS.md or PINS: {name} is not in the specs of {where}, but {places}")
        found += [made for made in named if made.is_law() and made not in found]
    return found


def follow(repository):
    """Every declaration reached, with what it is reached from; and the names of the kit."""
    left = [(made, f"the call {name}") for name, named in calls(repository) for made in named]
    left += [(made, "the page") for made in theorems(repository)]
    reached, kit = {}, {}
    while left:
        made, source = left.pop(0)
        if isinstance(made, tuple):
            kit.setdefault(made[0], set()).add(made[1])
        elif made not in reached:
            reached[made] = source
            if made.name not in PINS:
                left += [(other, made) for other in repository.mentions(made)]
    return reached, kit


def quoted(names):
    return ", ".join(f"`{name}`" for name in names)


def table(heads, rows):
    lines = [heads, ["---"] * len(heads), *rows]
    cells = [[cell.replace("|", "\\|") for cell in line] for line in lines]
    return ["", *("| " + " | ".join(line) + " |" for line in cells), ""]


def prose(text):
    return textwrap.wrap(text, 100, break_long_words=False, break_on_hyphens=False)


def definitions(believed):
    """The rows of the list: a file each, in the order of the crates, specs/ before src/."""
    files = {}
    for made in believed:
        files.setdefault((made.crate(), made.path()), []).append(made)
    order = {crate: index for index, crate in enumerate(crates())}
    rows = []
    for crate, path in sorted(files, key=lambda key: (order[key[0]], key[1][:3] == "src", key[1])):
        held = sorted(files[crate, path], key=lambda made: made.lines)
        names = ", ".join(f"`{made.name}` {made.length()}" for made in held)
        rows.append([crate, path, names, str(sum(made.length() for made in held))])
    lines = sum(made.length() for made in believed)
    return [*rows, ["all", f"{len(files)} files", f"{len(believed)} definitions", f"{lines:,}"]]


def listing(repository):
    reached, kit = follow(repository)
    started = theorems(repository)
    believed = [made for made in reached if not made.is_law() and made.name not in PINS]
    out = prose("From the contracts of " + quoted(name for name, _ in calls(repository)) + ".")
    out += ["", *prose("From the statements of " + quoted(made.name for made in started) + ".")]
    heads = ["Crate", "File", "Definitions, each with its lines and its comment's", "Lines"]
    out += table(heads, definitions(believed))
    out += prose("Tests that theorems pin: the statements say what passes, so that the tests' own "
                 "definitions need no belief.")
    pinned = [made for made in reached if made.name in PINS]
    rows = [[f"`{made.name}`", made.place(), quoted(PINS[made.name])] for made in pinned]
    out += table(["Test", "File", "Theorems"], rows)
    laws = sorted({made.name for made in reached if made.is_law() and made not in started})
    if laws:
        out += [*prose("Laws that a definition cites, by their statements: " + quoted(laws)), ""]
    out += ["Where the list ends: names of the kit's libraries that the definitions use."]
    rows = [[module, quoted(sorted(kit[module]))] for module in sorted(kit)]
    return "\n".join(out + table(["Library", "Names"], rows)).rstrip("\n") + "\n"


def why(repository, name):
    reached, _ = follow(repository)
    for made in [made for made in reached if made.name == name]:
        way = [made]
        while not isinstance(way[-1], str):
            way.append(reached[way[-1]])
        steps = [step if isinstance(step, str) else f"{step.name} ({step.place()})" for step in way]
        print(" <- ".join(steps))


def check(made, held):
    lines, stored = made.split("\n"), held.split("\n")
    for line in [line for line in stored if line not in lines]:
        print("only in docs/PROOFS.md:     " + line)
    for line in [line for line in lines if line not in stored]:
        print("only in the script's list:  " + line)
    if made != held:
        sys.exit("docs/PROOFS.md differs: look at what changed, then tools/believed.py --write")
    print("the definitions to believe in docs/PROOFS.md are those of the script")


def main():
    words = sys.argv[1:]
    repository = Repository()
    if words[:1] == ["--why"] and len(words) == 2:
        why(repository, words[1])
    elif not words:
        print(listing(repository), end="")
    elif words in (["--check"], ["--write"]):
        page = read(PAGE)
        if page.count(BEGIN + "\n") != 1 or page.count(END + "\n") != 1:
            sys.exit(f"docs/PROOFS.md has not one line {BEGIN} and one line {END}")
        before, rest = page.split(BEGIN + "\n")
        held, after = rest.split(END + "\n")
        made = listing(repository)
        if words == ["--check"]:
            check(made, held)
        else:
            with open(PAGE, "w") as file:
                file.write(before + BEGIN + "\n" + made + END + "\n" + after)
    else:
        sys.exit(__doc__)


if __name__ == "__main__":
    main()
