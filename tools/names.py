"""What the files of the crates declare, and what their names stand for.

A file of specs/, or a file of lemmas right in proofs/, declares definitions (`abbrev`,
`unfoldable`), `data`, `record` and laws (all else); a file of src/ declares types and functions. Names are resolved as they are written: by the
`use` and `ghost use` lines of a file and by what the file declares. A variable that is called as a
definition in scope is taken for the variable in the declaration that binds it. This is a module of
tools/believed.py and tools/unused.py, and has no command of its own.
"""
import functools
import glob
import os
import re
import sys

ROOT = os.path.dirname(os.path.dirname(os.path.abspath(__file__)))
MODIFIERS = {"abbrev", "unfoldable", "pub"}
# what begins no declaration
OTHER_ITEMS = ("use", "infix", "infixl", "infixr", "open", "unfolding")


def read(path):
    with open(path) as file:
        return file.read()


@functools.lru_cache(maxsize=None)
def crates():
    """The crates, in the order of crates.txt. A line is NAME: DEP DEP .., or NAME staticlib: .."""
    lines = [line.split("#")[0].partition(":") for line in read(f"{ROOT}/crates.txt").split("\n")]
    return [head.split()[0] for head, found, _ in lines if found]


def files(crate, folder, ending):
    return sorted(glob.glob(f"{ROOT}/crates/{crate}/{folder}/**/*{ending}", recursive=True))


def lemma_files(crate):
    """The files of lemmas in proofs/, beside the folders of the functions' proofs."""
    return sorted(glob.glob(f"{ROOT}/crates/{crate}/proofs/*.antt"))


def sources():
    return [path for crate in crates() for path in files(crate, "src", ".rt")]


def without_comments(lines):
    return [re.sub(r"(^|\s)--(\s.*)?$", "", line) for line in lines]


class Declaration:
    """A definition, a data type, a record or a law of specs/ or proofs/; or a type of src/."""

    def __init__(self, source, name, kind, index, file=None):
        self.source, self.name, self.kind, self.file = source, name, kind, file
        # the first and the last line, the comment above it among them
        self.lines = [index, index]
        # the parameters of the modules around it, its type, its clauses
        self.around, self.type, self.body = "", "", ""
        # its name and those of its constructors
        self.names = [name]

    def is_law(self):
        return self.kind == "law"

    def length(self):
        return self.lines[1] - self.lines[0] + 1

    def crate(self):
        return self.place().split("/", 1)[0]

    def path(self):
        """Its file, below the folder of its crate."""
        return self.place().split("/", 1)[1]

    def place(self):
        return os.path.relpath(self.source, f"{ROOT}/crates")

    def bound(self, text):
        """The variables in a text of this declaration that are called as something in scope."""
        names = set(re.findall(r"\blet (\S+)", text))
        for binder in re.findall(r"[({]([^(){}:]+?) :(?=\s)", text):
            names |= set(binder.split())
        for binder in re.findall(r"λ ([^.]*?)\.(?=\s|$)", text):
            names |= {name.strip("(){},") for name in binder.split()}
        for line in self.body.split("\n") if self.kind in ("definition", "law") else []:
            clause = re.match(r"\s*(.*?) =(\s|$)", line)
            if clause and clause.group(1).split()[:1] == [self.name]:
                names |= set(tokens(clause.group(1))[1:])
        scope = self.file.scope
        return {name for name in names & set(scope) if is_definition_called(scope[name], name)}


def is_definition_called(found, name):
    """Not a constructor, which stands in patterns too."""
    is_term = isinstance(found, Declaration) and found.kind in ("definition", "law")
    return is_term and found.name == name


class Type(Declaration):
    """A struct or an enum of src/."""

    def __init__(self, path, name):
        super().__init__(path, name, "type", 0)
        lines = read(path).split("\n")
        index = next(i for i, line in enumerate(lines) if declares_type(line, name))
        end = index
        while not (lines[end].startswith("}") or lines[end].rstrip().endswith((";", "}"))):
            end += 1
        first = index
        while first > 0 and lines[first - 1].startswith(("//", "#[")):
            first -= 1
        self.lines = [first if first > 0 else index, end]
        self.body = "\n".join(re.sub(r"//.*", "", line) for line in lines[index:end + 1])


def declares_type(text, name):
    return re.search(rf"^(pub )?(struct|enum) {name}\b", text, re.M)


class SpecFile:
    """A file of specs/ or of lemmas: what it declares, and what its names stand for."""

    def __init__(self, path):
        self.path, self.declared, self.scope, self.aliases = path, {}, {}, {}
        self.lines = read(path).split("\n")
        self.uses = read_uses("\n".join(self.lines))
        self.read_block(0, len(self.lines), 0, "", "")

    def indent(self, index):
        return len(self.lines[index]) - len(self.lines[index].lstrip(" "))

    def is_text(self, index):
        return self.lines[index].strip() and not self.lines[index].lstrip().startswith("--")

    def goes_on(self, index, depth):
        """Whether the line is still of an item that begins at this depth."""
        if not self.is_text(index) or self.indent(index) > depth:
            return True
        return self.lines[index].strip()[0] in ")}"

    def read_block(self, index, past, depth, around, told):
        """The items at this depth. `told`: the word before a `mutual` around them."""
        last = None
        while index < past:
            if not self.is_text(index) or self.indent(index) != depth:
                index += 1
                continue
            end = index + 1
            while end < past and self.goes_on(end, depth):
                end += 1
            words = self.lines[index].split()
            if words[0] == "module":
                head = index
                while not self.lines[head].rstrip().endswith("where"):
                    head += 1
                parameters = " ".join(self.lines[index:head + 1])
                self.read_inner(head + 1, end, around + " " + parameters, told)
            elif "mutual" in words[:2]:
                word = words[0] if words[0] != "mutual" else told
                self.read_inner(index + 1, end, around, word)
            elif words[0] not in OTHER_ITEMS and words[:2] != ["pub", "mod"]:
                last = self.read_item(index, end, around, told, last)
            index = end

    def read_inner(self, index, past, around, told):
        depths = [self.indent(i) for i in range(index, past) if self.is_text(i)]
        if depths:
            self.read_block(index, past, min(depths), around, told)

    def read_item(self, index, end, around, told, last):
        while end > index + 1 and not self.is_text(end - 1):
            end -= 1
        text = "\n".join(without_comments(self.lines[index:end]))
        words, modifiers = text.split(), {told}
        while words[0] in MODIFIERS:
            modifiers.add(words.pop(0))
        if words[0] in ("data", "record"):
            made = Declaration(self.path, words[1], words[0], index, self)
            made.body = text
            if words[0] == "data":
                made.names += re.findall(r"^ +(?:pub )?(\S+) :", text, re.M)
        elif words[0] == "ruleset":
            # rules for `search`: of use to proofs alone
            made = Declaration(self.path, words[1], "law", index, self)
            made.body = text
        elif words[1:2] == [":"] and words[0] not in self.declared:
            kind = "definition" if modifiers & {"abbrev", "unfoldable"} else "law"
            made = Declaration(self.path, words[0], kind, index, self)
            made.type = text.split(":", 1)[1]
        else:
            # a clause, of the declaration that it names, or else of the last one
            made = self.declared.get(words[0], last)
            if made is None:
                sys.exit(f"{self.path}:{index + 1}: not the beginning of a declaration")
            made.body += text + "\n"
            made.lines[1] = max(made.lines[1], end - 1)
            return made
        made.around, made.lines = around, [self.comment_above(index), end - 1]
        for name in made.names:
            self.declared[name] = made
        return made

    def comment_above(self, index):
        """The first line of the comment above an item, if there is one that is not the file's."""
        first = index
        while first > 0 and self.lines[first - 1].startswith(" " * self.indent(index) + "--"):
            first -= 1
        return first if first > 0 else index


def read_uses(text):
    """The `use` and `ghost use` lines: the module, the names there and here, and the alias."""
    line = r"^(?:ghost )?use ([^\s{};]+?)(?:\.\{([^}]*)\})?(?: as (\S+?))?;?[ ]*$"
    found = []
    for module, held, alias in re.findall(line, text, re.M):
        names = [part.split(" as ") for part in held.split(",") if part.strip()]
        pairs = [(part[0].strip(), part[-1].strip()) for part in names]
        found.append((module, pairs, alias))
    return found


def spec_uses(text):
    """Those `use` lines of a source or proof file that name a module of definitions or lemmas."""
    return [use for use in read_uses(text) if "::" not in use[0]]


def tokens(text):
    text = re.sub(r'"(?:[^"\\]|\\.)*"', " ", text)
    return [token for token in re.split(r"[\s(){},;⌜⌝«»]+", text) if token]


def parts_of(name):
    """What stands in a term for a name: of `◌<ᵇ◌` it is `<ᵇ`."""
    return [part for part in name.split("◌") if part] if name.strip("◌") else [name]


class Repository:
    def __init__(self):
        self.files, self.types = {}, {}
        for crate in crates():
            for path in files(crate, "specs", ".antt") + lemma_files(crate):
                self.files[path] = SpecFile(path)
        for file in self.files.values():
            file.scope, file.aliases = self.scope_of(file.uses)
            for name, made in file.declared.items():
                file.scope.update((part, made) for part in parts_of(name))

    def declarations(self):
        return {made for file in self.files.values() for made in file.declared.values()}

    def named_in(self, name):
        """Whatever has this name, in any file of specs/ or of lemmas."""
        found = [file.declared.get(name) for file in self.files.values()]
        return [made for made in found if made is not None]

    def module(self, name):
        """What a module's name stands for: a file of specs/ or proofs/, a type of src/, or the kit's."""
        match = re.match(r"Rattle\.(\w+)\.(specs|proofs)(?:\.(.*))?$", name)
        if not match or match.group(1) not in crates():
            return ("kit", name)
        crate, folder, path = match.group(1), match.group(2), match.group(3) or "Lib"
        if not path.startswith("declared."):
            return ("file", f"{ROOT}/crates/{crate}/{folder}/" + path.replace(".", "/") + ".antt")
        *folders, type_ = [part for part in path.split(".")[1:] if part != "TheVariants"]
        for end in (".rt", "/mod.rt"):
            source = f"{ROOT}/crates/{crate}/src/" + ("/".join(folders) or "lib") + end
            if os.path.isfile(source) and declares_type(read(source), type_):
                return ("type", source, type_)
        sys.exit(f"{name}: no such type in crates/{crate}/src")

    def type(self, path, name):
        if (path, name) not in self.types:
            self.types[path, name] = Type(path, name)
        return self.types[path, name]

    def member(self, where, name):
        """What a name of a module stands for; of the kit's a pair, the module and the name."""
        if where[0] == "kit":
            return (where[1], name)
        if where[0] == "type":
            return self.type(where[1], where[2])
        file = self.files.get(where[1])
        return file.declared.get(name) if file else None

    def scope_of(self, uses):
        scope, aliases = {}, {}
        for module, names, alias in uses:
            where = self.module(module)
            for name, here in names:
                found = self.member(where, name)
                if found is None and where[0] == "file":
                    # a module below the file's
                    aliases[here] = self.module(module + "." + name)
                scope.update((part, found) for part in parts_of(here))
            if not names:
                aliases[alias or module.split(".")[-1]] = where
        return scope, aliases

    def named(self, text, scope, aliases, bound=()):
        """The declarations that a text mentions."""
        found = []
        for token in tokens(text):
            name = token.rstrip(".")
            if token.startswith(".") or name in bound:
                continue
            if name in scope:
                found.append(scope[name])
            elif "." in name:
                head, member = name.split(".")[:2]
                if head in aliases:
                    found.append(self.member(aliases[head], member))
                elif head in scope and head not in bound:
                    # a field of what the name stands for
                    found.append(scope[head])
        return [made for made in found if made is not None]

    def mentions(self, made, whole=False):
        """What a declaration rests on: of a law its statement alone, unless `whole`."""
        if isinstance(made, Type):
            return self.types_in(made.body, made.source)
        body = made.body if whole or not made.is_law() else ""
        text = " ".join([made.around, made.type, body])
        found = self.named(text, made.file.scope, made.file.aliases, made.bound(text))
        return [other for other in found if other is not made]

    def types_in(self, text, path):
        """The types of src/ that a piece of a source file names."""
        uses, found = source_uses(path), []
        for name in re.findall(r"\b[A-Z]\w*", text):
            place, name = uses.get(name, (path, name))
            if os.path.isfile(place) and declares_type(read(place), name):
                found.append(self.type(place, name))
        return found


def source_uses(path):
    """What the `use` lines of a source file bring: each name with the file and the name there."""
    own, brought = re.match(r".*/crates/\w+/src/", path).group(0), {}
    line = r"^(?:pub )?use ([\w:]+?)(?:::\{([^}]*)\}|(?: as (\w+))?);"
    for used, held, alias in re.findall(line, read(path), re.M):
        pairs = [part.split(" as ") for part in held.split(",") if part.strip()]
        where = used.split("::")
        if not pairs:
            pairs = [[where.pop(), alias] if alias else [where.pop()]]
        folder = own if where[0] == "crate" else f"{ROOT}/crates/{where[0]}/src/"
        for pair in pairs:
            name, here = pair[0].strip(), pair[-1].strip()
            brought[here] = (folder + ("/".join(where[1:]) or "lib") + ".rt", name)
    return brought


class Function:
    """A function of src/."""

    def __init__(self, path, text, match):
        self.path, self.name = path, match.group(2)
        self.is_public, self.is_exported = "pub" in match.group(1), "extern" in match.group(1)
        index = closing(text, text.index("(", match.end()))
        self.signature, self.contract = text[match.end():index], ""
        until = r"(?=\s*(?:[{;]|\b(?:requires|ensures|ghost)\b))"
        result = re.match(r"\s*->\s*[^{;]*?" + until, text[index:])
        if result:
            self.signature += result.group(0)
            index += result.end()
        while clause := re.match(r"\s*(?:requires|ensures|ghost)\b[^{]*", text[index:]):
            start = index + clause.end()
            index = closing(text, start)
            self.contract += text[start:index] + "\n"
        start = text.find("{", index)
        self.body = text[start:closing(text, start)] if start >= 0 else ""


def functions(path):
    text = re.sub(r"//.*", "", read(path))
    found = re.finditer(r"(pub extern \"C\" |pub |)\bfn (\w+)", text)
    return [Function(path, text, match) for match in found]


def closing(text, index):
    """The place after the bracket that closes the one at the index."""
    depth = 0
    while True:
        depth += {"(": 1, "{": 1, ")": -1, "}": -1}.get(text[index], 0)
        index += 1
        if depth == 0:
            return index
