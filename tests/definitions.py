"""Reads the definitions of crates/*/specs and the declarations of crates/*/src: the lines of each, and what its names stand for."""
import functools
import os
import re

TOP = os.path.join(os.path.dirname(os.path.abspath(__file__)), "..")
WORD = r"[^\s(){}\[\];,]+"
BUILT_IN = set(
    ": → = × ¬ | ↦ ← Type _ where let in do record pub abbrev unfoldable unfolding elim as data module tt Unit ⊥ absurd λ . "
    "result self omega cc search grind simp rw assumption hlevel first_of".split()
)
OF_RUST = set("Self Option Some None Result Ok Err Vec Box String Copy Clone Drop Sized Default From Fn FnMut FnOnce".split())


def text_of(path):
    with open(os.path.join(TOP, path), encoding="utf-8") as file:
        return file.read()


class Unknown(Exception):
    """A name that nothing declares."""


class Item:
    """What is believed at once: its lines, its code in the language of definitions, and its text in Rust, which names types."""

    def __init__(self, file, name, kind, lines=(), code="", types="", binds=()):
        self.file, self.name, self.kind, self.lines, self.code, self.types = file, name, kind, set(lines), code, types
        self.scope, self.binds, self.bounds = file.scope, set(binds), {}

    def __str__(self):
        return f"{self.file.path}: {self.name}"


def imports(text):
    """What `use` lines of definitions bring in: each name, the path that it stands for, and whether it is handed on."""
    for on, path, names, alias in re.findall(r"(?m)^\s*(?:ghost )?(pub )?use (\S+?)\.?(?:\{([^}]*)\})?(?: as (\w+))?;?$", text):
        for name in names.split(",") if names else []:
            whole, _, short = name.strip().partition(" as ")
            for sign in signs(short or whole):
                yield sign, [*path.split("."), whole], on
        if not names:
            yield alias or path.split(".")[-1], path.split("."), on


def signs(name):
    """The words by which a name is written: an operator is written by its signs."""
    return [name, *filter(None, name.split("◌"))] if "◌" in name else [name]


def scope_of(text):
    return {name: path for name, path, _ in imports(text)}


# ---- files of definitions


class Definitions:
    """A file of specs/ or proofs/, by the names that it defines. A constructor stands for its data, a block's head for what it has."""

    def __init__(self, path):
        text = text_of(path)
        self.path, self.items, self.scope = path, {}, scope_of(text)
        self.handed_on = {name: to for name, to, on in imports(text) if on}
        self.blocks, self.notes, self.item = [], set(), None
        for number, line in enumerate(text.split("\n"), 1):
            self.read(number, line)

    def read(self, number, line):
        code = re.sub(r"(^|\s)--( .*|$)", "", line)
        if not line.strip():
            self.notes = set()
        elif not code.strip() or code.startswith("infix"):
            self.notes.add(number)
        elif not re.match(r"\s*(pub )?(use|mod) |#", code):
            depth = len(code) - len(code.lstrip())
            while self.blocks and depth <= self.blocks[-1][0]:
                self.blocks.pop()
            self.place(number, depth, code)
            self.notes = set()

    def place(self, number, depth, code):
        """Takes a line to the definition that it begins, or that it goes on with."""
        if self.blocks and self.blocks[-1][1] is None:
            self.blocks[-1][1] = depth
        inner = self.blocks[-1][1] if self.blocks else 0
        if depth == inner and re.match(r"\s*module _", code):
            self.blocks.append([depth, None, self.notes | {number}, code])
            return
        begun = re.match(r"\s*(?:(abbrev|unfoldable) )?(?:pub )?(?:(record|data) )?([^\s(){}]+)( :\s)?", code)
        if depth == inner and begun and (begun[2] or begun[4]):
            self.begin(begun[3], begun[2] or begun[1] or "proof")
        elif depth == inner:
            self.item = self.items.get(code.split()[0], self.item)
        elif self.item.kind == "data" and (made := re.match(r"\s*(?:pub )?(\S+) :\s", code)):
            self.items.update({sign: self.item for sign in signs(made[1])})
        self.item.lines |= self.notes | {number}
        self.item.code += code[inner:] + "\n"

    def begin(self, name, kind):
        self.item = Item(self, name, kind)
        self.items.update({sign: self.item for sign in signs(name)})
        for _, _, lines, code in self.blocks:
            self.item.lines |= lines
            self.item.code += code.strip() + "\n"


def bound(code):
    """The names that a definition binds itself: parameters, fields, patterns, and those behind λ, let and ←."""
    found = re.findall(r"[({]\s*((?:[^\s(){}:;=]+\s+)+):\s", code) + re.findall(r"(?m)^\s*(?:pub )?((?:[^\s(){}:]+ )+):\s", code)
    found += re.findall(r"λ\s+\(([^():]*)\)\s*\.", code) + re.findall(r"λ\s+((?:[^\s().]+\s+)*[^\s().]+)\s*[.(]", code)
    found += re.findall(r"let ([^\s:=]+)", code)
    found += re.findall(r"[\[|]\s([^\[|↦]*)↦", code) + re.findall(r"(?m)^\s*(\S.*?) ←", code)
    found += re.findall(r"(?m)^(\w\S*(?: .*?)?|\(.*?) =(?:\s|$)", code)
    return {name for it in found for name in re.findall(WORD, it)}


def names_in(code):
    """The names that are used, each with what is written behind its dots. Labels of records and of implicit arguments are none."""
    code = re.sub(r'"(\\.|[^"\\])*"', " ", code)
    code = re.sub(r"([{;]\s*)[^\s{};=]+\s+=\s", r"\1", code)
    code = re.sub(r"(?m)^(\s+(?:pub )?)(?:[^\s(){}:]+ )+:\s", r"\1", code)
    for word in re.findall(WORD, re.sub(r"«(\w+)»", r"\1", code)):
        if not word.startswith(".") and not re.fullmatch(r"-?[0-9][\w.]*", word):
            yield (word.rstrip(".") or ".").split(".") if not re.fullmatch(r"\W+", word) else [word]


# ---- files of code


class Code:
    """A file of src/: what its `use` lines bring in, and its declarations as they are asked for."""

    def __init__(self, path):
        self.path, self.text, self.crate, self.items = path, text_of(path), path.split("/")[1], {}
        self.scope = scope_of("\n".join(re.findall(r"(?m)^ghost use .*$", self.text)))
        self.uses = dict(it for path in re.findall(r"(?m)^(?:pub(?:\(crate\))? )?use ([^;]*);", self.text) for it in spread(path))

    def lines(self, start, end):
        """The numbers of the lines from one place to another, with what is written of them above."""
        lines = self.text.split("\n")
        first, last = self.text.count("\n", 0, start), self.text.count("\n", 0, end)
        while first and re.match(r"\s*(///|#\[)", lines[first - 1]):
            first -= 1
        return {it + 1 for it in range(first, last + 1) if lines[it].strip()}

    def declared(self, name):
        """The declaration of a type or a constant, or a trait's first line. An enum's variants name no types."""
        found = re.search(rf"(?m)^(?:pub(?:\(crate\))? )?(struct|enum|trait|const|type) {name}\b", self.text)
        if found and name not in self.items:
            end = self.text.index("{", found.end()) if found[1] == "trait" else closed(self.text, found.end())
            body = re.sub(r"(?m)\s*//.*$|^\s*#\[.*\]$", "", self.text[found.end() : end])
            ghosts = [body[at.end() : closed(body, at.end())] for at in re.finditer(r"ghost \w+: (?=\{)", body)]
            types = functools.reduce(lambda text, ghost: text.replace(ghost, ""), ghosts, body)
            binds = re.findall(r"\b(\w+):", types)
            if found[1] == "enum":
                types = re.sub(r"(?m)^(    )\w+", r"\1", types)
            item = Item(self, name, found[1], self.lines(found.start(), end), "\n".join(ghosts), types, binds)
            item.bounds = bounds(types.partition("{")[0])
            self.items[name] = item
        return self.items.get(name)

    def blocks(self, head):
        """The impl blocks with such a head: where each begins, where its braces do, and where it ends."""
        for found in re.finditer(rf"(?m)^(impl\b[^{{;]*?{head}[^{{;]*)\{{", self.text):
            yield found.start(), found.end(), closed(self.text, found.end() - 1)

    def ghosts(self, start, end, names, head=""):
        """The ghost items between two places, each with the `ghost use` lines there and the bounds of the block's head."""
        scope = {**self.scope, **scope_of(self.text[start:end])}
        for found in re.finditer(rf"(?m)^    ghost ({names})(?: =|:) ", self.text[start:end]):
            begin, stop = start + found.start(), closed(self.text, start + found.end(), ";")
            kind = "invariant" if found[1] == "invariant" else "ghost"
            item = Item(self, found[1], kind, self.lines(begin, stop), self.text[start + found.end() : stop])
            item.scope, item.bounds = scope, bounds(head)
            yield item


def bounds(head):
    """The traits of each type parameter."""
    return {name: re.findall(r"\w+", traits) for name, traits in re.findall(r"\b([A-Z]): ([\w +]+)", head)}


def closed(text, start, ends="};"):
    """Where an item ends: at the brace that closes it, or at a semicolon outside of braces."""
    depth = 0
    for at in range(start, len(text)):
        depth += (text[at] in "{([") - (text[at] in "})]")
        if depth == 0 and text[at] in ends:
            return at + 1
    raise Unknown(f"no end of {text[start:start + 40]}")


def spread(path, before=()):
    """The names that a `use` of Rust brings in, with the path of each."""
    head, brace, rest = re.sub(r"\s+", " ", path.strip()).partition("{")
    if brace:
        for part in re.split(r",(?![^{]*\})", rest.rpartition("}")[0]):
            if part.strip():
                yield from spread(part, (*before, *filter(None, head.split("::"))))
    else:
        whole, _, short = head.partition(" as ")
        whole = [*before, *whole.split("::")]
        yield short or whole[-1], whole


@functools.cache
def file_at(path):
    return (Definitions if path.endswith(".antt") else Code)(path) if os.path.exists(os.path.join(TOP, path)) else None


@functools.cache
def layers():
    """The crates that the program is made of, the lowest first, in the order of docs/ARCHITECTURE.md's table from below."""
    rows = re.findall(r"(?m)^\| (z\w+) \| (\d+) \|", text_of("docs/ARCHITECTURE.md"))
    return [crate for crate, _ in sorted(reversed(rows), key=lambda it: int(it[1]))]


@functools.cache
def code_of(crate):
    paths = sorted(os.listdir(os.path.join(TOP, "crates", crate, "src")))
    return [file_at(f"crates/{crate}/src/{it}") for it in paths if it.endswith(".rt")]


# ---- what a name stands for


def defined(path):
    """The definition or declaration that a path of definitions leads to; none where it leads out of the repository."""
    crate, *rest = path[1:]
    if path[0] != "Rattle" or crate not in layers():
        return None
    if rest[:2] == ["specs", "declared"]:
        return declared(crate, [rest[2], rest[4 if rest[3] == "TheConstants" else 3]])
    for cut in range(len(rest) - 1, 1, -1):
        file = file_at(f"crates/{crate}/{'/'.join(rest[:cut])}.antt")
        if file and rest[cut] in file.items:
            return file.items[rest[cut]]
        if file and rest[cut] in file.handed_on:
            return defined(file.handed_on[rest[cut]])
    raise Unknown(".".join(path))


def declared(crate, path):
    """The declaration that a path of Rust leads to within a crate."""
    *modules, name = path
    for module in ["/".join(modules)] if modules else ["lib", "main"]:
        file = file_at(f"crates/{crate}/src/{module}.rt")
        if file and file.declared(name):
            return file.declared(name)
        if file and name in file.uses:
            return by_use(crate, file.uses[name])
    raise Unknown(f"{crate}::{'::'.join(path)}")


def by_use(crate, path):
    if path[0] == "crate" or path[0] not in layers():
        inner = path[1:] if path[0] == "crate" else path
        return declared(crate, inner) if path[0] == "crate" or file_at(f"crates/{crate}/src/{path[0]}.rt") else None
    return declared(path[0], path[1:])


def by_type(file, name):
    """The declaration of a type that a file of code names."""
    if name in OF_RUST or len(name) == 1:
        return None
    found = file.declared(name)
    if not found and name not in file.uses:
        raise Unknown(name)
    return found or by_use(file.crate, file.uses[name])


def models(item):
    """What clauses see of a type: the value that its `impl Model` makes of it, and what holds of it always."""
    for file in code_of(item.file.crate):
        for begin, start, end in file.blocks(rf"\bModel for {item.name}\b"):
            if by_type(file, item.name) is item:
                yield from file.ghosts(start, end, "Value|view|invariant", file.text[begin:start])


@functools.cache
def members(trait, name):
    """A trait's ghost item of a name, and what each impl of the trait takes for it."""
    file, head = trait.file, re.search(rf"trait {trait.name}\b([^{{]*)\{{", trait.file.text)
    found = list(file.ghosts(head.end(), closed(file.text, head.end() - 1), name))
    for above in re.findall(r"\b[A-Z]\w+", head[1]) if not found else []:
        if above not in OF_RUST:
            return members(by_type(file, above), name)
    for file in [file for crate in layers() for file in code_of(crate)] if found else []:
        for begin, start, end in file.blocks(rf"\b{trait.name} for "):
            if by_type(file, trait.name) is trait:
                found += file.ghosts(start, end, name, file.text[begin:start])
    return [trait, *found] if found else []
