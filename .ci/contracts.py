"""Reads the contracts of crates: the clauses of functions, ghost members, constants and types in
.rt files, and the definitions of specs/. `.ci/clauses` and `.ci/plant` use it."""
from __future__ import annotations

import re
from collections import Counter, defaultdict
from functools import cache
from pathlib import Path
from textwrap import dedent
from typing import Iterable, Iterator, NamedTuple

#: A file whose clauses are read.
READ = re.compile(r"crates/([a-z0-9_]+)/(src|specs)/(.+)\.(rt|antt)")
#: What Rust's text is made of. A character is tried before a lifetime.
RUST = re.compile(
    r"""(?P<space>\s+|//[^\n]*)|(?P<block>/\*)|(?P<raw>b?r(?P<hashes>\#*)"(?:.|\n)*?"(?P=hashes))|(?P<text>b?"(?:[^"\\]|\\(?:.|\n))*")"""
    r"""|(?P<char>b?'(?:[^'\\\n]|\\x[0-9a-fA-F]{2}|\\u\{[0-9a-fA-F_]+\}|\\.)')|(?P<life>'\w+)|(?P<word>«[^»]*»|\w+)|(?P<mark>->|=>|::|.)"""
)
ANTT = re.compile(
    r"""(?P<text>"(?:[^"\\]|\\.)*")|(?P<line>(?:(?<=\s)|(?<=^)|(?<=[(){}]))--(?=\s|$)[^\n]*)|(?P<block>\{-)|(?P<open>[({])|(?P<close>[)}])""",
    re.M,
)
CLAUSES = ("requires", "ensures", "ghost")
OPEN, CLOSE = {"(": ")", "[": "]", "{": "}"}, {")", "]", "}"}


class Unread(Exception):
    """A part of a file that this script can't read: its place in the text, and why."""

    def __init__(self, at: int, why: str) -> None:
        super().__init__(why)
        self.at = at


class Clause(NamedTuple):
    kind: str
    name: str
    text: str
    #: The words of the text that are imported, each with the path that it means.
    names: frozenset[tuple[str, str]] = frozenset()

    def label(self) -> str:
        return " ".join(filter(None, (self.kind, self.name)))


class Item(NamedTuple):
    """A function, type, constant or definition, with its clauses."""

    kind: str
    #: The crate and the module.
    module: str
    owner: str
    name: str
    file: str
    public: bool
    signature: str
    clauses: tuple[Clause, ...]
    #: Where a function's body begins and ends in its file.
    body: tuple[int, int] = (0, 0)

    def key(self) -> tuple[str, str, str, str]:
        return self.kind, self.module, self.owner, self.name

    def path(self) -> str:
        return "::".join(filter(None, (self.module, self.owner, self.name)))

    def texts(self) -> tuple[tuple[str, str, str], ...]:
        return tuple(sorted((clause.kind, clause.name, clause.text) for clause in self.clauses))

    def cited_as(self) -> str | None:
        """The path under which clauses and definitions import it."""
        crate, _, rest = self.module.partition("::")
        within = "".join(part + "." for part in rest.split("::") if part)
        if self.kind == "definition":
            return f"Rattle.{crate}.specs.{within}{self.name}"
        if self.kind == "type":
            return f"Rattle.{crate}.specs.declared.{within}{self.name}"
        if self.kind == "constant" and not self.owner:
            return f"Rattle.{crate}.specs.declared.{within}TheConstants.{self.name}"
        return None


class State(NamedTuple):
    items: list[Item]
    #: Other paths of definitions, by `pub use`.
    passed_on: dict[str, str]
    unread: list[str]


def plain(text: str) -> str:
    """Antt without comments, and with one space where there were several."""
    parts, at = [], 0
    while found := ANTT.search(text, at):
        parts.append(text[at : found.start()])
        at = found.end()
        if found["block"]:
            at = past_block(text, found.start(), "{-", "-}")
            parts.append(" ")
        elif not found["line"]:
            parts.append(found[0])
    return " ".join("".join([*parts, text[at:]]).split())


def past_block(text: str, at: int, opening: str, closing: str) -> int:
    """The end of a comment that may have others in it."""
    depth, begin = 0, at
    for found in re.compile(f"{re.escape(opening)}|{re.escape(closing)}").finditer(text, at):
        depth += 1 if found[0] == opening else -1
        if depth == 0:
            return found.end()
    raise Unread(begin, "a comment without an end")


def antt_end(text: str, at: int) -> int:
    """The end of the antt in braces that begins at `at`."""
    begin, depth = at, 0
    while found := ANTT.search(text, at):
        at = past_block(text, found.start(), "{-", "-}") if found["block"] else found.end()
        depth += (found["open"] is not None) - (found["close"] is not None)
        if depth == 0 and found["close"]:
            return at
    raise Unread(begin, "a clause without an end")


def imports_of(line: str) -> Iterator[tuple[str, str]]:
    """The names that a `use` line brings in, each with its path: `use a.b.{c, d as e}`, `use
    a.b`, `use a.b as c`."""
    found = re.fullmatch(r"use ([^\s{}]+?)(?:\.\{(.*)\})?(?: as (\S+))?", " ".join(line.split()))
    if not found:
        raise Unread(0, f"an import: {line}")
    path, names, alias = found.groups()
    for name in [""] if names is None else filter(None, map(str.strip, names.split(","))):
        whole, _, other = name.partition(" as ")
        yield (alias or path.rpartition(".")[2], path) if names is None else (
            other or whole,
            f"{path}.{whole}",
        )


def cited(text: str, imported: dict[str, str]) -> frozenset[tuple[str, str]]:
    """The imported names of a text. A name `a.b` of a module `a` means `b` there; an operator is
    known by its parts."""
    parts: dict[str, set[str]] = defaultdict(set)
    for name, path in imported.items():
        for part in name.split("◌") if "◌" in name else [name]:
            parts[part].add(path)
    parts.pop("", None)
    names = set()
    for word in re.findall(r'[^\s(){},;"]+', re.sub(r'"(?:[^"\\]|\\.)*"', '""', text)):
        first, dot, rest = word.partition(".")
        for path in parts.get(word, ()) or parts.get(first, ()):
            inner = rest.split(".")[0]
            names.add(
                (f"{first}.{inner}", f"{path}.{inner}")
                if dot and inner and word not in parts and path.rpartition(".")[2] != first
                else (first, path)
            )
    return frozenset(names)


class Rust:
    """Reads a .rt file. Items are made when its imports are known, at the end."""

    def __init__(self, crate: str, file: str, text: str) -> None:
        self.crate, self.file, self.text, self.at = crate, file, text, 0
        self.imported: dict[tuple[str, str], dict[str, str]] = defaultdict(dict)
        self.items: list[Item] = []
        self.unread: list[tuple[int, str]] = []
        #: Where the clauses that were read begin.
        self.seen: set[int] = set()

    # The text.

    def skip(self) -> None:
        while found := RUST.match(self.text, self.at):
            if found["block"]:
                self.at = past_block(self.text, self.at, "/*", "*/")
            elif found["space"]:
                self.at = found.end()
            else:
                return

    def peek(self) -> str:
        self.skip()
        found = RUST.match(self.text, self.at)
        return found[0] if found else ""

    def next(self) -> str:
        word = self.peek()
        self.at += len(word)
        return word

    def take(self, word: str) -> bool:
        if self.peek() == word:
            self.next()
            return True
        return False

    def must(self, word: str) -> None:
        at = self.at
        if self.next() != word:
            raise Unread(at, f"{word} expected")

    def group(self) -> str:
        """Everything up to the bracket that closes the next one, and that too."""
        self.skip()
        begin = self.at
        waiting = [OPEN[self.next()]]
        while waiting:
            word = self.next()
            if not word:
                raise Unread(begin, "a bracket without its end")
            if word in OPEN:
                waiting.append(OPEN[word])
            elif word in CLOSE and word != waiting.pop():
                raise Unread(begin, "brackets that don't match")
        return self.text[begin : self.at]

    def until(self, *ends: str) -> str:
        """The words before one of these, outside brackets, one space apart. The end is left."""
        words = []
        while (word := self.peek()) not in ends:
            if not word or word in CLOSE:
                raise Unread(self.at, f"{' or '.join(ends)} expected")
            words.append(" ".join(self.words_of(self.group())) if word in OPEN else self.next())
        return " ".join(words)

    def words_of(self, text: str) -> list[str]:
        """The words of Rust's text without comments and attributes of documentation."""
        inner = Rust(self.crate, self.file, text)
        words = []
        while word := inner.next():
            words.append(word)
        return words

    def antt(self) -> str:
        """The antt in the braces that come next."""
        self.skip()
        begin = self.at
        if self.text[begin : begin + 1] != "{":
            raise Unread(begin, "{ expected")
        self.at = antt_end(self.text, begin)
        return plain(self.text[begin + 1 : self.at - 1])

    # What stands in a file.

    def read(self) -> None:
        parts = [
            part
            for part in Path(self.file).with_suffix("").parts[3:]
            if part not in ("lib", "main", "mod")
        ]
        module = "::".join([self.crate, *parts])
        try:
            self.items_until("", module, "", False)
        except Unread as fault:
            self.unread.append((fault.at, str(fault)))
        for begin in clause_words(self.text):
            if begin not in self.seen:
                self.unread.append((begin, "a clause that stands nowhere that is read"))
        self.items = [
            item._replace(
                clauses=tuple(
                    clause._replace(names=cited(clause.text, self.seen_by(item)))
                    for clause in item.clauses
                )
            )
            for item in self.items
        ]

    def seen_by(self, item: Item) -> dict[str, str]:
        """What is imported in an item's module, and in its `impl`."""
        return {
            **self.imported[item.module, ""],
            **self.imported[item.module, item.owner or item.name],
        }

    def items_until(self, end: str, module: str, owner: str, open_to_all: bool) -> list[Clause]:
        """Reads items up to `end`, which is taken. Returns the ghost members and types among
        them."""
        members: list[Clause] = []
        while (word := self.peek()) != end:
            begin = self.at
            try:
                self.item(word, module, owner, open_to_all, members)
            except Unread as fault:
                self.unread.append((fault.at, str(fault)))
                self.at = max(self.at, begin + 1)
                if not self.peek():
                    break
        self.next()
        return members

    def item(
        self, word: str, module: str, owner: str, open_to_all: bool, members: list[Clause]
    ) -> None:
        if word == "#":
            self.next()
            self.take("!")
            self.group()
            return
        if word == "ghost":
            self.ghost(module, owner, members)
            return
        public = self.take("pub")
        if public and self.peek() == "(":
            self.group()
            public = False
        while self.peek() in "const unsafe extern default async final".split():
            kind = self.next()
            if kind == "extern" and self.peek().startswith('"'):
                self.next()
            if kind == "const" and self.peek() != "fn" and self.peek() not in ("unsafe", "extern"):
                self.constant(module, owner, public or open_to_all, members)
                return
        begin, word = self.at, self.next()
        if word == "fn":
            self.function(
                module, owner, public or open_to_all or self.text[begin:].startswith("fn main(")
            )
        elif word == "static":
            self.constant(module, owner, public, members)
        elif word == "use":
            self.until(";")
            self.next()
        elif word == "mod":
            inner = f"{module}::{self.next()}"
            if not self.take(";"):
                self.must("{")
                self.items_until("}", inner, "", False)
        elif word in ("struct", "enum", "union"):
            self.declared(word, module, public)
        elif word == "type":
            members.append(Clause("type", "", self.until(";")))
            self.next()
        elif word == "trait":
            name = self.next()
            header = self.until("{")
            self.next()
            inside = self.items_until("}", module, f"trait {name}", True)
            self.imported[module, name] = self.imported[module, f"trait {name}"]
            self.add(
                Item(
                    "type",
                    module,
                    "",
                    name,
                    self.file,
                    public,
                    f"trait {name} {header}",
                    (Clause("trait", "", header), *inside),
                )
            )
        elif word == "impl":
            header = self.until("{")
            self.next()
            inside = self.items_until(
                "}",
                module,
                f"impl {header}",
                bool(re.search(r"(^| )for ", re.sub(r"\bfor <[^>]*>", "", header))),
            )
            if inside:
                self.add(
                    Item("impl", module, "", f"impl {header}", self.file, True, "", tuple(inside))
                )
        elif word == "macro_rules" or self.peek() == "!":
            self.must("!")
            if self.peek() not in OPEN:
                self.next()
            self.group()
            self.take(";")
        elif word != ";":
            raise Unread(begin, f"an item that begins with {word}")

    def add(self, item: Item) -> None:
        self.items.append(item)

    def ghost(self, module: str, owner: str, members: list[Clause]) -> None:
        """`ghost use ..;`, or a member: `ghost name: { .. }` or `ghost name = { .. }`."""
        self.skip()
        begin = self.at
        self.next()
        if self.peek() == "use":
            self.skip()
            end = self.text.index(";", self.at)
            self.imported[module, owner].update(imports_of(plain(self.text[self.at : end])))
            self.at = end + 1
            return
        name = self.next()
        mark = self.next()
        if mark not in (":", "="):
            raise Unread(begin, "a ghost member without : or =")
        members.append(Clause("ghost", name, self.antt()))
        if self.peek() in (";", ","):
            self.next()

    def constant(self, module: str, owner: str, public: bool, members: list[Clause]) -> None:
        name = self.next()
        text = self.until(";")
        self.next()
        if owner:
            members.append(Clause("const", name, text))
        elif name != "_":
            self.add(
                Item(
                    "constant",
                    module,
                    owner,
                    name,
                    self.file,
                    public,
                    "",
                    (Clause("const", "", text),),
                )
            )

    def declared(self, kind: str, module: str, public: bool) -> None:
        """A struct or an enum: its fields or variants, and its ghost fields."""
        name = self.next()
        text = self.until("{", "(", ";")
        ghosts: list[Clause] = []
        if self.peek() == "(":
            text += " ".join(self.words_of(self.group())) + self.until(";")
            self.next()
        elif not self.take(";"):
            self.must("{")
            words, depth = ["{"], 1
            while depth:
                word = self.peek()
                if not word:
                    raise Unread(self.at, "a type without its end")
                if word == "ghost" and depth == 1:
                    self.ghost(module, name, ghosts)
                    continue
                if word == "#":
                    self.next()
                    self.group()
                    continue
                depth += (word in OPEN) - (word in CLOSE)
                words.append(self.next())
            text += " ".join(words).replace(", }", " }")
        self.add(
            Item("type", module, "", name, self.file, public, "", (Clause(kind, "", text), *ghosts))
        )

    def function(self, module: str, owner: str, public: bool) -> None:
        name = self.next()
        signature = self.until(*CLAUSES, "{", ";").replace(", )", " )")
        item = Item(
            "function", module, owner, name, self.file, public, signature, tuple(self.clauses())
        )
        if not self.take(";"):
            self.skip()
            begin = self.at
            inside = self.body(module, f"{owner}::{name}".strip(":"))
            item = item._replace(clauses=(*item.clauses, *inside), body=(begin, self.at))
        self.add(item)

    def clauses(self) -> Iterator[Clause]:
        while self.peek() in CLAUSES:
            self.seen.add(self.at)
            kind = self.next()
            if self.take("*"):
                kind += "*"
            name = "" if self.peek() == "{" else self.next()
            self.take(":")
            yield Clause(kind, name, self.antt())

    def body(self, module: str, owner: str) -> list[Clause]:
        """Passes over a function's body. Closures in it may have clauses, and functions may be
        in it."""
        inside: list[Clause] = []
        self.skip()
        begin, depth = self.at, 0
        while True:
            word = self.peek()
            if not word:
                raise Unread(begin, "a body without its end")
            if word in CLAUSES and re.match(
                rf"{word}\*?(\s+\w+)?\s*(:\s*)?\{{", self.text[self.at :]
            ):
                inside += [
                    clause._replace(kind=f"closure's {clause.kind}") for clause in self.clauses()
                ]
                continue
            if word == "ghost":
                raise Unread(self.at, "a ghost item in a body")
            self.next()
            if word == "fn" and re.match(r"\w", self.peek()):
                self.function(module, owner, False)
                continue
            depth += (word in OPEN) - (word in CLOSE)
            if depth == 0:
                return inside


def clause_words(text: str) -> Iterator[int]:
    """Where words `requires` and `ensures` stand with a brace behind them, outside comments and
    texts, whatever stands round them."""
    for found in re.finditer(r"\b(requires|ensures)\*?(\s+\w+)?\s*\{", text):
        line = text[text.rfind("\n", 0, found.start()) + 1 : found.start()]
        if "//" not in line and line.count('"') % 2 == 0:
            yield found.start()


BEGINS = re.compile(
    r"(?P<marks>(?:(?:abbrev|unfoldable|axiom|pub|record|data)\s+)*)(?P<name>[^\s:(){}]+)(?P<rest>.*)",
    re.S,
)


def chunks(text: str) -> Iterator[tuple[int, str]]:
    """The parts of an antt file that begin at the left margin, without comments. A part ends
    where its brackets are closed, or later."""
    kept, at = [], 0
    while found := ANTT.search(text, at):
        kept.append(text[at : found.start()])
        at = past_block(text, found.start(), "{-", "-}") if found["block"] else found.end()
        whole = text[found.start() : at]
        kept.append(re.sub(r"[^\n]", " ", whole) if found["block"] or found["line"] else whole)
    lines = "".join([*kept, text[at:]]).split("\n")
    chunk: list[str] = []
    begin = depth = 0
    for number, line in enumerate(lines, 1):
        if line.strip() and not line[0].isspace() and depth <= 0:
            if chunk:
                yield begin, "\n".join(chunk)
            chunk, begin = [], number
        if line.strip():
            chunk.append(line)
            depth += len(re.findall(r"[({]", line)) - len(re.findall(r"[)}]", line))
    if chunk:
        yield begin, "\n".join(chunk)


def parts_of(text: str) -> Iterator[tuple[int, str, str]]:
    """The parts of an antt file: the line, the heads of the blocks `module _ .. where` round it,
    and the text."""
    for line, chunk in chunks(text):
        found = re.match(r"module _ (.*) where\n", chunk)
        if not found:
            yield line, "", chunk
            continue
        for inner, heads, part in parts_of(dedent(chunk[found.end() :])):
            yield line + inner, " ".join(filter(None, (f"module _ {found[1]}", heads))), part


def read_definitions(
    crate: str, file: str, text: str
) -> tuple[list[Item], dict[str, str], list[str]]:
    """The definitions of a file of specs/, the paths that it passes on, and what couldn't be
    read."""
    module = "::".join(
        [crate, *[part for part in Path(file).with_suffix("").parts[3:] if part != "Lib"]]
    )
    here = "Rattle." + ".specs.".join([crate, ".".join(module.split("::")[1:])]).rstrip(".")
    imported: dict[str, str] = {}
    passed_on: dict[str, str] = {}
    texts: dict[str, list[str]] = {}
    marks: dict[str, bool] = {}
    unread: list[str] = []
    fixity: list[str] = []
    last = ""
    for line, block, chunk in parts_of(text):
        first = chunk.split()[0]
        second = (chunk.split() + [""])[1]
        if first == "use" or (first, second) == ("pub", "use"):
            try:
                found = dict(imports_of(chunk[4:] if first == "pub" else chunk))
            except Unread as fault:
                unread.append(f"{file}:{line}: {fault}")
                continue
            imported.update(found)
            passed_on.update(
                {f"{here}.{name}": path for name, path in found.items()} if first == "pub" else {}
            )
        elif first == "mod" or (first, second) == ("pub", "mod"):
            continue
        elif first in ("infixl", "infixr", "infix"):
            fixity.append(plain(chunk))
        elif first == "unfolding" and last:
            texts[last].append(plain(chunk))
        else:
            found_name = BEGINS.fullmatch(chunk)
            name = found_name["name"] if found_name else ""
            begins = found_name is not None and (
                bool(found_name["marks"])
                or re.match(r"\s*(\(.*\)|\{.*\}|\s)*\s*:\s", found_name["rest"], re.S) is not None
                and name != last
            )
            if begins and found_name is not None and name not in texts:
                last = name
                texts[name] = [*([plain(block)] if block else []), plain(chunk)]
                marks[name] = "pub" in found_name["marks"].split()
            elif last and any(
                part in re.split(r"\s=\s", chunk, maxsplit=1)[0].split()
                for part in [last, *filter(None, last.split("◌"))]
            ):
                texts[last].append(plain(chunk))
            else:
                unread.append(
                    f"{file}:{line}: a definition that begins with {' '.join(chunk.split()[:4])}"
                )
    for line_of in fixity:
        operator = line_of.split()[-1]
        if operator in texts:
            texts[operator].append(line_of)
        else:
            unread.append(f"{file}: {line_of}: it isn't defined there")
    local = {name: f"{here}.{name}" for name in texts}
    items = []
    for name, parts in texts.items():
        whole = "\n".join(parts)
        names = cited(whole, {**imported, **local}) - {
            (part, local[name]) for part in [name, *name.split("◌")]
        }
        items.append(
            Item(
                "definition",
                module,
                "",
                name,
                file,
                marks[name],
                "",
                (Clause("definition", "", whole, names),),
            )
        )
    return items, passed_on, unread


@cache
def read_file(name: str, text: str) -> State:
    crate, folder, _, ending = READ.fullmatch(name).groups()  # type: ignore[union-attr]
    if (folder, ending) == ("specs", "antt"):
        return State(*read_definitions(crate, name, text))
    if (folder, ending) == ("src", "rt"):
        rust = Rust(crate, name, text)
        rust.read()
        return State(
            rust.items,
            {},
            [f"{name}:{text.count(chr(10), 0, at) + 1}: {why}" for at, why in rust.unread],
        )
    return State([], {}, [f"{name}: a file that isn't read there"])


def read_state(files: Iterable[tuple[str, str]]) -> State:
    state = State([], {}, [])
    for name, text in files:
        items, passed_on, unread = read_file(name, text)
        state.items.extend(items)
        state.passed_on.update(passed_on)
        state.unread.extend(unread)
    twice = [key for key, count in Counter(item.key() for item in state.items).items() if count > 1]
    state.unread.extend(
        f"{'::'.join(filter(None, key[1:]))}: {key[0]} twice, so compared once" for key in twice
    )
    return state
