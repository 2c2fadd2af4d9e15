"""Odd turns of phrase grow no more (words.toml). WRITE=1 writes the counts that fell into it."""

import os
import re
import tomllib
from typing import Any

import pytest

from tests.conftest import TOP
from tests.documents.test_commands import files

FILE = TOP / "tests/documents/words.toml"
WORDS: dict[str, dict[str, Any]] = tomllib.loads(FILE.read_text())
PROSE = (".md", ".txt", ".h", ".1", ".5", ".7", ".html")
#: How comments look in code.
HASH = r'^[ \t]*#(.*)$|"""(.*?)"""'
COMMENTS = {".rt": r"//[/!]?(.*)$", ".antt": r"--(.*)$", ".js": r"//(.*)$", ".c": r"/\*(.*?)\*/"}
ROOMS = "docs samples packaging clients include crates tests .ci benchmarks".split()


def prose_of(name: str, text: str) -> str:
    """The sentences of a document, or the comments of code. A line break is a space."""
    ending = os.path.splitext(name)[1]
    if ending not in PROSE:
        flags = re.M | re.S if ending == ".c" else re.M
        found = re.findall(COMMENTS.get(ending, HASH), text, flags)
        text = "\n".join(part if isinstance(part, str) else "".join(part) for part in found)
    return re.sub(r"\s+", " ", text)


@pytest.fixture(scope="module")
def prose() -> dict[str, str]:
    wanted = [name for name in files() if name.split("/")[0] in ROOMS or "/" not in name]
    endings = (".json", ".svg", ".png", ".csv", ".toml", ".edit", ".crl", ".pem")
    names = [name for name in wanted if not name.endswith(endings) and "/proofs/" not in name]
    return {name: prose_of(name, (TOP / name).read_text(errors="ignore")) for name in names}


@pytest.mark.parametrize("name", WORDS)
def test_phrase(name: str, prose: dict[str, str]) -> None:
    row = WORDS[name]
    pattern = re.compile(row["pattern"])
    assert pattern.search(row["example"]), "control: a sentence with it"
    counts = {path: len(pattern.findall(text)) for path, text in prose.items()}
    total = sum(counts.values())
    most = sorted(counts, key=lambda path: -counts[path])[:5]
    said = f"{total} times, and {row['most']} before, as in {', '.join(most)}"
    assert total <= row["most"], f"{said}. Write {row['write']}"
    if "WRITE" in os.environ:
        front, mark, rest = FILE.read_text().partition(f"[{name}]\n")
        FILE.write_text(front + mark + re.sub(r"most = \d+", f"most = {total}", rest, count=1))


@pytest.mark.parametrize(
    "name, text, said",
    [
        ("a.md", "In\nprose", "In prose"),
        ("crates/a.rt", "let a = 1; // told\nfn b() {}", " told"),
        ("crates/a.antt", "a : Set -- told\n", " told"),
        ("tests/a.py", 'a = 1\n# told\n"""Each."""\n', " told Each."),
        ("tests/shared/a.c", "int a; /* told\nmore */ int b;", " told more "),
    ],
)
def test_comments_are_read(name: str, text: str, said: str) -> None:
    """Control: documents are read whole, and of code its comments."""
    assert prose_of(name, text) == said
