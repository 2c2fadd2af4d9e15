"""The commands of the documents print what is written; links, headings and files are there."""

import re
import subprocess
from pathlib import Path

import pytest

from tests.conftest import TOP
from tests.documents.reader import LINK, run_document

MENTIONED = re.compile(r"\bdocs/[A-Za-z_]+\.(?:md|json)\b")
#: The letters of paper bonds of Series EE, by their denominations.
LETTERS = {"L": 50, "K": 75, "C": 100, "R": 200, "D": 500, "M": 1000, "V": 5000, "X": 10000}
#: A bond as a row of a sheet or of a file has it, and an object of JSON, which may be one.
BOND_ROW = re.compile(r"\b([A-Z])[0-9]{1,10}EE(?: +EE +|,)([0-9]{2,5})\b")
OBJECT = re.compile(r"\{[^{}]*\}")
OBJECT_BOND = re.compile(r'(?=.*"serial": ?"([A-Z]))(?=.*"denom": ?([0-9]+))', re.S)


def files() -> list[str]:
    words = ["git", "-C", str(TOP), "ls-files", "-z", "--cached", "--others", "--exclude-standard"]
    listed = subprocess.run(words, capture_output=True, check=True, text=True).stdout
    return [name for name in listed.split("\0") if name and (TOP / name).is_file()]


DOCUMENTS = [name for name in files() if name.endswith(".md")]


@pytest.mark.needs("curl", "sqlite3")
@pytest.mark.parametrize("name", DOCUMENTS)
def test_document(program: Path, folder: Path, name: str) -> None:
    run_document(TOP / name, folder / "copy", program)


def unknown_documents(text: str) -> list[str]:
    names = set(MENTIONED.findall(text))
    return [name for name in names if "NOWHERE" not in name and not (TOP / name).exists()]


def unindexed(index: str, names: list[str]) -> list[str]:
    others = set(names) - set(LINK.findall(index)) - {"README.md"}
    return sorted(name for name in others if name.endswith((".md", ".json")))


def wrong_letters(text: str) -> list[tuple[str, str]]:
    """Bonds whose letters aren't those of their denominations, as a teller knows them."""
    objects = [bond.groups() for bond in map(OBJECT_BOND.match, OBJECT.findall(text)) if bond]
    bonds = BOND_ROW.findall(text) + objects
    return [(letter, denom) for letter, denom in bonds if LETTERS.get(letter) != int(denom)]


def test_mentioned_documents_are_there() -> None:
    """Also those that comments and programs name."""
    lacks = {name: unknown_documents((TOP / name).read_text(errors="ignore")) for name in files()}
    assert {name: found for name, found in lacks.items() if found} == {}
    assert unknown_documents("see docs/" + "GONE.md"), "control"


def test_index_names_all_documents() -> None:
    names = [path.name for path in (TOP / "docs").iterdir()]
    assert unindexed((TOP / "docs/README.md").read_text(), names) == []
    assert unindexed("[a](A.md)", ["A.md", "B.md", "README.md"]) == ["B.md"], "control"


def test_bonds_have_their_letters() -> None:
    paths = [*(TOP / "docs").iterdir(), *(TOP / "samples").iterdir()]
    texts = {path: path.read_text() for path in paths if path.suffix in (".md", ".csv", ".json")}
    assert {path: wrong_letters(text) for path, text in texts.items() if wrong_letters(text)} == {}
    for text in ("M3EE,10000,2006-04,7,", '[{"denom": 75, "serial": "L1EE"}]'):
        assert wrong_letters(text), "control"


FENCE = "```"
#: Documents with a fault each, and a part of what is said of it.
FAULTS = {
    "a link to no file": ("[a](NOWHERE.md)", "no such file"),
    "a link to no heading": ("[a](whole.md#nowhere)", "no such heading"),
    "a link over two lines": ("[a\nb](whole.md#nowhere)", "no such heading"),
    "a name of no file": ("`docs/NOWHERE.md`", "there is no docs/NOWHERE.md"),
    "another output": (f"{FENCE}\n$ echo 1\n2\n{FENCE}", "it prints"),
    "another output in a line": ("`./ee_cli --version` prints `ee_cli 0`.", "it prints"),
    "a command without its mark": (f"{FENCE}\n./ee_cli --version\n{FENCE}", "without `$ `"),
    "a test that isn't there": (
        f"<!-- not run: tests/no.py does -->\n{FENCE}\n{FENCE}",
        "no tests/no",
    ),
    "not in its file": (f"<!-- quoted from README.md -->\n{FENCE}\nno such\n{FENCE}", "stand so"),
    "goes on from nowhere": (f"<!-- goes on from NO.md -->\n{FENCE}\n$ ls\n{FENCE}", "NO.md"),
    "a line that is too long": ("long " * 20 + "lines", "has 105 columns"),
    "a block without an end": (f"{FENCE}\n$ echo 1\n1\n", "has no end"),
}


def written(folder: Path, text: str) -> Path:
    (folder / "whole.md").write_text("# A heading\n")
    (folder / "it.md").write_text(text)
    return folder / "it.md"


@pytest.mark.parametrize("fault", FAULTS)
def test_fault_of_a_document_is_found(program: Path, folder: Path, fault: str) -> None:
    text, said = FAULTS[fault]
    with pytest.raises((AssertionError, OSError), match=re.escape(said)):
        run_document(written(folder, text), folder / "copy", program)


def test_right_document(program: Path, folder: Path) -> None:
    """Control: a document without a fault is right."""
    block = f"<!-- goes on from README.md -->\n{FENCE}\n$ ls day.db\nday.db\n{FENCE}\n"
    path = written(folder, f"[a](whole.md#a-heading)\n\n{block}")
    assert run_document(path, folder / "copy", program) == 1
