"""Every reader and writer of a CSV file names the columns that docs/FORMATS.md gives it: a file of
the product that names the first columns of a header, with or without quotes, names all of them."""

import re

import pytest

from tests.conftest import TOP
from tests.documents.test_commands import files

BEGINS = {"inventory": r"serial,denom,\w+,owner,coowner", "rates": "from,rate,exten"}
ROWS = re.findall(r"^\| (\w+) \| .*`(\S+)` \|", (TOP / "docs/FORMATS.md").read_text(), re.M)
HEADERS = {kind: header for kind, header in ROWS if kind in BEGINS}
#: The tests over the program fail by themselves. Only the rules apart from the program are read.
TESTS = re.compile(r"tests/(?!shared/)|crates/\w+_tests/|\.ci/|crates/.*/(proofs|must-fail)/")


@pytest.fixture(scope="module")
def texts() -> dict[str, str]:
    names = [name for name in files() if not TESTS.match(name)]
    found = {name: (TOP / name).read_text(errors="replace") for name in names}
    return {name: re.sub(r",\s", ",", re.sub(r"[\"'`]", "", text)) for name, text in found.items()}


def unaware(texts: dict[str, str], begin: str, header: str) -> list[str]:
    """The files that name the first columns, and not all of them."""
    return [name for name, text in texts.items() if re.search(begin, text) and header not in text]


@pytest.mark.parametrize("kind", BEGINS)
def test_headers(texts: dict[str, str], kind: str) -> None:
    begin, header = BEGINS[kind], HEADERS[kind]
    lacks = unaware(texts, begin, header)
    assert not lacks, f"these don't name {header}:\n" + "\n".join(lacks)
    found = unaware(texts, begin, f"{header},branch")
    assert len(found) > 15 and "clients/calculator/files.js" in found, "control: a new column"
