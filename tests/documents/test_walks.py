"""The walks of CONTRIBUTING.md name just the files that a search of the repository finds. A walk is a
table behind a comment `<!-- walk: WORDS -->` (or `walk, with proofs`); WORDS is a regular expression, in
which `{blue_moon}` is that word in its spellings. It has a line for its version and one for limits."""

import re
from typing import NamedTuple

import pytest

from tests.conftest import TOP
from tests.documents.test_commands import files

WALKS = "CONTRIBUTING.md"
LEFT_OUT = (WALKS, ".ci/points.toml", "docs/DECISIONS.md", "benchmarks/README.md")
COMMENT = re.compile(r"<!-- walk(, with proofs)?: (.*\S) -->")
LINES = ("**Version:** ", "**Limits:** ")


class Walk(NamedTuple):
    heading: str
    with_proofs: bool
    words: re.Pattern[str]
    text: str
    files: set[str]


def expanded(path: str) -> list[str]:
    """The paths that a text stands for: one for each ending in {..}."""
    found = re.fullmatch(r"(.*)\{(.*)\}(.*)", path)
    return [found[1] + part + found[3] for part in found[2].split(",")] if found else [path]


def pattern_of(words: str) -> re.Pattern[str]:
    """The expression in which `{a_word}` is that word in any of its spellings."""
    for word in re.findall(r"\{([a-z]+(?:_[a-z]+)+)\}", words):
        words = words.replace(f"{{{word}}}", f"(?i:{word.replace('_', '[_-]?')})")
    return re.compile(words)


def walks() -> list[Walk]:
    found = []
    sections = re.findall(r"^#+ (.*)\n((?:(?!#).*\n?)*)", (TOP / WALKS).read_text(), re.M)
    for heading, text in sections:
        for comment in COMMENT.finditer(text):
            rows = re.findall(r"^\| .* \| ([^|]*) \|$", text[comment.end() :], re.M)
            spans = [span for row in rows for span in re.findall(r"`([^`]*)`", row)]
            named = {path for span in spans for path in expanded(span)}
            found.append(Walk(heading, bool(comment[1]), pattern_of(comment[2]), text, named))
    return found


def lacking_lines(text: str) -> list[str]:
    return [begin for begin in LINES if not re.search(rf"^{re.escape(begin)}\S", text, re.M)]


@pytest.fixture(scope="module")
def texts() -> dict[str, str]:
    names = [name for name in files() if "/must-fail/" not in name and name not in LEFT_OUT]
    return {name: (TOP / name).read_text(errors="replace") for name in names}


@pytest.mark.parametrize("walk", walks(), ids=[walk.heading for walk in walks()])
def test_walk(walk: Walk, texts: dict[str, str]) -> None:
    there = {name for name in texts if walk.with_proofs or "/proofs/" not in name}
    found = {name for name in there if walk.words.search(texts[name])}
    assert sorted(found - walk.files) == [], "it lacks these"
    assert sorted(walk.files - found) == [], "it names these, which lack the words or aren't there"
    assert lacking_lines(walk.text) == []
    for begin in LINES:
        assert lacking_lines(walk.text.replace(begin, "")) == [begin], "control"


def test_there_are_walks() -> None:
    """Control: the walks are read, each with files."""
    assert len(walks()) >= 4 and all(len(walk.files) > 20 for walk in walks())


@pytest.mark.parametrize("word", ["blue_moon", "blueMoon", "BlueMoon", "blue-moon", "BLUE_MOON"])
def test_spellings(word: str) -> None:
    """Control: a word is found in its spellings, and others aren't."""
    pattern = pattern_of("{blue_moon}")
    assert pattern.search(f"a.{word} = 1")
    assert not pattern.search("blue sky") and not pattern.search("moon")
