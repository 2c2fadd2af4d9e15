"""Pages whose sentences are short: none has more than 30 words, and one in ten more than 25."""

import re

import pytest

from tests.conftest import TOP

MOST, LONG = 30, 25
PAGES = sorted(
    str(path.relative_to(TOP))
    for place in ("*.md", "*/*.md", ".ci/*.md", "samples/*/*.md")
    for path in TOP.glob(place)
)


def paragraphs(text: str) -> list[str]:
    """Paragraphs, points of lists, and cells of tables, without blocks and comments."""
    text = re.sub(r"^ *```.*?^ *```", "", text, flags=re.S | re.M)
    text = re.sub(r"<!--.*?-->", "", text, flags=re.S)
    found = [""]
    for line in text.splitlines():
        if line.startswith("|"):
            found += re.split(r"(?<!\\)\|", line.strip("|"))
        elif not line.strip() or line.startswith("#"):
            found.append("")
        elif re.match(r" *([-*]|\d+\.) ", line):
            found.append(re.sub(r"^ *([-*]|\d+\.) ", "", line))
        else:
            found[-1] += f" {line.strip()}"
    return found


def lengths(text: str) -> list[int]:
    counts = []
    for part in paragraphs(text):
        part = re.sub(r"!?\[([^\]]*)\]\([^)]*\)", r"\1", re.sub(r"`[^`]*`", "CODE", part))
        for sentence in re.split(r"(?<=[.?!])\W*\s+(?=\W*(?:[A-Z0-9]|nginx|std))", part):
            counts.append(len(re.findall(r"[^\s|]*\w[^\s|]*", sentence)))
    return [count for count in counts if count > 2]


def faults(text: str) -> list[str]:
    counts = lengths(text)
    long = [count for count in counts if count > LONG]
    found = [f"a sentence of {count} words" for count in counts if count > MOST]
    if 10 * len(long) > len(counts):
        found.append(f"{len(long)} of {len(counts)} sentences have more than {LONG} words")
    return found


@pytest.mark.parametrize("page", PAGES)
def test_sentences_are_short(page: str) -> None:
    assert faults((TOP / page).read_text()) == []


def test_a_long_sentence_is_found() -> None:
    """Control: one sentence too long, and too many that are nearly so."""
    text = (TOP / "docs/SIZING.md").read_text()
    assert faults(text + "\n" + "word " * 31 + "\n") == ["a sentence of 31 words"]
    many = faults(text + ("\n" + "word " * 26 + "\n") * 9)
    assert len(many) == 1 and "sentences have more than 25 words" in many[0]
