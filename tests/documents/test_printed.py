"""The sheet for the window prints on two sides, and its PDF is the page's."""

import re
import sys
from pathlib import Path

import pytest

from tests.conftest import TOP
from tests.shared.counter_calls import run

PAGE = TOP / "docs" / "AT_THE_WINDOW.md"
PDF = PAGE.with_suffix(".pdf")
pytestmark = pytest.mark.needs("pdftotext", "module:weasyprint", "module:markdown")


def printed(page: Path, pdf: Path) -> list[str]:
    assert run(sys.executable, TOP / "packaging/printed", page, pdf).returncode == 0
    return sides(pdf)


def sides(pdf: Path) -> list[str]:
    return run("pdftotext", "-layout", pdf, "-").stdout.split("\f")[:-1]


def pictures(pdf: Path) -> list[list[str]]:
    """The widths, heights and sizes of the pictures of a PDF."""
    cells = [line.split() for line in run("pdfimages", "-list", pdf).stdout.splitlines()[2:]]
    return [line[3:5] + line[-2:-1] for line in cells]


def other_page(folder: Path, text: str) -> Path:
    (folder / "pictures").symlink_to(PAGE.parent / "pictures")
    page = folder / "page.md"
    page.write_text(text)
    return page


def test_the_sheet_has_two_sides() -> None:
    assert [text.lstrip()[:6] for text in sides(PDF)] == ["At the", "Side 2"]


def test_the_pdf_is_of_this_page(folder: Path) -> None:
    assert printed(PAGE, folder / "page.pdf") == sides(PDF)
    assert pictures(folder / "page.pdf") == pictures(PDF) != []


def test_a_longer_page_is_found(folder: Path) -> None:
    """Control: with a second table of what is odd the sheet has a third side."""
    text = PAGE.read_text()
    page = other_page(folder, text + text[text.index("| You see") : text.index("![A payment")])
    assert len(printed(page, folder / "page.pdf")) > 2


def test_a_changed_sentence_is_found(folder: Path) -> None:
    """Control: the PDF of another page isn't this page's."""
    page = other_page(folder, PAGE.read_text().replace("Don't pay.", "Pay it."))
    assert printed(page, folder / "page.pdf") != sides(PDF)


def unknown_words(text: str) -> list[str]:
    """The sentences in italics that the page for tellers doesn't have."""
    folder = TOP / "clients/teller"
    words = "".join(file.read_text() for file in [*folder.glob("*.js"), *folder.glob("*.html")])
    found = re.findall(r"(?<!\*)\*([^*]+)\*(?!\*)", re.sub(r"\s+", " ", text))
    parts = [part.strip(" .") for quote in found for part in re.split(r"\.\.|\. ", quote)]
    return [part for part in parts if part not in words]


def test_other_words_are_found() -> None:
    """The words are the page's. Control: a button of another name."""
    text = PAGE.read_text()
    assert unknown_words(text) == []
    assert unknown_words(text.replace("*Send it now*", "*Send at once*")) == ["Send at once"]
