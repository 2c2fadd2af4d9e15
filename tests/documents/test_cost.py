"""`.ci/cost` gives every part of the gate and every crate its own processor time."""

import re
import sys
from pathlib import Path

import pytest

from tests.conftest import TOP
from tests.shared.counter_calls import run

#: Starts processes, one after another: SECONDS FOLDER WORDS .. of each. A process works for its
#: seconds, and stays a while to be seen.
STUB = """
import os, subprocess, sys
WORK = "import sys, time\\nwhile time.process_time() < float(sys.argv[1]): pass\\ntime.sleep(1)"
for seconds, folder, words in {processes}:
    os.makedirs(folder, exist_ok=True)
    subprocess.run([words[0], "-c", WORK, str(seconds), *words[1:]], executable=sys.executable, cwd=folder, check=True)
print({printed!r}, end="")
sys.exit({status})
"""
MARK = "<!-- the cost: .ci/cost --page .ci/README.md .ci/run --from-nothing -->"
PAGE = f"Before.\n{MARK}\nold\n<!-- the end of the cost -->\nAfter.\n"
CHECK = "/kit/bin/rattle check --crate-name"
Process = tuple[float, str, str]
#: The seconds, the folder and the words of a process for every part.
PROCESSES: list[Process] = [
    (0.6, "crates/one", f"{CHECK} one"),
    (2.0, "crates/one", f"{CHECK} one --test"),
    (0.5, "crates/one", "/kit/bin/rattle-link out/one"),
    (3.0, "rt-edit-7-a", f"{CHECK} one --incremental TOP/rt-edits-7-b/seed"),
    (0.9, "rt-edit-7-c", f"{CHECK} one --incremental TOP/rt-edits-7-b/0"),
    (1.2, "rt-edit-7-d", f"{CHECK} one --incremental TOP/rt-edits-7-b/1"),
    (0.9, "rt-edit-7-e", f"{CHECK} two"),
    (0.6, "rt-run-7-f/data", "/kit/bin/runner"),
]
FIRST = PROCESSES[:1]


class Gate:
    def __init__(self, top: Path) -> None:
        self.top, self.page = top, top / "page.md"
        self.page.write_text(PAGE)

    def cost(
        self, started: list[Process], printed: str = "", status: int = 0, name: str = "rt"
    ) -> tuple[int, str]:
        top, path = str(self.top), self.top / name
        processes = [
            (seconds, f"{top}/{folder}", words.replace("TOP", top).split())
            for seconds, folder, words in started
        ]
        path.parent.mkdir(exist_ok=True)
        path.write_text(STUB.format(processes=processes, printed=printed, status=status))
        words = ("--least", "0", "--page", self.page, sys.executable, path)
        ran = run(TOP / ".ci/cost", *words)
        return ran.returncode, ran.stdout


@pytest.fixture
def gate(tmp_path: Path) -> Gate:
    return Gate(tmp_path)


def cells_of(text: str, first: str) -> list[str]:
    found = re.search(rf"^\| ({first}.*) \|$", text, re.M)
    return found[1].split(" | ") if found else []


def numbers(cells: list[str]) -> list[float]:
    return [float(found[0]) for cell in cells if (found := re.match(r"[\d.]+", cell))]


@pytest.mark.slow
def test_parts(gate: Gate) -> None:
    """A crate's proof and link, its tests, its second check, and its wrong bodies."""
    status, said = gate.cost(PROCESSES, "rt: one proved\nrt: one: its tests are proved\n")
    one, two = cells_of(said, "one "), cells_of(said, "two ")
    assert status == 0 and said.startswith("rt: one proved\n")
    assert [round(it) for it in numbers(one[1:2] + one[3:])] == [1, 2, 3, 2, 8], one
    assert "for 2" in one[5] and [round(it) for it in numbers(two[1:])] == [0, 1, 1], two
    assert "3 wrong bodies, 1 seconds each" in said and "the tests over" not in said
    assert "| .. running tests and programs | 0.0 |" in said
    page = gate.page.read_text()
    assert page.startswith("Before.\n") and page.endswith("After.\n")
    assert "old" not in page and "| one | " in page


def test_tests_of_the_program(gate: Gate) -> None:
    """What .ci/tests starts belongs to the tests. Without a check the page is as it was."""
    status, said = gate.cost(FIRST, name=".ci/tests")
    assert status == 2 and "the tests over the built program" in said and not cells_of(said, "one ")
    assert gate.page.read_text() == PAGE


def test_kept_work(gate: Gate) -> None:
    """Control: what is kept is no cost of a whole run."""
    kept = "rt: one is kept: an earlier run on this machine proved the same files\n"
    status, said = gate.cost(FIRST, kept)
    assert status == 0 and gate.page.read_text() == PAGE and "isn't written" in said


def test_failed_run(gate: Gate) -> None:
    """Control: a run that failed has its status, and the page is as it was."""
    status, said = gate.cost(FIRST, status=1)
    assert status == 1 and gate.page.read_text() == PAGE and cells_of(said, "one ") != []


def test_other_process(gate: Gate) -> None:
    """Control: a process without the words of a check is in no crate."""
    status, said = gate.cost([(0.6, ".", "/kit/bin/rattle fmt"), *FIRST])
    assert status == 0 and round(numbers(cells_of(said, "one ")[1:])[0]) == 1, said


def test_page_without_marks(gate: Gate) -> None:
    gate.page.write_text("no marks\n")
    assert gate.cost(FIRST)[0] == 1 and gate.page.read_text() == "no marks\n"
