"""found.toml names a test for every wrong program, removed guard and control."""

import subprocess
import sys
import tomllib

from tests.conftest import TOP

FOUND: list[dict[str, str]] = tomllib.loads((TOP / "tests/found.toml").read_text()).get("found", [])


def collected(*files: str) -> set[str]:
    """The names of the tests of these files, with and without their parameters."""
    words = [sys.executable, "-m", "pytest", "--collect-only", "-q", *files]
    said = subprocess.run(words, cwd=TOP, capture_output=True, text=True).stdout
    names = {line for line in said.splitlines() if "::" in line}
    return names | {name.partition("[")[0] for name in names}


def lacking(rows: list[dict[str, str]]) -> list[str]:
    files = sorted({row["test"].partition("::")[0] for row in rows})
    known = collected(*files)
    skipped = {file for file in files if not any(name.startswith(f"{file}::") for name in known)}
    lost = [row["test"] for row in rows if row["test"] not in known]
    return [test for test in lost if not is_written(test, skipped)]


def is_written(test: str, skipped: set[str]) -> bool:
    """Whether a test is in a file that is skipped here, since a module of Python is missing."""
    file, _, name = test.partition("::")
    text = (TOP / file).read_text() if file in skipped and (TOP / file).exists() else ""
    return f"def {name.partition('[')[0]}(" in text


def test_every_fault_has_its_test() -> None:
    assert lacking(FOUND) == []
    faults = [row["fault"] for row in FOUND]
    assert len(faults) == len(set(faults)), "a fault stands twice"


def test_a_lost_test_is_found() -> None:
    """Control: a row whose test isn't there."""
    here = "tests/test_found.py::test_every_fault_has_its_test"
    lost = {"fault": "none", "test": "tests/test_found.py::test_that_is_gone"}
    assert lacking([{"fault": "none", "test": here}, lost]) == [lost["test"]]
