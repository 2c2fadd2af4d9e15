"""Each point of `.ci/points.toml` has a test and a row that exist, or a reason for none."""

import re
import tomllib
from pathlib import Path

import pytest

from tests.conftest import TOP

TABLE: dict[str, dict[str, list[str]]] = tomllib.loads((TOP / ".ci/points.toml").read_text())
POINTS = {f"{crate} {name}": row for crate, rows in TABLE.items() for name, row in rows.items()}


def place(where: str, test: str) -> tuple[Path, list[Path]]:
    """The file that defines a test, and the files that may have its rows: those of its folder."""
    if where.endswith(".py"):
        folder = (TOP / where).parent
        return TOP / where, [*folder.glob("*.py"), *folder.glob("*.toml")]
    source = TOP / "crates" / where / "src"
    return source.joinpath(*test.split("::")[:-1]).with_suffix(".rt"), [*source.rglob("*.rt")]


def lacks(where: str, test: str, row: str) -> list[str]:
    """What isn't there of a test and its row."""
    file, files = place(where, test)
    name = test.split("::")[-1]
    has_test = file.exists() and re.search(rf"\b(fn|def) {name}\(", file.read_text())
    has_row = row and any(row in path.read_text() for path in files)
    return [what for what, is_there in [(test, has_test), (row, has_row)] if not is_there]


def edit(crate: str, name: str) -> Path:
    return TOP / "crates" / crate / "must-fail" / f"{name}.edit"


@pytest.mark.parametrize("point", POINTS)
def test_point(point: str) -> None:
    """No wrong body shows the same point once more."""
    crate, name = point.split()
    assert not edit(crate, name).exists()
    if len(POINTS[point]) == 2:
        assert all(POINTS[point])
        return
    _, where, test, row, *above = POINTS[point]
    assert all(edit(*name.split("/")).exists() for name in above)
    assert lacks(where, test, row) == []
    assert lacks(where, f"{test}_", row) == [f"{test}_"], "control: another test"
    assert lacks(where, test, f"{row}\0") == [f"{row}\0"], "control: another row"
