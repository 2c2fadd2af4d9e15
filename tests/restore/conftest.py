"""Run these by `pytest tests/restore`, as root for those with the marker `root`. EE_CLI names the program."""

import shutil
from pathlib import Path
from typing import Iterator

import pytest

from tests.conftest import in_memory
from tests.restore.counter_day import Day, Served, run


@pytest.fixture(scope="session")
def whole_day(program: Path) -> Iterator[Day]:
    """A day with 200 payments, of which 150 are archived, 200 logged, and 100 on the second machine."""
    with in_memory() as made:
        found = Day(str(program), made / "day")
        found.begin()
        found.pay(range(100))
        found.archive_now()
        assert found.pull().returncode == 0
        found.pay(range(100, 150))
        found.archive_now()
        found.pay(range(150, 200))
        yield found
        run("chattr", "-R", "-a", made)


@pytest.fixture
def day(whole_day: Day, folder: Path) -> Iterator[Day]:
    """That day, for one test."""
    shutil.copytree(whole_day.folder, folder, dirs_exist_ok=True)
    yield Day(whole_day.program, folder, whole_day.at)
    run("chattr", "-R", "-a", folder)


@pytest.fixture
def served(day: Day) -> Iterator[Served]:
    """That day, and `serve` over its store until the end."""
    found = Served(day)
    yield found
    found.kill()
