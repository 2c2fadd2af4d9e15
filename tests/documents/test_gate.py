"""What the gate's .ci/run stops on, counts and names, over a small repository and a played rt."""

import shutil
import subprocess
import sys
import tomllib
from pathlib import Path

import pytest

from tests.conftest import TOP
from tests.shared.counter_calls import run

TESTS = '''"""Tests."""

import os
import shutil

import pytest


def test_good() -> None:
    assert os.environ["EE_CLI"].endswith("ee_cli")


def test_odd() -> None:
    assert "ODD" not in os.environ, "two is odd"


@pytest.mark.skipif(shutil.which("no-such-command") is None, reason="needs no-such-command")
def test_missing() -> None:
    pass
'''
COPIED = ("pyproject.toml", "samples/rates.csv", "crates/published_values/data/rates.csv")
#: What a machine has that has no package for tests. Most gates here run so, which is quick.
BARE = "sh bash env git python3 awk cmp head wc mktemp nproc timeout cat rm mkdir ln date dirname"


class Gate:
    """A repository with the gate of this one, and a folder of the tools that are played."""

    def __init__(self, top: Path) -> None:
        self.top, self.tools = top, top / "tools"
        shutil.copytree(TOP / ".ci", top / ".ci")
        for name in COPIED:
            (top / name).parent.mkdir(parents=True, exist_ok=True)
            shutil.copy(TOP / name, top / name)
        for name in ("lemmas", "inner", "one_opening"):
            (top / ".ci" / name).write_text("#!/bin/sh\n")
        self.tools.mkdir()
        shutil.copy(TOP / "tests/documents/gate_rt", self.tools / "rt")
        (top / "tests").mkdir()
        (top / "tests/test_some.py").write_text(TESTS)
        subprocess.run(["git", "-C", top, "init", "-q"], check=True)

    def run(self, *words: str, tool: str = "sh", **settings: str) -> tuple[int, list[str]]:
        """Runs the gate on a machine that has one tool more."""
        bare = self.top / "bare"
        bare.mkdir(exist_ok=True)
        for name in {*BARE.split(), *tool.split()} - {path.name for path in bare.iterdir()}:
            (bare / name).symlink_to(shutil.which(name) or name)
        (bare / "python3").unlink(missing_ok=True)
        (bare / "python3").symlink_to(sys.executable)
        subprocess.run(["git", "-C", self.top, "add", "-A"], check=True)
        shutil.rmtree(self.top / "crates/ee_cli", ignore_errors=True)
        env = {"HOME": str(self.top), "PATH": f"{self.tools}:{bare}", **settings}
        ran = run(self.top / ".ci/run", *words, env=env)
        return ran.returncode, ran.stdout.splitlines()


@pytest.fixture
def gate(tmp_path: Path) -> Gate:
    return Gate(tmp_path)


def test_all_is_right(gate: Gate) -> None:
    """The last line counts the tests too, and what was skipped, which is named."""
    status, said = gate.run()
    assert (status, said[-2:]) == (0, ["1 skipped", "5 passed, 0 failed"]), said
    assert any("needs no-such-command" in line for line in said)


def test_wrong_test(gate: Gate) -> None:
    """Control: a test that fails twice."""
    status, said = gate.run(ODD="1")
    assert (status, said[-2:]) == (1, ["1 skipped", "4 passed, 1 failed"]), said
    assert any("two is odd" in line for line in said)
    assert any(line.startswith("once more: tests/test_some.py::test_odd") for line in said)


def test_wrong_crate(gate: Gate) -> None:
    """Control: rt ci fails, and no test runs."""
    status, said = gate.run(FAILED="2")
    assert (status, said[-1]) == (1, "3 passed, 2 failed")


def test_no_program(gate: Gate) -> None:
    status, said = gate.run(NO_PROGRAM="1")
    assert (status, said[-1]) == (1, "3 passed, 1 failed") and "there is no program" in said[-2]


def test_bare_machine(gate: Gate) -> None:
    """A machine without pytest, black, mypy and the like: they are named, and the gate passes."""
    hidden = gate.top / "hidden"
    hidden.mkdir()
    (hidden / "pytest.py").write_text("raise ImportError\n")
    status, said = gate.run(PYTHONPATH=str(hidden))
    assert (status, said[-2:]) == (0, ["1 skipped", "3 passed, 0 failed"]), said
    assert "missing: Debian's python3-pytest" in said
    assert "NO TEST OF PYTEST RUNS, since it is missing" in said
    for name in ("black", "mypy", "shellcheck", "tsc"):
        assert f"{name} (Debian's " in said[0]


def test_unreached_loopback(gate: Gate) -> None:
    """A machine that doesn't reach itself: the gate says so, and counts it as skipped."""
    tests = gate.top / ".ci/tests"
    tests.write_text(tests.read_text().replace('("127.0.0.1", 0)', '("192.0.2.1", 0)'))
    status, said = gate.run()
    assert (status, said[-2:]) == (0, ["1 skipped", "3 passed, 0 failed"])
    assert said[-3].startswith("ALL TESTS ARE SKIPPED: this machine doesn't reach its own 127.0.")


def test_from_nothing(gate: Gate) -> None:
    assert "words: ci --anew" in gate.run("--from-nothing")[1]
    assert gate.run("ee_io")[0] == 2, "control: the name of a crate is no gate"


STOPS = tomllib.loads((TOP / "tests/documents/stops.toml").read_text())
SLOW = ("wrong type", "no types")
NAMES = [pytest.param(name, marks=[pytest.mark.slow] * (name in SLOW)) for name in STOPS]


@pytest.mark.parametrize("what", NAMES)
def test_stops(gate: Gate, what: str) -> None:
    """Control: a script that is wrong, after which nothing is proved."""
    name, text, said, needs = STOPS[what]
    if not all(map(shutil.which, needs.split())):
        pytest.skip(f"needs {needs}")
    (gate.top / name).parent.mkdir(parents=True, exist_ok=True)
    (gate.top / name).write_text(text)
    status, lines = gate.run(tool=needs)
    assert status == 1 and any(said in line for line in lines), lines
    assert not any("passed" in line for line in lines)
