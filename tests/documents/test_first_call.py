"""`./ee_cli` proves, builds and answers, through stops, faults and other toolchains, over a command
`rt` that proves nothing, writes down how it is called, and makes what the real one makes; and what a
usual call costs. If it is held, it waits in its first crate until the case lets it go."""

import contextlib
import os
import re
import shutil
import signal
import subprocess
import tempfile
import time
from pathlib import Path
from typing import Any, Callable

import pytest

from tests.conftest import TOP, until
from tests.shared.counter_calls import run

#: The seconds after which a call that still runs is wrong.
PATIENCE = 600
WANTED = re.findall(r'^wanted="(.*)"$', (TOP / "ee_cli").read_text(), re.M)[0]
OTHER = "rattle-kit-12a logic 0123456789abcdef"
WITHOUT_RT = "/usr/bin:/bin"
VALUE = "value 50 2010-05 2015-05 3.50"
SMALL, WHOLE = "ee_cli_value_alone", "ee_cli"


class Call:
    """A running call of `./ee_cli`. Its messages go to a file, which can be read meanwhile."""

    def __init__(self, words: list[str], env: dict[str, str]) -> None:
        self.messages = tempfile.TemporaryFile("w+")
        pipes: dict[str, Any] = {"stdout": subprocess.PIPE, "stderr": self.messages}
        ready = lambda: signal.signal(signal.SIGINT, signal.SIG_DFL)
        self.process = subprocess.Popen(words, env=env, text=True, preexec_fn=ready, **pipes)

    def said(self) -> str:
        return os.pread(self.messages.fileno(), 1 << 20, 0).decode()

    def ended(self) -> tuple[int, str, str]:
        out, _ = self.process.communicate(timeout=PATIENCE)
        return self.process.returncode, out, self.said()


class Case:
    """A folder with the program's sources and the toolchain that proves nothing."""

    def __init__(self, top: Path) -> None:
        self.top, self.path = top, f"{top}/bin:{WITHOUT_RT}"
        for name in ("ee_cli", "crates.txt"):
            shutil.copy(TOP / name, top)
        for name in re.findall(r"^(\w+)[^#\n]*:", (TOP / "crates.txt").read_text(), re.M):
            for part in ("src", "specs"):
                (top / "crates" / name / part).mkdir(parents=True)
            (top / "crates" / name / "specs/Old.antt").write_text("old")
            self.write(name, "first")
        (top / "bin").mkdir()
        shutil.copy(TOP / "tests/documents/rt", top / "bin")
        self.identify(WANTED)

    def identify(self, identity: str) -> None:
        (self.top / "KIT-ID").write_text(f"{identity}\n")

    def source(self, name: str) -> Path:
        return self.top / "crates" / name / "src/source.rt"

    def write(self, name: str, text: str) -> None:
        self.source(name).write_text(text)

    def environment(self) -> dict[str, str]:
        return {**os.environ, "PATH": self.path, "CRATES": "ee_units ee_store"}

    def begin(self, words: str, *before: str) -> Call:
        return Call([*before, str(self.top / "ee_cli"), *words.split()], self.environment())

    def call(self, words: str, *before: str) -> tuple[int, str, str]:
        return self.begin(words, *before).ended()

    def begin_held(self, words: str) -> Call:
        """A call whose toolchain was called, and waits until `go`."""
        (self.top / "held").touch()
        call = self.begin(words)
        until((self.top / "calls").exists, "the toolchain is called", PATIENCE)
        return call

    def go(self) -> None:
        (self.top / "held").unlink()

    def processes(self) -> list[str]:
        found = []
        for place in Path("/proc").glob("[0-9]*/cwd"):
            with contextlib.suppress(OSError):
                found += [place.parent.name] * place.readlink().is_relative_to(self.top)
        return found

    def calls(self) -> list[str]:
        path = self.top / "calls"
        found = path.read_text().splitlines() if path.exists() else []
        path.unlink(missing_ok=True)
        return found

    def has(self, name: str) -> bool:
        return (self.top / "crates" / name / "out" / f"{name}.sources").exists()

    def is_usual(self) -> bool:
        """The built program answers, nothing is said, and the toolchain isn't called."""
        return self.call("sheet")[2] == "" and not self.calls()


@pytest.fixture
def case(folder: Path) -> Case:
    return Case(folder)


@pytest.fixture
def built(case: Case) -> Case:
    assert case.call("sheet")[:2] == answer(WHOLE, "sheet") and case.calls()
    return case


def answer(name: str, words: str, source: str = "first") -> tuple[int, str]:
    return 1, f"{name} {source}: {words}\n"


def test_without_the_toolchain(case: Case) -> None:
    case.path = WITHOUT_RT
    status, out, err = case.call(VALUE)
    assert (status, out) == (3, "") and err.endswith(f"rt is not on the PATH: {WANTED}\n")
    assert not any(case.top.glob("crates/*/out"))


def test_value_first(case: Case) -> None:
    """A value comes from the small program; any other line waits for the whole one."""
    status, out, err = case.call(VALUE)
    assert (status, out) == answer(SMALL, VALUE), err
    calls = case.calls()
    assert len(calls) == 7, "seven crates are proved, lowest first"
    assert calls[0].startswith("ee_units lib") and calls[-1].startswith(f"{SMALL} run")
    assert re.search(r"7 of 7 crates .* about \d+ minutes on \d cores", err)
    assert "crate 6 of 7" in err and "crate 6 of 6" not in err
    last = err.splitlines()[-2:]
    another = r"another command proves and builds the whole program in about \d+ minutes on \d"
    assert re.search(another, last[0]) and "docs/INSTALL.md" in last[1]
    assert case.call(VALUE) == (*answer(SMALL, VALUE), "") and not case.calls()
    longer = f"{VALUE} 4.00 5.00"
    assert case.call(longer)[:2] == answer(WHOLE, longer)
    assert [call.split(" ", 1)[1][:8] for call in case.calls()] == ["all test"]
    assert case.call(VALUE)[:2] == answer(WHOLE, VALUE)


def test_other_words_first(case: Case) -> None:
    """The small program is built before the whole one, next to the first crate of the store."""
    status, out, err = case.call("sheet 7")
    assert (status, out) == answer(WHOLE, "sheet 7"), err
    first = r"about \d+ minutes on \d cores; `./ee_cli value ..` works in about \d+"
    assert re.search(first, err.splitlines()[0])
    calls = [call.split(" --")[0] for call in case.calls()]
    assert case.has(SMALL) and calls[-1] == "ee_cli all test" and "ee_store_tables lib" in calls[:2]


def test_sources_that_change_meanwhile(built: Case) -> None:
    """A source that changes while it is proved is proved again; one written as it was isn't."""
    time.sleep(0.1)
    built.write("ee_units", "first")
    assert built.call("sheet")[:2] == answer(WHOLE, "sheet") and not built.calls()
    built.write("ee_cli", "third")
    held = built.begin_held("sheet")
    time.sleep(0.1)
    built.write("ee_cli", "fourth")
    built.go()
    held.ended()
    built.calls()
    assert built.call("sheet")[:2] == answer(WHOLE, "sheet", "fourth") and built.calls()


FEWER = "ee_cli: ee_cli_value_alone\nee_cli_value_alone:\n"
CHANGES: dict[str, Callable[[Path], object]] = {
    "changed": lambda top: (top / "crates/ee_cli/src/source.rt").write_text("second"),
    "added": lambda top: (top / "crates/ee_store_tables/specs/New.antt").write_text("new"),
    "removed": lambda top: (top / "crates/ee_store_tables/specs/Old.antt").unlink(),
    "crates.txt": lambda top: (top / "crates.txt").write_text(FEWER),
}


@pytest.mark.parametrize("change", CHANGES)
def test_changed_sources(built: Case, change: str) -> None:
    time.sleep(0.1)
    CHANGES[change](built.top)
    source = "second" if change == "changed" else "first"
    assert built.call("sheet")[:2] == answer(WHOLE, "sheet", source) and built.calls()
    assert built.is_usual()


def test_crate_that_fails(case: Case) -> None:
    """A crate that isn't proved ends a call with status 3 and what was said, and no program."""
    fails = case.top / "crates/ee_value/fails"
    fails.touch()
    status, out, err = case.call(VALUE)
    assert (status, out) == (3, "") and "error: ee_value is not proved" in err
    assert f"{SMALL}.log has all messages" in err and not case.has(SMALL)
    fails.unlink()
    assert case.call(VALUE)[:2] == answer(SMALL, VALUE), "once it is mended, the next call goes on"
    (case.top / "crates/ee_store/fails").touch()
    status, out, err = case.call("sheet")
    assert status == 3 and "error: ee_store is not proved" in err and not case.has(WHOLE)
    assert case.call(VALUE)[:2] == answer(SMALL, VALUE)


@pytest.mark.parametrize("number, wanted", [(2, 130), (15, 130), (9, -9)])
def test_stopped(case: Case, number: int, wanted: int) -> None:
    """A call that is stopped leaves no program, and the next one goes on."""
    call = case.begin_held("sheet")
    assert case.processes(), "control: the processes of a call are found"
    call.process.send_signal(number)
    status, _, err = call.ended()
    assert status == wanted, err
    if number != signal.SIGKILL:
        assert "what was proved is kept" in err
        until(lambda: not case.processes(), "the toolchain, which is held, is ended", PATIENCE)
    assert not case.has(SMALL)
    case.go()
    assert case.call("sheet")[:2] == answer(WHOLE, "sheet")


def test_calls_at_once(case: Case) -> None:
    """Two of three calls say that they wait; all are answered, and each crate is proved once."""
    calls = [case.begin_held("sheet"), case.begin(VALUE), case.begin("sheet")]
    until(lambda: all("waiting for it" in call.said() for call in calls[1:]), "", PATIENCE)
    case.go()
    found = [call.ended()[:2] for call in calls]
    assert found == [answer(WHOLE, "sheet"), answer(SMALL, VALUE), answer(WHOLE, "sheet")]
    made = case.calls()
    assert len(made) == len(set(made)) == 9


@pytest.mark.needs("strace")
def test_a_usual_call_starts_one_process(built: Case) -> None:
    """bash, find, and the program, which is a script here. The toolchain isn't asked."""

    def programs() -> list[str]:
        trace = built.top / "trace"
        built.call("sheet", "strace", "-f", "-qq", "-e", "trace=execve", "-o", str(trace))
        found = re.findall(r'execve\("([^"]*)".* = 0', trace.read_text())
        return [name.rpartition("/")[2] for name in found]

    # The first call after a build finds the folders that it made.
    assert built.is_usual()
    assert programs() == ["ee_cli", "find", "ee_cli", "cat"]
    built.source("ee_cli").touch()
    assert len(programs()) > 8, "control: a file that is newer takes more"
    assert programs() == ["ee_cli", "find", "ee_cli", "cat"]


def test_another_toolchain_is_named(built: Case) -> None:
    """A program that is built runs all the same; one that isn't built isn't begun."""
    built.identify(OTHER)
    said = f"ee_cli: these sources want the toolchain {WANTED}, and rt is {OTHER}\n"
    assert built.call("sheet") == (*answer(WHOLE, "sheet"), said)
    built.write("ee_cli", "second")
    status, out, err = built.call("sheet")
    assert (status, out, built.calls()) == (3, "", []) and err.endswith(said)
    built.identify(WANTED)
    assert built.call("sheet")[:2] == answer(WHOLE, "sheet", "second") and built.calls()
    assert built.is_usual()


def test_a_program_of_an_earlier_toolchain_is_built_again(built: Case) -> None:
    """And without a toolchain it answers."""
    kit = built.top / "crates/ee_cli/out/ee_cli.kit"
    kit.write_text(kit.read_text().replace(WANTED, OTHER))
    assert built.call("sheet")[:2] == answer(WHOLE, "sheet") and built.calls()
    built.path = WITHOUT_RT
    assert built.is_usual()


def test_through_a_link_and_from_another_folder(built: Case) -> None:
    (built.top / "link").symlink_to(built.top / "ee_cli")
    for line, where in (("../link x", "bin"), ("./ee_cli x", "."), ("bash ee_cli x", ".")):
        ran = run(*line.split(), cwd=built.top / where, env=built.environment())
        assert (ran.returncode, ran.stdout) == answer(WHOLE, "x")


@pytest.mark.root
def test_another_user_may_run_it(built: Case) -> None:
    """One who may not write beside the program: a newer source that is the same is no fault."""
    run("chmod", "-R", "a+rX", built.top)
    built.source("ee_cli").touch()
    user = ("setpriv", "--reuid=65534", "--clear-groups")
    assert built.call("sheet", *user) == (*answer(WHOLE, "sheet"), "") and not built.calls()


def test_the_readme_names_the_toolchain() -> None:
    assert f"`{WANTED}`" in (TOP / "README.md").read_text()


#: The tutorials, and what is written after these words in their commands.
TUTORIALS = ("README.md", "docs/FIRST_DAY.md", "docs/COUNTER_CLIENT.md", "docs/PYTHON_CLIENT.md")
MADE = re.compile(r"(?:--db|--journal|--archive|2?>|-m venv|Counter\()[ \"]*([\w.]+)")


def test_git_ignores_what_the_tutorials_make() -> None:
    text = "".join((TOP / name).read_text() for name in TUTORIALS)
    lines = [line for line in text.splitlines() if line.startswith(("$ ", "with Counter("))]
    made = {name for line in lines for name in MADE.findall(line)} - {"1", "2"}
    assert {"day.db", "desk3.journal", "served.txt"} <= made
    made |= {"day.db-wal", "desk3.journal.keys", "desk3.journal.lock"}
    ran = run("git", "check-ignore", *sorted(made), cwd=TOP)
    assert sorted(ran.stdout.split()) == sorted(made)
