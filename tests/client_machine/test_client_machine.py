"""The Python client and the tellers' page do what the proved machine does, whatever happens."""

import itertools
import os
import subprocess
import time
import tomllib
from pathlib import Path
from typing import Callable, Union

import pytest

from hypothesis import HealthCheck, Phase, settings
from hypothesis import strategies as st
from hypothesis.stateful import RuleBasedStateMachine, initialize, invariant, rule
from hypothesis.stateful import run_state_machine_as_test

from tests.client_machine.conftest import NewPage
from tests.client_machine.counter import Fate
from tests.client_machine.machine import ANSWERED, DONE, FAULT, GO_ON, KILLED, NOT_DONE, NOTHING
from tests.client_machine.machine import REFUSED, SEND, SHOW, SUBMIT, WAIT, WRITE, WRITTEN, Event
from tests.client_machine.machine import Library, Record
from tests.client_machine.page_client import MOST, PageClient
from tests.client_machine.python_client import PythonClient, package
from tests.conftest import TOP

pytestmark = pytest.mark.needs("rt", "cc", "wasm-opt", "node")
#: Wrong clients, by file and kind.
WRONG = tomllib.loads((TOP / "tests/client_machine/wrong.toml").read_text())
#: The steps of a client: quickly, and at length.
STEPS = [1_000, pytest.param(10_000, marks=pytest.mark.slow)]
FATES = st.lists(st.sampled_from(Fate), max_size=4)
OUTCOMES = ["kept", "kept", "kept", "failed", "killed before", "killed after"]
WRITES = st.lists(st.sampled_from(OUTCOMES), max_size=6)
Client = Union[PythonClient, PageClient]


def rules(started: Callable[[int], Client], steps: list[int]) -> type[RuleBasedStateMachine]:
    class Rules(RuleBasedStateMachine):
        client: Client

        @initialize(first=st.integers(1, 1000) | st.integers(MOST - 4, MOST))
        def start(self, first: int) -> None:
            self.client = started(first)
            self.acts = itertools.count(1)

        @rule(fates=FATES, writes=WRITES, follows=st.booleans())
        def submit(self, fates: list[Fate], writes: list[str], follows: bool) -> None:
            self.client.fates, self.client.writes = list(fates), list(writes)
            can_follow = follows and isinstance(self.client, PageClient)
            self.client.submit(next(self.acts), next(self.acts) if can_follow else 0)

        @rule(fates=FATES, writes=WRITES)
        def go_on(self, fates: list[Fate], writes: list[str]) -> None:
            self.client.fates, self.client.writes = list(fates), list(writes)
            self.client.go_on()

        @rule(writes=WRITES)
        def give_up(self, writes: list[str]) -> None:
            self.client.fates, self.client.writes = [], list(writes)
            self.client.give_up()

        @rule()
        def kill(self) -> None:
            self.client.kill()

        @rule()
        def late_ones_come(self) -> None:
            self.client.counter.late_ones_come()

        @rule(ahead=st.integers(0, 8))
        def another_uses(self, ahead: int) -> None:
            self.client.counter.uses(self.client.beside.turn.journal.next + ahead)

        @invariant()
        def is_so(self) -> None:
            """What the client showed is so; no act acts twice, nor one whose registration didn't."""
            if not hasattr(self, "client"):
                return
            acted = self.client.counter.acted
            assert all(times == 1 for times in acted.values()), acted
            for follower, act in self.client.followers.items():
                assert acted.get(follower, 0) <= acted.get(act, 0), (act, follower)
            for act, outcome in self.client.shown.items():
                if outcome in (DONE, REFUSED, NOT_DONE):
                    assert acted.get(act, 0) == int(outcome == DONE), (act, outcome)

        def teardown(self) -> None:
            if hasattr(self, "client"):
                steps[0] += self.client.beside.steps
                self.client.close()

    return Rules


def run(started: Callable[[int], Client], examples: int, is_shrunk: bool = False) -> int:
    steps = [0]
    phases = [Phase.generate, Phase.shrink] if is_shrunk else [Phase.generate]
    quick = settings(deadline=None, database=None, suppress_health_check=list(HealthCheck))
    chosen = settings(quick, max_examples=examples, stateful_step_count=100, phases=phases)
    run_state_machine_as_test(rules(started, steps), settings=chosen)  # type: ignore[no-untyped-call]
    return steps[0]


def test_header(built: Path) -> None:
    program = TOP / "tests/client_machine/program.c"
    words = ["cc", "-Wall", "-Werror", f"-I{TOP / 'include'}", str(program), "libee_client.so"]
    subprocess.run([*words, "-Wl,-rpath,.", "-o", "program"], cwd=built, check=True)
    ran = subprocess.run(["./program"], cwd=built, check=True, stdout=subprocess.PIPE, text=True)
    assert ran.stdout.split("\n") == ["1 0 0 2 1 0", "1 0 0 2 1 1", "2 1 5 2 1 1", ""]


#: Points of the rules at which a wrong machine would hurt a bank: a journal, events, what the
#: machine then does, and what its journal holds or is to hold.
OPEN, OTHER = Record(2, number=1, step=1, sent=1, act=5), Record(3, number=2, step=1, sent=1, act=6)
AGAIN, KILLED_LATE = [Event(GO_ON), Event(WRITTEN)], Event(KILLED, detail=1)
ACT_5, ACT_6 = (Event(SUBMIT, act=act) for act in (5, 6))
TOLD = {kind: [*AGAIN, Event(ANSWERED, number=1, detail=kind)] for kind in (FAULT, NOTHING, DONE)}
TWICE, THRICE, NEVER = (OPEN._replace(sent=times) for times in (2, 3, 0))
AFTER = OTHER._replace(sent=2)
Outcome = tuple[int, Record]
POINTS: dict[str, tuple[Record, list[Event], Outcome]] = {
    "another act takes another number": (Record(2), [ACT_6], (WRITE, OTHER._replace(sent=0))),
    "a lost answer keeps the number": (OPEN, [*TOLD[NOTHING], Event(GO_ON)], (WRITE, THRICE)),
    "an answer to another number is read by nobody": (OTHER, TOLD[DONE], (WAIT, AFTER)),
    "its own answer is shown": (OPEN, TOLD[DONE], (SHOW, TWICE)),
    "a written request is open after a kill": (Record(1), [ACT_5, KILLED_LATE], (WAIT, NEVER)),
    "a request that wasn't written isn't": (Record(1), [ACT_5, Event(KILLED)], (WAIT, Record(1))),
    "a fault ends a request that was sent once": (NEVER, TOLD[FAULT], (WRITE, Record(2))),
    "no fault ends a request that was sent twice": (OPEN, TOLD[FAULT], (WAIT, TWICE)),
    "until it is sent, it has no answer": (OPEN, AGAIN, (SEND, TWICE)),
}


@pytest.mark.parametrize("journal, events, so", POINTS.values(), ids=POINTS)
def test_points(library: Library, journal: Record, events: list[Event], so: Outcome) -> None:
    """The contract of the machine says that it is its rules. This is what they say there."""
    turn = library.turn(100, journal, events)
    assert (turn.action, turn.written if turn.action == WRITE else turn.journal) == so


def run_whole(started: Callable[[int], Client], least: int) -> None:
    steps = 0
    while steps < least:
        steps += run(started, 20, True)
    print(f"{steps} steps")


@pytest.mark.parametrize("steps", STEPS)
def test_python(library: Library, steps: int) -> None:
    """The Python client does what the machine does."""
    client = package()
    run_whole(lambda first: PythonClient(client, library, first), steps)


@pytest.mark.parametrize("steps", STEPS)
def test_page(new_page: NewPage, steps: int) -> None:
    """So does the page's sender."""
    page = new_page()
    run_whole(lambda first: PageClient(page, first), steps)


def is_found(started: Callable[[int], Client]) -> None:
    """A wrong client is found within a minute, or as much later as the machine has other work."""
    begun, share = time.monotonic(), max(1, os.getloadavg()[0] / (os.cpu_count() or 1))
    with pytest.raises(AssertionError):
        run(started, 1000)
    assert time.monotonic() - begun < 60 * share


@pytest.mark.parametrize("what", WRONG["counter.py"])
def test_wrong_python(library: Library, what: str) -> None:
    old, new = WRONG["counter.py"][what]
    client = package(("counter.py", old, new))
    is_found(lambda first: PythonClient(client, library, first))


@pytest.mark.parametrize("what", WRONG["sender.js"])
def test_wrong_page(new_page: NewPage, what: str) -> None:
    page = new_page(("sender.js", *WRONG["sender.js"][what]))
    is_found(lambda first: PageClient(page, first))
