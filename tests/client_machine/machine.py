"""The proved machine beside a client, whose every step has to be the machine's."""
import ctypes
from pathlib import Path
from typing import NamedTuple, Optional, Protocol, Sequence

SUBMIT, GO_ON, WRITTEN, UNWRITTEN, ANSWERED, GIVE_UP, KILLED = range(1, 8)
WAIT, WRITE, SEND, SHOW, REFUSE = range(5)
DONE, REFUSED, NOT_DONE, GIVEN_UP = range(1, 5)
REUSED, FAULT, NOTHING = 3, 4, 5


class Record(NamedTuple):
    """A journal as the rules know it. `act` is 0 if none is open, `follower` if no act follows."""

    next: int
    number: int = 0
    step: int = 0
    sent: int = 0
    act: int = 0
    follower: int = 0


class Event(NamedTuple):
    kind: int
    number: int = 0
    act: int = 0
    follower: int = 0
    detail: int = 0


class Turn(NamedTuple):
    """What the machine does, what its journal holds, and what that is to hold."""

    action: int
    number: int
    act: int
    outcome: int
    journal: Record
    written: Record


class Machine(Protocol):
    def turn(self, most: int, journal: Record, events: Sequence[Event]) -> Turn:
        """The last turn of a client that starts with a journal, after these events."""


def turn_of(numbers: Sequence[int]) -> Turn:
    action, number, act, outcome = numbers[:4]
    return Turn(action, number, act, outcome, Record(*numbers[4:10]), Record(*numbers[10:16]))


class Library:
    def __init__(self, path: Path) -> None:
        number, pointer = ctypes.c_uint64, ctypes.c_void_p
        self.call = ctypes.CDLL(str(path)).ee_client_turn
        self.call.restype = None
        self.call.argtypes = [number, pointer, pointer, ctypes.c_size_t, pointer]

    def turn(self, most: int, journal: Record, events: Sequence[Event]) -> Turn:
        numbers = [number for event in events for number in event]
        asked = (ctypes.c_uint64 * max(1, len(numbers)))(*numbers)
        start, found = (ctypes.c_uint64 * 6)(*journal), (ctypes.c_uint64 * 16)()
        self.call(most, start, asked, len(events), found)
        return turn_of(list(found))


class Beside:
    """The machine beside one client, which starts with a journal. `steps` counts its events."""

    def __init__(self, machine: Machine, most: int, journal: Record) -> None:
        self.machine, self.most, self.start = machine, most, journal
        self.events: list[Event] = []
        self.steps = 0
        self.last_shown: Optional[Turn] = None
        self.turn = machine.turn(most, journal, [])

    def happens(
        self, kind: int, number: int = 0, act: int = 0, follower: int = 0, detail: int = 0
    ) -> None:
        self.events.append(Event(kind, number, act, follower, detail))
        self.turn = self.machine.turn(self.most, self.start, self.events)
        self.steps += 1
        if self.turn.action == SHOW:
            self.last_shown = self.turn

    def writes(self, record: Record) -> None:
        """The client writes its journal. If that isn't due by itself, it has gone on."""
        if self.turn.action != WRITE:
            self.happens(GO_ON)
        written = self.turn.action, self.turn.written
        assert written == (WRITE, record), f"the client writes {record}, the machine: {self.turn}"

    def sends(self, number: int, act: int) -> None:
        sent = self.turn.action, self.turn.number, self.turn.act
        wanted = (SEND, number, act)
        assert sent == wanted, f"it sends act {act} under {number}, and not {self.turn}"

    def shows(self, act: int, outcome: int) -> None:
        shown = self.last_shown and (self.last_shown.act, self.last_shown.outcome)
        assert shown == (act, outcome), f"it shows {outcome} of act {act}, and the machine {shown}"

    def holds(self, record: Record) -> None:
        assert self.turn.journal == record, f"the journal holds {record}, and not {self.turn}"
