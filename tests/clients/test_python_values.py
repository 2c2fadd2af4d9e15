"""What the Python client takes and gives: every bad argument and every junk response is one of its own errors, and results and errors are what they say."""

import collections
import concurrent.futures
import copy
import dataclasses
import datetime
import decimal
import multiprocessing
import pickle
import socket
import sys
from pathlib import Path
from typing import Any, Callable, ContextManager
from unittest import mock

import pytest
from hypothesis import HealthCheck, example, given, settings
from hypothesis import strategies as st

import ee_counter_client as client
import ee_counter_client.counter as counter_module
import ee_counter_client.errors as errors
import ee_counter_client.lookups as lookups_module
import ee_counter_client.way as way
from tests.clients.desk import DAY, OWN, Desk, Part, controls, holds_not, listening, ran

CLASSES = [one for name in client.__all__ if isinstance(one := getattr(client, name), type)]
KINDS = [kind for kind in CLASSES if issubclass(kind, client.CounterError)]
BRANCHES: list[type[client.CounterError]] = [client.BadCall, client.WrongSetup, client.Retryable]
BRANCHES += [client.UnknownOutcome, client.Refused]
JUNK: tuple[Any, ...] = (
    *(None, True, 1.5, -1, 10**30, b"bytes", "", "x" * 300, "\0", "\x1b[2J\r", "caf\u00e9"),
    *([], {}, {"\x1b[2J": 7}, object(), float("nan"), datetime.time(8), lambda: None),
)
BOND = {"serial": "L9EE", "denom": 50, "issued": "2010-11", "owner": 7}
RATE = {"from": "2010-05", "rate": "1.00"}
#: What a place of a call is given.
CALLS: dict[str, Callable[[client.Counter, Any], object]] = {
    "a day": lambda counter, junk: counter.redeem(junk, 7, ["L1EE"]),
    "a payee": lambda counter, junk: counter.redeem(DAY, junk, ["L1EE"]),
    "serial numbers": lambda counter, junk: counter.redeem(DAY, 7, junk),
    "a serial number": lambda counter, junk: counter.redeem(DAY, 7, [junk]),
    "rows of bonds": lambda counter, junk: counter.add_bonds(junk),
    "a row of bonds": lambda counter, junk: counter.add_bonds([junk]),
    "a bond's month": lambda counter, junk: counter.add_bonds([{**BOND, "issued": junk}]),
    "a denomination": lambda counter, junk: counter.add_bonds([{**BOND, "denom": junk}]),
    "a coowner": lambda counter, junk: counter.add_bonds([{**BOND, "coowner": junk or "x"}]),
    "a row of rates": lambda counter, junk: counter.add_rates([junk]),
    "a rate": lambda counter, junk: counter.add_rates([{**RATE, "rate": junk}]),
    "a day to open": lambda counter, junk: counter.open_day(junk),
    "a day to close": lambda counter, junk: counter.close_day(junk),
    "a reason": lambda counter, junk: counter.abandon(junk),
    "a ticket": lambda counter, junk: counter.ticket(junk),
    "a batch": lambda counter, junk: counter.batch(junk),
    "a customer": lambda counter, junk: counter.inventory(junk, "2012-02"),
    "a sheet's month": lambda counter, junk: counter.inventory(7, junk),
    "a value's denomination": lambda counter, junk: counter.value(junk, "2010-11", "2012-02"),
    "a file": lambda counter, junk: client.register(counter, junk),
}
#: Arguments that are no junk in these places.
GOOD: dict[str, list[Any]] = {"a reason": ["x" * 300, "\0", "\x1b[2J\r", "caf\u00e9"]}
GOOD["a ticket"] = [10**30]
LOOSE = mock.patch.multiple(counter_module, serial_of=str.upper, bond_of=lambda bond: bond)


@controls(spelling_that_asks_for_a_method=LOOSE)
def test_junk_arguments(desk: Desk, part: Part) -> None:
    """Each kind of junk in each place of each call is refused, and nothing is sent."""
    with holds_not(part), desk.known() as counter, desk.untouched():
        for place, call in CALLS.items():
            for junk in JUNK:
                if part is None and junk in GOOD.get(place, []):
                    continue
                try:
                    call(counter, junk)
                except client.BadCall as error:
                    assert str(error).isprintable()
                except Exception as error:
                    raise AssertionError(f"{place}: {junk!r}: {error!r}") from error
                else:
                    raise AssertionError(f"{place}: {junk!r} is taken")
        for junk in (b"bytes", object(), float("nan"), {"a": object()}):
            with pytest.raises(client.BadValue):
                counter.open_day(DAY, bookmark=junk)
        for key in (b"bytes", 7, "", "a\nb"):
            with pytest.raises(client.BadValue):
                counter.open_day(DAY, key=key)  # type: ignore[arg-type]
        with pytest.raises(client.BadValue):
            counter.open_day(datetime.datetime(2012, 2, 6, 8))


DATELESS: dict[str, object] = {"serial": "L9EE", "denom": 50, "owner": 7}
MISSPELT: dict[str, Callable[[client.Counter], object]] = {
    "a bond has no key 'co_owner'": lambda c: c.add_bonds([BOND, {**BOND, "co_owner": 8}]),
    "a bond has no key 'Coowner'": lambda c: c.add_bonds([{**BOND, "Coowner": 8}]),
    "a bond lacks the key 'issued'": lambda c: c.add_bonds([DATELESS]),
    "a row of rates has no key 'extention'": lambda c: c.add_rates([{**RATE, "extention": "2"}]),
    "a row of rates lacks the key 'rate'": lambda c: c.add_rates([{"from": "2010-05"}]),
    "201011 is no month": lambda c: c.add_bonds([{**BOND, "issued": 201011}]),
    "1.0 is no rate": lambda c: c.add_rates([{**RATE, "rate": 1.0}]),
}
#: Their order is another one in each run of a program, so under a key it would be another request.
UNORDERED: dict[str, Callable[[client.Counter], object]] = {
    "a set of serial numbers": lambda c: c.redeem(DAY, 7, {"L1EE"}),  # type: ignore[arg-type]
    "a frozenset": lambda c: c.redeem(DAY, 7, frozenset({"L1EE"})),  # type: ignore[arg-type]
    "a set of bonds": lambda c: c.add_bonds({client.Bond("L9EE", 50, "2010-11", 7)}),  # type: ignore[arg-type]
    "a set of rates": lambda c: c.add_rates({client.Rates("2010-11", "0.60")}),  # type: ignore[arg-type]
}


@pytest.mark.parametrize("text", MISSPELT)
def test_misspelt(desk: Desk, text: str) -> None:
    """A key that a row doesn't have is named, and nothing is sent: its value would be lost without a word."""
    with desk.counter() as counter, desk.untouched():
        with pytest.raises(client.BadValue, match=text):
            MISSPELT[text](counter)


@pytest.mark.parametrize("what", UNORDERED)
def test_sets_are_refused(desk: Desk, what: str) -> None:
    with desk.counter() as counter, desk.untouched():
        with pytest.raises(client.BadValue, match="are a list, and not"):
            UNORDERED[what](counter)


ORDERED: list[Callable[[list[str]], Any]] = [list, iter, tuple, collections.deque]
ORDERED += [lambda serials: dict.fromkeys(serials).keys()]
ORDERED += [lambda serials: dict(enumerate(serials)).values()]


@pytest.mark.parametrize("form", ORDERED)
def test_what_has_an_order_is_taken(desk: Desk, form: Callable[[list[str]], Any]) -> None:
    """The desks of a pool need none."""
    serials = ["L1EE", "L2EE", "L3EE"]
    with desk.counter() as counter:
        ticket = counter.redeem(DAY, 7, form(serials))
    assert [line.serial for line in ticket.lines] == serials
    with client.Pool(desk.place, desk.fake.address, desks={4, 5}) as pool:
        assert pool.desks == (4, 5)


#: A job that a bank runs each night: the same call under the same key.
JOB = """
import sys
import ee_counter_client as client
from ee_counter_client import counter

if sys.argv[3] == "unguarded":
    counter.list_of = lambda values, most, name: list(values)
with client.Counter(sys.argv[1], sys.argv[2], desk=3) as desk:
    print(desk.redeem("2012-02-06", 7, {"L1EE", "L2EE", "L3EE"}, key="invoice 1").number)
"""


def run_job(desk: Desk, guard: str, seed: int) -> str:
    words = (sys.executable, "-c", JOB, desk.journal, desk.fake.address, guard)
    _, out, told = ran(*words, env={**OWN, "PYTHONHASHSEED": str(seed)})
    return (out + told).splitlines()[-1]


def test_a_keyed_job_over_a_set(desk: Desk) -> None:
    """It pays nothing. Control: without the guard the money is paid, and a run with another order is refused."""
    assert "BadValue" in run_job(desk, "guarded", 1) and desk.fake.tickets == []
    assert run_job(desk, "unguarded", 1) == "1"
    said = [run_job(desk, "unguarded", seed) for seed in range(2, 8)]
    assert len(desk.fake.tickets) == 1 and any("KeyReused" in line for line in said), said


def test_spellings(desk: Desk) -> None:
    desk.fake.answered("POST", "/day/close", b'{"number":2,"day":"2012-02-06"}')
    with client.Counter(str(desk.journal), desk.gate.address + "/", desk="3") as counter:  # type: ignore[arg-type]
        rates = client.Rates(client.Month(2010, 5), decimal.Decimal("3.5"), decimal.Decimal("4"))
        counter.add_rates([rates, {"from": datetime.date(2010, 11, 1), "rate": "3.50%"}])
        counter.add_bonds([client.Bond("K-0002-EE", 75, "10/2010", 7, 8)])
        assert desk.gate.bodies[-1].endswith(b'"owner":7,"coowner":8}]}')
        counter.open_day(datetime.date(2012, 2, 7), even_so=True)
        ticket = counter.redeem(datetime.date(2012, 2, 7), "7", ("K2EE", "L-1EE"))  # type: ignore[arg-type]
        assert [line.serial for line in ticket.lines] == ["K2EE", "L1EE"]
        rows = counter.inventory(7, client.Month(2012, 2)).rows
        assert [row.serial for row in rows] == ["L2EE", "L3EE"]


ADDRESSES = "|127.0.0.1:8377|ftp://x|http://|http://x:99999|http://x:0|http://x/path|http://u:p@x"
ADDRESSES += "|http://x y|http://x?q|http://[::1|http://\u00e9"
OPENINGS: dict[str, tuple[Any, ...]] = {
    "journal": (None, 7, "", "a\0b", b"bytes", object()),
    "address": (None, 7, *ADDRESSES.split("|")),
    "desk": (-1, 1000, True, 1.5, "x"),
    "patience": (-1, "x", True, float("nan"), float("inf")),
    "time_limit": (0, -1, None, "x"),
    "certificate": (7, b"bytes", "no.pem"),
    "key": (7, b"bytes", "alone.pem"),
    "ca": (7, b"bytes"),
    "archive": (7, "", "a\0b"),
}


@pytest.mark.parametrize("name", OPENINGS)
def test_junk_openings(desk: Desk, name: str) -> None:
    for value in OPENINGS[name]:
        words: dict[str, Any] = {"journal": desk.journal, "desk": 3, name: value}
        with pytest.raises(client.BadValue):
            client.Counter(**words)
    assert not desk.journal.exists()


def test_wrong_openings(desk: Desk) -> None:
    """Certificates, pools, look-ups, and places where no journal can be."""
    (desk.place / "no.pem").write_text("no certificate\n")
    for file in (desk.place / "no.pem", desk.place / "missing.pem"):
        for name in ("certificate", "ca"):
            words: dict[str, Any] = {name: file}
            with pytest.raises(client.BadValue):
                client.Counter(desk.journal, "https://127.0.0.1:9", desk=3, **words)
    lists: tuple[Any, ...] = ((), [1, 1], [1000], "12", None, 7)
    for desks in lists:
        with pytest.raises(client.BadValue):
            client.Pool(desk.place, desks=desks)
    with pytest.raises(TypeError):
        client.Pool(desk.place, desks=[1], pacience=3)  # type: ignore[call-arg]
    for path in (desk.place, desk.place / "missing" / "a.journal", Path("/proc/a.journal")):
        with pytest.raises(client.FileFailed):
            client.Counter(path, desk=3)


AS_MADE = mock.patch.object(client.CounterError, "__str__", Exception.__str__)


@controls(texts_as_they_were_made=AS_MADE)
def test_quoted_signs(desk: Desk, caplog: pytest.LogCaptureFixture, part: Part) -> None:
    """No error's text, and none of the log, has a control character of what it quotes."""
    sign = "\x1b[2J\x07\n\u202e"
    bad, journal = desk.place / f"{sign}.csv", desk.place / f"{sign}.journal"
    archive = desk.place / f"{sign}.archive"
    bad.write_text(f"serial,denom,issued,owner,coowner\nL1EE,50,2010-11,{sign},\n")
    archive.write_text("no archive\n")
    found: list[client.CounterError] = []

    def fails(kind: type[client.CounterError], call: Callable[[], object]) -> None:
        with pytest.raises(kind) as raised:
            call()
        found.append(raised.value)

    with client.Counter(journal, desk.gate.address, desk=3) as counter:
        counter.ticket(1)
        counter.patience = 0.3
        fails(client.JournalInUse, lambda: client.Counter(journal, desk=3))
        fails(client.BadFile, lambda: client.register(counter, bad))
        fails(client.BadFile, lambda: client.register(counter, desk.place / sign))
        fails(client.BadFile, lambda: client.bonds_known(bad))
        fails(client.BadValue, lambda: counter.add_bonds([{sign: 7}]))
        fails(client.BadValue, lambda: counter.redeem(sign, 7, ["L1EE"]))
        fails(client.BadValue, lambda: client.Lookups(f"http://{sign}"))
        desk.gate.faults = ["lost answer"] * 9
        fails(client.NoReply, lambda: counter.redeem(DAY, 7, ["L1EE"]))
        counter.abandon(f"because of {sign}")
    fails(client.FileFailed, lambda: client.Counter(desk.place / sign / "a.journal", desk=3))
    fails(client.BadArchive, lambda: client.Counter(journal, archive=archive))
    journal.write_text("{}")
    fails(client.BadJournal, lambda: client.Counter(journal))
    assert any("because of" in text for text in caplog.messages)
    with holds_not(part):
        assert [error for error in found if not str(error).isprintable()] == []
        assert sum("\\x1b[2J" in str(error) for error in found) > 5
    assert all(text.isprintable() for text in caplog.messages)


@pytest.mark.parametrize("setting", ["addHandler(logging.NullHandler())", "setLevel(50)", "name"])
def test_words(folder: Path, setting: str) -> None:
    """The package logs, and prints nothing; without a handler its warnings reach standard error."""
    counter = "Counter(sys.argv[1], 'http://127.0.0.1:9', desk=3, patience=0.5)"
    setup = f"logging.getLogger('ee_counter_client').{setting}"
    wanted = {"no reply: [Errno 111] Connection refused"} if setting == "name" else set()
    lines = ["import logging, sys", setup, "from ee_counter_client import *"]
    lines += ["try:", f"    {counter}.ticket(1)", "except NoAnswer:", "    pass"]
    status, out, told = ran(sys.executable, "-c", "\n".join(lines), folder / "a.journal")
    assert (status, out, set(told.splitlines()) - {"no reply: timed out"}) == (0, "", wanted)


def test_results(desk: Desk) -> None:
    """Frozen classes with Decimal, dates and numbers."""
    desk.fake.values["L1EE"] = 2516
    with desk.counter() as counter:
        sheet = counter.inventory(7, "2012-02")
        row = sheet.rows[0]
        assert (row.value, sheet.value) == (decimal.Decimal("25.16"), decimal.Decimal("75.16"))
        assert (row.issued, row.next) == (client.Month(2010, 11), client.Month(2012, 3))
        ticket = counter.redeem(DAY, 7, ["L1EE"])
        line = client.Line("L1EE", decimal.Decimal("25.16"))
        assert ticket == client.Ticket(1, datetime.date(2012, 2, 6), 7, (line,), line.paid)
        found = counter.ticket(1)
        assert found == ticket and found.text == ticket.text and counter.ticket(2) is None
        batch = counter.close_day(DAY)
        assert batch == client.Batch(datetime.date(2012, 2, 6), 1, 1, line.paid)
        assert counter.batch(DAY) == batch
        for result in (row, sheet, ticket, line, batch, ticket.request, counter.last):
            with pytest.raises(dataclasses.FrozenInstanceError):
                setattr(result, "total", 0)
        with pytest.raises(client.Fault) as raised:
            counter._act("/day/open", {"day": DAY, "more": 1}, None, None, client.Opened)
        assert (raised.value.code, raised.value.field, counter.open_request) == (65, "other", None)
    unknown = errors.refusal_of({"code": 99, "refused": "Later"})
    assert type(unknown) is client.Refused and (unknown.code, unknown.name) == (99, "Later")


def test_branches() -> None:
    """Each error is in one branch, and says what its branch says; each public name has a docstring."""
    assert len(KINDS) > 40
    for kind in KINDS:
        if kind is not client.CounterError:
            assert sum(issubclass(kind, branch) for branch in BRANCHES) == 1 and kind.__doc__
    flags = {branch.__name__: (branch.retryable, branch.may_be_done) for branch in BRANCHES}
    no = (False, False)
    yes = {"Retryable": (True, False), "UnknownOutcome": (True, True)}
    assert flags == {"BadCall": no, "WrongSetup": no, "Refused": no, **yes}
    public: list[Any] = [getattr(client, name) for name in client.__all__]
    for kind in (client.Counter, client.Pool):
        public += [getattr(kind, name) for name in vars(kind) if not name.startswith("_")]
    assert [one for one in public if callable(one) and not one.__doc__] == []


PAYMENT = {"day": DAY, "payee": 7, "serials": ["L1EE"]}
REQUEST = client.Request(3, 17, "/redeem", PAYMENT, 2, "invoice-1", {"row": 4})


def one_of(kind: type[client.CounterError]) -> client.CounterError:
    if issubclass(kind, client.Refused):
        code = next((code for code, found in errors.REFUSALS.items() if found is kind), 99)
        named = {key: "L1EE" if form is str else 5 for key, form in kind.keys}
        refusal = kind({"code": code, "refused": kind.__name__, **named}, REQUEST)
        refusal.rows, refusal.line = (2, 501), 17
        return refusal
    none = decimal.Decimal(0)
    row = client.Paid(datetime.date(2012, 2, 6), 1, 7, "L1EE", None, None, None, None, none)
    words: dict[type[client.CounterError], tuple[Any, ...]] = {
        client.BadFile: (3, "no bond"),
        client.KeyReused: ("invoice-1", 17),
        client.Fault: ({"code": 65, "fault": "BadField", "field": "day"},),
        client.Forbidden: ("/redeem",),
        client.ForeignAnswer: (200, "a page"),
        client.Implausible: (["a doubt"] * 9,),
        client.Incomplete: (client.Interest((row,), none, none, none, ("L1EE",), "a CSV"),),
    }
    text = ("a text", REQUEST) if issubclass(kind, client.UnknownOutcome) else ("a text",)
    return kind(*words.get(kind, text))


def raise_one(kind: type[client.CounterError]) -> None:
    raise one_of(kind)


REDUCED = mock.patch.object(client.CounterError, "__reduce__", Exception.__reduce__)


@controls(as_Python_pickles=REDUCED)
def test_pickled(part: Part) -> None:
    """Each error is the same after pickling and copying."""
    with holds_not(part):
        try:
            for kind in KINDS:
                error = one_of(kind)
                error.may_be_done = not kind.may_be_done
                for protocol in range(2, pickle.HIGHEST_PROTOCOL + 1):
                    same = pickle.loads(pickle.dumps(error, protocol))
                    assert (type(same), str(same), same.args) == (kind, str(error), error.args)
                    assert vars(same) == vars(error)
                assert str(copy.copy(error)) == str(error)
        except (TypeError, ValueError) as failure:
            raise AssertionError("it isn't pickled") from failure


def test_errors_of_other_processes() -> None:
    with concurrent.futures.ProcessPoolExecutor(2) as executor:
        for kind in (client.NoReply, client.AlreadyPaid, client.Forbidden, client.BadFile):
            raised = executor.submit(raise_one, kind).exception(timeout=60)
            assert type(raised) is kind and str(raised) == str(one_of(kind))


def test_look_ups(desk: Desk) -> None:
    """Without a journal and a desk, from several threads at once, and in forked processes."""
    with desk.counter() as counter:
        ticket = counter.redeem(DAY, 7, ["L1EE"])
        lookups = client.Lookups(desk.gate.address, patience=20)
        before = sorted(desk.place.iterdir())
        asked = {"ticket": (1,), "inventory": (7, "2012-02"), "batch": (DAY,)}
        asked |= {"value": (50, "2010-11", "2012-02")}
        for name, words in asked.items():
            assert getattr(lookups, name)(*words) == getattr(counter, name)(*words)
        assert lookups.ticket(1) == ticket and sorted(desk.place.iterdir()) == before
    desk.gate.is_wide, desk.gate.faults = True, ["lost answer", "no gateway"] * 4
    with concurrent.futures.ThreadPoolExecutor(8) as workers:
        found = list(workers.map(lambda number: lookups.ticket(1 + number % 2), range(40)))
    assert found == [ticket, None] * 20 and len(desk.gate.met) == 8
    with multiprocessing.Pool(2) as processes:
        assert processes.map(lookups.ticket, [1, 2]) == [ticket, None]


#: Texts of the counter, with signs for a terminal.
TEXTS = [
    '{"code":52,"refused":"AlreadyPaid","serial":"L1EE","ticket":4}',
    '{"code":99,"refused":"\\u001b[31m\\ud800","serial":"\\u0000"}',
    '{"bonds":2,"day":"2012-02-06","tickets":1,"total":"63.23"}',
    '{"day":"2012-02-06","lines":[{"paid":"25.00","serial":"L1EE"}],"payee":7,"ticket":1,"total":"25.00"}',
    '{"code":65,"fault":"BadField","field":"day"}',
    '{"code":2,"unserved":"StoreFailed"}',
]
OK = b"HTTP/1.1 200 OK\r\n"
SIZES = (b"-5\r\nabcde\r\n0\r\n\r\n", b"f" * 20, b"9" * 5000 + b"\r\nabcde")
HEADS = [
    *(OK + b"Transfer-Encoding: chunked\r\n\r\n" + size for size in SIZES),
    *(OK + b"Content-Length: %s\r\n\r\nabc" % size for size in (b"9" * 20, b"-7", b"zz")),
    *(b"HTTP/1.1 \x1b[31m OK\r\n\r\n", b"\x1b]0;title\x07\x1b[2J\r\n\r\n"),
    b"HTTP/9.9 200 OK\r\n\r\n",
    *(OK + b"X: y\r\n" * 500 + b"\r\n", OK + b"X" * 70000, b"HTTP/1.1 100 Continue\r\n\r\n" * 3),
    *(OK + b": \r\n\x00\xff\r\nContent-Length: 2\r\n\r\n{}", b"\x16\x03\x01\x02\x00", b""),
]
SIGNS = ["-5", "9" * 5000, '"', "\x1b[31m", "\x00", "{", "[" * 3000, "NaN", "1e999", "\u0661"]
SIGNS += ['"\\ud800"', "null", "true", ",", ":", "}", ".00"]


def response_of(status: int, text: str) -> bytes:
    body = text.encode("utf-8", "surrogatepass")
    return b"HTTP/1.1 %d X\r\nContent-Length: %d\r\n\r\n%s" % (status, len(body), body)


@st.composite
def responses(draw: st.DrawFn) -> bytes:
    text = draw(st.sampled_from(TEXTS))
    for _ in range(draw(st.integers(1, 3))):
        begin = draw(st.integers(0, len(text)))
        end = begin + draw(st.sampled_from([0, 0, 1, 5]))
        text = text[:begin] + draw(st.sampled_from(SIGNS)) + text[end:]
    return response_of(draw(st.sampled_from([200, 409, 503, 400, 404, 401, 403, 429])), text)


class Answering:
    """A server that gives one response to each connection, and a Counter there."""

    def __init__(self) -> None:
        self.response = b""

    def serve(self, connection: socket.socket) -> None:
        connection.recv(65536)
        connection.sendall(self.response)

    def meets(self, counter: client.Counter, response: bytes) -> None:
        """Each call of the Counter is answered, or raises an error of the package, whose text has no control characters."""
        self.response = response
        for known in (True, False):
            counter._is_known = known
            calls: list[Callable[[], object]] = [lambda: counter.inventory(7, "2012-02")]
            calls += [lambda: counter.ticket(1), lambda: counter.redeem(DAY, 7, ["L1EE"])]
            calls += [lambda: counter.value(50, "2010-11", "2012-02")]
            for call in calls:
                try:
                    call()
                except client.CounterError as error:
                    assert str(error).isprintable(), repr(str(error))
                except Exception as error:
                    raise AssertionError(f"{response[:200]!r}: {error!r}") from error


@settings(max_examples=60, deadline=None, database=None, suppress_health_check=list(HealthCheck))
@example(response_of(409, TEXTS[1]))
@example(response_of(400, '{"code":60,"fault":"\\u001b[31m"}'))
@given(response=responses())
def test_junk_responses(desk: Desk, caplog: pytest.LogCaptureFixture, response: bytes) -> None:
    answering = Answering()
    with listening(answering.serve) as port:
        address = f"http://127.0.0.1:{port}"
        with client.Counter(desk.journal, address, desk=3, patience=0.02) as counter:
            answering.meets(counter, response)
    assert all(text.isprintable() for text in caplog.messages)


NAMELESS, FAULTY = response_of(409, TEXTS[1]), response_of(400, '{"code":60,"fault":"\\u001b[31m"}')
LET_OUT = mock.patch.object(way, "ValueError", UnicodeError, create=True)
JUNK_CONTROLS: dict[str, tuple[list[bytes], ContextManager[object]]] = {
    "what http.client lets out": (HEADS, LET_OUT),
    "texts of others as they came": (HEADS, mock.patch.object(way, "shown", str)),
    "names of a refusal as they came": ([NAMELESS], AS_MADE),
    "names of a fault as they came": ([FAULTY], mock.patch.object(lookups_module, "shown", str)),
}


@pytest.mark.parametrize("name", ["none", *JUNK_CONTROLS])
def test_junk_heads(desk: Desk, caplog: pytest.LogCaptureFixture, name: str) -> None:
    """Junk of HTTP. Controls: parts that quote it as it came are found."""
    kinds, part = JUNK_CONTROLS.get(name, (HEADS, None))
    answering = Answering()
    with listening(answering.serve) as port, holds_not(part):
        address = f"http://127.0.0.1:{port}"
        with mock.patch.object(errors, "shown", str if "refusal" in name else errors.shown):
            with client.Counter(desk.journal, address, desk=3, patience=0.05) as counter:
                for response in kinds:
                    answering.meets(counter, response)
        assert all(text.isprintable() for text in caplog.messages)
