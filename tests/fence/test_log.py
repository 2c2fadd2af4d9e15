"""nginx's log has the body of each request that the counter may have acted on, once it is answered. Nobody fills its disk."""

import contextlib
import json
import random
import time
from concurrent.futures import ThreadPoolExecutor
from pathlib import Path
from typing import Any, Iterator

import pytest

from tests.conftest import TOP
from tests.fence.conftest import Counter, MakeSite
from tests.fence.site import ANSWER, UNLIMITED, RecordedSite
from tests.fence.site import HEADERS, Site, answer_in, connected, message, sent
from tests.shared.counter_calls import run

GROUPS = {"anna": "teller", "bert": "supervisor", "cleo": "registrar"}
MOST = 131_072
BONDS = b"POST /bonds HTTP/1.1"


def entry_of(site: Site, text: bytes, seconds: float = 5) -> dict[str, Any] | None:
    """The entry of a response, within these seconds. Bodies may have bytes that aren't UTF-8."""
    name = answer_in(text).headers["X-Request-Id"].encode()
    deadline = time.monotonic() + seconds
    while time.monotonic() < deadline:
        for line in (site.folder / "log/counter.log").read_bytes().splitlines():
            if b'"entry":"%s"' % name in line[:100]:
                found: dict[str, Any] = json.loads(line.decode("utf-8", "surrogateescape"))
                return found
        time.sleep(0.02)
    return None


def is_logged(site: RecordedSite, body: bytes, pieces: list[bytes], pause: float = 0) -> bool:
    """Sends a message in pieces. Whether the counter got this body, and the log has it with its user."""
    text = sent(site, site.context("cleo"), pieces, pause)
    (got,) = site.recorder.take()
    entry = entry_of(site, text)
    assert (got.body, got.rest, answer_in(text).text) == (body, b"", ANSWER.decode())
    assert entry is not None and (entry["user"], entry["counter"]) == ("cleo", "200")
    return bool(entry["body"].encode("utf-8", "surrogateescape") == body)


def ways(whole: bytes, head: int) -> Iterator[list[bytes]]:
    middle = (head + len(whole)) // 2
    yield [whole]
    for at in {head, head - 1, middle}:
        yield [whole[:at], whole[at:]]
    if len(whole) - head < 5000:
        yield [whole[:head], *(whole[at : at + 1] for at in range(head, len(whole)))]


def test_bodies_of_each_length_and_in_pieces_are_logged(recorded: RecordedSite) -> None:
    """Lengths around those of nginx's buffers: the first has 4,096 bytes of the head and of what follows it."""
    head, dice = len(message(BONDS, b"a" * 3000)) - 3000, random.Random(1)
    edges = [4096 - head, 2 * 4096 - head, 4096, 8192, 4 * 4096, MOST // 2, MOST - 1]
    for length in sorted({1, 2, 69, *(edge + more for edge in edges for more in (-1, 0, 1))}):
        body = dice.randbytes(length)
        whole = message(BONDS, body)
        for pieces in ways(whole, len(whole) - length):
            assert is_logged(recorded, body, pieces, 0.02 * (len(pieces) == 2)), length


#: Bodies with bytes that a log may escape.
ODD = [b"", b'a"b\\c', bytes(range(32)), bytes(range(32, 256)), b"a\xff\xc3(\xe2\x28\xa1b"]
ODD += [b"a\xed\xa0\x80b", b"\xef\xbb\xbf\xc0\xaf", "aä€\U0001f600\u2028".encode() + b"\x7f"]
ODD += [b'","status":"200","body":"', b'"}\n{"time":"']


@pytest.mark.parametrize("body", ODD)
def test_odd_bodies_are_logged(recorded: RecordedSite, body: bytes) -> None:
    assert is_logged(recorded, body, [message(BONDS, body)])


@pytest.mark.parametrize("length", (1, 5000, MOST))
def test_a_body_behind_100_continue_is_logged(recorded: RecordedSite, length: int) -> None:
    body = b"e" * length
    whole = message(BONDS, body, b"Expect: 100-continue")
    assert is_logged(recorded, body, [whole[:-length], whole[-length:]], 0.2)


def test_control_with_a_smaller_buffer_a_long_body_is_not_logged(tmp_path: Path) -> None:
    with RecordedSite(tmp_path, GROUPS, {"client_body_buffer_size 128k;": ""}) as site:
        assert is_logged(site, b"a" * 69, [message(BONDS, b"a" * 69)])
        assert not is_logged(site, b"a" * MOST, [message(BONDS, b"a" * MOST)])


def long_chunks(site: RecordedSite) -> bytes:
    """A body in chunks whose lines have 2,000 bytes more: nginx reads these into its buffer for bodies, which is too small for them."""
    pieces = [b"1;%s\r\n%c\r\n" % (b"x" * 2000, byte) for byte in b"c" * 69]
    head = b"\r\n".join([BONDS, *HEADERS, b"Transfer-Encoding: chunked"]) + b"\r\n\r\n"
    return sent(site, site.context("cleo"), [head, *pieces, b"0\r\n\r\n"])


def test_a_body_in_chunks_never_reaches_the_counter(recorded: RecordedSite) -> None:
    assert answer_in(long_chunks(recorded)).json() == {"forbidden": "chunks"}
    assert recorded.recorder.take() == []


def test_control_a_body_in_chunks_could_be_missing_in_the_log(tmp_path: Path) -> None:
    changed = {"if ($http_transfer_encoding) { return 411; }": ""}
    with RecordedSite(tmp_path, GROUPS, changed) as site:
        entry = entry_of(site, long_chunks(site))
        (got,) = site.recorder.take()
        assert entry and (got.body, entry["body"]) == (b"c" * 69, "")


#: Ways to write the body of a redemption, with its fields at %s. If the counter reads one, who_asked must read it too.
SPELLINGS = [
    "{%s}",
    " \r\n\t{ %s }\n ",
    '{"desk":9,"number":77,%s}',
    '{%s,"desk":null}',
    '{"\\u0064esk":9,%s}',
    '{"more":{"desk":9,"number":77},%s}',
    '{"more":"\udcff\udcc3(",%s}',
    '{"more":"\x01",%s}',
    '{"more":"\\ud800",%s}',
    '{"more":' + "1" * 5000 + ",%s}",
    "\ufeff{%s}",
    "{%s}x",
    "[{%s}]",
    '{"more":' + "[" * 100 + "]" * 100 + ",%s}",
    '{"more":' + "[" * 4000 + "]" * 4000 + ",%s}",
]
DAY = "2012-02-06"


def who_asked(store: Path, *logs: Path) -> tuple[list[str], list[str]]:
    """The lines of tickets that the script prints, and those of requests that nobody asked for."""
    found = run(TOP / "samples/audit/who_asked", store, *logs).stdout.splitlines()
    tickets = [line for line in found if "ticket " in line]
    return tickets, [line for line in tickets if "nobody" in line]


def test_each_body_that_the_counter_takes_has_its_teller(site: MakeSite, counter: Counter) -> None:
    made = site(GROUPS)
    made.ask("bert", "POST", "/day/open", {"number": 10, "day": DAY})
    context, paid = made.context("anna"), 0
    for nth, spelling in enumerate(SPELLINGS, 1):
        body = spelling % f'"desk":3,"number":{nth},"day":"{DAY}","payee":7,"serials":["B{nth}EE"]'
        whole = message(b"POST /redeem HTTP/1.1", body.encode("utf-8", "surrogateescape"))
        text = sent(made, context, [whole])
        assert entry_of(made, text) is not None
        paid += answer_in(text).status == 200
    counter.end()
    tickets, lost = who_asked(counter.store, made.folder / "log/counter.log")
    assert paid >= 3 and len(tickets) == paid and lost == []
    assert all(line.split()[1] == "anna" for line in tickets)
    (made.folder / "empty.log").touch()
    lost = who_asked(counter.store, made.folder / "empty.log")[1]
    assert len(lost) == paid, "control: without the log nobody is named"


def logged_by(site: RecordedSite, user: str | None, message: bytes) -> tuple[float, float]:
    """Sends it 400 times. Returns the bytes that the log grows by for each, and in a second."""
    log, context = site.folder / "log/counter.log", site.context(user)
    before, begun = log.stat().st_size, time.monotonic()
    with ThreadPoolExecutor(8) as pool:
        list(pool.map(lambda _: sent(site, context, [message]), range(400)))
    time.sleep(0.2)
    grown = log.stat().st_size - before
    return grown / 400, grown / (time.monotonic() - begun)


#: What becomes longest in a log: each of these bytes is written as six.
LONGEST = b"\x01" * 9999
REFUSED = message(b"POST /redeem HTTP/1.1", LONGEST)


def test_refused_requests_do_not_fill_the_disk(tmp_path: Path) -> None:
    with RecordedSite(tmp_path, GROUPS, {}) as site:
        site.recorder.status = 400
        no_route = message(b"POST /%s HTTP/1.1" % (b"%01" * 1000))
        for refused in (REFUSED, message(BONDS, LONGEST), no_route):
            each, second = logged_by(site, "anna", refused)
            assert 0 < each < 2000 and second < 1_000_000
        assert logged_by(site, None, REFUSED) == (0, 0), "nothing of a stranger"


def test_control_if_bodies_were_logged_whole_the_disk_would_fill(tmp_path: Path) -> None:
    changed = {**UNLIMITED, "default $body_begin;": "default $request_body;"}
    with RecordedSite(tmp_path, GROUPS, changed) as site:
        site.recorder.status = 400
        assert logged_by(site, "anna", REFUSED)[0] > 50_000


@pytest.mark.parametrize("lingering, is_written", [("off", True), ("always", False), ("on", False)])
def test_the_entry_is_written_when_the_answer_is_given(
    tmp_path: Path, lingering: str, is_written: bool
) -> None:
    """A client has its answer, keeps the connection, and sends on; a second later nginx is killed. With the other two values, which are the controls, nginx writes the entry when the client has gone."""
    changed = {"lingering_close off": f"lingering_close {lingering}"}
    with RecordedSite(tmp_path, GROUPS, changed) as site:
        with connected(site, site.context("anna")) as line:
            line.sendall(message(b"POST /redeem HTTP/1.1", b"{}") + b"more")
            text = line.recv(65536)
            while ANSWER not in text:
                text += line.recv(65536)
            end = time.monotonic() + 1
            while time.monotonic() < end:
                with contextlib.suppress(OSError):
                    line.sendall(b"more")
                time.sleep(0.1)
            site.kill()
        assert (entry_of(site, text, 1) is not None) == is_written
