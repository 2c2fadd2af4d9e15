"""Requests that nginx and the counter may read differently. None gets past its group, and the counter sees none but those that nginx let through."""

import contextlib
import re
import socket
import time
from concurrent.futures import ThreadPoolExecutor
from pathlib import Path
from typing import Callable

from tests.fence.conftest import Counter
from tests.fence.site import Message, RecordedSite, Recorder
from tests.fence.shapes import shapes, spellings
from tests.fence.site import HEADERS, Site, everything, message, sent

GROUPS = {"anna": "teller", "bert": "supervisor", "cleo": "office", "rita": "registrar", "erik": ""}
ROUTES = {b"/redeem": "teller", b"/rates": "office", b"/bonds": "registrar"}
ROUTES |= {b"/day/open": "supervisor", b"/day/close": "supervisor"}
METHODS = b"POST GET PUT HEAD post DELETE PATCH OPTIONS TRACE CONNECT PROPFIND MKCOL LOCK P\xc3\x96ST".split()
#: All is logged, so that what reached the counter can be compared with it, and no request is too many.
LOGGED = {"$is_post { default 0;": "$is_post { default 1;", "rate=10r/s": "rate=100000r/s"}
NO_GROUPS = {"default                                       0;": "default 1;"}


def spelled(site: Site, user: str, words: list[tuple[bytes, bytes]]) -> None:
    context = site.context(user)
    with ThreadPoolExecutor(8) as pool:
        lines = [message(b"%s %s HTTP/1.1" % pair, b"{}") for pair in words]
        list(pool.map(lambda line: sent(site, context, [line]), lines))


def of_others(messages: list[Message], groups: str) -> set[tuple[bytes, bytes]]:
    """Those that the counter takes for a request of another group: it knows a route by one spelling and one method."""
    words = {one.words for one in messages}
    return {one for one in words if one[0] == b"POST" and ROUTES.get(one[1], groups) != groups}


def all_spellings(port: int) -> list[bytes]:
    return [target for route in ROUTES for target in spellings(route, port)]


def test_no_spelling_reaches_a_route_of_another_group(tmp_path: Path) -> None:
    with RecordedSite(tmp_path, GROUPS, LOGGED) as site:
        words = [(b"POST", target) for target in all_spellings(site.port)]
        words += [(method, route) for method in METHODS for route in ROUTES]
        assert len(words) > 350
        for user, groups in GROUPS.items():
            spelled(site, user, words)
            reached = site.recorder.take()
            assert of_others(reached, groups) == set()
            own = {route for route, group in ROUTES.items() if group == groups}
            posts = {one.words[1] for one in reached if one.words[0] == b"POST"}
            assert posts & set(ROUTES) == own
            assert not [one for one in reached if one.rest], "bytes behind a request"
        assert reached == [], "nothing of a user without a group"


def test_control_without_groups_each_route_is_reached(tmp_path: Path) -> None:
    with RecordedSite(tmp_path, GROUPS, {**LOGGED, **NO_GROUPS}) as site:
        for user, groups in GROUPS.items():
            spelled(site, user, [(b"POST", route) for route in ROUTES])
            others = {route for route, group in ROUTES.items() if group != groups}
            assert {words[1] for words in of_others(site.recorder.take(), groups)} == others


def test_the_program_knows_a_route_by_one_spelling(counter: Counter) -> None:
    """What `of_others` says of the counter is true of the program."""
    known = set()
    for target in all_spellings(443):
        head = b"POST %s HTTP/1.1\r\nConnection: close\r\nContent-Length: 2" % target
        with socket.create_connection(("127.0.0.1", counter.port)) as line:
            line.sendall(head + b"\r\n\r\n{}")
            text = everything(line)
        assert re.match(rb"HTTP/1\.1 (400|404|405) ", text), (target, text)
        known |= {target} if b"BadField" in text else set()
    assert known == set(ROUTES)


def smuggled(send: Callable[[list[bytes]], object]) -> dict[bytes, int]:
    """Sends each shape, with a supervisor's request inside and with a redemption. Returns the numbers of the shapes by the bodies of the requests inside."""
    inside: dict[bytes, int] = {}
    found: list[list[bytes]] = []
    for target in (b"/day/close", b"/redeem"):
        for nth in range(len(shapes([], b""))):
            body = b'{"number":%d}' % (1000 + len(found))
            inside[body] = nth
            found.append(shapes(HEADERS, message(b"POST %s HTTP/1.1" % target, body))[nth])
    with ThreadPoolExecutor(16) as pool:
        list(pool.map(send, found))
    time.sleep(0.5)
    return inside


def test_no_request_within_a_request_reaches_the_counter(tmp_path: Path) -> None:
    with RecordedSite(tmp_path, GROUPS, LOGGED) as site:
        context = site.context("anna")
        inside = smuggled(lambda pieces: sent(site, context, pieces, pause=0.05, wait=2))
        assert len(set(inside.values())) >= 37
        reached = site.recorder.take()
        assert [inside[one.body] for one in reached if one.body in inside] == []
        asked = {(one.words[0], one.words[1][:8]) for one in reached}
        assert asked <= {(b"POST", b"/redeem"), (b"GET", b"/ticket/")}
        assert [one for one in reached if one.rest] == []
        passed = [entry for entry in site.log() if entry["counter"] == "200"]
        assert len(reached) == len(passed) > 0 and {entry["user"] for entry in passed} == {"anna"}


def test_control_straight_to_the_counter_requests_within_requests_arrive(tmp_path: Path) -> None:
    recorder = Recorder(tmp_path / "counter.sock")

    def send(pieces: list[bytes]) -> None:
        with socket.socket(socket.AF_UNIX) as line, contextlib.suppress(OSError):
            line.settimeout(1)
            line.connect(str(tmp_path / "counter.sock"))
            line.sendall(b"".join(pieces))
            everything(line)

    inside = smuggled(send)
    assert len({inside[one.body] for one in recorder.take() if one.body in inside}) > 10
    recorder.end()
