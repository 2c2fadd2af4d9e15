"""Many clients at once: half-open handshakes, slow and silent ones, a page of another site that asks again and again. Each request of a teller is answered. And 1,000 payments while nginx and the counter are restarted and killed 50 times: each is paid once, and has an entry in nginx's log."""

import contextlib
import http.client
import json
import resource
import select
import socket
import threading
import time
from collections import Counter as Count
from concurrent.futures import ThreadPoolExecutor
from pathlib import Path
from typing import Iterator

import pytest

from tests.fence.conftest import Counter, MakeSite
from tests.fence.site import UNLIMITED, Answer, RecordedSite, Site, answer_in, connected, everything
from tests.fence.site import message, sent
from tests.shared.counter_calls import rows

GROUPS = {"anna": "teller", "bert": "supervisor"}
DAY = "2012-02-06"
REDEEM = b"POST /redeem HTTP/1.1"


class Flood(threading.Thread):
    """Holds `count` connections, each with the first three bytes of a handshake, and replaces each that ends, at most 4,000 a second."""

    def __init__(self, site: Site, count: int) -> None:
        super().__init__(daemon=True)
        self.site, self.count, self.is_over, self.opened, self.most = site, count, False, 0, 0
        self.start()

    def run(self) -> None:
        held: dict[int, socket.socket] = {}
        line, begun = select.epoll(), time.monotonic()
        while not self.is_over:
            allowed = int((time.monotonic() - begun) * 4000) - self.opened
            for _ in range(min(self.count - len(held), allowed)):
                client = socket.socket()
                client.setblocking(False)
                client.connect_ex((self.site.name, self.site.port))
                held[client.fileno()] = client
                line.register(client, select.EPOLLOUT)
                self.opened += 1
            for number, event in line.poll(0.01, 1000):
                if event != select.EPOLLOUT:
                    held.pop(number).close()
                    continue
                with contextlib.suppress(OSError):
                    held[number].send(b"\x16\x03\x01")
                    line.modify(number, select.EPOLLIN)
            self.most = max(self.most, len(held))
        for client in held.values():
            client.close()

    def end(self) -> None:
        self.is_over = True
        self.join()


def beside(site: RecordedSite, count: int, seconds: float) -> tuple[list[bool], int]:
    """A teller asks again and again beside a flood. Whether an answer came within five seconds, each time; and how many handshakes there were at once."""
    flood, answered, context = Flood(site, count), list[bool](), site.context("anna")
    end = time.monotonic() + seconds
    while time.monotonic() < end:
        answered.append(False)
        with contextlib.suppress(OSError, AssertionError):
            text = sent(site, context, [message(REDEEM, b"{}")], wait=5)
            answered[-1] = answer_in(text).status == 200
        time.sleep(0.05)
    flood.end()
    return answered, flood.most


@pytest.fixture
def many_files() -> Iterator[None]:
    """This process may open 20,000 files."""
    was = resource.getrlimit(resource.RLIMIT_NOFILE)
    try:
        resource.setrlimit(resource.RLIMIT_NOFILE, (20_000, max(20_000, was[1])))
    except (ValueError, OSError):
        pytest.skip("it can't open 20,000 files")
    yield
    resource.setrlimit(resource.RLIMIT_NOFILE, was)


def test_half_open_handshakes_keep_no_teller_out(tmp_path: Path, many_files: None) -> None:
    """Without any rule of a firewall: nginx has connections to spare, and lets each go after five seconds."""
    with RecordedSite(tmp_path, GROUPS) as site:
        answered, most = beside(site, 12_000, 20)
    assert all(answered) and len(answered) > 20 and most > 10_000


FEW = {"worker_connections 15000;": "worker_connections 768;"}
FEW |= {"client_header_timeout 5s;": "client_header_timeout 30s;"}


def test_control_with_debians_own_settings_they_do(tmp_path: Path, many_files: None) -> None:
    with RecordedSite(tmp_path, GROUPS, {**UNLIMITED, **FEW}) as site:
        answered, _ = beside(site, 12_000, 10)
    assert answered.count(False) > len(answered) / 2


def asked_by_another_site(site: RecordedSite) -> Count[int]:
    """A page of another site makes anna's browser ask 360 times for a picture and for a payment; she asks meanwhile. How her requests are answered."""
    context, foreign = site.context("anna"), b"Sec-Fetch-Site: cross-site"
    lines = [b"GET /teller/icon.svg HTTP/1.1", REDEEM] * 180
    with ThreadPoolExecutor(9) as pool:
        asked = [pool.submit(sent, site, context, [message(line, b"", foreign)]) for line in lines]
        own = [answer_in(sent(site, context, [message(REDEEM, b"{}")])).status for _ in range(40)]
        assert {answer_in(one.result()).status for one in asked} <= {200, 403, 429}
        own += [answer_in(sent(site, context, [message(REDEEM, b"{}")])).status for _ in range(20)]
    return Count(own)


def test_a_page_of_another_site_costs_a_teller_no_answer(tmp_path: Path) -> None:
    with RecordedSite(tmp_path, GROUPS, {}) as site:
        assert asked_by_another_site(site) == {200: 60}


def test_control_with_a_limit_on_pictures_it_does(tmp_path: Path) -> None:
    limit = "limit_req zone=staff burst=100 nodelay;"
    changed = {"location /teller/ {": f"location /teller/ {{ {limit}", "burst=200": "burst=100"}
    with RecordedSite(tmp_path, GROUPS, changed) as site:
        assert asked_by_another_site(site)[429] > 0


def redemption(number: int, bond: int, desk: int = 1) -> bytes:
    value = {"desk": desk, "number": number, "day": DAY, "payee": 7, "serials": [f"B{bond}EE"]}
    return message(REDEEM, json.dumps(value).encode())


def slow_client(site: Site, nth: int, is_over: threading.Event) -> Answer | None:
    """Is silent, or sends half a head or half a body, until the others are done; each fourth sends a byte of its redemption each second, and then the rest."""
    text = redemption(nth, 500 + nth, desk=2)
    if nth % 4 == 0:
        with socket.create_connection((site.name, site.port)):
            is_over.wait()
        return None
    at = len(text) // 2 if nth % 4 == 1 else len(text) - 50
    with connected(site, site.context("anna")) as line:
        line.sendall(text[:at])
        while nth % 4 == 3 and not is_over.wait(1):
            line.sendall(text[at : at + 1])
            at += 1
        is_over.wait()
        if nth % 4 != 3:
            return None
        line.sendall(text[at:])
        return answer_in(everything(line))


def test_clients_pay_beside_slow_and_silent_ones(site: MakeSite, counter: Counter) -> None:
    """50 pay 400 bonds, each of which two of them ask for, beside 200 that are slow or silent."""
    made, is_over = site(GROUPS, changed=UNLIMITED), threading.Event()
    made.ask("bert", "POST", "/day/open", {"number": 10, "day": DAY})
    context = made.context("anna")

    def pay(number: int) -> tuple[int, str]:
        answer = answer_in(sent(made, context, [redemption(number, number % 400 + 1)], wait=60))
        return answer.status, answer.text

    with ThreadPoolExecutor(200) as slow, ThreadPoolExecutor(50) as paying:
        held = [slow.submit(slow_client, made, nth, is_over) for nth in range(200)]
        time.sleep(1)
        told = list(paying.map(pay, range(1, 801)))
        is_over.set()
        late = [answer for one in held if (answer := one.result())]
    assert Count(status for status, _ in told) == {200: 400, 409: 400}
    assert all("AlreadyPaid" in text for status, text in told if status == 409)
    assert [answer.status for answer in late] == [200] * 50
    assert [pay(number) for number in range(1, 801)] == told, "again"


#: Payments for each restart.
EACH = 20
NEVER = "given up"
#: The seconds for which a teller sends a payment again.
PATIENCE = 120


def restarted(site: Site, counter: Counter, nth: int) -> None:
    """nginx is restarted as its unit does, or killed; the counter is killed."""
    if nth % 2:
        counter.end()
        counter.start()
    elif nth % 4:
        site.restart()
    else:
        site.kill()
        site.process = site.start()


def pay(site: Site, number: int, is_again: bool) -> str:
    """The reply to a payment, which is sent until it comes if `is_again`. Its bond is that of its number."""
    value = {"desk": 1, "number": number, "day": DAY, "payee": 7, "serials": [f"B{number}EE"]}
    deadline = time.monotonic() + (PATIENCE if is_again else 0)
    while True:
        with contextlib.suppress(OSError, http.client.HTTPException):
            answer = site.ask("anna", "POST", "/redeem", value)
            if answer.status == 200:
                return answer.text
            assert answer.status == 502, answer
        if time.monotonic() >= deadline:
            return NEVER
        time.sleep(0.05)


def paid(site: Site, counter: Counter, restarts: int, is_again: bool = True) -> dict[int, str]:
    """Eight tellers pay while nginx and the counter are restarted. Returns the reply to each payment by its number."""
    site.ask("bert", "POST", "/day/open", {"number": 5000, "day": DAY})
    allowed, count = threading.Semaphore(0), restarts * EACH

    def one(number: int) -> tuple[int, str]:
        allowed.acquire()
        return number, pay(site, number, is_again)

    with ThreadPoolExecutor(8) as pool:
        told = [pool.submit(one, number) for number in range(1, count + 1)]
        for nth in range(restarts):
            allowed.release(EACH)
            restarted(site, counter, nth)
        return dict(reply.result(timeout=2 * PATIENCE) for reply in told)


def logged(site: Site) -> set[int]:
    return {json.loads(entry["body"])["number"] for entry in site.log() if entry["counter"]}


@pytest.mark.slow
def test_each_payment_is_paid_once_and_logged(site: MakeSite, counter: Counter) -> None:
    made = site(GROUPS, changed=UNLIMITED)
    told = paid(made, counter, 50)
    assert set(told) == set(range(1, 1001)) and NEVER not in told.values()
    made.restart()
    assert logged(made) >= set(told)
    counter.end()
    kept = rows(counter.store, "SELECT number, reply FROM answers WHERE desk = 1")
    assert sorted(kept) == sorted(told.items())
    tickets = sorted(json.loads(reply)["ticket"] for reply in told.values())
    assert tickets == list(range(1, 1001))
    counts = "SELECT count(*), count(DISTINCT number) FROM paid"
    assert rows(counter.store, counts) == [(1000, 1000)]


@pytest.mark.slow
def test_control_who_sends_once_loses_replies(site: MakeSite, counter: Counter) -> None:
    assert NEVER in paid(site(GROUPS, changed=UNLIMITED), counter, 8, is_again=False).values()


@pytest.mark.slow
def test_control_without_a_write_for_each_some_are_lost(site: MakeSite, counter: Counter) -> None:
    changed = {"counter_posts if=$is_post;": "counter_posts buffer=1m if=$is_post;"}
    made = site(GROUPS, changed={**UNLIMITED, **changed})
    told = paid(made, counter, 8)
    made.kill()
    made.process = made.start()
    assert not logged(made) >= set(told)
