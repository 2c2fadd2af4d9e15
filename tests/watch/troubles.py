"""Troubles for the alerts of samples/watch/alerts.yml: a generator that makes one, waits until its alert fires, and mends it. Those that a shell makes are in troubles.toml."""
import contextlib
import threading
import time
from concurrent.futures import ThreadPoolExecutor
from typing import Any, Callable, Iterator

from tests.conftest import at_once, until
from tests.shared.counter_calls import connected
from tests.watch.world import TROUBLES as TABLE
from tests.watch.world import Body, World, day_after

#: Makes a trouble, waits until its alert fires, and mends it.
Making = Callable[[World], Iterator[None]]
#: Every trouble, and the other alerts that may fire too.
TROUBLES: dict[str, tuple[Making, set[str]]] = {}


def trouble(alert: str, *companions: str) -> Callable[[Making], Making]:
    """Registers a trouble under its alert, `ALERT: WHAT` for a further one, with the other alerts that may fire too since the trouble is theirs as well."""

    def register(make: Making) -> Making:
        TROUBLES[alert] = (make, set(companions))
        return make

    return register


def by_shell(name: str, row: dict[str, Any]) -> Making:
    def make(w: World) -> Iterator[None]:
        w.shell(row["do"])
        yield
        label, *wanted = row.get("label", [""])

        def labels() -> set[str | None]:
            return w.labels_of(name.partition(":")[0], label)

        try:
            # A source of the trouble before may be named a while longer.
            until(lambda: not label or labels() == set(wanted), lambda: str(labels()))
        finally:
            w.shell(row["undo"])

    return make


for one, row in TABLE["trouble"].items():
    trouble(one, *row.get("beside", ()))(by_shell(one, row))


@trouble("DayLeftOpen")
def day_left_open(w: World) -> Iterator[None]:
    w.change_day("/day/open", day_after(-3))
    yield
    w.change_day("/day/close", day_after(-3))
    w.reach_today()


def paid_up_to(w: World, count: int) -> None:
    """So many tickets of today, as the snapshot's metric has them."""
    w.watched()
    w.pay(count - int(w.metric("ladwenpik_open_day_tickets")))


@trouble("DayNearlyFull")
def day_nearly_full(w: World) -> Iterator[None]:
    paid_up_to(w, 900)
    yield


@trouble("DayFull", "DayNearlyFull")
def day_full(w: World) -> Iterator[None]:
    paid_up_to(w, 1000)
    w.ask("POST", "/redeem", w.redemption(w.bond))
    yield
    w.change_day("/day/close", w.today)
    w.today = day_after(1)
    w.change_day("/day/open", w.today)


@trouble("DayInFuture")
def day_in_future(w: World) -> Iterator[None]:
    w.change_day("/day/close", w.today)
    w.change_day("/day/open", day_after(365))
    yield


def by_requests(requests: Callable[[World], list[Body]]) -> Making:
    def make(w: World) -> Iterator[None]:
        for request in requests(w):
            w.ask("POST", "/redeem", request)
        yield

    return make


TROUBLES |= {
    "ManyRefusals": (by_requests(lambda w: [w.redemption("Z999EE") for _ in range(40)]), set()),
    "NumberReused": (by_requests(lambda w: [one := w.redemption(0), one | {"payee": 8}]), set()),
    "PaidAgain": (by_requests(lambda w: [w.redemption(0) for _ in range(10)]), set()),
    "ManyRetries": (by_requests(lambda w: [w.next_redemption()] * 50), {"ManyRefusals"}),
}


@trouble("ManyForbidden")
def many_forbidden(w: World) -> Iterator[None]:
    at_once(lambda _: [w.ask("GET", "/ticket/1", user=None) for _ in range(10)], 20)
    yield


@contextlib.contextmanager
def running(*loops: Callable[[], object]) -> Iterator[None]:
    """Runs each function again and again beside this thread."""
    is_over = threading.Event()

    def repeat(one: Callable[[], object]) -> None:
        while not is_over.is_set():
            with contextlib.suppress(OSError):
                one()

    with ThreadPoolExecutor(len(loops)) as pool:
        for one in loops:
            pool.submit(repeat, one)
        try:
            yield
        finally:
            is_over.set()


@trouble("Slow", "NotAnswering")
def slow(w: World) -> Iterator[None]:
    """Beside payments, a client past nginx is silent for three seconds, again and again."""

    def hold() -> None:
        with connected(w.socket, 60):
            time.sleep(3)

    with running(hold, lambda: w.ask("GET", "/ticket/1")):
        yield


@contextlib.contextmanager
def many_held(w: World) -> Iterator[None]:
    with contextlib.ExitStack() as held:
        for _ in range(100):
            held.enter_context(connected(w.socket, 60))
        yield


@trouble("Queue", "NotAnswering", "ArchiveOld", "WatchOld", "Slow")
def queue(w: World) -> Iterator[None]:
    with many_held(w):
        yield


WHILE_IT_HANGS = ("NotAnswering", "ArchiveOld", "WatchOld", "Slow", "Unanswered", "CertificateEnds")


@trouble("Queue: at the socket", *WHILE_IT_HANGS)
def queue_at_socket(w: World) -> Iterator[None]:
    """The service behind the socket hangs, so connections wait there."""
    w.shell("systemctl kill --signal=STOP counter-http.service")
    with many_held(w):
        yield
        at = w.labels_of("Queue", "at")
    w.shell("systemctl kill --signal=CONT counter-http.service")
    assert at == {"socket"}


@trouble("PortTaken")
def port_taken(w: World) -> Iterator[None]:
    """A program of nobody listens where the counter did before it had a network of its own. It gets no request."""
    server = "/usr/bin/python3 -u -m http.server --bind 127.0.0.1 8377"
    w.shell(f"systemd-run -q --unit stranger --uid nobody {server}")
    w.ask("GET", "/ticket/1")
    yield
    w.shell("systemctl stop stranger.service")
    said = w.said_by("stranger.service")
    assert "Started" in said and "GET" not in said, "what listens there got no request"


@trouble("Unanswered", "NotAnswering")
def unanswered(w: World) -> Iterator[None]:
    w.shell("systemctl stop counter.service")
    for _ in range(20):
        w.ask("POST", "/redeem", w.redemption("Z997EE", desk=2))
    yield
    w.shell("systemctl start counter.service")


NO_ROOM = ("DiskFull", "SnapshotOld", "ArchiveOld", "NotAnswering", "WatchOld", "SourceUnread")
FILL = "cd /srv/counter; for size in 64k 1k 512; do dd if=/dev/zero of=fill$size bs=$size || sync; done"
#: btrfs gives the room of removed files back in the background, up to half a minute later: it has room for its own tables then too.
EMPTY = """rm -f /srv/counter/fill*; sync; cd /srv/counter/snapshots
for n in {1..120}; do btrfs -q subvolume snapshot /var/lib/counter room && break; sleep 1; done
btrfs -q subvolume delete room; systemctl restart counter.service"""


@trouble("Unserved", "ManyRefusals", *NO_ROOM)
def unserved(w: World) -> Iterator[None]:
    """The store's disk has no room: requests are answered 503."""
    w.shell(FILL)
    for _ in range(100):
        request = w.next_redemption()
        status, body = w.ask("POST", "/redeem", request)
        if status == 503:
            break
    assert status == 503, f"the disk is full, and it answers {status} {body}\n{w.shell('df')}"
    yield
    w.shell(EMPTY)
    w.wait_for_counter()
    assert w.ask("POST", "/redeem", request)[0] == 200, "with room again the same request acts"


@trouble("RequestsLogBehind", "DiskFull")
def requests_full(w: World) -> Iterator[None]:
    def refused() -> None:
        w.ask("POST", "/day/open", {"desk": 9, "number": 1, "day": w.today})
        time.sleep(1)

    w.shell("dd if=/dev/zero of=/srv/requests/fill bs=4k || true")
    with running(refused):
        yield
    w.shell("rm /srv/requests/fill")
    refused()


@trouble("Unlogged", "DiskFull")
def unlogged(w: World) -> Iterator[None]:
    """The disk of nginx's logs is full, and payments go on. The last page of its log has room for some more."""
    request = w.next_redemption()
    w.shell("dd if=/dev/zero of=/var/log/counter/fill bs=4k || true")
    statuses = {w.ask("POST", "/redeem", request)[0] for _ in range(15)}
    yield
    w.shell("rm /var/log/counter/fill")
    w.watched()
    assert (statuses, w.metric("ladwenpik_unlogged_total") > 0) == ({200}, True), "nginx said so"


@trouble("LogGap")
def log_gap(w: World) -> Iterator[None]:
    w.shell("systemctl stop counter-watch.timer")
    w.ask("GET", "/ticket/1")
    w.shell("cd /var/log/counter; mv watch.log watch.log.1")
    w.shell("install -g adm -m 640 /dev/null /var/log/counter/watch.log")
    w.shell("systemctl reload counter-nginx.service; sleep 1; rm /var/log/counter/watch.log.*")
    w.ask("GET", "/ticket/1")
    w.shell("systemctl start counter-watch.timer")
    yield


@trouble("StaffEndsSoon: past its date", "StaffEnds", "NotAnswering", "CertificateEnds")
def staff_has_ended(w: World) -> Iterator[None]:
    """nginx takes nobody's certificate any more."""
    w.shell("faketime -f -2d $EASYRSA --days=1 gen-crl; systemctl reload counter-nginx.service")
    yield
    status, body = w.ask("GET", "/ticket/1")
    w.shell("systemctl start counter-revoked.service")
    assert (status, '"forbidden":"certificate"' in body) == (400, True)


#: Days only rise: the first trouble needs an earlier one than today, and the last one lies in the future.
FIRST, LAST = "DayLeftOpen", ("DayNearlyFull", "DayFull", "DayInFuture")
