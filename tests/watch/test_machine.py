"""samples/watch on a machine with a systemd, btrfs and Prometheus of its own: every alert fires in its trouble and in no other, metrics are right and name nobody.

Two seconds stand for a minute there; tests/watch/test_alerts.py runs the rules with their own times. About 12 minutes on a busy machine."""

import itertools
import json
import os
import re
import shutil
import tempfile
import threading
import time
from operator import itemgetter
from pathlib import Path
from typing import Iterator
from xml.etree import ElementTree

import pytest

from tests.conftest import TOP, until
from tests.shared.counter_calls import replaced
from tests.watch.troubles import FIRST, LAST, TROUBLES
from tests.watch.world import DEBIANS, QUICK, Machine, World

pytestmark = [pytest.mark.machine, pytest.mark.root, pytest.mark.slow]

WATCH = Path(TOP) / "samples/watch"
#: Limits in seconds that are made shorter, as the times of the rules are; but a busy machine is slow by itself.
SHORTER = {
    "behind_seconds > 60": "behind_seconds > 5",
    "bucket[20s]))) > 1": "bucket[20s]))) > 2.5",
    "> 300": "> 40",
    "> 900": "> 30",
    "} > 120": "} > 20",
    "} > 360": "} > 60",
}
PATIENCE = 120
CHECK = "/opt/counter/watch/check_counter"


def quick_rules() -> str:
    """The rules with two seconds for each minute and 30 for each hour."""
    text = (WATCH / "alerts.yml").read_text()
    seconds = re.sub(r"(for: |\[)(\d+)m\b", lambda it: f"{it[1]}{2 * int(it[2])}s", text)
    return replaced(seconds, [("[1h]", "[30s]"), *SHORTER.items()])


@pytest.fixture(scope="module")
def world(program: Path, root: Path) -> Iterator[World]:
    with tempfile.TemporaryDirectory(dir=os.environ.get("TMPDIR", "/var/tmp")) as folder:
        (Path(folder) / "machine").mkdir()
        machine = Machine(root, Path(folder), program)
        try:
            made = World(machine)
            made.set_up()
            made.watch_quickly("2s")
            made.set_up_prometheus(quick_rules())
            made.watched()
            yield made
        finally:
            machine.end()


@pytest.fixture
def today(world: World) -> World:
    world.reach_today()
    return world


#: What may fire a while longer, since a trouble before made it fire.
lingering: set[str] = set()


def make_trouble(world: World, name: str) -> None:
    """Makes a trouble, and sees its alert fire with its companions alone; then mends it."""
    make, companions = TROUBLES[name]
    alert = name.partition(":")[0]
    until(lambda: alert not in world.firing(), f"control: {alert} fires before", PATIENCE)
    lingering.intersection_update(world.firing())
    steps = make(world)
    try:
        next(steps)
        until(lambda: alert in world.firing(), world.state, PATIENCE)
        assert world.firing() <= {alert, *companions, *lingering}, world.state()
    finally:
        lingering.update(companions, {alert})
        next(steps, None)
        world.wait_for_counter()
        world.wait_for_nginx()


def test_each_alert_has_a_trouble() -> None:
    named = re.findall(r"alert: Ladwenpik(\w+)", (WATCH / "alerts.yml").read_text())
    assert set(named) == {name.partition(":")[0] for name in TROUBLES}


def test_first_trouble(world: World) -> None:
    make_trouble(world, FIRST)


def test_quiet(today: World) -> None:
    """Control: nothing fires while clients pay and look things up."""
    until(lambda: not today.firing(), today.state, PATIENCE)
    end, firing = time.time() + 30, set[str]()
    while time.time() < end:
        today.pay(1)
        today.ask("GET", "/inventory/7/2026-11")
        firing |= today.firing()
        time.sleep(1)
    assert firing == set()


def test_unlogged_within_a_minute(today: World) -> None:
    """By the times that ship, with Debian's of Prometheus: the metrics come every 20 seconds, and are read and judged every 15."""
    until(lambda: "Unlogged" not in today.firing(), today.state, PATIENCE)
    reread = "systemctl kill --signal=HUP prometheus.service"
    today.write_rules((WATCH / "alerts.yml").read_text(), DEBIANS)
    today.shell(reread)
    today.watch_quickly("20s")
    steps, begun = TROUBLES["Unlogged"][0](today), time.monotonic()
    try:
        next(steps)
        until(lambda: "Unlogged" in today.firing(), today.state, 60)
        print(f"the alert fired after {time.monotonic() - begun:.0f} seconds")
    finally:
        today.watch_quickly("2s")
        today.write_rules(quick_rules(), QUICK)
        today.shell(reread)
        lingering.update({"Unlogged", "DiskFull"})
        next(steps, None)


def test_check_through_nginx(world: World) -> None:
    """The check's user may ask for the check's path and for nothing else; what the check says of certificates."""
    other = ("/batch/2012-02-06", "/inventory/7/2012-02", "/ticket/1")
    asked = [world.ask("GET", path, user="watch") for path in other]
    asked += [world.ask("POST", path, {}, user="watch") for path in ("/redeem", "/day/open")]
    assert [status for status, _ in asked] == [403] * 5
    found = world.ask("GET", "/batch/2005-05-01", user="watch")
    assert found == (404, '{"code":69,"fault":"NotFound"}')
    by = "--certificate /etc/counter/watch.crt --key /etc/counter/watch.key"
    trust = "--ca /etc/counter/certificate.pem"
    for words, status, part in (
        (f"{by} {trust}", 0, "certificate="),
        (trust, 2, "doesn't take the check's certificate"),
        (by, 2, "no TLS that can be trusted"),
        (f"{by} {trust} --days 61", 1, "certificate ends in"),
    ):
        ran = world.machine.on("sh", "-c", f"{CHECK} https://counter.bank.example {words}")
        assert (ran.returncode, part in ran.stdout) == (status, True), ran.stdout


def test_check_at_the_socket(world: World) -> None:
    """The counter is asked past nginx by root alone."""
    assert world.shell(f"{CHECK} unix:/run/counter-http.sock").startswith("COUNTER OK")
    for user in ("nobody", "counter"):
        words = ["setpriv", "--reuid", user, "--regid", "nogroup", "--clear-groups"]
        ran = world.machine.on(*words, CHECK, "unix:/run/counter-http.sock")
        assert ran.returncode == 2 and "Permission denied" in ran.stdout


def test_a_desk_of_null(today: World) -> None:
    """It is desk 0: the same request with desk 0 is a retry."""
    request = {**today.next_redemption(), "desk": None}
    retries = 'ladwenpik_retries_total{route="/redeem"}'
    today.watched()
    before = today.metric(retries)
    replies = [today.ask("POST", "/redeem", {**request, "desk": desk}) for desk in (None, 0)]
    today.watched()
    today.watched()
    assert replies[0] == replies[1] and replies[0][0] == 200
    assert today.metric(retries) == before + 1
    entry = f'"desk":"0","number":"{request["number"]}"'
    assert today.machine.on("grep", "-c", entry, "/var/log/counter/watch.log").stdout == "2\n"


def test_rotations(today: World) -> None:
    """The package's logrotate and samples/restore's work while clients ask: each request is counted once, only root and adm read the logs, the log for watching names no one, and nobody opens the store."""
    m, log, done, turns = today.machine, "/var/log/counter/watch.log", threading.Event(), 0
    shutil.copy(f"{TOP}/packaging/debian/ladwenpik.logrotate", m.path("/tmp/rotating"))
    page = (TOP / "samples/restore/README.md").read_text()
    m.shell(re.findall(r"^install .* (?=/etc/logrotate)\S+$", page, re.M)[-1])

    def rotate() -> None:
        nonlocal turns
        while not done.wait(2):
            files = ("/tmp/rotating", "/etc/logrotate.d/counter-requests")
            m.on("logrotate", "-f", "-s", "/tmp/rotated", *files)
            turns += 1

    assert today.ask("POST", "/redeem", today.next_redemption())[0] == 200
    today.watched()
    read = 'ladwenpik_requests_total{route="/ticket",status="200",by="counter"}'
    before = today.metric(read)
    rotating = threading.Thread(target=rotate)
    rotating.start()
    asked, end = 0, time.time() + PATIENCE
    while (turns < 3 or asked <= 20) and time.time() < end:
        asked += today.ask("GET", "/ticket/1")[0] == 200
    done.set()
    rotating.join()
    today.watched()
    today.watched()
    assert today.metric(read) - before == asked > 20
    owners = set(m.shell("stat -c '%U:%G %a' /var/log/counter/* /srv/requests/*").splitlines())
    assert owners == {"root:adm 640"} and int(m.shell(f"ls {log}* | wc -l")) > 3
    assert int(m.shell("ls /srv/requests/* | wc -l")) > 1
    names = "[A-Z][0-9]+EE|payee|anna|127[.]0|inventory/"
    said = f"zcat -f {log}* | grep -cE '{names}'; zcat -f /var/log/counter/counter.log* | grep -cE '[A-Z][0-9]+EE'"
    found = m.on("sh", "-c", said).stdout.split()
    assert found[0] == "0" and int(found[1]) > 0, "control: the log of posts has serial numbers"
    opened = today.opened_files()
    assert any(path.endswith("/day.db") and "/snapshots/watch-" in path for path in opened)
    assert not [path for path in opened if path.startswith("/var/lib/counter/")]


def test_dashboard(today: World) -> None:
    """Its structure as Grafana's import wants it, and data for each query."""
    board = json.loads((WATCH / "dashboard.json").read_text())
    panels = [panel for panel in board["panels"] if panel["type"] != "row"]
    ids = [panel["id"] for panel in board["panels"]]
    cells = list[tuple[int, int]]()
    for x, y, w, h in (itemgetter(*"xywh")(panel["gridPos"]) for panel in board["panels"]):
        cells += itertools.product(range(x, x + w), range(y, y + h))
    assert len(set(ids)) == len(ids) and len(set(cells)) == len(cells)
    assert max(x for x, _ in cells) < 24
    assert board["__inputs"][0]["name"] == "DS_PROMETHEUS"
    for panel in panels:
        assert panel["title"] and panel["description"]
        assert panel["datasource"]["uid"] == "${DS_PROMETHEUS}"
    expressions = [target["expr"] for panel in panels for target in panel["targets"]]
    expressions.append("ladwenpik_no_such_metric")
    found = {one: [item["value"][1] for item in today.query(one)] for one in expressions}
    empty = [expression for expression in expressions if set(found[expression]) <= {"NaN"}]
    assert empty == ["ladwenpik_no_such_metric"], "which is the control"


def test_page(today: World) -> None:
    """Made on the machine, by the log and the snapshot; its figures are those of the books."""
    m = today.machine
    log = "--log /var/log/counter/watch.log --snapshots /srv/counter/snapshots"
    today.watched()
    m.shell(f"/opt/counter/watch/page --to /tmp/counter.html {log}")
    text = Path(m.path("/tmp/counter.html")).read_text()
    ElementTree.fromstring(re.sub("(?i)<!doctype html>|<meta[^>]*>|(?<=<details) open", "", text))
    ids, labels = (re.findall(f' {name}="([^"]*)"', text) for name in ("id", "aria-label"))
    assert len(set(ids)) == len(ids) and text.count("<table") >= 3
    assert len(labels) == len(re.findall('<svg[^>]* role="img"', text)) == text.count("<svg") >= 5
    assert all(len(label) > 20 for label in labels), "each picture says in words what it shows"
    assert f"{today.metric('ladwenpik_open_day_dollars'):,.2f}" in text
    assert not re.search(r"[A-Z]\d+EE|payee|10\.0\.|anna", text)


@pytest.mark.parametrize("name", [*(it for it in TROUBLES if it not in (FIRST, *LAST)), *LAST])
def test_trouble(today: World, name: str) -> None:
    make_trouble(today, name)
