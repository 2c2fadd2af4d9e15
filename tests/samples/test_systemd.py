"""The units of samples/systemd and samples/restore on a machine, set up by the commands of their pages, with the disks of samples/snapshots. That nobody takes the counter's place there is in tests/fence/test_units.py."""

import re
import shutil
import time
from pathlib import Path
from typing import Iterator

import pytest

from tests.conftest import TOP, at_once, until
from tests.fence.conftest import Machine, MakeMachine
from tests.restore.counter_day import copied
from tests.shared.counter_calls import Answer, Load, apply, ask, beginning, bond, day_text, get
from tests.shared.counter_calls import post, sql

pytestmark = [pytest.mark.root, pytest.mark.machine, pytest.mark.slow]
pytestmark += [pytest.mark.needs("mkfs.btrfs", "sqlite3", "file:/dev/loop-control")]
STORE, BONDS = "/var/lib/counter/day.db", 6000
UNITS, SOCKET = "/etc/systemd/system", "/run/counter-http.sock"
LOG = "/srv/requests/requests.log"


def page(name: str, nth: int) -> str:
    return (TOP / f"samples/{name}/README.md").read_text().split("```\n")[2 * nth + 1]


class Bank:
    """A machine that was set up by the pages, with a store and clients."""

    def __init__(self, program: Path, machine: Machine) -> None:
        self.machine = machine
        shutil.copy(program, machine.path("/root/ee_cli"))
        shutil.copytree(TOP / "samples", machine.path("/root/samples"))
        machine.shell("mkdir -p /srv/archive /srv/requests")
        machine.shell(page("systemd", 0))
        self.load = Load(self.ask, BONDS, 4)

    def ask(self, message: bytes, patience: float = 60, at: str = SOCKET) -> Answer | None:
        """The answer over the counter's socket, as root."""
        return ask(self.machine.path(at), message, patience)

    def wait_until_served(self) -> None:
        status = ("systemctl", "status", "--no-pager", "counter.service")
        until(lambda: self.ask(get("/ticket/1")), lambda: self.machine.on(*status).stdout)

    def is_active(self, unit: str = "counter.service", seconds: int = 60) -> bool:
        return self.machine.wait(unit, "ActiveState", "active", seconds)

    def journal(self, *words: str) -> str:
        return self.machine.on("journalctl", "-q", "-o", "cat", *words).stdout

    def gives_all_replies_again(self) -> None:
        names = self.load.in_order()
        wanted = [(200, self.load.replies[name]) for name in names]
        assert [self.ask(self.load.requests[name]) for name in names] == wanted != []

    def ends_for_good(self, said: str) -> None:
        """The unit is started, fails with a final status, isn't started again, and somebody is called with the reason."""
        m = self.machine
        m.shell("journalctl --rotate; journalctl --vacuum-time=1s; systemctl reset-failed")
        m.on("systemctl", "start", "--no-block", "counter.service")
        assert m.wait("counter.service", "ActiveState", "failed", 60)
        restarts = m.shown("counter.service", "NRestarts")
        time.sleep(4)
        names = ("ActiveState", "ExecMainStatus", "NRestarts")
        assert [m.shown("counter.service", name) for name in names] == ["failed", "4", restarts]
        assert said in self.journal("-u", "counter.service")
        called = self.journal("-t", "counter", "-p", "alert")
        assert "counter.service has failed and is not started again" in called
        assert said in called.splitlines()[0]


@pytest.fixture(scope="module")
def machine(machines: MakeMachine, place: Path) -> Iterator[Machine]:
    """With the disks of the store and of its copies."""
    made = machines()
    made.add_store_disks(place)
    yield made
    made.end()


@pytest.fixture(scope="module")
def begun(program: Path, machine: Machine) -> Bank:
    """The first day by the page, with the rates of samples/."""
    return Bank(program, machine)


@pytest.fixture(scope="module")
def bank(begun: Bank) -> Bank:
    """The same with a store of many bonds, which the counter's user made, and the archive of samples/restore."""
    m = begun.machine
    m.shell(f"systemctl stop counter.service; rm {STORE} {STORE}-wal")
    Path(m.path("/tmp/first")).write_bytes(b"".join(beginning(BONDS)))
    as_counter = "setpriv --reuid counter --regid counter --clear-groups"
    said = m.shell(f"{as_counter} /opt/counter/ee_cli apply --db {STORE} < /tmp/first")
    assert said.count("HTTP/1.1 200 OK") == 1 + BONDS // 500
    m.shell("systemctl start counter.service")
    m.shell(page("restore", 0))
    begun.wait_until_served()
    begun.load.start()
    time.sleep(2)
    begun.load.stop()
    return begun


def test_first_day(begun: Bank) -> None:
    """The counter serves at the rates of samples/, as its user, without a capability, with its filter of system calls."""
    m = begun.machine
    begun.wait_until_served()
    answer = begun.ask(get("/value/50/2010-11/2012-02"))
    assert answer is not None and '"value":"25.16"' in answer[1]
    assert m.shell(page("systemd", 1)).endswith('{"code":69,"fault":"NotFound"}')
    enabled = m.on("systemctl", "is-enabled", "counter.service", "counter-copy.timer")
    assert enabled.stdout.split() == ["enabled", "enabled"]
    process = m.shown("counter.service", "MainPID")
    state = m.shell(f"grep -E '^(NoNewPrivs|Seccomp|CapBnd|CapEff):' /proc/{process}/status")
    found = dict(line.split(":\t") for line in state.splitlines())
    assert found == {"CapEff": "0" * 16, "CapBnd": "0" * 16, "NoNewPrivs": "1", "Seccomp": "2"}
    assert m.shell("stat -c '%U %a' /var/lib/counter").strip() == "counter 700"
    assert m.shown("counter-copy.timer", "NextElapseUSecRealtime").endswith("02:30:00 UTC")


def test_without_a_store(begun: Bank) -> None:
    """It isn't begun, and no store is made."""
    m = begun.machine
    m.shell(f"systemctl stop counter.service; mkdir kept; mv {STORE}* kept/")
    begun.ends_for_good(f"{STORE} is missing")
    assert "day.db" not in m.shell("ls /var/lib/counter")
    m.shell("mv kept/* /var/lib/counter/; rmdir kept; systemctl reset-failed")
    m.shell("systemctl start counter.service")


def test_killed_and_copied(bank: Bank) -> None:
    """Killed while clients redeem, it answers again; the copy's unit copies; and each request has its reply."""
    m = bank.machine
    bank.load.start()
    for turn in range(8):
        time.sleep(0.5)
        before = m.shown("counter.service", "MainPID")
        m.on("systemctl", "kill", f"--signal={'KILL' if turn % 2 else 'TERM'}", "counter.service")
        until(lambda: m.shown("counter.service", "MainPID") not in (before, "0"))
        until(lambda: bank.ask(get("/ticket/1"), 1))
    for _ in range(2):
        m.shell("systemctl start counter-copy.service")
    bank.load.stop()
    assert int(m.shell("ls -d /srv/copies/2* | wc -l")) == 2
    bank.gives_all_replies_again()


def test_archived(bank: Bank) -> None:
    """The guard says what it compared, and the archive grows while clients redeem."""
    compared = "guard: /srv/archive/counter ends with row"
    assert compared in bank.journal("-t", "serve_guarded", "-t", "guard", "-u", "counter.service")
    bank.load.start()
    time.sleep(12)
    bank.machine.shell("systemctl start counter-archive-check.service")
    bank.load.stop()
    said = bank.journal("-u", "counter-archive-check.service")
    found = re.findall(r"(\d+) lines are right, up to row (\d+)", said)
    assert found and int(found[-1][0]) > 100, said


def test_taken_back(bank: Bank) -> None:
    """A store of an earlier moment isn't served; restored from the archive it is, with each reply."""
    m = bank.machine
    m.shell("systemctl stop counter.service; sleep 12; systemctl stop counter-archive.service")
    m.shell(f"mkdir lost; mv {STORE}* lost/; cp /srv/archive/counter/first.db {STORE}")
    m.shell(f"cp /srv/archive/counter/first.db-wal {STORE}-wal; chown counter:counter {STORE}*")
    bank.ends_for_good("that were done are missing")
    m.shell("/opt/counter/restore/counter-restore --yes")
    m.shell("systemctl start counter.service counter-archive.service")
    bank.wait_until_served()
    bank.gives_all_replies_again()


@pytest.fixture
def other(bank: Bank) -> Iterator[Machine]:
    """The machine with the store kept apart, without its archives."""
    m, drop_ins = bank.machine, f"{UNITS}/counter.service.d"
    m.shell("systemctl stop counter.service counter-archive.service; mkdir good")
    m.shell(f"mv {STORE} {STORE}-wal good/; mv {drop_ins}/archives.conf /root/")
    m.shell("systemctl daemon-reload")
    yield m
    m.shell(f"systemctl stop counter.service; rm -f {STORE} {STORE}-wal")
    m.shell("mv good/* /var/lib/counter/; rmdir good")
    m.shell(f"mv /root/archives.conf {drop_ins}/; systemctl daemon-reload; systemctl reset-failed")
    m.shell("systemctl start counter-archive.service counter.service")
    bank.gives_all_replies_again()


def put_store(program: Path, folder: Path, machine: Machine, statement: str) -> None:
    store = folder / "day.db"
    sql(store, "PRAGMA page_size = 1024; VACUUM")
    apply(program, store, beginning(1))
    sql(copied(store, folder / "changed"), f"PRAGMA wal_checkpoint; {statement}")
    shutil.copy(folder / "changed/day.db", machine.path(STORE))
    machine.shell(f"chown counter:counter {STORE}")


ENDS = {
    "store: Unusable": "CREATE INDEX more ON paid (cents)",
    "store: WrongVersion": "UPDATE desk SET version = 3",
}


@pytest.mark.parametrize("said", ENDS)
def test_ends_for_good(bank: Bank, other: Machine, program: Path, folder: Path, said: str) -> None:
    put_store(program, folder, other, ENDS[said])
    bank.ends_for_good(said)


def test_control_without_the_guard(bank: Bank, other: Machine, program: Path, folder: Path) -> None:
    """The unit starts again and again over such a store."""
    put_store(program, folder, other, ENDS["store: Unusable"])
    drop_in = f"{UNITS}/counter.service.d/plain.conf"
    start = f"ExecStart=/opt/counter/ee_cli serve --db {STORE} --port 8377"
    other.write(drop_in, f"[Service]\nExecStartPre=\nExecStart=\n{start}\n")
    other.shell("systemctl daemon-reload; systemctl reset-failed counter.service")
    other.on("systemctl", "start", "--no-block", "counter.service")
    time.sleep(10)
    restarts = int(other.shown("counter.service", "NRestarts"))
    other.shell(f"systemctl stop counter.service; rm {drop_in}; systemctl daemon-reload")
    assert restarts >= 4


def test_store_in_use(bank: Bank, other: Machine) -> None:
    """It is tried again after growing pauses, and served without a hand once it can be."""
    other.shell("cp -p good/* /var/lib/counter/; systemctl reset-failed counter.service")
    serves = f"/opt/counter/ee_cli serve --db {STORE} --port 9999"
    other.shell(f"systemd-run -q --unit other -p User=counter {serves}")
    time.sleep(3)
    other.on("systemctl", "start", "--no-block", "counter.service")
    starts: list[float] = []
    end = time.time() + 60
    while time.time() < end and len(starts) < 5:
        at = int(other.shown("counter.service", "ExecMainStartTimestampMonotonic")) / 1e6
        if at and at not in starts:
            starts.append(at)
        time.sleep(0.1)
    pauses = [later - earlier for earlier, later in zip(starts, starts[1:])]
    assert len(pauses) == 4 and pauses == sorted(pauses) and pauses[-1] > 2 * pauses[0], pauses
    assert other.shown("counter.service", "ActiveState") == "activating"
    other.shell("systemctl stop other")
    assert bank.is_active(seconds=90)
    begun = time.time()
    other.shell("systemctl stop counter.service; systemctl start counter.service")
    bank.wait_until_served()
    assert time.time() - begun < 8, "a stop and a start begin without a pause"


@pytest.fixture(scope="module")
def second(bank: Bank) -> Machine:
    """The machine is the second one too, by the commands of the page."""
    m, keys = bank.machine, "/etc/counter"
    m.shell("echo 127.0.0.1 counter.bank.example second.bank.example >> /etc/hosts")
    m.shell(f"install -d /run/sshd {keys}; /usr/sbin/sshd; install -g adm -m 640 /dev/null {LOG}")
    m.shell(f"for key in pull witness; do ssh-keygen -q -t ed25519 -N '' -f {keys}/$key.key; done")
    m.shell(f"ssh-keyscan counter.bank.example second.bank.example > {keys}/known_hosts")
    said = m.shell(f"cut -d ' ' -f 1,2 {keys}/pull.key.pub {keys}/witness.key.pub")
    pull, witness = said.splitlines()
    m.shell(page("restore", 2).replace("ssh-ed25519 AAAA..", pull))
    m.shell("cd samples/restore; install -m 755 pull /opt/counter/restore/")
    m.shell(f"install -m 644 samples/restore/counter-pull.service {UNITS}")
    m.shell(page("restore", 3))
    allowed = page("restore", 4).replace("ssh-ed25519 AAAA..", witness)
    m.write("/srv/witness/.ssh/authorized_keys", allowed)
    m.shell(f"chown counter {keys}/witness.key")
    return m


def soon(m: Machine, command: str) -> None:
    until(lambda: m.on("sh", "-c", command).returncode == 0, command)


def test_second_machine(second: Machine) -> None:
    """It pulls the archive and follows the log, whose files rotate; its user reads no more than these."""
    archive, asked = "/srv/archive", "/srv/counter-requests/requests.log"
    read = f"cat {archive}/counter/end.json {archive}/machine/machine.tar {LOG} > /dev/null"
    assert second.on("su", "-s", "/bin/sh", "pull", "-c", read).returncode == 0
    assert second.on("su", "-s", "/bin/sh", "nobody", "-c", read).returncode == 1, "control"
    soon(second, f"cmp {archive}/counter/requests.jsonl /srv/counter-archive/requests.jsonl")
    second.shell(f'echo \'{{"entry":"one"}}\' >> {LOG}')
    soon(second, f"cmp {LOG} {asked}")
    second.shell("logrotate -f -s /tmp/rotated /etc/logrotate.d/counter-requests")
    second.shell(f'echo \'{{"entry":"two"}}\' >> {LOG}')
    soon(second, f"cat {asked}.1 {asked} | cmp - {LOG}")


def test_witness(bank: Bank, second: Machine) -> None:
    """The second machine has more: the counter is stopped, somebody is called, and a start comes to nothing. A witness that is killed stops nothing."""
    m = bank.machine
    ran = m.on("sh", "-ec", "cd /root; " + page("restore", 5))
    assert ran.returncode == 0, ran.stdout + bank.journal("-n", "60")
    m.on("systemctl", "kill", "--signal=KILL", "counter-witness.service")
    time.sleep(3)
    assert bank.is_active(seconds=1) and bank.is_active("counter-witness.service", 1), "control"
    m.shell("systemctl stop counter-pull.service; cd /srv/counter-archive; cp -p end.json more")
    m.shell("cd /srv/counter-archive; sed -i 's/\"row\":/&9/' more; mv more end.json")
    assert m.wait("counter.service", "ActiveState", "inactive", 20)
    calls = "counter-failed@counter-witness.service.service"
    m.wait(calls, "ExecMainExitTimestampMonotonic", "[1-9][0-9]*")
    called = bank.journal("-t", "counter", "-p", "alert")
    assert "counter-witness.service: witness: this machine was taken back" in called
    m.on("systemctl", "start", "--no-block", "counter.service")
    assert not bank.is_active(seconds=20)
    m.shell(f"rm {UNITS}/counter.service.d/witness.conf; pkill sshd")
    m.shell("systemctl daemon-reload; systemctl stop counter-witness.service")
    m.shell("systemctl reset-failed; systemctl start counter.service")
    bank.wait_until_served()


def test_one_apply_for_each_connection(bank: Bank) -> None:
    """By the units of the page: clients that come together are let in one after another, or are told to come again by an end without an answer."""
    m, sent_away = bank.machine, 0
    socket = page("systemd", 2).replace("counter-http.sock", "each.sock")
    m.write(f"{UNITS}/each.socket", socket)
    m.write(f"{UNITS}/each@.service", page("systemd", 3))
    m.shell("systemctl stop counter.service; systemctl daemon-reload; systemctl start each.socket")

    def client(turn: int) -> Answer:
        nonlocal sent_away
        value = {"desk": 99, "number": turn + 1, "day": day_text(bank.load.turn - 1), "payee": 7}
        message = post("/redeem", value | {"serials": [bond(0)["serial"]]})
        while (answer := bank.ask(message, at="/run/each.sock")) is None:
            sent_away += 1
            time.sleep(0.2)
        return answer

    answers = at_once(client, 20)
    m.shell("systemctl stop each.socket; systemctl start counter.service")
    assert sent_away > 0
    assert all(status == 409 and '"AlreadyPaid"' in text for status, text in answers), answers


def test_without_its_network(bank: Bank) -> None:
    """The counter isn't started. Control: with it, it serves again."""
    m = bank.machine
    m.shell("systemctl stop counter.service counter-http.socket counter-http.service")
    m.shell("systemctl stop counter-network.service")
    drop_in = f"{UNITS}/counter-network.service.d"
    m.write(f"{drop_in}/none.conf", "[Service]\nExecStart=\nExecStart=/usr/bin/false\n")
    m.shell("ip netns del counter 2> /dev/null || true; systemctl daemon-reload")
    m.on("systemctl", "start", "--no-block", "counter.service")
    assert not bank.is_active(seconds=5)
    m.shell(f"rm -r {drop_in}; systemctl daemon-reload; systemctl start counter.service")
    bank.wait_until_served()
