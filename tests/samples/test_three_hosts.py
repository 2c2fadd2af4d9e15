"""A store on a volume that three hosts replicate, by samples/replicated: each acknowledged reply stands, through losses of power and of cables, and one host serves at a time.

A host is a network namespace with namespaces of its own for mounts and processes: to kill its first process is to kill all of them at once, as a loss of power does, but for what the kernel holds of its disk. Its cable is its link on a bridge. LOSSES names how many, 6 if it isn't set."""

import contextlib
import ctypes
import os
import random
import signal
import socket
import subprocess
import threading
import time
from pathlib import Path
from typing import Any, Iterator

import pytest

from tests.conftest import TOP, until
from tests.restore.counter_day import Ran, run
from tests.shared.counter_calls import Answer, Load, apply, beginning, bond, day_text, done, end
from tests.shared.counter_calls import fault_of_books, get, post, read_answer

pytestmark = [pytest.mark.root, pytest.mark.slow, pytest.mark.needs("glusterd", "ip", "sqlite3")]
SAMPLES = TOP / "samples/replicated"
LOSSES = int(os.environ.get("LOSSES", "6"))
VOLUME, MOUNT, PORT, USER = "books", "/run/books", 8377, "nobody"
NETWORK, PROGRAM, BONDS = "/run/netns/counter", "/run/ee_cli", 12_000
MOUNTED = f"mkdir -p {MOUNT} && glusterfs --volfile-server=localhost --volfile-id={VOLUME} {MOUNT}"
PLAIN = f"umount -l {MOUNT}; {MOUNTED} && exec nsenter --net={NETWORK} {PROGRAM} serve --db {MOUNT}/day.db --port {PORT}"
BY_SCRIPT = [str(SAMPLES / "serve_replicated"), VOLUME, MOUNT, PROGRAM, str(PORT), USER, NETWORK]
BOOT = f"mount --make-rprivate / && mount -t tmpfs run /run && ip netns add counter && ip -n counter link set lo up && mount --bind {{folder}}/glusterd /var/lib/glusterd && mount --bind {{folder}}/log /var/log/glusterfs && install -m 755 {{program}} {PROGRAM} && glusterd -N & exec sleep infinity"
NOTHING = subprocess.DEVNULL
QUIET: dict[str, Any] = {"stdin": NOTHING, "stdout": NOTHING, "text": True}
MARK = os.getpid() % 10_000
NET = f"10.78.{MARK % 250}"
#: What a start may say while the store isn't to be had.
ENDS = (
    "store: StoreFailed",
    "serve_replicated: the volume can't be mounted",
    "serve_replicated: the volume has no day.db",
    f"serve_replicated: the volume {VOLUME} isn't known here",
)


class Host:
    """Its network, its first process, and its folders, which are its disk."""

    def __init__(self, nth: int, folder: Path, bridge: str, program: Path) -> None:
        self.nth, self.folder, self.address = nth, folder / f"host{nth}", f"{NET}.{nth}"
        self.space, self.link, self.program = f"counter{MARK}h{nth}", f"c{MARK}h{nth}", program
        self.first: int | None = None
        self.server: subprocess.Popen[str] | None = None
        for name in ("glusterd", "log", "brick"):
            (self.folder / name).mkdir(parents=True)
        done("ip", "netns", "add", self.space)
        pair = ("type", "veth", "peer", "name", "eth0", "netns", self.space)
        done("ip", "link", "add", self.link, *pair)
        done("ip", "link", "set", self.link, "master", bridge, "up")
        for words in (f"addr add {self.address}/24 dev eth0", "link set eth0 up", "link set lo up"):
            done("ip", "-n", self.space, *words.split())

    def boot(self) -> None:
        words = f"ip netns exec {self.space} unshare --mount --pid --fork --mount-proc --kill-child"
        boot = BOOT.format(folder=self.folder, program=self.program)
        line = [*words.split(), "sh", "-c", boot]
        self.outer = subprocess.Popen(line, start_new_session=True, **QUIET)
        children = Path(f"/proc/{self.outer.pid}/task/{self.outer.pid}/children")
        until(children.read_text, f"host {self.nth} begins", 20)
        self.first = int(children.read_text())
        comm = Path(f"/proc/{self.first}/comm")
        until(lambda: comm.read_text() == "sleep\n", f"host {self.nth} begins", 20)

    def words(self, *words: object) -> list[str]:
        return ["nsenter", "-t", str(self.first), "-n", "-m", "-p", *map(str, words)]

    def on(self, *words: object) -> Ran:
        return run("timeout", "120", *self.words(*words))

    def lose_power(self) -> None:
        if self.first:
            os.kill(self.first, signal.SIGKILL)
            self.outer.wait()
            self.first = None

    def power_off(self) -> None:
        self.lose_power()
        self.forget_server()

    def cable(self, state: str) -> None:
        done("ip", "link", "set", self.link, state)

    def start(self, *words: str) -> None:
        command = self.words(*(words or BY_SCRIPT))
        self.server = subprocess.Popen(command, stderr=subprocess.PIPE, **QUIET)

    def end_of_server(self) -> str | None:
        """What the counter said as it ended; None while it runs."""
        assert self.server is not None
        return None if self.server.poll() is None else self.server.communicate()[1].strip()

    def forget_server(self) -> None:
        if self.server:
            end(self.server)
            self.server = None

    def stop_server(self) -> None:
        self.on("sh", "-c", "kill $(pidof ee_cli)")
        self.forget_server()
        time.sleep(0.5)

    def ask(self, message: bytes, patience: float = 15) -> Answer | None:
        with contextlib.suppress(OSError), self.socket() as client:
            client.settimeout(patience)
            client.connect(("127.0.0.1", PORT))
            client.sendall(message)
            return read_answer(client)
        return None

    def socket(self) -> socket.socket:
        """A socket of the counter's network, which this thread enters for a moment."""
        libc, place = ctypes.CDLL(None), f"/proc/{self.first}/root{NETWORK}"
        with open("/proc/thread-self/ns/net") as here, open(place) as network:
            if libc.setns(network.fileno(), 0x40000000) != 0:
                raise OSError("setns")
            try:
                return socket.socket()
            finally:
                libc.setns(here.fileno(), 0x40000000)


class Hosts:
    """The three hosts, the volume over them, and the clients of the one that serves."""

    def __init__(self) -> None:
        self.bridge = f"c{MARK}b"
        self.all: list[Host] = []
        self.serving: Host | None = None
        self.load = Load(lambda m: self.serving.ask(m) if self.serving else None, BONDS - 1000, 3)

    def begin(self, program: Path, folder: Path) -> None:
        done("ip", "link", "add", self.bridge, "type", "bridge")
        done("ip", "link", "set", self.bridge, "up")
        self.all = [Host(nth, folder, self.bridge, program) for nth in (1, 2, 3)]
        for host in self.all:
            host.boot()
        first = self.all[0]
        for host in self.all[1:]:
            probe = ("gluster", "peer", "probe", host.address)
            until(lambda: first.on(*probe).returncode == 0, "peers", 120)
        status = ("gluster", "peer", "status")
        until(lambda: first.on(*status).stdout.count("(Connected)") == 2, "peers", 120)
        bricks = [f"{host.address}:{host.folder}/brick" for host in self.all]
        ran = first.on(SAMPLES / "make_volume", VOLUME, *bricks)
        assert ran.returncode == 0, ran
        # The bank's first store, made on a disk of the host and copied to the volume.
        store = first.folder / "day.db"
        assert {status for status, _ in apply(program, store, beginning(BONDS))} == {200}
        copied = f"{MOUNTED} && cp {store} {store}-wal {MOUNT}"
        own = f"chown {USER} {MOUNT} {MOUNT}/day.db {MOUNT}/day.db-wal"
        assert first.on("sh", "-c", f"{copied} && {own}").returncode == 0
        self.serve_on(first)
        self.whole()

    def both(self) -> tuple[Host, Host]:
        assert self.serving is not None
        return self.serving, self.all[self.serving.nth % 3]

    def whole(self) -> None:
        """All bricks are connected to the mount that is served from, and nothing is left to heal."""
        until(lambda: self.is_healed() and self.is_mirrored(), "the volume is whole again", 120)

    def is_healed(self) -> bool:
        words = ("gluster", "volume", "heal", VOLUME, "info", "summary")
        said = (self.serving or self.all[0]).on(*words).stdout
        return said.count("Status: Connected") == said.count("Total Number of entries: 0") == 3

    def is_mirrored(self) -> bool:
        """A file written on the serving host's mount stands in each brick."""
        if self.serving is None:
            return True
        word = str(random.random())
        if self.serving.on("timeout", "10", "sh", "-c", f"echo {word} > {MOUNT}/probe").returncode:
            return False
        paths = [host.folder / "brick/probe" for host in self.all]
        return all(path.exists() and path.read_text().strip() == word for path in paths)

    def restore(self, host: Host) -> None:
        """The host that was lost is there again, and nothing is left to heal."""
        host.power_off()
        host.cable("up")
        host.boot()
        self.whole()

    def serve_on(self, host: Host, *words: str) -> None:
        """A supervisor's work: the host's counter is started until it answers. Each start that ends says that the store isn't to be had."""
        host.start(*words)

        def serves() -> bool:
            said = host.end_of_server()
            if said is not None:
                assert words or said.partition("\n")[0] in ENDS, said
                host.start(*words)
            return host.ask(get("/ticket/1"), 2) is not None

        until(serves, f"host {host.nth} doesn't serve")
        self.serving = host

    def lose(self, is_power: bool) -> Host:
        """The host that serves is lost, and the next one serves."""
        lost, following = self.both()
        lost.power_off() if is_power else lost.cable("down")
        self.serving = None
        self.serve_on(following)
        return lost

    def give_all_replies_again(self) -> None:
        names, (host, _) = self.load.in_order(), self.both()
        wanted = [(200, self.load.replies[name]) for name in names]
        assert [host.ask(self.load.requests[name]) for name in names] == wanted != []

    def remove(self) -> None:
        for host in self.all:
            host.power_off()
            run("ip", "link", "delete", host.link)
            run("ip", "netns", "delete", host.space)
        run("ip", "link", "delete", self.bridge)


@pytest.fixture(scope="module")
def made(program: Path, place: Path) -> Iterator[Hosts]:
    hosts = Hosts()
    try:
        hosts.begin(program, place)
        yield hosts
    finally:
        hosts.remove()


@pytest.fixture
def hosts(made: Hosts) -> Hosts:
    made.whole()
    return made


def test_losses(hosts: Hosts) -> None:
    """Of power and of the cable in turn, under load: the next host serves, and every acknowledged reply is given again."""
    for nth in range(LOSSES):
        before = len(hosts.load.replies)
        hosts.load.start()
        time.sleep(random.uniform(0.5, 1.5))
        lost = hosts.lose(is_power=nth % 2 == 0)
        time.sleep(random.uniform(0.3, 1.0))
        hosts.load.stop()
        assert len(hosts.load.replies) > before
        hosts.restore(lost)
    hosts.give_all_replies_again()


def test_two_lost_at_once(hosts: Hosts) -> None:
    """Nothing is served until they are back; then all replies are given again, and SQLite finds each bond paid once."""
    host, _ = hosts.both()
    others = [each for each in hosts.all if each is not host]
    hosts.load.start()
    time.sleep(1)
    for other in others:
        other.power_off()
    time.sleep(1)
    before, ends, answers = len(hosts.load.replies), time.time() + 20, list[Answer | None]()
    while time.time() < ends:
        answers.append(host.ask(get("/ticket/1"), 5))
        if host.end_of_server() is not None:
            host.start()
        time.sleep(0.5)
    assert len(hosts.load.replies) == before and not [a for a in answers if a and a[0] == 200]
    host.stop_server()
    for other in others:
        other.boot()
    hosts.serving = None
    until(hosts.is_healed, "the volume is whole again", 120)
    hosts.serve_on(host)
    hosts.load.stop()
    hosts.whole()
    hosts.give_all_replies_again()
    host.stop_server()
    for name in ("day.db", "day.db-wal"):
        assert host.on("cp", f"{MOUNT}/{name}", host.folder / name).returncode == 0
    assert fault_of_books(host.folder / "day.db", hosts.load.replies) is None
    hosts.serve_on(host)


@pytest.mark.parametrize("nth", range(2))
def test_cut_off(hosts: Hosts, nth: int) -> None:
    """The start script ends the counter of a host that is cut off, so no query has an answer of before."""
    old, following = hosts.both()
    old.cable("down")
    until(lambda: old.ask(get("/ticket/1"), 2) is None, "it goes on answering", 20)
    hosts.serving = None
    hosts.serve_on(following)
    hosts.restore(old)


def test_one_serves_at_a_time(hosts: Hosts) -> None:
    """With a supervisor on each host, which starts the script again after each end, the lock on the store decides."""
    hosts.both()[0].stop_server()
    is_over = False

    def supervise(host: Host) -> None:
        while not is_over:
            if host.first:
                host.start()
                assert host.server is not None
                host.server.communicate()
            time.sleep(1)

    def answering() -> list[Host]:
        return [host for host in hosts.all if host.first and host.ask(get("/ticket/1"), 1)]

    threads = [threading.Thread(target=supervise, args=(host,)) for host in hosts.all]
    for thread in threads:
        thread.start()
    lost: Host | None = None
    for nth in range(3):
        until(answering, "one of the hosts serves", 60)
        for _ in range(10):
            found = answering()
            assert len(found) <= 1, [host.nth for host in found]
            hosts.serving = found[0] if found else hosts.serving
            time.sleep(0.2)
        if lost:
            lost.boot()
            until(hosts.is_healed, "the volume is whole again", 120)
        if nth < 2:
            lost, _ = hosts.both()
            lost.lose_power()
            hosts.serving = None
    is_over = True
    for host in hosts.all:
        while host.server and host.server.poll() is None:
            host.on("sh", "-c", "kill $(pidof ee_cli)")
            time.sleep(0.2)
    for thread in threads:
        thread.join()
    hosts.serve_on(hosts.both()[0])


def paid(hosts: Hosts, host: Host, turn: int, desk: int) -> Answer | None:
    """The answer to a payment of a bond that the load doesn't come to, on the day that is open."""
    value = {"desk": desk, "number": 5_000_000 + turn, "day": day_text(hosts.load.turn - 1)}
    return host.ask(post("/redeem", value | {"payee": 7, "serials": [bond(turn)["serial"]]}))


def pays(hosts: Hosts, host: Host, turn: int, desk: int) -> None:
    answer = paid(hosts, host, turn, desk)
    assert answer is not None and answer[0] == 200, answer


def isolated(hosts: Hosts, *start: str) -> tuple[Host, list[Answer | None], int]:
    """The counter is started without the sample's script. Its host's cable is cut, it lives on, the next host serves and pays, the cable is mended, and a client talks to the old counter again. That host, what it answers, and the first bond."""
    old, following = hosts.both()
    old.stop_server()
    hosts.serve_on(old, "sh", "-c", PLAIN)
    hosts.load.bonds -= 10
    turn = hosts.load.bonds
    pays(hosts, old, turn, 50)
    old.cable("down")
    time.sleep(1)
    hosts.serving = None
    hosts.serve_on(following, *start)
    pays(hosts, following, turn + 1, 51)
    old.cable("up")
    time.sleep(8)
    pays(hosts, following, turn + 2, 51)
    return old, [paid(hosts, old, turn + 3 + nth, 50) for nth in range(3)], turn


def test_isolated(hosts: Hosts) -> None:
    """With strict locks the old counter pays nothing, and what both paid before stands."""
    old, answers, turn = isolated(hosts)
    assert all(answer is None or answer[0] == 503 for answer in answers) and any(answers), answers
    for nth in range(3):
        pays(hosts, hosts.both()[0], turn + nth, 50 if nth == 0 else 51)
    hosts.restore(old)
    hosts.give_all_replies_again()


def test_control_without_strict_locks(hosts: Hosts) -> None:
    """The old counter pays into the store that another host serves: two writers. The sample's script refuses such a volume."""
    host, _ = hosts.both()
    words = ("gluster", "--mode=script", "volume", "set", VOLUME, "client.strict-locks", "off")
    assert host.on(*words).returncode == 0
    refused = host.on(SAMPLES / "serve_replicated", VOLUME, f"{MOUNT}2", PROGRAM, "8378")
    assert refused.returncode == 2, refused
    assert "lacks the setting client.strict-locks on" in refused.stdout + refused.stderr
    _, answers, _ = isolated(hosts, "sh", "-c", PLAIN)
    assert [answer for answer in answers if answer and answer[0] == 200], answers
