"""500 tellers at once, while the counter stands still for three seconds: none is answered 502, and none later than twice as long as by a plain server in C."""

import os
import re
import signal
import socket
import statistics
import subprocess
import threading
import time
from collections import Counter as Count
from concurrent.futures import ThreadPoolExecutor
from pathlib import Path
from typing import Iterator

import pytest

from tests.conftest import TOP, is_listening, until
from tests.fence.conftest import Counter, MakeSite
from tests.fence.site import UNLIMITED
from tests.fence.site import Site, answer_in, sent
from tests.fence.test_load import GROUPS, DAY, redemption
from tests.shared.counter_calls import done, end, free_port, piped

pytestmark = [pytest.mark.root, pytest.mark.slow]

TELLERS, REQUESTS, STALL = 500, 900, 3
#: A machine that other tests fill may be late by more than nginx waits: lost connections are looked for, not late ones.
PATIENT = {**UNLIMITED, "proxy_read_timeout 60s;": "proxy_read_timeout 300s;"}
UNITS = TOP / "samples/systemd"
SERVICE = (UNITS / "counter-http.service").read_text()


class Network:
    """A network as counter-network.service makes it, or as the kernel does if `settings` is empty."""

    def __init__(self, settings: str | None = None) -> None:
        words = ["unshare", "--net", "sh", "-c", "ip link set lo up; echo; exec sleep 600"]
        self.process = subprocess.Popen(words, stdout=subprocess.PIPE)
        piped(self.process.stdout).readline()
        self.words = ["nsenter", "-t", str(self.process.pid), "--net"]
        unit = (UNITS / "counter-network.service").read_text()
        (found,) = re.findall(r"-c '(cd /proc/sys/net.*)'$", unit, re.M)
        done(*self.words, "sh", "-c", found if settings is None else settings)


@pytest.fixture
def network(request: pytest.FixtureRequest) -> Iterator[Network]:
    made = Network(getattr(request, "param", None))
    yield made
    end(made.process)


class InC:
    """The server in C in that network. Each request takes `more` microseconds more than it needs."""

    def __init__(self, network: Network, folder: Path, more: int = 0) -> None:
        self.port, built = free_port(), folder / "server"
        source = str(Path(__file__).parent / "server.c")
        done("gcc", "-O2", "-D_GNU_SOURCE", source, "-o", built)
        words = [*network.words, str(built), str(self.port), str(folder / "bodies"), str(more)]
        self.process = subprocess.Popen(words)
        until(lambda: is_listening(self.port, network.process.pid), "nobody listens")

    def end(self) -> None:
        end(self.process)


class Passing:
    """The proxy before the counter, as counter-http.socket and counter-http.service run it."""

    def __init__(self, network: Network, folder: Path, port: int, service: str) -> None:
        self.at = folder / f"{port}.sock"
        (start,) = re.findall(r"^ExecStart=(.*)127.0.0.1:8377$", service, re.M)
        self.ear = socket.socket(socket.AF_UNIX)
        self.ear.bind(str(self.at))
        self.ear.listen(4096)
        # The socket is the first that a service of systemd is handed: its file 3.
        line = f"exec 3<&0; LISTEN_FDS=1 LISTEN_PID=$$ exec {' '.join(network.words)} {start} 127.0.0.1:{port}"
        null = subprocess.DEVNULL
        self.process = subprocess.Popen(["sh", "-c", line], stdin=self.ear.fileno(), stderr=null)

    def end(self) -> None:
        end(self.process)
        self.ear.close()


def stalled(site: Site, process: int) -> tuple[Count[int], float]:
    """Lets all tellers ask while the server stands still. The statuses, and the longest time."""
    context, begun = site.context("anna"), threading.Barrier(TELLERS + 1)

    def teller(nth: int) -> list[tuple[int, float]]:
        begun.wait()
        found = []
        for number in range(1 + nth, REQUESTS + 1, TELLERS):
            start = time.monotonic()
            answer = answer_in(sent(site, context, [redemption(number, number)], wait=300))
            found.append((answer.status, time.monotonic() - start))
        return found

    os.kill(process, signal.SIGSTOP)
    with ThreadPoolExecutor(TELLERS) as pool:
        tellers = [pool.submit(teller, nth) for nth in range(TELLERS)]
        begun.wait()
        # On a busy machine the tellers come later.
        time.sleep(STALL * max(1, os.getloadavg()[0] / (os.cpu_count() or 1)))
        os.kill(process, signal.SIGCONT)
        answers = [answer for one in tellers for answer in one.result()]
    statuses, took = Count(status for status, _ in answers), sorted(one for _, one in answers)
    print(f"{dict(statuses)}, median {statistics.median(took):.1f} s, at most {took[-1]:.1f} s")
    return statuses, took[-1]


def through(
    site: MakeSite, folder: Path, network: Network, server: Counter | InC, service: str = SERVICE
) -> tuple[Count[int], float]:
    passing = Passing(network, folder, server.port, service)
    try:
        made = site(GROUPS, counter=f"http://unix:{passing.at}", changed=PATIENT)
        if isinstance(server, Counter):
            made.ask("bert", "POST", "/day/open", {"number": 5000, "day": DAY})
        return stalled(made, server.process.pid)
    finally:
        passing.end()
        server.end()


ALL_SERVED = Count({200: REQUESTS})


def test_no_answer_is_lost_or_late(
    site: MakeSite, folder: Path, program: Path, network: Network
) -> None:
    wanted, of_plain = through(site, folder, network, InC(network, folder))
    counter = Counter(program, folder / "store", network.words)
    found, longest = through(site, folder, network, counter)
    assert found == wanted == ALL_SERVED and longest < 2 * of_plain


#: Microseconds of a slow server, at which the kernel's queues run over.
SLOW = 20_000


def test_nor_by_a_slow_server(site: MakeSite, folder: Path, network: Network) -> None:
    assert through(site, folder, network, InC(network, folder, SLOW))[0] == ALL_SERVED


@pytest.mark.parametrize("network", ["true"], indirect=True)
def test_control_by_the_kernels_defaults_answers_are_lost(
    site: MakeSite, folder: Path, network: Network
) -> None:
    assert through(site, folder, network, InC(network, folder, SLOW))[0][502] > 0


def test_control_by_a_proxy_of_fewer_connections_too(
    site: MakeSite, folder: Path, network: Network
) -> None:
    few = SERVICE.replace("=1024", "=128")
    assert through(site, folder, network, InC(network, folder), few)[0][502] > 0
