"""The units on a machine: a local user never takes the counter's place, and requests find the counter however the units are started and restarted."""

import itertools
import json
import shutil
import subprocess
import time
from pathlib import Path
from typing import Any, Iterator

import pytest

from tests.fence.conftest import Machine
from tests.fence.test_certificates import outdate

pytestmark = [pytest.mark.root, pytest.mark.machine, pytest.mark.slow]

IMPOSTOR, FORGED = Path(__file__).parent / "impostor.py", "9999.99"
STORE = "/var/lib/counter/day.db"
UNITS = ("counter.service", "counter-http.service", "counter-http.socket")
ALL = f"{' '.join(UNITS)} counter-network.service"
KILL = "systemctl kill --signal=KILL"
#: What the counter itself says of a day that it doesn't have, and nginx while there is no counter.
OWN, NONE = '{"code":69,"fault":"NotFound"}', '{"unavailable":"counter"}'
TROUBLES = (
    *(f"systemctl restart {unit}" for unit in UNITS),
    *(f"systemctl stop {unit}; sleep 1; systemctl start {unit}" for unit in UNITS),
    *(f"{KILL} {unit}" for unit in UNITS[:2]),
    f"systemctl stop {ALL}; ip netns delete counter; sleep 1; systemctl start counter.service",
    f"{KILL} counter.service; mkdir kept; mv {STORE}* kept/; sleep 3; mv kept/day.db* /var/lib/counter/; rmdir kept; systemctl start counter.service",
)


def asked(machine: Machine) -> str:
    return machine.ask("anna", "/batch/2199-12-31")


def served_again(machine: Machine) -> set[str]:
    said: list[str] = []
    deadline = time.monotonic() + 60
    while said[-3:] != [OWN] * 3 and time.monotonic() < deadline:
        said.append(asked(machine))
        time.sleep(0.2)  # A user has ten requests a second.
    assert said[-3:] == [OWN] * 3, said[-3:]
    return set(said)


class Impostor:
    """The program of nobody on the machine. It ends with its input: what enters the machine isn't the program itself, and a signal wouldn't reach it."""

    def __init__(self, machine: Machine) -> None:
        shutil.copy(IMPOSTOR, machine.path("/tmp/impostor.py"))
        nobody = ("setpriv", "--reuid", "65534", "--regid", "65534", "--clear-groups")
        words = machine.words(*nobody, "python3", "/tmp/impostor.py")
        pipe = subprocess.PIPE
        self.process = subprocess.Popen(words, stdin=pipe, stdout=pipe, text=True)

    def end(self) -> dict[str, Any]:
        return dict(json.loads(self.process.communicate("\n", timeout=60)[0]))


@pytest.fixture
def impostor(machine: Machine) -> Iterator[Impostor]:
    made = Impostor(machine)
    yield made
    if made.process.poll() is None:
        made.end()


def test_a_local_user_never_answers_for_the_counter(machine: Machine, impostor: Impostor) -> None:
    said = served_again(machine)
    for trouble in TROUBLES:
        machine.shell(trouble)
        said |= served_again(machine)
    told = impostor.end()
    assert said <= {OWN, NONE}
    assert told["came"] == {}
    done = {name for name, ends in told["ended"].items() if "done" in ends}
    assert len(done) == 4 and all(name.startswith("listen on") for name in done), done
    assert set(told["forbidden"]) <= set(told["ended"]) - done


def test_control_root_may_go_those_ways(machine: Machine) -> None:
    shutil.copy(IMPOSTOR, machine.path("/tmp/impostor.py"))
    told = json.loads(machine.on("python3", "/tmp/impostor.py", "once").stdout)
    barred = {name for name in told["forbidden"] if "done" not in told["ended"][name]}
    assert barred <= {"enter the network from a user namespace", "listen on nginx's port"}
    machine.shell("systemctl restart counter-http.socket counter.service counter-nginx.service")
    served_again(machine)


def test_control_over_a_port_of_the_host_he_answers(machine: Machine, impostor: Impostor) -> None:
    conf, reload = "/usr/share/ladwenpik/nginx/nginx.conf", "systemctl reload counter-nginx.service"
    port = "s|http://unix:/run/counter-http.sock|http://127.0.0.1:8377|"
    machine.shell(f"cp {conf} kept.conf; sed -i '{port}' {conf}; {reload}; sleep 1")
    said = asked(machine)
    machine.shell(f"mv kept.conf {conf}; {reload}; sleep 1")
    assert FORGED in said


def test_a_list_past_its_date_is_renewed_by_its_unit(machine: Machine) -> None:
    outdate(Path(machine.path("/etc/counter/staff")))
    machine.shell("systemctl reload counter-nginx.service; sleep 1")
    assert json.loads(asked(machine))["forbidden"] == "certificate"
    machine.shell("systemctl start counter-revoked.service; sleep 1")
    assert asked(machine) == OWN


@pytest.mark.parametrize("order", [*itertools.permutations(UNITS), UNITS[:1]])
def test_units_may_start_in_any_order(machine: Machine, order: tuple[str, ...]) -> None:
    starts = "".join(f"systemctl start {unit}\n" for unit in order)
    machine.shell(f"systemctl stop {ALL}\n{starts}")
    assert asked(machine) == OWN


def test_the_network_may_be_restarted_and_removed(machine: Machine) -> None:
    machine.shell("systemctl restart counter-network.service")
    served_again(machine)
    machine.shell(f"systemctl stop {ALL}; ip netns delete counter; systemctl start counter.service")
    assert asked(machine) == OWN


def test_requests_do_not_start_a_counter_that_was_stopped(machine: Machine) -> None:
    machine.shell("systemctl stop counter.service")
    assert {asked(machine) for _ in range(10)} == {NONE}
    assert machine.shown("counter.service", "ActiveState") == "inactive"
    machine.shell("systemctl start counter.service")
    assert asked(machine) == OWN


#: What is restarted in turn, 20 times in two seconds. The units that need the network are restarted with it.
QUICK = (
    "systemctl restart --no-block counter.service",
    f"{KILL} counter-http.service",
    "systemctl restart --no-block counter-http.socket",
    "systemctl restart --no-block counter-network.service",
)


def quickly(machine: Machine) -> set[str]:
    """Restarts units while requests come. Returns the units that have failed then."""
    machine.shell("".join(f"{QUICK[nth % 4]} &\nsleep 0.1\n" for nth in range(20)) + "wait")
    for _ in range(30):
        asked(machine)
    return {unit for unit in ALL.split() if machine.shown(unit, "ActiveState") == "failed"}


def test_quick_restarts_leave_no_unit_failed(machine: Machine) -> None:
    assert quickly(machine) == set()
    served_again(machine)


def test_control_with_systemds_own_limits_they_do(machine: Machine) -> None:
    starts = "[Unit]\nStartLimitIntervalSec=10s\nStartLimitBurst=5\n"
    more = {"counter-http.socket": "[Socket]\nTriggerLimitIntervalSec=2s\nTriggerLimitBurst=20\n"}
    for unit in ALL.split():
        machine.write(f"/etc/systemd/system/{unit}.d/limits.conf", starts + more.get(unit, ""))
    machine.shell("systemctl daemon-reload; systemctl restart counter-http.socket counter.service")
    assert quickly(machine) != set()
    machine.shell("rm -r /etc/systemd/system/counter*.d/limits.conf; systemctl daemon-reload")
    machine.shell("systemctl reset-failed; systemctl restart counter-http.socket counter.service")
    served_again(machine)
