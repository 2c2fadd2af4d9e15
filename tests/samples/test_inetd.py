"""The lock of samples/inetd under inetd, with the sample's line and script."""

import os
import pwd
import subprocess
import time
from pathlib import Path
from typing import Iterator

import pytest

from tests.conftest import TOP, at_once
from tests.samples.books import script
from tests.shared.counter_calls import Answer, apply, ask, beginning, bond, day_text, free_port, get
from tests.shared.counter_calls import post, replaced

pytestmark = pytest.mark.needs("inetd")
SAMPLES = TOP / "samples/inetd"
TOGETHER = 40
OPENING = post("/day/open", {"number": 1000, "day": day_text(0)}, b"")


class Inetd:
    """inetd over a store with an open day. `guard` is a part of the sample that is left out."""

    def __init__(self, program: Path, folder: Path, guard: str) -> None:
        self.port, self.folder = free_port(), folder
        store = apply(program, folder / "day.db", [*beginning(50), OPENING])
        assert {status for status, _ in store} == {200}
        user = pwd.getpwuid(os.getuid()).pw_name
        texts = {name: (SAMPLES / name).read_text() for name in ("apply", "inetd.conf")}
        assert guard in "".join(texts.values())
        mine = [("/var/lib/counter/", f"{folder}/"), ("/opt/counter/ee_cli", str(program))]
        script(folder / "apply", replaced(texts["apply"].replace(guard, ""), mine))
        mine = [("8377", str(self.port)), ("/opt/counter/", f"{folder}/")]
        mine += [(" counter ", f" {user} ")]
        script(folder / "inetd.conf", replaced(texts["inetd.conf"].replace(guard, ""), mine))
        self.process = subprocess.Popen(["inetd", "-i", folder / "inetd.conf"])
        time.sleep(1)

    def together(self) -> list[Answer | None]:
        serials = [bond(0)["serial"]]

        def client(nth: int) -> Answer | None:
            value = {"desk": 1, "number": nth + 1, "day": day_text(0), "payee": 7}
            return ask(self.port, post("/redeem", value | {"serials": serials}))

        return at_once(client, TOGETHER)

    def faults(self) -> str:
        return (self.folder / "faults").read_text()


@pytest.fixture
def inetd(request: pytest.FixtureRequest, program: Path, folder: Path) -> Iterator[Inetd]:
    made = Inetd(program, folder, getattr(request, "param", ""))
    yield made
    made.process.terminate()
    made.process.wait()


def test_clients_that_come_together(inetd: Inetd) -> None:
    """One of them is paid, and all others learn that the bond is."""
    answers = [answer or (0, "") for answer in inetd.together()]
    assert sorted(status for status, _ in answers) == [200] + [409] * (TOGETHER - 1)
    assert sum('"AlreadyPaid"' in text for _, text in answers) == TOGETHER - 1
    assert inetd.faults() == ""


@pytest.mark.parametrize("inetd", ["flock /var/lib/counter/lock "], indirect=True)
def test_control_without_the_lock(inetd: Inetd) -> None:
    """Clients that come together find the store in use."""
    answers = inetd.together()
    assert None in answers and "store: StoreFailed" in inetd.faults()


def answered_of(inetd: Inetd, count: int) -> int:
    return sum(ask(inetd.port, get("/ticket/1"), 5) is not None for _ in range(count))


def test_many_in_a_minute(inetd: Inetd) -> None:
    assert answered_of(inetd, 300) == 300 and inetd.faults() == ""


@pytest.mark.parametrize("inetd", [".6000"], indirect=True)
def test_control_with_the_limit_of_inetd(inetd: Inetd) -> None:
    assert 200 < answered_of(inetd, 300) < 300
