"""docs/RESTORE.md and the page of samples/restore as an operator follows them, on a machine of its own."""

import os
import random
import re
import threading
import time
from pathlib import Path

import pytest

from tests.conftest import TOP
from tests.restore.counter_day import entry_of
from tests.samples.conftest import machines, root
from tests.samples.test_systemd import LOG, Bank, bank, begun, machine, pytestmark
from tests.shared.counter_calls import Answer

__all__ = ["bank", "begun", "machine", "machines", "pytestmark", "root"]


@pytest.fixture
def logged(bank: Bank) -> Bank:
    asked, lock, log = bank.ask, threading.Lock(), Path(bank.machine.path(LOG))

    def ask(message: bytes) -> Answer | None:
        answer = asked(message)
        if answer and answer[0] in (200, 409):
            with lock, open(log, "a") as file:
                sent = message.replace(b"Connection: close\r\n", b"")
                file.write(entry_of(sent, answer[1], time.time(), str(answer[0])))
        return answer

    bank.load.ask_now = ask
    return bank


def lose_and_restore(bank: Bank) -> float:
    """The seconds from the loss to serving."""
    m, begun_at = bank.machine, time.time()
    m.shell("systemctl kill --signal=KILL counter.service counter-archive.service")
    m.shell("systemctl stop counter.service counter-archive.service; umount /var/lib/counter")
    m.shell("cd /srv/counter; btrfs -q subvolume delete store; btrfs -q subvolume create store")
    m.shell(f"mount -o subvol=store {m.devices[0]} /var/lib/counter")
    m.shell("chown counter: /var/lib/counter; chmod 700 /var/lib/counter")
    text = (TOP / "docs/RESTORE.md").read_text()
    look, restore = re.findall(r"^# (counter-restore.*)$", text, re.M)
    start = re.search(r"`(systemctl start [^`]*)`", text)
    assert start and look == f"{restore} --look"
    path = "PATH=$PATH:/opt/counter/restore"
    looked = m.shell(f"{path}; {look} || [ $? = 1 ]")
    said = m.shell(f"{path}; echo yes | {restore}")
    m.shell(start[1])
    bank.wait_until_served()
    assert "its file is missing" in looked and "Replies that differ:               0" in said
    return time.time() - begun_at


def test_lost_disk(logged: Bank, dice: random.Random) -> None:
    """The disk is lost MOMENTS times under load. The page's commands restore every reply, and the counter serves."""
    load, seconds = logged.load, list[float]()
    # The archiver takes a turn every five seconds: it has what no log has.
    time.sleep(12)
    load.start()
    for _ in range(int(os.environ.get("MOMENTS", "5"))):
        time.sleep(dice.uniform(0.5, 3))
        seconds.append(lose_and_restore(logged))
    load.stop()
    assert len(load.replies) > 100, "it was lost under load"
    logged.gives_all_replies_again()
    print(f"from the loss to serving {max(seconds):.1f} seconds, {len(load.replies)} replies")
