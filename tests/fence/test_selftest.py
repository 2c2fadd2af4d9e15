"""counter-selftest on a fresh Debian: right by docs/INSTALL.md, and each weakening is a line that names it."""

import contextlib
import os
import re
import shlex
import shutil
import subprocess
import time
import tomllib
from pathlib import Path
from typing import Any, Iterator, NamedTuple

import pytest

from tests.fence.conftest import Machine, blocks
from tests.shared.counter_calls import done

pytestmark = [pytest.mark.root, pytest.mark.machine, pytest.mark.slow]

COMMAND = blocks("INSTALL", "Test the setup")[0].strip()
KINDS = ("right", "WRONG", "accepted", "not set up", "not tested")
SHARE = "/usr/share/ladwenpik"
SITE, PAGE = f"{SHARE}/nginx/nginx.conf", f"{SHARE}/teller/main.js"
ACCEPTED = "/etc/counter/selftest_accepted"
KINDS_OF: dict[str, Any] = tomllib.loads((Path(__file__).parent / "weakenings.toml").read_text())
#: What stands for words in capitals there.
SHORT: dict[str, str] = {name: KINDS_OF.pop(name) for name in [*KINDS_OF] if name.isupper()}
SHORT["STAFF"] = blocks("WHO_MAY_DO_WHAT", "An authority on the counter's machine")[0]
TRIAL = "".join(blocks("INSTALL", "The first day"))
SHORT["TRIAL"] = re.findall(r"(?ms)^mkdir .*?^END\n", TRIAL)[0]
BONDS = '{"number":2,"bonds":[{"serial":"R6EE","denom":200,"issued":"2011-12","owner":9}]}'
DAY = '{"number":3,"day":"2026-11-30"}'
REDEEM = '{"number":4,"day":"2026-11-30","payee":9,"serials":["R6EE"]}'


class Found:
    """What one run of the self-test found: its status, and the names of its lines by their kinds."""

    def __init__(self, machine: Machine, command: str = COMMAND) -> None:
        ran = machine.on("timeout", "120", "bash", "-c", f"cd /root; {command}")
        self.status, self.text = ran.returncode, ran.stdout
        lines = re.findall(rf"^({'|'.join(KINDS)}) +(.*?)(?:: .*)?$", self.text, re.M)
        self.names = {kind: {name for one, name in lines if one == kind} for kind in KINDS}
        assert len(lines) == self.text.count("\n"), self.text


def bring_btrfs(machine: Machine) -> None:
    """Debian's btrfs-progs, from this machine: the fresh one reaches no mirror."""
    for file in ("/usr/bin/btrfs", *re.findall(r"=> (/\S+)", done("ldd", "/usr/bin/btrfs"))):
        if not os.path.exists(machine.path(file)):
            shutil.copy(os.path.realpath(file), machine.path(file))


@pytest.fixture(scope="module")
def whole(machine: Machine, tmp_path_factory: pytest.TempPathFactory) -> Iterator[Machine]:
    folder, devices = tmp_path_factory.mktemp("disks"), []
    bring_btrfs(machine)
    try:
        for disk in (folder / "counter", folder / "copies"):
            done("truncate", "--size=256M", str(disk))
            done("mkfs.btrfs", "-q", str(disk))
            devices.append(done("losetup", "--find", "--show", str(disk)).strip())
            number = os.stat(devices[-1]).st_rdev
            os.mknod(machine.path(f"/dev/{disk.name}"), 0o060600, number)
        machine.shell(long(SHORT["DISKS"]) + blocks("INSTALL", "Where things are")[0])
        machine.shell("systemctl restart counter.service && systemctl start counter-copy.service")
        machine.ask("cleo", "/bonds", BONDS)
        machine.ask("bert", "/day/open", DAY)
        assert '"total":"109.52"' in machine.ask("anna", "/redeem", REDEEM)
        # The archiver takes a turn every five seconds.
        time.sleep(12)
        yield machine
    finally:
        machine.on("systemctl", "stop", "counter.service", "counter-archive.service")
        machine.on("umount", "/srv/copies", "/var/lib/counter", "/srv/counter")
        for device in devices:
            done("losetup", "--detach", device)


def test_after_install_just_what_is_not_set_up_is_named(machine: Machine) -> None:
    """By the commands of the page: status 3."""
    found = Found(machine)
    missing = {f"missing {what}" for what in ("archive", "copies", "log of requests")}
    assert found.names["not set up"] == missing, found.text
    assert found.names["WRONG"] | found.names["not tested"] == set(), found.text
    assert found.status == 3, found.text


def test_without_people_the_lines_that_need_them_are_not_tested(machine: Machine) -> None:
    found = Found(machine, COMMAND.split(" --teller")[0])
    groups = {f"group {group}" for group in ("teller", "supervisor", "registrar", "office")}
    assert found.names["not tested"] == groups | {"attack another site"}, found.text
    assert (found.status, found.names["WRONG"]) == (3, set()), found.text


WRONG = ("--teller", "--teller none.pem", "--other x", "more")
#: A teller asks 40 times. The statuses and seconds are printed.
ASKS = r"""cd /root; for n in {1..40}; do
curl -s -o /dev/null -w '%{http_code} %{time_total}\n' --cacert /etc/counter/certificate.pem \
  --cert anna.pem -H 'X-Counter-Client: curl' https://counter.bank.example/value/50/2010-11/2026-11
sleep 0.1; done"""
AS_NOBODY = "setpriv --reuid nobody --clear-groups counter-selftest"


@pytest.mark.parametrize("line", [*(f"counter-selftest {words}" for words in WRONG), AS_NOBODY])
def test_wrong_words_and_other_users_have_status_2(machine: Machine, line: str) -> None:
    ran = machine.on("bash", "-c", f"cd /root; {line}")
    assert (ran.returncode, "Traceback" in ran.stdout) == (2, False), ran.stdout


def test_a_certificate_that_the_machine_does_not_trust_is_wrong(machine: Machine) -> None:
    found = Found(machine, COMMAND.replace("--ca /etc/counter/certificate.pem", ""))
    assert (found.status, "self-signed certificate" in found.text) == (1, True), found.text


def test_with_all_set_up_each_line_is_right_and_nothing_changes(whole: Machine) -> None:
    """Meanwhile a teller is answered, each time within two seconds."""
    words = whole.words("bash", "-c", ASKS)
    before = whole.shell(SHORT["STATE"])
    with subprocess.Popen(words, stdout=subprocess.PIPE, text=True) as teller:
        found = Found(whole)
        answers = [line.split() for line in teller.communicate(timeout=120)[0].splitlines()]
    assert found.names["right"] and not any(found.names[kind] for kind in KINDS[1:]), found.text
    assert found.status == 0, found.text
    assert [status for status, _ in answers] == ["200"] * 40
    assert max(float(seconds) for _, seconds in answers) < 2
    assert whole.shell(SHORT["STATE"]) == before
    whole.shell("touch /etc/counter/page/bank.js")
    assert whole.shell(SHORT["STATE"]) != before, "control: a file that is touched is seen"


def test_an_authority_of_the_bank_has_neither_a_key_nor_an_index_here(whole: Machine) -> None:
    whole.shell("mkdir away; mv /etc/counter/staff/{private,index.txt} away")
    found = Found(whole)
    whole.shell("mv away/* /etc/counter/staff; rmdir away")
    assert (found.status, found.names["WRONG"]) == (0, set()), found.text


class Weakening(NamedTuple):
    what: str
    do: str
    undo: str
    wrong: set[str]

    @contextlib.contextmanager
    def made(self, machine: Machine) -> Iterator[None]:
        try:
            machine.shell(long(self.do))
            yield
        finally:
            machine.shell(long(self.undo))


def long(text: str) -> str:
    return re.sub(r"\b[A-Z]{5,}\b", lambda found: SHORT.get(found[0], found[0]), text)


def replacing(old: str, new: str) -> str:
    code = f"import sys; t = sys.stdin.read(); assert {old!r} in t; print(end=t.replace({old!r}, {new!r}, 1))"
    return f"python3 -c {shlex.quote(code)} < $FILE > changed; cat changed > $FILE; RELOAD"


def weakening(kind: str, what: str, entry: Any) -> Weakening:
    wrong = set(entry.get("wrong", ()))
    if kind == "shell":
        return Weakening(what, entry["do"], entry["undo"], wrong)
    if kind == "drop_in":
        file = f"/etc/systemd/system/{entry['unit']}.d/other.conf"
        do = f"install -D -m 644 /dev/null {file}; printf '{entry['text']}' > {file}"
        undo = f"rm {file}; rmdir --ignore-fail-on-non-empty $(dirname {file})"
        then = f"; systemctl daemon-reload; {entry.get('then', 'COUNTER')}"
        return Weakening(what, do + then, undo + then, wrong | {f"drop-in {file}"})
    file = entry.get("file", SITE)
    do = entry.get("do") or replacing(entry["old"], entry["new"])
    undo = f"mv -f kept.file {file}; {entry.get('undo', 'RELOAD')}"
    named = {f"nginx {file}" if kind == "bank" else f"file {file}"}
    wrong = wrong | named if kind == "site" else wrong or named
    return Weakening(what, f"FILE={file}; cp -a $FILE kept.file; {do}", undo, wrong)


def more_rights(mode: str, path: str) -> Weakening:
    do, undo = f"stat -c %a {path} > mode; chmod {mode} {path}", f"chmod $(cat mode) {path}"
    named = {f"rights {path}"}
    return Weakening(f"{path} with mode {mode}", f"{do}; RELOAD", f"{undo}; RELOAD", named)


RIGHTS = KINDS_OF.pop("rights").items()
WEAKENINGS = [more_rights(mode, path) for mode, paths in RIGHTS for path in paths]
for kind, entries in KINDS_OF.items():
    WEAKENINGS += [weakening(kind, what, entry) for what, entry in entries.items()]


@pytest.mark.parametrize("one", WEAKENINGS, ids=[one.what for one in WEAKENINGS])
def test_a_weakening_is_named(whole: Machine, one: Weakening) -> None:
    """Just its lines are wrong, each with what to do. So those of the one before are right again."""
    with one.made(whole):
        found = Found(whole)
    assert found.names["WRONG"] == one.wrong, found.text
    assert found.status == 1, found.text
    assert found.text.count(". Do: ") == len(one.wrong), found.text


@contextlib.contextmanager
def accepted(machine: Machine, *lines: str) -> Iterator[None]:
    """A page that isn't the package's, and these lines of what the bank accepts."""
    machine.shell(f"cp -a {PAGE} kept.page; echo >> {PAGE}")
    machine.write(ACCEPTED, "".join(f"{line}\n" for line in lines))
    try:
        yield
    finally:
        machine.shell(f"mv kept.page {PAGE}; rm {ACCEPTED}")


@pytest.mark.parametrize("between", ["\t", "  ", "\t  "])
def test_what_the_bank_accepts_is_printed_with_its_reason(whole: Machine, between: str) -> None:
    with accepted(whole, "# ours", f"file {PAGE}{between}the bank's own button"):
        found = Found(whole)
    assert (found.status, found.names["accepted"]) == (0, {f"file {PAGE}"}), found.text
    assert f"file {PAGE}: the bank's own button\n" in found.text


@pytest.mark.parametrize("line", ["{}", "{} one blank", "{}x\tanother name"])
def test_without_a_reason_or_the_right_name_nothing_is_accepted(whole: Machine, line: str) -> None:
    text = line.format(f"file {PAGE}")
    with accepted(whole, text):
        found = Found(whole)
    wrong = {f"file {PAGE}", "accepted " + text.split("\t")[0]}
    assert (found.status, found.names["WRONG"]) == (1, wrong), found.text


def test_a_line_that_fits_nothing_is_told(whole: Machine) -> None:
    whole.write(ACCEPTED, "drop-in /etc/systemd/system/old.conf\tuntil 2025\n")
    found = Found(whole)
    whole.shell(f"rm {ACCEPTED}")
    wrong = {"accepted drop-in /etc/systemd/system/old.conf"}
    assert (found.status, found.names["WRONG"]) == (1, wrong), found.text


def test_an_upgrade_leaves_a_complete_archive(whole: Machine) -> None:
    """By the lines of the page, at whose end the counter and the archive are started again."""
    compared = "/usr/share/ladwenpik/restore/guard /var/lib/counter/day.db /srv/archive/counter"
    for block in blocks("UPGRADE", "1. Stop"):
        whole.shell(block)
    assert "the store has 0 more" in whole.shell(compared)
    whole.shell(blocks("UPGRADE", "5. Resume")[0] + "systemctl start counter-archive.service")
