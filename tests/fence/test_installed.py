"""What the package puts on a machine beside the fence: man pages, completion, the clients, and a unit that has started once it serves. And docs/INSTALL.md to the letter on a Debian that has nothing but systemd."""

import glob
import os
import pty
import re
import select
import shutil
import subprocess
import tempfile
import time
from pathlib import Path
from typing import Any, Iterator

import pytest

from tests.conftest import MEMORY, until
from tests.fence.conftest import Machine, Release, blocks
from tests.fence.fresh import bootstrap
from tests.shared.counter_calls import done, end, make_version_one

pytestmark = [pytest.mark.root, pytest.mark.machine, pytest.mark.slow]

STORE = "/var/lib/counter/day.db"
UNKNOWN = '{"code":69,"fault":"NotFound"}'
PLAIN = "/etc/systemd/system/counter.service.d/plain.conf"
#: A page and a sentence of it, as `man` renders it.
PAGES = {
    "ee_cli.1": "One process at a time uses a store",
    "ee_store.5": "cksumvfs",
    "counter.service.8": "returns only then",
    "counter-selftest.8": "compares",
    "counter-archive.8": "chained by checksums",
    "counter-check.8": "batch of a day without one",
    "counter-copy.8": "only after the program opened it",
    "counter-restore.8": "compares every reply byte for byte",
    "ladwenpik-verify.1": "checks the folder of a release, and changes nothing",
}
#: What is typed, and what stands in the line after a Tab.
TYPED = (
    ("ee_cli im", "ee_cli import "),
    ("ee_cli import r", "ee_cli import rates "),
    ("ee_cli serve --po", "ee_cli serve --port"),
    ("ee_cli import rates /usr/share/ladwenpik/ra", "/usr/share/ladwenpik/rates.csv"),
    ("ee_cli value 7", "ee_cli value 75 "),
)
#: How each shell is begun, and its file of completions.
BASH = "bind 'set bell-style none'; . /usr/share/bash-completion/bash_completion"
ZSH = "unsetopt beep; zstyle ':completion:*' menu no; autoload -Uz compinit && compinit -u -D"
SHELLS = {"bash": ("bash --norc --noprofile -i", BASH), "zsh": ("zsh -f -i", ZSH)}
FILES = {"bash": "bash-completion/completions/ee_cli", "zsh": "zsh/vendor-completions/_ee_cli"}
CONTROL = re.compile(r"\x1b\[[0-9;?]*[a-zA-Z]|\x1b\][^\x07]*\x07|\x1b[=>]|[\x00-\x09\x0b-\x1f]")


@pytest.mark.parametrize("name", sorted(PAGES))
def test_a_man_page_renders(machine: Machine, name: str) -> None:
    page, part = name.rsplit(".", 1)
    words = "MANWIDTH=80 MANROFFOPT=-ww man --warnings -P cat"
    said = machine.shell(f"{words} {part} {page} 2> told > page; cat told; echo ---; cat page")
    warnings, text = said.split("---\n", 1)
    assert (warnings, PAGES[name] in re.sub(r"\s+", " ", text)) == ("", True)


def test_control_a_wrong_macro_is_a_warning(machine: Machine) -> None:
    machine.shell("zcat /usr/share/man/man1/ee_cli.1.gz | sed 's/^.Sh DES.*/.Xx DES/' > wrong.1")
    assert "Xx" in machine.shell("man --warnings -P cat -l ./wrong.1 2>&1 > /dev/null")


class Shell:
    def __init__(self, machine: Machine, name: str) -> None:
        words, begun = SHELLS[name]
        self.terminal, other = pty.openpty()
        env = "PATH=/usr/sbin:/usr/bin TERM=xterm HOME=/root COLUMNS=120 LINES=40 LC_ALL=C.UTF-8"
        line = machine.words("env", "-i", *env.split(), *words.split())
        ends: dict[str, Any] = {"stdin": other, "stdout": other, "stderr": other}
        self.process = subprocess.Popen(line, start_new_session=True, **ends)
        os.close(other)
        self.send(f"PS1='ready> '; {begun}\necho begun-$((40 + 2))\n")
        self.wait("begun-42")

    def send(self, text: str) -> None:
        os.write(self.terminal, text.encode())

    def read(self, seconds: float) -> str:
        """What came until the terminal was quiet for half a second, or for so long."""
        text, end = b"", time.time() + seconds
        while time.time() < end:
            if not select.select([self.terminal], [], [], 0.5 if text else seconds)[0]:
                break
            text += os.read(self.terminal, 65536)
        return CONTROL.sub("", text.decode(errors="replace"))

    def wait(self, wanted: str) -> str:
        text, end = "", time.time() + 60
        while wanted not in text:
            assert time.time() < end, text
            text += self.read(1)
        return text

    def completed(self, typed: str) -> str:
        """The line after a Tab, which is sent once the shell has written what was typed. Control-U empties it again."""
        self.send(typed)
        line = self.wait(typed)
        self.send("\t")
        line += self.read(4)
        self.send("\x15echo emptied-$((40 + 2))\n")
        self.wait("emptied-42")
        return line

    def end(self) -> None:
        end(self.process)
        os.close(self.terminal)


@pytest.fixture(params=sorted(SHELLS))
def shell(request: pytest.FixtureRequest, machine: Machine) -> Iterator[Shell]:
    made = Shell(machine, request.param)
    yield made
    made.end()


def test_a_shell_completes(shell: Shell) -> None:
    for typed, wanted in TYPED:
        assert wanted in shell.completed(typed)
    assert "ee_cli import " not in shell.completed("ee_cli imx")


@pytest.mark.parametrize("name", sorted(SHELLS))
def test_control_without_its_file_a_shell_completes_nothing(machine: Machine, name: str) -> None:
    machine.shell(f"mv /usr/share/{FILES[name]} /root/kept")
    shell = Shell(machine, name)
    typed, wanted = TYPED[0]
    found = shell.completed(typed)
    shell.end()
    machine.shell(f"mv /root/kept /usr/share/{FILES[name]}")
    assert wanted not in found


def test_the_clients_are_answered_through_nginx(machine: Machine) -> None:
    machine.shell("cd release && dpkg -i ladwenpik-client_*.deb")
    words = "--journal desk9.journal --desk 9 --at https://counter.bank.example"
    trust = "--ca /etc/counter/certificate.pem --certificate anna.pem"
    ran = machine.on("sh", "-c", f"cd /root; counter-client {words} {trust} ticket 1")
    assert ran.stdout == "there is no such ticket\n"


def test_the_auditors_report_finds_nothing_wrong(machine: Machine) -> None:
    machine.shell(f"systemctl stop counter.service; cp {STORE} copy.db; cp {STORE}-wal copy.db-wal")
    machine.shell("systemctl start counter.service")
    machine.shell("/usr/share/ladwenpik/audit/report copy.db --to audit")
    machine.shell("sqlite3 copy.db < /usr/share/ladwenpik/day_totals.sql")


def test_cron_copies_the_store(machine: Machine) -> None:
    """By the page's line, as cron runs it; the store is on a file system that it takes."""
    disk = "mkdir /srv/copies; mount -t tmpfs tmpfs /srv/copies"
    machine.shell(f"{disk}; cp /var/lib/counter/* /srv/copies")
    machine.shell(blocks("INSTALL", "Where things are")[1])
    line = Path(machine.path("/etc/cron.d/counter-copy")).read_text().replace("\\%", "%")
    said = machine.shell(line.split(None, 6)[6].replace("/var/lib/counter", "/srv/copies"))
    assert ": copied and opened, with " in said


def started(machine: Machine) -> tuple[int, str]:
    ran = machine.on("systemctl", "start", "counter.service")
    return ran.returncode, machine.ask("anna", "/batch/2199-12-31")


def test_start_returns_once_it_serves(machine: Machine, program: Path, folder: Path) -> None:
    """Over 100,000 bonds, which take seconds to open. The controls: a unit without the wait, and a store that no start can mend."""
    file = folder / "large.db"
    make_version_one(file, 100_000, 10_000)
    done(program, "export", "999999999", "--db", file)
    machine.shell("systemctl stop counter.service; mkdir kept; mv /var/lib/counter/day.db* kept/")
    shutil.copy(file, machine.path(STORE))
    machine.shell(f"chown counter:counter {STORE}")
    assert started(machine) == (0, UNKNOWN)
    machine.write(PLAIN, "[Service]\nExecStartPost=\n")
    machine.shell("systemctl stop counter.service; systemctl daemon-reload")
    assert started(machine) == (0, '{"unavailable":"counter"}')
    machine.shell(f"rm {PLAIN}; systemctl daemon-reload; systemctl stop counter.service")
    machine.shell(f"rm -f {STORE}*; sqlite3 {STORE} 'CREATE TABLE other (id INTEGER)'")
    machine.shell(f"chown counter:counter {STORE}")
    ran = machine.on("systemctl", "start", "counter.service")
    state = [machine.shown("counter.service", name) for name in ("ActiveState", "ExecMainStatus")]
    assert (ran.returncode != 0, state) == (True, ["failed", "4"])
    machine.shell("rm -f /var/lib/counter/day.db*; mv kept/day.db* /var/lib/counter/")
    machine.shell("systemctl reset-failed; systemctl start counter.service")


def test_the_first_day_by_the_page(machine: Machine) -> None:
    """After the trial of docs/INSTALL.md: a walk-in's bond is registered and paid, and the groups hold."""
    bonds = '{"number":2,"bonds":[{"serial":"R6EE","denom":200,"issued":"2011-12","owner":9}]}'
    redeem = '{"number":4,"day":"2026-11-30","payee":9,"serials":["R6EE"]}'
    # A 200-dollar bond of December 2011 at 0.60 % has eight units of 13.69 dollars in November 2026.
    lines = '"lines":[{"paid":"109.52","serial":"R6EE"}]'
    ticket = f'{{"day":"2026-11-30",{lines},"payee":9,"ticket":1,"total":"109.52"}}'
    assert machine.ask("cleo", "/bonds", bonds) == '{"new":1,"same":0}'
    day = '{"number":3,"day":"2026-11-30"}'
    assert machine.ask("bert", "/day/open", day) == '{"opened":"2026-11-30"}'
    assert [machine.ask("anna", "/redeem", redeem) for _ in range(2)] == [ticket, ticket]
    assert machine.ask("anna", "/day/close", day) == '{"forbidden":"group"}'
    again = redeem.replace('"number":4', '"number":5')
    assert '"refused":"AlreadyPaid"' in machine.ask("anna", "/redeem", again)
    assert "<!doctype html>" in machine.ask("anna", "/teller/").lower()


def test_dismissed_and_replaced_by_the_page(machine: Machine) -> None:
    """The commands of docs/WHO_MAY_DO_WHAT.md, in its order. A certificate is refused within the ten seconds that the page says, and some for a slow machine."""

    def is_refused() -> bool:
        return '"forbidden":"certificate"' in machine.ask("anna", "/user")

    (function,) = blocks("WHO_MAY_DO_WHAT", "An authority on the counter's machine")
    machine.shell(function + blocks("WHO_MAY_DO_WHAT", "Replace")[0])
    until(is_refused, seconds=15)
    kept = "cat /etc/counter/staff/issued/anna.crt /etc/counter/staff/private/anna.key > anna.pem"
    machine.shell(kept)
    assert machine.ask("anna", "/user") == '{"user":"anna","groups":"teller"}'
    hand_over = blocks("WHO_MAY_DO_WHAT", "Make and hand over")[0].split("\n", 1)[1]
    machine.shell(f"{function}rm -f anna.passphrase\n{hand_over}")
    read = "openssl pkcs12 -in /etc/counter/staff/private/anna.p12 -passin file:anna.passphrase"
    machine.shell(f"{read} -nokeys | grep -q CERT")
    machine.shell(function + blocks("WHO_MAY_DO_WHAT", "Dismiss")[0])
    until(is_refused, seconds=15)
    assert "R\t" in machine.shell(blocks("WHO_MAY_DO_WHAT", "List")[0])


@pytest.fixture(scope="module")
def minimal() -> Iterator[Machine]:
    with tempfile.TemporaryDirectory(prefix="minimal.", dir=MEMORY) as folder:
        base = bootstrap(f"{folder}/root", included="systemd,systemd-sysv")
        made = Machine(base, tempfile.mkdtemp(dir=folder))
        yield made
        made.end()


def online(machine: Machine, text: str) -> str:
    """What it prints in this machine's network."""
    words = [word for word in machine.words("bash", "-euo", "pipefail", "-c") if word != "--net"]
    env = {**os.environ, "DEBIAN_FRONTEND": "noninteractive", "LC_ALL": "C.UTF-8"}
    return done(*words, f"cd /root/release\n{text}", env=env)


def test_install_to_the_letter(minimal: Machine, release: Release) -> None:
    minimal.deliver(release)
    minimal.write("/etc/apt/apt.conf.d/yes", "APT::Get::Assume-Yes true;\n")
    for file in ("/etc/resolv.conf", *glob.glob("/etc/apt/apt.conf.d/99*")):
        shutil.copy(file, minimal.path(file))
    online(minimal, blocks("INSTALL", "Check that it is the proved one")[0])
    online(minimal, "gpg --version > /dev/null; python3 --version; sha256sum --check SHA256SUMS")
    online(minimal, blocks("INSTALL", "Install it")[0])
    minimal.shell("\n".join(blocks("INSTALL", "The first day")))
    minimal.shell(blocks("INSTALL", "End the trial")[0])
    assert minimal.ask("anna", "/user") == '{"user":"anna","groups":"teller"}'
    ran = minimal.on("sh", "-c", "cd /root; " + blocks("INSTALL", "Test the setup")[0])
    assert ran.returncode == 3, ran.stdout
