"""An upgrade from each release with passwords, by docs/UPGRADE.md to the letter: it asks nothing, and nobody can answer in the counter's place."""

import subprocess
import tarfile
import tempfile
from io import BytesIO
from pathlib import Path
from typing import Iterator

import pytest

from tests.conftest import MEMORY, TOP
from tests.fence.conftest import Machine, MakeMachine, Release, blocks, blocks_below
from tests.shared.counter_calls import done

pytestmark = [pytest.mark.root, pytest.mark.machine, pytest.mark.slow]

#: The steps of docs/UPGRADE.md. The archive's lines need its disks.
STEPS = ("1. Stop", "2. Copy", "3. Install", "4. Try the new program on a copy", "5. Resume")
#: A local user who listens where the counter of e30226db listened.
IMPOSTOR = """
import socket
server = socket.create_server(("127.0.0.1", 8377))
while True:
    server.accept()[0].sendall(b"HTTP/1.1 200 OK\\r\\nContent-Length: 7\\r\\n\\r\\n9999.99")
"""


#: Before the counter had a network of its own, and the last one with passwords. The number is the one that its package gets here.
COMMITS = {"e30226db": "1.0.0-0", "5c41aef1": "1.0.0-1"}
BANK = "/usr/share/ladwenpik/teller/bank.js"


class Before(Release):
    """The package and the pages of a commit. Its program is the one of today, which says that it is 1.0.0."""

    def __init__(self, commit: str, program: Path, folder: Path) -> None:
        self.commit, tree, old = commit, folder / "tree", folder / "ee_cli"
        ran = subprocess.run(["git", "archive", commit], cwd=TOP, check=True, capture_output=True)
        tarfile.open(fileobj=BytesIO(ran.stdout)).extractall(tree)
        # A compiler may have the last digit apart from the others.
        old.write_bytes(program.read_bytes().replace(b"1.1.", b"1.0."))
        old.chmod(0o755)
        assert done(old, "--version").startswith("ee_cli 1.0.0,")
        changelog = tree / "packaging/debian/changelog"
        changelog.write_text(changelog.read_text().replace("(1.0.0-1)", f"({COMMITS[commit]})"))
        self.page = (tree / "docs/INSTALL.md").read_text()
        super().__init__(old, folder, tree, SOURCE_DATE_EPOCH="1795000000")

    def blocks(self, heading: str) -> list[str]:
        return blocks_below(heading, self.page)

    def install(self, machine: Machine) -> None:
        """By its own page, with what a bank changed: the server's name and the page's bank."""
        machine.prepare()
        machine.deliver(self, "/root/before")
        machine.shell("cd before\n" + self.blocks("Install it")[0])
        bank = 's/^export const BANK = .*/export const BANK = "Old Bank";/'
        machine.shell(f"sed -i '{bank}' {BANK}")
        machine.shell("\n".join(self.blocks("The first day")))
        if self.commit != "e30226db":
            machine.shell(self.blocks("End the trial")[0])


@pytest.fixture(scope="module", params=sorted(COMMITS))
def before(request: pytest.FixtureRequest, program: Path) -> Iterator[Before]:
    with tempfile.TemporaryDirectory(prefix="before.", dir=MEMORY) as folder:
        yield Before(request.param, program, Path(folder))


@pytest.fixture
def old(machines: MakeMachine, before: Before) -> Iterator[Machine]:
    machine = machines()
    before.install(machine)
    yield machine
    machine.end()


def make_certificates(machine: Machine) -> None:
    """What docs/UPGRADE.md has done before the day."""
    _, _, authority, people, *_ = blocks("INSTALL", "The first day")
    machine.shell(f"{authority}\n{people}")


def upgrade(machine: Machine, release: Release) -> None:
    machine.deliver(release)
    for step in STEPS:
        machine.shell("cd release\n" + blocks("UPGRADE", step)[0])


def test_an_upgrade_asks_nothing_and_serves_by_certificates(old: Machine, release: Release) -> None:
    """And no local user can answer. The lock of e30226db on its port is gone with the next start of the machine."""
    tickets = old.shell("grep -c redeem /var/log/nginx/counter.log").strip()
    make_certificates(old)
    upgrade(old, release)
    assert old.shell("cat /etc/counter/name.conf") == "server_name counter.bank.example;\n"
    assert 'BANK = "Old Bank"' in old.shell("cat /etc/counter/page/bank.js")
    states = [old.shown(unit, "ActiveState") for unit in ("nginx.service", "counter-nginx.service")]
    assert states == ["inactive", "active"]
    assert old.shown("nginx.service", "UnitFileState") == "disabled"
    assert old.shell("grep -c redeem /var/log/counter/counter.log").strip() == tickets
    assert old.ask("anna", "/batch/2199-12-31") == '{"code":69,"fault":"NotFound"}'
    assert old.ask("cleo", "/user") == '{"user":"cleo","groups":"registrar"}'
    old.shell(blocks("UPGRADE", "5. Resume")[1])
    ran = old.on("sh", "-c", "cd /root; " + blocks("UPGRADE", "5. Resume")[2])
    assert ran.returncode == 3, ran.stdout
    old.write("/tmp/impostor.py", IMPOSTOR)
    old.shell("systemctl stop counter.service")
    old.shell("systemd-run -q --uid=nobody --unit=impostor python3 /tmp/impostor.py; sleep 1")
    old.shell("nft delete table inet counter_port 2> /dev/null || true")
    assert "9999" in old.shell("curl -s http://127.0.0.1:8377/")
    assert old.ask("anna", "/ticket/1") == '{"unavailable":"counter"}'


def test_without_certificates_nobody_signs_in(old: Machine, release: Release) -> None:
    upgrade(old, release)
    states = [old.shown(unit, "ActiveState") for unit in ("nginx.service", "counter-nginx.service")]
    assert states == ["inactive", "inactive"]
    assert old.on("curl", "-s", "https://127.0.0.1/").returncode == 7


def test_back_to_the_release_before(old: Machine, before: Before, release: Release) -> None:
    if before.commit == "e30226db":
        pytest.skip("that release wasn't packed for banks")
    asked = before.blocks("The first day")[-1].replace("ask bert", ": ask bert")
    make_certificates(old)
    upgrade(old, release)
    old.shell("cp -r before release/before")
    old.shell("cd release\n" + blocks("UPGRADE", "If it goes wrong")[1])
    assert old.shell("dpkg-query -W -f '${Version}' ladwenpik") == COMMITS[before.commit]
    asked = asked.replace(": ask", ":").replace("ask anna /redeem", ":")
    assert '"fault":"NotFound"' in old.shell(asked)


def test_removed_reinstalled_and_purged(machines: MakeMachine, release: Release) -> None:
    machine = machines()
    machine.install(release)
    machine.shell("systemctl stop counter.service")
    books = "cd /var/lib/counter; sha256sum day.db day.db-wal; stat -c '%U %a' . day.db"
    before = machine.shell(books)
    machine.shell("apt-get remove ladwenpik")
    machine.shell("nginx -t && systemctl start nginx.service && systemctl stop nginx.service")
    machine.shell("cd release\n" + blocks("INSTALL", "Install it")[0])
    assert machine.shell(books) == before
    machine.shell("systemctl enable --now counter.service counter-nginx.service")
    assert machine.ask("anna", "/user") == '{"user":"anna","groups":"teller"}'
    machine.shell("systemctl stop counter.service")
    before = machine.shell(books)
    machine.shell("apt-get purge ladwenpik")
    assert machine.shell(books) == before
    left = machine.shell("ls /etc/counter").split()
    assert left == ["certificate.pem", "key.pem", "staff"]
    machine.shell("nginx -t && systemctl start nginx.service && systemctl is-active nginx.service")
