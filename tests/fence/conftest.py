"""What the tests of the fence share: the built program, a site over a counter, the packages, and a fresh Debian that has them."""

import os
import re
import shutil
import tempfile
from pathlib import Path
from typing import Any, Callable, Iterator, Mapping, Sequence

import pytest

from tests.conftest import MEMORY, TOP
from tests.fence.fresh import Fresh, bootstrap
from tests.fence.site import RecordedSite, Site
from tests.shared.counter_calls import done, end, free_port, matched, run, serve

#: Groups of the people of docs/INSTALL.md.
GROUPS = {"anna": "teller", "bert": "supervisor", "cleo": "registrar", "dora": "office"}


class Counter:
    """`ee_cli serve` over a store with the rates of the paper periods and bonds: those of samples/inventory.csv, and B1EE to B1000EE of customer 7. `before` are words before the program."""

    def __init__(self, program: Path, folder: Path, before: Sequence[str] = ()) -> None:
        folder.mkdir()
        self.program, self.store, self.port = program, folder / "day.db", free_port()
        self.url, self.before = f"http://127.0.0.1:{self.port}", before
        files = [TOP / "samples/rates.csv", TOP / "samples/inventory.csv"]
        # A request has 500 bonds at most.
        for first in (1, 501):
            rows = [f"B{n}EE,50,2010-11,7,\n" for n in range(first, first + 500)]
            files.append(folder / f"more{first}.csv")
            files[-1].write_text("serial,denom,issued,owner,coowner\n" + "".join(rows))
        for nth, file in enumerate(files, 1):
            words = ("rates" if nth == 1 else "inventory", file, "--db", self.store)
            done(program, "import", *words, "--desk", "999", "--number", nth)
        self.start()

    def start(self) -> None:
        self.process = serve(self.program, self.store, self.port, before=self.before)

    def end(self) -> None:
        end(self.process)


@pytest.fixture
def counter(program: Path, folder: Path) -> Iterator[Counter]:
    made = Counter(program, folder / "store")
    yield made
    made.end()


#: Makes a site for these groups, before the fixture `counter` if `counter=` names no other.
MakeSite = Callable[..., Site]


@pytest.fixture
def site(request: pytest.FixtureRequest, folder: Path) -> Iterator[MakeSite]:
    made: list[Site] = []

    def make(groups: Mapping[str, str] = GROUPS, **more: Any) -> Site:
        url = more.pop("counter", None) or request.getfixturevalue("counter").url
        made.append(Site(folder / f"site{len(made)}", url, groups, **more))
        return made[-1]

    yield make
    for one in made:
        one.end()


@pytest.fixture(scope="module")
def recorded(
    request: pytest.FixtureRequest, tmp_path_factory: pytest.TempPathFactory
) -> Iterator[RecordedSite]:
    """A site for the groups of the module before a counter that records."""
    with RecordedSite(tmp_path_factory.mktemp("recorded"), request.module.GROUPS) as made:
        yield made


class Release:
    """A folder of packages that the packaging/build of a tree made with a program."""

    def __init__(self, program: Path, folder: Path, tree: Path = TOP, **env: str) -> None:
        self.folder = folder / "packages"
        # The library of values isn't installed here: empty files take its place.
        (folder / "library").mkdir()
        for name in ("libee_value.a", "libee_value.so.1"):
            (folder / "library" / name).touch()
        words = (tree / "packaging/build", "--program", program, "--library", folder / "library")
        env = {**os.environ, "TMPDIR": str(folder), "DPKG_DEB_COMPRESSOR_TYPE": "none", **env}
        done(*words, "--to", self.folder, env=env)

    def deb(self, name: str = "ladwenpik") -> Path:
        (found,) = self.folder.glob(f"{name}_*.deb")
        return found


@pytest.fixture(scope="session")
def release(program: Path) -> Iterator[Release]:
    with tempfile.TemporaryDirectory(prefix="fence.", dir=MEMORY) as made:
        yield Release(program, Path(made))


@pytest.fixture(scope="session")
def root() -> Iterator[Path]:
    """A root of debootstrap, which is only read: $FRESH_ROOT, or one that is made here."""
    if os.getuid() != 0:
        pytest.skip("it needs root")
    if "FRESH_ROOT" in os.environ:
        yield Path(os.environ["FRESH_ROOT"])
        return
    with tempfile.TemporaryDirectory(prefix="fence.", dir=MEMORY) as made:
        yield Path(bootstrap(made))


def blocks_below(heading: str, text: str) -> list[str]:
    part = matched(rf"(?ms)^#+ {re.escape(heading)}\n(.*?)(?=^#+ |\Z)", text)[1]
    return re.findall(r"^```\n(.*?)^```$", part, re.M | re.S)


def blocks(page: str, heading: str) -> list[str]:
    return blocks_below(heading, (TOP / f"docs/{page}.md").read_text())


class Machine(Fresh):
    """A fresh Debian under a systemd of its own. Its network has a loopback alone."""

    def __init__(self, base: str, folder: str) -> None:
        self.devices: list[str] = []
        super().__init__(base, folder)

    def add_store_disks(self, folder: Path) -> None:
        """As samples/snapshots has them: one with the subvolume of the store and the snapshots, and one for the copies."""
        for name, at in (("books", "/srv/counter"), ("copies", "/srv/copies")):
            with open(folder / name, "w") as file:
                file.truncate(512 << 20)
            done("mkfs.btrfs", "-q", "-m", "single", folder / name)
            device = done("losetup", "--find", "--show", folder / name).strip()
            self.devices.append(device)
            node = f"mknod -m 660 {device} b 7 {device.removeprefix('/dev/loop')}"
            self.shell(f"{node}; mkdir -p {at}; mount {device} {at}")
        self.shell("btrfs -q subvolume create /srv/counter/store")
        self.shell("mkdir -p /srv/counter/snapshots /var/lib/counter")
        self.shell(f"mount -o subvol=store {self.devices[0]} /var/lib/counter")

    def end(self) -> None:
        super().end()
        while self.devices:
            run("losetup", "-d", self.devices.pop())

    def deliver(self, release: Release, to: str = "/root/release") -> None:
        shutil.copytree(release.folder, self.path(to))

    def prepare(self) -> None:
        """The counter's name leads to this machine, and apt doesn't ask."""
        self.shell("echo 127.0.0.1 counter.bank.example >> /etc/hosts")
        self.shell("echo 'APT::Get::Assume-Yes true;' > /etc/apt/apt.conf.d/yes")

    def install(self, release: Release) -> None:
        """Installs the release by docs/INSTALL.md, to the end of the trial: the bank's store is served."""
        self.deliver(release)
        self.prepare()
        self.shell("cd release\n" + blocks("INSTALL", "Install it")[0])
        # One shell, since blocks use the functions of earlier ones.
        self.shell("\n".join(blocks("INSTALL", "The first day")))
        self.shell(blocks("INSTALL", "End the trial")[0])

    def ask(self, name: str, path: str, body: str = "") -> str:
        page = "".join(blocks("INSTALL", "The first day"))
        function = matched(r"(?ms)^ask\(\) \{\n.*?^\}\n", page)[0]
        return self.shell(f"{function}ask {name} {path} '{body}'").strip()

    def write(self, path: str, text: str, mode: int = 0o644) -> None:
        file = Path(self.path(path))
        file.parent.mkdir(parents=True, exist_ok=True)
        file.write_text(text)
        file.chmod(mode)


MakeMachine = Callable[[], Machine]


@pytest.fixture(scope="session")
def machines(root: Path) -> Iterator[MakeMachine]:
    made: list[Machine] = []
    with tempfile.TemporaryDirectory(prefix="fence.", dir=MEMORY) as folder:

        def make() -> Machine:
            made.append(Machine(str(root), tempfile.mkdtemp(dir=folder)))
            return made[-1]

        yield make
        for machine in made:
            machine.end()


@pytest.fixture(scope="module")
def machine(machines: MakeMachine, release: Release) -> Iterator[Machine]:
    """A machine with the packages, installed by docs/INSTALL.md, that serves the bank's store."""
    made = machines()
    made.install(release)
    yield made
    made.end()
