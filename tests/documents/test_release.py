"""packaging/release leaves a folder that the verifier takes, or none. A stub stands in for rt."""

import os
import shutil
import sys
from dataclasses import dataclass
from pathlib import Path
from typing import Iterator

import pytest

from tests.fence.conftest import blocks
from tests.fence.fresh import bootstrap
from tests.samples.books import script
from tests.samples.releases import QUICKLY, Tree, end_keys, fingerprint, library_in, make_key
from tests.shared.counter_calls import done, run

pytestmark = pytest.mark.needs("dh", "esbuild", "fakeroot", "gpg", "cc", "git")
RT = """#!/bin/sh
[ "$*" = "ci --anew" ] || exit 2
mkdir -p crates/ee_cli/out
cp {program} crates/ee_cli/out/ee_cli
cat {folder}/printed
"""
GIT = {"GIT_CONFIG_GLOBAL": "/dev/null", "GIT_COMMITTER_NAME": "test", "GIT_AUTHOR_NAME": "test"}
GIT |= {f"GIT_{who}_EMAIL": "test@bank.example" for who in ("COMMITTER", "AUTHOR")}


@dataclass
class Owner:
    """A clone of the repository, and a key that no one else has."""

    folder: Path
    tree: Path
    home: Path

    def run(self, *words: object) -> tuple[int, str]:
        path = f"{self.folder / 'bin'}:{os.environ['PATH']}"
        env = {**os.environ, **GIT, **QUICKLY, "PATH": path, "GNUPGHOME": str(self.home)}
        ran = run(sys.executable, *map(str, words), env=env)
        return ran.returncode, ran.stdout

    def release(self, name: str, *words: object, key: str = "owner") -> tuple[int, str]:
        script = self.tree / "packaging/release"
        return self.run(script, self.folder / name, "--key", f"{key}@bank.example", *words)

    def tags(self) -> list[str]:
        return done("git", "-C", self.tree, "tag").split()

    def is_verified(self, name: str) -> bool:
        place = self.folder / name
        words = ("--fingerprint", fingerprint(self.home), "--checkout", self.tree)
        return self.run(place / "ladwenpik-verify", place, *words)[0] == 0


@pytest.fixture
def owner(program: Path, folder: Path) -> Iterator[Owner]:
    (folder / "clone").mkdir()
    (folder / "bin").mkdir()
    tree, home = Tree(program, library_in(folder / "library"), folder / "clone"), folder / "key"
    tree.git("init", "--quiet")
    tree.commit("the repository")
    tree.build_library()
    (folder / "printed").write_text(tree.printed_by_rt())
    (folder / "gate.log").write_text(tree.gate_log())
    script(folder / "bin/rt", RT.format(folder=folder, program=program))
    make_key(home, "owner")
    yield Owner(folder, tree.path, home)
    end_keys(home)


def test_a_release_is_verified_and_tagged(owner: Owner) -> None:
    """Control: the verifier refuses the release with a byte more."""
    status, said = owner.release("release")
    assert (status, owner.is_verified("release")) == (0, True), said
    assert [tag[:1] for tag in owner.tags()] == ["v"]
    assert not (owner.folder / "release.part").exists()
    with open(next((owner.folder / "release").glob("ladwenpik_*.deb")), "ab") as file:
        file.write(b"\n")
    assert not owner.is_verified("release")


def test_a_second_run_takes_the_verdict(owner: Owner) -> None:
    """Control: without the log it would prove again."""
    done(owner.folder / "bin/rt", "ci", "--anew", cwd=owner.tree)
    script(owner.folder / "bin/rt", "#!/bin/sh\nexit 1\n")
    status, said = owner.release("again", "--log", owner.folder / "gate.log")
    assert (status, owner.is_verified("again")) == (0, True), said
    assert owner.release("third")[0] == 1


def test_no_release_is_left(owner: Owner) -> None:
    """Of a stranger's key, a file that isn't committed, and a gate that failed."""
    status, said = owner.release("release", key="stranger")
    assert (status, owner.tags()) == (1, []), said
    assert not (owner.folder / "release.log").exists(), "nothing is proved"
    shutil.copy(owner.tree / "README.md", owner.tree / "notes.md")
    status, said = owner.release("release")
    assert (status, owner.tags()) == (1, []) and "aren't committed" in said, said
    (owner.tree / "notes.md").unlink()
    printed = owner.folder / "printed"
    printed.write_text(printed.read_text().replace(" passed, 0 failed", " passed, 1 failed"))
    status, said = owner.release("release")
    assert (status, owner.tags()) == (1, []) and "no verdict on this program" in said, said
    assert not (owner.folder / "release").exists()


@pytest.mark.root
@pytest.mark.machine
@pytest.mark.slow
def test_a_fresh_debian_takes_it(owner: Owner) -> None:
    """By the commands of docs/INSTALL.md, with the owner's public key. Control: a byte more."""
    root = Path(bootstrap(str(owner.folder / "debian"), included="gpg,gpg-agent,python3,git"))
    assert owner.release("release")[0] == 0
    place = root / "root/release"
    shutil.copytree(owner.folder / "release", place)
    done("git", "clone", "--quiet", owner.tree, root / "root/ladwenpik")
    exported = done("gpg", "--homedir", owner.home, "--armor", "--export")
    (root / "root/key.asc").write_text(exported)
    _, check, verify, *_ = blocks("INSTALL", "Check that it is the proved one")
    script = f"set -e; cd /root/release\n{check}{verify}"
    script = script.replace("FINGERPRINT", fingerprint(owner.home))

    def ends() -> int:
        return run("chroot", root, "sh", "-c", script).returncode

    done("chroot", root, "gpg", "--quiet", "--import", "/root/key.asc")
    assert ends() == 0
    with open(next(place.glob("ladwenpik_*.deb")), "ab") as file:
        file.write(b"\n")
    assert ends() != 0
