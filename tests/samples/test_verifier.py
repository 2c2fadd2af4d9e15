"""packaging/verify refuses forged releases, if the forger put all sums right and signed them too."""

import os
import re
import shutil
import sys
import time
import tomllib
from pathlib import Path
from typing import Any, Iterator

import pytest

from tests.conftest import TOP
from tests.restore.counter_day import run
from tests.samples.books import script
from tests.samples.releases import KEPT, VERDICT, Packages, Tree, change, end_keys
from tests.samples.releases import fingerprint, library_in, make_key, sum_of, with_line, without
from tests.shared.counter_calls import done

pytestmark = pytest.mark.needs("dh", "esbuild", "fakeroot", "git", "cc", "gpg")
VERIFIER = TOP / "packaging/verify"
CHECKS = ("signature", "sums", "program", "verdict", "sources")
GOOD = ["right"] * 5
MAIN = "crates/ee_cli/src/main.rt"
FORGERIES = tomllib.loads((Path(__file__).parent / "parts/forgeries.toml").read_text())


class Keys:
    """Throwaway keys, each in a keyring of its own; `known` has the public ones of all."""

    def __init__(self, folder: Path) -> None:
        self.folder, self.known, self.none = folder, folder / "known", folder / "none"
        for name in ("known", "none"):
            (folder / name).mkdir(mode=0o700)
        for name in ("release", "forger", "expired"):
            make_key(folder / name, name, *self.then(name))
            (folder / "exported").write_text(self.gpg(name, "--armor", "--export"))
            self.gpg("known", "--import", folder / "exported")
        self.fingerprint = fingerprint(folder / "release")

    def then(self, name: str) -> tuple[object, ...]:
        """For the key that has expired it is a week ago."""
        ago = int(time.time()) - 604_800
        return ("--faked-system-time", ago) if name == "expired" else ()

    def gpg(self, name: str, *words: object) -> str:
        own = (*self.then(name), "--homedir", self.folder / name)
        return done("gpg", "--batch", "--quiet", *own, *words)

    def sign(self, name: str, release: Path) -> None:
        sums = release / "SHA256SUMS"
        (release / "SHA256SUMS.asc").unlink(missing_ok=True)
        self.gpg(name, "--armor", "--output", f"{sums}.asc", "--detach-sign", sums)

    def end(self) -> None:
        for home in self.folder.iterdir():
            end_keys(home)


class Bank:
    """A release of the tag v1.1.0, signed, its checkout, and the keys."""

    def __init__(self, program: Path, folder: Path, keys: Keys) -> None:
        self.keys, self.program = keys, program
        self.tree = Tree(program, library_in(folder / "library"), folder / "tree")
        self.tree.git("init", "--quiet")
        self.commit = self.tree.commit("the repository")
        self.tree.git("tag", "v1.1.0")
        self.tree.prove()
        self.tree.build_library()
        (folder / "gate.log").write_text(self.tree.gate_log())
        self.release = folder / "release"
        Packages(self.release, self.tree.build(self.release, "--ci-log", folder / "gate.log"))
        keys.sign("release", self.release)

    def verify(self, *words: object, home: Path | None = None) -> tuple[int, list[str], str]:
        """The verifier's status, the state of each check, and all that it printed."""
        env = {**os.environ, "GNUPGHOME": str(home or self.keys.known)}
        ran = run(sys.executable, "-B", VERIFIER, *words, env=env)
        states = r"^(?:signature|sums|program|verdict|sources): (right|WRONG|not checked): "
        return ran.returncode, re.findall(states, ran.stdout, re.M), ran.stdout + ran.stderr

    def words(self, release: Path | None = None) -> tuple[object, ...]:
        key = ("--fingerprint", self.keys.fingerprint)
        return (release or self.release, *key, "--checkout", self.tree.path)


@pytest.fixture(scope="module")
def bank(program: Path, place: Path) -> Iterator[Bank]:
    (place / "keys").mkdir()
    keys = Keys(place / "keys")
    yield Bank(program, place, keys)
    keys.end()


def test_control_right_release(bank: Bank) -> None:
    """It names what it can't check; a fingerprint may be spelled with spaces; what lies uncommitted in the checkout doesn't matter."""
    status, states, said = bank.verify(*bank.words())
    assert (status, states) == (0, GOOD) and said.count("beyond this: ") == 2 and "(v1.1.0)" in said
    assert (bank.release / "ladwenpik-verify").read_bytes() == VERIFIER.read_bytes()
    spaced = re.sub("(.{4})", r"\1 ", bank.keys.fingerprint.lower())
    words = (bank.release, "--fingerprint", spaced, "--checkout", bank.tree.path)
    with bank.tree.changed(MAIN, "//", "// not committed\n//"):
        assert bank.verify(*words)[:2] == (0, GOOD)


def unchecked(nth: int) -> tuple[int, list[str]]:
    return 3, [*GOOD[:nth], "not checked", *GOOD[nth + 1 :]]


def test_what_is_not_checked(bank: Bank, folder: Path) -> None:
    """It is named as not done, with status 3."""
    release, key = bank.release, ("--fingerprint", bank.keys.fingerprint)
    assert bank.verify(release, "--checkout", bank.tree.path)[:2] == unchecked(0)
    assert bank.verify(release, *key)[:2] == unchecked(4)
    assert bank.verify(release, *key, "--checkout", folder)[:2] == unchecked(4)
    status, states, said = bank.verify(*bank.words(), home=bank.keys.none)
    assert (status, states) == unchecked(0) and "isn't in your keyring" in said
    for command, nth in (("gpg", 0), ("dpkg-deb", 2), ("git", 4)):
        with without(folder, command):
            assert bank.verify(*bank.words())[:2] == unchecked(nth), command


def test_wrong_words(bank: Bank, folder: Path) -> None:
    of_none = ((), (folder / "nothing",), (bank.release, "--fingerprint", "1234"))
    for words in (*of_none, (bank.release, "--nothing")):
        assert bank.verify(*words)[0] == 2, words


class Forged:
    """A copy of the release, of which something is changed."""

    def __init__(self, bank: Bank, folder: Path) -> None:
        self.bank, self.folder = bank, folder
        shutil.copytree(bank.release, folder)

    def file(self, pattern: str) -> Path:
        (found,) = self.folder.glob(pattern)
        return found

    def do(self, step: str, *given: str) -> None:
        words = [one.replace("VERDICT", VERDICT).replace("KEPT", KEPT) for one in given]
        deb = self.file("ladwenpik_*.deb")
        if step == "byte":
            deb.write_bytes(deb.read_bytes() + b"\n")
        elif step == "sums":
            self.sums()
        elif step == "sign":
            self.bank.keys.sign(words[0], self.folder)
        elif step == "script":
            self.with_script(deb)
        elif step == "quote":
            was = sum_of(self.bank.program)
            now = sum_of(self.folder.parent / "opened/usr/bin/ee_cli")
            change(self.file("*_evidence.txt"), f"{was}  usr/bin/ee_cli", f"{now}  usr/bin/ee_cli")
        elif step == "touch":
            (self.folder / words[0]).touch()
        elif step == "unlink":
            self.file(words[0]).unlink()
        elif step == "write":
            self.file(words[0]).write_text(words[1])
        elif step == "replace":
            change(self.file(words[0]), words[1], words[2])
        elif step == "kept":
            log = self.file("*_gate.log")
            log.write_text(with_line(log.read_text(), words[0], KEPT))
        else:
            log = self.file("*_gate.log")
            named = rf"(sources of {words[0]}) [0-9a-f]{{8}}"
            text, count = re.subn(named, r"\1 00000000", log.read_text())
            assert count and step == "other sources"
            log.write_text(text)

    def with_script(self, deb: Path) -> None:
        """A script that answers as the program does takes its place."""
        tree = self.folder.parent / "opened"
        done("dpkg-deb", "-R", deb, tree)
        script(tree / "usr/bin/ee_cli", f'#!/bin/sh\nexec {self.bank.program} "$@"\n')
        done("dpkg-deb", "--root-owner-group", "-Znone", "-b", tree, deb)

    def sums(self) -> None:
        """As a forger, or a careless builder, would: the evidence and SHA256SUMS have the sums of the files as they are."""
        evidence = self.file("*_evidence.txt")
        text = evidence.read_text()
        for path in [*self.folder.glob("*.deb"), *self.folder.glob("*.json")]:
            line = f"^  [0-9a-f]{{64}}  {re.escape(path.name)}$"
            text = re.sub(line, f"  {sum_of(path)}  {path.name}", text, flags=re.M)
        for log in self.folder.glob("*_gate.log"):
            text = re.sub("(sum        )[0-9a-f]{64}(?=, of the log)", rf"\g<1>{sum_of(log)}", text)
        evidence.write_text(text)
        (self.folder / "SHA256SUMS").unlink(missing_ok=True)
        files = sorted(path for path in self.folder.iterdir() if path.suffix != ".asc")
        named = "".join(f"{sum_of(path)}  {path.name}\n" for path in files)
        (self.folder / "SHA256SUMS").write_text(named)

    def signed(self) -> None:
        self.sums()
        self.bank.keys.sign("release", self.folder)

    def is_refused(self, wrong: str, said: str) -> None:
        """The named checks alone are wrong."""
        status, states, found = self.bank.verify(*self.bank.words(self.folder))
        assert states == ["WRONG" if check in wrong.split() else "right" for check in CHECKS], found
        assert status == 1 and said in found, found


def is_refused(bank: Bank, folder: Path, forgery: dict[str, Any], is_signed: bool) -> None:
    forged = Forged(bank, folder / "release")
    for step in forgery["do"]:
        forged.do(*step)
    if is_signed:
        forged.signed()
    forged.is_refused(forgery["wrong"], forgery["said"])


@pytest.mark.parametrize("kind", FORGERIES["unsigned"])
def test_changed_release(bank: Bank, folder: Path, kind: str) -> None:
    is_refused(bank, folder, FORGERIES["unsigned"][kind], False)


@pytest.mark.parametrize("kind", FORGERIES["signed"])
def test_signed_forgery(bank: Bank, folder: Path, kind: str) -> None:
    is_refused(bank, folder, FORGERIES["signed"][kind], True)


@pytest.mark.parametrize("kind", FORGERIES["later"])
def test_later_commit(bank: Bank, folder: Path, kind: str) -> None:
    """The checkout is at another commit than the release's. Evidence that claims that one is stale."""
    later = FORGERIES["later"][kind]
    if later["name"]:
        change(bank.tree.path / later["name"], later["old"], later["new"])
    else:
        next(bank.tree.path.glob("crates/*/must-fail/*.edit")).unlink()
    now = bank.tree.commit(kind)
    try:
        forged = Forged(bank, folder / "release")
        forged.is_refused("sources", "the checkout is at")
        forged.do("replace", "*_evidence.txt", bank.commit, now)
        forged.signed()
        forged.is_refused("sources", later["said"])
    finally:
        bank.tree.git("reset", "--quiet", "--hard", bank.commit)


def test_trial(bank: Bank, folder: Path) -> None:
    """What packaging/build makes of the program of ./ee_cli is no release."""
    bank.tree.prove()
    ran = bank.tree.build(folder / "trial", "--library", bank.tree.library)
    forged = Forged.__new__(Forged)
    forged.bank, forged.folder = bank, Packages(folder / "trial", ran).folder
    forged.signed()
    forged.is_refused("verdict sources", KEPT)
