"""packaging/build refuses a forged program and library, and each log of the gate that is no verdict on the program."""

import os
import re
import tomllib
from pathlib import Path
from typing import Iterator

import pytest

from tests.samples.books import script
from tests.samples.releases import KEPT, PROGRAM, PROOF, VERDICT, Packages, Tree
from tests.samples.releases import library_in, without

pytestmark = pytest.mark.needs("dh", "esbuild", "fakeroot", "git", "cc")
MAIN, OTHER = "crates/ee_cli/src/main.rt", "crates/ee_units/src/lib.rt"


@pytest.fixture(scope="module")
def repository(program: Path, place: Path) -> Tree:
    tree = Tree(program, library_in(place / "library"), place / "tree")
    tree.git("init", "--quiet")
    tree.commit("the repository")
    tree.git("tag", "v1.1.0")
    return tree


@pytest.fixture
def tree(repository: Tree) -> Tree:
    """The repository with the program as it was proved."""
    repository.prove()
    return repository


@pytest.fixture
def none(folder: Path) -> Path:
    return folder / "none"


def by_library(tree: Tree) -> tuple[object, ...]:
    return "--library", tree.library


def test_no_program(tree: Tree, none: Path) -> None:
    (tree.path / PROGRAM).unlink()
    tree.refuses(none, "isn't proved and built", *by_library(tree))


def test_script_in_its_place(tree: Tree, none: Path) -> None:
    """Beside all that ./ee_cli leaves beside the proved one."""
    script(tree.path / PROGRAM, f'#!/bin/sh\nexec {tree.program} "$@"\n')
    tree.refuses(none, "isn't the program that the toolchain built", *by_library(tree))


def test_changed_sources(tree: Tree, none: Path) -> None:
    with tree.changed(MAIN, "//", "// changed since\n//"):
        tree.refuses(none, "isn't the program of the sources as they are", *by_library(tree))


def test_control_the_proved_program(tree: Tree, folder: Path) -> None:
    """It is taken; the evidence quotes the checker's last line, and says that it is no verdict from nothing. With another program's log, or a program that is named by hand, it quotes none."""
    said = Packages(folder / "taken", tree.build(folder / "taken", *by_library(tree))).evidence()
    assert "built from these sources by ./ee_cli" in said and "verdict    NONE FROM NOTHING" in said
    assert f"checker    {KEPT}\n" in said
    log = (tree.path / PROGRAM).with_suffix(".log")
    log.write_text(PROOF.replace("crate ee_cli:", "crate ee_cli_value_alone:"))
    said = Packages(folder / "other", tree.build(folder / "other", *by_library(tree))).evidence()
    assert "checker    its last line is not given" in said
    words = (*by_library(tree), "--program", tree.program)
    said = Packages(folder / "named", tree.build(folder / "named", *words)).evidence()
    assert "checker    its last line is not given" in said and "NAMED BY --program" in said


def test_forged_library(tree: Tree, folder: Path, none: Path) -> None:
    """One with a byte more. Without `rt` it can't be built anew. Control: one that is as its record says is packed."""
    out = tree.build_library()
    with without(folder, "rt"):
        assert tree.build(folder / "right").returncode == 0
        with open(out / "libee_value.a", "ab") as file:
            file.write(b"\n")
        tree.refuses(none, "the library of values isn't proved and built")


LOGS = tomllib.loads((Path(__file__).parent / "parts/logs.toml").read_text())


@pytest.fixture
def log(tree: Tree, folder: Path) -> Path:
    """The right log, which `test_control_the_right_log` packs."""
    (folder / "gate.log").write_text(tree.gate_log())
    return folder / "gate.log"


@pytest.mark.parametrize("kind", LOGS)
def test_wrong_log(tree: Tree, log: Path, none: Path, kind: str) -> None:
    wrong = LOGS[kind]
    text, count = re.subn(wrong["old"], wrong["new"], log.read_text())
    assert count and text != log.read_text()
    log.write_text(text)
    said = wrong["said"].replace("KEPT", KEPT)
    tree.refuses(none, said, "--ci-log", log, *by_library(tree))


def test_control_the_right_log(tree: Tree, log: Path, folder: Path) -> None:
    """The evidence has a verdict from nothing, and the last twelve lines of the log."""
    tree.build_library()
    said = Packages(folder / "to", tree.build(folder / "to", "--ci-log", log)).evidence()
    assert "  verdict    from nothing\n" in said and f"  checker    {VERDICT}\n" in said
    last = said.split("whose last lines are:\n")[1].split("\n\n")[0].split()
    assert last == " ".join(log.read_text().splitlines()[-12:]).split()


@pytest.fixture(params=["a changed source", "another tag", "no clone"])
def not_the_tag(request: pytest.FixtureRequest, tree: Tree, folder: Path) -> Iterator[str]:
    """The tree isn't what its tag is; what is said of it."""
    if request.param == "a changed source":
        with tree.changed(OTHER, "//", "// changed since\n//"):
            yield f"these files differ from v1.1.0: {OTHER}"
    elif request.param == "another tag":
        tree.git("tag", "--delete", "v1.1.0")
        yield "has no tag v1.1.0"
        tree.git("tag", "v1.1.0")
    else:
        (tree.path / ".git").rename(folder / "git")
        yield "this is no checkout of git"
        (folder / "git").rename(tree.path / ".git")


def test_right_log_of_another_tree(tree: Tree, log: Path, none: Path, not_the_tag: str) -> None:
    tree.refuses(none, not_the_tag, "--ci-log", log, *by_library(tree))


def test_wrong_words(tree: Tree, log: Path, none: Path) -> None:
    ran = tree.build(none, "--ci-log", log, "--program", tree.program)
    assert ran.returncode == 2 and "leave --program out" in ran.stdout
    assert tree.build(none, "--prove").returncode == 2, "--prove without a file for the log"


@pytest.mark.parametrize("is_right", [True, False])
def test_proved_by_a_stub(
    tree: Tree, folder: Path, none: Path, monkeypatch: pytest.MonkeyPatch, is_right: bool
) -> None:
    """--prove runs `rt ci --anew`, writes its log between the checksums, and packs what that built. Control: if the gate fails, nothing is packed."""
    tree.build_library()
    (tree.path / PROGRAM).unlink()
    wanted = tree.gate_log()
    (folder / "printed").write_text(tree.printed_by_rt())
    (folder / "stub").mkdir()
    fails = "" if is_right else 'echo "0 passed, 1 failed"; exit 1\n'
    says = f'[ "$*" = "ci --anew" ] || exit 2\n{fails}mkdir -p crates/ee_cli/out\n'
    ends = f"cp {tree.program} {PROGRAM}\ncat {folder}/printed\n"
    script(folder / "stub/rt", f"#!/bin/sh\n{says}{ends}")
    monkeypatch.setenv("PATH", f"{folder}/stub:{os.environ['PATH']}")
    words = ("--prove", "--ci-log", folder / "new.log", *by_library(tree))
    if is_right:
        packages = Packages(folder / "to", tree.build(folder / "to", *words))
        assert "verdict    from nothing" in packages.evidence()
        assert (folder / "new.log").read_text() == wanted
    else:
        tree.refuses(none, "rt ci --anew ended with status 1", *words)
