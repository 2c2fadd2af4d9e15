"""Releases that packaging/build makes of copies of the repository, with logs of the gate that are made up here: the toolchain isn't run."""

import hashlib
import os
import shutil
import sys
from contextlib import contextmanager
from pathlib import Path
from typing import Iterator, Mapping

from tests.conftest import TOP
from tests.restore.counter_day import Ran
from tests.shared.counter_calls import done, matched, run

#: The toolchain's last line on a crate that was proved from nothing, and on one that was checked over kept work.
VERDICT = "logic=proved functions=9 axioms=63 target=x86_64-unknown-linux-gnu cpu=x86-64-v2 sum=dac8208d650f15bf native=nat,char,string logic-built=trusted libraries-built=trusted statements=trusted"
KEPT = f"{VERDICT} incremental=trusted"
#: How the gate says that all was done in its run, or that some wasn't.
ALL_ANEW = "every proof and must-fail edit was done in this run"
#: A log of ./ee_cli: the crates with their last lines, the program's own last, and a summary.
PROOF = f"""crate ee_io: modules loaded=0 checked=3
logic=proved functions=3 sum=dac8208d650f15bf
crate ee_cli: modules loaded=0 checked=230
axioms std: none reached of the 2 declared
{KEPT}
== summary
ee_cli: ok
"""
#: What the library of values exports.
EXPORTS = ("cents", "row", "row_into", "rows", "status_text", "version")
#: It needs memmove of the C library, as the proved one does.
NEEDS_LIBC = """#include <string.h>
__attribute__((used)) static void *(*const moved)(void *, const void *, size_t) = memmove;
"""
PROGRAM = "crates/ee_cli/out/ee_cli"
#: Nothing is compressed.
QUICKLY = {"DPKG_DEB_COMPRESSOR_TYPE": "none"}
LIBRARY = "clients/value/out"


def sum_of(path: Path) -> str:
    return hashlib.sha256(path.read_bytes()).hexdigest()


def change(path: Path, old: str, new: str) -> None:
    text = path.read_text()
    assert old in text, old
    path.write_text(text.replace(old, new, 1))


def with_line(log: str, crate: str, line: str) -> str:
    head = f"crate {crate}: modules loaded=0 checked=230\n"
    assert head + VERDICT in log
    return log.replace(head + VERDICT, head + line)


def make_key(home: Path, name: str, *more: object) -> None:
    home.mkdir(mode=0o700, exist_ok=True)
    made = ("--quick-generate-key", f"{name}@bank.example", "ed25519", "sign", "1d")
    done("gpg", "--batch", "--quiet", *more, "--homedir", home, "--passphrase", "", *made)


def fingerprint(home: Path) -> str:
    listed = done("gpg", "--homedir", home, "--with-colons", "--list-keys")
    return matched("(?m)^fpr:+([0-9A-F]{40}):", listed)[1]


def end_keys(home: Path) -> None:
    run("gpgconf", "--homedir", home, "--kill", "all")


def library_in(folder: Path) -> Path:
    """The library of values that was built, or stand-ins for it that cc makes."""
    if (TOP / LIBRARY / "libee_value.so.1").exists():
        return TOP / LIBRARY
    folder.mkdir()
    text = "".join(f"int ee_value_{name}(void) {{ return 0; }}\n" for name in EXPORTS)
    (folder / "stand_in.c").write_text(NEEDS_LIBC + text)
    shared = "cc -shared -nostdlib -Wl,-soname,libee_value.so.1 -o libee_value.so.1 stand_in.o -lc"
    for line in ("cc -fPIC -c stand_in.c", "ar rcD libee_value.a stand_in.o", shared):
        done(*line.split(), cwd=folder)
    return folder


class Tree:
    """The files that git has or would take, in a folder of their own."""

    def __init__(self, program: Path, library: Path, folder: Path) -> None:
        self.program, self.library, self.path = program, library, folder
        words = ("ls-files", "-z", "--cached", "--others", "--exclude-standard")
        for name in done("git", "-C", TOP, *words).split("\0"):
            if name and (TOP / name).is_file():
                (folder / name).parent.mkdir(parents=True, exist_ok=True)
                shutil.copy(TOP / name, folder / name)

    def git(self, *words: str) -> str:
        own = ("-c", "user.name=test", "-c", "user.email=test@bank.example")
        return done("git", "-C", self.path, *own, *words)

    def commit(self, message: str) -> str:
        self.git("add", "--all")
        self.git("commit", "--quiet", "--message", message)
        return self.git("rev-parse", "HEAD").strip()

    @contextmanager
    def changed(self, name: str, old: str, new: str) -> Iterator[None]:
        was = (self.path / name).read_bytes()
        change(self.path / name, old, new)
        yield
        (self.path / name).write_bytes(was)

    def told(self, expression: str) -> str:
        """What an expression over packaging/sources.py gives, as text."""
        script = f"import sys; sys.path.insert(0, 'packaging'); import sources; print({expression})"
        return done(sys.executable, "-B", "-c", script, cwd=self.path).rstrip("\n")

    def prove(self) -> None:
        """Puts the program there as ./ee_cli leaves it: with the checksum of its sources, the toolchain's stamp and the log of its proof beside it."""
        out = (self.path / PROGRAM).parent
        out.mkdir(exist_ok=True)
        shutil.copy(self.program, out / "ee_cli")
        sources = self.told("sources.checksum(sources.CRATES[0])")
        (out / "ee_cli.sources").write_text(f"{sources}\n")
        (out / "ee_cli.stamp").write_text("0" * 64 + sum_of(self.program))
        (out / "ee_cli.log").write_text(PROOF)

    def build_library(self) -> Path:
        """Puts the library there as clients/value/build leaves it, with the checksums of its sources and files."""
        out = self.path / LIBRARY
        shutil.copytree(self.library, out, dirs_exist_ok=True)
        record = self.told("sources.library_record(), end=''")
        (out / "libee_value.sources").write_text(f"{record}\n")
        return out

    def gate_log(self) -> str:
        """The log of a gate, as packaging/build --prove writes it."""
        own = self.told("chr(10).join(sources.record_of_sources())")
        crates = self.told("*sources.crates_file()").split()
        edits = len(list(self.path.glob("crates/*/must-fail/*.edit")))
        lines = [own]
        for crate in crates:
            head = f"crate {crate}: modules loaded=0 checked=230"
            lines += [f"== {crate}", head, VERDICT, f"rt: {crate} proved"]
        ok = f"rt: ok; handles allowed: Wait, Net; must-fail edits: {edits} refused"
        lines += [f"{ok}; {ALL_ANEW}", f"{len(crates) + edits} passed, 0 failed", own]
        return "\n".join([*lines, f"packaging: program {sum_of(self.program)}\n"])

    def printed_by_rt(self) -> str:
        return "".join(self.gate_log().splitlines(keepends=True)[2:-3])

    def build(
        self, to: Path, *words: object, umask: int = 0o022, env: Mapping[str, str] = QUICKLY
    ) -> Ran:
        named = {**os.environ, "SOURCE_DATE_EPOCH": "1700000000", "TMPDIR": str(to.parent), **env}
        return run(self.path / "packaging/build", "--to", to, *words, env=named, umask=umask)

    def refuses(self, to: Path, said: str, *words: object) -> None:
        """It ends with status 1, says why, and makes nothing."""
        ran = self.build(to, *words)
        assert ran.returncode == 1 and said in ran.stdout and not to.exists(), ran.stdout


class Packages:
    def __init__(self, folder: Path, ran: Ran) -> None:
        assert ran.returncode == 0, ran.stdout
        self.folder, self.debs = folder, sorted(folder.glob("*.deb"))

    def sums(self) -> dict[str, str]:
        return {deb.name: sum_of(deb) for deb in self.debs}

    def file(self, ending: str) -> Path:
        (found,) = self.folder.glob(f"*{ending}")
        return found

    def evidence(self) -> str:
        return self.file("_evidence.txt").read_text()


@contextmanager
def without(folder: Path, command: str) -> Iterator[None]:
    """A PATH with all commands but this one."""
    path, to = os.environ["PATH"], folder / f"without-{command}"
    to.mkdir(exist_ok=True)
    for at in path.split(":"):
        for name in os.listdir(at) if os.path.isdir(at) else ():
            if name != command and not os.path.lexists(to / name):
                (to / name).symlink_to(f"{at}/{name}")
    os.environ["PATH"] = str(to)
    try:
        yield
    finally:
        os.environ["PATH"] = path
