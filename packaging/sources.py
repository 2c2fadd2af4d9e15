"""What the packages are built from: the checkout, its commit, and whether the program and the library are those of the sources as they are."""
from __future__ import annotations

import hashlib
import os
import re
import shutil
import subprocess
import sys
from pathlib import Path
from typing import Iterable

TOP = Path(__file__).resolve().parent.parent
PROGRAM = TOP / "crates" / "ee_cli" / "out" / "ee_cli"
#: The toolchain's own record of a build. It ends with the checksum of the program that it built.
STAMP = PROGRAM.with_suffix(".stamp")
LIBRARY = TOP / "clients" / "value" / "out"
#: What clients/value/build makes, and packages take.
LIBRARY_FILES = ("libee_value.a", "libee_value.so.1")
#: The file next to the library that holds the checksums of its sources, and of what was built.
LIBRARY_SOURCES = LIBRARY / "libee_value.sources"
#: The crates of the program and of the library.
CRATES = ("ee_cli", "ee_value_c")
#: The functions of ./ee_cli that say which files a program is built from. They are run as they stand there.
FUNCTIONS = ("crates", "sources", "checksum")


class Unfit(Exception):
    """The packages can't be built, and why."""


def told(*words: str | Path, cwd: Path = TOP, env: dict[str, str] | None = None) -> str:
    """What a command printed; Unfit if it fails."""
    ran = subprocess.run(
        words, cwd=cwd, env=env, stdout=subprocess.PIPE, stderr=subprocess.STDOUT, text=True
    )
    if ran.returncode != 0:
        raise Unfit(f"{' '.join(map(str, words))} ended with status {ran.returncode}\n{ran.stdout}")
    return ran.stdout


def sum_of(path: Path) -> str:
    return hashlib.sha256(Path(path).read_bytes()).hexdigest()


def checksum(name: str, **env: str) -> str:
    """The checksum of the sources of a program or a library of this repository, as ./ee_cli computes it. That sorts names
    by the locale: LC_ALL=C gives a checksum that is the same everywhere."""
    script = (TOP / "ee_cli").read_text()
    matches = [
        re.search(rf"^{function}\(\) \{{\n.*?^\}}\n", script, re.M | re.S) for function in FUNCTIONS
    ]
    found = [match[0] for match in matches if match is not None]
    if len(found) != len(FUNCTIONS):
        raise Unfit("./ee_cli no longer has the functions that compute the checksum of sources")
    script = f'top=$1\n{"".join(found)}checksum "$2"'
    return told("bash", "-c", script, "checksum", str(TOP), name, env={**os.environ, **env}).strip()


def proved_program() -> Path:
    """The program, if ./ee_cli proved and built it from the sources as they are, and the toolchain's stamp names it."""
    name, record = PROGRAM.relative_to(TOP), PROGRAM.with_suffix(".sources")
    again = "run ./ee_cli --version, or name a program by --program"
    if not PROGRAM.exists() or not record.exists():
        raise Unfit(f"{name} isn't proved and built: {again}")
    if record.read_text().strip() != checksum("ee_cli"):
        raise Unfit(f"{name} isn't the program of the sources as they are: {again}")
    if not STAMP.exists() or not STAMP.read_text().endswith(sum_of(PROGRAM)):
        stamp = f"{STAMP.name} doesn't end with its checksum"
        raise Unfit(
            f"{name} isn't the program that the toolchain built: {stamp}. Remove it, and {again}"
        )
    return PROGRAM


def record_of_sources() -> list[str]:
    """The lines of a log of the gate that say what it is of."""
    return [
        f"packaging: sources of {name} {checksum(name, LC_ALL='C').split()[0]}" for name in CRATES
    ]


def record_of_program() -> str:
    return f"packaging: program {sum_of(PROGRAM)}"


def prove(log: Path) -> None:
    """Proves everything from nothing by `rt ci --anew`, which leaves its program in crates/ee_cli/out. The log has what rt
    prints. Before it stand the checksums of the sources; after it these again, and the program's.
    """
    if shutil.which("rt") is None:
        raise Unfit("the toolchain's command rt is not on the PATH")
    say = f"packaging: proving everything from nothing, which takes an hour and more; {log} has what rt prints"
    print(say, file=sys.stderr, flush=True)
    with open(log, "w") as file:
        print(*record_of_sources(), sep="\n", file=file, flush=True)
        words = ["rt", "ci", "--anew"]
        status = subprocess.run(
            words, cwd=TOP, stdin=subprocess.DEVNULL, stdout=file, stderr=subprocess.STDOUT
        ).returncode
        if status != 0:
            raise Unfit(f"rt ci --anew ended with status {status}: read {log}")
        print(*record_of_sources(), record_of_program(), sep="\n", file=file)


def library_record() -> str:
    """The checksums of all that the library is made from, its crates and the script that builds it, and of its files."""
    made = [f"{sum_of(LIBRARY / name)}  {name}\n" for name in LIBRARY_FILES]
    return f"{checksum('ee_value_c')}\n{told('sha256sum', 'clients/value/build').strip()}\n{''.join(made)}"


def proved_library() -> Path:
    """The folder of the library. It is proved and built first, unless this was done from the sources as they are."""
    is_there = all((LIBRARY / name).exists() for name in LIBRARY_FILES)
    if is_there and LIBRARY_SOURCES.exists() and LIBRARY_SOURCES.read_text() == library_record():
        return LIBRARY
    if shutil.which("rt") is None:
        raise Unfit(
            "the library of values isn't proved and built from these sources, and the toolchain's command rt is not on the PATH"
        )
    print(
        "packaging: proving and building the library of values, which takes some minutes the first time",
        file=sys.stderr,
        flush=True,
    )
    LIBRARY_SOURCES.unlink(missing_ok=True)
    told("clients/value/build", "--jobs", "1")
    LIBRARY_SOURCES.write_text(library_record())
    return LIBRARY


def commit() -> tuple[str | None, int | None, list[str] | None]:
    """The commit's hash, its time in seconds, and the files that differ from it; None for each if this is no checkout of git."""
    if not (TOP / ".git").exists() or shutil.which("git") is None:
        return None, None, None
    name, seconds = told("git", "log", "-1", "--format=%H %ct").split()
    changed = [
        line[3:]
        for line in told("git", "status", "--porcelain", "--untracked-files=all").splitlines()
    ]
    return name, int(seconds), changed


def check_tag(version: str) -> None:
    """A release is of a commit that has its number as a tag, with nothing changed since."""
    name, _, changed = commit()
    if name is None or changed is None:
        raise Unfit(
            f"a release is built in a clone at its tag v{version}, and this is no checkout of git"
        )
    if f"v{version}" not in told("git", "tag", "--points-at", "HEAD").split():
        raise Unfit(f"a release is built at its tag: commit {name[:12]} has no tag v{version}")
    if changed:
        raise Unfit(
            f"a release is built at its tag, and these files differ from v{version}: {', '.join(changed)}"
        )


def moment(seconds: int | None) -> int:
    """The one time that all files of the packages have: SOURCE_DATE_EPOCH, or the commit's time."""
    given = os.environ.get("SOURCE_DATE_EPOCH") or seconds
    if given is None:
        raise Unfit("this is no checkout of git: say the time of the sources by SOURCE_DATE_EPOCH")
    return int(given)


def crates_file() -> dict[str, list[str]]:
    """The crates of crates.txt, each with what it stands on."""
    lines = [
        line
        for line in (TOP / "crates.txt").read_text().splitlines()
        if line and not line.startswith("#")
    ]
    return {line.split(":")[0].split()[0]: line.split(":")[1].split() for line in lines}


def closure(names: Iterable[str], uses: dict[str, list[str]]) -> set[str]:
    """All crates that these stand on, with themselves."""
    seen, waiting = set(), list(names)
    while waiting:
        name = waiting.pop()
        if name not in seen:
            seen.add(name)
            waiting += uses.get(name, [])
    return seen
