"""The evidence of a build: a text that names what the packages were made from, by what they were proved, and their sums."""
from __future__ import annotations

import datetime
import re
from pathlib import Path
from typing import Iterator, List, NamedTuple, Optional

import sources
from sources import TOP, Unfit, sum_of

#: How many of the last lines of the gate's log are quoted.
LINES = 12
#: The last line of a check that is a verdict, as the toolchain's own pattern has it: without `incremental=trusted`,
#: `cache=trusted` or `pinned=no`, and without a word that isn't known.
WORDS = "tests functions foreign axioms target cpu threads main may-abort partial may-wait may-serve hides bugs sum"
VERDICT = re.compile(
    rf"logic=proved( ({WORDS.replace(' ', '|')})=\S+)+"
    " native=nat,char,string logic-built=trusted libraries-built=trusted statements=trusted"
)
ALL_ANEW = "every proof and must-fail edit was done in this run"

#: What a program is, and whether that is a release's.
GATE = "proved from nothing, and built from these sources, by rt ci --anew"
KEPT = "built from these sources by ./ee_cli, which checks them over kept work"
NAMED = "NAMED BY --program: not known to be proved or built from these sources"


class Facts(NamedTuple):
    version: str
    epoch: int
    commit: Optional[str]
    changed: Optional[List[str]]
    program: Path
    origin: str
    library: Path
    is_library_built: bool
    ci_log: Optional[Path]
    packages: List[Path]


def time_text(seconds: int) -> str:
    return datetime.datetime.fromtimestamp(seconds, datetime.timezone.utc).strftime(
        "%Y-%m-%dT%H:%M:%SZ"
    )


def kit() -> str:
    """The toolchain's identity, as README names it."""
    found = re.search(r"`(rattle-kit-\S+ logic [0-9a-f]+)`", (TOP / "README.md").read_text())
    if not found:
        raise Unfit("README.md doesn't name the toolchain")
    return found[1]


# ---- the gate's log


def section(lines: list[str], crate: str) -> list[str]:
    """What the gate printed of a crate's own proof."""
    begin, end = f"== {crate}", f"rt: {crate} proved"
    if begin not in lines or end not in lines:
        raise Unfit(f"it has no proof of {crate}")
    return lines[lines.index(begin) : lines.index(end)]


def verdict_of(lines: list[str], crate: str) -> str:
    """The toolchain's last line on a crate, if it is a verdict from nothing by the toolchain that README names."""
    found = [line for line in section(lines, crate) if line.startswith("logic=")]
    if (
        not found
        or not VERDICT.fullmatch(found[-1])
        or f"sum={kit().split()[-1]} " not in found[-1]
    ):
        raise Unfit(
            f"its line on {crate} is no verdict from nothing by {kit()}: {found[-1] if found else 'it has none'}"
        )
    return found[-1]


def count_of_sources() -> int:
    """How many crates the gate proves, and how many must-fail edits it tries."""
    return len(sources.crates_file()) + len(list(TOP.glob("crates/*/must-fail/*.edit")))


def tested_gate(log: Path) -> list[str]:
    """The lines of a log of the gate, if it is of these sources and of the program in crates/ee_cli/out, and everything was
    done in that run. Unfit says what it isn't."""
    lines, own, count = (
        log.read_text(errors="replace").splitlines(),
        sources.record_of_sources(),
        count_of_sources(),
    )
    try:
        if lines[: len(own)] != own or lines[-len(own) - 1 : -1] != own:
            raise Unfit("it isn't of these sources. packaging/build --prove writes a log that is")
        if lines[-1] != sources.record_of_program():
            raise Unfit(f"{sources.PROGRAM.relative_to(TOP)} isn't the program that it ends with")
        for crate in sources.CRATES:
            verdict_of(lines, crate)
        if not any(line.startswith("rt: ok; ") and line.endswith(ALL_ANEW) for line in lines):
            raise Unfit(f"it doesn't say that {ALL_ANEW}")
        last = lines[-len(own) - 2]
        if last != f"{count} passed, 0 failed":
            raise Unfit(
                f"these sources have {count} crates and must-fail edits, and it ends with {last!r}"
            )
    except Unfit as fault:
        raise Unfit(f"{log} is no verdict on this program: {fault}") from None
    return lines


def kept_line() -> str | None:
    """The last line on the program's crate in the log of ./ee_cli. None if it isn't there."""
    log = sources.PROGRAM.with_suffix(".log")
    own = log.read_text(errors="replace").partition("\ncrate ee_cli: ")[2] if log.exists() else ""
    found = re.search(r"^logic=\S+ .*", own, re.M)
    return found[0] if found else None


# ---- the parts of the text


def of_sources(facts: Facts) -> Iterator[str]:
    yield f"commit     {facts.commit or 'not known: built outside a checkout of git'}"
    yield f"time       {time_text(facts.epoch)}"
    if facts.changed is not None:
        yield f"changed    {'nothing since the commit' if not facts.changed else 'these files differ from the commit:'}"
        yield from (f"           {name}" for name in facts.changed)
    yield f"checksum   {sources.checksum('ee_cli', LC_ALL='C').split()[0]}"
    yield "           of crates.txt and the program's crates, as ./ee_cli computes it"


def of_toolchain(facts: Facts) -> Iterator[str]:
    yield f"kit        {kit()}"
    yield "           as README.md names it; `rt version` prints it"
    yield from of_verdict(facts)


def of_verdict(facts: Facts) -> Iterator[str]:
    """Whether there is a verdict from nothing on the program, and the toolchain's own lines."""
    if facts.origin == GATE and facts.ci_log is not None:
        lines = tested_gate(facts.ci_log)
        yield "verdict    from nothing"
        yield f"checker    {verdict_of(lines, 'ee_cli')}"
        yield f"           of the library's crate: {verdict_of(lines, 'ee_value_c')}"
        return
    yield "verdict    NONE FROM NOTHING: this is no release"
    line = kept_line() if facts.origin == KEPT else None
    yield f"checker    {line or 'its last line is not given'}"
    if line and "incremental=trusted" in line:
        yield "           incremental=trusted: it rests on kept work"


def of_files(facts: Facts) -> Iterator[str]:
    yield f"program    {sum_of(facts.program)}  usr/bin/ee_cli"
    yield f"           {facts.origin}"
    for name in sources.LIBRARY_FILES:
        yield f"library    {sum_of(Path(facts.library) / name)}  {name}"
    made = "built from these sources by clients/value/build, which checks them over kept work"
    named = "NAMED BY --library: not known to be proved or built from these sources"
    yield f"           {made if facts.is_library_built else named}"


def of_gate(facts: Facts) -> Iterator[str]:
    if facts.ci_log is None:
        yield "not given"
        return
    lines = facts.ci_log.read_text(errors="replace").rstrip("\n").split("\n")
    yield f"time       {time_text(int(facts.ci_log.stat().st_mtime))}, of the log"
    yield f"sum        {sum_of(facts.ci_log)}, of the log, whose last lines are:"
    yield from (f"           {line}" for line in lines[-LINES:])


def of_axioms() -> Iterator[str]:
    """The section of docs/ASSUMPTIONS.md that lists what the checker's verdict assumes."""
    text = (TOP / "docs" / "ASSUMPTIONS.md").read_text()
    found = re.search(r"^The checker's verdict on the program .*?(?=^## )", text, re.M | re.S)
    if not found:
        raise Unfit("docs/ASSUMPTIONS.md no longer says what the checker's verdict assumes")
    yield from found[0].rstrip("\n").split("\n")


def of_packages(facts: Facts, materials: list[Path]) -> Iterator[str]:
    for path in [*facts.packages, *materials]:
        yield f"{sum_of(path)}  {path.name}"


def text(facts: Facts, materials: list[Path]) -> str:
    """The whole text. `materials` are the files of the list of materials."""
    parts = {
        "Sources": of_sources(facts),
        "Toolchain": of_toolchain(facts),
        "Program and library": of_files(facts),
        "The gate, rt ci --anew": of_gate(facts),
        "Axioms, by docs/ASSUMPTIONS.md": of_axioms(),
        "Packages, and the list of what they are made of, in SPDX and CycloneDX": of_packages(
            facts, materials
        ),
    }
    body = "".join(
        f"\n{title}\n\n" + "".join(f"  {line}".rstrip() + "\n" for line in lines)
        for title, lines in parts.items()
    )
    return f"Evidence of ladwenpik {facts.version}\n{body}"
