#!/usr/bin/env python3
"""Counts the instructions of every kind of response, in the counter and in C (peer.c), and what the counter's do. Other work on the machine doesn't change them.
Usage: instructions.py PROGRAM FOLDER. It needs valgrind, cc and SQLite's header and library, makes FOLDER and removes it, and takes six minutes.

Of every kind `apply` is run with fewer and with more messages on one connection, over copies of one store in a file, under `valgrind --tool=callgrind`. A response's count is the difference of the two
runs divided by that of the messages: of the instructions of all functions, and of each group of functions, themselves without what they call. A ratio is that of C divided by the counter's."""
from __future__ import annotations

import collections
import functools
import os
import re
import shutil
import subprocess
import sys
from pathlib import Path
from typing import Callable, NamedTuple

sys.dont_write_bytecode = True

from asking import (
    HALF_PAID,
    IMPORT,
    LISTS,
    MANY,
    MANY_AGAIN,
    ONE,
    ONE_AGAIN,
    PAYEE,
    VALUE,
    beginning,
    bonds_of,
    built_peer,
    entered,
    get,
    inventory,
    redemption,
    value,
)  # noqa: E402

PROGRAM, FOLDER = os.path.abspath(sys.argv[1]), Path(sys.argv[2])
COPY, PROFILE = FOLDER / "copy.db", FOLDER / "profile"
OURS = r"\bee_\w+"
# A function is of the first group whose pattern its name has.
GROUPS = {
    "its log's hash": r"(?i)sip",
    "clearing": r"memset|bzero",
    "copying": r"memcpy|memmove",
    "taking memory": r"malloc|calloc|realloc|free|alloc",
    "JSON": r"json",
    "`sqlite`": r"sqlite",
    "this repository": OURS,
    "the rest": "",
}
#: The instructions of all calls of `sqlite` by this repository's functions, with all that those call, counted apart.
CALLS = "in calls of `sqlite`"
#: Values of every period, so that tables of unit values are made in both runs.
WARM = [get(f"/value/50/{2005 + half // 2}-{5 + half % 2 * 6:02}/2015-05") for half in range(18)]
MOST_BONDS = 1500


class Program(NamedTuple):
    name: str
    words: list[str]
    after: list[str]

    @property
    def store(self) -> Path:
        return FOLDER / f"{self.name.replace(' ', '')}.db"

    def apply(self, file: Path, stream: list[bytes], *before: str) -> None:
        for first in range(0, len(stream), 900):
            part = stream[first : first + 900]
            ran = subprocess.run(
                [*before, *self.words, str(file), *self.after],
                input=b"".join(part),
                stdout=subprocess.PIPE,
                stderr=subprocess.PIPE,
                check=True,
            )
            assert ran.stdout.count(b"HTTP/1.1 200 OK") == len(part), ran.stdout

    def counted(self, messages: list[bytes]) -> collections.Counter[str]:
        """The instructions of each function, by its name."""
        for end in ("", "-wal", "-shm"):
            COPY.with_name(COPY.name + end).unlink(missing_ok=True)
        shutil.copy(self.store, COPY)
        self.apply(
            COPY,
            WARM + messages,
            "valgrind",
            "--tool=callgrind",
            "--dump-line=no",
            f"--callgrind-out-file={PROFILE}",
        )
        return costs(PROFILE)

    def difference(
        self, message: Callable[[int], bytes], few: int, more: int
    ) -> collections.Counter[str]:
        less, all_ = (
            self.counted([message(n) for n in range(1, count + 1)]) for count in (few, more)
        )
        all_.subtract(less)
        return all_


def costs(profile: Path) -> collections.Counter[str]:
    names: dict[str, str] = {}
    found_costs: collections.Counter[str] = collections.Counter()
    name, called, is_call = "", "", False
    with open(profile) as lines:
        for line in lines:
            if found := re.match(r"fn=\((\d+)\)(?: (.*))?", line):
                name = names.setdefault(found[1], found[2])
            elif found := re.match(r"cfn=\((\d+)\)(?: (.*))?", line):
                called = names.setdefault(found[1], found[2])
            elif line.startswith("calls="):
                is_call = True
            elif re.match(r"[+*\-\d]", line):
                if not is_call:
                    found_costs[name] += int(line.split()[1])
                elif "sqlite" in called and "sqlite" not in name and re.search(OURS, name):
                    found_costs[CALLS] += int(line.split()[1])
                is_call = False
    return found_costs


def asked_again(message: bytes, _: int) -> bytes:
    return message


def group_of(name: str) -> str:
    return next(group for group, pattern in GROUPS.items() if re.search(pattern, name))


def print_row(
    programs: list[Program],
    kind: str,
    message: Callable[[int], bytes],
    few: int = 20,
    more: int = 120,
) -> None:
    ours, *others = (program.difference(message, few, more) for program in programs)
    calls = ours.pop(CALLS, 0)
    whole = sum(ours.values())
    cells = [f"{whole / (more - few):,.0f}"]
    for other in others:
        cells += [
            f"{sum(other.values()) / (more - few):,.0f}",
            f"{sum(other.values()) / whole:.2f}",
        ]
    parts: collections.Counter[str] = collections.Counter()
    for name, cost in ours.items():
        parts[group_of(name)] += cost
    print(
        f"| {' | '.join([kind, *cells, *(f'{100 * parts[group] / whole:.0f} %' for group in GROUPS), f'{100 * calls / whole:.0f} %'])} |",
        flush=True,
    )


def main() -> None:
    FOLDER.mkdir()
    peer = built_peer(FOLDER)
    programs = [
        Program("The counter", [PROGRAM, "apply", "--db"], []),
        Program("C, default pages", [peer, "apply"], ["default"]),
        Program("C, the best", [peer, "apply"], ["best"]),
    ]
    for program in programs:
        program.apply(
            program.store,
            beginning(100, MOST_BONDS)
            + [redemption(100_000 + n, PAYEE, "F", n, n) for n in range(1, 201)],
        )
    print(
        f"| Response | The counter | C, default pages | Ratio | C, the best | Ratio | {' | '.join([*GROUPS, CALLS])} |\n|{'---|' * (len(GROUPS) + 7)}"
    )
    print_row(programs, VALUE, value)
    print_row(programs, ONE, lambda n: redemption(200_000 + n, PAYEE, "F", 200 + n, 200 + n))
    print_row(programs, ONE_AGAIN, lambda n: redemption(100_000 + n, PAYEE, "F", n, n))
    print_row(
        programs,
        MANY,
        lambda n: redemption(200_000 + n, PAYEE, "F", 100 * n + 101, 100 * n + 200),
        2,
        12,
    )
    print_row(
        programs,
        MANY_AGAIN,
        lambda n: redemption(60_000 + 100 * n - 99, HALF_PAID, "E", 100 * n - 99, 100 * n),
        2,
        12,
    )
    for kind, owner in LISTS.items():
        print_row(programs, kind, functools.partial(asked_again, inventory(owner)), 5, 15)
    print_row(
        programs,
        IMPORT,
        lambda n: entered(300_000 + n, bonds_of(PAYEE, "G", 500 * n, 500 * n + 499))[0],
        1,
        4,
    )
    shutil.rmtree(FOLDER)


main()
