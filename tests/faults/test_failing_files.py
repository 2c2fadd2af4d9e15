"""Every call on the two files of a store fails in turn, once or from then on, is interrupted, or moves
fewer bytes. The answers are those of the desk's rules, or 503 StoreFailed; the next command finds books
that they allow, and the same requests again have their one reply each. EVERY-th of frequent calls fails."""

import errno
import os
from typing import Iterator

import pytest

from tests.shared.hostile.judging import Wrong
from tests.shared.hostile.program import KINDS, Program
from tests.shared.hostile.returning import come_back, put, shows_ample
from tests.shared.hostile.scenes import CONNECTIONS, FILES, Scene

EVERY, MOST = int(os.environ.get("EVERY", "10")), 100_000
#: What a call of a kind fails with. The last two are streams of `apply`.
FAILS = {kind: [errno.EIO] for kind in KINDS}
FAILS |= {"write": [errno.ENOSPC, errno.EIO], "truncate": [errno.ENOSPC], "lock": [errno.EAGAIN]}
STREAMS = ("hear", "tell")
#: The kinds that come often, and those that can move fewer bytes.
MANY, FEWER = ("read", "write", "stat", "tell"), ("read", "write", "hear", "tell")


def ways(kind: str, is_served: bool) -> Iterator[tuple[str, int]]:
    for number in FAILS[kind]:
        yield from ((f"e {number}", 1), (f"e {number}", 0))
    if not is_served:
        yield f"e {errno.EINTR}", 1
        yield from [("m 1", 1)] if kind in FEWER else []


def one_run(program: Program, scene: Scene, path: str, fault: str, plant: str, full: bytes) -> bool:
    put(scene, path)
    ran = scene.command.run(program, path, fault=fault, plant=plant)
    if ran.met == 0:
        shows_ample(scene, ran, path)
        return False
    before = ran.told[: ran.counts.get("told_before", 0)]
    if ran.counts.get("told", 0) == len(ran.told) and not full.startswith(before):
        raise Wrong(f"before the fault {before[-300:]!r} was said")
    many = scene.command.judge(ran, [scene.books])
    come_back(program, scene, path, many, ran.status < 2, plant == "forgotten")
    return True


def series(program: Program, scene: Scene, kind: str, plant: str = "", every: int = EVERY) -> int:
    """Faults of a kind, each way to its run without one: how many were met."""
    path = program.place(f"failing{os.getpid()}")
    put(scene, path)
    ample = scene.command.run(program, path).told
    step, met = every if kind in MANY else 1, 0
    for turn, (action, times) in enumerate(ways(kind, scene.command.name == "serve")):
        for at in range(1 + turn % step, MOST, step):
            fault = f"{kind} any {at} {times} {action}"
            try:
                if not one_run(program, scene, path, fault, plant, ample):
                    break
            except Wrong as wrong:
                raise Wrong(f"{scene.name}, fault `{fault}`: {wrong}") from wrong
            met += 1
        else:
            raise Wrong(f"{scene.name}, `{kind}`: no run came without a fault")
    return met


@pytest.mark.parametrize("kind", FAILS)
@pytest.mark.parametrize("name", [*CONNECTIONS, *FILES, "served"])
def test_failing_calls(hostile: Program, scenes: dict[str, Scene], name: str, kind: str) -> None:
    if name != "served" or kind not in STREAMS:
        series(hostile, scenes[name], kind)


@pytest.mark.parametrize("kind", [kind for kind in FAILS if kind != "own" or os.geteuid() == 0])
def test_every_kind_is_met(hostile: Program, scenes: dict[str, Scene], kind: str) -> None:
    """Control: calls of all kinds fail. Root alone gives files away."""
    assert any(series(hostile, scenes[name], kind, every=200) for name in ("new", "with a log"))


@pytest.mark.parametrize("plant, kind", [("swallowed_write", "write"), ("forgotten", "sync")])
def test_wrong_program_is_found(
    hostile: Program, scenes: dict[str, Scene], plant: str, kind: str
) -> None:
    """Control: a write that failed is said to be done; the log is lost between two commands."""
    with pytest.raises(Wrong):
        for name in CONNECTIONS:
            series(hostile, scenes[name], kind, plant, every=3)
