"""Requests for memory are refused in turn: to the built program, and to tests of the crates. Every answer but
503 NoMemory is that of a desk that got the served requests alone; the next command finds those books, and
the same requests again have their one reply each. CHOSEN names how many of each kind are tried."""

import itertools
import os
import random
import re
import subprocess
from pathlib import Path

import pytest

from tests.conftest import TOP
from tests.shared.hostile import commands, desk, judging
from tests.shared.hostile.judging import Wrong
from tests.shared.hostile.program import Program, Ran, read_counts
from tests.shared.hostile.returning import come_back, put, shows_ample
from tests.shared.hostile.scenes import CONNECTIONS, FILES, Scene

CHOSEN = int(os.environ.get("CHOSEN", "10"))
Scenes = dict[str, Scene]
ENDINGS = {"", "no memory", "store: NotWrittenBack", "file: row 1 code 74"}


def judge(scene: Scene, ran: Ran, most: int | None) -> list[desk.Books]:
    """Nothing but a lack of memory is said, and not more often than it was refused."""
    if ran.status not in (0, 3) or ran.faults.strip() not in ENDINGS:
        raise Wrong(f"ended with {ran.status} {ran.faults!r}")
    command = scene.command
    if most is not None and isinstance(command, commands.Connection) and ran.told:
        heard = judging.follow([scene.books], command.messages, ran.told)
        if heard.no_memory > most:
            raise Wrong(f"{heard.no_memory} answers are NoMemory, where {most} were refused")
    return command.judge(ran, [scene.books])


def meets(program: Program, scene: Scene, refuse: str, most: int | None, plant: str = "") -> bool:
    """Whether a run met a refusal; if it did, it is judged, and what it left."""
    path = program.place(f"refused{os.getpid()}")
    put(scene, path)
    ran = scene.command.run(program, path, refuse=refuse, plant=plant)
    if ran.refused == 0:
        shows_ample(scene, ran, path)
        return False
    try:
        come_back(program, scene, path, judge(scene, ran, most), ran.status < 2)
    except Wrong as wrong:
        raise Wrong(f"{scene.name}, refused `{refuse}`: {wrong}") from wrong
    return True


def asked_of(program: Program, scene: Scene) -> int:
    path = program.place(f"asked{os.getpid()}")
    put(scene, path)
    ran = scene.command.run(program, path)
    shows_ample(scene, ran, path)
    return ran.counts["asked"]


@pytest.mark.parametrize("name", [*CONNECTIONS, *FILES])
def test_program(hostile: Program, scenes: Scenes, name: str, dice: random.Random) -> None:
    """One request is refused, all from one on, or a pair; one more than there are meets none."""
    scene, asked = scenes[name], asked_of(hostile, scenes[name])
    chosen = sorted(dice.sample(range(1, asked + 1), min(asked, 4 * CHOSEN)))
    assert all(meets(hostile, scene, f"{at} 1", 1) for at in chosen)
    assert not meets(hostile, scene, f"{asked + 1} 1", 1)
    few = dice.sample(chosen, min(len(chosen), CHOSEN))
    assert all(meets(hostile, scene, f"{at} 0", None) for at in few)
    pairs = [f"{at} 1;{at + dice.choice((1, 2, 3, 5, 8, 50, 200))} 1" for at in few]
    assert all(meets(hostile, scene, pair, 2) for pair in pairs)


def test_wrong_program_is_found(hostile: Program, scenes: Scenes, dice: random.Random) -> None:
    """Control: a program that goes on answering that it lacks memory."""
    scene = scenes["at rest"]
    asked = asked_of(hostile, scene)
    with pytest.raises(Wrong):
        for at in dice.sample(range(1, asked + 1), asked):
            meets(hostile, scene, f"{at} 1", 1, "stays_refused")


OVER = itertools.product(("a_day", "a_stream", "files", "one_list"), ("a_list", "tables"))
TESTS = {"library_tests": ["framing", "calls", "wire", "files::written"]}
TESTS["store_tests"] = ["version_1_many_replies"]
TESTS["store_tests"] += [f"refused::refused_memory_in_{what}_over_{place}" for what, place in OVER]
#: How a test says that memory was refused to its own preparation or comparison.
LACKS = r"^error: .*(AllocFailed|AllocError|NoMemory|OutOfMemory|unserved)"
LACKS += r"|: [A-Za-z]*[(]?(AllocFailed|AllocError|OutOfMemory)( \{ \.\. \})?[)]?$"


def refused_in_turn(program: Program, words: list[str]) -> int:
    """How many requests were refused until a run met none. A test may fail if it says so itself."""
    for at in range(1, 100_000):
        store = program.place("in_turn")
        env = {**os.environ, **program.environment(store, refuse=f"{at} 1")}
        ran = subprocess.run(words, env=env, text=True, capture_output=True)
        said = ran.stdout + ran.stderr
        if not read_counts(store + ".counts").get("refused"):
            assert ran.returncode == 0, said
            return at - 1
        assert ran.returncode == 0 or re.search(LACKS, said, re.M), said
    raise AssertionError("no run came without a refusal")


@pytest.mark.slow
@pytest.mark.needs("rt", "cc")
@pytest.mark.parametrize("crate", TESTS)
def test_crates(crate: str, hostile: Program) -> None:
    """It builds the tests of a crate, which takes ten minutes."""
    folder = TOP / "crates" / crate
    subprocess.run(["rt", "test"], cwd=folder, check=True)
    for name in TESTS[crate]:
        whole = name if "::refused" in name else f"{name}::refused_memory"
        words = [str(folder / "out" / f"{crate}_tests"), whole]
        assert refused_in_turn(hostile, words) > 0, name


def test_crash_is_found(hostile: Program, tmp_path: Path) -> None:
    """Control: a program that uses memory without a look at what it got."""
    crash = "volatile char *it = malloc(64); it[0] = 1; return 0;"
    (tmp_path / "crash.c").write_text(f"#include <stdlib.h>\nint main(void) {{ {crash} }}\n")
    subprocess.run(["cc", "-o", tmp_path / "crash", tmp_path / "crash.c"], check=True)
    with pytest.raises(AssertionError):
        refused_in_turn(hostile, [str(tmp_path / "crash")])
