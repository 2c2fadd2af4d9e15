"""take_over refuses a damaged or an orphaned log, as the program does, and names what is lost with it."""

import random
from pathlib import Path

import pytest
from tests.conftest import TOP
from tests.restore.counter_day import Day, Served, copied, run
from tests.shared.counter_calls import done, rows

TAKE_OVER = TOP / "samples" / "take_over"


def refuses(day: Day, new: Path, said: str) -> None:
    ran = run(TAKE_OVER, day.store, new, day.program)
    assert ran.returncode == 1 and said in ran.stderr and not new.exists(), ran


def damage(log: Path, at: int, kind: str, dice: random.Random) -> None:
    text = bytearray(log.read_bytes())
    if kind == "a bit":
        text[at] ^= 1 << dice.randrange(8)
    else:
        size = 512 if kind.startswith("512") else 4096
        start = at // size * size
        text[start : start + size] = dice.randbytes(size) if "random" in kind else bytes(size)
    log.write_bytes(text)


@pytest.mark.parametrize("kind", ["a bit", "512 random bytes", "512 zeros", "4096 zeros"])
def test_damaged_log(
    day: Day, served: Served, tmp_path: Path, dice: random.Random, kind: str
) -> None:
    served.pay(range(200, 216))
    served.kill()
    log = Path(f"{day.store}-wal")
    whole = log.read_bytes()
    control = done(TAKE_OVER, day.store, tmp_path / "control.db", day.program)
    assert "replies     220" in control
    day.archive_now()
    at = len(whole) // 4
    damage(log, at, kind, dice)
    new = tmp_path / "new.db"
    program = run(day.program, "export", "7", "--db", copied(day.store, tmp_path / "asked"))
    assert "store: StoreFailed" in program.stderr
    refuses(day, new, "stands behind damage")
    words = ("--drop-after-damage", "--archive", day.archive)
    said = done(TAKE_OVER, day.store, new, day.program, *words)
    had, gone = len(rows(new, "SELECT * FROM answers")), said.count("\n  row ")
    assert had + gone == 220 and gone > 0, said
    assert f"{gone} requests of {day.archive} are gone" in said


def test_damaged_header(day: Day, served: Served, tmp_path: Path) -> None:
    served.pay(range(200, 203))
    served.kill()
    log = Path(f"{day.store}-wal")
    log.write_bytes(b"\x37" + log.read_bytes()[1:20] + b"\xff" + log.read_bytes()[21:])
    refuses(day, tmp_path / "new.db", "header is damaged")


@pytest.mark.parametrize("is_missing", [True, False])
def test_orphaned_log(day: Day, served: Served, tmp_path: Path, is_missing: bool) -> None:
    served.pay(range(200, 203))
    served.kill()
    day.store.unlink()
    if not is_missing:
        day.store.touch()
    refuses(day, tmp_path / "new.db", "missing or empty next to its log")
