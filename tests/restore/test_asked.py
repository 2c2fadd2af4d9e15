"""`archive --requests`: it takes no request that nginx's log lacks."""

import time
from pathlib import Path

from tests.conftest import until
from tests.restore.counter_day import RESTORE, Day, Ran, redemption, run, started
from tests.shared.counter_calls import apply, end

#: A payment that no log has.
FORGED = redemption(300)


def archived(day: Day, *words: object) -> Ran:
    return run(RESTORE / "archive", day.store, day.archive, *words)


def test_what_the_log_has_is_taken(day: Day) -> None:
    """Payments of the log and of the one before it; a refusal, which changes nothing, needs no entry."""
    day.pay(range(200, 203))
    day.log.rename(f"{day.log}-20260206")
    day.pay(range(203, 205))
    assert apply(day.program, day.store, [redemption(0, 900_001)])[0][0] == 409
    ran = archived(day, "--requests", day.log)
    assert (ran.returncode, ran.stdout.split()[0]) == (0, "56"), ran.stderr


def test_what_no_log_has_is_not(day: Day) -> None:
    day.archive_now()
    assert apply(day.program, day.store, [FORGED])[0][0] == 200
    day.pay([204])
    ran = archived(day, "--requests", day.log)
    assert ran.returncode == 1 and "desk 1, number 301, and" in ran.stderr, ran.stderr
    assert archived(day).returncode == 0, "by hand, without the log, it is taken over"
    assert archived(day, "--requests", day.log).returncode == 0


def test_control_without_the_log_it_is_taken(day: Day) -> None:
    assert apply(day.program, day.store, [FORGED])[0][0] == 200
    assert archived(day).returncode == 0


def test_an_import_needs_its_desk(day: Day, tmp_path: Path) -> None:
    file = tmp_path / "more.csv"
    file.write_text("serial,denom,issued,owner,coowner\nZ1EE,50,2010-11,7,\n")
    words = ("import", "inventory", file, "--db", day.store, "--desk", "999", "--number", "1")
    assert run(day.program, *words).returncode == 0
    assert archived(day, "--requests", day.log).returncode == 1
    assert archived(day, "--requests", day.log, "--command-line", "998,999").returncode == 0


def test_an_entry_may_be_late(day: Day) -> None:
    """A request waits for its entry, and what came before it is archived."""
    day.pay([200])
    late = [redemption(201)]
    answers = apply(day.program, day.store, late)
    words = ("--requests", day.log, "--every", "0.2")
    process = started(RESTORE / "archive", day.store, day.archive, *words)
    lines = day.archive / "requests.jsonl"
    try:
        until(lambda: '"number":201,' in lines.read_text())
        time.sleep(1)
        assert '"number":202,' not in lines.read_text()
        day.write_log(late, answers)
        until(lambda: '"number":202,' in lines.read_text())
    finally:
        end(process)
