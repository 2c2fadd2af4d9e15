"""A log that no stop leaves is refused, and every other is opened. A killed server's log is harmed as
disks do it (HARMS times of each kind), torn as by a loss of power, put beside an empty file, and made
by hand; the program's answer has to be the rule's of logs.py, and a refusal changes no file."""

import os
import random
import sqlite3
import subprocess
import sys
import time
from contextlib import closing
from pathlib import Path

import pytest

from tests.faults import logs
from tests.faults.logs import HARMS, Log, Transaction, is_refused
from tests.faults.logs import made_log, turned, with_bytes, with_header
from tests.shared.checksums import size_of_pages
from tests.shared.counter_calls import answered, apply, make_version_one, post, served

TURNS = int(os.environ.get("HARMS", "100"))
REDEMPTIONS, EARLIER, FEW = 190, 140, 20
DAY = "2012-02-06"


def contents(store: Path) -> tuple[bytes, bytes]:
    return store.read_bytes(), Path(f"{store}-wal").read_bytes()


def answers_in(store: Path, how: str = "?mode=ro&immutable=1") -> set[int]:
    with closing(sqlite3.connect(f"file:{store}{how}", uri=True)) as books:
        return {number for (number,) in books.execute("SELECT number FROM answers")}


class Opener:
    """A folder in which stores are laid out and opened by a program."""

    def __init__(self, program: Path, folder: Path) -> None:
        self.program, self.store = program, folder / "laid.db"
        self.log = Path(f"{self.store}-wal")
        self.words = [str(program), "export", "1", "--db", str(self.store)]

    def run(self, *more: str) -> subprocess.CompletedProcess[str]:
        words = [*self.words, *more]
        return subprocess.run(words, capture_output=True, text=True, timeout=120)

    def lay(self, file: bytes, log: bytes | None) -> Path:
        for path in self.store.parent.iterdir():
            path.unlink()
        self.store.write_bytes(file)
        if log is not None:
            self.log.write_bytes(log)
        return self.store

    def opened(self, file: bytes, log: bytes | None) -> set[int] | None:
        """The kept answers once the store was opened; None if it was refused, with no file changed."""
        self.lay(file, log)
        ran = self.run()
        if ran.returncode == 0:
            return answers_in(self.store)
        assert (ran.returncode, ran.stdout, ran.stderr) == (3, "", "store: StoreFailed\n")
        assert contents(self.store) == (file, log), "a refusal changes no file"
        return None


@pytest.fixture(scope="module")
def opener(program: Path, place: Path) -> Opener:
    (place / "laid").mkdir()
    return Opener(program, place / "laid")


class Killed:
    def __init__(self, opener: Opener, store: Path, redemptions: int, earlier: int) -> None:
        serials = [f"A{n}EE" for n in range(1, redemptions + 1)]
        bonds = [{"denom": 50, "issued": "2010-11", "owner": 7, "serial": one} for one in serials]
        rates = {"number": 1, "rates": [{"from": "2010-11", "rate": "3.50"}]}
        acts = [post("/rates", rates), post("/bonds", {"number": 2, "bonds": bonds})]
        for message in (*acts, post("/day/open", {"number": 3, "day": DAY})):
            assert apply(opener.program, store, [message])[0][0] == 200
        self.older = contents(store)[1]
        with served(opener.program, store) as port:
            for n, serial in enumerate(serials, 1):
                act = {"number": 100 + n, "day": DAY, "payee": 7, "serials": [serial]}
                assert answered(port, post("/redeem", act))[0] == 200
                if n == earlier:
                    self.older = contents(store)[1]
        self.file, self.content = contents(store)
        self.log = Log(self.content)
        assert len(self.log.ends()) >= min(redemptions, 50), "the log has many transactions"
        self.kept = opener.opened(self.file, self.content) or set()
        assert len(self.kept) == redemptions + 3
        self.closed = contents(opener.store)

    def harmed(self, kind: str, dice: random.Random) -> bytes:
        """The log, harmed where its transactions are and where older bytes are others."""
        while (new := HARMS[kind](self.content, self.log.end(), self.older, dice)) == self.content:
            pass
        return new


@pytest.fixture(scope="module")
def killed(opener: Opener, place: Path) -> Killed:
    return Killed(opener, place / "killed.db", REDEMPTIONS, EARLIER)


@pytest.fixture(scope="module")
def young(opener: Opener, place: Path) -> Killed:
    """One whose log has few transactions, and had none while the store was at rest."""
    return Killed(opener, place / "young.db", FEW, 0)


# ---- harm
@pytest.mark.parametrize("kind", HARMS)
def test_harm_is_found(kind: str, opener: Opener, killed: Killed, dice: random.Random) -> None:
    lost = []
    for _ in range(TURNS):
        log = killed.harmed(kind, dice)
        found = opener.opened(killed.file, log)
        assert (found is None) == is_refused(killed.file, Log(log))
        lost += [] if found is None else [len(killed.kept - found)]
    print(f"{kind}: {TURNS - len(lost)} of {TURNS} refused, the others lost {sorted(lost)} replies")
    assert TURNS - len(lost) > TURNS // 2
    assert sum(gone > 1 for gone in lost) * 100 <= 3 * TURNS


@pytest.mark.parametrize("kind", HARMS)
def test_recovery_alone_loses_replies(
    kind: str, opener: Opener, killed: Killed, dice: random.Random
) -> None:
    """Control: SQLite opens the same logs without a word, and more than the last reply is gone."""
    gone = 0
    for _ in range(20):
        store = opener.lay(killed.file, killed.harmed(kind, dice))
        gone += len(killed.kept - answers_in(store, "")) > 1
    assert gone > 10


@pytest.mark.parametrize("kind", ["older", "zeros"])
def test_sectors_of_a_short_log(kind: str, opener: Opener, young: Killed) -> None:
    """Each sector in turn keeps what it held while the store was at rest, or is zeros. Only at the
    end of the last transaction but one does that lose more than a reply unseen."""
    size, frame = 4096, young.log.at(1) - young.log.at(0)
    border = young.log.at(young.log.ends()[-2] + 1)
    older, unseen = young.older if kind == "older" else b"", []
    for at in range(0, young.log.end() - size, size):
        log = with_bytes(young.content, at, older[at : at + size].ljust(size, b"\0"))
        found = opener.opened(young.file, log)
        assert (found is None) == is_refused(young.file, Log(log)), at
        if found is not None and len(young.kept - found) > 1:
            unseen.append(at)
    assert all(border - frame - size < at < border for at in unseen) and len(unseen) <= 2


@pytest.mark.parametrize("size", [512, 4096])
def test_an_older_header(size: int, opener: Opener, young: Killed) -> None:
    """Controls: SQLite loses every reply of such a log without a word; and over a file that has
    its pages it is opened."""
    assert len(young.older) == logs.NEW_LOG
    log = with_bytes(young.content, 0, young.older.ljust(size, b"\0"))
    assert opener.opened(young.file, log) is None
    assert len(answers_in(opener.lay(young.file, log), "")) == 3
    assert opener.opened(young.closed[0], log) == young.kept


def test_a_turned_first_byte_is_unseen(opener: Opener, killed: Killed) -> None:
    """Control: a stop in a checkpoint leaves such a header, so the log is dropped without a word."""
    found = opener.opened(killed.file, turned(killed.content, 0))
    assert found is not None and len(killed.kept - found) > 50


# ---- what stops leave
@pytest.mark.parametrize("way", ["cut", "half in zeros", "few zeros"])
def test_torn_end_is_opened(way: str, opener: Opener, killed: Killed, dice: random.Random) -> None:
    """The last transaction, torn: its bytes are 0 or new, or the file ends inside it."""
    log, first = killed.content, killed.log.at(killed.log.ends()[-2] + 1)
    end, whole = killed.log.end(), 0
    for _ in range(TURNS):
        torn = bytearray(log)
        step = dice.choice((1, 8, 512, 1024))
        for at in range(first, end, step) if way != "cut" else ():
            if dice.random() < (0.5 if way == "half in zeros" else 0.05):
                torn[at : min(at + step, end)] = bytes(min(at + step, end) - at)
        if way == "cut":
            del torn[dice.randrange(first, end) :]
        found = opener.opened(killed.file, bytes(torn))
        assert found is not None and len(killed.kept - found) <= 1
        whole += found == killed.kept
    assert whole < TURNS


def test_stop_in_a_large_transaction_is_opened(opener: Opener) -> None:
    """A migration spills pages behind a shut gate, each time with a frame that ends a transaction."""
    opener.lay(b"", None).unlink()
    make_version_one(opener.store, 100_000, 60_000)
    begun, log = opener.store.read_bytes(), opener.log
    with subprocess.Popen(opener.words, stdout=subprocess.DEVNULL) as running:
        while running.poll() is None and (not log.exists() or log.stat().st_size < 16_000_000):
            time.sleep(0.005)
        running.kill()
    left = Log(log.read_bytes())
    ends = [frame for frame in left.behind() if left.size(frame) and left.passes(frame)]
    assert left.taken == [] and len(ends) > 1, "two whole transactions stand behind a shut gate"
    assert not is_refused(begun, left)
    assert opener.run().returncode == 0 and len(answers_in(opener.store)) == 60_000


# ---- logs by hand
def single(file: bytes, size: int, at: int) -> Transaction:
    return Transaction([(at, file[(at - 1) * size : at * size])], len(file) // size)


def test_logs_by_hand(opener: Opener, killed: Killed) -> None:
    """Each case: a log of transactions that write pages as they are, and whether it is refused."""
    file = killed.closed[0]
    size = size_of_pages(file)
    count = len(file) // size
    ones = [single(file, size, 1 + n % count) for n in range(5)]
    unsummed = Transaction([(2, ones[1].pages[0][1][: size - 8] + b"\1" * 8)], count)
    five = made_log(size, ones)
    threes = [Transaction([page for one in ones[:3] for page in one.pages], count)] * 3
    wide = made_log(size, threes)
    counts = [ones[0], *(one.counted() for one in ones[1:])]
    counted, one_count = made_log(size, counts), made_log(size, counts[:2])
    salt = logs.SALT[:4] + b"abcd"
    earlier, earlier_counts = made_log(size, ones[:4], salt), made_log(size, counts, salt)
    unended = Transaction(unsummed.pages, 0)
    more = [Transaction(one.pages, count + 1) for one in ones]
    grown = made_log(size, [more[0], *(one.counted() for one in more[1:])])
    older = made_log(size, [], salt)
    unwritten = older + bytes(24)

    def frame(n: int) -> int:
        return 32 + n * (24 + size)

    shut = turned(with_bytes(counted, frame(3) + 8, b"\0"), frame(5) + 500)
    behind = made_log(size, ones[:1]) + earlier_counts[frame(1) :]
    torn = bytes(8) + logs.SALT[:1] + bytes(15 + size)

    cases = [
        ("whole", five, False),
        ("a page of the last transaction turned", turned(five, frame(4) + 500), False),
        ("a page of the last but one turned", turned(five, frame(3) + 500), True),
        ("a page of the first turned", turned(five, frame(0) + 500), True),
        ("a frame's checksum turned", turned(five, frame(1) + 17), True),
        ("a frame's page number turned", turned(five, frame(1) + 3, 4), True),
        ("a size turned to none", with_bytes(five, frame(2) + 4, bytes(4)), True),
        ("a salt turned, two transactions behind", turned(five, frame(2) + 12), True),
        ("a salt turned, one behind", turned(five, frame(3) + 12), False),
        ("a gate turned", turned(five, frame(1) + 8), False),
        ("five sectors of zeros", with_bytes(five, frame(1) - 20, bytes(2560)), False),
        ("frames of an earlier log behind", five + earlier[32:], False),
        ("70,000 frames without an end behind", five + torn * 70_000, False),
        ("the header turned", turned(five, 13), True),
        ("the header's first byte turned", turned(five, 0), False),
        ("the header's second byte turned", turned(five, 1), True),
        ("the header's first byte 0", with_bytes(five, 0, b"\0"), False),
        ("the header's first two bytes 0", with_bytes(five, 0, bytes(2)), True),
        ("the header's first and third byte turned", turned(turned(five, 0), 2), True),
        ("a header of zeros", with_bytes(five, 0, bytes(32)), True),
        ("only a header, turned", turned(five[:55], 13), False),
        ("only a header, of zeros", bytes(55), False),
        ("a header made anew", with_header(five, 12, 5), False),
        ("a header of another version", with_header(five, 4, logs.VERSION + 1), True),
        ("a header with pages of 1,000 bytes", with_header(five, 8, 1000), True),
        ("threes: the last page of the first turned", turned(wide, frame(2) + 500), True),
        ("threes: the first page of the second turned", turned(wide, frame(3) + 500), True),
        ("threes: the first page of the last turned", turned(wide, frame(6) + 500), False),
        ("a page without its checksum", made_log(size, [ones[0], unsummed]), True),
        ("the same page, written again", made_log(size, [unsummed, ones[1]]), False),
        ("the same page, uncommitted", made_log(size, [ones[0], unended]), False),
        ("counts: whole", counted, False),
        ("counts: the first gate shut", with_bytes(counted, frame(0) + 8, b"\0"), True),
        ("one count behind a shut gate", with_bytes(one_count, 40, b"\0"), True),
        ("counts: the first frame of zeros", with_bytes(counted, frame(0), bytes(24 + size)), True),
        ("counts: the last but one's gate shut", with_bytes(counted, frame(5) + 8, b"\0"), True),
        ("counts: the last's gate shut", with_bytes(counted, frame(7) + 8, b"\0"), False),
        ("counts: the last's last page turned", turned(counted, frame(8) + 500), False),
        ("counts: all but the last of zeros", with_bytes(counted, 32, bytes(frame(7) - 32)), False),
        ("counts: a gate shut, the later turned", turned(shut, frame(7) + 500), False),
        ("counts of an earlier log behind a shut gate", behind, False),
        ("an older header, and more pages than the file has", unwritten + grown[56:], True),
        ("an older header, and pages that the file has", unwritten + counted[56:], False),
        ("an older header, and more pages uncounted", unwritten + made_log(size, more)[56:], False),
        ("an older header, and its first frame isn't zeros", older + grown[32:], False),
        ("an older header, and a frame's checksum", older + bytes(18) + grown[50:], False),
    ]
    for name, log, wanted in cases:
        assert is_refused(file, Log(log)) == wanted, f"the rule: {name}"
        assert (opener.opened(file, log) is None) == wanted, name


# ---- the file is gone
def test_log_of_a_missing_file_is_refused(opener: Opener, killed: Killed) -> None:
    store = opener.lay(killed.file, killed.content)
    moved = store.rename(f"{store}.moved")
    ran = opener.run("--explain")
    cause = "it is missing or empty, and its log shows that it was there; put the file back next to its log"
    told = f"store: StoreFailed\n{store}: {cause}\n"
    assert (ran.returncode, ran.stdout, ran.stderr) == (3, "", told)
    assert contents(store) == (b"", killed.content)
    moved.rename(store)
    assert opener.opened(*contents(store)) == killed.kept, "put back, it has every reply"


def test_log_beside_an_empty_file(opener: Opener, killed: Killed) -> None:
    content = killed.content
    assert opener.opened(b"", content) is None
    for at in (0, 1, 13, 24, 40, 60, 32 + 24 + 500, len(content) - 1):
        assert opener.opened(b"", turned(content, at)) is None, at
    assert len(killed.closed[1]) == logs.NEW_LOG and opener.opened(b"", killed.closed[1]) is None
    assert opener.opened(*killed.closed) == killed.kept, "control: beside its file it is opened"
    assert opener.opened(b"", b"") == set(), "control: an empty file alone becomes a store"


def test_logs_by_hand_beside_an_empty_file(opener: Opener, killed: Killed) -> None:
    size = size_of_pages(killed.closed[0])
    one, two = single(killed.closed[0], size, 1), single(killed.closed[0], size, 2)
    whole = made_log(size, [Transaction(one.pages, 1), Transaction(two.pages, 2)])
    marked = with_header(whole, 12, 0xFFFFFFFF)
    cases = [
        ("two transactions", whole, True),
        ("one transaction, and a damaged one", turned(whole, 32 + 24 + size + 500), True),
        ("a damaged first transaction", turned(whole, 32 + 500), True),
        ("the same with the mark of a creation", turned(marked, 32 + 500), True),
        ("frames without a commit", made_log(size, [Transaction(one.pages + two.pages, 0)]), True),
        ("pages of another size", made_log(4096, [Transaction([(1, bytes(4096))], 1)]), True),
        ("a header that is turned", turned(whole, 13), True),
        ("the first byte 0", with_bytes(whole, 0, b"\0"), True),
        ("only a header", whole[: logs.NEW_LOG], True),
        ("only the first bytes of a header", whole[:13], True),
        ("only a header, with the mark of a creation", marked[: logs.NEW_LOG], False),
        ("the same without its first byte", with_bytes(marked[: logs.NEW_LOG], 0, b"\0"), False),
        ("one byte of 0", b"\0", False),
        ("nothing", b"", False),
    ]
    for name, log, wanted in cases:
        assert is_refused(b"", Log(log)) == wanted, f"the rule: {name}"
        assert (opener.opened(b"", log) is None) == wanted, name


# ---- other stores and programs
def test_store_without_checksums(opener: Opener) -> None:
    """Pages in the log of a store of an earlier version have none, and are taken."""
    opener.lay(b"", None).unlink()
    make_version_one(opener.store, 20, 5)
    content = opener.store.read_bytes()
    size = size_of_pages(content)
    log = made_log(size, [single(content, size, n) for n in (1, 2, 3)])
    opener.lay(content, log)
    assert content[20] == 0 and opener.run().returncode == 0
    opener.lay(content, turned(log, 32 + 500))
    assert opener.run().returncode == 3, "one is turned, and two transactions stand behind it"


def test_log_of_another_program_is_refused(opener: Opener, killed: Killed) -> None:
    """A `sqlite3` without the extension cksumvfs is killed, and its log stays."""
    file = killed.closed[0]
    store = opener.lay(file, None)
    change = "UPDATE answers SET reply = replace(reply, '25.88', '52.88') WHERE number = 101"
    writer = "import os, sqlite3, sys; db = sqlite3.connect(sys.argv[1], isolation_level=None); db.execute('PRAGMA wal_autocheckpoint = 0'); db.execute(sys.argv[2]); os._exit(0)"
    subprocess.run([sys.executable, "-c", writer, store, change], check=True)
    log = contents(store)[1]
    assert len(Log(log).taken) > 0, "control: it leaves its change in the log"
    assert opener.opened(file, log) is None
    assert opener.opened(file, None) is not None, "without that log the store is opened"
