"""Random rates, bonds and months, files with each fault, and what the program answers of them."""

import json
import random
import subprocess
import tempfile
import tomllib
from concurrent.futures import ThreadPoolExecutor
from pathlib import Path
from typing import Iterable, Iterator, NamedTuple

from tests.conftest import MEMORY, TOP
from tests.shared import exact
from tests.shared.hostile.spelling import FIRST_MONTH as FIRST
from tests.shared.hostile.spelling import LAST_ISSUE, LAST_MONTH, month_text
from tests.shared.hostile.spelling import money as rate_text

#: The terms of each period: a fixed rate and an extension, in hundredths of a percent.
Rates = dict[int, tuple[int, int]]
#: Serial, dollars, issue month, owner, co-owner or None.
Bond = tuple[str, int, int, int, int | None]
#: The name of a file, its bytes, and what the program says of it.
Case = tuple[str, bytes, str]
PUBLISHED = TOP / "crates/published_values/data"
SHIPPED = (TOP / "samples/rates.csv").read_bytes()
#: The rate periods that the page ships, and the issue months from 2005-05 on that they cover.
SHIPPED_PERIODS = SHIPPED.count(b"\n") - 1
SHIPPED_MONTHS = 6 * SHIPPED_PERIODS
INVENTORY = b"serial,denom,issued,owner,coowner\n"
RATES, EXTENDED = b"from,rate\n", b"from,rate,extension\n"


def random_rates(dice: random.Random, count: int = 190) -> Rates:
    """Terms of this many periods; the extension is the fixed rate now and then."""
    found = {}
    for period in sorted(dice.sample(range(FIRST, LAST_ISSUE + 1, 6), count)):
        rate = dice.choice((0, 10, 350, 402, 2000)) if dice.random() < 0.1 else dice.randrange(2001)
        found[period] = (rate, rate if dice.random() < 0.3 else dice.randrange(2001))
    return found


def rates_file(rates: Rates) -> bytes:
    lines = ""
    for period, (rate, extension) in rates.items():
        more = "" if extension == rate else rate_text(extension)
        lines += f"{month_text(period)},{rate_text(rate)},{more}\n"
    return EXTENDED + lines.encode()


def random_month(dice: random.Random, issued: int) -> int:
    """A value month, mostly one that some bond's notes turn at."""
    turns = (-1, 0, 11, 12, 59, 60, 239, 240, 359, 360)
    month = issued + (dice.choice(turns) if dice.random() < 0.5 else dice.randrange(-12, 400))
    return min(max(month, FIRST), LAST_MONTH)


def random_bonds(
    dice: random.Random, count: int, owner: int = 7, months: range = range(FIRST, LAST_ISSUE + 1)
) -> list[Bond]:
    bonds: dict[str, Bond] = {}
    while len(bonds) < count:
        letter, digits = dice.choice("ABCDEFGHIJKLMNOPQRSTUVWXYZ"), dice.randrange(1, 11)
        serial = f"{letter}{dice.randrange(1, 10 ** digits)}EE"
        issued = dice.choice(months[:240] if dice.random() < 0.7 else months)
        coowner = dice.choice((None, owner + 1000))
        bonds[serial] = (serial, dice.choice(exact.DOLLARS), issued, owner, coowner)
    return list(bonds.values())


#: The issue months that have a rate of those that the page ships.
KNOWN = range(FIRST, FIRST + SHIPPED_MONTHS)


def spelled(dice: random.Random, bond: Bond) -> str:
    serial, dollars, issued, owner, coowner = bond
    number = serial[1:-2].zfill(dice.randrange(len(serial) - 3, 11))
    one, two = (dice.choice(("", "-")) for _ in range(2))
    issue = month_text(issued) if dice.random() < 0.6 else f"{issued % 12 + 1:02}/{issued // 12}"
    fields = [f"{serial[0]}{one}{number}{two}EE", str(dollars), issue, str(owner)]
    fields.append("" if coowner is None else str(coowner))
    return ",".join(f'"{field}"' if dice.random() < 0.1 else field for field in fields)


def inventory_file(bonds: Iterable[Bond], dice: random.Random | None = None) -> bytes:
    if dice is not None:
        ends = dice.choice(("\n", "\r\n", "\r"))
        return INVENTORY + "".join(spelled(dice, bond) + ends for bond in bonds).encode()
    lines = [f"{s},{d},{month_text(i)},{o},{c or ''}\n" for s, d, i, o, c in bonds]
    return INVENTORY + "".join(lines).encode()


# ---- files with each fault
GOOD = b"L1EE,50,2010-11,7,\n"
SERIALS = [b"", b"L1", b"L0EE", b"l1EE", b"L1ee", b"LEE", b"L--1EE", b"L12345678901EE", b" L1EE"]
SERIALS += [b"L00000000000EE", b"L1EE ", b"11EE", b"L1-2EE", b"L1EEE", b"LL1EE", b"\xffL1EE"]
SERIALS += [b"L\xc2\xb9EE", b"L1EE\x00"]
DENOMS = b"|25|050|50.00|$50|1,000|1e3|+50| 50|-50|10001".split(b"|")
MONTHS = b"|2005-04|2100-01|2010-00|2010-13|2010-1|1/2010|10/10|2010/11|11-2010".split(b"|")
MONTHS += [b"2010-11-01", b"Nov-10", b"20100-1", b"99999-11"]
SIZES = (1_048_576, 1_048_577)
OWNERS = b"|0|1000000000|-7|7.0|000000000|seven".split(b"|")


def bad_fields() -> Iterator[bytes]:
    """Lines of an inventory whose first fault is in each column."""
    yield from (serial + b",50,2010-11,7," for serial in SERIALS)
    yield from (b'L1EE,"' + denom + b'",2010-11,7,' for denom in DENOMS)
    yield from (b"L1EE,50," + issued + b",7," for issued in MONTHS)
    yield from (b"L1EE,50,2010-11," + owner + b"," for owner in OWNERS)
    yield from (b"L1EE,50,2010-11,7," + coowner for coowner in (b"0", b"x", b" 8", b"0000000008"))


FILES = tomllib.loads((TOP / "tests/clients/calculator_files.toml").read_text())
INVENTORIES = {f"field {n}": INVENTORY + GOOD + one + b"\n" for n, one in enumerate(bad_fields())}
INVENTORIES |= {name: text.encode("latin-1") for name, text in FILES["inventory"].items()}
INVENTORIES |= {f"{size:,} bytes": (INVENTORY + GOOD).ljust(size, b"\n") for size in SIZES}
INVENTORIES["1,048,577 bytes and no header"] = b"x" * 1_048_577
STARTS = b"|2010|2005-04|2100-05|05-2010|2010-5".split(b"|")
RATE_FIELDS = b"|20.01|100|3.505|3,50|+3.50|.50|3.|3.5%%|% 3|3 %|3.50 |-0".split(b"|")
RATE_FILES = {f"rate {n}": RATES + b'2010-05,"' + one + b'"\n' for n, one in enumerate(RATE_FIELDS)}
LONGER = EXTENDED + b'2010-05,3.40,"'
RATE_FILES |= {f"extended {n}": LONGER + one + b'"\n' for n, one in enumerate(RATE_FIELDS)}
RATE_FILES |= {f"from {n}": RATES + begins + b",3.50\n" for n, begins in enumerate(STARTS)}
RATE_FILES |= {name: text.encode("latin-1") for name, text in FILES["rates"].items()}
RATE_FILES |= {f"{rows} rows": RATES + b"2010-05,3.50\n" * rows for rows in (500, 501)}
RATE_FILES["1,048,577 bytes"] = (RATES + b"2010-05,3.50\n").ljust(SIZES[1], b"\n")


def damaged(dice: random.Random, content: bytes) -> bytes:
    made = bytearray(content)
    for _ in range(dice.randrange(1, 4)):
        at = dice.randrange(len(made))
        others = (b'"', b",", b"\n", b"\r", b" ", b"0", b"E", b"-", b"\xff", b"\xc3\xa9")
        made[at : at + 1] = dice.choice((b"", bytes([made[at]]) * 2, dice.choice(others)))
    return bytes(made)


# ---- what the program answers
class Store:
    """A store of its own in memory, under one name of the program."""

    def __init__(self, program: Path, rates: bytes | None = None) -> None:
        self.program, self.number = program, 0
        self.folder = tempfile.TemporaryDirectory(dir=MEMORY)
        self.store = Path(self.folder.name) / "day.db"
        if rates is not None:
            self.enter("rates", rates)

    def run(self, *words: str, given: bytes = b"") -> str:
        line = [str(self.program), *words, "--db", str(self.store)]
        done = subprocess.run(line, input=given, capture_output=True)
        return (done.stdout or done.stderr).decode()

    def enter(self, kind: str, content: bytes) -> str:
        self.number += 1
        path = Path(self.folder.name) / "file.csv"
        path.write_bytes(content)
        return self.run("import", kind, str(path), "--number", str(self.number))


def answers(program: Path, kind: str, files: dict[str, bytes]) -> list[Case]:
    """What the program says to each file, over a store with the shipped rates, or none for files of rates. A file that was refused changed nothing, so its store serves again."""

    def part(names: list[str]) -> list[Case]:
        found: list[Case] = []
        store: Store | None = None
        for name in names:
            store = store or Store(program, None if kind == "rates" else SHIPPED)
            found.append((name, files[name], store.enter(kind, files[name])))
            if found[-1][2].startswith('{"new":'):
                store = None
        return found

    names = list(files)
    with ThreadPoolExecutor(3) as pool:
        return [case for found in pool.map(part, (names[n::3] for n in range(3))) for case in found]


class Sheet(NamedTuple):
    """A file of rates and one of bonds, and the sheet that the program prints of them for an owner in a month."""

    rates: bytes
    file: bytes
    owner: int
    month: str
    sheet: str


def sheets(program: Path, dice: random.Random, count: int) -> list[Sheet]:
    """Sheets of random inventories of 1 to 120 bonds each, all of one store."""
    rates = random_rates(dice, 40)
    months = range(FIRST, LAST_ISSUE + 1)
    periods = [month for month in months if month - (month - 4) % 6 in rates]
    store, used = Store(program, rates_file(rates)), set[str]()
    found = []
    for owner in range(1, count + 1):
        bonds: list[Bond] = []
        while not bonds:
            drawn = random_bonds(dice, dice.choice((1, 2, 5, 20, 120)), owner)
            bonds = [(s, d, dice.choice(periods), o, c) for s, d, _, o, c in drawn if s not in used]
        used.update(bond[0] for bond in bonds)
        file = inventory_file(bonds, dice)
        reply = store.enter("inventory", file)
        assert json.loads(reply) == {"new": len(bonds), "same": 0}, reply
        month = month_text(random_month(dice, dice.choice(bonds)[2]))
        printed = store.run("sheet", str(owner), month)
        found.append(Sheet(rates_file(rates), file, owner, month, printed))
    return found
