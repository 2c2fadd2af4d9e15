"""What the program says after a wrong use (explained.toml, uses.py), with --explain and without."""

import os
import pty
import shutil
import tomllib
from collections.abc import Callable, Iterator
from contextlib import suppress
from dataclasses import replace
from pathlib import Path
from typing import Any

import pytest

from tests.conftest import TOP
from tests.faults import uses
from tests.faults.uses import BONDS, Counter, Make, Ran, Streams, Use, words_of
from tests.shared import exact
from tests.shared.hostile.program import Program

TABLE: dict[str, dict[str, Any]] = tomllib.loads((TOP / "tests/faults/explained.toml").read_text())
SPELLING = {name: rows["spelling"] for name, rows in TABLE["argument"].items()}
SPELLING |= {"from": SPELLING["issued"], "coowner": SPELLING["customer"]}
SPELLING |= {"owner": SPELLING["customer"]}
SPELLING |= {"serial": "a serial number is a letter, 1 to 9999999999 and EE, as L1EE"}
#: The arguments of a command in their order.
PLACES = {
    "value": ["denom", "issued", "month", "rate", "extension"],
    "export": ["customer"],
    "sheet": ["customer", "month"],
}


def word_in(line: str, name: str) -> object:
    words = words_of(line)
    at = words.index("--desk") if name == "desk" else PLACES[str(words[0])].index(name)
    return words[at + 1]


def bad_argument(kind: str, line: str, name: str) -> Use:
    second = f'{name} is "{word_in(line, name)}": {SPELLING[name]}'
    return Use(kind, (line,), f"bad argument: {name}", second, 2)


def arguments() -> Iterator[Use]:
    for name, rows in TABLE["argument"].items():
        for kind, (line, *others) in list(rows.items())[1:]:
            yield bad_argument(f"{name}: {kind}", line, name)
            for other in others:
                yield bad_argument(f"{name}: {kind}, of {other.split()[0]}", other, name)
    two, line = "the first of two words that spell no value", "value 51 2010-13 2015-05 3.50"
    yield bad_argument(two, line, "denom")
    line = "value 5\xff 2010-05 2015-05 3.50"
    yield Use("a word that isn't UTF-8", (line,), "bad argument: a word isn't UTF-8", None, 2)
    for kind, (line, first, second) in TABLE["claps"].items():
        yield Use(kind, (line,), f"error: {first}", second, 2, is_claps=True)


def importing(file: str, number: int = 1) -> str:
    what = "rates" if file == uses.CSV else "inventory"
    return f"import {what} {file} --db day.db --number {number}"


def of_file(kind: str, file: str, content: str, fault: str, second: str) -> Use:
    put = uses.has(file, content.encode("latin-1"))
    return Use(kind, (importing(file),), f"file: {fault}", f"{file}: {second}", make=put)


def files() -> Iterator[Use]:
    again = "correct it, and send the file again"
    for kind, row in TABLE["file"].items():
        yield of_file(kind, *row)
    for kind, (file, content, at, column, shown) in TABLE["field"].items():
        second = f'row {at}, column {column} is "{shown}": {SPELLING[column]}; {again}'
        yield of_file(kind, file, content, f"row {at} code 72", second)
    for kind, (content, column, shown, second) in TABLE["unpaid"].items():
        second = f'row 2, column {column} is "{shown}": {second}'
        yield of_file(kind, "bonds.csv", content, "row 2 code 72", second)
    rows, parts = "from,rate\n" + "2010-05,2.00\n" * 499, "row 1 code 75"
    lacks = f"row 501 has not one field for each column; {again}"
    head = f"the first row is not serial,denom,issued,owner,coowner; {again}"
    yield of_file("the last row cut off", uses.CSV, rows + "2010\n", "row 501 code 71", lacks)
    yield of_file("far above the limit", uses.CSV, rows * 180, parts, uses.PARTS)
    yield of_file("a byte above the limit", "bonds.csv", "x" * 1_048_577, parts, uses.PARTS)
    yield of_file("at the limit", "bonds.csv", "x" * 1_048_576, "row 1 code 70", head)


def store_and(file: str, content: str) -> Make:
    def make(it: Counter) -> None:
        it.store()
        it.put(file, content.encode())

    return make


def refused() -> Iterator[Use]:
    """Refused imports, whose one line on standard error comes only if it is asked for."""
    for kind, (file, content, number, second) in TABLE["refused"].items():
        put = store_and(file, content)
        yield Use(kind, (importing(file, number),), None, f"{file}: {second}", 1, put)
    many = "from,rate\n" + "2010-05,2.00\n" * 501
    second = f"{uses.CSV}: it has more than 500 rows; send it in parts; {NEW_NUMBER}"
    yield Use("501 rows", (importing(uses.CSV, 3),), None, second, 1, store_and(uses.CSV, many))


NEW_NUMBER = "nothing was changed, and the next try needs a new number"
USES = [*arguments(), *files(), *refused(), *uses.PATHS, *uses.STORES, *uses.STREAMS]
BY_KIND = {use.kind: use for use in USES}


@pytest.fixture(scope="module")
def readable(program: Path, place: Path) -> Path:
    """A copy of the program that everybody can run."""
    copy = Path(shutil.copy(program, place))
    copy.chmod(0o755)
    return copy


@pytest.fixture
def counter(readable: Path, folder: Path) -> Iterator[Counter]:
    folder.chmod(0o777)
    yield Counter(readable, folder)
    folder.chmod(0o777)


def fresh(counter: Counter) -> Counter:
    for path in counter.folder.iterdir():
        if path.is_dir() and not path.is_symlink():
            path.chmod(0o777)
            shutil.rmtree(path)
        else:
            path.unlink()
    counter.folder.chmod(0o777)
    counter.environment = dict(os.environ)
    return counter


def tried(use: Use, counter: Counter) -> None:
    """Every line says its first line alone, and the second one too if it is asked for."""
    for line in use.lines:
        it = fresh(counter)
        use.make(it)
        with use.during(it) as streams:
            words = words_of(line)
            alone, explained = it.run(words, streams), it.run([*words, "--explain"], streams)
        if use.is_claps:
            said = alone.said.splitlines()
            assert said[0] == use.first and use.second in [text.strip() for text in said[1:]], line
        else:
            first, second = (f"{said}\n" if said else "" for said in (use.first, use.second))
            assert alone.said == first, line
            assert explained.said == first + second, line
        assert alone.status == use.status, line
        assert (explained.status, explained.printed) == (alone.status, alone.printed), line


def test_kinds_have_names_of_their_own() -> None:
    kinds = [use.kind for use in USES]
    assert len(set(kinds)) == len(kinds) > 270


@pytest.mark.parametrize("kind", BY_KIND)
def test_uses(counter: Counter, kind: str) -> None:
    tried(BY_KIND[kind], counter)


@pytest.mark.root
@pytest.mark.parametrize("use", uses.DISKS, ids=[use.kind for use in uses.DISKS])
def test_disks(counter: Counter, use: Use) -> None:
    tried(use, counter)


@pytest.mark.parametrize("kind", uses.FAILING)
def test_failing_disks(counter: Counter, hostile: Program, kind: str) -> None:
    shim = shutil.copy(hostile.shim, counter.program.parent)
    os.chmod(shim, 0o755)
    tried(uses.failing(kind, str(shim)), counter)


def test_wrong_lines_make_no_file(counter: Counter) -> None:
    for use in arguments():
        for line in use.lines:
            counter.run(words_of(line))
    assert list(counter.folder.iterdir()) == []


#: The first and the last value that every spelling allows.
BORDERS = [
    *(f"value {denom} 2010-05 2015-05 3.50" for denom in exact.DOLLARS),
    *(f"value 50 2010-05 2015-05 {rate}" for rate in ("0", "0.00", "20.00", "20", "3.5", "3.50%")),
    *(f"value 50 {at} 3.50" for at in ("2005-05 2005-05", "05/2005 12/2199", "12/2099 2199-12")),
    "value 50 2010-05 2030-11 3.40 20.00",
    *(f"{what} --db day.db" for what in ("export 1", "export 999999999", "sheet 1 2012-02")),
    *(f"sheet {what} --db day.db" for what in ("999999999 2012-02", "7 2005-05", "7 2199-12")),
]


@pytest.mark.parametrize("line", BORDERS)
def test_borders_are_taken(counter: Counter, line: str) -> None:
    ran = counter.run(words_of(line))
    assert (ran.status, ran.said) == (0, "")


def test_store_that_sql_changed_by_the_rules_opens(counter: Counter) -> None:
    uses.changed("UPDATE bonds SET coowner = 8")(counter)
    ran = counter.run(words_of("export 7 --db day.db"))
    assert ran.status == 0 and b"L1EE,50,2010-11,7,8" in ran.printed, ran


HEAD, BAD, LONG = "GET /ticket/1 HTTP/1.1\r\n", "400 Bad Request", "413 Content Too Large"
HEADERS = "".join(f"a{number}: b\r\n" for number in range(33))
MESSAGES: dict[str, list[Any]] = {
    **TABLE["message"],
    "33 headers": [f"{HEAD}{HEADERS}\r\n", BAD, '{"code":60,"fault":"BadHead"}', 1],
    "no end": [HEAD + "a: " + "b" * 17_000, LONG, '{"code":61,"fault":"HeadTooLong"}', 1],
}


def answered(row: list[Any], ran: Ran) -> None:
    _, status, body, ends = row
    head, _, found = ran.printed.partition(b"\r\n\r\n")
    assert head.split(b"\r\n")[0].decode().partition(" ")[2] == status
    assert found.decode() == body and (ran.status, ran.said) == (ends, "")


@pytest.mark.parametrize("row", MESSAGES.values(), ids=MESSAGES)
def test_messages(counter: Counter, row: list[Any]) -> None:
    counter.store()
    for more in ("", " --explain"):
        words = words_of("apply --db day.db" + more)
        ran = counter.run(words, Streams(given=row[0].encode("latin-1")))
        answered(row, ran)
    assert counter.run(words_of("export 7 --db day.db")).printed == BONDS
    wrong = replace(ran, printed=ran.printed.replace(b'":"', b'":"x', 1))
    for other in (wrong, replace(ran, said="x\n"), replace(ran, status=1 - ran.status)):
        with pytest.raises(AssertionError):
            answered(row, other)


def on_terminal(counter: Counter, line: str, given: bytes = b"") -> str:
    child, terminal = pty.fork()
    if child == 0:
        os.chdir(counter.folder)
        if given:
            os.dup2(os.open(counter.put("given", given), os.O_RDONLY), 0)
        os.execv(counter.program, [str(counter.program), *line.split()])
    shown = b""
    with suppress(OSError):
        while part := os.read(terminal, 65536):
            shown += part
    os.waitpid(child, 0)
    os.close(terminal)
    return shown.decode().replace("\r\n", "\n")


def test_terminals(counter: Counter) -> None:
    """There the second line needs no option, and `apply` ends its answers with a line end."""
    shown = on_terminal(counter, "value 50 2010-05 2015-5 3.50")
    assert shown == f'bad argument: month\nmonth is "2015-5": {SPELLING["month"]}\n'
    shown = on_terminal(counter, "apply --db day.db", uses.MESSAGE)
    assert shown.endswith("}\n") and not shown.endswith("\n\n")
    ran = counter.run(words_of("apply --db other.db"), Streams(given=uses.MESSAGE))
    assert ran.printed.endswith(b"}"), "control: elsewhere apply adds no line end"


@pytest.mark.parametrize("command", ["", "value", "import", "export", "sheet", "serve", "apply"])
def test_help(counter: Counter, command: str) -> None:
    ran = counter.run(words_of(f"help {command}"))
    assert ran == counter.run(words_of(f"{command} --help"))
    assert ran.status == 0 and b"Usage: ee_cli" in ran.printed and b"--explain" in ran.printed


Change = Callable[[bool, Ran], Ran]


def instead(old: str, new: str) -> Change:
    return lambda is_explained, ran: replace(ran, said=ran.said.replace(old, new))


def explained(**other: Any) -> Change:
    return lambda is_explained, ran: replace(ran, **other) if is_explained else ran


PLAYED = [
    ("desk: a word", lambda _, ran: replace(ran, said=ran.said.split("\n")[0] + "\n")),
    (
        "a store: a text",
        lambda asked, ran: ran if asked else replace(ran, said=f"{ran.said}look\n"),
    ),
    ("desk: a word", explained(status=1)),
    ("desk: a word", explained(printed=b"desk: a word")),
    ("a store: a text", instead("StoreFailed", "Unusable")),
    ("a command with two letters the other way", instead("tip: a similar", "tip: another")),
    ("a store: one that another process has open", instead("another process uses", "no file has")),
    ("owner of a row: a name", instead("column owner", "column coowner")),
    ("desk: a word", instead("0 to 999", "0 to 1000")),
    ("a port that is in use", instead("address in use", "permission denied")),
    ("owner of a row: a name", instead('is "John Doe"', 'is "John Doe?"')),
    ("a full disk behind the answers", instead("no space left on the disk", "nothing reads it")),
    ("desk: a word", instead('is "x"', 'is "y"')),
    ("a refused import: no rows", instead("a new number", "no new number")),
    ("a refused import: no rows", lambda _, ran: replace(ran, said=ran.said or "refused\n")),
    ("semicolons", instead("semicolons", "tabs")),
    ("serial of a row: series I", instead("FS Form 1522", "FS Form 1048")),
]


@pytest.mark.parametrize("kind, change", PLAYED, ids=range(len(PLAYED)))
def test_other_text_is_found(counter: Counter, kind: str, change: Change) -> None:
    """Control: a program that says something else."""

    class Other(Counter):
        def run(self, words: list[str | bytes], streams: Streams = Streams()) -> Ran:
            return change("--explain" in words, super().run(words, streams))

    with pytest.raises(AssertionError):
        tried(BY_KIND[kind], Other(counter.program, counter.folder))
