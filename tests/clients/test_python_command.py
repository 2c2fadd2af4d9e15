"""The Python client's command and its fake counter: help, statuses, a day through nginx with a certificate, and the program's bytes."""

import contextlib
import http.client
import json
import re
import shlex
import sys
import tomllib
from pathlib import Path
from typing import Any, Callable, Iterator
from unittest import mock

import pytest

import ee_counter_client as client
import ee_counter_client.errors as errors
from ee_counter_client.command import ACTS, LOOK_UPS, second_of
from ee_counter_client.testing import FakeCounter, Gate, fake as fake_module
from tests.clients.calculator_data import INVENTORY, SHIPPED, Store
from tests.clients.desk import DAY, Desk, Part, TrueCounter, bonds_csv
from tests.clients.desk import by_process, command, controls
from tests.clients.desk import holds_not, ran
from tests.conftest import TOP
from tests.fence.conftest import Counter, MakeSite, counter, site
from tests.fence.site import Site

__all__ = ["counter", "site"]
COMMANDS = [one[:3] for one in (*ACTS, *LOOK_UPS)]


def is_help(out: str, does: str, named: list[str]) -> bool:
    """Whether a text of help says what the command does, what each argument is, with examples, and what the statuses mean."""
    are_told = all(re.search(rf"^  {name} +\w.{{9,}}; for example \S", out, re.M) for name in named)
    statuses = re.search(r"^statuses:\n  0  .*\n  1  .*\n  2  .*\n  3  ", out, re.M)
    is_whole = does in " ".join(out.split()) and "\nexample:\n" in out
    return are_told and is_whole and statuses is not None


@pytest.mark.parametrize("name, does, arguments", COMMANDS, ids=[one[0] for one in COMMANDS])
def test_help(name: str, does: str, arguments: list[str]) -> None:
    status, out, _ = command(name, "--help")
    assert status == 0 and is_help(out, does, [argument.split()[-1] for argument in arguments])


def test_help_without_a_part() -> None:
    """Control: without one of its parts it isn't a help."""
    _, out, _ = command("open", "--help")
    for part in ("the business day, YYYY-MM-DD", "; for example 2012-02-06", "example:", "  1  "):
        assert part in out and not is_help(out.replace(part, ""), "opens a day", ["day"])


def test_statuses(desk: Desk) -> None:
    at = ("--at", desk.gate.address)
    assert by_process(*at, "value", "50", "2010-11", "2012-02")[0] == 0
    assert command(*at, "sheet", "7", "2012-02")[0] == 0
    assert command(*at, "ticket", "1") == (1, "", "there is no such ticket\n")
    status, _, told = command(*at, "redeem", DAY, "7", "L1EE")
    assert status == 2 and "redeem needs --journal" in told
    status, _, told = command("--desk", "3", "ticket", "1")
    assert status == 2 and "need --journal" in told and desk.fake.tickets == []
    own = ("--journal", desk.journal, "--desk", "3", *at)
    refused = '{"code":43,"refused":"DayIsOther"}\n'
    found = command(*own, "redeem", "2012-02-07", "7", "L1EE")
    then = "nothing was changed, and a corrected request gets a new number"
    told = f"refused: DayIsOther (code 43)\nname the day that is open; {then}\n"
    assert found == (1, refused, told)
    desk.gate.faults = ["forbidden"]
    told = "this user may not do this (/day/close); nothing was done\n"
    assert command(*own, "close", DAY) == (1, "", told)
    status, out, told = command(*own, "redeem", DAY, "7", "L1EE")
    assert status == 0 and json.loads(out)["ticket"] == 1, told
    assert desk.journal.stat().st_mode & 0o777 == 0o600
    with desk.counter():
        status, _, told = command(*own, "ticket", "1")
        assert status == 3 and "another process has the journal" in told


def test_each_refusal_has_a_second_line() -> None:
    """And one that this version doesn't know says that nothing was changed."""
    remedies = {kind.remedy for kind in errors.REFUSALS.values()}
    assert "" not in remedies and len(remedies) == len(errors.REFUSALS)
    unknown = errors.refusal_of({"code": 55, "refused": "DayOfRest"})
    assert second_of(unknown) == "nothing was changed, and a corrected request gets a new number"


WRONG: dict[str, Any] = tomllib.loads((TOP / "tests/clients/wrong_files.toml").read_text())
HEAD = "serial,denom,issued,owner,coowner\n"
#: Files that are no inventory, and paper that isn't paid here: what they have, and what is said.
WRONG_FILES = [(text.encode("latin-1"), said) for text, said in WRONG["file"].items()]
WRONG_FILES += [((HEAD + row).encode(), said) for row, said in WRONG["row"].items()]
UTF_16 = "row 1: it is UTF-16: save it as CSV, in UTF-8 and with commas"
WRONG_FILES += [(HEAD.encode(code), UTF_16) for code in ("utf-16", "utf-16-le", "utf-16-be")]


@pytest.mark.parametrize("content, said", WRONG_FILES, ids=[said for _, said in WRONG_FILES])
def test_wrong_files(desk: Desk, content: bytes, said: str) -> None:
    file, before = desk.place / "bonds.csv", dict(desk.fake.kept)
    file.write_bytes(content)
    words = ("--journal", desk.journal, "--desk", "3", "--at", desk.gate.address, "register")
    assert command(*words, file) == (2, "", f"{said}\n") and desk.fake.kept == before
    assert command(*words, desk.place) == (2, "", "row 1: it is a folder: name a file in it\n")


def test_refused_rows(desk: Desk) -> None:
    """A row that the counter refuses is named, and sent once; with that row mended it goes on from there."""
    words = ("--journal", desk.journal, "--desk", "3", "--at", desk.gate.address, "register")
    file, rows = desk.place / "bonds.csv", [f"L{n}EE,50,2010-11,7," for n in range(1001, 2801)]
    file.write_text(bonds_csv(*rows[:10], "", *rows[10:1200], "L1EE,50,2010-10,7,", *rows[1201:]))
    status, out, told = command(*words, file)
    assert (status, out) == (1, '{"code":31,"refused":"SerialConflict","serial":"L1EE"}\n')
    place = "serial L1EE, line 1203 of the file; with it rows 1002 to 1501 of the file"
    assert f"SerialConflict (code 31), {place}" in told and len(desk.gate.bodies) == 3, told
    file.write_text(bonds_csv(*rows))
    assert command(*words, file)[:2] == (0, '{"new":800,"same":0,"before":1000}\n')
    assert command(*words, file)[:2] == (0, '{"new":0,"same":0,"before":1800}\n')
    replies = [reply for (number, (_, reply)) in sorted(desk.fake.kept.items()) if number[0] == 3]
    assert [reply.get("new", "refused") for reply in replies] == [500, 500, "refused", 500, 300]


@pytest.mark.nginx
def test_through_nginx(true: TrueCounter, folder: Path) -> None:
    """A day with a certificate of the staff. One that is revoked ends a command at once, and leaves its request open; with a new one the same command gets its reply."""
    with Gate(true.port) as gate:
        site = Site(folder / "site", gate.address, {"nora": "teller supervisor office registrar"})
        try:
            through(site, gate, folder)
        finally:
            site.end()


def through(site: Site, gate: Gate, folder: Path) -> None:
    at: list[object] = ["--journal", folder / "a.journal", "--desk", "3"]
    at += ["--at", f"https://127.0.0.1:{site.port}"]
    certificate = ("--certificate", site.staff.certificate("nora"))

    def run(*words: object) -> tuple[int, str, str]:
        return command(*at, *certificate, "--ca", site.folder / "certificate.pem", *words)

    paid = '{"day":"2012-02-06","lines":[{"paid":"25.16","serial":"L1EE"}],"payee":7,"ticket":1,"total":"25.16"}\n'
    batch = '{"bonds":1,"day":"2012-02-06","tickets":1,"total":"25.16"}\n'
    for words, wanted in (
        (("rates", TOP / "samples/rates.csv"), '{"new":14,"same":0}\n'),
        (("register", TOP / "samples/inventory.csv"), '{"new":3,"same":0,"before":0}\n'),
        (("open", "--even-so", DAY), '{"opened":"2012-02-06"}\n'),
        (("redeem", DAY, "7", "L1EE"), paid),
        (("ticket", "1"), paid),
        (("close", DAY), batch),
        (("batch", DAY), batch),
        (("open", "--even-so", "2012-02-07"), '{"opened":"2012-02-07"}\n'),
    ):
        status, out, told = run(*words)
        assert (status, out) == (0, wanted), told
    gate.faults = ["lost answer"] * 9
    payment = ("redeem", "--key", "a", "2012-02-07", "7", "K2EE")
    assert run("--patience", "2", *payment)[:2] == (3, "")
    gate.faults = []
    site.staff.dismiss("nora")
    site.reload()
    for words in (payment, ("ticket", "1")):
        status, out, told = run(*words)
        assert (status, out) == (3, "") and told.startswith("the proxy got no certificate of the")
    site.staff.hire("nora")
    status, out, told = run(*payment)
    assert status == 0 and json.loads(out)["ticket"] == 2, told
    assert run("ticket", "3")[0] == 1, "it was paid once"


#: The method, the path and the body of each message to both, in an order in which each refusal of the fake comes about. Rates are 0.00 %, since the fake's values are those of such rates.
MESSAGES = (TOP / "tests/clients/messages.jsonl").read_text().splitlines()


def answer(port: int, message: list[Any]) -> tuple[int, str | None, str]:
    connection = http.client.HTTPConnection("127.0.0.1", port, timeout=60)
    method, path, body = message
    connection.request(method, path, body, {"Connection": "close"})
    response = connection.getresponse()
    found = response.status, response.getheader("Content-Type"), response.read().decode()
    connection.close()
    return found


TRUE = fake_module.printed
MORE = mock.patch.object(fake_module, "printed", lambda cents: TRUE(cents + 1))
ORDERLESS = mock.patch.object(fake_module, "first_twice", lambda serials: None)


@controls(a_cent_more=MORE, another_order_of_refusals=ORDERLESS)
def test_fake_counter(true: TrueCounter, part: Part) -> None:
    """The fake counter and the program give the same bytes; each refusal has its class, with what it names."""
    codes = set()
    with FakeCounter() as fake, holds_not(part):
        for message in map(json.loads, MESSAGES):
            found = answer(true.port, message)
            assert answer(fake.port, message) == found, message
            if found[0] != 200:
                value = json.loads(found[2])
                codes.add(value["code"])
                if found[0] == 409 and value["code"] != 10:
                    refusal = errors.refusal_of(value)
                    wanted = (value["code"], value["refused"])
                    assert (refusal.code, type(refusal).__name__) == wanted
                    named = {key: value[key] for key in value if key not in ("code", "refused")}
                    assert refusal.details == named
        assert len(codes) >= 20, codes


def test_exported_inventory(program: Path, folder: Path) -> None:
    """The client reads what the program exports; it refuses a column that it doesn't know."""
    store, file = Store(program, SHIPPED), folder / "export.csv"
    store.enter("inventory", INVENTORY + b"L1EE,50,2010-11,7,\nK2EE,75,2010-10,7,8\n")
    file.write_text(store.run("export", "7"))
    assert sorted(client.bonds_known(file)) == ["K2EE", "L1EE"]
    file.write_text(file.read_text().replace("coowner\n", "coowner,branch\n"))
    with pytest.raises(client.BadFile, match="the header isn't serial,denom,issued,owner,coowner"):
        client.bonds_known(file)


def test_values_and_refusals_of_a_test(desk: Desk) -> None:
    """A bank's test gives values and refusals."""
    desk.fake.refusals.append({"code": 30, "refused": "NoRate", "serial": "L1EE"})
    with desk.counter() as counter:
        with pytest.raises(client.NoRate) as raised:
            counter.redeem(DAY, 7, ["L1EE"])
        assert raised.value.serial == "L1EE"
    with FakeCounter(values={"L1EE": "25.16"}) as fake:
        assert fake.values["L1EE"] == 2516
    with pytest.raises(client.BadValue):
        FakeCounter(values={"L1EE": "25"})


# ---- names that a user guesses
#: What takes the seconds of a call.
TIMED: dict[str, Callable[..., Any]] = {
    "Counter": lambda folder, **more: client.Counter(folder / "a.journal", desk=3, **more),
    "Lookups": lambda folder, **more: client.Lookups(**more),
    "Pool": lambda folder, **more: client.Pool(folder, desks=[3], **more),
}


@pytest.mark.parametrize("name", TIMED)
def test_timeout_and_its_earlier_name(folder: Path, name: str) -> None:
    given: list[tuple[dict[str, Any], float]] = [({}, 300.0)]
    for more, seconds in [*given, ({"timeout": 5}, 5.0), ({"patience": 6}, 6.0)]:
        made = TIMED[name](folder, **more)
        found = made._patience if name == "Pool" else made.patience
        assert found == seconds
        if name != "Lookups":
            made.close()
    with pytest.raises(client.BadValue, match="two names"):
        TIMED[name](folder, timeout=5, patience=6)
    for wrong in (-1, "5", float("nan")):
        with pytest.raises(client.BadValue):
            TIMED[name](folder, timeout=wrong)


@pytest.mark.nginx
def test_errors_name_the_log_entry(site: MakeSite, counter: Counter, folder: Path) -> None:
    """A refusal, a request of another group, and an answer of nginx alone: each error has the entry of nginx's log."""
    front = site()

    def desk(user: str) -> client.Counter:
        certificate = front.staff.certificate(user)
        ca, journal = front.folder / "certificate.pem", folder / f"{user}.journal"
        address = f"https://{front.name}:{front.port}"
        more = {"certificate": certificate, "ca": ca, "timeout": 2}
        return client.Counter(journal, address, desk=len(user), **more)  # type: ignore[arg-type]

    with desk("anna") as anna:
        with pytest.raises(client.NoOpenDay) as refused:
            anna.redeem("2012-02-06", 7, ["L1EE"])
        with pytest.raises(client.Forbidden) as forbidden:
            anna.open_day("2012-02-06", even_so=True)
        counter.end()
        with pytest.raises(client.NoReply) as unanswered:
            anna.redeem("2012-02-06", 7, ["L1EE"])
    entries = [row["entry"] for row in front.log()]
    found = [one.value.request_id for one in (refused, forbidden, unanswered)]
    assert None not in found and len(set(found)) == 3
    assert set(found) <= set(entries)
    assert found[:2] == entries[:2]


def test_errors_without_a_proxy_name_no_entry(folder: Path) -> None:
    with FakeCounter() as fake, client.Counter(folder / "a", fake.address, desk=3) as desk:
        with pytest.raises(client.NoOpenDay) as refusal:
            desk.redeem("2012-02-06", 7, ["L1EE"])
    assert refusal.value.request_id is None


def in_shell(desk: Desk, *words: str) -> tuple[int, str, str]:
    with contextlib.chdir(desk.place):
        return command(*words)


def examples(desk: Desk, *words: str) -> list[list[str]]:
    text = in_shell(desk, *words, "--help")[1].partition("example:\n")[2].partition("\n\n")[0]
    found = [shlex.split(line) for line in text.splitlines()]
    assert found and all(line[0] == "counter-client" for line in found), text
    return [["--at", desk.gate.address, "--timeout", "5", *line[1:]] for line in found]


@pytest.fixture
def shell(folder: Path) -> Iterator[Desk]:
    (folder / "samples").symlink_to(TOP / "samples")
    with FakeCounter() as fake, Gate(fake) as gate:
        yield Desk(folder, fake, gate, is_empty=True)


#: The commands in the order of a day. Two need an open request.
ORDER = ["rates", "register", "open", "sheet", "value", "redeem", "ticket", "finish", "close"]
ORDER += ["batch", "interest-ticket", "interest-day", "settlement", "interest-payee", "abandon"]


def test_examples_end_with_0(shell: Desk) -> None:
    """Each example of each help, one after the other, from an empty counter on."""
    assert sorted(ORDER) == sorted(name for name, *_ in COMMANDS)
    installed = TOP / "packaging/client/counter-client"
    assert ran(sys.executable, "-W", "error", installed, "--help") == in_shell(shell, "--help")
    lines = [("the command", line) for line in examples(shell)]
    lines += [(name, line) for name in ORDER for line in examples(shell, name)]
    for name, line in lines:
        if name in ("finish", "abandon"):
            shell.gate.faults = ["lost request"] * 99
            more = ["--journal", "desk3.journal", "--timeout", "1"]
            left = ["--at", shell.gate.address, *more, "redeem", "2012-02-06", "7", "X3EE"]
            assert in_shell(shell, *left)[0] == 3
            shell.gate.faults = []
        done = in_shell(shell, *line)
        assert done[0] == 0, (line, done)


def test_an_example_of_a_day_that_is_over_is_found(shell: Desk) -> None:
    """Control: the example without --even-so ends with 2."""
    (line,) = examples(shell, "open")
    line.remove("--even-so")
    assert in_shell(shell, "--desk", "3", *line)[0] == 2
