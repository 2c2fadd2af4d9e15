"""The kept requests, from nothing: every act is answered by the rules of desk.py, in the order in which
the requests were kept, and the replies and the books are compared with those of the store.

The number of a row of `answers` gives that order, since a new row gets the number after the last one.
Rows that a migration from version 1 wrote stand in order of their request numbers, so their order in
time isn't kept. `replay_of` says which of them are replayed."""

import dataclasses
import hashlib
from typing import Iterable, Iterator, NamedTuple, Sequence

from . import desk, texts
from .checks import Key, name_of
from .findings import Findings
from .store import Store

UNREADABLE: texts.UnreadableAct = {"act": ""}
#: A ticket or a batch: which of the two, and its number or its day.
Told = tuple[str, int]
IN_ORDER = "SELECT place, desk, number, act, reply FROM kept ORDER BY place"


class Kept(NamedTuple):
    """A kept request: the number of its row, its desk and number, and its two texts."""

    place: int
    desk: int
    number: int
    act: str
    reply: str

    def row(self) -> str:
        return name_of("answers", (self.desk, self.number))


class Entry(NamedTuple):
    """What the figures need of a request: its desk, the kind of its act, the code of its refusal or 0,
    the day that it belongs to, and whether its desk had sent the same act before under another number.
    """

    desk: int
    kind: str
    code: int
    day: int | None
    is_again: bool


@dataclasses.dataclass
class Replay:
    books: desk.Books
    findings: Findings
    entries: list[Entry]
    told_before: set[bytes]
    differing: set[tuple[int, int]]


def kept_requests(store: Store) -> Iterator[Kept]:
    return (Kept(*row) for row in store.rows(IN_ORDER))


# ---- texts


def texts_are_canonical(store: Store, findings: Findings) -> None:
    """Every kept text is that of an act or a reply, and the numbers of the rows have no gap."""
    last = 0
    for kept in kept_requests(store):
        findings.tested += 1
        if texts.read_act(kept.act) is None:
            findings.differs("answers", kept.row(), "act", kept.act, "the canonical text of an act")
        if texts.read_reply(kept.reply) is None:
            findings.differs("answers", kept.row(), "reply", kept.reply, "the text of a reply")
        if store.version == 2 and kept.place != last + 1:
            findings.differs(
                "answers",
                kept.row(),
                "row number",
                kept.place,
                f"{last + 1}: rows between are missing",
            )
        last = kept.place


def replies_are_told_by_the_tables(store: Store, findings: Findings) -> None:
    """The ticket and the batch of every reply stand in the tables with just that content, and every ticket
    and batch of the tables is the reply of one request. This needs no order."""
    told: dict[Told, Kept] = {}
    for kept in kept_requests(store):
        reply = texts.read_reply(kept.reply) or {}
        key: Told | None = (
            ("ticket", reply["ticket"])
            if "lines" in reply
            else ("batch", texts.day_in(reply["day"]))
            if "tickets" in reply
            else None
        )
        if key is not None and key in told:
            findings.differs(
                "answers",
                kept.row(),
                "reply",
                f"{key[0]} {key[1]}",
                f"a {key[0]} that no other reply tells",
            )
        elif key is not None:
            told[key] = kept
    for key, table, row, text in held(store):
        findings.tested += 1
        teller = told.pop(key, None)
        if teller is None:
            findings.differs(table, row, "reply", "no request", text)
        else:
            findings.compare("answers", teller.row(), f"reply of {row}", teller.reply, text)
    for (kind, number), kept in told.items():
        findings.differs("answers", kept.row(), "reply", kept.reply, f"a {kind} of the tables")


def held(store: Store) -> Iterator[tuple[Told, str, str, str]]:
    """Every ticket and batch of the tables: its key, table and row, and the text of its reply."""
    lines: dict[int, list[tuple[str, int]]] = {}
    for ticket, letter, number, cents in store.rows(
        "SELECT ticket, letter, number, cents FROM paid ORDER BY ticket, place"
    ):
        lines.setdefault(ticket, []).append((texts.serial_text(letter, number), cents))
    for ticket, day, payee, total in store.rows(
        "SELECT ticket, day, payee, total FROM tickets ORDER BY ticket"
    ):
        text = texts.compact(texts.ticket_reply(ticket, day, payee, lines.pop(ticket, []), total))
        yield ("ticket", ticket), "tickets", name_of("tickets", (ticket,)), text
    for day, *sums in store.rows("SELECT day, tickets, bonds, total FROM batches ORDER BY day"):
        yield ("batch", day), "batches", name_of("batches", (day,)), texts.compact(
            texts.batch_reply(day, *sums)
        )


# ---- the replay


def is_that_reply(act: texts.Act, own: texts.Reply, kept: str) -> bool:
    """Whether a kept reply is the one of the rules. Code 22 is allowed for terms with a value so close
    to half a cent that the program may refuse it."""
    if texts.compact(own) == kept:
        return True
    reply = texts.read_reply(kept) or {}
    if reply.get("code") != 22 or act["act"] != "rates" or desk.is_refused(own):
        return False
    return reply["month"] in next((ages for ages in desk.unsettled_ages(act) if ages), ())


def next_of(replay: Replay, store: Store, kept: Kept) -> None:
    """Answer one request by the rules, compare its reply, and do what it did."""
    act, reply = texts.read_act(kept.act) or UNREADABLE, texts.read_reply(kept.reply)
    own = desk.decide(replay.books, act) if act["act"] != "" else None
    done = reply
    if own is None or act["act"] == "" or not is_that_reply(act, own, kept.reply):
        replay.findings.differs(
            "answers",
            kept.row(),
            f"reply to {kept.act}",
            kept.reply,
            "no reply: the act can't be read" if own is None else texts.compact(own),
        )
        replay.differing.add((kept.desk, kept.number))
        done = the_one_that_was_done(store, act, own, reply)
    replay.findings.tested += 1
    note_entry(replay, kept, act, reply)
    if done is not None and not desk.is_refused(done):
        desk.take(replay.books, act, done)


def the_one_that_was_done(
    store: Store,
    act: texts.Act | texts.UnreadableAct,
    own: texts.Reply | None,
    kept: texts.Reply | None,
) -> texts.Reply | None:
    """Of the reply by the rules and the kept one, the one that the tables bear out, so that one changed
    text doesn't make all later replies differ. None if neither changed the books."""
    accepted = [reply for reply in (own, kept) if reply and not desk.is_refused(reply)]
    borne_out = [reply for reply in accepted if tables_bear_out(store, act, reply)]
    return next(iter(borne_out), accepted[0] if len(accepted) == 2 else None)


def tables_bear_out(store: Store, act: texts.Act | texts.UnreadableAct, reply: texts.Reply) -> bool:
    if "lines" in reply:
        ticket: Key | None = store.one(
            "SELECT day, payee, total FROM tickets WHERE ticket = ?", reply["ticket"]
        )
        return ticket == (
            texts.read_day(reply["day"]),
            reply["payee"],
            texts.read_money(reply["total"]),
        )
    if "tickets" in reply:
        batch: Key | None = store.one(
            "SELECT tickets, bonds, total FROM batches WHERE day = ?", texts.read_day(reply["day"])
        )
        return batch == (reply["tickets"], reply["bonds"], texts.read_money(reply["total"]))
    if "opened" in reply:
        day = texts.read_day(reply["opened"])
        return (
            store.one(
                "SELECT 1 FROM batches WHERE day = ? UNION SELECT 1 FROM desk WHERE day = ?",
                day,
                day,
            )
            is not None
        )
    return (act["act"] == "rates" or act["act"] == "bonds") and rows_are_held(store, act)


def rows_are_held(store: Store, act: texts.RatesAct | texts.BondsAct) -> bool:
    if act["act"] == "rates":
        return all(
            store.one("SELECT 1 FROM rates WHERE period = ?", texts.MONTHS[row["from"]])
            for row in act["rates"]
        )
    return all(
        store.one(
            "SELECT 1 FROM bonds WHERE letter = ? AND number = ?",
            ord(row["serial"][0]) - 64,
            int(row["serial"][1:-2]),
        )
        for row in act["bonds"]
    )


def note_entry(
    replay: Replay, kept: Kept, act: texts.Act | texts.UnreadableAct, reply: texts.Reply | None
) -> None:
    """A request belongs to the day that it names; one that names none, to the last day that was opened."""
    books = replay.books
    day = (
        texts.read_day(act["day"])
        if act["act"] == "open" or act["act"] == "close" or act["act"] == "redeem"
        else books.day
        if books.day is not None
        else books.last_day
    )
    mark = hashlib.blake2b(
        f"{kept.desk} {kept.act}".encode("utf-8", "replace"), digest_size=12
    ).digest()
    replay.entries.append(
        Entry(kept.desk, act["act"], (reply or {}).get("code", 0), day, mark in replay.told_before)
    )
    replay.told_before.add(mark)


def replayed(store: Store, findings: Findings, first: Iterable[Kept], after: int) -> Replay:
    """A replay of some requests in the order given, and then of those in the rows after a row."""
    replay = Replay(desk.Books(), findings, [], set(), set())
    for kept in first:
        next_of(replay, store, kept)
    for row in store.rows(
        "SELECT place, desk, number, act, reply FROM kept WHERE place > ? ORDER BY place", after
    ):
        next_of(replay, store, Kept(*row))
    return replay


# ---- requests of version 1, whose order in time isn't kept


def migrated_at_most(store: Store, has_checksums: bool) -> list[Kept]:
    """The requests that a migration may have written: those from the first row on that belong to desk 0
    and rise in number. A store with checksums was made in version 2, so it has none."""
    found: list[Kept] = []
    for kept in kept_requests(store) if not has_checksums else ():
        if kept.desk != 0 or (found and kept.number <= found[-1].number):
            break
        found.append(kept)
    return found


def order_shown(requests: list[Kept]) -> list[Kept]:
    """Accepted requests in the order that their replies show: rates and bonds first, as their counts
    allow, then every day's opening, its tickets by number, and its closing."""
    adds, others = [], []
    for kept in requests:
        reply = texts.read_reply(kept.reply) or {}
        if "new" in reply:
            adds.append(kept)
        elif "opened" in reply:
            others.append(((reply["opened"], 0, 0), kept))
        elif "day" in reply:
            others.append(
                (
                    (reply["day"], 1, reply["ticket"])
                    if "ticket" in reply
                    else (reply["day"], 2, 0),
                    kept,
                )
            )
    return adds_in_order(adds) + [kept for _, kept in sorted(others)]


def adds_in_order(adds: list[Kept]) -> list[Kept]:
    """Requests that add rates or bonds, each after those that make its reply right, as far as there is
    such an order; the others at the end."""
    books, order, left = desk.Books(), [], adds
    while left:
        later = []
        for kept in left:
            act = texts.read_act(kept.act)
            own = desk.decide(books, act) if act else None
            if act is not None and own is not None and is_that_reply(act, own, kept.reply):
                desk.take(books, act, own)
                order.append(kept)
            else:
                later.append(kept)
        if len(later) == len(left):
            break
        left = later
    return order + left


def replay_of(store: Store, name: str, title: str, source: str, has_checksums: bool) -> Replay:
    """The replay in order of rows; but if an accepted request of version 1 differs in it, and none does in
    the order that the replies show, the replay in that order, without the refused requests."""
    in_order = replayed(store, Findings(name, title, source), [], 0)
    first = migrated_at_most(store, has_checksums) if in_order.differing else []
    accepted = [kept for kept in first if not desk.is_refused(texts.read_reply(kept.reply) or {})]
    if not any((kept.desk, kept.number) in in_order.differing for kept in accepted):
        return in_order
    as_told = replayed(store, Findings(name, title, source), order_shown(first), first[-1].place)
    if as_told.findings.differing:
        return in_order
    for kept in first:
        if desk.is_refused(texts.read_reply(kept.reply) or {}):
            note_entry(
                as_told, kept, texts.read_act(kept.act) or UNREADABLE, texts.read_reply(kept.reply)
            )
    as_told.findings.remarks.append(
        f"The first {len(first)} requests come from a store of version 1, which keeps no order in time. The {len(accepted)} that were accepted were "
        f"replayed in the order that their replies show. The {len(first) - len(accepted)} refused ones were not: a refusal depends on its moment. Of them only the form of their texts was tested."
    )
    return as_told


# ---- the books


def books_are_the_replays(store: Store, books: desk.Books, findings: Findings) -> None:
    """Every row of the tables is what the replay has, and every row of the replay stands in the tables."""
    compare_maps(
        findings,
        "rates",
        {period: rates[0] for period, rates in books.rates.items()},
        store.rows("SELECT period, rate FROM rates"),
    )
    extensions = {period: rates[1] for period, rates in books.rates.items() if rates[0] != rates[1]}
    compare_maps(
        findings, "extensions", extensions, store.rows("SELECT period, rate FROM named_extensions")
    )
    compare_bonds(store, books, findings)
    compare_tickets(store, books, findings)
    for day, *found in store.rows("SELECT day, tickets, bonds, total FROM batches ORDER BY day"):
        findings.tested += 1
        compare_row(
            findings,
            "batches",
            (day,),
            ("tickets", "bonds", "total"),
            found,
            books.batches.pop(day, None),
        )
    for day in sorted(books.batches):
        findings.differs("batches", name_of("batches", (day,)), "row", None, "a batch")
    findings.tested += 1
    desk = store.one("SELECT day, last_day FROM desk")
    if desk is None:
        findings.differs("desk", name_of("desk", (1,)), "row", None, "the desk's row")
    else:
        compare_row(findings, "desk", (1,), ("day", "last_day"), desk, (books.day, books.last_day))


def compare_row(
    findings: Findings,
    table: str,
    key: Key,
    columns: tuple[str, ...],
    found: Sequence[object],
    wanted: Sequence[object] | None,
) -> None:
    if wanted is None:
        findings.differs(
            table,
            name_of(table, key),
            "row",
            ", ".join(f"{column} {value}" for column, value in zip(columns, found)),
            "no such row",
        )
        return
    for column, one, other in zip(columns, found, wanted):
        findings.compare(table, name_of(table, key), column, one, other)


def compare_maps(
    findings: Findings, table: str, wanted: dict[int, int], rows: Iterable[tuple[int, int]]
) -> None:
    for period, found in rows:
        findings.tested += 1
        compare_row(
            findings,
            table,
            (period,),
            ("rate",),
            (found,),
            (wanted.pop(period),) if period in wanted else None,
        )
    for period in sorted(wanted):
        findings.differs(
            table, name_of(table, (period,)), "row", None, texts.rate_text(wanted[period])
        )


def compare_bonds(store: Store, books: desk.Books, findings: Findings) -> None:
    count = 0
    for letter, number, *found in store.rows(
        "SELECT letter, number, denom, issued, owner, coowner, ticket FROM bonds"
    ):
        findings.tested += 1
        serial = texts.serial_text(letter, number)
        bond = books.bonds.get(serial)
        count += bond is not None
        wanted = None if bond is None else (*bond, books.paid_on.get(serial))
        compare_row(
            findings,
            "bonds",
            (letter, number),
            ("denom", "issued", "owner", "coowner", "ticket"),
            found,
            wanted,
        )
    if count < len(books.bonds):
        held = {texts.serial_text(*key) for key in store.rows("SELECT letter, number FROM bonds")}
        for serial in sorted(books.bonds.keys() - held, key=texts.serial_order):
            findings.differs("bonds", serial, "row", None, "a registered bond")


def compare_tickets(store: Store, books: desk.Books, findings: Findings) -> None:
    lines: dict[int, list[tuple[int, str, int]]] = {}
    for ticket, place, letter, number, cents in store.rows(
        "SELECT ticket, place, letter, number, cents FROM paid ORDER BY ticket, place"
    ):
        findings.tested += 1
        lines.setdefault(ticket, []).append((place, texts.serial_text(letter, number), cents))
    held = set()
    for ticket, day, payee, bonds, total in store.rows(
        "SELECT ticket, day, payee, bonds, total FROM tickets ORDER BY ticket"
    ):
        findings.tested += 1
        held.add(ticket)
        own = books.tickets[ticket - 1] if 1 <= ticket <= len(books.tickets) else None
        wanted = (
            None
            if own is None
            else (own[0], own[1], len(own[2]), sum(cents for _, cents in own[2]))
        )
        compare_row(
            findings,
            "tickets",
            (ticket,),
            ("day", "payee", "bonds", "total"),
            (day, payee, bonds, total),
            wanted,
        )
    for number, (day, _, own_lines) in enumerate(books.tickets, 1):
        if number not in held:
            findings.differs(
                "tickets",
                name_of("tickets", (number,)),
                "row",
                None,
                f"a ticket of {texts.day_text(day)}",
            )
        compare_lines(findings, number, lines.pop(number, []), own_lines)
    for ticket, found in lines.items():
        compare_lines(findings, ticket, found, ())


def compare_lines(
    findings: Findings, ticket: int, found: list[tuple[int, str, int]], own: desk.Lines
) -> None:
    wanted = {place: line for place, line in enumerate(own, 1)}
    for place, serial, cents in found:
        compare_row(
            findings,
            "paid",
            (ticket, place),
            ("serial number", "cents"),
            (serial, cents),
            wanted.pop(place, None),
        )
    for place in wanted:
        findings.differs(
            "paid",
            name_of("paid", (ticket, place)),
            "row",
            None,
            f"{wanted[place][0]} for {texts.money(wanted[place][1])}",
        )
