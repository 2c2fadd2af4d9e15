"""The command counter-client, which is also `python3 -m ee_counter_client` and clients/counter.py."""
from __future__ import annotations

import argparse
import logging
import sys
from typing import Callable, Optional, Sequence, Tuple, Union

from .answers import compact
from .counter import Counter
from .errors import (
    BadCall,
    CounterError,
    Fault,
    Forbidden,
    Implausible,
    Incomplete,
    Refused,
    printable,
)
from .files import rates_in, register
from .interest import bonds_known, interest_of_day, interest_of_payee, interest_of_ticket
from .lookups import ADDRESS, PATIENCE, Lookups
from .results import Added, Batch, Interest, Opened, Row, Ticket
from .settlement import batch_in_words, settlement_of_day
from .spelling import MOST_ROWS
from .version import __version__

#: Rows between two lines of progress that no terminal shows.
PROGRESS = 20 * MOST_ROWS
#: How many doubts are printed.
MOST_LINES = 20


def printed(value: Union[Ticket, Batch, Opened, Added, Row]) -> int:
    """Prints what the counter gave, as it gave it."""
    print(value.text, flush=True)
    return 0


def looked_up(value: Union[Ticket, Batch, Opened, Added, None], missing: str) -> int:
    """Prints what was found, or says what is missing."""
    if value is None:
        print(missing, file=sys.stderr)
        return 1
    return printed(value)


def run_register(counter: Counter, words: argparse.Namespace) -> int:
    """Registers a file, and prints its progress."""
    is_seen = sys.stderr.isatty()
    told_at = -1

    def told(done: int, of: int) -> None:
        nonlocal told_at
        if is_seen or told_at < 0 or done >= told_at + PROGRESS or done == of:
            told_at = done
            print(
                f"{done:,} of {of:,} bonds",
                end="\r" if is_seen and done < of else "\n",
                file=sys.stderr,
                flush=True,
            )

    print(compact(register(counter, words.file, told, even_so=words.even_so)._asdict()), flush=True)
    return 0


def run_sheet(counter: Lookups, words: argparse.Namespace) -> int:
    """Prints a sheet."""
    print(counter.inventory(words.customer, words.month).text, end="", flush=True)
    return 0


def run_interest(ask: Callable[[], Interest]) -> int:
    """Prints the CSV. What it lacks is named, with status 1."""
    try:
        found = ask()
    except Incomplete as lack:
        return in_part(lack.interest, lack.missing)
    print(found.text, end="", flush=True)
    return 0


def in_part(interest: Interest, missing: Sequence[str]) -> int:
    """Prints the CSV, and names what it lacks."""
    print(interest.text, end="", flush=True)
    print("\n".join(f"missing: {printable(sentence)}" for sentence in missing), file=sys.stderr)
    return 1


def run_settlement(counter: Lookups, words: argparse.Namespace) -> int:
    """Prints the CSV and what the batch says, and writes the page."""
    try:
        found = settlement_of_day(counter, words.day, bonds_known(*words.sources))
    except Incomplete as lack:
        return in_part(lack.interest, lack.missing)
    if words.page is not None:
        with open(words.page, "w", encoding="utf-8") as file:
            file.write(found.page)
    print(batch_in_words(found.batch), file=sys.stderr)
    if found.missing:
        return in_part(found.interest, found.missing)
    print(found.interest.text, end="", flush=True)
    return 0


def run_abandon(counter: Counter, words: argparse.Namespace) -> int:
    """Gives up the open request, and prints what may have happened."""
    given_up = counter.abandon(words.reason)
    if given_up is None:
        print("no request is open", file=sys.stderr)
        return 1
    print(f"{given_up.request} was given up; {given_up.outcome}")
    return 0


Run = Callable[[Counter, argparse.Namespace], int]
LookUp = Callable[[Lookups, argparse.Namespace], int]
#: Commands that need a journal: their names, what they do, and their arguments.
ACTS: Tuple[Tuple[str, str, Tuple[str, ...], Run], ...] = (
    (
        "rates",
        "enters the rates of a CSV file",
        ("rates file",),
        lambda counter, words: printed(counter.add_rates(rates_in(words.file))),
    ),
    (
        "register",
        "registers the bonds of a CSV file in requests of 500; run it again after a stop",
        ("bonds file",),
        run_register,
    ),
    (
        "open",
        "opens a day",
        ("day",),
        lambda counter, words: printed(
            counter.open_day(words.day, key=words.key, even_so=words.even_so)
        ),
    ),
    (
        "redeem",
        "pays bonds to their owner or coowner",
        ("day", "payee", "serials"),
        lambda counter, words: printed(
            counter.redeem(words.day, words.payee, words.serials, key=words.key)
        ),
    ),
    (
        "close",
        "closes a day, and prints its batch",
        ("day",),
        lambda counter, words: printed(counter.close_day(words.day, key=words.key)),
    ),
    (
        "finish",
        "sends the open request until its reply has come",
        (),
        lambda counter, words: looked_up(counter.finish(), "no request is open"),
    ),
    (
        "abandon",
        "gives up the open request, which may have been done, and writes down why",
        ("reason",),
        run_abandon,
    ),
)
#: Commands that look something up. With a journal they wait for its lock, as acts do.
LOOK_UPS: Tuple[Tuple[str, str, Tuple[str, ...], LookUp], ...] = (
    ("sheet", "prints the unpaid bonds that a customer owns", ("customer", "month"), run_sheet),
    (
        "ticket",
        "prints a ticket",
        ("number",),
        lambda counter, words: looked_up(counter.ticket(words.number), "there is no such ticket"),
    ),
    (
        "batch",
        "prints the batch of a closed day",
        ("day",),
        lambda counter, words: looked_up(
            counter.batch(words.day), "the day has no batch: it isn't closed"
        ),
    ),
    (
        "value",
        "prints the row of a bond that isn't registered",
        ("denom", "issued", "month"),
        lambda counter, words: printed(counter.value(words.denom, words.issued, words.month)),
    ),
    (
        "interest-ticket",
        "prints the interest of a ticket as CSV",
        ("number", "sources"),
        lambda counter, words: run_interest(
            lambda: interest_of_ticket(counter, words.number, bonds_known(*words.sources))
        ),
    ),
    (
        "interest-day",
        "prints the interest of a closed day as CSV",
        ("day", "sources"),
        lambda counter, words: run_interest(
            lambda: interest_of_day(counter, words.day, bonds_known(*words.sources))
        ),
    ),
    (
        "settlement",
        "prints the bonds of a closed day for the cash letter as CSV, whose sums are its batch's",
        ("day", "sources"),
        run_settlement,
    ),
    (
        "interest-payee",
        "prints the interest of what a customer was paid in a span of days as CSV",
        ("customer", "first", "last", "sources"),
        lambda counter, words: run_interest(
            lambda: interest_of_payee(
                counter, words.customer, words.first, words.last, bonds_known(*words.sources)
            )
        ),
    ),
)
NEED_JOURNAL = tuple(name for name, _, _, _ in ACTS)
#: The commands that take a key.
KEYED = ("open", "redeem", "close")
#: The commands that question implausible values, with what --even-so does there.
QUESTIONED = {
    "register": "registers bonds whose letter doesn't fit their denomination, or whose issue month is after 2011-12",
    "open": "opens a day that is more than seven days from today, or after the last one that was opened",
}
#: The arguments of which there may be several.
SEVERAL = ("serials", "sources")
#: What every argument is, with an example.
ARGUMENTS = {
    "rates file": (
        "a CSV file with the columns from,rate or from,rate,extension, rates in percent",
        "samples/rates.csv",
    ),
    "bonds file": (
        "a CSV file with the columns serial,denom,issued,owner,coowner",
        "samples/inventory.csv",
    ),
    "day": ("the business day, YYYY-MM-DD", "2012-02-06"),
    "payee": ("the number of the customer who is paid, owner or coowner of every bond", "7"),
    "serials": ("the serial numbers of the bonds, 1 to 100", "L1EE K2EE"),
    "reason": ("why it is given up, which the journal keeps", "'the counter was replaced'"),
    "customer": ("the number of the customer", "7"),
    "month": ("the month of the values, YYYY-MM", "2012-02"),
    "number": ("the number of the ticket", "1"),
    "denom": ("the denomination in dollars", "50"),
    "issued": ("the issue month, YYYY-MM", "2010-11"),
    "first": ("the first day of the span, YYYY-MM-DD", "2012-01-01"),
    "last": ("its last day", "2012-12-31"),
    "sources": (
        "files that say what every bond is: inventories, archives of a desk, folders of a store's archive",
        "samples/inventory.csv",
    ),
}
STATUSES = """statuses:
  0  done
  1  refused, or this user may not do it, or there is no such thing, or not all of the interest can be given
  2  the command line, a value or a file is wrong, or a value isn't plausible; nothing was sent
  3  no reply yet (the journal keeps the request open), the set-up is wrong, or the journal can't be used"""


def words_of(line: Optional[Sequence[str]]) -> argparse.Namespace:
    """Reads a command line."""
    example = "example:\n  %(prog)s --journal desk3.journal --desk 3 rates samples/rates.csv\n  %(prog)s sheet 7 2012-02\n\n"
    parser = parser_of(
        argparse.ArgumentParser,
        "Sends requests to the counter. Each gets its one reply, which is printed as the counter gave it.",
        example,
    )
    parser.add_argument("--version", action="version", version=f"ee_counter_client {__version__}")
    parser.add_argument(
        "--journal",
        metavar="FILE",
        help="the file with the numbers of a desk, which look-ups don't need; with --desk it is created if it doesn't exist",
    )
    parser.add_argument(
        "--desk", type=int, metavar="NUMBER", help="the desk of a new journal, 0 to 999"
    )
    parser.add_argument(
        "--at", default=ADDRESS, metavar="ADDRESS", help="the counter's address (%(default)s)"
    )
    parser.add_argument(
        "--certificate",
        metavar="FILE",
        help="the user's certificate, with which nginx is asked; the file may have its key too",
    )
    parser.add_argument(
        "--key", metavar="FILE", dest="certificate_key", help="the key of the certificate"
    )
    parser.add_argument(
        "--ca", metavar="FILE", help="the certificates to trust, instead of the system's"
    )
    parser.add_argument(
        "--archive",
        metavar="FILE",
        help="a file that gets every request before it is sent, and every reply; it is created if it doesn't exist",
    )
    parser.add_argument(
        "--timeout",
        "--patience",
        dest="timeout",
        type=float,
        default=PATIENCE,
        metavar="SECONDS",
        help="seconds until a request is left open without a reply (%(default)g)",
    )
    commands = parser.add_subparsers(dest="command", required=True, metavar="COMMAND")
    for name, does, arguments, _ in (*ACTS, *LOOK_UPS):
        journal = " --journal desk3.journal" if name in NEED_JOURNAL else ""
        shown = "--even-so " if name == "open" else ""
        shown += " ".join(ARGUMENTS[argument][1] for argument in arguments)
        command = parser_of(
            commands.add_parser,
            does,
            f"example:\n  {parser.prog}{journal} {name} {shown}".rstrip() + "\n\n",
            name=name,
            help=does,
        )
        if name in KEYED:
            command.add_argument(
                "--key",
                help="a name of your own for the request: the same command again prints the same reply, and sends nothing",
            )
        if name in QUESTIONED:
            command.add_argument("--even-so", action="store_true", help=QUESTIONED[name])
        if name == "settlement":
            command.add_argument("--page", metavar="FILE", help="a page to print and sign, in HTML")
        for argument in arguments:
            text, sample = ARGUMENTS[argument]
            several = {"nargs": "+"} if argument in SEVERAL else {}
            command.add_argument(argument.split()[-1], help=f"{text}; for example {sample}", **several)  # type: ignore[arg-type]
    words = parser.parse_args(line)
    if words.journal is None and words.command in NEED_JOURNAL:
        parser.error(f"{words.command} needs --journal")
    if words.journal is None and (words.desk is not None or words.archive is not None):
        parser.error("--desk and --archive need --journal")
    return words


def parser_of(
    make: Callable[..., argparse.ArgumentParser], does: str, example: str, **more: str
) -> argparse.ArgumentParser:
    """A parser whose help ends with an example and the statuses."""
    return make(
        description=does,
        epilog=example + STATUSES,
        formatter_class=argparse.RawDescriptionHelpFormatter,
        **more,
    )


def run(words: argparse.Namespace) -> int:
    """Runs a command."""
    certificate, key, ca = words.certificate, words.certificate_key, words.ca
    if words.journal is None:
        lookups = Lookups(words.at, certificate=certificate, key=key, ca=ca, timeout=words.timeout)
        return next(run for name, _, _, run in LOOK_UPS if name == words.command)(lookups, words)
    with Counter(
        words.journal,
        words.at,
        desk=words.desk,
        certificate=certificate,
        key=key,
        ca=ca,
        timeout=words.timeout,
        archive=words.archive,
    ) as counter:
        return next(run for name, _, _, run in (*ACTS, *LOOK_UPS) if name == words.command)(
            counter, words
        )


def entry_of(error: CounterError) -> str:
    """What a line says of the proxy's entry in its log."""
    return "" if error.request_id is None else f" (log entry {error.request_id})"


def second_of(refusal: Refused) -> str:
    """The second line of a refusal: what to do."""
    again = "nothing was changed, and a corrected request gets a new number"
    return f"{refusal.remedy}; {again}" if refusal.remedy else again


def status_of(error: CounterError) -> int:
    """The exit status of an error."""
    if isinstance(error, Refused) or (isinstance(error, Forbidden) and error.reason == "group"):
        return 1
    return 2 if isinstance(error, BadCall) and not isinstance(error, Fault) else 3


def main(line: Optional[Sequence[str]] = None) -> int:
    """Runs a command line, and returns its status (STATUSES)."""
    words = words_of(line)
    logging.basicConfig(format="%(message)s", level=logging.WARNING, stream=sys.stderr)
    try:
        return run(words)
    except Refused as refusal:
        print(compact(refusal.reply), flush=True)
        print(
            f"refused: {refusal}{entry_of(refusal)}", second_of(refusal), sep="\n", file=sys.stderr
        )
        return 1
    except Implausible as doubt:
        more = len(doubt.doubts) - MOST_LINES
        print(
            *map(printable, doubt.doubts[:MOST_LINES]),
            *([f"and {more:,} more"] if more > 0 else []),
            "nothing was sent; with --even-so it is",
            sep="\n",
            file=sys.stderr,
        )
        return 2
    except CounterError as error:
        print(f"{error}{entry_of(error)}", file=sys.stderr)
        return status_of(error)
    except OSError as failure:
        print(printable(str(failure)), file=sys.stderr)
        return 3
    except KeyboardInterrupt:
        print(
            "stopped; an open request is kept, and sent again by the same command or by finish",
            file=sys.stderr,
        )
        return 3
