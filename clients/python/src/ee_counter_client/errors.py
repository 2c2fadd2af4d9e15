"""The errors of this package, in one tree.

    CounterError
      BadCall          the program or its data must be corrected; nothing was changed
        BadValue, BadFile, Implausible, Incomplete, KeyReused, Closed, Fault
      WrongSetup       a person must correct the set-up
        UnknownHost, UntrustedCertificate, CertificateRefused, Forbidden, ForeignAnswer, BadJournal, BadArchive, FileFailed
      Retryable        nothing was changed; the same call may succeed later
        NotReady, NoAnswer, JournalInUse, Busy
      UnknownOutcome   a request may have been done, and has no reply yet
        NoReply, StillOpen
      Refused          the counter refused the request; nothing was changed
        AlreadyPaid, NotPayee, UnknownSerial, .. : one class for every code

Two attributes of every error say the same to a program that doesn't know the class: `retryable`, and `may_be_done`. `request_id` names the proxy's entry of its answer.
"""
from __future__ import annotations

from typing import TYPE_CHECKING, Any, Dict, Mapping, Optional, Sequence, Tuple, Type

if TYPE_CHECKING:
    from .results import Interest, Request


class CounterError(Exception):
    """The base of every error that this package raises."""

    #: Whether the same call may succeed later, without any correction.
    retryable: bool = False
    #: Whether a request that this call was to finish may have taken effect. If so, the journal keeps it open.
    may_be_done: bool = False
    #: The proxy's entry for this answer in its log of who asked (X-Request-Id). None without an answer of a proxy.
    request_id: Optional[str] = None

    def __str__(self) -> str:
        """The text. Control characters of what it quotes are escaped."""
        return printable(super().__str__())

    def __reduce__(self) -> Tuple[Any, ...]:
        """Lets it be pickled, as for another process: a class made of its text, and its attributes."""
        return unpickled, (type(self), self.args), self.__dict__


def unpickled(kind: Type[CounterError], args: Tuple[Any, ...]) -> CounterError:
    """Makes an error of a class whose attributes are set after it."""
    return kind.__new__(kind, *args)


def printable(text: str) -> str:
    """A text as it may stand in a message or a log: control characters are escaped."""
    return "".join(
        sign if sign.isprintable() else sign.encode("unicode_escape").decode() for sign in text
    )


def shown(text: str) -> str:
    """A text of another program, as it may stand in a message or a log: of 200 characters at most."""
    return printable(text[:200])


def in_file(line: Optional[int], rows: Optional[Tuple[int, int]]) -> str:
    """Says where in a file it is: the line, and the rows that weren't registered with it."""
    return (f", line {line} of the file" if line else "") + (
        f"; with it rows {rows[0]} to {rows[1]} of the file" if rows else ""
    )


# ---- the program or its data must be corrected


class BadCall(CounterError):
    """The program or its data must be corrected. Nothing was changed, and the journal keeps nothing of the call."""


class BadValue(BadCall, ValueError):
    """An argument that the counter can't read, or that is over one of its limits. Nothing was sent."""


class BadFile(BadCall):
    """A file that can't be read, or a row of it that is wrong. `row` counts from 1, which is the header. Nothing was sent."""

    def __init__(self, row: int, fault: str) -> None:
        super().__init__(f"row {row}: {fault}")
        self.row, self.fault = row, fault


#: How many sentences an error's text has.
MOST_SENTENCES = 5


def in_one(sentences: Sequence[str]) -> str:
    """The first of several sentences, and how many more there are."""
    more = len(sentences) - MOST_SENTENCES
    return "; ".join(sentences[:MOST_SENTENCES]) + (f"; and {more:,} more" if more > 0 else "")


class Implausible(BadCall):
    """The counter would take it, and it isn't plausible. `doubts` has a sentence for every bond or day. Nothing was sent. The same call with `even_so=True` sends it."""

    def __init__(self, doubts: Sequence[str]) -> None:
        super().__init__(in_one(doubts))
        self.doubts = tuple(doubts)


class Incomplete(BadCall):
    """The interest can't be given whole. `missing` has a sentence for what is missing, and `interest` is what there is, with empty cells for what is missing."""

    def __init__(self, interest: "Interest") -> None:
        super().__init__(in_one(interest.missing))
        self.interest, self.missing = interest, interest.missing


class KeyReused(BadCall):
    """The key belongs to another request of this journal. Nothing was sent."""

    def __init__(self, key: str, number: int) -> None:
        super().__init__(
            f"the key {key!r} belongs to request {number}, which asks for something else"
        )
        self.key, self.number = key, number


class Closed(BadCall):
    """The counter was closed, or belongs to the process that this one was forked from."""


class Fault(BadCall):
    """The counter can't read the request, which was sent once. `code` is from 60 to 69, `name` its name, `field` the field that it names. `rows` is as in Refused."""

    def __init__(self, answer: Mapping[str, Any]) -> None:
        self.answer, self.code, self.name, self.field = (
            dict(answer),
            int(answer["code"]),
            str(answer["fault"]),
            answer.get("field"),
        )
        self.rows: Optional[Tuple[int, int]] = None
        super().__init__(
            f"{shown(self.name)} (code {self.code})"
            + (f", field {shown(str(self.field))}" if self.field else "")
        )

    def __str__(self) -> str:
        return super().__str__() + in_file(None, self.rows)


# ---- a person must correct the set-up


class WrongSetup(CounterError):
    """The address, the certificate, the user or a file is wrong. It is raised before the first good exchange with the counter, at once."""


class UnknownHost(WrongSetup):
    """The host of the address has no known name. No request left this machine."""


class UntrustedCertificate(WrongSetup):
    """The certificate of the server isn't trusted, or is for another name. No request was sent to it."""


class CertificateRefused(WrongSetup):
    """The proxy got no certificate of the staff, or one that has ended or was revoked. It passed nothing on: give the client a valid `certificate` and its `key`.
    It ends a call at once, whenever it comes. A request that was open stays open."""


#: Why a proxy doesn't pass a request on, and what to do about it, by its name for it.
REASONS = {
    "group": "this user may not do this",
    "origin": "the proxy took this for a request of another site's page",
    "client": "the proxy didn't find the header X-Counter-Client",
    "type": "the proxy didn't find the type application/json",
    "request": "the proxy can't read the request",
    "chunks": "the request reached the proxy in chunks",
    "size": "the request is too long for the proxy: send fewer rows in one request",
    "host": "the address isn't under the counter's own name: correct it",
}


class Forbidden(WrongSetup):
    """A proxy didn't pass the request (`path`) on, which was sent once, for a `reason` of REASONS: "group" if this user may not make it. Nothing was done, and
    the journal keeps nothing of it."""

    def __init__(self, path: str, reason: str = "group") -> None:
        self.path, self.reason = path, reason
        super().__init__(f"{REASONS[reason]} ({path}); nothing was done")


class ForeignAnswer(WrongSetup):
    """Another program answered in the counter's place, as a sign-in page does. `status` is the HTTP status."""

    def __init__(self, status: int, text: str) -> None:
        self.status = status
        super().__init__(text)


class BadJournal(WrongSetup):
    """The file is no journal, another desk's, or has two names."""


class BadArchive(WrongSetup):
    """The archive isn't as it was written."""


class FileFailed(WrongSetup):
    """The journal or the archive can't be read or written, as on a full disk. Its cause is the OSError. If `may_be_done`, the same call sends the request again."""


# ---- the same call may succeed later


class Retryable(CounterError):
    """Nothing was changed. The same call may succeed later."""

    retryable = True


class NotReady(Retryable):
    """A proxy answers that the counter behind it doesn't (status 502, 503 or 504), before the first good exchange. This call sent nothing, unless `may_be_done`."""


class NoAnswer(Retryable):
    """`patience` ended before a look-up was answered, or before the counter was reached for the first time. This call changed nothing."""


class JournalInUse(Retryable):
    """Another process, or another Counter of this one, uses the journal or the archive."""


class Busy(Retryable):
    """`patience` ended while another thread used the desk, or while every desk of a pool was in use. Nothing was sent."""


# ---- a request may have been done


class UnknownOutcome(CounterError):
    """A request has no reply yet, and may have been done. The journal keeps it open. The same call, or `finish`, sends it again under its number."""

    retryable = True
    may_be_done = True

    def __init__(self, text: str, request: "Request") -> None:
        super().__init__(text)
        #: The open request.
        self.request = request


class NoReply(UnknownOutcome):
    """`patience` ended before the reply came."""


class StillOpen(UnknownOutcome):
    """An earlier request, which has no key, has no reply yet. So this one wasn't sent. `finish` sends the earlier one again; `abandon` gives it up."""


# ---- refusals


#: The class of every code.
REFUSALS: Dict[int, Type["Refused"]] = {}


class Refused(CounterError):
    """The counter refused the request, and nothing was changed. The refusal is the request's reply for good; a corrected request gets a new number.

    `code` is its code, `name` its name, `details` what it names, `reply` the counter's own JSON object. If a file was being registered, `rows` has the first and last
    row of the request, and `line` the line of the bond that the refusal names. A code that this version doesn't know is a plain Refused. This package refuses what would
    be Empty or TooMany by BadValue before it is sent.
    """

    code: int = 0
    #: What to do. Empty for a plain Refused.
    remedy: str = ""
    #: The keys of the reply beside its code and name, with their types.
    keys: Tuple[Tuple[str, Type[object]], ...] = ()

    def __init_subclass__(cls) -> None:
        if cls.code:
            REFUSALS.setdefault(cls.code, cls)

    def __init__(self, reply: Mapping[str, Any], request: Optional["Request"] = None) -> None:
        self.reply: Dict[str, Any] = dict(reply)
        self.code, self.name, self.request = int(reply["code"]), str(reply["refused"]), request
        self.details = {
            key: value for key, value in reply.items() if key not in ("code", "refused")
        }
        self.rows: Optional[Tuple[int, int]] = None
        self.line: Optional[int] = None
        super().__init__(
            f"{shown(self.name)} (code {self.code})"
            + "".join(f", {key} {shown(str(value))}" for key, value in self.details.items())
        )

    def __str__(self) -> str:
        return super().__str__() + in_file(self.line, self.rows)


class OfSerial(Refused):
    """A refusal that names the serial number of a bond, as `serial`."""

    keys: Tuple[Tuple[str, Type[object]], ...] = (("serial", str),)

    @property
    def serial(self) -> Optional[str]:
        """The serial number as the counter prints it. None if nothing is named, as for `value` of a bond that isn't registered."""
        serial = self.details.get("serial")
        return None if serial is None else str(serial)


class OfMonth(Refused):
    """A refusal that names a month of a row of rates, as `month`."""

    keys = (("month", str),)

    @property
    def month(self) -> str:
        """The month, YYYY-MM."""
        return str(self.details["month"])


class OfTicket(OfSerial):
    """A refusal that names a bond, and the ticket that paid it as `ticket`."""

    keys = (("serial", str), ("ticket", int))

    @property
    def ticket(self) -> int:
        """The number of the ticket that paid the bond."""
        return int(self.details["ticket"])


class OfAge(Refused):
    """A refusal that names an age, as `age`."""

    keys = (("month", int),)

    @property
    def age(self) -> int:
        """The least age in months at which a value can't be settled."""
        return int(self.details["month"])


# the refusals: .ci/refusals


class Empty(Refused):
    """Code 11: the list has no rows or serial numbers."""

    code = 11
    remedy = "send rows or serial numbers"


class TooMany(Refused):
    """Code 12: the list has more than 500 rows or 100 serial numbers."""

    code = 12
    remedy = "send at most 500 rows, or 100 serial numbers, in one request"


class Repeated(OfSerial):
    """Code 13: the serial number stands twice in the request."""

    code = 13
    remedy = "name each serial number once"


class SameCoowner(OfSerial):
    """Code 14: owner and coowner are one customer."""

    code = 14
    remedy = "name another coowner than the owner, or none"


class NotAnnouncementMonth(OfMonth):
    """Code 20: rates hold from a May or November."""

    code = 20
    remedy = "rates hold from a May or November: correct the month"


class RateConflict(OfMonth):
    """Code 21: other terms are entered from that month already."""

    code = 21
    remedy = "entered rates can't be changed: compare them with Treasury's announcement"


class RateUnsettled(OfAge):
    """Code 22: the values under these terms can't be settled to the cent. `month` is the least age, in months."""

    code = 22
    remedy = "compare the rates with Treasury's announcement: these settle no value to the cent"


class NoRate(OfSerial):
    """Code 30: there are no rates for the issue month of the bond."""

    code = 30
    remedy = "enter the rates of the issue month first"


class SerialConflict(OfSerial):
    """Code 31: the serial number is registered with other content."""

    code = 31
    remedy = "a registered bond can't be changed: compare it with the paper"


class DayOpen(Refused):
    """Code 40: a day is open already."""

    code = 40
    remedy = "close the open day first"


class DayNotLater(Refused):
    """Code 41: a day opens once, and days rise."""

    code = 41
    remedy = "open a later day: a day opens once, and days rise"


class NoOpenDay(Refused):
    """Code 42: no day is open."""

    code = 42
    remedy = "open the day first"


class DayIsOther(Refused):
    """Code 43: another day is open."""

    code = 43
    remedy = "name the day that is open"


class DayFull(Refused):
    """Code 44: the day has its 1,000 tickets."""

    code = 44
    remedy = "close the day, and pay on a later one: it has its 1,000 tickets"


class UnknownSerial(OfSerial):
    """Code 50: the bond isn't registered."""

    code = 50
    remedy = "compare the serial number with the paper; if it is right, register the bond first"


class NotPayee(OfSerial):
    """Code 51: the payee is neither owner nor coowner of the bond."""

    code = 51
    remedy = "compare the payee with the register: only the owner or the coowner is paid"


class AlreadyPaid(OfTicket):
    """Code 52: the bond was paid, on `ticket`."""

    code = 52
    remedy = "don't pay it again: look at the ticket that paid it"


class NotIssued(OfSerial):
    """Code 53: the bond isn't issued yet in the month of the open day."""

    code = 53
    remedy = "compare the issue month with the paper: the bond isn't issued yet"


class NotEligible(OfSerial):
    """Code 54: the bond is younger than 12 months."""

    code = 54
    remedy = "pay it from 12 months after its issue month on"


# the end of the refusals


def refusal_of(reply: Mapping[str, Any], request: Optional["Request"] = None) -> Refused:
    """Returns the error of a refusal: of its own class, if the code and the name are known."""
    kind: Type[Refused] = REFUSALS.get(int(reply["code"]), Refused)
    return kind(reply, request) if kind.__name__ == reply["refused"] else Refused(reply, request)


def is_known_shape(reply: Mapping[str, Any]) -> bool:
    """Whether a refusal names what its code names, each of its type. A code that isn't known may name anything."""
    kind = REFUSALS.get(reply["code"])
    if kind is None or kind.__name__ != reply["refused"]:
        return True
    named = {key: value for key, value in reply.items() if key not in ("code", "refused")}
    if kind is NoRate and not named:
        return True
    return list(named) == [key for key, _ in kind.keys] and all(
        type(named[key]) is form for key, form in kind.keys
    )
