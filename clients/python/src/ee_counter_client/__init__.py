"""A client of the counter of a savings bond paying agent, for scripts and back offices. Every request gets its one reply, whatever is stopped or lost.

    >>> from ee_counter_client import Counter
    >>> with Counter("desk3.journal", "http://127.0.0.1:8377", desk=3) as counter:
    ...     counter.open_day("2012-02-06", even_so=True)
    ...     ticket = counter.redeem("2012-02-06", 7, ["L1EE", "K2EE"])
    ...     print(ticket.number, ticket.total)
    1 63.23

A journal is a file that holds a desk's number and the numbers of its requests. A request is on the disk, with its number, before it is sent. It is sent again
under that number until its reply has come: after a lost connection, a timeout, an answer 503, too many requests (429), or a restart of the script. So a
journal belongs to one desk, a desk has one journal, and one process at a time uses it.

After a stop, the same call sends the open request again, under its own number. If the open request has a key, any other act finishes it first; if not, it raises
StillOpen. `finish` sends what is open, and `abandon` gives it up. `Lookups` looks things up without a journal. An implausible bond or day raises Implausible,
unless `even_so`. A `bookmark` is a value of the script's own, kept in the journal in one step with the reply. A `key` is a name of the caller's own for a request,
such as invoice-4711: the same call with the same key returns the same reply, also in a later run.

Errors are a tree (ee_counter_client.errors): BadCall, WrongSetup, Retryable, UnknownOutcome and Refused. The package logs to "ee_counter_client". It needs the standard
library only, and a system with flock. `python3 -m ee_counter_client --help` lists the commands. Money is in dollars, as Decimal.
"""
from .asynchronous import AsyncCounter
from .counter import Counter
from .errors import (
    BadArchive,
    BadCall,
    BadFile,
    BadJournal,
    BadValue,
    Busy,
    CertificateRefused,
    Closed,
    CounterError,
    Fault,
    FileFailed,
    Forbidden,
    ForeignAnswer,
    Implausible,
    Incomplete,
    JournalInUse,
    KeyReused,
    NoAnswer,
    NoReply,
    NotReady,
    Refused,
    Retryable,
    StillOpen,
    UnknownHost,
    UnknownOutcome,
    UntrustedCertificate,
    WrongSetup,
)
from .files import Registered, bonds_in, rates_in, register
from .interest import bonds_known, interest_of_day, interest_of_payee, interest_of_ticket
from .lookups import Lookups
from .pool import Pool
from .results import (
    Abandoned,
    Added,
    Batch,
    Finished,
    Interest,
    Line,
    Opened,
    Paid,
    Request,
    Row,
    Sheet,
    Ticket,
)
from .settlement import Settlement, settlement_of_day
from .spelling import Bond, Month, Rates
from .version import __version__

__all__ = [
    "Abandoned",
    "Added",
    "AsyncCounter",
    "BadArchive",
    "BadCall",
    "BadFile",
    "BadJournal",
    "BadValue",
    "Batch",
    "Bond",
    "Busy",
    "CertificateRefused",
    "Closed",
    "Counter",
    "CounterError",
    "Fault",
    "FileFailed",
    "Finished",
    "Forbidden",
    "ForeignAnswer",
    "Implausible",
    "Incomplete",
    "Interest",
    "JournalInUse",
    "KeyReused",
    "Line",
    "Lookups",
    "Month",
    "NoAnswer",
    "NoReply",
    "NotReady",
    "Opened",
    "Paid",
    "Pool",
    "Rates",
    "Refused",
    "Registered",
    "Request",
    "Retryable",
    "Row",
    "Settlement",
    "Sheet",
    "StillOpen",
    "Ticket",
    "UnknownHost",
    "UnknownOutcome",
    "UntrustedCertificate",
    "WrongSetup",
    "__version__",
    "bonds_in",
    "bonds_known",
    "interest_of_day",
    "interest_of_payee",
    "interest_of_ticket",
    "rates_in",
    "register",
    "settlement_of_day",
]

# the refusals: .ci/refusals
from .errors import AlreadyPaid, DayFull, DayIsOther, DayNotLater
from .errors import DayOpen, Empty, NoOpenDay, NoRate
from .errors import NotAnnouncementMonth, NotEligible, NotIssued, NotPayee
from .errors import RateConflict, RateUnsettled, Repeated, SameCoowner
from .errors import SerialConflict, TooMany, UnknownSerial

__all__ += ["AlreadyPaid", "DayFull", "DayIsOther", "DayNotLater"]
__all__ += ["DayOpen", "Empty", "NoOpenDay", "NoRate"]
__all__ += ["NotAnnouncementMonth", "NotEligible", "NotIssued", "NotPayee"]
__all__ += ["RateConflict", "RateUnsettled", "Repeated", "SameCoowner"]
__all__ += ["SerialConflict", "TooMany", "UnknownSerial"]
# the end of the refusals
