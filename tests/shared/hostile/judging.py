"""Whether a run under faults is right: the desk's rules follow what it answered."""
import dataclasses
import hashlib
from typing import Iterable

from . import counter, desk, framing, store, talk
from .program import Ran

#: Books that may stand.
Many = list[desk.Books]
FAULTS_TOLD = {"store: StoreFailed", "store: NotWrittenBack", "input or output failed", "no memory"}


class Wrong(AssertionError):
    """A run that is not right, and why."""


@dataclasses.dataclass
class Heard:
    """What answers leave open: the books that may stand, and how many weren't served."""

    books: list[desk.Books]
    answered: int
    store_failed: int = 0
    no_memory: int = 0
    is_cut: bool = False

    @property
    def unserved(self) -> int:
        return self.store_failed + self.no_memory


def key_of(books: desk.Books) -> str:
    """What tells books from others: a digest of their rows."""
    return hashlib.blake2b(repr(desk.rows_of(books)).encode(), digest_size=12).hexdigest()


def distinct(many: Iterable[desk.Books]) -> list[desk.Books]:
    return list({key_of(books): books for books in many}.values())


def messages_of(stream: bytes) -> list[framing.Message]:
    messages, fault = framing.split(stream)
    if fault:
        raise ValueError("the stream has a fault")
    return messages


def delivered(books: desk.Books, message: framing.Message) -> tuple[desk.Books, bytes]:
    """The books after a message, and its answer."""
    if not counter.is_act(message):
        return books, counter.answer(books, message)
    after = books.copy()
    return after, counter.answer(after, message)


def step(many: Many, message: framing.Message, told: bytes, at: int) -> tuple[Many, int]:
    """The books that may stand after the next answer, and its length: at some books, or 503."""
    found, length = [], 0
    for books in many:
        after, right = delivered(books, message)
        if told.startswith(right, at):
            found.append(after)
            length = len(right)
    return distinct(found) if len(found) > 1 else found, length


def unserved(
    many: Many, message: framing.Message, told: bytes, at: int
) -> tuple[str | None, Many, int]:
    """The same if the next answer is a 503. A request that met a failed store may stand."""
    if told.startswith(counter.NO_MEMORY, at):
        return "no_memory", many, len(counter.NO_MEMORY)
    if told.startswith(counter.STORE_FAILED, at):
        after = distinct(many + [delivered(books, message)[0] for books in many])
        return "store_failed", after, len(counter.STORE_FAILED)
    return None, many, 0


def follow(many: Iterable[desk.Books], messages: list[framing.Message], told: bytes) -> Heard:
    """Follow the answers to messages. They may end early: then the next may have been decided."""
    heard, at = Heard(list(many), 0), 0
    for message in messages:
        found, length = step(heard.books, message, told, at)
        if not found:
            word, found, length = unserved(heard.books, message, told, at)
            if word is None:
                both, rest = [delivered(books, message) for books in heard.books], told[at:]
                rights = [*(right for _, right in both), counter.NO_MEMORY, counter.STORE_FAILED]
                if not any(right.startswith(rest) and rest != right for right in rights):
                    found_here = f"answer {heard.answered + 1} is {rest[:600]!r}"
                    raise Wrong(f"{found_here}, and not {rights[0][:600]!r}")
                heard.is_cut, heard.books = True, distinct(heard.books + [one for one, _ in both])
                return heard
            setattr(heard, word, getattr(heard, word) + 1)
        heard.books = found
        heard.answered += 1
        at += length
    if at != len(told):
        raise Wrong(f"more was told: {told[at:][:300]!r}")
    return heard


def ended_rightly(ran: Ran, heard: Heard, messages: list[framing.Message]) -> None:
    """Compare the status and the told fault with what the answers say."""
    fault = ran.faults.strip()
    if ran.status == 0:
        if fault or not heard.answered == len(messages) or heard.store_failed:
            raise Wrong(f"status 0 after {heard}, told {fault!r}")
        return
    if ran.status != 3 or fault not in FAULTS_TOLD:
        raise Wrong(f"status {ran.status}, told {fault!r}")
    if (fault == "store: StoreFailed") != (heard.store_failed > 0):
        raise Wrong(f"{fault!r} after {heard}")
    if fault == "store: NotWrittenBack" and heard.answered != len(messages):
        raise Wrong(f"{fault!r} after {heard}")


def shows_books(many: list[desk.Books], found_rows: store.Rows, what: str) -> list[desk.Books]:
    """The books whose rows the store has, of those that may stand."""
    right = [books for books in many if desk.rows_of(books) == found_rows]
    if not right:
        difference = store.difference(found_rows, desk.rows_of(many[-1]))
        raise Wrong(f"{what}: no books that may stand have these rows; {difference}")
    return right


def exports_one(many: list[desk.Books], ran: Ran, what: str) -> list[desk.Books]:
    """The books of which an export of customer 7 is what was told."""
    if ran.status != 0 or ran.faults:
        raise Wrong(f"{what}: export ended with {ran.status} {ran.faults!r}")
    right = [books for books in many if books.export(7).encode() == ran.told]
    if not right:
        raise Wrong(f"{what}: export told {ran.told!r}")
    return right


def start(transcripts: Iterable[str]) -> desk.Books:
    books = desk.Books()
    for transcript in transcripts:
        counter.connection(books, talk.stream(transcript))
    return books
