"""What a connection is answered, byte for byte."""
from typing import Any

from . import decoding, desk, framing, talk

NO_MEMORY = talk.answer(503, b'{"code":1,"unserved":"NoMemory"}')
STORE_FAILED = talk.answer(503, b'{"code":2,"unserved":"StoreFailed"}')


def json_answer(status: int, value: object, closes: bool) -> bytes:
    return talk.answer(status, desk.compact(value).encode(), closes)


def fault_answer(code: int, closes: bool, field: str | None = None) -> bytes:
    name = framing.FAULTS.get(code) or decoding.NAMES[code]
    status = {61: 413, 62: 413, 66: 404, 67: 405}.get(code, 400)
    named = {"field": field} if field else {}
    return json_answer(status, {"code": code, "fault": name, **named}, closes)


def shown(books: desk.Books, asked: tuple[Any, ...], closes: bool) -> bytes:
    found = getattr(books, "ask_" + asked[0])(*asked[1:])
    if asked[0] == "inventory":
        return talk.answer(200, found.encode(), closes, "text/plain")
    if found is not None:
        return json_answer(200, found, closes)
    if asked[0] == "value":
        return json_answer(409, {"code": 30, "refused": "NoRate"}, closes)
    return json_answer(404, {"code": 69, "fault": "NotFound"}, closes)


def answer(books: desk.Books, message: framing.Message, closes: bool = False) -> bytes:
    """The answer to a message at the books, which get what it does."""
    try:
        asked = decoding.call(message)
    except decoding.Fault as fault:
        return fault_answer(fault.args[0], closes, fault.args[1])
    if asked[0] != "act":
        return shown(books, asked, closes)
    reply = books.deliver(asked[1], asked[2])
    return json_answer(409 if "refused" in reply else 200, reply, closes)


def is_act(message: framing.Message) -> bool:
    """Whether a message asks for an act, so that it may change the books."""
    try:
        return bool(decoding.call(message)[0] == "act")
    except decoding.Fault:
        return False


def connection(books: desk.Books, stream: bytes) -> tuple[bytes, int]:
    """All bytes that answer a stream, and the status with which `apply` ends."""
    messages, fault = framing.split(stream)
    answers = []
    for place, message in enumerate(messages, 1):
        answers.append(answer(books, message, message.closes or place == framing.MOST_MESSAGES))
    if fault:
        answers.append(fault_answer(fault, True))
    return b"".join(answers), 1 if fault else 0
