"""How a stream is split into messages, by docs/FORMATS.md, 'Framing': line by line."""
import dataclasses
import re

MOST_HEAD, MOST_FIELDS, MOST_BODY, MOST_MESSAGES = 16_384, 32, 1_048_576, 1_000
FAULTS = {60: "BadHead", 61: "HeadTooLong", 62: "BodyTooLong", 63: "BadLength", 68: "Truncated"}
TOKEN = rb"[0-9A-Za-z!#$%&'*+.^_`|~-]+"
REQUEST_LINE = re.compile(TOKEN.join([rb"(", rb") ([^\x00-\x20\x7f]+) HTTP/1\.([01])"]))
FIELD_LINE = re.compile(rb"(" + TOKEN + rb"):([\t\x20-\x7e\x80-\xff]*)")


@dataclasses.dataclass
class Message:
    method: bytes
    target: bytes
    body: bytes
    closes: bool


class Fault(Exception):
    """The code of what is no message."""


def is_text(target: bytes) -> bool:
    try:
        target.decode("utf-8")
    except UnicodeDecodeError:
        return False
    return True


def line_at(stream: bytes, at: int, begun: int) -> tuple[bytes, int]:
    end = stream.find(b"\n", at, begun + MOST_HEAD)
    if end < 0:
        raise Fault(61 if len(stream) - begun >= MOST_HEAD else 68)
    line = stream[at:end]
    return line[:-1] if line.endswith(b"\r") else line, end + 1


def head_at(stream: bytes, begun: int) -> tuple[re.Match[bytes], list[tuple[bytes, bytes]], int]:
    line, at = b"", begun
    while not line:
        line, at = line_at(stream, at, begun)
    request = REQUEST_LINE.fullmatch(line)
    if not request or not is_text(request[2]):
        raise Fault(60)
    fields: list[tuple[bytes, bytes]] = []
    while True:
        line, at = line_at(stream, at, begun)
        if not line:
            return request, fields, at
        field = FIELD_LINE.fullmatch(line)
        if not field:
            raise Fault(60)
        fields.append((field[1].lower(), field[2].strip(b" \t")))


def values(fields: list[tuple[bytes, bytes]], name: bytes) -> list[bytes]:
    return [value for found, value in fields if found == name]


def body_length(fields: list[tuple[bytes, bytes]]) -> int:
    if len(fields) > MOST_FIELDS:
        raise Fault(60)
    lengths = values(fields, b"content-length")
    if values(fields, b"transfer-encoding") or len(lengths) > 1:
        raise Fault(63)
    if not lengths:
        return 0
    if not re.fullmatch(rb"[0-9]+", lengths[0]):
        raise Fault(63)
    digits = lengths[0].lstrip(b"0")
    if len(digits) > 7 or int(digits or b"0") > MOST_BODY:
        raise Fault(62)
    return int(digits or b"0")


def message_at(stream: bytes, begun: int) -> tuple[Message, int]:
    request, fields, at = head_at(stream, begun)
    length = body_length(fields)
    if len(stream) - at < length:
        raise Fault(68)
    closing = [value.lower() for value in values(fields, b"connection")]
    closes = request[3] == b"0" or b"close" in closing
    return Message(request[1], request[2], stream[at : at + length], closes), at + length


def split(stream: bytes) -> tuple[list[Message], int | None]:
    """The messages of a stream that a connection takes, and the fault that ends it, or None."""
    messages: list[Message] = []
    at = 0
    while at < len(stream) and len(messages) < MOST_MESSAGES:
        try:
            message, at = message_at(stream, at)
        except Fault as fault:
            return messages, fault.args[0]
        messages.append(message)
        if message.closes:
            break
    return messages, None
