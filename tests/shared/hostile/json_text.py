"""JSON by RFC 8259, as strictly as docs/FORMATS.md wants it. A whole number of 64 bits that has neither sign,
point nor exponent is an int, any other number a Number. Of a repeated key the last value stays."""

import json
from typing import Any, NoReturn

DEEPEST = 127


class NoJson(Exception):
    """The text is no JSON."""


class Number:
    """A number that is no whole number of 64 bits."""


class Pairs(list[Any]):
    """The keys of an object, each with its value, repeated ones too."""


def number(text: str) -> int | Number:
    if text.isdigit() and len(text) <= 20 and int(text) < 2**64:
        return int(text)
    if abs(float(text)) == float("inf"):
        raise NoJson
    return Number()


def constant(text: str) -> NoReturn:
    raise NoJson


def whole(value: Any, room: int = DEEPEST) -> Any:
    """The value, if its texts are whole and it is no deeper than `room`."""
    if isinstance(value, str) and any("\ud800" <= sign < "\ue000" for sign in value):
        raise NoJson
    if isinstance(value, list) and room == 0:
        raise NoJson
    if isinstance(value, Pairs):
        return {whole(key): whole(one, room - 1) for key, one in value}
    return [whole(one, room - 1) for one in value] if isinstance(value, list) else value


READER = json.JSONDecoder(
    object_pairs_hook=Pairs, parse_int=number, parse_float=number, parse_constant=constant
)


def read(body: bytes) -> Any:
    """The value of the bytes. Raises NoJson if they are none."""
    try:
        return whole(READER.decode(body.decode("utf-8")))
    except (ValueError, RecursionError):
        raise NoJson from None
