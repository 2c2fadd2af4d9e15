"""Random days as strategies of hypothesis, and harm to their fields, heads and bytes."""

import json
from typing import Any, Callable

from hypothesis import strategies as st

from tests.shared.hostile import counter, making, spelling
from tests.shared.hostile.desk import Books

Strategy = st.SearchStrategy[Any]
Draw = Callable[[Strategy], Any]
WRONG: list[object] = [None, True, 0, -1, 1.0, 10**30, "", "x", [], {}, 51, 2**63, "-0"]
WRONG += ["9" * 400, "2010-13", "20.01", "A0EE", "2012-02-30"]
TEXTS = ["", "[", "[" * 127 + "]" * 127, "[" * 128 + "]" * 128, '{"a":1e999}', '{"number":1e0}']
TEXTS += ['"\\ud800"', "nul", "01", "-", "\ufeff{}", "{}x", "{}{}"]
PATHS = "/ /rates/ //ticket/1 /ticket/1/ /inventory/7 /ticket/1?x * /day /value/50//2012-02".split()
PATHS += ["/ticket/%31", "/b\u00e4nk", "/Ticket/1", "/ticket/01", f"/ticket/{2**63}", "/ticket/x"]
FIELDS = ["Content-Length: 1", "content-LENGTH:0", "Transfer-Encoding: chunked", "Host: x", "x : 1"]
FIELDS += ["transfer-encoding:", "Transfer-Encoding : x", "Connection: close", ": 1", " folded"]
FIELDS += ["connection:\t CLOSE ", "Connection: keep-alive", "Connection: close, x", "no header"]
FIELDS += ['Connection: "close"', "X-\xc3\xa4: 1", "x: \xff\xfe", "x: \x7f", "x:\x00"]
FIELDS += ["x:" + "y" * 300]
MONTHS = "2012-02 06/2015 2030-11 2005-05 2199-12 2200-01 x".split()
LENGTHS = "0 1048576 1048577 +1 1x 1,1 -1 0x1".split() + ["", "9" * 30, "1 1"]

pick = st.sampled_from


def seldom(usual: Strategy, other: Strategy, most: int = 9) -> Strategy:
    """The usual one, and the other one in one of `most` + 1 cases."""
    return st.integers(0, most).flatmap(lambda turn: other if turn == most else usual)


denoms, issued = pick([*spelling.DENOMINATIONS, 51, "050"]), pick([*making.ISSUED, "2010"])
asked = st.one_of(
    st.builds("/inventory/{}/{}".format, pick([*making.OWNERS, 0, "007", "x"]), pick(MONTHS)),
    st.builds("/ticket/{}".format, pick([1, 2, 3, 0, 2**63 - 1])),
    st.builds("/batch/{}".format, pick([*making.DAYS, "2012-02-30"])),
    st.builds("/value/{}/{}/{}".format, denoms, issued, pick(MONTHS)),
    pick(PATHS),
)


def harmed(draw: Draw, value: Any) -> Any:
    if not isinstance(value, dict) or not value:
        return draw(pick(WRONG))
    key = draw(pick(sorted(value)))
    if isinstance(value[key], list) and value[key] and draw(st.booleans()):
        at = draw(st.integers(0, len(value[key]) - 1))
        rows = list(value[key])
        rows[at] = harmed(draw, rows[at])
        return {**value, key: rows}
    if draw(st.booleans()):
        return {name: other for name, other in value.items() if name != key}
    return {**value, draw(st.just(key) | pick(["x", "Number", "desk"])): draw(pick(WRONG))}


def text_of(draw: Draw, value: Any) -> str:
    """A JSON text of the value: often a compact one, else with spaces, escapes and a repeated
    key."""
    spaced = draw(pick([None, None, (" , ", "\n:\t")]))
    text = json.dumps(value, separators=spaced or (",", ":"))
    if spaced and text.startswith('{"number"'):
        return '{"n\\u0075mber":7,' + text[1:]
    return text


def message(draw: Draw, method: str, target: str, body: bytes) -> bytes:
    end: bytes = draw(seldom(st.just(b"\r\n"), st.just(b"\n")))
    length = [f"Content-Length: {len(body)}"] if body or draw(st.booleans()) else []
    wrong = st.builds("Content-Length: {}".format, pick(LENGTHS) | st.integers(0, 90).map(str))
    many = st.sampled_from([30, 31, 32, 33, 40]).map(lambda count: ["a: b"] * count)
    long = pick([15_000, 16_200, 16_300, 16_384]).map(lambda count: ["a:" + "d" * count])
    more = draw(seldom(st.just([]), st.lists(pick(FIELDS), max_size=2) | many | long, 6))
    fields = draw(seldom(st.just(length), st.lists(wrong, min_size=1, max_size=1), 20)) + more
    front: bytes = draw(seldom(st.just(b""), pick([b"\r\n", b"\n\n", b"\r"]), 20))
    version = draw(seldom(st.just("HTTP/1.1"), pick("HTTP/1.0 HTTP/2.0 http/1.1".split()), 40))
    first = f"{method} {target} {version}".encode()
    lines = [first, *(field.encode("latin-1") for field in fields), b""]
    return front + b"".join(line + end for line in lines) + body


def one_message(draw: Draw, books: Books) -> bytes:
    if draw(pick([True, False, False])):
        method = draw(seldom(st.just("GET"), pick(["POST", "HEAD", "get", "G T"]), 20))
        return message(draw, method, draw(asked), draw(seldom(st.just(b""), st.just(b"["))))
    path, value = making.posted(draw(st.randoms()), books)
    value = draw(seldom(st.just(value), st.builds(lambda: harmed(draw, value)), 8))
    method = draw(seldom(st.just("POST"), pick(["GET", "PUT", "P\u00d6ST"]), 30))
    text = draw(seldom(st.just(text_of(draw, value)), pick(TEXTS), 12))
    return message(draw, method, path, text.encode("utf-8", "surrogatepass"))


def damaged(draw: Draw, whole: bytes) -> bytes:
    """The stream with bytes changed, taken out, put in or doubled, or cut."""
    at, size = draw(st.integers(0, len(whole))), draw(st.integers(1, 9))
    more = draw(pick([b"", b"\r", b"\n", b":", b"{", b'"', b"0"]) | st.binary(max_size=8))
    before, after = whole[:at], whole[at:]
    ways = [before, before + more + after[size:], before + more + after, before + whole]
    return bytes(draw(pick(ways)))


def stream(draw: Draw, books: Books) -> bytes:
    """Messages one after another, at times harmed. A copy of the books gets what they do."""
    trial, whole = books.copy(), b""
    for _ in range(draw(pick([1, 1, 2, 3, 5, 8, 13]))):
        one = one_message(draw, trial)
        one *= draw(seldom(st.just(1), st.just(2)))
        counter.connection(trial, one)
        whole += one
    kind = draw(pick(["whole", "whole", "damaged", "noise"]))
    if kind == "noise":
        return bytes(draw(st.binary(max_size=400)))
    return damaged(draw, whole) if kind == "damaged" else whole
