"""Days at the counter that stand as transcripts in crates/store_tests, and those of earlier
stores. Their little language is told in its talk.rt."""
import re
from pathlib import Path
from typing import Any

SOURCES = Path(__file__).resolve().parents[3] / "crates/store_tests/src"
REASONS = {200: "OK", 400: "Bad Request", 404: "Not Found", 405: "Method Not Allowed"}
REASONS |= {409: "Conflict", 413: "Content Too Large", 503: "Service Unavailable"}


def source_of(name: str) -> str:
    """The text of the one source file that has a constant of this name."""
    texts = [path.read_text() for path in SOURCES.iterdir()]
    (text,) = [text for text in texts if re.search(rf"\bconst {name}:", text)]
    return text


def texts(constant: str) -> dict[str, Any]:
    """The constant texts of the source file that has this one: a text, or a list of texts."""
    text = source_of(constant)
    found = {}
    for name, listed, value in re.findall(
        r"const (\w+): (\[&str; \d+\]|&str) =\s*(.*?);\n(?=\n|\Z|/)", text, re.S
    ):
        raw = re.findall(r'r#"(.*?)"#', value, re.S)
        plain = re.findall(r'^"\\\n(.*?)"$|^"(.*)"$', value, re.S)
        if listed.startswith("["):
            found[name] = raw
        elif raw:
            found[name] = raw[0]
        elif plain:
            found[name] = plain[0][0] or plain[0][1]
    return found


def items(count: int, item: str, between: str) -> str:
    return between.join(item.replace("#", str(place), 1) for place in range(1, count + 1))


def written_out(line: str) -> str:
    """The line with its list or its items written out."""
    line = re.sub(r"\[\*(\d+) (.*?)\*\]", lambda it: f"[{items(int(it[1]), it[2], ',')}]", line, 1)
    return re.sub(r"\(\*(\d+) (.*?)\*\)", lambda it: items(int(it[1]), it[2], ""), line, 1)


def message(line: str) -> bytes:
    method, path, *body = line.split(" ", 2)
    text = body[0].encode() if body else b""
    return f"{method} {path} HTTP/1.1\r\nContent-Length: {len(text)}\r\n\r\n".encode() + text


def answer(status: int, body: bytes, closes: bool = False, kind: str = "application/json") -> bytes:
    end = "Connection: close\r\n" if closes else ""
    head = f"HTTP/1.1 {status} {REASONS[status]}\r\nContent-Type: {kind}\r\n"
    return f"{head}Content-Length: {len(body)}\r\n{end}\r\n".encode() + body


def messages(transcript: str) -> list[bytes]:
    """Of a transcript of messages alone, each message."""
    lines = map(written_out, transcript.split("\n"))
    does = [line for line in lines if re.match(r"[>~+%-] ", line)]
    assert all(line.startswith("> ") for line in does), does
    return [message(line[2:]) for line in does]


def stream(transcript: str) -> bytes:
    return b"".join(messages(transcript))
