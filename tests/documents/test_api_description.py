"""The program answers as docs/openapi.json describes it, byte for byte: its examples are sent in their
order (`x-step`) to a store. The schemas are right, and every code has an example or a reason for none."""

import functools
import json
import resource
import socket
import subprocess
from collections.abc import Callable, Iterator
from pathlib import Path
from typing import Any

import jsonschema
import pytest

from tests.conftest import TOP
from tests.fence.site import everything
from tests.restore.counter_day import copied
from tests.shared.counter_calls import connected, end, free_port, matched, serve, served

DESCRIPTION: dict[str, Any] = json.loads((TOP / "docs/openapi.json").read_text())
COMPONENTS: dict[str, Any] = DESCRIPTION["components"]
STATUS_OF = {"BadMessage": 400, "NoRoute": 404, "BadMethod": 405, "TooLarge": 413, "Unserved": 503}
SECONDS = 120


def resolved(value: Any) -> Any:
    while "$ref" in value:
        place: Any = DESCRIPTION
        for name in value["$ref"].removeprefix("#/").split("/"):
            place = place[name]
        value = place
    return value


def check(schema: Any, value: Any, what: str) -> None:
    both = {"allOf": [schema], "components": COMPONENTS}
    faults = [fault.message for fault in jsonschema.Draft202012Validator(both).iter_errors(value)]
    assert not faults, f"{what} is none of its schema: {faults}"


class Step:
    def __init__(self, name: str, status: str, media: str, headers: Any, example: Any, sent: Any):
        self.name, self.status, self.media, self.headers = name, str(status), media, headers
        self.example, self.sent = example, sent

    def body(self) -> bytes:
        value = self.example["value"]
        if self.media != "text/plain":
            value = json.dumps(value, separators=(",", ":"), sort_keys=True)
        return str(value).encode()


def request_of(path: str, method: str, operation: Any, name: str) -> Any:
    if "requestBody" in operation:
        content = operation["requestBody"]["content"]["application/json"]
        value = content["examples"][name]["value"]
        check(content["schema"], value, f"the request {name} of {path}")
        body = json.dumps(value, separators=(",", ":"))
        return {"method": method.upper(), "target": path, "body": body}
    for parameter in (one for one in operation["parameters"] if "$ref" not in one):
        value = parameter["examples"][name]["value"]
        check(parameter["schema"], value, f"{parameter['name']} of {name} of {path}")
        path = path.replace("{%s}" % parameter["name"], str(value))
    return {"method": method.upper(), "target": path}


def steps_of(place: str, status: str, response: Any, asks: Callable[[str], Any]) -> Iterator[Step]:
    for media, content in response["content"].items():
        for name, example in content.get("examples", {}).items():
            what = f"{place}, {status}, {name}"
            check(content["schema"], example["value"], what)
            sent = example.get("x-sent") or asks(name)
            yield Step(what, status, media, response["headers"], example, sent)


def steps() -> list[Step]:
    found: list[Step] = []
    for path, item in DESCRIPTION["paths"].items():
        for method, operation in item.items():
            request = functools.partial(request_of, path, method, operation)
            for status, response in operation["responses"].items():
                if "$ref" not in response:
                    found += steps_of(path, status, response, request)
    for name, response in COMPONENTS["responses"].items():
        if "x-nginx" not in response:
            found += steps_of(name, str(STATUS_OF[name]), response, lambda _: None)
    return sorted(found, key=lambda step: int(step.example["x-step"]))


def lacking(found: list[Step]) -> list[str]:
    """Codes and fields of BadField without an example, and without a reason why there is none."""
    values = [step.example["value"] for step in found if isinstance(step.example["value"], dict)]
    shown = {(value.get("code"), value.get("field")) for value in values}
    schemas = COMPONENTS["schemas"].items()
    produced = {name: one for name, one in schemas if "x-not-produced" not in one}
    fields = {name: one.get("properties", {}) for name, one in produced.items()}
    codes = {name: of.get("code", {}).get("const") for name, of in fields.items()}
    there = {None, *(code for code, _ in shown)}
    lacks = [f"{code} {name}" for name, code in codes.items() if code not in there]
    named = COMPONENTS["schemas"]["BadField"]["properties"]["field"]["enum"]
    return lacks + [f"65 {field}" for field in named if (65, field) not in shown]


@pytest.mark.parametrize("name", COMPONENTS["schemas"])
def test_schema(name: str) -> None:
    jsonschema.Draft202012Validator.check_schema(COMPONENTS["schemas"][name])
    with pytest.raises(jsonschema.SchemaError):
        jsonschema.Draft202012Validator.check_schema({"type": "nothing"})


def test_whole_description() -> None:
    module = pytest.importorskip("openapi_spec_validator")
    (module.validate if hasattr(module, "validate") else module.validate_spec)(DESCRIPTION)


def test_every_code_has_an_example() -> None:
    found = steps()
    assert lacking(found) == []
    assert lacking(found[len(found) // 2 :]), "control: half of the examples"


def test_other_value_is_none_of_the_schema() -> None:
    """Control: an example with another code."""
    with pytest.raises(AssertionError):
        check({"$ref": "#/components/schemas/BadField"}, {"code": 1, "fault": "BadField"}, "it")


def ask(port: int, stream: bytes) -> bytes:
    with connected(port, SECONDS) as client:
        client.sendall(stream)
        client.shutdown(socket.SHUT_WR)
        return everything(client)


def message(method: str, target: str, body: str | None = None, headers: str = "") -> bytes:
    length = "" if body is None else f"Content-Length: {len(body.encode())}\r\n"
    head = f"{method} {target} HTTP/1.1\r\nHost: 127.0.0.1\r\n{headers}{length}\r\n"
    return (head + (body or "")).encode()


def bytes_of(sent: Any, headers: str = "") -> bytes:
    if "bytes" not in sent:
        return message(sent["method"], sent["target"], sent.get("body"), headers)
    pieces = [piece if isinstance(piece, str) else piece[0] * piece[1] for piece in sent["bytes"]]
    return "".join(pieces).encode()


def compare(step: Step, text: bytes, closes: bool) -> None:
    """The answer has the status, just the headers that are described, and the body."""
    head, _, body = text.partition(b"\r\n\r\n")
    first, *lines = head.decode().split("\r\n")
    assert first.split(" ")[:2] == ["HTTP/1.1", step.status], step.name
    headers = dict(line.split(": ", 1) for line in lines)
    described = {"Content-Type": step.media, "Content-Length": str(len(step.body()))}
    assert headers == described | ({"Connection": "close"} if closes else {}), step.name
    for name in headers.keys() - {"Content-Type"}:
        schema = resolved(step.headers[name])["schema"]
        value = int(headers[name]) if schema.get("type") == "integer" else headers[name]
        check(schema, value, f"the header {name} of {step.name}")
    assert body == step.body(), step.name


def fill_a_day(port: int) -> None:
    """A day that is open, with its 1,000 tickets."""
    bond: dict[str, Any] = {"denom": 50, "issued": "2010-11", "owner": 7}
    bonds = [{**bond, "serial": f"A{n}EE"} for n in range(1, 1001)]
    begun: list[tuple[str, Any]] = [("/day/open", {"number": 100, "day": "2012-02-07"})]
    begun += [("/bonds", {"number": 101 + at, "bonds": bonds[500 * at :][:500]}) for at in range(2)]
    ask(port, b"".join(message("POST", path, json.dumps(value)) for path, value in begun))
    ticket: dict[str, Any] = {"day": "2012-02-07", "payee": 7}
    acts = [{**ticket, "number": 1000 + n, "serials": [f"A{n}EE"]} for n in range(1, 1001)]
    paid = ask(port, b"".join(message("POST", "/redeem", json.dumps(act)) for act in acts))
    assert paid.count(b"HTTP/1.1 200 OK") == 1000


def without_memory(program: Path, store: Path, step: Step) -> bytes:
    """The answer of a process whose memory ends while it reads the message, which is tried."""
    for more in range(0, 64 << 20, 256 << 10):
        port = free_port()
        server = serve(program, store, port)
        status = Path(f"/proc/{server.pid}/status").read_text()
        most = int(matched(r"VmSize:\s*(\d+) kB", status)[1]) * 1024 + more
        resource.prlimit(server.pid, resource.RLIMIT_AS, (most, most))
        text = ask(port, bytes_of(step.sent))
        end(server)
        if text.startswith(b"HTTP/1.1 503"):
            return text
    raise AssertionError("no amount of memory brings about an answer 503")


def with_failing_syncs(program: Path, store: Path, step: Step) -> bytes:
    """The answer of a server whose syncs fail once its store is open."""
    calls, trace, port = f"{store}.calls", ["strace", "-f", "-qq"], free_port()
    traced = [*trace, "-e", "trace=fdatasync,write", "-o", calls]
    for before in (traced[:0], traced):
        words = [*before, str(program), "apply", "--db", str(store)]
        subprocess.run(words, input=message("GET", "/ticket/1"), capture_output=True, check=True)
    first = Path(calls).read_text().split("write(1,")[0].count("fdatasync(") + 1
    inject = f"-e trace=fdatasync -e inject=fdatasync:error=EIO:when={first}+ -o /dev/null"
    server = serve(program, store, port, before=[*trace, *inject.split()])
    text = ask(port, bytes_of(step.sent))
    _, said = server.communicate(timeout=SECONDS)
    assert (server.returncode, said.splitlines()[-1]) == (3, "store: StoreFailed")
    return text


BEFORE = {
    "a process that gets no more memory": without_memory,
    "a device whose syncs fail": with_failing_syncs,
}


@pytest.mark.needs("strace")
def test_examples_in_their_order(program: Path, folder: Path) -> None:
    store, found = folder / "api.db", steps()
    assert len(found) > 50
    with served(program, store) as port:
        for step in found:
            before = step.example.get("x-before")
            if before == "a full day":
                fill_a_day(port)
            if before in BEFORE:
                text = BEFORE[before](program, copied(store, folder / step.name), step)
            else:
                text = ask(port, bytes_of(step.sent))
            compare(step, text, step.example.get("x-closes", False))
            if "bytes" not in step.sent and step.sent["method"] == "GET":
                compare(step, ask(port, bytes_of(step.sent, "Connection: close\r\n")), True)


def test_other_answer_is_found(program: Path, folder: Path) -> None:
    """Control: another status, header or byte of a body than the first example's."""
    step = steps()[0]
    with served(program, folder / "api.db") as port:
        text = ask(port, bytes_of(step.sent))
    compare(step, text, False)
    changes = [(b" 200 ", b" 201 "), (b"\r\n", b"\r\nX: y\r\n"), (b"/json", b"/html"), (b"}", b" ")]
    for old, new in changes:
        assert old in text
        with pytest.raises(AssertionError):
            compare(step, text.replace(old, new, 1), False)
