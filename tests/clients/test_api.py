"""Both clients beside docs/openapi.json: each message that the Python client and the tellers' page send is one of its, and each example of an answer is read as what it is."""

import contextlib
import copy
import json
import re
import shutil
from pathlib import Path
from typing import Any, Callable, Iterator, NamedTuple

import jsonschema
import pytest

import ee_counter_client as client
from ee_counter_client import answers, errors, sheets
from ee_counter_client.spelling import serial_of
from tests.clients.desk import DAY, Desk
from tests.clients.node import node
from tests.conftest import TOP

#: The description.
Api = dict[str, Any]
API: Api = json.loads((TOP / "docs/openapi.json").read_text())
#: What the page asks for; the back office's paths are the Python client's alone.
OF_PAGE = ["/bonds", "/redeem", "/day/open", "/day/close", "/inventory/{customer}/{month}"]
OF_PAGE += ["/ticket/{ticket}", "/batch/{day}", "/value/{denom}/{issued}/{month}"]
#: nginx's reasons after which both clients send the same request again.
SENT_AGAIN = ("repeated", "rate")


class Example(NamedTuple):
    path: str
    fields: dict[str, Any]
    status: int
    text: str
    value: Any
    name: str


def compact(value: object) -> str:
    if isinstance(value, str):
        return value
    return json.dumps(value, separators=(",", ":"), sort_keys=True)


def fits(api: Api, schema: dict[str, Any], value: object) -> None:
    whole = {"allOf": [schema], "components": api["components"]}
    faults = list(jsonschema.Draft202012Validator(whole).iter_errors(value))
    assert faults == [], value


def message_fits(api: Api, method: str, path: str, body: object) -> str:
    """A message is one of the description. Returns its path there."""
    for template, item in api["paths"].items():
        parts = re.fullmatch(re.sub(r"\{(\w+)\}", r"(?P<\1>[^/]+)", template), path)
        if parts is None or method.lower() not in item:
            continue
        operation = item[method.lower()]
        for parameter in operation["parameters"]:
            if "$ref" not in parameter:
                text, schema = parts[parameter["name"]], parameter["schema"]
                named = resolved(api, schema)
                is_number = named.get("type") == "integer" or 50 in named.get("enum", [])
                fits(api, schema, int(text) if is_number else text)
        assert (body is not None) == ("requestBody" in operation), path
        if body is not None:
            fits(api, operation["requestBody"]["content"]["application/json"]["schema"], body)
        return str(template)
    raise AssertionError(f"no path of the description has {method} {path}")


def resolved(api: Api, part: dict[str, Any]) -> dict[str, Any]:
    name = part.get("$ref", "").split("/")[-1]
    return dict(api["components"]["schemas"][name] if name else part)


def examples_of(api: Api) -> Iterator[Example]:
    for path, item in api["paths"].items():
        for operation in item.values():
            sent = {}
            if "requestBody" in operation:
                sent = operation["requestBody"]["content"]["application/json"]["examples"]
            for status, response in operation["responses"].items():
                if "$ref" in response:
                    response = api["components"]["responses"][response["$ref"].split("/")[-1]]
                for content in response["content"].values():
                    for name, one in content.get("examples", {}).items():
                        asked = dict(sent.get(name, {"value": {}})["value"])
                        fields = {k: v for k, v in asked.items() if k not in ("desk", "number")}
                        if "serials" in fields:  # as both clients spell them
                            fields["serials"] = [serial_of(one) for one in fields["serials"]]
                        met, value = one.get("x-status") or int(status), one["value"]
                        yield Example(path, fields, met, compact(value), value, name)


def wanted_of(example: Example) -> tuple[str, int | None, str | None]:
    value = example.value
    if example.status == 200:
        return "reply", None, None
    if "forbidden" in value or "unavailable" in value:
        is_final = "forbidden" in value and value["forbidden"] not in SENT_AGAIN
        return ("forbidden", None, value["forbidden"]) if is_final else ("none", None, None)
    kind = next(name for name in ("refused", "fault", "unserved") if name in value)
    return kind, value["code"], value[kind]


def python_sends(desk: Desk, api: Api) -> None:
    """Each of its calls sends a message of the description, and it has each path."""
    desk.journal.unlink(missing_ok=True)
    with desk.counter(desk=999) as counter:
        rates = client.Rates("11/2010", "3.5", "4")
        counter.add_rates([rates, {"from": "2010-05", "rate": "3.50%"}])
        bonds = [client.Bond("L-5-EE", 50, "2010-11", 7)]
        bonds += [client.Bond("A9999999999EE", 10000, "10/2010", 999_999_999, 8)]
        counter.add_bonds(bonds, even_so=True)
        acts: list[Callable[[], object]] = [lambda: counter.open_day(DAY, even_so=True)]
        acts += [lambda: counter.redeem(DAY, 7, ["L1EE"]), lambda: counter.close_day(DAY)]
        for act in acts:
            with contextlib.suppress(client.Refused):
                act()
        counter.inventory(7, "02/2012")
        counter.ticket(2**63 - 1)
        counter.batch(DAY)
        counter.value(75, "10/2010", "2012-02")
    bodies, templates = iter(desk.gate.bodies), set()
    for head in desk.gate.heads:
        method, path, _ = head.decode().splitlines()[0].split(" ")
        body = json.loads(next(bodies)) if method == "POST" else None
        templates.add(message_fits(api, method, path, body))
    assert templates == set(api["paths"])


def python_reads(desk: Desk, api: Api) -> None:
    readers: dict[str, Callable[[str], object]] = {"inventory": sheets.sheet_in}
    readers |= {"ticket": answers.ticket_in, "batch": answers.batch_in, "value": answers.row_in}
    found = list(examples_of(api))
    assert len(found) > 50
    for one in found:
        path, fields = one.path, one.fields
        reader = readers.get(path.split("/")[1], lambda text: answers.reply_in(path, fields, text))
        answer = answers.answer_of(one.status, one.text, reader)
        kind, code, name = wanted_of(one)
        if kind == "forbidden":
            is_mine = isinstance(answer.setup, client.CertificateRefused)
            assert (name == "certificate") == is_mine and (is_mine or answer.value == name), one
            continue
        value = answer.value if isinstance(answer.value, dict) and kind != "reply" else {}
        assert (answer.kind, value.get("code"), value.get(answer.kind)) == (kind, code, name), one


def python_refusals(desk: Desk, api: Api) -> None:
    """Each refusal of the description has its class, with the names that it gives, and there is no other class."""
    codes = set()
    for name, schema in api["components"]["schemas"].items():
        properties = dict(schema.get("properties", {}))
        if "refused" not in properties or name in ("NumberReused", "NoRateOfValue"):
            continue
        code = properties.pop("code")["const"]
        properties.pop("refused")
        codes.add(code)
        kind = errors.REFUSALS[code]
        texts = {key: json.dumps(resolved(api, part)) for key, part in properties.items()}
        types = {key: int if "integer" in text else str for key, text in texts.items()}
        assert (kind.__name__, dict(kind.keys)) == (name, types)
        words = {"month": "2010-06", "serial": "L1EE"}
        named = {key: 7 if form is int else words[key] for key, form in types.items()}
        value = dict(sorted({"code": code, "refused": name, **named}.items()))
        assert type(errors.refusal_of(value)) is kind and errors.is_known_shape(value)
    assert codes == set(errors.REFUSALS)


def page_does(desk: Desk, api: Api) -> None:
    """The page's modules, run by Node: they ask for their paths, once each, take each reply, and read each example as what it is."""
    told = [example for example in examples_of(api) if example.path in OF_PAGE]
    first: dict[str, Example] = {}
    for one in told:
        if one.status == 200:
            first.setdefault(one.path, one)
    parts = {
        "/ticket/{ticket}": [first["/ticket/{ticket}"].value["ticket"]],
        "/batch/{day}": [first["/batch/{day}"].value["day"]],
        "/inventory/{customer}/{month}": [7, "2012-02"],
        "/value/{denom}/{issued}/{month}": [50, "2010-11", "2012-02"],
    }
    calls = []
    for path, one in first.items():
        call: dict[str, Any] = {"path": path, "fields": one.fields, "parts": parts.get(path)}
        calls.append({**call, "answer": {"status": 200, "text": one.text}})
    modules = desk.place / "teller"
    shutil.copytree(TOP / "clients/teller", modules, dirs_exist_ok=True)
    (modules / "package.json").write_text('{"type":"module"}')
    plan = {"modules": modules.as_uri(), "calls": calls, "answers": [one._asdict() for one in told]}
    found = json.loads(node(Path(__file__).parent / "api_page.mjs", text=json.dumps(plan)))
    sent = [message_fits(api, one["method"], one["path"], one["body"]) for one in found["sent"]]
    assert sorted(sent) == sorted(OF_PAGE)
    assert all("X-Counter-Client" in one["headers"] for one in found["sent"])
    assert not {"none", "fault", "refused"} & set(found["kinds"])
    for one, answer in zip(told, found["answers"], strict=True):
        kind, code, name = wanted_of(one)
        if kind == "reply":
            others = ("none", "refused", "fault", "unserved", "forbidden")
            assert answer["kind"] not in others, one
        else:
            named = (answer["kind"], answer.get("code"), answer.get("name"))
            assert named == (kind, code, name), one


needs_node = pytest.mark.needs("node")
CHECKS = [python_sends, python_reads, python_refusals, pytest.param(page_does, marks=needs_node)]


@pytest.mark.parametrize("check", CHECKS)
def test_description(desk: Desk, check: Callable[[Desk, Api], None]) -> None:
    check(desk, API)


def schema(api: Api, name: str) -> Any:
    return api["components"]["schemas"][name]


def renamed(api: Api, name: str, old: str, new: str) -> None:
    part = schema(api, name)
    part["properties"][new] = part["properties"].pop(old)
    part["required"] = [new if name == old else name for name in part["required"]]


def with_key(api: Api, status: str, key: str) -> None:
    responses = api["paths"]["/redeem"]["post"]["responses"]
    examples = responses[status]["content"]["application/json"]["examples"]
    next(iter(examples.values()))["value"][key] = 5


CODE: Any = {"code": {"const": 45}}
SENDS: list[Any] = [python_sends, page_does]
READS: list[Any] = [python_reads, page_does]
WRONG: dict[str, tuple[list[Any], Callable[[Api], object]]] = {
    "a field with another name": (SENDS, lambda a: renamed(a, "Redemption", "payee", "customer")),
    "a field more": (SENDS, lambda a: schema(a, "DayRequest")["required"].append("teller")),
    "another path": (SENDS[:1], lambda a: a["paths"].update({"/pay": a["paths"].pop("/redeem")})),
    "a path more": (SENDS[:1], lambda a: a["paths"].update({"/new": a["paths"]["/day/open"]})),
    "least desk 1000": (SENDS, lambda a: schema(a, "Desk").update(minimum=1000, maximum=2000)),
    "a ticket with a key more": (READS, lambda a: with_key(a, "200", "teller")),
    "a refusal with a key more": (READS, lambda a: with_key(a, "409", "zone")),
    "an age": ([python_refusals], lambda a: renamed(a, "RateUnsettled", "month", "age")),
    "another code": ([python_refusals], lambda a: schema(a, "DayFull")["properties"].update(CODE)),
}
CASES = [(what, check) for what, (checks, _) in WRONG.items() for check in checks]


@needs_node
@pytest.mark.parametrize("what, check", CASES)
def test_changed_description(desk: Desk, what: str, check: Callable[[Desk, Api], None]) -> None:
    """Control: a description that is changed by one thing is found."""
    other = copy.deepcopy(API)
    WRONG[what][1](other)
    with pytest.raises((AssertionError, KeyError)):
        check(desk, other)
