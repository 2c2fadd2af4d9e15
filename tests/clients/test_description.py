"""docs/openapi.json as a program follows it: a client that Debian's OpenAPI::Client (libopenapi-client-perl) makes of it
pays bonds, through nginx and at the counter's own port, and each answer is one that the description has."""

import copy
import json
import subprocess
from pathlib import Path
from typing import Any, Iterator, Mapping, NamedTuple

import jsonschema
import pytest

from tests.conftest import TOP
from tests.fence.conftest import Counter, MakeSite, counter, site
from tests.fence.site import Site
from tests.fence.test_groups import NAMED

__all__ = ["counter", "site"]
DESCRIPTION = json.loads((TOP / "docs/openapi.json").read_text())
CALL = Path(__file__).parent / "description_parts/call.pl"
DAY = {"day": "2012-02-06"}
#: A number that 32 bits don't hold.
NUMBER = 5_000_000_000
needs_client = pytest.mark.needs(
    "perl", "file:/usr/share/perl5/OpenAPI/Client.pm", "file:/usr/share/perl5/IO/Socket/SSL.pm"
)


class Reply(NamedTuple):
    status: int
    body: Any
    headers: Mapping[str, str]


def earlier(value: Any) -> Any:
    """The same description in OpenAPI 3.0, the version that the client's generator reads."""
    if isinstance(value, list):
        return [earlier(one) for one in value]
    if not isinstance(value, dict):
        return value
    made = {name: earlier(one) for name, one in value.items() if not name.startswith("x-")}
    if "const" in made and isinstance(made["const"], (str, int)):
        made["enum"] = [made.pop("const")]
    if isinstance(made.get("type"), list):
        made.update(type=made["type"][0], nullable=True)
    if {"type": "null"} in made.get("oneOf", ()):
        made["oneOf"].remove({"type": "null"})
        made["nullable"] = True
    if isinstance(made.get("examples"), list) or "type" in made:
        made.pop("examples", None)
    made.pop("security", None)
    made.pop("securitySchemes", None)
    return made


class Client:
    def __init__(self, folder: Path, url: str, described: Any, *trust: object) -> None:
        self.file = folder / f"description{len(list(folder.iterdir()))}.json"
        self.file.write_text(json.dumps({**earlier(described), "openapi": "3.0.3"}))
        self.words = ["perl", str(CALL), str(self.file), url, *map(str, trust)]

    def call(self, operation: str, body: Mapping[str, Any] | None = None, **more: Any) -> Reply:
        parameters: dict[str, Any] = {"X-Counter-Client": "generated", **more}
        if body:
            parameters["body"] = body
        line = json.dumps([operation, parameters]) + "\n"
        ran = subprocess.run(self.words, input=line, capture_output=True, text=True, timeout=120)
        assert (ran.returncode, ran.stderr) == (0, "")
        status, text, headers = json.loads(ran.stdout)
        return Reply(status, json.loads(text) if text.startswith("{") else text, headers)


def through(site: Site, user: str, folder: Path, described: Any = DESCRIPTION) -> Client:
    trust = (site.staff.certificate(user), site.folder / "certificate.pem")
    return Client(folder, f"https://{site.name}:{site.port}", described, *trust)


def operation_of(name: str) -> Any:
    """The operation of an operationId, or of a path and a method."""
    for path, item in DESCRIPTION["paths"].items():
        for method, operation in item.items():
            if name in (operation["operationId"], f"{method.upper()} {path}"):
                return operation
    raise KeyError(name)


def response_of(operation: Any, status: int) -> Any:
    found = operation["responses"][str(status)]
    name = found.get("$ref", "").rpartition("/")[2]
    return DESCRIPTION["components"]["responses"][name] if name else found


def check(operation: Any, reply: Reply) -> None:
    content = response_of(operation, reply.status)["content"]
    media = reply.headers["Content-Type"]
    schema = {"allOf": [content[media]["schema"]], "components": DESCRIPTION["components"]}
    jsonschema.Draft202012Validator(schema).validate(reply.body)


def pay(client: Client, supervisor: Client) -> None:
    """Opens a day, pays a bond, repeats the request, and asks for the ticket, each checked by the description."""
    opened = supervisor.call("openDay", {"number": 1, **DAY})
    assert (opened.status, opened.body) == (200, {"opened": "2012-02-06"})
    request = {"desk": 7, "number": NUMBER, **DAY, "payee": 7, "serials": ["L1EE"]}
    paid = client.call("redeem", request)
    assert paid.status == 200 and paid.body["lines"][0]["serial"] == "L1EE", paid
    check(operation_of("redeem"), paid)
    assert client.call("redeem", request).body == paid.body
    refused = client.call("redeem", {**request, "number": NUMBER + 1})
    assert (refused.status, refused.body["refused"]) == (409, "AlreadyPaid")
    check(operation_of("redeem"), refused)
    ticket = client.call("ticket", ticket=paid.body["ticket"])
    assert ticket.body == paid.body
    sheet = client.call("inventory", customer=7, month="2012-02")
    check(operation_of("inventory"), sheet)
    assert sheet.status == 200 and "L1EE" not in sheet.body


@needs_client
@pytest.mark.nginx
def test_generated_client_pays_through_nginx(site: MakeSite, folder: Path) -> None:
    front = site()
    pay(through(front, "anna", folder), through(front, "bert", folder))
    assert [it["user"] for it in front.log()] == ["bert", "anna", "anna", "anna"]


@needs_client
def test_generated_client_pays_at_the_port(counter: Counter, folder: Path) -> None:
    client = Client(folder, counter.url, DESCRIPTION)
    pay(client, client)


@needs_client
@pytest.mark.nginx
def test_generated_client_needs_the_header(site: MakeSite, folder: Path) -> None:
    """Control: a client of a description without the header is refused by nginx."""
    described = copy.deepcopy(DESCRIPTION)
    for item in described["paths"].values():
        for operation in item.values():
            operation["parameters"].remove({"$ref": "#/components/parameters/Client"})
    client = through(site(), "anna", folder, described)
    with pytest.raises(AssertionError, match="{'forbidden': 'client'}"):
        pay(client, through(site(), "bert", folder))


#: What nginx answers by itself, as tests/fence/test_groups.py sees it.
OF_NGINX = {(status, "forbidden", name) for *_, status, name in NAMED}
OF_NGINX |= {(429, "forbidden", name) for name in ("repeated", "rate")}
OF_NGINX |= {(502, "unavailable", "counter")}


@pytest.mark.parametrize("status, key, name", sorted(OF_NGINX))
def test_refusals_of_nginx_are_described(status: int, key: str, name: str) -> None:
    operation = operation_of("redeem")
    check(operation, Reply(status, {key: name}, {"Content-Type": "application/json"}))
    assert "X-Request-Id" in response_of(operation, status)["headers"]


def test_an_undescribed_status_is_found() -> None:
    """Control: an answer of a status that the description lacks, and a body that is none of its schema."""
    headers = {"Content-Type": "application/json"}
    with pytest.raises(KeyError):
        check(operation_of("redeem"), Reply(418, {"forbidden": "client"}, headers))
    with pytest.raises(jsonschema.ValidationError):
        check(operation_of("redeem"), Reply(403, {"forbidden": "tea"}, headers))


def schemas(value: Any, place: str = "") -> Iterator[tuple[str, Any]]:
    if isinstance(value, dict):
        if isinstance(value.get("type"), (str, list)):
            yield place, value
        for name, one in value.items():
            yield from schemas(one, f"{place}/{name}")
    elif isinstance(value, list):
        for number, one in enumerate(value):
            yield from schemas(one, f"{place}/{number}")


def test_numbers_say_their_width() -> None:
    """A generator makes 32 bits of an integer without a format."""
    whole = [(place, it) for place, it in schemas(DESCRIPTION) if "integer" in it["type"]]
    assert len(whole) > 10
    assert [place for place, it in whole if it.get("format") != "int64"] == []


def test_both_servers_are_there() -> None:
    schemes = [server["url"].partition(":")[0] for server in DESCRIPTION["servers"]]
    assert schemes == ["https", "http"]
    assert DESCRIPTION["components"]["securitySchemes"]["certificate"]["type"] == "mutualTLS"
    assert DESCRIPTION["security"] == [{"certificate": []}, {}]
