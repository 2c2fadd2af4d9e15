"""Who may ask for what, what nginx itself answers, and what its log says."""

import socket
import ssl
from concurrent.futures import ThreadPoolExecutor
from pathlib import Path
from typing import Mapping

import pytest

from tests.fence.site import ANSWER, UNLIMITED, RecordedSite
from tests.fence.site import CLIENT, Answer, Site, answer_in, connected, everything, message, sent

GROUPS = {"anna": "teller", "bert": "supervisor", "cleo": "office", "rita": "registrar"}
GROUPS |= {"dora": "teller registrar", "erik": ""}
QUERIES = "/ticket/1 /batch/2012-02-06 /inventory/7/2012-02 /value/50/2010-11/2012-02".split()
ROUTES = {"POST /redeem": "teller", "POST /rates": "office", "POST /bonds": "registrar"}
ROUTES |= {f"POST /day/{way}": "supervisor" for way in ("open", "close")}
ROUTES |= {f"GET {path}": "any" for path in QUERIES}
#: Names of the eight headers that each answer has, and their values where these stay.
EIGHT = {
    "Strict-Transport-Security": "max-age=63072000",
    "Content-Security-Policy": None,
    "X-Content-Type-Options": "nosniff",
    "Cache-Control": "no-store",
    "Referrer-Policy": "no-referrer",
    "Cross-Origin-Resource-Policy": "same-origin",
    "Cross-Origin-Opener-Policy": "same-origin",
    "X-Request-Id": None,
}


def asked(site: Site, user: str, route: str) -> tuple[int, str]:
    method, path = route.split()
    answer = site.ask(user, method, path, {"number": 1} if method == "POST" else None)
    return answer.status, answer.text


def allowed(site: Site) -> dict[str, set[str]]:
    """The users who are served on each route. All others must be told that it is for the group."""
    served: dict[str, set[str]] = {}
    for route in ROUTES:
        answers = {user: asked(site, user, route) for user in GROUPS}
        served[route] = {user for user, found in answers.items() if found == (200, ANSWER.decode())}
        others = {found for user, found in answers.items() if user not in served[route]}
        assert others <= {(403, '{"forbidden":"group"}')}
    return served


def test_each_group_has_its_own_routes(recorded: RecordedSite) -> None:
    groups = {user: f"{those} {those and 'any'}".split() for user, those in GROUPS.items()}
    wanted = {route: {u for u in groups if ROUTES[route] in groups[u]} for route in ROUTES}
    assert allowed(recorded) == wanted
    entries = {(e["user"], e["route"]) for e in recorded.log() if e["counter"]}
    posts = {route[5:]: users for route, users in wanted.items() if route[0] == "P"}
    assert entries == {(user, route) for route, users in posts.items() for user in users}


def test_control_without_the_check_of_groups_all_are_served(tmp_path: Path) -> None:
    changed = {"default                                       0;": "default 1;"}
    with RecordedSite(tmp_path, GROUPS, {**UNLIMITED, **changed}) as site:
        assert all(users == set(GROUPS) for users in allowed(site).values())


def test_user_says_name_and_groups(recorded: RecordedSite) -> None:
    for user, groups in GROUPS.items():
        assert recorded.ask(user, "GET", "/user").json() == {"user": user, "groups": groups}
    foreign = {**CLIENT, "Sec-Fetch-Site": "cross-site"}
    assert recorded.ask("anna", "GET", "/user", headers=foreign).json() == {"forbidden": "origin"}


def test_nothing_else_is_there(recorded: RecordedSite) -> None:
    recorded.recorder.take()
    paths = "/groups /sign-out /redeem/1 /ratesX /day /day/opened /refused /other /teller/none"
    for path in [*paths.split(), "/teller/../counter.py", "/teller/..%2f..%2fcounter.py"]:
        assert recorded.ask("dora", "GET", path).status in (400, 404), path
    for path in ("/", "/teller"):
        answer = recorded.ask("erik", "GET", path)
        assert answer.status == 302
        assert answer.headers["Location"] == f"https://127.0.0.1:{recorded.port}/teller/"
    assert "<html" in recorded.ask("erik", "GET", "/teller/").text
    assert recorded.ask("erik", "GET", "/teller/bank.js").status == 200
    assert recorded.recorder.take() == []


Header = Mapping[str, str]
CHUNKED = {"Transfer-Encoding": "chunked"}
LONG = "x" * 5000
#: What is sent, and how nginx answers: status and name.
NAMED: list[tuple[str, str, Header, bytes, int, str]] = [
    ("anna", "GET /ticket/1 HTTP/1.1", {"Host": ""}, b"", 400, "request"),
    ("anna", "GET /ticket/1 HTTP/1.1", {"Host": "evil.example"}, b"", 421, "host"),
    ("", "GET /ticket/1 HTTP/1.1", {}, b"", 400, "certificate"),
    ("", "POST /redeem HTTP/1.1", {}, b"{}", 400, "certificate"),
    ("", "GET /teller/ HTTP/1.1", {}, b"", 400, "certificate"),
    ("anna", "GET /ticket/1 HTTP/3.7", {}, b"", 400, "request"),
    ("anna", "TRACE /redeem HTTP/1.1", {}, b"", 400, "request"),
    ("anna", "POST /redeem HTTP/1.1", {"Transfer-Encoding": "gzip"}, b"", 400, "request"),
    ("anna", f"GET /ticket/{LONG} HTTP/1.1", {}, b"", 400, "request"),
    ("anna", "GET /ticket/1 HTTP/1.1", {"X": LONG}, b"", 400, "request"),
    ("anna", "GET /ticket/1 HTTP/1.1", {"Content-Length": "-1"}, b"", 400, "request"),
    ("anna", "POST /redeem HTTP/1.1", {"Sec-Fetch-Site": "same-site"}, b"{}", 403, "origin"),
    ("anna", "POST /redeem HTTP/1.1", {"X-Counter-Client": ""}, b"{}", 403, "client"),
    ("anna", "GET /ticket/1 HTTP/1.1", {"X-Counter-Client": ""}, b"", 403, "client"),
    ("anna", "GET /user HTTP/1.1", {"X-Counter-Client": ""}, b"", 403, "client"),
    ("anna", "POST /redeem HTTP/1.1", {"Content-Type": "text/plain"}, b"{}", 403, "type"),
    ("anna", "POST /redeem HTTP/1.1", {"Content-Type": "application/jsonp"}, b"{}", 403, "type"),
    ("anna", "POST /bonds HTTP/1.1", {}, b"{}", 403, "group"),
    ("erik", "GET /ticket/1 HTTP/1.1", {}, b"", 403, "group"),
    ("anna", "POST /redeem HTTP/1.1", CHUNKED, b"0\r\n\r\n", 411, "chunks"),
    ("anna", "POST /redeem HTTP/1.1", {}, b" " * 10_000, 413, "size"),
    ("cleo", "POST /rates HTTP/1.1", {}, b" " * 131_073, 413, "size"),
]


def answered(site: Site, user: str, line: str, more: Header, body: bytes = b"") -> Answer:
    fields = {"Host": site.name, **CLIENT, "Content-Length": str(len(body)), **more}
    if "Transfer-Encoding" in more:
        del fields["Content-Length"]
    head = [line, *(f"{name}: {value}" for name, value in fields.items() if value)]
    text = "\r\n".join(head).encode() + b"\r\n\r\n" + body
    return answer_in(sent(site, site.context(user), [text], wait=10))


def is_named(answer: Answer, status: int, name: str, key: str = "forbidden") -> bool:
    """Whether this is nginx's own answer in JSON, with the eight headers, each once."""
    is_json = answer.headers.get_content_type() == "application/json"
    found = (answer.status, answer.json()[key], wrong_headers(answer))
    return is_json and found == (status, name, []) and set(answer.json()) <= {key, "message"}


def wrong_headers(answer: Answer) -> list[str]:
    """Those of the eight that aren't there once, with their value."""
    found = {name: answer.headers.get_all(name) or [] for name in EIGHT}
    return [n for n, those in found.items() if len(those) != 1 or EIGHT[n] not in (None, those[0])]


@pytest.mark.parametrize("user, line, more, body, status, name", NAMED)
def test_named_answers(
    recorded: RecordedSite, user: str, line: str, more: Header, body: bytes, status: int, name: str
) -> None:
    recorded.recorder.take()
    answer = answered(recorded, user, line, more, body)
    assert is_named(answer, status, name), (answer.status, answer.text, wrong_headers(answer))
    assert recorded.recorder.take() == []


def test_plain_http_is_answered_by_its_name(recorded: RecordedSite) -> None:
    with socket.create_connection((recorded.name, recorded.port)) as line:
        line.sendall(message(b"GET /ticket/1 HTTP/1.1"))
        assert is_named(answer_in(everything(line)), 400, "request")


def test_each_other_answer_has_the_headers_too(recorded: RecordedSite) -> None:
    paths = ("/", "/teller/", "/teller/none", "/teller/bank.js", "/user", "/ticket/1", "/other")
    answers = [recorded.ask("anna", "GET", path) for path in paths]
    assert [wrong_headers(answer) for answer in answers] == [[]] * len(paths)
    names = {answer.headers["X-Request-Id"] for answer in answers}
    assert len(names) == len(paths) and all(len(name) == 32 for name in names)
    policies = [answer.headers["Content-Security-Policy"] for answer in answers]
    assert all("frame-ancestors 'none'" in policy for policy in policies)


def test_no_counter_repeated_sendings_and_too_many_requests(tmp_path: Path) -> None:
    with RecordedSite(tmp_path, GROUPS, {}) as site:
        named = {"X-Counter-Sending": "one"}
        line = "POST /redeem HTTP/1.1"
        assert answered(site, "anna", line, named).status == 200
        assert is_named(answered(site, "anna", line, named), 429, "repeated")
        assert answered(site, "anna", line, {"X-Counter-Sending": "two"}).status == 200
        assert len(site.recorder.take()) == 2, "the counter never sees the repeat"
        with ThreadPoolExecutor(8) as pool:
            found = list(pool.map(lambda _: answered(site, "anna", line, {}), range(400)))
        late = [answer for answer in found if answer.status != 200]
        assert len(late) > 20 and all(is_named(answer, 429, "rate") for answer in late)
        assert answered(site, "dora", line, {}).status == 200, "another user isn't kept out"
        site.recorder.end()
        assert is_named(answered(site, "dora", line, {}), 502, "counter", "unavailable")


#: What browsers say of a page of another origin, and of pages of the counter's own.
FOREIGN: dict[str, Header] = {
    "cross-site": {"Sec-Fetch-Site": "cross-site"},
    "same-site": {"Sec-Fetch-Site": "same-site"},
    "typed": {"Sec-Fetch-Site": "none"},
    "another origin": {"Origin": "https://evil.example"},
    "another port": {"Origin": "https://127.0.0.1"},
    "another scheme": {"Origin": "http://127.0.0.1:PORT"},
    "hidden": {"Origin": "null"},
    "two origins": {"Origin": "https://127.0.0.1:PORT https://127.0.0.1:PORT"},
    "own and foreign": {"Sec-Fetch-Site": "cross-site", "Origin": "https://127.0.0.1:PORT"},
}
OWN: list[Header] = [
    {},
    {"Sec-Fetch-Site": "same-origin", "Origin": "https://127.0.0.1:PORT"},
    {"Content-Type": "application/json; charset=utf-8"},
]
ROUTE = "POST /redeem HTTP/1.1"


def from_page(site: RecordedSite, mark: Header, line: str = ROUTE) -> Answer:
    port = str(site.port)
    more = {name: value.replace("PORT", port) for name, value in mark.items()}
    return answered(site, "anna", line, {"Host": f"127.0.0.1:{port}", **more}, b"{}")


@pytest.mark.parametrize("mark", FOREIGN.values(), ids=FOREIGN)
def test_a_page_of_another_origin_is_refused(recorded: RecordedSite, mark: Header) -> None:
    recorded.recorder.take()
    for line in (ROUTE, "GET /ticket/1 HTTP/1.1", "GET /user HTTP/1.1"):
        assert is_named(from_page(recorded, mark, line), 403, "origin")
    assert recorded.recorder.take() == []


def test_a_page_of_our_own_and_a_program_are_served(recorded: RecordedSite) -> None:
    assert [from_page(recorded, mark).status for mark in OWN] == [200] * len(OWN)


def test_control_without_the_maps_of_origins_such_a_page_is_served(tmp_path: Path) -> None:
    changed = {'default 0; "" 1; same-origin 1;': "default 1;", 'default 0; "~^ " 1;': "default 1;"}
    with RecordedSite(tmp_path, GROUPS, changed) as site:
        assert [from_page(site, mark).status for mark in FOREIGN.values()] == [200] * len(FOREIGN)


STATIC = ("AES128-SHA", "AES256-SHA256", "AES128-GCM-SHA256", "AES256-GCM-SHA384")


def cipher(site: Site, names: str) -> str | None:
    """The cipher of a connection by TLS 1.2 that offers these; None if there is none."""
    context = site.context("anna")
    context.maximum_version = ssl.TLSVersion.TLSv1_2
    context.set_ciphers(f"{names}:@SECLEVEL=0")
    try:
        with connected(site, context) as line:
            return (line.cipher() or ("",))[0]
    except OSError:
        return None


def test_each_connection_has_a_key_of_its_own(recorded: RecordedSite) -> None:
    """Who gets the server's key later reads nothing of it."""
    assert [cipher(recorded, name) for name in STATIC] == [None] * len(STATIC)
    assert (cipher(recorded, "ALL") or "").startswith("ECDHE-")
