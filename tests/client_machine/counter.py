"""A counter of requests alone: it decides a number once, and keeps its one answer."""
import enum
import json
from typing import Any, NamedTuple, Optional

Json = dict[str, Any]
DAY, PAYEE = "2012-02-06", 7


class Fate(enum.Enum):
    DONE = "decided, and answered"
    REFUSED = "decided as refused, and answered"
    LOST = "never there"
    LATE = "there later"
    UNANSWERED = "decided, and the answer lost"
    TWICE = "decided twice, and the second answer comes"
    FAULT = "not read: a fault"
    FORBIDDEN = "not passed on: this user may not"
    DAMAGED = "not read: damaged on its way"
    UNSERVED = "not served"
    SIGNED_OUT = "not passed on: nobody is signed in"
    CUT = "decided, and the answer cut"


class Response(NamedTuple):
    status: int
    text: str


STOPPED = {
    Fate.FAULT: Response(400, '{"code":62,"fault":"BadJson"}'),
    Fate.FORBIDDEN: Response(403, '{"forbidden":"group"}'),
    Fate.DAMAGED: Response(400, '{"code":60,"fault":"BadHead"}'),
    Fate.UNSERVED: Response(503, '{"code":80,"unserved":"NoMemory"}'),
    Fate.SIGNED_OUT: Response(401, ""),
}
REUSED = Response(409, '{"code":10,"refused":"NumberReused"}')


def redemption(act: int) -> tuple[str, Json]:
    return "/redeem", {"day": DAY, "payee": PAYEE, "serials": [f"L{act}EE"]}


def registration(act: int) -> tuple[str, Json]:
    bond = {"serial": f"L{act}EE", "denom": 50, "issued": "2010-05", "owner": PAYEE}
    return "/bonds", {"bonds": [bond]}


def name_of(fields: Json) -> int:
    serial = fields["bonds"][0]["serial"] if "bonds" in fields else fields["serials"][0]
    return int(serial[1:-2])


class Counter:
    """The requests that were decided, by number, each with its answer."""

    def __init__(self) -> None:
        self.kept: dict[int, tuple[str, Response]] = {}
        self.late: list[tuple[str, Json]] = []
        self.acted: dict[int, int] = {}
        self.tickets = 0

    def uses(self, number: int) -> None:
        self.kept.setdefault(number, ("another", Response(200, "{}")))

    def decided(self, path: str, body: Json, refuses: bool) -> Response:
        text = json.dumps([path, {**body, "number": 0}], sort_keys=True)
        number = body["number"]
        if number not in self.kept:
            self.kept[number] = text, self.made(path, body, refuses)
        first, response = self.kept[number]
        return response if first == text else REUSED

    def made(self, path: str, body: Json, refuses: bool) -> Response:
        if refuses:
            return Response(409, '{"code":42,"refused":"NoOpenDay"}')
        act = name_of(body)
        self.acted[act] = self.acted.get(act, 0) + 1
        if path == "/bonds":
            return Response(200, '{"new":1,"same":0}')
        self.tickets += 1
        ticket: Json = {"day": DAY, "payee": PAYEE, "ticket": self.tickets, "total": "30.00"}
        ticket["lines"] = [{"paid": "30.00", "serial": body["serials"][0]}]
        return Response(200, json.dumps(ticket, separators=(",", ":"), sort_keys=True))

    def meets(self, path: str, body: Json, fate: Fate) -> Optional[Response]:
        """A request is sent. Returns what the client gets, None if nothing."""
        if fate in STOPPED:
            return STOPPED[fate]
        if fate is Fate.LOST:
            return None
        if fate is Fate.LATE:
            self.late.append((path, body))
            return None
        response = self.decided(path, body, fate is Fate.REFUSED)
        if fate is Fate.TWICE:
            response = self.decided(path, body, False)
        if fate is Fate.UNANSWERED:
            return None
        return Response(response.status, response.text[:-1]) if fate is Fate.CUT else response

    def late_ones_come(self) -> None:
        for path, body in self.late:
            self.decided(path, body, False)
