"""A bank for the tests of its clients: the counter under a supervisor, a gate before it, and nginx over samples/nginx, which serves the page of clients/teller."""

import csv
import datetime
import http.client
import json
import shutil
import sqlite3
import threading
import time
from pathlib import Path
from typing import Any, Iterable, Mapping

from tests.browser.gate import Gate
from tests.conftest import TOP
from tests.fence.site import Site, Texts
from tests.shared.counter_calls import done, end, free_port, serve

PAGE = TOP / "clients" / "teller"
#: A limit of a user's requests that a test doesn't meet.
RATE = {"zone=staff:10m rate=10r/s": "zone=staff:10m rate=1000r/s", "burst=200": "burst=100000"}
USER, GROUPS = "nora", "teller supervisor office registrar"
BANK, BRANCH = "First Bank of Testing", "Main Street"
DAY = "2012-02-06"
#: Has the page read this day as the server's, at the true time of day.
TODAY = """
const real = Headers.prototype.get;
Headers.prototype.get = function (name) {
    const text = real.call(this, name);
    return name === "Date" && text !== null ? text.replace(/[0-9]{2} [A-Z][a-z]{2} [0-9]{4}/, "%s") : text;
};
"""
#: What sound books have none of: a bond paid twice; a ticket that isn't its lines; a batch that isn't its tickets; a paid bond that names another ticket.
NONE_OF = (
    "SELECT letter, number FROM paid GROUP BY letter, number HAVING count(*) > 1",
    "SELECT ticket FROM tickets AS t WHERE (bonds, total) IS NOT (SELECT count(*), sum(cents) FROM paid AS p WHERE p.ticket = t.ticket)",
    "SELECT day FROM batches AS b WHERE (tickets, total) IS NOT (SELECT count(*), coalesce(sum(total), 0) FROM tickets AS t WHERE t.day = b.day)",
    "SELECT p.ticket FROM paid AS p JOIN bonds AS b ON b.letter = p.letter AND b.number = p.number WHERE b.ticket IS NOT p.ticket",
    "SELECT 1 WHERE (SELECT count(*) FROM bonds WHERE ticket IS NOT NULL) != (SELECT count(*) FROM paid)",
)


def released_in(top: Path) -> str:
    return (top / "clients/teller/released.js").read_text().split('"')[1]


def bond(serial: str, denom: int, issued: str, owner: int, **more: int) -> dict[str, Any]:
    return {"serial": serial, "denom": denom, "issued": issued, "owner": owner, **more}


def bonds_of(owner: int, coowner: int = 8) -> list[dict[str, Any]]:
    """Three bonds under serial numbers of the owner's, of which one has a coowner. In February 2012 they are worth 38.07, 25.16 and 5024.00."""
    return [
        bond(f"K{owner}EE", 75, "2010-10", owner, coowner=coowner),
        bond(f"L{owner}EE", 50, "2010-11", owner),
        bond(f"M{owner}EE", 10000, "2011-02", owner),
    ]


#: Bonds of customer 7 that can't be paid in February 2012: younger than 12 months, and not issued yet.
TOO_YOUNG = bond("N7EE", 500, "2011-09", 7)
UNISSUED = bond("Q7EE", 200, "2012-05", 7)
#: One of more than five years, and one with the greatest serial number.
OLDER = bond("P7EE", 1000, "2006-03", 7)
OLDEST = bond("A9999999999EE", 10000, "2005-05", 7)


class Server:
    """`serve` under a supervisor, which starts it again half a second after it ended, as long as it is wanted."""

    def __init__(self, program: Path, store: Path) -> None:
        self.program, self.store = program, store
        self.port, self.wanted, self.pause, self.kills = free_port(), True, 0.5, 0
        self.lock = threading.Lock()
        self.process = serve(program, store, self.port)
        threading.Thread(target=self.supervise, daemon=True).start()

    def supervise(self) -> None:
        while self.wanted:
            self.process.wait()
            time.sleep(self.pause)
            with self.lock:
                if self.wanted:
                    self.process = serve(self.program, self.store, self.port)

    def kill(self) -> None:
        self.kills += 1
        end(self.process)

    def end(self) -> None:
        """At rest: the store is opened and closed once more, which writes its log back. Once is enough."""
        with self.lock:
            if not self.wanted:
                return
            self.wanted = False
        end(self.process)
        done(self.program, "export", "1", "--db", self.store)


class Front(Site):
    """nginx over samples/nginx, with the page of a folder and a log of each request."""

    def __init__(self, folder: Path, port: int, groups: Texts, page: Path, changed: Texts) -> None:
        self.page = page
        super().__init__(folder, f"http://127.0.0.1:{port}", groups, changed=changed)

    def placed(self, text: str, counter: str) -> str:
        logged = f"access_log {self.folder}/log/access.log combined;"
        text = text.replace("include /etc/counter/extra/*/server.conf;", logged)
        for place in ("/opt/counter/teller/", "/etc/counter/page/"):
            text = text.replace(place, f"{self.page}/")
        return super().placed(text, counter)

    def exported(self, user: str) -> Path:
        """The user's certificate and key, as a browser imports them."""
        self.staff.easyrsa("export-p12", user, "nopass")
        return self.staff.folder / "private" / f"{user}.p12"

    def regroup(self, user: str, groups: str) -> None:
        """Gives the user other groups, and waits until nginx has them."""
        self.write_groups({user: groups})
        self.reload()
        for _ in range(600):
            if self.ask(user, "GET", "/user").json()["groups"] == groups:
                return
            time.sleep(0.1)
        raise AssertionError(f"nginx doesn't take the groups {groups} over")


class Books:
    """What stands in a store, read by the stock SQLite while no program uses it."""

    def __init__(self, store: Path) -> None:
        self.database = sqlite3.connect(f"file:{store}?mode=ro", uri=True)
        assert self.rows("PRAGMA integrity_check") == [("ok",)]
        for query in NONE_OF:
            assert self.rows(query) == [], query

    def rows(self, query: str, *values: object) -> list[tuple[Any, ...]]:
        return self.database.execute(query, values).fetchall()

    def one(self, query: str, *values: object) -> Any:
        return self.rows(query, *values)[0][0]

    def tickets(self, columns: str = "payee, bonds, total") -> list[tuple[Any, ...]]:
        return self.rows(f"SELECT {columns} FROM tickets ORDER BY ticket")


class Bank:
    """All of it, in a folder of its own."""

    def __init__(self, program: Path, folder: Path) -> None:
        self.folder = folder
        self.store = folder / "day.db"
        self.server = Server(program, self.store)
        self.gate = Gate(self.server.port, self.server.kill)
        self.users = {USER: GROUPS}
        #: The page, which a test may change.
        self.teller = folder / "teller"
        shutil.copytree(PAGE, self.teller)
        (self.teller / "released.js").write_text('export const RELEASED = "2012-02-01";\n')
        self.write_own()
        self.fronts: list[Front] = []
        self.nginx = self.front("nginx")
        #: The numbers of the requests of desk 900.
        self.number = 0

    def front(self, name: str, changed: Texts = RATE, groups: Texts = {}) -> Front:
        """Another nginx before the gate, and that which pages find from now on."""
        people = {**self.users, **groups}
        made = Front(self.folder / name, self.gate.port, people, self.teller, changed)
        self.fronts.append(made)
        self.port, self.certificate = made.port, made.exported(USER)
        return made

    @property
    def url(self) -> str:
        return f"https://127.0.0.1:{self.port}/teller/"

    def write_own(
        self, words: Mapping[str, object] | None = {}, today: str | None = DAY, ask_above: int = 0
    ) -> None:
        """The bank's own file of the page, with these words. Without any it is one of release 1.0.0. `today` is the server's, or None for the true one."""
        branches = json.dumps([{"name": BRANCH, "from": 1, "to": 9}])
        lines = [f"export const BANK = {json.dumps(BANK)};", f"export const BRANCHES = {branches};"]
        old = "export function branchOf(desk) {}"
        lines.append(old if words is None else f"export const WORDS = {json.dumps(words)};")
        if ask_above:
            lines.append(f"export const ASK_ABOVE = {ask_above};")
        if today is not None:
            lines.append(TODAY % datetime.date.fromisoformat(today).strftime("%d %b %Y"))
        (self.teller / "bank.js").write_text("\n".join(lines) + "\n")

    def change_page(self, file: str, *changes: tuple[str, str]) -> None:
        """Texts of a file of the page, each of which is there once, are others."""
        text = (self.teller / file).read_text()
        for old, new in changes:
            assert text.count(old) == 1, f"{old!r} isn't once in {file}"
            text = text.replace(old, new)
        (self.teller / file).write_text(text)

    def ask(self, method: str, path: str, value: object = None) -> tuple[int, str]:
        """Straight to the counter, past nginx and the gate: the status and the answer."""
        client = http.client.HTTPConnection("127.0.0.1", self.server.port, timeout=120)
        body = None if value is None else json.dumps(value).encode()
        client.request(method, path, body, {"Connection": "close"})
        response = client.getresponse()
        text = response.read().decode()
        client.close()
        return response.status, text

    def expect(self, status: int, path: str, value: object) -> dict[str, Any]:
        """Posts it, and wants an answer of that status; the answer."""
        found, text = self.ask("POST", path, value)
        assert found == status, f"{path} was answered {found} {text}"
        return dict(json.loads(text))

    # ---- what desk 900 does

    def does(self, path: str, **fields: Any) -> dict[str, Any]:
        self.number += 1
        return self.expect(200, path, {"desk": 900, "number": self.number, **fields})

    def begin(self, owners: Iterable[int] = (7, 9, 11), day: str | None = DAY) -> None:
        """The rates, the bonds of these owners, and perhaps an open day."""
        with open(TOP / "crates/published_values/data/rates.csv", encoding="utf-8") as file:
            self.does("/rates", rates=list(csv.DictReader(file)))
        for owner in owners:
            self.registers(*bonds_of(owner))
        if day is not None:
            self.opens(day)

    def registers(self, *bonds: dict[str, Any]) -> None:
        for first in range(0, len(bonds), 500):
            self.does("/bonds", bonds=bonds[first : first + 500])

    def registers_many(self, owner: int, count: int, letter: str = "S") -> None:
        """Bonds S1EE, S2EE .. of $50, worth 25.16 in February 2012."""
        numbers = range(1, count + 1)
        self.registers(*(bond(f"{letter}{n}EE", 50, "2010-11", owner) for n in numbers))

    def opens(self, day: str) -> None:
        self.does("/day/open", day=day)

    def closes(self, day: str) -> None:
        self.does("/day/close", day=day)

    def pays(self, owner: int, *serials: str, day: str = DAY) -> None:
        self.does("/redeem", day=day, payee=owner, serials=serials)

    # ---- the end

    def books(self) -> Books:
        """The books at rest: the server ends."""
        self.server.end()
        return Books(self.store)

    def end(self) -> None:
        for front in self.fronts:
            front.end()
        self.gate.close()
        self.server.end()
