"""sender.js of the tellers' page in Node beside the machine."""
import json
import shutil
import subprocess
from pathlib import Path
from typing import Any, Optional, Sequence

from tests.client_machine.counter import Fate, Json, name_of, redemption, registration
from tests.client_machine import machine as proved
from tests.client_machine.machine import Event, Record, Turn, turn_of
from tests.client_machine.python_client import Edit, Told, answered_kind, edited, record_of

HERE = Path(__file__).resolve().parent
PAGE = HERE.parents[1] / "clients" / "teller"
#: The greatest whole number that JavaScript has.
MOST = 2**53 - 1
REPLIES = ("ticket", "added", "opened", "batch")
NONE_LEFT = "this desk has no numbers left"


def page_in(folder: Path, wasm: Path, edit: Optional[Edit] = None) -> None:
    """Puts the page's rules with page.mjs and the machine into a folder; `edit` makes a wrong page."""
    for path in (*PAGE.glob("*.js"), HERE / "page.mjs", wasm):
        shutil.copy(path, folder)
    (folder / "package.json").write_text('{"type":"module"}')
    (folder / "index.html").write_text('<script type="module" src="page.mjs"></script>')
    if edit is not None:
        edited(folder, edit)


class Node:
    def __init__(self, folder: Path) -> None:
        words, pipe = ["node", str(folder / "page.mjs")], subprocess.PIPE
        self.process = subprocess.Popen(words, stdin=pipe, stdout=pipe, text=True)

    def close(self) -> None:
        self.process.communicate(timeout=10)

    def does(self, command: str, **more: Any) -> None:
        assert self.process.stdin is not None
        self.process.stdin.write(json.dumps({"do": command, **more}) + "\n")
        self.process.stdin.flush()

    def said(self) -> Json:
        assert self.process.stdout is not None
        return dict(json.loads(self.process.stdout.readline()))

    def turn(self, most: int, journal: Record, events: Sequence[Event]) -> Turn:
        texts = [[str(number) for number in event] for event in events]
        self.does("turn", most=str(most), journal=[str(number) for number in journal], events=texts)
        return turn_of([int(number) for number in self.said()["turn"]])


class InBrowser(Node):
    """The same in a browser, with a server of the folder."""

    def __init__(self, folder: Path, name: str, profile: Path) -> None:
        from tests.browser.browser import Browser
        from tests.clients.calculator import Site

        self.site, self.given = Site(folder), list[Json]()
        self.browser = Browser(name, self.site.url, profile)
        self.browser.until(lambda: self.browser.run("return 'exchanged' in window"), "it is there")

    def close(self) -> None:
        self.browser.close()
        self.site.stop()

    def does(self, command: str, **more: Any) -> None:
        self.given.append({"do": command, **more})

    def said(self) -> Json:
        given, self.given = json.dumps(self.given), []
        return dict(json.loads(self.browser.run("return exchanged(arguments[0])", given)))


class PageClient(Told):
    """The page's sender, whose journal is kept here, with the machine beside it."""

    def __init__(self, node: Node, first: int) -> None:
        super().__init__(node, MOST, first)
        self.node = node
        self.record: Json = {"desk": 3, "next": first, "open": None}
        self.start()

    def close(self) -> None:
        """Ends it."""

    def start(self) -> None:
        self.beside.holds(record_of(self.record))
        self.node.does("start", record=self.record)
        assert self.node.said() == {"started": True}

    def wrote(self, record: Json) -> bool:
        """It writes its journal. Returns whether it lives on."""
        self.beside.writes(record_of(record))
        outcome = self.writes.pop(0) if self.writes else "kept"
        if outcome in ("kept", "killed after"):
            self.record = record
        if outcome.startswith("killed"):
            self.beside.happens(proved.KILLED, detail=int(outcome == "killed after"))
            self.start()
            return False
        self.beside.happens(proved.WRITTEN if outcome == "kept" else proved.UNWRITTEN)
        self.node.does("answer", answer=outcome)
        return True

    def sent(self, path: str, body: Json) -> None:
        number, act = body["number"], name_of(body)
        self.beside.sends(number, act)
        fate = self.fates.pop(0) if self.fates else Fate.LOST
        response = self.counter.meets(path, body, fate)
        kind = proved.NOTHING if response is None else answered_kind(*response)
        self.beside.happens(proved.ANSWERED, number, detail=kind)
        self.node.does("answer", answer=None if response is None else response._asdict())

    def called(self) -> Optional[Json]:
        """How a call of the sender ended; None if the page was killed."""
        while True:
            said = self.node.said()
            if "write" in said:
                if not self.wrote(said["write"]):
                    return None
            elif "send" in said:
                self.sent(said["send"]["path"], said["send"]["body"])
            elif "pause" in said:
                if not self.fates and not self.writes:
                    self.beside.happens(proved.KILLED)
                    self.start()
                    return None
                self.node.does("answer", answer="wake")
            else:
                return said

    def ends(self) -> None:
        said = self.called()
        if said is None:
            return
        if "failed" in said:
            self.failed(said["failed"])
            return
        kind = said["ended"]["kind"]
        if kind in REPLIES or kind == "refused":
            self.told(proved.DONE if kind in REPLIES else proved.REFUSED)
        self.node.does("forget")
        if self.called() is not None and kind not in REPLIES and kind != "refused":
            self.told(proved.NOT_DONE)

    def failed(self, why: str) -> None:
        """A call failed: nothing could be written, or no number is left, in which the page stays as it is until it is loaded again."""
        if why == NONE_LEFT:
            if self.beside.turn.action != proved.REFUSE:
                self.beside.happens(proved.GO_ON)
            assert self.beside.turn.action == proved.REFUSE, self.beside.turn
            self.kill()
        else:
            assert why == "unstored", why

    @property
    def is_open(self) -> bool:
        return self.record["open"] is not None

    def submit(self, act: int, follower: int = 0) -> None:
        path, fields = registration(act) if follower else redemption(act)
        then = dict(zip(("path", "fields"), redemption(follower)))
        more: Json = {"then": then} if follower else {}
        self.beside.happens(proved.SUBMIT, act=act, follower=follower)
        if follower and not self.is_open:
            self.followers[follower] = act
        self.node.does("submit", path=path, fields=fields, more=more)
        if self.is_open:
            assert self.beside.turn.action == proved.REFUSE
            assert self.node.said() == {"failed": "a request is open"}
            return
        self.ends()

    def go_on(self) -> None:
        if self.is_open:
            self.node.does("finish")
            self.ends()
        else:
            self.beside.happens(proved.GO_ON)

    def give_up(self) -> None:
        """The page gives nothing up."""

    def kill(self) -> None:
        self.beside.happens(proved.KILLED)
        self.start()
