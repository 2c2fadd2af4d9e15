"""What a restore begins with, what it would do, and doing it: all or nothing.

Every source is read, copied into a room that only this user reads, and verified. Nothing else is
written before a store takes its place."""
from __future__ import annotations

import contextlib
import ctypes
import fcntl
import glob
import http.client
import json
import os
import shutil
import signal
import socket
import sqlite3
import struct
import subprocess
import sys
import tempfile
import time
from typing import Any, Iterator, NamedTuple

import archives
from archives import Archive, Refused, Request, Source, tell
from logs import Asked, Logs, in_order, path_and_body

#: The names of rooms begin with this and the number of their process.
ROOM, MEMORY = "counter-restore-", "/dev/shm"
#: What is left of copies that were not ended begins with these.
PARTIAL = (".", "part-", "refused-", "opened-")


class Served(NamedTuple):
    """A process that serves from the store. `is_gone` if the path no longer names its file."""

    process: int
    file: str
    log: str | None
    is_gone: bool


@contextlib.contextmanager
def room(folder: str | None, needed: int, beside: str) -> Iterator[str]:
    """A folder that only this user reads, and that is removed at the end: in memory if there is
    room, otherwise next to the store. Removes those of processes that were killed."""
    for path in (path for place in (MEMORY, beside) for path in glob.glob(f"{place}/{ROOM}*")):
        if not os.path.exists(f"/proc/{os.path.basename(path)[len(ROOM) :].split('-')[0]}"):
            shutil.rmtree(path, ignore_errors=True)
    if folder is None:
        folder = MEMORY if shutil.disk_usage(MEMORY).free > 3 * needed + (64 << 20) else beside
    require_room(folder, 2 * needed)
    with tempfile.TemporaryDirectory(prefix=f"{ROOM}{os.getpid()}-", dir=folder) as made:
        yield made


def require_room(folder: str, needed: int) -> None:
    free = shutil.disk_usage(folder).free
    if free < needed:
        have = f"{needed >> 10} KiB are needed, and {free >> 10} are free"
        raise Refused(f"{folder} has no room: {have}")


def say(text: str) -> None:
    """Says on a terminal what it does now."""
    if sys.stderr.isatty():
        tell(f"counter-restore {text}")


def served(store: str) -> Served | None:
    """The process that has the store's file open to write it, or had it before it was deleted."""
    for process in glob.glob("/proc/[0-9]*"):
        found = {}
        for link in glob.glob(f"{process}/fd/*"):
            with contextlib.suppress(OSError):
                with open(link.replace("/fd/", "/fdinfo/"), encoding="ascii") as file:
                    flags = next(line.split()[1] for line in file if line.startswith("flags:"))
                if int(flags, 8) & os.O_ACCMODE == os.O_RDWR:
                    found[os.readlink(link).removesuffix(" (deleted)")] = link
        if store in found and process != f"/proc/{os.getpid()}":
            with contextlib.suppress(OSError):
                held, is_there = os.stat(found[store]), os.path.exists(store)
                is_gone = not is_there or not os.path.samestat(held, os.stat(store))
                return Served(int(process[6:]), found[store], found.get(store + "-wal"), is_gone)
    return None


@contextlib.contextmanager
def paused(one: Served | None) -> Iterator[None]:
    """Stops a process that serves a deleted file, whose later payments would be lost."""
    if one:
        os.kill(one.process, signal.SIGSTOP)
    try:
        yield
    finally:
        with contextlib.suppress(ProcessLookupError):
            if one:
                os.kill(one.process, signal.SIGCONT)


class Sources:
    """Paths by kind, why an archive isn't used, and the highest row that any source names."""

    def __init__(self) -> None:
        self.archives, self.copies = list[str](), list[str]()
        self.logs, self.machines = list[str](), list[str]()
        self.faults, self.whole, self.most = dict[str, str](), dict[str, Archive](), 0

    def sort(self, path: str, depth: int = 2) -> None:
        """Puts a path among the sources of its kind, or what is in it."""
        if os.path.isdir(path):
            names = sorted(os.listdir(path), reverse=True)
            files = [name for name in names if name.endswith(".db") and name != archives.FIRST]
            if {archives.LINES, archives.END, archives.FIRST} & set(names):
                self.archives.append(path)
                return
            inner = [name for name in names if depth and not name.startswith(PARTIAL)]
            self.copies += [os.path.join(path, name) for name in files]
            for name in inner if not files else ():
                self.sort(os.path.join(path, name), depth - 1)
            return
        with open(path, "rb") as file:
            start = file.read(512)
        is_tar, is_copy = start[257:262] == b"ustar", start.startswith(b"SQLite format 3\0")
        (self.machines if is_tar else self.copies if is_copy else self.logs).append(path)

    def longest(self) -> Archive | None:
        """The archive that reaches furthest, with every line tested."""
        for folder in self.archives:
            say(f"reads {folder}")
            try:
                end = os.path.join(folder, archives.END)
                with contextlib.suppress(OSError, Refused), open(end, encoding="ascii") as file:
                    self.most = max(self.most, archives.end_in(file.read(), folder)["row"])
                archive = Archive(folder)
                archive.check()
                self.whole[folder] = archive
            except (Refused, OSError) as fault:
                self.faults[folder] = str(fault)
        best = max(self.whole.values(), key=lambda archive: archive.last_row, default=None)
        for folder, archive in self.whole.items():
            if best and best.checksum_of(archive.end["row"]) != archive.end["checksum"]:
                parted = f"{folder} isn't a front of {best.folder}: they have different histories"
                raise Refused(f"{parted}. Name the right one by --from")
        return best


class Begun:
    """A store to continue from, in a folder of the room. Without a file it begins with nothing."""

    def __init__(self, name: str, folder: str) -> None:
        self.name, self.path, self.rows, self.fault = name, os.path.join(folder, "day.db"), 0, ""
        os.mkdir(folder)

    def take(self, file: str, log: str | None, program: str, archive: Archive | None) -> None:
        """Copies a store, and tests it. The program opens it, and tests every row."""
        say(f"tests {self.name}")
        try:
            for source, end in ((file, ""), (log, "-wal")):
                if source and os.path.exists(source):
                    archives.copy(source, self.path + end)
            if os.path.getsize(self.path) == 0:
                raise Refused("its file is empty")
            if log:
                with archives.opened(self.path) as store:
                    archives.refuse_older_log(self.path, store.last())
            refused = opened_by(program, self.path)
            if refused:
                raise Refused(f"the program refuses it: {refused}")
            with archives.opened(self.path) as store:
                self.rows = store.count()
                begins = archive.head["row"] if archive else 0
                if self.rows < begins:
                    has = f"it has {self.rows} requests"
                    raise Refused(f"{has}, and the archive begins with a copy that has {begins}")
                if archive:
                    rows = archive.rows(os.path.dirname(self.path))
                    archives.refuse_differing(store, 0, rows, archive.folder)
        except FileNotFoundError:
            is_there = log and os.path.exists(log)
            self.fault = "its file is missing" + (", and its log is there" if is_there else "")
        except (Refused, sqlite3.Error) as fault:
            self.fault = str(fault)

    def requests(self, archive: Archive | None) -> Iterator[Request]:
        """All requests of the store, then those that the archive has more."""
        if self.rows:
            with archives.opened(self.path) as store:
                yield from store.requests()
        for request in archive.rows(os.path.dirname(self.path)) if archive else ():
            if request.row > self.rows:
                yield request


NEW_USER, NEW_NETWORK, SET_FLAGS, UP_AND_RUNNING = 0x10000000, 0x40000000, 0x8914, 0x41


def end_with_parent() -> None:
    """The program ends if this process is killed: prctl(2), PR_SET_PDEATHSIG."""
    ctypes.CDLL(None).prctl(1, signal.SIGKILL)


def opened_by(program: str, store: str) -> str | None:
    """Why the program refuses a store, or None. It tests every row, and writes the log back."""
    nothing, words = subprocess.DEVNULL, [program, "apply", "--db", store, "--explain"]
    ran = subprocess.run(words, stdin=nothing, stdout=nothing, stderr=subprocess.PIPE)
    said = ", ".join(ran.stderr.decode(errors="replace").split("\n")[:2])
    return said or f"status {ran.returncode}" if ran.returncode else None


def into_own_network() -> None:
    """Brings this process into a network of its own, which nothing else reaches, with loopback."""
    user, group = os.getuid(), os.getgid()
    kinds = NEW_NETWORK if user == 0 else NEW_NETWORK | NEW_USER
    if ctypes.CDLL(None, use_errno=True).unshare(kinds) != 0:
        raise OSError(ctypes.get_errno(), "the restore needs a network of its own: run it as root")
    if user != 0:
        maps = {"uid_map": f"{user} {user} 1", "gid_map": f"{group} {group} 1"}
        for name, text in {"setgroups": "deny", **maps}.items():
            with open(f"/proc/self/{name}", "w") as file:
                file.write(text)
    with socket.socket() as any_socket:
        fcntl.ioctl(any_socket, SET_FLAGS, struct.pack("16sh14x", b"lo", UP_AND_RUNNING))


class Carrier:
    """The program over a store, and a client that sends it one request after the other."""

    def __init__(self, program: str, store: str) -> None:
        into_own_network()
        words = [program, "serve", "--db", store, "--port", "8377", "--explain"]
        how: dict[str, Any] = {"stdout": subprocess.DEVNULL, "stderr": subprocess.PIPE}
        self.process = subprocess.Popen(words, preexec_fn=end_with_parent, **how)
        self.client = http.client.HTTPConnection("127.0.0.1", 8377)

    def answer(self, path: str, body: str) -> tuple[int, str]:
        """Status and body of a response. The program listens once it has opened the store."""
        sent = body.encode("utf-8", "surrogateescape")
        while True:
            try:
                self.client.request("POST", path, sent)
                with self.client.getresponse() as response:
                    text = response.read().decode()
                break
            except (OSError, http.client.HTTPException) as fault:
                self.client.close()
                is_refused = isinstance(fault, ConnectionRefusedError)
                if not is_refused or self.process.poll() is not None:
                    said = self.end(5) or str(fault)
                    status = self.process.returncode
                    raise OSError(f"the program ended with status {status}: {said}") from fault
                time.sleep(0.01)
        if response.status == 503:
            raise OSError(f"the program answers {text}")
        return response.status, text

    def end(self, patience: float = 0) -> str:
        """Ends the program, and returns what it said."""
        self.client.close()
        with contextlib.suppress(subprocess.TimeoutExpired):
            self.process.wait(patience)
        self.process.terminate()
        return str(self.process.communicate()[1].decode(errors="replace").strip())


SUMS = "SELECT count(*), ifnull(sum(bonds), 0), printf('%d.%02d', sum(total)/100, sum(total)%100)"
#: What a report says of the books.
BOOKS = {
    "Requests in the store": "SELECT count(*) FROM answers",
    "Last ticket": "SELECT ifnull(max(ticket), 'none') FROM tickets",
    "Open day": "SELECT ifnull(date(day * 86400, 'unixepoch'), 'none') FROM desk",
    "  its tickets, bonds, total": f"{SUMS} FROM tickets WHERE day = (SELECT day FROM desk)",
    "Batches, their bonds, total": f"{SUMS} FROM batches",
    "Tickets in all": "SELECT count(*) FROM tickets",
}
DRILL = "a drill: as if the store were lost"
SIGN_HERE = "Compared with the last ticket on paper by: ______________________   Date: ____________"


class Plan:
    """What was found, and what follows from it. `rows` are those of the longest archive."""

    def __init__(self, program: str, store: str, sources: Sources, folder: str) -> None:
        self.program, self.store, self.sources, self.folder = program, store, sources, folder
        self.begun_at, self.archive = time.monotonic(), sources.longest()
        self.rows = self.archive.last_row if self.archive else 0
        self.found, self.own = list[Begun](), Begun("no store", os.path.join(folder, "own"))
        self.disasters, self.lacks, self.place_fault = list[str](), list[str](), ""

    def new(self, name: str) -> Begun:
        self.found.append(Begun(name, os.path.join(self.folder, str(len(self.found)))))
        return self.found[-1]

    def take(self, name: str, file: str, log: str | None) -> Begun:
        begun = self.new(name)
        begun.take(file, log, self.program, self.archive)
        return begun

    def look(self, process: Served | None, place: str | None) -> None:
        """Chooses what to continue from, and reads the logs. A drill has no place of an archive."""
        if process:
            number = process.process
            self.take(f"the deleted file, from process {number}", process.file, process.log)
            self.disasters.append(f"the store was deleted, and process {number} still serves it")
        elif place:
            store, log = self.store, self.store + "-wal"
            self.own = self.take(store, store, log)
            self.disasters += [f"the store can't be served: {self.own.fault}"] * bool(
                self.own.fault
            )
            if self.own.fault and os.path.exists(store) and os.path.exists(log):
                self.take(f"{store} without its log", store, None)
        if max((one.rows for one in self.found if not one.fault), default=-1) < max(1, self.rows):
            copies = (self.take(path, path, path + "-wal") for path in self.sources.copies)
            next((one for one in copies if not one.fault), None)
        if all(one.fault for one in self.found):
            first, name = self.archive and self.archive.first(), "the archive's first copy"
            self.take(name, first, first + "-wal") if first else self.new("nothing")
        usable = [one for one in self.found if not one.fault]
        if not usable:
            faults = (f"\n  {one.name}: {one.fault}" for one in self.found)
            raise Refused("no store, copy or archive can be gone on from:" + "".join(faults))
        self.base = max(usable, key=lambda one: one.rows)
        self.read_logs()
        if not self.base.rows and not self.todo:
            raise Refused("\n  ".join(["no source has a request", *self.sources.faults.values()]))
        if self.base is self.own and self.todo:
            missing = f"{self.todo} requests that were done are missing"
            again = "and what they paid could be paid again"
            self.disasters.append(f"the store is of an earlier moment: {missing}, {again}")
        if place and os.path.isdir(os.path.dirname(place)):
            self.look_at_place(place)
        self.is_store_whole = self.base is self.own and not self.todo
        self.is_whole = self.is_store_whole and not self.place_fault and not self.lacks

    def read_logs(self) -> None:
        """What the logs have, and the store and the archive lack, in the order in which it acts."""
        logs, next_ticket, count = Logs(self.sources.logs), 1, 0
        self.notes = logs.notes
        self.until = max((one.time for one in logs.asked.values()), default="")
        for request in self.base.requests(self.archive):
            count += 1
            if '"lines":[' in request.reply:
                next_ticket = max(next_ticket, json.loads(request.reply)["ticket"] + 1)
            one = logs.asked.pop((request.desk, request.number), None)
            if one and one.reply not in (None, request.reply):
                raise Refused(differing(one, request.reply))
        self.chosen, self.waiting = in_order(list(logs.asked.values()), next_ticket)
        self.todo = max(0, self.rows - self.base.rows) + len(self.chosen)
        self.total, most = count + len(self.chosen), self.sources.most
        if most > self.total:
            together = f"one source had {most}, and all together give {self.total}"
            self.lacks.append(f"{most - self.total} requests: {together}")

    def look_at_place(self, place: str) -> None:
        """Whether the archive's place has what the longest archive has."""
        if self.archive is None and place not in self.sources.faults:
            return
        try:
            found = Archive(place)
            found.check()
            row, wanted = found.end["row"], found.end["checksum"]
            if self.archive and self.archive.checksum_of(row) != wanted:
                self.place_fault = f"the archive {place} has another history"
            elif self.archive and row < self.rows:
                self.place_fault = f"the archive {place} is behind {self.archive.folder}"
        except (Refused, OSError) as fault:
            self.place_fault = f"the archive can't be used: {fault}"
        self.disasters += [self.place_fault] if self.place_fault else []

    def looked_at(self) -> Iterator[str]:
        for one in self.found:
            if one.name != "nothing":
                has = f"{one.rows} requests, and the program opens it"
                yield f"{one.name}: {one.fault or has}"
        for folder, archive in self.sources.whole.items():
            has = f"{archive.last_row} requests, every line is right"
            yield f"{folder}: {has}, up to {archive.end['time']}"
        for folder, fault in self.sources.faults.items():
            yield f"{folder}: refused: {fault}"
        for path in self.sources.logs:
            yield f"{path}: a log of requests"

    def steps(self) -> Iterator[str]:
        rows, end, folder = self.base.rows, "the copy", ""
        if self.archive:
            end, folder = self.archive.end["time"], self.archive.folder
        begin, more = f"begin with {self.base.name}, with {rows} requests", self.rows - rows
        for is_so, text in (
            (True, f"To do:    {begin if rows else 'make a new store'}"),
            (more > 0, f"To do:    do the {more} requests that {folder} has more"),
            (self.chosen, f"To do:    do the {len(self.chosen)} requests that the logs have more"),
            (self.place_fault, "To do:    put the archive in its place"),
            (self.archive, f"Sure:     every request up to {end}"),
            (self.until, f"Sure:     the logs' requests up to {self.until}"),
            (not self.until, f"Not sure: what came after {end}: there is no log of requests"),
        ):
            yield from [text] if is_so else []
        yield from (f"Missing:  {text}" for text in self.lacks)

    def told(self, is_drill: bool) -> str:
        lines = ["Looked at:", *(f"  {line}" for line in self.looked_at())]
        if self.is_whole and not is_drill:
            all_of_them = f"all {self.total} requests that any source has"
            return "\n".join([*lines, f"Nothing is missing: the store has {all_of_them}."])
        lines += [f"Disaster: {text}" for text in ([DRILL] if is_drill else self.disasters)]
        return "\n".join([*lines, *self.steps()])

    def build(self) -> str:
        """The restored store, at rest in the room. Every reply is the one that was given."""
        path = self.base.path
        if self.todo:
            carrier = Carrier(self.program, path)
            try:
                self.replay(carrier)
            finally:
                carrier.end()
            if fault := opened_by(self.program, path):
                raise OSError(fault)
        elif os.path.exists(path + "-wal"):
            os.remove(path + "-wal")
        with archives.opened(path) as store:
            if store.count() != self.total:
                has = f"{store.count()} requests, and not {self.total}"
                raise OSError(f"the restored store has {has}")
        return path

    def wanted(self) -> Iterator[Asked]:
        """What the restored store has more than the one that it begins with."""
        for row in self.archive.rows(self.folder) if self.archive else ():
            if self.archive and row.row > self.base.rows:
                path, body = path_and_body(row.desk, row.number, row.act)
                source, key = f"{self.archive.folder}, row {row.row}", (row.desk, row.number)
                yield Asked(*key, path, body, row.reply, None, 0, row.time, source)
        yield from self.chosen

    def replay(self, carrier: Carrier) -> None:
        """Does every request, and says every few seconds how far it is, and how long it takes."""
        begun, pause = time.monotonic(), 2.0 if sys.stderr.isatty() else 10.0
        said = begun
        for done, one in enumerate(self.wanted(), 1):
            status, reply = carrier.answer(one.path, one.body)
            is_other = one.reply is None and one.status not in (None, status)
            if one.reply not in (None, reply) or is_other:
                raise Refused(differing(one, reply))
            if time.monotonic() - said >= pause:
                said = time.monotonic()
                left = (said - begun) / done * (self.todo - done)
                tell(f"{done} of {self.todo} requests, {left:.0f} seconds left")


def differing(one: Asked, now: str) -> str:
    """How a request's reply in a log or an archive differs from another one."""
    had = f"had the reply\n  {one.reply or f'of status {one.status}'}\nin {one.source}"
    return f"a reply differs: desk {one.desk}, number {one.number} {had}, and now\n  {now}"


def put_aside(paths: list[str], beside: str, like: os.stat_result) -> str:
    """Moves what is there into a new folder, and returns it; empty if nothing is there."""
    there = [path for path in paths if os.path.lexists(path)]
    if not there:
        return ""
    aside = f"{beside}.before-{time.strftime('%Y-%m-%dT%H-%M-%S')}-{os.getpid()}"
    os.mkdir(aside)
    give(aside, like, 0o700)
    for path in there:
        os.rename(path, os.path.join(aside, os.path.basename(path)))
    return aside


def put_in_place(built: str, store: str) -> str:
    """Moves the old store aside, and the restored one into its place, whole on the disk and with the
    rights of its folder. Returns where the old one is. A stop in between leaves no store or the
    restored one, and never an old one."""
    folder, new = os.path.dirname(store), store + ".restored"
    require_room(folder, os.path.getsize(built))
    if archives.copied(open(built, "rb"), new) != archives.file_checksum(built):
        raise OSError(f"{new} has other bytes than were written")
    give(new, os.stat(folder), 0o600)
    old = [store + end for end in ("", "-wal", "-journal", "-shm")]
    aside = put_aside(old, store, os.stat(folder))
    os.rename(new, store)
    archives.sync_folder(folder)
    return aside


def give(path: str, like: os.stat_result, mode: int, user: int | None = None) -> None:
    os.chmod(path, mode)
    if os.getuid() == 0:
        os.chown(path, like.st_uid if user is None else user, like.st_gid)


def refill(plan: Plan, place: str) -> Iterator[str]:
    """Puts the longest archive into its place, readable by the store's group."""
    if not plan.place_fault:
        return
    new, owner = place + ".restored", os.stat(os.path.dirname(plan.store))
    shutil.rmtree(new, ignore_errors=True)
    os.mkdir(new)
    if plan.archive:
        archives.bring(Source(plan.archive.folder), new)
    for name in os.listdir(new):
        give(os.path.join(new, name), owner, 0o640, 0)
    give(new, owner, 0o2750, 0)
    aside = put_aside([place], place, owner)
    if aside:
        yield f"The archive that was there is in {aside}"
    os.rename(new, place)
    archives.sync_folder(os.path.dirname(place))
    has = f"has {plan.rows} requests" if plan.archive else "is empty: the archiver begins again"
    yield f"The archive's place {place} {has}"


def report(plan: Plan, path: str, note: str) -> str:
    by_time = sum(1 for one in plan.chosen if one.reply is None)
    lines = [
        f"Restored: {plan.store}",
        f"On: {archives.now()}, in {time.monotonic() - plan.begun_at:.1f} seconds; {note}",
        "",
        f"Requests that it went on from:     {plan.base.rows}",
        f"Done of the archive, same reply:   {max(0, plan.rows - plan.base.rows)}",
        f"Done of the logs, same reply:      {len(plan.chosen) - by_time}",
    ]
    if by_time:
        compare = f"{by_time} (compare their tickets with the paper)"
        lines += [f"  without a reply to compare:      {compare}"]
    lines += ["Replies that differ:               0", ""]
    with archives.opened(path) as store:
        for name, statement in BOOKS.items():
            lines.append(f"{name + ':':35}" + ", ".join(map(str, store.ask(statement)[0])))
    if plan.waiting:
        lines += ["", "Sent, and without a reply in any log; their clients send them again:"]
    for one in plan.waiting:
        lines += [f"  desk {one.desk}, number {one.number}, {one.time}, {one.body}"]
    lines += [f"Note: {text}" for text in plan.notes] + [f"MISSING: {text}" for text in plan.lacks]
    return "\n".join([*lines, "", SIGN_HERE])
