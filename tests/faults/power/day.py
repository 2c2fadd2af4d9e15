"""The load: requests of some days, and how much was recorded when each was sent and answered."""

import ctypes
import os
import platform
import socket
import struct
import subprocess
import threading
from random import Random
from typing import Callable, Protocol

from tests.shared.counter_calls import end, free_port, matched, piped, serve
from tests.shared.hostile import counter, desk, judging, making, talk
from tests.shared.hostile.judging import Wrong

#: What a new process calls before it runs a program.
Setup = Callable[[], None]
SECONDS = 120
# For each architecture: its number in a filter, and the numbers of fsync and fdatasync.
SYNCS = {"x86_64": (0xC000003E, 74, 75), "aarch64": (0xC00000B7, 82, 83)}
LOAD, JUMP_IF, RETURN = 0x20, 0x15, 0x06
ALLOW, ANSWER_ZERO = 0x7FFF0000, 0x00050000
NO_NEW_PRIVILEGES, FILTER = 38, 22


def requests(count: int, dice: Random) -> list[bytes]:
    books, found = desk.Books(), list[bytes]()
    while len(found) < count:
        path, value = making.posted(dice, books)
        value["number"] = len(found) + 1
        found.append(talk.message(f"POST {path} {desk.compact(value)}"))
        if dice.random() < 0.04:
            found[-1] = dice.choice(found)
        counter.connection(books, found[-1])
    return found


def drop_syncs() -> None:
    """Let fsync and fdatasync of this process do nothing, by a filter of its system calls."""
    mark, *numbers = SYNCS[platform.machine()]
    words = [(LOAD, 0, 0, 4), (JUMP_IF, 0, 3, mark), (LOAD, 0, 0, 0)]
    words += [(JUMP_IF, 3 - place, 0, number) for place, number in enumerate(numbers, 1)]
    words += [(RETURN, 0, 0, ALLOW), (RETURN, 0, 0, ANSWER_ZERO)]
    code = b"".join(struct.pack("=HBBI", *word) for word in words)
    held = ctypes.create_string_buffer(code)
    given = struct.pack("@HP", len(code) // 8, ctypes.addressof(held))
    libc, held_filter = ctypes.CDLL(None), ctypes.create_string_buffer(given)
    if libc.prctl(NO_NEW_PRIVILEGES, 1, 0, 0, 0) or libc.prctl(FILTER, 2, held_filter, 0, 0):
        os._exit(98)


def read_answer(receive: Callable[[], bytes]) -> bytes:
    text = b""
    end: int | None = None
    while end is None or len(text) < end:
        more = receive()
        if not more:
            raise Wrong(f"a connection ended after {text!r:.300}")
        text += more
        if end is None and b"\r\n\r\n" in text:
            head = text.index(b"\r\n\r\n") + 4
            end = head + int(matched(rb"Content-Length: (\d+)", text[:head])[1])
    return text


class Applied:
    """`apply`. It ends with its input, and checkpoints the log."""

    def __init__(self, path: str, store: str, setup: Setup | None) -> None:
        words, pipe = [path, "apply", "--db", store], subprocess.PIPE
        self.process = subprocess.Popen(words, stdin=pipe, stdout=pipe, preexec_fn=setup)

    def ask(self, message: bytes) -> bytes:
        stdin, stdout = piped(self.process.stdin), piped(self.process.stdout)
        stdin.write(message)
        stdin.flush()
        return read_answer(lambda: os.read(stdout.fileno(), 65536))

    def end(self) -> None:
        piped(self.process.stdin).close()
        if self.process.wait(SECONDS) != 0:
            raise Wrong(f"`apply` ended with status {self.process.returncode}")


class Served:
    """`serve`. It is killed, so that its last requests stand in the log alone."""

    def __init__(self, path: str, store: str, setup: Setup | None) -> None:
        port = free_port()
        self.process = serve(path, store, port, preexec_fn=setup)
        self.client = socket.create_connection(("127.0.0.1", port), timeout=SECONDS)

    def ask(self, message: bytes) -> bytes:
        self.client.sendall(message)
        return read_answer(lambda: self.client.recv(65536))

    def end(self) -> None:
        end(self.process)
        self.client.close()


class Neighbour:
    """Another program on the same file system, whose syncs come between those of the counter."""

    def __init__(self, folder: str, dice: Random) -> None:
        self.folder, self.dice, self.is_over = folder, dice, threading.Event()
        self.thread = threading.Thread(target=self.run, daemon=True)
        self.thread.start()

    def run(self) -> None:
        turn = 0
        while not self.is_over.wait(self.dice.uniform(0.001, 0.02)):
            turn += 1
            path = os.path.join(self.folder, f"other{turn % 5}")
            with open(path, "ab") as file:
                file.write(self.dice.randbytes(self.dice.randint(1, 6000)))
                if self.dice.random() < 0.3:
                    os.fsync(file.fileno())
            if self.dice.random() < 0.1:
                os.replace(path, path + ".old")

    def stop(self) -> None:
        self.is_over.set()
        self.thread.join()


class Played:
    """The requests and their responses, how much was recorded at each, and the books after each."""

    def __init__(
        self, messages: list[bytes], answers: list[bytes], sent: list[int], came: list[int]
    ) -> None:
        self.messages, self.answers, self.sent, self.came = messages, answers, sent, came
        asked = judging.messages_of(b"".join(messages))
        self.chain, books = [judging.key_of(desk.Books())], desk.Books()
        self.books = {self.chain[0]: books}
        for place, message in enumerate(asked):
            books, right = judging.delivered(books, message)
            if right != answers[place]:
                said = f"{answers[place]!r:.600}, and not {right!r:.600}"
                raise Wrong(f"request {place + 1} was answered {said}")
            self.chain.append(judging.key_of(books))
            self.books[self.chain[-1]] = books

    def acknowledged(self, cut: int) -> int:
        """Counts the responses that had come before the step at a cut."""
        return sum(place <= cut for place in self.came)

    def allowed(self, cut: int) -> set[str]:
        """The books that may stand at a cut: after all acknowledged requests, and none unsent."""
        acknowledged, sent = self.acknowledged(cut), sum(place < cut for place in self.sent)
        return set(self.chain[acknowledged : max(acknowledged, sent) + 1])


class Place(Protocol):
    """Where the load is played: the program, the path of a store, and dice."""

    program: str
    store: str
    dice: Random


def play(
    place: Place, messages: list[bytes], position: Callable[[], int], setup: Setup | None = None
) -> Played:
    """Send the requests to `apply` and `serve` in turn. The first command meets no store."""
    answers, sent, came = list[bytes](), list[int](), list[int]()
    turn = 0
    while len(answers) < len(messages):
        talked = (Applied, Served)[turn % 2](place.program, place.store, setup)
        try:
            for message in messages[len(answers) :][: place.dice.randint(5, 40)]:
                sent.append(position())
                answers.append(talked.ask(message))
                came.append(position())
            talked.end()
        finally:
            talked.process.kill()
        turn += 1
    return Played(messages, answers, sent, came)
