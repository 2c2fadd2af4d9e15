"""nginx over samples/nginx/nginx.conf on a port of its own: only paths, the port and the user differ from what a bank runs. And connections that send it bytes as they are, for requests that no library of HTTP sends."""

import contextlib
import dataclasses
import http.client
import io
import json
import os
import re
import signal
import socket
import socketserver
import ssl
import subprocess
import threading
import time
from pathlib import Path
from typing import Any, Iterable, Mapping, NamedTuple, Self

from tests.conftest import TOP, is_listening, until
from tests.shared.counter_calls import done, free_port, replaced

EASYRSA = "/usr/share/easy-rsa/easyrsa"
Texts = Mapping[str, str]
#: What every client of ours sends.
CLIENT: Texts = {"X-Counter-Client": "test", "Content-Type": "application/json"}
HEADERS = [b"Host: 127.0.0.1", *(f"{name}: {value}".encode() for name, value in CLIENT.items())]


class Staff:
    """An authority of the staff by easy-rsa, as docs/WHO_MAY_DO_WHAT.md makes it, in a folder. A person's `certificate` is a file with the certificate and its key."""

    def __init__(self, folder: Path) -> None:
        self.folder = folder
        self.easyrsa("init-pki")
        self.easyrsa("--req-cn=counter staff", "build-ca", "nopass")
        self.easyrsa("gen-crl")

    def easyrsa(self, *words: str) -> None:
        options = ["--batch", f"--pki-dir={self.folder}", "--use-algo=ec", "--curve=prime256v1"]
        done(EASYRSA, *options, *words, cwd=self.folder.parent)

    def hire(self, *names: str) -> None:
        for name in names:
            self.easyrsa("build-client-full", name, "nopass")
            parts = (self.folder / f"issued/{name}.crt", self.folder / f"private/{name}.key")
            self.certificate(name).write_text("".join(part.read_text() for part in parts))

    def dismiss(self, name: str) -> None:
        """Revokes. It counts from nginx's next reload on."""
        self.easyrsa("revoke", name)
        self.easyrsa("gen-crl")

    def certificate(self, name: str) -> Path:
        return self.folder / f"{name}.pem"


def make_server_certificate(folder: Path, *names: str) -> None:
    alternatives = ",".join(f"IP:{name}" if name[0].isdigit() else f"DNS:{name}" for name in names)
    line = "req -x509 -newkey ec -pkeyopt ec_paramgen_curve:prime256v1 -nodes -days 2".split()
    line += ["-subj", f"/CN={names[0]}", "-addext", f"subjectAltName={alternatives}"]
    done("openssl", *line, "-keyout", folder / "key.pem", "-out", folder / "certificate.pem")


class Answer(NamedTuple):
    status: int
    headers: http.client.HTTPMessage
    text: str

    def json(self) -> Any:
        return json.loads(self.text)


class Site:
    """`groups` has the groups of each user. `changed` pairs are replaced in the configuration: a control takes a guard away."""

    name = "127.0.0.1"

    def __init__(
        self, folder: Path, counter: str, groups: Texts, changed: Texts = {}, replies: bool = False
    ) -> None:
        self.folder, self.port = folder, free_port()
        for name in ("log", "page", "extra", "temporary"):
            (folder / name).mkdir(parents=True)
        self.staff = Staff(folder / "staff")
        self.staff.hire(*groups)
        make_server_certificate(folder, self.name)
        (folder / "name.conf").write_text(f"server_name {self.name};\n")
        self.write_groups(groups)
        (folder / "page/bank.js").write_text((TOP / "clients/teller/bank.js").read_text())
        if replies:
            self.add("replies", TOP / "samples/nginx/replies", counter)
        self.write(counter, changed)
        self.process = self.start()

    def write_groups(self, groups: Texts) -> None:
        lines = [f'{name} "{those}";\n' for name, those in groups.items() if those]
        (self.folder / "groups").write_text("".join(lines))

    def placed(self, text: str, counter: str) -> str:
        own = f"_temp_path {self.folder}/temporary"
        kinds = ("client_body", "proxy", "fastcgi", "uwsgi", "scgi")
        temporary = " ".join(f"{kind}{own}/{kind};" for kind in kinds)
        for old, new in {
            "user counter-nginx;": f"user {'root' if os.getuid() == 0 else 'nobody'};",
            "worker_processes auto;": "worker_processes 2;",
            "worker_connections 30000;": "worker_connections 15000;",
            "error_log stderr;": f"error_log {self.folder}/error.log;",
            "http {": f"http {{ {temporary}",
            "/run/counter-nginx/": f"{self.folder}/",
            "/etc/counter/": f"{self.folder}/",
            "/var/log/counter/": f"{self.folder}/log/",
            "/srv/requests/": f"{self.folder}/log/",
            "listen 443 ssl": f"listen {self.name}:{self.port} ssl",
            "/opt/counter/teller/": f"{TOP}/clients/teller/",
            "/opt/counter/nginx/": f"{TOP}/samples/nginx/",
            "http://unix:/run/counter-http.sock": counter,
        }.items():
            text = text.replace(old, new)
        return text

    def add(self, name: str, source: Path, counter: str) -> None:
        (self.folder / "extra" / name).mkdir()
        for file in source.glob("*.conf"):
            text = self.placed(file.read_text(), counter)
            (self.folder / "extra" / name / file.name).write_text(text)

    def write(self, counter: str, changed: Texts) -> None:
        text = self.placed((TOP / "samples/nginx/nginx.conf").read_text(), counter)
        (self.folder / "nginx.conf").write_text(replaced(text, changed.items()))

    def start(self) -> subprocess.Popen[bytes]:
        words = ["-e", f"{self.folder}/error.log", "-c", f"{self.folder}/nginx.conf"]
        process = subprocess.Popen(["/usr/sbin/nginx", *words, "-g", "daemon off;"])
        until(lambda: process.poll() or is_listening(self.port), self.errors)
        assert process.poll() is None, self.errors()
        return process

    def errors(self) -> str:
        return (self.folder / "error.log").read_text()

    def reload(self) -> None:
        """Reloads, and returns once new workers serve: the pages of a reload don't say when that is."""
        before = workers(self.process.pid)
        self.process.send_signal(signal.SIGHUP)
        until(lambda: workers(self.process.pid) - before, self.errors)
        time.sleep(0.3)

    def restart(self) -> None:
        """As the unit does: requests that are under way end first."""
        self.process.send_signal(signal.SIGQUIT)
        self.process.wait(60)
        self.process = self.start()

    def kill(self) -> None:
        for process in (self.process.pid, *map(int, workers(self.process.pid))):
            os.kill(process, signal.SIGKILL)
        self.process.wait()

    def end(self) -> None:
        self.process.terminate()
        self.process.wait(60)

    def context(self, user: str | None) -> ssl.SSLContext:
        made = ssl.create_default_context(cafile=str(self.folder / "certificate.pem"))
        if user:
            made.load_cert_chain(self.staff.certificate(user))
        return made

    def connect(self, user: str | None, timeout: float = 60) -> http.client.HTTPSConnection:
        place: dict[str, Any] = {"context": self.context(user), "timeout": timeout}
        return http.client.HTTPSConnection(self.name, self.port, **place)

    def ask(
        self, user: str | None, method: str, path: str, value: Any = None, headers: Texts = CLIENT
    ) -> Answer:
        """The answer to one request, as a client of the bank sends it if no `headers` are given."""
        body = value if value is None or isinstance(value, (bytes, str)) else json.dumps(value)
        with contextlib.closing(self.connect(user)) as connection:
            connection.request(method, path, body, dict(headers))
            response = connection.getresponse()
            return Answer(response.status, response.headers, response.read().decode())

    def log(self, name: str = "counter.log") -> list[dict[str, str]]:
        text = (self.folder / "log" / name).read_text()
        return [json.loads(line) for line in text.splitlines()]


def workers(master: int) -> set[str]:
    return set(Path(f"/proc/{master}/task/{master}/children").read_text().split())


def message(line: bytes, body: bytes = b"", *more: bytes) -> bytes:
    """A request as a client of the bank sends it, with the length of its body."""
    lines = [line, *HEADERS, b"Content-Length: %d" % len(body), *more]
    return b"\r\n".join(lines) + b"\r\n\r\n" + body


def connected(
    site: Site, context: ssl.SSLContext, patience: float = 30, session: ssl.SSLSession | None = None
) -> ssl.SSLSocket:
    plain = socket.create_connection((site.name, site.port), timeout=patience)
    plain.setsockopt(socket.IPPROTO_TCP, socket.TCP_NODELAY, 1)
    return context.wrap_socket(plain, server_hostname=site.name, session=session)


def everything(line: socket.socket) -> bytes:
    """Reads until the other side ends the connection, or until the time limit of the socket."""
    text = b""
    with contextlib.suppress(OSError):
        while piece := line.recv(65536):
            text += piece
    return text


def sent(
    site: Site, context: ssl.SSLContext, pieces: Iterable[bytes], pause: float = 0, wait: float = 30
) -> bytes:
    """Sends the pieces on a new connection, with a pause between two of them, and returns all that comes back."""
    with connected(site, context, wait) as line:
        with contextlib.suppress(OSError):
            for nth, piece in enumerate(pieces):
                time.sleep(pause * bool(nth))
                line.sendall(piece)
        return everything(line)


def statuses(text: bytes) -> list[int]:
    return [int(status) for status in re.findall(rb"HTTP/1\.1 (\d\d\d) ", text)]


def answer_in(text: bytes) -> Answer:
    assert b"HTTP/1.1 " in text, text
    head, _, body = text[text.rindex(b"HTTP/1.1 ") :].partition(b"\r\n\r\n")
    line, _, headers = head.partition(b"\r\n")
    fields = http.client.parse_headers(io.BytesIO(headers + b"\r\n\r\n"))
    return Answer(int(line.split()[1]), fields, body.decode(errors="surrogateescape"))


ANSWER = b'{"recorded":true}'


@dataclasses.dataclass
class Message:
    """A message as it came; `rest` has the bytes behind it on its connection."""

    head: bytes
    body: bytes
    rest: bytes = b""

    @property
    def words(self) -> tuple[bytes, bytes]:
        method, _, rest = self.head.partition(b" ")
        return method, rest.split(b"\r\n")[0].rpartition(b" ")[0]


class Recorder(socketserver.ThreadingUnixStreamServer):
    """Answers each message with `status`, as many of a connection as come."""

    daemon_threads, request_queue_size = True, 512
    status = 200

    def __init__(self, path: Path) -> None:
        self.messages: list[Message] = []
        self.at = f"http://unix:{path}"
        super().__init__(str(path), Conversation)
        threading.Thread(target=self.serve_forever, daemon=True).start()

    def end(self) -> None:
        self.shutdown()
        self.server_close()

    def take(self) -> list[Message]:
        taken, self.messages = self.messages, []
        return taken


class Conversation(socketserver.StreamRequestHandler):
    timeout = 5

    def handle(self) -> None:
        with contextlib.suppress(OSError, OverflowError):
            while self.answer():
                pass

    def answer(self) -> bool:
        """Answers one message. Returns whether another may come."""
        head = b""
        while not head.endswith(b"\r\n\r\n"):
            if not (line := self.rfile.readline()):
                return False
            head += line
        length = re.search(rb"(?i)\r\ncontent-length: *(\d+)", head)
        body = self.rfile.read(int(length[1])) if length else b""
        message = Message(head, body)
        assert isinstance(self.server, Recorder)
        self.server.messages.append(message)
        form = b"Content-Type: application/json\r\nContent-Length: %d" % len(ANSWER)
        self.wfile.write(b"HTTP/1.1 %d OK\r\n%s\r\n\r\n%s" % (self.server.status, form, ANSWER))
        is_last = re.search(rb"(?i)\r\nconnection: *close", head) is not None
        message.rest = self.rfile.read() if is_last else b""
        return not is_last


#: No request is too many.
UNLIMITED = {"rate=10r/s": "rate=100000r/s"}


class RecordedSite(Site):
    def __init__(self, folder: Path, groups: Texts, changed: Texts = UNLIMITED) -> None:
        folder.chmod(0o755)
        self.recorder = Recorder(folder / "counter.sock")
        super().__init__(folder / "site", self.recorder.at, groups, changed=changed)

    def __enter__(self) -> Self:
        return self

    def __exit__(self, *_: object) -> None:
        self.end()
        self.recorder.end()
