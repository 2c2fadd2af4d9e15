"""What a user of the counter's machine tries, to take the counter's place. Runs on the machine, as that user, until its input ends.

Tries each way again and again, and answers each connection with a payment that was never made. At its end it prints how each way ended (the names of errors, or "done") and how many connections came."""

import collections
import ctypes
import errno
import itertools
import json
import os
import select
import signal
import socket
import sys
from typing import Any, Callable

SOCKET, NETWORK = "/run/counter-http.sock", "/run/netns/counter"
NEW_NETWORK, NEW_USER = 0x40000000, 0x10000000
LIBC = ctypes.CDLL(None, use_errno=True)
BODY = b'{"day":"2012-02-06","lines":[{"paid":"9999.99","serial":"Z4242EE"}],"payee":7,"ticket":812,"total":"9999.99"}'
RESPONSE = b"HTTP/1.1 200 OK\r\nContent-Type: application/json\r\nContent-Length: %d\r\n\r\n%s"
#: Where it may listen, which leads nowhere.
EARS: list[tuple[socket.AddressFamily, Any]] = [
    (socket.AF_INET, ("127.0.0.1", 8377)),
    (socket.AF_INET, ("0.0.0.0", 8377)),
    (socket.AF_INET6, ("::1", 8377)),
    (socket.AF_UNIX, "\0" + SOCKET),
]


def listener(family: socket.AddressFamily, address: Any) -> socket.socket:
    ear = socket.socket(family)
    try:
        if family != socket.AF_UNIX:
            ear.setsockopt(socket.SOL_SOCKET, socket.SO_REUSEADDR, 1)
            ear.setsockopt(socket.SOL_SOCKET, socket.SO_REUSEPORT, 1)
        if family == socket.AF_INET6:
            ear.setsockopt(socket.IPPROTO_IPV6, socket.IPV6_V6ONLY, 1)
        ear.bind(address)
        ear.listen(100)
        ear.setblocking(False)
    except OSError:
        ear.close()
        raise
    return ear


def check(status: int) -> None:
    if status != 0:
        raise OSError(ctypes.get_errno(), "")


def enter(path: str = NETWORK) -> None:
    with open(path) as network:
        check(LIBC.setns(network.fileno(), NEW_NETWORK))


def enter_from_own() -> None:
    check(LIBC.unshare(NEW_USER | NEW_NETWORK))
    enter()


def enter_of_process() -> None:
    enter(f"/proc/{of_the_counter()[0]}/ns/net")


def of_the_counter() -> list[int]:
    """The processes of the counter and of its proxy, by their words."""
    found = []
    for process in filter(str.isdigit, os.listdir("/proc")):
        try:
            words = open(f"/proc/{process}/cmdline", "rb").read().split(b"\0")
        except OSError:
            continue
        if words[0].endswith(b"/systemd-socket-proxyd") or b"serve" in words:
            found.append(int(process))
    return found or [1]


def kill(*processes: int) -> None:
    for process in processes:
        os.kill(process, signal.SIGKILL)


def in_child(do: Callable[[], object]) -> None:
    """Does it in a child, which may be left in any namespace."""
    child = os.fork()
    if child == 0:
        try:
            do()
            os._exit(0)
        except OSError as fault:
            os._exit(fault.errno or 255)
    status = os.waitstatus_to_exitcode(os.waitpid(child, 0)[1])
    if status != 0:
        raise OSError(status, "")


#: What only root may do.
FORBIDDEN: dict[str, Callable[[], object]] = {
    "enter the network from a user namespace": lambda: in_child(enter_from_own),
    "enter the network": lambda: in_child(enter),
    "enter the network of a process": lambda: in_child(enter_of_process),
    "listen on nginx's port": lambda: listener(socket.AF_INET, ("127.0.0.2", 443)).close(),
    "connect to the socket": lambda: socket.socket(socket.AF_UNIX).connect(SOCKET),
    "rename the socket": lambda: os.rename(SOCKET, f"{SOCKET}.old"),
    "listen on the socket": lambda: listener(socket.AF_UNIX, SOCKET).close(),
    "unlink the socket": lambda: os.unlink(SOCKET),
    "kill the counter": lambda: kill(*of_the_counter()),
    "kill nginx": lambda: kill(int(open("/run/counter-nginx/nginx.pid").read())),
}
ended: dict[str, collections.Counter[str]] = collections.defaultdict(collections.Counter)
came: collections.Counter[str] = collections.Counter()
ears: dict[int, tuple[str, socket.socket]] = {}
line = select.poll()
line.register(0, select.POLLIN)


def attempt(name: str, do: Callable[[], Any]) -> Any:
    try:
        got = do()
        ended[name]["done"] += 1
        return got
    except OSError as fault:
        ended[name][errno.errorcode.get(fault.errno, str(fault.errno))] += 1
        return None


def answer(client: socket.socket) -> None:
    with client:
        client.settimeout(1)
        client.recv(65536)
        client.sendall(RESPONSE % (len(BODY), BODY))


def turn(nth: int) -> bool:
    """Listens where it doesn't yet, each 200th time goes all other ways, and answers. Returns whether to go on."""
    for family, address in EARS:
        name = f"listen on {address}"
        if name not in [held for held, _ in ears.values()]:
            if (ear := attempt(name, lambda: listener(family, address))) is not None:
                ears[ear.fileno()] = name, ear
                line.register(ear, select.POLLIN)
    for name, do in FORBIDDEN.items() if nth % 200 == 0 else ():
        attempt(name, do)
    for number, _ in line.poll(1):
        if number == 0:
            return False
        name, ear = ears[number]
        client = attempt(f"accept: {name}", lambda: ear.accept()[0])
        if client:
            came[name] += 1
            attempt("answer", lambda: answer(client))
    return True


if "once" in sys.argv:
    turn(0)
else:
    for nth in itertools.count():
        if not turn(nth):
            break
print(json.dumps({"ended": ended, "came": came, "forbidden": list(FORBIDDEN)}))
