"""The machine around the counter: units, the staff's authority, disks, sockets, copies, archives, the log of requests, and a probe."""
from __future__ import annotations

import contextlib
import datetime
import json
import os
import re
import shlex
import subprocess
import time
from typing import Iterator

from . import snapshot
from .exposition import Metrics

#: States of a socket in /proc/net/tcp: it listens, or it has asked for a connection that isn't accepted yet.
LISTENS, ASKS = "0A", "02"


def units(metrics: Metrics, path: str) -> None:
    """What `systemctl show` wrote of units, in paragraphs."""
    with open(path, encoding="utf-8") as file:
        paragraphs = file.read().strip().split("\n\n")
    for paragraph in paragraphs:
        shown = dict(line.split("=", 1) for line in paragraph.splitlines() if "=" in line)
        name = shown["Id"]
        metrics.add(
            "ladwenpik_unit_active",
            "gauge",
            "1 if systemd says that the unit is active.",
            int(shown["ActiveState"] == "active"),
            unit=name,
        )
        metrics.add(
            "ladwenpik_unit_failed",
            "gauge",
            "1 if systemd says that the unit has failed.",
            int(shown["ActiveState"] == "failed"),
            unit=name,
        )
        if shown.get("NRestarts", "").isdigit():
            metrics.add(
                "ladwenpik_unit_restarts_total",
                "counter",
                "How often systemd started the unit again by itself (NRestarts).",
                shown["NRestarts"],
                unit=name,
            )


def staff(metrics: Metrics, path: str) -> None:
    """Until when the staff's authority and its list of revoked certificates are valid. If a file has several, the first that ends counts."""
    ends: dict[str, int] = {}
    with open(path, encoding="ascii") as file:
        for name, seconds in (line.split() for line in file):
            ends[name] = min(int(seconds), ends.get(name, int(seconds)))
    for name in ("ca.crt", "crl.pem"):
        metrics.add(
            "ladwenpik_staff_end_timestamp_seconds",
            "gauge",
            "When a file of /etc/counter/staff ends. From then on no one can sign in.",
            ends[name],
            file=name,
        )


def disk(metrics: Metrics, path: str) -> None:
    found = os.statvfs(path)
    metrics.add(
        "ladwenpik_disk_free_bytes",
        "gauge",
        "Room on the disk of this path for a process without rights of its own.",
        found.f_bavail * found.f_frsize,
        path=path,
    )
    metrics.add(
        "ladwenpik_disk_size_bytes",
        "gauge",
        "Size of the disk of this path.",
        found.f_blocks * found.f_frsize,
        path=path,
    )


def store(metrics: Metrics, path: str) -> None:
    """The sizes of the store's files. They aren't opened."""
    for name, end in (("store", ""), ("log", "-wal")):
        with contextlib.suppress(FileNotFoundError):
            metrics.add(
                "ladwenpik_store_bytes",
                "gauge",
                "Size of the store's file and of the log beside it.",
                os.stat(path + end).st_size,
                file=name,
            )


def mounted(metrics: Metrics, path: str) -> None:
    """A disk of its own. If it is away, its path lies on the disk of the folder above."""
    if os.stat(path).st_dev == os.stat(os.path.dirname(os.path.abspath(path))).st_dev:
        raise OSError(f"no disk is mounted at {path}")
    disk(metrics, path)


def sockets(text: str, port: int) -> Iterator[tuple[int, int, str, int]]:
    """The lines of /proc/net/tcp with this local or remote port: each one's local and remote port, its state, and how many connections wait at it."""
    for line in text.splitlines()[1:]:
        words = line.split()
        local, remote = (int(words[place].rpartition(":")[2], 16) for place in (1, 2))
        if port in (local, remote):
            yield local, remote, words[3], int(words[4].rpartition(":")[2], 16)


def strangers(metrics: Metrics, port: int) -> None:
    """Whoever listens on the counter's port in the machine's own network. The counter doesn't: it has a network of its own."""
    text = "\n"
    for name in ("/proc/net/tcp", "/proc/net/tcp6"):
        with contextlib.suppress(FileNotFoundError), open(name, encoding="ascii") as file:
            text += file.read().partition("\n")[2]
    count = sum(local == port and state == LISTENS for local, _, state, _ in sockets(text, port))
    metrics.add(
        "ladwenpik_port_strangers",
        "gauge",
        "Sockets that listen on the counter's port in the machine's own network, where the counter doesn't.",
        count,
    )


def queue(metrics: Metrics, folder: str, port: int) -> None:
    """Whether the counter listens in its network, and how many connections wait for it there and at its Unix socket, by what `prepare` wrote."""
    with open(os.path.join(folder, "tcp"), encoding="ascii") as file:
        found = list(sockets(file.read(), port))
    with open(os.path.join(folder, "unix"), encoding="utf-8") as file:
        at_socket = sum(int(line.split()[2]) for line in file)
    listening = [
        waiting for local, _, state, waiting in found if local == port and state == LISTENS
    ]
    asking = sum(remote == port and state == ASKS for _, remote, state, _ in found)
    metrics.add(
        "ladwenpik_port_open",
        "gauge",
        "1 if a process listens on the counter's port in the counter's network.",
        int(bool(listening)),
    )
    for at, waiting in (("port", sum(listening) + asking), ("socket", at_socket)):
        metrics.add(
            "ladwenpik_waiting_connections",
            "gauge",
            "Connections that wait at the counter's port, of which it holds 128, and at its Unix socket.",
            waiting,
            at=at,
        )


def copies(metrics: Metrics, folder: str) -> None:
    """Of copies. One that is named in the future, as by a clock that was wrong, doesn't hide that later ones are missing."""
    found = [
        taken
        for taken, path in snapshot.named_in(folder)
        if not os.path.basename(path).startswith("watch-")
    ]
    known = [taken for taken in found if taken <= time.time()]
    refused = [name for name in os.listdir(folder) if re.match(r"refused-\d{4}-", name)]
    metrics.add(
        "ladwenpik_copies",
        "gauge",
        "Copies that are kept, whose names aren't later than now.",
        len(known),
    )
    metrics.add(
        "ladwenpik_copies_refused", "gauge", "Copies that the program didn't open.", len(refused)
    )
    if known:
        metrics.add(
            "ladwenpik_copy_timestamp_seconds",
            "gauge",
            "When the newest copy was taken, by a name that isn't later than now.",
            f"{max(known):.3f}",
        )


def archive(metrics: Metrics, folder: str) -> None:
    """How far an archive reaches, by its end.json."""
    with open(os.path.join(folder, "end.json"), encoding="ascii") as file:
        end = json.load(file)
    seen = (
        datetime.datetime.strptime(end["time"], "%Y-%m-%dT%H:%M:%S.%fZ")
        .replace(tzinfo=datetime.timezone.utc)
        .timestamp()
    )
    metrics.add(
        "ladwenpik_archive_timestamp_seconds",
        "gauge",
        "Until when the archive has seen the store.",
        f"{seen:.3f}",
        archive=folder,
    )
    metrics.add(
        "ladwenpik_archive_requests",
        "gauge",
        "Requests that the archive has, with those of its first copy.",
        int(end["row"]),
        archive=folder,
    )


def requests_log(metrics: Metrics, folder: str) -> None:
    """How far the log of requests is behind nginx's log of posts, by what `prepare` wrote: the times of both logs' last entries. Both get every entry at once."""
    with open(os.path.join(folder, "requests"), encoding="ascii") as file:
        posted, kept = (float(line) for line in file)
    metrics.add(
        "ladwenpik_requests_log_behind_seconds",
        "gauge",
        "How much later the last entry of nginx's log of posts is than that of the log of requests.",
        f"{max(0.0, posted - kept):.3f}",
    )


def probe(metrics: Metrics, command: str) -> None:
    """A check as of Nagios, by its status: 0 and 1 mean that the counter answers. A check that can't be run or doesn't end has found no counter."""
    begun, status, said = time.monotonic(), 3, b""
    try:
        ran = subprocess.run(
            shlex.split(command), stdout=subprocess.PIPE, stderr=subprocess.STDOUT, timeout=60
        )
        status, said = ran.returncode, ran.stdout
    finally:
        metrics.add(
            "ladwenpik_probe_success",
            "gauge",
            "1 if the check found that the counter answers.",
            int(status in (0, 1)),
        )
        metrics.add(
            "ladwenpik_probe_status",
            "gauge",
            "The check's status: 0 OK, 1 WARNING, 2 CRITICAL, 3 UNKNOWN.",
            status,
        )
        metrics.add(
            "ladwenpik_probe_duration_seconds",
            "gauge",
            "How long the check took.",
            f"{time.monotonic() - begun:.6f}",
        )
    days = re.search(rb"certificate=(-?\d+(\.\d+)?)d;", said)
    if days:
        metrics.add(
            "ladwenpik_certificate_end_timestamp_seconds",
            "gauge",
            "When nginx's certificate ends, as the check saw it.",
            f"{time.time() + float(days[1]) * 86400:.0f}",
        )
