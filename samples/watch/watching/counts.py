"""What is counted of the proxy's log and of the service's lines. The counts are kept in a file from one run to the next, so a rotated log takes none away."""
from __future__ import annotations

import json
import os
import re
import subprocess
import time
from typing import Any

from . import exposition, proxy
from .exposition import Metrics

BOUNDS = (0.005, 0.01, 0.025, 0.05, 0.1, 0.25, 0.5, 1, 2.5, 5, 10, 30, 60)
ENDING = re.compile(
    r"connection \d+: (\d+) messages, (Closed|Asked|Limit|Fault|ReadFailed|WriteFailed|NoMemory)\b"
)
SAID = (
    "store: StoreFailed",
    "store: NotWrittenBack",
    "store: WrongVersion",
    "store: Unusable",
    "input or output failed",
    "no memory",
    "guard: not served",
)
#: The line of nginx for an entry that it couldn't write to its log of posts: at once, and then once a minute. Only its beginning is nginx's own.
UNLOGGED = re.compile(
    r"[\d/]+ [\d:]+ \[alert\] \d+#\d+: (\*\d+ )?write\(\) to \"[^\"]*/counter\.log\" (failed|was incomplete)"
)
CURSOR = "-- cursor: "
#: Statuses that have a series from the first run on, though none was counted yet.
USUAL = (
    ("200", "counter"),
    ("404", "counter"),
    ("409", "counter"),
    ("503", "counter"),
    ("400", "nginx"),
    ("403", "nginx"),
    ("429", "nginx"),
    ("502", "nginx"),
    ("504", "nginx"),
)


class Counts:
    """Counters by family and labels, where the logs were read up to, and which requests and tickets were seen."""

    def __init__(self, path: str) -> None:
        self.path = path
        self.kept: dict[str, Any] = {
            "counters": {},
            "delays": {},
            "log": {},
            "journal": {},
            "requests": {},
            "tickets": [],
        }
        if os.path.exists(path):
            with open(path, encoding="utf-8") as file:
                self.kept.update(json.load(file))

    def save(self) -> None:
        exposition.replace_file(
            self.path, json.dumps(self.kept, separators=(",", ":")) + "\n", 0o600
        )

    def count(self, family: str, amount: int = 1, /, **labels: Any) -> None:
        found = self.kept["counters"].setdefault(family, {})
        key = json.dumps(labels)
        found[key] = found.get(key, 0) + amount

    # ---- the clock

    def look_at_clock(self, now: float) -> None:
        """Counts a clock that was set back since the last run."""
        self.count("clock_back", int(now < self.kept.get("time", 0) - 1))
        self.kept["time"] = now

    # ---- the proxy's log

    def read_log(self, path: str) -> None:
        place = self.kept["log"]
        for line in proxy.follow(path, place):
            entry = proxy.entry_of(line)
            if entry is None:
                self.count("other_lines")
            else:
                self.count_entry(entry)

    def count_entry(self, entry: proxy.Entry) -> None:
        self.count("requests", route=entry.route, status=entry.status, by=entry.by)
        if entry.took is not None and entry.route in proxy.WRITING + proxy.READING:
            self.count_delay(entry.route, entry.took)
        for family, names in (
            ("refusals", proxy.REFUSALS),
            ("faults", proxy.FAULTS),
            ("unserved", proxy.UNSERVED),
        ):
            if entry.code in names:
                self.count(family, code=entry.code, name=names[entry.code])
        if entry.number is not None and entry.code != 10:
            again = proxy.see(
                self.kept["requests"].setdefault(str(entry.desk or 0), []), entry.number
            )
            self.count("retries", int(again), route=entry.route)
        if (
            entry.ticket is not None
            and entry.total is not None
            and not proxy.see(self.kept["tickets"], entry.ticket)
        ):
            self.count("tickets")
            self.count("paid_cents", entry.total)

    def count_delay(self, route: str, took: float) -> None:
        found = self.kept["delays"].setdefault(
            route, {"counts": [0] * (len(BOUNDS) + 1), "sum": 0.0}
        )
        found["counts"][
            next((place for place, bound in enumerate(BOUNDS) if took <= bound), len(BOUNDS))
        ] += 1
        found["sum"] += took

    # ---- the services' lines

    def read_journal(self, units: list[str]) -> None:
        place = self.kept["journal"]
        place.setdefault("since", int(time.time()))
        since = (
            ["--after-cursor", place["cursor"]]
            if "cursor" in place
            else ["--since", f"@{place['since']}"]
        )
        ran = subprocess.run(
            [
                "journalctl",
                "--no-pager",
                "-o",
                "cat",
                "--show-cursor",
                *(f"--unit={unit}" for unit in units),
                *since,
            ],
            stdout=subprocess.PIPE,
            stderr=subprocess.PIPE,
            timeout=60,
        )
        lines = ran.stdout.decode("utf-8", "replace").splitlines()
        said = ran.stderr.decode("utf-8", "replace").strip()
        if ran.returncode != 0 and said:
            raise OSError(f"journalctl: {said}")
        if lines and lines[-1].startswith(CURSOR):
            place["cursor"] = lines.pop()[len(CURSOR) :]
        for line in lines:
            self.count_line(line)

    def count_line(self, line: str) -> None:
        ending = ENDING.fullmatch(line.strip()) or ENDING.match(line)
        if ending:
            self.count("connections", end=ending[2])
            self.count("messages", int(ending[1]))
        self.count("unlogged", int(UNLOGGED.match(line) is not None))
        for text in SAID:
            if text in line:
                self.count("said", text=text)

    # ---- the samples that are written

    def tell(self, metrics: Metrics, has_log: bool, has_journal: bool) -> None:
        """Adds all counters, those that are 0 too: a series that begins with its first event would hide that event from `increase`."""
        metrics.add(
            "ladwenpik_clock_back_total",
            "counter",
            "How often the clock was found set back.",
            self.of("clock_back").get("{}", 0),
        )
        if has_log:
            self.tell_log(metrics)
            self.tell_replies(metrics)
        if has_journal:
            for end in (
                "Closed",
                "Asked",
                "Limit",
                "Fault",
                "ReadFailed",
                "WriteFailed",
                "NoMemory",
            ):
                metrics.add(
                    "ladwenpik_connections_total",
                    "counter",
                    "Connections to the counter by the word that tells how they ended.",
                    self.of("connections").get(json.dumps({"end": end}), 0),
                    end=end,
                )
            metrics.add(
                "ladwenpik_unlogged_total",
                "counter",
                "How often nginx said that it couldn't write an entry to its log of posts.",
                self.of("unlogged").get("{}", 0),
            )
            metrics.add(
                "ladwenpik_messages_total",
                "counter",
                "Messages of the connections that ended.",
                self.of("messages").get("{}", 0),
            )
            for text in SAID:
                metrics.add(
                    "ladwenpik_service_faults_total",
                    "counter",
                    "Faults that the service said in the journal, by their text.",
                    self.of("said").get(json.dumps({"text": text}), 0),
                    text=text,
                )

    def of(self, family: str) -> dict[str, int]:
        found: dict[str, int] = self.kept["counters"].get(family, {})
        return found

    def tell_log(self, metrics: Metrics) -> None:
        usual = {
            json.dumps({"route": route, "status": status, "by": by}): 0
            for route in proxy.WRITING + proxy.READING
            for status, by in USUAL
        }
        for key, value in {**usual, **self.of("requests")}.items():
            metrics.add(
                "ladwenpik_requests_total",
                "counter",
                "Requests by route, status, and by who answered: the counter or nginx.",
                value,
                **json.loads(key),
            )
        for route in proxy.WRITING:
            metrics.add(
                "ladwenpik_retries_total",
                "counter",
                "Requests whose desk and number had come before.",
                self.of("retries").get(json.dumps({"route": route}), 0),
                route=route,
            )
        for route, found in sorted(self.kept["delays"].items()):
            metrics.add_histogram(
                "ladwenpik_request_duration_seconds",
                "From a request's first byte to its last response byte, in nginx.",
                BOUNDS,
                found["counts"],
                found["sum"],
                route=route,
            )
        metrics.add(
            "ladwenpik_tickets_total",
            "counter",
            "Tickets that the log shows, each once.",
            self.of("tickets").get("{}", 0),
        )
        metrics.add(
            "ladwenpik_paid_dollars_total",
            "counter",
            "Dollars of these tickets.",
            f"{self.of('paid_cents').get('{}', 0) / 100:.2f}",
        )
        metrics.add(
            "ladwenpik_log_gaps_total",
            "counter",
            "How often lines of the log were lost, since a rotated file was gone before it was read.",
            self.kept["log"].get("gaps", 0),
        )
        metrics.add(
            "ladwenpik_log_other_lines_total",
            "counter",
            "Lines of the log that are no entries.",
            self.of("other_lines").get("{}", 0),
        )

    def tell_replies(self, metrics: Metrics) -> None:
        told = (
            ("refusals", proxy.REFUSALS, "Requests that the counter refused, by code."),
            ("faults", proxy.FAULTS, "Messages that ask for nothing the counter knows, by code."),
            (
                "unserved",
                proxy.UNSERVED,
                "Requests that the counter couldn't serve (503), by code.",
            ),
        )
        for family, names, about in told:
            for code, name in names.items():
                metrics.add(
                    f"ladwenpik_{family}_total",
                    "counter",
                    about,
                    self.of(family).get(json.dumps({"code": code, "name": name}), 0),
                    code=code,
                    name=name,
                )
