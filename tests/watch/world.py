"""The counter on its machine, set up by the commands of the samples' pages, with a user of every group."""
import contextlib
import ctypes
import datetime
import http.client
import json
import os
import re
import shutil
import ssl
import time
import tomllib
import urllib.parse
import urllib.request
from pathlib import Path
from typing import Any

import pytest

from tests.conftest import TOP, until
from tests.fence import conftest as fence
from tests.shared.counter_calls import RATES, Answer, ask, bond, get, post, replaced

CLONE_NEWNET = 0x40000000
SMALL = ("/srv/archive", "/srv/elsewhere", "/srv/requests", "/var/log/counter")
#: The packages of INCLUDED that aren't the counter's, and that a root of one's own may lack.
NEEDED = ("prometheus", "prometheus-node-exporter", "btrfs", "faketime")
#: The body of a request.
Body = dict[str, Any]
TROUBLES: Body = tomllib.loads((TOP / "tests/watch/troubles.toml").read_text())
STORE = "/var/lib/counter/day.db"
USERS = {"anna": "teller", "bert": "supervisor", "cleo": "office"}
STAFF = "/etc/counter/staff"
BONDS = 1100
#: The seconds between two readings and two looks at the rules: for these tests, and those of Debian's package.
QUICK = "{scrape_interval: 2s, scrape_timeout: 2s, evaluation_interval: 1s}"
DEBIANS = "{scrape_interval: 15s, evaluation_interval: 15s}"


class Machine(fence.Machine):
    """A fresh Debian with the disks of samples/snapshots, small ones for the archive, its second folder and the logs, and with samples/ and clients/."""

    def __init__(self, base: Path, folder: Path, program: Path) -> None:
        lacking = [name for name in NEEDED if not (base / "usr/bin" / name).exists()]
        if lacking:
            pytest.skip(f"the root {base} lacks {', '.join(lacking)}")
        self.outside: int | None = None
        super().__init__(str(base), str(folder / "machine"))
        self.shell("systemctl disable -q --now nginx prometheus prometheus-node-exporter")
        self.shell("echo 127.0.0.1 localhost counter.bank.example > /etc/hosts")
        self.shell("mkdir -p /mnt/away /etc/counter; rm -rf /etc/prometheus")
        self.add_store_disks(folder)
        for path in SMALL:
            self.shell(f"mkdir -p {path}; mount -t tmpfs -o size=64m,mode=755 {path[1:]} {path}")
        shutil.copy(program, self.path("/root/ee_cli"))
        for name in ("samples", "clients"):
            ignored = shutil.ignore_patterns("out", "__pycache__", "node_modules")
            shutil.copytree(TOP / name, self.path(f"/root/{name}"), ignore=ignored)

    def end(self) -> None:
        if self.outside is not None:
            enter(self.outside)
            os.close(self.outside)
            self.outside = None
        super().end()


def enter(network: int) -> None:
    libc = ctypes.CDLL(None, use_errno=True)
    assert libc.setns(network, CLONE_NEWNET) == 0, "the network can't be entered"


def blocks(page: str) -> list[str]:
    """The blocks of commands of a page of samples. The machine's /usr has the packages already."""
    text = (TOP / "samples" / page / "README.md").read_text()
    return re.sub("(?m)^apt-get .*\n", "", text).split("```\n")[1::2]


def day_after(days: int) -> str:
    return (datetime.date.today() + datetime.timedelta(days)).isoformat()


class World:
    """The machine with the counter, and what its clients ask."""

    def __init__(self, machine: Machine) -> None:
        self.machine, self.number, self.bond, self.is_today = machine, 10, 0, False
        self.today, self.socket = day_after(0), machine.path("/run/counter-http.sock")

    def shell(self, text: str) -> str:
        return self.machine.shell(TROUBLES["PRELUDE"] + text)

    def set_up(self) -> None:
        self.shell(re.sub("(?m)^(systemctl enable|.* import rates ).*\n", "", blocks("systemd")[0]))
        self.make_store()
        self.shell("systemctl enable --now counter.service counter-copy.timer")
        # This thread goes into the machine's network, until the machine ends.
        self.machine.outside = os.open("/proc/self/ns/net", os.O_RDONLY)
        with open(f"/proc/{self.machine.process}/ns/net") as network:
            enter(network.fileno())
        self.wait_for_counter()
        self.shell(blocks("restore")[0])
        here = 'LoadCredential=\nEnvironment="WITNESS=cat /srv/elsewhere/counter/end.json"'
        self.drop_in("counter-witness.service", "here", here)
        self.shell(TROUBLES["ARCHIVES"])
        self.set_up_nginx()
        key, more = "--key /etc/counter/watch.key", "--mount /srv/elsewhere"
        changes = [(key, f"{key} --ca /etc/counter/certificate.pem")]
        changes += [(more, f"{more} --archive /run/counter-witness")]
        self.shell(replaced("".join(blocks("watch")[:2]), changes))
        self.shell("systemctl start counter-copy.service")
        self.wait_for_nginx()

    def make_store(self) -> None:
        """Rates and bonds, as the bank's first import brings them."""
        messages = [post("/rates", {"number": 1, "rates": RATES}, b"")]
        for nth in range(0, BONDS, 500):
            bonds = [bond(turn) for turn in range(nth, min(nth + 500, BONDS))]
            messages.append(post("/bonds", {"number": 2 + nth, "bonds": bonds}, b""))
        Path(self.machine.path("/tmp/first")).write_bytes(b"".join(messages))
        user = "setpriv --reuid counter --regid counter --clear-groups"
        apply = f"{user} /opt/counter/ee_cli apply --db {STORE} < /tmp/first"
        assert self.shell(apply).count("200 OK") == len(messages)

    def drop_in(self, unit: str, name: str, text: str, kind: str = "Service") -> None:
        folder = f"/etc/systemd/system/{unit}.d"
        self.machine.write(f"{folder}/{name}.conf", f"[{kind}]\n{text}\n")
        self.shell("systemctl daemon-reload")

    def set_up_nginx(self) -> None:
        self.shell(blocks("nginx")[0])
        self.shell("certificate 60; : > /etc/counter/groups; $EASYRSA init-pki")
        self.shell("$EASYRSA --req-cn=staff build-ca nopass; $EASYRSA gen-crl")
        for name, group in USERS.items():
            self.shell(f"$EASYRSA build-client-full {name} nopass")
            self.shell(f"echo '{name} {group};' >> /etc/counter/groups")
        self.shell("sed -i 's/rate=10r/rate=10000r/' /opt/counter/nginx/nginx.conf")
        self.shell("systemctl enable --now counter-nginx.service counter-revoked.timer")
        self.shell(next(block for block in blocks("nginx") if "extra/replies" in block))

    def watch_quickly(self, period: str) -> None:
        """Metrics every two seconds and alerts by seconds, in the place of minutes."""
        timer = f"OnUnitActiveSec=\nOnUnitActiveSec={period}\nAccuracySec=50ms"
        self.drop_in("counter-watch.timer", "quick", timer, "Timer")
        self.drop_in("counter-watch.service", "quick", "StartLimitIntervalSec=0", "Unit")
        # The empty setting takes away the first run after a boot too, and the others count from a first one.
        self.shell("systemctl start counter-watch.service; systemctl restart counter-watch.timer")

    def set_up_prometheus(self, rules: str) -> None:
        """Waits until Prometheus has metrics of both hosts. It looks for its targets only 5 seconds after its start."""
        self.write_rules(rules, QUICK)
        self.shell(TROUBLES["READERS"])

        def has_both() -> bool:
            with contextlib.suppress(OSError):
                return len(self.query("ladwenpik_watch_timestamp_seconds")) == 2
            return False

        until(has_both, lambda: self.said_by("prometheus.service"))

    def write_rules(self, rules: str, intervals: str) -> None:
        self.machine.write("/etc/prometheus/counter-alerts.yml", rules)
        text = TROUBLES["PROMETHEUS"].replace("INTERVALS", intervals)
        self.machine.write("/etc/prometheus/prometheus.yml", text)

    def ask(
        self, method: str, path: str, value: object = None, user: str | None = "anna"
    ) -> Answer:
        """Status and body by nginx, as a client of the bank, or of somebody without a certificate."""
        ca = self.machine.path("/etc/counter/certificate.pem")
        context = ssl.create_default_context(cafile=ca)
        context.check_hostname = False
        if user:
            staff = self.machine.path(STAFF)
            context.load_cert_chain(f"{staff}/issued/{user}.crt", f"{staff}/private/{user}.key")
        connection = http.client.HTTPSConnection("127.0.0.1", 443, context=context, timeout=120)
        headers = {"Host": "counter.bank.example", "X-Counter-Client": "test"}
        headers["Content-Type"] = "application/json"
        with contextlib.closing(connection):
            connection.request(method, path, None if value is None else json.dumps(value), headers)
            response = connection.getresponse()
            return response.status, response.read().decode()

    def wait_for_nginx(self) -> None:
        def answers() -> bool:
            with contextlib.suppress(OSError):
                return self.ask("GET", "/ticket/1")[0] in (200, 404)
            return False

        until(answers, lambda: self.said_by("counter-nginx.service"))

    def wait_for_counter(self) -> None:
        asked = get("/ticket/1")
        until(lambda: self.ask_counter(asked), lambda: self.said_by("counter.service"), 300)

    def change_day(self, way: str, day: str) -> Answer:
        self.number += 1
        return self.ask("POST", way, {"desk": 9, "number": self.number, "day": day}, "bert")

    def reach_today(self) -> None:
        """Opens today, once."""
        if not self.is_today:
            self.change_day("/day/open", self.today)
            self.is_today = True

    def redemption(self, turn: int | str, desk: int = 1) -> Body:
        """A new request for a bond by its turn, or by its serial number, today."""
        self.number += 1
        serial = turn if isinstance(turn, str) else bond(turn)["serial"]
        named: Body = {"desk": desk, "number": self.number, "day": self.today}
        return named | {"payee": 7, "serials": [serial]}

    def next_redemption(self) -> Body:
        self.bond += 1
        return self.redemption(self.bond - 1)

    def pay(self, count: int) -> None:
        """Pays the next bonds, one on a ticket, at the counter's own socket: quicker than by nginx."""
        for _ in range(count):
            answer = self.ask_counter(post("/redeem", self.next_redemption()))
            assert answer is not None and answer[0] == 200, answer

    def ask_counter(self, message: bytes) -> Answer | None:
        return ask(self.socket, message)

    def metrics(self) -> dict[str, str]:
        path = Path(self.machine.path("/run/counter-metrics/counter.prom"))
        lines = path.read_text().splitlines() if path.exists() else []
        return dict(line.rsplit(" ", 1) for line in lines if not line.startswith("#"))

    def metric(self, name: str) -> float:
        return float(self.metrics().get(name, "nan"))

    def watched(self) -> None:
        """Waits for metrics that were begun after now."""
        now = time.time()
        until(lambda: self.metric("ladwenpik_watch_timestamp_seconds") > now, self.state)

    def said_by(self, unit: str) -> str:
        words = ("journalctl", "-o", "cat", "--no-pager", "-n", "30", "-u", unit)
        return self.machine.on(*words).stdout

    def prometheus(self, path: str) -> Any:
        with urllib.request.urlopen(f"http://127.0.0.1:9090/api/v1/{path}", timeout=30) as response:
            return json.load(response)["data"]

    def alerts(self) -> list[dict[str, str]]:
        alerts = self.prometheus("alerts")["alerts"]
        return [alert["labels"] for alert in alerts if alert["state"] == "firing"]

    def firing(self) -> set[str]:
        return {labels["alertname"].removeprefix("Ladwenpik") for labels in self.alerts()}

    def labels_of(self, alert: str, name: str) -> set[str | None]:
        found = [one for one in self.alerts() if one["alertname"] == f"Ladwenpik{alert}"]
        return {labels.get(name) for labels in found}

    def state(self) -> str:
        """What is to be looked at if an alert doesn't fire."""
        shown = [f"{name} {value}" for name, value in self.metrics().items()]
        shown = [one for one in shown if not one.endswith(" 0") and "_bucket" not in one]
        return "\n".join([*shown, self.said_by("counter-watch.service")])

    def query(self, expression: str) -> list[dict[str, Any]]:
        asked = urllib.parse.urlencode({"query": expression})
        return list(self.prometheus(f"query?{asked}")["result"])

    def opened_files(self) -> list[str]:
        words = f"--to /tmp/more.prom --state /tmp/more.json --store {STORE} --copies /srv/copies"
        words += " --disk /var/lib/counter --snapshots /srv/counter/snapshots"
        words += " --archive /srv/archive/counter"
        script = ("/usr/bin/python3", "-c", TROUBLES["OPENED"], "/opt/counter/watch/metrics")
        found = re.findall("(?m)^OPENED (.*)", self.machine.on(*script, *words.split()).stdout)
        return [urllib.parse.unquote(one.removeprefix("file:").partition("?")[0]) for one in found]
