#!/usr/bin/env python3
"""Measures what the sample's nginx costs: fence.py PROGRAM FOLDER [REQUESTS], where PROGRAM is the built ee_cli. FOLDER gets the stores and nginx's files. It needs Debian's nginx-light, easy-rsa and
openssl.

A teller redeems REQUESTS bonds (100 without the number), one a request, each over a connection of its own with the teller's certificate, as the page and the Python client do. The processor time of
nginx's workers and of the counter is counted. The server's key is on the curve P-256, or one of RSA; the staff's are on the curve. The rounds of both alternate. It prints medians, in milliseconds a
request."""
from __future__ import annotations

import statistics
import subprocess
import sys
from pathlib import Path

sys.dont_write_bytecode = True
TOP = Path(__file__).resolve().parents[1]
sys.path.insert(0, str(TOP))

from tests.shared.counter_calls import apply, beginning, free_port, post, serve  # noqa: E402
from tests.fence.site import Site, workers  # noqa: E402

REQUESTS, ROUNDS = 100, 9
DAY = "2012-02-06"
UNLIMITED = {"rate=10r/s": "rate=100000r/s"}
CURVE, RSA = "P-256", "RSA, 2,048 bits"


def with_key_of_rsa(site: Site) -> None:
    names = ["-subj", f"/CN={site.name}", "-addext", f"subjectAltName=IP:{site.name}"]
    files = ["-keyout", f"{site.folder}/key.pem", "-out", f"{site.folder}/certificate.pem"]
    subprocess.run(
        ["openssl", "req", "-x509", "-newkey", "rsa:2048", "-nodes", "-days", "2", *names, *files],
        check=True,
        capture_output=True,
    )
    site.restart()


def spent(processes: list[int]) -> float:
    """Milliseconds of a processor that these processes, which have one thread, have taken."""
    return (
        sum(int(Path(f"/proc/{process}/schedstat").read_text().split()[0]) for process in processes)
        / 1e6
    )


def measured(program: str, folder: Path, key: str, requests: int) -> tuple[float, float]:
    """Milliseconds a request of nginx's workers, and of the counter."""
    folder.mkdir(parents=True)
    store, port = folder / "day.db", free_port()
    apply(
        program,
        store,
        [*beginning(requests), post("/day/open", {"number": 1_000_000, "day": DAY}, b"")],
    )
    counter = serve(program, store, port)
    try:
        site = Site(
            folder / "nginx", f"http://127.0.0.1:{port}", {"anna": "teller"}, changed=UNLIMITED
        )
        try:
            if key == RSA:
                with_key_of_rsa(site)
            processes = list(map(int, workers(site.process.pid)))
            before, before_counter = spent(processes), spent([counter.pid])
            for place in range(1, requests + 1):
                answer = site.ask(
                    "anna",
                    "POST",
                    "/redeem",
                    {
                        "desk": 5,
                        "number": place,
                        "day": DAY,
                        "payee": 7,
                        "serials": [f"A{place}EE"],
                    },
                )
                if f'"ticket":{place},' not in answer.text:
                    sys.exit(f"fence.py: {answer}")
            return (spent(processes) - before) / requests, (
                spent([counter.pid]) - before_counter
            ) / requests
        finally:
            site.end()
    finally:
        counter.kill()
        counter.wait()


def main() -> None:
    program, folder = sys.argv[1], Path(sys.argv[2]).resolve()
    requests = int(sys.argv[3]) if len(sys.argv) > 3 else REQUESTS
    rounds = [
        {
            key: measured(program, folder / f"{turn}-{key[:3]}", key, requests)
            for key in (CURVE, RSA)
        }
        for turn in range(ROUNDS)
    ]
    print(
        "| The server's key | nginx | the counter | nginx, compared with the counter |\n|---|---|---|---|"
    )
    for key in (CURVE, RSA):
        nginx, counter = (
            statistics.median(found[key][part] for found in rounds) for part in (0, 1)
        )
        print(f"| {key} | {nginx:.2f} | {counter:.2f} | {nginx / counter:.1f} |")


main()
