"""Four counters behind one nginx, which chooses a counter by the serial numbers of a request (parts/): each bond is in the books of one of them, and paid once over all. This nginx is no fence."""

import json
import random
import shutil
import subprocess
from collections import Counter
from contextlib import closing
from pathlib import Path
from typing import Any

import pytest

from tests.conftest import at_once, is_listening, until
from tests.shared.counter_calls import KINDS, RATES, Answer, answered, bond, free_port, post, rows
from tests.shared.counter_calls import serve

MODULE = "file:/usr/lib/nginx/modules/ngx_http_js_module.so"
pytestmark = [pytest.mark.nginx, pytest.mark.needs(MODULE)]
HERE = Path(__file__).resolve().parent / "parts"
PARTS, DESKS, BONDS, DAY = 4, 5, 200, "2012-02-06"
#: What all bonds together pay.
CENTS = sum(int(KINDS[turn % 3][2].replace(".", "")) for turn in range(BONDS))
Answers = dict[tuple[int, int], Answer]


def redemption(desk: int, n: int, *serials: str) -> dict[str, Any]:
    named = {"desk": desk, "number": n, "day": DAY, "payee": 7}
    return named | {"serials": list(serials) or [f"A{n}EE"]}


class Bank:
    """Four counters with stores of their own, and nginx before them."""

    def __init__(self, program: Path, folder: Path, route: str) -> None:
        self.port, ports = free_port(), [free_port() for _ in range(PARTS)]
        self.stores = [folder / f"part{part}.db" for part in range(PARTS)]
        pairs = list(zip(self.stores, ports))
        self.processes: list[subprocess.Popen[Any]] = [serve(program, *pair) for pair in pairs]
        text = (HERE / "nginx.conf").read_text().replace("by_serial", route)
        text = text.replace("FOLDER", str(folder)).replace("PORT;", f"{self.port};")
        for part, port in enumerate(ports):
            text = text.replace(f"PART{part}", str(port))
        (folder / "nginx.conf").write_text(text)
        shutil.copy(HERE / "route.js", folder)
        words = ["nginx", "-c", f"{folder}/nginx.conf", "-e", f"{folder}/nginx.log"]
        self.processes.append(subprocess.Popen([*words, "-g", "daemon off;"]))
        until(lambda: is_listening(self.port), "nginx doesn't listen")
        for part in range(PARTS):
            rates, opening = {"number": 1, "rates": RATES}, {"number": 2, "day": DAY}
            assert self.ask(f"/part/{part}/rates", rates)[0] == 200
            assert self.ask(f"/part/{part}/day/open", opening)[0] == 200

    def ask(self, path: str, value: object) -> Answer:
        return answered(self.port, post(path, value, b"Host: bank\r\nConnection: close\r\n"))

    def close(self) -> None:
        for process in self.processes:
            process.terminate()
            process.wait()

    def day_of(self, desk: int, answers: Answers) -> None:
        """A desk registers all bonds and pays each by a request of its own, in an order of its own."""
        order = list(range(1, BONDS + 1))
        random.Random(desk).shuffle(order)
        for part in range(PARTS):
            bonds = [bond(n - 1) for n in order if n % PARTS == part]
            self.ask("/bonds", {"desk": desk, "number": 10_000 + part, "bonds": bonds})
        for n in order:
            answers[desk, n] = self.ask("/redeem", redemption(desk, n))

    def all_desks(self) -> Answers:
        answers: Answers = {}
        at_once(lambda nth: self.day_of(nth + 1, answers), DESKS)
        assert len(answers) == DESKS * BONDS
        return answers

    def paid(self) -> tuple[Counter[int], int]:
        asked = "SELECT number, cents FROM paid"
        paid = [row for store in self.stores for row in rows(store, asked)]
        return Counter(n for n, _ in paid), sum(cents for _, cents in paid)


def test_by_serial_number(program: Path, folder: Path) -> None:
    with closing(Bank(program, folder, "by_serial")) as bank:
        answers = bank.all_desks()
        first = {n: desk for (desk, n), (status, _) in answers.items() if status == 200}
        for n, desk in first.items():
            assert bank.ask("/redeem", redemption(desk, n)) == answers[desk, n], "a retry"
        of_two = bank.ask("/redeem", redemption(1, 9999, "A1EE", "A2EE"))
        assert of_two == (400, '{"forbidden":"parts"}')
        for nth, spelled in enumerate(("A-1-EE", "A0000000001EE", "a1ee")):
            assert bank.ask("/redeem", redemption(1, 9990 + nth, spelled))[0] != 200
        third = {"number": 3, "day": DAY}
        closed = [bank.ask(f"/part/{part}/day/close", third)[1] for part in range(PARTS)]
    tickets = [json.loads(batch)["tickets"] for batch in closed]
    assert sum(tickets) == BONDS == len(first) and min(tickets) > 0
    everyone = Counter(range(1, BONDS + 1))
    numbers = [row for store in bank.stores for row in rows(store, "SELECT number FROM bonds")]
    assert Counter(n for n, in numbers) == everyone and bank.paid() == (everyone, CENTS)
    refused = [text for status, text in answers.values() if status != 200]
    assert len(refused) == (DESKS - 1) * BONDS and all("AlreadyPaid" in text for text in refused)


def test_control_by_desk(program: Path, folder: Path) -> None:
    """If the desk chooses the counter, bonds are paid more than once."""
    with closing(Bank(program, folder, "by_desk")) as bank:
        bank.all_desks()
    paid, cents = bank.paid()
    assert cents > CENTS and len([n for n, times in paid.items() if times > 1]) == BONDS
