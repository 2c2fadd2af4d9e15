"""What the measurements that compare the counter with others share: requests, the bonds that they are about, and the counter in C (peer.c)."""
from __future__ import annotations

import json
import subprocess
from pathlib import Path

DAY, MONTH = "2015-05-04", "2015-05"
ISSUES = [f"{year}-{month:02}" for year in range(2006, 2014) for month in range(1, 13)]
DENOMS = [50, 75, 100, 200, 500, 1000, 5000, 10000]
#: Owners of 10, 100 and 2,000 unpaid bonds, of 20 unpaid and 2,000 paid ones, and of those that are paid and imported.
TEN, HUNDRED, TWO_THOUSAND, HALF_PAID, PAYEE = 1, 2, 3, 4, 5
#: What is asked for, in the order of the tables. The counter in Python doesn't import.
VALUE, ONE, ONE_AGAIN, MANY, MANY_AGAIN = (
    "a value",
    "a redemption of one bond",
    "the same again",
    "a ticket of 100 bonds",
    "that ticket again",
)
LISTS = {
    "an inventory of 10 bonds": TEN,
    "an inventory of 100": HUNDRED,
    "an inventory of 2,000": TWO_THOUSAND,
    "20 bonds unpaid and 2,000 paid": HALF_PAID,
}
IMPORT = "an import of 500 bonds"
Bonds = list[dict[str, str | int]]


def post(path: str, value: object) -> bytes:
    body = json.dumps(value, separators=(",", ":")).encode()
    return b"POST %s HTTP/1.1\r\nContent-Length: %d\r\n\r\n%s" % (path.encode(), len(body), body)


def get(path: str) -> bytes:
    return b"GET %s HTTP/1.1\r\n\r\n" % path.encode()


def bonds_of(owner: int, letter: str, first: int, last: int) -> Bonds:
    return [
        {
            "serial": f"{letter}{n}EE",
            "denom": DENOMS[n % 8],
            "issued": ISSUES[n % 96],
            "owner": owner,
        }
        for n in range(first, last + 1)
    ]


def entered(number: int, bonds: Bonds) -> list[bytes]:
    return [
        post("/bonds", {"number": number + at, "bonds": bonds[at : at + 500]})
        for at in range(0, len(bonds), 500)
    ]


def redemption(number: int, payee: int, letter: str, first: int, last: int) -> bytes:
    return post(
        "/redeem",
        {
            "number": number,
            "day": DAY,
            "payee": payee,
            "serials": [f"{letter}{n}EE" for n in range(first, last + 1)],
        },
    )


def value(place: int) -> bytes:
    return get(f"/value/{DENOMS[place % 8]}/{ISSUES[place % 96]}/{MONTH}")


def inventory(owner: int) -> bytes:
    return get(f"/inventory/{owner}/{MONTH}")


def beginning(bonds: int, to_pay: int) -> list[bytes]:
    """Rates, an open day, as many bonds of other owners as said, those of the owners above, 2,000 of which are paid, and `to_pay` bonds of the payee."""
    rates = [
        {"from": f"{2005 + half // 2}-{5 + half % 2 * 6:02}", "rate": f"{1 + half % 4}.{half:02}"}
        for half in range(20)
    ]
    stream = [
        post("/rates", {"number": 1, "rates": rates}),
        post("/day/open", {"number": 2, "day": DAY}),
    ]
    stream += entered(
        1_000_000,
        [
            bond
            for first in range(1, bonds + 1, 100)
            for bond in bonds_of(1000 + first // 100, "A", first, min(first + 99, bonds))
        ],
    )
    stream += (
        entered(10_000, bonds_of(TEN, "B", 1, 10))
        + entered(20_000, bonds_of(HUNDRED, "C", 1, 100))
        + entered(30_000, bonds_of(TWO_THOUSAND, "D", 1, 2000))
    )
    stream += entered(40_000, bonds_of(HALF_PAID, "E", 1, 2020)) + entered(
        50_000, bonds_of(PAYEE, "F", 1, to_pay)
    )
    return stream + [
        redemption(60_000 + first, HALF_PAID, "E", first, first + 99)
        for first in range(1, 2000, 100)
    ]


def built_peer(folder: str | Path) -> str:
    """Builds the counter in C. Returns its path."""
    peer = Path(folder) / "peer"
    subprocess.run(
        ["cc", "-O2", "-o", peer, Path(__file__).with_name("peer.c"), "-lsqlite3", "-lquadmath"],
        check=True,
    )
    return str(peer)
