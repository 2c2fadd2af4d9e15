"""Adds up the rows of the command ee-value: inventory.py BONDS.csv RATES.csv YYYY-MM."""

import sys

import ee_value
from ee_value.command import read_bonds, read_rates, valued


def main(bonds: str, rates: str, month: str) -> int:
    found = list(valued(read_bonds(bonds, read_rates(rates)), ee_value.month_number(month)))
    refused = [bond for bond in found if bond.refusal]
    print(f"{len(found)} bonds in {month}, {len(refused)} refused")
    rows = [bond.row for bond in found if bond.row]
    for name in ("price", "interest", "value", "payable"):
        total = sum(getattr(row, f"{name}_cents") for row in rows)
        print(f"{name} {ee_value.dollars_and_cents(total)}")
    return 1 if refused else 0


if __name__ == "__main__":
    sys.exit(main(*sys.argv[1:]))
