#!/usr/bin/env python3
"""The command of the counter's Python client: clients/counter.py --help lists what it does (docs/COUNTER_CLIENT.md). For scripts import the package ee_counter_client.

It runs the package that stands in the folder python/src beside it, or else the one that is installed. A copy of this file alone needs the package to be installed.
"""
import sys
from pathlib import Path

SOURCE = Path(__file__).resolve().parent / "python" / "src"


def main() -> int:
    """Runs the command. Returns its status."""
    if SOURCE.is_dir():
        sys.path.insert(0, str(SOURCE))
    try:
        from ee_counter_client.command import main as command
    except ModuleNotFoundError as missing:
        if missing.name != "ee_counter_client":
            raise
        print(
            f"the package ee_counter_client is missing: install its wheel, or keep {SOURCE} with its content",
            file=sys.stderr,
        )
        return 3
    return command()


if __name__ == "__main__":
    sys.exit(main())
