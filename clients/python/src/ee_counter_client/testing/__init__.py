"""Helpers for the tests of a program that uses this package: a small counter in memory, and a gate that does harm to messages.

    from ee_counter_client import Counter
    from ee_counter_client.testing import FakeCounter, Gate

    with FakeCounter() as fake, Gate(fake) as gate, Counter(journal, gate.address, desk=3) as counter:
        gate.faults = ["lost answer"]
        ticket = counter.redeem("2012-02-06", 7, ["L1EE"])
        assert ticket.request.sent == 2 and fake.tickets == 1

The fake counter is no bank's books: it pays every bond its issue price, without interest, unless a test gives it values.
"""
from .fake import FakeCounter
from .gate import AFTER, BEFORE, ENDING, FAULTS, OF_ONE_SENDING, Gate

__all__ = ["AFTER", "BEFORE", "ENDING", "FAULTS", "FakeCounter", "Gate", "OF_ONE_SENDING"]
