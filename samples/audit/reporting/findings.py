"""What a test found: how many rows it tested, and each one that differs."""

import dataclasses
from typing import Any

MOST_KEPT = 1000  # differences of one test that are kept one by one; all are counted


@dataclasses.dataclass(frozen=True)
class Difference:
    """A row that differs: its table and key, what of it, what the store has and what the rules give."""

    table: str
    row: str
    what: str
    found: str
    wanted: str


@dataclasses.dataclass
class Findings:
    """A test, by a short name, a sentence and its source, with what it found."""

    name: str
    title: str
    source: str
    tested: int = 0
    differing: int = 0
    differences: list[Difference] = dataclasses.field(default_factory=list)
    remarks: list[str] = dataclasses.field(default_factory=list)

    def differs(self, table: str, row: str, what: str, found: object, wanted: object) -> None:
        self.differing += 1
        if len(self.differences) < MOST_KEPT:
            self.differences.append(Difference(table, row, what, shown(found), shown(wanted)))

    def compare(self, table: str, row: str, what: str, found: object, wanted: object) -> None:
        if found != wanted:
            self.differs(table, row, what, found, wanted)


def shown(value: object) -> str:
    return "nothing" if value is None else str(value)


def visible(value: Any) -> Any:
    """A value with every character that isn't printed replaced by its escape, in all its texts. So the
    text of a store can't move the cursor of a terminal, or turn the direction of a page's words."""
    if isinstance(value, str):
        return (
            value
            if value.isprintable()
            else "".join(
                one if one.isprintable() else one.encode("unicode_escape").decode() for one in value
            )
        )
    if isinstance(value, dict):
        return {visible(key): visible(one) for key, one in value.items()}
    return [visible(one) for one in value] if isinstance(value, (list, tuple)) else value
