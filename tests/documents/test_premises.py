"""HEADLINE's table names every premise of the law of command lines, and nothing else: they are read from
what `AccountsForLines` supposes, part by part. `RanLine` stands for what the clauses `line` and `ends` suppose, of
lines that ended (`run_line`) and of those that were cut off (`run_stopped`)."""

import re
from collections import defaultdict

import pytest

from tests.conftest import TOP

BANK, RUNNING, CODE = "specs/Bank.antt", "specs/Running.antt", "src/running.rt"
STOPPED = "src/stopping.rt"
TEXTS = {
    it: (TOP / "crates/ee_cli_stores" / it).read_text() for it in (BANK, RUNNING, CODE, STOPPED)
}


def names(statement: str) -> set[str]:
    """The relations and equations in a statement, without the types of its variables."""
    while (shorter := re.sub(r"\([^()]*\w : [^()]*\)", "", statement)) != statement:
        statement = shorter
    equations = re.findall(r"([\w.]+) ≡ ([\w.]+)", statement)
    found = re.findall(r"(?<![\w.])[A-Z]\w+|(?<=\.)may_\w+", statement)
    return {*found, *(" ≡ ".join(sorted(pair)) for pair in equations)}


def supposed(statement: str) -> set[str]:
    """The relations in what a statement supposes: all before its last arrow outside brackets."""
    arrows, depth = [0], 0
    for at, mark in enumerate(statement):
        depth += (mark in "({") - (mark in ")}")
        arrows += [at] if mark == "→" and depth == 0 else []
    return names(statement[: arrows[-1]])


def premises(texts: dict[str, str]) -> tuple[set[str], set[str]]:
    """The premises of the law by their names in the crates below, and also by those in its own."""
    meanings = defaultdict(list)
    for text in (texts[BANK], texts[RUNNING]):
        lines = re.sub(r"^ *--.*\n", "", text, flags=re.M).replace("\n    ", " ")
        for name, meaning in re.findall(r"^ *(\w+)\b.*? = (.*)", lines, re.M):
            meanings[name].append(meaning)
    code = texts[CODE] + texts[STOPPED]
    clauses = re.findall(r"ensures (?:line|ends) \{(.*?)\}\n", code, re.S)
    assert len(clauses) == 4
    ran = {name for clause in clauses for name in supposed(clause)}
    seen, waiting = set(), supposed(meanings["AccountsForLines"][0])
    while waiting:
        seen.add(name := waiting.pop())
        parts = ran if name == "RanLine" else names(" ".join(meanings.get(name, ())))
        waiting |= parts - seen
    return seen - (meanings.keys() - {"RanLine"}), seen


def listed() -> set[str]:
    section = (TOP / "docs/HEADLINE.md").read_text().split("\n## Its premises\n")[1]
    rows = [row.split(" | ")[:2] for row in section.split("\n## ")[0].split("\n") if row[:1] == "|"]
    return {name for row in rows for cell in row for name in re.findall(r"`([^`]+)`", cell)}


def test_table_has_the_premises() -> None:
    least, most = premises(TEXTS)
    assert least <= listed() <= most


@pytest.mark.parametrize(
    "file, before",
    [
        (BANK, "(lines : List Line) → "),
        (BANK, "RanLines held (line ∷ lines) found = (next : Image) × "),
        (RUNNING, "MayBeFound held (stores.AtRest files) found = "),
        (CODE, "ensures line { (c : Content) → "),
        (CODE, "ensures ends { (c : Content) → "),
        (STOPPED, "ensures line { AreSettled D.Disk stores.files → (c : Content) → "),
        (STOPPED, "ensures ends { AreSettled D.Disk stores.files → (c : Content) → "),
    ],
)
def test_another_premise_is_found(file: str, before: str) -> None:
    assert before in TEXTS[file]
    mark = "×" if "=" in before else "→"
    added = f"{before}IsLucky first {mark} c ≡ start {mark} "
    changed = {**TEXTS, file: TEXTS[file].replace(before, added, 1)}
    assert premises(changed)[0] - premises(TEXTS)[0] == {"IsLucky", "c ≡ start"}
