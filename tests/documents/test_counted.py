"""Numbers, versions and tables of the documents. WRITE=1 writes WATCHING's table of alerts anew."""

import os
import re
import subprocess
import tomllib
from collections.abc import Callable

import pytest

from tests.conftest import TOP

ALERTS = "<!-- the alerts of samples/watch/alerts.yml: WRITE=1 pytest tests/documents/test_counted.py -->\n"
END_OF_ALERTS = "<!-- the end of the alerts -->"


def text(path: str) -> str:
    return (TOP / path).read_text(encoding="utf-8")


def only(path: str, pattern: str) -> str:
    return str(re.findall(pattern, text(path), re.M)[0])


def count(path: str, pattern: str) -> str:
    return str(len(re.findall(pattern, text(path), re.M)))


STORE = r'version_line = codes "ee_cli [\d.]+, store version (\d+)"'
PROGRAM = ("crates/ee_cli_commands/src/rows.rt", r'VERSION: &str = "([\d.]+)"')
#: Numbers and versions that can be counted, or stand in one place.
THERE: dict[str, Callable[[], str]] = {
    "alerts": lambda: count("samples/watch/alerts.yml", r"^  - alert: "),
    "kinds": lambda: count("tests/samples/parts/damage.toml", r"^\[\[kind\]\]"),
    "program": lambda: only(*PROGRAM),
    "store": lambda: only("crates/ee_cli_program/specs/Statuses.antt", STORE),
    "client": lambda: only("clients/python/src/ee_counter_client/version.py", r'"([\d.]+)"'),
    "library": lambda: only("clients/value/package.json", r'"version": "([\d.]+)"'),
    "messages": lambda: only("docs/openapi.json", r'"version": "([\d.]+)"'),
    "libc": lambda: functions("libc"),
    "os": lambda: functions("os"),
    "both": lambda: str(int(functions("libc")) + int(functions("os"))),
}


def functions(of: str) -> str:
    listed = rf"(?s)^- (?:\d+) of the \d+ that `{of}` declares: (.*?)\.$"
    return str(len(only("docs/ASSUMPTIONS.md", listed).split()))


FACTS = tomllib.loads(text("tests/documents/facts.toml"))["facts"]


@pytest.mark.parametrize("path, pattern, what", FACTS)
def test_fact(path: str, pattern: str, what: str) -> None:
    """A line may end at every space. Control: the number one higher is another one."""
    pattern, page, wanted = pattern.replace(" ", r"\s+"), text(path), THERE[what]()
    assert set(re.findall(pattern, page, re.M)) == {wanted}
    found = re.search(pattern, page, re.M)
    assert found is not None
    higher = re.sub(r"\d+$", lambda digits: str(int(digits[0]) + 1), found[1])
    changed = page[: found.start(1)] + higher + page[found.end(1) :]
    assert set(re.findall(pattern, changed, re.M)) != {wanted}


def plain(words: str) -> str:
    """A text of an alert, with names in the place of Prometheus' labels and values."""
    words = words.replace("{{ $labels.instance }}: ", "").replace('\\"', '"').replace("|", "\0")
    words = re.sub(r"\{\{ \$labels\.(\w+) \}\}", lambda label: label[1].upper(), words)
    return re.sub(r"\{\{ \$value[^}]*\}\}", "N", words).replace("\0", "\\|")


def alert_table(rules: str) -> str:
    """A row for every alert: its name, severity, what it says, after how long, and what to do."""
    rows = ["", "| Alert | Severity | Says | After | Do |", "|---|---|---|---|---|"]
    for rule in re.split(r"^  - alert: ", rules, flags=re.M)[1:]:
        name = rule.split("\n")[0].removeprefix("Ladwenpik")
        of = dict(re.findall(r'^ +(summary|action|for): "?(.*?)"?$', rule, re.M))
        after = of["for"].replace("m", " min") if "for" in of else "at once"
        (severity,) = re.findall(r"severity: (\w+)", rule)[:1]
        says, do = plain(of["summary"]), plain(of["action"])
        rows.append(f"| {name} | {severity} | {says} | {after} | {do} |")
    return "\n".join(rows) + "\n\n"


def test_table_of_alerts() -> None:
    rules, page = text("samples/watch/alerts.yml"), text("docs/WATCHING.md")
    before, mark, rest = page.partition(ALERTS)
    table, end, after = rest.partition(END_OF_ALERTS)
    assert mark and end
    if "WRITE" in os.environ:
        table = alert_table(rules)
        (TOP / "docs/WATCHING.md").write_text(before + mark + table + end + after)
    assert table == alert_table(rules)
    other = rules.replace("alert: LadwenpikSlow", "alert: LadwenpikSlower")
    assert table != alert_table(other), "control: another alert"


def test_marks_of_benchmarks() -> None:
    ran = subprocess.run([TOP / "benchmarks/all", "--check"], stdout=subprocess.PIPE, text=True)
    assert ran.returncode == 0, ran.stdout


def test_clients_are_named() -> None:
    page, folders = text("clients/README.md"), [path for path in (TOP / "clients").iterdir()]
    names = {path.name for path in folders if path.is_dir()} - {"out", "__pycache__"}
    assert [name for name in names if f"`{name}/`" not in page] == []
    assert "`none/`" not in page, "control"
