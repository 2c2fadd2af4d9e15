"""samples/watch/alerts.yml by Debian's promtool: the rules pass their tests, which find each broken rule."""

import re
import subprocess
from pathlib import Path
from typing import Iterator

import pytest

from tests.conftest import TOP

pytestmark = pytest.mark.needs("promtool")
WATCH = TOP / "samples/watch"
RULES = (WATCH / "alerts.yml").read_text()
HEAD, *BLOCKS = re.split(r"(?=  - alert: )", RULES)
TESTS_HEAD, *TESTS = re.split(r"(?=- name: )", (WATCH / "alerts_test.yml").read_text())
#: A test of the alert of a host that is gone, by hours.
DAYS = """rule_files: [alerts.yml]
evaluation_interval: 1h
tests:
- interval: 1h
  input_series:
  - {series: 'ladwenpik_watch_timestamp_seconds{instance="a"}', values: '0+3600x10 stale'}
  - {series: 'ladwenpik_watch_timestamp_seconds{instance="b"}', values: '0+3600x400'}
  promql_expr_test:
  - {expr: 'count by (instance) (FIRING)', eval_time: 10h, exp_samples: []}
  - {expr: 'count by (instance) (FIRING)', eval_time: 12h, exp_samples: [{labels: '{instance="a"}', value: 1}]}
  - {expr: 'count by (instance) (FIRING)', eval_time: 13d, exp_samples: [{labels: '{instance="a"}', value: 1}]}
  - {expr: 'count by (instance) (FIRING)', eval_time: 15d, exp_samples: []}
""".replace(
    "FIRING", 'ALERTS{alertname="LadwenpikHostGone", alertstate="firing"}'
)


def promtool(*words: str) -> str:
    """What promtool says, or nothing if all is well."""
    ran = subprocess.run(["promtool", *words], stdout=-1, stderr=subprocess.STDOUT, text=True)
    return ran.stdout if ran.returncode else ""


def fault(folder: Path, rules: str, tests: str) -> str:
    (folder / "alerts.yml").write_text(rules)
    (folder / "alerts_test.yml").write_text(tests)
    return promtool("test", "rules", str(folder / "alerts_test.yml"))


def name_of(block: str) -> str:
    return block.partition("alert: Ladwenpik")[2].partition("\n")[0]


def broken(block: str) -> Iterator[tuple[str, str]]:
    """Rules that differ from this one: a comparison turned round, a wait of hours, hosts that are taken for one."""
    turns = {">": " <= ", ">=": " < ", "<": " >= ", "==": " != ", "unless": " and "}
    head, end = block.split("    labels:", 1)
    others = {
        "turned": re.sub(r" (>=?|<|==|unless) ", lambda sign: turns[sign[1]], head, count=1),
        "waits": re.sub(r"for: \d+m", "for: 3h", head)
        if "for: " in head
        else f"{head}    for: 3h\n",
    }
    if "(instance" in head:
        others["one host"] = head.replace("(instance, ", "(").replace("(instance)", "()")
    for what, other in others.items():
        yield what, f"{other}    labels:{end}"


def test_the_rules() -> None:
    assert promtool("check", "rules", str(WATCH / "alerts.yml")) == ""
    assert promtool("test", "rules", str(WATCH / "alerts_test.yml")) == ""
    for block in BLOCKS:
        assert re.search(r'action: "[A-Z].*\."', block), "each of them says what to do"


@pytest.mark.parametrize("block", BLOCKS, ids=name_of)
def test_a_broken_rule(tmp_path: Path, block: str) -> None:
    own = [test for test in TESTS if test.startswith(f'- name: "{name_of(block)}: ')]
    for what, other in broken(block):
        assert other != block and fault(tmp_path, HEAD + other, TESTS_HEAD + "".join(own)), what


def test_a_host_that_is_gone(tmp_path: Path) -> None:
    """Its alert lasts for 13 days, and ends after 14. Control: a range of an hour doesn't."""
    assert fault(tmp_path, RULES, DAYS) == ""
    assert fault(tmp_path, RULES.replace("[14d]", "[1h]"), DAYS)
