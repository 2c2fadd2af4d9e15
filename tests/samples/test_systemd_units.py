"""The units of samples/ as `systemd-analyze` reads them. They need neither root nor a running systemd."""

import os
import re
from pathlib import Path

import pytest

from tests.conftest import TOP
from tests.restore.counter_day import Ran, run

SAMPLES = TOP / "samples"
KINDS = (".service", ".socket", ".timer")
UNITS = {path.name: path for path in SAMPLES.glob("*/*") if path.suffix in KINDS}
#: Those whose folders and users the package makes, with nginx: tests/fence runs them on a machine.
PACKAGED = ("counter-nginx.service", "counter-revoked.service", "counter-revoked.timer")
FOLDERS = {
    "/opt/counter/restore": SAMPLES / "restore",
    "/opt/counter/watch": SAMPLES / "watch",
    "/opt/counter/snapshot_copy": SAMPLES / "snapshots/snapshot_copy",
    "/opt/counter/wait_until_served": SAMPLES / "systemd/wait_until_served",
    "/opt/counter/replicated/serve_replicated": SAMPLES / "replicated/serve_replicated",
}
MOST = 2.0
PROTECTIONS = r"(?m)^(Protect|Private|Restrict|NoNewPrivileges|CapabilityBoundingSet).*\n"
pytestmark = pytest.mark.needs("systemd-analyze", "ip", "glusterd")


def analyze(*words: object) -> Ran:
    env = {**os.environ, "SYSTEMD_COLORS": "0", "LC_ALL": "C.UTF-8"}
    return run("systemd-analyze", *words, env=env)


@pytest.fixture
def units(program: Path, tmp_path: Path) -> Path:
    """Copies of the units, with the paths of this machine."""
    for name, path in UNITS.items():
        text = path.read_text().replace("/opt/counter/ee_cli", str(program))
        for installed, here in FOLDERS.items():
            text = text.replace(installed, str(here))
        (tmp_path / name).write_text(text)
    return tmp_path


def change(unit: Path, pattern: str, new: str) -> None:
    text = unit.read_text()
    assert re.search(pattern, text)
    unit.write_text(re.sub(pattern, new, text))


def test_verified(units: Path) -> None:
    ran = analyze("verify", *(units / name for name in UNITS if name not in PACKAGED))
    assert (ran.returncode, ran.stdout + ran.stderr) == (0, "")
    change(units / "counter.service", "Type=exec", "Type=nonsense")
    ran = analyze("verify", units / "counter.service")
    assert "nonsense" in ran.stdout + ran.stderr, "control: a type that there isn't"


def exposure(unit: Path) -> float:
    ran = analyze("security", "--offline=true", "--no-pager", unit)
    found = re.search(r"Overall exposure level for \S+: ([\d.]+)", ran.stdout)
    assert ran.returncode == 0 and found, ran
    return float(found[1])


def test_exposures(units: Path) -> None:
    names = ("counter", "counter-archive-check", "counter-http", "counter-watch")
    rated = {name: exposure(units / f"{name}.service") for name in names}
    assert max(rated.values()) <= MOST, rated
    change(units / "counter.service", PROTECTIONS, "")
    assert exposure(units / "counter.service") > MOST, "control: without its protections"


@pytest.mark.parametrize("name", [name for name in UNITS if name.endswith(".timer")])
def test_times(name: str) -> None:
    for when in re.findall(r"(?m)^OnCalendar=(.*)$", UNITS[name].read_text()):
        assert "Next elapse" in analyze("calendar", when).stdout, when
    assert analyze("calendar", "*-*-* 25:30:00").returncode != 0, "control"


@pytest.mark.needs("systemd-sysusers")
def test_user(tmp_path: Path) -> None:
    (tmp_path / "etc").mkdir()
    ran = run("systemd-sysusers", "--root", tmp_path, SAMPLES / "systemd/counter.sysusers")
    made = r"(?m)^counter:x:\d+:\d+:Counter of savings bonds:/var/lib/counter:"
    assert re.search(made, (tmp_path / "etc/passwd").read_text()), ran
