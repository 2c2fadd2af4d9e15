"""The packages of the value module: the same bytes twice, tags that an index takes, a RECORD that holds, pip in a new venv, types, and one sentence for each library that is none."""

import base64
import csv
import hashlib
import os
import re
import shutil
import subprocess
import zipfile
from pathlib import Path
from typing import Any

import pytest

from tests.conftest import TOP
from tests.shared.counter_calls import run

VALUE = TOP / "clients/value"
PYTHON = "/usr/bin/python3"
pytestmark = pytest.mark.needs("file:clients/value/out/libee_value.a")
BUILDING = pytest.mark.needs("module:build", "module:hatchling")
#: What an index takes of a Linux wheel: the names of PEP 600, and the earlier ones.
TAGS = r"py3-none-manylinux_2_[0-9]+_(x86_64|aarch64)(\.manylinux(1|2014)_\1)?"
TAKEN = re.compile(rf"ee_value-[0-9.]+-{TAGS}\.whl")
PLAIN = {name: value for name, value in os.environ.items() if not name.startswith("PYTHON")}


def ran(*words: object, **more: Any) -> subprocess.CompletedProcess[str]:
    return run(*words, **{"env": PLAIN, "stderr": subprocess.PIPE, **more})


def done(*words: object, **more: Any) -> str:
    found = ran(*words, **more)
    assert found.returncode == 0, found
    return found.stdout


def packed(place: Path, more: str = "") -> dict[str, Path]:
    """The sdist and a wheel for each processor whose library is there, of a copy of the sources with `more` at the end of a module."""
    copy, out = place / "sources", place / "packages"
    shutil.copytree(VALUE, copy, ignore=shutil.ignore_patterns("__pycache__"))
    with open(copy / "ee_value/__init__.py", "a", encoding="utf-8") as file:
        file.write(more)
    line = (PYTHON, "-m", "build", "--no-isolation", "--outdir", out)
    way: dict[str, Any] = {"cwd": copy, "env": {**PLAIN, "SOURCE_DATE_EPOCH": "1700000000"}}
    done(*line, "--sdist", **way)
    for processor, folder in {"x86_64": "", "aarch64": "aarch64"}.items():
        if (VALUE / "out" / folder / "libee_value.so.1").exists():
            done(*line, "--wheel", f"-Cprocessor={processor}", **way)
    return {file.name: file for file in sorted(out.iterdir())}


@pytest.fixture(scope="module")
def packages(tmp_path_factory: pytest.TempPathFactory) -> dict[str, Path]:
    return packed(tmp_path_factory.mktemp("packed"))


@pytest.fixture(scope="module")
def wheel(packages: dict[str, Path]) -> Path:
    return next(path for name, path in packages.items() if name.endswith("x86_64.whl"))


@BUILDING
def test_same_bytes(packages: dict[str, Path], tmp_path: Path) -> None:
    """From another copy under another mask. Control: with another comment all bytes are others."""
    first = {name: file.read_bytes() for name, file in packages.items()}
    mask = os.umask(0o077)
    try:
        second = packed(tmp_path / "two")
        other = packed(tmp_path / "other", "# more\n")
    finally:
        os.umask(mask)
    assert {name: file.read_bytes() for name, file in second.items()} == first and len(first) >= 2
    assert not {file.read_bytes() for file in other.values()} & set(first.values())


@BUILDING
@pytest.mark.needs("twine")
def test_what_an_index_takes(packages: dict[str, Path]) -> None:
    wheels = [name for name in packages if name.endswith(".whl")]
    assert wheels and all(TAKEN.fullmatch(name) for name in wheels)
    assert not TAKEN.fullmatch("ee_value-1.0.0-py3-none-linux_x86_64.whl"), "control"
    assert done("twine", "check", *packages.values()).count("PASSED") == len(packages)


def recorded(wheel: Path) -> None:
    """Each file has the checksum and the length of RECORD, and the library is that of its processor."""
    folder = VALUE / "out" / ("aarch64" if "aarch64" in wheel.name else "")
    with zipfile.ZipFile(wheel) as archive:
        (name,) = (entry for entry in archive.namelist() if entry.endswith("RECORD"))
        rows = [row for row in csv.reader(archive.read(name).decode().splitlines()) if row[1]]
        assert {row[0] for row in rows} == set(archive.namelist()) - {name}
        for path, checksum, size in rows:
            data = archive.read(path)
            digest = base64.urlsafe_b64encode(hashlib.sha256(data).digest()).rstrip(b"=").decode()
            assert (checksum, int(size)) == (f"sha256={digest}", len(data)), path
        library = archive.read("ee_value/libee_value.so.1")
    assert library == (folder / "libee_value.so.1").read_bytes()


@BUILDING
def test_record(packages: dict[str, Path], wheel: Path, tmp_path: Path) -> None:
    for name, path in packages.items():
        if name.endswith(".whl"):
            recorded(path)
    changed = tmp_path / wheel.name
    with zipfile.ZipFile(wheel) as whole, zipfile.ZipFile(changed, "w") as other:
        for entry in whole.namelist():
            text = whole.read(entry)
            other.writestr(entry, text + b"\n" if entry == "ee_value/__init__.py" else text)
    with pytest.raises(AssertionError):  # control: a byte more
        recorded(changed)


@pytest.fixture(scope="module")
def python(tmp_path_factory: pytest.TempPathFactory, wheel: Path) -> Path:
    place = tmp_path_factory.mktemp("installed")
    done(PYTHON, "-m", "venv", place / "venv")
    found = place / "venv/bin/python"
    done(found, "-m", "pip", "install", "--disable-pip-version-check", "--no-index", wheel)
    return found


ASKED = "import ee_value as it; print(it.cents(50, '2010-05', '2015-05', '3.50'), it.__file__)"


@BUILDING
@pytest.mark.needs("module:venv")
def test_installed(python: Path, tmp_path: Path) -> None:
    """The wheel, and the folder of the sources."""
    assert done(python, "-c", ASKED, cwd=tmp_path).startswith(f"2974 {python.parents[1]}/lib/")
    copy = tmp_path / "sources"
    shutil.copytree(VALUE, copy)
    words = ("install", "--quiet", "--disable-pip-version-check", "--no-index", copy)
    done(PYTHON, "-m", "venv", tmp_path / "venv")
    done(tmp_path / "venv/bin/pip", *words)
    shutil.rmtree(copy)
    found = done(tmp_path / "venv/bin/python", "-c", ASKED, cwd=tmp_path)
    assert found.startswith(f"2974 {tmp_path}/venv/lib/")


USER = """
import ee_value

price: int = ee_value.row(50, "2010-05", "2030-11", "3.40").price_cents
paid: int = ee_value.cents(50, "2010-05", "2015-05", "3.50")
"""


USES = [("", ""), ("paid: int", "paid: str"), ('"3.50"', "3.5")]


@BUILDING
@pytest.mark.needs("mypy", "module:venv")
def test_types(python: Path, tmp_path: Path) -> None:
    """A program that uses the wheel is right by mypy --strict, and each wrong use of it is named."""
    names = [f"user{place}.py" for place in range(len(USES))]
    for name, (old, new) in zip(names, USES):
        (tmp_path / name).write_text(USER.replace(old, new) if old else USER)
    words = ("mypy", "--strict", "--config-file=", "--cache-dir", tmp_path / "cache")
    found = ran(*words, "--python-executable", python, *names, cwd=tmp_path)
    wrong = {line.partition(":")[0] for line in found.stdout.splitlines() if ": error:" in line}
    assert wrong == set(names[1:]), found.stdout


LIBRARIES = ["missing", "text", "libm", "aarch64"]


@BUILDING
@pytest.mark.needs("module:venv")
@pytest.mark.parametrize("what", LIBRARIES)
def test_no_library(python: Path, tmp_path: Path, what: str) -> None:
    """A library that isn't there, is none, is another one or another processor's is told in one sentence."""
    paths = {"libm": Path("/lib/x86_64-linux-gnu/libm.so.6")}
    paths["aarch64"] = VALUE / "out/aarch64/libee_value.so.1"
    path = paths.get(what, tmp_path / what)
    (tmp_path / "text").write_text("no library\n")
    if what == "aarch64" and not path.exists():
        pytest.skip(f"needs {path.relative_to(TOP)} (clients/value/build aarch64 makes it)")
    program = "try:\n import ee_value\nexcept ImportError as error:\n print(error)"
    found = ran(python, "-c", program, env={"EE_VALUE_LIBRARY": str(path)}, cwd=tmp_path)
    assert found.stdout.count("\n") == 1 and found.stderr == ""
    assert str(path.resolve()) in found.stdout


def test_sources_without_a_library(tmp_path: Path) -> None:
    copy = tmp_path / "bare"
    shutil.copytree(VALUE, copy, ignore=shutil.ignore_patterns("out", "__pycache__"))
    found = ran(PYTHON, "-c", "import ee_value", cwd=copy)
    wanted = "ImportError: the library is missing: there is no "
    assert found.returncode == 1 and found.stderr.splitlines()[-1].startswith(wanted)
    found = ran(PYTHON, "-c", "import value_wheel; value_wheel.build_wheel('.')", cwd=copy)
    assert found.returncode == 1 and found.stderr.count("\n") == 1
    assert "the library is missing" in found.stderr
