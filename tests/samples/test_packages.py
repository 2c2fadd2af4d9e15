"""The Debian packages as files: the same bytes twice, lintian, the lists of materials, the evidence, and a signed release. What a machine does with them is in tests/fence."""

import copy
import json
import os
import re
import shutil
import subprocess
from pathlib import Path
from typing import Any, Callable, Iterator

import pytest

from tests.conftest import TOP
from tests.fence.conftest import blocks
from tests.fence.fresh import bootstrap
from tests.restore.counter_day import run
from tests.samples.releases import Packages, Tree, change, end_keys, library_in, make_key, sum_of
from tests.shared.counter_calls import matched

pytestmark = pytest.mark.needs("dh", "esbuild", "fakeroot", "git", "cc")
#: What the machine that builds may have otherwise, and the packages mustn't show.
OTHERWISE = {"TZ": "Asia/Tokyo", "LC_ALL": "C", "HOME": "/nonexistent"}
FIELDS = Path(__file__).parent / "parts/spdx_fields.json"
Listed = dict[str, Any]
Words = tuple[object, ...]
Alter = Callable[[Listed], object]


@pytest.fixture(scope="module")
def words(program: Path, place: Path) -> Words:
    return "--program", program, "--library", library_in(place / "library")


@pytest.fixture(scope="module")
def tree(program: Path, place: Path) -> Tree:
    return Tree(program, place, place / "tree")


@pytest.fixture(scope="module")
def packages(tree: Tree, place: Path, words: Words) -> Packages:
    """Compressed, as they are released."""
    return Packages(place / "packages", tree.build(place / "packages", *words, env={}))


@pytest.mark.slow
def test_same_bytes(tree: Tree, packages: Packages, folder: Path, words: Words) -> None:
    """Built twice: in a folder of another depth, with another umask, time zone, locale and home. Control: with a line more in a sample just the package that has it differs."""
    (folder / "a/deeper").mkdir(parents=True)
    other = Tree(tree.program, tree.library, folder / "a/deeper/folder")
    ran = other.build(folder / "again", *words, umask=0o077, env=OTHERWISE)
    again = Packages(folder / "again", ran)
    assert len(packages.debs) == 5 and packages.sums() == again.sums()
    for ending in (".spdx.json", ".cdx.json", "_evidence.txt"):
        assert packages.file(ending).read_bytes() == again.file(ending).read_bytes()
    change(other.path / "samples/rates.csv", "from,rate", "from,rate\n")
    more = Packages(folder / "more", other.build(folder / "more", *words, env=OTHERWISE)).sums()
    differing = [name for name, found in packages.sums().items() if more[name] != found]
    assert [name.partition("_")[0] for name in differing] == ["ladwenpik"]


@pytest.mark.needs("lintian")
def test_lintian(packages: Packages) -> None:
    """No error and no warning. Control: without the overrides it has some."""
    lintian = ["lintian", "--allow-root", "--fail-on", "error,warning", "--tag-display-limit", "0"]
    ran = run(*lintian, *packages.debs)
    assert (ran.returncode, re.findall("^[EW]:.*$", ran.stdout, re.M)) == (0, [])
    ran = run(*lintian, "--no-override", *packages.debs)
    assert ran.returncode != 0 and re.findall("^[EW]:.*$", ran.stdout, re.M)


def test_overrides_have_reasons() -> None:
    files = sorted((TOP / "packaging/debian").glob("*.lintian-overrides"))
    assert files
    for path in files:
        lines = path.read_text().splitlines()
        for before, line in zip(["", *lines], lines):
            assert line.startswith("#") or before.startswith("#"), f"{path.name}: {line}"


def test_evidence(packages: Packages, program: Path) -> None:
    """It has the sum of the program and of each package, and names the toolchain and the axioms."""
    said, sums = packages.evidence(), {**packages.sums(), "usr/bin/ee_cli": sum_of(program)}
    lines = ["rattle-kit-13f logic dac8208d650f15bf", "50 of the 128 that `libc` declares"]
    lines += ["13 of the 22 that `os` declares", *(f"{sums[name]}  {name}" for name in sums)]
    assert [line for line in lines if line not in said] == []


@pytest.fixture(scope="module")
def spdx(packages: Packages) -> Listed:
    return dict(json.loads(packages.file(".spdx.json").read_text()))


@pytest.fixture(scope="module")
def cyclonedx(packages: Packages) -> Listed:
    return dict(json.loads(packages.file(".cdx.json").read_text()))


def faults_of(listed: Listed, schema: Path) -> list[str]:
    import jsonschema

    read = json.loads(schema.read_text())
    kind = jsonschema.validators.validator_for(read)
    kind.check_schema(read)
    return [str(fault.message) for fault in kind(read).iter_errors(listed)]


@pytest.mark.needs("module:jsonschema")
def test_spdx(spdx: Listed, packages: Packages) -> None:
    """Right by our own list of the fields and words of SPDX 2.3, and by the official schema if $SPDX_SCHEMA names it; with the sum of each package, and each part in a relation."""
    schemas = [FIELDS, *map(Path, filter(None, [os.environ.get("SPDX_SCHEMA")]))]
    assert [faults_of(spdx, schema) for schema in schemas] == [[]] * len(schemas)
    named = [part for part in spdx["packages"] if "packageFileName" in part]
    sums = {part["packageFileName"]: part["checksums"][0]["checksumValue"] for part in named}
    assert sums == packages.sums()
    names = [part["SPDXID"] for part in spdx["packages"]]
    ends = {end for one in spdx["relationships"] for end in ends_of(one)}
    assert len(set(names)) == len(names) and ends == {*names, "SPDXRef-DOCUMENT"}


def ends_of(relation: Listed) -> tuple[str, str]:
    return relation["spdxElementId"], relation["relatedSpdxElement"]


def altered(listed: Listed, alter: Alter) -> Listed:
    made = copy.deepcopy(listed)
    alter(made)
    return made


WRONG_SPDX: list[Alter] = [
    lambda made: made.pop("creationInfo"),
    lambda made: made["relationships"][0].update(relationshipType="STANDS_ON"),
    lambda made: made["packages"][0].update(checksums=[{"algorithm": "SHA256"}]),
]


@pytest.mark.needs("module:jsonschema")
@pytest.mark.parametrize("alter", WRONG_SPDX)
def test_control_wrong_spdx(spdx: Listed, alter: Alter) -> None:
    assert faults_of(altered(spdx, alter), FIELDS)


def parts_of(parts: list[Listed], version: str, sums: str, value: str) -> list[tuple[str, ...]]:
    found = [(part, [one[value] for one in part.get(sums, ())]) for part in parts]
    return sorted((part["name"], part[version], *those) for part, those in found)


def test_cyclonedx_is_spdx(spdx: Listed, cyclonedx: Listed) -> None:
    """The same parts with their sums, and the same dependencies."""
    tools = [tool for tool in cyclonedx["metadata"]["tools"]["components"] if "version" in tool]
    parts = cyclonedx["components"] + tools
    of_cyclonedx = parts_of(parts, "version", "hashes", "content")
    of_spdx = parts_of(spdx["packages"], "versionInfo", "checksums", "checksumValue")
    assert of_cyclonedx == of_spdx != []
    listed = cyclonedx["dependencies"]
    needs = [(one["ref"], needed) for one in listed for needed in one["dependsOn"]]
    relations = [one for one in spdx["relationships"] if one["relationshipType"] != "BUILD_TOOL_OF"]
    ends = [tuple(end.removeprefix("SPDXRef-") for end in ends_of(one)) for one in relations]
    assert sorted(needs) == sorted(ends)


#: Run on Debian 13: the strict schema of CycloneDX 1.6, each licence against SPDX's list, and each purl. What is wrong is printed.
VALIDATE = """
import json, sys
from cyclonedx.schema import SchemaVersion
from cyclonedx.spdx import is_expression
from cyclonedx.validation.json import JsonStrictValidator
from packageurl import PackageURL

def values(of, name):
    for key, value in of.items() if isinstance(of, dict) else enumerate(of) if isinstance(of, list) else ():
        if key == name:
            yield value
        yield from values(value, name)

text = sys.stdin.read()
found = JsonStrictValidator(SchemaVersion.V1_6).validate_str(text)
if found:
    print("the schema:", str(found).split("\\n")[0])
for expression in values(json.loads(text), "expression"):
    if not is_expression(expression):
        print("no licence:", expression)
for purl in values(json.loads(text), "purl"):
    try:
        PackageURL.from_string(purl)
    except ValueError as fault:
        print("no purl:", fault)
"""


@pytest.fixture(scope="module")
def validator(place: Path) -> Path:
    """A root of Debian 13, which has the CycloneDX project's validator: $VALIDATOR_ROOT, or one that is made here."""
    if "VALIDATOR_ROOT" in os.environ:
        return Path(os.environ["VALIDATOR_ROOT"])
    included = "python3-cyclonedx-lib,python3-jsonschema"
    return Path(bootstrap(str(place / "validator"), "trixie", included))


@pytest.mark.root
@pytest.mark.slow
@pytest.mark.needs("debootstrap")
def test_cyclonedx_validator(cyclonedx: Listed, validator: Path) -> None:
    """The validator accepts the list. Controls: lists that are wrong in one place."""

    at = next(at for at, part in enumerate(cyclonedx["components"]) if "licenses" in part)

    def said(listed: Listed) -> str:
        words = ["chroot", str(validator), "python3", "-c", VALIDATE]
        ran = subprocess.run(words, input=json.dumps(listed), capture_output=True, text=True)
        assert ran.returncode == 0, ran.stderr
        return ran.stdout

    assert said(cyclonedx) == ""
    wrong: list[Alter] = [
        lambda made: made["components"][0].pop("name"),
        lambda made: made["components"][0].update(colour="red"),
        lambda made: made["components"][0]["hashes"][0].update(content="12"),
        lambda made: made["components"].append(made["components"][0]),
        lambda made: made["components"][at]["licenses"][0].update(expression="MIT OR NoSuch-1.0"),
        lambda made: made["components"][0].update(purl="pkg:deb"),
    ]
    for nth, alter in enumerate(wrong):
        assert said(altered(cyclonedx, alter)) != "", nth


@pytest.fixture
def keyring(folder: Path) -> Iterator[dict[str, str]]:
    make_key(folder / "key", "release")
    yield {**os.environ, "GNUPGHOME": str(folder / "key")}
    end_keys(folder / "key")


@pytest.mark.needs("gpg")
def test_signed(packages: Packages, folder: Path, keyring: dict[str, str]) -> None:
    """By the command of packaging/README.md, and checked by the commands of docs/INSTALL.md. Controls: a package with a byte more, and its sum put in."""
    release = folder / "release"
    shutil.copytree(packages.folder, release)
    page = (TOP / "packaging/README.md").read_text()
    sign = matched("(?m)^gpg --armor .*$", page)[0].replace("KEY", "release@bank.example")
    assert run("sh", "-c", sign, cwd=release, env=keyring).returncode == 0
    named = blocks("INSTALL", "Check that it is the proved one")
    checks = next(block for block in named if "gpg --verify" in block).splitlines()

    def ends() -> list[bool]:
        ran = [run("sh", "-c", check, cwd=release, env=keyring) for check in checks]
        return [one.returncode == 0 for one in ran]

    assert ends() == [True, True]
    deb = release / packages.debs[0].name
    was = sum_of(deb)
    with open(deb, "ab") as file:
        file.write(b"\n")
    assert ends() == [True, False]
    change(release / "SHA256SUMS", was, sum_of(deb))
    assert ends() == [False, True]
