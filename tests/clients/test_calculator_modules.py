"""The calculator's WebAssembly modules and its readers under Node: the published values, the program's replies and sheets, and pasted lists."""

import json
import os
import random
import re
import shutil
import subprocess
from pathlib import Path
from typing import Any, Iterable

import pytest

from tests.clients import calculator_lists as lists
from tests.clients.calculator_data import INVENTORIES, PUBLISHED, RATE_FILES, KNOWN, SHIPPED, Case
from tests.clients.calculator_data import answers, damaged, inventory_file, random_bonds, sheets
from tests.clients.node import node
from tests.conftest import TOP
from tests.shared import exact
from tests.shared.counter_calls import run
from tests.shared.hostile.spelling import money, month_text

PARTS = Path(__file__).resolve().parent / "calculator_parts"
OUT = TOP / "clients/value/out"
pytestmark = pytest.mark.needs("node", "file:clients/value/out/ee_value.wasm")
#: By bits: a module, and what Node needs to load it.
MODULES: dict[int, tuple[Path, list[str]]] = {
    32: (OUT / "ee_value.wasm", []),
    64: (OUT / "ee_value64.wasm", ["--experimental-wasm-memory64"]),
}


def compared(module: Path, flags: list[str], published: Path, questions: Path) -> None:
    """modules.mjs: each published value at each denomination by three calls, random questions, borders, spellings and texts."""
    found = json.loads(node(*flags, PARTS / "modules.mjs", module, published, questions))
    assert found["published"] == {"asked": 66048, "equal": 66048}, found
    assert found["rows"] == {"asked": 20_000, "equal": 20_000}, found
    assert len(found["borders"]) == 6 and all(found["borders"].values()), found


@pytest.fixture(scope="module")
def questions(tmp_path_factory: pytest.TempPathFactory) -> Path:
    dice = random.Random(os.environ.get("SEED", "questions"))
    asked = [exact.random_question(dice) for _ in range(20_000)]
    rows = [{"question": one, "row": exact.row(*one), "cents": exact.cents(*one)} for one in asked]
    path = tmp_path_factory.mktemp("questions") / "questions.json"
    path.write_text(json.dumps(rows))
    return path


@pytest.mark.parametrize("bits", MODULES)
def test_module(questions: Path, bits: int) -> None:
    compared(*MODULES[bits], PUBLISHED, questions)


@pytest.mark.parametrize("bits", MODULES)
def test_wrong_module(questions: Path, folder: Path, bits: int) -> None:
    """Control: a published value that is a cent more; and a module with 1251 in place of 1250, a unit's first value, as its machine code has it."""
    module, flags = MODULES[bits]
    for name in ("rates.csv", "published-values.csv"):
        text = (PUBLISHED / name).read_text()
        (folder / name).write_text(text.replace("2005-05,2006-05,1283", "2005-05,2006-05,1284"))
    with pytest.raises(AssertionError):
        compared(module, flags, folder, questions)
    content = module.read_bytes()
    assert content.count(b"\x42\xe2\x09") == 1
    (folder / "broken.wasm").write_bytes(content.replace(b"\x42\xe2\x09", b"\x42\xe3\x09"))
    with pytest.raises(AssertionError):
        compared(folder / "broken.wasm", flags, PUBLISHED, questions)


def same_folders(one: Path, other: Path) -> None:
    files = [{p.name: p.read_bytes() for p in folder.iterdir()} for folder in (one, other)]
    assert files[0] == files[1] and len(files[0]) > 5


@pytest.mark.needs("esbuild", "file:clients/calculator/out/calculator.js")
def test_built_again(tmp_path: Path) -> None:
    """The page is built of the sources as they are, and a second build has the same bytes."""
    page = TOP / "clients/calculator"
    subprocess.run([page / "build", tmp_path], check=True)
    same_folders(page / "out", tmp_path)
    (tmp_path / "sw.js").write_text("")
    with pytest.raises(AssertionError):  # control
        same_folders(page / "out", tmp_path)


PACKAGE = {"README.md", "ee-value.d.ts", "ee-value.js", "package.json"}
PACKAGE |= {"out/ee_value.wasm", "out/ee_value64.wasm"}


def packed(sources: Path, folder: Path) -> None:
    """The npm package has its files and no others, and its README's example prints what the README says."""
    env = {**os.environ, "npm_config_update_notifier": "false", "npm_config_offline": "true"}
    words = ["npm", "pack", "--silent", "--pack-destination", str(folder), str(sources)]
    made = subprocess.run(words, capture_output=True, text=True, check=True, env=env)
    place = folder / "node_modules/ee-value"
    place.parent.mkdir(parents=True)
    subprocess.run(["tar", "-xf", folder / made.stdout.strip(), "-C", folder], check=True)
    (folder / "package").rename(place)
    files = {str(path.relative_to(place)) for path in place.rglob("*") if path.is_file()}
    assert files == PACKAGE
    text = (place / "README.md").read_text()
    examples = re.findall(r"^```(\w*)\n(.*?)^```$", text, re.M | re.S)
    assert text.startswith("# ee-value\n") and [kind for kind, _ in examples] == ["js"]
    (folder / "example.mjs").write_text(examples[0][1])
    printed = re.findall(r"// ([0-9]+)\b", examples[0][1], re.M)
    assert node(folder / "example.mjs").split() == printed != []


@pytest.mark.needs("npm")
def test_package(tmp_path: Path) -> None:
    sources = TOP / "clients/value"
    (tmp_path / "right").mkdir()
    packed(sources, tmp_path / "right")
    shutil.copytree(sources, tmp_path / "sources")
    shutil.copy(sources / "README-python.md", tmp_path / "sources/README.md")
    (tmp_path / "wrong").mkdir()
    with pytest.raises(AssertionError):  # control: the README of the Python module
        packed(tmp_path / "sources", tmp_path / "wrong")


def answered(tasks: Iterable[object], bits: int = 32) -> list[Any]:
    path, flags = MODULES[bits]
    text = "".join(json.dumps(task) + "\n" for task in tasks)
    lines = node(*flags, PARTS / "answers.mjs", path, text=text).splitlines()
    return [json.loads(line) for line in lines]


def files_of(kind: str, dice: random.Random) -> dict[str, bytes]:
    if kind == "rates":
        return RATE_FILES
    base = inventory_file(random_bonds(dice, 6, months=KNOWN), dice)
    return {**INVENTORIES, **{f"damaged {n}": damaged(dice, base) for n in range(120)}}


CODES = {
    "rates": {"70", "71", "72", "75", "11", "12", "20", "21"},
    "inventory": {"70", "71", "72", "75", "11", "13", "14", "30"},
}


@pytest.mark.parametrize("kind", ["rates", "inventory"])
def test_readers(program: Path, dice: random.Random, kind: str) -> None:
    """Each refusal of the readers and of the registers, and damaged files: as the program says it."""
    cases: list[Case] = answers(program, kind, files_of(kind, dice))
    tasks = [{"kind": kind, "file": c[1].hex(), "rates": SHIPPED.hex()} for c in cases]
    wanted = [answer for _, _, answer in cases]
    differing = [case for case, one in zip(cases, answered(tasks)) if one != case[2]]
    assert differing == []
    codes = set(re.findall(r'code"?[ :]*(\d+)', "".join(wanted)))
    assert CODES[kind] - codes == set(), codes
    tasks[0]["kind"] = "written"
    assert answered(tasks[:1]) != wanted[:1], "control: another task"


@pytest.mark.parametrize("bits", MODULES)
def test_rows_and_sheets(program: Path, dice: random.Random, bits: int) -> None:
    """Random rows beside the command `value`, and random inventories beside `sheet`, byte for byte."""
    rows = []
    for _, dollars, issued, _, _ in random_bonds(dice, 400):
        month = min(issued + dice.randrange(400), 12 * 2199 + 11)
        rates = [money(dice.randrange(2001)) for _ in range(2)]
        rows.append((str(dollars), month_text(issued), month_text(month), *rates))
    task = {"kind": "values", "questions": [[int(row[0]), *row[1:]] for row in rows]}
    values = [run(program, "value", *row).stdout.rstrip("\n") for row in rows]
    assert answered([task], bits) == [values]
    listed = sheets(program, dice, 60)
    tasks: list[dict[str, Any]] = []
    for one in listed:
        files = {"rates": one.rates.hex(), "file": one.file.hex()}
        tasks.append({"kind": "sheet", **one._asdict(), **files})
    assert answered(tasks, bits) == [one.sheet for one in listed]
    notes = {line.split()[-1] for one in listed for line in one.sheet.splitlines()}
    assert {"NI", "NE", "P5", "MA"} <= notes
    tasks[0]["month"] = "2150-01" if listed[0].month != "2150-01" else "2150-02"
    assert answered(tasks[:1], bits) != [listed[0].sheet], "control: another month"


def understood(made: list[lists.Made]) -> None:
    found = answered({"kind": "pasted", "text": text} for text, _ in made)
    for (text, bonds), one in zip(made, found, strict=True):
        assert one == [list(bond) for bond in bonds], text


def test_pasted_tables(dice: random.Random) -> None:
    """Each bond of tables of TreasuryDirect's calculator is read, and one with a misspelled cell is a fault of its row."""
    made = [lists.table(dice) for _ in range(60)]
    understood(made)
    tasks, wanted = [], []
    for text, bonds in made:
        lines = text.splitlines()
        at = max(place for place, line in enumerate(lines) if "\tEE\t" in line)
        bad = [("\t$", "\t$6", "denom"), ("/20", "/13/20", "issued"), ("\tEE\t", "\tI\t", "series")]
        for cell, other, column in bad if len(bonds) > 2 else ():
            changed = [*lines[:at], lines[at].replace(cell, other, 1), *lines[at + 1 :]]
            tasks.append({"kind": "pasted", "text": "\n".join(changed)})
            wanted.append([f"{at + 1} {column}"])
    assert answered(tasks) == wanted and len(tasks) > 30
    text, bonds = made[0]
    with pytest.raises(AssertionError):  # control: a bond more
        understood([(text, [*bonds, bonds[0]])])


@pytest.mark.needs("soffice", "module:openpyxl")
def test_pasted_sheets(dice: random.Random, tmp_path: Path) -> None:
    """So is each bond of sheets in 28 number formats, as LibreOffice writes them."""
    understood(lists.sheets(dice, tmp_path, 160))
