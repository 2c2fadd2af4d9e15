"""What the tests run over: stores in the states that a file can be in, and commands."""
import dataclasses
from pathlib import Path

from . import commands, desk, judging, store, talk
from .program import Program

RATES_FILE = b"from,rate\n2010-05,2.00\n2010-11,3.50%\n"
BONDS_FILE = b"serial,denom,issued,owner,coowner\nL1EE,50,2010-11,7,\nK-0002-EE,75,10/2010,7,8\nM3EE,10000,2011-02,7,\n"


@dataclasses.dataclass
class Scene:
    """A store that is copied for each run (None: no file), its books, and a command."""

    name: str
    base: str | None
    books: desk.Books
    command: commands.Connection | commands.Import | commands.Shown


def made(program: Program, name: str, stream: bytes, fault: str | None = None) -> str:
    """A store after a stream, at rest, or with its log not written back."""
    path = program.place(name)
    ran = program.apply(path, stream, fault=fault)
    wanted = (3, "store: NotWrittenBack\n") if fault else (0, "")
    if (ran.status, ran.faults) != wanted:
        raise judging.Wrong(f"the store {name} wasn't made: {ran}")
    return path


def first_version(program: Program, name: str, with_extensions: bool) -> tuple[str, desk.Books]:
    path = program.place(name)
    store.make_version_one(path, with_extensions)
    named = [talk.texts("NAMED")["NAMED"]] if with_extensions else []
    return path, judging.start([talk.texts("FIVE")["FIVE"], *named])


def written(program: Program, name: str, file: bytes) -> str:
    """A file of that name and content, beside the stores."""
    path = Path(program.folder, name)
    path.write_bytes(file)
    return str(path)


def connections(program: Program) -> list[Scene]:
    """Stores in every state that a file can be in, and one that is served."""
    days, earlier = talk.texts("BEGUN"), talk.texts("NAMED")
    day = talk.stream(days["DAY"])
    begun, start = talk.stream(days["BEGUN"]), judging.start([days["BEGUN"]])
    scenes = [Scene("new", None, desk.Books(), commands.Connection(day))]
    at_rest = made(program, "rest", begun)
    scenes.append(Scene("at rest", at_rest, start, commands.Connection(day)))
    logged = made(program, "logged", begun, "truncate log 1 1 e 5")
    scenes.append(Scene("with a log", logged, start, commands.Connection(day)))
    for name, with_extensions in (("version 1", True), ("version 1 without extensions", False)):
        path, books = first_version(program, name.replace(" ", "_"), with_extensions)
        talked = talk.stream(talk.texts("FIVE")["FIVE"] + earlier["NAMED"] + earlier["OTHER"])
        scenes.append(Scene(name, path, books, commands.Connection(talked)))
    scenes.append(Scene("served", at_rest, start, commands.Served(day)))
    return scenes


def files(program: Program) -> list[Scene]:
    """Imports into a new store and into one with rates, an export and a sheet."""
    days = talk.texts("BEGUN")
    rates = written(program, "rates.csv", RATES_FILE)
    bonds = written(program, "bonds.csv", BONDS_FILE)
    with_rates = made(program, "rated", talk.messages(days["BEGUN"])[0])
    begun = made(program, "shown", talk.stream(days["BEGUN"]))
    start = judging.start([days["BEGUN"]])
    rated = desk.Books()
    rated.deliver((0, 1), ("rates", commands.rates_rows(RATES_FILE)))
    second = commands.Import("inventory", bonds, BONDS_FILE, 2, 3)
    return [
        Scene("import rates", None, desk.Books(), commands.Import("rates", rates, RATES_FILE, 1)),
        Scene("import inventory", with_rates, rated, second),
        Scene("export", begun, start, commands.Shown(7)),
        Scene("sheet", begun, start, commands.Shown(7, "2012-02")),
    ]


#: The names of all scenes.
CONNECTIONS = ["new", "at rest", "with a log", "version 1", "version 1 without extensions"]
FILES = ["import rates", "import inventory", "export", "sheet"]
