"""The calculator's page in a browser: the built page on a port of its own, copies of it that are wrong on purpose, and what a person does there."""

import contextlib
import functools
import http.server
import re
import shutil
import tempfile
import threading
from pathlib import Path
from typing import Any, Iterator

import pytest
from selenium.common.exceptions import WebDriverException

from tests.browser.browser import Browser
from tests.conftest import TOP

OUT = TOP / "clients/calculator/out"
NEEDS = [pytest.mark.browser]
NEEDS += [pytest.mark.needs("module:selenium", "file:clients/calculator/out/calculator.js")]
#: A file of the page, a text of it, and another one in its place.
Change = tuple[str, str, str]
Changes = tuple[Change, ...]
SIZE = (1280, 900)
WIDTHS = (13, 6, 6, 7, 7, 7, 12, 14, 6, 14, 0)
RIGHT = (2, 6, 7, 8, 9)


def variants(**changes: Change | Changes) -> pytest.MarkDecorator:
    """Runs a test over the page as it is, and over each wrong one: then `holds_not(changes)` wants it to fail."""
    listed: dict[str, Changes] = {"whole": ()}
    for name, change in changes.items():
        named = change if isinstance(change[0], tuple) else (change,)
        listed[name.replace("_", " ")] = named  # type: ignore[assignment]
    return pytest.mark.parametrize("changes", list(listed.values()), ids=list(listed))


def script(old: str, new: str) -> Change:
    return "calculator.js", old, new


class Handler(http.server.SimpleHTTPRequestHandler):
    def log_message(self, *_: object) -> None:
        pass

    def do_GET(self) -> None:
        self.server.asked.append(self.path)  # type: ignore[attr-defined]
        super().do_GET()

    def end_headers(self) -> None:
        self.send_header("Cache-Control", "no-store")
        self.send_header("Access-Control-Allow-Origin", "*")
        super().end_headers()


class Site:
    """A server of a folder. `asked` has the paths that were asked for."""

    def __init__(self, folder: Path = OUT) -> None:
        of_folder = functools.partial(Handler, directory=folder)
        self.server = http.server.ThreadingHTTPServer(("127.0.0.1", 0), of_folder)
        self.asked: list[str] = []
        self.server.asked = self.asked  # type: ignore[attr-defined]
        self.url = f"http://127.0.0.1:{self.server.server_address[1]}/"
        threading.Thread(target=self.server.serve_forever, daemon=True).start()

    def stop(self) -> None:
        self.server.shutdown()
        self.server.server_close()


def variant(folder: Path, changes: Changes) -> Path:
    made = Path(tempfile.mkdtemp(dir=folder)) / "page"
    shutil.copytree(OUT, made)
    for file, old, new in changes:
        text = (made / file).read_text()
        assert old in text, f"{file} has no {old}"
        (made / file).write_text(text.replace(old, new))
    return made


class Calculator(Browser):
    """A browser, in which a test opens the page. Each server has a port of its own, and so a storage of its own."""

    def __init__(self, name: str, folder: Path) -> None:
        super().__init__(name, "about:blank", folder, size=SIZE)
        self.driver.set_script_timeout(300)
        self.sites: list[Site] = []

    def begins(self, folder: Path) -> None:
        self.folder, self.patience = folder, 60.0
        self.saves_in(folder / "downloads")

    def ends(self) -> None:
        first, *others = self.driver.window_handles
        self.driver.switch_to.window(first)
        for tab in others:
            self.close_tab(tab)
        self.open("about:blank")
        self.resize(*SIZE)
        while self.sites:
            self.sites.pop().stop()

    # ---- the page

    def serve(self, changes: Changes = ()) -> str:
        """Opens the page, or a wrong one. Returns its address."""
        self.sites.append(Site(variant(self.folder, changes) if changes else OUT))
        self.visit(self.sites[-1].url)
        return self.sites[-1].url

    def visit(self, url: str) -> None:
        self.open(url)
        self.ready()

    def again(self) -> None:
        self.reload()
        self.ready()

    def ready(self) -> None:
        script = "return document.documentElement.dataset.ready !== undefined"
        self.until(lambda: self.run(script), "the page starts")

    @contextlib.contextmanager
    def serving(self, changes: Changes) -> Iterator[None]:
        self.serve(changes)
        with self.holds_not(changes):
            yield

    @contextlib.contextmanager
    def holds_not(self, changes: Changes) -> Iterator[None]:
        """What is done within has to fail over a wrong page. Over the page as it is it has to hold."""
        if not changes:
            yield
            return
        self.patience = 5.0
        with pytest.raises((AssertionError, WebDriverException)):
            yield

    def until(self, condition: Any, what: str, patience: float | None = None) -> Any:
        found = []

        def holds() -> Any:
            found.append(condition())
            return found[-1]

        super().until(holds, what, patience)
        return found[-1]

    # ---- what it shows

    def told(self) -> str:
        return self.texts("#told-text")[0]

    def is_told(self, words: str) -> None:
        self.until(lambda: words in self.told(), f"it is told: {words}")

    def rows(self) -> list[list[str]]:
        busy = "return document.querySelector('#table').getAttribute('aria-busy') !== 'true'"
        self.until(lambda: self.run(busy), "all rows are written")
        rows = self.calls("cells", "#table")
        # Money as the counter prints it: the page writes it with a dollar sign and commas.
        return [[re.sub("[$,]", "", text) for text in row] for row in rows]

    def serials(self) -> list[str]:
        return [row[0] for row in self.rows()]

    def texts(self, selector: str) -> list[str]:
        words = "return [...document.querySelectorAll(arguments[0])].map((one) => one.textContent);"
        return list(self.run(words, selector))

    def total(self) -> list[str]:
        return [re.sub("[$,]", "", text) for text in self.texts("#table tfoot tr > *")]

    def sheet(self) -> str:
        lines = [self.texts("#table thead th"), *self.rows(), self.total()]
        return "".join(line_of(cells) for cells in lines)

    # ---- what is done

    def choose_file(self, selector: str, content: bytes) -> str:
        path = Path(tempfile.mkdtemp(dir=self.folder)) / "file.csv"
        path.write_bytes(content)
        self.run("document.querySelector('#told-text').textContent = ''")
        self.find(selector).send_keys(str(path))
        return str(self.until(self.told, f"{selector} is read"))

    def open_inventory(self, content: bytes) -> str:
        return self.choose_file("#inventory-file", content)

    def open_rates(self, content: bytes, alone: bool = True) -> str:
        self.run("document.querySelector('#alone').checked = arguments[0]", alone)
        return self.choose_file("#rate-file", content)

    def choose_month(self, text: str) -> None:
        words = "document.querySelector('#month').value = arguments[0]; document.querySelector('#month-form').requestSubmit()"
        self.run(words, text)

    def choose_module(self, bits: int) -> None:
        self.set_field("module", str(bits))
        named = f"the module of {bits} bits"
        self.until(lambda: named in self.texts("#module-told")[0], named)

    def remove_all(self) -> None:
        self.run("window.confirm = () => true; document.querySelector('#remove-all').click()")

    def shows_only(self, rates: bytes, inventory: bytes, month: str) -> None:
        self.remove_all()
        told = self.open_rates(rates), self.open_inventory(inventory)
        assert "read" in told[0] and "added" in told[1], told
        self.choose_month(month)

    def set_field(self, name: str, text: str) -> None:
        self.calls("write", f"#{name}", text)

    def click(self, selector: str) -> None:
        self.run("document.querySelector(arguments[0]).click()", selector)

    def open_bond(self, serial: str) -> None:
        self.calls("open_bond", serial)

    # ---- what the browser keeps

    def record(self) -> dict[str, Any] | None:
        found: dict[str, Any] | None = self.calls("record")
        return found

    def put(self, record: object) -> None:
        self.calls("put_record", record)

    def inventory(self) -> str:
        found = self.record()
        assert found is not None
        return str(found["inventory"])

    def kept_serials(self) -> list[str]:
        return [line.split(",")[0] for line in self.inventory().splitlines()[1:]]

    def is_ticked(self) -> bool:
        return bool(self.run("return document.querySelector('#keep').checked"))

    def tick(self) -> None:
        self.click("#keep")
        self.is_written()

    def is_said(self) -> bool:
        return self.texts("#keep-state")[0].startswith("Kept")

    def is_written(self) -> None:
        self.until(self.is_said, "the inventory is kept")

    def adds(self, *serials: str) -> None:
        lines = ["serial,denom,issued,owner,coowner", *(f"{one},50,2010-05,7," for one in serials)]
        self.open_inventory("\n".join([*lines, ""]).encode())

    def keeps_nothing(self) -> None:
        self.click("#keep")
        self.is_told("Nothing is kept any more")
        assert self.record() is None


def line_of(cells: list[str]) -> str:
    placed = [
        text.rjust(width) if place in RIGHT else text.ljust(width)
        for place, (text, width) in enumerate(zip(cells, WIDTHS, strict=True))
    ]
    return " ".join(placed if cells[-1] else placed[:-1]) + "\n"
