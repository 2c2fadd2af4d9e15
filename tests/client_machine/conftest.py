"""The machine of crates/ee_client, built for these tests: for Python, and for Node."""

import logging
import os
import shutil
import tempfile
from pathlib import Path
from typing import Callable, Iterator, Optional

import pytest

from tests.client_machine.machine import Library
from tests.client_machine.page_client import InBrowser, Node, page_in
from tests.client_machine.python_client import Edit
from tests.conftest import TOP
from tests.shared.counter_calls import run

NewPage = Callable[..., Node]
CRATE = TOP / "crates" / "ee_client"
WASM = "wasm64-unknown-unknown"
LOWERED = ("--enable-memory64", "--enable-bulk-memory", "--memory64-lowering")


@pytest.fixture(autouse=True)
def quiet() -> Iterator[None]:
    """Clients whose messages are lost by the thousand log nothing."""
    logging.disable(logging.WARNING)
    yield
    logging.disable(logging.NOTSET)


def toolchain() -> Path:
    """The folder of the toolchain: beside rt, or where RATTLE_KIT says."""
    beside = Path(os.path.realpath(shutil.which("rt") or "rt")).parents[1]
    places = [Path(os.environ.get("RATTLE_KIT", beside)), beside, Path("/opt/rattle")]
    return next(place for place in places if (place / "bin" / "rattle-link").exists())


@pytest.fixture(scope="session")
def built() -> Iterator[Path]:
    """A folder with libee_client.so and ee_client.wasm. They are proved first."""
    with tempfile.TemporaryDirectory(prefix="client_machine.") as made:
        out, archive = Path(made), str(CRATE / "out/libee_client.a")
        whole = ("-Wl,--whole-archive", archive, "-Wl,--no-whole-archive", "-lc")
        link = [str(toolchain() / "bin/rattle-link"), "--target", WASM]
        link += ["--toolchain", str(toolchain() / "toolchain"), "-o", "wide.wasm", archive]
        for words, folder in (
            (["rt", "lib", "--jobs", "1"], CRATE),
            (["cc", "-shared", "-nostdlib", *whole, "-o", "libee_client.so"], out),
            (["rt", "lib", "--jobs", "1", "--target", WASM], CRATE),
            (link, out),
            (["wasm-opt", *LOWERED, "wide.wasm", "-o", "ee_client.wasm"], out),
        ):
            ran = run(*words, cwd=folder)
            assert ran.returncode == 0, f"{words}: {ran.stdout[-2000:]}"
        yield out


@pytest.fixture(scope="session")
def library(built: Path) -> Library:
    return Library(built / "libee_client.so")


FIREFOX = pytest.param("firefox", marks=[pytest.mark.browser, pytest.mark.slow])


@pytest.fixture(params=["node", pytest.param("chromium", marks=pytest.mark.browser), FIREFOX])
def new_page(request: pytest.FixtureRequest, built: Path, folder: Path) -> Iterator[NewPage]:
    """Starts the page's rules, with the machine, in Node and in each browser; `edit` makes a wrong page."""
    made: list[Node] = []

    def start(edit: Optional[Edit] = None) -> Node:
        files = folder / "files"
        files.mkdir()
        page_in(files, built / "ee_client.wasm", edit)
        name = request.param
        made.append(Node(files) if name == "node" else InBrowser(files, name, folder))
        return made[-1]

    yield start
    for page in made:
        page.close()
