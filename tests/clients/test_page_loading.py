"""How fast the page is there at a latency of 300 ms, and what a load asks for: one script with the package, all modules at once without it, and little if the browser was there before."""

import os
import re
import shutil
import subprocess
import sys
from pathlib import Path
from statistics import median

import pytest

from tests.browser.bank import PAGE, USER, Bank
from tests.browser.engines import Chromium
from tests.browser.gate import Relay
from tests.browser.page import Page
from tests.clients.conftest import NewPage
from tests.conftest import TOP


def imported(folder: Path, name: str = "main.js") -> set[str]:
    found, left = {name}, [name]
    while left:
        text = (folder / left.pop()).read_text()
        new = set(re.findall(r'from "\./([a-z_]+\.js)"', text)) - found
        found |= new
        left += new
    return found


def preloaded(text: str) -> list[str]:
    return re.findall(r'<link rel="modulepreload" href="([^"]+)">', text)


def test_all_modules_are_preloaded() -> None:
    """And no others, each once."""
    text = (PAGE / "index.html").read_text()
    assert sorted(preloaded(text)) == sorted(imported(PAGE)) and preloaded(text)[0] == "main.js"
    fewer = text.replace('<link rel="modulepreload" href="words.js">\n', "")
    assert sorted(preloaded(fewer)) != sorted(imported(PAGE))  # control


def packed(folder: Path) -> str:
    script = "import layout, pathlib, sys; page = pathlib.Path(sys.argv[1]); layout.join_page(page); layout.name_page(page)"
    words = [sys.executable, "-B", "-c", script, str(folder)]
    subprocess.run(words, cwd=TOP / "packaging", check=True)
    found = re.search('href="([0-9a-f]{16})/page.js"', (folder / "index.html").read_text())
    assert found is not None
    return found[1]


def headers(bank: Bank, path: str) -> tuple[int, str, str | None]:
    """The status, whether it may be stored, and how it is compressed."""
    client = {"X-Counter-Client": "test", "Accept-Encoding": "gzip"}
    connection = bank.nginx.connect(USER)
    connection.request("GET", path, headers=client)
    answer = connection.getresponse()
    stored = answer.headers.get_all("Cache-Control")
    connection.close()
    assert stored is not None and len(stored) == 1
    return answer.status, stored[0], answer.headers["Content-Encoding"]


@pytest.mark.nginx
@pytest.mark.needs("esbuild")
def test_only_files_of_this_page_are_stored(bank: Bank, folder: Path) -> None:
    """Not the page itself, nor the bank's own file, an answer, or what isn't there: as the files of an earlier release. Files alone are compressed."""
    bank.begin([7])
    name = packed(bank.teller)
    for file in ("page.js", "main.js", "style.css", "icon.svg"):
        status, stored, how = headers(bank, f"/teller/{name}/{file}")
        assert (status, stored) == (200, "private, max-age=31536000, immutable")
        assert how == (None if file == "icon.svg" else "gzip")
    other = name[::-1] if name != name[::-1] else "0" * 16
    for path in (f"{name}/bank.js", f"{name}/index.html", "", "main.js", f"{name}/", "bank.js"):
        assert headers(bank, f"/teller/{path}")[:2] == (200, "no-store"), path
    for path in (f"{name}/none.js", f"{other}/main.js", f"{name}/{name}/none.js"):
        assert headers(bank, f"/teller/{path}")[:2] == (404, "no-store"), path
    assert headers(bank, "/inventory/7/2012-02") == (200, "no-store", None)
    shutil.copytree(PAGE, folder / "later")
    (folder / "later/words.js").write_text((PAGE / "words.js").read_text() + "// Later.\n")
    assert packed(folder / "later") != name


class Trusting(Chromium):
    """Chromium that trusts the bank's certificate: it keeps nothing of a server that it doesn't trust."""

    def __init__(self, profile: Path, bank: Bank) -> None:
        profile.mkdir()
        service = self.service_with(profile, bank.certificate)
        words = ["-d", f"sql:{profile}/home/.pki/nssdb", "-A", "-t", "C,,", "-n", "bank"]
        file = bank.nginx.folder / "certificate.pem"
        subprocess.run(["certutil", *words, "-i", str(file)], check=True)
        self.begin(profile, (1100, 820), service, trusting=False)

    def loads(self, page: Page, url: str) -> tuple[list[str], int]:
        page.open("about:blank")
        page.open(url)
        page.until(lambda: page.is_shown("#start form"), "the page is there")
        files, size = page.calls("loaded")
        return files, size


@pytest.mark.browser
@pytest.mark.nginx
@pytest.mark.needs("esbuild")
@pytest.mark.parametrize("browser", ["chromium"], indirect=True)
def test_files_come_once(bank: Bank, new_page: NewPage, folder: Path) -> None:
    """Of a page that was there before the files come no more, and an upgrade meanwhile is noticed. Control: without its second path each module comes each time."""
    engine = Trusting(folder / "profile", bank)
    page = new_page(None, url="about:blank", engine=engine)
    whole = sorted({*preloaded((PAGE / "index.html").read_text()), "style.css"})
    for _ in range(2):
        files, size = engine.loads(page, bank.url)
        assert {*whole} <= {*files} and size < 120_000
    packed(bank.teller)
    own = ["bank.js", "old.js", "start.js"]
    files, size = engine.loads(page, bank.url)
    assert {*files} - {"icon.svg"} == {*own, "page.js", "style.css"} and size < 50_000
    files, size = engine.loads(page, bank.url)
    assert files == own and size < 4_000
    index, other = bank.teller / "index.html", "0123456789abcdef"
    text = index.read_text()
    index.write_text(re.sub("[0-9a-f]{16}/", f"{other}/", text))
    page.open(bank.url)  # An upgrade has removed the files meanwhile.
    page.waits_for("The page didn't load completely. It tries again by itself.")
    index.write_text(text)
    page.until(lambda: page.is_shown("#start form"), "the page is there")


#: Notes when the first view is shown.
USABLE = """
const seen = () => {
    if (document.querySelector("section.view:not([hidden])")) window.usable = performance.now();
    else requestAnimationFrame(seen);
};
seen();
"""
#: By line: the seconds before a connection's first byte, those of each way, and the most until the page is usable. A request waits for 300 ms; or a round trip takes as long, and a connection three: for TCP, TLS and the request.
LINES = {"a request": (0.3, 0.0, 1.5), "a round trip": (0.3, 0.15, 3.0)}


def first_loads(bank: Bank, page: Page, slow: list[float]) -> float:
    """Three over slow lines, each at an address of its own, of which the browser has nothing: the median of their seconds."""
    found = []
    for _ in range(3):
        page.open(f"https://127.0.0.1:{Relay(bank.port, *slow).port}/teller/")
        page.until(lambda: page.run("return window.usable"), "the page is usable")
        assert page.is_shown("#start form")
        found.append(float(page.run("return window.usable")) / 1000)
    return median(found)


@pytest.mark.browser
@pytest.mark.nginx
@pytest.mark.needs("esbuild")
@pytest.mark.parametrize("line", LINES)
def test_usable_at_once(bank: Bank, new_page: NewPage, line: str) -> None:
    """At a first load over a slow line: the median of three, or more on a busy machine. Control: as modules the page takes longer."""
    bank.begin([7])
    own = bank.teller / "bank.js"
    own.write_text(own.read_text() + USABLE)
    *slow, most = LINES[line]
    page = new_page(None, url="about:blank")
    modules = first_loads(bank, page, slow)
    packed(bank.teller)
    whole = first_loads(bank, page, slow)
    page.reload()
    page.joins(desk=5)
    page.pays(1, 7, "L7EE")
    print(f"300 ms for {line}: usable after {whole:.2f} s, as modules {modules:.2f} s")
    busy = max(1.0, os.getloadavg()[0] / (os.cpu_count() or 1))
    assert whole <= most * busy and most < modules and page.complaints() == []


@pytest.mark.browser
@pytest.mark.nginx
def test_a_file_that_never_comes(bank: Bank, new_page: NewPage) -> None:
    """The page tries again by itself."""
    main, start = bank.teller / "main.js", bank.teller / "start.js"
    text, waits = main.read_text(), start.read_text()
    main.write_text("await new Promise(() => {});\n")
    start.write_text(waits.replace("LIMIT = 60_000", "LIMIT = 4_000"))
    page = new_page(None)
    page.waits_for("The page didn't load completely. It tries again by itself.")
    start.write_text(waits)
    main.write_text(text)
    page.until(lambda: page.is_shown("#start form"), "the page is there")
