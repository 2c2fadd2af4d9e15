"""Chromium and Firefox with a certificate of the staff, set up by the commands of docs/TELLERS.md, by policy and by hand: each pays a bond, and a revoked certificate gets nothing. Pages of another site and of another port, in the browser of somebody who may do everything: none of their 22 ways reaches the counter."""

import http.server
import os
import re
import shlex
import shutil
import ssl
import subprocess
import threading
import time
from pathlib import Path
from typing import Iterator, Mapping

import pytest
from selenium.webdriver.chrome.service import Service

from tests.browser.engines import Chromium, Firefox
from tests.browser.marionette import Firefox as Marionette
from tests.browser.page import Page
from tests.fence.conftest import MakeSite, blocks
from tests.fence.site import UNLIMITED, RecordedSite, Site, Staff
from tests.samples.books import script
from tests.shared.counter_calls import done, end, piped

pytestmark = [pytest.mark.browser, pytest.mark.nginx, pytest.mark.slow]
GROUPS = {"anna": "teller", "bert": "supervisor"}
DAY = "2012-02-06"
REFUSED = "No certificate of the staff was sent, or it has ended or was revoked."
#: A shell in which /etc is a copy of the machine's, and the home is the desk's.
WITHIN = ["unshare", "--user", "--map-root-user", "--mount", "sh", "-c"]
START = 'mount --bind "$0" /etc && exec "$@"'


class Desk:
    """A teller's machine: an /etc and a home of its own, with the user's certificate as docs/WHO_MAY_DO_WHAT.md hands it over."""

    def __init__(self, folder: Path, site: Site, user: str) -> None:
        self.folder, self.site, self.port = folder, site, site.port
        self.home, self.etc = folder / "home", folder / "etc"
        self.profile = self.home / ".mozilla/firefox/teller.default-esr"
        self.profile.mkdir(parents=True)
        shutil.copytree("/etc", self.etc, symlinks=True, ignore=unread)
        (self.home / f"{user}.passphrase").write_text("of the test\n")
        passed = f"--passout=file:{self.home}/{user}.passphrase"
        site.staff.easyrsa(passed, "export-p12", user)
        shutil.copy(site.staff.folder / f"private/{user}.p12", self.home)
        shutil.copy(site.folder / "bank/ca.crt", self.home / "bank.crt")
        # As after Firefox's first start.
        done("certutil", "-d", f"sql:{self.profile}", "-N", "--empty-password")
        self.pages: list[Page] = []

    def within(self) -> list[str]:
        return [*WITHIN, START, str(self.etc)]

    def environment(self, display: str | None = None) -> dict[str, str]:
        return {**os.environ, "HOME": str(self.home)} | ({"DISPLAY": display} if display else {})

    def run(self, block: str) -> None:
        text = block.replace("counter.bank.example", self.site.name)
        text = text.replace("/usr/local/share/ca-certificates/bank.crt", f"{self.home}/bank.crt")
        done(*self.within(), "bash", "-euc", text, cwd=self.home, env=self.environment())

    def page(self, browser: str, display: str | None = None) -> Page:
        """The browser on the page. Without a display it has no window, and waits for the page; with one it may ask the teller."""
        kinds: dict[str, type[OwnChromium] | type[OwnFirefox]]
        kinds = {"chromium": OwnChromium, "firefox": OwnFirefox}
        engine = kinds[browser](self, display)
        url = f"https://{self.site.name}:{self.port}/teller/"
        self.pages.append(Page(browser, url, self.folder, profile=self.home, engine=engine))
        return self.pages[-1]


SIZE = (1100, 820)


class OwnChromium(Chromium):
    def __init__(self, desk: Desk, display: str | None) -> None:
        words = shlex.join([*desk.within(), "chromedriver"])
        driver = script(desk.folder / "chromedriver", f'#!/bin/sh\nexec {words} "$@"\n')
        service = Service(str(driver), env=desk.environment(display))
        with_screen, without = ("--no-first-run", "none"), ("--headless=new", "normal")
        way, strategy = with_screen if display else without
        self.begin(desk.home / "chromium", SIZE, service, False, strategy, [way])


class OwnFirefox(Firefox):
    def __init__(self, desk: Desk, display: str | None) -> None:
        own = [f"{name}={text}" for name, text in desk.environment(display).items()]
        way, strategy = ("--headless", "normal") if display is None else ("--no-remote", "none")
        process = Marionette(desk.profile, within=["env", *own, *desk.within()], way=way)
        self.begin(process, SIZE, False, strategy)


def unread(folder: str, names: list[str]) -> list[str]:
    return [name for name in names if not os.access(f"{folder}/{name}", os.R_OK)]


def sign(site: Site) -> None:
    """Gives nginx a certificate that an authority of the bank has signed: a browser takes none that is its own authority."""
    bank = Staff(site.folder / "bank")
    bank.easyrsa(f"--subject-alt-name=IP:{site.name}", "build-server-full", "server", "nopass")
    chain = (bank.folder / "issued/server.crt", bank.folder / "ca.crt")
    (site.folder / "certificate.pem").write_text("".join(part.read_text() for part in chain))
    shutil.copy(bank.folder / "private/server.key", site.folder / "key.pem")
    site.reload()


@pytest.fixture
def desk(site: MakeSite, folder: Path) -> Iterator[Desk]:
    """A desk of anna's, and an open day."""
    made = site(GROUPS)
    sign(made)
    opened = made.ask("bert", "POST", "/day/open", {"desk": 900, "number": 1, "day": DAY})
    assert opened.status == 200, opened
    desk = Desk(folder / "desk", made, "anna")
    yield desk
    for page in desk.pages:
        page.close()


def pays(desk: Desk, page: Page, serial: str, ticket: int) -> None:
    page.choose_desk(5)
    page.waits_for("Teller anna", "#user")
    page.joins(DAY)
    page.show_sheet(7)
    page.choose(serial)
    page.pay()
    page.waits_for(f"Ticket {ticket} is paid.", "#notices")
    page.settled()
    paid = [entry for entry in desk.site.log() if entry["route"] == "/redeem"]
    assert [(entry["user"], entry["status"]) for entry in paid] == [("anna", "200")] * ticket


@pytest.mark.parametrize("browser", ["chromium", "firefox"])
def test_by_policy(desk: Desk, browser: str) -> None:
    """The commands of the page import the certificate, and the machine's policy has it sent without a question."""
    imported, policy = blocks("TELLERS", browser.capitalize())
    desk.run(policy)
    desk.run(re.sub("^pk12util.*", "", imported, flags=re.M))
    without = desk.page(browser)
    without.waits_for(REFUSED)
    without.close()
    desk.run(imported)
    page = desk.page(browser)
    pays(desk, page, "B1EE", 1)
    page.pictured("paid")
    desk.site.staff.dismiss("anna")
    desk.site.reload()
    page.show_sheet_begun(7)
    page.waits_for("This browser sent no certificate of the staff, or it was revoked", "#notices")
    page.pictured("revoked")
    page.reload()
    page.waits_for(REFUSED)
    assert desk.site.log()[-1]["route"] == "/redeem", "nothing was posted after the payment"


@pytest.fixture
def display() -> Iterator[str]:
    words = ["Xvfb", "-displayfd", "1", "-screen", "0", "1100x820x24", "-nolisten", "tcp"]
    running = subprocess.Popen(words, stdout=subprocess.PIPE, stderr=subprocess.DEVNULL)
    yield f":{int(piped(running.stdout).readline())}"
    end(running)


def choose(display: str, browser: str, seen: threading.Event) -> None:
    """Presses OK in the browser's box, by Enter, until the page is seen. Until the box is there, Enter does nothing; while it is there, the driver says nothing."""
    screen = {**os.environ, "DISPLAY": display}
    for _ in range(30):
        if seen.wait(4):
            return
        if folder := os.environ.get("PICTURES"):
            done("import", "-window", "root", f"{folder}/asked-{browser}.png", env=screen)
        done("xdotool", "key", "Return", env=screen)


@pytest.mark.needs("Xvfb", "xdotool")
@pytest.mark.parametrize("browser", ["chromium", "firefox"])
def test_by_hand(desk: Desk, display: str, browser: str) -> None:
    """Without a policy the browser asks, and sends the certificate that the teller chooses."""
    desk.run(blocks("TELLERS", browser.capitalize())[0])
    if browser == "firefox":
        desk.run("certutil -d sql:$(echo ~/.mozilla/firefox/*) -A -t C,, -n bank -i bank.crt")
    page = desk.page(browser, display)
    seen = threading.Event()
    chooser = threading.Thread(target=choose, args=(display, browser, seen))
    chooser.start()
    try:
        page.waits_for("Choose a desk")
    finally:
        seen.set()
        chooser.join()
    pays(desk, page, "B1EE", 1)


EVERY_GROUP = {"anna": "teller supervisor office registrar"}
BODY = '{"desk":"=","number":1}'
#: A form of text/plain sends NAME=VALUE: what stands before the "=" is the name.
FORM = """<form method=post enctype=text/plain action="TARGET/redeem" target="FRAME">
<input type=hidden name='{"desk":"' value='","number":1}'></form><iframe name=inner></iframe>
<script>document.forms[0].submit()</script>"""
SIMPLE = "fetch('TARGET/redeem', {method: 'POST', body: BODY, credentials: 'include', mode: 'no-cors', TYPE})"
TYPE = "headers: {'Content-Type': '%s'}"
SCRIPTS = {
    "fetch of text": SIMPLE.replace("TYPE", TYPE % "text/plain"),
    "fetch of a form's type": SIMPLE.replace("TYPE", TYPE % "application/x-www-form-urlencoded"),
    "fetch of a type for files": SIMPLE.replace("TYPE", TYPE % "multipart/form-data; boundary=x"),
    "fetch without a type": SIMPLE.replace("BODY", "new Blob([BODY])").replace("TYPE", ""),
    "fetch of JSON": SIMPLE.replace("'no-cors', TYPE", f"'cors', {TYPE % 'application/json'}"),
    "request kept alive": SIMPLE.replace("TYPE", "keepalive: true")
    + "; location.replace('about:blank')",
    "beacon": "navigator.sendBeacon('TARGET/redeem', new Blob([BODY], {type: 'text/plain'}))",
    "request with credentials": "const sent = new XMLHttpRequest(); sent.open('POST', 'TARGET/redeem'); sent.withCredentials = true; sent.send(BODY)",
}
FRAMES = {"form": "_self", "form in a frame": "inner", "form in a window": "_blank"}
WAYS = {name: FORM.replace("FRAME", frame) for name, frame in FRAMES.items()}
WAYS |= {n: f"<script>{text.replace('BODY', repr(BODY))}</script>" for n, text in SCRIPTS.items()}


class Attacker(http.server.ThreadingHTTPServer):
    """A web server of another origin, whose pages are those of WAYS by their place."""

    def __init__(self, target: str, folder: Path | None) -> None:
        self.target = target
        super().__init__(("127.0.0.1", 0), Pages)
        if folder:
            context = ssl.SSLContext(ssl.PROTOCOL_TLS_SERVER)
            context.load_cert_chain(folder / "certificate.pem", folder / "key.pem")
            self.socket = context.wrap_socket(self.socket, server_side=True)
        name = "https://127.0.0.1" if folder else "http://localhost"
        self.origin = f"{name}:{self.server_address[1]}"
        threading.Thread(target=self.serve_forever, daemon=True).start()


class Pages(http.server.BaseHTTPRequestHandler):
    def do_GET(self) -> None:
        assert isinstance(self.server, Attacker)
        way = self.path[1:]
        text = list(WAYS.values())[int(way)] if way.isdigit() else ""
        self.send_response(200)
        self.send_header("Content-Type", "text/html; charset=utf-8")
        self.end_headers()
        body = text.replace("TARGET", self.server.target)
        self.wfile.write(f"<!doctype html><title>{way}</title><body>{body}".encode())

    def log_message(self, *_: object) -> None:
        pass


def attacked(folder: Path, changed: Mapping[str, str]) -> dict[str, tuple[int, bool]]:
    """What came of each way of each origin: how many requests reached the counter, and whether nginx refused one of anna's."""
    found: dict[str, tuple[int, bool]] = {}
    with RecordedSite(folder, EVERY_GROUP, {**UNLIMITED, **changed}) as site:
        sign(site)
        desk = Desk(folder / "desk", site, "anna")
        imported, policy = blocks("TELLERS", "Chromium")
        desk.run(policy)
        desk.run(imported)
        engine = OwnChromium(desk, None)
        try:
            for other in (None, site.folder):
                attacker = Attacker(f"https://{site.name}:{site.port}", other)
                for nth, way in enumerate(WAYS):
                    before = len(site.log())
                    engine.driver.get(f"{attacker.origin}/{nth}")
                    for _ in range(30):
                        reached, refused = site.recorder.messages, site.log()[before:]
                        if reached or refused:
                            break
                        time.sleep(0.1)
                    is_refused = any((e["user"], e["status"]) == ("anna", "403") for e in refused)
                    found[f"{way} of {attacker.origin[:5]}"] = len(site.recorder.take()), is_refused
                attacker.shutdown()
        finally:
            engine.driver.quit()
    return found


def test_no_page_of_another_origin_reaches_the_counter(folder: Path) -> None:
    found = attacked(folder, {})
    assert len(found) == 22 and [way for way, (reached, _) in found.items() if reached] == []
    assert len([way for way, (_, is_refused) in found.items() if is_refused]) >= 20


def test_control_without_the_marks_of_origins_they_do(folder: Path) -> None:
    found = attacked(folder, {'default origin; 1111 "";': 'default "";'})
    assert len([way for way, (reached, _) in found.items() if reached]) >= 20
