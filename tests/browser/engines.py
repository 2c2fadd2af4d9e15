"""Debian's Chromium, and its Firefox. Each starts on a profile, and does by its own means what the WebDriver protocol has no word for."""

import base64
import json
import os
import signal
import subprocess
from pathlib import Path
from typing import Any, Iterator, Sequence

from selenium import webdriver
from selenium.webdriver.chrome.service import Service
from selenium.webdriver.remote.file_detector import UselessFileDetector

from tests.browser.marionette import Firefox as FirefoxProcess

#: A node of the accessibility tree.
Node = dict[str, Any]
#: What a screen reader is given of a dialog: its name, its description, whether it is modal, the roles and names of what is in it, and the names of the buttons.
Dialog = tuple[str, str, bool, list[tuple[str, str]], list[str]]
Size = tuple[int, int]


def said(node: Node) -> tuple[str | None, str]:
    """The role and the name of a node of the accessibility tree."""
    return node.get("role", {}).get("value"), node.get("name", {}).get("value", "")


def below(nodes: dict[str, Node], node: Node) -> Iterator[Node]:
    for name in node.get("childIds", ()):
        if name in nodes:
            if not nodes[name]["ignored"]:
                yield nodes[name]
            yield from below(nodes, nodes[name])


def take(database: Path, certificate: Path | None) -> None:
    """Makes a database of NSS, and imports a certificate with its key, by the commands of docs/TELLERS.md. One that was there goes."""
    database.mkdir(parents=True, exist_ok=True)
    for file in ("cert9.db", "key4.db", "pkcs11.txt"):
        (database / file).unlink(missing_ok=True)
    subprocess.run(["certutil", "-d", f"sql:{database}", "-N", "--empty-password"], check=True)
    if certificate is not None:
        words = ["pk12util", "-d", f"sql:{database}", "-i", str(certificate), "-W", ""]
        subprocess.run(words, check=True, stdout=subprocess.DEVNULL)


#: Starts chromedriver with a folder in place of /etc/chromium, which has the policies of the machine. No root is needed, and the machine's own folder stays as it is.
DRIVER = """#!/bin/sh
exec unshare --user --map-root-user --mount sh -c 'mount --bind "$0" /etc/chromium && exec chromedriver "$@"' {folder} "$@"
"""


class Chromium:
    name = "chromium"

    def __init__(self, profile: Path, size: Size, certificate: Path | None = None) -> None:
        service = Service("/usr/bin/chromedriver")
        if certificate is not None:
            service = self.service_with(profile, certificate)
        self.begin(profile, size, service)

    def begin(
        self,
        profile: Path,
        size: Size,
        service: Service,
        trusting: bool = True,
        strategy: str = "normal",
        ways: Sequence[str] = ("--headless=new",),
    ) -> None:
        """Starts it: `trusting` servers of any certificate, and waiting for a page by a `strategy` of WebDriver."""
        self.profile = profile
        options = webdriver.ChromeOptions()
        options.binary_location = "/usr/bin/chromium"
        options.accept_insecure_certs = trusting
        options.page_load_strategy = strategy
        own = (f"--user-data-dir={profile}", f"--window-size={size[0]},{size[1]}", *ways)
        steady = ("--force-device-scale-factor=1", "--hide-scrollbars", "--lang=en-US")
        for word in ("--no-sandbox", "--disable-dev-shm-usage", *steady, *own):
            options.add_argument(word)
        options.set_capability("goog:loggingPrefs", {"browser": "ALL"})
        self.driver = webdriver.Chrome(service=service, options=options)
        # As in a browser that keeps the page's data.
        self.command("Browser.grantPermissions", permissions=["durableStorage"])

    @staticmethod
    def service_with(profile: Path, certificate: Path) -> Service:
        """The driver of a browser that sends the certificate without a question: a home of its own, and the policy of docs/TELLERS.md."""
        home, policies = profile / "home", profile / "etc/policies/managed"
        take(home / ".pki/nssdb", certificate)
        policies.mkdir(parents=True, exist_ok=True)
        choice = json.dumps({"pattern": "https://127.0.0.1", "filter": {}})
        policy = json.dumps({"AutoSelectCertificateForUrls": [choice]})
        (policies / "counter.json").write_text(policy)
        driver = profile / "driver"
        driver.write_text(DRIVER.format(folder=policies.parents[1]))
        driver.chmod(0o755)
        return Service(str(driver), env={**os.environ, "HOME": str(home)})

    def command(self, name: str, **words: object) -> Any:
        """A command of Chromium's own protocol."""
        return self.driver.execute_cdp_cmd(name, words)

    def resize(self, width: int, height: int) -> None:
        size = {"width": width, "height": height, "deviceScaleFactor": 1, "mobile": False}
        self.command("Emulation.setDeviceMetricsOverride", **size)

    def downloads(self, folder: Path) -> None:
        self.command("Browser.setDownloadBehavior", behavior="allow", downloadPath=str(folder))

    def dark(self, is_dark: bool) -> None:
        scheme = {"name": "prefers-color-scheme", "value": "dark" if is_dark else "light"}
        self.command("Emulation.setEmulatedMedia", features=[scheme])

    def pdf(self, width: float = 8.5, height: float = 11, colored: bool = False) -> bytes:
        """The printed page, on paper of this size in inches; `colored` with its backgrounds."""
        paper = {"paperWidth": width, "paperHeight": height, "preferCSSPageSize": False}
        made = self.command("Page.printToPDF", printBackground=colored, **paper)
        return base64.b64decode(made["data"])

    def complaints(self) -> list[str]:
        """What the console was told, what the browser says of its own pages and of failed requests apart."""
        messages = [entry["message"] for entry in self.driver.get_log("browser")]
        own = [message for message in messages if not message.startswith("chrome://")]
        return [message for message in own if "Failed to load resource" not in message]

    def come_round(self, back: bool) -> None:
        """Without a screen Chromium has no controls of its own: Tab goes from the last of the page to the first."""

    def tree(self) -> dict[str, Node]:
        nodes = self.command("Accessibility.getFullAXTree")["nodes"]
        return {node["nodeId"]: node for node in nodes}

    def dialog(self) -> Dialog | None:
        """What a screen reader is given of the open dialog, or None if the browser doesn't tell."""
        nodes = self.tree()
        given = [node for node in nodes.values() if not node["ignored"]]
        dialog = next(node for node in given if said(node)[0] == "dialog")
        kinds = ("heading", "list", "listitem", "button")
        parts = map(said, below(nodes, dialog))
        within = [(kind, name) for kind, name in parts if kind in kinds and kind]
        properties = dialog["properties"]
        modal = any(one["name"] == "modal" and one["value"]["value"] for one in properties)
        buttons = [said(node)[1] for node in given if said(node)[0] == "button"]
        description = " ".join(dialog.get("description", {}).get("value", "").split())
        return said(dialog)[1], description, modal, within, buttons

    def rows(self) -> int | None:
        """How many rows a screen reader is given, or None if the browser doesn't tell."""
        return sum(said(node)[0] == "row" for node in self.tree().values())

    def kill(self) -> None:
        """All processes of that browser, by the folder of its profile."""
        service = self.driver.service.process
        words = ["ps", "-eo", "pid,args"]
        lines = subprocess.run(words, capture_output=True, text=True, check=True).stdout
        own = f"--user-data-dir={self.profile}"
        mine = [line.split()[0] for line in lines.splitlines() if own in line]
        subprocess.run(["kill", "-KILL", *mine], check=True)
        service.kill()
        service.wait()
        for lock in ("SingletonLock", "SingletonSocket", "SingletonCookie"):
            (self.profile / lock).unlink(missing_ok=True)

    def quit(self) -> None:
        if self.driver.service.process.poll() is None:
            self.driver.quit()


#: What Firefox's console was told of faults in the page's own files.
COMPLAINTS = """
    const errors = Services.console.getMessageArray().filter((one) => one instanceof Ci.nsIScriptError);
    return errors.filter((one) => one.sourceName.includes("/teller/") && !(one.flags & Ci.nsIScriptError.warningFlag)).map((one) => one.errorMessage + " " + one.sourceName);
"""
#: Goes on by Tab through Firefox's own controls, until the page has the keyboard. Each step is waited for: the page is in another process.
COME_ROUND = """
    return (async () => {
        const { focus } = Services;
        const direction = arguments[0] ? focus.MOVEFOCUS_BACKWARD : focus.MOVEFOCUS_FORWARD;
        const is_on_page = () => focus.focusedElement === gBrowser.selectedBrowser;
        for (let count = 0; count < 50 && !is_on_page(); count += 1) {
            const before = focus.focusedElement;
            focus.moveFocus(window, null, direction, focus.FLAG_BYKEY);
            for (let waits = 0; waits < 250 && focus.focusedElement === before; waits += 1) await new Promise((resolve) => setTimeout(resolve, 20));
        }
        return is_on_page();
    })();
"""
#: Gives the page this size within its window, whose own least width is 450 pixels.
RESIZE = """
    const { style } = gBrowser.selectedBrowser;
    style.flex = "none";
    style.width = `${arguments[0]}px`;
    style.height = `${arguments[1]}px`;
"""
DOWNLOADS = """
    Services.prefs.setIntPref("browser.download.folderList", 2);
    Services.prefs.setStringPref("browser.download.dir", arguments[0]);
    Services.prefs.setBoolPref("browser.download.alwaysOpenPanel", false);
"""


class Firefox:
    name = "firefox"

    def __init__(self, profile: Path, size: Size, certificate: Path | None = None) -> None:
        take(profile, certificate)
        chosen = {"security.default_personal_cert": "Select Automatically"}
        self.begin(FirefoxProcess(profile, more=chosen), size)

    def begin(
        self, process: FirefoxProcess, size: Size, trusting: bool = True, strategy: str = "normal"
    ) -> None:
        self.process = process
        options = webdriver.FirefoxOptions()
        options.accept_insecure_certs = trusting
        options.page_load_strategy = strategy
        self.driver = webdriver.Remote(self.process, options=options)
        # A file that is typed into a field isn't sent anywhere: Firefox is on this machine.
        self.driver.file_detector = UselessFileDetector()
        self.resize(*size)

    def resize(self, width: int, height: int) -> None:
        self.driver.set_window_size(max(width, 500), height + 100)
        self.process.run_inside(RESIZE, width, height)
        # The page has the keyboard again, after what was done beside it.
        self.driver.switch_to.window(self.driver.current_window_handle)

    def downloads(self, folder: Path) -> None:
        self.process.run_inside(DOWNLOADS, str(folder))

    def dark(self, is_dark: bool) -> None:
        script = "Services.prefs.setIntPref('layout.css.prefers-color-scheme.content-override', arguments[0]);"
        self.process.run_inside(script, 0 if is_dark else 1)

    def pdf(self, width: float = 8.5, height: float = 11, colored: bool = False) -> bytes:
        paper = {
            "page": {"width": width * 2.54, "height": height * 2.54},
            "margin": {"top": 1.2, "bottom": 1.2, "left": 1.2, "right": 1.2},
            "shrinkToFit": False,
            "background": colored,
        }
        return base64.b64decode(self.process.ask("WebDriver:Print", paper))

    def complaints(self) -> list[str]:
        return list(self.process.run_inside(COMPLAINTS))

    def come_round(self, back: bool) -> None:
        """After the page's last control Tab goes on to Firefox's own, as a user sees it. The driver's keys stay in the page, which then shows no focus."""
        assert self.process.run_inside(COME_ROUND, back), "no tab leads back to the page"

    def dialog(self) -> Dialog | None:
        """Firefox's driver has no command for it."""
        return None

    def rows(self) -> int | None:
        """Nor for this."""
        return None

    def kill(self) -> None:
        os.killpg(self.process.process.pid, signal.SIGKILL)
        self.process.process.wait()

    def quit(self) -> None:
        self.process.close()


Engine = Chromium | Firefox
ENGINES: dict[str, type[Chromium] | type[Firefox]] = {"chromium": Chromium, "firefox": Firefox}
