"""Firefox for selenium, without geckodriver, which Debian lacks: selenium's commands are handed to Firefox's own Marionette, which has the same ones under other names."""

import json
import socket
import subprocess
import threading
import time
from pathlib import Path
from typing import Any, Mapping, Sequence

Json = dict[str, Any]

#: Selenium's command, and Marionette's.
COMMANDS = dict(
    pair.split(":")
    for pair in """
    get:Navigate getCurrentUrl:GetCurrentURL refresh:Refresh goBack:Back getTitle:GetTitle
    w3cGetCurrentWindowHandle:GetWindowHandle w3cGetWindowHandles:GetWindowHandles
    switchToWindow:SwitchToWindow close:CloseWindow newWindow:NewWindow
    getWindowRect:GetWindowRect setWindowRect:SetWindowRect setTimeouts:SetTimeouts
    findElement:FindElement findElements:FindElements
    findChildElement:FindElement findChildElements:FindElements
    getElementText:GetElementText getElementTagName:GetElementTagName
    getElementRect:GetElementRect isElementEnabled:IsElementEnabled
    isElementSelected:IsElementSelected getElementAriaRole:GetComputedRole
    getElementAriaLabel:GetComputedLabel clickElement:ElementClick clearElement:ElementClear
    sendKeysToElement:ElementSendKeys w3cExecuteScript:ExecuteScript
    w3cExecuteScriptAsync:ExecuteAsyncScript actions:PerformActions
    clearActionState:ReleaseActions w3cGetAlertText:GetAlertText w3cDismissAlert:DismissAlert
    w3cAcceptAlert:AcceptAlert screenshot:TakeScreenshot printPage:Print
""".split()
)
#: No page of Mozilla's is asked for, a page's data is kept without a question, and scrollbars take no room, as on a phone.
OFF = """app.update.enabled browser.shell.checkDefaultBrowser browser.aboutwelcome.enabled
datareporting.policy.dataSubmissionEnabled dom.disable_open_during_load
network.captive-portal-service.enabled network.connectivity-service.enabled""".split()
PREFERENCES: dict[str, object] = {
    **dict.fromkeys(OFF, False),
    **dict.fromkeys(("marionette.port", "browser.startup.page"), 0),
    "browser.startup.homepage": "about:blank",
    "dom.storageManager.prompt.testing": True,
    "dom.storageManager.prompt.testing.allow": True,
    "intl.accept_languages": "en-US",
    "layout.css.devPixelsPerPx": "1",
    "ui.useOverlayScrollbars": 1,
    "toolkit.startup.max_resumed_crashes": -1,
}


class Marionette:
    """One connection to a Firefox: a command and its answer, by turns. Each message is its length, a colon and JSON."""

    def __init__(self, port: int) -> None:
        self.socket = socket.create_connection(("127.0.0.1", port))
        self.file = self.socket.makefile("rb")
        self.number = 0
        self.lock = threading.Lock()
        self.read()

    def read(self) -> Any:
        digits = b""
        while (byte := self.file.read(1)) != b":":
            if not byte:
                raise ConnectionError("Firefox has gone")
            digits += byte
        return json.loads(self.file.read(int(digits)))

    def ask(self, command: str, parameters: Json) -> tuple[Json | None, Any]:
        """The error or None, and the result."""
        with self.lock:
            self.number += 1
            text = json.dumps([0, self.number, command, parameters]).encode()
            self.socket.sendall(b"%d:%s" % (len(text), text))
            _, _, error, result = self.read()
            return error, result


class Firefox:
    """Debian's firefox-esr with a profile. It executes selenium's commands."""

    def __init__(
        self,
        profile: Path,
        more: Mapping[str, object] = {},
        within: Sequence[str] = (),
        way: str = "--headless",
    ) -> None:
        """`more` preferences, if any. `within` is the begin of a command that starts Firefox, and `way` an option."""
        preferences: dict[str, object] = {**PREFERENCES, **more}
        lines = [f"user_pref({json.dumps(n)}, {json.dumps(v)});\n" for n, v in preferences.items()]
        (profile / "user.js").write_text("".join(lines))
        active = profile / "MarionetteActivePort"
        active.unlink(missing_ok=True)
        words = ["firefox-esr", way, "--marionette", "--remote-allow-system-access", "--no-remote"]
        line, none = [*within, *words, "--profile", str(profile)], subprocess.DEVNULL
        self.process = subprocess.Popen(line, stdout=none, stderr=none, start_new_session=True)
        self.marionette = Marionette(self.port_of(active))

    @staticmethod
    def port_of(active: Path) -> int:
        for _ in range(600):
            if active.exists() and active.read_text().strip():
                return int(active.read_text())
            time.sleep(0.1)
        raise AssertionError("Firefox doesn't start")

    def ask(self, command: str, parameters: Json) -> Any:
        error, result = self.marionette.ask(command, parameters)
        assert error is None, f"Firefox: {error}"
        return result.get("value")

    def run_inside(self, script: str, *arguments: object) -> Any:
        self.ask("Marionette:SetContext", {"value": "chrome"})
        try:
            return self.ask("WebDriver:ExecuteScript", {"script": script, "args": list(arguments)})
        finally:
            self.ask("Marionette:SetContext", {"value": "content"})

    def execute(self, command: str, parameters: Json) -> Json:
        words = {name: value for name, value in parameters.items() if name != "sessionId"}
        if command == "quit":
            self.close()
            return {"value": None}
        if command == "newSession":
            wanted = words["capabilities"]["alwaysMatch"]
            known = ("acceptInsecureCerts", "pageLoadStrategy", "unhandledPromptBehavior")
            words = {name: wanted[name] for name in known if name in wanted}
        elif command == "screenshot":
            words["full"] = False
        elif command.startswith("findChild"):
            words["element"] = words.pop("id")
        name = COMMANDS.get(command, command[0].upper() + command[1:])
        try:
            error, result = self.marionette.ask(f"WebDriver:{name}", words)
        except OSError as failure:
            error, result = {"error": "invalid session id", "message": str(failure)}, None
        if error:
            return {"status": 500, "value": json.dumps({"value": {"stacktrace": "", **error}})}
        is_whole = isinstance(result, dict) and set(result) == {"value"}
        return dict(result) if is_whole else {"value": result}

    def close(self) -> None:
        if self.process.poll() is None:
            try:
                self.marionette.ask("Marionette:Quit", {"flags": ["eForceQuit"]})
                self.process.wait(20)
            except (OSError, subprocess.TimeoutExpired):
                self.process.kill()
                self.process.wait()
