"""A page in a browser, as a person sees it and a keyboard works it."""

import os
import re
import subprocess
import tempfile
import time
import unicodedata
from pathlib import Path
from typing import Any, Callable

from selenium.common.exceptions import StaleElementReferenceException, TimeoutException
from selenium.common.exceptions import WebDriverException
from selenium.webdriver.common.action_chains import ActionChains
from selenium.webdriver.common.by import By
from selenium.webdriver.common.keys import Keys as Keys
from selenium.webdriver.remote.webelement import WebElement
from selenium.webdriver.support.ui import WebDriverWait

from tests.browser.engines import ENGINES, Engine, Size

PATIENCE = 60
MONTHS = "Jan Feb Mar Apr May Jun Jul Aug Sep Oct Nov Dec".split()
FILES = [path.read_text() for path in Path(__file__).parent.glob("*.js")]
#: The functions that run within a page, by their names: the text of the file beside this one.
SCRIPTS = {
    name: text.replace("export ", "")
    for text in FILES
    for name in re.findall(r"^export (?:async )?function (\w+)", text, re.M)
}


class Browser:
    """A browser of its own, with storage of its own; the same `profile` again is the same browser started again. `engine` is one that runs already."""

    def __init__(
        self,
        name: str,
        url: str,
        folder: Path,
        *,
        profile: Path | None = None,
        size: Size = (1100, 820),
        certificate: Path | None = None,
        engine: Engine | None = None,
    ) -> None:
        self.name, self.url, self.patience = name, url, float(PATIENCE)
        self.profile = profile or Path(tempfile.mkdtemp(prefix="profile.", dir=folder))
        self.engine = engine or ENGINES[name](self.profile, size, certificate)
        self.driver = self.engine.driver
        self.saves_in(self.profile / "downloads")
        self.open(url)

    def close(self) -> None:
        self.engine.quit()

    def saves_in(self, folder: Path) -> None:
        self.downloads = folder
        folder.mkdir(exist_ok=True)
        self.engine.downloads(folder)

    # ---- what is loaded

    def open(self, url: str) -> None:
        self.load(lambda: self.driver.get(url))

    def reload(self) -> None:
        self.load(self.driver.refresh)

    def load(self, action: Callable[[], Any]) -> None:
        """Once more if the machine's network was changed meanwhile, by something else than this test."""
        for _ in range(10):
            try:
                action()
                return
            except WebDriverException as failure:
                if "ERR_NETWORK_CHANGED" not in str(failure):
                    raise
        raise AssertionError("the machine's network doesn't rest")

    def new_tab(self) -> str:
        before = str(self.driver.current_window_handle)
        self.driver.switch_to.new_window("tab")
        return before

    def close_tab(self, name: str) -> None:
        own = self.driver.current_window_handle
        self.driver.switch_to.window(name)
        self.driver.close()
        self.driver.switch_to.window(own)

    def resize(self, width: int, height: int) -> None:
        self.engine.resize(width, height)
        self.until(lambda: self.run("return innerWidth") == width, f"the window is {width} wide")

    def pictured(self, name: str) -> None:
        """Leaves a picture for people in the folder that $PICTURES names, if it does."""
        if folder := os.environ.get("PICTURES"):
            time.sleep(0.3)
            os.makedirs(folder, exist_ok=True)
            self.driver.save_screenshot(f"{folder}/{name}-{self.name}.png")

    def printed(self, width: float = 8.5, height: float = 11, colored: bool = False) -> list[str]:
        """The text of each sheet of the printed page, on paper of this size in inches."""
        path = self.profile / "printed.pdf"
        path.write_bytes(self.engine.pdf(width, height, colored))
        words = ["pdftotext", "-layout", str(path), "-"]
        text = subprocess.run(words, capture_output=True, text=True, check=True).stdout
        return unicodedata.normalize("NFKC", text).split("\f")[:-1]

    def saved(self, name: str, press: str) -> str:
        """The text of a file that the page saves as that button is pressed."""
        file = self.downloads / name
        file.unlink(missing_ok=True)
        self.press(press)

        def is_whole() -> bool:
            parts = [*self.downloads.glob("*.part"), *self.downloads.glob("*.crdownload")]
            return file.exists() and file.stat().st_size > 0 and parts == []

        self.until(is_whole, f"{name} is saved")
        return file.read_bytes().decode()

    # ---- what is there

    def find(self, selector: str) -> WebElement:
        return self.driver.find_element(By.CSS_SELECTOR, selector)

    def all(self, selector: str) -> list[WebElement]:
        return list(self.driver.find_elements(By.CSS_SELECTOR, selector))

    def text(self, selector: str = "body") -> str:
        return str(self.find(selector).text)

    def value(self, selector: str) -> str:
        return str(self.find(selector).get_attribute("value"))

    def is_shown(self, selector: str) -> bool:
        return bool(self.find(selector).is_displayed())

    def focused(self) -> str:
        return str(self.run("return document.activeElement?.id"))

    def has_keyboard(self, selector: str) -> bool:
        return bool(self.run("return document.activeElement?.matches(arguments[0])", selector))

    def run(self, script: str, *arguments: object) -> Any:
        return self.driver.execute_script(script, *arguments)

    def calls(self, name: str, *arguments: object) -> Any:
        """What a function of the files beside this one returns, which may await."""
        return self.run(f"{SCRIPTS[name]}\nreturn {name}(...arguments);", *arguments)

    def until(self, condition: Callable[[], Any], what: str, patience: float | None = None) -> None:
        seconds, passing = patience or self.patience, [StaleElementReferenceException]
        wait = WebDriverWait(self.driver, seconds, 0.05, passing)
        try:
            wait.until(lambda _: condition())
        except TimeoutException:
            raise AssertionError(f"{what}\n{self.text()}") from None

    def waits_for(self, words: str, selector: str = "body") -> None:
        is_shown = lambda: any(words in element.text for element in self.all(selector))
        self.until(is_shown, f"the page doesn't show: {words}")

    def takes_keyboard(self, selector: str) -> None:
        self.until(lambda: self.has_keyboard(selector), f"{selector} takes the keyboard")

    def complaints(self) -> list[str]:
        """What the browser's console was told that speaks of a fault of the page itself."""
        return self.engine.complaints()

    # ---- what a person does

    def type(self, selector: str, text: str) -> None:
        """As a person types it: into a native field of a day or a month, each part by its keys."""
        field = self.find(selector)
        kind = self.run("return arguments[0].type", field)
        if kind in ("date", "month") and self.name == "chromium":
            self.type_date(field, kind, text)
            return
        if kind != "date":
            field.send_keys(Keys.CONTROL, "a")
        field.send_keys(text)

    def type_date(self, field: WebElement, kind: str, text: str) -> None:
        """Chromium's fields are typed as MM/DD/YYYY, and as a month's name and a year."""
        year, month, *day = text.split("-")
        self.run("arguments[0].focus()", field)
        parts = [month, *day] if kind == "date" else [MONTHS[int(month) - 1], Keys.RIGHT]
        self.keys(*parts, year)
        self.until(lambda: field.get_attribute("value") == text, f"the field has {text}")

    def press(self, selector: str) -> None:
        """From under a notice, which stands at the top of the window, the page is scrolled first. If the page writes the element anew meanwhile, the new one is pressed."""
        for _ in range(5):
            self.rested(selector)
            element = self.find(selector)
            try:
                near = "{ block: 'nearest', inline: 'nearest' }"
                self.run(f"arguments[0].scrollIntoView({near})", element)
                element.click()
                return
            except StaleElementReferenceException:
                time.sleep(0.2)
        raise AssertionError(f"{selector} is written anew again and again")

    def rested(self, selector: str) -> None:
        """A button of a question does nothing at first."""
        has_rested = lambda: self.find(selector).get_attribute("aria-disabled") is None
        self.until(has_rested, f"{selector} has rested")

    def double_click(self, selector: str) -> None:
        button = self.find(selector)
        self.run("arguments[0].scrollIntoView({ block: 'nearest' })", button)
        ActionChains(self.driver).double_click(button).perform()

    def keys(self, *keys: str) -> None:
        for key in keys:
            ActionChains(self.driver).send_keys(key).perform()

    def tab(self, back: bool = False) -> None:
        chain = ActionChains(self.driver)
        if back:
            chain = chain.key_down(Keys.SHIFT).send_keys(Keys.TAB).key_up(Keys.SHIFT)
        else:
            chain = chain.send_keys(Keys.TAB)
        chain.perform()
        self.engine.come_round(back)

    def tab_to(self, selector: str, back: bool = False) -> int:
        """Tabs until that element has the keyboard; how many keys it took."""
        for count in range(80):
            if self.has_keyboard(selector):
                return count
            self.tab(back)
        raise AssertionError(f"no tab reaches {selector}")
