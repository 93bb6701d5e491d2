"""A browser for the tests of the page."""

from __future__ import annotations

import importlib.util
import shutil
import tempfile
import time
import unittest

from helpers import SECONDS

CHROMIUM, DRIVER = shutil.which("chromium"), shutil.which("chromedriver")
# No service of the browser's makers is called.
ARGUMENTS = [
    "--headless=new", "--no-sandbox", "--disable-dev-shm-usage", "--disable-background-networking", "--disable-component-update",
    "--disable-sync", "--no-first-run", "--disable-extensions", "--host-resolver-rules=MAP * ~NOTFOUND, EXCLUDE 127.0.0.1",
]  # fmt: skip


def reason_to_skip() -> str:
    missing = [f"the library {library}" for library in ("aiohttp", "selenium") if not importlib.util.find_spec(library)]
    missing += ["chromium"] * (CHROMIUM is None) + ["chromedriver (chromium-driver)"] * (DRIVER is None)
    return f"missing: {', '.join(missing)}" if missing else ""


class Browsing(unittest.TestCase):
    """Tests with a browser and a server, which `serve` gives."""

    @classmethod
    def serve(cls):
        """A server."""
        raise NotImplementedError

    @classmethod
    def setUpClass(cls) -> None:
        from selenium import webdriver
        from selenium.webdriver.chrome.service import Service

        cls.server = cls.serve()
        options = webdriver.ChromeOptions()
        options.binary_location = CHROMIUM
        for argument in [*ARGUMENTS, f"--user-data-dir={cls.enterClassContext(tempfile.TemporaryDirectory(ignore_cleanup_errors=True))}"]:
            options.add_argument(argument)
        options.set_capability("goog:loggingPrefs", {"browser": "ALL"})
        cls.browser = webdriver.Chrome(service=Service(DRIVER), options=options)
        cls.addClassCleanup(cls.browser.quit)
        cls.browser.set_page_load_timeout(SECONDS)
        cls.browser.set_window_size(1_200, 800)

    def setUp(self) -> None:
        self.browser.get_log("browser")
        self.open("/")

    def open(self, path: str) -> None:
        """Opens the page, and waits until it takes what is typed."""
        self.browser.get(self.server.address + path)
        self.wait(lambda: self.done() is not None)

    def wait(self, holds) -> None:
        from selenium.common.exceptions import StaleElementReferenceException
        from selenium.webdriver.support.ui import WebDriverWait

        # what was on the page may be gone by the time it is looked at
        WebDriverWait(self.browser, SECONDS, 0.02, ignored_exceptions=[StaleElementReferenceException]).until(lambda _: holds())

    def all(self, selector: str) -> list:
        return self.browser.find_elements("css selector", selector)

    def one(self, selector: str):
        return self.browser.find_element("css selector", selector)

    def type(self, text: str, selector: str = "#pattern", pause: float = 0) -> None:
        """Types into a field, and waits for the answer to what stands in the pattern then."""
        for letter in text:
            self.one(selector).send_keys(letter)
            time.sleep(pause)
        pattern = self.one("#pattern").get_attribute("value")
        self.wait(lambda: self.done() == pattern)

    def done(self) -> str | None:
        return self.one("body").get_attribute("data-done")

    def shown(self) -> list[tuple[str, str, str]]:
        """The hits on the page: name, number and text."""
        script = """return [...document.querySelectorAll('#results section')].flatMap(section =>
            [...section.querySelectorAll('.row:not(.around)')].map(row => [section.querySelector('.name').textContent,
            row.querySelector('.number').textContent, row.querySelector('.text').textContent]))"""
        return [tuple(row) for row in self.browser.execute_script(script)]

    def marks(self) -> list[str]:
        return [mark.text for mark in self.all("#results mark")]
