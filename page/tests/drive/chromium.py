"""Chromium by Selenium and Debian's chromium-driver."""

from __future__ import annotations

from typing import Any

from selenium import webdriver
from selenium.webdriver.chrome.options import Options
from selenium.webdriver.chrome.service import Service
from selenium.webdriver.remote.command import Command

from .browser import Browser

WORDS = ("--headless=new", "--no-sandbox", "--hide-scrollbars", "--disable-gpu")


class Chromium(Browser):
    """A window of Chromium."""

    name = "chromium"

    def __init__(self, downloads: str, width: int = 1400, height: int = 900) -> None:
        options: Any = Options()
        for word in (*WORDS, f"--window-size={width},{height}", "--force-device-scale-factor=1"):
            options.add_argument(word)
        options.add_experimental_option("prefs", {"download.default_directory": downloads})
        options.set_capability("goog:loggingPrefs", {"browser": "ALL"})
        service = Service("/usr/bin/chromedriver")
        self._driver: Any = webdriver.Chrome(options=options, service=service)
        self._driver.set_script_timeout(900)
        self.size(width, height)

    def open(self, address: str) -> None:
        """Go to a page."""
        self._driver.get(address)

    def evaluate(self, code: str) -> Any:
        """Return what the body of an asynchronous function returns in the page."""
        return self._driver.execute_script(f"return (async () => {{\n{code}\n}})()")

    def perform(self, actions: list[dict[str, Any]]) -> None:
        """Carry out actions of mouse and keys."""
        self._driver.execute(Command.W3C_ACTIONS, {"actions": actions})

    def size(self, width: int, height: int) -> None:
        """Give the window another size."""
        metrics = {"width": width, "height": height, "deviceScaleFactor": 1, "mobile": width < 500}
        self._driver.execute_cdp_cmd("Emulation.setDeviceMetricsOverride", metrics)

    def complaints(self) -> list[str]:
        """Return the errors and violations of the policy that came since the last call."""
        return [
            entry["message"]
            for entry in self._driver.get_log("browser")
            if entry["level"] == "SEVERE" or "Content Security" in entry["message"]
        ]

    def shot(self, file: str) -> None:
        """Write a picture of what is to be seen."""
        self._driver.save_screenshot(file)

    def quit(self) -> None:
        """End the browser."""
        self._driver.quit()
