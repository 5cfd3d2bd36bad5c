"""Debian's Firefox, which comes without a driver: WebDriver BiDi over its own remote agent."""

from __future__ import annotations

import base64
import json
import shutil
import socket
import subprocess
import tempfile
import time
from pathlib import Path
from typing import Any

import websocket  # type: ignore[import]

from .browser import Browser

# Without the first line, a window that isn't in front gets no focus and blur.
PREFERENCES = """user_pref("focusmanager.testmode", true);
user_pref("datareporting.policy.dataSubmissionEnabled", false);
user_pref("app.update.enabled", false);
user_pref("browser.download.folderList", 2);
user_pref("browser.download.alwaysOpenPanel", false);
"""


class Firefox(Browser):
    """A window of Firefox."""

    name = "firefox"

    def __init__(self, downloads: str, width: int = 1400, height: int = 900) -> None:
        with socket.socket() as free:
            free.bind(("127.0.0.1", 0))
            port = free.getsockname()[1]
        self._room = tempfile.mkdtemp()
        folder = f'user_pref("browser.download.dir", {json.dumps(downloads)});\n'
        Path(self._room, "user.js").write_text(PREFERENCES + folder, encoding="utf-8")
        words = ["firefox-esr", "--headless", "--no-remote", "--profile", self._room]
        self._process = subprocess.Popen(
            [*words, "--remote-debugging-port", str(port)],
            stdout=subprocess.DEVNULL,
            stderr=subprocess.DEVNULL,
        )
        self._number = 0
        self._noted: list[dict[str, Any]] = []
        self._socket = self._connected(port)
        self._call("session.new", capabilities={})
        # The window that it begins with is never in front, so no field in it is told that it is left.
        created = self._call("browsingContext.create", type="window")
        self._context = created["context"]
        self._call("session.subscribe", events=["log.entryAdded"])
        self.size(width, height)

    def _connected(self, port: int) -> Any:
        for _ in range(300):
            try:
                return websocket.create_connection(
                    f"ws://127.0.0.1:{port}/session", timeout=900, suppress_origin=True
                )
            except OSError:
                time.sleep(0.2)
        raise AssertionError("Firefox doesn't answer")

    def _call(self, method: str, **parameters: Any) -> Any:
        self._number += 1
        call = {"id": self._number, "method": method, "params": parameters}
        self._socket.send(json.dumps(call))
        while True:
            message = json.loads(self._socket.recv())
            if message.get("id") != self._number:
                self._noted.append(message)
            elif message.get("type") == "error":
                raise AssertionError(f"{method}: {message.get('message')}")
            else:
                return message["result"]

    def open(self, address: str) -> None:
        """Go to a page."""
        self._call("browsingContext.navigate", context=self._context, url=address, wait="complete")
        self._call("browsingContext.activate", context=self._context)

    def evaluate(self, code: str) -> Any:
        """Return what the body of an asynchronous function returns in the page."""
        body = f"(async () => JSON.stringify(await (async () => {{\n{code}\n}})()))()"
        target = {"context": self._context}
        ended = self._call("script.evaluate", expression=body, target=target, awaitPromise=True)
        if ended["type"] != "success":
            raise AssertionError(ended["exceptionDetails"]["text"])
        return json.loads(ended["result"].get("value", "null"))

    def perform(self, actions: list[dict[str, Any]]) -> None:
        """Carry out actions of mouse and keys."""
        self._call("input.performActions", context=self._context, actions=actions)

    def size(self, width: int, height: int) -> None:
        """Give the window another size."""
        viewport = {"width": width, "height": height}
        self._call("browsingContext.setViewport", context=self._context, viewport=viewport)

    def complaints(self) -> list[str]:
        """Return the errors that came since the last call."""
        noted, self._noted = self._noted, []
        entries = [each["params"] for each in noted if each.get("method") == "log.entryAdded"]
        return [str(each.get("text")) for each in entries if each.get("level") == "error"]

    def shot(self, file: str) -> None:
        """Write a picture of what is to be seen."""
        picture = self._call("browsingContext.captureScreenshot", context=self._context)["data"]
        Path(file).write_bytes(base64.b64decode(picture))

    def quit(self) -> None:
        """End the browser."""
        try:
            self._call("browser.close")
        except (AssertionError, OSError, websocket.WebSocketException):
            self._process.terminate()
        self._process.wait(30)
        shutil.rmtree(self._room, ignore_errors=True)
