"""Drives a headless Firefox by WebDriver BiDi over its own socket, by Python's standard library alone. Used by judge_rows. It has those calls
of page_browser.Browser that the rows of both browsers need."""
import base64
import json
import os
import shutil
import socket
import struct
import subprocess
import tempfile
import time

NAMES = ("firefox-esr", "firefox")
READY = "document.readyState === 'complete' && Boolean(document.documentElement.dataset.state)"
# The keys that have no letter, as WebDriver names them.
KEYS = {"Enter": "\ue006", "Tab": "\ue004", "Escape": "\ue00c", "Home": "\ue011", "End": "\ue010", "ArrowLeft": "\ue012", "ArrowUp": "\ue013",
        "ArrowRight": "\ue014", "ArrowDown": "\ue015", "F3": "\ue033", "F8": "\ue038", "\n": "\ue006"}
SHIFT, CONTROL = "\ue008", "\ue009"
PREFS = {"browser.shell.checkDefaultBrowser": False, "datareporting.policy.dataSubmissionEnabled": False, "app.update.enabled": False,
         "network.captive-portal-service.enabled": False, "network.connectivity-service.enabled": False, "browser.download.folderList": 2,
         "browser.download.always_ask_before_handling_new_types": False, "browser.download.alwaysOpenPanel": False}


def find():
    """The browser's program, or None."""
    return next((found for found in map(shutil.which, NAMES) if found), None)


class Gone(Exception):
    """The browser did not come up, went away, or did not answer in time."""


class Wire:
    """A web socket: texts go out and come in."""

    def __init__(self, port, path):
        self.socket, self.rest = socket.create_connection(("127.0.0.1", port), 60), b""
        key = base64.b64encode(os.urandom(16)).decode()
        self.socket.sendall(f"GET {path} HTTP/1.1\r\nHost: 127.0.0.1:{port}\r\nUpgrade: websocket\r\nConnection: Upgrade\r\n"
                            f"Sec-WebSocket-Key: {key}\r\nSec-WebSocket-Version: 13\r\n\r\n".encode())
        while b"\r\n\r\n" not in self.rest:
            self._more()
        head, self.rest = self.rest.split(b"\r\n\r\n", 1)
        if b" 101 " not in head.split(b"\r\n")[0]:
            raise Gone(head.decode(errors="replace"))

    def _more(self):
        got = self.socket.recv(1 << 20)
        if not got:
            raise Gone("the browser went away")
        self.rest += got

    def _take(self, count):
        while len(self.rest) < count:
            self._more()
        taken, self.rest = self.rest[:count], self.rest[count:]
        return taken

    def send(self, text):
        data, mask = text.encode(), os.urandom(4)
        size = bytes([128 | len(data)]) if len(data) < 126 else (b"\xfe" + struct.pack(">H", len(data)) if len(data) < 65536 else b"\xff" + struct.pack(">Q", len(data)))
        whole = mask * (len(data) // 4 + 1)
        masked = (int.from_bytes(data, "big") ^ int.from_bytes(whole[:len(data)], "big")).to_bytes(len(data), "big")
        self.socket.sendall(b"\x81" + size + mask + masked)

    def receive(self, seconds):
        """The next text."""
        self.socket.settimeout(seconds)
        text, is_last = b"", False
        while not is_last:
            first, size = self._take(2)
            size &= 127
            if size > 125:
                size = int.from_bytes(self._take(2 if size == 126 else 8), "big")
            data = self._take(size)
            if first & 15 in (0, 1, 2):
                text, is_last = text + data, bool(first & 128)
            elif first & 15 == 8:
                raise Gone("the browser went away")
        return text.decode()


def plain_value(given):
    """A value of a script, as Python has it."""
    kind, value = given["type"], given.get("value")
    if kind in ("array", "set"):
        return [plain_value(part) for part in value or []]
    if kind in ("object", "map"):
        return {key: plain_value(part) for key, part in value or []}
    if kind == "number" and isinstance(value, str):
        return float(value.replace("Infinity", "inf"))
    return value if kind in ("string", "number", "boolean") else None


class Firefox:
    """A Firefox with one page, and nothing of any other user's. Files are saved to the folder `saved`. `problems` gathers exceptions,
    `asked` the questions before it goes, to which it says yes."""

    def __init__(self, saved):
        self.profile, self.count, self.problems, self.asked = tempfile.mkdtemp(prefix="judge_rows."), 0, [], []
        with open(os.path.join(self.profile, "user.js"), "w", encoding="utf-8") as prefs:
            for name, value in {**PREFS, "browser.download.dir": saved}.items():
                prefs.write(f"user_pref({json.dumps(name)}, {json.dumps(value)});\n")
        self.child = subprocess.Popen([find(), "--headless", "--no-remote", "--remote-debugging-port", "0", "--profile", self.profile, "about:blank"],
                                      env={**os.environ, "HOME": self.profile}, stdin=subprocess.DEVNULL, stdout=subprocess.DEVNULL, stderr=subprocess.DEVNULL)
        try:
            self._connect()
        except (OSError, ValueError, KeyError, Gone) as fault:
            self.close()
            raise Gone("Firefox did not start") from fault

    def _connect(self):
        name, until = os.path.join(self.profile, "WebDriverBiDiServer.json"), time.monotonic() + 90
        while not (os.path.exists(name) and os.path.getsize(name)):
            if time.monotonic() > until or self.child.poll() is not None:
                raise Gone("there is no port")
            time.sleep(0.1)
        with open(name, encoding="utf-8") as file:
            self.wire = Wire(json.load(file)["ws_port"], "/session")
        self.call("session.new", seconds=300, capabilities={"alwaysMatch": {"unhandledPromptBehavior": {"default": "accept"}}})
        self.call("session.subscribe", events=["log.entryAdded", "browsingContext.userPromptOpened"])
        self.page = self.call("browsingContext.getTree")["contexts"][0]["context"]
        self.size(1400, 900)

    def close(self):
        """Ends the browser."""
        self.child.terminate()
        try:
            self.child.wait(20)
        except subprocess.TimeoutExpired:
            self.child.kill()
            self.child.wait()
        shutil.rmtree(self.profile, ignore_errors=True)

    def call(self, method, seconds=60, **params):
        """Calls the browser, and gives what it answers."""
        self.count += 1
        self.wire.send(json.dumps({"id": self.count, "method": method, "params": params}))
        until = time.monotonic() + seconds
        while True:
            try:
                got = json.loads(self.wire.receive(max(1, until - time.monotonic())))
            except TimeoutError as fault:
                raise Gone("Firefox did not answer in time") from fault
            self._note(got.get("method"), got.get("params"))
            if got.get("id") != self.count:
                continue
            if got["type"] == "error":
                raise RuntimeError(f"{method}: {got['error']}: {got['message']}")
            return got["result"]

    def _note(self, method, params):
        if method == "log.entryAdded" and params.get("type") == "javascript" and params.get("level") == "error":
            self.problems.append(params["text"])
        if method == "browsingContext.userPromptOpened":
            self.asked.append(params["type"])

    def run(self, script, session=None, seconds=60):
        """What a script of the page gives; a promise is waited for."""
        got = self.call("script.evaluate", seconds, expression=script, target={"context": self.page}, awaitPromise=True)
        if got["type"] == "exception":
            raise RuntimeError(got["exceptionDetails"]["text"])
        return plain_value(got["result"])

    def open(self, path):
        """Opens a file, and waits until the page says what state it is in."""
        self.call("browsingContext.navigate", context=self.page, url="file://" + os.path.abspath(path), wait="complete")
        self._until(READY)

    def reload(self):
        """Loads the page anew, as a user does, and waits until it says what state it is in."""
        self.call("browsingContext.reload", context=self.page, wait="complete")
        self._until(READY)

    def _until(self, script):
        for _ in range(400):
            if self.run(script):
                return
            time.sleep(0.025)
        raise Gone("the page did not come up")

    def size(self, width, height):
        """The size of the window in points of the page."""
        self.call("browsingContext.setViewport", context=self.page, viewport={"width": width, "height": height})

    def settle(self):
        """Waits until what was asked for is drawn."""
        self.run("new Promise(done => requestAnimationFrame(() => requestAnimationFrame(() => setTimeout(done))))")

    def save_to(self, folder):
        """Files are saved to the folder that was named at the start."""

    # ---- a user's hands ----

    def _act(self, *actions):
        self.call("input.performActions", context=self.page, actions=list(actions))

    def _press(self, keys):
        self._act({"type": "key", "id": "keys", "actions": [{"type": kind, "value": key} for kind, key in keys]})

    def key(self, key, shift=False, control=False):
        """Presses a key, by its name or its letter."""
        held, value = [name for name, is_held in ((SHIFT, shift), (CONTROL, control)) if is_held], KEYS.get(key, key)
        self._press([*(("keyDown", name) for name in held), ("keyDown", value), ("keyUp", value), *(("keyUp", name) for name in held)])
        self.settle()

    def type(self, text):
        """Types where the cursor is."""
        self._press([(kind, KEYS.get(letter, letter)) for letter in text for kind in ("keyDown", "keyUp")])

    def hover(self, x, y):
        self._act({"type": "pointer", "id": "mouse", "parameters": {"pointerType": "mouse"}, "actions": [{"type": "pointerMove", "x": round(x), "y": round(y)}]})
        self.settle()

    def choose(self, name, files):
        """Chooses files in the field of a name."""
        got = self.call("script.evaluate", expression=f"document.getElementById('{name}')", target={"context": self.page}, awaitPromise=False)
        self.call("input.setFiles", context=self.page, element={"sharedId": got["result"]["sharedId"]}, files=files)
