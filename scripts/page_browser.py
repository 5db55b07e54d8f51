"""Drives a headless Chromium over its debugging pipe, by Python's standard library alone. Used by page_rows, judge_rows, bench_page,
page_picture."""
import base64
import json
import os
import select
import shutil
import subprocess
import tempfile
import time

NAMES = ("chromium", "chromium-browser", "google-chrome")


def find():
    """The browser's program, or None."""
    return next((found for found in map(shutil.which, NAMES) if found), None)


READY = "document.readyState === 'complete' && Boolean(document.documentElement.dataset.state)"


class Hung(Exception):
    """The browser went away, or did not answer in time."""


class Browser:
    """A browser with one page. `problems` gathers exceptions of the page, and requests for what is neither a file of this computer nor
    the page's own; `workers` gathers its workers, if they are watched; `asked` the questions before it goes, to which it says yes."""

    def __init__(self, width=1400, height=900, ratio=1):
        self.problems, self.workers, self.asked = [], [], []
        try:
            self._start([])
        except Hung:
            # In many containers, and for root, there is no sandbox. Only the repository's own pages are opened.
            self._start(["--no-sandbox"])
        for domain in ("Runtime", "Page", "Network", "Log"):
            self.call(domain + ".enable")
        self.size(width, height, ratio)

    def _start(self, words):
        self.is_closed = False
        if os.geteuid() == 0:
            words = ["--no-sandbox"]
        self.profile = tempfile.mkdtemp(prefix="page_rows.")
        # The browser reads its orders from descriptor 3, and answers on 4.
        order_end, self.orders = os.pipe()
        self.answers, answer_end = os.pipe()
        high = [os.dup2(end, number) for end, number in ((order_end, 63), (answer_end, 64))]
        os.close(order_end)
        os.close(answer_end)

        def place():
            os.dup2(63, 3)
            os.dup2(64, 4)

        self.child = subprocess.Popen(
            [find(), "--headless=new", *words, "--disable-gpu", "--disable-dev-shm-usage", "--hide-scrollbars", "--no-first-run",
             "--disable-extensions", "--disable-background-networking", f"--user-data-dir={self.profile}", "--remote-debugging-pipe",
             "about:blank"],
            preexec_fn=place, pass_fds=(3, 4, 63, 64), stdin=subprocess.DEVNULL, stdout=subprocess.DEVNULL, stderr=subprocess.DEVNULL)
        for end in high:
            os.close(end)
        self.rest, self.count, self.session = b"", 0, None
        try:
            target = next(t for t in self.call("Target.getTargets")["targetInfos"] if t["type"] == "page")
            self.session = self.call("Target.attachToTarget", targetId=target["targetId"], flatten=True)["sessionId"]
        except (Hung, StopIteration, BrokenPipeError) as fault:
            self.close()
            raise Hung("the browser did not start") from fault

    def close(self):
        """Ends the browser, if it was not ended before."""
        if self.is_closed:
            return
        self.is_closed = True
        self.child.terminate()
        try:
            self.child.wait(20)
        except subprocess.TimeoutExpired:
            self.child.kill()
            self.child.wait()
        os.close(self.orders)
        os.close(self.answers)
        shutil.rmtree(self.profile, ignore_errors=True)

    def _piece(self, until):
        while b"\0" not in self.rest:
            if not select.select([self.answers], [], [], max(0, until - time.monotonic()))[0]:
                raise Hung("the browser did not answer in time")
            got = os.read(self.answers, 1 << 20)
            if not got:
                raise Hung("the browser went away (it does so if the machine has no fonts)")
            self.rest += got
        piece, self.rest = self.rest.split(b"\0", 1)
        return json.loads(piece)

    def _order(self, method, session, params):
        """Sends an order, and gives its number."""
        self.count += 1
        message = {"id": self.count, "method": method, "params": params}
        if session:
            message["sessionId"] = session
        data = json.dumps(message).encode() + b"\0"
        while data:
            data = data[os.write(self.orders, data):]
        return self.count

    def call(self, method, seconds=60, session=None, **params):
        """Calls the browser for the page, or for a worker of it, and gives what it answers."""
        number, until = self._order(method, session or self.session, params), time.monotonic() + seconds
        while True:
            got = self._piece(until)
            self._note(got)
            if got.get("id") == number:
                if "error" in got:
                    raise RuntimeError(f"{method}: {got['error']}")
                return got["result"]

    def watch_workers(self):
        """From now on also notes exceptions and requests of the page's workers, from their first line on."""
        self.call("Target.setAutoAttach", autoAttach=True, waitForDebuggerOnStart=True, flatten=True)

    def _note(self, got):
        if got.get("method") == "Target.attachedToTarget" and got["params"]["targetInfo"]["type"] == "worker":
            self.workers.append(got["params"]["sessionId"])
            for method in ("Runtime.enable", "Network.enable", "Runtime.runIfWaitingForDebugger"):
                self._order(method, self.workers[-1], {})
        if got.get("method") == "Page.javascriptDialogOpening":
            self.asked.append(got["params"]["type"])
            self._order("Page.handleJavaScriptDialog", self.session, {"accept": True})
        if got.get("method") == "Runtime.exceptionThrown":
            details = got["params"]["exceptionDetails"]
            self.problems.append(details.get("exception", {}).get("description", details.get("text", "?")))
        if got.get("method") == "Network.requestWillBeSent":
            url = got["params"]["request"]["url"]
            if not url.startswith(("file:", "data:", "about:", "blob:")):
                self.problems.append("request " + url)

    def run(self, script, session=None, seconds=60):
        """What a script of the page, or of a worker, gives; a promise is waited for."""
        got = self.call("Runtime.evaluate", seconds, session, expression=script, awaitPromise=True, returnByValue=True)
        if "exceptionDetails" in got:
            raise RuntimeError(got["exceptionDetails"].get("exception", {}).get("description", "?"))
        return got["result"].get("value")

    def open(self, path):
        """Opens a file, and waits until the page says what state it is in. The page before goes first."""
        self.call("Page.navigate", url="about:blank")
        self._until("location.href === 'about:blank' && document.readyState === 'complete'")
        self.call("Page.navigate", url="file://" + os.path.abspath(path))
        self._until(READY)

    def reload(self):
        """Loads the page anew, as a user does, and waits until it says what state it is in."""
        self.run("window.isOld = true")
        self.call("Page.reload")
        self._until(f"!window.isOld && {READY}")

    def _until(self, script):
        """Waits until a script says yes. While a page goes, there is none that could."""
        for _ in range(400):
            try:
                if self.run(script):
                    return
            except RuntimeError:
                pass
            time.sleep(0.025)
        raise Hung("the page did not come up")

    def save_to(self, folder):
        """From now on files are saved to a folder."""
        self.call("Browser.setDownloadBehavior", behavior="allow", downloadPath=folder)

    def size(self, width, height, ratio=1, mobile=False):
        """The size of the window in points of the page, and how many pixels a point has."""
        self.call("Emulation.setDeviceMetricsOverride", width=width, height=height, deviceScaleFactor=ratio, mobile=mobile)

    def settle(self):
        """Waits until what was asked for is drawn."""
        self.run("new Promise(done => requestAnimationFrame(() => requestAnimationFrame(() => setTimeout(done))))")

    # ---- a user's hands ----

    def drop(self, files, until="document.documentElement.dataset.state"):
        """Drops files, (name, text) each, on the page, and waits until a script of the page says yes."""
        self.run(f"""(async files => {{
            const data = new DataTransfer();
            for (const [name, text] of files) data.items.add(new File([text], name, {{ type: "text/plain" }}));
            delete document.documentElement.dataset.state;
            dispatchEvent(new DragEvent("drop", {{ dataTransfer: data, cancelable: true }}));
            for (let turn = 0; turn < 2000 && !({until}); turn++) await new Promise(done => setTimeout(done, 5));
        }})({json.dumps(files)})""")
        self.settle()

    def mouse(self, kind, x, y, **more):
        self.call("Input.dispatchMouseEvent", type=kind, x=x, y=y, **more)

    def hover(self, x, y):
        self.mouse("mouseMoved", x, y)
        self.settle()

    def click(self, x, y):
        self.mouse("mouseMoved", x, y)
        self.mouse("mousePressed", x, y, button="left", clickCount=1)
        self.mouse("mouseReleased", x, y, button="left", clickCount=1)
        self.settle()

    def drag(self, x, y, to_x, to_y):
        self.mouse("mouseMoved", x, y)
        self.mouse("mousePressed", x, y, button="left", clickCount=1)
        for part in (0.3, 0.6, 1):
            self.mouse("mouseMoved", x + (to_x - x) * part, y + (to_y - y) * part, button="left", buttons=1)
        self.mouse("mouseReleased", to_x, to_y, button="left", clickCount=1)
        self.settle()

    def wheel(self, x, y, by, control=False):
        self.mouse("mouseWheel", x, y, deltaX=0, deltaY=by, modifiers=2 if control else 0)
        self.settle()

    def touch(self, kind, *points):
        self.call("Input.dispatchTouchEvent", type=kind, touchPoints=[{"x": x, "y": y, "id": k} for k, (x, y) in enumerate(points)])

    def swipe(self, places):
        """Puts fingers down, and leads them along places, each a list of points."""
        kind = "touchStart"
        for points in places:
            self.touch(kind, *points)
            kind = "touchMove"
        self.touch("touchEnd")
        self.settle()

    def tap(self, x, y):
        self.touch("touchStart", (x, y))
        self.touch("touchEnd")
        self.settle()

    def key(self, key, shift=False, control=False):
        """Presses a key, by its name; a text of one character is typed, but not with the control key."""
        codes = {"Enter": 13, "Tab": 9, "Escape": 27, " ": 32, "PageUp": 33, "PageDown": 34, "End": 35, "Home": 36, "ArrowLeft": 37,
                 "ArrowUp": 38, "ArrowRight": 39, "ArrowDown": 40, "F3": 114, "F8": 119}
        text = {"text": "\r" if key == "Enter" else key} if not control and (len(key) == 1 or key == "Enter") else {}
        params = {"key": key, "code": "Space" if key == " " else key, "windowsVirtualKeyCode": codes.get(key, ord(key[0].upper())),
                  "modifiers": (8 if shift else 0) | (2 if control else 0)}
        self.call("Input.dispatchKeyEvent", type="keyDown" if text else "rawKeyDown", **params, **text)
        self.call("Input.dispatchKeyEvent", type="keyUp", **params)
        self.settle()

    def type(self, text):
        """Types where the cursor is, at once."""
        self.call("Input.insertText", text=text)

    def choose(self, name, files):
        """Chooses files in the field of a name."""
        root = self.call("DOM.getDocument")["root"]["nodeId"]
        node = self.call("DOM.querySelector", nodeId=root, selector="#" + name)["nodeId"]
        self.call("DOM.setFileInputFiles", nodeId=node, files=files)

    def shot(self, name):
        """Writes a picture of the window."""
        with open(name, "wb") as file:
            file.write(base64.b64decode(self.call("Page.captureScreenshot")["data"]))
