"""A page in headless Chromium, driven by its DevTools protocol over a pipe: scripts, keys, media and screenshots."""
import base64
import contextlib
import json
import os
import shutil
import subprocess
import tempfile
import time

BROWSER = shutil.which("chromium") or shutil.which("chromium-browser") or shutil.which("google-chrome")
WORDS = ["--headless", "--no-sandbox", "--disable-gpu", "--hide-scrollbars", "--disable-dev-shm-usage",
         "--remote-debugging-pipe", "--no-first-run", "--disable-extensions", "--disable-background-networking"]

MOST_SECONDS = 60

LIGHT, DARK = "light", "dark"
DESKTOP, TABLET, PHONE, LOW = (1280, 900), (768, 1024), (390, 844), (1280, 600)

KEYS = {"Tab": 9, "Enter": 13, "Escape": 27, " ": 32, "PageUp": 33, "PageDown": 34, "End": 35, "Home": 36,
        "ArrowLeft": 37, "ArrowUp": 38, "ArrowRight": 39, "ArrowDown": 40}


class Browser:
    """A running browser with one page."""

    def __init__(self):
        self.number, self.session, self.rest, self.is_pressed = 0, None, b"", False
        self.folder = tempfile.mkdtemp()
        to_read, self.to = os.pipe()
        self.source, to_write = os.pipe()
        # The browser reads orders from descriptor 3, and writes answers to 4.
        shell = f'exec "$@" 3<&{to_read} 4>&{to_write}'
        command = ["bash", "-c", shell, "bash", BROWSER, *WORDS, f"--user-data-dir={self.folder}", "about:blank"]
        quiet = {"stdin": subprocess.DEVNULL, "stdout": subprocess.DEVNULL, "stderr": subprocess.DEVNULL}
        self.process = subprocess.Popen(command, pass_fds=(to_read, to_write), **quiet)
        os.close(to_read)
        os.close(to_write)
        pages = [target for target in self.ask("Target.getTargets")["targetInfos"] if target["type"] == "page"]
        target = pages[0]["targetId"] if pages else self.ask("Target.createTarget", url="about:blank")["targetId"]
        self.session = self.ask("Target.attachToTarget", targetId=target, flatten=True)["sessionId"]

    def close(self):
        with contextlib.suppress(OSError, RuntimeError):
            self.session = None
            self.ask("Browser.close")
        try:
            self.process.wait(20)
        except subprocess.TimeoutExpired:
            self.process.kill()
            self.process.wait()
        os.close(self.to)
        os.close(self.source)
        shutil.rmtree(self.folder, ignore_errors=True)

    def ask(self, method, **words):
        """The result of one command of the protocol; events are passed over."""
        self.number += 1
        order = {"id": self.number, "method": method, "params": words}
        if self.session:
            order["sessionId"] = self.session
        os.write(self.to, json.dumps(order).encode() + b"\0")
        while True:
            answer = self.message()
            if answer.get("id") == self.number:
                if "error" in answer:
                    raise RuntimeError(f"{method}: {answer['error']}")
                return answer["result"]

    def message(self):
        while b"\0" not in self.rest:
            part = os.read(self.source, 1 << 20)
            if not part:
                raise RuntimeError("the browser ended")
            self.rest += part
        first, _, self.rest = self.rest.partition(b"\0")
        return json.loads(first)

    def open(self, page, size=DESKTOP, scheme=LIGHT, fragment=""):
        """Opens a page of an export anew, and waits until it is ready. Gives the seconds that this took."""
        screen = {"width": size[0], "height": size[1], "deviceScaleFactor": 1, "mobile": size == PHONE}
        self.ask("Emulation.setDeviceMetricsOverride", **screen)
        self.ask("Emulation.setEmulatedMedia", features=[{"name": "prefers-color-scheme", "value": scheme}])
        # Another fragment alone is no other page.
        self.ask("Page.navigate", url="about:blank")
        start = time.monotonic()
        self.ask("Page.navigate", url=page.as_uri() + fragment)
        while not self.run("return typeof hpc !== 'undefined';"):
            if time.monotonic() - start > MOST_SECONDS:
                raise RuntimeError(f"{page}: no page of an export")
            time.sleep(0.05)
        self.run("await hpc.ready; await new Promise(done => requestAnimationFrame(() => setTimeout(done)));")
        return time.monotonic() - start

    def run(self, script):
        """What the body of an asynchronous function gives."""
        expression = f"(async () => {{ {script} }})()"
        answer = self.ask("Runtime.evaluate", expression=expression, awaitPromise=True, returnByValue=True)
        if "exceptionDetails" in answer:
            raise RuntimeError(str(answer["exceptionDetails"].get("exception", answer["exceptionDetails"])))
        return answer["result"].get("value")

    def press(self, *keys):
        """Keys for the element that has the focus."""
        for key in keys:
            code = KEYS.get(key, ord(key[0].upper()))
            words = {"key": key, "windowsVirtualKeyCode": code}
            text = {"text": "\r"} if key == "Enter" else {"text": key} if len(key) == 1 else {}
            self.ask("Input.dispatchKeyEvent", type="keyDown", **words, **text)
            self.ask("Input.dispatchKeyEvent", type="keyUp", **words)

    def write(self, text):
        self.ask("Input.insertText", text=text)

    def mouse(self, kind, x, y, count=1, at=None):
        """`mouseMoved`, `mousePressed` or `mouseReleased`, now or at a time; a double click has the count 1, and then
        2."""
        self.is_pressed = kind == "mousePressed" or kind == "mouseMoved" and self.is_pressed
        is_free = kind == "mouseMoved" and not self.is_pressed
        words = {"button": "none"} if is_free else {"button": "left", "clickCount": count}
        if at:
            words["timestamp"] = at
        self.ask("Input.dispatchMouseEvent", type=kind, x=x, y=y, buttons=int(self.is_pressed), **words)

    def click(self, x, y, count=1):
        # The clicks are of one time: a machine that is busy takes long from one to the next.
        now = time.time()
        for number in range(1, count + 1):
            for kind in ("mousePressed", "mouseReleased"):
                self.mouse(kind, x, y, number, now)

    def click_on(self, selector):
        """A click in the middle of an element."""
        box = f"const box = document.querySelector({json.dumps(selector)}).getBoundingClientRect();"
        self.click(*self.run(box + "return [box.left + box.width / 2, box.top + box.height / 2];"))

    def named(self):
        """The roles and names of what has the focus in turn, as a screen reader has them."""
        nodes = self.ask("Accessibility.getFullAXTree")["nodes"]
        focusable = [node for node in nodes if any(p["name"] == "focusable" and p["value"]["value"]
                                                   for p in node.get("properties", []))]
        return [(node["role"]["value"], node.get("name", {}).get("value", "")) for node in focusable]

    def picture(self, target):
        # The page draws once more before it is taken.
        self.run("await new Promise(done => requestAnimationFrame(() => requestAnimationFrame(done)));")
        target.write_bytes(base64.b64decode(self.ask("Page.captureScreenshot", format="png")["data"]))


@contextlib.contextmanager
def started():
    browser = Browser()
    try:
        yield browser
    finally:
        browser.close()
