"""A headless Chromium and its pages, driven over two pipes (--remote-debugging-pipe), with Python's own library alone."""
import base64
import fcntl
import json
import os
import select
import shutil
import subprocess
import tempfile
import time

FLAGS = ["--headless=new", "--no-sandbox", "--disable-gpu", "--no-first-run", "--disable-background-networking",
         "--disable-component-update", "--disable-sync"]
# How long an answer is waited for, in seconds.
PATIENCE = 60


class Browser:
    """A running browser with a folder of its own, which it removes at its end."""

    run: subprocess.Popen
    folder: str

    def call(self, method, **params):
        """Asks the browser for something, and returns its answer."""
        raise NotImplementedError

    def end(self, method):
        """Asks the browser to end; one that does not is killed."""
        try:
            self.call(method)
            self.run.wait(10)
        except (OSError, EOFError, TimeoutError, RuntimeError, subprocess.TimeoutExpired):
            self.run.kill()
            self.run.wait()
        shutil.rmtree(self.folder, ignore_errors=True)


class Chromium(Browser):
    """Chromium, which is driven over two pipes."""

    def __init__(self, program="chromium", size="1280,800", more=()):
        self.folder, self.number, self.rest, self.errors = tempfile.mkdtemp(prefix="c8play-chromium-"), 0, b"", []
        ends = [fcntl.fcntl(it, fcntl.F_DUPFD_CLOEXEC, 20) for pair in (os.pipe(), os.pipe()) for it in pair]
        words = [program, *FLAGS, *more, f"--window-size={size}", f"--user-data-dir={self.folder}", "--remote-debugging-pipe", "about:blank"]
        wire = lambda: (os.dup2(ends[0], 3), os.dup2(ends[3], 4))
        nowhere = subprocess.DEVNULL
        self.run = subprocess.Popen(words, preexec_fn=wire, pass_fds=(3, 4), stdin=nowhere, stdout=nowhere, stderr=nowhere)
        for it in (ends[0], ends[3]):
            os.close(it)
        self.output, self.input = ends[1], ends[2]
        self.version = self.call("Browser.getVersion")["product"]

    def call(self, method, session=None, **params):
        self.number += 1
        message = {"id": self.number, "method": method, "params": params, **({"sessionId": session} if session else {})}
        os.write(self.output, json.dumps(message).encode() + b"\0")
        end = time.monotonic() + PATIENCE
        while True:
            said = json.loads(self.line(method, end))
            self.note(said)
            if said.get("id") == self.number:
                if "error" in said:
                    raise RuntimeError(f"{method}: {said['error']}")
                return said["result"]

    def line(self, method, end):
        while b"\0" not in self.rest:
            if not select.select([self.input], [], [], max(0, end - time.monotonic()))[0]:
                raise TimeoutError(method)
            came = os.read(self.input, 1 << 20)
            if not came:
                raise EOFError(method)
            self.rest += came
        line, _, self.rest = self.rest.partition(b"\0")
        return line

    def note(self, said):
        """Keeps what a page complains of: exceptions, and what its policy of contents forbids."""
        params = said.get("params", {})
        if said.get("method") == "Runtime.exceptionThrown":
            self.errors.append(json.dumps(params["exceptionDetails"])[:500])
        if said.get("method") == "Log.entryAdded" and params["entry"]["source"] in ("security", "javascript"):
            self.errors.append(params["entry"]["text"])

    def page(self, url, **more):
        return Page(self, url, **more)

    def close(self):
        self.end("Browser.close")
        for it in (self.input, self.output):
            os.close(it)


class Shown:
    """What tests ask of a page, in whichever browser it is."""

    def value(self, expression):
        """Evaluates an expression there."""
        raise NotImplementedError

    def until(self, expression, seconds=30):
        """Waits until an expression is true, and says whether it became so. A page that is loaded again meanwhile is asked again."""
        end = time.monotonic() + seconds
        while time.monotonic() < end:
            try:
                if self.value(expression) is True:
                    return True
            except RuntimeError as error:
                if "navigated" not in str(error):
                    raise
            time.sleep(0.05)
        return False

    def text(self, name):
        return self.value(f"document.getElementById('{name}').textContent")

    def click(self, name):
        self.value(f"document.getElementById('{name}').click()")


class Page(Shown):
    """A window with one page."""

    def __init__(self, browser, url, dark=False, size=None, touch=False):
        self.browser = browser
        self.target = browser.call("Target.createTarget", url="about:blank", newWindow=True)["targetId"]
        self.session = browser.call("Target.attachToTarget", targetId=self.target, flatten=True)["sessionId"]
        for domain in ("Runtime", "Page", "Log"):
            self.call(f"{domain}.enable")
        self.darken(dark)
        if size:
            self.become(size, touch)
        self.go(url)

    def call(self, method, **params):
        return self.browser.call(method, self.session, **params)

    def darken(self, is_dark):
        self.call("Emulation.setEmulatedMedia", features=[{"name": "prefers-color-scheme", "value": "dark" if is_dark else "light"}])

    def become(self, size, has_touch):
        """Gives the window another size: width, height, and points of the screen for each; with fingers or a mouse."""
        width, height, scale = size
        self.call("Emulation.setDeviceMetricsOverride", width=width, height=height, deviceScaleFactor=scale, mobile=has_touch)
        self.call("Emulation.setTouchEmulationEnabled", enabled=has_touch, **({"maxTouchPoints": 5} if has_touch else {}))

    def go(self, url):
        self.call("Page.navigate", url=url)

    def value(self, expression):
        said = self.call("Runtime.evaluate", expression=expression, awaitPromise=True, returnByValue=True, userGesture=True)
        return said["result"].get("value", said["result"].get("description"))

    def key(self, code, is_down):
        text = code[-1].lower()
        self.call("Input.dispatchKeyEvent", type="rawKeyDown" if is_down else "keyUp", code=code, key=text if len(code) < 7 else code)

    def touch(self, selector, is_down):
        box = json.loads(self.value(f"JSON.stringify(document.querySelector('{selector}').getBoundingClientRect())"))
        point = {"x": box["x"] + box["width"] / 2, "y": box["y"] + box["height"] / 2}
        self.call("Input.dispatchTouchEvent", type="touchStart" if is_down else "touchEnd", touchPoints=[point] if is_down else [])

    def picture(self, path):
        with open(path, "wb") as it:
            it.write(base64.b64decode(self.call("Page.captureScreenshot", format="png")["data"]))

    def close(self):
        self.browser.call("Target.closeTarget", targetId=self.target)
