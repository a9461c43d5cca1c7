"""A headless Chromium (Debian's package `chromium`), spoken to over pipes in the Chrome DevTools Protocol."""

import base64
import json
import os
import pathlib
import select
import shutil
import subprocess
import tempfile
import time

from harness import Failed, Skipped

NAMES = "chromium", "chromium-browser", "google-chrome"

# The most seconds that a page may take to load, and that an answer may take.
SECONDS = 120

# Waits until the script of a page (python/excp/viewer/page.js) has built it, or half a minute, and for two frames more.
BUILT = """(async () => {
  const frame = () => new Promise(done => requestAnimationFrame(done));
  for (let at = performance.now(); document.body.dataset.state !== "built" && performance.now() < at + 30000;) await frame();
  await frame();
  await frame();
})()"""


def program():
    """The path of the browser."""
    found = next(filter(None, map(shutil.which, NAMES)), None)
    if not found:
        raise Skipped("no Chromium (Debian's package `chromium`)")
    return found


class Browser:
    """A browser with one page. As a context it ends with the block."""

    def __init__(self):
        # the browser reads its file 3 and writes its file 4
        self.from_us, self.to_browser = os.pipe()
        self.from_browser, self.to_us = os.pipe()
        self.folder = tempfile.mkdtemp(prefix="page-")
        words = [program(), "--headless", "--no-sandbox", "--disable-gpu", "--disable-dev-shm-usage", "--hide-scrollbars",
                 "--disable-component-update", "--no-first-run", "--remote-debugging-pipe", f"--user-data-dir={self.folder}"]
        ends = self.from_us, self.to_us
        self.process = subprocess.Popen(["bash", "-c", f'exec "$@" 3<&{ends[0]} 4>&{ends[1]}', "bash", *words], pass_fds=ends,
                                        stdin=subprocess.DEVNULL, stdout=subprocess.DEVNULL, stderr=subprocess.DEVNULL)
        for end in ends:
            os.close(end)
        self.rest, self.number, self.said = b"", 0, []
        self.session = None
        target = self.call("Target.createTarget", url="about:blank")["targetId"]
        self.session = self.call("Target.attachToTarget", targetId=target, flatten=True)["sessionId"]
        for domain in "Page", "Runtime", "Log", "Performance":
            self.call(f"{domain}.enable")

    def __enter__(self):
        return self

    def __exit__(self, *_):
        self.process.kill()
        self.process.wait()
        os.close(self.to_browser)
        os.close(self.from_browser)
        shutil.rmtree(self.folder, ignore_errors=True)

    def message(self, until):
        """The next message of the browser."""
        while b"\0" not in self.rest:
            ready, _, _ = select.select([self.from_browser], [], [], max(0, until - time.monotonic()))
            part = os.read(self.from_browser, 1 << 16) if ready else b""
            if not part:
                raise Failed("the browser gives no answer")
            self.rest += part
        text, _, self.rest = self.rest.partition(b"\0")
        message = json.loads(text)
        if message.get("method") in ("Runtime.consoleAPICalled", "Runtime.exceptionThrown", "Log.entryAdded"):
            self.said.append(json.dumps(message["params"])[:400])
        return message

    def call(self, method, **words):
        """The result of a call."""
        self.number += 1
        call = {"id": self.number, "method": method, "params": words}
        if self.session:
            call["sessionId"] = self.session
        data, until = json.dumps(call).encode() + b"\0", time.monotonic() + SECONDS
        while data:
            data = data[os.write(self.to_browser, data):]
        while True:
            message = self.message(until)
            if message.get("id") == self.number:
                if "error" in message:
                    raise Failed(f"{method}: {message['error']}")
                return message["result"]

    def open(self, path, part="", width=1280, height=900, is_dark=False, has_scripts=True):
        """Opens a file, or a part of it, as `#posts`, and waits until its script has built it. What the page says on the console
        is in `said`."""
        self.said.clear()
        self.call("Emulation.setScriptExecutionDisabled", value=not has_scripts)
        self.look(width, height, is_dark)
        self.go("about:blank")
        self.go(pathlib.Path(os.path.realpath(path)).as_uri(), part)
        if has_scripts:
            self.value(BUILT)

    def look(self, width, height=900, is_dark=False):
        """Gives the window a size, and the page a light or a dark room."""
        self.call("Emulation.setDeviceMetricsOverride", width=width, height=height, deviceScaleFactor=1, mobile=False)
        scheme = "dark" if is_dark else "light"
        self.call("Emulation.setEmulatedMedia", features=[{"name": "prefers-color-scheme", "value": scheme}])

    def go(self, url, part=""):
        """Goes to an address, or to a part of it, and waits until it is loaded. It asks the document, since the event of a load may
        be that of the page before."""
        until = time.monotonic() + SECONDS
        self.call("Page.navigate", url=url + part)
        while self.value("[location.href.split('#')[0], document.readyState]") != [url, "complete"]:
            if time.monotonic() > until:
                raise Failed(f"{url} is not loaded")
            time.sleep(0.01)

    def value(self, expression):
        """The value of an expression in the page."""
        answer = self.call("Runtime.evaluate", expression=expression, returnByValue=True, awaitPromise=True)
        if "exceptionDetails" in answer:
            raise Failed(f"{expression}: {json.dumps(answer['exceptionDetails'])[:400]}")
        return answer["result"].get("value")

    def screenshot(self, file, whole=True, most=4000):
        """Writes a picture of the window, or of the page down to `most` pixels."""
        size = self.call("Page.getLayoutMetrics")["cssContentSize"]
        part = {"x": 0, "y": 0, "width": size["width"], "height": min(size["height"], most), "scale": 1}
        words = {"captureBeyondViewport": True, "clip": part} if whole else {}
        with open(file, "wb") as it:
            it.write(base64.b64decode(self.call("Page.captureScreenshot", format="png", **words)["data"]))

    def print(self, file):
        """Prints the page as PDF."""
        with open(file, "wb") as it:
            it.write(base64.b64decode(self.call("Page.printToPDF", preferCSSPageSize=True)["data"]))
