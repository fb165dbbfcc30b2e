"""A browser without a window, asked over a pipe: how bin/tries-page looks at pages. It is `chromium` or
`google-chrome`, if there is one."""

import base64
import json
import os
import select
import shutil
import subprocess
import time

# As wide as a phone, as a desk, and as a picture of the documents.
PHONE, DESK, PICTURE = 360, 1280, 640
HEIGHT = 800
# The browser may say nothing for so many seconds, and no longer.
LONGEST = 60
# How a connection ends that is cut, and how often a page is then asked for.
CUT = "net::ERR_EMPTY_RESPONSE", "net::ERR_CONNECTION_CLOSED", "net::ERR_CONNECTION_RESET", "net::ERR_SOCKET_NOT_CONNECTED"
TIMES = 3

# The words of the cells that are higher than a line of their text.
HIGHER_THAN_A_LINE = """[...document.querySelectorAll("td, th")].filter(cell => {
    const style = getComputedStyle(cell);
    const text = cell.clientHeight - parseFloat(style.paddingTop) - parseFloat(style.paddingBottom);
    return text > 1.5 * parseFloat(style.lineHeight);
}).map(cell => cell.textContent)"""
WIDE = "document.documentElement.scrollWidth"


def found():
    """The path of a browser, if there is one."""
    return shutil.which("chromium") or shutil.which("google-chrome")


class Browser:
    """A browser with one page, until it is closed."""

    def __init__(self, program, folder):
        to_read, self.asks = os.pipe()
        self.answers, to_write = os.pipe()
        os.set_inheritable(to_read, True)
        os.set_inheritable(to_write, True)

        def at_3_and_4():
            os.dup2(to_read, 13)
            os.dup2(to_write, 14)
            os.dup2(13, 3)
            os.dup2(14, 4)

        # Frames of all sites stand in the page's own process, so that what they show can be asked for.
        self.process = subprocess.Popen(
            [program, "--headless", "--no-sandbox", "--disable-gpu", "--disable-site-isolation-trials", "--remote-debugging-pipe",
             f"--user-data-dir={folder}", "about:blank"],
            preexec_fn=at_3_and_4, close_fds=False, stdout=subprocess.DEVNULL, stderr=subprocess.DEVNULL)
        os.close(to_read)
        os.close(to_write)
        self.number, self.left, self.events, self.session = 0, b"", [], None
        target = self.ask("Target.createTarget", url="about:blank")["targetId"]
        self.session = self.ask("Target.attachToTarget", targetId=target, flatten=True)["sessionId"]
        for domain in ("Page", "Network", "Log", "Runtime"):
            self.ask(domain + ".enable")

    def message(self, longest=LONGEST):
        """The next message, for which it waits so long."""
        while b"\0" not in self.left:
            if not select.select([self.answers], [], [], longest)[0]:
                raise TimeoutError("the browser says nothing")
            piece = os.read(self.answers, 65536)
            if not piece:
                raise EOFError("the browser has ended")
            self.left += piece
        text, self.left = self.left.split(b"\0", 1)
        return json.loads(text)

    def ask(self, method, **parameters):
        self.number += 1
        question = {"id": self.number, "method": method, "params": parameters}
        if self.session:
            question["sessionId"] = self.session
        os.write(self.asks, json.dumps(question).encode() + b"\0")
        while True:
            message = self.message()
            if message.get("id") == self.number:
                if "error" in message:
                    raise RuntimeError(f"{method}: {message['error']}")
                return message["result"]
            self.events.append(message)

    def has_seen(self, method, is_it=lambda parameters: True, longest=LONGEST):
        """Whether such an event comes, or has come since the page was asked for."""
        end = time.monotonic() + longest
        while not any(event["method"] == method and is_it(event["params"]) for event in self.events):
            try:
                self.events.append(self.message(max(0.0, end - time.monotonic())))
            except TimeoutError:
                return False
        return True

    def rest(self, seconds):
        """Takes what the browser says for so long."""
        self.has_seen("none", longest=seconds)

    def value(self, expression):
        """What an expression is on the page."""
        return self.ask("Runtime.evaluate", expression=expression, returnByValue=True)["result"].get("value")

    def set(self, width, media="", scheme="light"):
        self.ask("Emulation.setDeviceMetricsOverride", width=width, height=HEIGHT, deviceScaleFactor=1, mobile=width < 600)
        self.ask("Emulation.setEmulatedMedia", media=media, features=[{"name": "prefers-color-scheme", "value": scheme}])

    def show(self, address, width, media="", scheme="light"):
        """Shows a page. A connection may be cut as the browser asks over it, if another one waits: then it asks again."""
        for _ in range(TIMES):
            self.events.clear()
            self.set(width, media, scheme)
            failed = self.ask("Page.navigate", url=address).get("errorText")
            if not self.has_seen("Page.loadEventFired"):
                raise TimeoutError(f"{address} does not load")
            if failed not in CUT:
                return

    def too_large(self, width):
        """What of the page is wider than this screen, or higher than it should be."""
        wide, torn = self.value(WIDE), self.value(HIGHER_THAN_A_LINE)
        return [*([f"{wide} wide on {width}"] if wide > width else []), *([f"higher than a line on {width}: {torn}"] if torn else [])]

    def fetched(self):
        """What the browser asked for since the page was asked for."""
        return [event["params"]["request"]["url"] for event in self.events if event["method"] == "Network.requestWillBeSent"]

    def status(self, address):
        """The status with which an address was answered."""
        return next((event["params"]["response"]["status"] for event in self.events
                     if event["method"] == "Network.responseReceived" and event["params"]["response"]["url"] == address), None)

    def frames(self):
        """The frames on the page, each with the text that it shows."""
        for child in self.ask("Page.getFrameTree")["frameTree"].get("childFrames", []):
            world = self.ask("Page.createIsolatedWorld", frameId=child["frame"]["id"])["executionContextId"]
            yield child["frame"], self.ask("Runtime.evaluate", contextId=world, expression="document.body.innerText", returnByValue=True)["result"].get("value")

    def complaints(self):
        """What stands in the console, what failed, and what asks the reader."""
        kinds = ("Log.entryAdded", "Runtime.exceptionThrown", "Runtime.consoleAPICalled", "Network.loadingFailed", "Page.javascriptDialogOpening")
        return [str(event["params"]) for event in self.events if event["method"] in kinds]

    def wrong(self, address, width):
        """What is wrong with the page that is shown."""
        return [*self.too_large(width), *(f"fetches {it}" for it in self.fetched() if it != address), *self.complaints()]

    def can_print(self):
        return len(self.ask("Page.printToPDF")["data"]) >= 1000

    def picture(self):
        """The whole page as a picture, in PNG."""
        size = self.ask("Page.getLayoutMetrics")["cssContentSize"]
        clip = {"x": 0, "y": 0, "width": size["width"], "height": size["height"], "scale": 1}
        return base64.b64decode(self.ask("Page.captureScreenshot", format="png", captureBeyondViewport=True, clip=clip)["data"])

    def close(self):
        self.session = None
        self.ask("Browser.close")
        self.process.wait(30)
