"""Drives a headless Chromium over the DevTools pipe, for tests of the page. It needs no package.

    with Browser() as browser:
        browser.open("web/rcv.html")
        browser.value("document.title")

The browser reads commands from descriptor 3 and writes answers and events to 4: each is a JSON text with a zero byte
behind it.
"""
import base64
import fcntl
import json
import os
import select
import shutil
import subprocess
import sys
import tempfile
import time
from urllib.request import pathname2url

# The names that Chromium goes by. The variable CHROMIUM names another program.
NAMES = ("chromium", "chromium-browser", "google-chrome", "google-chrome-stable", "chrome")
WORDS = [
    # The pages that it opens are the repository's own, and root can have no sandbox.
    "--headless", "--no-sandbox", "--remote-debugging-pipe", "--hide-scrollbars", "--force-color-profile=srgb",
    # It asks neither the network nor the user for anything of its own.
    "--disable-background-networking", "--disable-component-update", "--disable-sync", "--no-first-run",
    "--no-default-browser-check", "--host-resolver-rules=MAP * ~NOTFOUND",
    # A container may have neither a graphics card nor much shared memory.
    "--disable-gpu", "--disable-dev-shm-usage",
]  # fmt: skip
# Puts the two descriptors that it is told to their numbers, and then becomes the browser.
LAUNCHER = """
import os, sys
read, write, program = sys.argv[1:4]
os.dup2(int(read), 3)
os.dup2(int(write), 4)
os.execv(program, sys.argv[3:])
"""
# For how many seconds an answer is waited for.
PATIENCE = 120
# The numbers of the keys that type nothing, by their names.
KEYS = {
    "Backspace": 8, "Tab": 9, "Enter": 13, "Escape": 27, "PageUp": 33, "PageDown": 34, "End": 35, "Home": 36,
    "ArrowLeft": 37, "ArrowUp": 38, "ArrowRight": 39, "ArrowDown": 40, "Delete": 46,
}  # fmt: skip
# The bits of the keys that may be held down beside another.
HELD = {"Alt": 1, "Control": 2, "Meta": 4, "Shift": 8}


class NoBrowser(Exception):
    """There is no browser here, as its text says in one line."""


class Failed(Exception):
    """The browser refused a command, the page threw, or no answer came in time."""


def find_browser():
    """Returns the path of a browser. Fails with NoBrowser where there is none."""
    named = os.environ.get("CHROMIUM")
    names = (named,) if named else NAMES
    for name in names:
        path = shutil.which(name)
        if path:
            return path
    raise NoBrowser(f"there is no browser here ({', '.join(names)})")


def above_standard(descriptor):
    """Returns a copy of a descriptor whose number isn't one of those that the browser wants, and closes it."""
    copy = fcntl.fcntl(descriptor, fcntl.F_DUPFD_CLOEXEC, 10)
    os.close(descriptor)
    return copy


class Pipe:
    """The browser's process, and the commands and events between it and here."""

    def __init__(self, program, words):
        ends = [above_standard(it) for pair in (os.pipe(), os.pipe()) for it in pair]
        read, self.commands, self.answers, write = ends
        quiet = {"stdin": subprocess.DEVNULL, "stdout": subprocess.DEVNULL, "stderr": subprocess.DEVNULL}
        launch = [sys.executable, "-c", LAUNCHER, str(read), str(write), program, *words]
        self.process = subprocess.Popen(launch, pass_fds=(read, write), **quiet)
        os.close(read)
        os.close(write)
        self.unread = b""

    def send(self, message):
        """Sends one command."""
        rest = json.dumps(message).encode() + b"\0"
        while rest:
            rest = rest[os.write(self.commands, rest) :]

    def receive(self, until):
        """Returns the next answer or event. Fails where none has come at the time `until`."""
        while b"\0" not in self.unread:
            if not select.select([self.answers], [], [], max(0, until - time.monotonic()))[0]:
                raise Failed("the browser didn't answer in time")
            piece = os.read(self.answers, 1 << 20)
            if not piece:
                raise Failed("the browser ended")
            self.unread += piece
        message, _, self.unread = self.unread.partition(b"\0")
        return json.loads(message)

    def close(self):
        """Ends the browser: it ends by itself where nobody holds the other ends of its pipes."""
        os.close(self.commands)
        os.close(self.answers)
        try:
            self.process.wait(10)
        except subprocess.TimeoutExpired:
            self.process.kill()
            self.process.wait()


class Browser:
    """A browser with one page.

    `errors` has what the page threw, and what it or the browser wrote to the console as an error or a warning;
    `requests` has each address that was asked for since the last `open`, by the page and by its workers."""

    def __init__(self, width=1280, height=800):
        self.size = (width, height)
        self.errors, self.requests = [], []
        self.pipe, self.page, self.number, self.is_loaded = None, None, 0, False

    def __enter__(self):
        program = find_browser()
        self.profile = tempfile.mkdtemp(prefix="rcv-browser-")
        try:
            self.pipe = Pipe(program, [*WORDS, f"--user-data-dir={self.profile}", "about:blank"])
            self._attach()
        except BaseException:
            self.__exit__()
            raise
        return self

    def __exit__(self, *_):
        if self.pipe:
            self.pipe.close()
        shutil.rmtree(self.profile, ignore_errors=True)

    # ---- commands and events

    def call(self, method, session=None, **words):
        """Returns the browser's answer to a command, and takes note of the events before it. Fails where it refuses."""
        self.number += 1
        number, message = self.number, {"id": self.number, "method": method, "params": words}
        session = session or self.page
        self.pipe.send({**message, "sessionId": session} if session else message)
        until = time.monotonic() + PATIENCE
        while True:
            answer = self.pipe.receive(until)
            if answer.get("id") == number:
                break
            self._note(answer)
        if "error" in answer:
            raise Failed(f"{method}: {answer['error']['message']}")
        return answer["result"]

    def _tell(self, method, session, **words):
        """Sends a command whose answer isn't waited for."""
        self.number += 1
        self.pipe.send({"id": self.number, "method": method, "params": words, "sessionId": session})

    def _attach(self):
        """Takes the page, and has its events and those of its workers told."""
        pages = [it for it in self.call("Target.getTargets")["targetInfos"] if it["type"] == "page"]
        self.page = self.call("Target.attachToTarget", targetId=pages[0]["targetId"], flatten=True)["sessionId"]
        for domain in ("Page", "Runtime", "Log", "Network", "Accessibility"):
            self.call(f"{domain}.enable")
        # A worker waits until its requests are told, too.
        self.call("Target.setAutoAttach", autoAttach=True, waitForDebuggerOnStart=True, flatten=True)
        self.resize(*self.size)

    def _note(self, event):
        """Takes note of an event."""
        method, told = event.get("method"), event.get("params", {})
        if method == "Page.loadEventFired":
            self.is_loaded = True
        elif method == "Network.requestWillBeSent":
            self.requests.append(told["request"]["url"])
        elif method == "Runtime.exceptionThrown":
            thrown = told["exceptionDetails"]
            self.errors.append(thrown.get("exception", {}).get("description") or thrown["text"])
        elif method == "Runtime.consoleAPICalled" and told["type"] in ("error", "warning", "assert"):
            self.errors.append(" ".join(str(it.get("value", it.get("description"))) for it in told["args"]))
        elif method == "Log.entryAdded" and told["entry"]["level"] in ("error", "warning"):
            self.errors.append(told["entry"]["text"])
        elif method == "Target.attachedToTarget":
            for command in ("Network.enable", "Runtime.enable", "Runtime.runIfWaitingForDebugger"):
                self._tell(command, told["sessionId"])

    # ---- what a test does

    def open(self, page):
        """Opens a page, a file or an address, and returns when it is loaded."""
        address = page if "://" in page else f"file://{pathname2url(os.path.abspath(page))}"
        self.errors, self.requests, self.is_loaded = [], [], False
        told = self.call("Page.navigate", url=address)
        if "errorText" in told:
            raise Failed(f"{address}: {told['errorText']}")
        until = time.monotonic() + PATIENCE
        while not self.is_loaded:
            self._note(self.pipe.receive(until))

    def value(self, expression):
        """Returns the value of an expression, or what that resolves to. Fails where it throws or rejects."""
        how = {"awaitPromise": True, "returnByValue": True, "userGesture": True}
        told = self.call("Runtime.evaluate", expression=expression, **how)
        if "exceptionDetails" in told:
            thrown = told["exceptionDetails"]
            raise Failed(thrown.get("exception", {}).get("description") or thrown["text"])
        return told["result"].get("value")

    def wait_for(self, expression, seconds=PATIENCE):
        """Returns when an expression is true. Fails where it isn't in time."""
        until = time.monotonic() + seconds
        while not self.value(expression):
            if time.monotonic() > until:
                raise Failed(f"it didn't come to pass: {expression}")
            time.sleep(0.02)

    def pause(self, seconds):
        """Lets the page go on for so long. A worker starts only while its events are read, here or in another call."""
        until = time.monotonic() + seconds
        while time.monotonic() < until:
            self.value("0")
            time.sleep(0.02)

    def resize(self, width, height, scale=1):
        """Sets the size of the window, and how many points of a picture make one of the page."""
        words = {"width": width, "height": height, "deviceScaleFactor": scale, "mobile": False}
        self.call("Emulation.setDeviceMetricsOverride", **words)

    def prefer(self, **features):
        """Sets what the user prefers, as prefer(color_scheme="dark", reduced_motion="reduce"); the rest is unset."""
        told = [{"name": f"prefers-{name.replace('_', '-')}", "value": value} for name, value in features.items()]
        self.call("Emulation.setEmulatedMedia", features=told)

    def picture(self, file, whole=False):
        """Writes what is seen to a PNG file, or the whole page with what would have to be scrolled to."""
        told = self.call("Page.captureScreenshot", format="png", captureBeyondViewport=whole)
        with open(file, "wb") as it:
            it.write(base64.b64decode(told["data"]))

    def press(self, key, *held):
        """Presses a key, named as in KEYS or by the letter that it types, while others are held down, as in HELD."""
        number = KEYS.get(key) or ord(key.upper())
        words = {"key": key, "modifiers": sum(HELD[it] for it in held), "windowsVirtualKeyCode": number}
        words["code"] = key if key in KEYS else {" ": "Space"}.get(key, f"Key{key.upper()}")
        text = "\r" if key == "Enter" else key if len(key) == 1 else ""
        if text and not {"Alt", "Control", "Meta"} & set(held):
            words["text"] = text
        self.call("Input.dispatchKeyEvent", type="keyDown" if "text" in words else "rawKeyDown", **words)
        words.pop("text", None)
        self.call("Input.dispatchKeyEvent", type="keyUp", **words)

    def type(self, text):
        """Types a text where the cursor stands."""
        self.call("Input.insertText", text=text)

    def click(self, x, y):
        """Clicks at a place of the window."""
        for kind in ("mousePressed", "mouseReleased"):
            self.call("Input.dispatchMouseEvent", type=kind, x=x, y=y, button="left", clickCount=1)

    def tree(self):
        """Returns the tree that a screen reader is given: of each node its depth, role, name and properties."""
        nodes = {it["nodeId"]: it for it in self.call("Accessibility.getFullAXTree")["nodes"]}
        root = next(it for it in nodes.values() if "parentId" not in it)
        return [*self._told(nodes, root, 0)]

    def _told(self, nodes, node, depth):
        """Yields a node and those below it; one that is ignored isn't told of, but those below it are."""
        if not node["ignored"]:
            named = {it: node[it].get("value") for it in ("value", "description") if it in node}
            named.update({it["name"]: it["value"].get("value") for it in node.get("properties", [])})
            yield depth, node["role"]["value"], node.get("name", {}).get("value", ""), named
        for child in node.get("childIds", []):
            if child in nodes:
                yield from self._told(nodes, nodes[child], depth + (not node["ignored"]))
