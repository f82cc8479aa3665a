"""Browsers without a window, driven by what Python has of its own: Chromium over its debugging pipe, and Firefox over
the port of its Marionette. Neither needs a driver."""
import base64
import contextlib
import fcntl
import json
import os
import select
import shutil
import socket
import subprocess
import tempfile
import time

from shared import free_port

SILENT = {"stdin": subprocess.DEVNULL, "stdout": subprocess.DEVNULL, "stderr": subprocess.DEVNULL}
CODES = {"Enter": 13, "Tab": 9, "ArrowDown": 40, "ArrowUp": 38, "Escape": 27, " ": 32, "/": 191}
TEXTS = {"Enter": "\r", " ": " ", "/": "/"}
NAMES = {" ": "Space", "/": "Slash"}
# Keeps the time of the longest task of a page.
WATCH = """window.longest = 0;
new PerformanceObserver(list => {
  for (const entry of list.getEntries()) window.longest = Math.max(window.longest, entry.duration);
}).observe({ type: 'longtask', buffered: true });"""


class Broken(Exception):
    """What the browser didn't do."""


class Waiting:
    """What both browsers can do, once `js` gives the value of an expression of the page."""

    def wait(self, text, limit=20):
        """Waits until the expression holds, and gives its value."""
        end = time.monotonic() + limit
        while time.monotonic() < end:
            if found := self.js(text):
                return found
            time.sleep(0.02)
        raise Broken(f"waited in vain for {text}")

    def close(self):
        with contextlib.suppress(Exception):
            self.leave()
            self.child.wait(10)
        self.child.kill()
        self.child.wait()
        shutil.rmtree(self.home, ignore_errors=True)


class Chromium(Waiting):
    """A Chromium that is at one page. Events are kept, and given to the hook of their name; faults are logged."""

    def __init__(self, program, *words):
        self.home = tempfile.mkdtemp(prefix="check-page-")
        down, self.out = os.pipe()
        self.inp, up = os.pipe()
        down, up = fcntl.fcntl(down, fcntl.F_DUPFD, 50), fcntl.fcntl(up, fcntl.F_DUPFD, 50)

        def connect_pipes():
            os.dup2(down, 3)
            os.dup2(up, 4)
        line = [program, "--headless=new", "--remote-debugging-pipe", f"--user-data-dir={self.home}", "--no-first-run",
                "--disable-gpu", "--hide-scrollbars", "--window-size=1280,900", "--disable-dev-shm-usage", *words]
        if os.geteuid() == 0:
            line.append("--no-sandbox")
        self.child = subprocess.Popen(line, preexec_fn=connect_pipes, pass_fds=(3, 4), **SILENT)
        os.close(down)
        os.close(up)
        self.buffer, self.last, self.events, self.logged, self.hooks, self.session = b"", 0, [], [], {}, None

    def leave(self):
        self.session = None
        self.call("Browser.close")

    def message(self, limit):
        end = time.monotonic() + limit
        while b"\0" not in self.buffer:
            if not select.select([self.inp], [], [], max(0, end - time.monotonic()))[0]:
                raise Broken(f"the browser said nothing for {limit} s")
            piece = os.read(self.inp, 1 << 20)
            if not piece:
                raise Broken("the browser has ended")
            self.buffer += piece
        raw, self.buffer = self.buffer.split(b"\0", 1)
        return json.loads(raw)

    def post(self, method, **params):
        """Asks for something, and doesn't wait for what comes back."""
        self.last += 1
        sent = {"id": self.last, "method": method, "params": params}
        if self.session:
            sent["sessionId"] = self.session
        os.write(self.out, json.dumps(sent).encode() + b"\0")
        return self.last

    def call(self, method, **params):
        number = self.post(method, **params)
        while True:
            found = self.message(60)
            if found.get("id") == number:
                if "error" in found:
                    raise Broken(f"{method}: {found['error']}")
                return found["result"]
            if "method" in found:
                self.take(found["method"], found["params"])

    def take(self, event, params):
        self.events.append((event, params))
        if event == "Runtime.exceptionThrown" or event == "Log.entryAdded" and params["entry"]["level"] == "error":
            self.logged.append(params)
        if event in self.hooks:
            self.hooks[event](params)

    def open(self, url):
        target = self.call("Target.createTarget", url="about:blank")["targetId"]
        self.session = self.call("Target.attachToTarget", targetId=target, flatten=True)["sessionId"]
        for domain in ("Page", "Runtime", "Log", "Network", "Accessibility"):
            self.call(f"{domain}.enable")
        self.call("Page.addScriptToEvaluateOnNewDocument", source=WATCH)
        self.call("Page.navigate", url=url)

    def js(self, text):
        found = self.call("Runtime.evaluate", expression=text, awaitPromise=True, returnByValue=True)
        if "exceptionDetails" in found:
            raise Broken(f"{found['exceptionDetails'].get('exception', {}).get('description', 'a fault')} in {text}")
        return found["result"].get("value")

    def key(self, name):
        """Presses a key and lets it go."""
        text = TEXTS.get(name)
        params = {"key": name, "code": NAMES.get(name, name), "windowsVirtualKeyCode": CODES[name]}
        typed = {"text": text} if text else {}
        self.call("Input.dispatchKeyEvent", type="keyDown" if text else "rawKeyDown", **params, **typed)
        self.call("Input.dispatchKeyEvent", type="keyUp", **params)

    def type(self, text):
        self.call("Input.insertText", text=text)

    def click(self, element, times=1):
        """Clicks with the mouse in the middle of what the expression gives."""
        x, y = self.js(f"""(() => {{
            const it = {element};
            it.scrollIntoView({{ block: 'center' }});
            const box = it.getBoundingClientRect();
            return [box.x + box.width / 2, box.y + box.height / 2]; }})()""")
        for n in range(1, times + 1):
            for kind in ("mousePressed", "mouseReleased"):
                self.call("Input.dispatchMouseEvent", type=kind, x=x, y=y, button="left", clickCount=n)

    def picture(self, path):
        path.write_bytes(base64.b64decode(self.call("Page.captureScreenshot", format="png")["data"]))


class Firefox(Waiting):
    """A Firefox that is at one page."""

    def __init__(self, program):
        self.home, port = tempfile.mkdtemp(prefix="check-page-"), free_port()
        with open(os.path.join(self.home, "user.js"), "w", encoding="ascii") as file:
            file.write(f'user_pref("marionette.port", {port});\n')
        line = [program, "--headless", "--marionette", "--no-remote", "--profile", self.home]
        self.child = subprocess.Popen(line, env={**os.environ, "HOME": self.home}, **SILENT)
        self.last, end = 0, time.monotonic() + 60
        while True:
            try:
                self.stream = socket.create_connection(("127.0.0.1", port), timeout=60)
                break
            except OSError:
                if time.monotonic() > end:
                    self.close()
                    raise Broken("Firefox can't be asked") from None
                time.sleep(0.2)
        self.reader = self.stream.makefile("rb")
        self.message()
        self.call("WebDriver:NewSession")

    def leave(self):
        self.call("Marionette:Quit")

    def message(self):
        size = b""
        while (byte := self.reader.read(1)) != b":":
            size += byte
        return json.loads(self.reader.read(int(size)))

    def call(self, method, **params):
        self.last += 1
        sent = json.dumps([0, self.last, method, params]).encode()
        self.stream.sendall(b"%d:%s" % (len(sent), sent))
        _, _, fault, found = self.message()
        if fault:
            raise Broken(f"{method}: {fault}")
        return found

    def open(self, url):
        self.call("WebDriver:Navigate", url=url)

    def js(self, text):
        return self.call("WebDriver:ExecuteScript", script=f"return {text};", args=[], sandbox=None)["value"]
