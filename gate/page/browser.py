"""Drives a headless browser by its pipe."""
import base64
import json
import os
import shutil
import subprocess
import tempfile

PROGRAM = "chromium-headless-shell"
KEYS = {"ArrowLeft": 37, "ArrowUp": 38, "ArrowRight": 39, "ArrowDown": 40, "Enter": 13,
        "Escape": 27}


class Browser:
    def __init__(self):
        self.folder = tempfile.mkdtemp()
        (inner_in, self.out), (self.input, inner_out) = os.pipe(), os.pipe()

        def pipes():
            # the browser reads from 3 and writes to 4
            kept = os.dup(inner_in), os.dup(inner_out)
            os.dup2(kept[0], 3)
            os.dup2(kept[1], 4)

        arguments = ["--no-sandbox", "--disable-gpu", "--remote-debugging-pipe"]
        self.process = subprocess.Popen(
            [PROGRAM, *arguments, "--user-data-dir=" + self.folder, "about:blank"],
            preexec_fn=pipes, close_fds=False, stdout=subprocess.DEVNULL, stderr=subprocess.DEVNULL)
        os.close(inner_in)
        os.close(inner_out)
        self.rest, self.count, self.events, self.session = b"", 0, [], {}
        target = self("Target.createTarget", url="about:blank")["targetId"]
        attached = self("Target.attachToTarget", targetId=target, flatten=True)
        self.session = {"sessionId": attached["sessionId"]}
        for domain in ("Page", "Runtime", "Log"):
            self(domain + ".enable")

    def __call__(self, method, **params):
        self.count += 1
        message = {"id": self.count, "method": method, "params": params, **self.session}
        os.write(self.out, json.dumps(message).encode() + b"\0")
        while True:
            got = self.read()
            if got.get("id") == self.count:
                assert "error" not in got, got
                return got["result"]
            self.events.append(got)

    def read(self):
        while b"\0" not in self.rest:
            some = os.read(self.input, 1 << 20)
            if not some:
                raise EOFError
            self.rest += some
        one, self.rest = self.rest.split(b"\0", 1)
        return json.loads(one)

    def wait(self, name):
        while True:
            for event in self.events:
                if event.get("method") == name:
                    self.events.remove(event)
                    return
            self.events.append(self.read())

    def open(self, path, place="", width=1440, height=900, dark=False, scripts=True):
        """Opens a file anew, at a place of it."""
        self("Emulation.setDeviceMetricsOverride", width=width, height=height,
             deviceScaleFactor=1, mobile=False)
        scheme = {"name": "prefers-color-scheme", "value": "dark" if dark else "light"}
        self("Emulation.setEmulatedMedia", features=[scheme])
        self("Emulation.setScriptExecutionDisabled", value=not scripts)
        for url in ("about:blank", f"file://{path}{place}"):
            self.events.clear()
            self("Page.navigate", url=url)
            self.wait("Page.loadEventFired")
        if scripts:
            self.settle()

    def settle(self):
        self.js("new Promise(done => requestAnimationFrame(() => requestAnimationFrame(done)))")

    def js(self, code):
        got = self("Runtime.evaluate", expression=code, returnByValue=True, awaitPromise=True)
        assert "exceptionDetails" not in got, got
        return got["result"].get("value")

    def key(self, key):
        code = KEYS.get(key, ord(key[0].upper()))
        text = {"text": key} if len(key) == 1 else {}
        for kind, more in (("keyDown", text), ("keyUp", {})):
            self("Input.dispatchKeyEvent", type=kind, key=key, windowsVirtualKeyCode=code, **more)
        self.settle()

    def type(self, text):
        self("Input.insertText", text=text)
        self.settle()

    def mouse(self, element, is_click=True):
        """Moves to the element of this expression, and clicks on it."""
        box = "[r.x + r.width / 2, r.y + r.height / 2]"
        place = f"const r = {element}.getBoundingClientRect(); return {box};"
        x, y = self.js(f"(() => {{ {place} }})()")
        for kind in ("mouseMoved", "mousePressed", "mouseReleased")[: 3 if is_click else 1]:
            is_move = kind == "mouseMoved"
            self("Input.dispatchMouseEvent", type=kind, x=x, y=y,
                 button="none" if is_move else "left", clickCount=0 if is_move else 1)
        self.settle()

    def shot(self, path):
        with open(path, "wb") as file:
            file.write(base64.b64decode(self("Page.captureScreenshot", format="png")["data"]))

    def problems(self):
        names = ("Runtime.exceptionThrown", "Log.entryAdded")
        return [event["params"] for event in self.events if event.get("method") in names]

    def close(self):
        self.session = {}
        try:
            self("Browser.close")
        except EOFError:
            pass
        self.process.wait(20)
        shutil.rmtree(self.folder, ignore_errors=True)
