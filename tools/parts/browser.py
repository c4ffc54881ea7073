"""Debian's chromium without a window, told what to do over a pipe (its DevTools protocol): for tools/test_page."""
import base64, itertools, json, os, select, shutil, subprocess, sys, tempfile, time

PATIENCE = float(os.environ.get("BROWSER_PATIENCE", 60))  # seconds for an answer: a machine may be busy


def found(who):
    """The browser's program; says what is missing where there is none."""
    program = shutil.which(os.environ.get("CHROMIUM", "chromium"))
    return program or sys.exit(f"{who}: there is no chromium here (Debian: apt-get install chromium); CHROMIUM may name another program")


class Browser:
    def __init__(self, program):
        self.room = tempfile.TemporaryDirectory(ignore_cleanup_errors=True)
        orders, self.orders = os.pipe()
        self.answers, answers = os.pipe()
        words = [program, "--headless=new", "--remote-debugging-pipe", "--no-first-run", "--disable-gpu", "--mute-audio", "--disable-background-networking"]
        words += ["--disable-component-update", "--disable-sync", "--disable-dev-shm-usage", f"--user-data-dir={self.room.name}"]
        # root has no sandbox of its own to give
        words += ["--no-sandbox"] if os.geteuid() == 0 else []
        # it takes orders from descriptor 3 and answers on 4
        start = ["sh", "-c", f'exec "$@" 3<&{orders} 4>&{answers}', "sh", *words, "about:blank"]
        self.said = open(os.path.join(self.room.name, "said"), "w+b")
        self.ran = subprocess.Popen(start, pass_fds=(orders, answers), stdin=subprocess.DEVNULL, stdout=self.said, stderr=self.said)
        os.close(orders)
        os.close(answers)
        self.rest, self.numbers, self.events = b"", itertools.count(1), []
        self.session = None
        target = next(t for t in self.ask("Target.getTargets")["targetInfos"] if t["type"] == "page")["targetId"]
        self.session = self.ask("Target.attachToTarget", targetId=target, flatten=True)["sessionId"]
        for part in "Page", "Runtime", "Network", "Log", "Accessibility", "DOM":
            self.ask(f"{part}.enable")

    def close(self):
        os.close(self.orders)
        try:
            self.ran.wait(10)
        except subprocess.TimeoutExpired:
            self.ran.kill()
            self.ran.wait()
        os.close(self.answers)
        self.said.close()
        self.room.cleanup()

    def message(self, until):
        while b"\0" not in self.rest:
            if not select.select([self.answers], [], [], max(0, until - time.monotonic()))[0]:
                raise RuntimeError("the browser does not answer")
            piece = os.read(self.answers, 1 << 20)
            if not piece:
                self.said.seek(0)
                raise RuntimeError("the browser ended: " + self.said.read().decode(errors="replace")[-600:])
            self.rest += piece
        first, self.rest = self.rest.split(b"\0", 1)
        return json.loads(first)

    def ask(self, method, **params):
        number = next(self.numbers)
        order = {"id": number, "method": method, "params": params}
        if self.session:
            order["sessionId"] = self.session
        os.write(self.orders, json.dumps(order).encode() + b"\0")
        until = time.monotonic() + PATIENCE
        while True:
            got = self.message(until)
            if got.get("id") == number:
                if "error" in got:
                    raise RuntimeError(f"{method}: {got['error']['message']}")
                return got["result"]
            self.events.append(got)

    def open(self, path):
        """Opens a file, and forgets what was seen of the one before."""
        self.events.clear()
        self.ask("Page.navigate", url="file://" + os.path.abspath(path))
        self.wait("document.readyState === 'complete'", "the page to open")

    def run(self, script):
        """What a script's expression gives, in the page."""
        got = self.ask("Runtime.evaluate", expression=script, returnByValue=True, awaitPromise=True)
        if "exceptionDetails" in got:
            raise RuntimeError(f"{script}: {got['exceptionDetails'].get('exception', {}).get('description', got['exceptionDetails']['text'])}")
        return got["result"].get("value")

    def wait(self, script, what):
        """What a script's expression gives as soon as that is true."""
        until = time.monotonic() + PATIENCE
        while not (got := self.run(script)):
            if time.monotonic() > until:
                raise RuntimeError(f"waited {PATIENCE:g} seconds for {what}; BROWSER_PATIENCE may allow more")
            time.sleep(0.05)
        return got

    def click(self, x, y):
        for kind in "mousePressed", "mouseReleased":
            self.ask("Input.dispatchMouseEvent", type=kind, x=x, y=y, button="left", clickCount=1)

    def key(self, name, code, text=""):
        """A key, down and up: its name as scripts have it, and its number."""
        both = dict(key=name, code="Space" if name == " " else name, windowsVirtualKeyCode=code)
        self.ask("Input.dispatchKeyEvent", type="keyDown", text=text, **both)
        self.ask("Input.dispatchKeyEvent", type="keyUp", **both)

    def screen(self, width, height, phone=False):
        self.ask("Emulation.setDeviceMetricsOverride", width=width, height=height, deviceScaleFactor=2 if phone else 1, mobile=phone)

    def prefer(self, **features):
        """What the user is said to prefer: colour scheme, less motion."""
        self.ask("Emulation.setEmulatedMedia", features=[dict(name=name.replace("_", "-"), value=value) for name, value in features.items()])

    def picture(self, path, whole=True):
        self.run("scrollTo(0, 0), new Promise((drawn) => requestAnimationFrame(() => requestAnimationFrame(drawn)))")
        got = self.ask("Page.captureScreenshot", format="png", captureBeyondViewport=whole)
        with open(path, "wb") as f:
            f.write(base64.b64decode(got["data"]))

    def seen(self, method):
        """What the browser told of some kind since the page was opened."""
        self.run("0")  # what was told before this is here now
        return [event["params"] for event in self.events if event.get("method") == method]
