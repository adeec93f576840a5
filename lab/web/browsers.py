"""Drives Chromium by chromedriver, and Firefox by its own Marionette protocol, without packages for
Python. Both take the commands of WebDriver. It serves a folder to them."""
import base64
import contextlib
import functools
import http.server
import json
import os
import shutil
import socket
import subprocess
import threading
import time
import urllib.request
from pathlib import Path

# How a browser is started: in a zone that is no whole hour from UTC.
HOW = {"stdout": subprocess.DEVNULL, "stderr": subprocess.DEVNULL,
       "env": {**os.environ, "TZ": "Asia/Kathmandu"}}
ELEMENT = "element-6066-11e4-a52e-4f735466cecf"


class Quiet(http.server.SimpleHTTPRequestHandler):
    extensions_map = {**http.server.SimpleHTTPRequestHandler.extensions_map,
                      ".mjs": "text/javascript", ".wasm": "application/wasm"}

    def log_message(self, *words):
        pass


@contextlib.contextmanager
def served(folder):
    """Serves a folder; the value is its address."""
    handler = functools.partial(Quiet, directory=folder)
    with http.server.ThreadingHTTPServer(("127.0.0.1", 0), handler) as server:
        threading.Thread(target=server.serve_forever, daemon=True).start()
        yield f"http://127.0.0.1:{server.server_address[1]}/"
        server.shutdown()


class Browser:
    """What both browsers do; `command` is their own."""

    def open(self, address):
        self.command("url", "Navigate", {"url": address})

    def run(self, script, *words):
        """Runs a script in the page, and returns what it returns, also a promise."""
        body = {"script": script, "args": list(words)}
        return self.command("execute/sync", "ExecuteScript", body)

    def find(self, selector):
        body = {"using": "css selector", "value": selector}
        return self.command("element", "FindElement", body)[ELEMENT]

    def type(self, selector, text):
        """Types into an element by the keyboard, after what it has."""
        self.on(self.find(selector), "value", "ElementSendKeys", {"text": text})

    def clear(self, selector):
        self.on(self.find(selector), "clear", "ElementClear", {})

    def click(self, selector):
        self.on(self.find(selector), "click", "ElementClick", {})

    def choose(self, selector, value):
        """Chooses an option, as the keyboard would."""
        self.run("const it = document.querySelector(arguments[0]); it.value = arguments[1];"
                 "it.dispatchEvent(new Event('input', {bubbles: true}));", selector, value)

    def wait(self, script, *words):
        """Waits until a script returns something true, and returns that."""
        for _ in range(200):
            found = self.run(script, *words)
            if found:
                return found
            time.sleep(0.05)
        raise AssertionError(f"{self.name}: waited in vain for {script}")

    def keys(self, *keys):
        """Presses keys at once, wherever the focus is."""
        actions = [{"type": "keyDown", "value": it} for it in keys]
        actions += [{"type": "keyUp", "value": it} for it in reversed(keys)]
        body = {"actions": [{"type": "key", "id": "keyboard", "actions": actions}]}
        self.command("actions", "PerformActions", body)


class Chromium(Browser):
    name = "Chromium"

    def __init__(self, folder):
        self.driver = subprocess.Popen(["chromedriver", "--port=9516"], **HOW)
        self.root = "http://127.0.0.1:9516/session"
        options = {"args": ["--headless=new", "--no-sandbox", "--disable-gpu", "--lang=en"],
                   "prefs": {"profile.default_content_setting_values.clipboard": 1,
                             "download.default_directory": str(folder),
                             "download.prompt_for_download": False}}
        match = {"alwaysMatch": {"browserName": "chrome", "goog:chromeOptions": options}}
        for _ in range(100):
            try:
                made = self.ask("POST", "", {"capabilities": match})
                break
            except OSError:
                time.sleep(0.1)
        self.root += f"/{made['sessionId']}"
        self.version = made["capabilities"]["browserVersion"]

    def ask(self, method, path, body=None):
        data = None if body is None else json.dumps(body).encode()
        request = urllib.request.Request(self.root + path, data, method=method)
        try:
            with urllib.request.urlopen(request, timeout=120) as answer:
                return json.load(answer)["value"]
        except urllib.error.HTTPError as error:
            raise AssertionError(json.load(error)["value"]["message"][:400]) from None

    def command(self, path, _, body):
        return self.ask("POST", f"/{path}", body)

    def on(self, element, path, _, body):
        return self.ask("POST", f"/element/{element}/{path}", body)

    def devtools(self, name, **words):
        return self.command("goog/cdp/execute", None, {"cmd": name, "params": words})

    def shot(self, scale):
        """Returns a PNG file of the whole page."""
        width, height = self.run("const {scrollWidth, scrollHeight} = document.documentElement;"
                                 "return [scrollWidth, scrollHeight]")
        clip = {"x": 0, "y": 0, "width": width, "height": height, "scale": scale}
        words = {"captureBeyondViewport": True, "clip": clip}
        return base64.b64decode(self.devtools("Page.captureScreenshot", **words)["data"])

    def look(self, dark, width, height):
        self.devtools("Emulation.setDeviceMetricsOverride", width=width, height=height,
                      deviceScaleFactor=1, mobile=False)
        features = [{"name": "prefers-color-scheme", "value": "dark" if dark else "light"}]
        self.devtools("Emulation.setEmulatedMedia", features=features)

    def close(self):
        self.ask("DELETE", "")
        self.driver.terminate()
        self.driver.wait()


class Firefox(Browser):
    name = "Firefox"

    def __init__(self, folder):
        self.profile = Path(folder) / "profile"
        self.profile.mkdir()
        prefs = {"browser.download.folderList": 2, "browser.download.dir": str(folder),
                 "browser.helperApps.neverAsk.saveToDisk": "image/svg+xml,image/png,"
                 "application/pdf,application/postscript,text/plain", "pdfjs.disabled": True,
                 "browser.download.always_ask_before_handling_new_types": False,
                 "browser.download.open_pdf_attachments_inline": False,
                 "browser.shell.checkDefaultBrowser": False, "marionette.port": 2829,
                 "datareporting.policy.dataSubmissionEnabled": False,
                 "layout.css.prefers-color-scheme.content-override": 1}
        lines = [f'user_pref("{name}", {json.dumps(value)});\n' for name, value in prefs.items()]
        (self.profile / "user.js").write_text("".join(lines))
        words = ["firefox-esr", "--headless", "--marionette", "--profile", str(self.profile),
                 "--no-remote", "--new-instance", "-remote-allow-system-access"]
        self.driver = subprocess.Popen(words, **HOW)
        for _ in range(300):
            try:
                self.socket = socket.create_connection(("127.0.0.1", 2829))
                break
            except OSError:
                time.sleep(0.1)
        self.socket.settimeout(120)
        self.file, self.count = self.socket.makefile("rwb"), 0
        self.receive()
        made = self.ask("WebDriver:NewSession", {"capabilities": {"alwaysMatch": {}}})
        self.version = made["capabilities"]["browserVersion"]

    def receive(self):
        length = b""
        while not length.endswith(b":"):
            length += self.file.read(1)
        return json.loads(self.file.read(int(length[:-1])))

    def ask(self, name, body):
        self.count += 1
        data = json.dumps([0, self.count, name, body]).encode()
        self.file.write(b"%d:%s" % (len(data), data))
        self.file.flush()
        _, _, error, found = self.receive()
        if error:
            raise AssertionError(f"{error['message'][:400]}")
        return found["value"] if isinstance(found, dict) and list(found) == ["value"] else found

    def command(self, _, name, body):
        return self.ask(f"WebDriver:{name}", body)

    def on(self, element, _, name, body):
        return self.command(None, name, {"id": element, **body})

    def set(self, name, value):
        """Sets a preference, in the browser's own context."""
        self.ask("Marionette:SetContext", {"value": "chrome"})
        self.run("Services.prefs.setIntPref(arguments[0], arguments[1])", name, value)
        self.ask("Marionette:SetContext", {"value": "content"})

    def look(self, dark, width, height):
        self.set("layout.css.prefers-color-scheme.content-override", 0 if dark else 1)
        self.command(None, "SetWindowRect", {"width": max(width, 450), "height": height})

    def close(self):
        try:
            self.ask("Marionette:Quit", {"flags": ["eForceQuit"]})
            self.driver.wait(30)
        except (AssertionError, OSError, ValueError, subprocess.TimeoutExpired):
            self.driver.kill()
            self.driver.wait()
        shutil.rmtree(self.profile, ignore_errors=True)


BROWSERS = {"Chromium": Chromium, "Firefox": Firefox}
