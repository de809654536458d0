"""Drives Debian's chromium and firefox-esr without a window, by Python's library alone: by chromium's debugging pipe, and by
firefox's Marionette (JSON over a socket)."""
import base64
import json
import os
import shutil
import socket
import subprocess
import tempfile
import time

WIDTH, HEIGHT = 1400, 900
# Of each key that is pressed: its number in chromium, and its code point in WebDriver.
KEYS = {"Tab": (9, "\uE004"), "Enter": (13, "\uE007"), "Escape": (27, "\uE00C"), "End": (35, "\uE010"), "Home": (36, "\uE011"),
        "ArrowLeft": (37, "\uE012"), "ArrowRight": (39, "\uE014"), "F7": (118, "\uE037"), "F8": (119, "\uE038"), "F9": (120, "\uE039"),
        "F10": (121, "\uE03A")}
# The same of the keys that are held meanwhile: chromium's bit for it.
HELD = {"Control": (2, "\uE009"), "Shift": (8, "\uE008")}


# What firefox is set to: downloads go to a folder, and pages may read as little as without Marionette, which would let a page of a disk
# read other files. Sound needs no click of a user.
FIREFOX = {"browser.download.folderList": 2, "remote.prefs.recommended": False, "media.autoplay.default": 0, "media.autoplay.blocking_policy": 0}
# How files end that are not saved in full yet.
PARTS = (".crdownload", ".part")


class Failed(Exception):
    """What a browser answered instead of what was asked for."""


class Browser:
    """What both browsers have: a folder of their own, and a process."""

    def __init__(self):
        self.folder = tempfile.mkdtemp(prefix="c25page")
        self.downloads = os.path.join(self.folder, "downloads")
        os.makedirs(self.downloads)
        self.number, self.rest = 0, b""

    def until(self, condition, seconds=180):
        """Waits until the script's expression holds, and returns its value."""
        end = time.monotonic() + seconds
        while time.monotonic() < end:
            value = self.do("return " + condition)
            if value:
                return value
            time.sleep(0.05)
        raise Failed("%s did not come in %d seconds" % (condition, seconds))

    def saved(self, name, seconds=30):
        """The path of a file that the page saved, once it is there in full."""
        path, end = os.path.join(self.downloads, name), time.monotonic() + seconds
        while time.monotonic() < end:
            parts = [it for it in os.listdir(self.downloads) if it.endswith(PARTS)]
            if not parts and os.path.exists(path) and os.path.getsize(path):
                return path
            time.sleep(0.05)
        raise Failed("%s was not saved: %s" % (name, os.listdir(self.downloads)))

    def end(self):
        try:
            self.process.wait(10)
        except subprocess.TimeoutExpired:
            self.process.kill()
            self.process.wait()
        shutil.rmtree(self.folder, ignore_errors=True)


class Chromium(Browser):
    name, command = "chromium", "chromium"

    def __init__(self):
        super().__init__()
        given, self.to = os.pipe()
        self.back, taken = os.pipe()

        def ends():         # chromium reads from 3 and writes to 4
            os.dup2(given, 103)
            os.dup2(taken, 104)
            os.dup2(103, 3)
            os.dup2(104, 4)
        self.process = subprocess.Popen(
            [self.command, "--headless", "--no-sandbox", "--disable-gpu", "--remote-debugging-pipe", "--no-first-run",
             "--user-data-dir=" + self.folder, "--window-size=%d,%d" % (WIDTH, HEIGHT), "about:blank"],
            preexec_fn=ends, close_fds=False, stdout=subprocess.DEVNULL, stderr=subprocess.DEVNULL)
        os.close(given)
        os.close(taken)
        self.session, self.events = None, []
        self.ask("Browser.setDownloadBehavior", behavior="allow", downloadPath=self.downloads)
        target = [it for it in self.ask("Target.getTargets")["targetInfos"] if it["type"] == "page"][0]
        self.session = self.ask("Target.attachToTarget", targetId=target["targetId"], flatten=True)["sessionId"]
        for domain in ("Page", "Runtime", "Log", "Accessibility"):
            self.ask(domain + ".enable")

    def read(self):
        while b"\0" not in self.rest:
            more = os.read(self.back, 1 << 20)
            if not more:
                raise Failed("chromium ended")
            self.rest += more
        first, _, self.rest = self.rest.partition(b"\0")
        return json.loads(first.decode("utf-8"))

    def ask(self, method, **parameters):
        self.number += 1
        asked = {"id": self.number, "method": method, "params": parameters}
        if self.session:
            asked["sessionId"] = self.session
        os.write(self.to, json.dumps(asked).encode("ascii") + b"\0")
        while True:
            answer = self.read()
            if answer.get("id") != self.number:
                self.events.append(answer)
            elif "error" in answer:
                raise Failed(answer["error"])
            else:
                return answer["result"]

    def open(self, path):
        self.ask("Page.navigate", url="file://" + path)

    def before_pages(self, script):
        """Has a script run in each page before the page's own, until it is taken back by its name, which is returned."""
        return self.ask("Page.addScriptToEvaluateOnNewDocument", source=script)["identifier"]

    def not_before_pages(self, name):
        self.ask("Page.removeScriptToEvaluateOnNewDocument", identifier=name)

    def do(self, script):
        answer = self.ask("Runtime.evaluate", expression="(async () => {%s})()" % script, awaitPromise=True, returnByValue=True,
                          userGesture=True)
        if "exceptionDetails" in answer:
            raise Failed(json.dumps(answer["exceptionDetails"])[:600])
        return answer["result"].get("value")

    def press(self, key, *held):
        event = {"key": key, "code": key, "windowsVirtualKeyCode": KEYS[key][0], "modifiers": sum(HELD[it][0] for it in held)}
        self.ask("Input.dispatchKeyEvent", type="rawKeyDown", **event)
        self.ask("Input.dispatchKeyEvent", type="keyUp", **event)

    def picture(self, path):
        with open(path, "wb") as file:
            file.write(base64.b64decode(self.ask("Page.captureScreenshot", format="png")["data"]))

    def console(self):
        found = []
        for event in self.events:
            method, parameters = event.get("method"), event.get("params", {})
            if method == "Log.entryAdded":
                found.append(parameters["entry"]["text"])
            elif method == "Runtime.exceptionThrown":
                found.append(json.dumps(parameters["exceptionDetails"])[:400])
            elif method == "Runtime.consoleAPICalled":
                found.append(" ".join(str(it.get("value")) for it in parameters["args"]))
        return found

    def look(self, width, height, dark=False):
        """Shows the page on a screen of this size, light or dark."""
        self.ask("Emulation.setDeviceMetricsOverride", width=width, height=height, deviceScaleFactor=1, mobile=False)
        self.ask("Emulation.setEmulatedMedia", features=[{"name": "prefers-color-scheme", "value": "dark" if dark else "light"}])

    def unnamed(self):
        """The controls that have no name for a screen reader."""
        roles = ("button", "tab", "textbox", "combobox", "checkbox", "spinbutton", "image", "tabpanel", "tablist")
        nodes = self.ask("Accessibility.getFullAXTree")["nodes"]
        return [it["role"]["value"] for it in nodes
                if not it.get("ignored") and it["role"]["value"] in roles and not it.get("name", {}).get("value")]

    def close(self):
        try:
            self.session = None
            self.ask("Browser.close")
        except (Failed, OSError):
            pass
        self.end()


class Firefox(Browser):
    name, command = "firefox-esr", "firefox-esr"

    def __init__(self):
        super().__init__()
        with socket.socket() as free:
            free.bind(("127.0.0.1", 0))
            port = free.getsockname()[1]
        with open(os.path.join(self.folder, "user.js"), "w", encoding="ascii") as file:
            for name, value in {**FIREFOX, "marionette.port": port, "browser.download.dir": self.downloads}.items():
                file.write("user_pref(%s, %s);\n" % (json.dumps(name), json.dumps(value)))
        self.process = subprocess.Popen(
            [self.command, "--headless", "--marionette", "--remote-allow-system-access", "--no-remote", "--profile", self.folder,
             "--width", str(WIDTH), "--height", str(HEIGHT)],
            stdout=subprocess.DEVNULL, stderr=subprocess.DEVNULL, env={**os.environ, "HOME": self.folder})
        self.socket = self.connected(port)
        self.read()
        self.ask("WebDriver:NewSession", capabilities={"alwaysMatch": {}})
        self.ask("WebDriver:SetTimeouts", script=300000)

    def connected(self, port):
        for _ in range(300):
            try:
                return socket.create_connection(("127.0.0.1", port))
            except OSError:
                time.sleep(0.2)
        raise Failed("firefox does not answer")

    def read(self):
        while b":" not in self.rest:
            self.rest += self.socket.recv(1 << 16)
        size, _, self.rest = self.rest.partition(b":")
        while len(self.rest) < int(size):
            self.rest += self.socket.recv(1 << 16)
        first, self.rest = self.rest[:int(size)], self.rest[int(size):]
        return json.loads(first.decode("utf-8"))

    def ask(self, method, **parameters):
        self.number += 1
        asked = json.dumps([0, self.number, method, parameters]).encode("ascii")
        self.socket.sendall(b"%d:%s" % (len(asked), asked))
        _, _, error, result = self.read()
        if error:
            raise Failed(json.dumps(error)[:600])
        return result

    def open(self, path):
        self.ask("WebDriver:Navigate", url="file://" + path)

    def do(self, script):
        return self.ask("WebDriver:ExecuteScript", script="return (async () => {%s})()" % script, args=[], sandbox=None)["value"]

    def press(self, key, *held):
        keys = [HELD[it][1] for it in held] + [KEYS[key][1]]
        actions = [{"type": "keyDown", "value": it} for it in keys] + [{"type": "keyUp", "value": it} for it in reversed(keys)]
        self.ask("WebDriver:PerformActions", actions=[{"type": "key", "id": "keys", "actions": actions}])

    def picture(self, path):
        with open(path, "wb") as file:
            file.write(base64.b64decode(self.ask("WebDriver:TakeScreenshot", full=False)["value"]))

    def console(self):
        self.ask("Marionette:SetContext", value="chrome")
        of_page = 'filter((it) => it.sourceName && it.sourceName.includes("c25"))'
        script = "return Services.console.getMessageArray().%s.map((it) => it.errorMessage)" % of_page
        found = self.ask("WebDriver:ExecuteScript", args=[], script=script)
        self.ask("Marionette:SetContext", value="content")
        return found["value"]

    def close(self):
        try:
            self.ask("Marionette:Quit", flags=["eForceQuit"])
        except (Failed, OSError, ValueError):
            self.process.terminate()
        self.socket.close()
        self.end()
