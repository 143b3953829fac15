"""One interface to Chromium, by the HTTP protocol of its driver, and to Firefox, by the socket of Marionette.

Both accept the commands of the W3C's WebDriver. The module needs only Python's standard library.
"""

import base64
import ctypes
import json
import os
import re
import shutil
import signal
import socket
import subprocess
import tempfile
import time
import urllib.error
import urllib.request
from pathlib import Path
from typing import Any, Dict, List, Optional, Type

# The milliseconds that a script and loading a page may take. Checking a million entrants takes long.
TIMEOUTS = {"script": 120_000, "pageLoad": 120_000}
# For how many seconds a script waits at most, which is less than it may take.
LONGEST_WAIT = 20
# Looks every 20 milliseconds whether a value of the page is not false, for at most so many seconds. The page itself
# looks: a command of a driver takes longer.
WAIT = """
const [seconds, ...given] = arguments;
const value = function () {
%s
};
const end = performance.now() + 1000 * seconds;
return new Promise((done, failed) => {
  const look = () => {
    try {
      const found = value(...given);
      if (found) done([found]);
      else if (performance.now() > end) done(null);
      else setTimeout(look, 20);
    } catch (error) {
      failed(error);
    }
  };
  look();
});
"""
# How often a window is set to a size until the page has the wanted one.
RESIZES = 10
# The number by which Linux's prctl makes a process the parent of the orphans among its descendants.
SET_CHILD_SUBREAPER = 36
ELEMENT = "element-6066-11e4-a52e-4f735466cecf"
BACKSPACE, TAB, ENTER, SHIFT, CONTROL, SPACE = "\ue003", "\ue004", "\ue007", "\ue008", "\ue009", " "


class DriverError(Exception):
    """The browser or its driver returned an error for a command."""


class Browser:
    """A browser with one window. `command` sends a command and returns its value."""

    name = ""

    def command(self, name: str, **values: Any) -> Any:
        raise NotImplementedError

    def open(self, address: str) -> None:
        self.command("Navigate", url=address)

    def run(self, script: str, *values: Any) -> Any:
        """The value that a script returns in the page."""
        return self.command("ExecuteScript", script=script, args=list(values))

    def wait(self, script: str, *values: Any, seconds: float = 120) -> Any:
        """Runs a script until its value is not false, and returns the value."""
        end = time.monotonic() + seconds
        while time.monotonic() < end:
            found = self.run(WAIT % script, min(seconds, LONGEST_WAIT), *values)
            if found:
                return found[0]
        raise DriverError(f"waited in vain for: {script}")

    def element(self, selector: str) -> str:
        return self.command("FindElement", using="css selector", value=selector)[ELEMENT]

    def type(self, selector: str, text: str) -> None:
        self.command("ElementSendKeys", id=self.element(selector), text=text)

    def click(self, selector: str) -> None:
        self.command("ElementClick", id=self.element(selector))

    def label(self, selector: str) -> str:
        """The element's name for screen readers."""
        return self.command("GetComputedLabel", id=self.element(selector))

    def press(self, keys: str) -> None:
        """Presses keys one after another, in the focused element."""
        actions = [{"type": kind, "value": key} for key in keys for kind in ("keyDown", "keyUp")]
        self.command("PerformActions", actions=[{"type": "key", "id": "keys", "actions": actions}])

    def press_with(self, held: str, pressed: str) -> None:
        """Presses a key while another is held."""
        actions = [{"type": kind, "value": key} for kind, key in
                   (("keyDown", held), ("keyDown", pressed), ("keyUp", pressed), ("keyUp", held))]
        self.command("PerformActions", actions=[{"type": "key", "id": "keys", "actions": actions}])

    def picture(self, path: Path) -> None:
        """Saves what the window shows."""
        path.write_bytes(base64.b64decode(self.command("TakeScreenshot")))

    def printed(self) -> bytes:
        """The page on paper, as a PDF."""
        return base64.b64decode(self.command("Print"))

    def size(self, width: int, height: int) -> None:
        """Sets the width and the height of the page, in CSS pixels."""
        raise NotImplementedError

    def paint(self, is_painted: bool) -> None:
        """Whether the window is painted. A page in a window that is not acts the same, and takes half the time."""
        raise NotImplementedError

    def dark(self, is_dark: bool) -> None:
        raise NotImplementedError

    def media(self, kind: str = "", **features: str) -> bool:
        """Emulates a CSS media type, such as print, or a media feature. Returns False if the driver cannot."""
        return False

    def lose(self, feature: str) -> None:
        """Makes pages that are opened later lack WebAssembly, or its 64-bit memory."""
        raise NotImplementedError

    def errors(self) -> List[str]:
        """The console errors since the last call."""
        raise NotImplementedError

    def close(self) -> None:
        raise NotImplementedError


def count_orphans() -> None:
    """Makes this process the parent of those that browsers leave behind. Their processor time then counts as its own,
    once `stop` has waited for them."""
    ctypes.CDLL(None).prctl(SET_CHILD_SUBREAPER, 1, 0, 0, 0)


def stop(process: subprocess.Popen) -> None:
    """Ends a process and those that it started, which are in one process group, and waits for them."""
    for number in (signal.SIGTERM, signal.SIGKILL):
        try:
            os.killpg(process.pid, number)
            process.wait(timeout=5)
        except (ProcessLookupError, subprocess.TimeoutExpired):
            continue
    try:
        while True:
            os.waitpid(-process.pid, 0)
    except ChildProcessError:
        pass


class Chromium(Browser):
    name = "Chromium"

    PATHS = {
        "Navigate": "url", "ExecuteScript": "execute/sync", "FindElement": "element",
        "ElementSendKeys": "element/{id}/value", "ElementClick": "element/{id}/click",
        "PerformActions": "actions", "Print": "print", "Log": "se/log", "Protocol": "goog/cdp/execute",
    }
    QUESTIONS = {"TakeScreenshot": "screenshot", "GetComputedLabel": "element/{id}/computedlabel"}

    def __init__(self, downloads: Path) -> None:
        self.process = subprocess.Popen(
            ["chromedriver", "--port=0"], stdout=subprocess.PIPE, stderr=subprocess.DEVNULL,
            stdin=subprocess.DEVNULL, text=True, start_new_session=True)
        try:
            self._begin(downloads)
        except (DriverError, OSError):
            stop(self.process)
            raise

    def _begin(self, downloads: Path) -> None:
        self.address = self._address()
        arguments = ["--headless=new", "--no-sandbox", "--disable-gpu", "--disable-dev-shm-usage"]
        options = {"args": arguments, "prefs": {"download.default_directory": str(downloads)}}
        wanted = {"goog:chromeOptions": options, "goog:loggingPrefs": {"browser": "ALL"}, "timeouts": TIMEOUTS}
        answer = self._send("POST", "session", {"capabilities": {"alwaysMatch": wanted}})
        self.address += f"session/{answer['sessionId']}/"
        self.version = answer["capabilities"]["browserVersion"]

    def _address(self) -> str:
        for line in self.process.stdout:
            found = re.search(r"successfully on port (\d+)", line)
            if found:
                return f"http://127.0.0.1:{found[1]}/"
        raise DriverError("chromedriver does not start")

    def _send(self, method: str, path: str, values: Optional[Dict[str, Any]]) -> Any:
        data = None if values is None else json.dumps(values).encode()
        request = urllib.request.Request(self.address + path, data, method=method)
        request.add_header("Content-Type", "application/json")
        try:
            with urllib.request.urlopen(request, timeout=180) as answer:
                return json.load(answer)["value"]
        except urllib.error.HTTPError as error:
            raise DriverError(json.load(error)["value"]["message"].split("\n")[0]) from None

    def command(self, name: str, **values: Any) -> Any:
        if name in self.QUESTIONS:
            return self._send("GET", self.QUESTIONS[name].format(**values), None)
        return self._send("POST", self.PATHS[name].format(**values), values)

    def _protocol(self, name: str, **values: Any) -> Any:
        return self.command("Protocol", cmd=name, params=values)

    def run(self, script: str, *values: Any) -> Any:
        """The driver's own command for this takes twice the time."""
        expression = f"(function () {{{script}\n}}).apply(null, {json.dumps(values)})"
        answer = self._protocol("Runtime.evaluate", expression=expression, awaitPromise=True, returnByValue=True,
                                userGesture=True)
        if "exceptionDetails" in answer:
            raise DriverError(answer["result"].get("description", str(answer["result"].get("value"))))
        return answer["result"].get("value")

    def size(self, width: int, height: int) -> None:
        self._protocol("Emulation.setDeviceMetricsOverride", width=width, height=height,
                       deviceScaleFactor=1, mobile=False)

    def paint(self, is_painted: bool) -> None:
        """A minimized window is not painted. The driver's options keep the timers of its page as they are."""
        window = self._protocol("Browser.getWindowForTarget")["windowId"]
        state = "normal" if is_painted else "minimized"
        self._protocol("Browser.setWindowBounds", windowId=window, bounds={"windowState": state})

    def dark(self, is_dark: bool) -> None:
        self.media(prefers_color_scheme="dark" if is_dark else "light")

    def media(self, kind: str = "", **features: str) -> bool:
        named = [{"name": name.replace("_", "-"), "value": value} for name, value in features.items()]
        self._protocol("Emulation.setEmulatedMedia", media=kind, features=named)
        return True

    def lose(self, feature: str) -> None:
        """A script that runs before the page's does this. There is no flag for it."""
        source = {"WebAssembly": "delete self.WebAssembly;",
                  "memory64": "WebAssembly.validate = () => false;"}[feature]
        self._protocol("Page.addScriptToEvaluateOnNewDocument", source=source)

    def errors(self) -> List[str]:
        """All but Chromium's note that it left a page without asking, as nobody had touched the page."""
        return [entry["message"] for entry in self.command("Log", type="browser")
                if entry["level"] in ("WARNING", "SEVERE") and "'beforeunload' confirmation" not in entry["message"]]

    def close(self) -> None:
        try:
            self._send("DELETE", "", None)
        except (DriverError, OSError):
            pass
        stop(self.process)


class Firefox(Browser):
    name = "Firefox"

    def __init__(self, downloads: Path) -> None:
        self.profile = Path(tempfile.mkdtemp())
        self._write_preferences(downloads)
        self.process = subprocess.Popen(
            ["firefox-esr", "-headless", "-marionette", "-no-remote", "-remote-allow-system-access",
             "-profile", str(self.profile)],
            stdout=subprocess.DEVNULL, stderr=subprocess.DEVNULL, stdin=subprocess.DEVNULL,
            env={**os.environ, "HOME": str(self.profile)}, start_new_session=True)
        try:
            self._begin()
        except (DriverError, OSError):
            self._end()
            raise

    def _begin(self) -> None:
        self.socket = self._connect()
        self.rest = b""
        self.number = 0
        self._read()
        capabilities = self.command("NewSession")["capabilities"]
        self.version = capabilities["browserVersion"]
        self.command("SetTimeouts", **TIMEOUTS)

    def _write_preferences(self, downloads: Path) -> None:
        values = {
            "marionette.port": 0, "browser.download.dir": str(downloads), "browser.download.folderList": 2,
            "browser.download.useDownloadDir": True, "browser.download.alwaysOpenPanel": False,
            "browser.shell.checkDefaultBrowser": False, "app.update.enabled": False,
            "datareporting.policy.dataSubmissionEnabled": False, "network.captive-portal-service.enabled": False,
            "network.connectivity-service.enabled": False, "browser.aboutwelcome.enabled": False,
            "toolkit.telemetry.enabled": False, "toolkit.telemetry.unified": False,
            "browser.newtabpage.enabled": False, "browser.startup.page": 0,
            "browser.sessionstore.interval": 1_000_000_000, "browser.safebrowsing.downloads.enabled": False,
            "browser.safebrowsing.malware.enabled": False, "browser.safebrowsing.phishing.enabled": False,
            "browser.search.update": False, "extensions.update.enabled": False,
            "extensions.systemAddon.update.enabled": False, "services.settings.server": "data:,",
            "browser.region.update.enabled": False,
            "dom.ipc.processPrelaunch.enabled": False, "dom.ipc.processCount": 1,
            # The timers of a page that is not painted run as those of another.
            "dom.min_background_timeout_value": 4, "dom.timeout.enable_budget_timer_throttling": False,
            "dom.min_background_timeout_value_without_budget_throttling": 4,
            # Otherwise Firefox warns if a list above the visible part changes faster than a person types.
            "layout.css.scroll-anchoring.max-consecutive-adjustments": 0,
        }
        lines = [f"user_pref({json.dumps(name)}, {json.dumps(value)});" for name, value in values.items()]
        (self.profile / "user.js").write_text("\n".join(lines) + "\n")

    def _connect(self) -> socket.socket:
        """The port, which is in a file of the profile once Firefox listens."""
        port = self.profile / "MarionetteActivePort"
        end = time.monotonic() + 60
        while time.monotonic() < end:
            try:
                return socket.create_connection(("127.0.0.1", int(port.read_text())), timeout=180)
            except (OSError, ValueError):
                time.sleep(0.1)
        raise DriverError("Firefox does not start")

    def _more(self) -> bytes:
        data = self.socket.recv(1 << 16)
        if not data:
            raise DriverError("Firefox ended")
        return data

    def _read(self) -> Any:
        """Reads a message: its length in digits, a colon, and that many bytes of JSON."""
        while b":" not in self.rest:
            self.rest += self._more()
        length, _, self.rest = self.rest.partition(b":")
        parts = [self.rest]
        there = len(self.rest)
        while there < int(length):
            parts.append(self._more())
            there += len(parts[-1])
        whole = b"".join(parts)
        self.rest = whole[int(length):]
        return json.loads(whole[:int(length)])

    def command(self, name: str, **values: Any) -> Any:
        self.number += 1
        place = "" if ":" in name else "WebDriver:"
        message = json.dumps([0, self.number, place + name, values]).encode()
        self.socket.sendall(b"%d:%s" % (len(message), message))
        _, _, error, answer = self._read()
        if error:
            raise DriverError(error["message"])
        return answer["value"] if isinstance(answer, dict) and set(answer) == {"value"} else answer

    def _in_firefox(self, script: str, *values: Any) -> Any:
        """Runs a script in Firefox itself and not in the page."""
        self.command("Marionette:SetContext", value="chrome")
        try:
            return self.run(script, *values)
        finally:
            self.command("Marionette:SetContext", value="content")

    def size(self, width: int, height: int) -> None:
        """A window cannot be narrow, so the page is zoomed in a window of twice the width. On a busy machine the page
        gets its new size only after a while."""
        zoom = 2 if width < 600 else 1
        self._in_firefox("gBrowser.selectedBrowser.fullZoom = arguments[0];", zoom)
        outer = [width * zoom, height * zoom]
        for _ in range(RESIZES):
            self.command("SetWindowRect", width=outer[0], height=outer[1])
            inner = self.wait("return [innerWidth, innerHeight];")
            if inner == [width, height]:
                break
            outer = [one + (wanted - found) * zoom for one, wanted, found in zip(outer, (width, height), inner)]

    def paint(self, is_painted: bool) -> None:
        self._in_firefox("gBrowser.selectedBrowser.docShellIsActive = arguments[0];", is_painted)

    def dark(self, is_dark: bool) -> None:
        self._in_firefox(
            "Services.prefs.setIntPref('layout.css.prefers-color-scheme.content-override', arguments[0]);",
            0 if is_dark else 1)

    def lose(self, feature: str) -> None:
        """As for Chromium. There is no preference for it."""
        change = {"WebAssembly": "delete page.WebAssembly;",
                  "memory64": "page.WebAssembly.validate = Cu.exportFunction(() => false, page);"}[feature]
        script = f"""addEventListener("DOMWindowCreated", ({{target}}) => {{
            const page = target.defaultView.wrappedJSObject;
            {change}
        }});"""
        self._in_firefox("Services.mm.loadFrameScript('data:,' + encodeURIComponent(arguments[0]), true);", script)

    def errors(self) -> List[str]:
        return self._in_firefox("""
            const found = Services.console.getMessageArray().filter((message) =>
                message instanceof Ci.nsIScriptError && /^(file|blob):/.test(message.sourceName));
            Services.console.reset();
            return found.map((message) => message.errorMessage);""")

    def close(self) -> None:
        try:
            self.command("Marionette:Quit", flags=["eForceQuit"])
        except (DriverError, OSError):
            pass
        self.socket.close()
        self._end()

    def _end(self) -> None:
        stop(self.process)
        shutil.rmtree(self.profile, ignore_errors=True)


def start(kind: Type[Browser], downloads: Path, tries: int = 3) -> Browser:
    """Starts a browser. If it does not start, as may happen on a busy machine, says why and tries again."""
    for _ in range(tries - 1):
        try:
            return kind(downloads)
        except (DriverError, OSError) as error:
            print(f"{kind.name} did not start, {type(error).__name__}: {error}", flush=True)
    return kind(downloads)
