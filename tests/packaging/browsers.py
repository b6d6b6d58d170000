"""Chromium and Firefox of Debian without a window, each by its own protocol over the standard library: DevTools by a pipe, and Marionette."""
import base64
import contextlib
import json
import os
import signal
import socket
import subprocess
import time
from pathlib import Path

# Elements whose text is not distinct from what is behind it (WCAG 2.2, 1.4.3), and focus that is not seen.
CONTRAST = """(() => {
    const channels = colour => colour.match(/[0-9.]+/g).map(Number);
    const luminance = ([r, g, b]) => [r, g, b].map(it => it / 255).map(it => it <= 0.04045 ? it / 12.92 : ((it + 0.055) / 1.055) ** 2.4)
        .reduce((sum, it, at) => sum + it * [0.2126, 0.7152, 0.0722][at], 0);
    const behind = element => {
        for (let it = element; it; it = it.parentElement) {
            const colour = channels(getComputedStyle(it).backgroundColor);
            if (colour.length < 4 || colour[3] === 1) return colour;
        }
        return [255, 255, 255];
    };
    const bad = [];
    for (const element of document.body.querySelectorAll("*")) {
        if (![...element.childNodes].some(it => it.nodeType === 3 && it.data.trim()) && !element.matches("input, textarea")) continue;
        const [low, high] = [luminance(channels(getComputedStyle(element).color)), luminance(behind(element))].sort((a, b) => a - b);
        if ((high + 0.05) / (low + 0.05) < 4.5) bad.push(element.outerHTML);
    }
    return bad;
})()"""

# Cells whose text is not apart from that of the next one.
CLOSE = """(() => {
    const of = cell => {
        const range = document.createRange();
        range.selectNodeContents(cell);
        return range.getBoundingClientRect();
    };
    return [...document.querySelectorAll("th, td")].filter(it => it.nextElementSibling && of(it.nextElementSibling).left - of(it).right < 8)
        .map(it => it.outerHTML);
})()"""


class Chromium:
    """Chromium, by the DevTools protocol."""

    PROGRAM = "chromium"

    def __init__(self, folder: Path) -> None:
        (mine, its_output), (its_input, other) = os.pipe(), os.pipe()

        def hand_over() -> None:
            first, second = os.dup(its_input), os.dup(its_output)
            os.dup2(first, 3)
            os.dup2(second, 4)

        self.process = subprocess.Popen(  # pylint: disable=subprocess-popen-preexec-fn
            ["chromium", "--headless", "--no-sandbox", "--disable-gpu", "--no-first-run", f"--user-data-dir={folder}/profile",
             "--remote-debugging-pipe", "about:blank"], preexec_fn=hand_over, close_fds=False, stdout=subprocess.DEVNULL,
            stderr=subprocess.DEVNULL, start_new_session=True)
        os.close(its_output)
        os.close(its_input)
        self.input, self.output, self.number, self.told, self.session = open(mine, "rb"), open(other, "wb"), 0, [], None
        self.buffer = b""
        targets = self.call("Target.getTargets")["targetInfos"]
        target = next(it["targetId"] for it in targets if it["type"] == "page")
        self.session = self.call("Target.attachToTarget", targetId=target, flatten=True)["sessionId"]
        for domain in ("Page", "Runtime", "Log", "Network", "DOM", "Accessibility"):
            self.call(f"{domain}.enable")
        self.requests = []
        self.call("Browser.setDownloadBehavior", behavior="allow", downloadPath=str(folder))

    def call(self, method: str, **parameters):
        self.number += 1
        message = {"id": self.number, "method": method, "params": parameters}
        if self.session and not method.startswith(("Target.", "Browser.")):
            message["sessionId"] = self.session
        self.output.write(json.dumps(message).encode() + b"\0")
        self.output.flush()
        while True:
            answer = self.read()
            if answer.get("id") == self.number:
                assert "error" not in answer, (method, answer)
                return answer["result"]
            if answer.get("method") in ("Runtime.consoleAPICalled", "Runtime.exceptionThrown", "Log.entryAdded"):
                self.told.append(json.dumps(answer["params"])[:400])
            if answer.get("method") == "Network.requestWillBeSent":
                self.requests.append(answer["params"]["request"]["url"][:60])

    def read(self):
        while b"\0" not in self.buffer:
            more = os.read(self.input.fileno(), 1 << 20)
            assert more, "Chromium ended"
            self.buffer += more
        text, _, self.buffer = self.buffer.partition(b"\0")
        return json.loads(text)

    def go(self, address: str) -> None:
        self.call("Page.navigate", url=address)

    def run(self, script: str):
        answer = self.call("Runtime.evaluate", expression=f"(async () => {{{script}}})()", awaitPromise=True, returnByValue=True)
        assert "exceptionDetails" not in answer, (script, answer)
        return answer["result"].get("value")

    def file(self, selector: str, path: Path) -> None:
        root = self.call("DOM.getDocument")["root"]["nodeId"]
        node = self.call("DOM.querySelector", nodeId=root, selector=selector)["nodeId"]
        self.call("DOM.setFileInputFiles", nodeId=node, files=[str(path)])

    def press(self, key: str) -> None:
        codes = {"Tab": 9, "Enter": 13, " ": 32}
        more = {"text": "\r"} if key == "Enter" else {"text": key} if len(key) == 1 else {}
        code = codes.get(key, 0)
        for kind in ("keyDown", "keyUp"):
            self.call("Input.dispatchKeyEvent", type=kind, key=key, windowsVirtualKeyCode=code, **(more if kind == "keyDown" else {}))

    def look(self, width: int, dark: bool) -> None:
        self.call("Emulation.setEmulatedMedia", features=[{"name": "prefers-color-scheme", "value": "dark" if dark else "light"}])
        self.call("Emulation.setDeviceMetricsOverride", width=width, height=900, deviceScaleFactor=1, mobile=False)

    def picture(self) -> bytes:
        return base64.b64decode(self.call("Page.captureScreenshot", captureBeyondViewport=True)["data"])

    def messages(self):
        self.run("")
        return self.told + [it for it in self.requests if not it.startswith(("file:", "blob:"))]

    def end(self) -> None:
        os.killpg(self.process.pid, signal.SIGKILL)
        self.process.wait()
        self.input.close()
        self.output.close()


class Firefox:
    """Firefox, by Marionette."""

    PROGRAM = "firefox-esr"

    def __init__(self, folder: Path) -> None:
        with socket.socket() as free:
            free.bind(("127.0.0.1", 0))
            port = free.getsockname()[1]
        profile = folder / "profile"
        profile.mkdir()
        settings = {"marionette.port": port, "browser.download.folderList": 2, "browser.download.dir": str(folder),
                    "browser.shell.checkDefaultBrowser": False, "datareporting.policy.dataSubmissionEnabled": False,
                    "browser.download.alwaysOpenPanel": False, "network.proxy.type": 0, "app.update.enabled": False,
                    "browser.safebrowsing.downloads.enabled": False, "toolkit.telemetry.enabled": False}
        (profile / "user.js").write_text("".join(f"user_pref({json.dumps(key)}, {json.dumps(it)});\n" for key, it in settings.items()))
        self.process = subprocess.Popen(["firefox-esr", "--headless", "--no-remote", "--marionette", "--remote-allow-system-access",
                                         "--profile", str(profile)], stdout=subprocess.DEVNULL, stderr=subprocess.DEVNULL,
                                        env={**os.environ, "HOME": str(folder), "MOZ_CRASHREPORTER_DISABLE": "1"}, start_new_session=True)
        for _ in range(600):
            with contextlib.suppress(OSError):
                self.socket = socket.create_connection(("127.0.0.1", port))
                break
            time.sleep(0.1)
        self.number = 0
        self.read()
        self.call("WebDriver:NewSession", capabilities={"alwaysMatch": {"webSocketUrl": False}})
        self.call("WebDriver:SetTimeouts", script=120000, pageLoad=60000)

    def read(self):
        text = b""
        while not text.endswith(b":"):
            text += self.socket.recv(1)
        size = int(text[:-1])
        text = b""
        while len(text) < size:
            text += self.socket.recv(size - len(text))
        return json.loads(text)

    def call(self, method: str, **parameters):
        self.number += 1
        text = json.dumps([0, self.number, method, parameters]).encode()
        self.socket.sendall(b"%d:%b" % (len(text), text))
        _, number, error, answer = self.read()
        assert (number, error) == (self.number, None), (method, error)
        return answer

    def go(self, address: str) -> None:
        self.call("WebDriver:Navigate", url=address)

    def run(self, script: str):
        answer = self.call("WebDriver:ExecuteScript", script=f"return (async () => {{{script}}})()", args=[], sandbox=None)
        return answer["value"]

    def system(self, script: str):
        self.call("Marionette:SetContext", value="chrome")
        try:
            return self.run(script)
        finally:
            self.call("Marionette:SetContext", value="content")

    def element(self, selector: str) -> str:
        (found,) = self.call("WebDriver:FindElement", using="css selector", value=selector)["value"].values()
        return found

    def file(self, selector: str, path: Path) -> None:
        self.call("WebDriver:ElementSendKeys", id=self.element(selector), text=str(path))

    def press(self, key: str) -> None:
        code = {"Tab": "\ue004", "Enter": "\ue007"}.get(key, key)
        actions = [{"type": kind, "value": code} for kind in ("keyDown", "keyUp")]
        self.call("WebDriver:PerformActions", actions=[{"type": "key", "id": "keys", "actions": actions}])

    def look(self, width: int, dark: bool) -> None:
        self.system(f"Services.prefs.setIntPref('layout.css.prefers-color-scheme.content-override', {0 if dark else 1});"
                    "window.document.documentElement.style.minWidth = '0'")
        self.call("WebDriver:SetWindowRect", width=width, height=1000)

    def picture(self) -> bytes:
        return base64.b64decode(self.call("WebDriver:TakeScreenshot", full=True, hash=False)["value"])

    def messages(self):
        return self.system("""return Services.console.getMessageArray().filter((it) => it instanceof Ci.nsIScriptError
            && /langtag.html|^blob:/.test(it.sourceName)).map((it) => it.errorMessage)
            .concat(Cc['@mozilla.org/consoleAPI-storage;1'].getService(Ci.nsIConsoleAPIStorage).getEvents()
            .filter((it) => /langtag.html|^blob:/.test(it.filename)).map((it) => `${it.filename} ${it.arguments}`))""")

    def end(self) -> None:
        os.killpg(self.process.pid, signal.SIGKILL)
        self.process.wait()


def wait(browser, script: str, seconds: float = 60):
    """The value of an expression, as soon as it is true."""
    end = time.monotonic() + seconds
    while True:
        value = browser.run(f"return {script}")
        if value or time.monotonic() > end:
            assert value, (script, browser.run("return document.body.innerText.slice(0, 3000)"), browser.messages())
            return value
        time.sleep(0.05)
