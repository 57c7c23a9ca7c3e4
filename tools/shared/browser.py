"""A headless Chromium that presses keys on a page."""

import itertools
import json
import os
import shutil
import subprocess

NAMES = ["chromium", "chromium-browser", "google-chrome"]
MODIFIERS = {"alt": 1, "ctrl": 2, "meta": 4, "shift": 8}


def chromium():
    """The path of Chromium, or None if it isn't installed (Debian: chromium)."""
    return next(filter(None, map(shutil.which, NAMES)), None)


class Browser:
    """A headless Chromium that is controlled through two pipes."""

    def __init__(self, program, room):
        to_read, self._to = os.pipe()
        self._from, to_write = os.pipe()
        words = [program, "--headless=new", "--no-sandbox", "--disable-gpu", "--remote-debugging-pipe"]
        words += ["--user-data-dir=" + room, "--no-first-run", "--window-size=1280,1000"]
        words += ["--disable-dev-shm-usage", "about:blank"]
        script = 'exec "$@" 3<&%d 4>&%d' % (to_read, to_write)
        quiet = {"stdout": subprocess.DEVNULL, "stderr": subprocess.DEVNULL}
        whole = ["bash", "-c", script, "-", *words]
        self._process = subprocess.Popen(whole, pass_fds=[to_read, to_write], **quiet)
        os.close(to_read)
        os.close(to_write)
        self._rest, self._numbers, self._session = b"", itertools.count(1), None
        target = self.call("Target.createTarget", url="about:blank")["targetId"]
        self._session = self.call("Target.attachToTarget", targetId=target, flatten=True)["sessionId"]
        self.call("Page.enable")

    def call(self, method, **given):
        """Calls a method of the DevTools protocol, and returns its result."""
        number = next(self._numbers)
        message = {"id": number, "method": method, "params": given}
        if self._session:
            message["sessionId"] = self._session
        os.write(self._to, json.dumps(message).encode() + b"\0")
        while True:
            while b"\0" not in self._rest:
                more = os.read(self._from, 1 << 16)
                if not more:
                    raise RuntimeError("the browser ended")
                self._rest += more
            line, _, self._rest = self._rest.partition(b"\0")
            answer = json.loads(line)
            if answer.get("id") == number:
                if "error" in answer:
                    raise RuntimeError(answer["error"]["message"])
                return answer["result"]

    def value(self, expression):
        """The value of an expression on the page. If it is a promise, this waits for it."""
        how = {"awaitPromise": True, "returnByValue": True}
        result = self.call("Runtime.evaluate", expression=expression, **how)
        if "exceptionDetails" in result:
            raise RuntimeError(result["exceptionDetails"]["exception"].get("description", "failed"))
        return result["result"].get("value")

    def press(self, key, code, held=(), text=None):
        """Presses a key of the keyboard and releases it."""
        modifiers = sum(MODIFIERS[it] for it in held)
        more = {"text": text} if text else {}
        kind = "keyDown" if text else "rawKeyDown"
        self.call("Input.dispatchKeyEvent", type=kind, key=key, code=code, modifiers=modifiers, **more)
        self.call("Input.dispatchKeyEvent", type="keyUp", key=key, code=code, modifiers=modifiers)

    def close(self):
        self._process.terminate()
        self._process.wait(timeout=20)
