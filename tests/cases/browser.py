"""Chromium without a window, for tests/page: commands of the DevTools protocol over two pipes, each a JSON text that ends with a zero byte."""
import base64
import json
import os
import select
import shutil
import signal
import subprocess
import time

NAMES = "chromium", "chromium-browser", "google-chrome"
FLAGS = ["--headless", "--no-sandbox", "--disable-gpu", "--disable-dev-shm-usage", "--no-first-run", "--disable-background-networking", "--window-size=1000,1200"]
SECONDS, WAITED = 300, 20


def found():
    """The path of a browser, or None."""
    return next(filter(None, map(shutil.which, NAMES)), None)


class Browser:
    """A browser with one page. `events` has all that it reported."""

    def __init__(self, program, room):
        self.number, self.session, self.events, self.left = 0, None, [], b""
        reads, self.out = os.pipe()
        self.back, writes = os.pipe()
        words = [program, *FLAGS, f"--user-data-dir={room}/profile", "--remote-debugging-pipe", "about:blank"]
        # the browser reads from 3 and writes to 4, whatever numbers the pipes have here
        command = ["bash", "-c", f'exec "$@" 3<&{reads} 4>&{writes}', "bash", *words]
        how = {"stdin": subprocess.DEVNULL, "stdout": subprocess.DEVNULL, "stderr": subprocess.DEVNULL, "start_new_session": True}
        self.running = subprocess.Popen(command, pass_fds=(reads, writes), env={**os.environ, "HOME": room}, **how)
        os.close(reads)
        os.close(writes)

    def __enter__(self):
        return self

    def __exit__(self, *_):
        os.killpg(self.running.pid, signal.SIGKILL)
        self.running.wait()
        os.close(self.out)
        os.close(self.back)

    def received(self):
        """The next message."""
        end = time.monotonic() + SECONDS
        while b"\0" not in self.left:
            if not select.select([self.back], [], [], max(0, end - time.monotonic()))[0]:
                raise OSError("the browser is silent")
            data = os.read(self.back, 1 << 20)
            if not data:
                raise OSError("the browser ended")
            self.left += data
        message, _, self.left = self.left.partition(b"\0")
        return json.loads(message)

    def command(self, method, **values):
        """The result of a command."""
        self.number += 1
        message = {"id": self.number, "method": method, "params": values} | ({"sessionId": self.session} if self.session else {})
        data = memoryview(json.dumps(message).encode() + b"\0")
        while data:
            data = data[os.write(self.out, data) :]
        while (answer := self.received()).get("id") != self.number:
            self.events.append(answer)
        if "error" in answer:
            raise OSError(f"{method}: {answer['error']}")
        return answer["result"]

    def open(self, address):
        """Loads a page in a new tab."""
        target = self.command("Target.createTarget", url="about:blank")["targetId"]
        self.session = self.command("Target.attachToTarget", targetId=target, flatten=True)["sessionId"]
        for domain in ("Page", "Runtime", "DOM", "Network"):
            self.command(f"{domain}.enable")
        self.command("Page.navigate", url=address)
        self.until("document.readyState === 'complete' && location.href !== 'about:blank'")

    def value(self, expression):
        """The value of an expression of the page."""
        found_one = self.command("Runtime.evaluate", expression=expression, awaitPromise=True, returnByValue=True)
        if "exceptionDetails" in found_one:
            raise OSError(f"{expression:.80}: {found_one['exceptionDetails']}")
        return found_one["result"].get("value")

    def until(self, expression):
        """Waits until an expression is true, and returns whether it is in the end."""
        end = time.monotonic() + WAITED
        while not (is_true := self.value(expression)) and time.monotonic() < end:
            time.sleep(0.05)
        return is_true

    def choose(self, selector, files):
        """Chooses files in an input, as a user does."""
        document = self.command("DOM.getDocument")["root"]["nodeId"]
        node = self.command("DOM.querySelector", nodeId=document, selector=selector)["nodeId"]
        self.command("DOM.setFileInputFiles", nodeId=node, files=files)

    def drop(self, selector, files):
        """Drops files on the middle of an element."""
        x, y = self.value(f"(it => [it.x + it.width / 2, it.y + it.height / 2])(document.querySelector({json.dumps(selector)}).getBoundingClientRect())")
        data = {"items": [], "files": files, "dragOperationsMask": 1}
        for kind in ("dragEnter", "dragOver", "drop"):
            self.command("Input.dispatchDragEvent", type=kind, x=x, y=y, data=data)

    def picture(self, path):
        """Saves what the page shows."""
        with open(path, "wb") as file:
            file.write(base64.b64decode(self.command("Page.captureScreenshot", format="png", captureBeyondViewport=True)["data"]))
