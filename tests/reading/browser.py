"""A headless Chromium, asked by its DevTools protocol over a pipe."""
import json
import os
import shutil
import subprocess
import tempfile
from typing import Any

PROGRAM = shutil.which("chromium") or shutil.which("chromium-browser")


class Browser:
    """One page. What it says on its console and what it refuses to load are kept."""

    def __init__(self) -> None:
        assert PROGRAM
        self.folder, self.number, self.said, self.events = tempfile.mkdtemp(), 0, list[str](), list[dict[str, Any]]()
        mine, its_out = os.pipe()
        its_in, self.out = os.pipe()

        def at_3_and_4() -> None:
            read, write = os.dup(its_in), os.dup(its_out)
            os.dup2(read, 3)
            os.dup2(write, 4)

        self.process = subprocess.Popen(
            [PROGRAM, "--headless=new", "--no-sandbox", "--disable-gpu", "--remote-debugging-pipe",
             "--window-size=1280,800", f"--user-data-dir={self.folder}", "about:blank"],
            pass_fds=(3, 4), preexec_fn=at_3_and_4,
            stdout=subprocess.DEVNULL, stderr=subprocess.DEVNULL)
        os.close(its_in)
        os.close(its_out)
        self.stream, self.session = open(mine, "rb"), ""
        target = self.ask("Target.createTarget", url="about:blank")["targetId"]
        self.session = self.ask("Target.attachToTarget", targetId=target, flatten=True)["sessionId"]
        for domain in ("Page", "Runtime", "Log", "Network"):
            self.ask(f"{domain}.enable")

    def ask(self, method: str, **given: Any) -> Any:
        self.number += 1
        asked = {"id": self.number, "method": method, "params": given}
        asked |= {"sessionId": self.session} if self.session else {}
        os.write(self.out, json.dumps(asked).encode() + b"\0")
        while True:
            said = json.loads(self.message())
            if said.get("id") == self.number:
                assert "error" not in said, said
                return said["result"]
            self.events.append(said)

    def message(self) -> bytes:
        found = bytearray()
        while (each := self.stream.read(1)) != b"\0":
            assert each, "the browser ended"
            found += each
        return bytes(found)

    def open(self, url: str) -> None:
        self.ask("Page.navigate", url=url)

    def run(self, script: str) -> Any:
        said = self.ask("Runtime.evaluate", expression=script, awaitPromise=True, returnByValue=True)
        assert "exceptionDetails" not in said, said
        return said["result"].get("value")

    def complaints(self) -> list[str]:
        """Errors on the console, and what a policy refused."""
        return [json.dumps(each["params"]) for each in self.events
                if each.get("method") == "Runtime.exceptionThrown"
                or each.get("method") == "Log.entryAdded" and each["params"]["entry"]["level"] == "error"]

    def end(self) -> None:
        self.process.terminate()
        self.process.wait()
        shutil.rmtree(self.folder, ignore_errors=True)
