"""The page in Firefox, without a web driver: a copy of the page runs examples, presses buttons,
moves an object and stops a search by a script of its own, and sends what came of it to this
test."""

from __future__ import annotations

import http.server
import json
import shutil
import subprocess
import tempfile
import threading
from pathlib import Path
from typing import Any

from browser import made_page, needed
from geost.program import Program
from harness import TOP, Case, Cases, Failed, Setting, want

EXAMPLES = TOP / "examples"
SMALL = ("rack_of_four", "schedule", "kitchen", "too_narrow", "corners_in_a_container", "six_drums")
HARD = "large/container_from_the_smallest"
SECONDS = 150
MOST_STOPPING = 10_000  # milliseconds, on a busy machine


class Waiting(http.server.HTTPServer):
    """Takes one message of the page."""

    def __init__(self) -> None:
        super().__init__(("127.0.0.1", 0), Listener)
        self.message: dict[str, Any] = {}
        self.came = threading.Event()
        threading.Thread(target=self.serve_forever, daemon=True).start()

    def address(self) -> str:
        return f"http://127.0.0.1:{self.server_port}/"


class Listener(http.server.BaseHTTPRequestHandler):
    def do_POST(self) -> None:
        assert isinstance(self.server, Waiting)
        length = int(self.headers["content-length"])
        self.server.message = json.loads(self.rfile.read(length))
        self.send_response(204)
        self.end_headers()
        self.server.came.set()

    def log_message(self, *given: object) -> None:
        """Keeps standard error free."""


def example_runs() -> list[tuple[list[str], str]]:
    texts = [(EXAMPLES / f"{name}.geost").read_text(encoding="utf-8") for name in SMALL]
    whole = [(["first", "2000"], text) for text in texts] + [(["show"], text) for text in texts]
    return [*whole, *((["show"], text[: len(text) // 2]) for text in texts), (["first"], texts[0])]


def page_with_script(page: str, address: str) -> str:
    given = {
        "address": address,
        "runs": example_runs(),
        "kitchen": (EXAMPLES / "kitchen.geost").read_text(encoding="utf-8"),
        "hard": (EXAMPLES / f"{HARD}.geost").read_text(encoding="utf-8"),
    }
    spelled = json.dumps(given).replace("</", "<\\/")
    driver = (TOP / "tools" / "tests" / "try_page.js").read_text(encoding="utf-8")
    front, end, rest = page.rpartition("</body>")
    return f"{front}<script>const GIVEN = {spelled};\n{driver}</script>{end}{rest}"


def answer_of_firefox(page: Path) -> dict[str, Any]:
    """What the page's script sends."""
    waiting = Waiting()
    with tempfile.TemporaryDirectory() as folder:
        copy, profile = Path(folder) / "page.html", Path(folder) / "profile"
        text = page_with_script(page.read_text(encoding="utf-8"), waiting.address())
        copy.write_text(text, encoding="utf-8")
        profile.mkdir()
        words = ["firefox-esr", "--headless", "--no-remote", "--profile", str(profile)]
        browser = subprocess.Popen(
            [*words, copy.as_uri()], stdout=subprocess.DEVNULL, stderr=subprocess.DEVNULL
        )
        try:
            came = waiting.came.wait(SECONDS)
        finally:
            browser.terminate()
            browser.wait(30)
            waiting.shutdown()
    if not came:
        raise Failed(f"Firefox sent nothing in {SECONDS} s")
    return waiting.message


def compare_runs(program: Program, found: list[list[Any]]) -> None:
    for (words, text), (status, printed) in zip(example_runs(), found, strict=True):
        answer = program.ask(words, text.encode())
        want((status, printed), (answer.status, answer.text), " ".join(words))


def check(setting: Setting) -> None:
    needed("firefox-esr", shutil.which("firefox-esr") is not None)
    page = made_page()
    assert isinstance(page, Path)
    answer = answer_of_firefox(page)
    want(answer.get("fault"), None, "the fault that the page met")
    compare_runs(setting.program, answer["runs"])
    want("the first layout" in answer["first"], True, f"a first layout: {answer['first']}")
    want("broken" in answer["moved"], True, f"a broken rule: {answer['moved']}")
    want("stopped" in answer["stopped"], True, f"a stop: {answer['stopped']}")
    if answer["stopping"] > MOST_STOPPING:
        raise Failed(f"it took {answer['stopping']:.0f} ms to stop")
    want(answer["painted"] > 0, True, "the picture has colours")


def cases(setting: Setting, folder: Path) -> Cases:
    yield Case("page in Firefox", lambda: check(setting))
