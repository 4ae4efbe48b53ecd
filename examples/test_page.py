#!/usr/bin/env python3
"""What a browser makes of the pages that ringd tells people: RINGD names ringd, else it is bin/ringd. `make clients` runs
them; where there is no chromium they are skipped. SCREENSHOT names a file for a picture of the page of the ring."""
import contextlib
import os
import pathlib
import re
import shutil
import socket
import subprocess
import sys
import tempfile
import threading
import time
import unittest
import urllib.request
from html.parser import HTMLParser
from http.server import BaseHTTPRequestHandler, ThreadingHTTPServer

HERE = pathlib.Path(__file__).resolve().parent
sys.path.insert(0, str(HERE.parent / "clients" / "python"))
from tests.served import Served, require

setUpModule = require
CHROMIUM = shutil.which("chromium") or shutil.which("chromium-browser") or shutil.which("google-chrome")
# What a client tells, and what must be shown as it is told.
TOLD = """<b onclick="a()">host-7</b> & 'more'"""


class Between(ThreadingHTTPServer):
    """Hands on what the status port answers, and keeps when it was asked for what."""

    def __init__(self, status: int) -> None:
        super().__init__(("127.0.0.1", 0), Handler)
        self.status = status
        self.asked: list[tuple[float, str]] = []
        threading.Thread(target=self.serve_forever, daemon=True).start()

    def end(self) -> None:
        self.shutdown()
        self.server_close()


class Handler(BaseHTTPRequestHandler):
    def do_GET(self) -> None:
        self.server.asked.append((time.monotonic(), self.path))
        with urllib.request.urlopen(f"http://127.0.0.1:{self.server.status}{self.path}", timeout=30) as answer:
            body = answer.read()
        # The browser may be gone by then.
        with contextlib.suppress(ConnectionError):
            self.send_response(answer.status)
            self.send_header("Content-Type", answer.headers["Content-Type"])
            self.send_header("Content-Length", str(len(body)))
            self.end_headers()
            self.wfile.write(body)

    def log_message(self, *told: object) -> None:
        """Nothing."""


class Page(HTMLParser):
    """The tags of a page, and its texts."""

    def __init__(self, text: str) -> None:
        super().__init__()
        self.tags: list[str] = []
        self.links: list[str] = []
        self.texts: list[str] = []
        self.feed(text)
        self.close()

    def handle_starttag(self, tag: str, attrs: list[tuple[str, str | None]]) -> None:
        self.tags.append(tag)
        self.links += [value or "" for name, value in attrs if name in ("href", "src", "xlink:href")]

    def handle_data(self, data: str) -> None:
        self.texts.append(data)


@unittest.skipUnless(CHROMIUM, "for want of chromium")
class PageTest(unittest.TestCase):
    def setUp(self) -> None:
        self.ring = Served()
        self.addCleanup(self.ring.end)
        self.session = socket.create_connection(("127.0.0.1", self.ring.first), 30)
        self.addCleanup(self.session.close)
        self.lines = self.session.makefile("r", encoding="utf-8", newline="\n")
        self.addCleanup(self.lines.close)
        self.assertEqual(self.say("stand red 5 10"), "stood")
        while self.say("latest red") == "none":
            time.sleep(0.01)
        self.assertEqual(self.say(f"tell red {TOLD}"), "told")

    def say(self, line: str) -> str:
        self.session.sendall(f"{line}\n".encode())
        return self.lines.readline().rstrip("\n")

    def words(self, folder: str, port: int, path: str, *words: str) -> list[str]:
        """What starts the browser. It knows no host but this one."""
        return [CHROMIUM, "--headless", "--no-sandbox", "--disable-gpu", "--disable-dev-shm-usage", f"--user-data-dir={folder}",
                "--host-resolver-rules=MAP * ~NOTFOUND, EXCLUDE 127.0.0.1", "--window-size=980,1010", *words,
                f"http://127.0.0.1:{port}{path}"]

    def browse(self, path: str, *words: str) -> str:
        """What the browser prints."""
        with tempfile.TemporaryDirectory(prefix="cinoweta-") as folder:
            told = subprocess.run(self.words(folder, self.ring.status, path, *words), text=True, capture_output=True, timeout=120)
        self.assertEqual(told.returncode, 0, told.stderr)
        return told.stdout

    def test_the_ring(self) -> None:
        page = Page(self.browse("/", "--dump-dom"))
        # Three nodes, each in two circles beside that of the ring, and a row for each, for the head and for the group.
        self.assertEqual((page.tags.count("svg"), page.tags.count("circle"), page.tags.count("meter")), (1, 7, 3))
        self.assertEqual((page.tags.count("table"), page.tags.count("tr")), (2, 6))
        self.assertNotIn("script", page.tags)
        self.assertEqual(page.links, ["data:,", "/groups/red"])
        self.assertIn("It can elect.", "".join(page.texts))
        for form in (r"\d+ waiting", r"\d of 4 doors busy", r"checkpoint \d+ s ago", r"\d+ s ago"):
            self.assertEqual(len([text for text in page.texts if re.fullmatch(form, text)]), 3, form)
        self.assertEqual(sorted(text for text in page.texts if text.startswith("leads:")), ["leads:", "leads:", "leads: red"])
        if kept := os.environ.get("SCREENSHOT"):
            self.browse("/", f"--screenshot={kept}")
            self.assertTrue(pathlib.Path(kept).read_bytes().startswith(b"\x89PNG"))

    def test_it_is_asked_for_again(self) -> None:
        between = Between(self.ring.status)
        self.addCleanup(between.end)
        with tempfile.TemporaryDirectory(prefix="cinoweta-", ignore_cleanup_errors=True) as folder:
            browser = subprocess.Popen(self.words(folder, between.server_port, "/"), stdout=subprocess.DEVNULL,
                                       stderr=subprocess.DEVNULL)
            try:
                until = time.monotonic() + 120
                while len(between.asked) < 3 and time.monotonic() < until:
                    time.sleep(0.1)
            finally:
                browser.terminate()
                browser.wait(timeout=30)
        # By itself, each five seconds, and for nothing else.
        self.assertEqual([path for _, path in between.asked[:3]], ["/"] * 3)
        self.assertGreater(between.asked[2][0] - between.asked[0][0], 9.0)

    def test_a_group(self) -> None:
        page = Page(self.browse("/groups/red", "--dump-dom"))
        # The text is shown as it was told, and makes no tag.
        self.assertIn(TOLD, page.texts)
        self.assertNotIn("b", page.tags)
        self.assertEqual(page.links, ["data:,", "/"])


if __name__ == "__main__":
    unittest.main()
