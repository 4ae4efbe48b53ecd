"""`cinoweta status` beside a server that answers as `ringd --status` does."""
import contextlib
import http.server
import io
import json
import os
import socket
import threading
import time
import unittest
from unittest import mock

from cinoweta import NoAnswer, WrongRing, status
from cinoweta.command import main

from .clock import took, tried
from .lines import Talker

NODES = [{"journal": {"batches": 3, "inputs": 20 + node}, "node": node, "port": 7100 + node,
          "sessions": {"begun": 5, "refusals": refusals}, "stands": {"left": 1000, "taken": 10 + node}, "state": state}
         for node, state, refusals in ((1, "well", []), (2, "failed", [{"count": 4, "number": 15},
                                                                       {"count": 2, "number": 3}]))]
TOLD = {"version": "0.1.0", "nodes": NODES, "dir": "ring-state", "started": 1700000000}


class Answers(http.server.BaseHTTPRequestHandler):
    def do_GET(self) -> None:
        code, text = self.server.answers.get(self.path, (404, ""))
        # A client may leave before it is answered.
        with contextlib.suppress(ConnectionError):
            self.send_response(code)
            self.end_headers()
            self.wfile.write(text.encode())

    def log_message(self, *_words: object) -> None:
        """Nothing is told."""


class BesideStatus(unittest.TestCase):
    def serve(self, answers: dict[str, tuple[int, str]], host: str = "127.0.0.1") -> int:
        family = socket.AF_INET6 if ":" in host else socket.AF_INET
        kind = type("Server", (http.server.ThreadingHTTPServer,), {"address_family": family})
        server = kind((host, 0), Answers)
        server.answers = answers
        threading.Thread(target=server.serve_forever, args=(0.01,), daemon=True).start()
        self.addCleanup(server.server_close)
        self.addCleanup(server.shutdown)
        return server.server_address[1]


class StatusTest(BesideStatus):
    def test_health(self) -> None:
        self.assertEqual(status.health(self.serve({"/health": (200, "well\n")})), [])
        for text in ("node 2 failed\nnode 3 full\nhelp: see the disk, and start ringd again\n", "node 2 failed\nnode 3 full"):
            self.assertEqual(status.health(self.serve({"/health": (503, text)})), ["node 2 failed", "node 3 full"])
        with self.assertRaises(WrongRing):
            status.health(self.serve({}))

    @tried
    def test_an_answer_that_does_not_end_is_waited_for_so_long(self) -> None:
        for part, pause in ((b"HTTP/1.1 200 OK\r\n", 0.05), (b"HTTP/1.1 200 OK\r\n\r\nwell", 0.05), (b"x", 0.05)):
            talker = Talker(part, pause)
            self.addCleanup(talker.end)
            before = time.monotonic()
            with self.assertRaises(NoAnswer):
                status.health(talker.port, 1.0)
            took(before, 3.0, 0.9)
        # One that tells how long it is need not end.
        talker = Talker(b"HTTP/1.1 200 OK\r\ncontent-length: 5\r\n\r\nwell\n", 5.0)
        self.addCleanup(talker.end)
        before = time.monotonic()
        self.assertEqual(status.health(talker.port, 4.0), [])
        took(before, 3.0)

    def test_status(self) -> None:
        self.assertEqual(status.status(self.serve({"/status": (200, json.dumps(TOLD))})), TOLD)
        for code, text in ((200, "[]"), (200, "well"), (404, "{}"), (200, '{"nodes": 3}'), (200, '{"nodes": [1]}')):
            with self.assertRaises(WrongRing):
                status.status(self.serve({"/status": (code, text)}))
        with self.assertRaises(NoAnswer):
            status.status(1)

    def test_a_leader_that_comes(self) -> None:
        leader = {"bid": 5, "group": "red", "node": 2, "term": 7}
        port = self.serve({"/leaders/red?above=6&wait=2": (200, json.dumps({"by": 1, "leader": leader, "present": True})),
                           "/leaders/red?above=7&wait=0": (204, "")})
        self.assertEqual(status.coming(port, "red", 6, 2), (7, 2, 5))
        self.assertIsNone(status.coming(port, "red", 7, 0))
        with self.assertRaises(NoAnswer):
            status.coming(self.serve({"/leaders/red?above=6&wait=1": (503, "503 Service Unavailable\n")}), "red", 6, 1)
        for code, text in ((404, ""), (200, "{}"), (200, '{"leader": {"term": "7"}}'), (200, "[]")):
            with self.assertRaises(WrongRing):
                status.coming(self.serve({"/leaders/red?above=6&wait=1": (code, text)}), "red", 6, 1)

    def pages(self) -> int:
        """The port of a server that tells three groups, in pages of two."""
        def page(more: bool, *groups: str) -> tuple[int, str]:
            rows = [{"bid": 7, "group": group, "node": 3, "term": 5} for group in groups]
            return 200, json.dumps({"by": 2, "leaders": rows, "more": more})

        return self.serve({"/leaders?node=2": page(True, "a", "b"), "/leaders?node=2&after=b": page(True, "c-d"),
                           "/leaders?node=2&after=c-d": page(False), "/leaders?node=1&after=b": page(False, "c-d")})

    def test_leaders(self) -> None:
        port, row = self.pages(), (5, 3, 7)
        self.assertEqual([*status.leaders(port, 2)], [("a", *row), ("b", *row), ("c-d", *row)])
        self.assertEqual([*status.leaders(port, 1, after="b")], [("c-d", *row)])
        for text in ("{}", '{"leaders": [1]}', '{"leaders": [{"group": "a", "term": 1, "node": 1}]}',
                     '{"leaders": [{"group": 1, "term": 1, "node": 1, "bid": 1}]}'):
            with self.assertRaises(WrongRing):
                [*status.leaders(self.serve({"/leaders?node=1": (200, text)}), 1)]

    def run_command(self, *words: str) -> tuple[int, str]:
        """The status of the command, and what it printed."""
        out = io.StringIO()
        with contextlib.redirect_stdout(out), contextlib.redirect_stderr(out):
            code = main([*words])
        return code, out.getvalue()

    def test_the_command_lists_leaders(self) -> None:
        port = str(self.pages())
        text = "a term 5 leader 3 7\nb term 5 leader 3 7\nc-d term 5 leader 3 7\n"
        self.assertEqual(self.run_command("leaders", "--port", port, "--node", "2"), (0, text))
        told = '{"group": "c-d", "term": 5, "leader": {"node": 3, "bid": 7}}\n'
        self.assertEqual(self.run_command("leaders", "--port", f"127.0.0.1:{port}", "--after", "b", "--json"), (0, told))
        self.assertEqual(self.run_command("leaders", "--port", port, "--node", "2", "--after", "c-d"), (1, ""))
        with mock.patch.dict("os.environ"):
            os.environ.pop("CINOWETA_STATUS", None)
            for command in ("leaders", "status"):
                self.assertEqual(self.run_command(command)[0], 2)

    def test_table(self) -> None:
        self.assertEqual(status.table(TOLD).split("\n"), [
            "version 0.1.0",
            "dir ring-state",
            "started 2023-11-14T22:13:20Z",
            "node                     1       2",
            "port                  7101    7102",
            "state                 well  failed",
            "journal.batches          3       3",
            "journal.inputs          21      22",
            "sessions.begun           5       5",
            "stands.left           1000    1000",
            "stands.taken            11      12",
            "sessions.refusals.3      0       2",
            "sessions.refusals.15     0       4",
        ])


if __name__ == "__main__":
    unittest.main()
