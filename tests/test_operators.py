"""Operators at the status port who say little, or nothing, and such as wait for a leader and leave."""

import contextlib
import re
import time
import unittest

from programs import Client, Ring, RingTest, at_last, together

WELL = (b"HTTP/1.1 200 OK\r\nContent-Type: text/plain; charset=utf-8\r\nContent-Length: 5\r\nCache-Control: no-store\r\n"
        b"Connection: close\r\n\r\nwell\n")
DATE = re.compile(rb"\r\nDate: \w{3}, \d\d \w{3} \d{4} \d\d:\d\d:\d\d GMT(?=\r\n)")
HALF_A_HEAD = b"GET /health HTTP/1.1\r\n"
# How many clients ask nothing, which is more than the port waits for.
SILENT = 100
# How many may wait for a leader.
PLACES = 64
WAITS = b"GET /leaders/red?above=0&wait=60 HTTP/1.1\r\n\r\n"
ONE_MORE = b"GET /leaders/red?above=0&wait=1 HTTP/1.1\r\n\r\n"


def head_of(length: int) -> bytes:
    """A head of so many bytes."""
    begin, end = b"GET /health HTTP/1.1\r\nA: ", b"\r\n\r\n"
    return begin + (length - len(begin) - len(end)) * b"a" + end


class OperatorsTest(RingTest):
    def is_well(self, ring: Ring, head: bytes) -> None:
        """It is answered that the ring is well, and when."""
        answer, dates = DATE.subn(b"", ring.answer_to(head))
        self.assertEqual((WELL, 1), (answer, dates))

    def measures_heads(self, ring: Ring) -> None:
        """A head of 8,192 bytes is answered, and a longer one is too large."""
        self.is_well(ring, head_of(8_192))
        told = ring.answer_to(head_of(8_197))
        self.assertTrue(told.startswith(b"HTTP/1.1 431 "), told)
        self.assertTrue(told.endswith(b"\r\n\r\n431 Request Header Fields Too Large\n"), told)

    def is_served_beside_silent(self, ring: Ring) -> None:
        """An operator is served within ten seconds beside more who are silent than are waited for, and these are left."""
        with contextlib.ExitStack() as clients:
            silent = [clients.enter_context(Client(ring.status, ring.is_over)) for _ in range(SILENT)]
            for client in silent[::2]:
                client.send(HALF_A_HEAD)
            begun = time.monotonic()
            self.is_well(ring, HALF_A_HEAD + b"\r\n")
            self.assertLess(time.monotonic() - begun, 10)
            for client in silent:
                self.assertEqual("", client.rest())

    def is_left_after(self, ring: Ring, sent: bytes, seconds: float) -> None:
        """An operator who sends these bytes, and then nothing, is left after so many seconds and within ten more."""
        begun = time.monotonic()
        with Client(ring.status, ring.is_over) as client:
            client.stream.sendall(sent)
            self.assertEqual("", client.rest())
        passed = time.monotonic() - begun
        self.assertTrue(seconds - 0.1 < passed < seconds + 10, passed)

    def test_clients_that_do_not_ask(self) -> None:
        with self.serves("--serve", "1", nodes=2, has_status=True) as ring:
            self.measures_heads(ring)
            self.is_served_beside_silent(ring)
            together(lambda: self.is_left_after(ring, b"", 1), lambda: self.is_left_after(ring, HALF_A_HEAD, 2))
            self.finish(ring, 1)
            self.finish(ring, 2)

    def is_refused(self, ring: Ring) -> bool:
        """Whether no place is free for one more who waits."""
        told = ring.answer_to(ONE_MORE)
        return told.startswith(b"HTTP/1.1 503 ") and told.endswith(b"\r\n\r\n503 Service Unavailable\n")

    def may_wait(self, ring: Ring) -> bool:
        """Whether one more waits, for nothing."""
        told = ring.answer_to(ONE_MORE)
        return told.startswith(b"HTTP/1.1 204 ") and told.endswith(b"\r\nConnection: close\r\n\r\n")

    def test_who_leaves_frees_a_place(self) -> None:
        with self.serves("--serve", "1", "--watchers", str(PLACES), nodes=2, has_status=True) as ring:
            with contextlib.ExitStack() as clients:
                def waits() -> None:
                    clients.enter_context(Client(ring.status, ring.is_over)).send(WAITS)

                for _ in range(PLACES):
                    waits()
                # Where one more found a place that one of them was still to take, a further one takes that.
                for _ in range(20):
                    time.sleep(0.1)
                    if self.is_refused(ring):
                        break
                    waits()
                else:
                    self.fail("one more than may wait is never refused")
            # Well before the time of those that waited would have been over.
            self.assertTrue(at_last(lambda: self.may_wait(ring), seconds=20, pause=0.1))
            self.finish(ring, 1)
            self.finish(ring, 2)


if __name__ == "__main__":
    unittest.main()
