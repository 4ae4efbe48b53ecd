"""How sessions end where a client is slow, takes nothing, or sends more than is read."""

import contextlib
import socket
import time
import unittest

from late import HastyClient, LateTest
from programs import Ring, together

# What a page may have a browser send.
POST = b"POST /x HTTP/1.1\r\nContent-Length: 18\r\n\r\nstand red 8 5\nbye\n"


class SessionEndsTest(LateTest):
    def is_left_within_a_line(self, ring: Ring, node: int) -> None:
        """A client that is served, and then sends a byte every 0.4 seconds, is left before its line is whole."""
        with HastyClient(ring, node) as client:
            self.each(client, ("who red 1", "none"))
            for byte in b"late":
                client.send(bytes([byte]))
                time.sleep(0.4)
            client.send(b"st red\n")
            self.assertEqual("", client.rest())

    def test_a_slow_line(self) -> None:
        with self.serves("--serve", "20", "--idle", "1", nodes=2, has_status=True) as ring:
            together(*(lambda node=node: self.visit(lambda: self.is_left_within_a_line(ring, node)) for node in (1, 2)))
            self.finish_all(ring, 20)

    def test_what_a_browser_posts(self) -> None:
        with self.serves("--serve", "6", nodes=2) as ring:
            for length in (100, 1, 4, 40):
                with self.subTest(length), ring.client() as client:
                    for start in range(0, len(POST), length):
                        client.send(POST[start:start + length])
                        time.sleep(0.005)
                    self.assertEqual("", client.rest())
            with ring.client() as client:
                # These only begin as one that posts.
                self.each(client, ("POS", "no 25 line"), ("POST x", "no 25 line"), ("bye", "bye"))
            # Nobody stood.
            self.assertEqual("stood", ring.asks(1, "stand red 8 6"))
            self.finish(ring, 2, 6)

    def are_whole(self, ring: Ring, node: int) -> None:
        """All answers come where 31,000 bytes stand behind `bye`: no connection is reset while they are on their way."""
        lines = b"latest red\nlatest blue\nbye\n" + 1_000 * b"latest red and nobody reads it\n"
        for _ in range(100):
            with ring.client(node) as client:
                client.stream.sendall(lines)
                with client.stream.makefile("rb") as answers:
                    self.assertEqual(b"none\nnone\nbye\n", answers.read())

    def test_answers_before_a_close(self) -> None:
        with self.serves("--serve", "100", nodes=2) as ring:
            self.are_whole(ring, 1)
            self.are_whole(ring, 2)

    def is_passed_over(self, ring: Ring, node: int) -> None:
        """The only door of a node is free again behind a client that asks 11,000 times and takes no answer, and stays."""
        with ring.client(node) as client:
            client.stream.setsockopt(socket.SOL_SOCKET, socket.SO_RCVBUF, 2_048)
            client.stream.settimeout(5)
            with contextlib.suppress(OSError):
                client.stream.sendall(11_000 * b"latest red\n")
            self.assertEqual("none", ring.asks(node, "who red 1"))

    def test_a_client_that_takes_no_answer(self) -> None:
        with self.serves("--serve", "2", "--idle", "1", nodes=2) as ring:
            together(lambda: self.is_passed_over(ring, 1), lambda: self.is_passed_over(ring, 2))


if __name__ == "__main__":
    unittest.main()
