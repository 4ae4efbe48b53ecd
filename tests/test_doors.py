"""Sessions side by side, the doors at which a node serves them, and clients that are silent."""

import time
import unittest

from late import HastyClient, Late, LateTest
from programs import Client, Ring, at_last, together


class DoorsTest(LateTest):
    def test_three_clients_of_one_node(self) -> None:
        with self.serves("--serve", "3", "--doors", "3", nodes=2) as ring:
            with ring.client() as one, ring.client() as two, ring.client() as three:
                self.each(three, ("stand red 5 10", "stood"))
                self.each(two, ("stand red 5 10", "no 3 already 10"))
                self.each(one, ("stand blue 5 10", "stood"))
                for client in (two, one, three):
                    self.each(client, ("bye", "bye"))
            self.finish(ring, 2, 3)

    def test_short_sessions_beside_each_other(self) -> None:
        def stands(node: int) -> None:
            for term in range(1, 41):
                self.assertEqual("stood", ring.asks(node, f"stand g{node} {term} 10"))
            with ring.client(node) as client:
                self.assertTrue(client.at_last(f"latest g{node}", f"term 40 leader {node} 10"))

        with self.serves("--serve", "41", "--doors", "2", nodes=2) as ring:
            together(lambda: stands(1), lambda: stands(2))

    def test_silent_clients(self) -> None:
        with self.serves("--serve", "20", "--idle", "1", nodes=2, has_status=True) as ring:
            together(*(lambda node=node: self.visit(lambda: self.is_left_silent(ring, node)) for node in (1, 2)))
            self.finish_all(ring, 20)

    def is_left_behind_ten(self, ring: Ring) -> None:
        with HastyClient(ring) as client:
            self.each(client, *10 * [("latest red", "none")], ("latest red", ""))

    def is_left_silent(self, ring: Ring, node: int = 1) -> None:
        with HastyClient(ring, node) as client:
            self.each(client, ("latest red", "none"))
            self.assertEqual("", client.rest())

    def is_served_shortly(self, ring: Ring) -> None:
        with HastyClient(ring) as client:
            self.each(client, ("latest red", "none"), ("bye", "bye"))

    def goes_on(self, ring: Ring) -> None:
        """The session that has the last free door goes on once another one has ended, however silent it is, and however often it asks."""
        self.assertTrue(at_last(lambda: ring.state(1)["sessions"]["busy"] == 1))
        with ring.client() as other:
            self.each(other, ("latest red", "none"))
            with HastyClient(ring) as last:
                self.each(last, ("latest red", "none"))
                # The door that is kept is none of them.
                told = ring.state(1)["sessions"]
                self.assertEqual((2, 2), (told["busy"], told["doors"]))
                self.each(other, ("bye", "bye"))
                other.stream.close()
                self.visit(lambda: self.is_served_shortly(ring))
                if last.was_silent():
                    raise Late
                last.is_kept = True
                # Longer than it may have been silent before, and than a read waits that began then.
                time.sleep(3.5)
                self.each(last, *12 * [("latest red", "none")], ("bye", "bye"))

    def test_a_door_for_short_questions(self) -> None:
        with self.serves("--serve", "60", "--doors", "2", nodes=2, has_status=True) as ring:
            with ring.client() as one:
                with ring.client() as two:
                    self.each(one, ("latest red", "none"))
                    self.each(two, ("latest red", "none"))
                    self.visit(lambda: self.is_left_behind_ten(ring))
                    self.visit(lambda: self.is_left_silent(ring))
                    told = (503, "node 1 has no door free\nhelp: give more doors, or less idle time\n")
                    self.assertTrue(at_last(lambda: ring.get("/health") == told, pause=0.05))
                    self.assertEqual([1], ring.states()["doorless"])
                    self.visit(lambda: self.is_served_shortly(ring))
                    self.each(two, ("latest red", "none"), ("bye", "bye"))
                self.visit(lambda: self.goes_on(ring))
                self.each(one, ("latest red", "none"), ("bye", "bye"))
            self.finish_all(ring, 60)

    def is_left_dripping(self, ring: Ring) -> None:
        with ring.client() as client:
            self.each(client, ("bye", "bye"))
            begun = time.monotonic()
            with self.assertRaises(ConnectionError):
                for _ in range(30_000):
                    client.stream.sendall(b"a")
                    time.sleep(0.0001)
            if time.monotonic() - begun > 2.0:
                raise Late

    def test_clients_that_drip_behind_their_session(self) -> None:
        """What a client still sends is read for a second and up to 65,536 bytes, and not as long as it comes."""
        with self.serves("--serve", "20", nodes=2, has_status=True) as ring:
            self.visit(lambda: self.is_left_dripping(ring))
            self.finish_all(ring, 20)

    def is_left_refused(self, ring: Ring, node: int) -> None:
        """A client that sends an empty line every 0.4 seconds, which is refused, is left as one that is silent."""
        with HastyClient(ring, node) as client:
            self.each(client, ("", "no 25 line"))
            self.assertTrue(at_last(lambda: Client.ask(client, "") != "no 25 line", seconds=10, pause=0.4))

    def is_kept_asking(self, ring: Ring, node: int) -> None:
        """One that asks something as often is not left."""
        with HastyClient(ring, node) as client:
            for _ in range(5):
                self.each(client, ("latest red", "none"))
                time.sleep(0.4)
            self.each(client, ("bye", "bye"))

    def test_a_client_that_is_refused_alone(self) -> None:
        def asks(node: int) -> None:
            self.visit(lambda: self.is_left_refused(ring, node))
            self.visit(lambda: self.is_kept_asking(ring, node))

        with self.serves("--serve", "30", "--idle", "1", nodes=2, has_status=True) as ring:
            together(lambda: asks(1), lambda: asks(2))
            self.finish_all(ring, 30)


if __name__ == "__main__":
    unittest.main()
