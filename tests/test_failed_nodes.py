"""A node whose disk failed: what its clients, those of the other nodes, operators and standard error are told."""
import concurrent.futures
import errno
import time
import unittest

from programs import Client, RefusedTest, Ring, at_last
from refuser import DEVICE, Refusal, Refuser

NODE, NAME = 2, "node-2.crj"
CALLS, SIDE_BY_SIDE, TERMS = 39, 3, 99
# What the lines on standard error call them.
SPELLED = {"pread": "read", "pwrite": "write", "fdatasync": "sync"}


def refusal(at: int) -> Refusal:
    """Of the device of node 2, call number `at` from now on, and each one behind it."""
    return Refusal(DEVICE, at, errno.EIO, True, ending=NAME)


class FailedNodesTest(RefusedTest):
    def stands(self, client: Client) -> str:
        """Has node 2, whose client this is, elected for one term after the other until it has failed. What the client is told then."""
        for term in range(1, TERMS + 1):
            answer = "stood"
            for _ in range(30_000):
                told = client.ask(f"stand red {term} 10")
                if told != answer:
                    return told
                answer = "no 3 already 10"
                if client.ask(f"who red {term}") == "leader 2 10":
                    break
                time.sleep(0.001)
            else:
                self.fail(f"no leader of term {term}")
        return ""

    def stands_until_it_fails(self, ring: Ring) -> None:
        """A client of node 2 is told so, and asks on."""
        with ring.client(NODE) as client:
            self.assertEqual("no 9 failed", self.stands(client))
            self.each(client, ("stand blue 1 1", "no 9 failed"), ("latest green", "none"), ("bye", "bye"))

    def told(self, ring: Ring, refuser: Refuser) -> str:
        """What standard error tells of the call that was refused."""
        refused = [words for words in map(str.split, refuser.calls()) if words[-1] == "refused"]
        self.assertTrue(refused)
        call, path, _ = refused[0]
        self.assertEqual(f"{ring.dir}/{NAME}", path)
        return f"ringd: node 2 failed\nringd: {path}: {SPELLED[call]}: Input/output error (os error 5)\n"

    def fails(self, at: int) -> None:
        """With call number `at` of its device node 2 fails. It is told so once, and a client of each other node is served."""
        refuser = self.refuser()
        with self.serves("--serve", "1", status=1, err=None, capacity=4_096, environment=refuser.environment(is_listed=True)) as ring:
            refuser.order(refusal(at))
            self.stands_until_it_fails(ring)
            made, refused = refuser.counts()
            self.assertTrue(refused and made >= at, f"call {at} of {made}, of which {refused} were refused")
            told = self.told(ring, refuser)
            self.assertTrue(ring.says(told), ring.told())
            self.assertEqual("stood", ring.asks(1, "stand blue 7 7"))
            self.assertEqual("none", ring.asks(3, "latest green"))
            ring.end()
            self.assertEqual(told, ring.told(), f"call {at}")
            self.assertIn("serving\nnode 1 ", ring.told("out"))

    def test_a_call_of_one_node_fails_and_the_others_serve(self) -> None:
        with concurrent.futures.ThreadPoolExecutor(SIDE_BY_SIDE) as pool:
            for _ in pool.map(self.fails, range(1, CALLS + 1)):
                pass

    def test_with_fail_stop_the_first_failure_is_the_end(self) -> None:
        refuser = self.refuser()
        with self.serves("--always", "--fail-stop", status=1, err=None, capacity=4_096, environment=refuser.environment(is_listed=True)) as ring:
            refuser.order(refusal(CALLS))
            with ring.client(NODE) as client:
                # The end of the program may come before the answer.
                self.assertIn(self.stands(client), ("no 9 failed", ""))
                ring.end()
            self.assertEqual(self.told(ring, refuser), ring.told())

    def tells_of(self, ring: Ring, nodes: str) -> None:
        """An operator is told in the end that these nodes are not well."""
        text = f"{nodes}help: see the disk, and start ringd again\n"
        self.assertTrue(at_last(lambda: ring.get("/health") == (503, text), pause=0.02), ring.get("/health"))

    def test_nodes_that_are_not_well(self) -> None:
        refuser = self.refuser()
        with self.serves("--serve", "1", "--doors", "2", status=1, err=None, capacity=4_096, has_status=True,
                         environment=refuser.environment(is_listed=True)) as ring:
            refuser.order(refusal(CALLS))
            self.stands_until_it_fails(ring)
            failed = time.monotonic()
            self.tells_of(ring, "node 2 failed\n")
            self.assertEqual((503, "node 2 failed\n"), ring.get("/ready"))
            self.assertEqual((200, "live\n"), ring.get("/live"))
            status, page = ring.get("/")
            self.assertEqual((200, 1), (status, page.count("It cannot elect.")))
            status, metrics = ring.get("/metrics")
            self.assertEqual(200, status)
            self.assertIn('\ncinoweta_node_failed{node="1"} 0\ncinoweta_node_failed{node="2"} 1\ncinoweta_node_failed{node="3"} 0\n', metrics)
            # A second later its device is busy with nothing.
            time.sleep(max(0.0, failed + 1.1 - time.monotonic()))
            self.assertIn('\ncinoweta_writing_seconds{node="2"} 0\n', ring.get("/metrics")[1])
            self.fills(ring)
            # Its snapshot takes more than a quarter of the capacity, so no checkpoint comes.
            self.assertIn(',"renewable":false,"snapshot":', ring.get("/status")[1])
            self.assertIn('\ncinoweta_journal_renewable{node="1"} 0\n', ring.get("/metrics")[1])
            self.assertTrue(ring.says("ringd: node 1 full\n"))
            self.assertEqual("none", ring.asks(3, "latest green"))
            ring.end()
            self.assertEqual(self.told(ring, refuser) + "ringd: node 1 full\n", ring.told())

    def fills(self, ring: Ring) -> None:
        """Stands at node 1 for 250 terms, without a look at the answers, until it is told to be full."""
        with ring.client(1) as client:
            client.send(b"".join(b"stand red %d 10\n" % term for term in range(1, 251)))
            self.tells_of(ring, "node 1 full\nnode 2 failed\n")


if __name__ == "__main__":
    unittest.main()
