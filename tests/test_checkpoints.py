"""Nodes that take more inputs than they have room for, as checkpoints make room again."""

import pathlib
import re
import unittest

from programs import Ring, RingTest, at_last

CAPACITY = 4_096
# How many terms of the group are elected. Each takes 72 bytes of node 1, a Stand and two messages, and 54 of node 2: so with
# 4,096 bytes they have room for 56 and 75 at most without a checkpoint, and node 1 for some 69 with one. With all that are due
# it has room for 85 at least.
TERMS = 77
# Where the layout of the second area of a journal stands, and what it is where that was written.
SECOND_LAYOUT, LAYOUT = 32 + CAPACITY, 3


def number(told: str, family: str, node: int) -> int:
    """What `/metrics` tells of a node by this family."""
    found = re.search(rf'^cinoweta_{family}{{node="{node}"}} (\d+)$', told, re.M)
    if found is None:
        raise AssertionError(f"{family} of node {node} is not told")
    return int(found[1])


class CheckpointsTest(RingTest):
    def leads_all_terms(self, ring: Ring, answer: str) -> None:
        """A Stand at node 1 in each term is answered so, and the node leads the term in the end."""
        with ring.client() as client:
            for term in range(1, TERMS + 1):
                self.assertEqual(answer, client.ask(f"stand a {term} 10"), term)
                self.assertTrue(client.at_last(f"who a {term}", "leader 1 10"), term)
            self.each(client, ("bye", "bye"))

    def is_told(self, ring: Ring) -> None:
        """Node 2 tells the leader of the last term in the end."""
        with ring.client(2) as client:
            self.assertTrue(client.at_last("latest a", f"term {TERMS} leader 1 10"))
            self.each(client, ("bye", "bye"))

    def test_more_inputs_than_a_node_has_room_for(self) -> None:
        with self.serves("--serve", "1", nodes=2, capacity=CAPACITY) as ring:
            self.leads_all_terms(ring, "stood")
            self.is_told(ring)
            self.assertEqual((0, ""), (ring.end(), ring.told()))
            for node in (1, 2):
                journal = pathlib.Path(ring.dir, f"node-{node}.crj").read_bytes()
                self.assertEqual(LAYOUT, journal[SECOND_LAYOUT])
            ring.start()
            self.leads_all_terms(ring, "no 3 already 10")
            self.is_told(ring)

    def fit(self, ring: Ring, node: int) -> bool:
        """Whether the numbers of a node fit, behind a checkpoint or more: each batch takes two syncs, each checkpoint three, and as many
        commits took some time as there were."""
        told = ring.get("/metrics")[1]
        batches, checkpoints, syncs, timed = (number(told, family, node) for family in
                                              ("batches_total", "checkpoints_total", "syncs_total", "commit_seconds_count"))
        return checkpoints > 0 and syncs == 2 * batches + 3 * checkpoints and timed == batches + checkpoints

    def test_syncs_behind_a_checkpoint(self) -> None:
        with self.serves("--serve", "1", nodes=2, capacity=CAPACITY, has_status=True) as ring:
            self.leads_all_terms(ring, "stood")
            for node in (1, 2):
                self.assertTrue(at_last(lambda node=node: self.fit(ring, node)), node)
            self.finish(ring, 2)


if __name__ == "__main__":
    unittest.main()
