"""A node that messages of Stands at the other nodes fill, and that retires."""

import unittest
from collections.abc import Iterable

from programs import Client, Ring, RingTest, at_last

CAPACITY = 4_096
# What is told of the node.
TOLD = "ringd: node 1 full\nringd: node 1 well again\n"
# How many terms are stood for at most. Node 1 takes no Stand behind some 190, and no message behind some 210.
TERMS = 400
# The same where node 1 only hears of them, and how far below the latest term is retired, which not each node knows yet.
OTHERS_TERMS, BEHIND = 2_000, 10


class FullTest(RingTest):
    def retire(self, term: int, *clients: Client) -> None:
        """Each node retires the terms below this one."""
        for client in clients:
            self.each(client, (f"retire a {term}", "retired"))

    def first_that_ends(self, ring: Ring, asked: Client, node: Client, terms: Iterable[int]) -> int:
        """The first of these terms that is refused at a node, or that is not elected, since node 1 left a message. Who asks is told of
        all others who leads them."""
        left = ring.state(1)["messages"]["refused"]
        for term in terms:
            def is_led(term: int = term) -> bool:
                return asked.ask(f"who a {term}") != "none"

            if node.ask(f"stand a {term} 10") != "stood":
                return term
            while not at_last(is_led, seconds=0.25, pause=0.001):
                if ring.is_over() or ring.state(1)["messages"]["refused"] > left:
                    return term
        self.fail("node 1 is never full")

    def bye(self, *clients: Client) -> None:
        for client in clients:
            self.each(client, ("bye", "bye"))

    def test_a_node_that_messages_fill(self) -> None:
        """Stands fill the node to its reserve, and messages of Stands at the others take that. Behind Retires the ring elects again."""
        with self.serves("--serve", "1", capacity=CAPACITY, has_status=True, err=TOLD) as ring:
            with ring.client(1) as one, ring.client(2) as two, ring.client(3) as three:
                own = self.first_that_ends(ring, one, one, range(1, TERMS))
                second = self.first_that_ends(ring, one, two, range(own, TERMS))
                third = self.first_that_ends(ring, one, three, range(second + 1, TERMS))
                self.retire(own - 1, one, two, three)
                self.each(one, (f"stand a {third + 1} 10", "stood"))
                # A message that a full node left is sent again seconds later.
                self.assertTrue(one.at_last(f"who a {third + 1}", "leader 1 10"))
                self.bye(one, two, three)

    def test_a_node_at_which_nobody_stands(self) -> None:
        """Messages alone fill the node while the others retire again and again. Once it retires too, the ring elects again."""
        with self.serves("--serve", "1", capacity=CAPACITY, has_status=True, err=TOLD) as ring:
            with ring.client(1) as one, ring.client(2) as two, ring.client(3) as three:
                def terms() -> Iterable[int]:
                    for term in range(1, OTHERS_TERMS):
                        if term % 50 == 0:
                            self.retire(term - BEHIND, two, three)
                        yield term

                term = self.first_that_ends(ring, two, two, terms())
                self.retire(term - BEHIND, one)
                self.assertTrue(two.at_last(f"who a {term}", "leader 2 10"))
                self.bye(one, two, three)


if __name__ == "__main__":
    unittest.main()
