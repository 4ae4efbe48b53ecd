"""The groups of a ring go on in a new one, beside servers of lines and of the status port that answer as they are told."""
import collections
import contextlib
import io
import json
import pathlib
import tempfile
from unittest import mock

from cinoweta import NoLeader, Ring, WrongRing
from cinoweta.move import LAST, move

from .lines import Node, Votes
from .test_host import OTHER, told
from .test_ring import Beside
from .test_status import BesideStatus


def page(*rows: tuple[str, int]) -> tuple[int, str]:
    """What the status port tells of a node that knows these groups and terms."""
    leaders = [{"group": group, "term": term, "node": 1, "bid": 7} for group, term in rows]
    return 200, json.dumps({"leaders": leaders, "more": False})


class MoveTest(Beside, BesideStatus):
    def setUp(self) -> None:
        patch = mock.patch("cinoweta.election.secrets.randbelow", return_value=0)
        patch.start()
        self.addCleanup(patch.stop)

    def old(self, *nodes: tuple[int, str]) -> int:
        """The status port of an old ring, of whose nodes these pages are told."""
        ports = {"nodes": [{"port": port} for port in range(1, len(nodes) + 1)]}
        pages = {f"/leaders?node={node}": told for node, told in enumerate(nodes, 1)}
        return self.serve({"/status": (200, json.dumps(ports)), **pages}, OTHER)

    def new(self) -> tuple[Ring, list[Node], Votes]:
        """A ring whose nodes know the same."""
        votes = Votes()
        ring, nodes = self.ring(votes, votes)
        return ring, nodes, votes

    def by_group(self) -> tuple[Ring, list[Node], dict[str, Votes]]:
        """A ring whose nodes know the same, of each group another thing."""
        votes: dict[str, Votes] = collections.defaultdict(Votes)
        ring, nodes = self.ring(*[lambda line: votes[line.split()[1]](line)] * 2)
        return ring, nodes, votes

    def move(self, ring: Ring, port: int, *words: str) -> tuple[int, list[str], str]:
        """The command's status, and what it printed on either stream."""
        code, out, err = told("--ring", f"{ring.first}-{ring.ports[-1]}", "move", "--from", f"{OTHER}:{port}", *words)
        return code, out.splitlines(), err

    def test_no_term_that_any_old_node_knows_is_led_again(self) -> None:
        # Whichever of them has not heard the last term, or knows nothing of the group.
        for pages in ([page(("red", 5)), page(("red", 6))], [page(("red", 6)), page(("red", 5))],
                      [page(), page(("red", 6))], [page(("red", 6)), page()]):
            ring, _, votes = self.new()
            code, lines, _ = self.move(ring, self.old(*pages))
            self.assertEqual((code, lines[-1], [*votes.stood]), (0, "moved 1", [7]), pages)

    def test_a_group_is_moved_once_each_new_node_has_heard(self) -> None:
        # Until then one may take a Stand for a term that the old ring led in.
        for late in (0, 1):
            ring, nodes, votes = self.new()
            unheard = 4

            def hears_late(line: str) -> str:
                nonlocal unheard
                if not line.startswith("latest") or not votes.leaders:
                    return votes(line)
                unheard -= unheard > 0
                return "none" if unheard else votes(line)

            nodes[late].answer = hears_late
            with mock.patch("cinoweta.pause.LONGEST", 0.02):
                for group, known in move(self.old(page(("red", 6))), ring, host=OTHER):
                    self.assertEqual((group, known.term, unheard, ring.latest("red", late + 1).term), ("red", 7, 0, 7), late)

    def test_a_new_node_that_never_hears_is_told(self) -> None:
        ring, nodes, votes = self.new()
        nodes[1].answer = lambda line: "term 6 leader 1 7" if line.startswith("latest") else votes(line)
        with mock.patch("cinoweta.move.SECONDS", 0.1):
            (group, fault), = move(self.old(page(("red", 6))), ring, host=OTHER)
        self.assertEqual((group, type(fault)), ("red", NoLeader))
        self.assertIn("node 2 knows no leader above term 6", str(fault))

    def test_a_group_that_can_not_be_moved_keeps_no_other_one(self) -> None:
        ring, nodes, votes = self.by_group()
        refuse = nodes[0].answer
        nodes[0].answer = nodes[1].answer = lambda line: "no 7 full" if line.startswith("stand green ") else refuse(line)
        port = self.old(page(("blue", 5), ("green", 7), ("last", LAST), ("red", 6)))
        code, lines, err = self.move(ring, port)
        self.assertEqual((code, lines), (1, ["blue term 6 leader 1 0", "red term 7 leader 1 0", "moved 2"]))
        self.assertRegex(err, r"cinoweta: green: no 7 full\ncinoweta: last: last has no term above 999999999: give it a new "
                              r"name, by --rename last=NEW\n\Z")
        # Run again it goes on where it was broken off, and a group that stays is told no more.
        nodes[0].answer = nodes[1].answer = refuse
        code, lines, _ = self.move(ring, port, "--rename", "last=late", "--skip", "blue")
        self.assertEqual((code, lines[-1], {group: [*each.stood] for group, each in votes.items() if each.stood}),
                         (0, "moved 3", {"blue": [6], "green": [8], "late": [1], "red": [7]}))

    def test_an_old_ring_that_elects_on_is_told(self) -> None:
        for more, skip, is_told in ([("red", 7)], (), True), ([("new", 1)], (), True), ([("new", 1)], ["new"], False):
            ring, _, _ = self.by_group()
            pages = {"/status": (200, json.dumps({"nodes": [{"port": 1}]})), "/leaders?node=1": page(("red", 6))}
            moved = move(self.serve(pages, OTHER), ring, host=OTHER, skip=skip)
            self.assertEqual(next(moved)[1].term, 7)
            pages["/leaders?node=1"] = page(("red", 6), *more)
            with self.assertRaisesRegex(WrongRing, "elects on") if is_told else contextlib.nullcontext():
                self.assertEqual([*moved], [])

    def test_a_name_is_that_of_one_group(self) -> None:
        ring, _, votes = self.by_group()
        port = self.old(page(("blue", 5), ("red", 6)))
        for words in (["--rename", "red=blue"], ["--rename", "grey=white"], ["--rename", "red=x", "--rename", "blue=x"]):
            self.assertEqual(self.move(ring, port, *words)[0], 2, words)
        self.assertEqual(self.move(ring, port, "--rename", "red=blue", "--skip", "blue")[:2], (0, ["blue term 7 leader 1 0", "moved 1"]))
        with self.assertRaises(SystemExit), contextlib.redirect_stderr(io.StringIO()):
            self.move(ring, port, "--rename", "red=")

    def test_a_new_ring_without_room_takes_no_stand(self) -> None:
        groups = [("blue", 5), ("green", 7), ("red", 6)]
        old = self.old(page(*groups))
        # 15 bytes a group, and the names' 12.
        for left, snapshot, code, said in (([1, 1], 0, 2, "has 2 Stands left, and 3 groups take one each"),
                                           ([3, 0], 968, 2, "node 1 of the new ring has 56 bytes for a snapshot, and 3 groups take 57"),
                                           ([3, 0], 967, 0, "")):
            ring, nodes, votes = self.by_group()
            told = [{"node": node, "port": port, "stands": {"left": left[node - 1]}, "journal": {"capacity": 4_096, "snapshot": snapshot}}
                    for node, port in enumerate(ring.ports, 1)]
            pages = {"/status": (200, json.dumps({"nodes": told})), "/leaders?node=1": page(), "/leaders?node=2": page()}
            status = str(self.serve(pages))
            ended, lines, err = self.move(ring, old, "--status", status)
            self.assertEqual((ended, len(lines), [*map(len, (node.stands() for node in nodes))]),
                             (code, 0, [0, 0]) if code else (0, 4, [3, 0]), said)
            self.assertIn(said, err)
        # What is there already takes no room again.
        pages["/leaders?node=2"] = page(("blue", 6), ("green", 8), ("red", 7))
        told[0]["stands"]["left"] = 0
        pages["/status"] = (200, json.dumps({"nodes": told}))
        self.assertEqual(self.move(ring, old, "--status", status)[0], 0)
        self.assertEqual(self.move(ring, old, "--status", str(self.serve({"/status": (200, json.dumps({"nodes": []}))})))[0], 2)

    def test_a_new_ring_that_tells_of_no_room_takes_no_stand(self) -> None:
        old, room = self.old(page(("red", 6))), {"stands": {"left": 5}, "journal": {"capacity": 4_096, "snapshot": 0}}
        for lacking in ({}, {**room, "stands": {}}, {**room, "stands": 5}, {**room, "stands": {"left": "5"}},
                        {"stands": room["stands"]}, {**room, "journal": {"capacity": 4_096}}, {**room, "journal": None}):
            ring, nodes, _ = self.by_group()
            told = {"nodes": [{"node": node, "port": port, **lacking} for node, port in enumerate(ring.ports, 1)]}
            status = self.serve({"/status": (200, json.dumps(told)), "/leaders?node=1": page(), "/leaders?node=2": page()})
            code, lines, err = self.move(ring, old, "--status", str(status))
            self.assertEqual((code, lines, [*map(len, (node.stands() for node in nodes))]), (2, [], [0, 0]), lacking)
            self.assertIn(f"cinoweta: 127.0.0.1:{status} tells of no room of the new ring", err)

    def raised(self, ring: Ring, *words: str) -> tuple[int, list[str], str]:
        code, out, err = told("--ring", f"{ring.first}-{ring.ports[-1]}", "raise", *words)
        return code, out.splitlines(), err

    def test_groups_are_raised_by_so_much(self) -> None:
        ring, nodes, votes = self.by_group()
        votes["red"].leaders[41] = (2, 9)
        self.assertEqual(self.raised(ring, "--by", "1000", "red", "blue"),
                         (0, ["blue term 1000 leader 1 0", "red term 1041 leader 1 0", "raised 2"], ""))
        pages = {"/status": (200, json.dumps({"nodes": [{}, {}]})), "/leaders?node=1": page(("red", 1)), "/leaders?node=2": page()}
        self.assertEqual(self.raised(ring, "--by", "9", "--status", str(self.serve(pages)))[1][0], "red term 1050 leader 1 0")
        for words in ([], ["--by", "0", "red"], ["--by", "1"], ["--by", "1", "--above", "x"], ["--above", "x", "red"]):
            self.assertEqual(self.raised(ring, *words)[0], 2, words)
        code, _, err = self.raised(ring, "--by", "1", "red", "--by", str(LAST))
        self.assertEqual((code, err), (1, f"cinoweta: red: red has no term above {LAST}\n"))

    def test_groups_are_raised_above_a_file(self) -> None:
        ring, nodes, votes = self.by_group()
        votes["red"].leaders[3] = (2, 9)
        votes["blue"].leaders[9] = (2, 9)
        with tempfile.TemporaryDirectory() as folder:
            path = pathlib.Path(folder, "leaders")
            # What several nodes told may stand there.
            path.write_text('blue term 5 leader 2 9\nred term 41 leader 2 9\nred term 40 leader 1 9\n{"group": "grey", "term": 7, "leader": {}}\n', encoding="ascii")
            lines = ["blue term 9 leader 2 9", "grey term 8 leader 1 0", "red term 42 leader 1 0", "raised 3"]
            self.assertEqual(self.raised(ring, "--above", str(path)), (0, lines, ""))
            path.write_text("red\n", encoding="ascii")
            self.assertEqual(self.raised(ring, "--above", str(path))[0], 2)
        self.assertEqual([*votes["blue"].stood], [])

    def test_a_term_that_is_far_is_climbed_to(self) -> None:
        ring, nodes, votes = self.by_group()
        answer = nodes[0].answer

        def leaps(line: str) -> str:
            words = line.split()
            most = max(votes[words[1]].leaders, default=0) + 100
            return f"no 28 far {most}" if words[0] == "stand" and int(words[2]) > most else answer(line)

        nodes[0].answer = nodes[1].answer = leaps
        self.assertEqual(self.raised(ring, "--by", "250", "red"), (0, ["red term 250 leader 1 0", "raised 1"], ""))
        self.assertEqual([*votes["red"].stood], [100, 200, 250])
        # A node that takes none at all is not asked for ever.
        nodes[0].answer = nodes[1].answer = lambda line: "no 28 far 5" if line.startswith("stand") else answer(line)
        code, _, err = self.raised(ring, "--by", "250", "green")
        self.assertEqual((code, err[:33]), (1, "cinoweta: green: no 28 far 5: nod"))


class RetireAllTest(Beside, BesideStatus):
    def test_each_node_retires_of_each_group_all_below_its_latest(self) -> None:
        ring, nodes = self.ring(*[lambda line: "retired" if "grey" not in line else "no 7 full"] * 2)
        pages = {"/leaders?node=1": page(("blue", 5), ("grey", 9), ("red", 1)), "/leaders?node=2": page(("blue", 4))}
        words = ["--ring", f"{ring.first}-{ring.ports[-1]}", "retire", "--all", "--status", str(self.serve(pages))]
        code, out, err = told(*words)
        self.assertEqual((code, out.splitlines(), err),
                         (17, ["blue node 1 retired 5", "blue node 2 retired 4"], "cinoweta: grey node 1: no 7 full\n"))
        self.assertEqual([node.lines for node in nodes], [["retire blue 5", "retire grey 9"], ["retire blue 4"]])
        self.assertEqual(told(*words, "--keep", "3", "--node", "2")[:2], (0, ""))
        self.assertEqual(told(*words, "--keep", "2", "--node", "2")[1], "blue node 2 retired 2\n")
        for others in (["retire"], ["retire", "--all", "red"], ["retire", "--all"]):
            self.assertEqual(told(*words[:2], *others)[0], 2)


if __name__ == "__main__":
    import unittest
    unittest.main()
