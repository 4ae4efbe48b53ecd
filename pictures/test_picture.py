"""Pictures of runs, with what ringctl prints for them written by hand; and of random scripts, over RINGCTL or bin/ringctl."""
import os
import random
import subprocess
import unittest
import xml.etree.ElementTree

import picture
from run import Fault

RINGCTL = os.environ.get("RINGCTL", str(picture.ROOT / "bin" / "ringctl"))
RUN = """
# A lost reply, and a message that comes again.
ring 2 lazy
stand 1 red 5 10
flush 1
deliver 1 0
crash 2
deliver 1 0
flush 2
credit 2 1
deliver 1 7
latest 2 red
show 2
audit
"""
PRINTED = """ring 2
1: sealed
flushed 1
1: stood
2: sealed
2: lost
up 2 0
3: sealed
flushed 1
3: taken
4: sealed
no 21 unknown
5: none
node 2 inputs 1 durable 1 sent 1 taken 1 credit 0
audit ok 2
"""


# What a node that retired terms refuses, behind a checkpoint and a crash too; and what it does not pass on.
RULES = """ring 2
stand 1 red 9 5
deliver all
retire 1 red 10
retire 1 red 9
retire 1 red 9
who 1 red 4
stand 1 red 8 5
latest 1 red
checkpoint 1
crash 1
stand 1 red 4 5
who 1 red 9
show 1
"""
RULED = """ring 2
1: stood
delivered 4
2: no 26 undecided
3: retired
4: no 23 retired 9
5: no 23 retired 9
6: no 23 retired 9
7: term 9 leader 1 5
checkpointed 0
up 1 4
8: no 23 retired 9
9: leader 1 5
node 1 inputs 4 durable 4 sent 2 taken 2 credit 0
"""
RELAY = """ring 2
stand 1 red 9 5
deliver 1 0
deliver 2 0
retire 1 red 9
stand 2 red 4 7
deliver 2 1
show 1
audit
"""
RELAYED = """ring 2
1: stood
2: taken
3: taken
4: retired
5: stood
6: taken
node 1 inputs 4 durable 4 sent 2 taken 2 credit 0
audit ok 6
"""


class PictureTest(unittest.TestCase):
    def test_a_lazy_ring(self) -> None:
        drawn, image = picture.draw(RUN, PRINTED, "run")
        rows = [" ".join(line.replace("|", " ").replace("-", " ").split()) for line in drawn.splitlines()]
        self.assertEqual(rows, [
            "node 1 node 2",
            "4 o 1: stand red 5 10, sealed",
            "5 # flushed 1; 1: stood",
            "6 2: 0 Token (10, 1), sealed >",
            "7 X crash; 2: lost; up with 0",
            "8 3: 0 Token (10, 1), sealed >",
            "9 # flushed 1; 3: taken",
            "10 < 4: credit 1, sealed",
            "11 o deliver 1 7, no 21 unknown",
            "12 o 5: latest red, none",
            "13 o inputs 1 durable 1 sent 1 taken 1 credit 0",
            "14 o audit ok 2",
        ])
        texts = [each.text for each in xml.etree.ElementTree.fromstring(image).iter("{http://www.w3.org/2000/svg}text")]
        self.assertIn("crash; 2: lost; up with 0", texts)

    def test_keys_are_told_where_there_are_several(self) -> None:
        script = "ring 2\nstand 1 red 5 10\nstand 1 blue 1 3\ndeliver 1 0\ndeliver 1 1\n"
        drawn, _ = picture.draw(script, "ring 2\n1: stood\n2: stood\n3: taken\n4: taken\n", "run")
        self.assertIn("- 3: 0 red 5 Token (10, 1), passed on -", drawn)
        self.assertIn("- 4: 1 blue 1 Token (3, 1), passed on -", drawn)
        drawn, _ = picture.draw(script, "ring 2\n1: stood\n2: no 7 full\n3: taken\nno 21 unknown\n", "run")
        self.assertIn("2: stand blue 1 3, no 7 full", drawn)

    def test_an_opening_drops_what_is_summarised(self) -> None:
        script = "ring 2 lazy\nstand 1 red 5 10\ncheckpoint 1\naudit\n"
        printed = "ring 2\n1: sealed\ncheckpointed 1\n1: stood\naudit ok 1\n"
        drawn, _ = picture.draw(f"{script}crash 1\naudit\n", f"{printed}up 1 1\nno 27 dropped 1\n", "run")
        self.assertIn("o audit, no 27 dropped 1", drawn)
        for wrong in ("audit ok 1", "no 27 dropped 2"):
            with self.assertRaises(Fault):
                picture.draw(f"{script}crash 1\naudit\n", f"{printed}up 1 1\n{wrong}\n", "run")
        # What a stopped checkpoint left of the same inputs is told by the audit, and stays so.
        stopped = "ring 2\nstand 1 red 5 10\nstop 1 checkpoint 4 old\naudit\naudit\n"
        for told in ("audit ok 1", "no 27 dropped 1"):
            picture.draw(stopped, f"ring 2\n1: stood\nup 1 1\n{told}\n{told}\n", "run")
        with self.assertRaises(Fault):
            picture.draw(stopped, "ring 2\n1: stood\nup 1 1\naudit ok 1\nno 27 dropped 1\n", "run")

    def test_retired_terms(self) -> None:
        drawn, _ = picture.draw(RULES, RULED, "rules")
        for text in ("o 2: retire red 10, no 26 undecided", "o 3: retire red 9, retired", "o 5: who red 4, no 23 retired 9"):
            self.assertIn(text, drawn)
        drawn, _ = picture.draw(RELAY, RELAYED, "relay")
        self.assertIn(" 6: 1 red 4 Token (7, 2), retired ", drawn)

    def test_what_a_floor_leaves(self) -> None:
        # A floor of one group is none of another one; of the lazy node it waits, and with it is lost.
        script = "ring 2 lazy\nstand 1 red 2 5\nflush 1\ndeliver 1 0\nflush 2\ndeliver 2 0\nflush 1\n"
        printed = "ring 2\n1: sealed\nflushed 1\n1: stood\n2: sealed\nflushed 1\n2: taken\n3: sealed\nflushed 1\n3: taken\n"
        picture.draw(f"{script}retire 1 blue 1\nretire 1 red 2\nwho 1 red 1\ncrash 1\nwho 1 red 1\nretire 1 red 1\nflush 1\n",
                     f"{printed}4: no 26 undecided\n5: sealed\n6: sealed\n5: lost\n6: lost\nup 1 2\n7: none\n8: sealed\n"
                     "flushed 1\n8: retired\n", "lazy")
        # Nor is one given up that the node has not heard of.
        picture.draw(f"{script}retire 2 red 1\n", f"{printed}4: no 26 undecided\n", "behind")

    def test_what_does_not_agree_is_told(self) -> None:
        for script, printed in ((RUN, PRINTED), (RULES, RULED), (RELAY, RELAYED)):
            lines = printed.splitlines(keepends=True)
            for number, line in enumerate(lines):
                for other in ("", line.replace("1", "9").replace("0", "8") + "", line + line):
                    changed = "".join([*lines[:number], other, *lines[number + 1:]])
                    if changed != printed:
                        with self.assertRaises(Fault, msg=changed):
                            picture.draw(script, changed, "run")
        with self.assertRaises(Fault):
            picture.draw("", "", "nothing")

    @unittest.skipUnless(os.access(RINGCTL, os.X_OK), "for want of ringctl")
    def test_random_scripts(self) -> None:
        many = "ring 2 lazy\n" + "".join(f"stand 1 red {term} 0\n" for term in range(1, 70)) + "flush 1\nflush 1\n"
        for seed in range(300):
            script = random_script(random.Random(seed)) if seed else many
            ended = subprocess.run([RINGCTL], input=script, capture_output=True, text=True, check=True)
            with self.subTest(seed=seed):
                _, image = picture.draw(script, ended.stdout, f"seed {seed}")
                xml.etree.ElementTree.fromstring(image)


def random_script(rng: random.Random) -> str:
    nodes = rng.randint(2, 5)
    lines = [f"ring {nodes}{rng.choice(['', ' lazy', ' eager 4096'])}"]
    for _ in range(rng.randint(5, 60)):
        node, group, term = rng.randint(1, nodes), rng.choice(["red", "blue"]), rng.randint(1, 3)
        lines.append(rng.choice([
            f"stand {node} {group} {term} {rng.randrange(5)}", f"stand {node} {group} {term} {rng.randrange(5)}",
            f"who {node} {group} {term}", f"latest {node} {group}", f"deliver {node} {rng.randrange(6)}",
            f"retire {node} {group} {term}",
            f"deliver {node} {rng.randrange(3)}", f"credit {node} {rng.randrange(5)}", "deliver all", f"flush {node}",
            f"flush {node}", f"crash {node}", f"stop {node} {rng.randint(1, 4)} {rng.choice(['old', 'new', 'fill 1'])}",
            f"checkpoint {node}", f"stop {node} checkpoint {rng.randint(1, 6)} {rng.choice(['old', 'new', 'fill 1'])}", "audit",
            f"show {node}", f"stand {node} Red 1 1", "hello", "# a comment", "", f"deliver {nodes + 1} 0",
        ]))
    return "\n".join(lines) + rng.choice(["", "\n"])


if __name__ == "__main__":
    unittest.main()
