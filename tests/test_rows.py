"""The rows of the programs are printed again as they stand, and the player of rows tells what differs.

The stand-ins are scripts in place of `ringd` and `ringctl`, so that what the player makes of an answer is seen without a ring."""

import difflib
import pathlib
import re
import tempfile
import textwrap
import unittest

import play
from programs import at_last

ROWS = pathlib.Path(__file__).resolve().parent / "rows"
# The most lines of a difference that are told.
MOST_LINES = 40
# Serves nobody: prints its words and its settings, and ends with the number of the first file below its folder, or 0.
ECHO = """#!/bin/sh
echo words "$@"
cat
echo said >&2
exit "$(ls */status-* 2> /dev/null | sed 's/.*-//;q' | grep . || echo 0)"
"""
# Has a child, and never ends.
HANGS = """#!/bin/sh
sleep 1000 &
echo $! > {folder}/child
sleep 1000
"""
# Listens at the ports of a ring, has a child, and answers nobody.
DEAF = """#!/usr/bin/env python3
import os, re, socket, sys, time
port = int(re.search(r"port = (\\d+)", sys.stdin.read())[1])
held = [socket.create_server(("127.0.0.1", it)) for it in (port - 1, port, port + 1)]
if child := os.fork():
    with open("{folder}/child", "w") as it:
        it.write(str(child))
time.sleep(1000)
"""
# Prints each line of a script that is no comment: `mark` and `wrong` as lines that are no command, and `two` as two lines.
CONSOLE = """#!/bin/sh
while read -r line; do
  case "$line" in '#'*) ;; mark|wrong) echo "no 25 line" ;; two) echo one; echo two ;; *) echo "$line" ;; esac
done
"""


def block(text: str) -> str:
    """A text that stands here further in, behind an empty line."""
    return textwrap.dedent(text.lstrip("\n"))


class Player(unittest.TestCase):
    """A player of rows over a stand-in, in a temporary folder."""

    def setUp(self) -> None:
        folder = tempfile.TemporaryDirectory(prefix="rows-")
        self.addCleanup(folder.cleanup)
        self.folder = pathlib.Path(folder.name)

    def stand_in(self, text: str) -> str:
        """The path of a program of this text."""
        path = self.folder / "program"
        path.write_text(text, encoding="ascii")
        path.chmod(0o755)
        return str(path)

    def plays(self, kind: str, text: str, rows: str, stands: str = "") -> None:
        """The rows are printed so by a program of this text, or as they stand."""
        self.assertEqual(stands or rows, play.played(kind, rows, self.stand_in(text), 10.0))


class TheRows(unittest.TestCase):
    """Each file is printed again as it stands."""

    maxDiff = None

    def holds(self, kind: str) -> None:
        path = ROWS / f"{kind}.rows"
        stands = play.read(str(path))
        told = play.played(kind, stands)
        if told != stands:
            lines = [*difflib.unified_diff(stands.split("\n"), told.split("\n"), f"tests/rows/{kind}.rows", "what is printed now", lineterm="")]
            left = len(lines) - MOST_LINES
            self.fail("\n".join(["not as it stands:", *lines[:MOST_LINES], *([f".. and {left} lines more"] if left > 0 else [])]))

    def test_console(self) -> None:
        self.holds("console")

    def test_ringd(self) -> None:
        self.holds("ringd")

    def test_settings(self) -> None:
        self.holds("settings")


class WhatDiffers(Player):
    """What a player tells of rows that do not hold."""

    ROWS = block("""
        # first
        ring 2 made 7602
        anew
        shows ringd --make
          words --make
          nodes = 2
          dir = "made"
          port = 7602
          capacity = 65536
          said
          ends 0

        # second
        ring 2 other 7602
        anew
        write status-3
        ringd
          said
          ends 3
        """)

    def test_rows_that_hold(self) -> None:
        self.plays("ringd", ECHO, self.ROWS)

    def test_an_answer_that_is_changed(self) -> None:
        for stands, changed in (("  ends 3\n", "  ends 0\n"), ("  said\n", "  told\n"), ("  port = 7602\n", "  port = 7603\n"), ("  said\n", "")):
            with self.subTest(changed=changed):
                self.plays("ringd", ECHO, self.ROWS.replace(stands, changed), self.ROWS)

    def test_an_answer_in_another_row(self) -> None:
        first, second = self.ROWS.split("\n\n")
        self.plays("ringd", ECHO, f"{first.replace('  ends 0', '  ends 3')}\n\n{second.replace('  ends 3', '  ends 0')}", self.ROWS)

    def test_a_row_that_is_left_out(self) -> None:
        self.plays("ringd", ECHO, self.ROWS.partition("\n\n")[2], self.ROWS.partition("\n\n")[2])
        self.assertNotEqual(self.ROWS, play.played("ringd", self.ROWS.partition("\n\n")[2], self.stand_in(ECHO)))

    def test_rows_that_say_no_answers(self) -> None:
        asked = "\n".join(line for line in self.ROWS.split("\n") if not line.startswith("  "))
        self.plays("ringd", ECHO, asked, self.ROWS)

    def test_nothing_goes_from_row_to_row(self) -> None:
        self.plays("ringd", ECHO, block("""
            ring 2 made 7602
            anew
            write file a
            files
              file

            ring 2 made 7602
            files
              No such file or directory (os error 2)
            shows ringd
              words
              nodes = 2
              dir = "made"
              port = 7602
              capacity = 65536
              said
              ends 0

            shows ringd
              words
              said
              ends 0
            """))

    def test_a_line_that_is_no_command(self) -> None:
        self.plays("ringd", ECHO, block("""
            rings 2 made 7602
              no 25 line
            ring two made 7602
              no ring
            ring 2 made 7602
            anew
            write file a\\q
              no 25 line
            files
            """))

    def test_a_program_that_is_not_there(self) -> None:
        with self.assertRaises(RuntimeError):
            play.played("ringd", self.ROWS, str(self.folder / "nowhere"))

    def test_a_signal(self) -> None:
        self.plays("ringd", "#!/bin/sh\nkill -9 $$\n", "ringd\n  ends by signal 9\n")


class WhatDoesNotEnd(Player):
    """A program that does not end is ended with its children, and told; the rows behind it are played."""

    def is_gone(self, process: int) -> bool:
        try:
            with open(f"/proc/{process}/stat", encoding="ascii") as stat:
                return stat.read().rpartition(")")[2].split()[0] == "Z"
        except OSError:
            return True

    def hangs(self, kind: str, rows: str, text: str = HANGS) -> None:
        self.assertEqual(rows, play.played(kind, rows, self.stand_in(text.format(folder=self.folder)), 0.5))
        child = int((self.folder / "child").read_text())
        self.assertTrue(at_last(lambda: self.is_gone(child)))

    def test_ringd(self) -> None:
        self.hangs("ringd", block("""
            ring 2 made 7602
            anew
            ringd --make
              does not end
            files

            # next
            ring 2 made 7602
            anew
            files
            """))

    def test_a_ring_that_serves_nobody(self) -> None:
        self.hangs("ringd", block("""
            ring 2 made 7602
            anew
            ringd --serve 2 --status 7601 &
            1 stand red 5 10
              no door
            get /live
              no answer
            until /live has live
              no
            end
              does not end

            ring 2 made 7602
            files
              No such file or directory (os error 2)
            """))

    def test_console(self) -> None:
        self.hangs("console", "one\ntwo\n  does not end\n")

    def test_settings(self) -> None:
        self.hangs("settings", block("""
            ringd
              does not end
            ! reads
              does not end
            """))

    def test_a_ring_that_does_not_answer(self) -> None:
        path = self.stand_in(DEAF.format(folder=self.folder))
        rows = block("""
            ring 2 made 7602
            ringd --serve 1 &
            1 stand red 5 10
              no answer in time
            get /live
              no answer
              no bye at 7602
              no bye at 7603
            end
              does not end
            """)
        self.assertEqual(rows, play.played("ringd", rows, path, 10.0))
        child = int((self.folder / "child").read_text())
        self.assertTrue(at_last(lambda: self.is_gone(child)))


class ThePorts(Player):
    """Rows name ports that are others when they are played."""

    def test_a_port_is_given_and_told_back(self) -> None:
        self.plays("ringd", ECHO, block("""
            ring 3 made 7610
            anew
            shows ringd --status 7609 --leap 7613
              words --status 7609 --leap 7613
              nodes = 3
              dir = "made"
              port = 7610
              capacity = 65536
              said
              ends 0
            """))

    def test_the_program_is_given_another(self) -> None:
        told = self.folder / "told"
        self.plays("ringd", f"#!/bin/sh\ncat > {told}\necho \"$2\" >> {told}\n", block("""
            ring 2 made 7610
            anew
            ringd --status 7609
              ends 0
            """))
        text = told.read_text()
        port = re.search(r"port = (\d+)", text)
        assert port is not None
        self.assertNotIn(int(port[1]), play.PORTS)
        self.assertEqual(str(int(port[1]) - 1), text.split("\n")[-2])

    def test_a_port_that_the_program_was_not_given(self) -> None:
        told = play.played("ringd", block("""
            ring 2 made 7610
            ringd
              port 7610
              ends 0
            """), self.stand_in("#!/bin/sh\necho port 7610 >&2\n"))
        self.assertNotIn("  port 7610\n", told)
        self.assertRegex(told, r"\n  port \d+\n  ends 0\n")

    def test_a_port_at_its_border_stays(self) -> None:
        self.plays("ringd", ECHO, block("""
            ring 3 a 65533
            anew
            shows ringd
              words
              nodes = 3
              dir = "a"
              port = 65533
              capacity = 65536
              said
              ends 0
            """))

    def test_a_port_that_is_held(self) -> None:
        self.plays("ringd", ECHO, block("""
            ring 2 made 7610
            listen 7611
            listen 7611
              Address already in use (os error 98)
            release
            listen 7611
            """))

    def test_bytes_stay(self) -> None:
        self.plays("ringd", ECHO, block("""
            ring 2 made 7610
            anew
            write a 7610
            write b \\x37610
            write c 17610
            same a b
              yes
            same a c
              no
            alter c 17 71
            alter c 7610 1234
              no
            alter a 7610 1234
            same a b
              no
            """))


class WhatEachLinePrints(Player):
    """A row of the console is a script, of which each line is told with what it prints."""

    def test_lines(self) -> None:
        self.plays("console", CONSOLE, block("""
            # name
            one
              one
            two
              one
              two
            # nothing
            three
              three

            # next
            one
              one
            """))

    def test_lines_that_are_no_command(self) -> None:
        self.plays("console", CONSOLE, block("""
            wrong
              no 25 line
            # nothing
            wrong
              no 25 line
            one
              one
            mark
              no 25 line
            """))

    def test_an_answer_of_another_line(self) -> None:
        self.plays("console", CONSOLE, block("""
            one
            two
              one
              one
              two
            """), block("""
            one
              one
            two
              one
              two
            """))

    def test_lines_that_change_what_was_printed(self) -> None:
        text = "#!/bin/sh\nset -- \"$(wc -l)\"\nfor it in $(seq $1); do echo \"$it of $1\"; done\n"
        self.plays("console", text, "a\nb\n", block("""
            a
              1 of 1
            b
              the lines above print another text:
              1 of 2
              2 of 2
            """))

    def test_a_status(self) -> None:
        self.plays("console", block("""
            #!/bin/sh
            echo out of memory >&2
            exit 1
            """), block("""
            a
              out of memory
              ends 1
            """))


class WhatIsRead(Player):
    """A row of settings has settings and words."""

    def test_settings(self) -> None:
        text = block("""
            #!/bin/sh
            read -r line
            case $line in nodes*) echo nodes 3; echo dir a; exit 0 ;; esac
            echo "ringd: setting $line is missing" >&2
            echo "ringd: see $line" >&2
            exit 2
            """)
        self.plays("settings", text, block("""
            # name
            nodes = 3
            ! reads
              nodes 3 dir a
            # nothing
            dir
            ! reads
              setting dir is missing
            ! reads
              setting  is missing

            dir

            ! reads
              setting  is missing
            """))

    def test_words_begin_with_the_name_alone(self) -> None:
        self.plays("settings", block("""
            #!/bin/sh
            read -r line
            echo "ringd: $line" >&2
            exit 2
            """), block("""
            ringdom = 1
            ! reads
              ringdom = 1
            ringd-x = 1
            ! reads
              ringd-x = 1
            """))

    def test_words(self) -> None:
        text = "#!/bin/sh\ncase $1 in out) echo text ;; err) echo text >&2; exit 2 ;; both) echo one; echo two >&2 ;; esac\n"
        self.plays("settings", text, block("""
            ringd out
              status 0 on standard output
            ringd err
              status 2 on standard error
            ringd both
              one
              two
              ends 0
            ringd
              ends 0
            """))


class TheCommand(Player):
    """The command prints rows with what they print now."""

    def run_it(self, *words: str) -> tuple[int, str, str]:
        with play.Run(str(pathlib.Path(play.__file__)), ["play.py", *words], b"", str(self.folder), play.Patience()) as run:
            ends = run.end()
            return int(ends.removeprefix("ends ")), run.told(1), run.told(2)

    def test_files(self) -> None:
        for name, text in (("one", "! reads\nringd x\n"), ("two", "# nothing\n")):
            (self.folder / name).write_text(text)
        status, out, err = self.run_it("settings", "one", "two")
        self.assertEqual((0, "! reads\n  setting nodes is missing\nringd x\n  status 2 on standard error\n# nothing\n", ""), (status, out, err))

    def test_words_that_are_wrong(self) -> None:
        for words in ((), ("settings",), ("nothing", "one")):
            with self.subTest(words=words):
                self.assertEqual((2, ""), self.run_it(*words)[:2])

    def test_a_file_that_is_not_there(self) -> None:
        status, out, err = self.run_it("settings", "nowhere")
        self.assertEqual((2, ""), (status, out))
        self.assertIn("nowhere", err)


if __name__ == "__main__":
    unittest.main()
