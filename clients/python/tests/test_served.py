"""The package and the command beside a real ringd."""
import asyncio
import json
import os
import signal
import subprocess
import threading
import time
import unittest

from cinoweta import AlreadyStands, Election, Full, Late, Lock, LockTaken, Retired, Ring, Stale, Undecided, status
from cinoweta.aio import AsyncLock, AsyncRing, holder

from .clock import PATIENCE, took, tried
from .served import HERE, Served, require

setUpModule = require

# Those of commits, in seconds.
BOUNDS = ["0.0002", "0.001", "0.005", "0.025", "0.1", "0.5", "2.5", "10", "+Inf"]


class ServedTest(unittest.TestCase):
    def setUp(self) -> None:
        self.served = Served()
        self.addCleanup(self.served.end)

    def ring(self) -> Ring:
        ring = Ring.parse(self.served.ports)
        self.addCleanup(ring.close)
        return ring

    def test_its_start_and_its_commits_are_told(self) -> None:
        with self.ring() as ring:
            ring.stand("red", 5, 10)
        told = status.status(self.served.status)
        words = f"--settings {self.served.folder}/ring.toml --always --status {self.served.status} "
        idle = 2 if "--idle" in self.served.words else 0
        self.assertEqual((told["words"], told["idle"]), (words + " ".join(self.served.words), idle))
        code, text = status.ask("127.0.0.1", self.served.status, "/metrics", 5.0)
        rows = dict(line.rsplit(" ", 1) for line in text.splitlines() if line.startswith("cinoweta_commit_seconds"))
        counts = [int(rows[f'cinoweta_commit_seconds_bucket{{node="1",le="{bound}"}}']) for bound in BOUNDS]
        self.assertEqual((code, counts), (200, sorted(counts)))
        self.assertTrue(counts[-1] == int(rows['cinoweta_commit_seconds_count{node="1"}']) >= 1)
        self.assertGreater(float(rows['cinoweta_commit_seconds_sum{node="1"}']), 0.0)

    def until(self, is_so: object, what: str) -> None:
        """Waits until it is so."""
        until = time.monotonic() + PATIENCE
        while not is_so():
            self.assertLess(time.monotonic(), until, what)
            time.sleep(0.05)


class RingTest(ServedTest):
    def test_questions(self) -> None:
        ring = self.ring()
        ring.stand("red", 5, 10)
        for node in (1, 2, 3):
            self.until(lambda: ring.who("red", 5, node) == (1, 10), "no leader")
            self.assertEqual(ring.latest("red", node), (5, (1, 10)))
        for number, (kind, term) in enumerate([(AlreadyStands, 5), (Late, 5), (Stale, 4)], 1):
            with self.assertRaises(kind):
                ring.stand("red", term, 10, node=number)

    def test_of_many_that_campaign_at_once_one_leads(self) -> None:
        for gone in range(5):
            seen: list[Election] = []
            threads = [threading.Thread(target=lambda: seen.append(self.ring().campaign("red", gone))) for _ in range(6)]
            for thread in threads:
                thread.start()
            for thread in threads:
                thread.join()
            self.assertEqual({election[:2] for election in seen}, {seen[0][:2]})
            self.assertEqual((len(seen), sum(election.is_mine for election in seen)), (6, 1))

    def test_a_kill_is_outlived(self) -> None:
        ring = self.ring()
        election = ring.campaign("red")
        ring.latest("red")
        self.served.kill()
        threading.Timer(0.5, self.served.start).start()
        # Another node may answer first, and hear of it only now.
        ring.latest("red")
        self.until(lambda: ring.latest("red", 1) == election[:2], "the leader is forgotten")
        self.assertEqual(ring.campaign("red"), Election(*election[:2], False))

    def test_watch(self) -> None:
        ring, seen = self.ring(), self.ring().watch("red")
        for gone in range(3):
            election = ring.campaign("red", gone)
            self.assertEqual(next(seen), election[:2])

    def small(self) -> Ring:
        """A ring that is full by some ninety terms, unless some are retired."""
        self.served.end()
        self.served = Served(capacity=4_096)
        self.addCleanup(self.served.end)
        return self.ring()

    def test_a_full_ring_is_told(self) -> None:
        ring = self.small()
        with self.assertRaises(Full):
            for term in range(1, 1_000):
                ring.stand("red", term, 0, 1)
                self.until(lambda: ring.who("red", term, 1) is not None, "no leader")
        self.assertLess(ring.latest("red").term, 200)

    def test_a_ring_that_retires_is_never_full(self) -> None:
        ring = self.small()
        with self.assertRaises(Undecided):
            ring.retire("red", 1, node=1)
        ring.campaign("red", node=1)
        self.assertEqual(ring.retire("red", 1, node=1), 1)
        for gone in range(1, 300):
            self.assertTrue(ring.campaign("red", gone, node=gone % 3 + 1).is_mine)
        for node in (1, 2, 3):
            self.until(lambda: ring.retire("red", 299, node) == 299, "no floor")
            # The node's board may show it a moment later.
            with self.assertRaises(Retired):
                self.until(lambda: ring.who("red", 289, node) is None, "a leader below the floor")


class OtherHostTest(unittest.TestCase):
    def test_a_ring_of_another_host(self) -> None:
        served = Served("--doors", "4", "--listen", "127.0.0.2")
        self.addCleanup(served.end)
        words = ["--ring", f"127.0.0.2:{served.ports}"]
        with Ring.parse(words[1]) as ring:
            election = ring.campaign("red")
        self.assertTrue(election.is_mine)
        told = served.run(*words, "campaign", "red")
        self.assertEqual((told.returncode, told.stdout), (1, "term 1 leader {} {}\n".format(*election.leader)))
        self.assertEqual(served.run(*words, "status", "--port", str(served.status)).returncode, 0)
        # Nobody listens at 127.0.0.1.
        self.assertEqual(served.run("--timeout", "0.2", "latest", "red").returncode, 3)


class CommandTest(ServedTest):
    def told(self, *words: str) -> tuple[int, str]:
        """The exit status of the command and what it printed, on both streams."""
        ended = self.served.run(*words)
        return ended.returncode, ended.stdout + ended.stderr

    def test_commands(self) -> None:
        self.assertEqual(self.told("latest", "red"), (1, "none\n"))
        self.assertEqual(self.told("stand", "red", "5", "10"), (0, "stood\n"))
        self.assertEqual(self.told("stand", "red", "5", "10"), (13, "cinoweta: no 3 already 10\n"))
        self.until(lambda: self.told("who", "red", "5") == (0, "leader 1 10\n"), "no leader")
        self.assertEqual(self.told("latest", "red", "--node", "1"), (0, "term 5 leader 1 10\n"))
        self.assertEqual(self.told("who", "red", "4"), (1, "none\n"))
        self.assertEqual(self.told("who", "red", "4", "--json", "--ring", self.served.ports)[1][:15], '{"group": "red"')
        self.assertEqual(self.told("stand", "red", "4", "10"), (15, "cinoweta: no 5 stale 5\n"))
        self.assertEqual(self.told("who", "RED", "4"), (11, "cinoweta: no 1 name\n"))
        self.assertEqual(self.told("campaign", "red"), (1, "term 5 leader 1 10\n"))
        status, text = self.told("campaign", "red", "--gone", "5", "--node", "2", "--rank", "7")
        self.assertRegex(text, r"\Aterm 6 leader 2 7\d{6}\n\Z")
        self.assertEqual((status, self.told("watch", "red", "--after", "5", "--count", "1")), (0, (0, text)))

    def test_json(self) -> None:
        status, text = self.told("--json", "campaign", "red")
        told = json.loads(text)
        self.assertEqual((status, told["group"], told["term"], told["is_mine"]), (0, "red", 1, True))
        self.assertEqual(json.loads(self.told("--json", "latest", "red")[1])["leader"], told["leader"])
        self.assertEqual(json.loads(self.told("--json", "stand", "red", "1", "5", "--node", "9")[1]).keys(), {"error"})
        self.assertEqual(json.loads(self.told("--json", "latest", "A")[1])["refusal"], 1)

    def test_status(self) -> None:
        port = str(self.served.status)
        self.assertEqual(self.told("stand", "RED", "5", "10")[0], 11)
        self.assertEqual(self.told("stand", "red", "5", "10")[0], 0)
        code, text = self.told("status", "--port", port)
        lines = text.splitlines()
        self.assertEqual((code, lines[0]), (0, "well"))
        self.assertIn(f"dir {self.served.folder}/ring", lines)
        self.assertRegex(text, r"\nnode +1 +2 +3\n")
        self.assertRegex(text, r"\nport +{0} +{1} +{2}\n".format(*range(self.served.first, self.served.first + 3)))
        self.assertRegex(text, r"\nstands.taken +1 +0 +0\n")
        self.assertRegex(text, r"\nsessions.refusals.1 +1 +0 +0\n")
        told = json.loads(self.told("--json", "status", "--port", port)[1])
        self.assertEqual((told["health"], len(told["nodes"]), told["nodes"][2]["state"]), ([], 3, "well"))
        self.served.kill()
        self.assertEqual(self.told("status", "--port", port)[0], 3)
        self.served.start()

    def test_wrong_words(self) -> None:
        for words in (["stand", "red"], ["lock", "red"], ["latest", "red", "--", "true"], ["what"], [],
                      ["--ring", "7101", "latest", "red"], ["campaign", "red", "--rank", "1000"]):
            self.assertEqual(self.told(*words)[0], 2, words)
        self.assertEqual(self.told("lock", "red", "--", "/no/such/program")[0], 127)

    def test_no_answer(self) -> None:
        self.served.kill()
        self.assertEqual(self.told("--timeout", "0.2", "latest", "red")[0], 3)
        self.served.start()


class LockerTest(ServedTest):
    """Lockers as processes of their own."""

    def setUp(self) -> None:
        super().setUp()
        self.lockers: list[subprocess.Popen[str]] = []
        self.addCleanup(self.end_lockers)

    def end_lockers(self) -> None:
        for locker in self.lockers:
            if locker.poll() is None:
                locker.send_signal(signal.SIGCONT)
                locker.kill()
            locker.wait()
            locker.stdin.close()
            locker.stdout.close()

    def lock(self, script: str, *words: str) -> subprocess.Popen[str]:
        """Starts a locker of a shell's script, what is told of whom it waits for among what it prints."""
        command = self.served.command("lock", "red", "--patience", "1", "--grace", "1", *words, "--", "sh", "-c", script)
        errors = subprocess.STDOUT if "--timeout" in words else subprocess.DEVNULL
        # A command that reads from here ends with the test.
        locker = subprocess.Popen(command, cwd=HERE.parent, stdin=subprocess.PIPE, stdout=subprocess.PIPE, stderr=errors, text=True)
        self.lockers.append(locker)
        return locker


class LockTest(LockerTest):
    def test_the_status_is_that_of_the_command(self) -> None:
        for script, status in (("exit 0", 0), ("exit 7", 7), ("kill -9 $$", 137)):
            self.assertEqual(self.served.run("lock", "red", "--", "sh", "-c", script).returncode, status)

    def test_one_runs_behind_the_other(self) -> None:
        lockers = [self.lock(f"echo $CINOWETA_TERM >> {self.served.folder}/terms; echo in; sleep 0.3; echo out") for _ in
                   range(4)]
        for locker in lockers:
            self.assertEqual((locker.stdout.read(), locker.wait()), ("in\nout\n", 0))
        with open(f"{self.served.folder}/terms", encoding="ascii") as file:
            terms = [int(line) for line in file]
        self.assertEqual((len(terms), terms), (4, sorted(set(terms))))

    def test_who_is_paused_loses_the_lock(self) -> None:
        first = self.lock("echo $CINOWETA_TERM; exec cat")
        self.assertEqual(first.stdout.readline(), "1\n")
        second = self.lock("echo $CINOWETA_TERM; exec cat")
        time.sleep(1.5)
        self.assertIsNone(second.poll())
        first.send_signal(signal.SIGSTOP)
        self.assertEqual(second.stdout.readline(), "2\n")
        first.send_signal(signal.SIGCONT)
        self.assertEqual(first.wait(10), 5)
        self.assertIsNone(second.poll())

    def test_a_command_that_does_not_heed_is_killed(self) -> None:
        first = self.lock("trap '' TERM; echo $$; while :; do sleep 0.1; done")
        command = int(first.stdout.readline())
        first.send_signal(signal.SIGSTOP)
        self.assertEqual(self.lock("echo $CINOWETA_TERM").stdout.readline(), "2\n")
        first.send_signal(signal.SIGCONT)
        self.assertEqual(first.wait(10), 5)
        with self.assertRaises(ProcessLookupError):
            os.kill(command, 0)

    def test_who_is_killed_loses_it_at_once(self) -> None:
        first = self.lock("echo $$; exec cat")
        command = int(first.stdout.readline())
        first.kill()
        self.assertEqual(self.lock("echo $CINOWETA_TERM", "--patience", "60").stdout.readline(), "2\n")
        os.kill(command, signal.SIGKILL)

    def test_a_signal_is_handed_on(self) -> None:
        first = self.lock("trap 'echo ends; exit 4' TERM; echo in; while :; do sleep 0.1; done")
        self.assertEqual(first.stdout.readline(), "in\n")
        first.terminate()
        self.assertEqual((first.stdout.readline(), first.wait(10)), ("ends\n", 4))

    def test_a_ring_that_is_down_ends_no_lock(self) -> None:
        first = self.lock("echo in; sleep 4; echo out")
        self.assertEqual(first.stdout.readline(), "in\n")
        self.served.kill()
        self.assertEqual((first.stdout.read(), first.wait(10)), ("out\n", 0))
        self.served.start()

    def test_who_waits_waits_for_a_ring_that_is_down(self) -> None:
        first = self.lock("echo $CINOWETA_TERM; exec cat")
        self.assertEqual(first.stdout.readline(), "1\n")
        second = self.lock("echo $CINOWETA_TERM", "--timeout", "0.5")
        self.assertIn("waits for process", second.stdout.readline())
        self.served.kill()
        first.kill()
        for _ in range(3):
            self.assertIn("waits for the ring", second.stdout.readline())
        self.served.start()
        self.assertEqual(second.stdout.read().splitlines()[-1], "2")
        self.assertEqual(second.wait(10), 0)

    @tried
    def test_the_holder_is_told(self) -> None:
        told = self.served.run("holder", "red")
        self.assertEqual((told.returncode, told.stdout), (1, "none\n"))
        first = self.lock("echo in; exec cat", "--text", "the nightly job")
        self.assertEqual(first.stdout.readline(), "in\n")
        told = self.served.run("holder", "red")
        self.assertRegex(told.stdout, rf"\Aterm 1 leader \d \d+ process {first.pid} the nightly job\n\Z")
        self.assertEqual(json.loads(self.served.run("--json", "holder", "red").stdout)["pid"], first.pid)
        before = time.monotonic()
        ended = self.served.run("lock", "red", "--wait", "0", "--", "echo", "in")
        self.assertEqual((ended.returncode, ended.stdout), (6, ""))
        self.assertRegex(ended.stderr, rf"\Acinoweta: red: waits for .*\ncinoweta: red: held by process {first.pid} ")
        took(before, 20.0)
        first.kill()
        self.assertEqual(self.served.run("holder", "red").stdout, "none\n")


class AcrossHostsTest(LockerTest):
    """Lockers that see each other by the status port alone."""

    def setUp(self) -> None:
        super().setUp()
        self.served.end()
        self.served = Served("--doors", "4", "--idle", "2")
        self.addCleanup(self.served.end)
        self.words = ["--across-hosts", "--status", str(self.served.status)]

    def run_holder(self) -> str:
        return self.served.run("holder", "red", *self.words).stdout

    def test_one_runs_behind_the_other(self) -> None:
        script = f"echo $CINOWETA_TERM >> {self.served.folder}/terms; echo in; sleep 0.3; echo out"
        lockers = [self.lock(script, *self.words) for _ in range(3)]
        for locker in lockers:
            self.assertEqual((locker.stdout.read(), locker.wait()), ("in\nout\n", 0))
        with open(f"{self.served.folder}/terms", encoding="ascii") as file:
            terms = [int(line) for line in file]
        self.assertEqual((len(terms), terms), (3, sorted(set(terms))))

    def test_who_is_killed_or_paused_loses_it(self) -> None:
        script = "echo $CINOWETA_TERM; exec cat"
        first = self.lock(script, *self.words)
        self.assertEqual(first.stdout.readline(), "1\n")
        self.assertRegex(self.run_holder(), r"\Aterm 1 leader \d \d+\n\Z")
        second = self.lock(script, *self.words)
        time.sleep(2.5)
        self.assertIsNone(second.poll())
        first.kill()
        self.assertEqual(second.stdout.readline(), "2\n")
        third = self.lock(script, *self.words)
        time.sleep(2.5)
        second.send_signal(signal.SIGSTOP)
        self.assertEqual(third.stdout.readline(), "3\n")
        second.send_signal(signal.SIGCONT)
        self.assertEqual(second.wait(10), 5)
        self.assertIsNone(third.poll())
        third.terminate()
        third.wait(10)
        self.until(lambda: self.run_holder() == "none\n", "held")

    def test_it_outlives_a_start_of_the_ring(self) -> None:
        first = self.lock("echo in; exec cat", *self.words)
        self.assertEqual(first.stdout.readline(), "in\n")
        second = self.lock("echo in", "--timeout", "0.5", *self.words)
        self.assertIn("waits for node", second.stdout.readline())
        for _ in range(3):
            self.served.kill()
            # For whom it waits is told anew behind each start.
            self.assertTrue(any("waits for the ring" in line for line in iter(second.stdout.readline, "")))
            self.served.start()
            time.sleep(4.0)
            self.assertIsNone(second.poll())
            self.assertRegex(self.run_holder(), r"\Aterm 1 ")
        self.assertIsNone(first.poll())


class AioTest(unittest.IsolatedAsyncioTestCase):
    async def test_locks_of_threads_and_of_an_event_loop_exclude_each_other(self) -> None:
        served = Served("--doors", "8", "--idle", "2")
        self.addCleanup(served.end)
        for group, is_across in ("red", False), ("blue", True):
            ring = AsyncRing.parse(served.ports, status=served.status)
            near = Ring.parse(served.ports, status=served.status)
            tasks = AsyncLock(ring, group, text="a task", across_hosts=is_across)
            thread = Lock(near, group, text="a thread", across_hosts=is_across)
            await tasks.acquire()
            thread.wait = 0.0
            with self.assertRaises(LockTaken) as caught:
                await asyncio.to_thread(thread.acquire)
            self.assertEqual(caught.exception.holder.text, "a task")
            thread.wait = 30.0
            waits = asyncio.create_task(asyncio.to_thread(thread.acquire))
            await asyncio.sleep(1.0)
            before = time.monotonic()
            tasks.resign()
            await waits
            # Who looked once a second, or waited for two seconds without the holder, would need more on the average.
            self.assertLess(time.monotonic() - before, 1.5)
            self.assertEqual((thread.term, await tasks.is_lost(), thread.is_lost()), (2, True, False))
            self.assertEqual((await holder(ring, group, across_hosts=is_across)).text, "a thread")
            # And the other way round.
            waits = asyncio.create_task(tasks.acquire())
            await asyncio.sleep(1.0)
            thread.resign()
            await asyncio.wait_for(waits, 30.0)
            self.assertEqual((tasks.term, await tasks.is_lost()), (3, False))
            tasks.resign()
            ring.close()
            near.close()


class ThousandLocksTest(ServedTest):
    def setUp(self) -> None:
        self.served = Served("--doors", "2", capacity=1_048_576)
        self.addCleanup(self.served.end)

    def is_told(self, doors: int) -> bool:
        """Whether so many doors of each node are taken, and of some locks whether they are held."""
        nodes = status.status(self.served.status)["nodes"]
        return [node["sessions"]["busy"] for node in nodes] == [doors] * 3 and all(
            self.is_present(lock.group) == lock.is_held for lock in self.locks[::9])

    def is_present(self, group: str) -> bool:
        """A node tells of its own sessions."""
        known = status.leader(self.served.status, group, 1)
        told = known and status.leader(self.served.status, group, known[1])
        return bool(told and told[3])

    def test_a_thousand_locks_across_hosts_take_a_door_a_node(self) -> None:
        ring = self.ring()
        ring.status = self.served.status
        self.locks = [Lock(ring, f"g{number}", across_hosts=True, wait=20.0) for number in range(1_000)]
        for lock in self.locks:
            lock.acquire()
        self.until(lambda: self.is_told(1), "a door a node")
        for lock in self.locks[::2]:
            lock.resign()
        self.until(lambda: self.is_told(1), "the others")
        self.served.kill()
        self.served.start()
        self.until(lambda: self.is_told(1), "the others again")
        self.assertEqual([lock.is_lost() for lock in self.locks], [True, False] * 500)
        for lock in self.locks:
            lock.resign()
        self.until(lambda: self.is_told(0), "no door")


if __name__ == "__main__":
    unittest.main()
