"""Rings of other hosts, for which 127.0.0.2 stands."""
import asyncio
import contextlib
import io
import json
import pathlib
import socket
import time
import unittest
from unittest import mock

from cinoweta import Leader, Led, Lock, NoAnswer, NoLeader, Ring, WrongRing, holder, status
from cinoweta.aio import AsyncRing
from cinoweta.command import main
from cinoweta.host import is_own, place
from cinoweta.link import connect

from .clock import took, tried
from .lines import Votes
from .test_ring import Beside, deaf
from .test_status import TOLD, BesideStatus

OTHER = "127.0.0.2"
HOSTS = ["10.0.0.5", "0.0.0.0", "255.255.255.255", "localhost", "ring", "R", "ring-1.example", "1.a", "ring.example.", "4a",
         "a" * 63, ".".join(["a" * 63] * 3 + ["b" * 61])]
NONE = ["", ".", "-", "10.0.0", "10.0.0.256", "10.0.0.05", "10.0.0.5.", "10.0.0.5.6", "10", "a.5", "a..b", ".a", "a-", "-a.b",
        "a_b", "a b", "ä", "1.٢.3.4", "a\n", "10.0.0.5/8", "a@b", "a" * 64, ".".join(["a" * 63] * 3 + ["b" * 62])]

# Without brackets, and none, within them too.
ADDRESSES = {"::1": "::1", "::": "::", "fd00::0:5": "fd00::5", "2001:DB8::1": "2001:db8::1", "::ffff:10.0.0.5": "::ffff:10.0.0.5"}
NONE_OF_IPV6 = [":", ":::", "::1::", "1:2:3:4:5:6:7", "1:2:3:4:5:6:7:8:9", "::g", "::12345", "fe80::1%lo", "::1 ", "[::1]", "::\0", "::ä"]
HAS_IPV6 = pathlib.Path("/proc/net/if_inet6").exists() and "lo" in pathlib.Path("/proc/net/if_inet6").read_text()


def told(*words: str) -> tuple[int, str, str]:
    """The exit status of the command, and what it prints on either stream."""
    with contextlib.redirect_stdout(io.StringIO()) as out, contextlib.redirect_stderr(io.StringIO()) as err:
        # No answer of a machine that is busy is late.
        code = main(["--timeout", "10", *words])
    return code, out.getvalue(), err.getvalue()


class HostTest(Beside, BesideStatus):
    def test_what_is_a_host(self) -> None:
        for host in HOSTS:
            ring = Ring.parse(f"{host}:7101-7103", status=7100)
            self.assertEqual((ring.host, ring.first, ring.nodes, ring.status), (host, 7101, 3, 7100))
            self.assertEqual(place(f"{host}:7100", "a"), (host, 7100))
        for host in NONE:
            for refused in (lambda: Ring.parse(f"{host}:7101-7103"), lambda: Ring(7101, 7103, host=host),
                            lambda: status.health(7100, host=host), lambda: place(f"{host}:7100", "a")):
                with self.assertRaises(WrongRing, msg=host):
                    refused()
        with self.assertRaisesRegex(WrongRing, "'10.0.0.256' is no IP address"):
            Ring.parse("10.0.0.256:7101-7103")

    def test_what_is_an_address_of_ipv6(self) -> None:
        for host, known in ADDRESSES.items():
            rings = [Ring.parse(f"[{host}]:7101-7103"), Ring(7101, 7103, host=host)]
            self.assertEqual([(ring.host, ring.first) for ring in rings], [(known, 7101)] * 2)
            self.assertEqual(place(f"[{host}]:7100", "a"), (known, 7100))
            # Else its last part would be a port, or none.
            for refused in (lambda: Ring.parse(f"{host}:7101-7103"), lambda: place(f"{host}:7100", "a"),
                            lambda: Ring(7101, 7103, host=f"[{host}]")):
                with self.assertRaises(WrongRing, msg=host):
                    refused()
        for host in NONE_OF_IPV6:
            for refused in (lambda: Ring.parse(f"[{host}]:7101-7103"), lambda: Ring(7101, 7103, host=host),
                            lambda: place(f"[{host}]:7100", "a")):
                with self.assertRaises(WrongRing, msg=host):
                    refused()
        for text in ("[10.0.0.5]:7101-7103", "[ring]:7101-7103", "[]:7101-7103", "[::1:7101-7103", "::1]:7101-7103", "[::1]7101-7103"):
            with self.assertRaises(WrongRing, msg=text):
                Ring.parse(text)
        with self.assertRaisesRegex(WrongRing, r"'::g' is no IP address and no name"):
            Ring(7101, 7103, host="::g")
        self.assertEqual([is_own(host) for host in ("::1", "::", "fd00::5")], [True, False, False])

    @unittest.skipUnless(HAS_IPV6, "for want of IPv6")
    def test_a_ring_at_an_address_of_ipv6(self) -> None:
        votes = Votes()
        votes.leaders[20] = (2, 30)
        ring, _ = self.ring(votes, votes, host="::1")
        self.assertTrue(ring.campaign("red", 20, node=1).is_mine)
        ports = f"{ring.first}-{ring.ports[-1]}"
        self.assertEqual(told("--ring", f"[::1]:{ports}", "who", "red", "20"), (0, "leader 2 30\n", ""))
        votes = Votes()
        ring, _ = self.ring(votes, votes, host="::1")
        with mock.patch("cinoweta.election.secrets.randbelow", return_value=0), Lock(ring, "red") as held:
            self.assertEqual((held.term, holder(ring, "red").term), (1, 1))
        port = self.serve({"/health": (503, "node 2 failed\n"), "/status": (200, json.dumps(TOLD))}, "::1")
        self.assertEqual(status.health(port, host="::1"), ["node 2 failed"])
        self.assertEqual(told("status", "--port", f"[::1]:{port}")[0], 1)
        with self.assertRaisesRegex(NoAnswer, r"\A\[::1\]:1/health: "):
            status.health(1, host="::1")
        ring, _ = self.ring(deaf, deaf, host="::1", timeout=0.0)
        with self.assertRaisesRegex(NoAnswer, rf"\A\[::1\]:{ring.first}: "):
            ring.latest("red")

    @unittest.skipUnless(HAS_IPV6, "for want of IPv6")
    def test_it_is_asked_there_by_tasks(self) -> None:
        async def asked() -> tuple[Led | None, list[str]]:
            async with AsyncRing.parse(f"[::1]:{ring.first}-{ring.ports[-1]}", status=port) as same:
                return await same.latest("red"), await same.faults()

        votes = Votes()
        votes.leaders[20] = (2, 30)
        ring, _ = self.ring(votes, votes, host="::1")
        port = self.serve({"/health": (503, "node 2 failed\n")}, "::1")
        self.assertEqual(asyncio.run(asked()), (Led(20, Leader(2, 30)), ["node 2 failed"]))

    @tried
    def test_the_addresses_of_a_name_share_the_time(self) -> None:
        given = list[float]()

        def silent(_place: tuple[str, int], seconds: float) -> socket.socket:
            given.append(seconds)
            if len(given) == 1:
                raise ConnectionRefusedError("Connection refused")
            time.sleep(seconds)
            raise TimeoutError("timed out")

        before = time.monotonic()
        with mock.patch("cinoweta.link.look_up", return_value=["10.0.0.5", "10.0.0.6", "10.0.0.7"]), \
                mock.patch("socket.create_connection", side_effect=silent), self.assertRaises(TimeoutError):
            connect("ring.example", 7101, 0.6)
        took(before, 1.0)
        # Who refuses at once leaves its part to the others.
        for seconds, wanted in zip(given, (0.2, 0.3, 0.3), strict=True):
            self.assertAlmostEqual(seconds, wanted, delta=0.1)

    def test_what_is_left_out(self) -> None:
        self.assertEqual([Ring(7101, 7103).host, Ring.parse("7101-7103").host], ["127.0.0.1"] * 2)
        self.assertEqual(place("7100", "ring.example"), ("ring.example", 7100))
        for text in ("", "0", "65536", "a", "7100 ", "10.0.0.5", "10.0.0.5:", "10.0.0.5:x", "::7100"):
            with self.assertRaises(WrongRing, msg=text):
                place(text, "127.0.0.1")
        # A third one by its place is none.
        with self.assertRaises(TypeError):
            Ring(7101, 7103, OTHER)

    def test_it_is_asked_there(self) -> None:
        votes = Votes()
        votes.leaders[20] = (2, 30)
        ring, nodes = self.ring(votes, votes, host=OTHER)
        self.assertTrue(ring.campaign("red", 20, node=1).is_mine)
        # The terms far below were retired over sessions of a copy.
        self.assertEqual((votes.floor, ring.within(1.0).host), (19, OTHER))
        self.assertEqual(next(ring.watch("red")).term, 21)
        words = ["--ring", f"{OTHER}:{ring.first}-{ring.ports[-1]}", "who", "red", "21"]
        self.assertEqual(told(*words), (0, f"leader 1 {votes.stood[21]}\n", ""))
        with mock.patch.dict("os.environ", CINOWETA_RING=words[1]):
            self.assertEqual(told("who", "red", "20"), (0, "leader 2 30\n", ""))

    def test_who_does_not_answer_is_told(self) -> None:
        ring, _ = self.ring(deaf, deaf, host=OTHER, timeout=0.0)
        with self.assertRaisesRegex(NoAnswer, rf"\A{OTHER}:{ring.first}: "):
            ring.latest("red")
        with self.assertRaisesRegex(NoAnswer, rf"\A{OTHER}:1/health: "):
            status.health(1, host=OTHER)

    def test_its_status_is_asked_there(self) -> None:
        failed = {"/health": (503, "node 2 failed\n"), "/status": (200, json.dumps(TOLD))}
        port = self.serve(failed, OTHER)
        self.assertEqual(status.health(port, host=OTHER), ["node 2 failed"])
        self.assertEqual(status.status(port, host=OTHER), TOLD)
        with self.assertRaisesRegex(WrongRing, rf"\A{OTHER}:{port}/leaders\?node=1 answers 404"):
            next(status.leaders(port, 1, host=OTHER))
        for words in (["--port", f"{OTHER}:{port}"], ["--port", str(port), "--ring", f"{OTHER}:7101-7103"]):
            code, out, _ = told("status", *words)
            self.assertEqual((code, out.splitlines()[0]), (1, "node 2 failed"), words)
        with mock.patch.dict("os.environ", CINOWETA_RING=f"{OTHER}:7101-7103", CINOWETA_STATUS=str(port)):
            self.assertEqual(told("status")[0], 1)
        self.assertEqual(told("status", "--port", str(port))[0], 3)
        self.assertEqual(told("status", "--port", "70000")[0], 2)
        votes = Votes(elects=False)
        ring, _ = self.ring(votes, votes, host=OTHER)
        ring.status = port
        with self.assertRaisesRegex(NoLeader, ": node 2 failed"):
            ring.campaign("red", terms=1, seconds=0.0)
        words = ["--ring", f"{OTHER}:{ring.first}-{ring.ports[-1]}", "campaign", "--terms", "1", "--wait", "0", "red"]
        for text in (str(port), f"{OTHER}:{port}"):
            code, _, err = told(*words, "--status", text)
            self.assertEqual((code, err.rstrip()[-15:]), (4, ": node 2 failed"), text)
        code, _, err = told(*words, "--status", f"127.0.0.1:{port}")
        self.assertEqual((code, err), (2, f"cinoweta: 127.0.0.1:{port}: the ring is one of {OTHER}\n"))

    def test_a_lock_is_held_with_a_ring_of_each_own_address(self) -> None:
        votes = Votes()
        ring, _ = self.ring(votes, votes, host=OTHER)
        with mock.patch("cinoweta.election.secrets.randbelow", return_value=0), \
                mock.patch("cinoweta.locking.EVERY", 0.0), Lock(ring, "red") as held:
            self.assertEqual((held.term, held.is_lost(), holder(ring, "red").term), (1, False, 1))

    def test_the_groups_of_a_ring_of_another_host_go_on(self) -> None:
        votes = Votes()
        ring, _ = self.ring(votes, votes)
        leaders = {"leaders": [{"group": "red", "term": 5, "node": 1, "bid": 7}], "more": False}
        # Both rings have the same ports.
        nodes = {"nodes": [{"port": port} for port in ring.ports]}
        pages = {"/status": (200, json.dumps(nodes)), **{f"/leaders?node={node}": (200, json.dumps(leaders))
                                                       for node in (1, 2)}}
        words = ["--ring", f"{ring.first}-{ring.ports[-1]}", "move", "--from"]
        code, out, err = told(*words, str(self.serve(pages)))
        self.assertEqual((code, out), (2, ""))
        self.assertIn("tells of the new ring itself", err)
        with mock.patch("cinoweta.election.secrets.randbelow", return_value=0):
            code, out, err = told(*words, f"{OTHER}:{self.serve(pages, OTHER)}")
        self.assertEqual((code, out.splitlines()[-1]), (0, "moved 1"))
        self.assertEqual([*votes.stood], [6])


if __name__ == "__main__":
    unittest.main()
