"""What is drawn of ports."""
import socket
import unittest
from unittest import mock

import ports
from ports import Ports, free_ports


class PortsTest(unittest.TestCase):
    def test_they_lie_below_those_of_the_system(self) -> None:
        for given, end in (("32768\t60999\n", 32_768), ("15000 60999", 15_000), ("49152 65535", 32_768), ("1024 65535", 32_768)):
            with mock.patch("builtins.open", mock.mock_open(read_data=given)):
                self.assertEqual(ports.end_of_ports(), end)
        with mock.patch.object(ports, "RANGE", "/nothing"):
            self.assertEqual(ports.end_of_ports(), 32_768)
        for _ in range(100):
            first = free_ports(7)
            self.assertGreaterEqual(first, 1_024)
            self.assertLess(first + 6, ports.end_of_ports())

    def test_what_is_held_nobody_else_draws(self) -> None:
        with Ports(3) as held, mock.patch("random.randrange", return_value=held.first + 2):
            with self.assertRaisesRegex(RuntimeError, "no free ports"):
                Ports(3)
        # Each was tried and let go.
        with mock.patch("random.randrange", return_value=held.first), Ports(3) as again:
            self.assertEqual(again.first, held.first)

    def test_where_somebody_listens_is_not_drawn(self) -> None:
        for host in ("127.0.0.1", "127.0.0.2"):
            with socket.create_server((host, 0)) as server, mock.patch("random.randrange", return_value=server.getsockname()[1]):
                with self.assertRaises(RuntimeError):
                    free_ports(1)

    def test_a_server_listens_at_what_is_held_and_comes_back(self) -> None:
        with Ports(1) as held:
            for _ in range(3):
                with self.assertRaises(ConnectionRefusedError):
                    socket.create_connection(("127.0.0.1", held.first), 10.0)
                with socket.create_server(("127.0.0.1", held.first)) as server:
                    with socket.create_connection(("127.0.0.1", held.first), 10.0) as client, server.accept()[0] as session:
                        session.sendall(b"a")
                        self.assertEqual(client.recv(1), b"a")


if __name__ == "__main__":
    unittest.main()
