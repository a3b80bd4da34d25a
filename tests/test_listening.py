"""Where a server listens, and how long."""

import signal
import unittest

from harness import Case, has_ipv6, is_refused, wait_until


class Listening(Case):
    def test_it_listens_at_the_loopback_alone(self):
        """Where nothing is said, a server listens at 127.0.0.1 and at no other address of the machine."""
        server = self.serve("--sessions", 2)
        self.assertEqual(server.host, "127.0.0.1")
        self.client(server).use("a")
        self.assertTrue(is_refused("127.0.0.2", server.port))
        self.client(server).use("b")
        self.assert_good_end(server)

    def test_it_listens_at_the_address_that_is_named(self):
        """A server listens at the address that --host names, and not at 127.0.0.1 then."""
        server = self.serve("--host", "127.0.0.3")
        self.assertEqual(server.host, "127.0.0.3")
        self.client(server).use("a")
        self.assertTrue(is_refused("127.0.0.1", server.port))

    @unittest.skipUnless(has_ipv6(), "this machine has no ::1")
    def test_it_listens_at_an_address_of_ipv6(self):
        """A server listens at ::1 where --host says so, and puts the address in brackets when it tells so."""
        server = self.serve("--host", "::1")
        self.assertEqual(server.host, "::1")
        self.client(server).use("a")
        self.assertTrue(is_refused("127.0.0.1", server.port))

    @unittest.skipUnless(has_ipv6(), "this machine has no ::1")
    def test_an_address_of_ipv6_may_have_brackets(self):
        """--host takes an address of IPv6 in brackets, too."""
        self.client(self.serve("--host", "[::1]")).use("a")

    def test_a_host_may_be_called_localhost(self):
        """--host takes the name localhost, and the server tells which address that is."""
        server = self.serve("--host", "localhost")
        self.assertIn(server.host, ("127.0.0.1", "::1"))
        self.client(server).use("a")

    def test_nothing_but_the_port_is_told(self):
        """On its output a server tells where it listens and nothing else, and on its errors nothing."""
        server = self.serve("--sessions", 1)
        self.client(server).put()
        self.assert_good_end(server)

    def test_it_ends_with_the_last_of_its_sessions(self):
        """After so many connections the port is closed, who is there is served on, and the server ends when they have left."""
        server = self.serve("--sessions", 3, "--workers", 1)
        first, leaving, last = self.clients(server, 3)
        leaving.send(b"put 0 0 60 5\r\nhe")
        leaving.close()
        first.use("a")
        first.close()
        last.use("b")
        wait_until(lambda: is_refused(server.host, server.port), "the port is closed")
        last.use("c")
        self.assertIsNone(server.process.poll())
        self.assert_good_end(server)

    def test_numbers_at_their_ends_are_taken(self):
        """The least and the greatest nodes, workers and weights that the help tells are taken."""
        for words in ("--nodes 1 --workers 1", "--nodes 7 --workers 64", "--weights 1000", "--weights 1,1,1,1,1,1,1000"):
            with self.subTest(words=words):
                client = self.client(self.serve(*words.split()))
                self.assertEqual(client.put(b"x"), 1)
                self.assertEqual(client.reserve(), (1, b"x"))

    def test_signals_end_it(self):
        """SIGTERM, SIGINT and SIGHUP end a server at once, though clients are connected."""
        for number in (signal.SIGTERM, signal.SIGINT, signal.SIGHUP):
            with self.subTest(signal=number):
                server = self.serve()
                client = self.client(server)
                client.use("a")
                server.send_signal(number)
                self.assertIn(server.ends().status, (-number, 0, 128 + number))
                client.expect_end()
