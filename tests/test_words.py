"""The words of the command line, and the statuses that the program ends with."""

import os
import socket
import subprocess
import unittest

from harness import Case, has_ipv6, taken_port

NO_SUCH_FILE = "No such file or directory (os error 2)"

# What is told of a server that other machines may reach, and of a dump for which there is no end.
OPEN = "beanpax: whoever reaches this address may use the queue"
NO_DUMP = "beanpax: without --sessions no dump is written\n"


class Words(Case):
    """Words that no file of cases can have."""

    def test_a_word_that_is_no_text_is_wrong(self):
        """A word that isn't UTF-8 is wrong, and nothing is done."""
        line = [self.program_path(), b"inspect", b"\xff"]
        done = subprocess.run(line, cwd=self.folder, capture_output=True, check=False, stdin=subprocess.DEVNULL)
        self.assertEqual((done.returncode, done.stdout), (2, b""))
        self.assertTrue(done.stderr)

    def test_help_without_room_is_a_fault(self):
        """Help that can't be written ends with status 1 and the fault."""
        with open("/dev/full", "wb") as full:
            ended = self.program("--help", stdout=full)
        self.assert_fault(ended, "8 write failed")


def taken_lines(port: int, host: str = "127.0.0.1") -> str:
    """What a server tells whose port somebody else has."""
    return f"beanpax: {host}:{port}: Address already in use (os error 98)\nbeanpax: 12 cannot listen\n"


class Warnings(Case):
    """What is told before the program does what it is asked. Here no server can listen."""

    def test_who_listens_for_other_machines_is_warned(self):
        """A server that other machines could reach is told of, before it tries to listen."""
        with taken_port() as port:
            for words in ("0.0.0.0", "192.0.2.1", "128.0.0.1", "::", "::2 --sessions 1"):
                with self.subTest(words=words):
                    ended = self.program("serve", "--port", port, "--host", *words.split())
                    self.assert_fault(ended, "12 cannot listen")
                    first, reason, _ = ended.errors.splitlines()
                    self.assertEqual(first, OPEN)
                    self.assertIn("(os error ", reason)

    def test_who_listens_at_the_loopback_is_not_warned(self):
        """A server that the machine's own clients alone can reach is told of nothing but what keeps it from listening."""
        for host in ("127.0.0.1", "127.255.0.3"):
            self.check_no_warning(host, host, host)

    @unittest.skipUnless(has_ipv6(), "this machine has no ::1")
    def test_who_listens_at_the_loopback_of_ipv6_is_not_warned(self):
        """So it is at ::1, however that is written."""
        for host in ("::1", "0:0:0:0:0:0:0:1"):
            self.check_no_warning(host, "::1", "[::1]")

    def check_no_warning(self, host: str, address: str, told: str) -> None:
        with self.subTest(host=host), taken_port(address) as port:
            ended = self.program("serve", "--host", host, "--port", port)
            self.assertEqual(ended.errors, taken_lines(port, told))

    def test_where_nobody_listens_nobody_is_warned(self):
        """Words that are wrong, a run and an inspection are told of no address."""
        self.assertEqual(self.program("serve", "--host", "nowhere").errors, "beanpax: bad host\n")
        self.assertEqual(self.program("run").errors, "")
        self.assertNotIn("whoever", self.program("inspect", "missing").errors)

    def test_a_dump_that_is_never_written_is_told_of(self):
        """Of a dump that no end of the server brings it is told beforehand, and of no other."""
        with taken_port() as port:
            for words, told in (("--dump run.txt", NO_DUMP), ("--dump run.txt --sessions 3", ""), ("--sessions 3", ""), ("", "")):
                with self.subTest(words=words):
                    ended = self.program("serve", "--port", port, *words.split())
                    self.assertEqual(ended.errors, told + taken_lines(port))
        for words in ("inspect run.txt", "serve --dump"):
            with self.subTest(words=words):
                self.assertNotIn(NO_DUMP, self.program(*words.split()).errors)


class Faults(Case):
    def test_a_missing_file_is_told(self):
        """A file to be inspected that isn't there ends the program with status 1 and the fault."""
        (self.folder / "file").touch()
        for path in ("missing", ".", "file/missing", "no/such/folder"):
            with self.subTest(path=path):
                self.assert_fault(self.program("inspect", path), "13 file failed")

    def test_a_missing_file_is_told_with_the_reason(self):
        """Before the fault stand the path and the system's reason."""
        self.assert_reason(self.program("inspect", "missing"), "missing", NO_SUCH_FILE)
        self.assert_reason(self.program("inspect", "."), ".", "Is a directory (os error 21)")

    def test_a_taken_port_is_told(self):
        """A server whose port somebody else has ends with status 1 and the fault."""
        with taken_port() as port:
            self.assert_fault(self.program("serve", "--port", port), "12 cannot listen")

    def test_a_taken_port_is_told_with_the_reason(self):
        """Before the fault stand the address and the system's reason, and nothing else is told."""
        with taken_port() as port:
            ended = self.program("serve", "--port", port)
        self.assertEqual(ended.errors, taken_lines(port))

    def test_an_address_of_another_machine_is_told(self):
        """A server can't listen at an address that isn't the machine's, and warns before that it would be open to others."""
        ended = self.program("serve", "--host", "192.0.2.1")
        self.assert_fault(ended, "12 cannot listen")
        self.assertEqual(ended.errors.splitlines()[0], "beanpax: whoever reaches this address may use the queue")

    def test_an_address_of_another_machine_is_told_with_the_reason(self):
        """Before the fault stand the address and the system's reason."""
        ended = self.program("serve", "--host", "192.0.2.1", "--port", 12_000)
        self.assert_reason(ended, "192.0.2.1:12000", "Cannot assign requested address (os error 99)")


    def test_a_taken_port_leaves_log_and_dump_alone(self):
        """A server that can't listen touches no file: an older dump and an older log stay, and no new one begins."""
        for name in ("older.dump", "older.log"):
            (self.folder / name).write_bytes(b"older\n")
        with taken_port() as port:
            for age in ("older", "new"):
                self.assert_fault(self.program("serve", "--sessions", 1, "--port", port, "--dump", f"{age}.dump",
                                               "--log", f"{age}.log"), "12 cannot listen")
        found = {path.name: path.read_bytes() for path in self.folder.iterdir()}
        self.assertEqual(found, {"older.dump": b"older\n", "older.log": b"older\n"})

    def test_a_taken_port_is_free_again_once_its_owner_has_gone(self):
        """A port is free again at once when its server has gone, though clients were connected."""
        first = self.serve()
        client = self.client(first)
        client.use("a")
        first.kill()
        second = self.serve(port=first.port)
        self.client(second).use("a")

    def test_an_output_without_room_is_a_fault(self):
        """A server that can't tell where it listens ends with status 1 and the fault."""
        with socket.create_server(("127.0.0.1", 0)) as listener:
            port = listener.getsockname()[1]
        with open("/dev/full", "wb") as full:
            ended = self.program("serve", "--sessions", 1, "--port", port, stdout=full)
        self.assert_fault(ended, "8 write failed")

    def test_errors_without_room_change_no_status(self):
        """Where nobody can be told on the errors, the status still says what happened."""
        with open("/dev/full", "wb") as full:
            self.assertEqual(self.program("frobnicate", stderr=full).status, 2)
            self.assertEqual(self.program("inspect", "missing", stderr=full).status, 1)

    def test_streams_that_are_closed_are_no_crash(self):
        """The program ends with a status of its own, and by no signal, where its streams are closed."""
        for closed in (0, 1, 2):
            with self.subTest(closed=closed):
                ended = self.program("run", given=b"delete 9\r\n", preexec_fn=lambda number=closed: os.close(number))
                self.assertIn(ended.status, (0, 1))
