"""The dump that a server writes at its end, and what `beanpax inspect` finds."""

import re
import stat

from harness import Case
from log_file import log_of_version_1

LEGAL = re.compile(r"legal: (\d+) submitted, (\d+) answered, (\d+) ordered\n")

# Session 1 waits before session 2 puts a job.
SMALL = b"""beanpax-dump 1
members 1
S 1 1 reserve
S 2 1 put 0 0 60 6869
A 2 1 INSERTED 1
A 1 1 RESERVED 1 6869
O 1 1
O 2 1
end
"""

WRONG = (
    (b"O 2 1\n", b"O 2 1\nO 9 1\n", "line 9: not submitted\n"),
    (b"O 2 1\n", b"O 2 1\nO 1 1\n", "line 9: not kept\n"),
    (b"S 2 1 put 0 0 60 6869\n", b"S 2 1 put 0 0 60 6869\nS 1 1 reserve\n", "line 5: submitted twice\n"),
    (b"INSERTED 1", b"INSERTED 2", "line 5: not the queue's answer\n"),
    (b"RESERVED 1 6869", b"RESERVED 1 6868", "line 6: not the queue's answer\n"),
    (b"RESERVED 1 6869", b"TIMED_OUT", "line 6: not the queue's answer\n"),
    (b"O 1 1\nO 2 1\n", b"O 1 1\n", "line 5: not the queue's answer\n"),
    (b"beanpax-dump 1", b"beanpax-dump 3", "line 1: bad line\n"),
    (b"members 1", b"members 0", "line 2: bad line\n"),
    (b"S 1 1 reserve", b"S 1 1  reserve", "line 3: bad line\n"),
    (b"end\n", b"", "line 9: bad line\n"),
    (b"end\n", b"end", "line 9: bad line\n"),
    (b"end\n", b"end\nend\n", "line 10: bad line\n"),
)


class Inspecting(Case):
    def inspect(self, text: bytes, told: str, status: int) -> None:
        (self.folder / "file").write_bytes(text)
        ended = self.program("inspect", "file")
        self.assertEqual((ended.output.decode(), ended.errors, ended.status), (told, "", status))
        self.assertEqual((self.folder / "file").read_bytes(), text)

    def test_a_legal_dump_is_told_so(self):
        """A dump in which every line is right is told as legal, with status 0."""
        self.inspect(SMALL, "legal: 2 submitted, 2 answered, 2 ordered\n", 0)

    def test_a_wrong_line_is_told(self):
        """A dump with one line changed, left out or added is told with that line and what is wrong, and status 3."""
        for old, new, told in WRONG:
            with self.subTest(new=new):
                self.assertEqual(SMALL.count(old), 1)
                self.inspect(SMALL.replace(old, new), told, 3)

    def test_what_is_no_dump_is_told(self):
        """A text that is neither a dump nor a log has a bad first line."""
        for text in (b"", b"\n", b"hello\n", bytes(range(256))):
            with self.subTest(text=text):
                self.inspect(text, "line 1: bad line\n", 3)

    def test_a_dump_without_its_end_is_no_dump(self):
        """Wherever a dump breaks off, that is told with status 3."""
        for size in range(1, len(SMALL)):
            if not SMALL[:size].endswith(b"\n"):
                continue
            with self.subTest(size=size):
                lines = SMALL[:size].count(b"\n")
                self.inspect(SMALL[:size], f"line {lines + 1}: bad line\n", 3)

    def test_a_log_is_told_with_its_commands(self):
        """A log is told as one with so many commands, and what is torn at its end is told."""
        log = log_of_version_1("0 5 tick", "1 1 put 0 0 9 78", "2 3 close")
        self.inspect(log, "log: 3 commands\n", 0)
        self.inspect(log[:-4], f"log: 2 commands, and {len('2 3 close d8945d41') - 3} bytes behind them\n", 0)

    def test_a_damaged_log_is_told(self):
        """A log with a line changed before others that are right is told as damaged, with the line and status 3."""
        log = log_of_version_1("0 5 tick", "1 1 put 0 0 9 78", "2 3 close")
        self.inspect(log.replace(b"9 78", b"9 79"), "line 3: log damaged\n", 3)

    def test_a_verdict_without_room_is_a_fault(self):
        """A verdict that can't be written ends the program with status 1 and the fault."""
        (self.folder / "file").write_bytes(SMALL)
        with open("/dev/full", "wb") as full:
            self.assert_fault(self.program("inspect", "file", stdout=full), "8 write failed")


class Dumping(Case):
    def inspected(self) -> tuple[int, ...]:
        """The counts of a dump that is legal."""
        ended = self.program("inspect", "run.dump")
        self.assertEqual((ended.status, ended.errors), (0, ""), ended.output)
        return tuple(map(int, LEGAL.fullmatch(ended.output.decode()).groups()))

    def dump_of_two(self, *words: object) -> bytes:
        """The dump of a server where one client puts a job, and another one reserves it."""
        server = self.serve("--sessions", 2, "--dump", "run.dump", *words)
        first, second = self.clients(server, 2)
        first.talk(b"put 0 0 60 5\r\nhello\r\n", b"INSERTED 1\r\n")
        second.talk(b"reserve\r\n", b"RESERVED 1 5\r\nhello\r\n")
        self.assert_good_end(server)
        return (self.folder / "run.dump").read_bytes()

    def test_a_dump_has_what_happened(self):
        """The dump of a server has what was asked and answered, and is legal."""
        text = self.dump_of_two()
        self.assertTrue(text.startswith(b"beanpax-dump 1\nmembers 3\n"), text)
        self.assertIn(b"put 0 0 60 " + b"hello".hex().encode(), text)
        self.assertRegex(text, rb"A \d+ 1 RESERVED 1 68656c6c6f\n")
        submitted, answered, ordered = self.inspected()
        self.assertEqual(answered, 2)
        self.assertGreaterEqual(submitted, 2)
        self.assertGreaterEqual(ordered, 2)

    def test_a_dump_with_another_answer_is_refused(self):
        """A dump in which one answer was changed is found out."""
        text = self.dump_of_two()
        changed = text.replace(b"INSERTED 1\n", b"INSERTED 2\n")
        self.assertNotEqual(changed, text)
        (self.folder / "run.dump").write_bytes(changed)
        ended = self.program("inspect", "run.dump")
        self.assertEqual(ended.status, 3)
        self.assertRegex(ended.output.decode(), r"line \d+: not the queue's answer\n")

    def test_a_dump_tells_the_nodes(self):
        """A dump tells how many nodes there are, and their weights where they aren't 1 each."""
        self.assertTrue(self.dump_of_two("--nodes", 1).startswith(b"beanpax-dump 1\nmembers 1\n"))
        self.assertTrue(self.dump_of_two("--weights", "3,1").startswith(b"beanpax-dump 2\nmembers 2\nweights 3 1\n"))
        self.inspected()

    def test_a_dump_has_the_largest_body(self):
        """A dump has a body of 65535 bytes to its end."""
        server = self.serve("--sessions", 1, "--nodes", 1, "--dump", "run.dump")
        client = self.client(server)
        body = self.draw.randbytes(65_535)
        self.assertEqual(client.put(body), 1)
        self.assert_good_end(server)
        text = (self.folder / "run.dump").read_bytes()
        self.assertTrue(text.startswith(b"beanpax-dump 1\nmembers 1\n"))
        self.assertIn(body.hex().encode(), text)
        self.inspected()

    def test_an_older_dump_is_written_over(self):
        """A dump takes the place of an older file, of which nothing is left."""
        (self.folder / "run.dump").write_bytes(b"older\n" * 10_000)
        self.assertNotIn(b"older", self.dump_of_two())
        self.inspected()

    def test_a_dump_that_cannot_be_written_is_a_fault(self):
        """A dump that can't be written is told at the server's end, with status 1."""
        for path in ("missing/run.dump", ".", "/dev/full"):
            with self.subTest(path=path):
                self.assert_fault(self.ended_with_dump(path), "13 file failed")

    def test_a_dump_that_cannot_be_written_is_told_with_the_reason(self):
        """Before the fault stand the path and the system's reason."""
        self.assert_reason(self.ended_with_dump("missing/run.dump"), "missing/run.dump", "No such file or directory (os error 2)")
        self.assert_reason(self.ended_with_dump("/dev/full"), "/dev/full", "No space left on device (os error 28)")

    def ended_with_dump(self, path: str):
        server = self.serve("--sessions", 1, "--dump", path)
        client = self.client(server)
        client.put()
        client.close()
        return server.ends()

    def test_a_dump_that_is_never_written_is_told_of(self):
        """A server that is to write a dump and has no end is told of beforehand, and one that is killed writes none."""
        server = self.serve("--dump", "run.dump")
        self.client(server).put()
        self.assertEqual(server.errors(), "beanpax: without --sessions no dump is written\n")
        server.kill()
        self.assertFalse((self.folder / "run.dump").exists())

    def test_a_dump_is_a_file_like_any_other(self):
        """A dump that is new is a regular file of who ran the server."""
        self.dump_of_two()
        self.assertTrue(stat.S_ISREG((self.folder / "run.dump").stat().st_mode))
