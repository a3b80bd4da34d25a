"""Logs that can't be had, files that are no log, and logs that are damaged: each is told, and nothing is written over."""

import os
import subprocess
import unittest
from collections.abc import Iterable

from client import Gone
from harness import Case, Ended
from log_file import Log, log_of_version_1

MISSING = "No such file or directory (os error 2)"

NO_LOGS = (
    b"my notes\n",
    b"beanpax-log 1 my notes",
    b"beanpax-log 1 my notes\n",
    b"beanpax-log 2 my notes",
    b"beanpax-log 1 1 1 1 my notes",
    b"beanpax-log 1 1  1",
    b"beanpax-log 1 0\n",
    b"beanpax-log 1 1001",
    b"beanpax-log 1 1 1 1 1 1 1 1 1",
    b"beanpax-log 3 1 1 1\n",
    b"beanpax-logs of a year",
    b"beanpax-dump 1\nmembers 1\nend\n",
    b"\n",
    b"\0" * 5000,
    b"b" * 300_000,
)


class Unopened(Case):
    """Paths at which no log can be."""

    def refuse(self, path: str) -> Ended:
        ended = self.refused("--log", path)
        self.assert_fault(ended, "13 file failed")
        return ended

    def test_a_path_that_leads_nowhere_is_told(self):
        """A log in a folder that isn't there, or behind a file, is a fault."""
        (self.folder / "file").write_bytes(b"mine\n")
        self.refuse("missing/jobs.log")
        self.refuse("file/jobs.log")
        self.assertEqual((self.folder / "file").read_bytes(), b"mine\n")

    def test_a_path_that_leads_nowhere_is_told_with_the_reason(self):
        """Before the fault stand the path and the system's reason."""
        (self.folder / "file").touch()
        self.assert_reason(self.refuse("missing/jobs.log"), "missing/jobs.log", MISSING)
        self.assert_reason(self.refuse("file/jobs.log"), "file/jobs.log", "Not a directory (os error 20)")
        self.assert_reason(self.refuse("."), ".", "Is a directory (os error 21)")

    def test_a_folder_is_no_log(self):
        """A folder can't be a log, and is left as it is."""
        (self.folder / "sub").mkdir()
        self.refuse("sub")
        self.assertEqual(list((self.folder / "sub").iterdir()), [])

    def test_a_full_device_is_no_log(self):
        """/dev/full can't be a log: the server ends with a fault, and doesn't read it for ever."""
        self.refuse("/dev/full")

    def test_an_endless_device_is_no_log(self):
        """/dev/zero can't be a log, and neither can /dev/null, which would forget all."""
        self.refuse("/dev/zero")
        self.refuse("/dev/null")

    def test_a_pipe_is_no_log(self):
        """A named pipe can't be a log: the server ends with a fault, and doesn't wait for somebody at its other end."""
        os.mkfifo(self.folder / "pipe")
        self.refuse("pipe")

    def test_a_pipe_with_somebody_at_its_end_is_no_log(self):
        """So it is where another process has the pipe open, too, and nothing is written into it."""
        os.mkfifo(self.folder / "pipe")
        other = os.open(self.folder / "pipe", os.O_RDWR | os.O_NONBLOCK)
        self.addCleanup(os.close, other)
        self.refuse("pipe")
        with self.assertRaises(BlockingIOError):
            os.read(other, 100)


class NoLog(Case):
    """Files that are no log."""

    def test_a_file_that_is_no_log_is_never_written_over(self):
        """Whatever stands in a file that no server began, the server ends with a fault and leaves it as it is."""
        log = Log(self.folder / "notes")
        for text in NO_LOGS:
            with self.subTest(text=text[:40]):
                self.kill_servers()
                log.write(text)
                self.assert_fault(self.refused("--log", "notes"), "15 log damaged: line 1")
                self.assertEqual(log.read(), text)

    def test_a_log_that_no_server_wrote_is_told(self):
        """A log in which every line is right, but whose commands are in no order, is a fault, and left as it is."""
        log = Log(self.folder / "jobs.log")
        for commands in (("1 2 put 0 0 60 61", "1 1 put 0 0 60 62"), ("0 7 tick", "0 3 tick")):
            with self.subTest(commands=commands):
                self.kill_servers()
                log.write(log_of_version_1(*commands))
                before = log.read()
                self.assert_fault(self.refused("--log", "jobs.log"), "15 log damaged: line 1")
                self.assertEqual(log.read(), before)


class Damaged(Case):
    """Logs of which something was changed."""

    def setUp(self) -> None:
        super().setUp()
        self.log = Log(self.folder / "jobs.log")
        self.lines = self.written_lines()

    def written_lines(self) -> list[bytes]:
        """The lines of a log that a server wrote."""
        server = self.serve("--log", "jobs.log")
        first, second = self.clients(server, 2)
        for number in range(8):
            first.put(b"body %d" % number, pri=number % 3)
            job = second.reserve()
            (second.delete, second.release, second.bury)[number % 3](job.id)
            first.use(f"tube-{number % 2}")
            second.watch(f"tube-{number % 2}")
        server.kill()
        return self.log.lines()

    def change(self, number: int, new: bytes) -> list[bytes]:
        """The lines, of which one is another; they count from 1."""
        return [*self.lines[:number - 1], new, *self.lines[number:]]

    def drawn_lines(self, count: int) -> Iterable[int]:
        """Numbers of lines: the first command's, and others that are drawn, all with a right line behind the next one."""
        return (2, *(self.draw.randrange(3, len(self.lines) - 1) for _ in range(count)))

    def with_byte_changed(self, line: bytes) -> bytes:
        """The line with another byte at a place that is drawn."""
        at = self.draw.randrange(len(line))
        new = self.draw.choice([byte for byte in range(256) if byte != line[at]])
        return line[:at] + bytes([new]) + line[at + 1:]

    def check_damaged(self, lines: list[bytes], number: int | None) -> None:
        """A server refuses the log, tells this line, or some line, and leaves it as it is; an inspection tells the same line."""
        self.kill_servers()
        self.log.write_lines(lines)
        before = self.log.read()
        ended = self.refused("--log", "jobs.log")
        if number is None:
            self.assertRegex(ended.last_error(), r"^beanpax: 15 log damaged: line \d+$")
            number = int(ended.last_error().rsplit(" ", 1)[1])
        self.assert_fault(ended, f"15 log damaged: line {number}")
        self.assertEqual(self.log.read(), before)
        # What doesn't begin as a log is taken for a dump.
        if before.startswith(b"beanpax-log"):
            found = self.program("inspect", "jobs.log")
            self.assertEqual((found.status, found.output.decode()), (3, f"line {number}: log damaged\n"))

    def test_a_line_that_was_changed_is_told(self):
        """A log with one byte of a line changed is refused with that line, whichever byte it is."""
        self.seed(11)
        for number in self.drawn_lines(12):
            new = self.with_byte_changed(self.lines[number - 1])
            with self.subTest(number=number, new=new):
                self.check_damaged(self.change(number, new), number)

    def test_a_line_that_was_left_out_is_told(self):
        """A log without one of its lines is refused with the place at which it lacks."""
        self.seed(12)
        for number in self.drawn_lines(5):
            with self.subTest(number=number):
                self.check_damaged(self.change(number, b""), number)

    def test_a_line_that_stands_twice_is_told(self):
        """A log with one line doubled is refused with the second one, also where it is the last line."""
        self.seed(13)
        for number in (*self.drawn_lines(5), len(self.lines)):
            with self.subTest(number=number):
                self.check_damaged(self.change(number, self.lines[number - 1] * 2), number + 1)

    def test_lines_that_were_swapped_are_told(self):
        """A log with two lines swapped is refused with the first of them."""
        self.seed(14)
        for number in (*self.drawn_lines(5), len(self.lines) - 1):
            with self.subTest(number=number):
                one, other = self.lines[number - 1:number + 1]
                self.check_damaged([*self.lines[:number - 1], other, one, *self.lines[number + 1:]], number)

    def test_a_hole_is_told(self):
        """A log of which a stretch is missing or is zeros is refused with the line where that begins."""
        self.seed(15)
        data = b"".join(self.lines)
        last = len(data) - len(self.lines[-1]) - len(self.lines[-2])
        for fill in (b"", b"\0"):
            for _ in range(4):
                first = self.draw.randrange(len(self.lines[0]), last - 200)
                size = self.draw.randrange(1, 200)
                with self.subTest(first=first, size=size, fill=fill):
                    number = data.count(b"\n", 0, first) + 1
                    self.check_damaged([data[:first] + fill * size + data[first + size:]], number)

    def test_a_line_of_another_log_is_told(self):
        """A log with a line of another log in place of its own is refused with that line."""
        self.log.path.unlink()
        others = self.written_lines_of_another()
        self.check_damaged(self.change(4, others[3]), 4)

    def written_lines_of_another(self) -> list[bytes]:
        server = self.serve("--log", "jobs.log")
        client = self.client(server)
        for _ in range(4):
            client.put(b"of another log")
        server.kill()
        return self.log.lines()

    def test_a_head_that_was_changed_is_told(self):
        """A log whose head is no head any more is refused with line 1."""
        head = self.lines[0]
        ends = (head.replace(b" 1\n", end) for end in (b" 1 \n", b" 0\n", b" x\n", b" 1001\n"))
        for new in (b"B" + head[1:], head.replace(b"log", b"lag"), head.replace(b"-log ", b"-log 9"), *ends, b"\n" + head, b""):
            with self.subTest(new=new):
                self.check_damaged(self.change(1, new), 1)

    def test_a_head_with_other_weights_is_told(self):
        """A log whose head tells other weights is refused."""
        self.check_damaged(self.change(1, self.lines[0].replace(b" 1\n", b" 2\n")), None)

    def test_a_head_of_another_version_is_told(self):
        """A log whose head tells another version is refused, and not taken as one that is torn right behind its head."""
        older = log_of_version_1("0 7 tick", "1 1 put 5 0 60 61", "1 2 put 9 0 60 6465").splitlines(keepends=True)
        for lines in (self.lines, older):
            version = b"2" if lines[0].startswith(b"beanpax-log 1") else b"1"
            head = b"beanpax-log " + version + lines[0][len(b"beanpax-log 1"):]
            with self.subTest(head=head, was=lines[0]):
                self.check_damaged([head, *lines[1:]], None)

    def test_a_last_line_that_was_changed_is_cut_off(self):
        """Where the last line alone is wrong, it is cut off as what was torn, and all before it is there."""
        self.seed(16)
        for _ in range(4):
            self.kill_servers()
            last = self.with_byte_changed(self.lines[-1])
            with self.subTest(last=last):
                self.log.write_lines([*self.lines[:-1], last])
                server = self.serve("--log", "jobs.log")
                self.assertEqual(server.errors(), f"beanpax: {len(last)} bytes behind the log were cut off\n")
                self.assertTrue(self.log.read().startswith(b"".join(self.lines[:-1])))
                self.assertEqual(self.client(server).put(b"next"), 9)

    def test_what_stands_before_the_damage_can_be_had(self):
        """The lines before the damage are a log from which a server starts, as the documentation advises."""
        number = len(self.lines) // 2
        self.check_damaged(self.change(number, self.with_byte_changed(self.lines[number - 1])), number)
        self.log.write_lines(self.lines[:number - 1])
        client = self.client(self.serve("--log", "jobs.log"))
        puts = sum(b" put " in line for line in self.lines[:number - 1])
        self.assertEqual(client.put(b"next"), puts + 1)


class Full(Case):
    """A log on a disk that becomes full."""

    seconds = 10

    def setUp(self) -> None:
        super().setUp()
        self.disk = self.folder / "disk"
        self.disk.mkdir()
        try:
            self.mount("size=128k")
        except (OSError, subprocess.CalledProcessError):
            raise unittest.SkipTest("mounting a small tmpfs isn't allowed here") from None
        self.addCleanup(subprocess.run, ["umount", self.disk], check=True)

    def mount(self, options: str) -> None:
        subprocess.run(["mount", "-t", "tmpfs", "-o", options, "tmpfs", self.disk], check=True, capture_output=True)

    def fill(self, server, most: int = 1000) -> list[int]:
        """The jobs that a client was told of until nothing more was told."""
        client, jobs = self.client(server), []
        try:
            for number in range(most):
                jobs.append(client.put(b"%04d" % number * 250))
        except Gone:
            return jobs
        self.fail("the disk doesn't become full")

    def check_full(self, *words: object) -> None:
        server = self.serve("--log", "disk/jobs.log", *words)
        jobs = self.fill(server)
        ended = server.ends()
        self.assertEqual(ended.status, 1)
        self.assertRegex(ended.last_error(), r"^beanpax: (8 write failed|13 file failed)$")
        self.assertGreater(len(jobs), 20)
        self.mount("remount,size=16m")
        server = self.serve("--log", "disk/jobs.log")
        server.errors()
        client = self.client(server)
        found = [client.peek(job) for job in jobs]
        self.assertEqual(found, [(job, b"%04d" % (job - 1) * 250) for job in jobs])
        client.put(b"more")

    def test_a_full_disk_loses_nothing_that_was_told(self):
        """Where the disk is full nobody is told anything more, the server ends with a fault, and with room made it has every
        job that was told."""
        self.check_full()

    def test_a_full_disk_loses_nothing_with_its_sync_put_off(self):
        """So it is where only the sync is put off."""
        self.check_full("--sync", 1000)
