"""What a server asks of the system, in which order, and what comes of calls that fail: all as strace tells it."""

import unittest
from collections.abc import Callable
from pathlib import Path

from client import Gone
from harness import Case, Server, is_refused, wait_until
from tracing import SYNCS, Call, Log, Moment, can_trace, is_whole, moments, tracer

# How many jobs are put.
JOBS = 20


class Traced(Case):
    """A test whose servers are traced."""

    seconds = 10

    def setUp(self) -> None:
        super().setUp()
        if not can_trace():
            raise unittest.SkipTest("strace isn't here, or may not look at processes")
        # As strace tells paths.
        self.folder = self.folder.resolve()
        self.trace = self.folder / "trace"
        self.log = self.folder / "jobs.log"

    def start(self, *words: object, fault: str = "", of: Path | None = None) -> Server:
        """A server that is traced, and for which such calls fail."""
        return self.serve(*words, tracer=tracer(self.trace, fault, of))

    def whole_trace(self, server: Server) -> list[Moment]:
        """The trace of a server, which is killed."""
        process = server.process.pid
        server.kill()
        wait_until(lambda: is_whole(self.trace, process), "the trace is whole")
        return list(moments(self.trace))


class Order(Traced):
    def put_all(self, *words: object) -> Server:
        """A server with a log, whose clients have put jobs one after another, and then all at once."""
        server = self.start("--log", "jobs.log", *words)
        clients = self.clients(server, 4)
        for number in range(JOBS):
            clients[number % 4].put(b"x")
        for client in clients:
            client.send(b"put 0 0 60 1\r\nx\r\n")
        for client in clients:
            client.numbers(client.line(), r"INSERTED (\d+)")
        return server

    def test_an_answer_leaves_after_its_sync(self):
        """Before a client is told of a job, its line is written, and a sync that began after that is over."""
        self.whole_trace(self.put_all())
        told = Log(self.log).told(self.trace)
        self.assertEqual(sorted(one.job for one in told), list(range(1, JOBS + 5)))
        self.assertEqual([one for one in told if one.synced < one.job], [])

    def test_an_answer_leaves_after_its_write_where_the_sync_is_put_off(self):
        """With --sync MS a client is told of a job once its line is written, and the sync comes a while later, though
        nobody asks for anything more."""
        server = self.put_all("--sync", 50)
        wait_until(self.is_all_synced, "all that was written is synced")
        self.whole_trace(server)
        told = Log(self.log).told(self.trace)
        self.assertEqual(sorted(one.job for one in told), list(range(1, JOBS + 5)))
        self.assertEqual([one for one in told if one.written < one.job], [])

    def is_all_synced(self) -> bool:
        log = Log(self.log)
        log.told(self.trace)
        return log.synced == JOBS + 4

    def test_a_new_log_is_kept_before_anybody_is_let_in(self):
        """Before a server tells that it listens, a new log's name is synced in its folder, and so is the log's head."""
        begun, ended = self.before_it_listens(self.whole_trace(self.start("--log", "jobs.log")))
        opened = next(call for call in ended if call.name == "openat" and call.result.endswith(f"<{self.log}>"))
        self.assertIn(self.folder, self.synced_behind(opened, begun, ended))
        self.assert_synced(begun, ended, lambda call: '"beanpax-log ' in call.arguments)

    def test_a_cut_is_kept_before_anybody_is_let_in(self):
        """Before a server tells that it listens, what was torn is cut off its log, and that is synced."""
        self.serve("--log", "jobs.log").kill()
        with self.log.open("ab") as file:
            file.write(b"torn")
        server = self.start("--log", "jobs.log")
        self.assertEqual(server.errors(), "beanpax: 4 bytes behind the log were cut off\n")
        begun, ended = self.before_it_listens(self.whole_trace(server))
        self.assert_synced(begun, ended, lambda call: call.name == "ftruncate")

    def before_it_listens(self, found: list[Moment]) -> tuple[list[Call], list[Call]]:
        """The calls that began, and those that were over, before the server told that it listens."""
        listening = next(at for at, moment in enumerate(found) if '"listening on ' in moment.call.arguments)
        begun = [moment.call for moment in found[:listening] if not moment.is_end]
        return begun, [moment.call for moment in found[:listening] if moment.is_end]

    def assert_synced(self, begun: list[Call], ended: list[Call], is_change: Callable[[Call], bool]) -> None:
        """Such a call of the log was done, and behind it a sync of the log began that is over."""
        change = next(call for call in ended if call.is_of(self.log) and call.is_done() and is_change(call))
        self.assertIn(self.log, self.synced_behind(change, begun, ended))

    def synced_behind(self, change: Call, begun: list[Call], ended: list[Call]) -> list[Path]:
        """Which of the folder and its log are synced behind this call."""
        later = [call for call in begun[begun.index(change) + 1:] if call in ended and call.is_done()]
        syncs = [call for call in later if call.name in SYNCS]
        return [path for path in (self.folder, self.log) if any(call.is_of(path) for call in syncs)]

    def test_replies_are_not_held_back(self):
        """Each connection that is let in is told to send what it has at once."""
        server = self.start()
        for client in self.clients(server, 3):
            client.use("a")
        calls = [moment.call for moment in self.whole_trace(server) if moment.is_end and moment.call.is_done()]
        let_in = {call.result for call in calls if call.name == "accept4"}
        settings = [call.arguments.split(", ") for call in calls if call.name == "setsockopt"]
        self.assertEqual(len(let_in), 3)
        self.assertEqual(let_in - {words[0] for words in settings if words[2:4] == ["TCP_NODELAY", "[1]"]}, set())


class Faults(Traced):
    def check_log_fault(self, call: str, reason: str, fault: str) -> None:
        """Such a call on the log fails from the fourth one on: nobody is told anything more, the server ends with the
        fault, and what was told is there."""
        server = self.start("--log", "jobs.log", "--workers", 1, fault=f"{call}:error=EIO:when=4+", of=self.log)
        client, jobs = self.client(server), []
        with self.assertRaises(Gone):
            for number in range(JOBS):
                jobs.append(client.put(b"%d" % number))
        ended = server.ends()
        told = f"beanpax: jobs.log: {reason}: Input/output error (os error 5)\nbeanpax: {fault}\n"
        self.assertEqual((ended.status, ended.errors), (1, told))
        self.assertIn(jobs, ([1], [1, 2], [1, 2, 3]))
        server = self.serve("--log", "jobs.log")
        server.errors()
        client = self.client(server)
        self.assertEqual([client.peek(job) for job in jobs], [(job, b"%d" % (job - 1)) for job in jobs])

    def test_a_sync_that_fails_is_a_fault(self):
        """Where a sync fails nobody is told anything more, the server ends with a fault, and what was told is there."""
        self.check_log_fault("fdatasync", "sync failed", "13 file failed")

    def test_a_write_that_fails_is_a_fault(self):
        """So it is where a write to the log fails."""
        self.check_log_fault("write", "write failed", "8 write failed")

    def test_a_folder_that_cannot_be_synced_is_a_fault(self):
        """A new log whose name can't be synced is a fault, and nobody is let in."""
        ended = self.refused("--log", "jobs.log", tracer=tracer(self.trace, "fsync:error=EIO:when=1"))
        self.assert_fault(ended, "13 file failed")
        self.assert_reason(ended, "jobs.log", "Input/output error (os error 5)")

    def test_a_connection_that_fails_is_passed_over(self):
        """A connection that went wrong before it was accepted counts for nothing, and the next ones are served."""
        server = self.start("--sessions", 2, fault="accept4:error=ECONNABORTED:when=2..3")
        for client in self.clients(server, 2):
            client.use("a")
        self.assert_good_end(server)

    def test_a_listener_that_fails_is_a_fault(self):
        """Where nobody can connect any more, those who are there are served on, and the server ends with the fault."""
        server = self.start(fault="accept4:error=EINVAL:when=4+")
        first, second = self.clients(server, 2)
        wait_until(lambda: is_refused(server.host, server.port), "the port is closed")
        first.use("a")
        first.close()
        second.close()
        ended = server.ends()
        told = f"beanpax: {server.host}:{server.port}: Invalid argument (os error 22)\nbeanpax: 12 cannot listen\n"
        self.assertEqual((ended.status, ended.errors), (1, told))
