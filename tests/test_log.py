"""The log: what outlives the process, and what stands in the file."""

import signal
import stat
import subprocess
from functools import partial

from client import Client, Gone
from harness import Case, Server, free_port, is_refused, wait_until
from log_file import Log, log_lines, log_of_version_1

# After seven seconds session 1 put two jobs, and session 2 deleted the first.
OLDER = log_of_version_1("0 7 tick", "1 1 put 5 0 60 61", "1 2 put 9 0 60 6465", "2 1 delete 1")

# The same as it was worked out by hand, of a server that was killed as it wrote the next line.
TORN = (b"beanpax-log 1 1 1 1\n0 7 tick 7789f496\n1 1 put 5 0 60 61 6651e97c\n1 2 put 9 0 60 6465 d47036fa\n"
        b"2 1 delete 1 dfc79c41\n1 3 put 0 0 6")
CUT_OFF = "beanpax: 13 bytes behind the log were cut off\n"


class Logging(Case):
    """A test whose servers have a log."""

    def setUp(self) -> None:
        super().setUp()
        self.log = Log(self.folder / "jobs.log")

    def start(self, *words: object) -> Server:
        return self.serve("--log", "jobs.log", *words)

    def puts(self) -> list[str]:
        """The puts in the log, in their order."""
        return [act for act in self.log.acts() if act.startswith("put ")]


def set_up_jobs(client: Client) -> None:
    """A job of each kind, and one that is deleted; and a tube that is paused."""
    client.put(b"ready", pri=5)
    client.put(b"deleted", pri=5)
    client.put(b"delayed", delay=3600)
    client.put(b"buried", pri=1)
    client.put(b"reserved", pri=2)
    client.delete(2)
    client.reserve()
    client.bury(4, 7)
    client.reserve()
    client.use("paused")
    client.put(b"paused")
    client.pause_tube("paused", 3600)


def check_jobs(case: Case, client: Client) -> None:
    """All of them are as they were, and what was reserved is ready."""
    client.watch("paused")
    case.assertEqual(client.reserve_with_timeout(0), (5, b"reserved"))
    case.assertEqual(client.reserve_with_timeout(0), (1, b"ready"))
    case.assertIsNone(client.reserve_with_timeout(0))
    case.assertIsNone(client.peek(2))
    case.assertEqual(client.peek_delayed(), (3, b"delayed"))
    case.assertEqual(client.peek_buried(), (4, b"buried"))
    client.use("paused")
    case.assertEqual(client.peek_ready(), (6, b"paused"))
    case.assertEqual(client.put(b"next"), 7)


class Restarts(Logging):
    def check_outliving(self, number: int, words: str = "", later: str = "") -> None:
        server = self.start(*words.split())
        set_up_jobs(self.client(server))
        server.kill(number)
        client = self.client(self.start(*later.split()))
        client.use("default")
        check_jobs(self, client)

    def test_jobs_outlive_sigterm(self):
        """Jobs of each kind are there again after SIGTERM, ids go on, and what was reserved is ready."""
        self.check_outliving(signal.SIGTERM)

    def test_jobs_outlive_a_kill(self):
        """So they are after kill -9."""
        self.check_outliving(signal.SIGKILL)

    def test_other_nodes_go_on_from_a_log(self):
        """Nodes, weights and workers may be others at each start."""
        self.check_outliving(signal.SIGKILL, "--nodes 5 --workers 1", "--nodes 1 --workers 3")

    def test_jobs_outlive_the_last_session(self):
        """Jobs are there again after a server that has ended with the last of its sessions, and after one more."""
        for words, act in (("", set_up_jobs), ("--nodes 1 --sync 20", partial(check_jobs, self)), ("", self.check_next)):
            server = self.start("--sessions", 1, *words.split())
            act(self.client(server))
            self.assert_good_end(server)

    def check_next(self, client: Client) -> None:
        self.assertEqual(client.peek(7), (7, b"next"))

    def test_jobs_outlive_many_starts(self):
        """A log goes on from start to start, and no job is lost or comes back on the way."""
        kept = {}
        for turn in range(6):
            server = self.start()
            client = self.client(server)
            for job, body in kept.items():
                self.assertEqual(client.peek(job), (job, body))
            for number in range(3):
                body = b"%d of start %d" % (number, turn)
                kept[client.put(body)] = body
            gone = min(kept)
            del kept[gone]
            client.delete(gone)
            server.kill(signal.SIGKILL if turn % 2 else signal.SIGTERM)
        self.assertEqual(max(kept), 18)

    def test_bodies_outlive_byte_by_byte(self):
        """Bodies come back byte by byte: empty ones, those with every byte, and the largest."""
        bodies = [b"", bytes(range(256)), b"\r\n", self.draw.randbytes(65_535)]
        server = self.start()
        client = self.client(server)
        jobs = [client.put(body) for body in bodies]
        server.kill()
        client = self.client(self.start())
        self.assertEqual([client.peek(job).body for job in jobs], bodies)

    def test_a_log_only_grows(self):
        """What stands in the log stays there byte by byte, whatever comes behind."""
        before = b""
        for _ in range(3):
            server = self.start()
            client = self.client(server)
            client.put(b"x")
            client.reserve()
            server.kill()
            now = self.log.read()
            self.assertTrue(now.startswith(before))
            self.assertGreater(len(now), len(before))
            before = now

    def check_torn(self, server: Server) -> None:
        """One client finds the job that is left in the torn log. Then the server ends."""
        client = self.client(server)
        self.assertIsNone(client.peek(1))
        client.talk(b"reserve-with-timeout 0\r\n", b"RESERVED 2 2\r\nde\r\n")
        self.assertEqual(client.put(b"f"), 3)
        client.close()
        ended = server.ends()
        self.assertEqual((ended.status, ended.output, ended.errors), (0, b"", CUT_OFF))

    def test_a_torn_log_of_version_1_is_read(self):
        """What was torn behind a log that an earlier server wrote is cut off and told, and its jobs are there."""
        self.assertTrue(TORN.startswith(OLDER))
        self.log.write(TORN)
        self.check_torn(self.start("--sessions", 1))

    def test_clients_may_come_while_a_log_is_obeyed(self):
        """Who connects before a server has obeyed its log waits, and is answered when that is done."""
        self.log.write(log_of_version_1("0 1 tick", *(f"1 {number} put 0 0 60 61" for number in range(1, 201))))
        port = free_port()
        line = [self.program_path(), "serve", "--port", str(port), "--log", "jobs.log"]
        with subprocess.Popen(line, cwd=self.folder, stdout=subprocess.DEVNULL, stderr=subprocess.DEVNULL) as process:
            self.addCleanup(process.kill)
            wait_until(lambda: not is_refused("127.0.0.1", port), "clients can connect")
            client = Client("127.0.0.1", port)
            self.addCleanup(client.close)
            self.assertEqual(client.put(b"x"), 201)
            process.kill()

    def test_a_dump_beside_a_log_has_all_since_it_began(self):
        """A dump beside a log has what was done before this start, too, and both are legal."""
        self.log.write(TORN)
        server = self.start("--sessions", 1, "--dump", "run.dump")
        self.check_torn(server)
        # two puts and a delete of before, and three commands of this client; nobody is told of an end
        self.assertRegex(self.program("inspect", "run.dump").output, rb"^legal: \d+ submitted, 6 answered, \d+ ordered\n$")
        found = self.program("inspect", "jobs.log")
        self.assertRegex(found.output, rb"^log: \d+ commands\n$")
        # the four of before, three ends, and these three; seconds may have passed
        self.assertGreaterEqual(int(found.output.split()[1]), 10)


class File(Logging):
    def test_a_new_log_has_a_head_with_the_weights(self):
        """A log begins with its version and the weights of the nodes that began it."""
        self.start().kill()
        self.assertEqual(self.log.lines()[0], b"beanpax-log 2 1 1 1\n")
        self.log.path.unlink()
        self.start("--weights", "3,1").kill()
        self.assertEqual(self.log.lines()[0], b"beanpax-log 2 3 1\n")

    def test_each_line_tells_the_sum_of_the_line_before(self):
        """In a log of version 2 each line has the sum of the line before it, and its own sum over all that."""
        server = self.start()
        client = self.client(server)
        set_up_jobs(client)
        server.kill()
        lines = self.log.lines()
        self.assertGreater(len(lines), 10)
        commands = [line.decode().rsplit(" ", 2)[0] for line in lines[1:]]
        self.assertEqual(lines, list(log_lines(commands)))

    def test_a_log_of_version_1_is_read(self):
        """A log that an earlier server began is read, goes on, and is read again."""
        self.log.write(OLDER)
        server = self.start()
        client = self.client(server)
        self.assertIsNone(client.peek(1))
        self.assertEqual(client.peek(2), (2, b"de"))
        self.assertEqual(client.put(b"f"), 3)
        server.kill()
        self.assertTrue(self.log.read().startswith(OLDER))
        client = self.client(self.start())
        self.assertEqual((client.peek(2), client.peek(3)), ((2, b"de"), (3, b"f")))

    def test_what_took_effect_stands_in_the_log(self):
        """The log has each command that took effect, in the order in which it did."""
        server = self.start()
        client = self.client(server)
        client.put(b"hi", pri=7, ttr=60)
        client.reserve()
        client.bury(1, 9)
        client.kick(3)
        client.delete(1)
        acts = [act.split(" ")[0] for act in self.log.acts()]
        self.assertEqual([act for act in acts if act != "tick"], ["put", "reserve", "bury", "kick", "delete"])
        self.assertEqual([act.split(" ")[:5] for act in self.puts()], [["put", "7", "0", "60", "6869"]])

    def test_an_answer_comes_after_its_line(self):
        """When a client is told its answer, the command stands in the log."""
        client = self.client(self.start())
        for number in range(20):
            client.put(b"%d" % number)
            self.assertEqual(len(self.puts()), number + 1)

    def test_a_new_log_is_its_owners_alone(self):
        """Nobody but its owner may read a new log."""
        self.start()
        mode = self.log.path.stat().st_mode
        self.assertTrue(stat.S_ISREG(mode))
        self.assertEqual(stat.S_IMODE(mode), 0o600)

    def test_an_empty_file_becomes_a_log(self):
        """An empty file that is there already is taken as a log, and keeps its mode."""
        self.log.write(b"")
        self.log.path.chmod(0o640)
        server = self.start()
        self.client(server).put(b"x")
        server.kill()
        self.assertEqual(stat.S_IMODE(self.log.path.stat().st_mode), 0o640)
        self.assertEqual(self.client(self.start()).reserve(), (1, b"x"))

    def test_a_log_may_have_any_name(self):
        """The path of a log may have spaces and letters of any script."""
        name = "a log of jobs, журнал"
        server = self.serve("--log", name)
        self.client(server).put(b"x")
        server.kill()
        self.assertTrue((self.folder / name).read_bytes().startswith(b"beanpax-log "))
        self.assertEqual(self.client(self.serve("--log", name)).reserve(), (1, b"x"))

    def test_one_server_at_a_time_has_a_log(self):
        """A second server doesn't get the log of one that runs, which goes on; once that has gone, it does."""
        first = self.start()
        client = self.client(first)
        client.put(b"x")
        before = self.log.read()
        self.assert_fault(self.refused("--log", "jobs.log"), "13 file failed")
        self.assertTrue(self.log.read().startswith(before))
        client.put(b"y")
        first.kill()
        self.assertEqual(self.client(self.start()).peek(2), (2, b"y"))

    def test_a_log_that_another_cuts_is_a_fault(self):
        """Where somebody cuts the log of a server that runs, nobody is told anything more that may be lost, and it ends."""
        server = self.start()
        client = self.client(server)
        for _ in range(5):
            client.put(b"x" * 100)
        self.log.cut(len(self.log.read()) // 2)
        client.send(b"put 0 0 60 1\r\ny\r\n")
        with self.assertRaises(Gone):
            client.more()
        ended = server.ends()
        self.assertEqual(ended.status, 1)
        self.assertRegex(ended.last_error(), r"^beanpax: \d+ ")


class Syncing(Logging):
    def test_what_was_answered_outlives_sigterm(self):
        """Where only the sync is put off, fifty puts that were answered are there again after SIGTERM."""
        self.check_fifty(signal.SIGTERM)

    def test_what_was_answered_outlives_a_kill(self):
        """So they are after kill -9, since the log is written at once."""
        self.check_fifty(signal.SIGKILL)

    def check_fifty(self, number: int) -> None:
        server = self.start("--sync", 3_600_000)
        client = self.client(server)
        jobs = {client.put(b"%d" % number): b"%d" % number for number in range(50)}
        server.kill(number)
        client = self.client(self.start())
        missing = [job for job, body in jobs.items() if client.peek(job) != (job, body)]
        self.assertEqual(missing, [])

    def test_the_log_is_kept_after_a_while(self):
        """With --sync MS what took effect stands in the log a while later, though nobody asks for anything more."""
        server = self.start("--sync", 20)
        client = self.client(server)
        for number in range(10):
            client.put(b"%d" % number)
        wait_until(lambda: len(self.puts()) == 10, "all stands in the log")
        server.kill()
        client = self.client(self.start("--sync", 20))
        self.assertEqual([client.peek(job).id for job in range(1, 11)], list(range(1, 11)))


class Torn(Logging):
    def filled(self) -> bytes:
        """A log of some jobs, whose last line is whole."""
        server = self.start()
        client = self.client(server)
        for number in range(8):
            client.put(b"%d" % number * 5)
        server.kill()
        return self.log.read()

    def check_cut(self, data: bytes, size: int, end: bytes = b"") -> None:
        """A server starts from the first bytes of a log and what stands behind them, cuts off what is no whole line, and tells
        so; each job whose put is whole is there, and no other."""
        self.kill_servers()
        kept = data[:data.rindex(b"\n", 0, size) + 1]
        self.log.write(data[:size] + end)
        server = self.start()
        behind = size + len(end) - len(kept)
        self.assertEqual(server.errors(), f"beanpax: {behind} bytes behind the log were cut off\n" if behind else "")
        client = self.client(server)
        count = kept.count(b" put ")
        self.assertEqual([client.peek(job) is not None for job in range(1, 10)], [job <= count for job in range(1, 10)])
        self.assertTrue(self.log.read().startswith(kept))
        self.assertEqual(client.put(b"next"), count + 1)
        server.kill()
        again = self.client(self.start())
        self.assertEqual(again.peek(count + 1), (count + 1, b"next"))

    def test_a_torn_end_is_cut_off(self):
        """Wherever behind its head a log is torn, what is whole is kept, and the rest is cut off and told."""
        self.seed(5)
        data = self.filled()
        head = data.index(b"\n") + 1
        for size in (head, head + 1, len(data) - 1, len(data), *(self.draw.randrange(head, len(data)) for _ in range(4))):
            with self.subTest(size=size):
                self.check_cut(data, size)

    def test_a_torn_end_may_be_filled_with_anything(self):
        """What a disk left behind the last whole line, as zeros or half of a line, is cut off and told."""
        data = self.filled()
        for end in (b"\0" * 4096, b"\n\n", b"1 9 put 0 0 60 78 00000000\n", b"garbage", self.draw.randbytes(5000)):
            with self.subTest(end=end[:30]):
                self.check_cut(data, len(data), end)

    def test_a_torn_head_begins_anew(self):
        """A log that is torn within its head has no jobs, and begins anew."""
        data = self.filled()
        head = data.index(b"\n") + 1
        for size in (1, 7, 13, 14, head - 1):
            with self.subTest(size=size):
                self.kill_servers()
                self.log.write(data[:size])
                server = self.start()
                self.assertEqual(server.errors(), f"beanpax: {size} bytes behind the log were cut off\n")
                self.assertEqual(self.client(server).put(b"x"), 1)
                server.kill()
                self.assertEqual(self.client(self.start()).reserve(), (1, b"x"))
