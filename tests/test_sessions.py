"""Clients that come after others: what one leaves behind is no other one's."""

from collections.abc import Callable

from client import Client, Job
from harness import Case, wait_until


class Followed(Case):
    """A test whose clients come one after the other."""

    def begin(self, *words: object) -> Client:
        """Starts a server, and answers a client that stays."""
        self.server = self.serve("--nodes", 3, "--stats", *words)
        return self.client(self.server)

    def next(self) -> Client:
        """A client that is closed by the test."""
        return Client(self.server.host, self.server.port)

    def is_new(self, client: Client, held: int) -> None:
        """The client has what every new one has, and not the job that another one held."""
        self.assertEqual(client.list_tubes_watched(), ["default"])
        self.assertEqual(client.list_tube_used(), "default")
        client.is_told(f"touch {held}", "NOT_FOUND")
        self.assertIsNone(client.reserve_with_timeout(0))

    def quit(self, client: Client) -> None:
        client.send(b"quit\r\n")
        client.expect_end()
        client.close()

    def close_asking(self, client: Client) -> None:
        """Goes without the answers to what it asked."""
        client.send(b"list-tubes\r\n" * 20)
        client.close()


class Successors(Followed):
    """One client after the other on three nodes, of which each may have the session of an earlier one."""

    longest = 900

    seconds = 40

    def generations(self, count: int, leave: Callable[[int, Client], None]) -> Job:
        """So many clients, one after the other: each is like new, watches a tube, gets the job that the one before held, and
        leaves with it."""
        staying = self.begin()
        staying.use("work")
        job = Job(staying.put(b"hello"), b"hello")
        for number in range(count):
            client = self.next()
            self.is_new(client, job.id)
            client.use(f"tube-{number % 10}")
            self.assertEqual(client.watch("work"), 2)
            self.assertEqual(client.reserve(), job)
            leave(number, client)
        return job

    def test_three_thousand_hold_a_job_in_turn(self):
        """Of three thousand clients each watches `default` alone, holds nothing, and gets the job that the last one held."""
        job = self.generations(3_000, lambda number, client: client.close())
        last = self.client(self.server)
        self.is_new(last, job.id)
        last.watch("work")
        self.assertEqual(last.reserve(), job)
        last.delete(job.id)
        wait_until(lambda: last.count_connections() == 2, "two clients are left")

    def test_who_comes_late_is_answered_rightly(self):
        """A client that comes after five hundred others, who left in each way, is answered as if it were the first."""
        ways = (Client.close, Client.reset, self.quit, self.close_asking, self.reset_waiting)
        job = self.generations(500, lambda number, client: ways[number % len(ways)](client))
        last = self.client(self.server)
        self.is_new(last, job.id)
        ids = [last.put(b"%d" % number, pri=9 - number) for number in range(10)]
        self.assertEqual(ids, list(range(job.id + 1, job.id + 11)))
        self.assertEqual([last.reserve().id for _ in ids], ids[::-1])
        for number in ids:
            last.touch(number)
            last.delete(number)
        self.assertIsNone(last.peek_ready())
        last.watch("work")
        self.assertEqual(last.reserve(), job)
        last.release(job.id)
        self.assertEqual(last.reserve(), job)
        last.delete(job.id)
        self.assertIsNone(last.reserve_with_timeout(0))

    def reset_waiting(self, client: Client) -> None:
        """Goes while it waits for another job."""
        client.send(b"reserve\r\n")
        client.reset()

    def test_a_wait_ends_with_who_waits(self):
        """Where a client goes that waits for a job, the next one is told of none, and gets the job where it asks for it."""
        staying = self.begin()
        staying.use("work")
        for number in range(200):
            waiting = self.next()
            waiting.watch("work")
            waiting.send(b"reserve\r\n")
            wait_until(lambda: staying.count_waiting() == 1, "one waits")
            waiting.reset()
            wait_until(lambda: staying.count_waiting() == 0, "none waits")
            client = self.next()
            self.assertEqual(client.list_tubes_watched(), ["default"])
            job = staying.put(b"%d" % number)
            client.is_told("list-tube-used", "USING default")
            self.assertFalse(client.has_heard())
            client.watch("work")
            self.assertEqual(client.reserve(), (job, b"%d" % number))
            client.delete(job)
            client.close()

    def test_many_come_and_go_at_once(self):
        """Forty clients at once are each followed by another one fifty times, and none has what another one left."""
        staying = self.begin("--workers", 4)
        jobs = [staying.put(b"%d" % number, pri=number) for number in range(40)]
        for _ in range(50):
            clients = [self.next() for _ in jobs]
            for number, client in enumerate(clients):
                client.send(b"list-tubes-watched\r\nwatch tube-%d\r\nreserve\r\n" % number)
            held = []
            for client in clients:
                self.assertEqual(client.names(client.line()), ["default"])
                client.expect(b"WATCHING 2\r\n")
                held.append(client.job(client.line(), "RESERVED").id)
            self.assertEqual(sorted(held), jobs)
            for client in clients:
                client.close()
        wait_until(lambda: staying.stats()["current-jobs-ready"] == str(len(jobs)), "nobody holds a job")
        last = self.client(self.server)
        self.assertEqual([last.reserve().id for _ in jobs], jobs)
        self.assertEqual(last.list_tubes_watched(), ["default"])


class Logged(Followed):
    """The same at servers that have a log, one after the other."""

    def come_and_go(self, jobs: dict[int, bytes], number: int) -> None:
        """A client that is like new gets one of the jobs, watches a tube, and leaves."""
        ways = (Client.close, Client.reset, self.quit, self.close_asking)
        client = self.next()
        self.assertEqual(client.list_tubes_watched(), ["default"])
        job = client.reserve()
        self.assertEqual(job.body, jobs[job.id])
        client.watch(f"tube-{number % 10}")
        ways[number % len(ways)](client)

    def test_sessions_go_on_behind_their_ends_in_the_log(self):
        """Five servers are killed one after the other while clients hold a job and wait for one: in the log sessions go on
        behind their ends, and each server goes on with the jobs that the last one left."""
        jobs = {}
        for server in range(5):
            staying = self.begin("--log", "jobs.log")
            for body in (b"a of %d" % server, b"b of %d" % server):
                jobs[staying.put(body)] = body
            for number in range(40):
                self.come_and_go(jobs, number)
            holding, waiting = self.client(self.server), self.client(self.server)
            deleted = holding.reserve().id
            holding.delete(deleted)
            del jobs[deleted]
            holding.reserve()
            waiting.send(b"watch empty\r\nignore default\r\nreserve\r\n")
            waiting.expect(b"WATCHING 2\r\nWATCHING 1\r\n")
            self.server.kill()
        self.assertGreater(len(self.followed_ends()), 50)
        self.assertLess(len({session for session, _, _ in self.commands()}), 100)
        client = self.begin("--log", "jobs.log")
        left = [client.reserve() for _ in jobs]
        self.assertEqual({job.id: job.body for job in left}, jobs)

    def test_the_numbers_of_a_session_rise(self):
        """In a log each command of a session has a greater number than the last one, also behind its end."""
        job = self.begin("--log", "jobs.log").put(b"x")
        for number in range(30):
            self.come_and_go({job: b"x"}, number)
        self.server.kill()
        self.assertGreater(len(self.followed_ends()), 20)
        newest: dict[str, int] = {}
        for session, number, _ in self.commands():
            self.assertGreater(number, newest.get(session, 0))
            newest[session] = number

    def test_no_dump_of_a_log_whose_sessions_go_on(self):
        """A start with --dump from such a log is refused and told why, and the log is left as it is."""
        job = self.begin("--log", "jobs.log").put(b"x")
        for number in range(10):
            self.come_and_go({job: b"x"}, number)
        self.server.kill()
        log = self.folder / "jobs.log"
        before = log.read_bytes()
        ended = self.refused("--log", "jobs.log", "--dump", "run.dump")
        self.assert_fault(ended, "13 file failed")
        self.assert_reason(ended, "jobs.log", "a server that uses session numbers again wrote the log; start without --dump")
        self.assertEqual(log.read_bytes(), before)
        self.assertEqual(self.begin("--log", "jobs.log").reserve(), (job, b"x"))

    def test_each_has_a_session_of_its_own_beside_a_dump(self):
        """With --log and --dump no session goes on behind its end, and a server goes on from that log with both."""
        jobs = {}
        for _ in range(2):
            staying = self.begin("--log", "jobs.log", "--dump", "run.dump", "--sessions", 1000)
            jobs[staying.put(b"x")] = b"x"
            for number in range(20):
                self.come_and_go(jobs, number)
            self.server.kill()
        self.assertEqual(self.followed_ends(), [])
        client = self.begin("--log", "jobs.log")
        self.assertEqual({client.reserve().id for _ in jobs}, set(jobs))

    def commands(self) -> list[tuple[str, int, str]]:
        """The session, the number and the act of each command in the log, but those of the clock."""
        lines = (self.folder / "jobs.log").read_text(encoding="ascii").splitlines()[1:]
        found = [line.split(" ")[:3] for line in lines]
        return [(session, int(number), act) for session, number, act in found if session != "0"]

    def followed_ends(self) -> list[str]:
        """The sessions of the ends in the log behind which their session goes on."""
        found, later = [], set()
        for session, _, act in reversed(self.commands()):
            if act == "close" and session in later:
                found.append(session)
            later.add(session)
        return found
