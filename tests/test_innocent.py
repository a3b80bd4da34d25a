"""What one client does to many jobs, tubes or clients at once: all are answered rightly, and the server spends no more
processor time on it than it may.

A bound is on the processor time of the server and not on the clock, so a busy machine changes little. It is some five times
what a program without a proof spent, which is far slower than a proved one. Where each tube was looked at for each client that
waits, the pauses and the tubes with jobs took more than twice the bound, and so did lists that were made anew."""

import time

from client import PATIENCE, Client
from harness import Case

# So many requests are sent before their replies are read.
AT_ONCE = 250

# So many jobs there are where there are many, so many tubes, and so many clients that wait.
JOBS, TUBES, WAITING = 1_000, 1_000, 600

# So many seconds pass until what is prepared begins.
AHEAD = 10


def name(number: int) -> str:
    return f"t{number:04}"


def put(body: bytes = b"x", delay: int = 0, ttr: int = 3600) -> bytes:
    return b"put 0 %d %d %d\r\n%s\r\n" % (delay, ttr, len(body), body)


class Innocent(Case):
    longest = 600
    seconds = 30

    def setUp(self) -> None:
        super().setUp()
        self.server = self.serve("--stats")
        self.maker = self.client(self.server)
        self.prepare()

    def prepare(self) -> None:
        """The event comes so many seconds from now."""
        self.event = self.second() + AHEAD

    def begin(self) -> None:
        """What is spent counts from here on."""
        self.since = self.server.processor_seconds()

    def assert_spent(self, most: float) -> None:
        spent = self.server.processor_seconds() - self.since
        self.note(f"{spent:.2f} s of a processor, of {most} s")
        self.assertLess(spent, most)

    def second(self) -> int:
        """The server's second."""
        return int(self.maker.stats()["uptime"])

    def seconds_left(self) -> int:
        """So many are left until the event; on a machine that is too slow for it, it is spread over several seconds."""
        return max(1, self.event - self.second())

    def ask_each(self, client: Client, requests: list[bytes], *replies: str) -> None:
        """Sends these, and each is answered by lines of these forms."""
        client.send(b"".join(requests))
        for _ in requests:
            for reply in replies:
                client.numbers(client.line(), reply)

    def make_tubes(self, is_delayed: bool = False) -> None:
        """Puts a job into each of the tubes, whose body is the tube's name."""
        for start in range(0, TUBES, AT_ONCE):
            tubes = [name(number).encode() for number in range(start, start + AT_ONCE)]
            delay = self.seconds_left() if is_delayed else 0
            requests = [b"use %s\r\n%s" % (tube, put(tube, delay)) for tube in tubes]
            self.ask_each(self.maker, requests, r"USING t(\d+)", r"INSERTED (\d+)")
        self.maker.use("default")

    def watchers(self) -> list[Client]:
        """Each of those who are to wait watches a tube of its own, among others."""
        watching = self.clients(self.server, WAITING)
        for number, client in enumerate(watching):
            client.watch(name(number))
        return watching

    def assert_each_gets_its_own(self, waiting: list[Client]) -> None:
        """All wait, and each gets the job of its tube."""
        for client in waiting:
            client.send(b"reserve\r\n")
        for number, client in enumerate(waiting):
            self.assertEqual(client.job(client.line(), "RESERVED").body, name(number).encode())

    def wait_until_ready(self, count: int) -> None:
        """It asks seldom, since a report costs something, too."""
        last = time.monotonic() + PATIENCE
        while int(self.maker.stats()["current-jobs-ready"]) != count:
            self.assertLess(time.monotonic(), last, "all are ready")
            time.sleep(0.2)

    def hold_jobs(self, ends_at_event: bool = False) -> Client:
        """One who holds all jobs."""
        holder = self.client(self.server)
        for _ in range(0, JOBS, AT_ONCE):
            ttr = self.seconds_left() if ends_at_event else 3600
            self.ask_each(self.maker, [put(ttr=ttr)] * AT_ONCE, r"INSERTED (\d+)")
            self.ask_each(holder, [b"reserve\r\n"] * AT_ONCE, r"RESERVED (\d+) 1", "x")
        return holder

    def test_who_lists_tubes(self):
        """Five clients who read nothing list a thousand tubes, while others put, reserve and delete, and come and leave."""
        self.make_tubes()
        names = ["default", *map(name, range(TUBES))]
        text = "---\n" + "".join(f"- {tube}\n" for tube in names)
        greedy, working = self.clients(self.server, 5), self.client(self.server)
        self.begin()
        for _ in range(10):
            for client in greedy:
                client.send(b"list-tubes\r\n")
                job = working.put()
                self.assertEqual(working.reserve().id, job)
                working.delete(job)
            coming = self.client(self.server)
            coming.watch(name(7))
            coming.close()
        for client in greedy:
            for _ in range(10):
                self.assertEqual(client.data(client.line()), text)
        self.assert_spent(12)
        self.maker.use("z")
        self.assertEqual(greedy[0].list_tubes(), [*names, "z"])
        self.maker.use("default")
        self.assertEqual(greedy[0].list_tubes(), names)

    def test_pauses_that_end(self):
        """A thousand pauses end in one second while six hundred clients wait, who get the jobs of their tubes."""
        waiting = self.watchers()
        self.make_tubes()
        self.prepare()
        for start in range(0, TUBES, AT_ONCE):
            left = self.seconds_left()
            lines = [f"pause-tube {name(number)} {left}\r\n".encode() for number in range(start, start + AT_ONCE)]
            self.ask_each(self.maker, lines, "PAUSED")
        self.begin()
        self.assert_each_gets_its_own(waiting)
        self.assert_spent(20)

    def test_tubes_with_jobs_that_are_due(self):
        """Jobs of a thousand tubes are due in one second while six hundred clients wait, who get those of their tubes."""
        waiting = self.watchers()
        self.prepare()
        self.make_tubes(is_delayed=True)
        self.begin()
        self.assert_each_gets_its_own(waiting)
        self.wait_until_ready(TUBES - WAITING)
        self.assert_spent(20)

    def test_delays_that_end(self):
        """A thousand delays end in one second."""
        for _ in range(0, JOBS, AT_ONCE):
            self.ask_each(self.maker, [put(delay=self.seconds_left())] * AT_ONCE, r"INSERTED (\d+)")
        self.begin()
        self.wait_until_ready(JOBS)
        self.assert_spent(4)

    def test_times_to_run_that_end(self):
        """The times to run of a thousand jobs end in one second."""
        self.hold_jobs(ends_at_event=True)
        self.begin()
        self.wait_until_ready(JOBS)
        self.assertEqual(self.maker.stats()["job-timeouts"], f"{JOBS}")
        self.assert_spent(5)

    def test_a_kick_of_many(self):
        """A kick makes a thousand jobs ready."""
        self.ask_each(self.maker, [put(delay=3600)] * JOBS, r"INSERTED (\d+)")
        self.begin()
        self.maker.is_told(f"kick {2 * JOBS}", f"KICKED {JOBS}")
        self.assert_spent(3)
        self.wait_until_ready(JOBS)

    def test_who_holds_many_leaves(self):
        """Who holds a thousand jobs leaves, and all are ready again."""
        holder = self.hold_jobs()
        self.begin()
        holder.close()
        self.wait_until_ready(JOBS)
        self.assert_spent(5)

    def test_who_watch_many_leave(self):
        """Fifty clients that watch a hundred tubes each leave, and no tube is left."""
        watching = self.clients(self.server, 50)
        for client in watching:
            self.ask_each(client, [f"watch {name(number)}\r\n".encode() for number in range(100)], r"WATCHING (\d+)")
        self.begin()
        for client in watching:
            client.close()
        last = time.monotonic() + PATIENCE
        while self.maker.list_tubes() != ["default"]:
            self.assertLess(time.monotonic(), last, "no tube is left")
            time.sleep(0.2)
        self.assert_spent(7)
