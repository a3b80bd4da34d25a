"""Whether jobs outlive a server that is killed (SIGKILL) at drawn moments, while clients put, reserve and delete."""

import subprocess
import threading
import time
from random import Random

from client import Client, Gone, Job
from harness import Case, Server, free_port, wait_until

CLIENTS = 8

# A server is killed after so many answers at least and at most, and then within so many seconds.
FEWEST, MOST, LATE = 10, 30, 0.02

# A client waits so many seconds at most before each command.
LONGEST_PAUSE = 0.01

# So many kills after the last look the jobs are looked at again: each look stands in the log, too.
LOOK_AFTER = 2

# One that is killed while it starts lives so many seconds at most.
LONGEST_START = 0.1


class Jobs:
    """What clients know of all jobs that were ever put."""

    def __init__(self) -> None:
        self.lock = threading.Lock()
        self.count = 0
        # Those that have to be there, by id; and those that may be there or not, since nobody was told that they are deleted.
        self.there: dict[int, bytes] = {}
        self.asked: set[int] = set()
        self.deleted: set[int] = set()
        self.inserted: set[int] = set()
        self.faults: list[str] = []
        self.answers = 0

    def count_answer(self) -> None:
        with self.lock:
            self.answers += 1

    def next_body(self, draw: Random) -> bytes:
        with self.lock:
            self.count += 1
            return b"%d %s" % (self.count, b"x" * draw.randrange(200))

    def insert(self, job: int, body: bytes) -> None:
        with self.lock:
            self.check(job not in self.inserted, f"id {job} was given twice")
            self.inserted.add(job)
            # Another client may have had it, and been told that it is deleted, before.
            if job not in self.deleted:
                self.there[job] = body

    def reserve(self, job: Job) -> None:
        with self.lock:
            self.check(job.id not in self.deleted, f"{job.id} is back")
            # Who put it may not have noted it yet.
            self.check(self.there.get(job.id, job.body) == job.body, f"{job.id} has another body")

    def ask_to_delete(self, job: int) -> None:
        with self.lock:
            self.asked.add(job)

    def delete(self, job: int) -> None:
        with self.lock:
            self.there.pop(job, None)
            self.deleted.add(job)

    def check(self, is_so: bool, fault: str) -> None:
        if not is_so:
            self.faults.append(fault)


class Worker(threading.Thread):
    """A client that works until its server has gone."""

    def __init__(self, client: Client, jobs: Jobs, draw: Random):
        super().__init__()
        self.client, self.jobs, self.draw = client, jobs, draw
        self.held: list[int] = []

    def run(self) -> None:
        try:
            while True:
                time.sleep(LONGEST_PAUSE * self.draw.random())
                self.act()
                self.jobs.count_answer()
        except Gone:
            pass
        except Exception as error:
            self.jobs.faults.append(f"{type(error).__name__}: {error}")

    def act(self) -> None:
        chance = self.draw.random()
        if chance < 0.45:
            body = self.jobs.next_body(self.draw)
            self.jobs.insert(self.client.put(body, pri=self.draw.randrange(3)), body)
        elif chance < 0.7 or not self.held:
            self.reserve()
        else:
            self.give_up(self.held.pop(self.draw.randrange(len(self.held))), chance)

    def reserve(self) -> None:
        job = self.client.reserve_with_timeout(0)
        if job:
            self.jobs.reserve(job)
            self.held.append(job.id)

    def give_up(self, job: int, chance: float) -> None:
        if chance < 0.9:
            self.jobs.ask_to_delete(job)
            self.client.delete(job)
            self.jobs.delete(job)
        elif chance < 0.95:
            self.client.release(job, pri=1)
        else:
            self.client.bury(job, pri=1)


class Kills(Case):
    seconds = 20

    def start(self, *words: object) -> Server:
        """A server of the log, which tells nothing but what was torn."""
        server = self.serve("--log", "jobs.log", *words)
        self.assertRegex(server.errors(), r"^(beanpax: \d+ bytes behind the log were cut off\n)?$")
        return server

    def check_kills(self, kills: int, seed: int, *words: object) -> None:
        """Kills so many servers of one log under load, some of their successors while they start, and looks at the jobs."""
        self.seed(seed)
        jobs, most = Jobs(), 0
        for number in range(kills):
            server = self.start(*words)
            if number % LOOK_AFTER == 0:
                most = max(most, self.look(server, jobs))
            self.work_and_kill(server, jobs)
            if self.draw.random() < 0.3:
                self.kill_at_start(*words)
        most = max(most, self.look(self.start(*words), jobs))
        self.assertGreaterEqual(jobs.answers, kills * FEWEST)
        self.note(f"{kills} kills: {len(jobs.inserted)} jobs put, {len(jobs.deleted)} deleted, at most {most} there")

    def work_and_kill(self, server: Server, jobs: Jobs) -> None:
        """Clients work until the server is killed, which is at a drawn moment after a drawn number of answers."""
        last = jobs.answers + self.draw.randrange(FEWEST, MOST)
        workers = [Worker(client, jobs, Random(self.draw.random())) for client in self.clients(server, CLIENTS)]
        for worker in workers:
            worker.start()
        try:
            wait_until(lambda: jobs.answers >= last or jobs.faults, "clients are answered")
            time.sleep(self.draw.random() * LATE)
        finally:
            server.kill()
            for worker in workers:
                worker.join()
        self.assertEqual(jobs.faults, [])

    def kill_at_start(self, *words: object) -> None:
        """Kills a server at a drawn moment, perhaps before it listens."""
        line = [self.program_path(), "serve", "--port", str(free_port()), "--log", "jobs.log", *map(str, words)]
        with subprocess.Popen(line, cwd=self.folder, stdout=subprocess.DEVNULL, stderr=subprocess.DEVNULL) as process:
            time.sleep(self.draw.random() * LONGEST_START)
            process.kill()

    def look(self, server: Server, jobs: Jobs) -> int:
        """All jobs are there that have to be, each with its body, and none that was deleted. Answers how many there are."""
        client = self.client(server)
        found = {job: client.peek(job) for job in sorted(jobs.there.keys() | jobs.deleted)}
        there = {job: peeked.body for job, peeked in found.items() if peeked}
        missing = [job for job in jobs.there if job not in there and job not in jobs.asked]
        self.assertEqual(missing, [], "they were put, and are missing")
        self.assertEqual([job for job in there if job in jobs.deleted], [], "they were deleted, and are back")
        self.assertEqual({job: jobs.there[job] for job in there}, there)
        # Of those that were asked to be deleted it is known now.
        for job in jobs.there.keys() - there.keys():
            jobs.delete(job)
        jobs.asked.clear()
        return len(there)

    def test_kills_under_load(self):
        """Nothing that was answered is missing, nothing that was deleted is back, and no id is given twice."""
        self.check_kills(4, 1)

    def test_kills_under_load_again(self):
        """So it is with other moments and other commands."""
        self.check_kills(4, 2)

    def test_kills_under_load_once_more(self):
        """So it is with others again."""
        self.check_kills(4, 3)

    def test_kills_of_one_node(self):
        """So it is on one node with one worker."""
        self.check_kills(5, 4, "--nodes", 1, "--workers", 1)

    def test_kills_of_many_nodes(self):
        """So it is on five nodes with eight workers."""
        self.check_kills(3, 5, "--nodes", 5, "--workers", 8)

    def test_kills_where_the_sync_is_put_off(self):
        """So it is where only the sync is put off: a process that is killed leaves to the system what it wrote."""
        self.check_kills(4, 6, "--sync", 1000)
