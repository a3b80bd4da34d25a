"""What a loop has for another one is told at once, and not when the next second comes."""

from collections.abc import Callable

from client import Client
from harness import Case, wait_until
from log_file import Log

# So often is tried what a second may come between.
TRIES = 30

# More clients than one loop has while others have none.
CLIENTS = 20


class Wakes(Case):
    """A second stands in the log before what is told behind it: so the log says whether one has passed between."""

    seconds = 20

    def setUp(self) -> None:
        super().setUp()
        self.server = self.serve("--workers", 2, "--log", "jobs.log", "--stats")
        self.log = Log(self.folder / "jobs.log")
        self.there = self.client(self.server)

    def count_seconds(self) -> int:
        """How many seconds have passed: all of them are in the log once an answer has come."""
        self.there.use("default")
        return sum(act.startswith("tick") for act in self.log.acts())

    def assert_soon(self, act: Callable[[], object], what: str) -> None:
        """Of some tries there is one in which no second passes while this is done."""
        for _ in range(TRIES):
            before = self.count_seconds()
            act()
            if self.count_seconds() == before:
                return
        self.fail(f"a second had to pass each time before {what}")

    def test_a_job_goes_to_a_client_of_another_loop(self):
        """A client that waits is told of a job at once, whichever loop it is with."""
        for waiting in self.clients(self.server, CLIENTS):
            self.assert_soon(lambda client=waiting: self.give(client), "a job came from another client")

    def give(self, waiting: Client) -> None:
        """A client waits, and another one puts a job."""
        waiting.send(b"reserve\r\n")
        wait_until(lambda: self.there.count_waiting() == 1, "one waits")
        job = self.there.put(b"x")
        waiting.expect(b"RESERVED %d 1\r\nx\r\n" % job)
        waiting.delete(job)

    def test_a_client_that_comes_is_served(self):
        """A client that comes is answered at once, however many there are."""
        for _ in range(CLIENTS):
            self.assert_soon(lambda: self.client(self.server).use("a"), "a client that came was answered")

    def test_what_a_client_had_is_given_on(self):
        """When a client goes, what it had is given at once to who waits for it, whichever loops they are with."""
        for waiting in self.clients(self.server, CLIENTS):
            self.client(self.server)
            self.assert_soon(lambda client=waiting: self.take_over(client), "a job came from a client that went")

    def take_over(self, waiting: Client) -> None:
        """A client that comes gets a job, another one waits for it, and the first one goes."""
        leaving, job = self.client(self.server), self.there.put(b"x")
        leaving.reserve()
        waiting.send(b"reserve\r\n")
        wait_until(lambda: self.there.count_waiting() == 1, "one waits")
        leaving.close()
        waiting.expect(b"RESERVED %d 1\r\nx\r\n" % job)
        waiting.delete(job)
