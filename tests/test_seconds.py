"""How long the server's seconds are. What lasts n seconds lasts between n - 1 and n of them, and later on a busy machine."""

import time

from harness import Case

# So often is tried what a busy machine may spoil, which may tell a second late.
TRIES = 4


class Seconds(Case):
    seconds = 30

    def test_a_delay_is_not_shorter_than_told(self):
        """A delayed job comes, and no more than a second earlier than its delay says."""
        client = self.client(self.serve())
        since = time.monotonic()
        job = client.put(b"x", delay=3)
        self.assertEqual(client.reserve(), (job, b"x"))
        self.assertGreaterEqual(time.monotonic() - since, 2)

    def test_a_wait_is_not_shorter_than_told(self):
        """A wait of three seconds isn't over before three seconds have passed since the server was started."""
        since = time.monotonic()
        server = self.serve("--sessions", 1, "--nodes", 1)
        self.assertIsNone(self.client(server).reserve_with_timeout(3))
        self.assertGreaterEqual(time.monotonic() - since, 3)
        self.assert_good_end(server)

    def test_a_pause_is_not_shorter_than_told(self):
        """A pause of three seconds is over by itself, and not before three seconds have passed since the server was started."""
        since = time.monotonic()
        server = self.serve("--sessions", 2, "--nodes", 1)
        first = self.client(server)
        first.talk(b"put 0 0 9 1\r\na\r\npause-tube default 3\r\n", b"INSERTED 1\r\nPAUSED\r\n")
        first.close()
        self.client(server).talk(b"reserve\r\n", b"RESERVED 1 1\r\na\r\n")
        self.assertGreaterEqual(time.monotonic() - since, 3)
        self.assert_good_end(server)

    def test_ten_seconds_are_ten_of_the_clock(self):
        """From the end of one second to the end of the tenth after it ten seconds pass."""
        server = self.serve("--sessions", 1, "--nodes", 1)
        client, took = self.client(server), []
        while not took or not 9.5 <= took[-1] <= 10.5:
            self.assertLess(len(took), TRIES, f"ten seconds took {took}")
            self.assertIsNone(client.reserve_with_timeout(1))
            since = time.monotonic()
            self.assertIsNone(client.reserve_with_timeout(10))
            took.append(time.monotonic() - since)
        self.assert_good_end(server)

    def test_a_job_whose_time_is_over_is_ready_again(self):
        """A job whose time to run is over goes to another client, and who had it has it no longer."""
        late, other = self.clients(self.serve(), 2)
        job = late.put(b"x", ttr=2)
        late.reserve()
        self.assertEqual(other.reserve(), (job, b"x"))
        for line in (f"release {job} 0 0", f"bury {job} 0", f"touch {job}"):
            late.is_told(line, "NOT_FOUND")

    def test_a_deadline_is_told_to_who_waits(self):
        """Who has a job that is soon due, and waits for another one, is told so in time to touch it."""
        client = self.client(self.serve())
        for _ in range(TRIES):
            client.put(b"x", ttr=3)
            client.reserve()
            told = client.ask("reserve")
            if told == "DEADLINE_SOON":
                return
            # Two seconds came at once, and the job was ready again.
            client.delete(client.job(told, "RESERVED").id)
        self.fail("it is never told")

    def test_seconds_pass_for_who_is_left(self):
        """When other clients have left, seconds go on for the one who is there."""
        server = self.serve("--sessions", 4, "--workers", 2, "--nodes", 1)
        last, *leaving = self.clients(server, 4)
        last.use("b")
        for client in leaving:
            client.use("a")
            client.close()
        for _ in range(2):
            self.assertIsNone(last.reserve_with_timeout(1))
        self.assert_good_end(server)
