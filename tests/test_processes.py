"""A server whose process stands still, or runs out of what the system gives it."""

import resource
import signal
import time
from pathlib import Path

from client import Client
from harness import Case, Server, free_port, wait_until


def is_stopped(server: Server) -> bool:
    stat = Path(f"/proc/{server.process.pid}/stat").read_text(encoding="ascii")
    return stat.rsplit(") ", 1)[1].startswith("T")


class Stopped(Case):
    seconds = 10

    def stand_still(self, server: Server, seconds: float) -> None:
        """Stops the process for so long."""
        server.send_signal(signal.SIGSTOP)
        wait_until(lambda: is_stopped(server), "the process stands still")
        time.sleep(seconds)

    def test_a_stopped_server_goes_on(self):
        """What clients sent while the process stood still is answered once it goes on, several times in a row."""
        server = self.serve()
        clients = self.clients(server, 8)
        for _ in range(3):
            self.stand_still(server, 0.5)
            for client in clients:
                client.send(b"put 0 0 60 1\r\nx\r\nreserve\r\n")
            server.send_signal(signal.SIGCONT)
            put = {client.numbers(client.line(), r"INSERTED (\d+)")[0] for client in clients}
            given = [client.job(client.line(), "RESERVED").id for client in clients]
            self.assertEqual((put, len(put)), (set(given), len(clients)))
            for client, job in zip(clients, given):
                client.delete(job)

    def test_the_clock_goes_on_to_where_it_is(self):
        """The seconds in which the process stood still count, once it goes on."""
        server = self.serve("--stats")
        client = self.client(server)
        job = client.put(b"x")
        self.stand_still(server, 5)
        server.send_signal(signal.SIGCONT)
        # A second that comes at once: a clock that had stood still would be at the second or third one.
        client.use("a")
        client.watch("a")
        client.ignore("default")
        self.assertIsNone(client.reserve_with_timeout(1))
        self.assertGreaterEqual(int(client.stats_job(job)["age"]), 4)

    def test_a_stopped_server_keeps_its_log(self):
        """A server that is killed while it stands still has lost nothing that it told."""
        server = self.serve("--log", "jobs.log")
        client = self.client(server)
        jobs = [client.put(b"%d" % number) for number in range(10)]
        server.send_signal(signal.SIGSTOP)
        server.kill()
        client = self.client(self.serve("--log", "jobs.log"))
        self.assertEqual([client.peek(job) for job in jobs], [(job, b"%d" % number) for number, job in enumerate(jobs)])


class Descriptors(Case):
    seconds = 15

    # A server may have so many files open, and so many clients come.
    FILES, CLIENTS = 40, 60

    def crowd(self) -> tuple[Server, list[Client]]:
        """More clients than the server has descriptors for."""
        server = self.serve(most_files=self.FILES)
        clients = self.clients(server, self.CLIENTS)
        clients[0].use("a")
        wait_until(lambda: server.count_files() >= self.FILES - 2, "it has next to no descriptors left")
        return server, clients

    def test_who_is_there_goes_on_when_no_more_are_let_in(self):
        """Where the server has no descriptors left, the clients that are there are served on."""
        server, (first, *_, last) = self.crowd()
        for _ in range(20):
            job = first.put(b"x")
            self.assertEqual(first.peek(job), (job, b"x"))
        last.send(b"use a\r\n")
        first.use("b")
        self.assertFalse(last.has_heard())
        server.errors()

    def test_who_waits_outside_gets_in_when_others_leave(self):
        """Clients that the server had no descriptors for are served when others have left."""
        server, clients = self.crowd()
        for client in clients:
            client.send(b"put 0 0 60 1\r\nx\r\n")
        jobs = set()
        for client in clients:
            jobs.update(client.numbers(client.line(), r"INSERTED (\d+)"))
            client.close()
        self.assertEqual(jobs, set(range(1, self.CLIENTS + 1)))
        server.errors()

    def test_it_is_told_that_descriptors_are_wanting(self):
        """Where the server has no descriptors left, it tells so on its errors, and not over and over."""
        server, clients = self.crowd()
        wait_until(server.errors, "it tells that no more are let in")
        for _ in range(3):
            self.assertIsNone(clients[0].reserve_with_timeout(1))
        lines = server.errors().splitlines()
        self.assertEqual(len(lines), 1, lines)
        self.assertRegex(lines[0], r"^beanpax: ")

    def test_too_few_descriptors_are_told(self):
        """A server that has too few descriptors to begin with ends by itself with status 1 and a fault."""
        limit = lambda: resource.setrlimit(resource.RLIMIT_NOFILE, (6, 6))
        ended = self.program("serve", "--port", free_port(), preexec_fn=limit)
        self.assertEqual((ended.status, ended.last_error()), (1, "beanpax: 12 cannot listen"), ended)
