"""Many clients at once."""

import threading
from collections.abc import Callable
from functools import partial

from client import Client
from harness import Case, Server, wait_until

# A request without an effect, and its reply.
REQUEST, REPLY = b"list-tube-used\r\n", b"USING default\r\n"


def at_once(tasks: list[Callable[[], None]]) -> None:
    """Does all of these in threads, and fails where one fails."""
    faults = []

    def attempt(task: Callable[[], None]) -> None:
        try:
            task()
        except Exception as error:
            faults.append(error)

    threads = [threading.Thread(target=attempt, args=(task,)) for task in tasks]
    for thread in threads:
        thread.start()
    for thread in threads:
        thread.join()
    if faults:
        raise AssertionError(f"{len(faults)} of {len(tasks)} failed, the first so: {faults[0]}") from faults[0]


class Crowds(Case):
    seconds = 20

    def test_two_hundred_put_and_reserve_at_once(self):
        """Two hundred clients that are connected at once put a job and reserve one each, and no job is given twice or lost."""
        server = self.serve()
        clients = self.clients(server, 200)
        for number, client in enumerate(clients):
            body = b"%d" % number
            client.send(b"put 0 0 3600 %d\r\n%s\r\nreserve\r\n" % (len(body), body))
        put, given = {}, {}
        for number, client in enumerate(clients):
            put[client.numbers(client.line(), r"INSERTED (\d+)")[0]] = b"%d" % number
            job = client.job(client.line(), "RESERVED")
            self.assertNotIn(job.id, given)
            given[job.id] = job.body
            client.delete(job.id)
        self.assertEqual(given, put)
        self.assertEqual(len(given), 200)
        self.assertIsNone(clients[0].reserve_with_timeout(0))

    def test_two_hundred_wait_and_are_told(self):
        """Two hundred clients that wait are told of a job each when jobs come, none of one that another one has."""
        server = self.serve("--stats")
        putting, *clients = self.clients(server, 201)
        for client in clients:
            client.send(b"reserve\r\n")
        wait_until(lambda: putting.count_waiting() == 200, "all wait")
        putting.send(b"put 0 0 3600 1\r\nx\r\n" * 200)
        for number in range(1, 201):
            putting.expect(b"INSERTED %d\r\n" % number)
        given = sorted(client.job(client.line(), "RESERVED").id for client in clients)
        self.assertEqual(given, list(range(1, 201)))

    def test_a_crowd_is_kept_in_the_log(self):
        """What a hundred clients put at once is all in the log when they are told so."""
        server = self.serve("--log", "jobs.log")
        clients = self.clients(server, 100)
        for number, client in enumerate(clients):
            client.send(b"put 0 0 3600 3\r\n%03d\r\n" % number)
        put = {client.numbers(client.line(), r"INSERTED (\d+)")[0]: b"%03d" % number for number, client in enumerate(clients)}
        server.kill()
        client = self.client(self.serve("--log", "jobs.log"))
        self.assertEqual({job: client.peek(job).body for job in put}, put)

    def test_a_dump_agrees_with_each_client(self):
        """The dump of a crowd is legal, and has exactly what each client sent and was told."""
        count = 20
        server = self.serve("--sessions", count, "--dump", "run.dump", "--workers", 2)
        clients = self.clients(server, count)
        told: dict[int, list[str]] = {}
        at_once([partial(self.work, number, client, told) for number, client in enumerate(clients)])
        for client in clients:
            client.close()
        self.assertEqual(server.ends().status, 0)
        ended = self.program("inspect", "run.dump")
        self.assertEqual(ended.status, 0, ended.output)
        sessions = self.sessions_of_dump()
        self.assertEqual({name: sessions.get(name) for name in map("client-{}".format, told)},
                         {f"client-{number}": lines for number, lines in told.items()})

    def work(self, number: int, client: Client, told: dict[int, list[str]]) -> None:
        """Works, and notes each act of the client with the reply behind it, as a dump has them."""
        lines = [f"use client-{number}", client.ask(f"use client-{number}"), "use default", client.ask("use default")]
        for turn in range(3):
            body = b"%d.%d" % (number, turn)
            lines += [f"put 0 0 3600 {body.hex()}", f"INSERTED {client.put(body)}"]
            job = client.reserve()
            lines += ["reserve", f"RESERVED {job.id} {job.body.hex()}"]
            lines += [f"delete {job.id}", client.ask(f"delete {job.id}")]
        told[number] = lines

    def sessions_of_dump(self) -> dict[str, list[str]]:
        """What each session of the dump did but for its close, in turn with the replies, by the tube that it used first."""
        acts: dict[str, list[str]] = {}
        for line in (self.folder / "run.dump").read_text(encoding="ascii").splitlines():
            if line.startswith(("S ", "A ")):
                _, session, _, text = line.split(" ", 3)
                if session != "0" and text != "close":
                    acts.setdefault(session, []).append(text)
        return {lines[0].removeprefix("use "): lines for lines in acts.values()}


class AmidIdlers(Case):
    """Others work while many clients get nothing done."""

    seconds = 20

    def idlers(self, server: Server) -> list[Client]:
        """Some that send nothing, some that have sent half of a put, and some that don't read what they asked for."""
        silent = self.clients(server, 20)
        halfway = self.clients(server, 20)
        for client in halfway:
            client.use("gone")
            client.watch("gone")
            client.send(b"put 0 0 60 5\r\nhe")
        unreading = [self.client(server, takes_little=True) for _ in range(8)]
        for client in unreading:
            client.use("big")
            client.put(b"x" * 65_535)
            client.send(b"peek-ready\r\n" * 200)
            client.expect(b"FOUND ")
        return [*silent, *halfway, *unreading]

    def send_in_pieces(self, client: Client, size: int) -> None:
        """Sends a large body in pieces of so many bytes."""
        body = b"y" * 65_535
        for at in range(0, len(body), size):
            client.send(body[at:at + size])
        client.send(b"\r\n")
        self.assertGreater(client.numbers(client.line(), r"INSERTED (\d+)")[0], 0)

    def work(self, client: Client, cycles: int) -> None:
        for _ in range(cycles):
            client.put(b"job")
            job = client.reserve()
            self.assertEqual(job.body, b"job")
            client.delete(job.id)

    def test_who_works_is_answered_amid_a_crowd(self):
        """Amid clients that get nothing done others are answered; when all have gone, nothing is left but the jobs."""
        server = self.serve("--sessions", 74, "--workers", 2)
        first = self.client(server)
        first.talk(REQUEST, REPLY)
        before = server.count_files(), server.count_threads()
        idlers = self.idlers(server)
        slow, working, late = self.clients(server, 8), self.clients(server, 8), self.clients(server, 8)
        for client in working:
            self.work(client, 1)
        for client in slow:
            client.use("slow")
            client.send(b"put 0 0 60 65535\r\n")
        for client in late:
            client.talk(REQUEST, REPLY)
        pieces = [partial(self.send_in_pieces, client, size) for client, size in zip(slow, (1, 1, 7, 7, 64, 64, 512, 512))]
        at_once([*pieces, *(partial(self.work, client, 20) for client in working)])
        for client in (*idlers, *slow, *working, *late):
            client.close()
        wait_until(lambda: first.list_tubes() == ["big", "default", "slow"], "tubes with jobs alone are left")
        wait_until(lambda: (server.count_files(), server.count_threads()) == before, "files and threads are as before")
        self.client(server).talk(REQUEST, REPLY)
        self.assert_good_end(server)

    def test_who_sends_slowly_holds_up_nobody(self):
        """While a hundred clients have sent a part of a command each, another one is answered, and so are they at the end."""
        server = self.serve("--workers", 1)
        other, *slow = self.clients(server, 101)
        request = b"put 0 0 60 1\r\nx\r\n"
        for at in range(len(request)):
            for client in slow:
                client.send(request[at:at + 1])
            other.use(f"tube-{at}")
        jobs = {client.numbers(client.line(), r"INSERTED (\d+)")[0] for client in slow}
        self.assertEqual(jobs, set(range(1, 101)))
