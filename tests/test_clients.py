"""Several clients of one server: who gets which job, and what becomes of clients that go."""

import threading

from client import Job
from harness import Case, wait_until

# A request without an effect, and its reply.
REQUEST, REPLY = b"list-tube-used\r\n", b"USING default\r\n"


class Sharing(Case):
    def test_a_job_goes_to_one_of_two(self):
        """A job that one client puts goes to another, and only who has it may delete it."""
        first, second = self.clients(self.serve(), 2)
        job = first.put(b"hello")
        self.assertEqual(second.reserve(), (job, b"hello"))
        self.assertIsNone(first.reserve_with_timeout(0))
        first.is_told(f"delete {job}", "NOT_FOUND")
        first.is_told(f"release {job} 0 0", "NOT_FOUND")
        first.is_told(f"bury {job} 0", "NOT_FOUND")
        first.is_told(f"touch {job}", "NOT_FOUND")
        second.delete(job)

    def test_who_waits_is_told_when_a_job_comes(self):
        """A client that waits in a reserve gets the next job that is put, without asking again."""
        server = self.serve("--stats")
        waiting, putting = self.clients(server, 2)
        waiting.send(b"reserve\r\n")
        wait_until(lambda: putting.count_waiting() == 1, "one waits")
        self.assertFalse(waiting.has_heard())
        job = putting.put(b"x")
        waiting.expect(b"RESERVED %d 1\r\nx\r\n" % job)

    def test_who_has_waited_longest_comes_first(self):
        """Clients that wait are served in the order in which they came."""
        server = self.serve("--stats")
        putting, *waiting = self.clients(server, 5)
        for count, client in enumerate(waiting, 1):
            client.send(b"reserve\r\n")
            wait_until(lambda count=count: putting.count_waiting() == count, f"{count} wait")
        for client in waiting:
            job = putting.put(b"x")
            client.expect(b"RESERVED %d 1\r\nx\r\n" % job)
            self.assertFalse(any(other.has_heard() for other in waiting))

    def test_a_command_ends_a_wait(self):
        """Who waits and sends another command is answered, once the wait is over or a job has come."""
        server = self.serve("--stats")
        waiting, putting = self.clients(server, 2)
        waiting.send(b"reserve\r\nuse a\r\n")
        wait_until(lambda: putting.count_waiting() == 1, "one waits")
        job = putting.put(b"x")
        waiting.expect(b"RESERVED %d 1\r\nx\r\nUSING a\r\n" % job)

    def test_a_released_job_goes_to_who_waits(self):
        """A job that is released, buried and kicked, or whose pause is over goes to a client that waits for it."""
        server = self.serve("--stats")
        waiting, holding = self.clients(server, 2)
        job = holding.put(b"x")
        holding.reserve()
        for give in (lambda: holding.release(job), lambda: self.kick(holding, job), lambda: self.pause(holding, job)):
            waiting.send(b"reserve\r\n")
            wait_until(lambda: holding.count_waiting() == 1, "one waits")
            give()
            waiting.expect(b"RESERVED %d 1\r\nx\r\n" % job)
            waiting.release(job)
            holding.reserve()

    def kick(self, client, job: int) -> None:
        client.bury(job)
        self.assertEqual(client.kick(1), 1)

    def pause(self, client, job: int) -> None:
        client.pause_tube("default", 3600)
        client.release(job)
        client.pause_tube("default", 0)

    def test_tubes_keep_jobs_apart(self):
        """A client gets the jobs of those tubes alone that it watches."""
        first, second = self.clients(self.serve(), 2)
        first.use("a")
        job = first.put(b"x")
        self.assertIsNone(second.reserve_with_timeout(0))
        second.watch("a")
        self.assertEqual(second.reserve_with_timeout(0), (job, b"x"))

    def test_no_job_is_given_twice(self):
        """Eight clients that put, reserve and delete at once get each job once, and none is left."""
        server = self.serve("--sessions", 9, "--workers", 8)
        clients, done = self.clients(server, 8), []
        threads = [threading.Thread(target=self.work, args=(client, 100, done)) for client in clients]
        for thread in threads:
            thread.start()
        for thread in threads:
            thread.join()
        self.assertEqual(sorted(done), list(range(1, 8 * 100 + 1)))
        self.assertIsNone(self.client(server).reserve_with_timeout(0))
        self.assert_good_end(server)

    def work(self, client, cycles: int, done: list[int]) -> None:
        for _ in range(cycles):
            client.put(b"job")
            job = client.reserve()
            client.delete(job.id)
            if job.body == b"job":
                done.append(job.id)


class Leaving(Case):
    def leave(self, client, number: int) -> None:
        """Every second client is reset, as one whose process is killed."""
        client.reset() if number % 2 else client.close()

    def test_a_job_is_ready_again_when_its_client_goes(self):
        """What a client had reserved is ready again when it closes its connection, is reset, or quits."""
        server = self.serve()
        there = self.client(server)
        job = there.put(b"x")
        for leave in (lambda client: client.close(), lambda client: client.reset(), lambda client: client.send(b"quit\r\n")):
            leaving = self.client(server)
            self.assertEqual(leaving.reserve(), (job, b"x"))
            self.assertIsNone(there.reserve_with_timeout(0))
            leave(leaving)
            self.assertEqual(there.reserve(), (job, b"x"))
            there.release(job)

    def test_who_goes_in_a_reserve_gets_no_job(self):
        """Clients that go while they wait are noticed, also by a reset, and a job that is put then goes to who is there."""
        server = self.serve("--stats")
        there, *leaving = self.clients(server, 9)
        for client in leaving:
            client.send(b"reserve\r\n")
        wait_until(lambda: there.count_waiting() == 8, "eight wait")
        for number, client in enumerate(leaving):
            self.leave(client, number)
        wait_until(lambda: there.count_waiting() == 0, "nobody waits any more")
        job = there.put(b"x")
        self.assertEqual(there.reserve(), (job, b"x"))

    def test_a_job_put_at_once_passes_over_who_has_gone(self):
        """A job that is put right after waiting clients have gone is not lost to one of them."""
        server = self.serve("--sessions", 9, "--workers", 2, "--stats")
        there, *leaving = self.clients(server, 9)
        for client in leaving:
            client.send(b"use a\r\nreserve\r\n")
        wait_until(lambda: there.count_waiting() == 8, "eight wait")
        for number, client in enumerate(leaving):
            self.leave(client, number)
        there.talk(b"put 0 0 60 3\r\njob\r\n", b"INSERTED 1\r\n")
        there.talk(b"reserve\r\n", b"RESERVED 1 3\r\njob\r\n")
        self.assert_good_end(server)

    def test_who_goes_amid_a_command_ends_alone(self):
        """Of a client that goes amid a body, or is reset there, nothing is left, and others are served."""
        server = self.serve("--sessions", 3, "--workers", 1)
        leaving, reset, there = self.clients(server, 3)
        for client in (leaving, reset):
            client.use("gone")
            client.send(b"put 0 0 60 5\r\nhe")
        leaving.close()
        reset.reset()
        wait_until(lambda: there.list_tubes() == ["default"], "nothing is left of who has gone")
        self.assertIsNone(there.reserve_with_timeout(0))
        self.assert_good_end(server)

    def test_nothing_is_left_of_who_has_gone(self):
        """When clients have gone, their files and tubes are free again, and no thread is left of them."""
        server = self.serve("--workers", 2)
        there = self.client(server)
        there.use("here")
        before = server.count_files(), server.count_threads()
        leaving = self.clients(server, 30)
        for client in leaving:
            client.use("gone")
        self.assertEqual(server.count_files(), before[0] + 30)
        for number, client in enumerate(leaving):
            self.leave(client, number)
        wait_until(lambda: (server.count_files(), server.count_threads()) == before, "files and threads are as before")
        wait_until(lambda: there.list_tubes() == ["default", "here"], "their tube is gone")


class HalfClosed(Case):
    def test_who_sends_nothing_more_is_answered(self):
        """A client that closes its writing half is answered all that it sent, and then let go."""
        client = self.client(self.serve("--workers", 1))
        client.send(REQUEST * 100 + b"put 0 0 60 1\r\nx\r\nreserve\r\n")
        client.stop_sending()
        client.expect(REPLY * 100 + b"INSERTED 1\r\nRESERVED 1 1\r\nx\r\n")
        client.expect_end()

    def test_several_are_answered_amid_others(self):
        """So are several at once, while another client's requests keep the server busy."""
        server = self.serve("--sessions", 9, "--workers", 1)
        other, *clients = self.clients(server, 9)
        for client in (other, *clients):
            client.talk(REQUEST, REPLY)
        other.send(REQUEST * 1000)
        for client in clients:
            client.send(REQUEST * 100)
            client.stop_sending()
        for client in clients:
            client.expect(REPLY * 100)
            client.expect_end()
        other.expect(REPLY * 1000)
        self.assert_good_end(server)

    def test_who_sends_nothing_more_waits_no_longer(self):
        """A client that closes its writing half is let go from a reserve that would have to wait, and what it sent behind
        isn't done. A job that is put then goes to who is there."""
        server = self.serve("--sessions", 3, "--workers", 1, "--stats")
        there = self.client(server)
        for is_waiting in (False, True):
            with self.subTest(is_waiting=is_waiting):
                client = self.client(server)
                client.send(b"use a\r\nreserve\r\nput 0 0 60 1\r\nx\r\n")
                if is_waiting:
                    wait_until(lambda: there.count_waiting() == 1, "it waits")
                client.stop_sending()
                client.expect(b"USING a\r\n")
                client.expect_end()
                self.assertEqual(there.stats()["total-jobs"], "0")
        there.talk(b"put 0 0 60 3\r\njob\r\n", b"INSERTED 1\r\n")
        there.talk(b"reserve\r\n", b"RESERVED 1 3\r\njob\r\n")
        self.assert_good_end(server)

    def test_who_never_sends_is_let_go(self):
        """A client that closes its writing half at once is told nothing, and let go."""
        client = self.client(self.serve())
        client.stop_sending()
        client.expect_end()


class Unreading(Case):
    def test_who_never_reads_holds_up_nobody(self):
        """A client that asks for a long job again and again, and reads no answer, holds up nobody and takes little memory."""
        server = self.serve("--workers", 1)
        unreading, other = self.clients(server, 2)
        job = unreading.put(b"x" * 65_535)
        other.use("a")
        before = server.resident_bytes()
        unreading.send(b"peek %d\r\n" % job * 200)
        for _ in range(20):
            number = other.put(b"y")
            self.assertEqual(other.peek(number), Job(number, b"y"))
        grown = server.resident_bytes() - before
        self.assertLess(grown, 7 << 20, "the answers that it doesn't read are kept")
        for _ in range(200):
            self.assertEqual(unreading.job(unreading.line(), "FOUND").id, job)

    def test_who_goes_with_answers_unread_ends_alone(self):
        """A client that goes while answers wait for it to read is forgotten, and others are served."""
        server = self.serve("--workers", 1)
        there, leaving = self.clients(server, 2)
        there.use("here")
        leaving.use("gone")
        before = server.count_files()
        job = leaving.put(b"x" * 65_535)
        leaving.send(b"peek %d\r\n" % job * 200)
        leaving.reset()
        wait_until(lambda: server.count_files() == before - 1, "its connection is closed")
        there.watch("gone")
        self.assertEqual(there.reserve().id, job)
