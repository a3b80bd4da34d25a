"""The protocol over a socket: each command, and each reply byte by byte."""

from harness import Case

LARGEST = 65_535

# A line of 224 bytes with its CR LF is the longest.
LONGEST_LINE = 224


class Talking(Case):
    """A test whose client is told exactly what stands here."""

    def talk(self, *pairs: tuple[bytes, bytes]) -> None:
        """Sends each request to a new server, and is told its reply and nothing more."""
        client = self.client(self.serve())
        for request, reply in pairs:
            client.talk(request, reply)
        client.send(b"quit\r\n")
        client.expect_end()


class Commands(Talking):
    def test_a_job_is_put_reserved_and_deleted(self):
        """A job is put, given with its body, and gone when it is deleted."""
        self.talk(
            (b"put 0 0 60 5\r\nhello\r\n", b"INSERTED 1\r\n"),
            (b"reserve\r\n", b"RESERVED 1 5\r\nhello\r\n"),
            (b"delete 1\r\n", b"DELETED\r\n"),
            (b"delete 1\r\n", b"NOT_FOUND\r\n"),
            (b"reserve-with-timeout 0\r\n", b"TIMED_OUT\r\n"),
        )

    def test_the_most_urgent_job_comes_first(self):
        """Jobs are given by priority, those of one priority in the order in which they were put."""
        self.talk(
            (b"put 4294967295 0 60 1\r\na\r\n", b"INSERTED 1\r\n"),
            (b"put 7 0 60 1\r\nb\r\n", b"INSERTED 2\r\n"),
            (b"put 0 0 60 1\r\nc\r\n", b"INSERTED 3\r\n"),
            (b"put 7 0 60 1\r\nd\r\n", b"INSERTED 4\r\n"),
            (b"reserve\r\n", b"RESERVED 3 1\r\nc\r\n"),
            (b"reserve\r\n", b"RESERVED 2 1\r\nb\r\n"),
            (b"reserve\r\n", b"RESERVED 4 1\r\nd\r\n"),
            (b"reserve\r\n", b"RESERVED 1 1\r\na\r\n"),
        )

    def test_a_job_is_released(self):
        """A released job is ready again, with its new priority, or delayed."""
        self.talk(
            (b"put 5 0 60 1\r\na\r\n", b"INSERTED 1\r\n"),
            (b"release 1 0 0\r\n", b"NOT_FOUND\r\n"),
            (b"reserve\r\n", b"RESERVED 1 1\r\na\r\n"),
            (b"release 1 9 0\r\n", b"RELEASED\r\n"),
            (b"put 8 0 60 1\r\nb\r\n", b"INSERTED 2\r\n"),
            (b"reserve\r\n", b"RESERVED 2 1\r\nb\r\n"),
            (b"reserve\r\n", b"RESERVED 1 1\r\na\r\n"),
            (b"release 1 0 3600\r\n", b"RELEASED\r\n"),
            (b"reserve-with-timeout 0\r\n", b"TIMED_OUT\r\n"),
            (b"peek-delayed\r\n", b"FOUND 1 1\r\na\r\n"),
        )

    def test_jobs_are_buried_and_kicked(self):
        """Buried jobs are given to nobody until they are kicked, the first that was buried first."""
        self.talk(
            (b"put 0 0 60 1\r\na\r\n", b"INSERTED 1\r\n"),
            (b"put 0 0 60 1\r\nb\r\n", b"INSERTED 2\r\n"),
            (b"bury 1 0\r\n", b"NOT_FOUND\r\n"),
            (b"reserve\r\n", b"RESERVED 1 1\r\na\r\n"),
            (b"reserve\r\n", b"RESERVED 2 1\r\nb\r\n"),
            (b"bury 2 5\r\n", b"BURIED\r\n"),
            (b"bury 1 5\r\n", b"BURIED\r\n"),
            (b"reserve-with-timeout 0\r\n", b"TIMED_OUT\r\n"),
            (b"peek-buried\r\n", b"FOUND 2 1\r\nb\r\n"),
            (b"kick 1\r\n", b"KICKED 1\r\n"),
            (b"reserve\r\n", b"RESERVED 2 1\r\nb\r\n"),
            (b"kick-job 1\r\n", b"KICKED\r\n"),
            (b"kick-job 1\r\n", b"NOT_FOUND\r\n"),
            (b"reserve\r\n", b"RESERVED 1 1\r\na\r\n"),
            (b"kick 9\r\n", b"KICKED 0\r\n"),
        )

    def test_delayed_jobs_are_kicked_where_none_is_buried(self):
        """A delayed job is given to nobody before its time, unless it is kicked."""
        self.talk(
            (b"put 0 3600 60 1\r\na\r\n", b"INSERTED 1\r\n"),
            (b"put 0 1800 60 1\r\nb\r\n", b"INSERTED 2\r\n"),
            (b"peek-ready\r\n", b"NOT_FOUND\r\n"),
            (b"peek-delayed\r\n", b"FOUND 2 1\r\nb\r\n"),
            (b"kick 1\r\n", b"KICKED 1\r\n"),
            (b"reserve\r\n", b"RESERVED 2 1\r\nb\r\n"),
            (b"kick 5\r\n", b"KICKED 1\r\n"),
            (b"reserve\r\n", b"RESERVED 1 1\r\na\r\n"),
        )

    def test_jobs_are_peeked_at(self):
        """Whoever asks sees a job by its id, and the next one of the used tube in each state."""
        self.talk(
            (b"peek 1\r\n", b"NOT_FOUND\r\n"),
            (b"peek-ready\r\n", b"NOT_FOUND\r\n"),
            (b"put 3 0 60 2\r\nhi\r\n", b"INSERTED 1\r\n"),
            (b"put 2 0 60 0\r\n\r\n", b"INSERTED 2\r\n"),
            (b"peek 1\r\n", b"FOUND 1 2\r\nhi\r\n"),
            (b"peek-ready\r\n", b"FOUND 2 0\r\n\r\n"),
            (b"peek-delayed\r\n", b"NOT_FOUND\r\n"),
            (b"peek-buried\r\n", b"NOT_FOUND\r\n"),
            (b"use other\r\n", b"USING other\r\n"),
            (b"peek-ready\r\n", b"NOT_FOUND\r\n"),
            (b"peek 2\r\n", b"FOUND 2 0\r\n\r\n"),
        )

    def test_tubes_are_used_watched_and_listed(self):
        """Puts go into the used tube, reserves look into the watched ones, and both are listed."""
        self.talk(
            (b"list-tubes\r\n", b"OK 14\r\n---\n- default\n\r\n"),
            (b"list-tube-used\r\n", b"USING default\r\n"),
            (b"use b\r\n", b"USING b\r\n"),
            (b"list-tube-used\r\n", b"USING b\r\n"),
            (b"put 0 0 60 1\r\nx\r\n", b"INSERTED 1\r\n"),
            (b"reserve-with-timeout 0\r\n", b"TIMED_OUT\r\n"),
            (b"watch b\r\n", b"WATCHING 2\r\n"),
            (b"watch b\r\n", b"WATCHING 2\r\n"),
            (b"list-tubes-watched\r\n", b"OK 18\r\n---\n- default\n- b\n\r\n"),
            (b"reserve-with-timeout 0\r\n", b"RESERVED 1 1\r\nx\r\n"),
            (b"list-tubes\r\n", b"OK 18\r\n---\n- b\n- default\n\r\n"),
            (b"ignore default\r\n", b"WATCHING 1\r\n"),
            (b"ignore b\r\n", b"NOT_IGNORED\r\n"),
            (b"ignore none\r\n", b"WATCHING 1\r\n"),
            (b"list-tubes-watched\r\n", b"OK 8\r\n---\n- b\n\r\n"),
        )

    def test_a_tube_is_paused(self):
        """No job of a paused tube is given until it is paused no longer."""
        self.talk(
            (b"pause-tube none 9\r\n", b"NOT_FOUND\r\n"),
            (b"put 0 0 60 1\r\nx\r\n", b"INSERTED 1\r\n"),
            (b"pause-tube default 3600\r\n", b"PAUSED\r\n"),
            (b"reserve-with-timeout 0\r\n", b"TIMED_OUT\r\n"),
            (b"peek-ready\r\n", b"FOUND 1 1\r\nx\r\n"),
            (b"pause-tube default 0\r\n", b"PAUSED\r\n"),
            (b"reserve-with-timeout 0\r\n", b"RESERVED 1 1\r\nx\r\n"),
        )

    def test_a_job_is_touched(self):
        """Only who has a job may touch it."""
        self.talk(
            (b"put 0 0 60 1\r\nx\r\n", b"INSERTED 1\r\n"),
            (b"touch 1\r\n", b"NOT_FOUND\r\n"),
            (b"reserve\r\n", b"RESERVED 1 1\r\nx\r\n"),
            (b"touch 1\r\n", b"TOUCHED\r\n"),
            (b"touch 2\r\n", b"NOT_FOUND\r\n"),
        )

    def test_a_quit_ends_the_session(self):
        """Behind a quit nothing is answered or done, and the connection is closed."""
        server = self.serve()
        leaving = self.client(server)
        leaving.send(b"use a\r\nquit\r\nput 0 0 60 1\r\nx\r\n")
        leaving.expect(b"USING a\r\n")
        leaving.expect_end()
        self.assertIsNone(self.client(server).reserve_with_timeout(0))


class Reports(Talking):
    def test_statistics_want_a_word(self):
        """Without --stats the commands that tell of others are unknown."""
        self.talk(
            (b"put 0 0 60 1\r\nx\r\n", b"INSERTED 1\r\n"),
            (b"stats\r\n", b"UNKNOWN_COMMAND\r\n"),
            (b"stats-job 1\r\n", b"UNKNOWN_COMMAND\r\n"),
            (b"stats-tube default\r\n", b"UNKNOWN_COMMAND\r\n"),
            (b"reserve-job 1\r\n", b"UNKNOWN_COMMAND\r\n"),
        )

    def test_statistics_tell_what_happened(self):
        """With --stats a job, a tube and the queue have beanstalkd's lines, which count what was done."""
        client = self.client(self.serve("--stats"))
        job = client.put(b"x", pri=7, ttr=60)
        client.put(b"y", delay=3600)
        client.reserve()
        client.release(job, pri=9)
        found = client.stats_job(job)
        for name, value in {"id": "1", "tube": "default", "state": "ready", "pri": "9", "ttr": "60", "reserves": "1",
                            "releases": "1", "timeouts": "0", "buries": "0", "kicks": "0", "file": "0"}.items():
            self.assertEqual(found[name], value, name)
        found = client.stats_tube("default")
        for name, value in {"name": "default", "current-jobs-ready": "1", "current-jobs-delayed": "1", "total-jobs": "2",
                            "current-jobs-reserved": "0", "current-using": "1", "current-watching": "1"}.items():
            self.assertEqual(found[name], value, name)
        found = client.stats()
        for name, value in {"current-jobs-ready": "1", "current-jobs-delayed": "1", "cmd-put": "2", "cmd-reserve": "1",
                            "cmd-release": "1", "total-jobs": "2", "max-job-size": "65535", "current-connections": "1",
                            "current-producers": "1", "current-workers": "1", "current-waiting": "0"}.items():
            self.assertEqual(found[name], value, name)

    def test_a_job_is_reserved_by_its_id(self):
        """With --stats a client may have a job by its id, whatever its tube, unless somebody else has it."""
        server = self.serve("--stats")
        first, second = self.clients(server, 2)
        first.use("a")
        job = first.put(b"x")
        self.assertEqual(second.reserve_job(job), (job, b"x"))
        first.is_told(f"reserve-job {job}", "NOT_FOUND")
        second.delete(job)
        second.is_told(f"reserve-job {job}", "NOT_FOUND")


class Lines(Talking):
    def test_lines_that_are_no_command_are_unknown(self):
        """An empty line, a line that begins with a space and one with another first word are unknown."""
        self.talk(*((line + b"\r\n", b"UNKNOWN_COMMAND\r\n") for line in (
            b"", b" ", b" use a", b"frobnicate", b"PUT 0 0 60 1", b"puts", b"use\ta", b"\x00", b"\xff\xfe", b"a\rb", b"a\nb")))

    def test_commands_with_wrong_words_are_bad(self):
        """A command with too few words, too many, or numbers outside their range is told BAD_FORMAT."""
        self.talk(*((line + b"\r\n", b"BAD_FORMAT\r\n") for line in (
            b"put", b"put 0 0 60", b"put 0 0 60 1 1", b"put -1 0 60 1", b"put 4294967296 0 60 1", b"put 0 0 60 x", b"put 0 0 60 1x",
            b"use", b"use a b", b"use -a", b"use a*", b"use " + b"a" * 201, b"watch", b"ignore", b"reserve now",
            b"reserve-with-timeout", b"reserve-with-timeout -1", b"reserve-with-timeout 4294967296", b"delete", b"delete x",
            b"delete 18446744073709551616", b"release 1", b"release 1 2", b"bury 1", b"kick", b"kick -1", b"kick-job", b"touch",
            b"peek", b"peek-ready 1", b"list-tubes 1", b"pause-tube a", b"pause-tube a x", b"quit now")))

    def test_words_may_have_many_spaces_between(self):
        """Any number of spaces parts words, and spaces at the end count for nothing."""
        self.talk(
            (b"use   a  \r\n", b"USING a\r\n"),
            (b"put  00  0 060   1 \r\nx\r\n", b"INSERTED 1\r\n"),
            (b"peek 0001\r\n", b"FOUND 1 1\r\nx\r\n"),
        )

    def test_names_of_tubes_may_have_200_bytes(self):
        """A tube's name may have 200 bytes, of all those that the protocol allows."""
        longest = b"a" * 200
        every = b"ABCXYZabcxyz0189+/;.$_()-"
        self.talk(
            (b"use " + longest + b"\r\n", b"USING " + longest + b"\r\n"),
            (b"use " + every + b"\r\n", b"USING " + every + b"\r\n"),
            (b"watch " + longest + b"\r\n", b"WATCHING 2\r\n"),
        )

    def test_a_line_of_224_bytes_is_the_longest(self):
        """A line of 224 bytes is read, and one that is longer is told BAD_FORMAT once, however long it is."""
        room = LONGEST_LINE - len(b"use a\r\n")
        self.talk(
            (b"use a" + b" " * room + b"\r\n", b"USING a\r\n"),
            (b"use a" + b" " * (room + 1) + b"\r\n", b"BAD_FORMAT\r\n"),
            (b"x" * 222 + b"\r\n", b"UNKNOWN_COMMAND\r\n"),
            (b"x" * 223 + b"\r\n", b"BAD_FORMAT\r\n"),
            (b"x" * 1_000_000 + b"\r\n", b"BAD_FORMAT\r\n"),
            (b"use b\r\n", b"USING b\r\n"),
        )

    def test_garbage_is_answered_line_by_line(self):
        """Whatever bytes are sent, each line has one answer that tells a fault, and the next good line is answered."""
        self.seed(3)
        client = self.client(self.serve())
        for _ in range(50):
            line = self.draw.randbytes(self.draw.randrange(300)).replace(b"\r\n", b"") + b"\r\n"
            if line[:1].isalpha():
                line = b"\x00" + line
            client.send(line)
            self.assertIn(client.line(), ("UNKNOWN_COMMAND", "BAD_FORMAT"), line)
        client.use("a")


class Bodies(Talking):
    def test_bodies_may_have_any_bytes(self):
        """A body comes back byte by byte, whatever stands in it, also CR LF and commands."""
        client = self.client(self.serve())
        for body in (b"", b"\r\n", b"\r\n\r\n", b"delete 1\r\n", bytes(range(256)), b"\x00" * 1000, b"\r" * 7):
            with self.subTest(body=body[:20]):
                job = client.put(body)
                self.assertEqual(client.reserve(), (job, body))

    def test_a_body_of_65535_bytes_is_the_largest(self):
        """A body of 65535 bytes comes back whole, and one of a byte more is told JOB_TOO_BIG and not put."""
        client = self.client(self.serve())
        body = self.draw.randbytes(LARGEST)
        job = client.put(body)
        self.assertEqual(client.reserve(), (job, body))
        client.talk(b"put 0 0 60 %d\r\n%s\r\n" % (LARGEST + 1, b"x" * (LARGEST + 1)), b"JOB_TOO_BIG\r\n")
        self.assertIsNone(client.reserve_with_timeout(0))

    def test_a_body_that_is_too_large_is_thrown_away(self):
        """All of a body that is too large is thrown away, and what follows is answered."""
        self.talk(
            (b"put 0 0 60 2000000\r\n" + b"delete 1\r\n" * 200_000 + b"\r\nuse a\r\n", b"JOB_TOO_BIG\r\nUSING a\r\n"),
            (b"put 0 0 60 65536\r\n" + b"x" * 65_536 + b"XXuse b\r\n", b"JOB_TOO_BIG\r\nUSING b\r\n"),
        )

    def test_a_body_has_to_end_with_its_line(self):
        """Where no CR LF stands behind a body, the job isn't put, and the next line begins behind two bytes."""
        self.talk(
            (b"put 0 0 60 2\r\nhelp\r\n", b"EXPECTED_CRLF\r\nUNKNOWN_COMMAND\r\n"),
            (b"put 0 0 60 2\r\nhiXXuse a\r\n", b"EXPECTED_CRLF\r\nUSING a\r\n"),
            (b"put 0 0 60 2\r\nhi\n\nuse a\r\n", b"EXPECTED_CRLF\r\nUSING a\r\n"),
            (b"reserve-with-timeout 0\r\n", b"TIMED_OUT\r\n"),
        )

    def test_a_put_line_that_is_refused_has_no_body(self):
        """Behind a put line that is no good the next line is read as a line."""
        self.talk((b"put 0 0 x 3\r\nuse\r\nuse a\r\n", b"BAD_FORMAT\r\nBAD_FORMAT\r\nUSING a\r\n"))


class Pieces(Talking):
    REQUESTS = (b"put 0 0 60 5\r\nhello\r\nreserve\r\nfrobnicate\r\nput 0 0 60 2\r\nhelp\r\nlist-tubes\r\ndelete 1\r\n")
    REPLIES = (b"INSERTED 1\r\nRESERVED 1 5\r\nhello\r\nUNKNOWN_COMMAND\r\nEXPECTED_CRLF\r\nUNKNOWN_COMMAND\r\n"
               b"OK 14\r\n---\n- default\n\r\nDELETED\r\n")

    def test_requests_may_come_in_any_pieces(self):
        """However a client's bytes are cut, it is told the same."""
        for size in (1, 2, 7, 1000):
            with self.subTest(size=size):
                client = self.client(self.serve())
                for at in range(0, len(self.REQUESTS), size):
                    client.send(self.REQUESTS[at:at + size])
                client.expect(self.REPLIES)
                self.assertFalse(client.has_heard())

    def test_requests_may_come_before_answers(self):
        """Many requests in one write are answered one by one, in their order, and another client meanwhile."""
        server = self.serve("--sessions", 2, "--workers", 1)
        flooding, other = self.clients(server, 2)
        flooding.send(b"".join(b"use tube-%d\r\n" % number for number in range(1000)))
        for _ in range(20):
            other.use("other")
        flooding.expect(b"".join(b"USING tube-%d\r\n" % number for number in range(1000)))
        self.assert_good_end(server)
