"""`beanpax run`: one client, on standard input and output, over simulated nodes."""

import os
import subprocess

from client import PATIENCE
from harness import Case

# What a client asks, and what it is told.
ASKED = (b"put 10 0 60 5\r\nhello\r\nput 1 0 60 0\r\n\r\nreserve-with-timeout 0\r\nreserve\r\ndelete 1\r\ndelete 1\r\n"
         b"reserve-with-timeout 3\r\nrelease 2 7 9\r\npeek-delayed\r\nlist-tubes\r\nfrobnicate\r\n")
TOLD = (b"INSERTED 1\r\nINSERTED 2\r\nRESERVED 2 0\r\n\r\nRESERVED 1 5\r\nhello\r\nDELETED\r\nNOT_FOUND\r\n"
        b"TIMED_OUT\r\nRELEASED\r\nFOUND 2 0\r\n\r\nOK 14\r\n---\n- default\n\r\nUNKNOWN_COMMAND\r\n")

# Requests, and the reply to each, which is read before the next one is sent.
TALK = (
    (b"put 10 0 60 5\r\nhello\r\n", b"INSERTED 1\r\n"),
    (b"reserve\r\n", b"RESERVED 1 5\r\nhello\r\n"),
    (b"bury 1 7\r\n", b"BURIED\r\n"),
    (b"kick 3\r\n", b"KICKED 1\r\n"),
    (b"reserve-with-timeout 1\r\n", b"RESERVED 1 5\r\nhello\r\n"),
    (b"delete 1\r\n", b"DELETED\r\n"),
    (b"x\r\n", b"UNKNOWN_COMMAND\r\n"),
)


class Run(Case):
    def check_run(self, words: str, given: bytes, told: bytes, status: int = 0, errors: str = "") -> None:
        with self.subTest(words=words):
            ended = self.program("run", *words.split(), given=given)
            self.assertEqual((ended.output, ended.errors, ended.status), (told, errors, status))

    def test_a_client_is_answered(self):
        """What is asked on the input is answered on the output, and nothing is on the errors."""
        self.check_run("", ASKED, TOLD)

    def test_replies_dont_depend_on_nodes_weights_or_seeds(self):
        """Whatever happens between the nodes, the client is told the same."""
        for words in ("--nodes 1", "--nodes 7 --seed 3", "--weights 3,1,1", "--weights 1000 --seed 4", "--weights=1,1,1,1,1,1,2",
                      "--seed 18446744073709551615"):
            self.check_run(words, ASKED, TOLD)
        for seed in range(5):
            self.check_run(f"--seed {seed}", ASKED, TOLD)

    def test_nothing_is_answered_to_nothing(self):
        """An empty input is answered by an empty output."""
        self.check_run("", b"", b"")

    def test_quit_ends_it(self):
        """What stands behind a quit isn't done."""
        self.check_run("", b"use a\r\nquit\r\nuse b\r\n", b"USING a\r\n")

    def test_an_unfinished_request_is_never_done(self):
        """A request that breaks off at the end of the input has no answer."""
        self.check_run("", b"use a\r\nput 0 0 60 5\r\nhel", b"USING a\r\n")

    def test_statistics_are_told_to_who_asks_for_them(self):
        """With --stats four commands more are known, and without they are not."""
        asked = b"put 0 0 60 1\r\nx\r\nreserve-job 1\r\nstats-job 9\r\nstats-tube none\r\n"
        self.check_run("--stats", asked, b"INSERTED 1\r\nRESERVED 1 1\r\nx\r\nNOT_FOUND\r\nNOT_FOUND\r\n")
        self.check_run("", asked + b"stats\r\n", b"INSERTED 1\r\n" + 4 * b"UNKNOWN_COMMAND\r\n")

    def test_minutes_pass_at_once(self):
        """Seconds pass only while the client waits, and then at once: a wait of some minutes is over before they are."""
        self.check_run("--nodes 1", b"put 0 300 60 1\r\nx\r\nreserve-with-timeout 299\r\nreserve\r\n",
                       b"INSERTED 1\r\nTIMED_OUT\r\nRESERVED 1 1\r\nx\r\n")

    def test_an_input_that_cannot_be_read_is_a_fault(self):
        """An input that fails, as a folder does, ends the program with status 1 and the fault."""
        folder = os.open(self.folder, os.O_RDONLY)
        self.addCleanup(os.close, folder)
        self.assert_fault(self.program("run", stdin=folder), "7 read failed")

    def test_an_output_without_room_is_a_fault(self):
        """An answer that can't be written ends the program with status 1 and the fault."""
        with open("/dev/full", "wb") as full:
            self.assert_fault(self.program("run", given=b"delete 9\r\n", stdout=full), "8 write failed")

    def test_a_client_that_waits_for_each_answer_gets_it(self):
        """Over pipes each request is answered before the next one is sent."""
        pipes = {"stdin": subprocess.PIPE, "stdout": subprocess.PIPE, "stderr": subprocess.PIPE}
        with subprocess.Popen([self.program_path(), "run"], **pipes) as process:
            self.addCleanup(process.kill)
            for request, reply in TALK:
                process.stdin.write(request)
                process.stdin.flush()
                self.assertEqual(process.stdout.read(len(reply)), reply)
            output, errors = process.communicate(timeout=PATIENCE)
            self.assertEqual((process.returncode, output, errors), (0, b"", b""))

    def test_an_output_that_is_closed_ends_it(self):
        """When nobody reads its output any more, it ends by itself, and doesn't go on for ever."""
        pipes = {"stdin": subprocess.PIPE, "stdout": subprocess.PIPE, "stderr": subprocess.PIPE}
        with subprocess.Popen([self.program_path(), "run"], **pipes) as process:
            self.addCleanup(process.kill)
            process.stdout.close()
            process.stdin.write(b"use a\r\n")
            process.stdin.flush()
            self.assertEqual(process.wait(PATIENCE), 1)
            self.assertEqual(process.stderr.read(), b"beanpax: 8 write failed\n")
