"""The cases in `cases`: bytes that the program is given, and what it must answer, worked out by hand."""

import contextlib
import os
import resource
import shutil
import socket
import subprocess
import threading
from collections.abc import Iterable, Iterator
from pathlib import Path

import case_files
import harness
from client import PATIENCE
from harness import Case

FILES = Path(__file__).resolve().parent / "cases"

# A client is told the same on so many nodes and on nodes of these weights, with each of the seeds; but a program that is built
# without a proof is slow, and is tried with the first one.
NODES = [f"--nodes {count}" for count in range(1, 8)]
WEIGHTS = ["--weights 3,1,1", "--weights 1,2", "--weights 1,1,1,1,5"]
SEEDS = range(10 if "BEANPAX" in os.environ else 1)

# The lengths of the pieces in which a client's bytes come, and those of a session.
CLIENT_PIECES = (1, 7, 4096)
SESSION_PIECES = (1, 4096)

# A `run` is tried with these words, and its bytes come three at a time.
RUNS = ("run --nodes 1 --seed 0", "run --nodes 3 --seed 1", "run --nodes 7 --seed 18446744073709551615")
RUN_PIECES = (3,)

# So many seconds a run may take: built without a proof, the program needs half a minute for an hour of a client's waits.
LONGEST_RUN = 600


def runs_of(case: case_files.Case) -> Iterator[tuple[str, int]]:
    """The words with which a case is tried, and how many bytes come at a time."""
    match case.kind:
        case "client":
            yield from (("run", length) for length in CLIENT_PIECES)
            yield from ((f"run {nodes} --seed {seed}", 4096) for nodes in NODES + WEIGHTS for seed in SEEDS)
        case "session":
            yield from (("run --nodes 1", length) for length in SESSION_PIECES)
        case "run":
            yield from ((words, length) for words in RUNS for length in RUN_PIECES)
        case "program":
            yield from ((words, length) for words in case.words for length in (4096, *case.pieces))
        case _:
            raise ValueError(f"{case.kind} is no kind of a case")


def send(to: socket.socket, given: bytes, length: int) -> None:
    """Sends the bytes, so many at a time, until the program reads no more."""
    with contextlib.suppress(OSError), to:
        for start in range(0, len(given), length):
            to.sendall(given[start:start + length])


def files_in(folder: Path) -> dict[str, bytes]:
    return {path.name: path.read_bytes() for path in folder.iterdir()}


class Cases(Case):
    seconds = 60
    longest = 1200

    def try_file(self, name: str) -> None:
        """Tries the cases of this file, and tells those that differ. No file may be changed, and none may be left behind."""
        self.place = self.folder / "cases"
        shutil.copytree(FILES, self.place)
        cases = case_files.cases_of(FILES / name)
        self.assertTrue(cases, "it has no cases")
        differ, count = [], 0
        for case in cases:
            for words, length in runs_of(case):
                count += 1
                differ += self.differs(case, words, length)
        if differ:
            self.fail(f"{len(differ)} runs differ, the first one so:\n{differ[0]}")
        self.assertEqual(files_in(self.place), files_in(FILES))
        self.note(f"{len(cases)} cases, {count} runs")

    def differs(self, case: case_files.Case, words: str, length: int) -> Iterable[str]:
        """What comes of a run of the program, where it isn't what the case says."""
        status, output, errors = self.ran(case, words.split(), length)
        if status == case.status and case.output.is_met(output) and case.errors.is_met(errors):
            return []
        return [f"{case.title}, {words!r}, {length} bytes at a time: status {status}, {output!r}, {errors!r}"]

    def ran(self, case: case_files.Case, words: list[str], length: int) -> tuple[int, bytes, bytes]:
        with contextlib.ExitStack() as stack:
            given = stack.enter_context(self.fails_behind(case.given) if case.input_fails else self.comes_in(case.given, length))
            output = self.output(stack, "output", case.room)
            errors = self.output(stack, "errors", case.errors_room)
            how = {"stdin": given, "stdout": output, "stderr": errors, "cwd": self.place}
            done = self.run_to_end(words, min((it for it in (case.room, case.errors_room) if it is not None), default=None), how)
        return done.returncode, self.written("output", done.stdout), self.written("errors", done.stderr)

    def run_to_end(self, words: list[str], room: int | None, how: dict) -> subprocess.CompletedProcess:
        """Runs the program. Where there is room for so many bytes alone, a write behind them fails."""
        if room is not None:
            # the signal of such a write stays ignored, as it is in this process
            how |= {"preexec_fn": lambda: resource.setrlimit(resource.RLIMIT_FSIZE, (room, room)), "restore_signals": False}
        return subprocess.run([harness.BEANPAX, *words], timeout=LONGEST_RUN, check=False, **how)

    def output(self, stack: contextlib.ExitStack, name: str, room: int | None):
        """A pipe, or where there isn't room for all a file."""
        return subprocess.PIPE if room is None else stack.enter_context(open(self.folder / name, "wb"))

    def written(self, name: str, piped: bytes | None) -> bytes:
        return (self.folder / name).read_bytes() if piped is None else piped

    @contextlib.contextmanager
    def comes_in(self, given: bytes, length: int) -> Iterator[socket.socket]:
        """An input from which each read gets so many bytes."""
        ours, theirs = socket.socketpair(socket.AF_UNIX, socket.SOCK_SEQPACKET)
        sender = threading.Thread(target=send, args=(ours, given, length))
        with theirs:
            sender.start()
            yield theirs
        sender.join(PATIENCE)

    @contextlib.contextmanager
    def fails_behind(self, given: bytes) -> Iterator[socket.socket]:
        """An input from which a read fails once these bytes were read: its other end is closed, and hasn't read all."""
        ours, theirs = socket.socketpair()
        with theirs:
            theirs.sendall(b"x")
            ours.sendall(given)
            ours.close()
            yield theirs

    def test_clients(self):
        """One client is told the same on any nodes, by any course of theirs, and in pieces of any length."""
        self.try_file("clients.txt")

    def test_lines(self):
        """So is one that sends lines and bodies of every kind."""
        self.try_file("lines.txt")

    def test_tubes(self):
        """So is one of several tubes."""
        self.try_file("tubes.txt")

    def test_programs(self):
        """The program does what its words ask for, and tells what is wrong with them, and which stream failed."""
        self.try_file("program.txt")

    def test_drawn_requests(self):
        """Hundreds of drawn requests are answered while nodes begin anew."""
        self.try_file("drawn.txt")

    def test_failing_streams(self):
        """An input or an output that fails at any place ends a run, and what came before was answered."""
        self.try_file("failures.txt")

    def test_sessions(self):
        """A client that sends what it shouldn't is told so, and its session ends as it has to."""
        self.try_file("sessions.txt")
