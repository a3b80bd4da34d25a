"""What all tests share: a case with a folder of its own, the program's processes, and servers.

What a test starts or opens ends with the test. Waits are for events; `PATIENCE` only ends those that would never end."""

import contextlib
import os
import random
import re
import resource
import select
import shutil
import signal
import socket
import subprocess
import tempfile
import time
import unittest
from collections.abc import Callable, Iterable, Sequence
from dataclasses import dataclass
from pathlib import Path

from client import PATIENCE, Client

# The program that is tested; `run` sets it.
BEANPAX = os.environ.get("BEANPAX", "")

# Servers listen at ports from here: those that the system gives to clients lie above.
PORTS = range(12_000, 32_000)

LISTENING = re.compile(r"listening on (\S+):(\d+)\n")

# This is told each second while a log is obeyed; no test says how long that takes.
PROGRESS = re.compile(r"^beanpax: \d+ commands of the log are obeyed\n", re.MULTILINE)


@dataclass(frozen=True)
class Ended:
    """What came of a process of the program."""

    status: int
    output: bytes
    errors: str

    def last_error(self) -> str:
        """The last line on its errors."""
        return self.errors.splitlines()[-1] if self.errors else ""


class NotListening(AssertionError):
    """A server ended before it listened."""

    def __init__(self, ended: Ended):
        super().__init__(f"the server ended with {ended.status} before it listened: {ended.errors!r}")
        self.ended = ended


def wait_until(is_so: Callable[[], object], what: str) -> None:
    """Waits until that is so; the words tell what was waited for in vain."""
    last = time.monotonic() + PATIENCE
    while not is_so():
        if time.monotonic() > last:
            raise AssertionError(f"waited {PATIENCE} s in vain: {what}")
        time.sleep(0.01)


class Case(unittest.TestCase):
    """A test with a folder of its own, which is the current one of each process that it starts."""

    maxDiff = 4000

    def setUp(self) -> None:
        self.notes: list[str] = []
        self.servers: list[Server] = []
        self.connected: list[Client] = []
        self.folder = Path(tempfile.mkdtemp(prefix="beanpax-"))
        self.addCleanup(shutil.rmtree, self.folder, ignore_errors=True)
        self.draw = random.Random(self.id())

    def note(self, text: str) -> None:
        """Has the runner print this behind the test's name."""
        self.notes.append(text)

    def seed(self, number: int) -> None:
        """Draws from this seed on, and tells it."""
        self.draw = random.Random(number)
        self.note(f"seed {number}")

    def program_path(self) -> str:
        return BEANPAX

    def program(self, *words: object, given: bytes = b"", **how: object) -> Ended:
        """What comes of the program with these words and this input. `how` goes to `subprocess.run`."""
        streams = {"stdout": subprocess.PIPE, "stderr": subprocess.PIPE, **how}
        if "stdin" not in how:
            streams["input"] = given
        line = [BEANPAX, *map(str, words)]
        try:
            done = subprocess.run(line, cwd=self.folder, timeout=PATIENCE, **streams)
        except subprocess.TimeoutExpired:
            self.fail(f"it doesn't end within {PATIENCE} s: {line[1:]}")
        return Ended(done.returncode, done.stdout or b"", (done.stderr or b"").decode(errors="replace"))

    def serve(self, *words: object, **how: object) -> "Server":
        """A server that listens at a free port, with these words beside."""
        return Server(self, *words, **how)

    def kill_servers(self) -> None:
        """Kills all servers that run."""
        for server in self.servers:
            if not server.process.stdout.closed:
                server.kill()

    def refused(self, *words: object, **how: object) -> Ended:
        """What comes of a server that must end before it listens."""
        try:
            server = self.serve(*words, **how)
        except NotListening as fault:
            return fault.ended
        server.errors()
        server.kill()
        self.fail(f"a server listens: {words}")

    def client(self, server: "Server", takes_little: bool = False) -> Client:
        """A client that is connected to the server."""
        client = Client(server.host, server.port, takes_little)
        self.addCleanup(client.close)
        self.connected.append(client)
        return client

    def clients(self, server: "Server", count: int) -> list[Client]:
        return [self.client(server) for _ in range(count)]

    def assert_good_end(self, server: "Server") -> None:
        """All clients leave. The server had so many sessions, ends by itself with status 0, and has told nothing else."""
        for client in self.connected:
            client.close()
        ended = server.ends()
        self.assertEqual((ended.status, ended.output, ended.errors), (0, b"", ""))

    def assert_fault(self, ended: Ended, line: str) -> None:
        """The program told this fault last, and nothing on its output."""
        self.assertEqual((ended.status, ended.last_error()), (1, f"beanpax: {line}"), ended.errors)
        self.assertEqual(ended.output, b"")

    def assert_reason(self, ended: Ended, subject: object, reason: str) -> None:
        """The line before the fault's tells the path or address, and the system's reason."""
        lines = ended.errors.splitlines()
        self.assertGreaterEqual(len(lines), 2, f"no reason is told: {ended.errors!r}")
        self.assertEqual(lines[-2], f"beanpax: {subject}: {reason}")


class Server:
    """A process that serves. One that the test doesn't end has to run until the test is over, and whatever it says on its
    errors the test has to look at."""

    def __init__(self, case: Case, *words: object, most_files: int | None = None, port: int | None = None,
                 tracer: Sequence[str] = ()):
        self.case, self.words, self.most_files, self.tracer = case, words, most_files, tracer
        self.host, self.port = "", 0
        self.is_heard = False
        self.errors_file = case.folder / f"errors-{time.monotonic_ns()}"
        self.start(port)
        case.servers.append(self)
        case.addCleanup(self.check_and_end)

    def start(self, port: int | None) -> None:
        """Starts it at this port or at a free one; another one is drawn where somebody was faster."""
        for _ in range(20):
            self.begin(free_port() if port is None else port)
            try:
                self.hear_port()
                return
            except NotListening as fault:
                if port is not None or fault.ended.last_error() != "beanpax: 12 cannot listen":
                    raise
        raise AssertionError("no port is free")

    def begin(self, port: int) -> None:
        limits = None
        if self.most_files is not None:
            most = self.most_files
            limits = lambda: resource.setrlimit(resource.RLIMIT_NOFILE, (most, most))
        line = [*self.tracer, BEANPAX, "serve", "--port", str(port), *map(str, self.words)]
        with open(self.errors_file, "wb") as errors:
            self.process = subprocess.Popen(line, stdin=subprocess.DEVNULL, stdout=subprocess.PIPE, stderr=errors,
                                            cwd=self.case.folder, preexec_fn=limits)

    def hear_port(self) -> None:
        """Waits for the line that tells where it listens."""
        line, last = b"", time.monotonic() + PATIENCE
        output = self.process.stdout
        while not line.endswith(b"\n"):
            ready, _, _ = select.select([output], [], [], max(0, last - time.monotonic()))
            piece = os.read(output.fileno(), 1) if ready else None
            if not piece:
                self.fail_to_listen(line, is_late=piece is None)
            line += piece
        found = LISTENING.fullmatch(line.decode(errors="replace"))
        if not found:
            self.process.kill()
            raise AssertionError(f"the server told {line!r} first")
        self.host, self.port = found[1].strip("[]"), int(found[2])

    def fail_to_listen(self, line: bytes, is_late: bool) -> None:
        if is_late:
            self.process.kill()
        status = self.process.wait(PATIENCE)
        self.process.stdout.close()
        if is_late:
            raise AssertionError(f"the server neither listens nor ends within {PATIENCE} s: {self.errors_so_far()!r}")
        raise NotListening(Ended(status, line, self.errors_so_far()))

    def errors_so_far(self) -> str:
        return PROGRESS.sub("", self.errors_file.read_text(errors="replace"))

    def errors(self) -> str:
        """What it told on its errors so far. The test looks at it."""
        self.is_heard = True
        return self.errors_so_far()

    def ends(self) -> Ended:
        """What came of it. It must end by itself, and its caller looks at what it told."""
        self.is_heard = True
        return self.wait()

    def wait(self) -> Ended:
        try:
            status = self.process.wait(PATIENCE)
        except subprocess.TimeoutExpired:
            raise AssertionError(f"the server doesn't end within {PATIENCE} s: {self.errors_so_far()!r}") from None
        output = self.process.stdout.read()
        self.process.stdout.close()
        return Ended(status, output, self.errors_so_far())

    def send_signal(self, number: int) -> None:
        self.process.send_signal(number)

    def kill(self, number: int = signal.SIGKILL) -> None:
        """Ends it by a signal. Until then it must have run, and told nothing that the test doesn't look at."""
        self.check()
        self.send_signal(number)
        ended = self.wait()
        assert ended.output == b"", f"the server told {ended.output!r} on its output"

    def check(self) -> None:
        status = self.process.poll()
        assert status is None, f"the server ended by itself with {status}: {self.errors_so_far()!r}"
        assert self.is_heard or not self.errors_so_far(), f"the server told {self.errors_so_far()!r}"

    def check_and_end(self) -> None:
        """Ends it with its test, where the test didn't."""
        if self.process.stdout.closed:
            return
        try:
            self.check()
        finally:
            self.process.kill()
            self.process.wait()
            self.process.stdout.close()

    def count_files(self) -> int:
        """How many files and sockets it has open."""
        return len(os.listdir(f"/proc/{self.process.pid}/fd"))

    def count_threads(self) -> int:
        return len(os.listdir(f"/proc/{self.process.pid}/task"))

    def processor_seconds(self) -> float:
        """The processor time that it used so far, of which the system counts hundredths of a second."""
        text = Path(f"/proc/{self.process.pid}/stat").read_text(encoding="ascii")
        user, system = text.rpartition(")")[2].split()[11:13]
        return (int(user) + int(system)) / os.sysconf("SC_CLK_TCK")

    def resident_bytes(self) -> int:
        """How much memory it has."""
        status = Path(f"/proc/{self.process.pid}/status").read_text(encoding="ascii")
        return next(int(line.split()[1]) * 1024 for line in status.splitlines() if line.startswith("VmRSS"))


def free_port() -> int:
    """A port of 127.0.0.1 at which nobody listened a moment ago."""
    while True:
        port = random.SystemRandom().choice(PORTS)
        with contextlib.suppress(OSError), socket.create_server(("127.0.0.1", port)):
            return port


@contextlib.contextmanager
def taken_port(host: str = "127.0.0.1") -> Iterable[int]:
    """A port of this address at which somebody else listens."""
    family = socket.AF_INET6 if ":" in host else socket.AF_INET
    with socket.create_server((host, 0), family=family) as listener:
        yield listener.getsockname()[1]


def has_ipv6() -> bool:
    """Whether this machine has the address ::1."""
    try:
        socket.create_server(("::1", 0), family=socket.AF_INET6).close()
    except OSError:
        return False
    return True


def is_refused(host: str, port: int) -> bool:
    """Whether nobody listens there."""
    try:
        socket.create_connection((host, port), timeout=PATIENCE).close()
    except ConnectionRefusedError:
        return True
    return False
