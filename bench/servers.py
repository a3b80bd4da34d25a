"""Servers to be measured: beanpax, and beanstalkd where it is installed. Each runs on a free port of this machine, and ends
with the block that started it."""

import contextlib
import os
import re
import resource
import shutil
import signal
import socket
import statistics
import subprocess
import sys
import tempfile
import time

ROOT = os.path.dirname(os.path.dirname(os.path.abspath(__file__)))
LOAD_SOURCE = os.path.join(ROOT, "bench", "load")
LOAD = os.path.join(LOAD_SOURCE, "out", "serve_load")

# What is started as `BEANPAX serve --port P --nodes N --workers K`.
BEANPAX = os.environ.get("BEANPAX", os.path.join(ROOT, "beanpax"))
BEANSTALKD = shutil.which("beanstalkd")

# The bytes of a job.
SIZE = 100

# So many workers a server has that is measured, where nothing else is said.
WORKERS = 2

# So many threads share the connections that load a server.
LOAD_THREADS = 2

PRINTED = re.compile(r"(\d+) commands a second, median ([\d.]+) us, 99th percentile ([\d.]+) us\n")


def build(with_beanpax):
    """Builds the load program, and beanpax where it is wanted and no other program stands for it."""
    end_on_a_signal()
    if is_load_stale():
        build_load()
    if with_beanpax:
        build_beanpax()


def is_load_stale():
    """Whether the load program isn't built of its source as it is."""
    if not os.path.exists(LOAD):
        return True
    sources = [file.stat().st_mtime_ns for file in os.scandir(LOAD_SOURCE) if file.name.endswith(".rs")]
    return max(sources) >= os.stat(LOAD).st_mtime_ns


def build_load():
    """Builds the load program by rustc. Who measures at the same time finds the one before it, or this one."""
    if shutil.which("rustc") is None:
        sys.exit("rustc isn't installed, which builds bench/load")
    os.makedirs(os.path.dirname(LOAD), exist_ok=True)
    with tempfile.TemporaryDirectory(dir=os.path.dirname(LOAD)) as folder:
        built = os.path.join(folder, "serve_load")
        words = ["rustc", "-O", "--edition", "2021", "--crate-name", "serve_load", "-o", built]
        subprocess.run([*words, os.path.join(LOAD_SOURCE, "main.rs")], check=True)
        os.replace(built, LOAD)


def build_beanpax():
    """Builds beanpax, where no other program stands for it."""
    if "BEANPAX" not in os.environ:
        subprocess.run([BEANPAX, "--help"], stdout=subprocess.DEVNULL, check=True)


def end_on_a_signal():
    """A signal that ends the script ends its servers, too."""
    for one in (signal.SIGTERM, signal.SIGHUP):
        signal.signal(one, lambda *_: sys.exit(1))


class Server:
    """A server that runs."""

    def __init__(self, process, port):
        self.process, self.port = process, port
        self.folder = f"/proc/{process.pid}"

    def load(self, connections, jobs):
        """The commands a second, the median and the 99th percentile of a command's time in microseconds, and which part of the
        time the threads that load it used a processor."""
        threads = min(connections, LOAD_THREADS)
        words = [LOAD, *map(str, (self.port, connections, jobs, SIZE, threads))]
        spent, since = children_seconds(), time.monotonic()
        run = subprocess.run(words, stdout=subprocess.PIPE, text=True, check=True, timeout=600)
        busy = (children_seconds() - spent) / (time.monotonic() - since) / threads
        return [*map(float, PRINTED.fullmatch(run.stdout).groups()), busy]

    def switches(self):
        """How often its threads were taken off a processor so far."""
        total = 0
        for thread in os.listdir(f"{self.folder}/task"):
            with open(f"{self.folder}/task/{thread}/status") as status:
                total += sum(int(line.split()[1]) for line in status if "ctxt_switches" in line)
        return total

    def seconds(self):
        """The processor time that its threads used so far."""
        total = 0
        for thread in os.listdir(f"{self.folder}/task"):
            with open(f"{self.folder}/task/{thread}/schedstat") as stat:
                total += int(stat.read().split()[0])
        return total / 1e9

    def share(self, seconds):
        """The processor time of the next seconds, as a part of them."""
        spent, since = self.seconds(), time.monotonic()
        time.sleep(seconds)
        return (self.seconds() - spent) / (time.monotonic() - since)

    def files(self):
        """How many files it has open."""
        return len(os.listdir(f"{self.folder}/fd"))

    def resident(self):
        """The bytes of its resident set."""
        with open(f"{self.folder}/status") as status:
            return next(int(line.split()[1]) * 1024 for line in status if line.startswith("VmRSS"))


def children_seconds():
    """The processor time of the processes that were waited for so far."""
    used = resource.getrusage(resource.RUSAGE_CHILDREN)
    return used.ru_utime + used.ru_stime


def allow_many_files():
    """This process and those that it starts may have as many files open as the system lets them."""
    most = resource.getrlimit(resource.RLIMIT_NOFILE)[1]
    resource.setrlimit(resource.RLIMIT_NOFILE, (most, most))
    return most


def free_port():
    with socket.create_server(("127.0.0.1", 0)) as listener:
        return listener.getsockname()[1]


@contextlib.contextmanager
def running(words, port, is_told, most_files=None, longest_end=None):
    """A server that was started by these words, and serves. It says on its first line that it listens, or is asked. It may
    have so many files open at most, where that is said. Where it is said how long its end takes, it ends by itself then, and
    well."""
    limit = None if most_files is None else lambda: resource.setrlimit(resource.RLIMIT_NOFILE, (most_files, most_files))
    process = subprocess.Popen(words, stdout=subprocess.PIPE, text=True, preexec_fn=limit)
    try:
        if is_told:
            line = process.stdout.readline()
            assert line == f"listening on 127.0.0.1:{port}\n", f"{words[0]} printed {line!r} first"
        else:
            wait_until_it_listens(port)
        yield Server(process, port)
        if longest_end is None:
            assert process.poll() is None, f"{words[0]} ended by itself"
        else:
            assert process.wait(longest_end) == 0, f"{words[0]} ended with {process.returncode}"
    finally:
        process.terminate()
        try:
            process.wait(10)
        except subprocess.TimeoutExpired:
            process.kill()
            process.wait()
        process.stdout.close()


def wait_until_it_listens(port):
    for _ in range(500):
        try:
            socket.create_connection(("127.0.0.1", port)).close()
            return
        except ConnectionRefusedError:
            time.sleep(0.01)
    raise TimeoutError(f"nobody listens on {port}")


@contextlib.contextmanager
def beanpax(nodes, workers, most_files=None, more=()):
    port = free_port()
    words = [BEANPAX, "serve", "--port", port, "--nodes", nodes, "--workers", workers, *more]
    with running([str(word) for word in words], port, is_told=True, most_files=most_files) as server:
        yield server


@contextlib.contextmanager
def dumping_beanpax(nodes, workers, sessions, dump, longest_end, most_files=None):
    """One that ends when so many connections have ended, in so many seconds, and writes what happened to a file."""
    port = free_port()
    words = [BEANPAX, "serve", "--port", port, "--nodes", nodes, "--workers", workers, "--sessions", sessions, "--dump", dump]
    with running([str(word) for word in words], port, True, most_files, longest_end) as server:
        yield server


@contextlib.contextmanager
def beanstalkd(*more):
    port = free_port()
    with running([BEANSTALKD, "-l", "127.0.0.1", "-p", str(port), *more], port, is_told=False) as server:
        yield server


@contextlib.contextmanager
def logging_beanpax(nodes, workers, milliseconds):
    """One that keeps a log, and syncs it after so many milliseconds, or before each answer. The log is no file in memory."""
    port = free_port()
    words = [BEANPAX, "serve", "--port", port, "--nodes", nodes, "--workers", workers, "--sync", milliseconds]
    with tempfile.TemporaryDirectory(dir="/var/tmp") as folder:
        words += ["--log", os.path.join(folder, "log")]
        with running([str(word) for word in words], port, is_told=True) as server:
            yield server


@contextlib.contextmanager
def logging_beanstalkd(milliseconds):
    """The same."""
    with tempfile.TemporaryDirectory(dir="/var/tmp") as folder, beanstalkd("-b", folder, "-f", str(milliseconds)) as server:
        yield server


def medians(rows):
    """The median of each column."""
    return [statistics.median(column) for column in zip(*rows)]
