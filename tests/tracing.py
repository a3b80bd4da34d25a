"""What a process asks of the system, and in which order, as strace tells it; and calls that strace has fail."""

import functools
import re
import subprocess
from collections.abc import Iterable
from dataclasses import dataclass
from pathlib import Path

# What is traced.
CALLS = "accept4,openat,ftruncate,write,writev,pwrite64,pwritev,sendto,sendmsg,fsync,fdatasync,setsockopt"

WRITES = ("write", "writev", "pwrite64", "pwritev")
SENDS = ("write", "writev", "sendto", "sendmsg")
SYNCS = ("fsync", "fdatasync")

# A call with its arguments, and what came of it where it is over already; and what came of one that was begun before.
BEGUN = re.compile(r"(\d+) +(\w+)\((.*?)(?:\) += (.+)| <unfinished \.\.\.>)")
RESUMED = re.compile(r"(\d+) +<\.\.\. (\w+) resumed>.*\) += (.+)")


@functools.cache
def can_trace() -> bool:
    """Whether strace is here, and the system lets it look at a process of ours."""
    try:
        done = subprocess.run([*tracer(Path("/dev/null")), "true"], capture_output=True, check=False)
    except FileNotFoundError:
        return False
    return done.returncode == 0


def tracer(trace: Path, fault: str = "", of: Path | None = None) -> list[str]:
    """The words that have a program traced into this file, and such calls fail: those of one file alone, where it is
    named. The program's own process stays the one that is started."""
    injected = ["-e", f"inject={fault}"] if fault else []
    named = ["-P", str(of)] if of else []
    return ["strace", "-D", "-f", "-y", "-s", "100000", "-e", f"trace={CALLS}", *injected, *named, "-o", str(trace)]


def is_whole(trace: Path, process: int) -> bool:
    """Whether the trace tells the end of this process."""
    text = trace.read_text(encoding="ascii", errors="replace")
    return re.search(rf"^{process} +\+\+\+ ", text, re.MULTILINE) is not None


@dataclass(eq=False)
class Call:
    """A call of the system. Its result is empty while it goes on."""

    name: str
    arguments: str
    result: str = ""

    def is_of(self, path: Path) -> bool:
        """Whether its first argument is this file, or is open as it."""
        return self.arguments.split(", ")[0].endswith(f"<{path}>")

    def is_done(self) -> bool:
        """Whether it is over, and was no failure."""
        return bool(self.result) and not self.result.startswith("-1")


@dataclass(frozen=True)
class Moment:
    """A call begins, or is over."""

    call: Call
    is_end: bool


def moments(path: Path) -> Iterable[Moment]:
    """What stands in a trace, in its order. The system does a call between its beginning and its end."""
    running: dict[str, Call] = {}
    for line in path.read_text(encoding="ascii", errors="replace").splitlines():
        if begun := BEGUN.match(line):
            process, name, arguments, result = begun.groups()
            call = Call(name, arguments)
            yield Moment(call, is_end=False)
            running[process] = call
        elif resumed := RESUMED.match(line):
            process, _, result = resumed.groups()
            call = running.pop(process)
        else:
            continue
        if result:
            call.result = result
            yield Moment(call, is_end=True)


@dataclass(frozen=True)
class Told:
    """A client is told of a job: so many of all puts are written then, and so many synced."""

    job: int
    written: int
    synced: int


class Log:
    """A trace as seen from a log: how much of it is written and synced."""

    def __init__(self, path: Path):
        self.path = path
        self.written = self.synced = 0
        # How much was written when a sync began that goes on.
        self.begun: dict[int, int] = {}

    def see(self, moment: Moment) -> None:
        call = moment.call
        if not call.is_of(self.path):
            return
        if call.name in SYNCS and not moment.is_end:
            self.begun[id(call)] = self.written
        elif call.name in SYNCS and call.is_done():
            self.synced = max(self.synced, self.begun[id(call)])
        elif call.name in WRITES and moment.is_end and call.is_done():
            self.written += call.arguments.count(" put ")

    def told(self, trace: Path) -> list[Told]:
        """Of which jobs clients were told."""
        found = []
        for moment in moments(trace):
            self.see(moment)
            if moment.call.name in SENDS and not moment.is_end:
                jobs = re.findall(r"INSERTED (\d+)", moment.call.arguments)
                found += [Told(int(job), self.written, self.synced) for job in jobs]
        return found
