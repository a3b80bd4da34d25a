"""A client that speaks beanstalkd's protocol. A reply that isn't the one that is asked for fails the test, and so does one that
doesn't come."""

import re
import select
import socket
import struct
from typing import NamedTuple

# So many seconds a wait lasts at most. It is long because the machine may be busy.
PATIENCE = 45


class Unexpected(AssertionError):
    """The server told something else, or nothing."""


class Gone(Exception):
    """The server has closed the connection."""


class Job(NamedTuple):
    id: int
    body: bytes


class Client:
    """One connection."""

    def __init__(self, host: str, port: int, takes_little: bool = False):
        """Connects. Where it takes little, the system keeps next to nothing of what is told to it and not read."""
        self.socket = socket.socket(socket.AF_INET6 if ":" in host else socket.AF_INET)
        self.socket.settimeout(PATIENCE)
        if takes_little:
            self.socket.setsockopt(socket.SOL_SOCKET, socket.SO_RCVBUF, 1)
            self.socket.setsockopt(socket.IPPROTO_TCP, socket.TCP_MAXSEG, 536)
        self.socket.connect((host, port))
        self.socket.setsockopt(socket.IPPROTO_TCP, socket.TCP_NODELAY, 1)
        self.came = b""

    # ---- bytes

    def send(self, data: bytes) -> None:
        try:
            self.socket.sendall(data)
        except (BrokenPipeError, ConnectionResetError) as error:
            raise Gone from error

    def more(self) -> None:
        """Waits for more bytes."""
        try:
            piece = self.socket.recv(65_536)
        except TimeoutError:
            raise Unexpected(f"no reply within {PATIENCE} s, but for {self.came[:100]!r}") from None
        except ConnectionResetError as error:
            raise Gone from error
        if not piece:
            raise Gone(f"after {self.came[:100]!r}")
        self.came += piece

    def take(self, size: int) -> bytes:
        """The next bytes, so many."""
        while len(self.came) < size:
            self.more()
        taken, self.came = self.came[:size], self.came[size:]
        return taken

    def line(self) -> str:
        """The next line, without its CR LF."""
        while b"\n" not in self.came:
            self.more()
        line = self.take(self.came.index(b"\n") + 1)
        if not line.endswith(b"\r\n"):
            raise Unexpected(f"a line ends otherwise: {line!r}")
        return line[:-2].decode("ascii")

    def expect(self, reply: bytes) -> None:
        """The next bytes are these."""
        while len(self.came) < len(reply) and reply.startswith(self.came):
            self.more()
        if not self.came.startswith(reply):
            raise Unexpected(f"told {self.came[:300]!r} in place of {reply[:300]!r}")
        self.came = self.came[len(reply):]

    def talk(self, request: bytes, reply: bytes) -> None:
        """Sends these bytes, and is told those."""
        self.send(request)
        self.expect(reply)

    def has_heard(self) -> bool:
        """Whether something has come that wasn't taken as yet."""
        return bool(self.came or select.select([self.socket], [], [], 0)[0])

    # ---- the connection

    def expect_end(self) -> None:
        """The server tells nothing more, and closes the connection."""
        try:
            self.more()
        except Gone:
            pass
        if self.came:
            raise Unexpected(f"told {self.came[:300]!r} in place of the end")

    def stop_sending(self) -> None:
        """Closes the writing half."""
        self.socket.shutdown(socket.SHUT_WR)

    def close(self) -> None:
        self.socket.close()

    def reset(self) -> None:
        """Closes the connection as a system does whose process was killed with bytes unread."""
        self.socket.setsockopt(socket.SOL_SOCKET, socket.SO_LINGER, struct.pack("ii", 1, 0))
        self.socket.close()

    # ---- lines

    def ask(self, line: str) -> str:
        """Sends a line, and answers the line that is told."""
        self.send(line.encode("ascii") + b"\r\n")
        return self.line()

    def numbers(self, line: str, pattern: str) -> list[int]:
        """Takes a line of this form, and answers its numbers."""
        found = re.fullmatch(pattern, line)
        if not found:
            raise Unexpected(f"told {line!r} in place of {pattern!r}")
        return [int(number) for number in found.groups()]

    def is_told(self, line: str, reply: str) -> None:
        """Sends a line, and is told this one."""
        told = self.ask(line)
        if told != reply:
            raise Unexpected(f"{line!r} was answered {told!r} in place of {reply!r}")

    def job(self, line: str, word: str) -> Job:
        """The job whose first line this is."""
        number, size = self.numbers(line, rf"{word} (\d+) (\d+)")
        body = self.take(size)
        self.expect(b"\r\n")
        return Job(number, body)

    def data(self, line: str) -> str:
        """What is told behind this OK."""
        (size,) = self.numbers(line, r"OK (\d+)")
        data = self.take(size).decode("ascii")
        self.expect(b"\r\n")
        return data

    def names(self, line: str) -> list[str]:
        """A list of tubes."""
        first, *rest = self.data(line).splitlines()
        assert first == "---", first
        return [name.removeprefix("- ") for name in rest]

    def report(self, line: str) -> dict[str, str]:
        """What `stats` and its kin tell."""
        first, *rest = self.data(self.ask(line)).splitlines()
        assert first == "---", first
        return dict(row.split(": ", 1) for row in rest)

    # ---- commands

    def put(self, body: bytes = b"job", pri: int = 0, delay: int = 0, ttr: int = 3600) -> int:
        """Puts a job, and answers its id."""
        self.send(b"put %d %d %d %d\r\n%s\r\n" % (pri, delay, ttr, len(body), body))
        return self.numbers(self.line(), r"INSERTED (\d+)")[0]

    def reserve(self) -> Job:
        """Waits for a job."""
        return self.job(self.ask("reserve"), "RESERVED")

    def reserve_with_timeout(self, seconds: int = 0) -> Job | None:
        """A job, or none where it is told TIMED_OUT."""
        line = self.ask(f"reserve-with-timeout {seconds}")
        return None if line == "TIMED_OUT" else self.job(line, "RESERVED")

    def reserve_job(self, job: int) -> Job:
        return self.job(self.ask(f"reserve-job {job}"), "RESERVED")

    def delete(self, job: int) -> None:
        self.is_told(f"delete {job}", "DELETED")

    def release(self, job: int, pri: int = 0, delay: int = 0) -> None:
        self.is_told(f"release {job} {pri} {delay}", "RELEASED")

    def bury(self, job: int, pri: int = 0) -> None:
        self.is_told(f"bury {job} {pri}", "BURIED")

    def touch(self, job: int) -> None:
        self.is_told(f"touch {job}", "TOUCHED")

    def kick(self, bound: int) -> int:
        return self.numbers(self.ask(f"kick {bound}"), r"KICKED (\d+)")[0]

    def kick_job(self, job: int) -> None:
        self.is_told(f"kick-job {job}", "KICKED")

    def find(self, line: str) -> Job | None:
        """A job, or none where it is told NOT_FOUND."""
        told = self.ask(line)
        return None if told == "NOT_FOUND" else self.job(told, "FOUND")

    def peek(self, job: int) -> Job | None:
        return self.find(f"peek {job}")

    def peek_ready(self) -> Job | None:
        return self.find("peek-ready")

    def peek_delayed(self) -> Job | None:
        return self.find("peek-delayed")

    def peek_buried(self) -> Job | None:
        return self.find("peek-buried")

    def use(self, tube: str) -> None:
        self.is_told(f"use {tube}", f"USING {tube}")

    def watch(self, tube: str) -> int:
        return self.numbers(self.ask(f"watch {tube}"), r"WATCHING (\d+)")[0]

    def ignore(self, tube: str) -> int:
        return self.numbers(self.ask(f"ignore {tube}"), r"WATCHING (\d+)")[0]

    def pause_tube(self, tube: str, seconds: int) -> None:
        self.is_told(f"pause-tube {tube} {seconds}", "PAUSED")

    def list_tubes(self) -> list[str]:
        return self.names(self.ask("list-tubes"))

    def list_tubes_watched(self) -> list[str]:
        return self.names(self.ask("list-tubes-watched"))

    def list_tube_used(self) -> str:
        told = self.ask("list-tube-used")
        if not told.startswith("USING "):
            raise Unexpected(f"told {told!r} in place of a tube")
        return told.removeprefix("USING ")

    def stats(self) -> dict[str, str]:
        return self.report("stats")

    def stats_job(self, job: int) -> dict[str, str]:
        return self.report(f"stats-job {job}")

    def stats_tube(self, tube: str) -> dict[str, str]:
        return self.report(f"stats-tube {tube}")

    def count_waiting(self) -> int:
        """How many clients wait in a reserve."""
        return int(self.stats()["current-waiting"])

    def count_connections(self) -> int:
        return int(self.stats()["current-connections"])
