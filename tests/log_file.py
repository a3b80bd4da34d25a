"""Logs as files: what stands in them, and how one is written."""

import hashlib
from collections.abc import Iterable, Iterator
from pathlib import Path


def sum_of(words: bytes) -> bytes:
    """The sum of words, as a log has it."""
    return hashlib.sha1(words).hexdigest()[:8].encode()


def log_lines(commands: Iterable[str], weights: str = "1 1 1") -> Iterator[bytes]:
    """The lines of a log of these commands, in which each tells the sum of the line before it."""
    head = b"beanpax-log 2 %s\n" % weights.encode()
    yield head
    before = sum_of(head)
    for words in commands:
        line = b"%s %s" % (words.encode(), before)
        before = sum_of(line)
        yield b"%s %s\n" % (line, before)


def log_of_version_1(*commands: str, weights: str = "1 1 1") -> bytes:
    """A log of these commands, in which no line says anything of another."""
    lines = [b"%s %s\n" % (words.encode(), sum_of(words.encode())) for words in commands]
    return b"".join([b"beanpax-log 1 %s\n" % weights.encode(), *lines])


class Log:
    """The log in a file."""

    def __init__(self, path: Path):
        self.path = path

    def read(self) -> bytes:
        return self.path.read_bytes()

    def write(self, data: bytes) -> None:
        self.path.write_bytes(data)

    def cut(self, size: int) -> None:
        """Leaves so many bytes of it."""
        with self.path.open("r+b") as file:
            file.truncate(size)

    def lines(self) -> list[bytes]:
        """Its lines, each with its line feed; what is torn at the end is a line, too."""
        return self.read().splitlines(keepends=True)

    def write_lines(self, lines: list[bytes]) -> None:
        self.write(b"".join(lines))

    def acts(self) -> list[str]:
        """What took effect, in its order: the first words of each whole line but the head, with sums behind them."""
        return [line.decode().split(" ", 2)[2] for line in self.lines()[1:] if line.endswith(b"\n")]
