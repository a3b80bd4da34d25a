"""Files of cases: each says what the program is started with and given, and what must come of it. The first lines of the
files in `cases` say how they are read."""

import re
from collections.abc import Iterator
from dataclasses import dataclass, field
from pathlib import Path

# a case begins with its kind in brackets, and then its title
TITLE = re.compile(r"\[([^]]*)\] (.*)")
QUOTATION = re.compile(r'\s*(?:(\d+)\*)?"([^"]*)"')
ESCAPE = re.compile(r"\\(?:x([0-9a-f]{2})|([rnt]))")
ESCAPED = {"r": "\r", "n": "\n", "t": "\t"}

# the status and the errors of a run that ends so
ENDS = {
    "eof": (0, b""),
    "quit": (0, b""),
    "read failed": (1, b"beanpax: 7 read failed\n"),
    "write failed": (1, b"beanpax: 8 write failed\n"),
}


@dataclass
class Wanted:
    """What is wanted of an output: all of it, or how many bytes at least and what stands somewhere among them."""

    whole: bytes = b""
    least: int | None = None
    parts: list[bytes] = field(default_factory=list)

    def read(self, text: str) -> None:
        if text.startswith("at least "):
            self.least = int(text.removeprefix("at least ").removesuffix(" bytes"))
        elif text.startswith("with "):
            self.parts.append(bytes_of(text.removeprefix("with ")))
        else:
            self.whole += bytes_of(text)

    def is_met(self, output: bytes) -> bool:
        if self.least is None and not self.parts:
            return output == self.whole
        if self.whole:
            raise ValueError("all of an output is said, and parts of it")
        return len(output) >= (self.least or 0) and all(part in output for part in self.parts)


@dataclass
class Case:
    """What a case says."""

    kind: str
    title: str
    given: bytes = b""
    input_fails: bool = False
    # how many bytes come at a time, beside 4096
    pieces: list[int] = field(default_factory=list)
    # how many bytes may be written to the output and to the errors
    room: int | None = None
    errors_room: int | None = None
    words: list[str] = field(default_factory=list)
    status: int = 0
    output: Wanted = field(default_factory=Wanted)
    errors: Wanted = field(default_factory=Wanted)

    def read(self, line: str) -> None:
        name, _, value = line.partition(" ")
        match name:
            case "in":
                self.given += bytes_of(value)
            case "out":
                self.output.read(value)
            case "errors":
                self.errors.read(value)
            case "words":
                self.words.append(value)
            case "end":
                self.status, self.errors.whole = ENDS[value]
            case "input-fails":
                self.input_fails = True
            case _:
                self.read_number(name, int(value))

    def read_number(self, name: str, number: int) -> None:
        match name:
            case "pieces":
                self.pieces.append(number)
            case "status":
                self.status = number
            case "room":
                self.room = number
            case "errors-room":
                self.errors_room = number
            case _:
                raise ValueError(f"{name} is no field of a case")


def bytes_of(text: str) -> bytes:
    """The bytes of quotations such as `"put 0 0 1 3\\r\\n" 3*"a"`, one after the other; a number and `*` before one say how often
    it stands there."""
    found, at = b"", 0
    while at < len(text):
        quotation = QUOTATION.match(text, at)
        if not quotation:
            raise ValueError(f"{text[at:]!r} isn't quoted")
        found += unescaped(quotation[2]) * int(quotation[1] or 1)
        at = quotation.end()
    return found


def unescaped(text: str) -> bytes:
    return ESCAPE.sub(lambda found: chr(int(found[1], 16)) if found[1] else ESCAPED[found[2]], text).encode("latin-1")


def cases_of(path: Path) -> list[Case]:
    """The cases of a file."""
    return list(read_cases(path.read_text(encoding="ascii").splitlines()))


def read_cases(lines: list[str]) -> Iterator[Case]:
    case = None
    for line in lines:
        if title := TITLE.fullmatch(line):
            if case:
                yield case
            case = Case(title[1], title[2])
        elif line and not line.startswith("#"):
            case.read(line)
    if case:
        yield case
