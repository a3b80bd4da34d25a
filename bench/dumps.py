"""What a server's dump says of each of its sessions (docs/DUMP.md)."""

import dataclasses


@dataclasses.dataclass
class Session:
    """What one connection submitted, its close as well, and what it was answered, each in the order of its numbers."""

    acts: list[str] = dataclasses.field(default_factory=list)
    replies: list[str] = dataclasses.field(default_factory=list)


def sessions(path):
    """The sessions of a dump, the clock's not among them."""
    found = {}
    with open(path, encoding="ascii") as dump:
        for line in dump:
            kind, session, number, text = (*line.rstrip("\n").split(" ", 3), "", "", "")[:4]
            if kind in ("S", "A") and session != "0":
                one = found.setdefault(session, Session())
                texts = one.acts if kind == "S" else one.replies
                texts.append(text)
                assert len(texts) == int(number), f"{path}: {line!r} is out of its turn"
    return list(found.values())
