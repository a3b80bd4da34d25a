#!/usr/bin/env python3
# Usage: tools/workspace.py FOLDER NAME..
"""Makes a workspace of its own in this empty folder: the crates of these names and those that they stand on, without their
wrong bodies, so that `rt` works there on copies.

A crate of `tests/rattle` can be named, too. No check reads these, and the gate lets no `.rt` file stand where none does: so
their files end in `.rs` here, and get their names in the workspace."""

import os
import shutil
import sys
from pathlib import Path

ROOT = Path(__file__).resolve().parent.parent
UNPROVED = ROOT / "tests" / "rattle"
LISTS = (ROOT / "crates.txt", UNPROVED / "libraries.txt")


def libraries() -> dict[str, list[str]]:
    """What each crate uses."""
    lines = [line for path in LISTS for line in path.read_text().splitlines() if line and not line.startswith("#")]
    return {name: used.split() for name, _, used in (line.partition(":") for line in lines)}


def closure(used: dict[str, list[str]], name: str) -> dict[str, list[str]]:
    """The crate and those that it stands on, each behind those that it uses. What isn't listed is the kit's."""
    found = {}
    for library in used[name]:
        found |= closure(used, library) if library in used else {}
    return found | {name: used[name]}


def rename(folder: Path) -> None:
    for path in folder.rglob("*.rs"):
        path.rename(path.with_suffix(".rt"))


def place_of(name: str) -> Path:
    """The folder of this crate."""
    place = ROOT / "crates" / name
    return place if place.is_dir() else UNPROVED / name


def copy_crate(name: str, to: Path) -> None:
    shutil.copytree(place_of(name), to, ignore=shutil.ignore_patterns("out", "must-fail"))
    rename(to)


def make(folder: Path, names: list[str]) -> None:
    """Makes the workspace of these crates."""
    used, found = libraries(), {}
    for name in names:
        found |= closure(used, name)
    for name in found:
        copy_crate(name, folder / "crates" / name)
    lines = [f"{name}: {' '.join(libraries)}\n" for name, libraries in found.items()]
    (folder / "crates.txt").write_text("".join(lines))
    shutil.copy(ROOT / "HANDLES", folder)
    # `rt` looks no further up for the top of a repository
    (folder / ".git").mkdir()


def main() -> None:
    if len(sys.argv) < 3:
        sys.exit("usage: tools/workspace.py FOLDER NAME..")
    folder, names = Path(sys.argv[1]), sys.argv[2:]
    unknown = sorted({*names} - {*libraries()})
    if unknown:
        sys.exit(f"tools/workspace.py: there is no crate {' '.join(unknown)}")
    if not folder.is_dir() or any(folder.iterdir()):
        sys.exit(f"tools/workspace.py: {folder} is no empty folder")
    make(folder, names)


if __name__ == "__main__":
    main()
