"""The programs of `bench/slot_log_growth` and its like, which stand in tests/rattle: how they are built, and what they are
given. Where no other is named, it is `bench_growth`."""

import os
import shutil
import subprocess
import sys
import tempfile
from pathlib import Path

ROOT = Path(__file__).resolve().parent.parent
sys.path.append(str(ROOT / "tools"))
sys.dont_write_bytecode = True
import workspace

CRATE = "bench_growth"


def program(crate=CRATE):
    """Where the program of this crate is put."""
    return ROOT / "bench" / "out" / crate


def newest(folder):
    """When a file below this folder was changed last."""
    return max((path.stat().st_mtime_ns for path in folder.rglob("*")), default=0)


def is_built(crate):
    """Whether the program is built of its own source and of the crates that it measures."""
    if not program(crate).exists():
        return False
    used = workspace.closure(workspace.libraries(), crate)
    sources = [workspace.place_of(name) / "src" for name in used]
    return max(map(newest, sources)) < program(crate).stat().st_mtime_ns


def build(crate=CRATE):
    """Proves and builds it, unless it is built: a program without a proof would be a slow one."""
    if is_built(crate):
        return
    program(crate).parent.mkdir(exist_ok=True)
    with tempfile.TemporaryDirectory() as room:
        workspace.make(Path(room), [crate])
        subprocess.run(["rt", "ci"], cwd=room, stdout=subprocess.DEVNULL, check=True)
        shutil.copy(f"{room}/crates/{crate}/out/{crate}", program(crate))


def start(line, crate=CRATE):
    """The program, with this line to read."""
    run = subprocess.Popen([program(crate)], stdin=subprocess.PIPE, stdout=subprocess.PIPE)
    run.stdin.write(line.encode() + b"\n")
    run.stdin.close()
    return run


def told(line, crate=CRATE):
    """The lines that it writes when it has read this one."""
    run = subprocess.run([program(crate)], input=line.encode() + b"\n", stdout=subprocess.PIPE, check=True)
    return run.stdout.splitlines()
