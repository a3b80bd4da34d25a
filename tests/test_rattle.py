"""Tests of the layers inside the program, which are written in Rattle and stand in `rattle`: `rt try` builds and runs them
without a proof."""

import os
import re
import shutil
import subprocess
import unittest
from pathlib import Path

from harness import Case

HERE = Path(__file__).resolve().parent
ROOT = HERE.parent

PASSED = re.compile(r"^test result: ok\. (\d+) passed; 0 failed; 0 ignored; 0 filtered out$", re.MULTILINE)
IS_TEST = re.compile(r"^#\[test\]$", re.MULTILINE)

# So many seconds a crate may run, once it is built.
LONGEST_RUN = 1_500

# The interpreter, which `rt try` runs beside, ends after one step.
QUICK = ("--steps", 1, "--seconds", LONGEST_RUN)

# Of the drawn inputs half are of the plain profile, and half of the extended one, which begins at seed 10,000.
FIRST_SEED, SEEDS = 9_000, 2_000


@unittest.skipUnless(shutil.which("rt"), "the Rattle kit's rt isn't on the path")
class Layers(Case):
    # a build takes minutes where others are built beside it
    seconds = 300
    uses_program = False
    longest = 2400

    def try_crate(self, name: str, *words: object) -> str:
        """What a crate of `rattle` prints, built and run in a workspace of its own. It has to end with status 0."""
        room = self.folder / "room"
        room.mkdir()
        subprocess.run([ROOT / "tools" / "workspace.py", room, name], check=True)
        crate = room / "crates" / name
        given = (crate / "stdin").read_text() if (crate / "stdin").exists() else ""
        done = subprocess.run(["rt", "try", *map(str, words)], cwd=crate, env={**os.environ, "TMPDIR": str(self.folder)},
                              input=given, stdout=subprocess.PIPE, stderr=subprocess.PIPE, text=True)
        self.assertEqual(done.returncode, 0, (done.stdout + done.stderr)[-4000:])
        return done.stdout

    def run_tests(self, name: str) -> None:
        """Runs the tests of a crate: all must pass, and as many as stand in its files."""
        passed = PASSED.search(self.try_crate(name, "--test", "--seconds", LONGEST_RUN))
        count = sum(len(IS_TEST.findall(path.read_text())) for path in (HERE / "rattle" / name).rglob("*.rs"))
        self.assertTrue(passed, "no result is told")
        self.assertEqual(int(passed[1]), count)
        self.note(f"{count} tests")

    def run_program(self, name: str, *words: object) -> None:
        """Runs a program: it must print what its file `stdout` has."""
        told = self.try_crate(name, *QUICK, *words)
        self.assertEqual(told, (HERE / "rattle" / name / "stdout").read_text())

    def test_layers(self):
        """Nodes, worlds, halls, sessions, logs and clusters of threads do what was worked out by hand, case by case."""
        self.run_tests("test_layers")

    def test_cases(self):
        """Requests, replies, dumps, logs and letters between nodes are as the cases in `test_cases/data` say."""
        names = sorted(path.name for path in (HERE / "rattle" / "test_cases" / "data").iterdir())
        data = [word for name in names for word in ("--data", f"{name}=data/{name}")]
        told = self.try_crate("test_cases", *QUICK, *data, "--", *names)
        self.assertEqual(told, "".join(f"{name}: 0 differ\n" for name in names))
        self.note(f"{len(names)} files")

    def test_hosts(self):
        """Hosts that crash, are away and lose letters answer by one order, as worked out and as drawn."""
        self.run_tests("test_host")

    def test_drawn_inputs(self):
        """Whatever bytes a client sends, whole and in pieces, it is told the same, and whole replies that may come."""
        told = self.try_crate("test_fuzz", *QUICK, "--", FIRST_SEED, SEEDS)
        self.assertIn(f"\n{SEEDS} inputs, alike whole and in pieces; ", told)
        self.note(f"seeds from {FIRST_SEED} on")

    def test_calls_that_can_be_refused_memory(self):
        """The courses of calls that may be refused memory come out right where none is refused."""
        self.run_program("test_refusals")

    def test_runs_that_can_be_refused_memory(self):
        """So do the courses of whole runs."""
        self.run_program("test_refused_runs")
