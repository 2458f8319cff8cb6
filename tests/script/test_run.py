"""What tools/run asks of the checker, with one that notes its words and finds a hang that buffers let go."""

import contextlib
import os
import shutil
import signal
import subprocess
import sys
import tempfile
import time
import unittest
from pathlib import Path

TOP = Path(__file__).resolve().parents[2]
CHECKER = """#!/bin/sh
echo "$@" >> "$0.words"
rest=',"findings":[],"left":[],"lines":[[0,0,2],[0,1,3]]}'
case "$*" in
*--eager*2147483647*) printf '{"causes":[],"ranks":[],"verdict":"free"%s' "$rest" && exit 0 ;;
*)
    printf '{"causes":[{"cycle":[0]}],'
    printf '"ranks":[{"at":0,"call":"send 0 0 0 4","needs":[[0,1]],"rank":0}],"verdict":"hang"%s' "$rest"
    ;;
esac
exit 1
"""
JOURNAL = "journal 2 0 1 a-run i a library\nsend 0 0 0 4\nrecv 0 0 0\nfinalize\n"
BUFFERED = "If all messages are buffered, this run is free"
NOTE = "mpiwait: the checker that produced this answer has not been verified on this machine"
# What tools/run does before it begins a run.
TRY_OUT = "from companions import runs, script; script.run_script(lambda _: runs.Judge().try_out(True) or 0)"


class Run(unittest.TestCase):
    def setUp(self):
        kept = tempfile.TemporaryDirectory()
        self.addCleanup(kept.cleanup)
        self.folder = Path(kept.name).resolve()
        (self.folder / "tools").mkdir()
        shutil.copy(TOP / "tools/run", self.folder / "tools")
        for name in ("companions", "texts"):
            shutil.copytree(TOP / "tools" / name, self.folder / "tools" / name)
        self.checker = self.folder / "mpiwait"
        self.checker.write_text(CHECKER)
        self.checker.chmod(0o755)
        (self.folder / "run/journal").mkdir(parents=True)
        (self.folder / "run/journal/journal0").write_text(JOURNAL)

    def run_again(self, *words, **environment):
        """Judges the recording once more: the status, what the checker was asked, and what was written."""
        asked = self.folder / "mpiwait.words"
        asked.unlink(missing_ok=True)
        command = [self.folder / "tools/run", *words, "--folder", "run", "--again"]
        environment = {**os.environ, "MPIWAIT": "", **environment}
        done = subprocess.run(command, cwd=self.folder, env=environment, text=True, stdout=subprocess.PIPE,
                              stderr=subprocess.STDOUT, stdin=subprocess.DEVNULL, check=False)
        return done.returncode, asked.read_text().splitlines() if asked.exists() else [], done.stdout

    def test_unproved_is_handed_on_to_the_checker(self):
        status, asked, said = self.run_again("--unproved")
        self.assertEqual((status, asked[0]), (1, "--unproved judge --json --held ."))
        self.assertIn("verdict hang: 1 of 1 ranks wait", said)

    def test_else_it_asks_of_buffers(self):
        for words, environment in (((), {}), (["--unproved"], {"MPIWAIT": str(self.checker)})):
            status, asked, said = self.run_again(*words, **environment)
            self.assertEqual((status, asked), (1, ["judge --json --held .", "judge --json --held --eager=2147483647 ."]))
            self.assertIn(BUFFERED, said)

    def test_a_check_that_fails_says_nothing_of_buffers(self):
        self.checker.write_text(CHECKER.replace("exit 0", "exit 4"))
        status, _, said = self.run_again()
        self.assertEqual(status, 1)
        self.assertNotIn(BUFFERED, said)

    def test_wrong_words_are_said_before_the_run(self):
        status, asked, said = self.run_again("--unproved", "--eager", "many")
        self.assertEqual((status, asked), (3, []))
        self.assertIn("argument --eager: invalid int value: 'many'", said)


class ByReference(unittest.TestCase):
    """Where no proved program is built, tools/run judges by the reference, and says so once."""

    def setUp(self):
        Run.setUp(self)
        shutil.copy(TOP / "mpiwait", self.checker)
        shutil.copytree(TOP / "reference", self.folder / "reference")
        (self.folder / "crates/mpiwait/src").mkdir(parents=True)
        for name in ("HANDLES", "crates.txt"):
            shutil.copy(TOP / name, self.folder / name)

    def test_a_hang(self):
        for words, note in (((), f"{NOTE}; `mpiwait build' proves and builds one that is\n"), (["--unproved"], f"{NOTE}\n")):
            status, _, said = Run.run_again(self, *words)
            self.assertEqual(status, 1)
            self.assertTrue(said.startswith(note))
            self.assertEqual(said.count(NOTE), 1)
            self.assertIn("verdict hang: 1 of 1 ranks wait", said)
            self.assertIn(BUFFERED, said)

    def test_a_refusal(self):
        (self.folder / "run/journal/journal0").write_text(JOURNAL + "barrier 0\n")
        status, _, said = Run.run_again(self)
        self.assertEqual((status, said.count(NOTE)), (2, 1))

    def test_the_checker_is_tried_out(self):
        words = [sys.executable, "-c", TRY_OUT]
        done = subprocess.run(words, cwd=self.folder / "tools", env={**os.environ, "MPIWAIT": ""}, text=True,
                              capture_output=True, check=False)  # fmt: skip
        self.assertEqual((done.returncode, done.stderr.count(NOTE)), (0, 1))


if __name__ == "__main__":
    unittest.main()
