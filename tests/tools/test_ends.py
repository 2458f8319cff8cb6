"""How a run is ended: the launcher first, then what is left."""

import contextlib
import io
import os
import time
import unittest

from support import Folders
from companions import watching
from companions.script import fields_of

# A launcher of two ranks, which note the signals that they get; `rests' is what it does when it is ended itself.
RANK = """#!/bin/sh
trap 'echo rank >> "{folder}/said"; exit' TERM
while :; do sleep 0.1; done
"""
LAUNCHER = """#!/bin/sh
"{folder}/rank" & ranks=$!
"{folder}/rank" & ranks="$ranks $!"
trap 'echo launcher >> "{folder}/said"; {rests}' TERM
while :; do sleep 0.1; done
"""


class Ends(Folders):
    def ended(self, rests: str) -> list[str]:
        """Who got a signal, in that order."""
        for name, text in (("rank", RANK), ("mpirun", LAUNCHER)):
            self.write(name, text.format(folder=self.folder, rests=rests))
            os.chmod(self.folder / name, 0o755)
        with contextlib.redirect_stderr(io.StringIO()):
            began = time.monotonic()
            self.assertTrue(watching.run_command(["sh", "-c", f"{self.folder}/mpirun; exit 1"], None, 0.5)[1])
        self.assertLess(time.monotonic() - began, 9)
        return self.read("said").split()

    def test_a_launcher_that_ends_its_ranks(self):
        self.assertEqual(self.ended("kill -KILL $ranks; exit"), ["launcher"])

    def test_a_launcher_that_leaves_its_ranks(self):
        self.assertEqual(self.ended("exit"), ["launcher", "rank", "rank"])

    def test_a_process_that_left_the_tree(self):
        """It is known by the variable that the recorder has from the script."""
        self.write("leaves", "import os, time\nif os.fork() == 0:\n    os.setsid()\n"
                   f"    open('{self.folder}/pid', 'w').write(str(os.getpid()))\n    time.sleep(60)\n")  # fmt: skip
        words = ["env", f"MPIWAIT_JOURNAL={self.folder}", "sh", "-c", f"python3 {self.folder}/leaves & sleep 60"]
        with contextlib.redirect_stderr(io.StringIO()):
            self.assertTrue(watching.run_command(words, None, 1.5)[1])
        self.assertIn(fields_of(int(self.read("pid")))[0], "ZX")


if __name__ == "__main__":
    unittest.main()
