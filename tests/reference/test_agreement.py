"""The proved program and the reference write the same bytes: some random cases, where a program is built."""

import os
import subprocess
import unittest

from memory import TOP

PROGRAM = os.environ.get("PROGRAM") or str(TOP / "crates/mpiwait/out/mpiwait")


@unittest.skipUnless(os.access(PROGRAM, os.X_OK), "no program is built")
class Agreement(unittest.TestCase):
    def ask(self, *words: str) -> str:
        """The last line of what a script of bench/ says, which ends without a difference."""
        done = subprocess.run([str(TOP / "bench" / words[0]), *words[1:]], capture_output=True, text=True, check=False)
        self.assertEqual(done.returncode, 0, done.stdout + done.stderr)
        return done.stdout.splitlines()[-1]

    def test_check_and_lint(self) -> None:
        self.assertRegex(self.ask("random", PROGRAM, "400"), "^400 runs, 0 differ")

    def test_judge_and_close(self) -> None:
        self.assertEqual(self.ask("random-journals", PROGRAM, "--runs", "60"), "60 runs, 0 differ")


if __name__ == "__main__":
    unittest.main()
