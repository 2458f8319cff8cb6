"""What the built program shows of how far a check is, on real outputs. Passed over where no program is built."""

import os
import pty
import re
import subprocess
import threading
import time
import unittest

from support import TOP, Folders

PROGRAM = os.environ.get("MPIWAIT") or str(TOP / "crates/mpiwait/out/mpiwait")
CALLS = 70_000
LINE = re.compile(
    r"mpiwait: (\d+) calls taken(; rank \d+ stands earliest, at its call \d+)?(; \d+% of the files read)?"
)


@unittest.skipUnless(os.access(PROGRAM, os.X_OK), "no program is built")
class Progress(Folders):
    def feed(self, seconds):
        """Writes many calls into the pipe, and the end some seconds later."""
        with open(self.folder / "r0", "w", encoding="ascii") as pipe:
            pipe.write("barrier 0\n" * CALLS)
            pipe.flush()
            time.sleep(seconds)
            pipe.write("finalize\n")

    def check(self, *words, seconds=3.5, **how):
        """What comes of a check of one rank, whose calls come by a pipe."""
        self.write("head", "ranks 1\n")
        os.mkfifo(self.folder / "r0")
        writer = threading.Thread(target=self.feed, args=(seconds,))
        writer.start()
        # With little room both threads would wait for each other often, which takes seconds on a busy machine.
        words = [PROGRAM, "check", "--capacity", "1024", *words, "head", "r0"]
        done = subprocess.run(words, cwd=self.folder, stdout=subprocess.PIPE, stdin=subprocess.DEVNULL,
                              check=False, timeout=60, **how)  # fmt: skip
        writer.join()
        os.unlink(self.folder / "r0")
        return done

    def test_lines_and_the_same_report(self):
        for words in ((), ("--json",)):
            plain = self.check(*words, stderr=subprocess.PIPE)
            shown = self.check(*words, "--progress", stderr=subprocess.PIPE)
            self.assertEqual((plain.returncode, plain.stderr), (0, b""))
            self.assertEqual((shown.returncode, shown.stdout), (plain.returncode, plain.stdout))
            lines = shown.stderr.decode().splitlines()
            taken = [int(LINE.fullmatch(line).group(1)) for line in lines]
            self.assertEqual(taken, sorted(taken))
            self.assertIn(CALLS, taken)

    def test_a_full_disk_and_a_closed_standard_error(self):
        plain = self.check(stderr=subprocess.PIPE)
        with open("/dev/full", "w", encoding="ascii") as full:
            written = self.check("--progress", stderr=full)
        closed = self.check("--progress", preexec_fn=lambda: os.close(2))
        for done in (written, closed):
            self.assertEqual((done.returncode, done.stdout), (plain.returncode, plain.stdout))

    def test_a_terminal_after_two_seconds(self):
        for seconds, is_shown in ((0.5, False), (3.5, True)):
            reading, writing = pty.openpty()
            done = self.check(seconds=seconds, stderr=writing)
            os.close(writing)
            said = b""
            try:
                while more := os.read(reading, 4096):
                    said += more
            except OSError:
                pass  # all of it was read
            os.close(reading)
            self.assertEqual((done.returncode, done.stdout), (0, b"verdict free\n"))
            self.assertEqual(bool(said), is_shown)
            if is_shown:
                self.assertTrue(said.startswith(b"\rmpiwait: ") and said.endswith(b"\r\x1b[K"))


if __name__ == "__main__":
    unittest.main()
