"""Tests of the scripts of tools/tries that need no MPI."""

import os
import subprocess
import unittest

from support import TOOLS, Folders

BUILD = """
fails() { echo "fails: $*"; }
. "$1/tries/libraries.sh"
has() { :; }
compile() { ! [[ $1 == mpifort.* ]] || return 1; }
work=$2 command=()
build mpich "$3" && echo "${command[*]}"
"""

OVERHEAD = """
fails() { echo "fails: $*"; }
. "$1/tries/overhead.sh"
judge_loop loop "$2" 3 100 "$3"
"""

WATCHED = """
set -euo pipefail
. "$1/tries/windows.sh"
work=$2
: >"$work/watched"
: >"$work/errors"
watch_run &
sleep 0.5
mkdir -- "$work/run"
head -c 3000000 /dev/zero >"$work/run/journal0"
echo "ranks 0 and 1 wait for ever" >>"$work/errors"
sleep 1.5
rm -- "$work/watched"
wait $!
echo "$(<"$work/disk") $(($(<"$work/reported") < $(date +%s)))"
"""


def said_by_bash(script, *words):
    done = subprocess.run(["bash", "-c", script, "bash", TOOLS, *map(str, words)], capture_output=True, text=True)
    return done.returncode, done.stdout


class Building(Folders):
    def build(self, source):
        self.write("program", "that of the try before")
        return said_by_bash(BUILD, self.folder, source)

    def test_a_program(self):
        self.assertEqual(self.build("ring.c"), (0, f"{self.folder}/program\n"))

    def test_what_cannot_be_compiled(self):
        self.assertEqual(self.build("ring.f90"), (1, "fails: mpich: ring.f90 can't be built\n"))
        self.assertFalse((self.folder / "program").exists())


class Watched(Folders):
    def test_a_folder_that_comes_later(self):
        """What isn't there can't be measured, and the next look is another. A report has the time when it came."""
        self.assertEqual(said_by_bash(WATCHED, self.folder), (0, "3 1\n"))


class Overhead(unittest.TestCase):
    """What recording adds is compared with the cost of a line, which was measured in turn with it."""

    def judged(self, added, idle):
        return said_by_bash(OVERHEAD, added, idle)

    def test_enough(self):
        self.assertEqual(self.judged(300, 4), (0, ""))

    def test_too_much(self):
        said = "fails: loop: 301 nanoseconds a call, and 3 lines cost 300\n"
        self.assertEqual(self.judged(301, 2), (0, said))

    def test_a_machine_with_other_work(self):
        said = "loop: 301 nanoseconds a call, and 3 lines cost 300: passed over: the machine has other work\n"
        self.assertEqual(self.judged(301, 1), (0, said))

    def test_idle_processors(self):
        code, text = said_by_bash('. "$1/tries/overhead.sh"; idle_processors')
        self.assertEqual(code, 0)
        self.assertIn(int(text), range(os.cpu_count() + 2))


if __name__ == "__main__":
    unittest.main()
