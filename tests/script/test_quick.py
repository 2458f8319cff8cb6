"""The script tests/quick, over a small repository, with a command `rt` that ends as a test wants."""

import os
import re
import shutil
import subprocess
import tempfile
import unittest
from pathlib import Path

TOP = Path(__file__).resolve().parents[2]
UNIT_TEST = """import unittest


class Sample(unittest.TestCase):
    def test_sample(self):
        self.assertEqual({}, 2)
"""


def write(path, text):
    path.parent.mkdir(parents=True, exist_ok=True)
    path.write_text(text)
    path.chmod(0o755)


class Quick(unittest.TestCase):
    def setUp(self):
        kept = tempfile.TemporaryDirectory()
        self.addCleanup(kept.cleanup)
        self.top = Path(kept.name, "top")
        write(self.top / "tests/quick", (TOP / "tests/quick").read_text())
        write(self.top / "tests/sample/test_sample.py", UNIT_TEST.format("1 + 1"))
        write(self.top / "bench/examples", "#!/bin/sh\necho 13 examples\n")
        write(self.top / "bench/believed", "#!/bin/sh\necho 3 definitions\n")
        write(self.top / "bench/clauses", '#!/bin/sh\necho "$@"\n')
        write(self.top / "bench/check-journals", '#!/bin/sh\ngrep -qx right "$1/journal0"\n')
        write(self.top / "examples/one/journal0", "right")
        write(self.top / "tools/record/programs/journals-1024", '#!/bin/sh\necho right >"$1/journal0"\n')
        write(self.top / "tests/rows", (TOP / "tests/rows").read_text())
        for crate in ("cli_rows", "api_rows"):
            write(self.top / f"crates/{crate}/stdin", f"row one\nrow two of {crate}\nsame three of {crate}\n")
            write(self.top / f"crates/{crate}/stdout", "1 rows\n")
        self.rt("exit 0")

    def rt(self, ending):
        """A command `rt` that wants a case and what must come of it, and then ends so."""
        write(self.top / "bin/rt", f'#!/bin/sh\n[ "$1 $2 $3 $4" = "try --seconds 1500 --cases" ] &&\n'
              f'grep -q row "$5/rows" && grep -q rows "$5/rows.stdout" && {ending}\n')

    def run_quick(self, *words, path=None):
        path = f"{self.top / 'bin'}:{os.environ['PATH']}" if path is None else path
        done = subprocess.run([self.top / "tests/quick", *words], env={**os.environ, "PATH": path}, text=True,
                              capture_output=True, stdin=subprocess.DEVNULL, check=False)
        return done.returncode, done.stdout

    def path_without(self, *names):
        """A PATH that lacks some commands."""
        folder = self.top / "fewer"
        folder.mkdir()
        for name in {"bash", "sh", "env", "dirname", "readlink", "mktemp", "rm", "cat", "find", "awk", "sed",
                     "tail", "mkdir", "cp", "python3", "shellcheck", "grep", "sleep"}.difference(names):
            if found := shutil.which(name):
                (folder / name).symlink_to(found)
        return str(folder)

    def test_all_passes(self):
        status, out = self.run_quick()
        self.assertEqual(status, 0, out)
        for text in ("tests/sample/: passed", "cli_rows: passed", "api_rows: passed", "examples: passed",
                     "believed: passed, N s: 3 definitions", "not done: proofs",
                     "journals: passed, N s: 1 folders of stored journals, and one that is made",
                     "clauses: passed, N s: --since bench/clauses-since"):
            self.assertIn(text, re.sub(r"\b\d+ s\b", "N s", out))

    def test_a_unit_test_fails(self):
        write(self.top / "tests/sample/test_sample.py", UNIT_TEST.format("1 + 2"))
        for words in ((), ("--no-rt",)):
            status, out = self.run_quick(*words)
            self.assertEqual((status, out.splitlines()[-1]), (1, "failed: tests/sample/"))

    def test_a_row_is_answered_otherwise(self):
        self.rt("exit 5")
        status, out = self.run_quick()
        self.assertEqual((status, out.splitlines()[-1]), (1, "failed: cli_rows api_rows"))

    def test_an_example_is_answered_otherwise(self):
        write(self.top / "bench/examples", "#!/bin/sh\nexit 1\n")
        status, out = self.run_quick()
        self.assertEqual((status, out.splitlines()[-1]), (1, "failed: examples"))

    @unittest.skipUnless(shutil.which("shellcheck"), "there is no shellcheck")
    def test_a_script_that_shellcheck_warns_of(self):
        write(self.top / "tools/bad", "#!/usr/bin/env bash\ncd $1\nlocal x=1\n")
        status, out = self.run_quick("--no-rt")
        self.assertEqual((status, out.splitlines()[-1]), (1, "failed: shellcheck"))

    def test_without_the_kit_the_rest_is_run(self):
        status, out = self.run_quick(path=self.path_without("shellcheck"))
        self.assertEqual(status, 0, out)
        self.assertIn("shellcheck: passed over: it is not installed", out)
        self.assertIn("rows and examples: passed over: the command rt", out)
        self.assertIn("tests/sample/: passed", out)

    def test_journals_that_are_none(self):
        write(self.top / "examples/two/journal0", "wrong")
        status, out = self.run_quick("--no-rt")
        self.assertEqual((status, out.splitlines()[-1]), (1, "failed: journals"))
        self.assertIn("the journals of examples/two are none", out)

    def test_clauses_that_differ(self):
        write(self.top / "bench/clauses", "#!/bin/sh\necho changed: one\nexit 1\n")
        status, out = self.run_quick("--no-rt")
        self.assertEqual((status, out.splitlines()[-1]), (1, "failed: clauses"))
        self.assertIn("changed: one", out)

    def test_one_row(self):
        """The command reads the rows and says how many there were. Nothing else is run."""
        write(self.top / "bin/rt", "#!/bin/sh\n[ \"$*\" = \"try --seconds 600\" ] && cat && echo 2 rows, 3 answers\n")
        status, out = self.run_quick("three of cli_rows")
        self.assertEqual(status, 0, out)
        self.assertIn("cli_rows: builds the program without proof, and runs 2 of its rows, the first of them "
                      "`row two of cli_rows'\nrow two of cli_rows\nsame three of cli_rows\n2 rows, 3 answers\n"
                      "cli_rows: passed, ", out)  # fmt: skip
        self.assertEqual(len(out.splitlines()), 5, out)

    def test_one_row_that_is_answered_otherwise(self):
        """Also if it is lost, or the program prints its answer and ends well."""
        for ending in ("echo 0 rows", "echo wrong; echo 1 rows; exit 1", "echo 11 rows"):
            write(self.top / "bin/rt", f"#!/bin/sh\n{ending}\n")
            status, out = self.run_quick("two of api_rows")
            self.assertEqual(status, 1, out)
            self.assertIn("api_rows: failed, ", out)

    def test_no_row(self):
        self.assertEqual(self.run_quick("four"), (3, ""))
        self.assertEqual(self.run_quick("one", path=self.path_without("rt")), (3, ""))

    def test_wrong_words(self):
        self.assertEqual(self.run_quick("--fast"), (3, ""))
        self.assertEqual(self.run_quick(""), (3, ""))
        self.assertEqual(self.run_quick("one", "two"), (3, ""))


class Rows(unittest.TestCase):
    """The script tests/rows."""

    def picked(self, text, fit, name):
        with tempfile.TemporaryDirectory() as folder:
            write(Path(folder, "stdin"), text)
            words = [TOP / "tests/rows", Path(folder, "stdin"), fit, name]
            done = subprocess.run(words, text=True, capture_output=True, check=False)
        return done.returncode, done.stdout

    def test_names(self):
        text = "# Of a row.\nrow a b\nask\n\nrow a\nask more\nrow b a\n"
        self.assertEqual(self.picked(text, "is", "a"), (0, "row a\nask more\n"))
        self.assertEqual(self.picked(text, "is", " b"), (1, ""))
        self.assertEqual(self.picked(text, "begins", "b"), (0, "row b a\n"))
        self.assertEqual(self.picked(text, "has", " b"), (0, "row a b\nask\n\n"))
        self.assertEqual(self.picked(text, "has", "c"), (1, ""))
        self.assertEqual(self.picked(text, "ends", "a"), (3, ""))

    def test_what_a_row_builds_on(self):
        text = "row a\n1\nsame b\n2\nsame c\n3\nrow d\n"
        self.assertEqual(self.picked(text, "is", "c"), (0, "row a\n1\nsame b\n2\nsame c\n3\n"))
        self.assertEqual(self.picked(text, "is", "a"), (0, "row a\n1\n"))

    def test_each_stored_row_has_a_name_of_its_own(self):
        for crate in ("cli_rows", "api_rows"):
            lines = (TOP / f"crates/{crate}/stdin").read_text().splitlines()
            names = [line for line in lines if line.startswith(("row ", "same "))]
            self.assertEqual(len(names), int((TOP / f"crates/{crate}/stdout").read_text().split()[0]))


if __name__ == "__main__":
    unittest.main()
