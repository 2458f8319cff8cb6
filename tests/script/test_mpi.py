"""The script tests/mpi, over a small repository, where commands answer as a test wants. No MPI program runs."""

import os
import re
import shutil
import subprocess
import tempfile
import unittest
from pathlib import Path

TOP = Path(__file__).resolve().parents[2]
NEEDED = {
    "mpirun.mpich": "mpich", "mpicc.mpich": "libmpich-dev", "mpirun.openmpi": "openmpi-bin",
    "mpicc.openmpi": "libopenmpi-dev", "gcc": "gcc", "g++": "g++", "gfortran": "gfortran", "make": "make",
    "nm": "binutils", "shellcheck": "shellcheck",
}  # fmt: skip
# What the script itself calls.
CALLED = "bash sh env dirname readlink mktemp rm cat sed tail tee grep paste chmod printf".split()


def write(path: Path, text: str) -> None:
    path.parent.mkdir(parents=True, exist_ok=True)
    path.write_text(text)
    path.chmod(0o755)


class Mpi(unittest.TestCase):
    def setUp(self) -> None:
        kept = tempfile.TemporaryDirectory()
        self.addCleanup(kept.cleanup)
        self.top, self.path = Path(kept.name, "top"), Path(kept.name, "bin")
        write(self.top / "tests/mpi", (TOP / "tests/mpi").read_text())
        self.tries('echo "$1: one: as stored"')
        for name in NEEDED:
            self.command(name, "exit 0")
        self.command("python3", "exit 0")
        self.command("apt-get", "exit 9")
        for name in CALLED:
            (self.path / name).symlink_to(str(shutil.which(name)))

    def command(self, name: str, text: str) -> None:
        write(self.path / name, f"#!/bin/sh\n{text}\n")

    def tries(self, text: str) -> None:
        """What tools/try does."""
        write(self.top / "tools/try", f"#!/bin/sh\n[ \"$1\" != --first ] || shift\n{text}\n")

    def run_mpi(self, *words: str) -> tuple[int, str, str]:
        environment = {**os.environ, "PATH": str(self.path)}
        done = subprocess.run([self.top / "tests/mpi", *words], env=environment, capture_output=True, text=True,
                              stdin=subprocess.DEVNULL, check=False)
        return done.returncode, done.stdout, done.stderr

    def test_all_passes(self) -> None:
        status, out, errors = self.run_mpi()
        self.assertEqual((status, errors), (0, ""), out)
        self.assertIn("\ntried: README.md's program, the verdict free, ", out)
        self.assertIn("\ncases with mpich: 1\ncases with openmpi: 1\ntests/mpi passed, in ", out)
        self.assertRegex(out.splitlines()[-1], r"^tests/mpi passed, in \d+ s$")

    def test_one_library(self) -> None:
        status, out, _ = self.run_mpi("openmpi")
        self.assertEqual(status, 0)
        self.assertNotIn("mpich", out)

    def test_a_try_that_fails(self) -> None:
        self.tries('echo "$1: one: another report than the stored one"; [ "$1" != mpich ]')
        status, out, _ = self.run_mpi()
        self.assertEqual(status, 1)
        self.assertIn("failed: mpich: tools/try mpich\n", out)
        self.assertRegex(out.splitlines()[-1], r"^tests/mpi failed, in \d+ s$")

    def test_a_recorder_with_a_warning(self) -> None:
        self.command("make", 'case "$*" in *-Werror*mpich* | *mpich*-Werror*) exit 2;; esac')
        for words in ((), ("--first",)):
            status, out, _ = self.run_mpi(*words)
            self.assertEqual(status, 1)
            self.assertIn("failed: mpich: the recorder\n", out)

    def test_what_is_passed_over(self) -> None:
        """What Debian lacks may be; else it is a failure, so that nothing is left out unseen."""
        self.tries('echo "mpich: ring.py passed over: no mpi4py of this library"')
        status, out, _ = self.run_mpi("mpich")
        self.assertEqual(status, 0)
        self.assertIn("\npassed over: mpich: ring.py passed over: no mpi4py", out)
        self.tries('echo "mpich: ring.f90 passed over: there is no mpifort.mpich"')
        status, out, _ = self.run_mpi("mpich")
        self.assertEqual(status, 1)
        self.assertIn("failed: mpich: ring.f90 passed over", out)

    def test_what_is_missing_is_installed(self) -> None:
        (self.path / "gfortran").unlink()
        self.command("apt-get", f'[ "$*" = "install --yes --no-install-recommends gfortran" ] &&\n'
                     f'cp "{self.path}/make" "{self.path}/gfortran"')  # fmt: skip
        (self.path / "cp").symlink_to(str(shutil.which("cp")))
        status, out, _ = self.run_mpi()
        self.assertEqual(status, 0, out)
        self.assertEqual(out.splitlines()[0], "tests/mpi: installs gfortran")

    def test_what_cannot_be_installed(self) -> None:
        for name in ("mpicc.openmpi", "gfortran"):
            (self.path / name).unlink()
        self.command("apt-get", "echo no network; exit 100")
        for words in ((), ("--install",)):
            status, out, errors = self.run_mpi(*words)
            self.assertEqual(status, 3)
            self.assertIn("no network", errors)
            self.assertIn("are missing, and can't be installed: libopenmpi-dev gfortran\n", errors)
            self.assertIn("apt-get install libopenmpi-dev gfortran", errors.splitlines()[-1])

    def test_mpi4py_is_a_package_too(self) -> None:
        self.command("python3", "exit 1")
        script = (TOP / "tests/mpi").read_text().replace("/usr/bin/python3", "/nowhere/python3")
        write(self.top / "tests/mpi", script)
        self.assertIn("can't be installed: python3-mpi4py\n", self.run_mpi()[2])

    def test_wrong_words(self) -> None:
        self.assertEqual(self.run_mpi("--fast")[:2], (3, ""))


class Names(unittest.TestCase):
    def test_its_tries_are_those_of_tools_try(self) -> None:
        """Each name is a row, or a function of a part."""
        script = (TOP / "tests/mpi").read_text()
        listed = re.search(r"^tries\(\) \{\n.*?END'\n(.*?)^END$", script, re.MULTILINE | re.DOTALL)
        assert listed
        rows = {line.split()[0] for line in (TOP / "tools/tries/rows").read_text().splitlines()}
        parts = "".join(path.read_text() for path in (TOP / "tools/tries").glob("*.sh"))
        singles = {name.replace("_", "-") for name in re.findall(r"^try_(\w+)\(\)", parts, re.MULTILINE)}
        for line in listed[1].splitlines():
            for name in line.partition(": ")[2].split():
                self.assertIn(name, rows | singles)


if __name__ == "__main__":
    unittest.main()
