"""bench/clauses, over a small repository with one crate."""

import shutil
import subprocess
from pathlib import Path

from support import TOP, Folders

SOURCE = """/// Adds.
pub fn add(one: u64, other: u64) -> u64
    requires small one + other <= 10;
    ensures sum result == one + other;
{
    one + other
}

/// Answers nothing.
pub fn none() -> u64
    ensures zero result == 0;
{
    0
}
"""
OTHER = SOURCE.replace("ensures sum result == one + other", "ensures sum result >= one + other")
LESS = SOURCE.partition("/// Answers")[0]
CHANGED, GONE = "changed: src/lib.rt: add", "gone: src/lib.rt: none"


class Clauses(Folders):
    def setUp(self) -> None:
        super().setUp()
        (self.folder / "bench").mkdir()
        for name in ("clauses", "contracts.py"):
            shutil.copy(TOP / "bench" / name, self.folder / "bench")
        self.git("init", "-q")
        self.source(SOURCE)
        self.git("add", "-A")
        self.git("-c", "user.name=n", "-c", "user.email=n@n", "commit", "-q", "-m", "first")
        self.commit = self.git("rev-parse", "HEAD").strip()

    def git(self, *words: str) -> str:
        done = subprocess.run(["git", *words], cwd=self.folder, check=True, capture_output=True, text=True)
        return done.stdout

    def source(self, text: str) -> None:
        path = Path(self.folder, "crates/one/src/lib.rt")
        path.parent.mkdir(parents=True, exist_ok=True)
        path.write_text(text)

    def clauses(self, *words: str) -> tuple[int, str]:
        script = [self.folder / "bench/clauses", *words]
        done = subprocess.run(script, capture_output=True, text=True, check=False)
        return done.returncode, done.stdout + done.stderr

    def since(self, *lines: str, commit: str = "") -> tuple[int, str]:
        """What comes of a file with these lines after the commit."""
        path = self.folder / "bench/since"
        path.write_text("# A note.\n" + "\n".join([f"commit {commit or self.commit}", *lines]) + "\n")
        return self.clauses("--since", "bench/since")

    def test_two_revisions(self) -> None:
        self.assertEqual(self.clauses("HEAD"), (0, "2 same, 0 changed, 0 gone, 0 new\n"))
        self.source(OTHER)
        self.assertEqual(self.clauses("HEAD"), (1, f"{CHANGED}\n1 same, 1 changed, 0 gone, 0 new\n"))
        self.source(LESS)
        self.assertEqual(self.clauses("HEAD"), (1, f"{GONE}\n1 same, 0 changed, 1 gone, 0 new\n"))

    def test_nothing_changed(self) -> None:
        status, said = self.since()
        counts = "2 same, 0 changed, 0 gone, 0 new; 0 unsaid, 0 said in error"
        self.assertEqual((status, said), (0, f"since {self.commit[:8]}: {counts}\n"))
        self.source(SOURCE + "\npub fn more()\n{\n}\n")
        self.assertEqual(self.since()[0], 0)

    def test_what_the_file_does_not_say(self) -> None:
        for text, line in ((OTHER, CHANGED), (LESS, GONE)):
            self.source(text)
            status, said = self.since()
            self.assertEqual(status, 1)
            self.assertIn(f"{line}\n    bench/since doesn't say so\n", said)
            self.assertEqual(self.since(line, "    It was wrong.")[0], 0)

    def test_a_part_of_a_file(self) -> None:
        self.source("\npub fn more()\n{\n}\n")
        self.assertEqual(self.since("gone: src/lib.rt: *", "    All is new.")[0], 0)
        self.assertEqual(self.since("gone: src/other.rt: *", "    All is new.")[0], 1)

    def test_what_the_file_says_in_error(self) -> None:
        status, said = self.since(CHANGED, "    It was wrong.")
        self.assertEqual(status, 1)
        self.assertIn(f"{CHANGED}\n    bench/since says so, and it is as in {self.commit}\n", said)

    def test_wrong_files(self) -> None:
        self.assertIn("a line with blanks in front has to say why", self.since(CHANGED)[1])
        self.assertIn("line 3 is none of", self.since("altered: one")[1])
        self.assertIn("line 3 is none of", self.since("    Why?")[1])
        status, said = self.since(commit="1" * 40)
        self.assertEqual(status, 1)
        self.assertIn(f"its commit {'1' * 40} isn't in this clone: `git fetch --unshallow'", said)
        (self.folder / "bench/since").write_text("# Nothing.\n")
        self.assertIn("it names no commit", self.clauses("--since", "bench/since")[1])

    def test_the_stored_file(self) -> None:
        """Whether what it says is so is asked by tests/quick."""
        text = (TOP / "bench/clauses-since").read_text()
        self.assertEqual(len([line for line in text.splitlines() if line.startswith("commit ")]), 1)


if __name__ == "__main__":
    import unittest

    unittest.main()
