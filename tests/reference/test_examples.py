"""The reference answers the commands of the examples' READMEs, and words by the sentences that say what is wrong."""

import subprocess
import unittest

from memory import TOP, Memory
from reference.command_line import answer

WRONG = {
    "check": "`check' takes HEAD FILE.. or a FOLDER, and no paths were given",
    "check --json --json J": "--json is given twice",
    "check --json=1 J": "--json takes no value",
    "check --eager": "--eager needs a value",
    "check --eager -1 J": "--eager needs a value",
    "check --capacity 0 J": "--capacity takes a number of records from 1 to 1024, and not `0'",
    "check none": "`check' takes HEAD FILE.. or a FOLDER, and there is no folder `none'",
    "lint r0 r1": "`lint' takes one FILE, and 2 paths were given",
    "lint --json r0": "`lint' has no option `--json'; mpiwait lint --help lists those that it has",
    "judge --tests maybe J": "--tests is wait or pass, and not `maybe'",
    "close J": "`close' takes a FOLDER and OUT, and 1 path was given",
    "frob": "there is no command or folder `frob'; mpiwait --help lists all words",
    "--frob": "there is no option `--frob'; mpiwait --help lists all words",
}


class Examples(unittest.TestCase):
    def test_the_examples(self) -> None:
        words = [str(TOP / "bench/examples"), str(TOP / "reference/mpiwait")]
        done = subprocess.run(words, capture_output=True, text=True, check=False)
        self.assertRegex(done.stdout, r"^\d+ examples, \d+ commands, 0 answered otherwise\n$")

    def test_wrong_words(self) -> None:
        for words, said in WRONG.items():
            with self.subTest(words):
                answered = answer(words.split(" "), Memory({"J/journal0": b""}))
                self.assertEqual(answered, (3, "", f"mpiwait: {said}\n"))

    def test_texts(self) -> None:
        for words, name in (("-h", "help"), ("--version", "version"), ("check -h", "check-h"), ("lint -h", "lint-help"),
                            ("check --json --help", "check-help"), ("judge -V", "judge-version")):  # fmt: skip
            text = (TOP / "tools/texts" / name).read_text(encoding="utf-8")
            self.assertEqual(answer(words.split(" "), Memory({})), (0, text, ""))


if __name__ == "__main__":
    unittest.main()
