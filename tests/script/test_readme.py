"""What README shows is what is in the repository."""

import re
import unittest
from pathlib import Path

TOP = Path(__file__).resolve().parents[2]
README = (TOP / "README.md").read_text()


class Readme(unittest.TestCase):
    def test_its_program_is_the_examples(self):
        program = (TOP / "examples/eager-exchange/exchange.c").read_text()
        self.assertEqual(re.findall(r"^```c\n(.*?)^```$", README, re.MULTILINE | re.DOTALL), [program])
        for call, line in re.findall(r"(MPI_\w+) at exchange\.c:(\d+)", README):
            self.assertIn(f"{call}(", program.splitlines()[int(line) - 1])

    def test_the_gate_runs_its_test_command(self):
        command = re.search(r"The test command is\n\n```console\n\$ (.*)\n```\n", README)[1]
        self.assertEqual((TOP / ".ci/run").read_text().splitlines()[-1], f"exec {command}")


if __name__ == "__main__":
    unittest.main()
