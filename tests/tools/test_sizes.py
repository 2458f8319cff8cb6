"""How long the functions and lines of the scripts of tools/ and bench/ are, and who reads journals."""

import ast
import unittest

from support import TOOLS, TOP

MOST_IN_A_FUNCTION, MOST_COLUMNS, MOST_IN_BENCH = 40, 110, 120


def is_script(path):
    """Whether it is Python or shell."""
    first = path.read_bytes().partition(b"\n")[0]
    return path.suffix in (".py", ".sh") or first.startswith(b"#!")


def scripts(folder=TOOLS):
    found = (path for path in folder.rglob("*") if path.is_file() and "out" not in path.parts)
    return sorted(path for path in found if is_script(path))


def functions(text):
    """Names and lengths."""
    kinds = (ast.FunctionDef, ast.AsyncFunctionDef)
    found = (one for one in ast.walk(ast.parse(text)) if isinstance(one, kinds))
    return {one.name: one.end_lineno - one.lineno + 1 for one in found}


class Sizes(unittest.TestCase):
    def test_functions(self):
        for path in scripts():
            if b"python" in path.read_bytes()[:40] or path.suffix == ".py":
                for name, length in functions(path.read_text(encoding="utf-8")).items():
                    self.assertLessEqual(length, MOST_IN_A_FUNCTION, f"{path}: {name}")

    def test_columns(self):
        for folder, most in ((TOOLS, MOST_COLUMNS), (TOP / "bench", MOST_IN_BENCH)):
            texts = ((path, path.read_text("utf-8").split("\n")) for path in scripts(folder))
            lines = ((path, *one) for path, text in texts for one in enumerate(text, 1))
            self.assertEqual([f"{path}:{at}" for path, at, line in lines if len(line) > most], [])

    def test_one_module_reads_the_lines_of_journals(self):
        for path in (TOOLS / "companions").glob("*.py"):
            if path.name != "journals.py":
                self.assertNotIn(".data", path.read_text("utf-8"), path)


if __name__ == "__main__":
    unittest.main()
