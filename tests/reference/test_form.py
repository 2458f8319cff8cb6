"""The reference stays short, typed and apart: it imports nothing but Python's own library."""

import ast
import sys
import unittest

from memory import TOP

MOST_LINES = 40  # of a function
MOST_COLUMNS = 120
FILES = sorted((TOP / "reference").glob("*.py"))


class Form(unittest.TestCase):
    def each(self) -> list[tuple[str, ast.AST]]:
        return [(path.name, node) for path in FILES for node in ast.walk(ast.parse(path.read_text(encoding="utf-8")))]

    def test_functions_are_short_and_typed(self) -> None:
        for name, node in self.each():
            if isinstance(node, ast.FunctionDef):
                own = [one.arg for one in node.args.args if one.annotation is None]
                with self.subTest(file=name, function=node.name):
                    self.assertTrue(set(own) <= {"self"} and node.returns)
                    self.assertLessEqual((node.end_lineno or 0) - node.lineno, MOST_LINES)

    def test_nothing_else_is_imported(self) -> None:
        for name, node in self.each():
            if isinstance(node, ast.Import):
                self.assertTrue({one.name.split(".")[0] for one in node.names} <= sys.stdlib_module_names, name)
            elif isinstance(node, ast.ImportFrom) and node.level == 0:
                self.assertIn((node.module or "").split(".")[0], sys.stdlib_module_names, name)

    def test_lines_are_short(self) -> None:
        for path in FILES:
            long = [line for line in path.read_text(encoding="utf-8").split("\n") if len(line) > MOST_COLUMNS]
            self.assertEqual(long, [], path.name)


if __name__ == "__main__":
    unittest.main()
