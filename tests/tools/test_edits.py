"""Edits that the prover must refuse change a text that stands once in its file."""

import unittest

from support import TOP


def texts(path):
    """The texts that an edit replaces, each with the file that it stands in."""
    file = None
    for line in path.read_text().splitlines():
        word, _, rest = line.partition(": ")
        if word == "file":
            file = rest
        elif word == "old":
            yield file, rest


class Edits(unittest.TestCase):
    def test_each_text_stands_once(self):
        edits = [*TOP.glob("crates/*/must-fail/*.edit"), *TOP.glob("bench/edits/*/*.edit")]
        self.assertGreater(len(edits), 100)
        for edit in edits:
            crate = edit.parent.name if "bench" in edit.parts else edit.parent.parent.name
            for file, old in texts(edit):
                with self.subTest(edit=edit.name, old=old):
                    text = (TOP / "crates" / crate / file).read_text()
                    self.assertEqual(text.count(old), 1)


if __name__ == "__main__":
    unittest.main()
