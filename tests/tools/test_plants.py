"""Faults for the recorder change a text that stands once in its file; and what bench/plant-recorder makes of a run."""

import importlib.machinery
import importlib.util
import unittest

from support import TOP

LOADER = importlib.machinery.SourceFileLoader("plant_recorder", str(TOP / "bench/plant-recorder"))
SPEC = importlib.util.spec_from_loader(LOADER.name, LOADER)
assert SPEC
plants = importlib.util.module_from_spec(SPEC)
LOADER.exec_module(plants)

SAID = """mpich: the recorder is built, without a warning
mpich: one: as stored
mpich: two: another report than the stored one

tried: README.md's program
cases with mpich: 2
failed: mpich: tools/try mpich
tests/mpi failed, in 4 s
"""


class Plants(unittest.TestCase):
    def test_each_can_be_planted(self) -> None:
        paths = sorted(plants.PLANTS.glob("*.edit"))
        self.assertGreater(len(paths), 24)
        for path in paths:
            with self.subTest(plant=path.stem):
                plant = plants.plant_in(path.read_text())
                text = (TOP / plant.file).read_text()
                self.assertNotEqual(plants.planted(text, plant), text)

    def test_form(self) -> None:
        plant = plants.plant_in("file: a/b.c\nold: x\n    y\nnew: z\nold: v\nnew: \n")
        self.assertEqual(plant, ("a/b.c", [("x\n    y", "z"), ("v", "")]))
        self.assertEqual(plants.planted("v x\n    y", plant), " z")
        for text in ("x x\n    y v v", "nothing"):
            with self.assertRaises(ValueError):
                plants.planted(text, plant)
        for text in ("", "old: a\nnew: b\n", "file: a\nold: b\n", "file: a\nnew: b\nold: c\n"):
            with self.assertRaises(ValueError):
                plants.plant_in(text)

    def test_what_found_it(self) -> None:
        self.assertEqual(plants.found_in(1, SAID), (True, True, "mpich: two: another report than the stored one"))
        self.assertFalse(plants.found_in(0, SAID).failed)
        self.assertFalse(plants.found_in(1, "mpich: the recorder can't be built, or with a warning\n").built)
        self.assertEqual(plants.found_in(3, "why\nno package\n"), (False, True, "no package"))
        self.assertTrue(plants.found_in(None, "").failed)


if __name__ == "__main__":
    unittest.main()
