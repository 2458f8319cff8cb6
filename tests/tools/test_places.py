"""Places in the program: functions where there are no lines, and a disk without room."""

import shutil
import subprocess
import unittest

from support import Folders
from companions.places import lines_of
from companions.script import Status

# The last function isn't exported, and comes after one that is.
SOURCE = """int exported(int a) { return a + 1; }
__attribute__((noinline)) static int hidden(int a) { __asm__(""); return exported(a) * 3; }
int (*keep(void))(int) { return hidden; }
"""


@unittest.skipUnless(shutil.which("gcc") and shutil.which("nm") and shutil.which("strip"), "there is no compiler")
class Functions(Folders):
    def setUp(self):
        super().setUp()
        self.write("a.c", SOURCE)
        self.module = str(self.folder / "a.so")
        words = ["gcc", "-O1", "-fno-toplevel-reorder", "-shared", "-fPIC", "-o", self.module, self.folder / "a.c"]
        subprocess.run(words, check=True)
        said = subprocess.run(["nm", self.module], check=True, capture_output=True, text=True).stdout
        self.at = {name: int(value, 16) for value, _, name in (line.split() for line in said.splitlines()
                                                               if len(line.split()) == 3)}  # fmt: skip

    def names(self):
        offsets = [self.at[name] + 1 for name in ("exported", "hidden")]
        return [[frame.function for frame in lines_of(self.module, offsets)[offset]] for offset in offsets]

    def test_of_a_module_with_symbols(self):
        self.assertEqual(self.names(), [["exported"], ["hidden"]])

    def test_a_stripped_module_names_only_what_it_knows(self):
        subprocess.run(["strip", self.module], check=True)
        self.assertEqual(self.names(), [["exported"], [""]])
        offset = self.at["hidden"] + 1
        self.assertEqual(lines_of(self.module, [offset])[offset][0].text(), f"a.so+{offset + 1:#x}")


class FullDisk(Folders):
    def test_a_journal_without_room_is_no_refusal(self):
        self.run_of("finalize", "finalize")
        for text in (b"", b"\0" * 4096):
            with self.subTest(len(text)):
                self.write("journal/journal1", text)
                story = self.judged(None, None)
                self.assertEqual(story.status, Status.IMPOSSIBLE)
                self.assertEqual(story.title, "the disk had no room for the journal of rank 1")


if __name__ == "__main__":
    unittest.main()
