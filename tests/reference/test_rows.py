"""The reference answers the rows of crates/cli_rows, which the proved program has to answer."""

import os
import unittest

from memory import TOP, Row, rows
from reference.command_line import answer

# What isn't asked of the reference: texts of faults that no run has, and outputs that fail.
NOT_ASKED = {"fault", "number", "capacity", "out-fails", "err-fails", "shown-fails"}
MOST_BYTES = 5_000_000  # of the files of a row, unless LONG is set in the environment: such a row takes seconds


def is_usage(row: Row) -> bool:
    """Whether its words are wrong: what is said of that may be said in other words."""
    return row.status == 3 and not row.err.startswith(b"usage: ") or row.err in (b"usage: ", b"usage:")


class Rows(unittest.TestCase):
    def test_all_rows(self) -> None:
        count = 0
        for row in rows():
            is_long = sum(map(len, row.files.values())) > MOST_BYTES and not os.environ.get("LONG")
            if row.words is None or row.marks.keys() & NOT_ASKED or is_long:
                continue
            with self.subTest(row.name):
                self.look_at(row)
            count += 1
        wanted = int((TOP / "crates/cli_rows/stdout").read_text().split(" ")[0])
        self.assertGreater(count, wanted - 180)

    def look_at(self, row: Row) -> None:
        assert row.words is not None
        disk = row.disk()
        status, out, err = answer(row.words, disk)
        said, complained = out.encode(), err.encode()
        self.assertEqual(status, row.status)
        if is_usage(row):
            self.assertEqual(said, b"")
            self.assertRegex(err, "^(mpiwait|usage): .*\n$")
        elif "begins" in row.marks:
            self.assertTrue(said.startswith(row.out) and complained.startswith(row.err))
        elif marks := row.marks.keys() & {"has", "has-end"}:
            for mark in marks:
                end = "\n" if mark == "has-end" else ""
                self.assertTrue(all(text + end in out for text in row.marks[mark]))
        else:
            self.assertEqual((said, complained), (row.out, row.err))
        self.assertEqual(disk.made, row.made)


if __name__ == "__main__":
    unittest.main()
