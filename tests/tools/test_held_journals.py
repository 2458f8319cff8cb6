"""What bench/held-journals takes for a continuation, and what it finds."""

import random
import unittest
from types import SimpleNamespace

from support import TOP, Folders, script

HELD = script("held-journals", TOP / "bench")


def judged(verdict, stands, pending=(), end=9):
    how = {"stands": lambda: stands, "pending": lambda: set(pending), "ends": lambda rank: (end, "")}
    return SimpleNamespace(report={"verdict": verdict}, **how)


class HeldJournals(Folders):
    def test_what_may_follow(self):
        begun = ["isend 1 0 0 0", "cancel 1"]
        more = ["=failed", "=gone 1", "irecv 2 0 0 0", "=failed", "cancel 2", "=gone 2", "=kept 1"]
        self.assertEqual(list(HELD.may_follow(begun, more)), more[2:])

    def test_a_continuation_has_all_lines_and_more(self):
        lines = ["irecv 1 0 any 0", "=done 1 0 0", "wait 1", "barrier 0", "finalize"]
        ends = set()
        for seed in range(50):
            begun, whole = HELD.cut(random.Random(seed), lines)
            kept = [line for line in whole[: len(begun) + 1] if line in begun]
            self.assertEqual(begun, kept)
            ends.add((len(begun), whole[-1:] == ["finalize"]))
        self.assertGreater(len(ends), 5)

    def test_both_runs_are_of_the_same_ranks(self):
        for seed in range(20):
            HELD.put_runs(self.folder, seed)
            begun, whole = ({path.name for path in (self.folder / name).iterdir()} for name in "JK")
            self.assertLessEqual(begun, whole)
            self.assertIn("journal0", begun)
            self.again()

    def test_what_is_found(self):
        hang = judged("hang", {0: 3, 1: 2})
        self.assertEqual(HELD.difference(hang, judged("hang", {0: 3}), {0}), "")
        self.assertIn("held ranks [1]", HELD.difference(hang, judged("hang", {0: 3, 1: 4}), {0, 1}))
        self.assertIn("then free", HELD.difference(hang, judged("free", {}), {0}))
        self.assertIn("held are []", HELD.difference(hang, hang, set()))
        self.assertIn("held are [0]", HELD.difference(judged("unfinished", {0: 1}), hang, {0}))

    def test_a_pending_call_that_came_back(self):
        hang = judged("hang", {0: 3}, {0})
        self.assertEqual(HELD.difference(hang, judged("unfinished", {}, end=3), {0}), "")
        self.assertIn("held ranks [0]", HELD.difference(hang, judged("unfinished", {}, end=4), {0}))
        self.assertIn("then unfinished", HELD.difference(judged("hang", {0: 3}), judged("unfinished", {}, end=3), {0}))


if __name__ == "__main__":
    unittest.main()
