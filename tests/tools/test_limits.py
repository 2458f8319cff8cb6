"""The least size of buffered messages at which a run can't hang."""

import fcntl
import os
import unittest
from unittest import mock

from support import TOP, Folders, journal
from companions.runs import Answer
from companions import run
from companions.journals import Journal
from companions.script import Stopped

CHECKER = {"MPIWAIT": str(TOP / "tests/tools/judge")}


class Limits(Folders):
    def said(self, *ranks):
        self.run_of(*ranks)
        done = self.command("limits", ".", env=os.environ | CHECKER)
        return done.returncode, done.stdout

    def test_by_halves(self):
        ranks = [f"send 0 {1 - rank} 0 8 @3 / recv 0 {1 - rank} 0 @4 / finalize" for rank in (0, 1)]
        table = "limit   verdict\nnone    hang\n8       free\n0       hang\nthe least limit with the verdict free is 8\n"
        self.assertEqual(self.said(*ranks), (0, table))

    def test_few_questions(self):
        calls = " / ".join(f"bsend 0 null 0 / send 0 null 0 {size}" for size in range(300))
        self.run_of(f"{calls} / finalize")
        asked = []

        def ask(_, eager=None):
            asked.append(eager)
            free = eager is not None and eager >= 77
            return Answer(0 if free else 1, {"verdict": "free" if free else "hang"})

        with mock.patch(
            "companions.run.Judge", return_value=mock.Mock(ask=lambda folder, eager: ask(folder, eager))
        ):
            with mock.patch("builtins.print"):
                free, _ = run.try_limits(run.kept_runs(self.folder / "journal"))
        self.assertEqual(min(free), 77)
        self.assertLessEqual(len(asked), 11)

    def test_all_of_a_run_that_was_cut_off(self):
        code, text = self.said("send 0 1 0 4 / isend 1 0 1 0 8 / recv 0 1 9", "recv 0 0 3 / finalize")
        self.assertEqual(
            (code, [line.split()[0] for line in text.split("\n")[1:5]]), (1, ["none", "0", "4", "8"])
        )

    def test_a_run_that_hangs_at_none(self):
        runs = [mock.Mock(has_ended=False, journals=[mock.Mock(sizes=lambda: {4})])]
        for hangs, status in ((), 5), ((None, 0), 1):
            answer = lambda _, eager, hangs=hangs: Answer(1 if eager in hangs else 5, {})  # noqa: E731
            with mock.patch("companions.run.Judge", return_value=mock.Mock(ask=answer)), mock.patch("builtins.print"):
                self.assertEqual(run.try_limits(runs), ([], status))

    def test_a_folder_in_use(self):
        self.run_of("finalize")
        held = os.open(self.folder, os.O_RDONLY)
        self.addCleanup(os.close, held)
        fcntl.flock(held, fcntl.LOCK_EX)
        done = self.command("limits", ".", env=os.environ | CHECKER)
        self.assertEqual((done.returncode, done.stdout), (3, ""))
        self.assertIn("another tools/run has . in use", done.stderr)

    def test_free_without_a_limit(self):
        table = "limit   verdict\nnone    free\nthe verdict is free without a limit\n"
        self.assertEqual(self.said("finalize"), (0, table))

    def test_several_runs(self):
        """The least limit is that at which none of them hangs."""
        self.run_of("finalize")
        (self.folder / "journal/run-b").mkdir()
        for rank in (0, 1):
            calls = f"send 0 {1 - rank} 0 8 @3 / recv 0 {1 - rank} 0 @4 / finalize"
            self.write(f"journal/run-b/journal{rank}", journal(rank, 2, calls))
        done = self.command("limits", ".", env=os.environ | CHECKER)
        self.assertEqual((done.returncode, done.stdout.splitlines()[-1]), (0, "the least limit with the verdict free is 8"))

    def test_the_worst_of_several_answers(self):
        self.run_of("finalize", "finalize")
        runs = [mock.Mock(folder=name, has_ended=True, journals=[]) for name in ("hangs", "fails")]
        answers = {"hangs": Answer(1, {"verdict": "hang"}), "fails": Answer(4, None, "out of memory")}
        with mock.patch("companions.run.Judge", return_value=mock.Mock(ask=lambda folder, eager: answers[folder])):
            with mock.patch("builtins.print"), self.assertRaises(Stopped) as stopped:
                run.try_limits(runs)
        self.assertEqual(stopped.exception.status, 4)

    def test_doubts(self):
        """Where recorded calls may match others, no verdict can be trusted."""
        self.run_of("finalize")
        self.write("journal/left0", "P 000000000003 calls of another thread\n")
        done = self.command("limits", ".", env=os.environ | CHECKER)
        self.assertEqual((done.returncode, done.stdout), (6, ""))
        self.assertIn("recorded calls may match calls that weren't recorded", done.stderr)

    def test_each_form_of_size(self):
        calls = ("send 0 1 0 3", "rsend 0 1 0 5 @2", "isend 1 0 1 0 7", "irsend 2 0 1 0 9 @1", "sendrecv 0 1 0 any any 11",
                 "isendrecv 3 4 0 1 0 0 0 13", "ssend 0 1 99", "send 0 1 99", "bcast 0 99")  # fmt: skip
        self.write("journal0", journal(0, 2, " / ".join(calls)))
        self.assertEqual(Journal(self.folder, 0).sizes(), {3, 5, 7, 9, 11, 13})

    def test_failing(self):
        self.assertEqual(self.said("wait 3 / finalize")[0], 2)
        for folder in ("none", "journal/journal0"):
            self.assertEqual(self.command("limits", folder).returncode, 3)
        self.assertEqual(self.command("limits").returncode, 3)
        done = self.command("limits", ".", env=os.environ | {"MPIWAIT": "./none"})
        self.assertEqual(done.returncode, 4)
        self.assertIn("can't be run", done.stderr)


if __name__ == "__main__":
    unittest.main()
