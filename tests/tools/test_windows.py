"""Windows of a run: which are judged and removed while it goes on, and what is said of them."""

import contextlib
import io
import json
import os
import shutil
import signal
import subprocess
import sys
import time
import unittest
from pathlib import Path
from socket import gethostname
from unittest import mock

from support import BOTH, SITES, TOP, Folders, Stored, journal
from companions import run, windows
from companions.journals import is_closed, windows_in
from companions.outputs import runs_in
from companions.runs import Judge, Run
from companions.script import Stopped
from companions.watching import Alarm, Watched
from companions.windows import Judging, Windows, stories_of

CHECKER = {"MPIWAIT": str(TOP / "tests/tools/judge")}
# Windows of two ranks, by their calls.
FREE = ("barrier 0 @1 / send 0 1 0 @2 / cut", "barrier 0 @1 / recv 0 0 0 @3 / cut")
HANG = tuple(calls.replace("finalize", "cut") for calls in BOTH)
TESTS = tuple(
    f"isend 1 0 {1 - rank} 0 4 @4 / test 1 @5 / recv 0 {1 - rank} 0 @6 / cut" for rank in (0, 1)
)  # a hang by tests alone
ROOTS = ("bcast 0 0 @4 / cut", "bcast 0 1 @4 / cut")
UNCLEAN = ("send 0 1 0 @2 / cut", "cut")
LAST = ("recv 0 1 0 @7 / finalize", "send 0 0 0 @8 / finalize")
STUCK = ("recv 0 1 0 @7", "recv 0 0 0 @8")


class Cut(Folders):
    def put(self, *all_windows, state="o"):
        """Windows from 1 on. None stands for one that was removed."""
        top = self.folder / "journal"
        top.mkdir(exist_ok=True)
        for number, ranks in enumerate(all_windows, 1):
            if ranks:
                (top / str(number)).mkdir()
                for rank, calls in enumerate(ranks):
                    self.write(f"journal/{number}/journal{rank}", journal(rank, len(ranks), calls, state))
        for rank in (0, 1):
            self.write(f"journal/sites{rank}", SITES)
            self.write(f"journal/left{rank}", "")
        return top

    def judged(self, *all_windows, keeps=False, judge=None):
        return self.windows_of(self.put(*all_windows), keeps, judge)

    def windows_of(self, top, keeps=False, judge=None):
        """Those in a folder, judged."""
        found = Windows(top, judge or Stored(), keeps)
        with contextlib.redirect_stderr(io.StringIO()) as said:
            while found.catch_up():
                pass
        self.said = said.getvalue()
        return found

    def there(self):
        return windows_in(self.folder / "journal")


class Closed(Cut):
    def test_which_are(self):
        for ranks, wanted in ((FREE, True), (LAST, False), (("cut",), True), (("cut", "barrier 0"), False), (("cut", ""), False)):  # fmt: skip
            with self.subTest(ranks):
                self.again()
                self.assertEqual(is_closed(self.put(ranks) / "1"), wanted)

    def test_a_rank_without_a_journal(self):
        top = self.put(FREE)
        (top / "1/journal1").unlink()
        self.assertFalse(is_closed(top / "1"))
        self.assertFalse(is_closed(top / "2"))

    def test_the_last_one_waits_for_nothing(self):
        self.assertEqual(self.judged(FREE).count("judged"), 0)
        self.again()
        self.assertEqual(self.judged(FREE, LAST).count("judged"), 1)


class Interrupted(Cut):
    # by a thread: the main one isn't woken, as where a signal comes just before it waits
    IN_A_THREAD = """
import signal, threading, time
def send():
    while not Path(BEGUN).exists():
        time.sleep(0.05)
    time.sleep(0.5)
    signal.pthread_kill(one.thread.ident, signal.SIGTERM)
threading.Thread(target=send, daemon=True).start()
"""

    def judging(self, more=""):
        self.put(FREE, FREE, FREE, LAST)
        self.write("checker", f"#!/bin/sh\necho $$ >>'{self.folder}/begun'\nexec sleep 600\n")
        (self.folder / "checker").chmod(0o755)
        text = "from pathlib import Path; from companions import runs, script, windows\n" \
            f"one = windows.Judging(Path({str(self.folder / 'journal')!r}), runs.Judge(nice=1), False, None)\n" \
            f"{more.replace('BEGUN', repr(str(self.folder / 'begun')))}" \
            "script.run_script(lambda _: (one.thread.start(), one.end()))"
        environment = os.environ | {"MPIWAIT": str(self.folder / "checker")}
        words = ["env", "--default-signal=TERM", sys.executable, "-c", text]
        return subprocess.Popen(words, cwd=TOP / "tools", env=environment, stderr=subprocess.PIPE, text=True)

    def ended(self, running):
        try:
            _, said = running.communicate(timeout=30)
        finally:
            running.kill()
            begun = self.read("begun").split()
            left = [one for one in begun if Path(f"/proc/{one}").exists()]
            for one in left:
                os.kill(int(one), signal.SIGKILL)
        self.assertEqual((running.returncode, said, left), (4, "tools/-c: it was interrupted\n", []))
        self.assertEqual((len(begun), self.there()), (1, [1, 2, 3, 4]))

    def test_a_signal_while_windows_are_judged(self):
        """It ends the checker, no other one begins, and all windows stay."""
        running = self.judging()
        until = time.monotonic() + 30
        while not (self.folder / "begun").exists() and time.monotonic() < until:
            time.sleep(0.05)
        running.terminate()
        self.ended(running)

    def test_a_signal_that_does_not_wake_the_main_thread(self):
        self.ended(self.judging(self.IN_A_THREAD))


class Judged(Cut):
    def test_free_ones_are_removed(self):
        found = self.judged(FREE, FREE, LAST)
        wanted = {"judged": 2, "calls": 8, "unjudged": 0, "first": None, "different": None}
        self.assertEqual((found.counts(), self.there(), self.said), (wanted, [3], ""))

    def test_free_ones_are_kept(self):
        self.judged(FREE, LAST, keeps=True)
        self.assertEqual(self.there(), [1, 2])

    def test_the_first_that_is_not_free_stays(self):
        found = self.judged(FREE, HANG, HANG, FREE, LAST)
        self.assertEqual((found.count("judged"), found.first, self.there()), (4, 2, [2, 5]))
        self.assertIn("window 2 of journal: verdict hang: 2 of 2 ranks wait", self.said)
        self.assertIn("rank 0 waits in MPI_Send at /a.py:7", self.said)
        self.assertNotIn("window 3", self.said)

    def test_different_roots_are_told_and_change_no_verdict(self):
        found = self.judged(FREE, ROOTS, ROOTS, HANG, LAST)
        self.assertEqual((found.differs, found.first, found.count("different"), self.there()), (2, 4, 2, [2, 4, 5]))
        title = "window 2 of journal: error: the ranks disagree on the root of MPI_Bcast on MPI_COMM_WORLD; this run went on"
        self.assertEqual(self.said.count(title), 1)
        self.assertIn("the 1st collective on MPI_COMM_WORLD in this window:", self.said)
        self.assertNotIn("window 3", self.said)
        self.assertIn("window 4 of journal: verdict hang", self.said)

    def test_one_that_is_not_clean(self):
        found = self.judged(UNCLEAN, LAST)
        self.assertEqual(found.first, 1)
        self.assertIn("refused rank 0 line 2 J11 cut", self.said)

    def test_tests_that_hold_nobody(self):
        found = self.judged(TESTS, LAST)
        self.assertEqual((found.first, found.count("by_tests"), self.there()), (None, 1, [2]))
        self.assertIn("1 window would hang only if nothing else is done until a test succeeds", list(found.lines()))

    def test_what_cannot_be_judged(self):
        found = self.judged(FREE, LAST, judge=Stored("--json"))
        self.assertEqual((found.count("judged"), found.unjudged()), (0, 1))
        self.assertIn("window 1 can't be judged: out of memory", self.said)
        self.assertEqual(list(found.lines()), ["1 window couldn't be judged"])

    def test_more_than_eight_wait(self):
        found = Windows(self.put(*[FREE] * 11, LAST), Stored())
        found.drop()
        self.assertEqual((found.unjudged(), self.there()), (3, [*range(1, 9), 12]))
        while found.catch_up():
            pass
        self.assertEqual((found.count("judged"), self.there()), (8, [12]))

    def test_all_wait_if_they_are_kept(self):
        found = Windows(self.put(*[FREE] * 11, LAST), Stored(), keeps=True)
        found.drop()
        self.assertEqual((found.unjudged(), self.there()), (0, [*range(1, 13)]))

    def test_a_thread(self):
        top = self.put(FREE, HANG, FREE, LAST)
        with contextlib.redirect_stderr(io.StringIO()):
            judging = Judging(top, Stored(), False, None)
            judging.thread.start()
            judging.look()
            found = judging.end()[top]
        self.assertEqual((found.count("judged"), found.first, self.there()), (3, 2, [2, 4]))

    def test_a_judge_that_fails_while_the_run_goes_on(self):
        """No window is forgotten that wasn't judged, and those behind it are."""
        judge, asked = Stored(), []
        top = self.put(FREE, FREE, LAST)

        def ask(folder, **words):
            asked.append(folder.name)
            if len(asked) == 1:
                raise OSError(24, "Too many open files")
            return Stored.ask(judge, folder, **words)

        with mock.patch.object(judge, "ask", ask), contextlib.redirect_stderr(io.StringIO()) as said:
            judging = Judging(top, judge, False, None)
            judging.thread.start()
            found = judging.end()[top]
        self.assertIn("window 1 can't be judged: [Errno 24] Too many open files", said.getvalue())
        self.assertEqual((found.count("judged"), found.unjudged(), asked), (1, 1, ["1", "2"]))

    def test_a_folder_that_cannot_be_read_while_the_run_goes_on(self):
        judging = Judging(self.put(FREE, LAST), Stored(), False, None)
        with mock.patch.object(windows, "runs_in", side_effect=OSError(24, "Too many open files")):
            with contextlib.redirect_stderr(io.StringIO()) as said:
                judging.thread.start()
                judging.thread.join()
        self.assertIn("no window is judged before the run ends: [Errno 24] Too many open files", said.getvalue())
        self.assertEqual(judging.end()[self.folder / "journal"].count("judged"), 1)

    def test_a_look_that_fails_does_not_fail_the_run(self):
        judging = Judging(self.put(FREE, LAST), Stored(), False, None)
        for _ in judging.all():
            pass
        with mock.patch.object(windows, "is_closed", side_effect=OSError(12, "Cannot allocate memory")):
            judging.look()
        judging.thread.start()
        self.assertEqual(judging.end()[self.folder / "journal"].count("judged"), 1)

    def test_a_full_disk(self):
        """What is found is noted once there is room."""
        top, replace, full = self.put(FREE, FREE, LAST), os.replace, OSError(28, "No space left on device")
        judging = Judging(top, Stored(), False, None)
        with mock.patch("os.replace", side_effect=full):
            (found,) = judging.all()
            while found.catch_up():
                self.assertFalse((top / "windows").exists())
        judging.thread.start()
        judging.end()
        self.assertEqual((found.count("judged"), self.there()), (2, [3]))
        self.assertEqual(json.loads(self.read("journal/windows"))["judged"], 2)

    def test_one_that_is_removed_is_gone_at_once(self):
        """Else a script that is killed meanwhile would leave one that isn't closed."""
        with mock.patch("shutil.rmtree"):
            found = self.judged(FREE, LAST)
        self.assertEqual((found.count("judged"), self.there(), found.last()), (1, [2], 2))


class Reports(Cut):
    def stories(self, *all_windows, **more):
        found = self.judged(*all_windows)
        return stories_of(self.folder / "journal", Stored(), found, **more)

    def test_a_free_run(self):
        (last,) = self.stories(FREE, FREE, LAST)
        self.assertEqual((last.status, last.title), (0, "verdict free: every rank comes to its MPI_Finalize"))
        said = ["2 windows of 8 calls were judged before the last one: nobody waits there for ever"]
        self.assertEqual(dict(last.sections)["Windows"], said)

    def test_a_hang_in_the_last_window(self):
        (last,) = self.stories(FREE, STUCK)
        self.assertEqual(last.status, 1)
        self.assertIn("rank 0 waits in MPI_Recv at /a.py:7", last.text)

    def test_a_hang_in_an_earlier_one(self):
        first, last = self.stories(FREE, HANG, LAST)
        self.assertEqual([one.heading for one in (first, last)], ["Window 2, the first that isn't free", "Window 3, the last"])
        self.assertEqual([first.status, last.status], [1, 0])
        self.assertNotIn("Where the ranks were that didn't come to MPI_Finalize", dict(first.sections))

    def test_windows_that_were_removed(self):
        found = self.judged(FREE, LAST)
        found.gone["removed"] = 2
        for ranks, status, title in (
            (LAST, 6, "not judged: 2 windows weren't (without these: free: "),
            (STUCK, 1, "verdict hang: 2 of 2 ranks wait"),
        ):
            with self.subTest(ranks):
                for rank, calls in enumerate(ranks):
                    self.write(f"journal/2/journal{rank}", journal(rank, 2, calls))
                (last,) = stories_of(self.folder / "journal", Stored(), found)
                self.assertEqual((last.status, last.title[: len(title)]), (status, title))

    def test_a_rank_that_did_not_come_to_the_cut(self):
        ranks = (FREE[0], FREE[1].replace(" / cut", ""))
        (last,) = self.stories(ranks, ("", ""))
        self.assertEqual((last.run.folder.name, last.status), ("1", 5))
        said = dict(last.sections)["Where the ranks were that didn't come to MPI_Finalize"]
        self.assertEqual(said[0], "rank 0: came to the end of this window, and went on")

    def test_a_rank_that_was_killed_right_behind_a_cut(self):
        for number, wanted in ((1, "rank 1: never came through MPI_Init"), (2, "rank 1: made no call in this window")):
            with self.subTest(number):
                self.again()
                (last,) = self.stories(*[FREE] * (number - 1), ("recv 0 1 0 @7", ""))
                said = dict(last.sections)["Where the ranks were that didn't come to MPI_Finalize"]
                self.assertEqual((last.status, said[1]), (5, wanted))
        self.write("journal/left1", "w 000000000001 MPI_Win_wait\n")
        (last,) = stories_of(self.folder / "journal", Stored(), None)
        said = dict(last.sections)["Where the ranks were that didn't come to MPI_Finalize"]
        self.assertEqual(said[1], f"{wanted}; now in MPI_Win_wait, which isn't recorded")

    def test_two_runs(self):
        """Each is told by its number, and so are its windows."""
        top = self.put(FREE, HANG, LAST)
        (top / "run-b").mkdir()
        for number, ranks in ((1, FREE), (2, LAST)):
            (top / f"run-b/{number}").mkdir()
            for rank, calls in enumerate(ranks):
                self.write(f"journal/run-b/{number}/journal{rank}", journal(rank, 2, calls, "o"))
        (self.folder / "mpiwait-run").mkdir()
        top.rename(self.folder / "mpiwait-run/journal")
        done = self.command("run", "--again", env=os.environ | CHECKER)
        headings = [before for before, line in zip(done.stdout.split("\n"), done.stdout.split("\n")[1:])
                    if line.startswith("===")]  # fmt: skip
        wanted = ["Run 1 of 2, window 2, the first that isn't free", "Run 1 of 2, window 3, the last", "Run 2 of 2"]
        self.assertEqual(headings, wanted)

    def test_runs_come_as_they_began(self):
        """Windows that are removed don't change that."""
        top = self.put(LAST)
        for name, began, changed in (("b", 1, 9), ("a", 2, 5)):
            (top / f"run-{name}/1").mkdir(parents=True)
            self.write(f"journal/run-{name}/1/journal0", journal(0, 1, "finalize"))
            (top / f"windows-{name}").mkdir()
            os.utime(top / f"windows-{name}", (began, began))
            os.utime(top / f"run-{name}", (changed, changed))
        self.assertEqual([one.name for one in runs_in(top)], ["journal", "run-b", "run-a"])

    def test_why_there_was_no_cut(self):
        self.put(("full", "full"))
        title = "Why the recording wasn't cut where it could have been"
        (last,) = stories_of(self.folder / "journal", Stored(), None)
        self.assertTrue(dict(last.sections)[title][0].startswith("no rank called a barrier, or an allreduce"))
        self.write("journal/left0", "N 000000000012 moments without a cut: messages were under way\n")
        (last,) = stories_of(self.folder / "journal", Stored(), None)
        said = ["moments without a cut: messages were under way: 12 times"]
        self.assertEqual(dict(last.sections)[title], said)

    def test_different_roots(self):
        differs, last = self.stories(ROOTS, FREE, LAST)
        self.assertEqual([one.heading for one in (differs, last)],
                         ["Window 1, the first in which calls differ", "Window 3, the last"])  # fmt: skip
        self.assertEqual([differs.status, last.status], [7, 0])
        self.assertEqual([differs.name, last.name], ["a run, window 1", "a run"])
        self.assertIn("the ranks disagree on a collective in 1 window", dict(last.sections)["Windows"])

    def test_why_there_are_no_windows_at_all(self):
        """Only if one would have been due."""
        top, title = self.put(), "Why the recording wasn't cut where it could have been"
        for calls, wanted in (("full", ["no windows, with MPI_THREAD_MULTIPLE"]), ("finalize", None)):
            for rank in (0, 1):
                self.write(f"journal/journal{rank}", journal(rank, 2, calls))
                self.write(f"journal/left{rank}", "N 000000000001 no windows, with MPI_THREAD_MULTIPLE\n")
            (story,) = stories_of(top, Stored(), None)
            self.assertEqual((story.heading, dict(story.sections).get(title)), ("", wanted))

    def test_names_and_counts_are_those_of_the_run(self):
        top = self.put(FREE)
        self.write("journal/names0", "2 rows\n")
        self.write("journal/left0", "W 000000000001 MPI_Put\n")
        found = Run(top / "1")
        self.assertEqual((found.label(0, 2), found.count("W")), ("`rows'", 1))

    def test_ranks_are_watched_in_the_last_window(self):
        watched = Watched(self.put(FREE, STUCK))
        watched.look(5.0)
        self.assertEqual((watched.folder.name, watched.since), ("2", {0: 5.0, 1: 5.0}))

    def test_a_window_that_goes_while_its_ranks_are_judged(self):
        """The next one is watched."""
        top = self.put(STUCK, state="i")
        alarm = Alarm(top, Stored(), 1, True)

        def ask(folder, **_):
            (top / "2").mkdir()
            for rank, calls in enumerate(STUCK):
                self.write(f"journal/2/journal{rank}", journal(rank, 2, calls, "i", f"a library on {gethostname()}"))
            shutil.rmtree(top / "1")
            raise Stopped("the checker can't be run: No such file or directory")

        for rank, calls in enumerate(STUCK):
            self.write(f"journal/1/journal{rank}", journal(rank, 2, calls, "i", f"a library on {gethostname()}"))
        now = [1000.0]
        with mock.patch("time.monotonic", lambda: now[0]), contextlib.redirect_stderr(io.StringIO()) as said:
            with mock.patch.object(alarm.judge, "ask", ask):
                while (top / "1").exists():
                    self.assertFalse(alarm.look())
                    now[0] += 1
            self.assertEqual((alarm.is_off, said.getvalue()), (False, ""))
            alarm.look()
        self.assertEqual(alarm.watched[top].folder.name, "2")


class Commands(Cut):
    def keep(self, *all_windows):
        self.put(*all_windows)
        (self.folder / "mpiwait-run").mkdir()
        (self.folder / "journal").rename(self.folder / "mpiwait-run/journal")

    def test_again(self):
        self.keep(FREE, HANG, None, LAST)
        self.write("mpiwait-run/journal/windows", '{"judged": 1, "calls": 4, "later": 1}\n')
        done = self.command("run", "--again", "--json", "a.json", env=os.environ | CHECKER)
        self.assertEqual(done.returncode, 1, done.stderr)
        self.assertTrue(done.stdout.startswith("Window 2, the first that isn't free\n"), done.stdout)
        found = json.loads(self.read("a-2.json"))["windows"]
        self.assertEqual(found, {"judged": 3, "calls": 12, "unjudged": 0, "first": 2, "different": None})
        self.assertEqual(windows_in(self.folder / "mpiwait-run/journal"), [1, 2, 4])

    def test_again_of_a_recording_that_is_not_whole(self):
        """A window lacks before others, or the one that was begun before the last one here was closed."""
        for all_windows in ((None, LAST), (FREE, None, LAST), (FREE,)):
            with self.subTest(all_windows):
                self.again()
                self.keep(*all_windows)
                done = self.command("run", "--again", env=os.environ | CHECKER)
                self.assertEqual(done.returncode, 6, done.stderr)
                self.assertIn("1 window of the recording isn't there", done.stdout)
                self.assertEqual(self.command("limits", "mpiwait-run", env=os.environ | CHECKER).returncode, 6)

    def test_again_after_windows_were_removed(self):
        self.keep(None, LAST)
        self.write("mpiwait-run/journal/windows", '{"removed": 1}\n')
        self.assertEqual(self.command("run", "--again", env=os.environ | CHECKER).returncode, 6)

    def test_again_counts_those_that_are_gone(self):
        top = self.put(FREE, FREE, HANG, LAST)
        found = self.windows_of(top)
        wanted = {"judged": 3, "calls": 12, "unjudged": 0, "first": 3, "different": None}
        self.assertEqual((found.counts(), self.there()), (wanted, [3, 4]))
        self.assertEqual(self.windows_of(top, keeps=True).counts(), wanted)

    def test_again_with_another_limit(self):
        """What is gone was judged strictly with one limit, and as it went behind the first that isn't free."""
        top = self.put(FREE, HANG, FREE, LAST)
        self.assertEqual(self.windows_of(top).unjudged(), 0)
        for eager, unjudged in ((None, 0), (3, 0), (4, 1)):
            found = Windows(top, Stored(), keeps=True, eager=eager)
            with contextlib.redirect_stderr(io.StringIO()):
                while found.catch_up():
                    pass
            self.assertEqual((eager, found.unjudged()), (eager, unjudged))
        self.assertIn("1 window was judged with another --eager, or as they went alone", "\n".join(found.lines()))

    def test_again_with_less_than_the_limit_of_those_that_are_gone(self):
        top = self.put(None, None, LAST)
        self.write("journal/windows", '{"free": 2, "judged": 2, "eager": 8}\n')
        found = {eager: Windows(top, Stored(), eager=eager).unjudged() for eager in (None, 7, 8, 9)}
        self.assertEqual(found, {None: 2, 7: 2, 8: 0, 9: 0})

    def test_what_is_gone_is_noted_at_once(self):
        found = Windows(self.put(*[FREE] * 10, LAST), Stored(), eager=5)
        found.catch_up()
        found.drop()
        noted = json.loads(self.read("journal/windows"))
        self.assertEqual(noted, {"calls": 4, "free": 1, "judged": 1, "removed": 1, "eager": 5})

    def limits(self, *all_windows, noted="{}"):
        self.again()
        self.keep(*all_windows)
        self.write("mpiwait-run/journal/windows", noted)
        done = self.command("limits", "mpiwait-run", env=os.environ | CHECKER)
        return done.returncode, done.stdout.splitlines()[-1]

    def test_limits(self):
        least = (0, "the least limit with the verdict free is 4")
        self.assertEqual(self.limits(FREE, HANG, LAST), least)
        self.assertEqual(self.limits(None, HANG, LAST, noted='{"judged": 1, "free": 1}'), least)
        self.assertEqual(self.limits(None, HANG, LAST, noted='{"judged": 1, "free": 1, "eager": 4}'), least)
        self.assertEqual(self.limits(HANG, FREE, noted='{"removed": 2}'),
                         (6, "2 windows that are gone may hang: tools/run --keep keeps all"))  # fmt: skip
        gone = (6, "1 window that is gone may hang: tools/run --keep keeps all")
        self.assertEqual(self.limits(None, HANG, LAST, noted='{"judged": 1, "free": 1, "eager": 8}'), gone)
        self.assertEqual(self.limits(HANG, None, LAST, noted='{"judged": 1, "later": 1}'), gone)

    def test_words(self):
        for words in (["--window", "-1", "x"], ["--window", "900000", "x"], ["--again", "--window", "9"]):
            with self.subTest(words), mock.patch.dict(os.environ), contextlib.redirect_stderr(io.StringIO()):
                os.environ.pop("MPIWAIT", None)
                with self.assertRaises(Stopped):
                    run.words_of(words)
        with mock.patch.dict(os.environ):
            os.environ.pop("MPIWAIT", None)
            asked = (["x"], ["--window", "0", "x"], ["--window", "9", "x"], ["--unproved", "x"], ["--again"])
            self.assertEqual([run.words_of(words).window for words in asked], [200_000, 0, 9, 200_000, 0])

    def test_an_interrupt_at_the_terminal(self):
        """It ends the run, and no judge of a window."""
        ask = [sys.executable, "-c", "import os; print(os.getpgid(0))"]
        groups = [int(Judge(nice=nice).run(ask, self.folder).stdout) for nice in (0, 10)]
        self.assertEqual([group == os.getpgid(0) for group in groups], [True, False])

    def test_a_checker_that_knows_none(self):
        def answer(command, folder):
            is_cut = "cut" in Path(folder, "journal0").read_text()
            return subprocess.CompletedProcess(command, 2 if is_cut else 0, "" if is_cut else "{}", "")

        with mock.patch.object(Judge, "run", lambda self, *words: answer(*words)):
            Judge().try_out()
            with self.assertRaises(Stopped) as stopped:
                Judge().try_out(True)
        self.assertEqual(stopped.exception.status, 3)


class Constants(unittest.TestCase):
    def test_how_many_wait(self):
        self.assertEqual(windows.MOST_WAITING, 8)


if __name__ == "__main__":
    unittest.main()
