"""What bench/hostile and bench/refuse ask of journals: the runs in bench/runs, whole, cut and changed."""

import subprocess
import unittest
from unittest import mock

from support import TOP, script
from reference.journal_faults import FORMS, check, lines_of
import answers

HOSTILE = script("hostile", TOP / "bench")
# What bench/refuse makes of an answer where a request of some kind was refused, of as many pipes.
JUDGED = (TOP / "bench/refuse").read_text().partition('case " $* " in')[0] + """
status=$1 kind=$4 want_status=0 want='verdict free' out=$2 err=$3
pipes=("${@:5}")
printf '%s' "${out:+$out$'\n'}" >"$work/out"
printf '%s' "${err:+$err$'\n'}" >"$work/err"
: >"$work/told"
judge_run
"""


class Runs(unittest.TestCase):
    def test_all_words_stand_in_them(self):
        texts = [text for run in HOSTILE.good_runs() for text in run.values()]
        words = {line.split(b" ")[0].decode() for text in texts for line in lines_of(text)[1:]}
        self.assertEqual(words, {*FORMS, "stopped"})

    def test_they_have_no_fault(self):
        for run in HOSTILE.good_runs():
            for rank, text in run.items():
                lines = lines_of(text)
                check(lines, rank, int(lines[0].split(b" ")[3]))

    def test_each_cut_is_judged_and_closed(self):
        asked = [(one.journals, one.words[0]) for one in HOSTILE.cut_journals()]
        texts = [text for run in HOSTILE.good_runs() for text in run.values()]
        self.assertEqual(len(asked), 2 * sum(len(text) + 1 for text in texts))
        self.assertEqual([word for _, word in asked[:4]], ["judge", "close"] * 2)

    def test_a_change_is_of_one_journal(self):
        good = {text for run in HOSTILE.good_runs() for text in run.values()}
        for one in HOSTILE.changed_journals(50, 1):
            self.assertLessEqual(len(set(one.journals.values()) - good), 1)

    def test_kinds(self):
        for text, kind in (
            ("verdict hang\nrank 0 at 0 recv 0 1 0 waits rank 1 none\n", "hang"),
            ('{"causes":[],"findings":[],"left":[],"lines":[],"ranks":[],"verdict":"free"}\n', "free"),
            ("refused rank 0 line 2 J10 group\n", "J10"),
        ):
            self.assertEqual(HOSTILE.journal_kind((0, text, "", None)), kind)
        self.assertEqual(HOSTILE.journal_kind((0, "", "", {"head": b"ranks 1\n"})), "closed")


class Answers(unittest.TestCase):
    def test_one_that_never_comes(self):
        with mock.patch.object(answers, "MOST_SECONDS", 0.2):
            self.assertEqual(HOSTILE.answer(["sleep", "60"]), (b"", b"", None))
            self.assertEqual(answers.answers("sleep", ["60"], TOP), (None, "", "", None))

    def judged(self, *given):
        said = subprocess.run(["bash", "-c", JUDGED, "bash", *map(str, given)], capture_output=True, text=True)
        return said.stdout.strip()

    def test_of_what_may_be_refused(self):
        thread = "fault rank {} call 0 E4 thread not started".format
        for given, said in (
            ((0, "verdict free", "", "REFUSE_MEMORY"), "the report"),
            ((4, "", "fault memory", "REFUSE_MEMORY"), "`fault memory`"),
            ((4, "", "fault memory", "REFUSE_THREAD"), "other"),
            ((4, "", thread(1), "REFUSE_MEMORY", "r0", "r1"), f"`{thread(1)}`"),
            ((4, "", thread(2), "REFUSE_MEMORY", "r0", "r1"), "other"),
            ((4, "", thread(0), "REFUSE_MEMORY"), "other"),
        ):
            with self.subTest(given):
                self.assertEqual(self.judged(*given), said)


if __name__ == "__main__":
    unittest.main()
