"""What the reference makes of journals that end with `cut', and how bench/cuts cuts runs into them."""

import random
import unittest

from support import TOP, Folders, journal, script
from reference.command_line import recorded_by
from reference.texts import Named

CUTS = script("cuts", TOP / "bench")

# Runs whose cut is clean: what each rank calls, with `|' at the cut, and both windows' traces. A request that moves
# is named behind the run.
CLEAN = {
    "a receive that nothing meets": (
        ["send 0 1 0 / barrier 0 / | / recv 0 1 1 / finalize", "recv 0 0 0 / barrier 0 / | / finalize"],
        ["send 0 1 0 / barrier 0 / finalize", "recv 0 0 0 / barrier 0 / finalize"],
        ["recv 0 1 1 / finalize", "finalize"],
    ),
    "a send that is waited for behind the cut": (
        ["isend 1 0 1 0 / barrier 0 / | / wait 1 / finalize", "recv 0 0 0 / barrier 0 / | / finalize"],
        ["isend 0 0 1 0 / barrier 0 / finalize", "recv 0 0 0 / barrier 0 / finalize"],
        ["isend 0 0 null 0 / wait 0 / finalize", "finalize"],
    ),
    "a receive that goes on": (
        ["irecv 1 0 1 0 / barrier 0 / | / wait 1 / finalize", "barrier 0 / | / send 0 0 0 / finalize"],
        ["irecv 0 0 null 0 / barrier 0 / finalize", "barrier 0 / finalize"],
        ["irecv 0 0 1 0 / wait 0 / finalize", "send 0 0 0 / finalize"],
    ),
    "sends to each other": (
        ["send 0 1 0 / recv 0 1 0 / | / finalize", "send 0 0 0 / recv 0 0 0 / | / finalize"],
        ["send 0 1 0 / recv 0 1 0 / finalize", "send 0 0 0 / recv 0 0 0 / finalize"],
        ["finalize", "finalize"],
    ),
    "a wait for requests of both sides": (
        ["irecv 1 0 any any / isend 2 0 1 0 / | / irecv 3 0 1 4 / waitany 1 2 3 / =chose 2 / wait 1 3 / =done 1 1 5 / "
         "finalize", "recv 0 0 0 / | / send 0 0 5 / send 0 0 4 / finalize"],
        ["irecv 0 0 null 0 / isend 1 0 1 0 / finalize", "recv 0 0 0 / finalize"],
        ["irecv 0 0 1 5 / isend 1 0 null 0 / irecv 2 0 1 4 / waitany 1 0 1 2 / waitall 0 2 / finalize",
         "send 0 0 5 / send 0 0 4 / finalize"],
    ),
    "a receive that goes on, which a wait before the cut names": (
        ["irecv 1 0 1 7 / irecv 2 0 1 0 / waitany 1 2 / =chose 2 / | / wait 1 / finalize",
         "send 0 0 0 / | / send 0 0 7 / finalize"],
        ["irecv 0 0 null 0 / irecv 1 0 1 0 / waitany 0 1 / finalize", "send 0 0 0 / finalize"],
        ["irecv 0 0 1 7 / wait 0 / finalize", "send 0 0 7 / finalize"],
    ),
    "the receive of a call that sends too": (
        ["isendrecv 1 2 0 1 0 1 7 / | / wait 1 2 / finalize", "recv 0 0 0 / | / send 0 0 7 / finalize"],
        ["isend 0 0 1 0 / irecv 1 0 null 0 / finalize", "recv 0 0 0 / finalize"],
        ["isend 0 0 null 0 / irecv 1 0 1 7 / waitall 0 1 / finalize", "send 0 0 7 / finalize"],
    ),
    "a message to itself": (
        ["isend 1 1 0 0 / recv 1 0 0 / | / wait 1 / finalize", "| / finalize"],
        ["split 0 0 0 1 / isend 0 1 0 0 / recv 1 0 0 / finalize", "split 0 undefined 0 none / finalize"],
        ["isend 0 0 null 0 / wait 0 / finalize", "finalize"],
    ),
    "communicators that were made before": (
        ["comm_dup 0 / =comm 5 0 1 / comm_dup 0 / =comm 6 0 1 / | / barrier 6 / bcast 5 0 / finalize",
         "comm_dup 0 / =comm 2 0 1 / comm_dup 0 / =comm 9 0 1 / | / barrier 9 / bcast 2 0 / finalize"],
        ["barrier 0 / barrier 0 / finalize"] * 2,
        ["split 0 0 0 1 / split 0 0 0 2 / barrier 2 / bcast 1 0 / finalize",
         "split 0 0 1 1 / split 0 0 1 2 / barrier 2 / bcast 1 0 / finalize"],
    ),
    "probes on both sides": (
        ["probe 0 1 0 / recv 0 1 0 / | / probe 0 1 0 / recv 0 1 0 / finalize", "send 0 0 0 / | / send 0 0 0 / finalize"],
        ["probe 0 1 0 / recv 0 1 0 / finalize", "send 0 0 0 / finalize"],
        ["probe 0 1 0 / recv 0 1 0 / finalize", "send 0 0 0 / finalize"],
    ),
    "nonblocking collectives that cross": (
        ["ibarrier 1 0 / iallreduce 2 0 / | / wait 2 / wait 1 / finalize",
         "ibarrier 1 0 / iallreduce 2 0 / wait 2 / | / wait 1 / finalize"],
        ["ibarrier 0 0 / iallreduce 1 0 / finalize", "ibarrier 0 0 / iallreduce 1 0 / wait 1 / finalize"],
        ["isend 0 0 null 0 / isend 1 0 null 0 / wait 1 / wait 0 / finalize", "isend 0 0 null 0 / wait 0 / finalize"],
    ),
    "before all and behind all": (
        ["| / finalize", "barrier 1 / | / exit"],
        ["split 0 undefined 0 none / finalize", "split 0 0 0 1 / barrier 1 / finalize"],
        ["finalize", "finalize"],
    ),
}  # fmt: skip

# Journals of two ranks, and why they are refused: the lowest rank with a fault, its line and the code. All end with
# `cut', if nothing else is said.
REFUSED = {
    ("isend 1 0 1 0 / barrier 0", "barrier 0"): "rank 0 line 2 J11 cut",
    ("barrier 0", "barrier 0 / send 0 0 0"): "rank 1 line 3 J11 cut",
    ("ibarrier 1 0", ""): "rank 0 line 2 J11 cut",
    ("barrier 0", "barrier 0 / barrier 0"): "rank 1 line 3 J11 cut",
    ("irecv 1 0 1 0 / recv 0 1 0 / =moved 1", "send 0 0 0"): "rank 0 line 3 J11 cut",
    ("irecv 1 0 1 0 / recv 0 1 0", "send 0 0 0"): "rank 0 line 3 J11 cut",
    ("irecv 1 0 1 0", ""): "rank 0 line 2 J11 cut",
    ("irecv 1 0 any 0 / barrier 0", "barrier 0"): "rank 0 line 2 J11 cut",
    ("barrier 0 / isendrecv 1 2 0 null 0 any 0", "barrier 0"): "rank 0 line 3 J11 cut",
    ("probe 0 1 0", ""): "rank 0 line 2 J11 cut",
    ("recv 0 1 0 / probe 0 1 0", "send 0 0 0"): "rank 0 line 3 J11 cut",
    ("irecv 1 0 any any / =moved 1 / recv 0 1 5", "send 0 0 5"): "rank 0 line 4 J11 cut",
    ("irecv 1 0 any any / =moved 1 / probe 0 1 5 / =got 1 5", ""): "rank 0 line 4 J11 cut",
    ("sendrecv 0 1 0 1 0", "send 0 0 0"): "rank 0 line 2 J11 cut",
    ("send 0 1 0 / =failed", "recv 0 0 0"): "rank 1 line 2 J11 cut",
    ("cut / barrier 0", ""): "rank 0 line 3 J5 line behind the end",
    ("cut / =failed", ""): "rank 0 line 3 J5 line behind the end",
    ("cut 0", ""): "rank 0 line 2 J3 number of fields",
    ("irecv 1 0 1 0 / =moved 1 / finalize", "finalize"): "rank 0 line 3 J7 told line out of place",
    ("irecv 1 0 1 0 / =moved 1 / barrier 0 / foo", ""): "rank 0 line 5 J2 unknown word",
    ("irecv 1 0 1 0 / =moved 1 / barrier 0 0", ""): "rank 0 line 4 J3 number of fields",
    ("irecv 1 0 1 0 / =moved 1 / finalize", ""): "rank 0 line 3 J7 told line out of place",
    ("isend 1 0 1 0 / =moved 1", ""): "rank 0 line 3 J7 told line out of place",
    ("ibarrier 1 0 / =moved 1", ""): "rank 0 line 3 J7 told line out of place",
    ("isendrecv 1 2 0 1 0 1 7 / =moved 1", ""): "rank 0 line 3 J7 told line out of place",
    ("irecv 1 0 1 0 / wait 1 / =moved 1", ""): "rank 0 line 4 J7 told line out of place",
    ("irecv 1 0 1 0 / request_free 1 / =moved 1", ""): "rank 0 line 4 J7 told line out of place",
    ("irecv 1 0 any 0 / =done 1 1 0 / =moved 1", ""): "rank 0 line 4 J7 told line out of place",
    ("irecv 1 0 any 0 / =moved 1 / =done 1 1 0", ""): "rank 0 line 4 J7 told line out of place",
    ("irecv 1 0 any 0 / =moved 1 / =moved 1", ""): "rank 0 line 4 J7 told line out of place",
    ("irecv 1 0 1 0 / =moved 1 / waitsome 1 / =chose 1", ""): "rank 0 line 3 J7 told line out of place",
    ("irecv 1 0 1 0 / =moved 1 / wait 1", ""): "rank 0 line 3 J7 told line out of place",
    ("=moved 1", ""): "rank 0 line 2 J8 request",
}
ENDS = ("finalize", "barrier 0 0", "cut / barrier 0", "cut / =failed", "cut 0")  # these have an end of their own


class Cuts(Folders):
    def closed(self, *ranks):
        """The traces of these journals, or why they are refused."""
        folder = self.folder / "J"
        folder.mkdir(exist_ok=True)
        for rank, calls in enumerate(ranks):
            self.write(f"J/journal{rank}", journal(rank, len(ranks), calls))
        return self.traces(folder)

    def traces(self, folder, *words):
        try:
            recording = recorded_by([*words, str(folder)] if words else ["close", str(folder), "OUT"])
        except Named as named:
            return named.args[0]
        return [" / ".join(one.lines) for one in recording.lists]

    def whole(self, ranks):
        """A run of these calls, and where each rank is cut."""
        ranks = [calls.split(" / ") for calls in ranks]
        places = [1 + sum(not line.startswith("=") for line in calls[: calls.index("|")]) for calls in ranks]
        self.closed(*(" / ".join(line for line in calls if line != "|") for calls in ranks))
        return CUTS.Run(self.folder / "J"), places

    def test_windows_of_clean_cuts(self):
        for name, (calls, first, second) in CLEAN.items():
            with self.subTest(name):
                self.again()
                run, places = self.whole(calls)
                self.assertEqual([*run.lacks(places, run.moved(places)), *run.more(places)], [])
                windows = CUTS.Windows(run, places, random.Random(1))
                self.assertEqual(self.traces(windows.first), first)
                self.assertEqual(self.traces(windows.second), second)

    def test_a_receive_that_goes_on_and_is_never_met(self):
        """It is a sink of the whole and of the second window."""
        run, places = self.whole(["irecv 1 0 any any / barrier 0 / | / wait 1", "barrier 0 / | / barrier 0"])
        windows = CUTS.Windows(run, places, random.Random(1))
        self.assertEqual(self.traces(windows.first), ["irecv 0 0 null 0 / barrier 0 / finalize", "barrier 0 / finalize"])
        self.assertEqual(self.traces(windows.second, "judge"), ["irecv 0 0 null 0 / open", "barrier 0 / open"])
        for calls in ("strict", "went"):
            wrong, what = CUTS.difference(CUTS.Asked(TOP / "reference/mpiwait"), windows, ["--calls", calls])
            self.assertEqual((wrong, what), ("", "free, then hang"))

    def asked(self, windows, calls):
        return CUTS.difference(CUTS.Asked(TOP / "reference/mpiwait"), windows, ["--calls", calls])

    def test_three_windows(self):
        """The receive goes on twice."""
        run, places = self.whole(["irecv 1 0 any 0 / barrier 0 / | / barrier 0 / recv 0 1 5 / wait 1 / =done 1 1 0 / finalize",
                                  "barrier 0 / | / barrier 0 / send 0 0 5 / send 0 0 0 / finalize"])  # fmt: skip
        first = CUTS.Windows(run, places, random.Random(1))
        run, places = CUTS.Run(first.second), [3, 2]
        self.assertEqual([*run.lacks(places, run.moved(places)), *run.more(places)], [])
        later = CUTS.Windows(run, places, random.Random(1))
        before = ["irecv 0 0 null 0 / barrier 0 / finalize", "barrier 0 / finalize"]
        self.assertEqual([self.traces(first.first), self.traces(later.first)], [before, before])
        self.assertEqual(self.traces(later.second), ["irecv 0 0 1 0 / recv 0 1 5 / wait 0 / finalize",
                                                     "send 0 0 5 / send 0 0 0 / finalize"])  # fmt: skip
        self.assertEqual([self.asked(one, "strict") for one in (first, later)], [("", "free, then free")] * 2)

    def test_a_window_that_is_not_free_and_a_later_one(self):
        run, places = self.whole([f"send 0 {1 - rank} 0 / recv 0 {1 - rank} 0 / | / barrier 0 / finalize" for rank in (0, 1)])
        windows = CUTS.Windows(run, places, random.Random(1))
        self.assertEqual(self.asked(windows, "strict"), ("", "not free"))
        self.assertEqual(self.asked(windows, "went"), ("", "free, then free"))

    def test_windows_that_say_something_else_are_found(self):
        run, places = self.whole(["send 0 1 0 / | / recv 0 1 1 / finalize", "recv 0 0 0 / | / finalize"])
        windows = CUTS.Windows(run, places, random.Random(1))
        path, judge, words = windows.second / "journal0", TOP / "reference/mpiwait", ["--calls", "strict"]
        self.assertEqual(CUTS.difference(CUTS.Asked(judge), windows, words), ("", "free, then hang"))
        path.write_text(path.read_text().replace("recv 0 1 1\n", ""))
        wrong, _ = CUTS.difference(CUTS.Asked(judge), windows, words)
        self.assertIn("whole ('hang', {0: 3}, [0], {0: [(1, None)]}, [{'missing': [0, 1]}])", wrong)

    def test_what_is_refused(self):
        for ranks, why in REFUSED.items():
            with self.subTest(ranks):
                self.again()
                ranks = [one if one.endswith(ENDS) else f"{one} / cut".removeprefix(" / ") for one in ranks]
                self.closed(*ranks)
                for calls in ("strict", "went"):
                    self.assertEqual(self.traces(self.folder / "J", "judge", "--calls", calls), f"refused {why}")

    def test_a_cut_of_some_ranks_alone(self):
        self.assertEqual(self.closed("barrier 0 / cut", "barrier 0 / finalize"), ["barrier 0 / open", "barrier 0 / finalize"])
        recording = recorded_by(["judge", str(self.folder / "J")])
        self.assertEqual(recording.left(), [[0, 3, "cut"]])

    def test_a_wait_that_failed_completes_no_receive_that_goes_on(self):
        self.assertEqual(self.closed("irecv 1 0 1 0 / wait 1 / =moved 1 / =failed / cut", "cut"),
                         ["irecv 0 0 null 0 / open", "finalize"])  # fmt: skip

    def test_drawn_runs_have_no_fault(self):
        """In some a report of an earlier request comes after a call that is moved."""
        for seed in (1000583, *range(15)):
            with self.subTest(seed):
                self.again()
                CUTS.put_run(self.folder / "J", seed)
                recorded_by(["judge", str(self.folder / "J")])

    def test_a_request_of_a_window_is_no_finding(self):
        self.closed("ibarrier 1 0 / cut", "ibarrier 1 0 / cut")
        recording = recorded_by(["judge", str(self.folder / "J")])
        self.assertTrue(recording.is_left_out("request 0 0 0"))
        self.closed("ibarrier 1 0 / finalize", "ibarrier 1 0 / finalize")
        recording = recorded_by(["judge", str(self.folder / "J")])
        self.assertFalse(recording.is_left_out("request 0 0 0"))

    def test_tests_that_wait_for_nothing(self):
        ranks = ["isend 1 0 1 0 / test 1 / recv 0 1 0 / cut", "isend 1 0 0 0 / test 1 / recv 0 0 0 / cut"]
        self.closed(*ranks)
        recording = recorded_by(["close", "--tests", "pass", str(self.folder / "J"), "OUT"])
        self.assertEqual(recording.lists[0].lines,
                         ["isend 0 0 1 0", "recv 0 1 0", "wait 0", "finalize"])  # fmt: skip

    def test_a_cut_that_is_not_clean_is_found(self):
        """The sends, receives, probes and collectives that lack a partner at these places."""
        for calls, places in (
            (["isend 1 0 1 0 / barrier 0 / wait 1 / finalize", "barrier 0 / recv 0 0 0 / finalize"], [3, 2]),
            (["ibarrier 1 0 / wait 1 / finalize", "ibarrier 1 0 / wait 1 / finalize"], [2, 1]),
            (["irecv 1 0 1 0 / recv 0 1 0 / wait 1 / finalize", "send 0 0 0 / send 0 0 0 / finalize"], [3, 2]),
            (["probe 0 1 0 / recv 0 1 0 / finalize", "send 0 0 0 / finalize"], [2, 1]),
        ):
            with self.subTest(calls):
                self.again()
                self.closed(*calls)
                run = CUTS.Run(self.folder / "J")
                self.assertNotEqual([*run.lacks(places, run.moved(places))], [])


if __name__ == "__main__":
    unittest.main()
