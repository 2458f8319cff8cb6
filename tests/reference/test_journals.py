"""What the reference makes of journals."""

import contextlib
import json
import sys
import tempfile
import unittest
from pathlib import Path

from memory import TOP, Memory
from reference.command_line import answer, recording_of
from reference.disk import Disk
from reference.texts import Named
from reference.words import asked_by

sys.path.append(str(TOP / "tests/tools"))
from support import journal, script  # noqa: E402

LEFT = {
    "recv 0 any 4": "never came back", "irecv 1 0 any 4": "never told", "abort": "aborted", "full": "full",
    "stopped for a reason": "stopped", "send 0 7 0": "cannot be", "barrier 0 / =failed": "failed",
    "isend 1 0 0 0 / cancel 1": "never told",
}  # fmt: skip


class Journals(unittest.TestCase):
    def answer(self, command, *ranks):
        """The status and both outputs for journals with these calls; None for a rank without one."""
        texts = {f"J/journal{rank}": journal(rank, len(ranks), calls).encode() for rank, calls in enumerate(ranks)
                 if calls is not None}  # fmt: skip
        self.disk = Memory(texts)
        return answer([*command.split(" "), "J"], self.disk)

    def test_cuts(self):
        """A moved receive that can't be one is refused if nothing else is wrong, and `close' asks for no clean cut."""
        for last, said in (("finalize", "line 3 J7 told line out of place"), ("finalise", "line 4 J2 unknown word")):
            answered = self.answer("judge", f"irecv 2 0 any 7 / =moved 2 / {last}")
            self.assertEqual(answered, (2, f"refused rank 0 {said}\n", ""))
        self.assertEqual(self.answer("judge", "send 0 0 7 / cut"), (2, "refused rank 0 line 2 J11 cut\n", ""))
        self.assertEqual(answer(["close", "J", "OUT"], self.disk), (0, "", ""))

    def test_why_a_list_ends(self):
        for calls, why in LEFT.items():
            with self.subTest(calls):
                line = 3 + calls.count(" / ") - ("=failed" in calls)
                status, said, _ = self.answer("judge", "=apart 2 0 / " + calls)
                self.assertIn((status, f"left 0 {line} {why}"), [(one, said.splitlines()[-1]) for one in (1, 5)])

    def test_lines(self):
        calls = "barrier 0 / init / irecv 7 0 1 0 / isend 9 0 1 0 / wait 7 9 / finalize"
        ranks = calls, "bcast 0 0 / recv 0 0 0 / finalize"
        status, said, _ = self.answer("judge --json", *ranks)
        report = json.loads(said)
        self.assertEqual((status, report["left"]), (1, []))
        places = [[0, 0, 2], [0, 1, 4], [0, 2, 5], [0, 3, 6], [1, 0, 2]]
        self.assertEqual(report["lines"], places)
        text = "verdict hang\nrank 0 at 3 waitall 0 1 waits rank 1 none\nmissing 0 1\n"
        self.assertEqual(self.answer("judge", *ranks)[1], text + "finding kind 0 0 1 barrier bcast\n")

    def test_a_freed_request_is_no_finding(self):
        ranks = ["isend 1 0 0 3 / isend 2 0 0 4 / request_free 1 / recv 0 0 3 / recv 0 0 4 / finalize"]
        self.assertEqual(self.answer("judge", *ranks), (0, "verdict free\nfinding request 0 1 1\n", ""))

    def test_waits_for_any_of_several(self):
        text = "verdict hang\nrank 0 at 0 any 0:any:any waits rank 1\n"
        text += "rank 1 at 0 recv 0 0 1 waits rank 0 none\ncycle 0 1\nleft 0 2 never came back\n"
        self.assertEqual(self.answer("judge --calls went", "recv 0 any any", "recv 0 0 1", "finalize"), (1, text, ""))
        status, said, _ = self.answer("judge --calls went --json", "irecv 1 0 any 4 / isend 2 0 1 3 / wait 2 1", "finalize")
        report = json.loads(said)
        rank = {"at": 2, "call": "all 1 0:any:4", "needs": [[1, None], []], "rank": 0}
        self.assertEqual((status, report["ranks"], report["causes"]), (1, [rank], [{"missing": [0, 1]}]))
        self.assertEqual(report["left"], [[0, 2, "never told"], [0, 4, "never came back"]])
        self.assertEqual(report["lines"], [[0, 1, 3], [0, 2, 4]])

    def test_a_message_that_an_undetermined_receive_may_have_taken(self):
        """As it went, the rank is in the call that receives it."""
        ranks = "irecv 1 0 any 4 / mprobe 2 0 any 4 / =got 1 4 / mrecv 2", "send 0 0 4 / finalize"
        left = "left 0 2 never told\nleft 0 3 not judged\n"
        self.assertEqual(self.answer("judge --calls went", *ranks),
                         (5, f"verdict unfinished\n{left}left 0 5 never came back\n", ""))  # fmt: skip

    def test_undetermined_receives(self):
        ranks = "irecv 1 0 any 4 / irecv 2 0 1 4 / isend 3 0 1 0 / finalize", "send 0 0 4 / finalize"
        text = "verdict unfinished\nrank 1 at 0 send 0 0 4 waits rank 0 none\nfinding unreceived 0 2\n"
        text += "finding request 0 2 2\nleft 0 2 never told\nleft 0 3 not judged\n"
        self.assertEqual(self.answer("judge", *ranks), (5, text, ""))

    def held(self, *ranks, asked="", calls="went"):
        """Which ranks are held, of all or of those that are asked."""
        words = f"judge --json --calls {calls} --held{asked and '='}{asked}"
        return json.loads(self.answer(words, *ranks)[1])["held"]

    def test_who_is_held_where_calls_of_a_wave_differ(self):
        started = "ibarrier 1 0 / wait 1"
        for ranks, wanted in (
            (("barrier 0", "bcast 0 0"), [0, 1]), (("gather 0 0", "gather 0 1", "gather 0 0"), [0, 1, 2]),
            (("barrier 0", "allreduce 0 / recv 0 0 7"), [0, 1]), (("barrier 0", "barrier 0"), []),
            ((started, "iallreduce 1 0 / wait 1"), [0, 1]), ((started, "iallreduce 1 0"), [0]),
            ((started, "barrier 0"), [0, 1]), ((started, "ibarrier 1 0 / recv 0 0 7"), []),
            (("barrier 0", "ibarrier 1 0 / recv 0 0 7"), []), (("barrier 0", "barrier 0 / recv 0 0 7"), []),
            (("recv 0 1 5", "barrier 0", "bcast 0 0"), [0, 1, 2]), (("barrier 0", "recv 0 2 7", "bcast 0 0 / finalize"), [0, 1]),
        ):  # fmt: skip
            with self.subTest(ranks):
                self.assertEqual(self.held(*ranks), wanted)

    def test_who_is_held_of_those_that_are_asked(self):
        ranks = ("recv 0 1 0", "finalize", "barrier 0", "bcast 0 0", "recv 0 any 3")
        for asked, wanted in (("0", [0]), ("0,1", [0]), ("2", [2]), ("3,2", [2, 3]), ("4", []), ("4,1,0,2", [0, 2]),
                              ("4,3,2,1,0", [0, 2, 3, 4]), ("", [0, 2, 3, 4]), ("2,9,1023", [2])):  # fmt: skip
            with self.subTest(asked):
                self.assertEqual(self.held(*ranks, asked=asked), wanted)

    def test_who_is_held_where_no_calls_differ(self):
        runs, seen = script("held-journals", TOP / "bench"), 0
        for seed in range(80):
            with tempfile.TemporaryDirectory() as folder:
                words = runs.put_runs(Path(folder), seed)
                asked = asked_by(["judge", *words, f"{folder}/J"], False)
                with self.subTest(seed), contextlib.suppress(Named):
                    waits = recording_of(asked, Disk()).waits(asked.number("--eager"))
                    if not waits.disagreeing:
                        self.assertEqual(waits.held_among(waits.ranks), waits.held)
                        seen += bool(waits.held)
        self.assertGreater(seen, 5)

    def test_the_calls_of_findings(self):
        made = "comm_split 0 0 {} / =comm 2 1 0 / "
        ranks = f"{made.format(1)}bcast 2 0 / finalize", f"{made.format(0)}isend 1 0 0 3 / bcast 2 1 / finalize"
        status, plain, _ = self.answer("judge --json", *ranks)
        report = json.loads(self.answer("judge --json --held", *ranks)[1])
        self.assertEqual(report["findings"], ["root 1 0 1 1 0", "unreceived 1 1", "request 1 1 0"])
        self.assertEqual(report["finding_calls"], [[[1, 2], [0, 1]], [[1, 1]], [[1, 1]]])
        self.assertEqual((status, list(report)[1:4]), (0, ["finding_calls", "findings", "held"]))
        del report["finding_calls"], report["held"]
        self.assertEqual(json.dumps(report, sort_keys=True, separators=(",", ":")) + "\n", plain)

    def test_calls_of_open_lists_are_partners_after_a_barred_call(self):
        """No list is cut: what comes after a call that waits for a wave that disagrees is no lacking call."""
        ranks = "barrier 0 / recv 0 2 7 / finalize", "bcast 0 0 / finalize", "ssend 0 0 7 / finalize", "recv 0 1 9"
        self.assertEqual(self.held(*ranks, calls="strict"), [0, 1, 2, 3])
        self.assertEqual(self.held(*ranks, calls="strict", asked="2,3"), [3])

    def test_words_of_held(self):
        ranks = "barrier 0", "bcast 0 0"
        for words, wanted in (("--held", [0, 1]), ("--held-rank 1", [1]), ("--held --held-rank=0", [0]),
                              ("--held=1 --held-rank 0", [0, 1]), ("--held-rank=1023", [])):  # fmt: skip
            said = self.answer(f"judge --json --calls went {words}", *ranks)[1]
            self.assertEqual(json.loads(said)["held"], wanted)

    def test_wrong_words_of_held(self):
        for words in ("--json --held=", "--json --held=0,", "--json --held=x", "--json --held=0,1024", "--json --held --held",
                      "--json --held-rank", "--json --held-rank=0,1", "--held", "--held-rank 0"):  # fmt: skip
            with self.subTest(words):
                status, said, why = self.answer(f"judge {words}", "finalize", "finalize")
                self.assertEqual((status, said, why.partition(":")[0]), (3, "", "mpiwait" if "json" in words else "usage"))

    def test_faults(self):
        ranks = "finalize", "barrier 0 / foo"
        self.assertEqual(self.answer("judge", *ranks), (2, "refused rank 1 line 3 J2 unknown word\n", ""))
        self.answer("judge", "finalize", None)
        self.disk.can_make = False
        self.assertEqual(answer(["close", "J", "OUT"], self.disk), (4, "", "fault make OUT\n"))
        self.disk.files["J/journal1"] = b""
        self.disk.fails["J/journal1"] = 0
        self.assertEqual(answer(["close", "J", "OUT"], self.disk), (4, "", "fault rank 1 line 1 E2 read failed\n"))
        del self.disk.files["J/journal0"]
        self.assertEqual(answer(["judge", "J"], self.disk), (4, "", "fault open J/journal0\n"))


if __name__ == "__main__":
    unittest.main()
