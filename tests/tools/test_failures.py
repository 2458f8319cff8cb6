"""Programs that fail: what MPI said of the call that failed, and which status they have."""

import contextlib
import io
import os
import subprocess
import sys
import unittest
import xml.etree.ElementTree as XML

from support import TOOLS, Folders, Stored, journal
from companions import outputs, run, watching
from companions.script import Status, worst
from companions.windows import stories_of

NOTE = "error 7 MPI_Send Invalid rank, error stack:\\x0ainternal_Send(120): MPI_Send(buf=0x7ff, 99) failed\\x0a" \
    "internal_Send(78).: Invalid rank has value 99 but must be nonnegative and less than 2\n"


class Errors(Folders):
    """A call that failed under MPI_ERRORS_ARE_FATAL, so that MPI ended the run."""

    def failed(self, note: str, *ranks: str, **words):
        self.run_of(*(ranks or ("send 0 99 0 4 @7 / =failed", "recv 0 0 0 @8")), state="oi")
        self.write("journal/failed0", note)
        return self.judged(*(ranks or ("", "")), program_status=6, **words)

    def test_the_status_and_the_title(self):
        story = self.failed(NOTE)
        wanted = ("failed: rank 0: MPI_Send at /a.py:7 failed, and MPI ended the run: "
                  "Invalid rank has value 99 but must be nonnegative and less than 2")  # fmt: skip
        self.assertEqual((story.status, story.title), (Status.FAILED, wanted))
        self.assertIn("rank 0: ended in MPI_Send at /a.py:7, which failed", story.text)
        self.assertNotIn("MPI_Finalize;", story.title)

    def test_junit_and_sarif(self):
        story = self.failed(NOTE)
        suite = XML.fromstring(outputs.as_junit([story]).partition("\n")[2])
        self.assertEqual(suite.find("testcase/failure").get("message"), story.title)
        self.assertIn('"ruleId": "failed"', outputs.as_sarif([story]))
        self.assertIn('"startLine": 7', outputs.as_sarif([story]))

    def test_messages(self):
        for text, wanted in (
            ("MPI_ERR_RANK: invalid rank", "MPI_ERR_RANK: invalid rank"),
            ("Message truncated, error stack:\\x0aa(1): MPI_Recv(b=0x7) failed\\x0a(unknown)(): Message truncated",
             "Message truncated"),
            ("Invalid communicator, error stack:\\x0aa(1): MPI_Send(x) failed\\x0ai(4).: Null communicator",
             "Invalid communicator (Null communicator)"),
            ("", "no message"),
        ):  # fmt: skip
            with self.subTest(text):
                self.again()
                story = self.failed(f"error 7 MPI_Send {text}\n")
                self.assertEqual(story.title.rpartition("ended the run: ")[2], wanted)

    def test_a_function_without_a_name(self):
        story = self.failed("error 7 MPI Other, error stack:\\x0aa(1): MPI_Comm_rank(comm=0x7) failed\n")
        self.assertIn("rank 0: MPI_Comm_rank at /a.py:7 failed", story.title)

    def test_a_hang_comes_first(self):
        story = self.failed(NOTE, "recv 0 1 5 @7", "recv 0 0 5 @7")
        self.assertEqual(story.status, Status.HANG)
        self.assertIn(("What failed", [f"rank 0: {story.failures[0].text()}"]), story.sections)

    def test_an_invalid_rank_in_words(self):
        self.run_of("send 0 99 3 4 @7", "finalize", state="io")
        run_of_it = self.judged("", "").run
        call = run_of_it.journals[0].last
        self.assertEqual(call.text(), "MPI_Send at /a.py:7 to the invalid rank 99 with tag 3")

    def test_two_threads(self):
        calls = "barrier 1 @3 / stopped two threads called MPI at once"
        story = self.failed("threads 7 MPI_Send 8\n", calls, "barrier 1 @3")
        wanted = "failed: rank 0: MPI_Send at /a.py:7 was called while another thread was in the call at /a.py:8"
        self.assertEqual((story.status, story.title[: len(wanted)]), (Status.FAILED, wanted))


class Statuses(Folders):
    def test_the_order(self):
        self.assertEqual([int(worst(list(Status)[at:])) for at in (0, 5)], [4, 6])
        order = [4, 3, 2, 1, 6, 7, 8, 5, 0]
        for at in range(len(order)):
            self.assertEqual(worst(map(Status, order[at:][::-1])), order[at])

    def test_a_program_that_ends_with_a_status(self):
        for calls, ended in (
            (("finalize", "finalize"), ", although every rank came to its MPI_Finalize"),
            (("finalize", "exit"), "; rank 1 ended without MPI_Finalize"),
            (("finalize", "abort @7"), None),
            (("finalize", "send 0 null 0 4"), "; rank 1 cut off before MPI_Finalize"),
        ):
            with self.subTest(calls):
                self.again()
                story = self.judged(*calls, program_status=3)
                wanted = f"failed: the program ended with status 3{ended}"
                wanted = wanted if ended else "failed: rank 1 called MPI_Abort at /a.py:7"
                self.assertEqual((story.status, story.title), (Status.FAILED, wanted))

    def test_what_fails_after_this_script_ended_the_run_does_not_count(self):
        (self.folder / "run-a").mkdir()
        self.write("failed1", NOTE)
        failures = run.Failures(self.folder)
        failures.drop()
        failures.note()
        for name in ("failed0", "run-a/failed2"):
            self.write(name, NOTE)
        failures.drop()
        self.assertEqual([path.name for path in self.folder.rglob("failed*")], ["failed1"])

    def test_that_is_noted_before_the_run_is_ended(self):
        noted = []
        with contextlib.redirect_stderr(io.StringIO()):
            words = ["sh", "-c", "sleep 60"]
            watching.run_command(words, os.environ, 0.1, None, lambda: noted.append(1))
        self.assertEqual(noted, [1])


class Said(Folders):
    """What is said of calls beside the verdict."""

    def test_what_free_does_not_compare(self):
        text = self.judged("finalize", "finalize").text
        self.assertIn("Not compared: the operators, datatypes and counts of collectives", text)

    def test_a_cause_that_names_a_send(self):
        """Then it isn't said that no standard send is among these calls."""
        calls = "recv 0 1 5 @7 / send 0 1 6 4 @8 / finalize", "recv 0 0 6 @9 / send 0 0 5 4 @10 / finalize"
        text = self.judged(*calls).text
        self.assertIn("until rank 1 comes to MPI_Send", text)
        self.assertNotIn("no standard send is among", text)
        self.assertIn("no rank waits until a standard send is received", text)


class Counted(unittest.TestCase):
    def test_partitioned_messages_meet_only_each_other(self):
        """So their waits aren't judged, and a verdict on the other calls stays what it is."""
        text = "int MPI_Psend_init(const void *data, int parts, MPI_Request *request);\n"
        words = [sys.executable, TOOLS / "record/counted"]
        said = subprocess.run(words, input=text, capture_output=True, text=True, check=True).stdout
        self.assertIn("X(Psend_init, WAITS, ", said)


class WithoutRank0(Folders):
    def test_a_run_that_ends_before_rank_0_begins(self):
        (self.folder / "journal").mkdir()
        self.write("journal/journal1", journal(1, 2, "recv 0 0 5 @7"))
        stories = stories_of(self.folder / "journal", Stored(), None, program_status=6)
        self.assertEqual([story.status for story in stories], [Status.FAILED])
        self.assertIn("rank 0: never came through MPI_Init", stories[0].text)


if __name__ == "__main__":
    unittest.main()
