"""What is said of a run: titles, statuses, causes and where the ranks were."""

import json
import subprocess
import unittest
from unittest import mock

from support import BOTH, MADE, MASKED, TESTED, Folders, Stored
from companions import script
from companions.journals import Journal
from companions.story import MEANINGS, UNTIL_TESTS, Story

FREE = ("send 0 1 0 4 @1 / finalize", "recv 0 0 0 @2 / finalize")
TEXT = """\
verdict hang: 2 of 2 ranks wait

The cause:
  ranks 0 and 1 wait for each other:
      rank 0 waits in MPI_Send at /a.py:7 to rank 1 with tag 0, until rank 1 comes to MPI_Recv at /a.py:8
      rank 1 waits in MPI_Send at /a.py:7 to rank 0 with tag 0, until rank 0 comes to MPI_Recv at /a.py:8

What this assumes:
  A standard send of any size waits until it is received. MPI allows that, and a library that buffers the message goes \
on. If all messages are buffered, this run is free: tools/limits finds the size from which on it is. --eager N takes \
messages of at most N bytes as buffered.
"""
WHERE = "Where the ranks were that didn't come to MPI_Finalize"


class Statuses(Folders):
    """The status of a run: free 0, hang 1, refused 2, unfinished 5, not judged 6, calls that differ 7, failed 8."""

    def left(self, ranks, text):
        """The status and the title of a run of which something wasn't recorded."""
        self.again()
        self.run_of(*ranks)
        self.write("journal/left0", text)
        found = self.judged(*ranks)
        return found.status, found.title

    def test_of_each_kind(self):
        for status, ranks in (
            (0, FREE), (1, BOTH), (2, ("wait 3 / finalize",)), (5, ("barrier 0 @1", "barrier 0 @1")),
            (7, ("bcast 0 0 @1 / finalize", "reduce 0 0 @2 / finalize")),
            (7, ("bcast 0 0 @1 / finalize", "bcast 0 1 @2 / finalize")), (7, ("bcast 0 0 @1", "barrier 0 @2")),
            (1, ("bcast 0 0 @1 / recv 0 1 3 @2", "barrier 0 @2 / recv 0 0 3 @3")),
        ):  # fmt: skip
            with self.subTest(ranks):
                self.assertEqual(self.judged(*ranks).status, status)
                self.again()

    def test_the_program_failed(self):
        self.assertEqual(self.judged(*FREE, program_status=3).status, 8)
        self.again()
        self.assertEqual(self.judged(*BOTH, program_status=3).status, 1)
        self.again()
        self.assertEqual(self.judged("barrier 0 @1", "barrier 0 @1", program_status=3).status, 8)

    def test_questions_that_fail(self):
        title = "Unanswered questions"
        found = self.judged(*MASKED, faults=["--tests=pass"])
        self.assertEqual((found.status, dict(found.sections).get(title)), (1, None))
        self.again()
        cut = [f"isend 1 0 {1 - rank} 0 4 @4 / test 1 @5 / recv 0 {1 - rank} 0 @6" for rank in (0, 1)]
        found = self.judged(*cut, state="o", faults=["--tests=pass"])
        self.assertEqual((found.status, dict(found.sections)[title]), (4, ["pass: out of memory"]))
        self.assertNotIn(UNTIL_TESTS, found.text)
        self.again()
        found = self.judged(*BOTH, faults=["--eager=2147483647"])
        self.assertEqual((found.status, dict(found.sections)[title]), (1, ["buffered: out of memory"]))
        self.again()
        found = self.judged(*FREE, faults=["judge"])
        self.assertEqual((found.status, found.title), (4, "out of memory"))

    def test_doubts(self):
        title = "not judged: recorded calls may match {} recorded (without these: {})"
        free = title.format("3 calls that weren't", "free: every rank comes to its MPI_Finalize")
        self.assertEqual(self.left(FREE, "P 000000000003 calls of another thread\n"), (6, free))
        self.assertEqual(self.sections(*FREE)[MEANINGS["P"]], ["3 calls of another thread (rank 0)"])
        hang = title.format("1 call that wasn't", "hang: 2 of 2 ranks wait")
        self.assertEqual(self.left(BOTH, "P 000000000001 calls of another thread\n"), (6, hang))

    def test_waits_that_are_not_recorded(self):
        title = "verdict free: every rank comes to its MPI_Finalize, as far as recorded: "
        left = "W 000000000012 MPI_Put\nN 000000000009 MPI_Test\n"
        self.assertEqual(self.left(FREE, left), (0, title + "nothing is said of the waits of 12 other calls"))
        self.assertEqual(self.left(BOTH, left), (1, "verdict hang: 2 of 2 ranks wait"))

    def test_counts_that_are_cut_or_none(self):
        """A cut text is read up to its last whole line. A line that is no count leaves no verdict to be trusted."""
        free = "verdict free: every rank comes to its MPI_Finalize"
        for text in ("", "\0" * 99, "w", "P 000000000003 calls of", "N 000000000009 MPI_Test\nw 0000\0\0\nP"):
            with self.subTest(text):
                self.assertEqual(self.left(FREE, text), (0, free))
        for text in ("\n", "w\n", "w 1 MPI_Put\n", "w 00000000000x MPI_Put\n", "p 000000000001 calls\n",
                     "w 0000000000001 MPI_Put\n", b"\xff\x1b\n", "w" * 99_999 + "\n", "{0} {1} {2}\n"):  # fmt: skip
            with self.subTest(text[:20]):
                status, title = self.left(FREE, text)
                self.assertEqual((status, title[:45]), (6, "not judged: recorded calls may match 1 call t"))

    def test_what_is_asked(self):
        """Nothing but `judge --json --held', by the journals alone, as few times as may be."""
        for ranks, state, asked in (
            (FREE, "i", [set()]), (BOTH, "i", [set(), {"--eager=2147483647"}]),
            (TESTED, "i", [set(), {"--tests=pass"}, {"--eager=2147483647"}]),
            (MASKED, "i", [{"--calls=went"}, set(), {"--eager=2147483647"}]),
        ):  # fmt: skip
            with self.subTest(asked), mock.patch.object(Stored, "run", autospec=True, side_effect=Stored.run) as run:
                self.again()
                self.judged(*ranks, state=state)
                commands = [call.args[1] for call in run.call_args_list]
                self.assertEqual([set(words[3:-1]) for words in commands], [{"--held", *words} for words in asked])
                self.assertTrue(all([words[1:3], words[-1]] == [["judge", "--json"], "."] for words in commands))

    def test_several_runs(self):
        from companions.script import worst

        for statuses, wanted in (
            ((0, 8, 5), 8),
            ((0, 5, 7), 7),
            ((7, 6), 6),
            ((6, 1), 1),
            ((1, 2), 2),
            ((2, 3, 4), 4),
        ):
            self.assertEqual(worst(statuses), wanted)


class Titles(Folders):
    def title(self, *ranks, **words):
        self.again()
        return self.judged(*ranks, **words).title

    def test_of_what_was_cut_off(self):
        end = "; nothing recorded holds anybody"
        cut = "verdict unfinished: ranks 0 and 1 cut off before MPI_Finalize"
        self.assertEqual(self.title("recv 0 1 1 @1", "send 0 0 1 4 @1"), cut + end)
        self.assertEqual(
            self.title("full @1", "finalize"),
            "verdict unfinished: rank 0 made more than 1,000,000 calls" + end,
        )
        both = "verdict unfinished: rank 0 made more than 1,000,000 calls, rank 1 cut off before MPI_Finalize"
        self.assertEqual(self.title("full @1", "barrier 0 @2"), both + end)
        calls = "recv 0 any 3 @1 / barrier 0 / finalize"
        self.assertEqual(self.title(calls, calls), "verdict unfinished: not all calls could be judged" + end)

    def test_of_a_refused_run(self):
        self.assertEqual(self.title("barrier 0 / wait 3 @4 / finalize"),
                         "refused rank 0 line 3 J8 request: MPI_Wait at /a.py:4")  # fmt: skip

    def test_of_what_is_refused_in_any_form(self):
        for calls in ("barrier @4 / finalize", "send 0 x 0 @4", "send x 0 0 @4", "waitall @4", "barrier 0 @x", "\xff @4"):
            with self.subTest(calls):
                self.assertTrue(self.title(calls).startswith("refused rank 0 line 2 J"))


class Causes(Folders):
    def cause(self, *ranks, title="The cause", **words):
        self.again()
        return next(lines for name, lines in self.sections(*ranks, **words).items() if name.startswith(title))

    def test_a_cycle(self):
        self.assertEqual(self.judged(*BOTH).text, TEXT)

    def test_what_never_comes(self):
        said = self.cause("recv 0 1 0 @7 / finalize", "finalize")
        wanted = (
            "rank 0 waits in MPI_Recv at /a.py:7 from rank 1 with tag 0, for a send that rank 1 never makes"
        )
        self.assertEqual(said, [wanted])

    WRONG_TAG = ("recv 0 1 8 @9", *["send 0 0 7 4 @23 / bcast 0 0 @24"] * 3)

    def test_a_wrong_tag_comes_before_the_cycle_that_it_leads_to(self):
        sections = self.sections(*self.WRONG_TAG)
        self.assertEqual(sections["It hung here"], [
            "rank 0 waits in MPI_Recv at /a.py:9 from rank 1 with tag 8, for a send that rank 1 hasn't made so far",
            "    rank 1 sends to it in MPI_Send at /a.py:23, but with tag 7 and not 8",
        ])  # fmt: skip
        self.assertEqual([line[:12] for line in sections["Who else waits"]], ["ranks 1 to 3"])

    def test_nothing_is_said_twice(self):
        """What may hang too isn't what hung, nor what leads to that; and those who wait are said once to be there."""
        found = self.judged(*self.WRONG_TAG)
        self.assertFalse([name for name, _ in found.sections if name.startswith("It may hang here")])
        self.assertNotIn(WHERE, dict(found.sections))
        self.assertEqual(found.text.count("a.py:9"), 1)

    def test_a_missing_call_comes_before_a_cycle(self):
        """Rank 0 needs a call that rank 3 never makes, and is in a cycle too."""
        ranks = ("irecv 1 0 3 5 @1 / issend 2 0 1 6 @2 / wait 1 2 @3 / recv 0 1 7 / finalize",
                 "ssend 0 0 7 @4 / recv 0 0 6 @5 / finalize", "ssend 0 0 7 @6 / finalize", "finalize")  # fmt: skip
        said = self.cause(*ranks)
        self.assertTrue(said[0].startswith("rank 0 waits in MPI_Waitall at /a.py:3, until rank 1 comes"), said)
        self.assertEqual(said[1], "    and for a send that rank 3 never makes")
        self.assertIn("ranks 0 and 1 wait for each other too:", said)
        self.assertEqual(sum("MPI_Waitall" in line for line in said), 1)

    def test_the_cause_that_blocks_most_ranks_comes_first(self):
        pair = [f"recv 0 {1 - rank} 5 @1 / finalize" for rank in (0, 1)]
        others = [f"recv 0 {2 if rank > 2 else 5} 6 @2 / finalize" for rank in range(2, 6)]
        said = self.cause(*pair, *others)
        self.assertEqual([line.partition(" waits in ")[0].partition(" wait in ")[0] for line in said],
                         ["rank 2", "ranks 3 to 5", "rank 0", "rank 1"])  # fmt: skip

    def test_no_line_of_code(self):
        said = self.cause("barrier 0 / recv 0 1 0 / finalize", "barrier 0 / finalize")
        self.assertTrue(said[0].startswith("rank 0 waits in MPI_Recv (line 3 of journal0) from rank 1"), said)

    def test_that_no_buffer_would_cure(self):
        assumes = "What this assumes"
        said = self.cause("recv 0 1 0 @7 / finalize", "recv 0 0 0 @7 / finalize", title=assumes)
        self.assertEqual(said, ["No buffer would cure this: none of these ranks waits in a standard send."])
        said = self.cause("send 0 1 0 4 @7 / recv 0 1 1 @8 / finalize", "send 0 0 0 4 @7 / recv 0 0 1 @8 / finalize",
                          title=assumes)  # fmt: skip
        self.assertIn("No buffer would cure this: it hangs too if all messages are buffered.", said[0])

    def test_communicators(self):
        ranks = (
            f"{MADE} / barrier 2 @5 / barrier 3 @6 / finalize",
            f"{MADE} / barrier 3 @7 / barrier 2 @8 / finalize",
        )
        said = "\n".join(self.cause(*ranks))
        self.assertIn("rank 0 waits in MPI_Barrier at /a.py:5 on the communicator of /a.py:3, until rank 1 comes "
                      "to MPI_Barrier at /a.py:8", said)  # fmt: skip
        self.assertEqual(self.sections(*ranks)["Communicators"][1],
                         "the communicator of /a.py:4: ranks 0 and 1, made by MPI_Comm_dup at /a.py:4")  # fmt: skip
        self.write("journal/names0", "2 left\\x09one\n")
        self.assertIn("on `left\\tone', until", "\n".join(self.sections(*ranks)["The cause"]))

    def test_communicators_of_one_line(self):
        made = MADE.replace("@4", "@3")
        said = self.cause(
            f"{made} / barrier 2 @5 / barrier 3 @6 / finalize",
            f"{made} / barrier 3 @7 / barrier 2 @8 / finalize",
        )
        self.assertIn("MPI_Barrier at /a.py:5 on the communicator of /a.py:3", "\n".join(said))
        self.assertIn("MPI_Barrier at /a.py:7 on the 2. communicator of /a.py:3", "\n".join(said))

    def test_ranks_that_wait_alike_are_all_the_cause(self):
        ring = [f"sendrecv 0 {(rank + 1) % 4} {rank} {(rank + 3) % 4} 9 4 @7 / finalize" for rank in range(4)]
        said = self.cause(*ring, title="The cause")
        self.assertEqual(sum(" waits in MPI_Sendrecv" in line for line in said), 4, said)

    def test_ranks_in_one_line_that_lack_calls(self):
        said = self.cause("barrier 0 @1 / finalize", *["barrier 0 @1 / recv 0 0 5 @7 / finalize"] * 2)
        self.assertEqual(said[0], "ranks 1 and 2 wait in MPI_Recv at /a.py:7 from rank 0 with tag 5, for a send that "
                                  "rank 0 never makes")  # fmt: skip


class NearMisses(Folders):
    """What was sent with another tag or on another communicator, for each kind of message call."""

    def miss(self, *ranks):
        self.again()
        text = self.judged(*ranks).text
        return [line.strip() for line in text.split("\n") if ", but " in line]

    def test_tags(self):
        wanted = "rank 1 sends to it in {} at /a.py:8, but with tag 9 and not 5"
        for sends, name in (
            ("isend 1 0 0 9 @8 / barrier 0 / finalize", "MPI_Isend"), ("bsend 0 0 9 @8 / barrier 0 / finalize", "MPI_Bsend"),
            ("ssend 0 0 9 @8 / finalize", "MPI_Ssend"), ("sendrecv 0 0 9 0 9 4 @8 / finalize", "MPI_Sendrecv"),
            ("issend 1 0 0 9 @8 / wait 1 @9 / finalize", "MPI_Issend"),
        ):  # fmt: skip
            for receives in ("recv 0 1 5 @7", "probe 0 1 5 @7 / recv 0 1 5", "irecv 1 0 1 5 @6 / wait 1 @7",
                             "sendrecv 0 null 0 1 5 @7"):  # fmt: skip
                with self.subTest(name, receives=receives):
                    self.assertIn(wanted.format(name), self.miss(f"{receives} / barrier 0 / finalize", sends))

    def test_tags_of_buffered_sends_in_runs_that_were_cut_off(self):
        """They came back, and nothing is found of what a rank doesn't receive that may receive more."""
        received = "recv 0 1 9 @6 / recv 0 any 9 @6 / =got 1 9 / irecv 1 0 any any @6 / wait 1 @6 / =done 1 1 9"
        for send, name in (("bsend 0 0 9 @8", "Bsend"), ("isend 1 0 0 9 4 @8", "Isend"), ("ibsend 1 0 0 9 @8", "Ibsend")):
            with self.subTest(name):
                said = self.miss("recv 0 1 5 @7", f"{send} / barrier 0 @9")
                self.assertEqual(said, [f"rank 1 sends to it in MPI_{name} at /a.py:8, but with tag 9 and not 5"])
                three = " / ".join(send.replace("send 1", f"send {number}") for number in (1, 2, 3))
                self.assertEqual(self.miss(f"{received} / recv 0 1 5 @7", f"{three} / barrier 0 @9"), [])

    def test_sendrecv(self):
        said = self.miss("sendrecv 0 1 3 1 4 4 @7 / finalize", "sendrecv 0 0 3 0 3 4 @8 / finalize")
        self.assertEqual(said, ["rank 1 sends to it in MPI_Sendrecv at /a.py:8, but with tag 3 and not 4",
                                "rank 0 receives from it in MPI_Sendrecv at /a.py:7, but with tag 4 and not 3"])  # fmt: skip

    def test_receives(self):
        said = self.miss("ssend 0 1 4 @7 / finalize", "recv 0 0 5 @8 / finalize")
        self.assertIn("rank 1 receives from it in MPI_Recv at /a.py:8, but with tag 5 and not 4", said)

    def test_communicators_with_the_same_members(self):
        said = self.miss(f"{MADE} / recv 2 1 5 @7 / finalize", f"{MADE} / ssend 3 0 5 @8 / finalize")
        self.assertIn("rank 1 sends to it in MPI_Ssend at /a.py:8, but on the communicator of /a.py:4 and not on "
                      "the communicator of /a.py:3", said)  # fmt: skip

    def test_communicators(self):
        made = "comm_dup 0 @3 / =comm 2 0 1"
        said = self.miss(f"{made} / recv 0 1 5 @7 / finalize", f"{made} / ssend 2 0 5 @8 / finalize")
        self.assertIn("rank 1 sends to it in MPI_Ssend at /a.py:8, but on the communicator of /a.py:3 and not on "
                      "MPI_COMM_WORLD", said)  # fmt: skip


class Wildcards(Folders):
    """A hang that rests on the messages that receives with wildcards got in this run says so."""

    HANG, DOUBT = "verdict hang: ", "verdict hang, if wildcards match as in this run: "
    SENDERS = ("send 0 0 3 4 @2 / recv 0 2 3 @3 / finalize", "send 0 1 3 4 @4 / send 0 0 3 4 @5 / finalize")
    BOTH = "recv 0 any 3 @1 / =got 2 3 / recv 0 any 3 @1 / =got 1 3 / finalize"

    def check(self, wanted, *ranks, **words):
        self.again()
        found = self.judged(*ranks, **words)
        self.assertEqual((found.status, found.title), (1, f"{wanted}{len(found.stuck)} of {len(ranks)} ranks wait"))
        said = [line for line in dict(found.sections).get("What this assumes", []) if "has a wildcard" in line]
        self.assertEqual(bool(said), wanted == self.DOUBT)
        return said

    def test_a_rank_in_a_receive(self):
        said = self.check(self.DOUBT, self.BOTH, *self.SENDERS)
        self.assertTrue(said[0].startswith("rank 0: MPI_Recv at /a.py:1 has a wildcard, and the verdict takes"), said)
        self.assertIn("--strict decides", said[0])

    def test_a_probe_and_a_receive_of_any_tag(self):
        self.check(self.DOUBT, f"probe 0 any 3 @1 / =got 2 3 / {self.BOTH}", *self.SENDERS)
        self.check(self.DOUBT, self.BOTH.replace("0 any 3 @1 / =got 2", "0 2 any @1 / =got 2"), *self.SENDERS)

    def test_a_receive_that_was_begun(self):
        started = "irecv 1 0 any 3 @1 / {}wait 1 @6 / =done 1 2 3 / recv 0 1 3 @7 / finalize"
        self.check(self.DOUBT, started.format(""), *self.SENDERS)
        self.check(self.DOUBT, started.format("recv 0 1 3 @8 / ").replace("/ recv 0 1 3 @7 ", ""),
                   "recv 0 2 3 @3 / send 0 0 3 4 @2 / finalize", "ssend 0 0 9 @9 / send 0 0 3 4 @5 / finalize")  # fmt: skip

    def test_a_receive_whose_message_was_sent(self):
        """Its sender is past that send, and has no other one: what holds the ranks is something else."""
        started = "irecv 1 0 any 3 @1 / ssend 0 1 9 @2 / wait 1 @3 / =done 1 1 3 / finalize"
        self.check(self.HANG, started, "isend 1 0 0 3 4 @4 / ssend 0 0 9 @5 / wait 1 @6 / finalize")
        self.check(self.DOUBT, started, "ssend 0 0 9 @5 / send 0 0 3 4 @4 / finalize")
        self.check(self.HANG, started, "ssend 0 0 9 @5 / send 0 0 4 4 @4 / finalize")

    def test_a_strict_run_and_a_run_that_hung(self):
        self.check(self.HANG, self.BOTH, *self.SENDERS, after=dict.fromkeys(range(3), " strict"))
        self.check(self.HANG, "recv 0 any 3 @1 / =got 1 3 / recv 0 1 5 @2", "send 0 0 3 4 @3 / recv 0 0 5 @4")


class CutOff(Folders):
    def test_the_hang_that_was_comes_first(self):
        found = self.judged(*MASKED)
        sections = dict(found.sections)
        self.assertEqual((found.status, list(sections)[:2]), (1, ["It hung here", "It may hang here too"]))
        self.assertIn(
            "rank 0 waits in MPI_Recv at /a.py:7 from rank 1 with tag 9", sections["It hung here"][1]
        )
        self.assertIn("rank 0 waits in MPI_Send at /a.py:4", sections["It may hang here too"][1])

    def test_nothing_held_it_but_it_may_hang(self):
        found = self.judged(*MASKED, state="io")
        self.assertEqual(found.status, 1)
        self.assertEqual(
            found.title,
            "verdict hang: nothing held the ranks when they were cut off, but 2 of 2 may wait",
        )
        self.assertEqual(found.verdicts()["went"], "unfinished")
        self.assertIn("It may hang here", dict(found.sections))

    def test_waits_for_any_of_one_request(self):
        for wait in ("waitany", "waitsome"):
            ranks = [f"irecv 1 0 {1 - rank} 4 @4 / {wait} 1 @5" for rank in (0, 1)]
            self.again()
            found = self.judged(*ranks)
            self.assertEqual((found.status, found.title), (1, "verdict hang: 2 of 2 ranks wait"))
            self.assertIn(f"rank 0 waits in MPI_{wait.capitalize()} at /a.py:5, for a send", found.text)
            self.assertIn("started by MPI_Irecv at /a.py:4 from rank 1 with tag 4", found.text)

    def test_a_wait_for_any_of_many_says_each_need_once(self):
        starts = " / ".join(f"irecv {request} 0 1 {request} @4" for request in range(1, 31))
        found = self.judged(f"{starts} / waitany {' '.join(map(str, range(1, 31)))} @5", "barrier 0 @6")
        said = found.text.partition("What this assumes")[0]
        self.assertEqual((found.status, said.count("for a send that rank 1 hasn't made so far")), (1, 1))

    def test_a_message_that_a_matched_probe_took(self):
        sender = "ssend 0 0 2 @1 / ssend 0 0 2 @2 / finalize"
        found = self.judged("mprobe 1 0 1 2 @3 / =got 1 2 / recv 0 1 2 @4 / mrecv 1 @5 / finalize", sender)
        self.assertEqual(
            (found.status, found.title), (0, "verdict free: every rank comes to its MPI_Finalize")
        )

    def test_a_near_miss_that_came_back(self):
        ranks = "recv 0 1 8 @7", "send 0 0 7 4 @8 / bcast 0 0 @9"
        said = self.sections(*ranks)["It hung here"]
        self.assertIn("rank 1 sends to it in MPI_Send at /a.py:8, but with tag 7 and not 8", "\n".join(said))

    def test_a_rank_that_cannot_be(self):
        said = self.sections("bcast 0 -1 @4", "barrier 0 @5")["Calls at which the judgement of a rank ends"]
        self.assertEqual(
            said, ["rank 0: MPI_Bcast at /a.py:4 with root -1 names a rank or a tag that can't be"]
        )

    CUT_OFF = ("finalize", "recv 0 any 4 @2", "barrier 0 @1 / abort @2", "barrier 0 @3 / exit", "full @1",
               "send 0 1 0 @1 / stopped the disk is full", None, *["barrier 0 @1"] * 3)  # fmt: skip

    def where(self, left, *ranks, **words):
        """Where the ranks were, of which some have such counts."""
        self.run_of(*ranks, **words)
        for rank, text in left.items():
            self.write(f"journal/left{rank}", text)
        sections = self.sections(*ranks, **words)
        return sections.get(WHERE) or sections[WHERE.replace("the ranks", "the other ranks")]

    def test_where_ranks_were(self):
        self.assertEqual(
            self.where({}, *self.CUT_OFF, state="iiiiiiiiio"),
            [
                "rank 1: inside MPI_Recv at /a.py:2",
                "rank 2: called MPI_Abort at /a.py:2",
                "rank 3: its process ended without MPI_Finalize, after MPI_Barrier at /a.py:3",
                "rank 4: made more than 1,000,000 calls; those after them aren't judged",
                "rank 5: MPI_Send at /a.py:1, and recorded no further: the disk is full",
                "rank 6: never came through MPI_Init",
                "rank 9: back from MPI_Barrier at /a.py:1, and computing or in a call that isn't recorded",
            ],
        )

    def test_ranks_in_calls_that_are_only_counted(self):
        count = "W 000000000002 MPI_Win_post\nw 000000000001 {}\nN 000000000003 MPI_Iprobe, found nothing\n"
        left = {4: "MPI_File_read_all", 7: "MPI_Put", 9: "MPI_Win_wait"}
        left = {rank: count.format(call) for rank, call in left.items()}
        said = self.where(left, *self.CUT_OFF, state="iiiiiiiiio")
        self.assertEqual(
            [line for line in said if line.startswith(("rank 4", "ranks 7", "rank 9"))],
            [
                "rank 4: made more than 1,000,000 calls; those after them aren't judged; now in MPI_File_read_all, "
                "which isn't recorded",
                "rank 9: back from MPI_Barrier at /a.py:1, and in MPI_Win_wait, which isn't recorded",
            ],
        )

    def test_ranks_that_asked_before_a_call_that_is_only_counted(self):
        words = "collectives on communicators that have no number"
        said = self.where({0: f"w 000000000001 {words}\n"}, *self.POLLING, state="o", after=self.POLLS)
        self.assertEqual(
            said[0],
            "rank 0: asked again and again: MPI_Iprobe at /a.py:1 (20 times, found nothing); before that MPI_Barrier "
            f"at /a.py:9; now in a call that isn't recorded: {words}",
        )
        self.assertTrue(said[1].startswith("rank 1: ") and said[1].endswith("before that MPI_Barrier at /a.py:9"))

    def test_hostile_names_of_calls(self):
        """Whatever is there is one line, and the last mark of several is reported."""
        for name, shown in (("{0}", "{0}"), ("\x1b[2J\u2028", "\\x1b[2J\\u2028"), ("\\x0a", "\\x0a")):
            with self.subTest(name):
                self.again()
                left = {9: f"w 000000000001 MPI_Put\nw 000000000001 {name}\n"}
                said = self.where(left, *self.CUT_OFF, state="iiiiiiiiio")
                self.assertTrue(said[-1].endswith(f", and in {shown}, which isn't recorded"), said)

    POLLS = {rank: " polls {:08x} {:02x} {:016x}".format(*one)
             for rank, one in {0: (1, 5, 20), 1: (1, 5, 1000), 2: (2, 1, 7)}.items()}  # fmt: skip
    POLLING = ("barrier 0 @9", "barrier 0 @9", "irecv 1 0 0 5 @4 / barrier 0 @9")

    def test_ranks_that_poll(self):
        self.assertEqual(
            self.where({}, *self.POLLING, state="o", after=self.POLLS),
            [
                "ranks 0 and 1: asked again and again: MPI_Iprobe at /a.py:1 (20 to 1,000 times, found nothing); "
                "before that MPI_Barrier at /a.py:9",
                "rank 2: asked again and again: MPI_Test at /a.py:2 (7 times, found nothing); started and not "
                "complete: MPI_Irecv at /a.py:4 from rank 0 with tag 5; before that MPI_Barrier at /a.py:9",
            ],
        )

    def test_a_rank_that_asks_for_the_status_of_a_request(self):
        said = self.where({}, "irecv 1 0 1 5 @4", "barrier 0 @9", state="oi", after={0: self.POLLS[2].replace(" 01 ", " 07 ")})
        wanted = "rank 0: asked again and again: MPI_Request_get_status at /a.py:2 (7 times, found nothing); started and not"
        self.assertTrue(said[0].startswith(wanted), said)

    def test_where_the_judgement_ends(self):
        calls = "irecv 1 0 any 3 @1 / barrier 0 / finalize"
        said = self.sections(calls, calls, "send 0 7 0 @2 / =failed / finalize")
        self.assertEqual(
            said["Calls at which the judgement of a rank ends"],
            [
                "rank 2: MPI_Send at /a.py:2 answered with an error",
            ],
        )
        receives = said["Receives of which it isn't known what they took"]
        self.assertEqual(receives, ["ranks 0 and 1: MPI_Irecv at /a.py:1"])

    def test_each_receive_of_which_it_is_not_known_what_it_took(self):
        posted = "irecv 1 0 any 3 @1 / irecv 2 0 any 4 @2"
        said = self.sections(f"{posted} / irecv 3 0 any 3 @1 / recv 0 1 5 @9", f"{posted} / recv 0 0 5 @9")
        receives = said["Receives of which it isn't known what they took"]
        self.assertEqual(receives, ["ranks 0 and 1: MPI_Irecv at /a.py:1", "ranks 0 and 1: MPI_Irecv at /a.py:2"])

    def test_calls_that_are_left_out_are_read_at_once(self):
        asked = []
        for posted in (2, 4):
            receives = " / ".join(f"irecv {number} 0 any 3 @1" for number in range(1, 1 + posted))
            with mock.patch.object(Journal, "calls", autospec=True, side_effect=Journal.calls) as calls:
                self.sections(f"{receives} / recv 0 1 5 @9", "recv 0 0 5 @9")
            asked.append(calls.call_count)
            self.again()
        self.assertEqual(*asked)

    def test_waits_for_messages_from_anybody(self):
        said = self.sections("recv 0 any any @21", "recv 0 0 1 @22", "recv 0 0 1 @22")
        wait = "rank 0 waits in MPI_Recv at /a.py:21 for a message from anybody"
        senders = ", and ranks 1 and 2, who could send one, wait for rank 0"
        self.assertEqual(said["It hung here"][1].strip(), wait + senders)
        self.assertNotIn("Calls at which the judgement of a rank ends", said)
        self.again()
        said = self.sections("irecv 1 0 any 3 @4 / wait 1 @5", "finalize")
        wait = "rank 0 waits in MPI_Wait at /a.py:5 for a message from anybody with tag 3"
        self.assertEqual(said["It hung here"], [wait + ", and nobody is left who could send one"])

    def test_calls_at_which_the_judgement_ends(self):
        said = self.sections(
            "recv 0 any 4 @2 / finalize", "irecv 1 0 0 5 @3 / cancel 1 @4 / finalize",
            "irecv 1 0 null 0 @6 / irecv 2 0 null 0 @7 / waitsome 1 2 @8 / finalize",
        )  # fmt: skip
        self.assertEqual(
            said["Calls at which the judgement of a rank ends"],
            [
                "rank 0: MPI_Recv at /a.py:2 never came back, and what it would have taken isn't known",
                "rank 1: MPI_Cancel at /a.py:4 was never answered: whether it cancelled anything isn't known",
                "rank 2: MPI_Waitsome at /a.py:8 never came back, and what it would have taken isn't known",
            ],
        )

    def test_a_free_run_that_is_cut_off_anywhere(self):
        """A receive with a wildcard may be open then, and the others wait for one whose message it takes."""
        master = "irecv 1 0 any 3 @1 / recv 0 2 4 @2 / wait 1 @3 / =done 1 1 3 / finalize"
        ranks = [master, "ssend 0 0 3 @6 / ssend 0 2 5 @7 / finalize", "recv 0 1 5 @8 / ssend 0 0 4 @9 / finalize"]
        self.assertEqual(self.judged(*ranks).status, 0)
        for rank, calls in enumerate(ranks):
            lines = calls.split(" / ")
            for left in range(len(lines)):
                cut = [" / ".join(lines[:left]) if one == rank else ranks[one] for one in range(3)]
                with self.subTest(cut):
                    self.again()
                    self.assertEqual(self.judged(*cut).status, 5)

    def test_threads(self):
        after = dict.fromkeys((0, 1), " multiple")
        said = self.sections("recv 0 1 0 @7", "recv 0 0 0 @7", after=after)["What this assumes"]
        self.assertTrue(said[-1].startswith("With MPI_THREAD_MULTIPLE another thread"), said)


class Tested(Folders):
    def test_a_hang_by_tests_alone(self):
        found = self.judged(*TESTED)
        sections = dict(found.sections)
        self.assertEqual((found.status, found.verdicts()["strict"]), (0, "hang"))
        self.assertEqual(
            found.title,
            "verdict free: every rank comes to its MPI_Finalize, unless it waits for a test",
        )
        self.assertIn("rank 0 waits in MPI_Test at /a.py:5", sections[UNTIL_TESTS][1])

    def test_a_hang_by_tests_and_more(self):
        ranks = [
            calls.replace("finalize", f"recv 0 {1 - rank} 7 @9 / finalize")
            for rank, calls in enumerate(TESTED)
        ]
        found = self.judged(*ranks)
        self.assertEqual((found.status, found.title), (1, "verdict hang: 2 of 2 ranks wait"))
        self.assertIn("MPI_Recv at /a.py:9", "\n".join(dict(found.sections)["The causes"]))


class Differing(Folders):
    """Ranks that disagree on a collective call: that is the title, whatever the run did."""

    def said(self, *ranks, **words):
        self.again()
        found = self.judged(*ranks, **words)
        return found.title, *(lines for name, lines in found.sections[:2])

    def test_another_order_in_a_run_that_completed(self):
        title, calls, did = self.said("bcast 0 0 @1 / barrier 0 @2 / finalize",
                                      *["barrier 0 @4 / bcast 0 0 @5 / finalize"] * 3)  # fmt: skip
        error = "error: the ranks call collectives in a different order on MPI_COMM_WORLD"
        self.assertEqual(title, error + "; this run completed, but only because the MPI library let it")
        self.assertEqual(calls, [
            "the 1st collective on MPI_COMM_WORLD:", "    rank 0: MPI_Bcast at /a.py:1",
            "    ranks 1 to 3: MPI_Barrier at /a.py:4", "the 2nd collective on MPI_COMM_WORLD:",
            "    rank 0: MPI_Barrier at /a.py:2", "    ranks 1 to 3: MPI_Bcast at /a.py:5",
            "MPI requires that all ranks of a communicator call its collectives in the same order.",
        ])  # fmt: skip
        self.assertTrue(did[0].startswith("Every rank reached MPI_Finalize, but only because this MPI library let"))

    def test_other_calls(self):
        title = self.said("bcast 0 0 @1 / finalize", "barrier 0 @4 / finalize")[0]
        self.assertTrue(title.startswith("error: the ranks call different collectives on MPI_COMM_WORLD; this run"), title)

    def test_another_root_in_a_run_that_hung(self):
        gather = ["gather 0 0 @11", "gather 0 0 @11 / barrier 0 @12", "gather 0 0 @11", "gather 0 3 @11"]
        title, calls, did = self.said(*gather)
        self.assertEqual(title, "error: the ranks disagree on the root of MPI_Gather on MPI_COMM_WORLD, and the run hung")
        self.assertEqual(calls, [
            "the 1st collective on MPI_COMM_WORLD:", "    ranks 0 to 2: MPI_Gather at /a.py:11 with root 0",
            "    rank 3: MPI_Gather at /a.py:11 with root 3", "MPI requires the same root on all ranks.",
        ])  # fmt: skip
        self.assertEqual(did, ["The run hung: ranks 0 to 3 can never continue.",
                               "ranks 0, 2 and 3: inside MPI_Gather at /a.py:11", "rank 1: inside MPI_Barrier at /a.py:12"])  # fmt: skip
        self.assertNotIn("Where the ranks were", self.judged(*gather).text)

    def test_nonblocking_calls(self):
        title, calls, _ = self.said("ibarrier 1 0 @1 / wait 1 @2", "iallreduce 1 0 @3 / wait 1 @4")
        self.assertEqual(title, "error: the ranks call collectives in a different order on MPI_COMM_WORLD, and the run hung")
        self.assertEqual(calls[1:3], ["    rank 0: MPI_Ibarrier at /a.py:1", "    rank 1: MPI_Iallreduce at /a.py:3"])
        title = self.said("barrier 0 @1", "ibarrier 1 0 @3 / wait 1 @4")[0]
        self.assertEqual(title, "error: the ranks match MPI_Barrier with MPI_Ibarrier on MPI_COMM_WORLD, and the run hung")

    def test_runs_that_failed_or_were_interrupted(self):
        order = "error: the ranks call collectives in a different order on MPI_COMM_WORLD"
        title, _, did = self.said("bcast 0 0 @1", "barrier 0 @2", program_status=14)
        self.assertEqual((title, did[0]), (order + ", and the run failed", "The run ended with status 14."))
        title, _, did = self.said("bcast 0 0 @1", "barrier 0 @2", state="o")
        self.assertEqual(title, order + ", and the run was interrupted")
        self.assertTrue(did[0].startswith("The run was interrupted."))

    def test_another_communicator(self):
        made = "=comm 2 2 1"
        ranks = ["comm_split 0 undefined 0 @1 / =none / finalize", f"comm_split 0 0 1 @1 / {made} / bcast 2 1 @4 / finalize",
                 f"comm_split 0 0 0 @1 / {made} / bcast 2 0 @3 / finalize"]  # fmt: skip
        title, calls, _ = self.said(*ranks)
        self.assertIn("the root of MPI_Bcast on the communicator of /a.py:1; this run completed", title)
        self.assertEqual(calls[:3], ["the 1st collective on the communicator of /a.py:1:",
                                     "    rank 1: MPI_Bcast at /a.py:4 with root 1", "    rank 2: MPI_Bcast at /a.py:3 with root 0"])  # fmt: skip

    def test_all_members_of_another_communicator(self):
        """Ranks have numbers of their own for it, and there are several with these members."""
        made = "{0}comm_dup 0 @1 / =comm {1} 0 1 2 / comm_dup 0 @2 / =comm {2} 0 1 2 / barrier {1} @5 / "
        ranks = [made.format("", 2, 3) + "gather 3 0 @3", made.format("comm_dup 1 @9 / =comm 2 1 / ", 7, 5) + "gather 5 0 @3",
                 made.format("", 4, 8) + "gather 8 2 @4"]  # fmt: skip
        title, calls, _ = self.said(*ranks)
        self.assertIn("the root of MPI_Gather on the communicator of /a.py:2, and the run hung", title)
        self.assertEqual(calls[:3], ["the 1st collective on the communicator of /a.py:2:",
                                     "    ranks 0 and 1: MPI_Gather at /a.py:3 with root 0", "    rank 2: MPI_Gather at /a.py:4 with root 2"])  # fmt: skip

    def test_another_group(self):
        made = "comm_split 0 0 0 @1 / =comm 2 {} / recv 2 null 0 @2 / finalize"
        found = self.judged(made.format("0 1"), made.format("1"))
        self.assertEqual((found.status, dict(found.sections)["The collective calls that differ"][0]),
                         (7, "rank 1's MPI_Comm_split at /a.py:1 makes another group than the others say"))  # fmt: skip
        self.assertIn("the ranks disagree on the group of the communicator that MPI_Comm_split makes", found.title)

    def test_no_call_waits_for_one_that_it_cannot_match(self):
        """Rank 0 is in a barrier, to which rank 1 calls an allreduce instead, if it ever comes so far."""
        ranks = "barrier 0 @1 / finalize", "ssend 0 0 5 @2 / allreduce 0 @3 / finalize"
        for wait, other in ((ranks[0], ranks[1]), ("ibarrier 1 0 @1 / wait 1 @4 / finalize", ranks[1]),
                            ("bcast 0 0 @1 / finalize", "ssend 0 0 5 @2 / bcast 0 1 @3 / finalize")):  # fmt: skip
            self.again()
            found = self.judged(wait, other)
            self.assertEqual((found.status, found.title[:6]), (1, "error:"))
            self.assertNotIn("until rank 1 comes to MPI_", found.text)
            self.assertIn("where rank 1 calls MPI_", found.text)

    def test_members_that_disagree_before_the_first_one_calls(self):
        """A finding compares each call with that of the first member, which has none."""
        title, calls, did = self.said("recv 0 null 0 @1", "barrier 0 @2", "bcast 0 0 @3", state="oii")
        self.assertEqual(title, "error: ranks 1 and 2 wait for collective calls on which the ranks disagree, "
                                "and the run hung")  # fmt: skip
        self.assertEqual(calls[:2], ["rank 1: MPI_Barrier at /a.py:2", "rank 2: MPI_Bcast at /a.py:3"])
        self.assertEqual(self.judged().status, 7)

    def test_what_is_said_with_an_older_checker(self):
        """It knows no --held: then it isn't known which calls they are, nor whether the run hung."""
        self.run_of("bcast 0 0 @1", "barrier 0 @2")
        found = Story(self.folder / "journal", Older())
        self.assertEqual((found.status, found.judge.knows_held), (7, False))
        self.assertEqual(found.title, "error: the ranks call collectives in a different order on MPI_COMM_WORLD, "
                                      "and the run was interrupted")  # fmt: skip
        self.assertEqual(found.sections[0][1][:3],
                         ["a collective on MPI_COMM_WORLD:", "    some ranks: MPI_Bcast", "    others: MPI_Barrier"])  # fmt: skip
        self.assertEqual(Story(self.folder / "journal", Stored()).judge.knows_held, True)

    def test_many_alike(self):
        calls = self.said("bcast 0 0 @1 / " * 9 + "finalize", "reduce 0 0 @2 / " * 9 + "finalize")[1]
        self.assertEqual(calls[0], "the 1st collective on MPI_COMM_WORLD (8 more alike):")
        self.assertEqual(len(calls), 4)


class Older(Stored):
    """A checker that doesn't know --held."""

    def run(self, command, folder):
        if any(word.startswith("--held") for word in command):
            return subprocess.CompletedProcess(command, 3, "", "error: unexpected argument '--held' found")
        return super().run(command, folder)


class Findings(Folders):
    def test_each_kind(self):
        first = "barrier 0 @1 / bsend 0 1 4 @2 / irecv 1 0 1 5 @3 / finalize"
        self.assertEqual(
            self.sections(first, "barrier 0 @4 / finalize")["Findings, which change no verdict"],
            [
                "nobody receives what rank 0 sends in MPI_Bsend at /a.py:2 to rank 1 with tag 4",
                "rank 0 never waits for what it starts in MPI_Irecv at /a.py:3",
            ],
        )

    def test_alike_ones_are_counted(self):
        said = self.sections("bsend 0 1 4 @2 / " * 4 + "finalize", "finalize")[
            "Findings, which change no verdict"
        ]
        wanted = (
            "nobody receives what rank 0 sends in MPI_Bsend at /a.py:2 to rank 1 with tag 4 (3 more alike)"
        )
        self.assertEqual(said, [wanted])


class Strict(Folders):
    def assumed(self, *ranks, strict=(0, 1)):
        self.again()
        return self.sections(*ranks, after=dict.fromkeys(strict, " strict")).get("What this assumes", [])

    def test_strict_runs(self):
        self.assertTrue(self.assumed(*BOTH)[0].startswith("This run was strict: "))
        self.assertFalse(any("strict" in line for line in self.assumed(*BOTH, strict=())))

    def test_a_receive_that_nobody_answers(self):
        """A cause that names one rank, and no other."""
        said = self.assumed("irecv 1 0 any 3 @4 / wait 1 @5", "finalize")
        self.assertTrue(said[0].startswith("This run was strict: "), said)

    def test_only_some_ranks(self):
        said = self.sections("finalize", "finalize", after={0: " strict"})["What this assumes"]
        self.assertEqual(said[0], "Only rank 0 ran strictly, so this is reported as a run that wasn't strict.")

    def test_nonblocking_collectives(self):
        said = self.assumed("ibcast 1 0 0 @1 / wait 1 @2 / send 0 1 0 4 / finalize",
                            "recv 0 0 0 / ibcast 1 0 0 / wait 1 / finalize")  # fmt: skip
        self.assertTrue(any("on waits for nonblocking collectives (rank 0)" in line for line in said), said)


class InWords(unittest.TestCase):
    def test_ranks(self):
        self.assertEqual(script.numbers([4, 0, 1, 2]), "0 to 2 and 4")
        self.assertEqual(script.ranks_named([3]), "rank 3")
        self.assertEqual(
            script.numbers(range(0, 40, 2)), "0, 2, 4, 6, 8, 10, 12, 14, 16, 18, 20, 22 and 8 more"
        )


if __name__ == "__main__":
    unittest.main()
