"""What is read of journals and of the program's debug information."""

import os
import shutil
import subprocess
import time
import unittest
from unittest import mock

from support import TOOLS, Folders, journal
from companions import places
from companions.causes import finding_lines, near_misses
from companions.differing import difference_lines, disagreements
from companions.journals import Call, Journal, journals_in, unescaped
from companions.runs import Run, View


class Reading(Folders):
    def journal(self, text):
        self.write("journal0", text)
        return Journal(self.folder, 0)

    def test_the_text_ends_at_the_first_zero_byte(self):
        self.assertEqual(
            self.journal(journal(0, 1, "barrier 0").encode() + b"\0" * 9 + b"send 0 0 0\n").last.word,
            "barrier",
        )

    def test_a_last_line_without_a_line_feed_is_left_out(self):
        self.assertEqual(self.journal(journal(0, 1, "barrier 0") + "send 0 0 0").last.word, "barrier")

    def test_texts_without_a_call(self):
        for text in ("", "\0" * 100, "journal 2 0", journal(0, 1, "")):
            with self.subTest(text):
                found = self.journal(text)
                self.assertEqual((found.last, found.has_ended, found.calls([2])), (None, False, {}))
        self.assertIsNone(Journal(self.folder, 7).header)

    def test_the_header(self):
        after = " strict multiple on a.host polls 00000002 05 000000000000000a"
        header = self.journal(journal(0, 3, "barrier 0", "o", "Open MPI 4.1" + after)).header
        self.assertEqual(
            (header.ranks, header.is_inside, header.is_strict, header.is_multiple), (3, False, True, True)
        )
        self.assertEqual((header.host, header.polls), (b"a.host", ("MPI_Iprobe", 2, 10)))
        header = self.journal(journal(0, 3, "barrier 0", "i", "a library")).header
        self.assertEqual(
            (header.is_inside, header.is_strict, header.is_multiple, header.polls), (True, False, False, None)
        )

    def test_lines_by_their_numbers_in_blocks(self):
        calls = [f"send 0 1 {tag}" for tag in range(2, 5000)]
        found = self.journal(journal(0, 1, " / ".join(calls)))
        for block in (1, 7, 100, 1 << 20):
            with mock.patch("companions.journals.BLOCK", block):
                lines = found.calls([2, 2, 77, 4999, 5000, 9999])
            tags = {number: entry.fields[2] for number, entry in lines.items()}
            self.assertEqual(tags, {2: "2", 77: "77", 4999: "4999"})

    def test_the_last_call_before_many_reports(self):
        text = journal(0, 1, "barrier 0 / wait 1") + "=done 1 2 3\n" * 20_000
        self.assertEqual(self.journal(text).last.word, "wait")

    def test_requests_that_nothing_completed(self):
        calls = "isend 1 0 1 0 / irecv 2 0 1 0 / irecv 3 0 1 1 / iprobe 0 1 1 / wait 1 / waitany 2 3 / =chose 3 / imrecv 4 9"
        self.assertEqual(
            [entry.fields[0] for entry in self.journal(journal(0, 1, calls)).open_requests()], ["2"]
        )

    def test_communicators(self):
        calls = "comm_dup 0 @3 / =done 9 1 1 / =comm 2 0 1 / comm_idup 7 0 @4 / wait 7 / =idup 3 7 1 0 / =apart 4 0"
        found = self.journal(journal(0, 2, calls))
        members, maker, _ = found.made(2)
        self.assertEqual((members, maker.word, maker.site), ((0, 1), "comm_dup", 3))
        members, maker, _ = found.made(3)
        self.assertEqual((members, maker.word, maker.site), ((1, 0), "comm_idup", 4))
        self.assertEqual(found.made(4), ((0,), None, 0))
        self.assertEqual(found.made(5), ((), None, 0))

    def test_sites_and_words_to_the_end_of_the_line(self):
        found = Call(None, 0, "isend 4 0 1 5 8 @77")
        self.assertEqual((found.word, found.fields, found.site), ("isend", ["4", "0", "1", "5", "8"], 77))
        found = Call(None, 0, "stopped a file @9 is gone")
        self.assertEqual(
            (found.word, found.fields, found.site), ("stopped", ["a", "file", "@9", "is", "gone"], 0)
        )

    def test_names(self):
        self.write("names0", b"2 left\n3 \\x0a\\x5c\xff\n2 right one\n")
        found = Journal(self.folder, 0)
        self.assertEqual([found.name(comm) for comm in (0, 2, 3)], [None, "right one", "\n\\\udcff"])
        self.assertEqual(unescaped("a\\x09b"), "a\tb")

    def test_ranks_without_journals(self):
        self.write("journal1", journal(1, 4, "barrier 0"))
        self.assertEqual(
            [one.header is not None for one in journals_in(self.folder)], [False, True, False, False]
        )


class Speed(Folders):
    def test_many_findings(self):
        many = 100_000
        self.write(
            "journal0",
            journal(0, 2, " / ".join(["bsend 0 1 4 @1", "ibsend 1 0 1 5 @2"] * (many // 2) + ["finalize"])),
        )
        self.write("journal1", journal(1, 2, "finalize"))
        self.write("sites0", "1\t/a.py:1\n2\t/a.py:2\n")
        report = {"causes": [], "ranks": [], "left": [], "verdict": "free",
                  "lines": [[0, at, at + 2] for at in range(many)],
                  "findings": [f"unreceived 0 {at}" for at in range(many)]}  # fmt: skip
        began = time.process_time()
        lines = finding_lines(View(Run(self.folder), report))
        self.assertLess(time.process_time() - began, 6)  # 1 second on a machine without other work
        self.assertEqual(len(lines), 2)
        self.assertTrue(
            lines[0].endswith("MPI_Bsend at /a.py:1 to rank 1 with tag 4 (49,999 more alike)"), lines
        )

    def test_many_findings_on_many_communicators(self):
        many = 4_095
        made = " / ".join(f"comm_dup 0 @3 / =comm {comm} 0 1" for comm in range(2, many + 2))
        calls = [" / ".join(f"bcast {comm} {root} @1" for comm in range(2, many + 2)) for root in (0, 1)]
        self.run_of(*[f"{made} / {one} / finalize" for one in calls])
        report = {"causes": [], "ranks": [], "left": [], "verdict": "free",
                  "lines": [[rank, many + at, 2 * many + at + 2] for rank in (0, 1) for at in range(many)],
                  "findings": [f"root {comm} 0 1 0 1" for comm in range(1, many + 1)],
                  "finding_calls": [[[0, many + at], [1, many + at]] for at in range(many)]}  # fmt: skip
        for rank in (0, 1):
            self.write(f"journal/sites{rank}", "1\t/a.py:1\n3\t/a.py:3\n")
        began = time.process_time()
        lines = difference_lines(disagreements(View(Run(self.folder / "journal"), report)))
        self.assertLess(time.process_time() - began, 4)  # half a second on a machine without other work
        self.assertEqual(lines, ["the 1st collective on the communicator of /a.py:3 (4,094 more alike):",
                                 "    rank 0: MPI_Bcast at /a.py:1 with root 0", "    rank 1: MPI_Bcast at /a.py:1 with root 1",
                                 "MPI requires the same root on all ranks."])  # fmt: skip

    def test_many_sends_that_nobody_receives_and_many_ranks_that_wait(self):
        ranks, many = 1000, 100_000
        sends = " / ".join(f"bsend 0 {1 + at % (ranks - 1)} 4 @1" for at in range(many))
        self.run_of(f"{sends} / finalize", *["recv 0 0 5 @2"] * (ranks - 1))
        report = {"causes": [], "left": [], "verdict": "hang",
                  "ranks": [{"rank": rank, "at": 0, "needs": [[0, None]]} for rank in range(1, ranks)],
                  "lines": [[0, at, at + 2] for at in range(many)] + [[rank, 0, 2] for rank in range(1, ranks)],
                  "findings": [f"unreceived 0 {at}" for at in range(many)]}  # fmt: skip
        began = time.process_time()
        view = View(Run(self.folder / "journal"), report)
        lines = [line for one in view.stuck.values() for line in near_misses(one)]
        self.assertLess(time.process_time() - began, 20)  # 2 seconds on a machine without other work
        self.assertEqual(len(lines), 3 * (ranks - 1))

    def test_a_report_of_few_lines_of_a_long_journal(self):
        text = journal(0, 1, "barrier 0") + "send 0 0 1 4 @1\n" * 1_000_000
        self.write("journal0", text)
        found = Journal(self.folder, 0)
        began = time.process_time()
        self.assertEqual(found.calls([900_000])[900_000].word, "send")
        self.assertEqual(found.last.word, "send")
        self.assertLess(time.process_time() - began, 1)


COUNTING = """\
#include "journal.h"
#include <stdio.h>

bool in_doubt, in_counted;
static char text[1 << 14];
int create_text(const char *folder, const char *name, int rank) { return (void)folder, (void)name, rank; }
char *map_text(int file, long start, unsigned long size) { return file + start + size ? text : NULL; }

int main(void) {
    counts_open("", 99);
    left_out(WAITS, "MPI_Win_wait");
    left_out(NOTHING, "MPI_Test");
    left_out(PARTNERS, "calls of others");
    puts(text);
    left_out(WAITS, "MPI_Put");
    puts(text);
    counts_came_back();
    counts_came_back();
    left_out(PARTNERS, "calls of others");
    puts(text);
    left_out(WAITS, "MPI_Win_wait");
    puts(text);
}
"""


class Counts(Folders):
    """What the recorder writes of calls that have no line."""

    def test_the_call_that_a_rank_is_in(self):
        if not shutil.which("gcc"):
            self.skipTest("there is no gcc")
        self.write("a.c", COUNTING)
        words = ["gcc", "-std=gnu11", "-Wall", "-Wextra", "-Werror", "-I", TOOLS / "record", "-o", "a", "a.c"]
        subprocess.run([*words, TOOLS / "record/counts.c", "-lpthread"], cwd=self.folder, check=True)
        said = subprocess.run([self.folder / "a"], capture_output=True, text=True, check=True).stdout
        parts = (text.split("\n") for text in said[:-2].split("\n\n"))
        texts = [[(line[0], int(line[2:14]), line[15:]) for line in part] for part in parts]
        wait, test, others, put = "MPI_Win_wait", "MPI_Test", "calls of others", "MPI_Put"
        self.assertEqual(texts, [
            [("w", 1, wait), ("N", 1, test), ("P", 1, others)],
            [("W", 1, wait), ("N", 1, test), ("P", 1, others), ("w", 1, put)],
            [("W", 1, wait), ("N", 1, test), ("P", 2, others), ("W", 1, put)],
            [("w", 2, wait), ("N", 1, test), ("P", 2, others), ("W", 1, put)],
        ])  # fmt: skip


PROGRAM = """\
#include <stdio.h>
static inline __attribute__((always_inline)) void inner(void) {
    puts("");
}
void outer(void) {
    inner();
}
int main(void) {
    outer();
    return 0;
}
"""


class Places(Folders):
    def found(self, said, frame="/lib/x.so+0x20"):
        with mock.patch(
            "subprocess.run", return_value=mock.Mock(stdout=said.encode("utf-8", "surrogateescape"))
        ):
            journals = [mock.Mock(sites=lambda: {1: [frame]})]
            return places.Places(journals).where(0, 1)

    def test_a_line(self):
        self.assertEqual(
            self.found("0x000000000000001f\nmain\n/src/a (b).c:12 (discriminator 3)\n"), "/src/a (b).c:12"
        )

    def test_inlined_callers(self):
        said = "0x1f\nsend\n/usr/include/w.hpp:3\nexchange\n/src/a.cpp:36\n"
        self.assertEqual(self.found(said), "/usr/include/w.hpp:3, called from /src/a.cpp:36")

    def test_several_frames(self):
        said = "0x1f\nsend\n/src/a.cpp:3\n0x2f\nexchange\n/src/a.cpp:36\n"
        with mock.patch("subprocess.run", return_value=mock.Mock(stdout=said.encode())):
            found = places.Places([mock.Mock(sites=lambda: {1: ["/x+0x20", "/x+0x30"]})])
            self.assertEqual(found.where(0, 1), "/src/a.cpp:3, called from exchange at /src/a.cpp:36")

    def test_one_process_for_each_module(self):
        frames = {site: [f"/x{site % 2}+0x{site:x}"] for site in range(1, 100)}
        with mock.patch("subprocess.run", return_value=mock.Mock(stdout=b"")) as run:
            found = places.Places([mock.Mock(sites=lambda: frames)])
            found.look_up([(0, site) for site in frames])
            self.assertEqual(found.where(0, 7), "x1+0x7")
        asked = [called.args[0] for called in run.call_args_list]
        self.assertEqual(sorted(words[0] for words in asked), ["addr2line"] * 2 + ["nm"] * 4)  # with -D too

    def test_no_line(self):
        """The nearest symbol needn't be that of the function; one that contains the place is."""
        self.assertEqual(self.found("0x1f\nsolve(int)\n??:0\n"), "x.so+0x20")
        self.assertEqual(self.found("10 10 T solve(int)\n"), "solve(int) (x.so+0x20)")
        self.assertEqual(self.found("0x1f\n??\n??:0\n"), "x.so+0x20")
        self.assertEqual(self.found("", "/lib/z\n.so+0x20"), "z\\n.so+0x20")

    def test_a_frame_without_an_address(self):
        """As recorders up to 2026-11 wrote it of the place above the first function."""
        self.assertEqual(self.found("", "?+(nil)"), "?+(nil)")

    def test_python(self):
        self.assertEqual(self.found("", "/src/a.py:3"), "/src/a.py:3")
        self.assertEqual(self.found("", f"{os.getcwd()}/a.py:3"), "a.py:3")
        self.assertEqual(self.found("", "/c++0x/a.py:3"), "/c++0x/a.py:3")

    def test_bytes(self):
        self.assertEqual(places.printable("a\udcff\u2028\t\u00e9\\"), "a\\xff\\u2028\\t\u00e9\\")

    def test_a_program(self):
        if not shutil.which("gcc") or not shutil.which("addr2line"):
            self.skipTest("there is no gcc or no addr2line")
        self.write("a.c", PROGRAM)
        subprocess.run(["gcc", "-g", "-O1", "-o", "a", "a.c"], cwd=self.folder, check=True)
        listing = subprocess.run(
            ["objdump", "-d", "a"], cwd=self.folder, capture_output=True, text=True, check=True
        ).stdout
        body = listing[listing.index("<outer>:") :]
        lines = body.split("\n")
        call = next(place for place, line in enumerate(lines) if "puts@plt" in line)
        after = lines[call + 1].partition(":")[0].strip()
        frame = f"{self.folder}/a+0x{after}"
        where = places.Places([mock.Mock(sites=lambda: {1: [frame]})]).where(0, 1)
        self.assertEqual(where, f"{self.folder}/a.c:3, called from {self.folder}/a.c:6")

    def test_what_calls_main_is_left_out(self):
        said = "0x1f\nmain\n/src/a.c:9\n0x2f\n__libc_start_call_main\n./csu/libc-start.c:58\n"
        with mock.patch("subprocess.run", return_value=mock.Mock(stdout=said.encode())):
            found = places.Places([mock.Mock(sites=lambda: {1: ["/x+0x20", "/x+0x30"]})])
            self.assertEqual(found.where(0, 1), "/src/a.c:9")

    def test_what_calls_a_program_of_fortran_is_left_out(self):
        for name in ("ring", "main", "MAIN__"):
            said = f"0x1f\n{name}\n/src/ring.f90:14\nmain\n/src/ring.f90:3\n"
            self.assertEqual(self.found(said), "/src/ring.f90:14")
        said = "0x1f\nexchange\n/src/a.c:3\nmain\n/src/a.c:9\n"
        self.assertEqual(self.found(said), "/src/a.c:3, called from /src/a.c:9")


if __name__ == "__main__":
    unittest.main()
