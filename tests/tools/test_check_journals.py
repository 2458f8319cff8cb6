"""The faults of journals, each with its code."""

import unittest

from support import TOP, Folders, journal, script
from reference.journal_faults import WORDS as ALL_WORDS
from reference.journal_faults import Fault, check, lines_of

CHECK_JOURNALS = script("check-journals", TOP / "bench")

# Calls of rank 0 of two ranks, and the line and the code of their first fault.
FAULTS = {
    "foo": (2, "J2"),
    " barrier 0": (2, "J2"),
    "Barrier 0": (2, "J2"),
    "init 3": (2, "J3"),
    "barrier 0 0": (2, "J3"),
    "send 0 1": (2, "J3"),
    "ssend 0 1 0 4": (2, "J3"),
    "wait": (2, "J3"),
    "recv 0 any 0 / =got 1 0 @3": (3, "J3"),
    "send  0 1 0": (2, "J4"),
    "barrier 00": (2, "J4"),
    "send 0 -0 0": (2, "J4"),
    "send 0 any 0": (2, "J4"),
    "send 0 1 2147483648": (2, "J4"),
    "iprobe 0 any 3": (2, "J4"),
    "bcast 0 null": (2, "J4"),
    "isend 0 0 1 0": (2, "J4"),
    "barrier 0 @0": (2, "J4"),
    "comm_create_group 0 2": (2, "J4"),
    "comm_split 0 null 0": (2, "J4"),
    "recv 0 any any / =got any 0": (3, "J4"),
    "finalize / barrier 0": (3, "J5"),
    "exit / =gone 1": (3, "J5"),
    "stopped " + "w" * 32760: (2, "J6"),
    "=got 1 0": (2, "J7"),
    "=failed": (2, "J7"),
    "send 0 1 0 / =got 1 0": (3, "J7"),
    "irecv 1 0 any 0 / =got 1 0": (3, "J7"),
    "recv 0 any 0 / =got 1 0 / =got 1 0": (4, "J7"),
    "comm_dup 0 / =none / =comm 2 0 1": (4, "J7"),
    "comm_split 0 undefined 0 / =comm 2 0": (3, "J7"),
    "irecv 1 0 1 0 / =done 1 1 0": (3, "J7"),
    "irecv 1 0 any 0 / =done 1 1 0 / =done 1 1 0": (4, "J7"),
    "isend 1 0 1 0 / =gone 1": (3, "J7"),
    "isend 1 0 1 0 / cancel 1 / =kept 1 / =gone 1": (5, "J7"),
    "irecv 1 0 1 0 / irecv 2 0 1 1 / waitany 1 2 / =chose 1 2": (5, "J7"),
    "irecv 1 0 1 0 / irecv 2 0 1 1 / irecv 3 0 1 2 / waitsome 1 2 / =chose 3": (6, "J7"),
    "comm_idup 1 0 / wait 1 / barrier 0 / =idup 2 1 0 1": (5, "J7"),
    "barrier 0 / =failed / =failed": (4, "J7"),
    "abort / =failed": (3, "J7"),
    "wait 3": (2, "J8"),
    "irecv 1 0 1 0 / irecv 1 0 1 0": (3, "J8"),
    "irecv 1 0 1 0 / wait 1 / wait 1": (4, "J8"),
    "irecv 1 0 1 0 / request_free 1 / wait 1": (4, "J8"),
    "irecv 1 0 1 0 / wait 1 1": (3, "J8"),
    "isendrecv 1 1 0 1 0 1 0": (2, "J8"),
    "mprobe 1 0 1 0 / wait 1": (3, "J8"),
    "irecv 1 0 1 0 / mrecv 1": (3, "J8"),
    "mprobe 1 0 1 0 / mrecv 1 / imrecv 2 1": (4, "J8"),
    "=done 2 1 0": (2, "J8"),
    "barrier 2": (2, "J9"),
    "comm_dup 0 / =comm 1 0 1": (3, "J9"),
    "=apart 7 0 / =apart 7 0": (3, "J9"),
    "comm_create_group 1": (2, "J10"),
    "comm_create_group 0 0": (2, "J10"),
    "=apart 2 1": (2, "J10"),
    "comm_make 1 / =comm 2 0 1": (3, "J10"),
    "comm_create_group 0 1 / =comm 2 1 0": (3, "J10"),
    # The first that one line has.
    "comm_dup 0 / =comm 0 1 1": (3, "J9"),
    "isend 1 9 1 0": (2, "J9"),
    "irecv 1 0 1 0 / isend 1 9 1 0": (3, "J8"),
    "finalize / barrier x": (3, "J4"),
}

RIGHT = [
    "",
    "init @1 / send 0 1 3 7 @2147483647 / send 0 null -1 @9 / finalize @3",
    "stopped / barrier 0 / abort / full / finalize",
    "stopped a  call @0 answered",
    "irecv 1 0 any 0 / wait 1 / full / =done 1 1 4",
    "isend 1 0 0 3 / wait 1 / =failed / wait 1 / finalize",
    "comm_idup 1 0 / irecv 2 0 1 0 / waitsome 2 1 / =chose 1 / =idup 3 1 0 1 / barrier 3",
    "comm_create_group 1 0 / =comm 2 1 0 / barrier 2 / comm_free 2",
    "improbe 4 0 0 3 / imrecv 7 4 / cancel 7 / wait 7 / =kept 7",
    "isendrecv 1 2 0 null 0 any any / =done 2 1 0 / waitany 1 / =chose 1 / wait 2 / exit",
]

WORDS = {
    "J1": "header", "J2": "unknown word", "J3": "number of fields", "J4": "field out of form or range",
    "J5": "line behind the end", "J6": "line too long", "J7": "told line out of place", "J8": "request",
    "J9": "communicator", "J10": "group", "J11": "cut",
}  # fmt: skip
HEADERS = [
    "", "journal 1 0 1 x i y\n", "journal 2 0 0 x i y\n", "journal 2 0 1025 x i y\n",
    "journal 2 00 1 x i y\n", "journal 2 0 1  i y\n", "journal 2 0 1 x i\n", "journal 2 0 1 x I y\n",
    "journal 2 1 2 x i y\n",
    "journal 2 0 1 x i y",
]  # fmt: skip


class Faults(Folders):
    def said(self):
        return [f"rank {rank} {fault}" for rank, fault in CHECK_JOURNALS.faults_in(self.folder)]

    def first_fault(self, calls):
        try:
            check(lines_of(journal(0, 2, calls).encode()), 0, 2)
        except Fault as fault:
            return fault.args
        return None

    def test_each_code(self):
        for calls, fault in FAULTS.items():
            with self.subTest(calls[:60]):
                self.assertEqual(self.first_fault(calls), fault)

    def test_right_ones(self):
        for calls in RIGHT:
            with self.subTest(calls):
                self.assertIsNone(self.first_fault(calls))

    def test_headers(self):
        for header in HEADERS:
            with self.subTest(header):
                self.write("journal0", header)
                self.assertEqual(self.said(), ["rank 0 line 1 J1 header"])

    def test_all_ranks(self):
        self.write("journal0", journal(0, 4, "foo"))
        self.write("journal1", journal(1, 4, "barrier 0"))
        self.write("journal2", journal(1, 4, ""))
        self.write("journal3", journal(3, 4, "barrier 0 / =failed / barrier 2"))
        said = "refused rank 0 line 2 J2 unknown word\nrefused rank 2 line 1 J1 header\n"
        said += "refused rank 3 line 4 J9 communicator\n"
        done = self.command("../bench/check-journals", self.folder)
        self.assertEqual((done.returncode, done.stdout, done.stderr), (2, said, ""))

    def test_the_words_of_the_codes(self):
        self.assertEqual(ALL_WORDS, WORDS)

    def test_ranks_of_another_run_or_without_a_journal(self):
        self.write("journal0", journal(0, 3, "finalize"))
        self.assertEqual(self.said(), [])
        self.write("journal2", "journal 2 2 3 another i y\n")
        self.assertEqual(self.said(), ["rank 2 line 1 J1 header"])

    def test_a_folder_without_journals(self):
        done = self.command("../bench/check-journals", self.folder)
        self.assertEqual((done.returncode, done.stdout), (4, ""))
        self.assertIn("journal0", done.stderr)
        self.assertEqual(self.command("../bench/check-journals").returncode, 3)


if __name__ == "__main__":
    unittest.main()
