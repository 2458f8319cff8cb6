"""The scripts of tools/compare, without MPI and without a network: what they read, and what they print."""

import importlib.machinery
import importlib.util
import json
import sys
from pathlib import Path
from types import ModuleType

from support import TOP, Folders

sys.path.append(str(TOP / "tools/compare"))
sys.dont_write_bytecode = True

import common  # noqa: E402


def script(name: str) -> ModuleType:
    """A script of tools/compare as a module."""
    path = str(TOP / "tools/compare" / name)
    loader = importlib.machinery.SourceFileLoader(name.replace("-", "_"), path)
    spec = importlib.util.spec_from_loader(loader.name, loader)
    assert spec
    module = importlib.util.module_from_spec(spec)
    loader.exec_module(module)
    return module


MBI, SUITE = script("mbi"), script("mpich-suite")
CODE = """/*
BEGIN_MBI_TESTS
  $ mpirun -np 3 ${EXE} 7
  | ERROR: CallMatching
  | Call mismatch
END_MBI_TESTS
*/
MPI_Barrier(c); /* MBIERROR1 */
MPI_Bcast(c);
MPI_Bcast(c); /* MBIERROR2 */
"""


class Answers(Folders):
    def test_statuses(self) -> None:
        def answer(status: int | None, *titles: str) -> str:
            sections = [{"title": title, "lines": []} for title in titles]
            return common.answer_of({"status": status, "report": {"sections": sections}})

        self.assertEqual([answer(status) for status in (0, 1, 5, 6, 7, 8, 4, None)],
                         ["free", "hang", "unfinished", "not judged", "calls differ", "failed", "status 4",
                          "no answer"])  # fmt: skip
        self.assertEqual(answer(0, "Findings, which change no verdict"), "finding")
        self.assertEqual(answer(0, "Warnings"), "finding")
        self.assertEqual(answer(0, "What this assumes"), "free")
        self.assertEqual(answer(1, "Findings, which change no verdict"), "hang")

    def test_lines_that_are_named(self) -> None:
        said = "waits in MPI_Send at one.c:12 .. at other-one.c:13, one.c:14"
        self.assertEqual(common.lines_named({"said": said}, "one.c"), {12, 13, 14})
        self.assertEqual(common.lines_named({"said": said}, "ne.c"), set())

    def test_calls_that_were_counted(self) -> None:
        (self.folder / "journal/1").mkdir(parents=True)
        (self.folder / "journal/left0").write_text("W 000000000001 MPI_Win_free\nN 000000000002 MPI_Test\n\0\0")
        (self.folder / "journal/1/left1").write_text("P 000000000001 MPI_Mrecv\nw 000000000003 MPI_Win_free\n")
        self.assertEqual(common.counted_in(self.folder), ["MPI_Mrecv", "MPI_Win_free"])

    def test_what_is_missing(self) -> None:
        common.need("sh")
        with self.assertRaisesRegex(common.Stopped, "there is no no-such-command: "):
            common.need("sh", "no-such-command")

    def test_some_of_all(self) -> None:
        names = [str(number) for number in range(10)]
        self.assertEqual(common.some_of(names, None), names)
        self.assertEqual(common.some_of(names, 3), ["0", "3", "6"])
        self.assertEqual(common.some_of(names, 20), names)

    def test_a_run_that_was_ended_is_taken_up(self) -> None:
        ran: list[str] = []

        def run(name: str, place: Path) -> common.Result:
            self.assertTrue(place.is_dir())
            ran.append(name)
            return {"answer": name.upper()}

        common.run_all(["a/b"], run, self.folder, 2)
        results = common.run_all(["c", "a/b"], run, self.folder, 2)
        self.assertEqual(results, {"c": {"answer": "C"}, "a/b": {"answer": "A/B"}})
        self.assertEqual(ran, ["a/b", "c"])
        self.assertEqual(json.loads((self.folder / "results/a+b.json").read_text()), {"answer": "A/B"})

    def test_a_command_that_does_not_end(self) -> None:
        self.assertEqual(common.run_within(["sh", "-c", "echo said; exit 3"], 9, self.folder), (3, "said\n"))
        self.assertEqual(common.run_within(["sh", "-c", "echo said; sleep 60"], 0.5, self.folder), (None, "said\n"))

    def test_tables_in_a_document(self) -> None:
        text = "a\n<!-- x -->\nold\n<!-- end of x -->\nb\n"
        self.assertEqual(common.put_into(text, "x", "new\n"), "a\n<!-- x -->\nnew\n<!-- end of x -->\nb\n")
        with self.assertRaises(common.Stopped):
            common.put_into(text, "y", "new\n")
        self.assertEqual(common.table(["a", "b"], [["1", "."]]), "| a | b |\n|---|---|\n| 1 | . |")

    def test_the_document_has_a_part_for_each_script(self) -> None:
        text = (TOP / "docs/COMPARED.md").read_text()
        for name in ("mbi", "mpich-suite"):
            common.put_into(text, f"tools/compare/{name}", "")


class Mbi(Folders):
    def test_a_program(self) -> None:
        self.write("one.c", CODE)
        code = MBI.Code(self.folder / "one.c")
        self.assertEqual((code.label, code.lines), ("CallMatching", {8, 10}))
        self.assertEqual(code.launch(Path("/a b/c")), ["mpirun.mpich", "-np", "3", "/a b/c", "7"])
        self.write("two.c", CODE.replace("ERROR: CallMatching", "OK"))
        self.assertEqual(MBI.Code(self.folder / "two.c").label, "OK")
        self.write("none.c", "")
        with self.assertRaises(common.Stopped):
            MBI.Code(self.folder / "none.c")

    def test_rows(self) -> None:
        for name, label in (("one", "ERROR: CallMatching"), ("two", "ERROR: CallMatching"), ("three", "OK")):
            self.write(f"{name}.c", CODE.replace("ERROR: CallMatching", label))
        codes = {name: MBI.Code(self.folder / f"{name}.c") for name in ("one", "two", "three")}
        results = {"one": {"answer": "hang", "named": [8]}, "two": {"answer": "not built"},
                   "three": {"answer": "free"}}  # fmt: skip
        self.assertEqual(MBI.rows_of(codes, results), [
            ["call ordering", "2", "1", ".", ".", ".", ".", ".", ".", "1", "1 of 1"],
            ["correct", "1", ".", ".", ".", ".", ".", ".", "1", ".", "."]])  # fmt: skip


class Suite(Folders):
    def test_lines_of_a_list(self) -> None:
        test = SUITE.test_of("pt2pt", "one 4 arg=-a=1 env=X=2 arg=b timeLimit=9 # why")
        self.assertEqual(test, SUITE.Test("pt2pt", "one", 4, ["-a=1", "b"], ["X=2"]))
        self.assertEqual(SUITE.test_of("pt2pt", "one").ranks, 2)
        for line in ("", "# one 4", "!dir:target", "one 4 xfail=ticket", "one 4 resultTest=TestErr"):
            self.assertIsNone(SUITE.test_of("pt2pt", line))

    def test_lists(self) -> None:
        """Each program once; a list that was made comes first, and folders are none."""
        for name, text in (("src/a/testlist", "one 2\n"), ("built/a/testlist", "one 4\none 5\nb\n"),
                           ("src/c/testlist", "two 1\n"), ("src/perf/testlist", "three 1\n")):  # fmt: skip
            (self.folder / name).parent.mkdir(parents=True, exist_ok=True)
            self.write(name, text)
        (self.folder / "src/a/b").mkdir()
        tests = SUITE.tests_in(self.folder / "src", self.folder / "built")
        self.assertEqual({name: test.ranks for name, test in tests.items()}, {"a/one": 4, "c/two": 1})

    def test_what_passes(self) -> None:
        self.assertTrue(SUITE.passes(0, "x\n  No Errors\n"))
        self.assertFalse(SUITE.passes(1, " No Errors\n"))
        self.assertFalse(SUITE.passes(0, "Found 3 errors\n"))
        self.assertFalse(SUITE.passes(None, " No Errors\n"))

    def test_families_of_calls(self) -> None:
        for call, family in (("MPI_Win_free", "one-sided"), ("MPI_Rput", "one-sided"), ("MPI_File_open", "files"),
                             ("MPI_Comm_spawn", "spawned processes, ports"),
                             ("MPI_Intercomm_create", "intercommunicators"),
                             ("MPI_Ineighbor_alltoall", "neighbourhood collectives"),
                             ("MPI_Bcast_init", "persistent collectives, partitioned"),
                             ("MPI_Grequest_start", "MPI_Grequest_start"),
                             ("waits and tests for requests of calls that aren't recorded", None)):  # fmt: skip
            self.assertEqual(SUITE.family_of(call), family, call)

    def test_rows(self) -> None:
        results = {"a/one": {"answer": "free", "counted": ["MPI_Win_free", "MPI_Put"]},
                   "b/two": {"answer": "status 2", "counted": ["MPI_Put", "MPI_File_open"]}}  # fmt: skip
        self.assertEqual(SUITE.counted_rows(results), [["one-sided", "2", "1"], ["files", "1", "."]])
        dots = ["."] * 8
        self.assertEqual(SUITE.folder_rows(results), [
            ["a", "1", "1", *dots, "."], ["b", "1", ".", *dots, "1"], ["all", "2", "1", *dots, "1"]])  # fmt: skip


if __name__ == "__main__":
    import unittest

    unittest.main()
