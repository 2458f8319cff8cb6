"""The report as JSON, SARIF, JUnit's XML, a page and a picture: each by its own rules."""

import json
import os
import re
import unittest
import xml.etree.ElementTree as XML
from html.parser import HTMLParser
from unittest import mock

from support import BOTH, Folders
from companions import outputs
from companions.outputs import numbered

# What JUnit's schema allows: attributes of each element, those that it requires, and its children.
JUNIT = {
    "testsuite": ({"name", "tests", "failures", "errors", "skipped", "time"}, {"name", "tests", "failures", "errors"},
                  {"testcase"}),
    "testcase": ({"classname", "name", "time"}, {"classname", "name"}, {"failure", "error", "skipped"}),
    "failure": ({"type", "message"}, {"type"}, set()), "error": ({"type", "message"}, {"type"}, set()),
    "skipped": ({"message"}, set(), set()),
}  # fmt: skip
LEVELS = {"none", "note", "warning", "error"}


class JUnit(Folders):
    def cases(self, *statuses, title="a title", text="a text"):
        reports = [mock.Mock(title=title, text=text, status=status, seconds=1.5) for status in statuses]
        for place, one in enumerate(reports):
            one.name = f"run {place}"
        return outputs.as_junit(reports)

    def check(self, element):
        """By the rules of the schema."""
        allowed, required, children = JUNIT[element.tag]
        self.assertLessEqual(set(element.attrib), allowed)
        self.assertLessEqual(required, set(element.attrib))
        for child in element:
            self.assertIn(child.tag, children)
            self.check(child)

    def test_the_schema_and_its_counts(self):
        root = XML.fromstring(self.cases(*range(9)).encode())
        self.check(root)
        counts = {name: int(root.get(name)) for name in ("tests", "failures", "errors", "skipped")}
        self.assertEqual(counts, {"tests": 9, "failures": 3, "errors": 3, "skipped": 2})
        self.assertEqual(len(root.findall("*/failure")), 3)
        self.assertTrue(all(len(case) <= 1 for case in root))

    def test_the_outcome_of_each_status(self):
        wanted = [None, "failure", "error", "error", "error", "skipped", "skipped", "failure", "failure"]
        root = XML.fromstring(self.cases(*range(9)).encode())
        self.assertEqual([case[0].tag if len(case) else None for case in root], wanted)

    def test_cause_and_line(self):
        found = self.judged(*BOTH)
        root = XML.fromstring(outputs.as_junit([found]).encode())
        failure = root.find("testcase/failure")
        self.assertEqual(failure.get("message"), "verdict hang: 2 of 2 ranks wait")
        self.assertIn("rank 0 waits in MPI_Send at /a.py:7 to rank 1", failure.text)

    def test_collectives_that_differ(self):
        found = self.judged("gather 0 0 @1", "gather 0 1 @2")
        failure = XML.fromstring(outputs.as_junit([found]).encode()).find("testcase/failure")
        error = "error: the ranks disagree on the root of MPI_Gather on MPI_COMM_WORLD, and the run hung"
        self.assertEqual((failure.get("message"), failure.get("type")), (error, "different"))
        self.assertIn("rank 1: MPI_Gather at /a.py:2 with root 1", failure.text)

    def test_any_character(self):
        text = '\x01\x0b a <b> & "c" ]]> \udcff \ufffe'
        root = XML.fromstring(self.cases(1, title=text, text=text).encode())
        self.assertEqual(root.find("testcase/failure").text, ' a <b> & "c" ]]>  ')


class Sarif(Folders):
    def check(self, log):
        """By the rules of the schema, as far as these logs go."""
        self.assertEqual(log["version"], "2.1.0")
        self.assertLessEqual(set(log), {"$schema", "version", "runs"})
        for run in log["runs"]:
            rules = {rule["id"] for rule in run["tool"]["driver"]["rules"]}
            self.assertTrue(run["tool"]["driver"]["name"])
            for result in run["results"]:
                self.assertLessEqual({"message"}, set(result))
                self.assertLessEqual(set(result), {"ruleId", "level", "message", "locations"})
                self.assertIn(result["ruleId"], rules)
                self.assertIn(result["level"], LEVELS)
                self.assertTrue(result["message"]["text"])
                for place in result.get("locations", []):
                    physical = place["physicalLocation"]
                    self.assertRegex(physical["artifactLocation"]["uri"], r"^[A-Za-z0-9%._~:/+@=-]+$")
                    self.assertGreaterEqual(physical["region"]["startLine"], 1)

    def log(self, *ranks, **words):
        self.again()
        log = json.loads(outputs.as_sarif([self.judged(*ranks, **words)]))
        self.check(log)
        return log["runs"][0]["results"]

    def test_each_stuck_call_is_a_result(self):
        found = self.log(*BOTH)
        self.assertEqual([one["ruleId"] for one in found], ["hang", "hang"])
        place = found[0]["locations"][0]["physicalLocation"]
        self.assertEqual(
            (place["artifactLocation"]["uri"], place["region"]), ("file:///a.py", {"startLine": 7})
        )
        self.assertTrue(found[0]["message"]["text"].startswith("rank 0 waits in MPI_Send at /a.py:7"))

    def test_others(self):
        self.assertEqual(self.log("finalize"), [])
        found = self.log("bcast 0 0 @1 / finalize", "reduce 0 0 @2 / finalize")
        self.assertEqual([(one["ruleId"], one["level"]) for one in found], [("different-calls", "error")])
        self.assertEqual(found[0]["message"]["text"].split("\n")[:3], [
            "error: the ranks call different collectives on MPI_COMM_WORLD", "the 1st collective on MPI_COMM_WORLD:",
            "rank 0: MPI_Bcast at /a.py:1",
        ])  # fmt: skip
        place = found[0]["locations"][0]["physicalLocation"]
        self.assertEqual((place["artifactLocation"]["uri"], place["region"]), ("file:///a.py", {"startLine": 1}))

    def test_any_byte_in_a_name(self):
        sites = b"".join(b"%d\t/a \\x09\xff#?\xc3\xa9.py:7\n" % line for line in (7, 8))
        place = self.log(*BOTH, sites=sites)[0]["locations"][0]["physicalLocation"]
        self.assertEqual(place["artifactLocation"]["uri"], "file:///a%20%09%FF%23%3F%C3%A9.py")

    def test_below_this_folder(self):
        self.assertEqual(outputs.uri_of(os.path.join(os.getcwd(), "a b.c")), "a%20b.c")

    def test_a_run_that_is_not_judged_is_no_clean_one(self):
        """The words are those of the report, and the status of all is that of the worst."""
        unmatched = "P 000000000003 calls of another thread\n"
        for ranks, more, status, level, words in (
            (BOTH, {}, 1, None, None),
            (["finalize"], {}, 0, None, None),
            (["wait 3 / finalize"], {}, 2, "error", "refused rank 0 line 2 J8 request"),
            (BOTH, {"faults": ["judge"]}, 4, "error", "out of memory"),
            (BOTH, {"faults": ["--eager=2147483647"]}, 1, None, None),
            (["barrier 0 @1"] * 2, {}, 5, "warning", "verdict unfinished: "),
            (BOTH, {"left": unmatched}, 6, "warning", "not judged: recorded calls may match 3 calls"),
        ):  # fmt: skip
            with self.subTest(status=status):
                self.again()
                self.run_of(*ranks)
                self.write("journal/left0", more.pop("left", ""))
                story = self.judged(*ranks, **more)
                called = json.loads(outputs.as_sarif([story]))["runs"][0]["invocations"][0]
                said = [(one["level"], one["message"]["text"][: len(words)]) for one in called["toolExecutionNotifications"]]
                self.assertEqual(story.status, status)
                self.assertEqual((called["executionSuccessful"], said), (not level, [(level, words)] if level else []))


class AsJson(Folders):
    def json(self, *ranks, **words):
        return json.loads(outputs.as_json(self.judged(*ranks, **words)))

    def test_a_hang(self):
        said = self.json(*BOTH)
        self.assertEqual((said["verdict"], said["status"]), ("hang", 1))
        self.assertEqual(said["verdicts"], {"strict": "hang", "buffered": "free"})
        first = said["ranks"][0]
        self.assertEqual(
            (first["rank"], first["mpi"], first["where"], first["held"]), (0, "MPI_Send", "/a.py:7", True)
        )
        self.assertEqual((first["file"], first["code"]), ("/a.py", 7))
        self.assertEqual(first["waits"][0]["call"]["where"], "/a.py:8")

    def test_doubts(self):
        self.run_of(*BOTH)
        self.write("journal/left0", "P 000000000003 calls of another thread\n")
        said = self.json(*BOTH)
        self.assertEqual((said["verdict"], said["status"], said["verdicts"]["strict"]), (None, 6, "hang"))

    def test_polls(self):
        after = {1: " polls {:08x} {:02x} {:016x}".format(2, 1, 1234)}
        said = self.json("barrier 0 @1", "barrier 0 @1", state="o", after=after)
        self.assertEqual(said["polls"], [{"rank": 1, "mpi": "MPI_Test", "where": "/a.py:2", "count": 1234}])

    def test_a_refusal(self):
        said = self.json("wait 3 / finalize")
        self.assertEqual((said["verdict"], said["status"], said["ranks"]), (None, 2, []))


class Page(Folders):
    def test_a_picture_in_mpi_words(self):
        graph = "\n".join(outputs.dot_of(self.judged(*BOTH)))
        self.assertIn(r'label="rank 0\nMPI_Send at /a.py:7\nto rank 1 with tag 0"', graph)
        self.assertIn('"rank 0" -> "rank 1" [label=" MPI_Recv at /a.py:8 "', graph)
        self.assertIn('URL="#rank-0"', graph)

    def test_a_cycle_of_missing_calls(self):
        graph = "\n".join(outputs.dot_of(self.judged("recv 0 1 0 @7", "recv 0 0 0 @7")))
        self.assertIn('"rank 0" -> "rank 1" [label=" send that rank 1 hasn\'t made so far "', graph)
        self.assertIn('"rank 1" -> "rank 0"', graph)
        self.assertNotIn("missing", graph)

    def test_what_nobody_makes(self):
        graph = "\n".join(outputs.dot_of(self.judged("recv 0 1 0 @7 / finalize", "finalize")))
        self.assertIn('"rank 0" -> "missing 1"', graph)

    def test_findings_are_in_the_text_alone(self):
        found = self.judged("bsend 0 1 4 @2 / recv 0 1 0 @7 / finalize", "finalize")
        self.assertNotIn("nobody receives", "\n".join(outputs.dot_of(found)))
        self.assertIn("nobody receives", outputs.as_html(found))

    def test_the_page_opens_on_the_cause_and_links_to_ranks(self):
        text = outputs.as_html(self.judged(*BOTH))
        self.assertLess(text.index("The cause"), text.index("Each rank"))
        self.assertEqual(re.findall("<details open><summary><b>(.*?)</b>", text), ["The cause"])
        anchors = set(re.findall('id="([^"]+)"', text))
        links = set(re.findall('href="#([^"]+)"', text))
        self.assertTrue({"rank-0", "rank-1"} <= links & anchors, links)
        self.assertLessEqual(links, anchors)

    def test_a_rank_that_waits_for_nobody_has_no_link(self):
        text = outputs.as_html(self.judged("recv 0 1 0 @7 / finalize", "finalize"))
        self.assertLessEqual(set(re.findall('href="#([^"]+)"', text)), set(re.findall('id="([^"]+)"', text)))
        HTMLParser().feed(text)

    def test_names_are_escaped(self):
        sites = b"7\t/src/<script>.py:7\n8\t/x.py:8\n"
        text = outputs.as_html(self.judged(*BOTH, sites=sites))
        self.assertNotIn("<script>.py", text)


class Names(unittest.TestCase):
    def test_of_several_runs(self):
        from pathlib import Path

        self.assertEqual(numbered(Path("a.b/page.html"), 2), Path("a.b/page-2.html"))
        self.assertEqual(numbered(Path("page"), 3), Path("page-3"))
        self.assertEqual(numbered(Path("page.html"), 1), Path("page.html"))


if __name__ == "__main__":
    unittest.main()
