"""The words, sentences and links of all documents of the repository. A unit test: no part of what is proved."""

import pathlib
import re
import subprocess
import unittest

TOP = pathlib.Path(__file__).resolve().parents[2]

# Words that a reader would have to learn first, and what to write in their place.
DIALECT = {
    r"behind": "after",
    r"beside": "in addition to",
    r"(?:want of memory|memory (?:is|was|were) wanted)": "out of memory",
    r"a beginning of": "a prefix of",
    r"(?:goes|went|go) again": "removed",
    r"anew": "again",
    r"ever new": "a new .. each time",
    r"(?:tells|told)": "says, reports, reported",
    r"stands": "is, has, positions",
}
WORDS_IN_A_SENTENCE = 40
LETTERS_IN_A_PARAGRAPH = 600
# Where a document is read, if that isn't its own folder: the one of a release lies at its top.
PLACES = {"release/README.md": TOP}

LINK = re.compile(r"!?\[([^\]]*)\]\(([^)\s]*)\)")


def documents():
    """The names of all documents that git knows or would take in; without git, of all that are there."""
    words = ["git", "ls-files", "--cached", "--others", "--exclude-standard", "*.md"]
    try:
        names = subprocess.run(words, cwd=TOP, check=True, capture_output=True, text=True).stdout.split("\n")
    except (OSError, subprocess.CalledProcessError):
        found = [path.relative_to(TOP) for path in TOP.rglob("*.md")]
        names = [str(path) for path in found if not {"out", ".git"} & set(path.parts)]
    return sorted({name for name in names if name and (TOP / name).is_file()})


def text_of(name):
    return (TOP / name).read_text(encoding="utf-8")


def without_blocks(text):
    """The text without fenced code, of which its lines stay empty."""
    kept, fence = [], None
    for line in text.split("\n"):
        mark = re.match(r"\s*(```+|~~~+)", line)
        if mark and fence is None:
            fence = mark[1]
            kept.append("")
        elif fence is not None:
            fence = None if line.strip() == fence else fence
            kept.append("")
        else:
            kept.append(line)
    return "\n".join(kept)


def paragraphs(text):
    """Each paragraph, list item, heading and cell of a table, as a reader sees it: a link is its text."""
    parts = []
    for line in without_blocks(text).split("\n"):
        shown = LINK.sub(r"\1", line)
        if shown.lstrip().startswith("|"):
            parts += [cell.strip() for cell in re.split(r"(?<!\\)\|", shown)] + [""]
        elif re.match(r"\s*([-*] |\d+\. |#)", shown):
            parts += ["", shown.strip()] + ([""] if shown.startswith("#") else [])
        elif shown.strip() and parts and parts[-1]:
            parts[-1] += " " + shown.strip()
        else:
            parts.append(shown.strip())
    return [part for part in parts if part]


def prose(paragraph):
    """A paragraph in which each piece of code is one word."""
    return re.sub(r"`+[^`]*`+", "CODE", paragraph).replace("**", "")


def sentences(paragraph):
    return re.split(r"(?<=[.!?])[\"')]?\s+(?=[\"'(]?[A-Z0-9\[])", prose(paragraph))


def anchors(text):
    """The anchors of a document's headings."""
    headings = re.findall(r"^#+ +(.*)$", without_blocks(text), re.M)
    plain = [LINK.sub(r"\1", heading).replace("`", "").lower() for heading in headings]
    return {re.sub(r"[^\w\- ]", "", heading).replace(" ", "-") for heading in plain}


def broken_links(name):
    """Each link of a document to a file or a heading that isn't there."""
    for _, target in LINK.findall(re.sub(r"`[^`\n]*`", "", without_blocks(text_of(name)))):
        path, _, anchor = target.partition("#")
        if re.match(r"[a-z]+:", target):
            continue
        file = PLACES.get(name, (TOP / name).parent) / path if path else TOP / name
        if not file.exists():
            yield f"{name}: there is no {target}"
        elif anchor and file.suffix == ".md" and anchor not in anchors(file.read_text(encoding="utf-8")):
            yield f"{name}: there is no heading for {target}"


class Documents(unittest.TestCase):
    def each(self, found):
        """Fails with all that was found, by a line each."""
        lines = list(found)
        if lines:
            self.fail("\n" + "\n".join(lines))

    def test_words(self):
        words = re.compile(rf"\b({'|'.join(DIALECT)})\b", re.I)
        self.each(
            f"{name}: {found[0]!r} in: {paragraph[:70]}"
            for name in documents()
            for paragraph in paragraphs(text_of(name))
            for found in words.finditer(prose(paragraph))
        )

    def test_sentences(self):
        self.each(
            f"{name}: {len(sentence.split())} words: {sentence[:90]}"
            for name in documents()
            for paragraph in paragraphs(text_of(name))
            for sentence in sentences(paragraph)
            if len(sentence.split()) > WORDS_IN_A_SENTENCE
        )

    def test_paragraphs(self):
        self.each(
            f"{name}: {len(paragraph)} letters: {paragraph[:90]}"
            for name in documents()
            for paragraph in paragraphs(text_of(name))
            if len(paragraph) > LETTERS_IN_A_PARAGRAPH
        )

    def test_what_no_report_speaks_of(self):
        item = next(one for one in paragraphs(text_of("tools/README.md")) if one.startswith("- Nothing is said of"))
        for what in ("datatypes and counts", "never freed", "other matches of a wildcard"):
            self.assertIn(what, item)

    def test_each_script_of_bench_says_its_words(self):
        for path in sorted((TOP / "bench").iterdir()):
            if path.is_file() and path.stat().st_mode & 0o100:
                done = subprocess.run([path, "--help"], check=False, capture_output=True, text=True)
                self.assertEqual((done.returncode, done.stderr, f"bench/{path.name} " in done.stdout or "usage:" in done.stdout),
                                 (0, "", True), path.name)  # fmt: skip

    def test_links(self):
        self.each(line for name in documents() for line in broken_links(name))


class Checks(unittest.TestCase):
    """The checks themselves, on texts in which something is wrong."""

    def test_code_counts_for_nothing(self):
        self.assertEqual(paragraphs("a\n```\nbehind\n```\nb"), ["a", "b"])
        self.assertEqual(prose("see `behind` and `x`"), "see CODE and CODE")

    def test_cells_items_and_lines(self):
        self.assertEqual(paragraphs("| a | b |\n\nc\nd\n- e\n  f"), ["a", "b", "c d", "- e f"])

    def test_sentences_are_cut(self):
        self.assertEqual(sentences("Two `a. B` three. It is 4.0."), ["Two CODE three.", "It is 4.0."])

    def test_anchors(self):
        self.assertEqual(anchors("## What `rt` finds, and why\n"), {"what-rt-finds-and-why"})


if __name__ == "__main__":
    unittest.main()
