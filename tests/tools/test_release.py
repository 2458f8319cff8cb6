"""Tests of release/: what is made of the program's help has each option and command of it, and nothing else.

They want no program and no MPI: the help is that of tools/texts, which `tools/try texts` compares with the
program's own.
"""

import hashlib
import re
import shutil
import subprocess
import sys
import tempfile
import unittest
from pathlib import Path

TOP = Path(__file__).resolve().parents[2]
TEXTS = TOP / "tools/texts"
sys.path.insert(0, str(TOP / "release"))

from helptext import page_of  # noqa: E402  (it lies in the folder above)

# Says the stored texts as the program would.
STUB = f"""#!/bin/sh
case "$*" in
--help) exec cat {TEXTS}/help ;;
--version) exec cat {TEXTS}/version ;;
*" --help") exec cat {TEXTS}/$1-help ;;
esac
exit 3
"""
HELP = {"": (TEXTS / "help").read_text()}
COMMANDS = re.findall(r"^  (\w+) ", HELP[""].partition("\nCommands:")[2].partition("\n\n")[0], re.M)
HELP.update((name, (TEXTS / f"{name}-help").read_text()) for name in COMMANDS)
OPTION = r"(?<![\w-])--?[A-Za-z][\w-]*"


def options_in(text):
    """The options that lines of a help begin with: found apart from release/helptext.py, as a check on it."""
    lines = re.findall(r"^ {2,6}(-.*?)(?:  |$)", text, re.MULTILINE)
    return {option for line in lines for option in re.findall(OPTION, line)}


def made(script, *words):
    """What a script of release/ makes of the stored texts."""
    with tempfile.TemporaryDirectory() as folder:
        program = Path(folder) / "program"
        program.write_text(STUB)
        program.chmod(0o755)
        command = [TOP / "release" / script, *words, program]
        return subprocess.run(command, capture_output=True, text=True, check=True).stdout


class Help(unittest.TestCase):
    def test_pages_have_the_options_of_their_texts(self):
        for name, text in HELP.items():
            page = page_of(name, text)
            self.assertEqual({each for item in page.options for each in item.names}, options_in(text), name)

    def test_both_forms_of_help_give_the_same_words(self):
        short, long = page_of("check", (TEXTS / "check-h").read_text()), page_of("check", HELP["check"])
        self.assertEqual([item.names + [item.value] for item in short.options + short.arguments],
                         [item.names + [item.value] for item in long.options + long.arguments])
        self.assertEqual([item.value for item in long.arguments], ["<HEAD>", "<FILE>..."])

    def test_paragraphs_and_values(self):
        text = ("About.\n\nUsage: mpiwait it [OPTIONS]\n\nOptions:\n"
                "      --kind <KIND>\n          What kind\n          of thing\n\n"
                "          [possible values: a, bc]\n\n"
                "  -p, --part[=<N>]  A part\n")
        kind, part = page_of("it", text).options
        self.assertEqual(kind.text, ["What kind of thing", "[possible values: a, bc]"])
        self.assertEqual(kind.choices, ["a", "bc"])
        self.assertEqual((part.names, part.value, part.may_lack_value), (["-p", "--part"], "[=<N>]", True))

    def test_usages_are_each_way_to_call_it(self):
        self.assertEqual(page_of("check", HELP["check"]).usages,
                         ["mpiwait check [OPTIONS] <HEAD> <FILE>...", "mpiwait check [OPTIONS] <FOLDER>"])

    def test_a_form_that_is_not_known_is_refused(self):
        for wrong in ("no usage\n", "A\n\nUsage: x\n\nstray\n", "A\n\nUsage: x\n\nOptions:\n  ?what  It\n"):
            with self.assertRaises(ValueError):
                page_of("x", wrong)


class ManPage(unittest.TestCase):
    def setUp(self):
        self.page = made("manpage")

    def test_it_has_the_options_of_the_help_and_no_others(self):
        shown = re.sub(r"\\f[BIR]", "", self.page.replace("\\-", "-"))
        self.assertEqual(set(re.findall(OPTION, shown)), set(re.findall(OPTION, "".join(HELP.values()))))
        for command in COMMANDS:
            text = HELP[command]
            section = shown.partition(f".SS mpiwait {command}\n")[2].partition("\n.S")[0]
            self.assertEqual(set(re.findall(r"^" + OPTION, section, re.M)) - {"-h", "-V"},
                             options_in(text) - {"-h", "-V", "--help", "--version"}, command)

    def test_it_begins_with_each_way_to_call_it(self):
        shown = re.sub(r"\\f[BIR]", "", self.page).partition(".SH SYNOPSIS\n")[2].partition("\n.SH ")[0]
        self.assertIn("mpiwait FOLDER", shown.split("\n"))
        self.assertIn("mpiwait check [OPTIONS] FOLDER", shown.split("\n"))

    def test_it_has_the_commands_and_the_version(self):
        self.assertEqual(re.findall(r"^\.SS mpiwait (\S+)", self.page, re.M), COMMANDS)
        self.assertIn((TEXTS / "version").read_text().strip(), self.page.splitlines()[0])

    def test_every_word_of_the_help_is_in_it(self):
        shown = re.sub(r"\\f[BIR]", "", self.page)
        of_form = {"Usage", "Arguments", "Options", "COMMAND", "Reads", "Examples", "Exit", "status"}
        words = set(re.findall(r"\w+", "".join(HELP.values()))) - of_form
        self.assertEqual(words - set(re.findall(r"\w+", shown)), set())

    @unittest.skipUnless(shutil.which("groff"), "there is no groff")
    def test_groff_has_no_warning(self):
        groff = ["groff", "-man", "-ww", "-z", "-Kutf8"]
        said = subprocess.run(groff, input=self.page, capture_output=True, text=True, check=True)
        self.assertEqual(said.stderr, "")


class Bash(unittest.TestCase):
    def setUp(self):
        self.folder = tempfile.TemporaryDirectory()
        self.addCleanup(self.folder.cleanup)
        self.script = Path(self.folder.name) / "completions"
        self.script.write_text(made("completions", "bash"))
        self.where = Path(self.folder.name) / "where"
        (self.where / "a run").mkdir(parents=True)
        (self.where / "r0").touch()

    def complete(self, *words):
        """What is offered for the last word."""
        asks = 'source "$0"; COMP_WORDS=(mpiwait "$@"); COMP_CWORD=$#; _mpiwait'
        shows = 'printf "%s\\n" "${COMPREPLY[@]}"'
        command = ["bash", "-uc", f"{asks}; {shows}", self.script, *words]
        said = subprocess.run(command, capture_output=True, text=True, cwd=self.where)
        self.assertEqual(said.stderr, "")
        return {word for word in said.stdout.split("\n") if word}

    def test_options_are_those_of_the_help(self):
        for command, text in HELP.items():
            words = [command] if command else []
            self.assertEqual(self.complete(*words, "-"), options_in(text), command)
        self.assertEqual(self.complete("check", "--json", "--e"), {"--eager"})
        self.assertEqual(self.complete("lint", "--e"), set())

    def test_first_word(self):
        self.assertEqual(self.complete(""), set(COMMANDS))
        self.assertEqual(self.complete("ch"), {"check"})
        self.assertEqual(self.complete("a"), {"a run"})

    def test_files_and_values(self):
        self.assertEqual(self.complete("check", ""), {"a run", "r0"})
        self.assertEqual(self.complete("check", "--json", "a run", "r"), {"r0"})
        self.assertEqual(self.complete("check", "--", ""), {"a run", "r0"})
        for text in ("--eager |", "--eager = |", "--eager =", "--eager = 4", "--capacity r"):
            words = [word.strip("|") for word in text.split(" ")]
            self.assertEqual(self.complete("check", *words), set(), words)

    @unittest.skipUnless(shutil.which("shellcheck"), "there is no shellcheck")
    def test_shellcheck_finds_nothing(self):
        said = subprocess.run(["shellcheck", "-s", "bash", self.script], capture_output=True, text=True)
        self.assertEqual(said.stdout, "")


class Zsh(unittest.TestCase):
    def test_options_are_those_of_the_help(self):
        script = made("completions", "zsh")
        for command, text in HELP.items():
            begin, end = (f"\n        {command})\n", ";;") if command else ("_arguments -C", "&& return")
            section = script.partition(begin)[2].partition(end)[0]
            self.assertEqual(set(re.findall(r"'\([^)]*\)(--?[\w-]+)", section)), options_in(text), command)
        self.assertEqual(re.findall(r"^        '([a-z]+):", script, re.M), COMMANDS)


class Script(unittest.TestCase):
    """The script before the program, with a program that prints its words and ends with status 5."""

    def setUp(self):
        folder = tempfile.TemporaryDirectory()
        self.addCleanup(folder.cleanup)
        self.top = Path(folder.name)
        for name in ("bin", "libexec", "tools/companions", "tools/texts"):
            (self.top / name).mkdir(parents=True)
        for name in ("companions/words.sh", "texts/commands"):
            shutil.copy(TOP / "tools" / name, self.top / "tools" / name)
        for name in ("run", "limits"):
            (self.top / "tools" / name).write_text(f"#!/bin/sh\necho tools/{name} $*\nexit 7\n")
            (self.top / "tools" / name).chmod(0o755)
        self.script = self.top / "bin/mpiwait"
        shutil.copy(TOP / "release/mpiwait", self.script)
        self.program = self.top / "libexec/mpiwait"
        self.program.write_text('#!/bin/sh\nfor word; do echo "<$word>"; done\nexit 5\n')
        self.program.chmod(0o755)

    def run_script(self, *words):
        said = subprocess.run([self.script, *words], capture_output=True, text=True, cwd=self.top)
        return said.returncode, said.stdout.split("\n")[:-1]

    def test_the_words_are_the_programs(self):
        for words in (["bin"], ["check", "--json", "a run"], ["lint", "--", "-x"], ["--version"], ["check", "--help"]):
            self.assertEqual(self.run_script(*words), (5, [f"<{word}>" for word in words]))

    def test_the_tools_are_commands(self):
        self.assertEqual(self.run_script("run", "mpirun", "./a"), (7, ["tools/run mpirun ./a"]))
        self.assertEqual(self.run_script("limits", "run"), (7, ["tools/limits run"]))
        (self.top / "run").mkdir()
        self.assertEqual(self.run_script("run"), (5, ["<run>"]))

    def test_the_help_lists_all_commands(self):
        for word in ("-h", "--help"):
            status, said = self.run_script(word)
            self.assertEqual(status, 0)
            for command in ("run", "limits", "check", "lint", "judge", "close", "build"):
                self.assertTrue(any(line.startswith(f"  {command} ") for line in said))

    def test_wrong_words(self):
        for words in ([], [""], ["/nonexistent"], ["--frob"], ["check", "--eager", "4k", "."], ["build"]):
            self.assertEqual(self.run_script(*words), (3, []))

    def test_the_program_answers_also_where_unproved_code_may(self):
        self.assertEqual(self.run_script("--unproved", "bin"), (5, ["<bin>"]))
        self.assertEqual(self.run_script("check", "--unproved"), (5, ["<check>", "<--unproved>"]))

    def test_its_own_failures_are_no_verdict(self):
        self.program.unlink()
        self.assertEqual(self.run_script("--version"), (4, []))

    @unittest.skipUnless(shutil.which("shellcheck"), "there is no shellcheck")
    def test_shellcheck_finds_nothing(self):
        said = subprocess.run(["shellcheck", "-x", TOP / "release/mpiwait"], capture_output=True, text=True, cwd=TOP)
        self.assertEqual(said.stdout, "")


# A program of the machine that says the stored texts.
PROGRAM = r"""
#include <stdio.h>
#include <string.h>
int main(int count, char **words) {
    char path[4096] = TEXTS "/";
    int lone = count == 2;
    strncat(path, lone ? words[1] + 2 : words[1], 80);
    strcat(path, lone ? "" : "-help");
    FILE *text = fopen(path, "r");
    for (int each; (each = getc(text)) != EOF;)
        putchar(each);
    return 0;
}
"""
NEEDED = ("gcc", "git", "readelf", "xz")


@unittest.skipUnless(all(map(shutil.which, NEEDED)), f"not all of {', '.join(NEEDED)} are there")
class Make(unittest.TestCase):
    """release/make in a repository of what it packs, with a program that was built elsewhere."""

    @classmethod
    def setUpClass(cls):
        folder = tempfile.TemporaryDirectory()
        cls.addClassCleanup(folder.cleanup)
        cls.top = Path(folder.name) / "repository"
        (cls.top / "crates/cli/src").mkdir(parents=True)
        for name in ("mpiwait", "CHANGELOG.md", "crates/cli/src/command_line.rt"):
            shutil.copy2(TOP / name, cls.top / name)
        for name in ("release", "tools", "docs", "examples"):
            shutil.copytree(TOP / name, cls.top / name, ignore=shutil.ignore_patterns("out", "__pycache__"))
        cls.git("init", "-q")
        cls.git("add", "-A")
        cls.git("commit", "-q", "-m", "All")
        cls.program = Path(folder.name) / "program"
        compile = ["gcc", "-x", "c", "-w", f'-DTEXTS="{TEXTS}"', "-o", cls.program, "-"]
        subprocess.run(compile, input=PROGRAM, text=True, check=True)
        cls.note_build()
        cls.log = Path(folder.name) / "log"
        cls.archive, cls.info = cls.packed()

    @classmethod
    def note_build(cls):
        """As `mpiwait build' does."""
        digest = hashlib.sha256(cls.program.read_bytes()).hexdigest()
        Path(f"{cls.program}.made").write_text(f"kit rattle-kit-13f logic 0\nsha256 {digest}\n")

    @classmethod
    def git(cls, *words):
        of_nobody = ["-c", "user.name=N", "-c", "user.email=n@example.org"]
        subprocess.run(["git", "-C", cls.top, *of_nobody, *words], check=True)

    @classmethod
    def make(cls, *words):
        return subprocess.run([cls.top / "release/make", *words], capture_output=True, text=True)

    @classmethod
    def packed(cls, *words):
        """The archive that it makes, and the BUILD-INFO in it."""
        said = cls.make("--program", cls.program, *words)
        if said.returncode or said.stderr:
            raise AssertionError(said)
        archive = Path(said.stdout.strip())
        taken = ["tar", "-xO", "-f", archive, "--wildcards", "*/BUILD-INFO"]
        return archive.read_bytes(), subprocess.run(taken, capture_output=True, text=True, check=True).stdout

    def test_the_same_commit_gives_the_same_bytes(self):
        self.assertEqual(self.packed()[0], self.archive)

    def test_build_info(self):
        self.assertIn("kit       rattle-kit-13f logic 0\nprogram   proved and built by `mpiwait build'\n", self.info)
        self.assertIn("no log of the gate was given", self.info)
        self.assertRegex(self.info, r"C library +at least GLIBC_2\.\d+")

    def test_a_program_that_no_build_made(self):
        Path(f"{self.program}.made").unlink()
        self.addCleanup(self.note_build)
        said = self.make("--program", self.program)
        self.assertEqual(said.returncode, 4)
        self.assertIn("--unproved-program packs it all the same", said.stderr)
        said = self.make("--unproved-program", self.program)
        self.assertRegex(said.stdout, r"/mpiwait-[0-9.]+-unproved-linux-x86_64\.tar\.xz\n$")
        taken = ["tar", "-xO", "-f", said.stdout.strip(), "--wildcards", "*/BUILD-INFO"]
        info = subprocess.run(taken, capture_output=True, text=True, check=True).stdout
        self.assertIn("kit       not known\nprogram   NOT PROVED: it was given as a file\n", info)

    def test_it_is_installed(self):
        with tempfile.TemporaryDirectory() as folder:
            for _ in range(2):
                said = self.make("--program", self.program, "--install", folder)
                self.assertEqual((said.returncode, said.stdout), (0, f"{folder}/lib/mpiwait\n"))
            ran = subprocess.run([f"{folder}/bin/mpiwait", "--help"], capture_output=True, text=True, check=False)
            self.assertIn("  limits  ", ran.stdout)
            for name in ("man/man1/mpiwait.1", "bash-completion/completions/mpiwait", "zsh/site-functions/_mpiwait"):
                self.assertGreater(Path(folder, "share", name).stat().st_size, 0)

    def test_the_documents_link_to_what_is_packed(self):
        with tempfile.TemporaryDirectory() as folder:
            subprocess.run(["tar", "-xJ", "-C", folder], input=self.archive, check=True)
            links = [(page, link) for page in Path(folder).rglob("*.md")
                     for link in re.findall(r"\]\(([^)#:]+)[)#]", page.read_text())]
            self.assertEqual([(page.name, link) for page, link in links if not (page.parent / link).exists()], [])

    def test_a_gate_has_to_have_passed(self):
        self.log.write_text("rt: ok, 19 crates\n12 passed, 0 failed\n")
        self.assertIn("rt: ok, 19 crates\n", self.packed("--gate-log", self.log)[1])
        for wrong in ("", "rt: ok\n", "1 passed, 2 failed\n", "0 passed, 0 failed\n"):
            self.log.write_text(wrong)
            said = self.make("--program", self.program, "--gate-log", self.log)
            self.assertEqual(said.returncode, 4, wrong)

    def test_wrong_words_and_programs(self):
        for status, *words in ((3, "--what"), (3, "--program"), (3, "--program", "no-file"),
                               (4, "--program", "/bin/true"), (4, "--program", __file__)):
            said = self.make(*words)
            self.assertEqual((said.returncode, said.stderr[:14]), (status, "release/make: "), words)

    def test_a_change_without_a_commit_is_refused(self):
        path = self.top / "CHANGELOG.md"
        was = path.read_text()
        self.addCleanup(path.write_text, was)
        path.write_text(was + "more\n")
        self.assertEqual(self.make("--program", self.program).returncode, 4)


class Version(unittest.TestCase):
    def test_it_is_the_same_everywhere(self):
        source = (TOP / "crates/cli/src/command_line.rt").read_text()
        version = re.search(r'^const VERSION: &str = "(.*)";$', source, re.M).group(1)
        for name in ("version", "check-version", "lint-version"):
            self.assertEqual((TEXTS / name).read_text().split()[1], version, name)
        changes = (TOP / "CHANGELOG.md").read_text()
        self.assertEqual(re.search(r"^## (\S+) \(\d{4}-\d\d-\d\d\)$", changes, re.M).group(1), version)


if __name__ == "__main__":
    unittest.main()
