"""The script mpiwait, with a command `rt` that only plays a build."""

import os
import shutil
import signal
import stat
import subprocess
import tempfile
import time
import unittest
from pathlib import Path
from unittest.mock import patch

TOP = Path(__file__).resolve().parents[2]
LINE = "mpiwait: the checker that produced this answer has not been verified on this machine\n"
HOW = LINE.replace("\n", "; `mpiwait build' proves and builds one that is\n")
# It notes its words, and makes a program that shows its own.
RT = f"""#!/bin/sh
printf '%s\\n' "rt $*" >> "$PLAYED/calls"
mkdir -p out && cp {shutil.which("echo")} out/mpiwait
"""
# The kit's prover, which notes the crates that it is asked for, and its linker.
RATTLE = """#!/bin/sh
printf '%s\\n' "$3" >> "$PLAYED/calls"
printf '%s\\n' "$*" > "$PLAYED/words-of-$3"
[ -z "$SLOW" ] || sleep "$SLOW"
[ "$3" != "$FAILS" ] || exit 1
for last; do :; done
touch "$last"
"""
LINK = f"""#!/bin/sh
echo link >> "$PLAYED/calls"
while [ "$1" != -o ]; do shift; done
cp {shutil.which("echo")} "$2"
"""


class Script(unittest.TestCase):
    def setUp(self):
        kept = tempfile.TemporaryDirectory()
        self.addCleanup(kept.cleanup)
        self.folder = Path(kept.name).resolve()
        self.top = self.folder / "top"
        crate = self.top / "crates/mpiwait"
        for name in ("src", "specs", "proofs"):
            (crate / name).mkdir(parents=True)
        for name in ("tools/texts", "reference"):
            shutil.copytree(TOP / name, self.top / name, ignore=shutil.ignore_patterns("__pycache__"))
        for name in ("tools/companions", "release"):
            (self.top / name).mkdir()
        for name in ("mpiwait", "HANDLES", "tools/companions/words.sh", "release/prove"):
            shutil.copy(TOP / name, self.top / name)
        for name in ("run", "limits"):
            (self.top / "tools" / name).write_text(f"#!/bin/sh\necho tools/{name} $*\nexit 7\n")
            (self.top / "tools" / name).chmod(0o755)
        (self.top / "crates.txt").write_text("# crates\nmpicall: memchr\njournals may_wait=6: mpicall memchr\n"
                                             "mpiwait: journals\nmpiwait_rows: mpiwait\n")
        for name in ("mpicall/src/lib.rt", "mpicall/must-fail/one.edit", "mpicall/out/x", "journals/src/lib.rt",
                     "mpiwait/src/main.rt", "mpiwait/args", "mpiwait_rows/src/main.rt"):
            (self.top / "crates" / name).parent.mkdir(parents=True, exist_ok=True)
            (self.top / "crates" / name).write_text("")
        self.here = self.folder / "here"
        self.here.mkdir()
        for name in ("head", "r0", "8", "-x"):
            (self.here / name).write_text("finalize\n")
        (self.folder / "bin").mkdir()
        (self.folder / "KIT-ID").write_text("rattle-kit-13f logic dac8208d650f15bf\n")
        for name, text in (("rt", RT), ("rattle", RATTLE), ("rattle-link", LINK)):
            file = self.folder / "bin" / name
            file.write_text(text)
            file.chmod(file.stat().st_mode | stat.S_IXUSR)

    def run_script(self, *words, path=None, redirection=""):
        path = f"{self.folder / 'bin'}:{os.environ['PATH']}" if path is None else path
        environment = {**os.environ, "PLAYED": str(self.folder), "PATH": path}
        command = ["/bin/bash", "-c", f'exec "$0" "$@" {redirection}', self.top / "mpiwait", *words]
        done = subprocess.run(command, cwd=self.here, env=environment, text=True, capture_output=True,
                              stdin=subprocess.DEVNULL, check=False)  # fmt: skip
        return done.returncode, done.stdout, done.stderr

    def calls(self):
        """What `rt` and the prover were asked for."""
        path = self.folder / "calls"
        return path.read_text().splitlines() if path.exists() else []

    def make_run(self, name, **files):
        folder = self.here / name
        folder.mkdir()
        for file, text in files.items():
            (folder / file).write_text(text)

    def tools(self, *names):
        """A folder with these tools alone."""
        tools = self.folder / "tools"
        tools.mkdir()
        for name in ("bash", "env", "dirname", "readlink", "find", "cat", *names):
            (tools / name).symlink_to(shutil.which(name))
        return str(tools)

    # ---- Without a program ----

    def test_without_a_program_the_reference_answers(self):
        self.make_run("run 1", head="ranks 1\n", r0="finalize\n")
        self.make_run("hangs", head="ranks 1\n", r0="send 0 0 0\nrecv 0 0 0\nfinalize\n")
        hang = "verdict hang\nrank 0 at 0 send 0 0 0 waits rank 0 call 1\ncycle 0\n"
        for words, answer in (
            (["run 1"], (0, "verdict free\n")), (["check", "hangs"], (1, hang)),
            (["lint", "run 1/r0"], (0, "lint ok 1\n")), (["lint", "run 1/head"], (2, "lint refused call 0 L2 unknown word\n")),
        ):  # fmt: skip
            with self.subTest(words):
                self.assertEqual(self.run_script(*words), (*answer, HOW))
                self.assertEqual(self.run_script("--unproved", *words), (*answer, LINE))
        self.assertEqual(self.calls(), [])

    def test_it_judges_and_closes_journals(self):
        self.make_run("run", journal0="journal 2 0 1 x o y\nsend 0 0 7\nfinalize\n")
        self.assertEqual(self.run_script("judge", "--eager=+04", "run")[0], 1)
        self.assertEqual(self.run_script("--unproved", "close", "run", "out"), (0, "", LINE))
        self.assertEqual((self.here / "out/r0").read_text(), "send 0 0 7\nfinalize\n")

    def test_it_needs_no_kit(self):
        self.make_run("run", head="ranks 1\n", r0="finalize\n")
        self.assertEqual(self.run_script("run", path=self.tools("python3")), (0, "verdict free\n", HOW))

    def test_a_pipe_is_read(self):
        self.make_run("run", head="ranks 1\n")
        os.mkfifo(self.here / "run/r0")
        with subprocess.Popen(["/bin/sh", "-c", "echo finalize > run/r0"], cwd=self.here):
            self.assertEqual(self.run_script("run")[:2], (0, "verdict free\n"))

    def test_an_answer_that_cannot_be_written_is_no_verdict(self):
        self.make_run("run", head="ranks 1\n", r0="finalize\n")
        for redirection in (">/dev/full", ">&-"):
            status, _, err = self.run_script("--unproved", "run", redirection=redirection)
            self.assertEqual((status, err), (4, f"{LINE}fault write\n"))

    def test_without_a_standard_error_there_is_no_verdict(self):
        """Nobody could see that it isn't verified."""
        self.make_run("run", head="ranks 1\n", r0="finalize\n")
        for redirection in ("2>/dev/full", "2>&-"):
            self.assertEqual(self.run_script("--unproved", "run", redirection=redirection)[:2], (4, ""))

    def test_variables_of_python_are_no_verdict(self):
        self.make_run("run", head="ranks 1\n", r0="finalize\n")
        (self.here / "enum.py").write_text("raise ImportError('of another Python')\n")
        for more in ({"PYTHONPATH": str(self.here)}, {"PYTHONHOME": "/none"}):
            with patch.dict(os.environ, more):
                self.assertEqual(self.run_script("--unproved", "run"), (0, "verdict free\n", LINE))

    def test_without_python_there_is_no_verdict(self):
        self.make_run("run", head="ranks 1\n", r0="finalize\n")
        status, out, err = self.run_script("run", path=self.tools())
        self.assertEqual((status, out), (4, ""))
        self.assertIn("python3", err)

    def test_a_build_that_is_ended_with_all_it_started_says_nothing_more(self):
        (self.top / "release/prove").write_text('#!/bin/sh\ntouch "$PLAYED/begun"\nsleep 20\n')
        environment = {**os.environ, "PLAYED": str(self.folder), "PATH": f"{self.folder / 'bin'}:{os.environ['PATH']}"}
        words = {"env": environment, "stderr": subprocess.PIPE, "text": True, "start_new_session": True}
        with subprocess.Popen([self.top / "mpiwait", "build"], **words) as running:
            while not (self.folder / "begun").exists():
                time.sleep(0.05)
            os.killpg(running.pid, signal.SIGTERM)
            said = running.communicate(timeout=20)[1].splitlines()
        self.assertEqual(running.returncode, 4)
        self.assertEqual([line for line in said if not line.startswith("mpiwait: ")], [])

    def test_modules_that_cannot_be_read(self):
        """Python's own status would be that of a hang."""
        self.make_run("run", head="ranks 1\n", r0="finalize\n")
        for text in ("raise KeyboardInterrupt", "raise MemoryError", "a b"):
            (self.top / "reference/disk.py").write_text(text)
            status, out, said = self.run_script("--unproved", "run")
            self.assertEqual((status, out), (4, ""))
            self.assertRegex(said, "mpiwait: it can't begin .*\n$")

    def test_a_signal_ends_it_without_a_verdict(self):
        """One that comes while Python starts waits until modules are read."""
        self.make_run("run", head="ranks 1\n", r0="finalize\n")
        # Where the tests run in the background, it is ignored.
        self.addCleanup(signal.signal, signal.SIGINT, signal.signal(signal.SIGINT, signal.default_int_handler))
        disk = self.top / "reference/disk.py"
        disk.write_text(f"import os, signal\nos.kill(os.getpid(), signal.SIGINT)\n{disk.read_text()}")
        self.assertEqual(self.run_script("--unproved", "run"), (4, "", f"{LINE}mpiwait: it was interrupted\n"))

    # ---- Words ----

    def test_wrong_words_are_answered_at_once(self):
        (self.here / "build").mkdir()
        for words, said in (
            ([], "it needs a command or a folder"), (["-v"], "no option `-v'"), (["--frob"], "no option `--frob'"),
            (["help"], "no command or folder `help'"), (["/nonexistent"], "no command or folder `/nonexistent'"),
            (["head"], "no command or folder `head'"), (["check", "--eager", "4k", "."], "--eager takes a number of bytes"),
            (["judge", "--eager=2147483648", "."], "and not `2147483648'"), (["judge", "--eager=", "."], "and not `'"),
            (["check", "--eager", "-1", "."], "and not `-1'"), (["build", "now"], "takes no words but --other-kit"),
        ):  # fmt: skip
            for before in ([], ["--unproved"]):
                with self.subTest(words):
                    status, out, err = self.run_script(*before, *words)
                    self.assertEqual((status, out), (3, ""))
                    self.assertRegex(err, "^mpiwait: .*\n$")
                    self.assertIn(said, err)
        self.assertEqual(self.calls(), [])

    def test_words_that_only_look_wrong(self):
        self.make_run("help", head="ranks 1\n", r0="finalize\n")
        for words in (["help"], ["check", "--eager", "+0002147483647", "help"], ["check", "--", "help"]):
            self.assertEqual(self.run_script(*words)[:2], (0, "verdict free\n"))
        self.assertEqual(self.run_script("check", "--", "head", "--eager", "4k")[0], 2)

    def test_the_tools_are_commands(self):
        self.make_run("run", head="ranks 1\n", r0="finalize\n")
        self.assertEqual(self.run_script("run", "mpirun", "-n", "4", "./a.out"), (7, "tools/run mpirun -n 4 ./a.out\n", ""))
        self.assertEqual(self.run_script("limits", "mpiwait-run"), (7, "tools/limits mpiwait-run\n", ""))
        self.assertEqual(self.run_script("limits"), (7, "tools/limits\n", ""))
        self.assertEqual(self.run_script("run")[:2], (0, "verdict free\n"))

    # ---- Builds ----

    def test_a_build_needs_the_kit(self):
        status, out, err = self.run_script("build", path=self.tools("python3"))
        self.assertEqual((status, out), (3, ""))
        self.assertIn("rt of the Rattle kit", err)

    def test_another_kit_is_refused_or_shown(self):
        (self.folder / "KIT-ID").write_text("rattle-kit-99 logic 0\n")
        status, out, err = self.run_script("build")
        self.assertEqual((status, out, self.calls()), (3, "", []))
        self.assertIn("rattle-kit-99 logic 0, and mpiwait is proved by rattle-kit-13f or rattle-kit-13b", err)
        self.assertEqual(self.run_script("build", "--other-kit")[0], 0)
        said = subprocess.run([self.top / "crates/mpiwait/out/mpiwait", "--version"], capture_output=True, text=True).stdout
        self.assertEqual(self.run_script("--version"), (0, f"{said}proved by another kit: rattle-kit-99 logic 0\n", ""))

    def test_a_build_says_so_and_is_kept(self):
        said = "mpiwait: proving and building it: an hour or two\n"
        self.assertEqual(self.run_script("build")[:2], (0, ""))
        self.assertEqual(self.run_script("build"), (0, "", "mpiwait: it is built as its sources are\n"))
        (self.top / "crates/journals/src/lib.rt").write_text("fn one() {}")
        self.assertIn(said, self.run_script("build")[2])

    def test_what_changed_and_changed_back_is_built(self):
        self.run_script("build")
        source = self.top / "crates/journals/src/lib.rt"
        for text, is_built in (("fn one() {}", False), ("", True), ("fn two() {}", False)):
            source.write_text(text)
            os.utime(source, (1, 1))  # a time before the build's
            self.assertEqual(self.run_script("lint", "none")[1] == "lint none\n", is_built)

    def test_a_build_waits_for_another_and_says_so_once(self):
        environment = {**os.environ, "PLAYED": str(self.folder), "PATH": f"{self.folder / 'bin'}:{os.environ['PATH']}",
                       "SLOW": "1"}  # fmt: skip
        words = {"env": environment, "stderr": subprocess.PIPE, "text": True}
        with subprocess.Popen([self.top / "mpiwait", "build"], **words) as one:
            while not self.calls():
                time.sleep(0.05)
            with subprocess.Popen([self.top / "mpiwait", "build"], **words) as other:
                said = other.communicate()[1]
            one.communicate()
        self.assertEqual(said, "mpiwait: another call is building it; this one waits for its end\n"
                               "mpiwait: it is built as its sources are\n")  # fmt: skip

    def test_help_needs_no_build(self):
        for words, name in (("--help", "commands"), ("-h", "commands"), ("-V", "version"), ("check --help", "check-help"), ("check -h", "check-h"),
                            ("lint -h", "lint-help"), ("check -V", "check-version"), ("lint --version", "lint-version"),
                            ("judge -h", "judge-help"), ("close --help", "close-help"),
                            ("judge -V", "judge-version"), ("close --version", "close-version")):
            said = (TOP / "tools/texts" / name).read_text()
            self.assertEqual(self.run_script(*words.split()), (0, said, ""))
            self.assertEqual(self.run_script("--unproved", *words.split()), (0, said, ""))
        self.assertEqual(self.calls(), [])

    def test_a_failed_build_is_no_verdict(self):
        for name in ("rt", "rattle"):
            (self.folder / "bin" / name).write_text("#!/bin/sh\necho no proof of it\nexit 1\n")
        status, out, err = self.run_script("build")
        self.assertEqual((status, out), (4, ""))
        self.assertIn("no proof of it\nmpiwait: the build failed", err)

    def test_a_program_that_cannot_be_run_is_no_verdict(self):
        self.run_script("build")
        (self.top / "crates/mpiwait/out/mpiwait").write_bytes(b"\177ELF of another machine")
        status, out, err = self.run_script("check", "head", "r0")
        self.assertEqual((status, out), (4, ""))
        self.assertIn("can't be run\n", err)

    def test_each_crate_that_is_proved_is_named(self):
        said = "echo 'crate mpicall: modules 3'; sleep 1.5; mkdir -p out"
        (self.folder / "bin/rt").write_text(RT.replace("mkdir -p out", said))
        for variables in ({"SLOW": "1.5"}, {"FAILS": "mpicall"}):
            shutil.rmtree(self.top / "crates/mpiwait/out", ignore_errors=True)
            with patch.dict(os.environ, variables):
                status, out, err = self.run_script("build")
            self.assertEqual((status, out), (0, ""))
            self.assertIn("mpiwait: mpicall is proved\n", err)

    def test_the_words_are_the_programs(self):
        self.run_script("build")
        for words in (["."], ["check", "a run", "", "-x"], ["lint"]):
            self.assertEqual(self.run_script(*words)[:2], (0, " ".join(words) + "\n"))

    def build(self, **variables):
        """What a build calls, whose program answers."""
        (self.top / "crates/mpiwait/out/mpiwait").unlink(missing_ok=True)
        (self.folder / "calls").unlink(missing_ok=True)
        with patch.dict(os.environ, variables):
            self.assertEqual(self.run_script("build")[:2], (0, ""))
        self.assertEqual(self.run_script("check", "head", "r0"), (0, "check head r0\n", ""))
        return self.calls()

    def test_a_first_build_proves_the_programs_crates_each_after_those_it_uses(self):
        self.assertEqual(self.build(), ["mpicall", "journals", "mpiwait", "link"])
        made, kit = self.top / "crates/mpiwait/out/crates", self.folder
        before = f"--extern std={kit}/rlibs/std.rlib --extern mpicall={made}/mpicall.rlib"
        behind = f"-L dependency={kit}/rlibs -L dependency={made} --jobs 1 --links journals= " \
            f"--antt-project {kit}/rattle/logic/antt-project.json --logic-built {kit}/logic_built"
        self.assertEqual((self.folder / "words-of-journals").read_text(), "build --crate-name journals src/lib.rt "
                         f"{before} --extern memchr={kit}/rlibs/memchr.rlib {behind} --statements "
                         f"-o {made}/journals.rlib\n")

    def test_what_was_proved_is_not_proved_again(self):
        self.build()
        self.assertEqual(self.build(), ["link"])
        (self.top / "crates/journals/src/lib.rt").write_text("fn one() {}")
        self.assertEqual(self.build(), ["journals", "mpiwait", "link"])
        (self.folder / "KIT-ID").write_text("rattle-kit-13b logic dac8208d650f15bf\n")
        self.assertEqual(self.build(), ["mpicall", "journals", "mpiwait", "link"])

    def test_what_was_proved_over_another_build_is_proved_again(self):
        self.build()
        below = self.top / "crates/mpicall/src/lib.rt"
        below.write_text("fn one() {}")
        self.assertEqual(self.build(FAILS="journals"), ["mpicall", "journals", "journals", "rt run -- --version"])
        below.write_text("")
        self.assertEqual(self.build(), ["mpicall", "journals", "mpiwait", "link"])

    def test_where_that_fails_twice_rt_builds_the_program(self):
        self.assertEqual(self.build(FAILS="journals"), ["mpicall", "journals", "journals", "rt run -- --version"])

    def test_a_build_that_is_ended_goes_on_where_it_was(self):
        environment = {**os.environ, "PLAYED": str(self.folder), "PATH": f"{self.folder / 'bin'}:{os.environ['PATH']}"}
        rattle = self.folder / "bin/rattle"
        rattle.write_text(RATTLE.replace('[ -z "$SLOW" ]', '[ "$3" != journals ]').replace(
            'sleep "$SLOW"', '{ echo $$ > "$PLAYED/prover"; touch "$PLAYED/asleep"; exec sleep 60; }'))
        words = [self.top / "release/prove", self.top / "crates/mpiwait/out/mpiwait", "2"]
        with subprocess.Popen(words, env=environment, stderr=subprocess.DEVNULL) as build:
            self.addCleanup(build.kill)
            while not (self.folder / "asleep").exists():
                time.sleep(0.05)
            build.terminate()
            self.assertNotEqual(build.wait(10), 0)
        with self.assertRaises(ProcessLookupError):
            os.kill(int((self.folder / "prover").read_text()), 0)
        rattle.write_text(RATTLE)
        self.assertEqual(self.build(), ["journals", "mpiwait", "link"])

    def test_where_checks_kept_work_it_is_taken_over(self):
        (self.top / "crates/mpicall/out/incremental").mkdir(parents=True)
        self.assertEqual(self.build(), ["rt run -- --version"])

    def test_one_crate_at_once_where_nothing_tells_how_many_may_be(self):
        for name in ("awk", "nproc"):
            (self.folder / "bin" / name).write_text("#!/bin/sh\nexit 1\n")
            (self.folder / "bin" / name).chmod(0o755)
        prove = self.top / "release/prove"
        prove.write_text(f"#!/bin/sh\necho $2 >> '{self.folder}/jobs'\nexit 1\n")
        self.assertEqual(self.build(), ["rt run -- --version"])
        self.assertEqual((self.folder / "jobs").read_text(), "1\n1\n")

    def test_the_proved_program_is_used_where_it_is_built(self):
        self.run_script("build")
        self.assertEqual(self.run_script("--unproved", "check", "head"), (0, "check head\n", ""))


if __name__ == "__main__":
    unittest.main()
