"""How tools/run takes its words, runs a command, and ends; and what it says while the run goes on."""

import contextlib
import fcntl
import io
import json
import os
import select
import shutil
import signal
import subprocess
import sys
import time
import unittest
from pathlib import Path
from unittest import mock

from support import BOTH, TOOLS, TOP, Folders, Stored, journal
from companions import recorder, run, watching
from companions.watching import Alarm
from companions.runs import Answer, Judge
from companions.script import Stopped

CHECKER = {"MPIWAIT": str(TOP / "tests/tools/judge")}
HERE = " on a-host"
# What a checker answers that needs no journals: a shell's words.
SAYS_FREE = """printf '{"causes":[],"findings":[],"left":[],"lines":[],"ranks":[],"verdict":"free"}'"""


class Words(Folders):
    def test_wrong_ones(self):
        for words in ([], ["--again", "mpirun"], ["--again", "--for", "3"], ["--for", "0", "x"], ["--for", "-1", "x"],
                      ["--frames", "17", "x"], ["--mpi", "lam", "x"], ["--fast", "x"], ["--eager", "2147483648", "x"],
                      ["--json", "a", "--svg", "./a", "x"], ["--eager", "-1", "x"], ["--quiet", "no", "x"], ["--quiet", "nan", "x"], ["--for", "nan", "x"], ["--again", "--stop"], ["--for"]):  # fmt: skip
            with self.subTest(words), contextlib.redirect_stderr(io.StringIO()):
                with self.assertRaises(Stopped) as stopped:
                    run.words_of(words)
                self.assertEqual(stopped.exception.status, 3)

    def test_right_ones(self):
        words = run.words_of(["--eager", "8", "--stop", "--", "mpirun", "-n", "4", "./a", "--eager"])
        self.assertEqual((words.eager, words.stop, words.stalled), (8, True, 10))
        self.assertEqual(words.command, ["mpirun", "-n", "4", "./a", "--eager"])

    def test_old_names(self):
        for names in (("--timeout", "--stalled"), ("--for", "--quiet")):
            words = run.words_of([names[0], "7", names[1], "3", "mpirun", "./a"])
            self.assertEqual((words.limit, words.stalled, words.command), (7, 3, ["mpirun", "./a"]))

    def test_a_folder_of_the_programs_own_is_said_first(self):
        """Before anything is built or run."""
        self.write("own", "")
        done = self.command("run", "--folder", "own", "mpirun", "-n", "4", "./nothing", env=os.environ | CHECKER)
        self.assertEqual((done.returncode, done.stdout), (3, ""))
        self.assertIn("no run made it: name another by --folder", done.stderr)

    def test_a_program_that_is_nothing(self):
        done = self.command("run", "./nothing", env=os.environ | CHECKER)
        self.assertEqual((done.returncode, done.stdout), (3, ""))
        self.assertIn("no word of `./nothing' is a program that loads MPICH or Open MPI", done.stderr)

    def test_help(self):
        done = self.command("run", "--help", env=os.environ | CHECKER)
        self.assertEqual(done.returncode, 0)
        for option in ("again", "eager", "folder", "frames", "html", "json", "junit", "mpi", "sarif", "stalled", "stop",
                       "strict", "svg", "timeout", "unproved", "version"):  # fmt: skip
            self.assertIn(f"--{option}", done.stdout)
        for option in ("--for", "--quiet"):
            self.assertNotIn(option, done.stdout)
        self.assertIn("usage: mpiwait run [OPTIONS]", done.stdout)

    def test_the_version(self):
        for name in ("run", "limits"):
            done = self.command(name, "--version")
            self.assertEqual((done.returncode, done.stdout), (0, (TOP / "tools/texts/version").read_text()))


class Again(Folders):
    """The verdict of a recording that is there: the status, the outputs, and what fails."""

    def again(self, *words, **environment):
        (self.folder / "mpiwait-run").mkdir(exist_ok=True)
        if (self.folder / "journal").exists():
            (self.folder / "journal").rename(self.folder / "mpiwait-run/journal")
        return self.command("run", "--again", *words, env=os.environ | CHECKER | environment)

    def test_a_hang_and_all_outputs(self):
        self.run_of(*BOTH)
        outputs = {"json": "a.json", "html": "a.html", "junit": "a.xml", "sarif": "a.sarif"}
        done = self.again(*[f"--{kind}={name}" for kind, name in outputs.items()])
        self.assertEqual((done.returncode, done.stderr), (1, ""))
        self.assertTrue(done.stdout.startswith("verdict hang: 2 of 2 ranks wait\n"))
        self.assertEqual(json.loads(self.read("a.json"))["status"], 1)
        self.assertIn('failures="1"', self.read("a.xml"))
        self.assertEqual(json.loads(self.read("a.sarif"))["version"], "2.1.0")
        self.assertIn("<h1>verdict hang", self.read("a.html"))

    def test_several_runs(self):
        self.run_of("finalize")
        (self.folder / "journal/run-b").mkdir()
        for rank, calls in enumerate(BOTH):
            self.write(f"journal/run-b/journal{rank}", journal(rank, 2, calls))
        done = self.again("--json", "a.json", "--junit", "a.xml")
        self.assertEqual(done.returncode, 1)
        self.assertIn("Run 2 of 2\n==========\nverdict hang", done.stdout)
        self.assertEqual(json.loads(self.read("a-2.json"))["status"], 1)
        for count in ('tests="2"', 'failures="1"'):
            self.assertIn(count, self.read("a.xml"))

    def test_an_output_that_cannot_be_written(self):
        self.run_of(*BOTH)
        done = self.again("--json", "none/a.json")
        self.assertEqual(done.returncode, 4)
        self.assertIn("verdict hang", done.stdout)
        self.assertIn("none/a.json", done.stderr)
        done = self.again("--json", "a.json", "--junit", "/dev/full")
        self.assertEqual((done.returncode, done.stderr), (4, "tools/run: /dev/full: No space left on device\n"))

    def test_what_an_earlier_run_wrote_does_not_stay(self):
        """A run in which nobody waits has no picture, and one that isn't judged has nothing."""
        names = {kind: f"a.{kind}" for kind in ("svg", "junit", "sarif")}
        words = [f"--{kind}={name}" for kind, name in names.items()]
        (self.folder / "mpiwait-run/journal").mkdir(parents=True)
        for calls, status, wanted in ((None, 4, []), ("finalize", 0, ["a.junit", "a.sarif"])):
            with self.subTest(calls):
                for name in names.values():
                    self.write(name, "an old one")
                if calls:
                    self.write("mpiwait-run/journal/journal0", journal(0, 1, calls))
                done = self.again(*words, **self.checker(SAYS_FREE))
                self.assertEqual((done.returncode, sorted(path.name for path in self.folder.glob("a.*"))), (status, wanted))
        self.assertNotIn("an old one", self.read("a.junit"))

    def test_a_picture_that_fails_leaves_no_old_one(self):
        self.run_of(*BOTH)
        self.again()
        self.write("a.svg", "an old one")
        self.write("dot", "#!/bin/sh\nexit 1\n")
        os.chmod(self.folder / "dot", 0o755)
        done = self.again("--svg=a.svg", PATH=f"{self.folder}:{os.environ['PATH']}")
        self.assertEqual((done.returncode, (self.folder / "a.svg").exists()), (4, False))

    def test_only_files_are_removed(self):
        """As --svg /dev/stdout names a link."""
        self.run_of("finalize")
        self.write("a.file", "")
        os.symlink("a.file", self.folder / "a.link")
        os.mkfifo(self.folder / "a.pipe")
        for name in ("a.link", "a.pipe"):
            done = self.again(f"--svg={name}", **self.checker(SAYS_FREE))
            self.assertEqual((done.returncode, os.path.lexists(self.folder / name)), (0, True))

    def test_a_full_output(self):
        self.run_of(*BOTH)
        self.again()
        with open("/dev/full", "w") as full:
            words = [sys.executable, str(TOOLS / "run"), "--again"]
            done = subprocess.run(
                words, stdout=full, stderr=subprocess.PIPE, cwd=self.folder, env=os.environ | CHECKER
            )
        self.assertEqual(done.returncode, 4)

    def test_a_reader_that_wants_no_more(self):
        self.run_of(*BOTH)
        self.again()
        words = [sys.executable, str(TOOLS / "run"), "--again", "--json", "a.json"]
        reading, writing = os.pipe()
        os.close(reading)
        done = subprocess.run(
            words, stdout=writing, stderr=subprocess.PIPE, cwd=self.folder, env=os.environ | CHECKER
        )
        os.close(writing)
        self.assertEqual((done.returncode, done.stderr), (1, b""))
        self.assertEqual(json.loads(self.read("a.json"))["verdict"], "hang")

    def test_a_checker_is_tried_before_the_run(self):
        self.write("checker", "#!/bin/sh\nexit 4\n")
        os.chmod(self.folder / "checker", 0o755)
        with mock.patch.dict(os.environ, {"MPIWAIT": str(self.folder / "checker")}):
            with self.assertRaises(Stopped) as stopped:
                Judge().try_out()
        self.assertEqual(stopped.exception.status, 4)

    def test_a_checker_that_is_not_there(self):
        self.run_of(*BOTH)
        done = self.again(MPIWAIT="./none")
        self.assertEqual((done.returncode, done.stdout), (4, ""))
        self.assertIn("can't be run", done.stderr)

    def checker(self, words):
        """The variable that names a checker which is these words of a shell."""
        self.write("checker", f"#!/bin/sh\n{words}\n")
        os.chmod(self.folder / "checker", 0o755)
        return {"MPIWAIT": str(self.folder / "checker")}

    def by_bash(self, script, *words, **environment):
        """Runs tools/run by its own first line, with what a script of bash has changed before."""
        words = ["bash", "-c", script, "bash", TOOLS / "run", "--again", *words]
        return subprocess.run(words, capture_output=True, text=True, cwd=self.folder, env=os.environ | environment)

    def test_a_checker_that_is_built_first_says_so_meanwhile(self):
        """It waits here until its words were read."""
        free = self.checker(f"echo 'half an hour' >&2; read -r _ <'{self.folder}/pipe'; {SAYS_FREE}")
        os.mkfifo(self.folder / "pipe")
        script = "from companions.runs import Judge; Judge().try_out()"
        tried = subprocess.Popen([sys.executable, "-c", script], cwd=TOOLS, env=os.environ | free, stderr=subprocess.PIPE)
        self.addCleanup(tried.stderr.close)
        said = select.select([tried.stderr], [], [], 5)[0]
        (self.folder / "pipe").write_text("on\n")
        self.assertEqual((tried.wait(), bool(said)), (0, True))

    def test_a_checker_that_is_killed(self):
        self.run_of(*BOTH)
        done = self.again(**self.checker("exit 1"))
        self.assertEqual((done.returncode, done.stdout), (4, ""))
        self.assertIn("checker answered by status 1 without a report", done.stderr)
        for words, said in (("kill -KILL $$", "SIGKILL"), ("exit 7", "exit status 7")):
            done = self.again(**self.checker(words))
            self.assertEqual(done.returncode, 4)
            self.assertIn(said, done.stdout)

    def test_variables_of_python_are_for_the_program(self):
        """Else a module of another Python fails the script before it can say so, with the status of a hang."""
        self.run_of("finalize")
        self.again()
        self.write("enum.py", "raise ImportError('of another Python')\n")
        free = self.checker(SAYS_FREE)
        for more in ({"PYTHONPATH": str(self.folder)}, {"PYTHONSAFEPATH": "1"}, {"PYTHONHOME": "/none"}):
            with self.subTest(more):
                done = self.by_bash('"$@"', **free, **more)
                self.assertEqual((done.returncode, done.stderr), (0, ""))

    def test_an_interrupt_while_python_starts(self):
        """Python imports modules of the machine first, and ends with the status of a hang if it is interrupted there."""
        self.run_of("finalize")
        self.again()
        version = ".".join(map(str, sys.version_info[:2]))
        packages = self.folder / f".local/lib/python{version}/site-packages"
        packages.mkdir(parents=True)
        (packages / "usercustomize.py").write_text("raise KeyboardInterrupt\n")
        done = self.by_bash('"$@"', HOME=str(self.folder), **self.checker(SAYS_FREE))
        self.assertEqual((done.returncode, done.stderr), (0, ""))

    def copy_scripts(self):
        for name in ("run", "limits", "companions"):
            copy = shutil.copytree if (TOOLS / name).is_dir() else shutil.copy
            copy(TOOLS / name, self.folder / name)

    def test_a_signal_while_modules_are_read(self):
        """It waits until they are: Python would end with a status of its own."""
        self.copy_scripts()
        text = self.read("companions/places.py")
        for number in (signal.SIGINT, signal.SIGTERM, signal.SIGHUP):
            self.write("companions/places.py", f"import os\nos.kill(os.getpid(), {int(number)})\n{text}")
            for name in ("run", "limits"):
                with self.subTest(name, number=number):
                    words = ["env", "--default-signal=INT,TERM,HUP", self.folder / name, "x"]
                    done = subprocess.run(words, capture_output=True, text=True, check=False)
                    said = f"tools/{name}: it was interrupted\n"
                    self.assertEqual((done.returncode, done.stdout, done.stderr), (4, "", said))

    def test_modules_that_cannot_be_read(self):
        """As by an old Python, or without memory: its own status would be that of a hang."""
        self.copy_scripts()
        for text in ("raise KeyboardInterrupt", "raise MemoryError", "from json import nothing", "a b"):
            self.write("companions/places.py", text)
            for name, more in (("run", ""), ("limits", ""), ("run", "2>&-"), ("run", "2>/dev/full")):
                with self.subTest(text, name=name, more=more):
                    words = ["bash", "-c", f'"$1" x {more}', "bash", self.folder / name]
                    done = subprocess.run(words, capture_output=True, text=True, check=False)
                    said = "" if more else f"tools/{name}: it can't begin (it needs Python 3.10): "
                    self.assertEqual((done.returncode, done.stdout, done.stderr[: len(said)]), (4, "", said))
                    self.assertNotIn("Traceback", done.stderr)

    def test_a_standard_error_that_is_closed_or_full(self):
        self.run_of(*BOTH)
        self.again()
        for script in ('"$@" 2>&-', '"$@" 2>/dev/full'):
            for words, status in (([], 1), (["--json", "none/a.json"], 4)):
                with self.subTest(script, words=words):
                    done = self.by_bash(script, *words, **CHECKER)
                    self.assertEqual((done.returncode, done.stdout[:12]), (status, "verdict hang"))

    def test_an_input_and_a_standard_error_that_are_closed(self):
        """As what builds the recorder writes to the latter."""
        words = "import subprocess; from companions import script\n" \
            "script.run_script(lambda _: subprocess.run(['true'], stdout=2).returncode)"
        done = subprocess.run(["bash", "-c", '"$0" -c "$1" <&- 2>&-', sys.executable, words], cwd=TOOLS)
        self.assertEqual(done.returncode, 0)

    def test_help_that_cannot_be_written(self):
        for script in ('"$1" --help >/dev/full', '"$1" --help | true; exit "${PIPESTATUS[0]}"'):
            done = self.by_bash(script)
            self.assertEqual((done.returncode, "Exception" in done.stderr), (4, False))

    def test_more_ranks_than_files_may_be_open(self):
        self.run_of(*["finalize"] * 90)
        self.again()
        done = self.by_bash('ulimit -S -n 64; "$@"', **self.checker(SAYS_FREE))
        self.assertEqual((done.returncode, done.stderr), (0, ""))

    def test_folders(self):
        self.assertEqual(self.command("run", "--again", env=os.environ | CHECKER).returncode, 3)
        (self.folder / "mpiwait-run/journal").mkdir(parents=True)
        done = self.command("run", "--again", env=os.environ | CHECKER)
        self.assertEqual(done.returncode, 4)
        self.assertIn("nothing was recorded", done.stderr)

    def test_a_folder_in_use(self):
        self.run_of(*BOTH)
        self.again()
        held = os.open(self.folder / "mpiwait-run", os.O_RDONLY)
        fcntl.flock(held, fcntl.LOCK_EX)
        done = self.again()
        os.close(held)
        self.assertEqual(done.returncode, 3)
        self.assertIn("in use", done.stderr)

    def test_a_folder_whose_name_is_no_text(self):
        name = os.fsdecode(b"a\n\xff ")
        self.run_of(*BOTH)
        os.mkdir(self.folder / name)
        (self.folder / "journal").rename(self.folder / name / "journal")
        done = self.command("run", "--again", "--folder", name, env=os.environ | CHECKER)
        self.assertEqual(done.returncode, 1, done.stderr)

    def test_any_byte_of_a_file_in_any_locale(self):
        self.run_of(*BOTH)
        for rank in (0, 1):
            self.write(
                f"journal/sites{rank}",
                b"7\t/a \\x09\\x0a\\x0c\xe2\x80\xa8\xff\\x5c.py:7\n8\t/\xc3\xa9.py:8\n",
            )
        more = {"LC_ALL": "C", "PYTHONUTF8": "0", "PYTHONCOERCECLOCALE": "0"}
        done = self.again("--json=a.json", "--html=a.html", "--junit=a.xml", "--sarif=a.sarif", **more)
        self.assertEqual((done.returncode, done.stderr), (1, ""))
        self.assertIn("\\x0c\\xe2\\x80\\xa8\\xff", done.stdout)
        self.assertIn("/a%20%09%0A%0C%E2%80%A8%FF%5C.py", self.read("a.sarif"))


class OwnFolder(Folders):
    def test_one_of_the_program_is_never_touched(self):
        self.write("mine", "")
        with self.assertRaises(Stopped) as stopped:
            run.make_folder(self.folder)
        self.assertEqual(stopped.exception.status, 3)
        self.assertTrue((self.folder / "mine").exists())

    def test_words_that_fail_leave_the_last_recording(self):
        self.run_of(*BOTH)
        (self.folder / "mpiwait-run").mkdir()
        (self.folder / "journal").rename(self.folder / "mpiwait-run/journal")
        self.write("mpiwait-run/.mpiwait-run", "")
        self.assertEqual(self.command("run", "./nothing", env=os.environ | CHECKER).returncode, 3)
        self.assertTrue((self.folder / "mpiwait-run/journal/journal0").exists())

    def test_one_of_a_run_is_emptied(self):
        folder = self.folder / "a"
        os.close(run.make_folder(folder))
        self.write("a/journal/journal0", "")
        os.symlink(self.folder, folder / "link")
        os.close(run.make_folder(folder))
        self.assertEqual(sorted(os.listdir(folder)), [".mpiwait-run", "journal"])
        self.assertEqual(os.listdir(folder / "journal"), [])


class Recorders(unittest.TestCase):
    """Which library, and how the recorder is handed to the ranks."""

    def test_the_library(self):
        for loaded, said, wanted in (
            ("libmpich.so.12 => /x\n", "HYDRA", "mpich"), ("libmpi.so.40 => /libmpich-build/x\n", "Open MPI", "openmpi"),
            ("libmpi.so.12 => x\n", "", "mpich"), ("libc.so.6 => /x\n", "mpirun (Open MPI) 4.1", "openmpi"),
            ("libc.so.6\n", "HYDRA build details", "mpich"),
        ):  # fmt: skip
            with mock.patch.object(recorder, "said_by", lambda tool, *_, **more: loaded if tool == "ldd" else said):
                self.assertEqual(recorder.library_of(["mpirun", "-n", "2", sys.executable]), wanted)

    def test_libraries_that_do_not_go_together(self):
        with mock.patch.object(
            recorder, "said_by", lambda tool, *_: "libmpich.so.12 => /x\n" if tool == "ldd" else "Open MPI"
        ):
            with self.assertRaises(Stopped):
                recorder.library_of(["mpirun", sys.executable])

    def test_other_tools_in_ld_preload(self):
        def given(*command):
            return recorder.after_others(list(command), {"LD_PRELOAD": "/r.so"}, ["LD_PRELOAD", "MPIWAIT_JOURNAL"])

        self.assertEqual(given("env", "LD_PRELOAD=/t.so", "a")[1], "LD_PRELOAD=/t.so:/r.so")
        self.assertEqual(given("mpirun", "-genv", "LD_PRELOAD", "/t.so", "a")[3], "/t.so:/r.so")
        self.assertEqual(given("mpirun", "-x", "LD_PRELOAD=/t.so", "a")[2], "LD_PRELOAD=/t.so:/r.so")
        self.assertEqual(given("mpirun", "-genvlist", "HOME", "a")[2], "HOME,LD_PRELOAD,MPIWAIT_JOURNAL")
        self.assertEqual(given("mpirun", "LD_PRELOAD", "a"), ["mpirun", "LD_PRELOAD", "a"])

    def test_what_a_sanitizer_wants(self):
        more = "verify_asan_link_order=0"
        with mock.patch.dict(os.environ, {"ASAN_OPTIONS": "a=1"}), mock.patch.object(recorder, "make_recorder", str):
            command, _ = recorder.with_recorder(["mpirun", "-genv", "ASAN_OPTIONS", "b=2", "c"], "mpich", "/j")
        self.assertIn(f"ASAN_OPTIONS=a=1:{more}", command)
        self.assertEqual(command[-2:], [f"b=2:{more}", "c"])
        self.assertEqual(recorder.after_others(["A=b=2"], {"A": more}, []), [f"A=b=2:{more}"])

    def test_variables_for_open_mpi(self):
        environment = {"OMPI_MCA_mca_base_env_list": "A"}
        self.assertEqual(recorder.for_open_mpi(["mpirun", "a"], ["B", "C"], environment), ["mpirun", "a"])
        self.assertEqual(environment, {"OMPI_MCA_mca_base_env_list": "A;B;C"})
        command = ["mpirun", "-x", "B=1", "a"]
        self.assertEqual(
            recorder.for_open_mpi(command, ["B", "C"], {}), ["mpirun", "-x", "C", "-x", "B=1", "a"]
        )


SLOW = """#!/bin/sh
echo 'int MPI_Barrier_init(MPI_Comm comm, MPI_Info info, MPI_Request *request);'
sleep 0.5
echo 'int MPI_Win_fence(int assert, MPI_Win win);'
"""


class Built(Folders):
    def test_what_is_built_is_put_in_place_as_a_whole(self):
        """Another make that builds the same may read it."""
        if not shutil.which("make"):
            self.skipTest("there is no make")
        self.write("compiler", SLOW)
        (self.folder / "compiler").chmod(0o755)
        words = ["make", "-s", "-C", TOOLS / "record", f"MPICC={self.folder}/compiler", f"OUT={self.folder}"]
        made = subprocess.Popen([*words, f"{self.folder}/counted.h"])
        sizes = set()
        while made.poll() is None:
            with contextlib.suppress(FileNotFoundError):
                sizes.add((self.folder / "mpi.i").stat().st_size)
            time.sleep(0.01)
        self.assertEqual(made.returncode, 0)
        self.assertLessEqual(sizes, {(self.folder / "mpi.i").stat().st_size})
        self.assertIn("Win_fence", self.read("counted.h"))


class Processes(unittest.TestCase):
    def test_the_status(self):
        self.assertEqual(watching.run_command(["sh", "-c", "exit 3"], None), (3, False))
        self.assertEqual(
            watching.run_command(["sh", "-c", "kill -SEGV $$"], None), (128 + signal.SIGSEGV, False)
        )

    def test_a_limit(self):
        with contextlib.redirect_stderr(io.StringIO()) as said:
            began = time.monotonic()
            status, was_ended = watching.run_command(["sh", "-c", "sleep 60 & sleep 60"], None, 0.3)
        self.assertTrue(was_ended)
        self.assertLess(time.monotonic() - began, 10)
        self.assertIn("ended after 0.3 seconds", said.getvalue())

    def test_signals_end_the_command_and_not_the_script(self):
        # A test run under nohup has a hangup ignored.
        self.addCleanup(signal.signal, signal.SIGHUP, signal.signal(signal.SIGHUP, signal.SIG_DFL))
        for number in (signal.SIGTERM, signal.SIGHUP):
            words = ["sh", "-c", f"kill -{int(number)} {os.getpid()}; sleep 60"]
            self.assertTrue(watching.run_command(words, None)[1])

    def test_a_hangup_that_is_ignored(self):
        """As nohup has it: it ends neither the script nor the command."""
        self.addCleanup(signal.signal, signal.SIGHUP, signal.signal(signal.SIGHUP, signal.SIG_IGN))
        words = ["sh", "-c", f"kill -HUP {os.getpid()} $$; sleep 0.5; exit 3"]
        self.assertEqual(watching.run_command(words, None), (3, False))

    def test_a_terminal_that_interrupts(self):
        words = ["sh", "-c", f"kill -{int(signal.SIGINT)} {os.getpid()}; exit 130"]
        with mock.patch.object(watching, "is_in_front", lambda: True):
            self.assertEqual(watching.run_command(words, None), (130, True))

    def test_what_does_not_end_by_itself(self):
        words = ["sh", "-c", "trap '' TERM; sleep 0.2; while :; do sleep 1; done"]
        with contextlib.redirect_stderr(io.StringIO()):
            self.assertTrue(watching.run_command(words, None, 0.5)[1])

    def test_a_watch(self):
        self.assertTrue(watching.run_command(["sleep", "60"], None, None, lambda: True)[1])

    def test_a_watch_that_fails_leaves_nothing_behind(self):
        begin, begun = subprocess.Popen, []

        def begin_and_note(*words, **more):
            begun.append(begin(*words, **more))
            return begun[0]

        with mock.patch.object(subprocess, "Popen", begin_and_note), self.assertRaises(ZeroDivisionError):
            watching.run_command(["sh", "-c", "sleep 60 & sleep 60"], None, None, lambda: 1 / 0)
        self.assertIn(watching.fields_of(begun[0].pid)[0], "ZX")
        begun[0].wait()


class Alarms(Folders):
    """Ranks that stood still are reported if they are held whatever the others do."""

    def setUp(self):
        super().setUp()
        self.now = 1000.0
        self.enterContext(mock.patch("time.monotonic", lambda: self.now))
        self.enterContext(mock.patch("socket.gethostname", lambda: "a-host"))
        self.said = self.enterContext(contextlib.redirect_stderr(io.StringIO()))

    def enterContext(self, context):
        value = context.__enter__()
        self.addCleanup(context.__exit__, None, None, None)
        return value

    def alarm(self, *ranks, state="i", stops=True, after=(), host=HERE):
        after = {rank: dict(after).get(rank, "") + host for rank in range(len(ranks))}
        self.run_of(*ranks, state=state, after=after)
        return Alarm(self.folder / "journal", Stored(), 10, stops)

    def answers(self, alarm, seconds=60):
        """When it says that the run is to be ended."""
        for second in range(seconds):
            if alarm.look():
                return second
            self.now += 1
        return None

    HANG = ("recv 0 1 5 @7", "recv 0 0 5 @7")

    def test_a_hang(self):
        alarm = self.alarm(*self.HANG)
        self.assertLessEqual(self.answers(alarm), 12)
        self.assertIn(
            "ranks 0 and 1 wait for ever, whatever the other ranks do; the run is ended:",
            self.said.getvalue(),
        )
        self.assertIn("rank 0 waits in MPI_Recv", self.said.getvalue())

    def test_collectives_that_differ(self):
        """Whatever the ranks do before, each of these hangs, and is ended."""
        order = "error: the ranks call collectives in a different order on MPI_COMM_WORLD"
        for ranks, held, error in (
            (("bcast 0 0 @1 / barrier 0 @2", "barrier 0 @3", "barrier 0 @3"), "ranks 0 to 2", order),
            (("gather 0 0 @1", "gather 0 1 @1"), "ranks 0 and 1", "error: the ranks disagree on the root of MPI_Gather"),
            (("ibarrier 1 0 @1 / wait 1 @2", "iscan 1 0 @1 / wait 1 @2"), "ranks 0 and 1", order),
            (("barrier 0 @1", "ibarrier 1 0 @1 / wait 1 @2"), "ranks 0 and 1", "error: the ranks match MPI_Barrier with"),
        ):  # fmt: skip
            with self.subTest(ranks):
                self.again()
                self.assertLessEqual(self.answers(self.alarm(*ranks)), 12)
                said = self.said.getvalue()
                self.assertIn(f"{held} wait for ever, whatever the other ranks do; the run is ended:\n  {error}", said)

    def test_collectives_that_may_still_match(self):
        for ranks, state, is_held in (
            (("barrier 0 @1", "barrier 0 @1"), "ii", False), (("barrier 0 @1", "ibarrier 1 0 @1"), "io", False),
            (("barrier 0 @1", "recv 0 null 0 @2"), "ii", False), (("barrier 0 @1", "bcast 0 0 @2"), "io", True),
        ):  # fmt: skip
            with self.subTest(ranks):
                self.again()
                ended = self.answers(self.alarm(*ranks, state=state))
                self.assertEqual(ended is not None, is_held)

    def test_a_checker_that_does_not_know_the_question(self):
        alarm = self.alarm(*self.HANG)
        run = alarm.judge.run
        said = subprocess.CompletedProcess([], 3, "", "error: unexpected argument '--held' found")
        alarm.judge.run = lambda words, folder: said if any("--held" in word for word in words) else run(words, folder)
        self.assertIsNone(self.answers(alarm))
        wanted = "nothing is reported before the run ends: this needs a newer checker than "
        self.assertEqual(self.said.getvalue().count(wanted), 1)

    def test_a_hang_and_a_call_that_is_only_counted(self):
        """Of a rank in such a call nothing is reported, and the others are."""
        alarm = self.alarm(*self.HANG, "send 0 null 0 4 @3 / barrier 1 @4", state="iio")
        self.write("journal/left2", "w 000000000001 MPI_Win_wait\n")
        self.assertLessEqual(self.answers(alarm), 12)
        self.assertIn("ranks 0 and 1 wait for ever", self.said.getvalue())

    def test_a_hang_of_one_rank(self):
        self.assertLessEqual(self.answers(self.alarm("recv 0 1 5 @7", "finalize @8", state="io")), 12)
        self.assertIn("rank 0 waits for ever, whatever the other ranks do; ", self.said.getvalue())

    def test_once_for_each_standstill(self):
        alarm = self.alarm(*self.HANG, stops=False)
        self.assertIsNone(self.answers(alarm))
        self.assertEqual(self.said.getvalue().count("wait for ever"), 1)
        self.assertIn("the run goes on", self.said.getvalue())

    def test_a_third_rank_that_goes_on(self):
        alarm = self.alarm(*self.HANG, "send 0 null 0 4")
        path = self.folder / "journal/journal2"
        for second in range(30):
            with open(path, "ab") as file:
                file.write(b"send 0 null 0 4\n")
            if alarm.look():
                break
            self.now += 1
        self.assertIn("ranks 0 and 1 wait for ever", self.said.getvalue())

    def test_a_partner_that_computes(self):
        self.assertIsNone(self.answers(self.alarm("recv 0 1 5 @7", "barrier 1 @7", state="io")))
        self.assertEqual(self.said.getvalue(), "")

    def test_ranks_that_poll(self):
        polls = " polls {:08x} {:02x} {:016x}"
        alarm = self.alarm("recv 0 1 5 @7", "barrier 1 @7", state="io", after={1: ""})
        for count in range(40):
            text = journal(1, 2, "barrier 1 @7", "o", "a library" + HERE + polls.format(1, 1, count))
            self.write("journal/journal1", text)
            self.assertFalse(alarm.look())
            self.now += 1
        self.assertEqual(self.said.getvalue(), "")

    def test_an_exchange_that_takes_long(self):
        self.assertIsNone(self.answers(self.alarm("send 0 1 5 1000 @7", "recv 0 0 5 @7")))

    def test_a_rank_whose_journal_is_full(self):
        self.assertIsNone(self.answers(self.alarm("recv 0 1 5 @7", "full")))

    def test_ranks_that_may_call_by_another_thread(self):
        self.assertIsNone(self.answers(self.alarm(*self.HANG, after={1: " multiple"})))
        self.assertEqual(self.said.getvalue(), "")

    def test_doubts(self):
        alarm = self.alarm(*self.HANG)
        self.write("journal/left1", "P 000000000003 calls of another thread\n")
        self.assertIsNone(self.answers(alarm))
        self.assertEqual(self.said.getvalue(), "")

    def test_another_rank_that_stands_still_later(self):
        alarm = self.alarm(*self.HANG, "send 0 null 0 4 @3 / barrier 1 @4", state="iio", stops=False)
        self.answers(alarm, 20)
        self.write(
            "journal/journal2", journal(2, 3, "send 0 null 0 4 @3 / barrier 1 @4", "i", "a library" + HERE)
        )
        self.answers(alarm, 100)
        self.assertEqual(self.said.getvalue().count("ranks 0 and 1 wait for ever"), 1)

    def test_other_machines(self):
        self.assertIsNone(self.answers(self.alarm(*self.HANG, host=" on elsewhere")))
        wanted = "nothing is reported before the run ends: some ranks are on other machines"
        self.assertIn(wanted, self.said.getvalue())
        self.assertEqual(self.said.getvalue().count("other machines"), 1)

    def test_what_fails_does_not_fail_the_run(self):
        for fault in (OSError(24, "Too many open files"), Stopped("the checker can't be run"), KeyError(7)):
            with self.subTest(fault):
                self.again()
                alarm = self.alarm(*self.HANG)
                with mock.patch.object(alarm.judge, "ask", side_effect=fault) as asked:
                    self.assertIsNone(self.answers(alarm))
                self.assertEqual(asked.call_count, 1)
                self.assertIn("nothing is reported before the run ends: ", self.said.getvalue())

    def test_ranks_that_go_on_while_they_are_judged(self):
        alarm = self.alarm(*self.HANG)
        ask = alarm.judge.ask

        def ask_and_go_on(*words, **more):
            answer = ask(*words, **more)
            for rank in (0, 1):
                self.write(f"journal/journal{rank}", self.read(f"journal/journal{rank}") + "barrier 1\n")
            return answer

        with mock.patch.object(alarm.judge, "ask", ask_and_go_on):
            self.assertIsNone(self.answers(alarm, 12))
        self.assertEqual(self.said.getvalue(), "")

    def test_a_third_rank_that_calls_while_they_are_judged(self):
        alarm = self.alarm(*self.HANG, "send 0 null 0 4")
        ask = alarm.judge.ask

        def call_and_ask(*words, **more):
            text = self.read("journal/journal2")
            self.write("journal/journal2", text.removesuffix("recv 0 0 9\n") + "recv 0 0 9\n")
            return ask(*words, **more)

        with mock.patch.object(alarm.judge, "ask", call_and_ask):
            self.assertLessEqual(self.answers(alarm), 12)
        self.assertIn("ranks 0 and 1 wait for ever", self.said.getvalue())

    def test_longer_pauses(self):
        alarm = self.alarm("recv 0 1 5 @7", "barrier 1 @7", state="io")
        asked = []
        ask = alarm.judge.ask
        with mock.patch.object(
            alarm.judge, "ask", lambda *words, **more: (asked.append(self.now), ask(*words, **more))[1]
        ):
            self.answers(alarm, 100)
        pauses = [after - before for before, after in zip(asked, asked[1:])]
        self.assertTrue(all(later >= 1.5 * first for first, later in zip(pauses, pauses[1:])), pauses)
        self.assertLessEqual(len(asked), 4)

    def test_another_standstill_does_not_wait_for_those_pauses(self):
        alarm = self.alarm("recv 0 1 5 @7", "barrier 1 @7", state="io")
        self.assertIsNone(self.answers(alarm, 200))
        for rank, calls in enumerate(self.HANG):
            self.write(f"journal/journal{rank}", journal(rank, 2, calls, "i", "a library" + HERE))
        self.assertLessEqual(self.answers(alarm), 12)

    def test_long_judgements_are_rare(self):
        alarm = self.alarm("recv 0 1 5 @7", "barrier 1 @7", state="io")
        asked = []

        def ask_for_long(*_, **__):
            asked.append(self.now)
            self.now += 5
            return Answer(5)

        with mock.patch.object(alarm.judge, "ask", ask_for_long):
            for second in range(200):
                text = f"{'send 0 null 0 4 / ' * (second // 20)}recv 0 1 5 @7"
                self.write("journal/journal0", journal(0, 2, text, "i", "a library" + HERE))
                alarm.look()
                self.now += 1
        self.assertTrue(all(after - before >= 50 for before, after in zip(asked, asked[1:])), asked)

    def test_lines_that_are_taken_out_again(self):
        alarm = self.alarm("barrier 1 @1 / recv 0 1 5 @7", "recv 0 0 5 @7")
        self.answers(alarm, 5)
        text = self.read("journal/journal0").replace("recv 0 1 5 @7\n", "")
        self.write("journal/journal0", text.encode() + b"\0" * 20)
        watched = alarm.watched[self.folder / "journal"]
        watched.look(self.now)
        self.assertEqual(watched.since[0], self.now)


if __name__ == "__main__":
    unittest.main()
