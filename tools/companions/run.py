"""What the scripts do: tools/run records a run, judges it and reports; tools/limits judges it by limits."""

import bisect
import fcntl
import os
import shlex
import shutil
import time
from argparse import SUPPRESS, Action, ArgumentParser
from pathlib import Path

from .outputs import OUTPUTS, remove_old, report, runs_in
from .recorder import library_of, with_recorder
from .runs import MOST_BYTES, VERDICTS, Judge
from .script import HERE, Status, Stopped, Words, plural, say, worst
from .watching import Alarm, run_command
from .windows import Judging, Windows, kept_runs, stories_of

TEXT = """Records a run of an MPI program, judges it, and reports which calls wait, with lines of code.

    mpiwait run [OPTIONS] mpirun -n 4 ./program
    mpiwait run [OPTIONS] --again

The status is 0 free, 1 hang, 2 refused, 3 words, folder or installation, 4 something couldn't be recorded,
judged or written, 5 unfinished, 6 not judged, 7 the ranks disagree on a collective call, 8 the program
failed. MPIWAIT names a checker."""
# The lines of a window, by default and at most; a journal has 1,000,000 calls. With 0 there are no windows.
LINES, MOST_LINES = 200_000, 800_000
LIMITS = """Finds the least N of --eager N at which a recorded run can't hang. FOLDER is that of
`mpiwait run'.

It judges by 0 and by sizes of standard sends, since between two of these no verdict changes: by halves, or
all if ranks were cut off. The status is 0 if some limit is free, else 1 if some hangs, else 5; 2, 3 and 4
are as for `mpiwait run'. Of windows it judges those that are kept. The status is 6 if others weren't judged
strictly with that limit, or calls weren't recorded that recorded ones may match."""


class ShowVersion(Action):
    """Shows the version that the program has too."""
    def __call__(self, parser: ArgumentParser, *of_option: object) -> None:
        print((HERE.parent / "texts/version").read_text(encoding="ascii"), end="")
        parser.exit()


def add_times(add) -> None:
    """The options that take seconds, by their names and by their old ones, which no help shows."""
    add("--timeout", type=float, dest="limit", metavar="SECONDS", help="end the run after that time")
    add("--for", type=float, dest="limit", help=SUPPRESS)
    stands = "report ranks that make no call for so long, and are deadlocked"
    add("--stalled", type=float, default=10, metavar="SECONDS", help=stands)
    add("--quiet", type=float, dest="stalled", default=10, help=SUPPRESS)


def words_of(argv):
    parser = Words(TEXT, prog="mpiwait run", usage="mpiwait run [OPTIONS] (COMMAND .. | --again)")
    add = parser.add_argument
    add("--again", action="store_true", help="judge the recording in FOLDER, and run nothing")
    add("--version", action=ShowVersion, nargs=0, help="show the version")
    add("--unproved", action="store_true", help="judge by the reference, if no proved program is built")
    add("--folder", type=Path, default="mpiwait-run", help="where the recording goes")
    add_times(add)
    add("--stop", action="store_true", help="end the run when ranks wait for ever")
    add("--frames", type=int, choices=range(17), metavar="N", help="note N callers of each call (default: 1)")
    add("--mpi", choices=("mpich", "openmpi"), help="the MPI library, if the command doesn't show it")
    add("--strict", action="store_true", help="pass standard sends on as synchronous ones")
    add("--eager", metavar="N", type=int, help="sends of at most N bytes are buffered")
    add("--window", metavar="N", type=int, help=f"judge windows of N lines meanwhile ({LINES}; 0: none)")
    add("--keep", action="store_true", help="keep windows that are free too")
    for name, (*_, text) in OUTPUTS.items():
        add(f"--{name}", metavar="FILE", type=Path, help=f"write {text} to FILE")
    add("command", nargs="...", metavar="COMMAND", help="what runs the program")
    words = parser.parse_args(argv)
    words.files = {name: getattr(words, name) for name in OUTPUTS if getattr(words, name)}
    words.unproved = words.unproved and not os.environ.get("MPIWAIT")
    words.command = words.command[words.command[:1] == ["--"] :]
    if not (1 if words.limit is None else words.limit) > 0 or not words.stalled > 0:
        parser.error("--timeout and --stalled take a number of seconds above 0")
    if len(set(map(os.path.abspath, words.files.values()))) < len(words.files):
        parser.error("two outputs can't have one file")
    if not 0 <= (words.eager or 0) <= MOST_BYTES:
        parser.error(f"--eager takes a number of bytes up to {MOST_BYTES}")
    if not 0 <= (words.window or 0) <= MOST_LINES:
        parser.error(f"--window takes a number of lines up to {MOST_LINES}")
    if words.window is None:
        words.window = 0 if words.again else LINES
    if not words.again and not words.command:
        parser.error("which run? As in: mpiwait run mpirun -n 4 ./program; --help says more")
    given = [words.command, words.limit, words.frames is not None, words.mpi, words.strict, words.stop]
    if words.again and any([*given, words.window]):
        parser.error("--again runs nothing: no command, --timeout, --frames, --mpi, --strict, --stop, "
                     "--window")  # fmt: skip
    return words


def hold(folder):
    """The folder is this script's alone until it ends. What it runs doesn't inherit the lock."""
    held = os.open(folder, os.O_RDONLY | os.O_CLOEXEC)
    try:
        fcntl.flock(held, fcntl.LOCK_EX | fcntl.LOCK_NB)
    except BlockingIOError:
        why = f"another tools/run has {folder} in use: wait for its end, or name another folder by --folder"
        raise Stopped(why, Status.WORDS) from None
    except OSError:  # this file system has no locks
        pass
    return held


def look_at_folder(folder):
    """One of the program's own is never touched."""
    if os.path.lexists(folder) and not (folder / ".mpiwait-run").exists():
        raise Stopped(f"{folder} is there, and no run made it: name another by --folder", Status.WORDS)


def make_folder(folder):
    """An empty folder, but for a mark that a run made it."""
    mark = folder / ".mpiwait-run"
    look_at_folder(folder)
    folder.mkdir(parents=True, exist_ok=True)
    held = hold(folder)
    for one in folder.iterdir():
        if one != mark:
            shutil.rmtree(one) if one.is_dir() and not one.is_symlink() else one.unlink()
    mark.touch()
    (folder / "journal").mkdir()
    return held


class Failures:
    """What the recorder noted of calls that failed. What fails once this script ends it doesn't count."""
    def __init__(self, folder: Path) -> None:
        self.folder, self.before = folder, None

    def found(self) -> set[Path]:
        return set(self.folder.glob("failed*")) | set(self.folder.glob("run-*/failed*"))

    def note(self) -> None:
        self.before = self.found()

    def drop(self) -> None:
        for path in self.found() - self.before if self.before is not None else ():
            path.unlink(missing_ok=True)


def main(argv):
    words, began, status, found = words_of(argv), time.monotonic(), 0, {}
    folder = Path(os.path.abspath(words.folder))
    remove_old(words.files.values())
    if not words.again:
        look_at_folder(folder)
        library, frames = words.mpi or library_of(words.command), 1 if words.frames is None else words.frames
        run = with_recorder(words.command, library, folder / "journal", frames, words.strict, words.window)
        Judge(words.unproved).try_out(words.window)
        make_folder(folder)
        alarm = Alarm(folder / "journal", Judge(words.unproved, nice=1), words.stalled, words.stop)
        judging = Judging(folder / "journal", Judge(words.unproved, nice=10), words.keep, words.eager)
        judging.thread.start() if words.window else None
        looks, failures = [judging.look, alarm.look], Failures(folder / "journal")
        watch = [words.limit, lambda: any([look() for look in looks]), failures.note]
        status, was_ended = run_command(*run, *watch)
        failures.drop()
        found = judging.end() if words.window else {}
        if status and not was_ended:
            say(f"the run ended with status {status}")
        status = 0 if was_ended else status
    elif (folder / "journal").is_dir():
        hold(folder)
    else:
        raise Stopped(f"{folder} has no recording", Status.WORDS)
    runs = runs_in(folder / "journal")
    if not runs:
        raise Stopped("nothing was recorded: no rank came through MPI_Init with the recorder; if it runs on "
                      "other machines, see `several machines' in tools/README.md")  # fmt: skip
    judge, name = Judge(words.unproved), shlex.join(words.command) or str(folder)
    more = {"eager": words.eager, "program_status": status}
    more |= {"name": name, "seconds": time.monotonic() - began}
    stories = [story for one in runs for story in stories_of(one, judge, found.get(one), **more)]
    return report(stories, words.files)


def try_limits(runs):
    """Judges runs or windows by limits, and prints verdicts. Answers those that are free, and the status."""
    journals, judge, tried = [one for run in runs for one in run.journals], Judge(), {}
    sizes = sorted({0}.union(*(one.sizes() for one in journals)))
    has_ended = all(run.has_ended for run in runs)

    def is_free(limit):
        answers = [judge.ask(run.folder, eager=limit) for run in runs]
        status = worst([one.status for one in answers])
        answer = next(one for one in answers if one.status == status)
        if answer.report is None:
            print(answer.said, flush=True)
            raise Stopped("this run can't be judged", answer.status)
        print(f"{'none' if limit is None else limit:<7} {VERDICTS[answer.status]}", flush=True)
        tried[limit] = answer.status
        return answer.status == Status.FREE

    print("limit   verdict")
    if not is_free(None) and has_ended:  # the limits at which the run is free are the last ones
        bisect.bisect_left(sizes, True, key=is_free)
    elif not has_ended:
        list(map(is_free, sizes))
    free = [limit for limit, status in tried.items() if status == Status.FREE]
    return free, Status.FREE if free else worst(tried.values())


def limits_main(argv):
    parser = Words(LIMITS, prog="mpiwait limits")
    parser.add_argument("--version", action=ShowVersion, nargs=0, help="show the version")
    parser.add_argument("folder", metavar="FOLDER", type=Path)
    folder = parser.parse_args(argv).folder
    if (folder / "journal").is_dir():
        hold(folder)
        folder = folder / "journal"
    tops = runs_in(folder)
    if folder not in tops:
        raise Stopped(f"{folder} has no journals", Status.WORDS)
    runs = [run for top in tops for run in kept_runs(top)]
    if any(run.count("P") for run in runs):
        raise Stopped("recorded calls may match calls that weren't recorded", Status.NOT_JUDGED)
    free, status = try_limits(runs)
    least = None if not free or None in free else min(free)
    unjudged = sum(Windows(top, None, eager=least).unjudged() for top in tops) if free else 0
    if unjudged:
        print(f"{plural(unjudged, 'window')} that {'is' if unjudged == 1 else 'are'} gone may hang: "
              "tools/run --keep keeps all")  # fmt: skip
        return Status.NOT_JUDGED
    if least is None:
        print("the verdict is free without a limit" if free else "no limit has the verdict free")
    else:
        print(f"the least limit with the verdict free is {least}")
    return status
