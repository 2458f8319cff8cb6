"""How the scripts of tools/ take their words and end; and ranks, counts and lists in words."""

import argparse
import os
import re
import signal
import sys
import time
import traceback
from collections import Counter
from contextlib import suppress
from enum import IntEnum
from itertools import groupby
from pathlib import Path

HERE = Path(__file__).resolve().parent
# The statuses of all tools. `mpiwait judge` has those up to UNFINISHED.
Status = IntEnum("S", "FREE HANG REFUSED WORDS IMPOSSIBLE UNFINISHED NOT_JUDGED DIFFERENT FAILED", start=0)
MOST = 12  # lines of one section, and parts of a list of ranks
ORDER = "432167850"  # of several statuses the first of these is the script's
LAUNCHERS = rb"mpirun|mpiexec|orterun|prterun|srun|aprun|jsrun"  # how their names begin
LEADERS_ALONE = 2  # seconds that a launcher has to end its ranks
SIGNALS = (signal.SIGINT, signal.SIGTERM, signal.SIGHUP)
ENDING = []  # the signal that ends the script: from then on no thread starts anything


def worst(statuses):
    return min(statuses, key=lambda status: ORDER.index(str(int(status))))


class Stopped(Exception):
    """A script can't do what it was asked for: why, and its status."""
    def __init__(self, why, status=Status.IMPOSSIBLE):
        super().__init__(why)
        self.status = status


class Words(argparse.ArgumentParser):
    """The words of a script. Wrong ones end it with status 3."""
    def __init__(self, text, **more):
        form = argparse.RawDescriptionHelpFormatter
        super().__init__(description=text, formatter_class=form, allow_abbrev=False, **more)

    def error(self, message):
        self.print_usage(sys.stderr)
        raise Stopped(message, Status.WORDS)


def say(text):
    """Writes to standard error, which may be closed."""
    with suppress(OSError, ValueError, AttributeError):
        print(f"tools/{Path(sys.argv[0]).name}: {text}", file=sys.stderr, flush=True)


def fields_of(process):
    """What the system says of a process after its name: its state, its parent, .."""
    try:
        with open(f"/proc/{process}/stat", encoding="ascii", errors="replace") as file:
            return file.read().rpartition(")")[2].split()
    except OSError:
        return ["X", ""]


def processes() -> list[int]:
    return [int(one) for one in os.listdir("/proc") if one.isdecimal()]


def text_of(process: int, name: str) -> bytes:
    """A file of the system about a process; nothing if it has ended, or is another user's."""
    try:
        return Path(f"/proc/{process}/{name}").read_bytes()
    except OSError:
        return b""


def leaders_in(tree: list[int], parents: dict[int, int]) -> list[int]:
    """The launchers among some processes, and what they were started by."""
    leaders = set()
    for process in (one for one in tree if re.match(LAUNCHERS, text_of(one, "comm"))):
        while process in tree:
            leaders.add(process)
            process = parents[process]
    return [one for one in tree if one in leaders]


def end_all(number: int, running: list[int], seconds: float) -> list[int]:
    """Sends a signal to processes, and answers those that still run after a time."""
    until = time.monotonic() + seconds
    for process in running:
        with suppress(OSError):
            os.kill(process, number)
    while running and time.monotonic() < until:
        time.sleep(0.1)
        running = [process for process in running if fields_of(process)[0] not in "ZX"]
    return running


def end_tree(root: int, without_root: bool = False, variable: str = "") -> None:
    """Ends what was started on this machine. First the launcher, which ends the ranks, here and on other
    machines: it may crash if they end by themselves. What is still there after 2 seconds is ended too, and
    each process that has some variable, NAME=VALUE."""
    parents = {one: int(fields_of(one)[1] or 0) for one in processes()}
    tree = [root]
    for process in tree:  # which grows
        tree += [one for one, parent in parents.items() if parent == process]
    tree = tree[without_root:]
    first = leaders_in(tree, parents) or ([] if without_root else tree[:1])
    if first:
        end_all(signal.SIGTERM, first, 0)
        tree = end_all(0, tree, LEADERS_ALONE)
    if variable:
        marked = [one for one in processes() if variable.encode() in text_of(one, "environ").split(b"\0")]
        tree += [one for one in marked if one not in tree]
    end_all(signal.SIGKILL, end_all(signal.SIGTERM, tree, 5), 1)


def interrupted(ending, _):
    """A signal ends what the script has started, also in other sessions, and then the script."""
    for number in SIGNALS:
        signal.signal(number, signal.SIG_IGN)
    ENDING.append(ending)
    for _ in range(2):  # a thread may start something meanwhile, once
        end_tree(os.getpid(), without_root=True)
    raise KeyboardInterrupt


def why_of(fault):
    if isinstance(fault, (Stopped, KeyboardInterrupt)):
        return str(fault) or "it was interrupted"
    if isinstance(fault, OSError):
        return f"{fault.strerror}: {fault.filename}" if fault.filename else str(fault)
    at = traceback.extract_tb(fault.__traceback__)[-1]
    return f"it failed, most likely by the form of what it was given: {fault!r} at {at.filename}:{at.lineno}"


def run_script(main):
    """Runs a script and ends it: with 4, if a file, the output or what it was given fails it."""
    sys.stdin = sys.stdin or open(os.devnull, encoding="ascii")  # first: it takes the number of its place
    sys.stderr, status = sys.stderr or open(os.devnull, "w", encoding="ascii"), 0
    try:
        for number in SIGNALS:
            if signal.getsignal(number) != signal.SIG_IGN:  # as nohup has it
                signal.signal(number, interrupted)
        signal.pthread_sigmask(signal.SIG_UNBLOCK, SIGNALS)  # which `env' blocks while Python starts
        if sys.stdout is None:
            raise Stopped("there is no standard output")
        sys.stdout.reconfigure(errors="backslashreplace")
        with suppress(SystemExit):  # after the help
            status = main(sys.argv[1:])
        sys.stdout.flush()
    except (Exception, KeyboardInterrupt) as fault:
        status = getattr(fault, "status", Status.IMPOSSIBLE)
        if not isinstance(fault, BrokenPipeError):  # then the reader wants no more
            say(why_of(fault))
    with suppress(OSError):
        sys.stderr.flush()
    os._exit(int(status))  # if standard error is full, Python would end with another one


def plural(count, one, many=None):
    return f"{count:,} {one if count == 1 else many or one + 's'}"


def ordinal(number: int) -> str:
    """1st, 2nd, 3rd, .."""
    ending = {1: "st", 2: "nd", 3: "rd"}.get(number % 10, "th") if number // 10 % 10 != 1 else "th"
    return f"{number:,}{ending}"


def listed(parts):
    return " and ".join(filter(None, [", ".join(parts[:-1]), parts[-1]]))


def numbers(ranks):
    """`0 to 36 and 38`: three or more in a row in short."""
    ranks = sorted(ranks)
    parts, named = [], 0
    for _, row in groupby(enumerate(ranks), lambda pair: pair[1] - pair[0]):
        row = [rank for _, rank in row]
        if len(parts) >= MOST:
            return listed([*parts, f"{len(ranks) - named} more"])
        parts += [f"{row[0]} to {row[-1]}"] if len(row) > 2 else map(str, row)
        named += len(row)
    return listed(parts)


def ranks_named(ranks):
    ranks = list(ranks)
    return f"rank {ranks[0]}" if len(ranks) == 1 else f"ranks {numbers(ranks)}" if ranks else "no rank"


def shortened(lines, most=MOST):
    lines = list(lines)
    return lines if len(lines) <= most else lines[:most] + [f".. and {len(lines) - most:,} more"]


def counted(texts):
    """Each text once, with how many are alike."""
    return [text + (f" ({count:,} alike)" if count > 1 else "") for text, count in Counter(texts).items()]


def grouped(items, key_of):
    """Lists of items with the same key, in the order of their first ones."""
    groups = {}
    for item in items:
        groups.setdefault(key_of(item), []).append(item)
    return list(groups.values())
