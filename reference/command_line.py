"""The whole program: what it answers to the words of a command line."""

import os
import resource
import signal
import sys
from contextlib import suppress
from pathlib import Path
from types import FrameType

from .checks import checked, files_of, linted
from .disk import Disk
from .lists import Choice
from .recordings import Recording, recording_in
from .reports import STATUSES, json_of, text_of
from .texts import Named
from .waits import Report
from .words import Asked, Wrong, asked_by

TEXTS = Path(__file__).resolve().parents[1] / "tools/texts"
Answer = tuple[int, str, str]  # the status, and what goes to both outputs


def answer(words: list[str], disk: Disk) -> Answer:
    """What is answered to these words."""
    try:
        asked = asked_by(words, len(words) == 1 and disk.is_folder(words[0]))
        status, said = answer_asked(asked, disk)
    except Named as named:
        line = named.text + "\n"
        return (2, line, "") if named.status == 2 else (named.status, "", line)
    except MemoryError:
        return 4, "", "fault memory\n"
    return status, said, ""


def answer_asked(asked: Asked, disk: Disk) -> tuple[int, str]:
    """The status, and what goes to standard output."""
    if asked.text:
        return 0, (TEXTS / asked.text).read_text(encoding="utf-8")
    if asked.command == "lint":
        return 0, f"lint ok {linted(disk, asked.paths[0])}\n"
    if asked.command == "close":
        disk.write_folder(asked.paths[1], recording_of(asked, disk).texts())
        return 0, ""
    report = check(asked, disk) if asked.command == "check" else judge(asked, disk)
    return STATUSES[str(report["verdict"])], json_of(report) if "--json" in asked.options else text_of(report)


def check(asked: Asked, disk: Disk) -> Report:
    head, *files = asked.paths
    if not files:
        if not disk.is_folder(head):
            raise Wrong(f"`check' takes HEAD FILE.. or a FOLDER, and there is no folder `{head}'")
        head, *files = files_of(disk, head)
    return checked(disk, head, files, asked.number("--eager"))


def recording_of(asked: Asked, disk: Disk) -> Recording:
    tests, calls = asked.options.get("--tests", "wait"), asked.options.get("--calls", "strict")
    return recording_in(disk, asked.paths[0], Choice(tests, calls, has_undetermined=asked.command == "judge"))


def recorded_by(words: list[str]) -> Recording:
    """The recording that `judge' or `close' makes for these words. Raises Named in place of a report."""
    return recording_of(asked_by(words, False), Disk())


def judge(asked: Asked, disk: Disk) -> Report:
    return recording_of(asked, disk).report(asked.number("--eager"), asked.ranks())


# ---- The process ---------------------------------------------------------------------------------


def put(number: int, text: str) -> None:
    left = os.fsencode(text)
    while left:
        left = left[os.write(number, left) :]


def interrupted(number: int, frame: FrameType | None) -> None:
    raise Named("mpiwait: it was interrupted", 4)


def heed_signals() -> None:
    """They end it with status 4. `env' blocks them while Python starts."""
    signals = (signal.SIGINT, signal.SIGTERM, signal.SIGHUP)
    for number in signals:
        if signal.getsignal(number) != signal.SIG_IGN:  # as nohup has it
            signal.signal(number, interrupted)
    signal.pthread_sigmask(signal.SIG_UNBLOCK, signals)


def open_many() -> None:
    """A check has one file a rank open at once."""
    with suppress(OSError, ValueError):
        hard = resource.getrlimit(resource.RLIMIT_NOFILE)[1]
        resource.setrlimit(resource.RLIMIT_NOFILE, (hard, hard))


def written(answered: Answer) -> int:
    """Writes both outputs. Answers the status: that of a fault where standard output can't be written."""
    status, out, err = answered
    try:
        put(1, out)
    except OSError:
        status, err = 4, "fault write\n"
    put(2, err)
    return status


def end(words: list[str]) -> None:
    """Ends the process with the status of these words."""
    status = 4
    try:
        heed_signals()
        open_many()
        status = written(answer(words, Disk()))
    except Named as named:  # it was interrupted
        put(2, named.text + "\n")
    except BaseException as why:  # whatever it is, its status is no verdict
        put(2, f"mpiwait: it failed: {why!r}\n")
    finally:
        sys.stderr = None
        os._exit(status)
