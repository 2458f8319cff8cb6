"""Runs a command to its end, or for as long as it may, and looks meanwhile for ranks that wait for ever."""

from __future__ import annotations

import bisect
import os
import signal
import socket
import subprocess
import time
from collections.abc import Iterable
from contextlib import suppress

from .causes import stuck_lines
from .differing import difference_lines, differences_of, error_of
from .journals import windows_in
from .outputs import runs_in
from .runs import Run, View
from .script import Stopped, end_tree, fields_of, grouped, ranks_named, say, why_of

STEP, PAUSE = 0.2, 1.0  # seconds between two looks at the command, and at the journals


def mark_of(path):
    """What a journal has at a time, by its content: the header with its letter, and where the text ends."""
    with open(path, "rb", buffering=0) as file:
        number, size = file.fileno(), os.fstat(file.fileno()).st_size
        end = bisect.bisect_left(range(size), True, key=lambda at: os.pread(number, 1, at) == b"\0")
        return os.pread(number, 1024, 0).partition(b"\n")[0], end


class Watched:
    """The ranks of a run, and since when each stands still."""
    def __init__(self, folder):
        self.run, self.marks, self.since, self.reported, self.still = folder, {}, {}, None, None
        self.folder = folder  # of the last window, if there are some
        # Until when nothing is judged, and that for any standstill; and how long the next pause is.
        self.until, self.rest, self.pause = 0.0, 0.0, 0.0

    def look(self, now):
        last = windows_in(self.run)[-1:]
        if last and self.folder != self.run / str(*last):
            self.folder, self.marks = self.run / str(*last), {}
        for path in self.folder.glob("journal[0-9]*"):
            with suppress(FileNotFoundError):  # a window that was judged
                self.look_at(int(path.name[7:]), mark_of(path), now)

    def look_at(self, rank, mark, now):
        if self.marks.get(rank) != mark:
            self.marks[rank], self.since[rank] = mark, now


class Alarm:
    def __init__(self, folder, judge, quiet, stops):
        self.folder, self.judge, self.quiet, self.stops = folder, judge, quiet, stops
        self.next, self.is_off, self.watched = 0.0, False, {}

    def look(self):
        """Looks at all ranks. Answers whether the run is to be ended. It goes on whatever fails here."""
        now = time.monotonic()
        if now < self.next or self.is_off:
            return False
        self.next = now + PAUSE
        try:
            for folder in runs_in(self.folder):
                self.watched.setdefault(folder, Watched(folder))
            return any([self._look_at(run, now) for run in self.watched.values()]) and self.stops
        except Exception as fault:
            self.is_off = all(one.folder.exists() for one in self.watched.values())
            if self.is_off:  # else a window was judged and removed meanwhile
                say(f"nothing is reported before the run ends: {why_of(fault)}")
            return False

    def _look_at(self, watched, now):
        watched.look(now)
        still = {rank: mark for rank, mark in watched.marks.items()
                 if watched.since[rank] <= now - self.quiet and b" i " in mark[0]}  # fmt: skip
        if still != watched.still:  # another standstill doesn't wait for the pauses of the last one
            watched.still, watched.until, watched.pause = still, watched.rest, self.quiet
        if not still or now < watched.until:
            return False
        run = Run(watched.folder)
        if {os.fsencode(socket.gethostname())} != {one.header.host for one in run.journals if one.header}:
            raise Stopped("some ranks are on other machines")
        view, held = self._held(run, still)
        marks = {rank: watched.marks[rank] for rank in held}
        watched.rest = time.monotonic() + 9 * (time.monotonic() - now)  # one tenth of the time judges
        watched.look(now)
        have_moved = any(watched.marks.get(rank) != mark for rank, mark in marks.items())
        if not held or have_moved or marks == watched.reported:
            watched.until = max(watched.rest, time.monotonic() + watched.pause)
            watched.pause *= 2
            return False
        watched.reported, wait = marks, "waits" if len(held) == 1 else "wait"
        end = "the run is ended" if self.stops else "the run goes on; --stop would end it"
        said = [f"{ranks_named(held)} {wait} for ever, whatever the other ranks do; {end}:"]
        say("\n  ".join(said + self._reasons(view, held)))
        return True

    def _held(self, run: Run, still: Iterable[int]) -> tuple[View | None, set[int]]:
        """Which of the ranks that make no progress inside a call are held, whatever calls the others make,
        and a view of all. A rank that called MPI_Finalize makes no further call, asked or not."""
        still = {rank for rank in still if not run.journals[rank].header.is_multiple}  # else threads may call
        if not still or run.count("P"):
            return None, set()
        answer = self.judge.ask_held(run.folder, still, calls="went")
        if not self.judge.knows_held:
            self.is_off = True
            say(f"nothing is reported before the run ends: this needs a newer checker than {self.judge.path}")
        if answer.report is None or "held" not in answer.report:
            return None, set()
        return View(run, answer.report), still & set(answer.report["held"])

    def _reasons(self, view: View, held: set[int]) -> list[str]:
        """Collective calls that differ, and for what the held ranks wait."""
        answer, lines = self.judge.ask_held(view.run.folder), []
        differences = differences_of(View(view.run, answer.report) if answer.report else None, view)
        if differences:
            lines = [f"error: {error_of(differences)}"]
            lines += [f"  {line}" for line in difference_lines(differences)]
        waiting = [rank for rank in sorted(held) if rank in view.stuck]
        lines += [line for rank in waiting[:8] for line in stuck_lines(view.stuck[rank])]
        lasts = {rank: view.run.journals[rank].last.placed() for rank in sorted(held - set(waiting))}
        for ranks in grouped(lasts, lasts.get):
            lines.append(f"{ranks_named(ranks)} {'is' if len(ranks) == 1 else 'are'} in {lasts[ranks[0]]}")
        return lines


def is_in_front():
    """Whether a terminal interrupts all that run with this script by itself."""
    fields = fields_of(os.getpid())
    return len(fields) > 5 and fields[2] == fields[5]


def run_command(command, environment, limit=None, watch=None, at_end=lambda: None):
    """Its status, and whether it was ended. `watch' is called now and then, and answers whether to end it.
    Signals end the command and not this script, so that what was recorded is judged. `at_end' is called
    before it is ended."""
    seen, asked, began, child = [], [], time.monotonic(), None
    variable = next((word for word in command if word.startswith("MPIWAIT_JOURNAL=")), "")

    def is_ending(what):
        if not seen:
            at_end()
        seen.append(what)

    def end(number, _):
        is_ending(number)
        asked.extend([] if number == signal.SIGINT and is_in_front() else [number])

    more = [signal.SIGHUP] if signal.getsignal(signal.SIGHUP) != signal.SIG_IGN else []  # nohup ignores it
    before = {one: signal.signal(one, end) for one in (signal.SIGTERM, signal.SIGINT, *more)}
    try:
        child = subprocess.Popen(command, env=environment)
        while child.returncode is None:
            with suppress(subprocess.TimeoutExpired):
                child.wait(STEP)
                break
            if limit is not None and time.monotonic() - began > limit:
                say(f"the run was ended after {limit:g} seconds")
                limit = asked.append(limit)  # once
            if asked or watch and watch():
                asked.clear()
                is_ending(True)
                end_tree(child.pid, variable=variable)
    finally:
        if child and child.returncode is None:  # something failed
            end_tree(child.pid, variable=variable)
        for number, handler in before.items():
            signal.signal(number, handler or signal.SIG_DFL)
    return child.returncode if child.returncode >= 0 else 128 - child.returncode, bool(seen)
