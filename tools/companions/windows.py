"""The windows of a run: judged and removed while the run goes on. tools/record/windows.h says when they end.

A window is closed once the journals of all ranks end with `cut'. If it is free, all that was before the next
one is, and can be forgotten. The first one that isn't free stays, and those after it are judged as they went
alone. What was found of those that are gone is in the file `windows' of the run.
"""

import json
import os
import shutil
import threading
from collections import Counter
from contextlib import suppress

from .journals import begin_first, is_closed, journals_in, windows_in
from .outputs import runs_in
from .runs import Run
from .script import ENDING, Status, Stopped, plural, say, why_of
from .story import Story

MOST_WAITING, PAUSE = 8, 0.1  # closed windows; seconds
REMOVED = f"removed without a judgement, since more than {MOST_WAITING} waited"
FREE = "nobody waits there for ever"
BY_TESTS = "would hang only if nothing else is done until a test succeeds"
DIFFER = "the ranks disagree on a collective"
OTHERWISE = "judged with another --eager, or as they went alone, and aren't kept (--keep keeps them)"


class Windows:
    """The windows of one run, and what was found of those that are closed."""
    def __init__(self, folder, judge, keeps=False, eager=None):
        self.folder, self.judge, self.keeps, self.eager = folder, judge, keeps, eager
        self.lock, self.closed, self.done, self.odd = threading.RLock(), set(), set(), []
        self.first = self.differs = None  # those that stay: not free; free, but its collectives disagree
        self.found = Counter()  # how many were judged, their calls, which are by tests alone, ..
        noted = {}
        with suppress(OSError, ValueError):
            noted = json.loads((folder / "windows").read_text(encoding="ascii"))
        # By which limit those were judged that aren't there any more, and what was found of them.
        self.limit, self.gone = noted.pop("eager", eager), Counter(noted)

    def count(self, what):
        return self.found[what] + self.gone[what]

    def waiting(self):
        """Those that are closed and wait to be judged."""
        numbers = [one for one in windows_in(self.folder)[:-1] if one not in self.done]
        open_ones = [one for one in numbers if one not in self.closed]
        self.closed |= {one for one in open_ones if is_closed(self.folder / str(one))}
        return [one for one in numbers if one in self.closed]

    def drop(self):
        """At most so many wait: those that come later are removed."""
        with self.lock:
            for number in [] if self.keeps else self.waiting()[MOST_WAITING:]:
                self.done.add(number)
                self.remove(number, Counter(removed=1))

    def remove(self, number, found):
        """Counts what was found of a window, and removes it, if it needn't be kept."""
        is_gone = not self.keeps and number not in (self.first, self.differs)
        with self.lock:
            (self.gone if is_gone else self.found).update(found)
            if is_gone:
                self.note()
                with suppress(OSError):  # without some of its journals it would be taken for the last one
                    shutil.rmtree((self.folder / str(number)).rename(self.folder / f"removed-{number}"))

    def note(self):
        new = self.folder / "windows.new"
        with suppress(OSError):  # if the disk is full, it is noted once there is room
            new.write_text(json.dumps(dict(self.gone, eager=self.limit)) + "\n", encoding="ascii")
            os.replace(new, self.folder / "windows")

    def catch_up(self):
        """Judges those that wait. Answers whether there were any."""
        with self.lock:
            number = next(iter(self.waiting()), None)
            self.done.add(number)
        if number is None:
            return False
        try:
            journals = journals_in(self.folder / str(number))
            found = Counter(calls=sum(one.count() for one in journals), judged=1)
            found[(self.judge_strictly if self.first is None else self.judge_as_it_went)(number)] += 1
        except Exception as fault:
            if ENDING:  # the window stays
                return False
            say(f"window {number} can't be judged: {why_of(fault)}")
            found = Counter(failed=1)
        self.remove(number, found)
        return True

    def ask(self, number, **words):
        answer = self.judge.ask(self.folder / str(number), **words)
        if answer.status == Status.IMPOSSIBLE:
            raise Stopped(answer.said)
        return answer

    def judge_strictly(self, number):
        """Answers what it is: free, by_tests (a hang by these alone), different or first."""
        answer = self.ask(number, eager=self.eager)
        if answer.status == Status.FREE and not answer.report["findings"]:
            return "free"
        story = Story(self.folder / str(number), self.judge, eager=self.eager)
        if story.status in (Status.FREE, Status.NOT_JUDGED):
            return "by_tests" if story.by_tests else "free"
        is_free = story.status == Status.DIFFERENT and story.verdict == "free"
        if not is_free or self.differs is None:
            _, lines = next(iter(story.sections), ("", []))
            say("\n  ".join([f"window {number} of {self.folder.name}: {story.title}", *lines[:12]]))
        if is_free:
            self.differs = self.differs or number
            return "different"
        self.first = number
        return "first"

    def judge_as_it_went(self, number):
        answer = self.ask(number, calls="went")
        if answer.status != Status.FREE:
            self.odd.append(f"window {number}: {answer.said or 'not free as it went'}")
        return "later"

    # ---- What is said ----

    def last(self):
        """The window that isn't closed: the last one."""
        numbers = windows_in(self.folder)
        return next((one for one in numbers if not is_closed(self.folder / str(one))), numbers[-1])

    def judged_otherwise(self):
        """How many that are gone weren't judged strictly with this limit."""
        is_less = self.limit is not None and (self.eager is None or self.eager < self.limit)
        strictly = sum(self.gone[what] for what in ("free", "by_tests", "different"))
        return strictly * is_less + self.gone["later"] * (self.first is None)

    def missing(self):
        """How many are neither there nor noted, as of a recording in part: a window is closed once
        the next one is there."""
        numbers = windows_in(self.folder) or [0]
        known = len(numbers) + sum(self.gone[what] for what in ("judged", "removed", "failed"))
        return max(0, numbers[-1] + is_closed(self.folder / str(numbers[-1])) - known)

    def unjudged(self):
        return self.count("removed") + self.count("failed") + self.judged_otherwise() + self.missing()

    def counts(self):
        counts = {what: self.count(what) for what in ("judged", "calls")}
        return counts | {"unjudged": self.unjudged(), "first": self.first, "different": self.differs}

    def lines(self):
        judged, by_tests, differ, failed = map(self.count, ("judged", "by_tests", "different", "failed"))
        counts = f"{plural(judged, 'window')} of {plural(self.count('calls'), 'call')}"
        counts += f" {'was' if judged == 1 else 'were'} judged before the last one"
        free = f"window {self.first} was the first that isn't free" if self.first else FREE
        yield from [f"{counts}: {free}"] if judged else []
        yield from [f"{plural(by_tests, 'window')} {BY_TESTS}"] if by_tests else []
        yield from [f"{DIFFER} in {plural(differ, 'window')}"] if differ else []
        for count, what in ((self.count("removed"), REMOVED), (self.judged_otherwise(), OTHERWISE)):
            yield from [f"{plural(count, 'window was', 'windows were')} {what}"] if count else []
        yield from [f"{plural(failed, 'window')} couldn't be judged"] if failed else []
        missing = plural(self.missing(), "window of the recording isn't", "windows of the recording aren't")
        yield from [f"{missing} there"] if self.missing() else []
        yield from self.odd

    def stories(self, judge, name, **more):
        """Those of the windows that stay, and that of the last one."""
        last = self.last()
        stay = {self.first: "the first that isn't free", self.differs: "the first in which calls differ"}
        earlier = sorted(set(stay) - {None, last})
        for number in earlier:
            heading = f"Window {number}, {stay[number]}"
            yield Story(self.folder / str(number), judge, f"{name}, window {number}", heading=heading, **more)
        heading = f"Window {last}, the last" if earlier else ""
        yield Story(self.folder / str(last), judge, name, heading=heading, windows=self, **more)


class Judging:
    """Judges closed windows of all runs in a folder, in a thread of its own."""
    def __init__(self, folder, judge, keeps, eager):
        self.folder, self.more, self.runs = folder, (judge, keeps, eager), {}
        self.is_over = threading.Event()
        self.thread = threading.Thread(target=self.run, daemon=True)

    def all(self):
        for folder in runs_in(self.folder):
            if windows_in(folder):
                yield self.runs.setdefault(folder, Windows(folder, *self.more))

    def run(self):
        try:
            while not self.is_over.is_set() or any(list(one.waiting() for one in self.all())):
                if not any([one.catch_up() for one in self.all()]):
                    self.is_over.wait(PAUSE)
        except Exception as fault:
            say(f"no window is judged before the run ends: {why_of(fault)}")

    def look(self):
        with suppress(OSError):  # what fails here doesn't fail the run
            for one in list(self.runs.values()):
                one.drop()

    def end(self):
        """Judges what still waits. Answers the windows of each run, by its folder."""
        self.is_over.set()
        while self.thread.is_alive():  # a signal that comes just before a wait is heeded only after it
            self.thread.join(PAUSE)
        for one in self.all():
            while one.catch_up():
                pass
            one.note()
        return self.runs


def stories_of(folder, judge, windows, name="a run", **more):
    """What is said of a run: of its windows, if it has any."""
    for one in [folder, *(folder / str(number) for number in windows_in(folder))]:
        begin_first(one)
    if not windows_in(folder):
        return [Story(folder, judge, name, **more)]
    windows = windows or Windows(folder, judge, keeps=True, eager=more.get("eager"))
    while windows.catch_up():
        pass
    return list(windows.stories(judge, name, **more))


def kept_runs(folder):
    """A run, or those of its windows that are there."""
    numbers = windows_in(folder)
    return [Run(folder / str(one)) for one in numbers] if numbers else [Run(folder)]
