"""A recorded run: its journals, what is asked of `mpiwait judge', and what the answers say of them."""

import json
import os
import re
import subprocess
import sys
import tempfile
from collections import Counter, namedtuple
from collections.abc import Iterable
from contextlib import suppress
from functools import cached_property, lru_cache
from pathlib import Path

from .differing import differences_of
from .journals import COUNTED, RECEIVES, STANDARD, Call, Half, journals_in, mapped, top_of, unescaped, written
from .places import Places, printable
from .script import ENDING, HERE, Status, Stopped, worst

MOST_BYTES = 2147483647
VERDICTS = {0: "free", 1: "hang", 5: "unfinished"}
# What was answered: a report, or the words of a refusal or a fault.
Answer = namedtuple("Answer", "status report said", defaults=(None, ""))
MATCHED = {"mprobe", "improbe"}  # they take messages, for which other requests may stand
WITHIN = ("in {}, which isn't recorded", "in a call that isn't recorded: {}")  # by its name, or other words
# What the script mpiwait says where the reference answers.
UNVERIFIED = "mpiwait: the checker that produced this answer has not been verified"
NOTED: list[str] = []  # such a line, once it was written


class Run:
    def __init__(self, folder):
        self.folder, self.journals = Path(folder), journals_in(folder, self)
        self.top, self.windows = top_of(self.folder), None  # those before it, of a run's last one
        self.ranks, self.places = range(len(self.journals)), Places(self.journals)
        self.unrecorded = Counter(written(self.top / "unrecorded"))
        self.has_ended = all(journal.has_ended for journal in self.journals)
        # Whether the recorded ranks were strict; None if only some of them were.
        strict = {journal.header.is_strict for journal in self.journals if journal.header}
        self.is_strict = None if len(strict) > 1 else True in strict
        # What was only counted: by meaning, what, how often by rank; and the calls that ranks are in.
        self.left_out, self.within = {"P": {}, "W": {}, "N": {}}, {}
        for rank in self.ranks:
            for line in written(self.top / f"left{rank}"):
                meaning, count, call = COUNTED.fullmatch(printable(line)).groups()
                self.left_out[(meaning or "P").upper()].setdefault(call, {})[rank] = int(count or 1)
                self.within |= {rank: WITHIN[" " in call].format(call)} if meaning == "w" else {}
        # Why the recording wasn't cut into windows, if it was to be.
        self.uncut = [(call, self.left_out["N"].pop(call)) for call in list(self.left_out["N"])
                      if call.startswith(("moments without a cut", "no windows"))]  # fmt: skip
        self.made, self._calls = lru_cache(None)(self._made), {}
        self.sent, self.received = lru_cache(None)(self._sent), lru_cache(None)(self._received)
        self.collectives = lru_cache(None)(lambda rank, comm: list(self.journals[rank].collectives_on(comm)))
        self.failures = [Failure(self, rank, line) for rank in self.ranks
                         for line in written(self.top / f"failed{rank}")]  # fmt: skip

    def count(self, meaning):
        """How many calls weren't recorded; with P they may match recorded ones."""
        return sum(sum(ranks.values()) for ranks in self.left_out[meaning].values())

    def calls(self, rank, numbers):
        known = self._calls.setdefault(rank, {})
        known |= self.journals[rank].calls(set(numbers) - set(known))
        return known

    def _made(self, rank, comm):
        """The members of a rank's communicator, the call that made it, and how many that line made before."""
        if comm < 2:
            return (rank,) if comm else tuple(self.ranks), None, 0
        return self.journals[rank].made(comm)

    def same(self, rank: int, comm: int) -> dict[int, int]:
        """The numbers that the members of a rank's communicator have for it, as far as they know it."""
        members = self.made(rank, comm)[0]
        if comm < 2:
            return dict.fromkeys(members, comm)
        numbers = {member: self.journals[member].numbers_of(members) for member in members}
        if comm not in numbers[rank]:
            return {}
        place = numbers[rank].index(comm)  # all members get those of one group in the same order
        return {member: some[place] for member, some in numbers.items() if some[place:]}

    def unmatched(self, rank: int, other: int) -> list[tuple[Call, Half]]:
        """What a rank sends to another one, and no receive there takes, by source, tag and communicator."""
        taken, found = self.received(other), []
        for key, sends in self.sent(rank).get(other, {}).items():
            found += sends[taken[(rank, *key)] :]
        return found

    def _sent(self, rank: int) -> dict[int, dict[tuple, list[tuple[Call, Half]]]]:
        """The sends of a rank by the receiver, and then by tag and members."""
        found = {}
        for call in self.journals[rank].all_calls():
            for half in (half for half in call.halves if half.is_send and half.rank is not None):
                key = half.tag, self.made(rank, half.comm)[0]
                found.setdefault(half.rank, {}).setdefault(key, []).append((call, half))
        return found

    def _received(self, rank: int) -> Counter:
        """How many receives a rank has, by the source, tag and members. Wildcards have what they received."""
        calls, found = self.journals[rank].all_calls(), Counter()
        done = {("=done", one[1]): one[2:] for call in calls for one in call.reports if one[0] == "=done"}
        for call in (call for call in calls if call.word in RECEIVES - {"probe", "iprobe"}):
            got = next((one[1:] for one in call.reports if one[0] == "=got"), None)
            got = got or next((done[key] for one in call.requests if (key := ("=done", one)) in done), None)
            for half in (half for half in call.halves if not half.is_send):
                peer, tag = got or (half.peer, half.tag)
                source = self.world_rank(rank, half.comm, peer)
                found[(source, tag, self.made(rank, half.comm)[0])] += 1
        return found

    def label(self, rank, comm):
        """A communicator in a few words."""
        name = self.journals[rank].name(comm)
        if name or comm < 2:
            return f"`{printable(name)}'" if name else ("MPI_COMM_WORLD", "MPI_COMM_SELF")[comm]
        _, maker, before = self.made(rank, comm)
        where = maker and self.places.own(rank, maker.site)
        place = f"the {before + 1}. communicator" if before else "the communicator"
        return f"{place} of {where.text()}" if where else f"its communicator {comm}"

    def world_rank(self, rank, comm, peer):
        members = () if peer in ("null", "any") else self.made(rank, comm)[0]
        return members[int(peer)] if members and 0 <= int(peer) < len(members) else None


class Failure:
    """What failed in a rank by an error of the program, as the recorder notes it: a call, and why."""
    FORM = re.compile(r"(error|threads) (\d+) (\w+) (.*)", re.DOTALL)

    def __init__(self, run: Run, rank: int, line: str) -> None:
        self.kind, site, name, text = self.FORM.fullmatch(line).groups()
        self.rank, self.call, self.note = rank, Call(run, rank, f"{name} @{site}"), unescaped(text)
        found = re.search(r"\b(MPI_\w+)\(", self.note)  # where the library's own functions have no names
        self.call.name = name if name != "MPI" else found[1] if found else "a call of MPI"
        self.other = Call(run, rank, f"call @{text}") if self.kind == "threads" else None

    def message(self) -> str:
        """MPI's message in one line. MPICH's first line names the class, and the last one the detail."""
        lines = [line for line in self.note.split("\n") if line]
        first = lines[0].removesuffix(", error stack:") if lines else "no message"
        last = re.sub(r"^\S*\(\w*\)[.]*: ", "", lines[-1]) if len(lines) > 1 else first
        has_detail = last not in first and not last.endswith(") failed")
        return printable(last if last.startswith(first) else f"{first} ({last})" if has_detail else first)

    def text(self) -> str:
        if self.kind == "error":
            return f"{self.call.placed()} failed, and MPI ended the run: {self.message()}"
        where = f" at {self.other.where}" if self.other.where else ""
        return (f"{self.call.placed()} was called while another thread was in the call{where}, "
                "which MPI allows with MPI_THREAD_MULTIPLE only")  # fmt: skip


class Stuck:
    """A rank that waits in one call, and what that call waits for."""
    def __init__(self, view, entry):
        self.view, self.rank, self.call = view, entry["rank"], view.call(entry["rank"], entry["at"])
        needs = [one for one in entry["needs"] if one[1:]]
        self.needs = [(rank, None if at is None else view.call(rank, at)) for rank, at in needs]
        # It waits for messages that these ranks could send, or nobody; `is_any' if for one of several.
        self.senders = sorted({one[0] for one in entry["needs"] if len(one) == 1})
        word = entry.get("call", "").partition(" ")[0]
        self.is_pending, self.is_any = word in ("any", "all"), word == "any"
        self.waited = {rank for rank, _ in self.needs}.union(self.senders)
        # The calls that started the requests which it waits for.
        wanted = set(self.call.requests)
        places = view.calls[self.rank].items() if wanted else ()
        calls = dict.fromkeys(call for at, call in places if at < entry["at"])
        self.starts = [one for one in calls if one.word in MATCHED or wanted & set(one.requests)]
        left = view.left_calls[self.rank] if self.is_pending else []
        self.sinks = [one for one in left if wanted & set(one.requests) and one is not self.call]
        self.calls, self.lacking = [self.call, *self.starts], lru_cache(None)(self._lacking)

    def arrows(self):
        """What it waits for, as pairs of a rank and a call, None for a missing one and for a message."""
        return [*self.needs, *((rank, None) for rank in self.senders)]

    def messages(self):
        """What it waits for that anybody may send, in words."""
        halves = [half for call in self.sinks or [self.call] for half in call.halves if not half.is_send]
        return list(dict.fromkeys(half.text().removesuffix(" with any tag") for half in halves))

    def _lacking(self, rank):
        """The messages that it exchanges with a rank, but for those for which that rank has a call."""
        calls = [call for needed, call in self.needs if needed == rank and call]
        met = {(half.is_send, half.tag) for call in calls for half in call.halves}
        halves = [half for call in self.calls for half in call.halves if half.rank == rank]
        return [half for half in halves if (not half.is_send, half.tag) not in met]


def held_in(cause: dict) -> list[int]:
    """The held ranks that a cause names."""
    return cause.get("cycle") or cause.get("missing", [])[:1] or [cause["starved"]]


class View:
    """A run as one answer reports it. `strict' is the view of strict waiting, if there is another one."""
    def __init__(self, run, report, strict=None, is_went=False):
        self.run, self.report, self.strict, self.is_went = run, report, strict, is_went
        numbers = {rank: {} for rank in run.ranks}
        for rank, at, number in sorted(report["lines"]):
            numbers[rank] |= {at: number} if number else {}
        self.calls = {}  # those that the report names, but for calls since `run' was opened
        for rank, places in numbers.items():
            found = run.calls(rank, places.values()) if places else {}
            self.calls[rank] = {at: found[number] for at, number in places.items() if number in found}
        self.whys = {rank: {} for rank in run.ranks}  # why calls are left out, by their lines
        for rank, number, why in report["left"]:
            self.whys[rank] |= {number: why} if number > 1 else {}
        found = {rank: run.calls(rank, whys) if whys else {} for rank, whys in self.whys.items()}
        self.left_calls = {rank: [found[rank][number] for number in whys] for rank, whys in self.whys.items()}
        self.stuck = {entry["rank"]: Stuck(self, entry) for entry in report["ranks"]}
        named = [rank for cause in report["causes"] for rank in held_in(cause)]
        self.held = set(report.get("held", named))  # an older checker names only those of the causes
        self.unreceived = {}  # the sends that nobody receives, with what they send, by both ranks
        for _, rank, at in (text.split(" ") for text in report["findings"] if text.startswith("unreceived ")):
            call = self.call(int(rank), int(at))
            for half in (half for half in call.halves if half.is_send):
                self.unreceived.setdefault((call.rank, half.rank), []).append((call, half))

    def waiting(self, ranks: set[int]) -> set[int]:
        """These ranks, and all that wait for them, or for others that do."""
        found, left = set(ranks), list(ranks)
        while left:
            new = self.waiting_for.get(left.pop(), set()) - found
            found |= new
            left += new
        return found

    @cached_property
    def waiting_for(self) -> dict[int, set[int]]:
        """The stuck ranks that wait for each rank."""
        waiting = {}
        for one in self.stuck.values():
            for rank in one.waited:
                waiting.setdefault(rank, set()).add(one.rank)
        return waiting

    def call(self, rank, at):
        return self.calls[rank].get(at) or Call(self.run, rank, "init")

    def is_closed(self, rank):
        """Whether all calls of the rank are known, to its end."""
        return self.run.journals[rank].has_ended and not any(map(self.ends_list, self.left_calls[rank]))

    def ends_list(self, call):
        """Whether a call that is left out ends what is known of its rank."""
        is_sink = call.word in ("irecv", "isendrecv") or self.is_went and call.word in RECEIVES
        return self.whys[call.rank][call.number] not in ("never told", "not judged") or not is_sink

    def offers(self, rank, other):
        """What a rank sends to another, or receives from it, that meets no call: each call with its half."""
        stuck = self.stuck.get(rank)
        lacking = stuck.lacking(other) if stuck and (other, None) in stuck.needs else []
        found = [(call, half) for half in lacking for call in stuck.calls if half in call.halves]
        found += self.unreceived.get((rank, other), [])
        found += [] if self.is_closed(other) else self.run.unmatched(rank, other)  # of which nothing is found
        return list(dict.fromkeys(found + (self.strict.offers(rank, other) if self.strict else [])))

    def rests_on(self, words):
        """Whether ranks wait in such calls, or for what such calls started."""
        return any(call.word in words for one in self.stuck.values() for call in one.calls)


def without_note(said: str) -> str:
    """What a checker wrote to standard error, without that it isn't verified. The first such line is
    written."""
    notes = [line for line in said.splitlines(keepends=True) if line.startswith(UNVERIFIED)]
    if notes and not NOTED:
        NOTED.append(notes[0])
        sys.stderr.write(notes[0])
    return "".join(line for line in said.splitlines(keepends=True) if line not in notes)


class Judge:
    """The program that MPIWAIT names, or else the repository's. Ctrl-C at a terminal ends no nice one."""
    def __init__(self, unproved=False, nice=0):
        path = os.environ.get("MPIWAIT") or str(HERE.parent.parent / "mpiwait")
        self.path = os.path.abspath(path) if "/" in path else path
        self.words, self.is_nice = ["nice", "-n", str(nice)] if nice else [], nice > 0
        self.words += [self.path, "--unproved"] if unproved else [self.path]
        self.errors, self.knows_held = subprocess.PIPE, True

    def run(self, command, folder):
        more = {"stdin": subprocess.DEVNULL, "stdout": subprocess.PIPE, "stderr": self.errors}
        more |= {"text": True, "errors": "replace"}
        return subprocess.run(command, cwd=folder, check=False, start_new_session=self.is_nice, **more)

    def try_out(self, has_windows=False):
        """Judges a run of one rank that makes no call. Another checker may say something meanwhile."""
        self.errors = None if os.environ.get("MPIWAIT") else subprocess.PIPE
        for end in ("finalize", "cut") if has_windows else ("finalize",):
            with tempfile.TemporaryDirectory() as folder:
                Path(folder, "journal0").write_text(f"journal 2 0 1 a-run o a-library\n{end}\n")
                answer = self.ask(folder)
            if answer.status != Status.FREE and end == "cut":
                raise Stopped(f"the checker {self.path} knows no windows: give --window 0", Status.WORDS)
            if answer.status != Status.FREE:
                raise Stopped(f"the checker {self.path} can't be run: {answer.said}")

    def ask(self, folder, **options):
        """Judges the journals of a folder. It is named from there, since the program takes UTF-8 alone."""
        words = [f"--{name}" if value is True else f"--{name}={value}"
                 for name, value in options.items() if value is not None]  # fmt: skip
        try:
            done = None if ENDING else self.run([*self.words, "judge", "--json", *words, "."], folder)
        except OSError as fault:
            raise Stopped(f"the checker {self.path} can't be run: {fault.strerror}") from None
        if ENDING:
            raise Stopped("it was interrupted")
        errors = without_note(done.stderr or "")
        if done.returncode in VERDICTS:
            sys.stderr.write(errors)
            with suppress(ValueError):
                return Answer(done.returncode, json.loads(done.stdout))
            raise Stopped(f"the checker {self.path} answered by status {done.returncode} without a report")
        status = done.returncode if done.returncode in (Status.REFUSED, Status.WORDS) else 4
        said = (done.stdout + errors).strip()
        empty = re.match(r"refused rank (\d+) line 1 J1 ", said)
        if empty and not mapped(Path(folder) / f"journal{empty[1]}")[1]:  # the recorder made the file alone
            return Answer(Status.IMPOSSIBLE, None, f"the disk had no room for the journal of rank {empty[1]}")
        return Answer(status, None, said or str(subprocess.CalledProcessError(done.returncode, self.path)))


    def ask_held(self, folder: Path, ranks: Iterable[int] | None = None, **options) -> Answer:
        """The same, with who is held of all or of these ranks. An older checker is asked without that."""
        if self.knows_held:
            held = True if ranks is None else ",".join(map(str, sorted(ranks)))
            answer = self.ask(folder, held=held, **options)
            if answer.status != Status.WORDS:
                return answer
        answer = self.ask(folder, **options)
        self.knows_held = self.knows_held and answer.report is None
        return answer


class Judgement:
    """The answers for one run, and the views of those that are reports, by the names of the questions:

    strict: the calls wait as long as MPI lets them; went: where the ranks were when recording was cut off;
    pass: as strict, but tests wait for nothing; buffered: as strict, with all messages buffered."""

    def __init__(self, judge, run, eager=None, program_status=0):
        self.judge, self.run, self.eager = judge, run, eager
        self.windows = run.windows
        # What ended the run, in its last window: an error of the program, and its status.
        self.failures = run.failures if run.folder == run.top or run.windows else []
        self.program_status = program_status
        self.answers, self.views = {}, {}
        if not run.has_ended:
            self._ask("went", calls="went")
        if all(answer.report for answer in self.answers.values()):
            self._ask("strict")
        self.main = next(iter(self.answers.values()))  # the answer that the report is about
        self.strict, self.went = self.views.get("strict"), self.views.get("went")
        if self.strict and self.strict.report["verdict"] == "hang":
            if any(one.call.word == "test" for one in self.strict.stuck.values()):
                self._ask("pass", tests="pass")
            if eager is None and self.strict.rests_on(STANDARD):
                self._ask("buffered", eager=MOST_BYTES)
        if self.went:
            self.went.strict = self.strict
        # What the rules of MPI allow, without tests taken as waits if the strict reading rests on these.
        self.rules = self.views.get("pass") or self.strict
        self.by_tests = self.verdicts().get("pass") in ("free", "unfinished")
        self.unanswered = {name: one.said for name, one in self.answers.items() if not one.report}
        self.is_hang = bool(self.rules) and self.rules.report["verdict"] == "hang"
        # The run was cut off and nothing held it, but it may hang.
        self.may_hang = self.is_hang and self.verdicts().get("went") == "unfinished"
        self.shown = self.went if self.went and not self.may_hang else self.rules
        self.verdict = self.shown.report["verdict"] if self.shown else None
        self.differences = differences_of(self.strict or self.shown, self.went)
        self.status = self._status()

    def _ask(self, name, **options):
        self.answers[name] = self.judge.ask_held(self.run.folder, **{"eager": self.eager, **options})
        if self.answers[name].report is not None:
            self.views[name] = View(self.run, self.answers[name].report, is_went=name == "went")

    def verdicts(self):
        return {name: VERDICTS.get(answer.status) for name, answer in self.answers.items()}

    def misses_windows(self):
        """Whether a window wasn't judged that might hang, as far as is known."""
        return bool(self.windows and self.windows.unjudged() and self.verdict != "hang")

    def _status(self):
        """The status of the run, of all that was found of it."""
        found = [Status[self.verdict.upper()] if self.shown else self.main.status]
        if self.shown:
            found = [Status.NOT_JUDGED] if self.run.count("P") or self.misses_windows() else found
            found += [Status.DIFFERENT] if self.differences else []
            found += [Status.IMPOSSIBLE] if set(self.unanswered) - {"buffered"} else []
        return worst(found + ([Status.FAILED] if self.program_status or self.failures else []))
