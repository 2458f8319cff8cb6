"""What is said of a run: a title and sections of lines."""

import re
from collections.abc import Iterator

from . import wildcards
from .causes import all_causes, cause_sections, finding_lines, other_causes
from .differing import difference_lines, error_of
from .journals import COLLECTIVES, STANDARD, STARTED_COLLECTIVES
from .runs import Judgement, Run, held_in
from .script import Status, counted, grouped, plural, ranks_named, shortened

MEANINGS = {
    "P": "Not recorded, and recorded calls may match these calls, so no verdict can be trusted",
    "W": "Not recorded: a hang stays one, but a free says nothing of these waits",
    "N": "Only counted, since it waits for nobody",
}
STRICT = ("This run was strict: standard sends were passed on as synchronous ones, and blocking collectives "
          "were followed by a barrier{}. A test that completed a send waited for its receive.")  # fmt: skip
UNFOLLOWED = "collectives of a strict run without a barrier after them"
SEND = ("A standard send of {} waits until it is received. MPI allows that, and a library that buffers the "
        "message goes on.")  # fmt: skip
EAGER = " --eager N takes messages of at most N bytes as buffered."
COLLECTIVE = ("A collective call waits until every member calls it. MPI allows that, and asks it only of a "
              "barrier and of those that need all data.")  # fmt: skip
FREE = " If all messages are buffered, this run is free: tools/limits finds the size from which on it is."
HANG = " No buffer would cure this: it hangs too if all messages are buffered."
# The names of standard sends, and what is said if a cause names one that no rank waits for.
STANDARD_NAMES = re.compile("MPI_(?:I?[Rr]?[Ss]end|I?[Ss]endrecv)\\b")
NO_WAIT = "No buffer would cure this: no rank waits until a standard send is received."
NOT_COMPARED = ("Not compared: the operators, datatypes and counts of collectives, their forms with and "
                "without v, and the datatypes and counts of messages.")  # fmt: skip
UNFORCED = ("{} on waits for nonblocking collectives ({}). A strict run can't force these to wait for all "
            "members: MPI lets those that don't need all data complete sooner.")  # fmt: skip
THREADS = ("With MPI_THREAD_MULTIPLE another thread of a rank may call MPI while one waits: nothing is known "
           "of a call that wasn't made when the recording ended.")  # fmt: skip
# What a run did in which the ranks disagree on a collective call: in the title, and in full.
ENDS = {
    "completed": "; this run completed, but only because the MPI library let it",
    "went on": "; this run went on, but only because the MPI library let it",
    "failed": ", and the run failed", "hung": ", and the run hung",
    "interrupted": ", and the run was interrupted",
}  # fmt: skip
LET = ("only because this MPI library let these calls pass. MPI does not allow them: with another library, "
       "other messages or more ranks the program may hang or compute with the wrong data.")  # fmt: skip
DID = {
    "completed": f"Every rank reached MPI_Finalize, but {LET}", "went on": f"The run went on, but {LET}",
    "failed": "The run ended with status {1}.", "hung": "The run hung: {0} can never continue.",
    "interrupted": "The run was interrupted. These calls may hang, but no rank was seen waiting for them.",
}  # fmt: skip
UNRECORDED = "Processes that weren't recorded, and of which no verdict speaks"
UNCUT = "Why the recording wasn't cut where it could have been"
NO_MEETING = "no rank called a barrier, or an allreduce, allgather or alltoall of data, of all ranks"
FAILURES = "What failed"
UNTIL_TESTS = "It hangs only if nothing else is done until a test succeeds"
MANY = "made more than 1,000,000 calls"
WHYS = {
    "never came back": "{0} never came back, and what it would have taken isn't known",
    "never told": "{0} never completed, and what it would have matched isn't known",
    "not judged": "{0} waits for what another receive may have taken",
    "failed": "{0} answered with an error",
    "no number": "{0} is on a communicator that has no number",
    "cannot be": "{1} names a rank or a tag that can't be",
    "cancel": "{0} was never answered: whether it cancelled anything isn't known",
}
TIMES = "\0"  # how often ranks asked


class Story(Judgement):
    """A run that was judged, and what is said of it."""
    def __init__(self, folder, judge, name="a run", seconds=0.0, heading="", **more):
        run = Run(folder)
        run.windows = more.pop("windows", None)
        super().__init__(judge, run, **more)
        self.name, self.seconds, self.heading = name, seconds, heading
        self.stuck = list(self.shown.stuck.values()) if self.shown else []
        # The places of all calls that are named are looked up at once.
        stuck = [one for view in self.views.values() for one in view.stuck.values()]
        calls = [call for one in stuck for call in [*one.calls, *(call for _, call in one.needs)] if call]
        calls += [call for one in self.differences for call in one.calls.values()]
        cut = [one for one in self.run.journals if one.last and not one.has_ended]
        sites = {(one.rank, one.polls[1] if one.polls else one.last.site) for one in cut}
        calls += [one.call for one in self.failures]
        self.run.places.look_up(sites | {(call.rank, call.site) for call in calls})
        self.found = finding_lines(self.strict or self.shown) if self.shown else []
        is_of_rules = self.shown is self.rules and self.verdict == "hang" and not self.run.is_strict
        self.doubts = wildcards.doubts(self.shown) if is_of_rules else []
        self.sections = list(self._sections())
        self.title = self._title() if self.shown else self._refused(self.main.said)
        parts = ["\n".join([f"{name}:", *("  " + line for line in lines)]) for name, lines in self.sections]
        self.text = "\n\n".join([self.title, *parts]) + "\n"

    def _title(self):
        """The verdict in words; in doubt, that there is none; of a program that failed, what failed."""
        if self.status == Status.FAILED:
            return self._failed()
        words, doubts = self._words(), self.run.count("P")
        calls = plural(doubts, "call that wasn't", "calls that weren't")
        without = f"(without these: {words.removeprefix('verdict ')})"
        doubted = f"not judged: recorded calls may match {calls} recorded {without}"
        if self.misses_windows() and not doubts:
            missing = plural(self.windows.unjudged(), "window wasn't", "windows weren't")
            doubted = f"not judged: {missing} {without}"
        return doubted if doubts or self.misses_windows() else words

    def _words(self) -> str:
        """An error of the program in its collective calls, or else the verdict."""
        if self.differences:
            return f"error: {error_of(self.differences)}{ENDS[self._end()]}"
        return f"verdict {getattr(self, f'_{self.verdict}')()}"

    def _end(self) -> str:
        """How a run ended in which the ranks disagree on a collective call."""
        if self.run.has_ended:
            went_on = all(one.last and one.last.word == "cut" for one in self.run.journals)
            return "went on" if went_on else "completed"
        if self.program_status:
            return "failed"
        return "hung" if self.went and self.went.held else "interrupted"

    def _what_it_did(self) -> Iterator[str]:
        """What a run did in which the ranks disagree on a collective call."""
        end, held = self._end(), self.went.held if self.went else ()
        yield DID[end].format(ranks_named(held), self.program_status)
        yield from [] if self.run.has_ended else self._where()

    def _refused(self, said):
        """With the line of code of the line that is refused, which may have any form."""
        found = re.match(r"refused rank (\d+) line (\d+) ", said)
        rank, line = map(int, found.groups()) if found else (0, 0)
        call = self.run.journals[rank].calls([line]).get(line) if line > 1 else None
        return f"{said}: {call.placed()}" if call and call.where else said or "no verdict"

    def _failed(self):
        """What failed; of a program that only ended with a status, how far its ranks came."""
        if self.failures:
            return f"failed: rank {self.failures[0].rank}: {self.failures[0].text()}"
        aborts = [one for one in self.run.journals if one.last and one.last.word == "abort"]
        if aborts:
            return f"failed: rank {aborts[0].rank} called {aborts[0].last.placed()}"
        ended = f"failed: the program ended with status {self.program_status}"
        ends = {one.rank: one.last.word for one in self.run.journals if one.has_ended and one.last}
        early = [rank for rank, word in ends.items() if word == "exit"]
        if len(ends) < len(self.run.ranks):
            return f"{ended}; {self._unfinished().removeprefix('unfinished: ').partition(';')[0]}"
        if early:
            return f"{ended}; {ranks_named(early)} ended without MPI_Finalize"
        return f"{ended}, although every rank came to its MPI_Finalize"

    def _free(self):
        unsaid = self.run.count("W")
        waits = f", as far as recorded: nothing is said of the waits of {plural(unsaid, 'other call')}"
        by_tests = ", unless it waits for a test" if self.by_tests else ""
        return f"free: every rank comes to its MPI_Finalize{by_tests}{waits if unsaid else ''}"

    def _hang(self):
        many = f"{len(self.stuck)} of {len(self.run.ranks)}"
        may = f"nothing held the ranks when they were cut off, but {many} may wait"
        hang = "hang, if wildcards match as in this run" if self.doubts else "hang"
        return f"{hang}: {may if self.may_hang else f'{many} ranks wait'}"

    def _unfinished(self):
        full = [one.rank for one in self.run.journals if one.last and one.last.word == "full"]
        cut = [one.rank for one in self.run.journals if not one.has_ended and one.rank not in full]
        parts = ((full, MANY), (cut, "cut off before MPI_Finalize"))
        said = ", ".join(f"{ranks_named(ranks)} {what}" for ranks, what in parts if ranks)
        return f"unfinished: {said or 'not all calls could be judged'}; nothing recorded holds anybody"

    def _sections(self):
        found, counts = {}, self.run.unrecorded.items()
        failed = [f"rank {one.rank}: {one.text()}" for one in self.failures]
        if failed[1:] and self.status == Status.FAILED:  # the title has the first one
            yield FAILURES, shortened(failed)
        if self.differences:
            yield "The collective calls that differ", difference_lines(self.differences)
            yield "What the run did", shortened(self._what_it_did(), 24)
        if self.shown:
            causes = list(self._causes())
            yield from causes
            self.names_sends = any(STANDARD_NAMES.search(line) for _, lines in causes for line in lines)
            where = [] if self.differences else list(self._where())  # it has been said
            others = "other " if any(map(self._is_told, self.run.ranks)) else ""
            found = {"Findings, which change no verdict": self.found,
                     "Communicators": self._communicators(), "What this assumes": list(self._assumptions()),
                     f"Where the {others}ranks were that didn't come to MPI_Finalize": where,
                     "Calls at which the judgement of a rank ends": self._stops(True),
                     "Receives of which it isn't known what they took": self._stops(False),
                     "Unanswered questions": [": ".join(one) for one in self.unanswered.items()]}  # fmt: skip
        found[FAILURES] = failed if self.status != Status.FAILED else []
        found["Windows"] = list(self.windows.lines()) if self.windows else []
        found[UNCUT] = list(self._uncut())
        for meaning, title in MEANINGS.items():
            calls = sorted(self.run.left_out[meaning].items(), key=lambda one: -sum(one[1].values()))
            found[title] = [f"{sum(ranks.values()):,} {call} ({ranks_named(ranks)})" for call, ranks in calls]
        found[UNRECORDED] = [f"{plural(count, 'process', 'processes')}: {why}" for why, count in counts]
        yield from ((title, shortened(lines, 24)) for title, lines in found.items() if lines)

    def _uncut(self):
        """Why there was no window: if one was due, or would have been."""
        is_full = any(one.last and one.last.word == "full" for one in self.run.journals)
        for call, ranks in self.run.uncut:
            if call.startswith("moments"):
                yield f"{call}: {plural(max(ranks.values()), 'time')}"
            elif is_full:
                yield call
        yield from [NO_MEETING] if is_full and self.windows and not self.run.uncut else []

    def _causes(self):
        went, rules = self.went, self.rules
        if self.differences and self.verdict == "unfinished":  # where the ranks were has been said
            return
        causes = all_causes(went or rules)
        title = "It hung here" if went else "The cause" if len(causes) == 1 else "The causes"
        yield from cause_sections(went or rules, title, causes)
        if went and self.is_hang:
            is_hang = went.report["verdict"] == "hang"
            others = other_causes(rules, went if is_hang else None)
            yield from cause_sections(rules, "It may hang here" + " too" * is_hang, others, False)
        if self.by_tests:
            yield from cause_sections(self.strict, UNTIL_TESTS, all_causes(self.strict), False)

    def _communicators(self):
        """The communicators of stuck calls, but for the world."""
        lines = {}
        for call in (call for one in self.stuck for call in one.calls if call.comm):
            members, maker, _ = self.run.made(call.rank, call.comm)
            made = f", made by {maker.placed()}" if maker else ""
            lines[self.run.label(call.rank, call.comm)] = ranks_named(members) + made
        return [f"{label}: {words}" for label, words in lines.items()]

    def _assumptions(self):
        if self.differences and self.verdict == "unfinished":
            return
        yield from shortened(self.doubts, 4)
        if self.run.is_strict is None:
            strict = [one.rank for one in self.run.journals if one.header and one.header.is_strict]
            yield f"Only {ranks_named(strict)} ran strictly, so this is reported as a run that wasn't strict."
        elif self.run.is_strict and self.stuck:
            is_unfollowed = any(UNFOLLOWED in calls for calls in self.run.left_out.values())
            yield STRICT.format(", except those that are counted below" if is_unfollowed else "")
            yield from self._unforced(self.shown)
        if self.shown.rests_on(STANDARD) and self.shown is not self.went:  # else it wasn't buffered
            size = "any size" if self.eager is None else f"more than {self.eager} bytes"
            cure = {"free": FREE, "hang": HANG}.get(self.verdicts().get("buffered"), "")
            yield SEND.format(size) + cure + (EAGER if self.eager is None else "")
        elif self.verdict == "hang" and self.names_sends:
            yield from [] if any(view.rests_on(STANDARD) for view in self.views.values()) else [NO_WAIT]
        elif self.verdict == "hang" and not self.shown.rests_on(STANDARD):
            yield "No buffer would cure this: none of these ranks waits in a standard send."
        if any(self.run.journals[one.rank].header.is_multiple for one in self.stuck):
            yield THREADS
        if self.shown.rests_on(COLLECTIVES - {"barrier"} | STARTED_COLLECTIVES):
            yield COLLECTIVE
        if self.verdict == "free" and self.status == Status.FREE:
            yield NOT_COMPARED

    def _unforced(self, view):
        """Causes of a strict run that need a nonblocking collective to wait for all its members."""
        causes = [held_in(cause) for cause in view.report["causes"]]
        unforced = STARTED_COLLECTIVES - {"ibarrier"} | {"comm_idup"}
        named = {rank for cause in causes for rank in cause}
        ranks = {rank for rank in named if any(start.word in unforced for start in view.stuck[rank].starts)}
        resting = sum(not ranks.isdisjoint(cause) for cause in causes)
        rests = "The hang rests" if resting == len(causes) else f"{resting} of {len(causes)} causes rest"
        yield from [UNFORCED.format(rests, ranks_named(ranks))] if resting else []

    def _where(self):
        """A line for all ranks of which the same is said but for how often they asked."""
        ends = {"finalize"} | ({"cut"} if self.run.has_ended else set())
        cut = [one.rank for one in self.run.journals if not one.last or one.last.word not in ends]
        cut = [rank for rank in cut if not self._is_told(rank)]
        for ranks in grouped(cut, self._place_of):
            counts = sorted(one[2] for one in (self.run.journals[rank].polls for rank in ranks) if one)
            asked = " to ".join(f"{count:,}" for count in dict.fromkeys(counts[:1] + counts[-1:]))
            yield f"{ranks_named(ranks)}: {self._place_of(ranks[0]).replace(TIMES, f'{asked} times')}"

    def _is_told(self, rank: int) -> bool:
        """Whether it has been said, of a run that hung, that a rank is in its last call."""
        stuck, journal = self.shown.stuck.get(rank), self.run.journals[rank]
        is_there = self.verdict == "hang" and self.shown is self.went and stuck and journal.header.is_inside
        if not is_there or journal.polls or rank in self.run.within:
            return False
        call, last = stuck.call, journal.last
        return (call.word, call.fields, call.site) == (last.word, last.fields, last.site)

    def _place_of(self, rank):
        journal, last = self.run.journals[rank], self.run.journals[rank].last
        failed = [one for one in self.failures if one.rank == rank and one.kind == "error"]
        if failed:
            return f"ended in {failed[0].call.placed()}, which failed"
        within = self.run.within.get(rank, "computing or in a call that isn't recorded")
        now = f"; now {within}" if rank in self.run.within else ""
        if last is None:
            is_first = self.run.folder.name in ("1", self.run.top.name)
            return ("never came through MPI_Init" if is_first else "made no call in this window") + now
        if journal.polls:
            return self._polling(rank, *journal.polls) + now
        before = [call.placed() for call in journal.tail()[-2:-1]]
        words = {
            "exit": f"its process ended without MPI_Finalize{', after ' + before[0] if before else ''}",
            "cut": "came to the end of this window, and went on",
            "full": f"{MANY}; those after them aren't judged{now}", "abort": f"called {last.placed()}",
            "stopped": f"{', and '.join([*before, ''])}recorded no further: {' '.join(last.fields)}",
        }  # fmt: skip
        is_inside = journal.header.is_inside and last.word != "test"
        computes = f"back from {last.placed()}, and {within}"
        return words.get(last.word) or (f"inside {last.placed()}" if is_inside else computes)

    def _polling(self, rank, name, site, count):
        where = self.run.places.where(rank, site)
        asked = ("asked again and again", f"{TIMES}, ") if count > 1 else ("asked once", "")
        text = f"{asked[0]}: {name}{' at ' + where if where else ''} ({asked[1]}found nothing)"
        pending = [call.text() for call in self.run.journals[rank].open_requests()]
        if pending and "probe" not in name:
            text += "; started and not complete: " + "; ".join(shortened(counted(pending), 4))
        return f"{text}; before that {self.run.journals[rank].last.placed()}"

    def _stops(self, ends):
        """Where ranks' lists end, or the receives that may have taken any of several messages."""
        view, words = self.strict or self.shown, {}
        for rank, calls in view.left_calls.items():
            stuck = self.shown.stuck.get(rank)
            told = stuck.call.number if stuck and stuck.is_pending else None
            failed = [one.call.site for one in self.failures if one.rank == rank]
            whys = {one.number: view.whys[rank][one.number] for one in calls}
            calls = [one for one in calls if (failed, whys[one.number]) != ([one.site], "failed")]
            for call in (call for call in calls if view.ends_list(call) == ends):
                why = view.whys[rank][call.number]
                if why in WHYS and (why, call.number) != ("never came back", told):
                    form = WHYS.get(call.word, WHYS[why]) if ends else "{0}"
                    words.setdefault(form.format(call.placed(), call.text()), set()).add(rank)
        return [f"{ranks_named(ranks)}: {said}" for said, ranks in words.items()]
