"""The recording that the journals of a run stand for, and its report."""

from collections.abc import Iterable, Iterator

from .communicators import Communicators
from .cuts import first_unclean
from .disk import Disk
from .heads import Group
from .journal_faults import Fault
from .journals import Journal, journals_in
from .lists import Choice, List
from .texts import Named
from .traces import calls_of
from .waits import Report, Waits

Place = tuple[int, int]


class Recording:
    """The trace of each rank, by one choice of what is asked."""

    def __init__(self, journals: list[Journal], choice: Choice, communicators: Communicators | None = None) -> None:
        """`communicators` are those of the journals, if they are known."""
        self.journals, self.choice = journals, choice
        self.communicators = communicators or Communicators(journals)
        self.lists = [List(one, self.communicators, choice) for one in journals]
        self._waits: dict[int | None, Waits] = {}  # by the limit

    @property
    def groups(self) -> list[Group]:
        return [self.communicators.group(key) for key in self.communicators.numbered]

    def waits(self, eager: int | None = None) -> Waits:
        """Who waits for whom, where sends of at most so many bytes are buffered."""
        if eager not in self._waits:
            self._waits[eager] = Waits(
                self.groups,
                [calls_of(one.lines) for one in self.lists],
                [one.pending for one in self.lists],
                [one.undetermined_by_place() for one in self.lists],
                eager,
            )
        return self._waits[eager]

    def texts(self) -> dict[str, str]:
        """The text of the head and of each trace, by the names of their files."""
        traces = {f"r{rank}": "".join(line + "\n" for line in one.lines) for rank, one in enumerate(self.lists)}
        return {"head": self.communicators.head(), **traces}

    # ---- The report ----

    def report(self, eager: int | None = None, asked: Iterable[int] | None = None) -> Report:
        """The report with the places that it names; with which of some ranks are held, if that is asked."""
        waits = self.waits(eager)
        report = self.completed(waits.report(), waits)
        if asked is None:
            return report
        calls = {one.text: [list(place) for place in one.places] for one in waits.findings}
        named = [calls[text] for text in strings(report["findings"])]
        return report | {"finding_calls": named, "held": waits.held_among(asked)}

    def completed(self, report: Report, waits: Waits) -> Report:
        """A report of `check` with what `judge' says besides: what is left out, and the lines of the places."""
        is_strict = self.choice.calls == "strict"
        kept = [one for one in strings(report["findings"]) if is_strict and not self.is_left_out(one)]
        report = report | {"findings": kept, "left": self.left()}
        return report | {"lines": self.lines(report, waits)}

    def left(self) -> list[list[object]]:
        return [[rank, *left] for rank, one in enumerate(self.lists) for left in one.left]

    def is_left_out(self, finding: str) -> bool:
        """Whether it is one `request R I Q' whose request the program freed, or that goes on in a window."""
        kind, *numbers = finding.split(" ")
        if kind != "request":
            return False
        one, place = self.lists[int(numbers[0])], int(numbers[1])
        freed = {one.same.get(request, request) for request in one.journal.freed}
        return one.journal.ends_with_cut or one.starts.get(place) in freed

    # ---- Lines ----

    def lines(self, report: Report, waits: Waits) -> list[list[int]]:
        """The places that a report names, each with the line of its entry."""
        places: set[Place] = set()
        for stuck in report["ranks"]:  # type: ignore[attr-defined]
            rank, at = stuck["rank"], stuck["at"]
            calls = [need for need in stuck["needs"] if len(need) == 2 and need[1] is not None]
            places |= {(rank, at), *map(tuple, calls)}
            places |= {(rank, start) for start in self.starts_of(rank, at)}
        findings = set(strings(report["findings"]))
        places |= {place for one in waits.findings if one.text in findings for place in one.places}
        return [[rank, at, self.lists[rank].places[at]] for rank, at in sorted(places)]

    def starts_of(self, rank: int, at: int) -> Iterator[int]:
        """The starts of the requests that a wait completes, or a pending call waits for: the last ones before it
        with these numbers."""
        lines, pending = self.lists[rank].lines, self.lists[rank].pending
        word, *numbers = lines[at].split(" ")
        if word == "open" and pending:
            word, numbers = "waitall", [str(item) for item in pending.items if isinstance(item, int)]
        if word not in ("wait", "waitall", "waitany"):
            return
        wanted = {numbers[1 + int(numbers[0])]} if word == "waitany" else set(numbers)
        for place in range(at - 1, -1, -1):
            if not wanted:
                return
            if place in self.lists[rank].starts and (number := lines[place].split(" ")[1]) in wanted:
                wanted.remove(number)
                yield place


def strings(texts: object) -> list[str]:
    assert isinstance(texts, list)
    return texts


def recording_in(disk: Disk, folder: str, choice: Choice) -> Recording:
    """That of the journals in a folder. To be judged, they have to be cut where nothing is under way, if at all."""
    recording = Recording(journals_in(disk, folder), choice)
    if choice.has_undetermined and recording.communicators.are_cut:
        look_for_unclean(recording)
    return recording


def look_for_unclean(recording: Recording) -> None:
    """Refuses journals whose cut isn't clean. What tests and calls that came back are taken for makes no difference."""
    strict = Choice(has_undetermined=True)
    communicators = recording.communicators
    lists = [List(one, communicators, strict) for one in recording.journals]
    if unclean := first_unclean(lists, recording.groups):
        rank, line = unclean
        raise Named(f"refused rank {rank} {Fault(line, 'J11')}", 2)
