"""Collective calls on which the ranks of a communicator disagree: an error of the program, whatever it did.

The program that judges finds them, as findings. Here they are said, with the lines of code of all members."""

from __future__ import annotations

from collections import Counter
from collections.abc import Iterable, Iterator
from dataclasses import dataclass, field
from typing import TYPE_CHECKING

from .script import grouped, ordinal, ranks_named, shortened

if TYPE_CHECKING:
    from .journals import Call
    from .runs import Run, View

RULES = {  # fmt: skip
    "kind": "MPI requires that all ranks of a communicator call its collectives in the same order.",
    "form": "MPI matches no blocking collective with a nonblocking one.",
    "root": "MPI requires the same root on all ranks.",
    "group": "MPI requires that all members of the new communicator agree on its group.",
    "held": "MPI requires that all ranks of a communicator call its collectives in the same order and with "
            "the same roots.",
}
MOST_WAVES, MOST_PARTIES = 6, 8
MOST_RANKS = 64  # of a run in which those are looked for that agree with the first one


@dataclass
class Disagreement:
    """What the members of a communicator disagree on in one wave of calls, and the calls by ranks. The first
    one is that of the communicator's first member. An older checker gives words alone."""

    run: Run
    kind: str
    comm: int | None  # by its number in traces
    words: list[str]
    calls: dict[int, Call] = field(default_factory=dict)

    @property
    def first(self) -> Call | None:
        return next(iter(self.calls.values()), None)

    def label(self) -> str:
        known = self.first is not None and self.first.comm is not None
        unknown = "MPI_COMM_WORLD" if self.comm == 0 else "a communicator"
        return self.run.label(self.first.rank, self.first.comm) if known else unknown

    def place(self) -> int | None:
        """Which of the first member's collective calls on the communicator it is, from 1."""
        if self.first is None or self.first.comm is None:
            return None
        lines = self.run.collectives(self.first.rank, self.first.comm)
        return lines.index(self.first.number) + 1 if self.first.number in lines else None

    def all_calls(self) -> dict[int, Call]:
        """Also those of ranks that agree with the first member, as far as they can be looked up."""
        place = self.place()
        if not place or len(self.run.ranks) > MOST_RANKS:
            return self.calls
        comms = self.run.same(self.first.rank, self.first.comm)
        lines = {rank: self.run.collectives(rank, comm)[place - 1 : place] for rank, comm in comms.items()}
        found = {rank: self.run.calls(rank, some)[some[0]] for rank, some in lines.items() if some}
        return dict(sorted((found | self.calls).items()))

    def parties(self) -> list[str]:
        """Who calls what, in words: ranks with the same call share a line."""
        def key(call: Call) -> tuple:
            return call.where or call.rank, call.name, call.root if self.kind == "root" else None

        groups = grouped(self.all_calls().values(), key)
        ranks = [ranks_named(call.rank for call in group) for group in groups]
        roots = [f" with root {group[0].root}" if self.kind == "root" else "" for group in groups]
        return [f"{who}: {group[0].placed()}{root}" for who, group, root in zip(ranks, groups, roots)]

    def lines(self, alike: int) -> Iterator[str]:
        more = f" ({alike:,} more alike)" if alike else ""
        if self.kind == "group":
            call = f"rank {self.first.rank}'s {self.first.placed()}"
            yield f"{call} makes another group than the others say{more}"
            return
        if self.kind == "held":
            yield from self.parties()
            return
        place, is_window = self.place(), self.run.folder.name not in ("1", self.run.top.name)
        which = f"the {ordinal(place)} collective" if place else "a collective"
        yield f"{which} on {self.label()}{' in this window' * bool(place and is_window)}{more}:"
        parties = self.parties() or self.unknown_parties()
        yield from (f"    {line}" for line in shortened(parties, MOST_PARTIES))

    def unknown_parties(self) -> list[str]:
        what = [f"root {word}" if self.kind == "root" else f"MPI_{word.capitalize()}" for word in self.words]
        return [f"some ranks: {what[0]}", f"others: {what[1]}"]


def kind_of(kind: str, first: str, other: str) -> str:
    """The kind of a finding; if one call is the nonblocking form of the other one, it has its own name."""
    return "form" if kind == "kind" and other in ("i" + first, first.removeprefix("i")) else kind


def disagreements(view: View) -> list[Disagreement]:
    """All that a report finds, each with its calls."""
    found: dict[tuple[str, ...], Disagreement] = {}
    texts = [text.split(" ") for text in view.report["findings"]]
    places = view.report.get("finding_calls") or [[]] * len(texts)
    for (kind, *fields), calls in zip(texts, places):
        if kind in ("kind", "root"):
            one = Disagreement(view.run, kind_of(kind, *fields[3:]), int(fields[0]), fields[3:])
        elif kind == "group":
            one, calls = Disagreement(view.run, kind, None, []), [map(int, fields)]
        else:
            continue
        one = found.setdefault((kind, *fields[:2]), one)
        one.calls |= {rank: view.call(rank, at) for rank, at in calls}
    return list(found.values())


def held_by_them(went: View) -> set[int]:
    """The ranks that are held as observed, but not by the verdict: so by collective calls that differ."""
    return went.held if went.report["verdict"] != "hang" else went.held - set(went.stuck)


def differences_of(rules: View | None, went: View | None) -> list[Disagreement]:
    """The disagreements that are found; or the ranks held as observed though no call is missing. Then
    the first member of the communicator has no call there, and nothing is found of the others."""
    found = disagreements(rules) if rules else []
    held = held_by_them(went) if went and not found else set()
    calls = {rank: went.run.journals[rank].last for rank in sorted(held)}
    return found or ([Disagreement(went.run, "held", None, [], calls)] if calls else [])


def key_of(one: Disagreement) -> tuple:
    """Disagreements with the same key are reported once."""
    calls = tuple((rank, call.name, call.where, call.root) for rank, call in one.calls.items())
    return one.kind, one.comm == 0, calls or tuple(one.words)


def difference_lines(found: Iterable[Disagreement]) -> list[str]:
    """Who calls what, and what MPI requires."""
    groups = grouped(found, key_of)
    lines = [line for first, *others in groups[:MOST_WAVES] for line in first.lines(len(others))]
    left = len(groups) - MOST_WAVES
    lines += [f".. and {left:,} more"] if left > 0 else []
    return lines + list(dict.fromkeys(RULES[group[0].kind] for group in groups))


def is_of_order(found: list[Disagreement]) -> bool:
    """Whether all members make the same calls, but not in the same order."""
    for rank in {rank for one in found for rank in one.calls}:
        pairs = [(one.first.name, one.calls[rank].name) for one in found if rank in one.calls]
        if Counter(first for first, _ in pairs) != Counter(other for _, other in pairs):
            return False
    return True


def error_of(found: list[Disagreement]) -> str:
    """The first disagreement in words."""
    one, first, label = found[0], found[0].first, found[0].label()
    if one.kind == "group":
        return f"the ranks disagree on the group of the communicator that {first.name} makes"
    if one.kind == "held":
        return f"{ranks_named(one.calls)} wait for collective calls on which the ranks disagree"
    if one.kind == "root":
        return f"the ranks disagree on the root of {first.name if first else 'a collective'} on {label}"
    if one.kind == "form":
        names = sorted({call.name for call in one.calls.values()}) or one.words
        return f"the ranks match {names[0]} with {names[1]} on {label}"
    alike = [other for other in found if (other.kind, other.comm) == ("kind", one.comm)]
    if one.run.has_ended and not is_of_order(alike):
        return f"the ranks call different collectives on {label}"
    return f"the ranks call collectives in a different order on {label}"
