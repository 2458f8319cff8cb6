"""Which ranks wait for which, and what else is wrong with a run, in words."""

from __future__ import annotations

from collections.abc import Container, Iterator
from dataclasses import dataclass
from typing import TYPE_CHECKING

from .script import counted, grouped, listed, plural, ranks_named, shortened

if TYPE_CHECKING:
    from .journals import Call
    from .runs import Stuck, View

MOST_NAMES, MOST_LINES = 8, 60  # ranks of one cycle, and lines of the causes
IN_TURN = ", each for the next and the last for the first"
FINDINGS = {
    "unreceived": "nobody receives what rank {0.rank} sends in {1}",
    "request": "rank {0.rank} never waits for what it starts in {2}",
}


def place_key(stuck):
    return (stuck.call.name, stuck.call.where) if stuck.call.where else stuck.rank


def alike_key(stuck):
    """Stuck ranks with the same key share a line."""
    needs = tuple((rank, call is None) for rank, call in stuck.needs)
    return stuck.call.name, stuck.call.where, stuck.call.message(), needs, tuple(stuck.senders)


def is_another(stuck: Stuck, call: Call) -> bool:
    """Whether it is a collective call in the place of the one that a rank waits in, which it can't match."""
    own = [one for one in stuck.calls if one.is_collective]
    return call.is_collective and bool(own) and not any(map(call.matches, own))


def need_words(stuck, rank, call):
    if call is not None and is_another(stuck, call):
        return f"where rank {rank} calls {call.placed()} instead"
    if call is not None:
        return f"until rank {rank} comes to {call.placed()}"
    answers = {"receive" if half.is_send else "send" for half in stuck.lacking(rank)}
    never = "never makes" if stuck.view.is_closed(rank) else "hasn't made so far"
    return f"for a {answers.pop() if len(answers) == 1 else 'matching call'} that rank {rank} {never}"


def message_words(stuck):
    """What nobody sends: who could send it, and for whom they wait."""
    messages = f"for a message {' or '.join(stuck.messages())}"
    if not stuck.senders:
        return f"{messages}, and nobody is left who could send one"
    waited = {rank for one in stuck.senders for rank in stuck.view.stuck[one].waited}
    whom = f" for {ranks_named(waited)}" if len(waited) == 1 else " too"
    verb = "wait" if len(stuck.senders) > 1 else "waits"
    return f"{messages}, and {ranks_named(stuck.senders)}, who could send one, {verb}{whom}"


def stuck_lines(first, *others):
    """Some stuck ranks that wait alike."""
    needs = list(dict.fromkeys(need_words(first, *need) for need in first.needs))
    if len(first.waited) > 2 or others and any(call for _, call in first.needs):
        needs = [f"for {ranks_named({rank for rank, _ in first.needs})}"] if needs else []
    is_for_message = first.is_pending and (first.senders or not needs or first.sinks)
    needs += [message_words(first)] if is_for_message else []
    waits = f"{ranks_named(one.rank for one in (first, *others))} {'wait' if others else 'waits'}"
    call = f"{first.call.placed()} " if is_for_message and not first.needs else f"{first.call.text()}, "
    yield f"{waits} in {call}{needs[0]}"
    yield from (f"    {'or' if first.is_any else 'and'} {need}" for need in needs[1:])
    peers = [(one, {half.rank for half in one.halves}) for one in ([] if others else first.starts)]
    starts = [one.text() for one, ranks in peers if not ranks or ranks & first.waited]
    yield from (f"    started by {start}" for start in shortened(counted(starts), 4))
    if len(first.waited) <= 2:
        yield from near_misses(first)


def near_misses(stuck):
    """What the awaited rank sends or receives that differs by the tag or the communicator."""
    label = stuck.view.run.label
    for rank in sorted({rank for rank, call in stuck.needs if call is None}):
        for wanted in stuck.lacking(rank)[:2]:
            found = []
            for call, half in stuck.view.offers(rank, stuck.rank):
                labels = label(rank, half.comm), label(stuck.rank, wanted.comm)
                but = f"on {labels[0]} and not on {labels[1]}" if labels[0] != labels[1] else ""
                is_near = half.tag in (wanted.tag, "any")  # then it differs by its communicator, or its order
                but = but if is_near else f"with tag {half.tag} and not {wanted.tag}"
                side = "sends to it" if half.is_send else "receives from it"
                if but and half.is_send != wanted.is_send:
                    found.append(f"    rank {rank} {side} in {call.placed()}, but {but}")
            yield from list(dict.fromkeys(found))[:3]


@dataclass
class Cause:
    """Why some ranks are blocked forever: they wait for each other, or for something that never comes."""

    ranks: set[int]
    lines: list[str]
    is_cycle: bool = False


def lacks_for_good(stuck: Stuck) -> bool:
    """Whether a rank waits for a call that is never made, or that was made otherwise."""
    ranks = [rank for rank, call in stuck.needs if call is None]
    is_near = ranks and len(stuck.waited) <= 2 and any(near_misses(stuck))
    return bool(is_near) or any(map(stuck.view.is_closed, ranks))


def cycle_lines(view: View, cycle: list[int], reported: Container[int]) -> Iterator[str]:
    ranks, is_long = [view.stuck[rank] for rank in cycle], len(cycle) > MOST_NAMES
    too = " too" if any(rank in reported for rank in cycle) else ""
    if is_long:
        named = [*map(str, cycle[:4]), "..", str(cycle[-1])]
        yield f"{len(cycle)} ranks wait in a cycle{too}{IN_TURN}: {', '.join(named)}:"
    elif len(cycle) > 1:
        turn = IN_TURN if len(cycle) > 2 else ""
        yield f"ranks {listed(list(map(str, cycle)))} wait for each other{too}{turn}:"
    else:
        yield f"rank {cycle[0]} waits for a later call of its own{too}:"
    groups = grouped([one for one in ranks if one.rank not in reported], place_key if is_long else id)
    for first, *others in groups[:MOST_NAMES]:
        yield from (f"    {line}" for line in stuck_lines(first))
        if others:
            yield f"    and so {ranks_named(one.rank for one in others)} in the same line"
    if len(groups) > MOST_NAMES:
        yield f"    and so {plural(len(groups) - MOST_NAMES, 'more rank')} of the cycle"


def lacking_ranks(view: View) -> list[Stuck]:
    """The ranks of the causes that wait for a call which is missing for good. One that waits in the same line
    for a missing call belongs to them, also if the causes name another."""
    missing = {view.stuck[one["missing"][0]] for one in view.report["causes"] if "missing" in one}
    in_cycles = {rank for one in view.report["causes"] for rank in one.get("cycle", ())}
    missing |= {view.stuck[rank] for rank in in_cycles if lacks_for_good(view.stuck[rank])}
    keys = set(map(place_key, missing))
    others = [view.stuck[rank] for rank in view.held - in_cycles if rank in view.stuck]
    alike = [one for one in others if place_key(one) in keys]
    lacking = missing.union(one for one in alike if any(not call for _, call in one.needs))
    return sorted(lacking, key=lambda one: one.rank)


def rests_on_lack(view: View, cycle: list[int], lacking: Container[int]) -> bool:
    """Whether a cycle is one only by a call that a rank never makes, which has been said."""
    after = dict(zip(cycle, cycle[1:] + cycle[:1]))
    return any(rank in lacking and (after[rank], None) in view.stuck[rank].needs for rank in cycle)


def all_causes(view: View) -> list[Cause]:
    """The causes of a report: that which blocks most ranks first, and missing calls before cycles."""
    groups = grouped(lacking_ranks(view), alike_key)
    found = [Cause({one.rank for one in group}, list(stuck_lines(*group))) for group in groups]
    reported = {rank for cause in found for rank in cause.ranks}
    cycles = [one["cycle"] for one in view.report["causes"] if "cycle" in one]
    cycles = [cycle for cycle in cycles if not rests_on_lack(view, cycle, reported)]
    places = {tuple(cycle): tuple(place_key(view.stuck[rank]) for rank in cycle) for cycle in cycles}
    for first, *others in grouped(cycles, lambda cycle: places[tuple(cycle)]):
        lines = list(cycle_lines(view, first, reported))
        lines += ["and so " + listed(shortened(map(ranks_named, others), MOST_NAMES))] if others else []
        found.append(Cause(set(first).union(*others), lines, True))
        reported |= found[-1].ranks
    starved = [view.stuck[one["starved"]] for one in view.report["causes"] if "starved" in one]
    for group in grouped([one for one in starved if one.rank not in reported], alike_key):
        found.append(Cause({one.rank for one in group}, list(stuck_lines(*group))))
    return sorted(found, key=lambda cause: (-len(view.waiting(cause.ranks)), cause.is_cycle))


def other_causes(view: View, first: View | None) -> list[Cause]:
    """The causes but for those of another view, whose ranks are in the same call, and what these lead to."""
    reported = {rank for cause in all_causes(first) for rank in cause.ranks} if first else ()
    same = {rank for rank in reported if rank in view.stuck
            and view.stuck[rank].call.number == first.stuck[rank].call.number}  # fmt: skip
    led = view.waiting(same)
    return [cause for cause in all_causes(view) if led.isdisjoint(cause.ranks)]


def cause_sections(view: View, title: str, causes: list[Cause], is_alone: bool = True) -> Iterator[tuple]:
    """The causes, under a title, and who else waits."""
    named = {rank for cause in causes for rank in cause.ranks}
    if causes:
        yield title, shortened([line for cause in causes for line in cause.lines], MOST_LINES)
    others = grouped([one for one in view.stuck.values() if one.rank not in named], alike_key)
    if others and is_alone:
        lines = [line for group in others for line in stuck_lines(*group)]
        yield "Who else waits" if named else "Who waits", shortened(lines, MOST_LINES)


def finding_lines(view):
    """The findings of a report, but for disagreements: the first of each kind, and how many are alike."""
    counts, words = {}, {}
    for kind, *fields in (text.split(" ") for text in view.report["findings"]):
        if kind not in FINDINGS:
            continue
        call = view.call(int(fields[0]), int(fields[1]))
        key = kind, call.word, call.where
        counts[key] = counts.get(key, 0) + 1
        words.setdefault(key, FINDINGS[kind].format(call, call.text(), call.placed()))
    alike = {key: f" ({count - 1:,} more alike)" if count > 1 else "" for key, count in counts.items()}
    return [words[key] + alike[key] for key in words]
