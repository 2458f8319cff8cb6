"""Receives with wildcards on whose messages a hang rests: another run may match them otherwise."""

from __future__ import annotations

from typing import TYPE_CHECKING

from .journals import RECEIVES
from .script import grouped, ranks_named

if TYPE_CHECKING:
    from collections.abc import Iterator

    from .journals import Call
    from .runs import Stuck, View

DOUBT = ("{}: {} has a wildcard, and the verdict takes the message that it received in this run. With "
         "another message the program may not hang. --strict decides: run it once more with tools/run "
         "--strict.")  # fmt: skip


def is_wild(call: Call) -> bool:
    received = [half for half in call.halves if not half.is_send]
    return call.word in RECEIVES and any("any" in (half.peer, half.tag) for half in received)


def is_sent(view: View, receiver: int, comm: int, source: str, tag: str) -> bool:
    """Whether the sender of a message with this source and tag has come to all such messages."""
    run = view.run
    sender, members = run.world_rank(receiver, comm, source), run.made(receiver, comm)[0]
    if sender not in view.stuck:
        return True
    for call in run.journals[sender].sends_after(view.stuck[sender].call.number or 0, tag):
        for half in call.halves:
            is_alike = half.is_send and half.rank == receiver and half.tag == tag
            if is_alike and run.made(sender, half.comm)[0] == members:
                return False
    return True


def begun(view: View, stuck: Stuck) -> Iterator[Call]:
    """The receives that a rank has begun, each with a message that isn't sent where the ranks are."""
    wild = dict(view.run.journals[stuck.rank].open_wildcards(stuck.call.number or 0))
    for number, call in view.run.calls(stuck.rank, wild).items():
        if number in wild and not is_sent(view, stuck.rank, call.comm, *wild[number]):
            yield call


def doubts(view: View) -> list[str]:
    """The receives with wildcards in which held ranks are, or that they have begun, in words."""
    found = []
    for stuck in (view.stuck[rank] for rank in sorted(view.held) if rank in view.stuck):
        if not stuck.is_pending:
            found += [stuck.call] if is_wild(stuck.call) else []
            found += begun(view, stuck)
    groups = grouped(found, lambda call: call.where or (call.rank, call.number))
    return [DOUBT.format(ranks_named({call.rank for call in group}), group[0].placed()) for group in groups]
