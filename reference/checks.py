"""`check' and `lint': runs and traces that are recorded already."""

from collections.abc import Callable, Iterator
from concurrent.futures import ThreadPoolExecutor
from contextlib import suppress

from .disk import Disk
from .heads import DECIDING, MOST_BYTES, MOST_RANKS, Group, HeadFault, groups_of
from .ranks import calls_of_rank, places_in
from .texts import Named, Stream
from .traces import Call, TraceFault, calls_in
from .waits import Report, Waits

Read = tuple[list[Call], TraceFault | None]


def front_of(stream: Stream) -> bytes:
    """The bytes of a head that decide what it says."""
    data = bytearray()
    while len(data) < DECIDING and (more := stream.read(min(MOST_BYTES, DECIDING - len(data)))):
        data += more
    return bytes(data)


def head_in(disk: Disk, path: str) -> list[Group]:
    """The groups of the head with this path."""
    stream = disk.open(path)
    if stream is None:
        raise Named(f"fault open {path}", 4)
    try:
        return groups_of(front_of(stream))
    except OSError:
        raise Named("fault read head", 4) from None
    except HeadFault as fault:
        raise Named(f"refused {fault}", 2) from None


def files_of(disk: Disk, folder: str) -> list[str]:
    """The head of a folder, and its traces: those of all ranks of the head, and those after them that are there."""
    head, ranks = f"{folder}/head", 1
    if not disk.waits(head):
        with suppress(Named):
            ranks = len(head_in(disk, head)[0])
    files = [head]
    for rank in range(MOST_RANKS + 1):
        path = f"{folder}/r{rank}"
        if rank >= ranks and not disk.is_there(path):
            break
        files.append(path)
    return files


def opened(disk: Disk, paths: list[str]) -> Iterator[Stream]:
    for path in paths:
        stream = disk.open(path)
        if stream is None:
            raise Named(f"fault open {path}", 4)
        yield stream


def checked(disk: Disk, head: str, files: list[str], eager: int | None) -> Report:
    """The report of a run, of which the head and the traces in rank order have these paths."""
    groups = head_in(disk, head)
    if len(files) != len(groups[0]):
        raise Named(f"usage: head has {len(groups[0])} ranks, {len(files)} files given", 3)
    streams, places = list(opened(disk, files)), places_in(groups)

    def read(rank: int) -> Read:
        try:
            return calls_of_rank(rank, groups, places, streams[rank]), None
        except TraceFault as fault:
            return [], fault

    calls = []
    for rank, (known, fault) in enumerate(all_of(read, len(files), any(map(disk.waits, files)))):
        if fault:
            is_failure = fault.code == "E2"
            raise Named(f"{'fault' if is_failure else 'refused'} rank {rank} {fault}", 4 if is_failure else 2)
        calls.append(known)
    return Waits(groups, calls, [None] * len(calls), [{}] * len(calls), eager).report()


def all_of(read: Callable[[int], Read], ranks: int, are_pipes: bool) -> Iterator[Read]:
    """The calls of all ranks; pipes are read at the same time, since one may wait for another."""
    if not are_pipes:
        yield from map(read, range(ranks))
        return
    with ThreadPoolExecutor(ranks) as threads:
        yield from threads.map(read, range(ranks))


def linted(disk: Disk, path: str) -> int:
    """The number of calls of one trace alone."""
    stream = disk.open(path)
    if stream is None:
        raise Named(f"fault open {path}", 4)
    try:
        return sum(1 for _ in calls_in(stream))
    except TraceFault as fault:
        is_failure = fault.code == "E2"
        raise Named(f"fault lint {fault}" if is_failure else f"lint refused {fault}", 4 if is_failure else 2) from None
