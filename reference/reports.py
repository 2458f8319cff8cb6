"""Reports as text and as JSON."""

import json
from collections.abc import Iterator
from typing import Any

from .texts import spelled

STATUSES = {"free": 0, "hang": 1, "unfinished": 5}


def json_of(report: dict[str, Any]) -> str:
    return json.dumps(report, sort_keys=True, separators=(",", ":")) + "\n"


def text_of(report: dict[str, Any]) -> str:
    return "".join(line + "\n" for line in lines_of(report))


def lines_of(report: dict[str, Any]) -> Iterator[str]:
    yield f"verdict {report['verdict']}"
    for stuck in report["ranks"]:
        for need in stuck["needs"]:
            yield f"rank {stuck['rank']} at {stuck['at']} {stuck['call']} waits {awaited_by(need)}"
    for cause in report["causes"]:
        for kind, ranks in cause.items():
            yield f"{kind} {ranks if kind == 'starved' else spelled(ranks)}"
    for finding in report["findings"]:
        yield f"finding {finding}"
    for left in report.get("left", ()):
        yield f"left {spelled(left)}"


def awaited_by(need: list[int | None]) -> str:
    """A call of a rank, or none; a rank, whatever it calls; nobody."""
    if len(need) < 2:
        return f"rank {need[0]}" if need else "nobody"
    rank, call = need
    return f"rank {rank} {'none' if call is None else f'call {call}'}"
