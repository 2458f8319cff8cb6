"""Writes what was found: as text, as JSON, SARIF and JUnit's XML, and as a page with a picture."""

import html
import json
import os
import re
import subprocess
import xml.etree.ElementTree as XML
from contextlib import suppress
from pathlib import Path
from urllib.parse import quote

from .causes import alike_key, is_another, need_words, stuck_lines
from .differing import difference_lines, error_of, key_of
from .journals import windows_in
from .script import Status, Stopped, grouped, ranks_named, why_of, worst

RED, MOST_ARROWS = "#c0392b", 200
RULES = {"hang": "A rank waits for ever", "may-hang": "A rank may wait for ever, by what MPI allows",
         "different-calls": "The ranks disagree on a collective call",
         "failed": "A call of MPI failed"}  # fmt: skip
# The outcome of a test by its status.
OUTCOMES = ("", "failure", "error", "error", "error", "skipped", "skipped", "failure", "failure")
# Those of runs that aren't judged, and their level in SARIF.
UNJUDGED = {"error": "error", "skipped": "warning"}


def call_json(call):
    own = call.run.places.own(call.rank, call.site) if call.site else None
    found = {"file": own.path, "code": own.line} if own else {}
    found |= {} if call.comm is None else {"communicator": call.run.label(call.rank, call.comm)}
    return found | {"rank": call.rank, "line": call.number, "mpi": call.name, "where": call.where}


def as_json(story):
    """The verdict is null if it isn't to be trusted; `verdicts` has each answer."""
    run, shown = story.run, story.shown
    polls = [(one.rank, *one.polls) for one in run.journals if one.polls]
    return json.dumps({
        "status": int(story.status), "title": story.title, "strict": run.is_strict,
        "verdict": None if run.count("P") or story.misses_windows() else story.verdict,
        "verdicts": story.verdicts(),
        "ranks": [call_json(one.call) | {
            "held": one.rank in shown.held, "message": one.call.message(),
            "waits": [{"rank": rank, "call": call and call_json(call)} for rank, call in one.needs],
            "messages": one.messages() if one.is_pending else [], "senders": one.senders,
            "started": [call_json(start) for start in one.starts]} for one in story.stuck],
        "causes": shown.report["causes"] if shown else [],
        "windows": story.windows and story.windows.counts(),
        "polls": [{"rank": rank, "mpi": name, "where": run.places.where(rank, site), "count": count}
                  for rank, name, site, count in polls],
        "left": (story.strict or shown).report["left"] if shown else [],
        "sections": [{"title": title, "lines": lines} for title, lines in story.sections],
    }, indent=1)  # fmt: skip


def uri_of(path):
    """A reference: from the folder in which we are, if it is below that."""
    here = os.path.join(os.getcwd(), "")
    return ("" if path.startswith(here) else "file://") + quote(os.fsencode(path.removeprefix(here)))


def results(story):
    """Each stuck call is a result at its line."""
    hangs = story.verdict == "hang" and not story.run.count("P")
    rule = "may-hang" if story.may_hang else "hang"
    found = [(rule, stuck_lines(one), one.call) for one in (story.stuck if hangs else [])]
    found += [("different-calls", [f"error: {error_of([one])}", *difference_lines([one])], one.first)
              for one, *_ in grouped(story.differences, key_of)]  # fmt: skip
    found += [("failed", [one.text()], one.call) for one in story.failures]
    for rule, lines, call in found:
        text = {"text": "\n".join(line.strip() for line in lines)}
        result = {"ruleId": rule, "level": "warning" if rule == "may-hang" else "error", "message": text}
        own = call and call.site and call.run.places.own(call.rank, call.site)
        if own and os.path.isabs(own.path):
            place = {"artifactLocation": {"uri": uri_of(own.path)}, "region": {"startLine": own.line}}
            result["locations"] = [{"physicalLocation": place}]
        yield result


def as_sarif(stories):
    rules = [{"id": name, "shortDescription": {"text": text}} for name, text in RULES.items()]
    found = [one for story in stories for one in results(story)]
    called = {"executionSuccessful": OUTCOMES[worst([one.status for one in stories])] not in UNJUDGED}
    called["toolExecutionNotifications"] = [  # else a run that isn't judged would look like a free one
        {"level": UNJUDGED[OUTCOMES[one.status]],
         "message": {"text": "\n".join([one.title, *(one.unanswered.values() if one.shown else ())])}}
        for one in stories if OUTCOMES[one.status] in UNJUDGED]  # fmt: skip
    run = {"tool": {"driver": {"name": "mpiwait", "rules": rules}}, "invocations": [called], "results": found}
    log = {"$schema": "https://json.schemastore.org/sarif-2.1.0.json", "version": "2.1.0", "runs": [run]}
    return json.dumps(log, indent=1)


def printable_xml(text):
    """What XML 1.0 can't hold is left out."""
    return re.sub("[^\t\n -\ud7ff\ue000-\ufffd\U00010000-\U0010ffff]", "", text)


def as_junit(stories):
    outcomes = [OUTCOMES[one.status] for one in stories]
    kinds = {"failures": "failure", "errors": "error", "skipped": "skipped"}
    counts = {name: str(outcomes.count(kind)) for name, kind in kinds.items()}
    counts |= {"tests": str(len(stories)), "time": f"{sum(one.seconds for one in stories):.3f}"}
    suite = XML.Element("testsuite", name="mpiwait", **counts)
    for one, outcome in zip(stories, outcomes):
        more = {"classname": "mpiwait", "name": printable_xml(one.name), "time": f"{one.seconds:.3f}"}
        case = XML.SubElement(suite, "testcase", more)
        kind = {} if outcome == "skipped" else {"type": Status(one.status).name.lower()}
        if outcome:
            element = XML.SubElement(case, outcome, message=printable_xml(one.title), **kind)
            element.text = printable_xml(one.text) if kind else None
    XML.indent(suite)
    return f'<?xml version="1.0" encoding="UTF-8"?>\n{XML.tostring(suite, encoding="unicode")}\n'


def statement(*names, **attributes):
    """A statement of Graphviz's language, whose strings are quoted as those of JSON."""
    quoted = {key: json.dumps(str(value), ensure_ascii=False) for key, value in attributes.items()}
    pairs = ", ".join(f"{key}={value}" for key, value in quoted.items())
    return f"  {' -> '.join(map(json.dumps, names))} [{pairs}];"


def marked_arrows(view):
    """The arrows of the causes: pairs of a rank and the place of its need."""
    for cause in view.report["causes"]:
        cycle = cause.get("cycle")
        missing = [cause["missing"]] if "missing" in cause else []
        for rank, other in zip(cycle, cycle[1:] + cycle[:1]) if cycle else missing:
            needs = enumerate(view.stuck[rank].arrows())
            places = [at for at, (whose, call) in needs if whose == other and (cycle or not call)]
            yield from ((rank, at) for at in places[:1])


def arrow(view, one, place, is_marked):
    """A need: to the rank that is waited for, also if its call is missing. One that ended is dashed."""
    rank, call = one.arrows()[place]
    style = {"color": RED, "fontcolor": RED, "penwidth": 2} if is_marked else {}
    style |= {} if call else {"style": "dashed"}
    target = f"rank {rank}" if call or rank in view.stuck else f"missing {rank}"
    if target.startswith("missing"):
        yield statement(target, label=f"rank {rank}", style="dashed")
    words = "message" if place >= len(one.needs) else need_words(one, rank, None).removeprefix("for a ")
    label = call.placed() + " instead" * is_another(one, call) if call else words
    yield statement(f"rank {one.rank}", target, label=f" {label} ", **style)


def dot_of(story):
    """The picture in Graphviz's language."""
    view, marked = story.shown, set(marked_arrows(story.shown))
    arrows = [(one.rank, place) for one in story.stuck for place in range(len(one.arrows()))]
    arrows.sort(key=lambda arrow: (arrow not in marked, arrow[1] != 0))
    drawn, left = arrows[:MOST_ARROWS], len(arrows) - MOST_ARROWS
    yield f"digraph mpiwait {{\n  label={json.dumps(story.title)}; labelloc=t; graph [fontname=monospace];"
    yield "  node [fontname=monospace, shape=box]; edge [fontname=monospace];"
    starved = [one.rank for one in story.stuck if not one.waited]
    for rank in dict.fromkeys([rank for rank, _ in drawn] + starved):
        call, style = view.stuck[rank].call, {"color": RED} if rank in dict(marked) else {}
        label = "\n".join([f"rank {rank}", call.placed(), call.message()]).rstrip()
        yield statement(f"rank {rank}", label=label, URL=f"#rank-{rank}", **style)
    for rank, place in drawn:
        yield from arrow(view, view.stuck[rank], place, (rank, place) in marked)
    if left > 0:
        yield statement("left out", shape="plaintext", label=f"{left} more arrows aren't drawn")
    yield "}"


def as_svg(story):
    if not story.stuck:
        return None
    graph = "\n".join(dot_of(story)).encode(errors="replace")
    try:
        return subprocess.run(["dot", "-Tsvg"], input=graph, capture_output=True, check=True).stdout.decode()
    except (OSError, subprocess.CalledProcessError) as fault:
        raise Stopped(f"`dot' of the Debian package graphviz made no picture: {fault}") from None


STYLE = """body { font-family: sans-serif; max-width: 75em; margin: 2em auto; padding: 0 1em; color: #222; }
pre { background: #f4f4f4; padding: 0.8em; overflow-x: auto; white-space: pre-wrap; }
svg { max-width: 100%; height: auto; }"""


def linked(lines, ranks):
    """Lines in which each of these ranks that is named alone links to its text."""
    text, named = html.escape("\n".join(lines)), "|".join(str(one.rank) for one in ranks)
    return re.sub(rf"\brank ({named})\b", r'<a href="#rank-\1">rank \1</a>', text) if named else text


def folded(title, body):
    return f"<details><summary><b>{html.escape(title)}</b></summary>\n{body}</details>"


def as_html(story):
    """The page begins with the cause; the picture follows, and the rest is folded."""
    parts = [folded(title, f"<pre>{linked(lines, story.stuck)}</pre>") for title, lines in story.sections]
    body = [part.replace("<details", "<details open", 1) for part in parts[:1]]
    if story.stuck:
        try:
            drawn = "<svg" + as_svg(story).partition("<svg")[2]
        except Stopped as why:
            drawn = f"<p>{html.escape(str(why))}</p>"
        body += ["<h2>Who waits for whom</h2>", drawn, "<h2>Each rank</h2>"]
        for group in grouped(story.stuck, alike_key):
            texts = {one.rank: linked(stuck_lines(one), story.stuck) for one in group}
            rows = [f'<pre id="rank-{rank}">{text}</pre>' for rank, text in texts.items()]
            body.append(folded(f"{ranks_named(texts)}: {group[0].call.text()}", "".join(rows)))
    title, body = html.escape(story.title), body + parts[1:]
    head = f'<meta charset="utf-8">\n<title>{title}</title>\n<style>\n{STYLE}\n</style>'
    top = f'<!DOCTYPE html>\n<html lang="en">\n<head>\n{head}\n</head>\n<body>\n<h1>{title}</h1>\n'
    return "\n".join([top, *body, "</body>\n</html>\n"])


def numbered(path, place):
    """The name of an output for the run at a place among several: as it was given, then `page-2.html'."""
    return path if place == 1 else path.with_name(f"{path.stem}-{place}{path.suffix}")


# The outputs, by the options that name their files: what they are, and whether there is one for each run.
OUTPUTS = {
    "json": (as_json, True, "the same for other programs"), "svg": (as_svg, True, "the picture"),
    "html": (as_html, True, "a page with it"),
    "sarif": (as_sarif, False, "SARIF"), "junit": (as_junit, False, "the result of a test in JUnit's XML"),
}  # fmt: skip


def remove_old(paths):
    """What an earlier run wrote doesn't stay where this one writes nothing. Links, pipes and devices do."""
    for path in paths:
        with suppress(OSError):
            if path.is_file() and not path.is_symlink():
                path.unlink()


def write_outputs(stories, files):
    """Writes what was asked for. Answers what went wrong."""
    faults = []
    for kind, path in files.items():
        written, is_each, _ = OUTPUTS[kind]
        parts = [(numbered(path, place), one) for place, one in enumerate(stories, 1)]
        for path, what in parts if is_each else [(path, stories)]:
            remove_old([path])
            try:
                text = written(what)
                if text is not None:
                    path.write_text(text, encoding="utf-8", errors="backslashreplace")
            except (OSError, Stopped) as fault:
                faults.append(f"{path}: {getattr(fault, 'strerror', None) or why_of(fault)}")
    return faults


def report(stories, files):
    """Prints the reports and writes what else is asked for. Answers the status of all."""
    runs = list(dict.fromkeys(one.run.top for one in stories))
    names = {top: f"Run {number} of {len(runs)}" for number, top in enumerate(runs, 1) if len(runs) > 1}
    titles = [", ".join(filter(None, [names.get(one.run.top), one.heading])).capitalize() for one in stories]
    texts = [f"{title}\n{'=' * len(title)}\n{one.text}" for title, one in zip(titles, stories)]
    try:
        print("\n".join(texts) if len(stories) > 1 else stories[0].text, end="", flush=True)
    except BrokenPipeError:  # the reader wants no more; the files are written all the same
        os.dup2(os.open(os.devnull, os.O_WRONLY), 1)
    faults = write_outputs(stories, files)
    if faults:
        raise Stopped("; ".join(faults))
    return worst([one.status for one in stories])


def runs_in(folder):
    """The folders with journals: the folder of the first run and those of others in it, as they began."""
    top = Path(folder)  # windows that go change the folder of a run, but not its mark
    marks = {one: next(top.glob(f"windows-{one.name[4:]}"), one) for one in top.glob("run-*")}
    runs = [top, *sorted(marks, key=lambda one: marks[one].stat().st_mtime_ns)]
    return [one for one in runs if any(one.glob("journal[0-9]*")) or windows_in(one)]
