"""What the scripts of tools/compare share: sources by apt-get, runs under tools/run, and tables."""

import argparse
import json
import os
import re
import shutil
import signal
import subprocess
import sys
from concurrent.futures import ThreadPoolExecutor
from pathlib import Path
from typing import Any, Callable, Iterable

HERE = Path(__file__).resolve().parent
RUN = HERE.parent / "run"
# What a status of tools/run is called in a table.
ANSWERS = {0: "free", 1: "hang", 5: "unfinished", 6: "not judged", 7: "calls differ", 8: "failed"}
Result = dict[str, Any]


class Stopped(Exception):
    """Something is missing, or can't be done: why."""


def need(*commands: str) -> None:
    missing = [command for command in commands if not shutil.which(command)]
    if missing:
        raise Stopped(f"there is no {', '.join(missing)}: docs/COMPARED.md says what to install")


# ---- Sources -------------------------------------------------------------------------------------


def release() -> str:
    """The name of the Debian release, as `bookworm'."""
    try:
        text = Path("/etc/os-release").read_text(encoding="utf-8")
    except OSError:
        text = ""
    found = re.search(r'^VERSION_CODENAME="?(\w+)', text, re.MULTILINE)
    if not found:
        raise Stopped("this machine's release of Debian isn't known: /etc/os-release has no VERSION_CODENAME")
    return found[1]


def apt_options(folder: Path) -> list[str]:
    """Lists, cache and sources of its own: the machine's are neither used nor altered."""
    for name in ("lists/partial", "cache/archives/partial"):
        (folder / name).mkdir(parents=True, exist_ok=True)
    sources = folder / "sources.list"
    sources.write_text(f"deb-src http://deb.debian.org/debian {release()} main\n", encoding="utf-8")
    own = {"Dir::Etc::sourcelist": sources, "Dir::Etc::sourceparts": "/dev/null",
           "Dir::State::lists": folder / "lists", "Dir::Cache": folder / "cache"}  # fmt: skip
    own |= {"APT::Sandbox::User": "root"} if os.getuid() == 0 else {}
    return [word for name, value in own.items() for word in ("-o", f"{name}={value}")]


def fetch(package: str, folder: Path) -> Path:
    """The folder of a package's sources, as its authors released them. It is fetched once."""
    found = sorted(folder.glob(f"{package}-*/"))
    if found:
        return found[-1]
    options = apt_options(folder / "apt")
    for words in (["update"], ["--download-only", "source", package]):
        done = subprocess.run(["apt-get", *options, *words], cwd=folder, stdin=subprocess.DEVNULL, text=True,
                              stdout=subprocess.PIPE, stderr=subprocess.STDOUT, check=False)  # fmt: skip
        if done.returncode:
            raise Stopped(f"apt-get {' '.join(words)} failed:\n{done.stdout}")
    for archive in folder.glob(f"{package}_*.orig.tar.*"):
        subprocess.run(["tar", "-xf", archive, "-C", folder], check=True)
    found = sorted(folder.glob(f"{package}-*/"))
    if not found:
        raise Stopped(f"apt-get source {package} gave no archive with a folder {package}-VERSION")
    return found[-1]


# ---- Runs ----------------------------------------------------------------------------------------


def run_within(command: list[str], seconds: float, folder: Path, **more: str) -> tuple[int | None, str]:
    """The status and what was said; None if it was ended, with all that it started."""
    process = subprocess.Popen(command, cwd=folder, stdin=subprocess.DEVNULL, stdout=subprocess.PIPE,
                               stderr=subprocess.STDOUT, text=True, errors="replace", start_new_session=True,
                               env={**os.environ, **more})  # fmt: skip
    try:
        said, _ = process.communicate(timeout=seconds)
        return process.returncode, said
    except subprocess.TimeoutExpired:
        os.killpg(process.pid, signal.SIGTERM)  # mpirun and tools/run end their ranks by that
        try:
            said, _ = process.communicate(timeout=20)
        except subprocess.TimeoutExpired:
            os.killpg(process.pid, signal.SIGKILL)
            said, _ = process.communicate()
        return None, said


def record(
    command: list[str], options: list[str], seconds: float, folder: Path, at: Path | None = None
) -> Result:
    """What tools/run answers of a command, which runs in the folder `at' and is ended after so many seconds.
    The recording is removed."""
    recording, report = folder / "mpiwait-run", folder / "report.json"
    report.unlink(missing_ok=True)
    words = [str(RUN), "--folder", str(recording), "--json", str(report), "--for", str(seconds), *options]
    status, said = run_within([*words, *command], 3 * seconds + 60, at or folder)
    result: Result = {"status": status, "said": said[-20000:]}
    if report.exists():
        result["report"] = json.loads(report.read_text(encoding="utf-8"))
    result["counted"] = counted_in(recording)
    shutil.rmtree(recording, ignore_errors=True)
    return result


def counted_in(recording: Path) -> list[str]:
    """The calls of a recording that were only counted and may matter, by the recorder's own files."""
    text = "\n".join(path.read_text(errors="replace") for path in recording.glob("journal/**/left*"))
    return sorted(set(re.findall(r"^[PWw] \d+ ([^\0\n]*)", text, re.MULTILINE)))


def answer_of(result: Result) -> str:
    """The status in words. A free run that has findings or warnings is shown apart."""
    status = result["status"]
    if status is None:
        return "no answer"
    titles = [section["title"] for section in result.get("report", {}).get("sections", [])]
    if status == 0 and any(re.match("findings|warnings", title, re.IGNORECASE) for title in titles):
        return "finding"
    return ANSWERS.get(status, f"status {status}")


def lines_named(result: Result, file: str) -> set[int]:
    """The lines of a file of the program that the report names."""
    return {int(number) for number in re.findall(rf"\b{re.escape(file)}:(\d+)", result["said"])}


def run_all(
    names: Iterable[str], run: Callable[[str, Path], Result], folder: Path, jobs: int
) -> dict[str, Result]:
    """The results of all names. One that is stored isn't run again: so a run that was ended is taken up."""
    results: dict[str, Result] = {}
    stored = folder / "results"
    stored.mkdir(parents=True, exist_ok=True)
    names = list(names)

    def run_one(name: str) -> None:
        path = stored / f"{name.replace('/', '+')}.json"
        if not path.exists():
            place = folder / "runs" / name.replace("/", "+")
            shutil.rmtree(place, ignore_errors=True)
            place.mkdir(parents=True)
            result = run(name, place)
            shutil.rmtree(place, ignore_errors=True)
            whole = path.with_suffix(".part")
            whole.write_text(json.dumps(result), encoding="utf-8")
            whole.rename(path)
            done = sum((stored / f"{one.replace('/', '+')}.json").exists() for one in names)
            print(f"{done} of {len(names)}: {name}: {result.get('answer')}", file=sys.stderr, flush=True)
        results[name] = json.loads(path.read_text(encoding="utf-8"))

    with ThreadPoolExecutor(max_workers=jobs) as pool:
        for _ in pool.map(run_one, names):
            pass
    return {name: results[name] for name in names}


def some_of(names: list[str], count: int | None) -> list[str]:
    """All, or so many, evenly from the first to the last."""
    if count is None or count >= len(names):
        return names
    return [names[at * len(names) // count] for at in range(count)]


# ---- What is printed -----------------------------------------------------------------------------


def table(head: list[str], rows: list[list[str]]) -> str:
    lines = [f"| {' | '.join(row)} |" for row in (head, *rows)]
    return "\n".join([lines[0], "|" + "---|" * len(head), *lines[1:]])


def put_into(text: str, name: str, own: str) -> str:
    """A document in which the part of this name is this one. Comments stand around each part."""
    first, last = f"<!-- {name} -->\n", f"<!-- end of {name} -->\n"
    if text.count(first) != 1 or text.count(last) != 1 or text.index(first) > text.index(last):
        raise Stopped(f"the document has no part between {first.strip()} and {last.strip()}")
    return text[: text.index(first) + len(first)] + own + text[text.index(last) :]


def publish(parts: list[str], name: str, words: argparse.Namespace) -> None:
    """Prints what was found, and puts it into the document that --into names."""
    own = "\n\n".join(parts) + "\n"
    print(own, end="")
    if words.into:
        name += " --strict" if words.strict else ""
        whole = words.into.read_text(encoding="utf-8")
        words.into.write_text(put_into(whole, f"tools/compare/{name}", own), encoding="utf-8")


def counts(answers: Iterable[str], columns: list[str]) -> list[str]:
    """How many answers there are of each column; a dot for none."""
    answers = list(answers)
    return [str(answers.count(column)) if column in answers else "." for column in columns]


def first_line(command: list[str]) -> str:
    try:
        done = subprocess.run(command, text=True, capture_output=True, stdin=subprocess.DEVNULL, check=False)
    except OSError:
        return "unknown"
    return (done.stdout + done.stderr).strip().partition("\n")[0]


def mpich_version() -> str:
    """As `MPICH 4.0.2'."""
    said = first_line(["sh", "-c", "mpirun.mpich --version | sed -n 's/^ *Version: *//p'"])
    return f"MPICH {said}"


def words_of(doc: str, name: str) -> argparse.ArgumentParser:
    head, _, rest = doc.partition("\n\n")
    form = argparse.RawDescriptionHelpFormatter
    parser = argparse.ArgumentParser(prog=name, description=head, epilog=rest, formatter_class=form)
    add = parser.add_argument
    add("names", nargs="*", metavar="NAME", help="only these programs")
    add("-j", type=int, default=2, dest="jobs", metavar="N", help="run so many at a time (default: 2)")
    add("--take", type=int, metavar="N", help="run so many, evenly from all")
    add("--for", type=float, default=20, dest="seconds", metavar="SECONDS", help="end a run after that time")
    add("--strict", action="store_true", help="record with tools/run --strict")
    add("--folder", type=Path, default=Path(f"mpiwait-compare/{name}"), help="for all that it makes")
    add("--into", type=Path, metavar="FILE", help="put the tables into a document, as docs/COMPARED.md")
    add("--table", action="store_true", help="run nothing, and print the tables of what is stored")
    return parser


def run_script(main: Callable[[], int]) -> None:
    """The status is 3 if something is missing."""
    signal.signal(signal.SIGTERM, lambda *_: sys.exit(143))
    try:
        sys.exit(main())
    except Stopped as why:
        print(f"tools/compare/{Path(sys.argv[0]).name}: {why}", file=sys.stderr)
        sys.exit(3)
