"""Asks a program, and the reference, what they make of the same journals: those in the folder J, and OUT,
which `close` makes."""

import json
import os
import shutil
import subprocess
import sys
from pathlib import Path

sys.path.append(str(Path(__file__).resolve().parents[1]))
from reference.command_line import answer  # noqa: E402
from reference.disk import Disk  # noqa: E402
from reference.lists import Choice  # noqa: E402
from reference.recordings import recording_in  # noqa: E402
from reference.reports import json_of, text_of  # noqa: E402
from reference.texts import Named  # noqa: E402
from reference.words import asked_by  # noqa: E402

MOST_SECONDS = 600  # that a program may take


def ended(words, **more):
    """The status and both outputs; no status where it takes too long."""
    try:
        run = subprocess.run(words, capture_output=True, check=False, timeout=MOST_SECONDS, **more)
    except subprocess.TimeoutExpired:
        return None, b"", b""
    return run.returncode, run.stdout, run.stderr


def made(folder):
    """The files in a folder that `close` made, which is gone afterwards."""
    if not folder.is_dir():
        return None
    texts = {path.name: path.read_bytes() for path in folder.iterdir()}
    shutil.rmtree(folder)
    return texts


def answers(program, words, folder, **variables):
    """The status, both outputs, and the files that were made, with these variables of the environment too."""
    status, out, err = ended([program, *words], cwd=folder, env=os.environ | variables)
    return status, out.decode("latin-1"), err.decode("latin-1"), made(folder / "OUT")


def wanted_answers(words, folder, checker=None):
    """The same of the reference, without a process of its own. With a checker `judge` has that check what `close`
    makes."""
    words = [str(folder / word) if word in ("J", "OUT") else word for word in words]
    try:
        if checker and words[0] == "judge":
            status, out, err = closed_answer(checker, asked_by(words, False), folder)
        else:
            status, out, err = answer(words, Disk())
    except Named as named:
        status, out, err = (2, f"{named.text}\n", "") if named.status == 2 else (named.status, "", f"{named.text}\n")
    return status, *(text.replace(f"{folder}/", "") for text in (out, err)), made(folder / "OUT")


def closed_answer(checker, asked, folder):
    choice = Choice(asked.options.get("--tests", "wait"), asked.options.get("--calls", "strict"))
    recording = recording_in(Disk(), asked.paths[0], choice)
    texts, eager = recording.texts(), asked.number("--eager")
    Disk().write_folder(str(folder / "OUT"), texts)
    words = ["check", "--json", *(() if eager is None else ("--eager", str(eager))), *(f"OUT/{name}" for name in texts)]
    status, out, err = ended([checker, *words], cwd=folder)
    made(folder / "OUT")
    if status not in (0, 1, 5):
        return status, out.decode("latin-1"), err.decode("latin-1")
    report = recording.completed(json.loads(out), recording.waits(eager))
    if "--json" in asked.options:
        return status, json_of(report), ""
    return status, text_of(report), ""
