"""Random runs as bench/random makes them, in which no call has a fault, and what a program reports of them."""
import json
import os
import pathlib
import subprocess

from importlib.machinery import SourceFileLoader
from importlib.util import module_from_spec, spec_from_loader

LOADER = SourceFileLoader("bench_random", str(pathlib.Path(__file__).resolve().parent / "random"))
RANDOM = module_from_spec(spec_from_loader(LOADER.name, LOADER))
LOADER.exec_module(RANDOM)
LEVEL = 15


def run_of(chance, is_wanted):
    """A run of this kind."""
    while True:
        run = RANDOM.Run(chance, LEVEL)
        run.calls = [list(run.lawful(rank, calls)) for rank, calls in enumerate(run.calls)]
        if is_wanted(run):
            return run


def report(program, texts, eager):
    """The report of a run with this head and these traces, which are written here; None with what was said, where
    there is none, or its verdict isn't that of the status."""
    for name, text in texts.items():
        pathlib.Path(name).write_text(text, encoding="ascii")
    environment = {**os.environ, "MPIWAIT_LEVEL": str(LEVEL), "MPIWAIT_THREADS": "1"}
    words = [program, "check", "--json", *eager, *texts]
    done = subprocess.run(words, capture_output=True, check=False, text=True, env=environment)
    try:
        told = json.loads(done.stdout)
    except ValueError:
        told = {}
    verdict = RANDOM.VERDICTS.get(done.returncode)
    if not told or done.stderr or told["verdict"] != verdict:
        return None, f"status {done.returncode}: {done.stdout}{done.stderr}"
    return told, ""
