"""Makes large runs once, and measures what a program uses on them."""
import os
import resource


def files_of(folder, traces, head=""):
    """The words that name the files of a run, which is written if it isn't there: a trace of each of these, to which
    `finalize` is added, and the head, which has as many ranks unless it is given."""
    if not (folder / "head").exists():
        folder.mkdir(parents=True, exist_ok=True)
        for rank, trace in enumerate(traces):
            (folder / f"r{rank:04}").write_text(f"{trace}finalize\n")
        (folder / "head").write_text(head or f"ranks {rank + 1}\n")
    return [str(folder / "head"), *map(str, sorted(folder.glob("r*")))]


def ended(words, processors, level, output):
    """What a program used, and its status. Its standard output goes to the file, standard error nowhere."""
    child = os.fork()
    if child == 0:
        try:
            soft, hard = resource.getrlimit(resource.RLIMIT_NOFILE)
            resource.setrlimit(resource.RLIMIT_NOFILE, (hard, hard))
            os.sched_setaffinity(0, processors)
            os.dup2(output.fileno(), 1)
            said = os.dup(2)
            os.dup2(os.open(os.devnull, os.O_WRONLY), 2)
            os.execve(words[0], words, {"MPIWAIT_THREADS": "1", "MPIWAIT_LEVEL": level} | os.environ)
        except OSError as fault:
            os.write(said, f"{words[0]}: {fault}\n".encode())
        finally:
            os._exit(127)
    _, status, used = os.wait4(child, 0)
    return used, os.waitstatus_to_exitcode(status)
