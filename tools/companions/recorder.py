"""Finds the MPI library of a command, builds the recorder for it, and hands the recorder to the ranks."""

import hashlib
import os
import re
import shutil
import subprocess
from contextlib import suppress
from pathlib import Path

from .script import HERE, Status, Stopped, say

SOURCES = HERE.parent / "record"
LAUNCHER = re.compile(r"(.*/)?(mpirun|mpiexec|orterun|prterun)[^/]*")
MACROS = {"mpich": "define MPICH_VERSION ", "openmpi": "define OPEN_MPI "}
# What launchers say, and what programs load: where the files of the library are says nothing.
SAYS = {"mpich": "HYDRA|MPICH", "openmpi": "Open MPI|OpenRTE|PRRTE"}
LOADS = {"mpich": r"libmpich[.]so|libmpi[.]so[.]12\b", "openmpi": r"libmpi[.]so[.](?!12\b)"}
SANITIZER = {"ASAN_OPTIONS": "verify_asan_link_order=0"}  # else its runtime has to come before the recorder


def said_by(*words, **more):
    """What a command says, on both outputs; nothing if it can't be run."""
    more = {"input": "", "text": True, "errors": "replace", "stderr": subprocess.STDOUT, **more}
    try:
        return subprocess.run(words, stdout=subprocess.PIPE, check=False, **more).stdout
    except OSError:
        return ""


def library_of(command):
    """That which a program loads. Python and scripts load it later: then it is the launcher's."""
    program = launcher = None
    for word in command:
        path = None if word.startswith("-") else shutil.which(word)
        data = Path(path).read_bytes() if path and not program else b""
        if data.startswith(b"\x7fELF"):
            loaded = said_by("ldd", path)
            names = [os.path.basename(line.split()[0]) for line in loaded.split("\n") if line.split()]
            named = [library for name in names for library, form in LOADS.items() if re.match(form, name)]
            program = named[0] if named else None
            if not program and b"PMPI_Init" in data:
                why = "is linked with its MPI library statically: link it dynamically to have it recorded"
                raise Stopped(f"{word} {why}", Status.WORDS)
        if not launcher and LAUNCHER.fullmatch(word):
            said = said_by(word, "--version")
            launcher = next((name for name, form in SAYS.items() if re.search(form, said)), None)
    if not program and not launcher:
        why = f"no word of `{' '.join(command)}' is a program that loads MPICH or Open MPI, nor their mpirun"
        raise Stopped(f"{why}: name the library by --mpi", Status.WORDS)
    if program and launcher and program != launcher:
        why = f"the program uses {program}, and the mpirun here is that of {launcher}: they don't go together"
        raise Stopped(why, Status.WORDS)
    return program or launcher


def folder_of_recorder(library):
    """Next to its sources; if that can't be, or the path has a space or a colon, in the user's cache."""
    out = SOURCES / "out" / library
    with suppress(OSError):
        out.mkdir(parents=True, exist_ok=True)
    if not re.search("[ :]", str(out)) and os.access(out, os.W_OK):
        return out
    files = sorted(path for path in SOURCES.iterdir() if path.is_file())
    digest = hashlib.sha256(b"".join(path.read_bytes() for path in files)).hexdigest()
    cache = os.environ.get("XDG_CACHE_HOME", "")
    cache = cache if cache.startswith("/") else os.path.join(os.environ.get("HOME", ""), ".cache")
    return Path(cache) / "mpiwait" / digest[:12] / library


def make_recorder(library):
    """The path of the recorder. It is built if it isn't yet: by the compiler in use, if that is right."""
    asked = ("-E", "-dM", "-x", "c", "-")
    names = [name for name in ("mpicc", f"mpicc.{library}")
             if MACROS[library] in said_by(name, *asked, input="#include <mpi.h>\n")]  # fmt: skip
    if not names:
        raise Stopped(f"there is no mpicc of {library} to build the recorder with", Status.WORDS)
    out = folder_of_recorder(library)
    if not (out / "record.so").exists():
        say(f"building the recorder for {library}, once")
    command = ["make", "-s", "-C", SOURCES, f"MPICC={names[0]}", f"OUT={out}"]
    if subprocess.run(command, stdout=2, stdin=subprocess.DEVNULL, check=False).returncode:
        raise Stopped(f"the recorder for {library} can't be built in {out}", Status.WORDS)
    if re.search("[ :]", str(out)):
        raise Stopped(f"the path of the recorder may have no spaces and no colons: {out}", Status.WORDS)
    return str(out / "record.so")


def after_others(command, more, names):
    """The command, with more after what it sets such variables to itself, as the recorder in LD_PRELOAD: so
    another tool between the program and MPI is called, and calls the recorder."""
    words = []
    for before, last, word in zip(["", "", *command], ["", *command], command):
        given = re.match(r"(\w+)=.", word)
        name = last if re.fullmatch("--?g?env", before) else given and given[1]
        word = f"{word}:{more[name]}" if name in more else word
        words.append(",".join([word, *names]) if last in ("-genvlist", "-envlist") else word)
    return words


def for_open_mpi(command, names, environment):
    """Open MPI passes no variables to other machines by default, and takes one of two ways to name them."""
    if "-x" not in command:
        given = [environment.get("OMPI_MCA_mca_base_env_list"), *names]
        environment["OMPI_MCA_mca_base_env_list"] = ";".join(filter(None, given))
        return command
    missing = [name for name in names if not any(re.match(f"{name}(=|$)", word) for word in command)]
    more = [word for name in missing for word in ("-x", name)]
    return [one for word in command for one in [word, *(more if LAUNCHER.fullmatch(word) else [])]]


def with_recorder(command, library, journals, frames=1, is_strict=False, window=0):
    """The command and the environment that have its ranks recorded."""
    more, environment = {"LD_PRELOAD": make_recorder(library), **SANITIZER}, dict(os.environ)
    own = {name: ":".join(filter(None, [environment.get(name), one])) for name, one in more.items()}
    own |= {"MPIWAIT_JOURNAL": str(journals), "MPIWAIT_FRAMES": str(frames)}
    own |= {"MPIWAIT_STRICT": "1"} if is_strict else {}
    own |= {"MPIWAIT_WINDOW": str(window)} if window else {}
    for name in ("MPIWAIT_STRICT", "MPIWAIT_WINDOW"):
        environment.pop(name, None)
    command = after_others(command, more, list(own))
    if library == "openmpi":
        command = for_open_mpi(command, list(own), environment)
    # The launcher's own start isn't preloaded: `env' sets the variables after the words of this script.
    variables = [f"{name}={value}" for name, value in own.items()]
    return ["env", "--default-signal=INT,QUIT", *variables, *command], environment
