"""Reads public contracts of sources and definitions of specs/, for bench/clauses and bench/believed."""

import collections
import pathlib
import re
import subprocess


def git(*words):
    return subprocess.run(["git", *words], check=True, capture_output=True, text=True).stdout


def texts_of(revision):
    """The sources and definitions of a revision, by their paths."""
    if revision is None:
        top = pathlib.Path("crates")
        paths = [str(path) for kind in ("src/**/*.rt", "specs/**/*.antt") for path in top.glob(f"*/{kind}")]
        read = lambda path: pathlib.Path(path).read_text(encoding="utf-8")
    else:
        paths = git("ls-tree", "-r", "--name-only", revision, "crates").split("\n")
        read = lambda path: git("show", f"{revision}:{path}")
    wanted = re.compile(r"^crates/[a-z0-9_]+/(src/.*\.rt|specs/.*\.antt)$")
    return {path: read(path) for path in paths if wanted.match(path) and "/tests" not in path}


def crates_in(paths):
    return {path.split("/")[1] for path in paths}


def without_crates(text, crates):
    """The text with no crate's name before a path, and its white space folded."""
    names = "|".join(sorted(crates, key=len, reverse=True))
    text = re.sub(rf"\bRattle\.({names})\.", "", text)
    text = re.sub(rf"\b({names}|crate)::", "", text)
    return " ".join(text.split())


HEADER = re.compile(r"^(?:pub )?(trait|impl\b[^{]*)")
GHOST = re.compile(r"^ +ghost (?!use\b)([A-Za-z0-9_]+)")
FUNCTION = re.compile(r"^( *)(pub )?(?:const )?(?:unsafe )?fn ([a-z0-9_]+)")


def signature(lines, at, indent):
    """The lines of a function from its `fn` to its body."""
    taken = []
    for line in lines[at:]:
        if line.startswith(indent + "{"):
            break
        taken.append(line)
        is_clause = line.lstrip().startswith(("requires", "ensures", "ghost"))
        if line.rstrip().endswith(("{", ";")) and not is_clause:
            break
    return "\n".join(taken).rstrip().removesuffix("{").removesuffix(";")


def ghost_item(lines, at):
    """The lines of what a type is for contracts: its value, view or invariant, or what a trait gives them."""
    end = next(place for place in range(at, len(lines)) if lines[place].rstrip().endswith(";"))
    return "\n".join(lines[at : end + 1])


def contracts(text):
    """The public contracts of a source: the place and name of each function or ghost item, and its text."""
    owner, is_shown = "", False
    lines = text.split("\n")
    for at, line in enumerate(lines):
        if line and not line[0].isspace() and HEADER.match(line):
            owner = line.split("{")[0].strip()
            is_shown = owner.startswith("pub trait") or " for " in owner
        elif line == "}":
            owner, is_shown = "", False
        seen = GHOST.match(line) if is_shown else None
        if seen:
            yield f"{owner} ghost {seen[1]}", ghost_item(lines, at)
        found = FUNCTION.match(line)
        if found and (found[2] or is_shown):
            yield f"{owner} {found[3]}".strip(), signature(lines, at, found[1])


def definitions(text):
    """The definitions of a file of specs/: each block of lines that begins after an empty line
    and isn't indented, without imports and notes."""
    lines = [line for line in text.split("\n") if not re.match(r"\s*(--|use |pub mod |mod )", line)]
    for block in re.split(r"\n\s*\n(?=\S)", "\n".join(lines)):
        name = re.match(r"\s*(?:(?:pub|abbrev|unfoldable|record|data|module) )*(\S+)", block)
        if name and block.strip():
            yield name[1], block


Declaration = collections.namedtuple("Declaration", "name kind start lines head")
DECLARED = re.compile(r"^( *)(?:(?:pub|abbrev|unfoldable) )*(?:(record|data|module) )?(\S+)")
BEGINS = re.compile(r" *(pub|abbrev|unfoldable|record|data|module) ")


def declarations(text):
    """The definitions of a file of specs/ one by one: the name, the kind, the number of the first line, the
    lines without notes, and the head of the module around it."""
    head, found = "", []
    for number, line in enumerate(text.split("\n"), 1):
        match = BEGINS.match(line) and DECLARED.match(line)
        if not line.strip() or re.match(r" *(--|(pub )?use |(pub )?mod )", line):
            continue
        if not line.startswith(" "):
            head = ""
        if match and match[2] == "module":
            head = line
        elif match and len(match[1]) == (2 if head else 0):
            found.append(Declaration(match[3], match[2] or "", number, [line], head))
        else:
            found[-1].lines.append(line)
    return found
