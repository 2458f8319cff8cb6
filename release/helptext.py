"""The program's own help, taken apart: what the man page and the completions are made of.

An unproved companion of mpiwait, as all of release/.
"""

import re
import subprocess
from dataclasses import dataclass, field

ITEMS = ("Commands", "Arguments", "Options")
HEADING = re.compile(r"([A-Z][A-Za-z ]*):")
# An option, an argument or a command begins its line at most this far in; its text lies further in.
DEEPEST_ITEM = 6


@dataclass
class Item:
    """One option, argument or command, with the paragraphs of its text."""

    names: list[str]
    value: str
    text: list[str]

    @property
    def summary(self):
        return self.text[0] if self.text else ""

    @property
    def choices(self):
        """The values that it may have, where its text lists them."""
        found = re.search(r"\[possible values: ([^]]*)\]", " ".join(self.text))
        return found.group(1).split(", ") if found else []

    @property
    def may_lack_value(self):
        return self.value.startswith("[")

    @property
    def takes_path(self):
        return any(word in self.value for word in ("FILE", "FOLDER", "PATH", "DIR"))


@dataclass
class Page:
    """The help of the program or of one of its commands."""

    name: str
    about: list[str]
    usages: list[str]
    commands: list[Item] = field(default_factory=list)
    arguments: list[Item] = field(default_factory=list)
    options: list[Item] = field(default_factory=list)
    after: dict[str, list[str]] = field(default_factory=dict)
    pages: list["Page"] = field(default_factory=list)

    @property
    def takes_paths(self):
        return bool(self.arguments)


def item_of(line):
    """The item that a line begins, if it begins one."""
    depth = len(line) - len(line.lstrip())
    if not 0 < depth <= DEEPEST_ITEM:
        return None
    spec, _, text = line.strip().partition("  ")
    named = re.fullmatch(r"((?:-\w, )?-[-\w]+|[\w-]+)?([ =]?[<\[].*)?", spec)
    if not named:
        raise ValueError(f"help has a line in a form that isn't known: {line!r}")
    names = named.group(1).split(", ") if named.group(1) else []
    return Item(names, (named.group(2) or "").strip(), [text.strip()] if text else [])


def items_of(lines):
    """The items of a section. An empty line begins a new paragraph of the item that it is in."""
    items = []
    is_new = True
    for line in lines:
        item = item_of(line)
        if item:
            items.append(item)
        elif not line.strip():
            is_new = True
            continue
        elif is_new or not items[-1].text:
            items[-1].text.append(line.strip())
        else:
            items[-1].text[-1] += " " + line.strip()
        is_new = False
    return items


def sections_of(lines):
    """The lines under each heading, without empty ones at the end."""
    sections, heading = {}, None
    for line in lines:
        found = HEADING.fullmatch(line)
        if found:
            heading = found.group(1)
            sections[heading] = []
        elif heading:
            sections[heading].append(line)
        elif line.strip():
            raise ValueError(f"help has a line under no heading: {line!r}")
    return {heading: "\n".join(lines).rstrip().split("\n") for heading, lines in sections.items()}


def page_of(name, text):
    """Takes one help apart."""
    about, found, rest = text.partition("\nUsage: ")
    if not found:
        raise ValueError(f"the help of {name} has no usage")
    usage, _, rest = rest.partition("\n\n")
    sections = sections_of(rest.rstrip().split("\n"))
    commands, arguments, options = (items_of(sections.pop(each, [])) for each in ITEMS)
    usages = [line.strip() for line in usage.split("\n")]
    return Page(name, about.strip().split("\n"), usages, commands, arguments, options, sections)


def said_by(program, *words):
    return subprocess.run([program, *words], capture_output=True, text=True, check=True).stdout


def read_help(program):
    """The help of a program and of each of its commands."""
    page = page_of("mpiwait", said_by(program, "--help"))
    for command in page.commands:
        name = command.names[0]
        page.pages.append(page_of(f"mpiwait {name}", said_by(program, name, "--help")))
    return page


def read_version(program):
    """The version, of the line `mpiwait VERSION`."""
    return said_by(program, "--version").split()[1]
