"""The words of the command line, and the sentences that say what is wrong with them."""

import os
import re
from collections.abc import Iterator
from dataclasses import dataclass, field

from .texts import MOST, Named

# By commands: the options that have a value, those that have none, and what their paths are.
VALUED = {
    "check": ("--capacity", "--eager"), "lint": (), "judge": ("--eager", "--held-rank", "--tests", "--calls"),
    "close": ("--tests", "--calls"),
}  # fmt: skip
FLAGS = {"check": ("--json", "--progress"), "lint": (), "judge": ("--json", "--progress", "--held"), "close": ()}
PATHS = {"check": "HEAD FILE.. or a FOLDER", "lint": "one FILE", "judge": "one FOLDER", "close": "a FOLDER and OUT"}
TEXTS = {"-h": "help", "--help": "help", "-V": "version", "--version": "version"}
RANGES = {
    "--capacity": (1, 1024, "a number of records"), "--eager": (0, MOST, "a number of bytes"),
    "--held-rank": (0, 1023, "a rank"),
}  # fmt: skip
CHOICES = {"--tests": ("wait", "pass"), "--calls": ("strict", "went")}
SEE = "mpiwait --help lists all words"


@dataclass
class Asked:
    """What the words ask for: a command with its options and paths; or a text of tools/texts, by its name."""

    command: str
    options: dict[str, str] = field(default_factory=dict)
    paths: list[str] = field(default_factory=list)
    text: str | None = None

    def number(self, option: str) -> int | None:
        return int(self.options[option]) if option in self.options else None

    def ranks(self) -> list[int] | None:
        """Those of which it is asked whether they are held: all that a run may have, unless some are named."""
        if "--held-rank" in self.options:
            return [int(rank) for rank in self.options["--held-rank"].split(",")]
        return list(range(1024)) if "--held" in self.options else None


class Wrong(Named):
    """Words that ask for nothing: why."""

    def __init__(self, why: str) -> None:
        super().__init__(f"mpiwait: {why}", 3)


def asked_by(words: list[str], is_folder: bool) -> Asked:
    """What these words ask for; `is_folder`: the one word that there is names a folder."""
    if not all(map(is_text, words)):
        raise Named("usage: the words must be text in UTF-8", 3)
    if not words:
        raise Wrong(f"it needs a command or a folder; {SEE}")
    if len(words) == 1 and is_folder:
        return Asked("check", paths=words)
    command, *rest = words
    if command in TEXTS:
        return Asked("", text=TEXTS[command])
    if command not in VALUED:
        raise Wrong(f"there is no {'option' if command.startswith('-') else 'command or folder'} `{command}'; {SEE}")
    return asked_of(command, rest)


def asked_of(command: str, words: list[str]) -> Asked:
    """What the words after a command ask for."""
    asked = Asked(command)
    for option, value in options_and_paths(command, words):
        if option in TEXTS:
            is_short = (command, option) == ("check", "-h")  # the one help that has two forms
            return Asked(command, text=f"{command}-{'h' if is_short else TEXTS[option]}")
        if not option:
            asked.paths.append(value)
        elif option == "--held-rank":  # the one that may be given again
            asked.options[option] = ",".join([*filter(None, [asked.options.get(option)]), value])
        elif option in asked.options:
            raise Wrong(f"{option} is given twice")
        else:
            asked.options[option] = value
    look_at_paths(asked)
    if asked.ranks() is not None and "--json" not in asked.options:
        raise Named("usage: --held adds to the report as JSON: give --json too", 3)
    return asked


def options_and_paths(command: str, words: list[str]) -> Iterator[tuple[str, str]]:
    """Options with their values, and paths with an empty option before them."""
    left = iter(words)
    for word in left:
        if word == "--":
            yield from (("", path) for path in left)
        elif command == "judge" and word.startswith("--held="):  # short for these
            ranks = word.removeprefix("--held=").split(",")
            yield from [("--held", ""), *(option_in(command, f"--held-rank={rank}", left) for rank in ranks)]
        elif not word.startswith("-") or word == "-":
            yield "", word
        else:
            yield option_in(command, word, left)


def option_in(command: str, word: str, left: Iterator[str]) -> tuple[str, str]:
    """An option with its value, which may be the next word."""
    option, has_value, value = word.partition("=")
    if word in TEXTS:
        return word, ""
    if option in VALUED[command]:
        value = value if has_value else next(left, None)
        if value is None or not has_value and value.startswith("-"):
            raise Wrong(f"{option} needs a value")
        look_at_value(option, value)
        return option, value
    if option not in FLAGS[command]:
        raise Wrong(f"`{command}' has no option `{option}'; mpiwait {command} --help lists those that it has")
    if has_value:
        raise Wrong(f"{option} takes no value")
    return option, value


def look_at_value(option: str, value: str) -> None:
    if option in CHOICES and value not in CHOICES[option]:
        raise Wrong(f"{option} is {' or '.join(CHOICES[option])}, and not `{value}'")
    if option in RANGES:
        least, most, what = RANGES[option]
        if not re.fullmatch(r"\+?[0-9]+", value) or not least <= int(value[-400:]) <= most or len(value) > 400:
            raise Wrong(f"{option} takes {what} from {least} to {most}, and not `{value}'")


def look_at_paths(asked: Asked) -> None:
    wanted = {"check": 1, "lint": 1, "judge": 1, "close": 2}[asked.command]
    count = len(asked.paths)
    if count < wanted or count > wanted and asked.command != "check":
        raise Wrong(f"`{asked.command}' takes {PATHS[asked.command]}, and {count or 'no'} "
                    f"{'path was' if count == 1 else 'paths were'} given")  # fmt: skip


def is_text(word: str) -> bool:
    try:
        os.fsencode(word).decode()
    except UnicodeDecodeError:
        return False
    return True
