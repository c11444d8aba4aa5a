"""`console` and `adopt-all`: lines of the operator."""
from __future__ import annotations

import os
import re
import typing

from .connection import PORT, Connection
from .dialogue import SEVERAL, VOLUME_NAME, console
from .errors import Misused, Refused, Unfit, complain
from .newfile import print_lines

# The words that the daemon knows, each with what follows it.
FORMS = {"label": "DRIVE VOLUME POOL MEDIA", "adopt": "DRIVE VOLUME", "mount": "DRIVE VOLUME", "unmount": "DRIVE",
         "retire": "DRIVE", "purge": "DRIVE VOLUME", "cancel": "TICKET", "jobmedia": "TICKET", "status": "", "requests": ""}
BAD_COMMAND = "3901"
# How long a volume may get, in bytes, if the configuration doesn't say it.
VOLUME = 68_719_476_736


def form_of(word: str) -> str:
    return f"{word} {FORMS[word]}".rstrip()


def line_of(words: list[str]) -> str:
    """The line of these words. A known word with other words than its own is none."""
    words = " ".join(words).split(" ")
    if words[0] in FORMS and len(words) != len(form_of(words[0]).split()):
        raise Misused(f"the form is: console {form_of(words[0])}")
    return " ".join(words)


def say(talk: Connection, line: str) -> None:
    """Prints the answer to a line of the operator."""
    word = line.partition(" ")[0]
    try:
        print_lines(console(talk, line))
    except Refused as why:
        if word in FORMS and why.number() == BAD_COMMAND:
            complain(f"the form is: console {form_of(word)}")
        raise


def print_forms() -> None:
    print_lines(form_of(word) for word in FORMS)


class Configuration(typing.NamedTuple):
    """What the daemon's configuration says to its clients: its port, how long a volume may get, and the folders of its
    drives."""

    port: int
    volume: int
    folders: list[str]


def configured(path: str) -> Configuration:
    # Few commands need it, and the others start sooner without it.
    import tomllib
    with open(path, "rb") as file:
        try:
            text = tomllib.load(file)
            return Configuration(int(text.get("port", PORT)), int(text.get("volume", VOLUME)), [str(drive["folder"]) for drive in text["drive"]])
        except (ValueError, KeyError, TypeError, AttributeError) as why:
            raise Unfit(f"{path} is no configuration; 'sdd check' says why") from why


def volumes_in(folder: str) -> list[str]:
    """The plain files whose names a volume may have. Numbers in them count as numbers: Vol-2 comes before Vol-10."""
    def rank(name: str) -> list[tuple[int, str]]:
        return [(len(word) if word.isdigit() else 0, word) for word in re.split(r"(\d+)", name)]

    with os.scandir(folder or ".") as entries:
        names = [one.name for one in entries if one.is_file(follow_symlinks=False) and VOLUME_NAME.fullmatch(one.name)]
    return sorted(names, key=rank)


def adopt_all(talk: Connection, folders: list[str]) -> None:
    """Adopts what may be a volume in each drive's folder, by the order of names. One that this run knows already is
    well. A folder that can't be read, or a volume that is refused, is told, and the others are adopted."""
    refused = unread = 0
    for number, folder in enumerate(folders, 1):
        try:
            names = volumes_in(folder)
        except OSError as why:
            unread += 1
            complain(f"drive {number}: {why}")
            continue
        refused += sum(not is_adopted(talk, number, name) for name in names)
    if refused:
        raise Refused(f"{refused} not adopted")
    if unread:
        raise Unfit(f"{unread} folders can't be read")


def is_adopted(talk: Connection, drive: int, name: str) -> bool:
    """Adopts a volume. Tells it, or why not."""
    try:
        print_lines(f"{name}: {line}" for line in console(talk, f"adopt {drive} {name}"))
    except Refused as why:
        if why.number() != SEVERAL:
            complain(f"drive {drive}, {name}: {why}")
            return False
    return True
