"""The file of pools: TOML, as sdd-keeper(8) has it; and what the daemon's own file says of drives."""
from __future__ import annotations

import dataclasses
import datetime
import os
import pathlib
import re
import tomllib
import typing

from sdd_client.connection import PORT
from sdd_client.dialogue import VOLUME_NAME
from sdd_client.errors import Misused
from sdd_client.retention import PERIODS, Rules, begin_of
from sdd_client.transport_local import SOCKET


STATE, EVERY, SCAN = "/var/lib/sdd-keeper", 10, 3600
# The number in a pattern of names.
PLACE = re.compile(r"%0([1-9])d")
SPAN_OF_TIME = re.compile(r"([1-9]\d{0,5})([smhdwy])")
SECONDS = {"s": 1, "m": 60, "h": 3600, "d": 86_400, "w": 7 * 86_400, "y": 365 * 86_400}
AMOUNT = re.compile(r"(\d{1,15})([KMGT]?)")
FACTORS = {"": 1, "K": 10**3, "M": 10**6, "G": 10**9, "T": 10**12}
MOST_VOLUME, BLOCK = 68_719_476_736, 64_512


class Drive(typing.NamedTuple):
    """A drive as the daemon's configuration has it."""

    number: int
    media: str
    folder: pathlib.Path


@dataclasses.dataclass(frozen=True)
class Pool:
    """What is wanted of a pool. Times are in seconds, sizes in bytes; None is 'never', or 'no limit'."""

    name: str
    drives: tuple[Drive, ...]
    names: str
    ready: int
    most: int | None
    reserve: int
    rules: Rules
    min_age: int
    min_good: int
    unknown: int | None
    verify: int | None
    rate: int | None

    def name_of(self, number: int) -> str:
        return PLACE.sub(lambda found: f"{number:0{found[1]}d}", self.names)

    def number_in(self, name: str) -> int | None:
        """The number in a name of this pattern."""
        before, _, after = self._parts()
        found = re.fullmatch(rf"{re.escape(before)}(\d+){re.escape(after)}", name)
        return int(found[1]) if found and self.name_of(int(found[1])) == name else None

    def _parts(self) -> tuple[str, str, str]:
        found = PLACE.search(self.names)
        assert found
        return self.names[:found.start()], found[0], self.names[found.end():]


@dataclasses.dataclass(frozen=True)
class Configuration:
    """All of the file. `volume` and `block` are the daemon's limits of these."""

    port: int | None
    volume: int
    block: int
    state: pathlib.Path
    figures: pathlib.Path | None
    every: int
    scan: int
    drives: tuple[Drive, ...]
    pools: tuple[Pool, ...]

    def folders(self) -> list[pathlib.Path]:
        """The folders of the drives, each once."""
        return list(dict.fromkeys(drive.folder for drive in self.drives))


def toml_in(path: str | pathlib.Path) -> dict[str, typing.Any]:
    try:
        with open(path, "rb") as file:
            return tomllib.load(file)
    except (OSError, ValueError) as why:
        raise Misused(f"{path}: {why}") from why


def configured(path: str | pathlib.Path) -> Configuration:
    """The configuration in a file. Raises Misused, with the pool and the key."""
    table = Table(str(path), toml_in(path))
    table.known("daemon", "port", "state", "figures", "every", "scan", "pool")
    daemon = table.text("daemon", "/usr/local/etc/sdd.conf")
    said = toml_in(daemon)
    drives = drives_of(daemon, said)
    pools = tuple(pool_of(name, one, drives) for name, one in table.tables("pool").items())
    if not pools:
        raise Misused(f"{path}: there is no pool")
    check_names(str(path), pools)
    figures = table.text("figures", "")
    return Configuration(
        port=table.number("port", usual_port(said), 1, 65535),
        volume=int(said.get("volume", MOST_VOLUME)), block=int(said.get("block", BLOCK)),
        state=pathlib.Path(table.text("state", STATE)),
        figures=pathlib.Path(figures) if figures else None, every=table.time("every", EVERY) or EVERY,
        scan=table.time("scan", SCAN) or SCAN, drives=drives, pools=pools)


def usual_port(said: dict[str, typing.Any]) -> int | None:
    """The daemon's port, unless there is a socket that this user may open."""
    return None if os.access(SOCKET, os.W_OK) else int(said.get("port", PORT))


def drives_of(path: str, said: dict[str, typing.Any]) -> tuple[Drive, ...]:
    try:
        return tuple(Drive(number, str(one["media"]), pathlib.Path(one["folder"] or "."))
                     for number, one in enumerate(said["drive"], 1))
    except (KeyError, TypeError) as why:
        raise Misused(f"{path} is no configuration of the daemon; 'sdd check' says why") from why


def check_names(path: str, pools: tuple[Pool, ...]) -> None:
    """No name may be of two pools."""
    for at, pool in enumerate(pools):
        if any(pool.number_in(other.name_of(1)) is not None for other in pools[:at]):
            raise Misused(f"{path}: pool {pool.name} has names of another pool")


def pool_of(name: str, table: Table, drives: tuple[Drive, ...]) -> Pool:
    table.known("drives", "names", "ready", "most", "reserve", "keep", "min_age", "min_good", "unknown", "verify", "rate")
    if not VOLUME_NAME.fullmatch(name):
        raise Misused(f"{table.where}: that is no pool's name")
    names = table.text("names", "")
    if len(PLACE.findall(names)) != 1 or not VOLUME_NAME.fullmatch(PLACE.sub("1" * 9, names)):
        raise Misused(f"{table.where}: names is a volume's name with one number in it, as \"{name}-%05d\"")
    numbers = table.keys.get("drives", [])
    if not isinstance(numbers, list) or not numbers or not all(type(one) is int and 1 <= one <= len(drives) for one in numbers):
        raise Misused(f"{table.where}: drives is a list of drives, as [1]")
    unknown = table.time("unknown", None)
    if unknown is not None and unknown < SECONDS["d"]:
        raise Misused(f"{table.where}: unknown is at least a day, and longer than any job takes")
    return Pool(
        name=name, drives=tuple(drives[one - 1] for one in dict.fromkeys(numbers)), names=names,
        ready=table.number("ready", 1, 0, 1000) or 0, most=table.number("most", None, 1, 10**9),
        reserve=table.size("reserve", None) or 0, rules=table.rules("keep"),
        min_age=table.time("min_age", 7 * SECONDS["d"]) or 0, min_good=table.number("min_good", 1, 1, 10**6) or 1,
        unknown=unknown, verify=table.time("verify", None), rate=table.size("rate", None))


@dataclasses.dataclass(frozen=True)
class Table:
    """A table of the file, and where it is, for what is told of it."""

    where: str
    keys: dict[str, typing.Any]

    def known(self, *keys: str) -> None:
        if unknown := sorted(set(self.keys) - set(keys)):
            raise Misused(f"{self.where}: {unknown[0]} is no key here")

    def tables(self, key: str) -> dict[str, Table]:
        found = self.keys.get(key, {})
        if not isinstance(found, dict) or not all(isinstance(one, dict) for one in found.values()):
            raise Misused(f"{self.where}: {key} has tables, as [{key}.Default]")
        return {name: Table(f"{self.where}: {key}.{name}", one) for name, one in found.items()}

    def text(self, key: str, default: str) -> str:
        found = self.keys.get(key, default)
        if not isinstance(found, str):
            raise Misused(f"{self.where}: {key} is a text")
        return found

    def number(self, key: str, default: int | None, least: int, most: int) -> int | None:
        found = self.keys.get(key, default)
        if found is not default and (type(found) is not int or not least <= found <= most):
            raise Misused(f"{self.where}: {key} is a number from {least} to {most}")
        return found

    def time(self, key: str, default: int | None) -> int | None:
        """A time in seconds, as 30d."""
        if key not in self.keys:
            return default
        found = SPAN_OF_TIME.fullmatch(self.text(key, ""))
        if not found:
            raise Misused(f"{self.where}: {key} is a time as \"30d\", with s, m, h, d, w or y")
        return int(found[1]) * SECONDS[found[2]]

    def size(self, key: str, default: int | None) -> int | None:
        """A number of bytes, as 20G."""
        if key not in self.keys:
            return default
        found = AMOUNT.fullmatch(self.text(key, ""))
        if not found:
            raise Misused(f"{self.where}: {key} is a size as \"20G\", with K, M, G or T")
        return int(found[1]) * FACTORS[found[2]]

    def rules(self, key: str) -> Rules:
        """Which jobs are kept, in the client's words."""
        table = Table(f"{self.where}: {key}", self.keys.get(key, {}))
        if not isinstance(table.keys, dict):
            raise Misused(f"{self.where}: {key} is a table, as {{ daily = 7, within = \"30d\" }}")
        words = ("last", *PERIODS)
        table.known(*words, "within")
        counts = {word: count for word in words if (count := table.number(word, None, 1, 10**6))}
        rules = Rules(within=table.text("within", ""), **counts)
        if not any(rules):
            raise Misused(f"{self.where}: {key} has one at least of {', '.join(words)} and within")
        if rules.within:
            try:
                begin_of(datetime.datetime.now(), rules.within)
            except Misused as why:
                raise Misused(f"{self.where}: {key}: within: {why}") from why
        return rules
