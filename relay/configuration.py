"""The file of names: TOML, as sdd-relay(8) has it."""
import pathlib
import re
import tomllib
import typing

from relay.commands import MOST_NUMBER, NAME
from relay.errors import Misconfigured
from relay.roles import Rights, Role

# What a name is: also a file's name, and what a certificate has after CN=.
CLIENT_NAME = re.compile(r"[A-Za-z0-9_][A-Za-z0-9_.-]{0,63}")
JOBS = re.compile(r"([1-9]\d{0,9})(?:-([1-9]\d{0,9}))?", re.ASCII)
SOCKET, STATE, PORT = "/run/sdd-clients/socket", "/var/lib/sdd-relay", 9103
# An append-only key that is stolen could otherwise open sessions for ever, of which each costs the daemon memory.
SESSIONS_A_DAY, TALKS = 10_000, 8
MOST_AMOUNT = 2**62


class Configuration(typing.NamedTuple):
    """Where the daemon listens, by a port if one is named, and otherwise by a socket; the folder of what is kept; the
    file of the log, if it isn't the system's; and the names."""

    socket: str
    port: int | None
    state: pathlib.Path
    log: pathlib.Path | None
    names: dict[str, Rights]


def configured(path: str | pathlib.Path) -> Configuration:
    """The configuration in a file. Raises Misconfigured, with the name and the key."""
    try:
        with open(path, "rb") as file:
            table = tomllib.load(file)
    except (OSError, ValueError) as why:
        raise Misconfigured(f"{path}: {why}") from why
    return Table(str(path), table).configuration()


class Table(typing.NamedTuple):
    """A table of the file, and where it is, for what is told of it."""

    where: str
    keys: dict[str, typing.Any]

    def configuration(self) -> Configuration:
        self._known("socket", "port", "state", "log", "name")
        names = self._tables("name")
        if "socket" in self.keys and "port" in self.keys:
            raise Misconfigured(f"{self.where}: socket and port are two ways to one daemon; name one")
        log = self._path("log", None)
        return Configuration(
            socket=self._text("socket", SOCKET),
            port=self._amount("port", None, most=65535),
            state=pathlib.Path(self._path("state", STATE) or STATE),
            log=pathlib.Path(log) if log else None,
            names={name: Table(f"{self.where}: name.{name}", keys).rights(name) for name, keys in names.items()})

    def rights(self, name: str) -> Rights:
        self._known("role", "pools", "media", "jobs", "bytes_a_day", "sessions_a_day", "talks")
        if not CLIENT_NAME.fullmatch(name):
            raise Misconfigured(f"{self.where}: a name has 1 to 64 letters, digits, _, . and -, and begins with no . and no -")
        try:
            role = Role(self._text("role", ""))
        except ValueError as why:
            raise Misconfigured(f"{self.where}: role is one of {', '.join(one.value for one in Role)}") from why
        missing = [key for key in ("pools", "media", "jobs") if key not in self.keys]
        if missing and role is not Role.OPERATOR:
            raise Misconfigured(f"{self.where}: {' and '.join(missing)} must be there, since it is no operator")
        return Rights(
            name, role, self._words("pools"), self._words("media"), self._jobs(),
            self._amount("bytes_a_day", None),
            self._amount("sessions_a_day", None if role is Role.OPERATOR else SESSIONS_A_DAY),
            self._amount("talks", TALKS, most=320) or TALKS)

    def _known(self, *keys: str) -> None:
        if unknown := sorted(set(self.keys) - set(keys)):
            raise Misconfigured(f"{self.where}: {unknown[0]} is no key here")

    def _tables(self, key: str) -> dict[str, dict[str, typing.Any]]:
        found = self.keys.get(key, {})
        if not isinstance(found, dict) or not all(isinstance(one, dict) for one in found.values()):
            raise Misconfigured(f"{self.where}: names are tables, as [name.www]")
        return found

    def _text(self, key: str, default: str) -> str:
        found = self.keys.get(key, default)
        if not isinstance(found, str) or "\0" in found:
            raise Misconfigured(f"{self.where}: {key} is a text")
        return found

    def _path(self, key: str, default: str | None) -> str | None:
        if key not in self.keys:
            return default
        found = self._text(key, "")
        if not found.startswith("/"):
            raise Misconfigured(f"{self.where}: {key} is a path that begins with /")
        return found

    def _amount(self, key: str, default: int | None, most: int = MOST_AMOUNT) -> int | None:
        found: int | None = self.keys.get(key, default)
        if found is not default and (type(found) is not int or not 1 <= found <= most):
            raise Misconfigured(f"{self.where}: {key} is a number from 1 to {most}")
        return found

    def _words(self, key: str) -> frozenset[str] | None:
        if key not in self.keys:
            return None
        found = self.keys[key]
        if not isinstance(found, list) or not all(isinstance(one, str) and NAME.fullmatch(one) for one in found):
            raise Misconfigured(f"{self.where}: {key} is a list of names, as [\"Default\"]")
        return frozenset(found)

    def _jobs(self) -> tuple[range, ...] | None:
        if "jobs" not in self.keys:
            return None
        found = self.keys["jobs"]
        if not isinstance(found, list):
            raise Misconfigured(f"{self.where}: jobs is a list, as [7, \"100-199\"]")
        return tuple(map(self._part, found))

    def _part(self, item: typing.Any) -> range:
        """The jobs of a number, or of a text with the first and the last one."""
        text = item if isinstance(item, str) else str(item) if type(item) is int else ""
        if found := JOBS.fullmatch(text):
            first, last = int(found[1]), int(found[2] or found[1])
            if first <= last <= MOST_NUMBER:
                return range(first, last + 1)
        raise Misconfigured(f"{self.where}: jobs are numbers from 1 to {MOST_NUMBER}, or parts as \"100-199\"")
