"""What a client says where a command is due. A command is read into a value, and goes on as the text made of that value,
never as the client's bytes: so the daemon can't read another command in it than the relay did."""
import re
import typing

from relay.packets import trimmed

MOST_NUMBER, MOST_DRIVE = 2_147_483_647, 8
# The longest is a label by an operator: `console label 1` and three names of 127 letters. Longer packets have no form.
MOST_COMMAND = 1024
NUMBER = re.compile(r"0|[1-9][0-9]*")
NAME = re.compile(r"[A-Za-z0-9_:.-]{1,127}")
OPEN = re.compile(r"append open session JobId=([^ ]*) Pool=([^ ]*) Media=([^ ]*)", re.DOTALL)
OF_SESSION = re.compile(r"append (data|end session|close session) (0|[1-9][0-9]*)", re.DOTALL)
READ = re.compile(r"read session Time=([^ ]*) Id=([^ ]*)", re.DOTALL)
CONSOLE = "console "
# What comes after each word of the operator: a drive, a session's ticket, or a name.
OPERATOR_LINES = {
    "label": ("drive", "name", "name", "name"), "adopt": ("drive", "name"), "mount": ("drive", "name"), "unmount": ("drive",),
    "retire": ("drive",), "purge": ("drive", "name"), "cancel": ("ticket",), "jobmedia": ("ticket",), "status": (),
    "requests": (),
}
MOST_OF = {"drive": MOST_DRIVE, "ticket": MOST_NUMBER}


class BadCommand(Exception):
    """It has no form of a command, or a number out of its range."""


class BadName(Exception):
    """It has a form, but what is in the place of a name is none."""


class Open(typing.NamedTuple):
    job: int
    pool: str
    media: str

    def text(self) -> str:
        return f"append open session JobId={self.job} Pool={self.pool} Media={self.media}"


class OfSession(typing.NamedTuple):
    """`data`, `end session` or `close session`. The ticket may be any number: that it isn't the talk's is the daemon's to
    say."""

    what: str
    ticket: str

    def text(self) -> str:
        return f"append {self.what} {self.ticket}"


class Read(typing.NamedTuple):
    time: int
    id: int

    def text(self) -> str:
        return f"read session Time={self.time} Id={self.id}"


class Console(typing.NamedTuple):
    """An operator's line. Its word is none if the line has no form, and `fault` then says why."""

    line: str
    word: str | None
    ticket: int | None = None
    fault: type[BadCommand] | type[BadName] | None = None

    def text(self) -> str:
        return CONSOLE + self.line


Command = Open | OfSession | Read | Console


def number(text: str, most: int = MOST_NUMBER) -> int:
    """The number from 1 on that a text is."""
    # So short a text is compared as a number; a longer one is too great, and is never made into one.
    if not NUMBER.fullmatch(text) or len(text) > 10 or not 1 <= int(text) <= most:
        raise BadCommand
    return int(text)


def check_names(*words: str) -> None:
    if any(not NAME.fullmatch(word) or word in (".", "..") for word in words):
        raise BadName


def read_command(payload: bytes) -> Command:
    """The command that a packet is. Raises BadCommand or BadName."""
    try:
        text = trimmed(payload).decode("ascii")
    except UnicodeDecodeError as why:
        raise BadCommand from why
    if found := OPEN.fullmatch(text):
        job = number(found[1])
        check_names(found[2], found[3])
        return Open(job, found[2], found[3])
    if found := OF_SESSION.fullmatch(text):
        return OfSession(found[1], found[2])
    if found := READ.fullmatch(text):
        return Read(number(found[1]), number(found[2]))
    if text.startswith(CONSOLE):
        return read_console(text.removeprefix(CONSOLE))
    raise BadCommand


def read_console(line: str) -> Console:
    word, *rest = line.split(" ")
    kinds = OPERATOR_LINES.get(word)
    if kinds is None or len(kinds) != len(rest):
        return Console(line, None, fault=BadCommand)
    try:
        numbers = [number(field, MOST_OF[kind]) for kind, field in zip(kinds, rest) if kind in MOST_OF]
        check_names(*(field for kind, field in zip(kinds, rest) if kind == "name"))
    except (BadCommand, BadName) as why:
        return Console(line, None, fault=type(why))
    return Console(line, word, ticket=numbers[0] if kinds == ("ticket",) else None)
