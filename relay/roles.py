"""Who may say what. A name has one of three roles, and limits."""
import enum
import typing

from relay.commands import Command, Console, Open, Read


class Role(enum.Enum):
    """`operator` may say all that the protocol has. `client` may append, read what it appended, and look at its own
    sessions. `append-only` may append and see how its own sessions are, no more: whoever has its key can delete, read,
    label, unmount and cancel nothing."""

    OPERATOR = "operator"
    CLIENT = "client"
    APPEND_ONLY = "append-only"


# Lines of the operator that others may say of their own sessions.
OWN_LINES = {Role.CLIENT: ("status", "jobmedia", "cancel"), Role.APPEND_ONLY: ("status",)}


class Rights(typing.NamedTuple):
    """What a name may. None is no limit; it is only an operator's that pools, media and jobs may have none."""

    name: str
    role: Role
    pools: frozenset[str] | None = None
    media: frozenset[str] | None = None
    jobs: tuple[range, ...] | None = None
    bytes_a_day: int | None = None
    sessions_a_day: int | None = None
    talks: int = 8

    @property
    def is_operator(self) -> bool:
        return self.role is Role.OPERATOR

    def why_not(self, command: Command) -> str | None:
        """Why this isn't let through, if that is so whatever the sessions are. Those of `Read`, `jobmedia` and `cancel`
        must be the name's own besides, unless it is an operator."""
        match command:
            case Open():
                return self._why_not_open(command)
            case Read() if self.role is Role.APPEND_ONLY:
                return "the role reads nothing"
            case Console() if not self.is_operator and command.word not in OWN_LINES[self.role]:
                return "an operator's line"
        return None

    def _why_not_open(self, asked: Open) -> str | None:
        if self.pools is not None and asked.pool not in self.pools:
            return f"not of its pools: {asked.pool}"
        if self.media is not None and asked.media not in self.media:
            return f"not of its media: {asked.media}"
        if self.jobs is not None and not any(asked.job in part for part in self.jobs):
            return f"not of its jobs: {asked.job}"
        return None
