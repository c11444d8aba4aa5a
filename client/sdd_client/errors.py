"""What can go wrong, with the exit status that tells it."""
import sys


class Failed(Exception):
    """What was asked for isn't done, for the reason told."""

    status = 1


class Refused(Failed):
    """The daemon refused: the line that it said."""

    def number(self) -> str:
        """The refusal's four digits."""
        return str(self)[:4]


class Lost(Failed):
    """There is no daemon, or none any more; or it says what isn't of the protocol."""

    status = 3


class Unfit(Failed):
    """A file here is not as it must be."""

    status = 4


class Misused(Failed):
    """The command line is wrong."""

    status = 2


class Partly(Failed):
    """It is done, but for what was named."""

    status = 3


class Ended(BaseException):
    """A signal ends the client."""

    def __init__(self, number: int):
        super().__init__(number)
        self.number = number


# What a line begins with while the terminal has another one.
before = ""


def complain(text: object) -> None:
    print(f"{before}sdd-client: {text}", file=sys.stderr, flush=True)
