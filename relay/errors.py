"""Why a talk ends before its client ends it, each with the status with which the program ends."""


class Failed(Exception):
    """The talk, or what was asked of the program, can't go on, for the reason told."""

    status = 1


class Misconfigured(Failed):
    """The configuration can't be read, or what it says doesn't fit."""

    status = 2


class DaemonLost(Failed):
    """No daemon listens, it ended the talk, or it said what isn't of the protocol."""

    status = 3


class StoreFault(Failed):
    """What is to outlast the talk can't be kept."""

    status = 4


class ClientLost(Failed):
    """The client ended where it may not, is silent, or takes nothing."""


class NotAdmitted(Failed):
    """No such name, or as many talks as the name may have."""
