"""What the daemon answers."""
import collections.abc
import re

from relay.errors import DaemonLost
from relay.packets import END_OF_DATA, is_refusal, packet, signal
from relay.streams import Ends

# No line of the daemon is longer: the longest has three names.
MOST_LINE = 65_536
SESSION = re.compile(rb"session ([1-9][0-9]{0,9}) ([1-9][0-9]{0,9})\n")
SESSION_STATUS = re.compile(rb"session ([1-9][0-9]{0,9}) [a-z]+ [0-9]+\n")


def next_of(ends: Ends) -> bytes | int:
    """The daemon's next packet, or the number of a signal."""
    while (length := ends.daemon.length()) is None:
        ends.read_daemon()
    if length > MOST_LINE:
        raise DaemonLost("the daemon says what is no line")
    while len(ends.daemon) < 4 + max(length, 0):
        ends.read_daemon()
    ends.daemon.take(4)
    return length if length < 0 else ends.daemon.take(length)


def packet_of(ends: Ends) -> bytes:
    """The daemon's next packet, which is no signal."""
    found = next_of(ends)
    if isinstance(found, int):
        raise DaemonLost(f"a signal {found} in place of a line")
    return found


def is_end(ends: Ends) -> bool:
    return next_of(ends) == END_OF_DATA


def lines_of(ends: Ends) -> collections.abc.Iterator[bytes]:
    """The packets up to the end of data."""
    while (found := next_of(ends)) != END_OF_DATA:
        if isinstance(found, int):
            raise DaemonLost(f"a signal {found} in place of a line")
        yield found


def key_of(ends: Ends, ticket: int) -> tuple[int, int] | None:
    """The time of the run and the number of the session with this ticket, or None if there is no such session."""
    ends.write_daemon(packet(b"console jobmedia %d" % ticket))
    first = packet_of(ends)
    if is_refusal(first):
        return None
    for _ in lines_of(ends):
        pass
    if not (found := SESSION.fullmatch(first)):
        raise DaemonLost("no session's line")
    return int(found[1]), int(found[2])


def pass_status(ends: Ends, own: set[int]) -> None:
    """Asks how things are, and passes on the lines of these sessions and the last one."""
    ends.write_daemon(packet(b"console status"))
    first = packet_of(ends)
    if is_refusal(first):
        return ends.write_client(packet(first))
    for payload in (first, *lines_of(ends)):
        found = SESSION_STATUS.fullmatch(payload)
        if payload == b"ok status\n" or found and int(found[1]) in own:
            ends.write_client(packet(payload))
    ends.write_client(signal(END_OF_DATA))
