"""A talk: each command of the client as far as its role goes, and the phases after it.

The relay knows at each moment what the daemon takes the next packet for: it sends a command only once the one before is
answered, and what follows a command is told by that answer. A client may send as far ahead as it likes; what it sent waits
here. So no packet that passes as data is ever due as a command."""
import re
import time

from relay import answers
from relay.allowance import Allowance
from relay.commands import MOST_COMMAND, BadCommand, BadName, Console, OfSession, Open, Read, read_command
from relay.errors import DaemonLost
from relay.journal import Journal, shown
from relay.packets import (BAD_COMMAND, BAD_NAME, BAD_SPAN, END_OF_DATA, HEARTBEAT, HEARTBEAT_RESPONSE, IN_USE, LENGTH,
                           MOST_BYTES, POLL, TERMINATE, TOO_LONG, is_refusal, line, packet, signal)
from relay.phases import DataPhase, ReadPhase, SpanPhase, Stop
from relay.roles import Rights
from relay.store import Store
from relay.streams import FEW, LARGE, SIZE, Ends

OPENED = re.compile(rb"3000 OK open ticket = ([1-9][0-9]{0,9})\n")
# The daemon ends a talk in which it hears nothing for 300 seconds, also if only the relay hears the client.
AWAKE = 60


class Over(Exception):
    """The talk is over as the protocol has it: how."""


class Talk:
    """The talk of a client with these rights."""

    def __init__(self, rights: Rights, ends: Ends, store: Store, allowance: Allowance, journal: Journal):
        self.rights, self.ends, self.store, self.allowance, self.journal = rights, ends, store, allowance, journal
        # The daemon's run, once it is known, and the session that this talk opened last.
        self.run: int | None = None
        self.ticket: int | None = None
        self.key: tuple[int, int] | None = None
        self.records = self.appended = self.read = 0

    def hold(self) -> str:
        """Holds the talk to its end, and says how it ended."""
        try:
            while True:
                self._next()
        except Over as how:
            return str(how)

    # Commands.

    def _next(self) -> None:
        """What comes where a command is due."""
        length = self._length()
        if length is None:
            raise Over("truncated" if len(self.ends.client) else "finished")
        self.ends.client.take(4)
        if length > MOST_BYTES:
            self._too_long()
        elif length == TERMINATE:
            self._terminate()
        elif length in (POLL, HEARTBEAT):
            self.ends.write_daemon(signal(length))
            self._expect_signal(HEARTBEAT_RESPONSE)
            self.ends.write_client(signal(HEARTBEAT_RESPONSE))
        elif length > MOST_COMMAND:
            self._skip(length)
            self._refuse(BAD_COMMAND)
        elif length >= 0:
            self._obey(self._payload(length))

    def _obey(self, payload: bytes) -> None:
        try:
            command = read_command(payload)
            if isinstance(command, Console) and command.fault and not self.rights.is_operator:
                raise command.fault
        except BadCommand:
            return self._refuse(BAD_COMMAND)
        except BadName:
            return self._refuse(BAD_NAME)
        why = self.rights.why_not(command)
        match command:
            case Read():
                self._read(command, why)
            case _ if why:
                self._forbid(payload, why)
            case Open():
                self._open(command, payload)
            case OfSession(what="data"):
                self._data(command)
            case OfSession():
                self._of_session(command)
            case Console():
                self._console(command, payload)

    def _open(self, asked: Open, payload: bytes) -> None:
        if self.allowance.is_used_up():
            return self._forbid(payload, "the bytes of the day are used up")
        day = self.allowance.take_session()
        if day is None:
            return self._forbid(payload, "the sessions of the day are used up")
        said = self._ask(asked.text())
        found = OPENED.fullmatch(said)
        if not found:
            self.store.uncount_session(self.rights.name, day)
            if not is_refusal(said):
                raise DaemonLost(f"{shown(said)} in place of a ticket")
            return self.ends.write_client(packet(said))
        self.ticket = int(found[1])
        self.key = answers.key_of(self.ends, self.ticket)
        if self.key is None:
            raise DaemonLost("a session that was just opened isn't known")
        self.run, self.records = self.key[0], 0
        # Kept before the client hears of it: no session of a name is forgotten by a stop of the relay.
        self.store.add_session(self.rights.name, self.key, self.ticket, asked.job, asked.pool, asked.media)
        self.journal.say(f"session {self.key[0]} {self.key[1]} opened for job {asked.job} in pool {asked.pool}")
        self.ends.write_client(packet(said))

    def _of_session(self, asked: OfSession) -> None:
        """An end or a close."""
        said = self._ask(asked.text())
        self.ends.write_client(packet(said))
        if asked.what == "close session" and not is_refusal(said):
            self._pass_lines()
            if self.key:
                self.journal.say(f"session {self.key[0]} {self.key[1]} closed with {self.records} records")

    def _console(self, asked: Console, payload: bytes) -> None:
        if self.rights.is_operator:
            self.journal.say(f"says {shown(payload)}")
        elif asked.word == "status":
            own = self.store.tickets(self.rights.name, run) if (run := self._known_run()) is not None else set()
            return answers.pass_status(self.ends, own)
        elif asked.word == "cancel" and asked.ticket != self.ticket:
            return self._forbid(payload, "another talk's session")
        elif asked.word == "jobmedia":
            run = self._known_run()
            if run is None or asked.ticket not in self.store.tickets(self.rights.name, run):
                return self._forbid(payload, "another's session")
        said = self._ask(asked.text())
        self.ends.write_client(packet(said))
        if not is_refusal(said):
            self._pass_lines()

    def _known_run(self) -> int | None:
        """The time of the daemon's run, or None if it has no session yet."""
        if self.run is None and (key := answers.key_of(self.ends, 1)):
            self.run = key[0]
        return self.run

    # The data phase.

    def _data(self, asked: OfSession) -> None:
        said = self._ask(asked.text())
        self.ends.write_client(packet(said))
        if is_refusal(said):
            return
        if said != b"3000 OK data\n":
            raise DaemonLost(f"{shown(said)} in place of a data phase")
        phase = DataPhase()
        try:
            stop = self._pass_data(phase)
        finally:
            self.records += phase.records
            self.appended += phase.bytes
        if stop is Stop.LIMIT:
            return self._end_at_limit(phase)
        self.ends.write_client(packet(answers.packet_of(self.ends)))

    def _pass_data(self, phase: DataPhase) -> Stop:
        """Passes on a data phase up to its end, or up to a record for which nothing is left."""
        client = self.ends.client
        while True:
            at, stop = phase.walk(client.store, client.start, client.end, self.allowance.take)
            if at > client.start:
                self.ends.add(client.view[client.start:at])
                client.start = at
            if stop is not Stop.MORE:
                self.ends.send_held()
            if stop in (Stop.END, Stop.LIMIT):
                return stop
            if not (self.ends.appends_unread and phase.size >= LARGE):
                self._go_on(stop)
            elif phase.left >= LARGE:
                self._pass_large(phase)
            else:
                self._go_on(stop, phase.left + FEW)

    def _pass_large(self, phase: DataPhase) -> None:
        """Passes on the rest of a large payload unread, and further ones as long as they follow: of each only the length
        is read. What else comes is left to a walk."""
        ends, may_go = self.ends, self.allowance.take
        while True:
            while phase.left:
                if not (count := ends.pass_client(phase.left)):
                    raise Over("truncated")
                phase.left -= count
            head = ends.client.read_few()
            if len(head) < 4 or (length := LENGTH.unpack(head)[0]) < LARGE or phase.packet(length, may_go):
                return ends.client.put_back(head)
            ends.add(head)

    def _end_at_limit(self, phase: DataPhase) -> None:
        """Ends the daemon's phase and gives up the session, as after a refused record; drops what the client goes on to
        send, and refuses at its end. Nothing of the session is told as kept from here on."""
        self.journal.refused("a record", "the bytes of the day are used up")
        self.ends.write_daemon(signal(END_OF_DATA) + signal(END_OF_DATA))
        said = answers.packet_of(self.ends)
        if not is_refusal(said):
            self._give_up()
        client = self.ends.client
        while True:
            client.start, stop = phase.walk(client.store, client.start, client.end, lambda size: True)
            if stop is Stop.END:
                break
            self._keep_awake()
            self._go_on(stop)
        self.ends.write_client(packet(said) if is_refusal(said) else line(IN_USE))

    def _give_up(self) -> None:
        """Cancels the talk's session. If the daemon doesn't say that it is over, the talk ends here, and it is."""
        said = self._ask(f"console cancel {self.ticket}")
        if not is_refusal(said):
            if said != b"ok cancelled\n" or not answers.is_end(self.ends):
                raise DaemonLost(f"{shown(said)} in place of a cancel's answer")
        elif not said.startswith((b"3902", b"3905", b"3906")):
            raise DaemonLost(f"{shown(said)} to a cancel")

    # The read phase.

    def _read(self, asked: Read, why: str | None) -> None:
        key = (asked.time, asked.id)
        if not why and not self.rights.is_operator and not self.store.is_own(self.rights.name, key):
            why = "another's session"
        if why:
            self.journal.refused(f"to read session {asked.time} {asked.id}", why)
        else:
            self.ends.write_daemon(packet(asked.text().encode()))
        self._pass_spans(goes_on=not why)
        if why:
            self._keep_awake()
            return self.ends.write_client(signal(END_OF_DATA) + line(IN_USE))
        phase = ReadPhase()
        try:
            self._pass_records(phase)
        finally:
            self.read += phase.bytes
        said = answers.packet_of(self.ends)
        self.journal.say(f"read session {asked.time} {asked.id}: {phase.bytes} bytes, {shown(said.rstrip())}")
        self.ends.write_client(packet(said))

    def _pass_spans(self, goes_on: bool) -> None:
        """Takes the spans up to -1, and passes them on if they go on."""
        phase, client = SpanPhase(), self.ends.client
        while True:
            at, stop = phase.walk(client.store, client.start, client.end)
            if goes_on and at > client.start:
                self.ends.write_daemon(client.view[client.start:at])
            client.start = at
            if stop is Stop.END:
                return
            if stop is Stop.LIMIT:
                self.ends.write_client(signal(END_OF_DATA) + line(BAD_SPAN))
                raise Over("too many spans")
            self._go_on(stop)

    def _pass_records(self, phase: ReadPhase) -> None:
        daemon = self.ends.daemon
        while True:
            at, stop = phase.walk(daemon.store, daemon.start, daemon.end)
            if at > daemon.start:
                self.ends.write_client(daemon.view[daemon.start:at])
                daemon.start = at
            if stop is Stop.END:
                return
            if stop is not Stop.MORE:
                raise DaemonLost("the daemon says what is no record")
            if not (self.ends.reads_unread and phase.size >= LARGE):
                self.ends.read_daemon()
                continue
            while phase.left >= LARGE:
                phase.left -= self.ends.pass_daemon(phase.left)
            self.ends.read_daemon(phase.left + FEW)

    # What these have in common.

    def _go_on(self, stop: Stop, most: int = SIZE) -> None:
        """Reads on in a phase, or ends the talk for what stopped it."""
        if stop is Stop.TOO_LONG:
            self._too_long()
        elif stop is Stop.TERMINATE:
            self._terminate()
        elif not self.ends.read_client(most):
            raise Over("truncated")

    def _terminate(self) -> None:
        self.ends.write_daemon(signal(TERMINATE))
        raise Over("finished")

    def _too_long(self) -> None:
        self.ends.write_client(line(TOO_LONG))
        raise Over("a packet was too long")

    def _length(self) -> int | None:
        """The next length, which stays, or None if the input ends before it."""
        while (length := self.ends.client.length()) is None:
            if not self.ends.read_client():
                return None
        return length

    def _payload(self, size: int) -> bytes:
        while len(self.ends.client) < size:
            if not self.ends.read_client():
                raise Over("truncated")
        return self.ends.client.take(size)

    def _skip(self, size: int) -> None:
        client = self.ends.client
        while size:
            step = min(size, len(client))
            client.start, size = client.start + step, size - step
            if size and not self.ends.read_client():
                raise Over("truncated")

    def _ask(self, command: str) -> bytes:
        """Gives the daemon a command, and gives the first packet that answers it."""
        self.ends.write_daemon(packet(command.encode()))
        return answers.packet_of(self.ends)

    def _pass_lines(self) -> None:
        for payload in answers.lines_of(self.ends):
            self.ends.write_client(packet(payload))
        self.ends.write_client(signal(END_OF_DATA))

    def _expect_signal(self, number: int) -> None:
        if answers.next_of(self.ends) != number:
            raise DaemonLost(f"no signal {number}")

    def _keep_awake(self) -> None:
        """The daemon has heard nothing while the relay heard the client: a heartbeat, if it is due."""
        if time.monotonic() - self.ends.sent_at > AWAKE:
            self.ends.write_daemon(signal(HEARTBEAT))
            self._expect_signal(HEARTBEAT_RESPONSE)

    def _forbid(self, payload: bytes, why: str) -> None:
        self.journal.refused(shown(payload), why)
        self._refuse(IN_USE)

    def _refuse(self, refusal: bytes) -> None:
        self._keep_awake()
        self.ends.write_client(line(refusal))
