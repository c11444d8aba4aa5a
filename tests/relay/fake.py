"""A daemon that keeps what reaches it: the conversation of docs/use/PROTOCOL.md over a socket, with answers that are drawn. It
reads packets whole and plainly, and shares no line with the relay."""
import random
import struct
import threading

COMMAND, HEADER, RECORD, SPANS = "command", "header", "record", "spans"
MOST = 4_000_000


def signal(number):
    return struct.pack(">i", number)


def packet(payload):
    return struct.pack(">i", len(payload)) + payload


def line(text):
    return packet(text.encode() + b"\n")


class Fake(threading.Thread):
    """Holds one talk. `taken` has what came in order: for each packet or signal what was due, what it was, and what
    answered it at once."""

    def __init__(self, end, run, seed, status):
        """`status` has the sessions of the run, shared by its talks."""
        super().__init__(daemon=True)
        self.socket, self.run_time, self.draw = end, run, random.Random(seed)
        self.own, self.due, self.taken, self.status = None, COMMAND, [], status
        self.ended_by, self.failure = "", None

    def run(self):
        try:
            with self.socket, self.socket.makefile("rb") as file:
                self.talk(file)
        except OSError as why:
            self.ended_by = f"broken: {why}"
        except Exception as why:
            self.failure = why

    def talk(self, file):
        while True:
            head = file.read(4)
            if len(head) < 4:
                self.ended_by = "truncated" if head or self.due != COMMAND else "finished"
                return
            (length,) = struct.unpack(">i", head)
            if length > MOST:
                self.ended_by = "too long"
                return
            got = length if length < 0 else file.read(length)
            if length >= 0 and len(got) < length:
                self.ended_by = "truncated"
                self.taken.append((self.due, "part", got, b""))
                return
            due = self.due
            if got == -4:
                self.taken.append((due, "packet", got, b""))
                self.ended_by = "finished"
                return
            answer = self.answer(got)
            self.taken.append((due, "packet", got, answer))
            if answer:
                self.socket.sendall(answer)

    def answer(self, got):
        if isinstance(got, int):
            return self.of_signal(got)
        if self.due == COMMAND:
            return self.of_command(got)
        self.due = RECORD if self.due == HEADER else self.due
        return b""

    def of_signal(self, number):
        if self.due == COMMAND:
            return signal(-7) if number in (-5, -6) else b""
        if number != -1:
            return b""
        if self.due == RECORD:
            self.due = HEADER
            return b""
        was, self.due = self.due, COMMAND
        if was == HEADER:
            return line("3000 OK append data") if self.draw.random() < 0.8 else line("3903 Bad file index")
        return self.of_read()

    def of_read(self):
        said, size, count = b"", 0, self.draw.randrange(4)
        for _ in range(count):
            data = self.draw.choice((b"", b"console unmount 1", b"3000 OK data\n", signal(-1), bytes(self.draw.randrange(3000))))
            size += len(data)
            said += packet(b"%d 2 0" % self.draw.choice((1, 3901))) + packet(data) + signal(-1)
        end = f"3000 OK read Records={count} Bytes={size} Ended=1" if self.draw.random() < 0.7 else "3951 Damaged block"
        return said + signal(-1) + line(end)

    def of_command(self, got):
        text = (got[:-1] if got[-1:] in (b"\n", b"\0") else got).decode("latin-1")
        words = text.split(" ")
        if text.startswith("append open session ") and len(words) == 6:
            return self.of_open()
        if text.startswith("append data ") and len(words) == 3:
            return self.of_data(words[2])
        if words[:2] == ["append", "end"]:
            return line(self.draw.choice(("3000 OK end", "3000 OK end", "3906 Session cancelled")))
        if words[:2] == ["append", "close"]:
            return self.of_close()
        if words[:2] == ["read", "session"]:
            self.due = SPANS
            return b""
        return self.of_console(text.removeprefix("console "))

    def of_open(self):
        if self.draw.random() < 0.15:
            return line(self.draw.choice(("3911 No free lane", "3901 Bad command", "3910 No drive of this media")))
        self.own = len(self.status) + 1
        self.status[self.own] = "active"
        return line(f"3000 OK open ticket = {self.own}")

    def of_data(self, ticket):
        # Now and then it refuses what it should take: the relay goes by the answer.
        if ticket != str(self.own) or self.draw.random() < 0.05:
            return line("3902 Session not open")
        self.due = HEADER
        return line("3000 OK data")

    def of_close(self):
        if self.draw.random() < 0.3 or self.own is None:
            return line(self.draw.choice(("3907 Not yet", "3905 Session failed")))
        self.status[self.own] = "closed"
        spans = [f"span Vol-000{at} {at} 1 1 92 259" for at in range(1, self.draw.randrange(1, 4))]
        return b"".join(map(line, ["3000 OK close Status = 84", f"session {self.run_time} {self.own}", *spans])) + signal(-1)

    def of_console(self, text):
        word, _, rest = text.partition(" ")
        if word == "jobmedia" and rest.isdigit() and int(rest) in self.status:
            return line(f"session {self.run_time} {rest}") + line("span Vol-0001 1 1 1 92 259") + signal(-1)
        if word == "cancel" and rest == str(self.own):
            return line("ok cancelled") + signal(-1)
        if word == "status" and not rest:
            sessions = [f"session {ticket} {status} 1" for ticket, status in self.status.items()]
            lines = ["drive 1 File Vol-0001 0", "volume Vol-0001 Default File append 92", *sessions, "ok status"]
            return b"".join(map(line, lines)) + signal(-1)
        if word == "requests" and not rest:
            return line("request 1 Secret File") + line("ok requests 1") + signal(-1)
        if word in ("label", "adopt", "mount", "unmount", "retire", "purge") and self.draw.random() < 0.7:
            return line("ok done") + signal(-1)
        return line(self.draw.choice(("3933 In use", "3902 Session not open", "3901 Bad command")))
