"""What may pass the relay, said once more: beside a conversation's bytes and what the daemon answered, what must have
reached the daemon and the client. It works on whole packets, after the talk; and roles are a table of forms here."""
import re
import struct

MOST, NUMBER = 4_000_000, 2_147_483_647
NAME = rb"[A-Za-z0-9_:.-]+"
ANY_NAME = rb"[^ ]*"


def line(text):
    return struct.pack(">i", len(text) + 1) + text + b"\n"


def signal(number):
    return struct.pack(">i", number)


IN_USE, BAD, BAD_NAME, TOO_LONG = (line(text) for text in (
    b"3933 In use", b"3901 Bad command", b"3937 Bad name", b"3904 Packet too long"))
# A form of a command, with its numbers and their greatest, and its names.
FORMS = {
    "open": (rb"append open session JobId=(?P<job>[^ ]*) Pool=(?P<name1>%s) Media=(?P<name2>%s)" % (ANY_NAME, ANY_NAME),
             {"job": NUMBER}),
    "data": (rb"append data (0|[1-9]\d*)", {}),
    "end": (rb"append end session (0|[1-9]\d*)", {}),
    "close": (rb"append close session (0|[1-9]\d*)", {}),
    "read": (rb"read session Time=(?P<time>[^ ]*) Id=(?P<id>[^ ]*)", {"time": NUMBER, "id": NUMBER}),
    "label": (rb"console label (?P<drive>[^ ]*) (?P<name1>[^ ]*) (?P<name2>[^ ]*) (?P<name3>[^ ]*)", {"drive": 8}),
    **{word: (rb"console %s (?P<drive>[^ ]*) (?P<name1>[^ ]*)" % word.encode(), {"drive": 8})
       for word in ("adopt", "mount", "purge")},
    **{word: (rb"console %s (?P<drive>[^ ]*)" % word.encode(), {"drive": 8}) for word in ("unmount", "retire")},
    **{word: (rb"console %s (?P<ticket>[^ ]*)" % word.encode(), {"ticket": NUMBER}) for word in ("cancel", "jobmedia")},
    **{word: (rb"console %s" % word.encode(), {}) for word in ("status", "requests")},
}
MAY = {
    "operator": set(FORMS), "client": {"open", "data", "end", "close", "read", "cancel", "jobmedia", "status"},
    "append-only": {"open", "data", "end", "close", "status"},
}


def form_of(payload):
    """The form of a command and its fields; or the refusal of what has none."""
    text = payload[:-1] if payload[-1:] in (b"\n", b"\0") else payload
    if any(byte > 127 for byte in text) or len(payload) > 1024:
        return BAD, {}
    for form, (pattern, most) in FORMS.items():
        if not (found := re.fullmatch(pattern, text, re.DOTALL)):
            continue
        fields = found.groupdict()
        for field, greatest in most.items():
            if not re.fullmatch(rb"[1-9]\d*", fields[field]) or int(fields[field]) > greatest:
                return BAD, {}
        names = [value for field, value in fields.items() if field.startswith("name")]
        if any(not re.fullmatch(NAME, name) or len(name) > 127 or name in (b".", b"..") for name in names):
            return BAD_NAME, {}
        return form, {field: int(value) if field in most else value for field, value in fields.items()}
    return BAD, {}


class Wrong(Exception):
    """What reached the daemon or the client isn't what must have."""


def packets_of(sent):
    """The whole packets of a client: numbers for signals, None where one is too long; and what is no whole packet."""
    packets, at = [], 0
    while len(sent) - at >= 4:
        (length,) = struct.unpack_from(">i", sent, at)
        if length > MOST:
            return [*packets, None], b""
        end = at + 4 + max(length, 0)
        if end > len(sent):
            break
        packets.append(length if length < 0 else sent[at + 4:end])
        at = end
    return packets, sent[at:]


class Model:
    """One conversation. `own` are the keys of the name's sessions, and grow."""

    def __init__(self, role, pools, jobs, own, limit, used, taken):
        self.role, self.pools, self.jobs, self.own, self.limit, self.used = role, pools, jobs, own, limit, used
        self.taken, self.at, self.out, self.run, self.ticket, self.over = taken, 0, b"", None, None, False
        self.counts = {}

    def count(self, what):
        self.counts[what] = self.counts.get(what, 0) + 1

    def reaches(self, what):
        """The next that reached the daemon must be this packet or signal. Gives what answered it."""
        if self.at >= len(self.taken):
            raise Wrong(f"{what!r:.80} didn't reach the daemon")
        _, kind, got, answer = self.taken[self.at]
        if kind != "packet" or got != what:
            raise Wrong(f"{got!r:.80} reached the daemon, in place of {what!r:.80}")
        self.at += 1
        return answer

    def hold(self, sent):
        packets, self.rest = packets_of(sent)
        steps = iter(packets)
        for got in steps:
            self.command(got, steps)
            if self.over:
                break
        if not self.over and self.at < len(self.taken) and self.taken[self.at][1] == "part":
            # What was cut off in a phase passes as far as it came.
            if self.rest[4:] != self.taken[self.at][2] or self.taken[self.at][0] == "command":
                raise Wrong(f"a part of {self.taken[self.at][2]!r:.80} reached the daemon")
            self.at += 1
        if self.at < len(self.taken):
            raise Wrong(f"{self.taken[self.at]!r:.120} reached the daemon, and must not")

    def command(self, got, steps):
        if got is None:
            self.out, self.over = self.out + TOO_LONG, True
        elif got == -4:
            self.reaches(-4)
            self.over = True
        elif got in (-5, -6):
            self.out += self.reaches(got)
        elif not isinstance(got, int):
            form, fields = form_of(got)
            if self.role == "operator" and isinstance(form, bytes) and form_has_console(got):
                form = "other"
            self.count(form if isinstance(form, str) else "no form")
            self.obey(form, fields, got, steps)

    def obey(self, form, fields, got, steps):
        plain = got[:-1] if got[-1:] in (b"\n", b"\0") else got
        if isinstance(form, bytes):
            self.out += form
        elif form == "read":
            self.read(fields, plain, steps)
        elif not self.may(form, fields):
            self.count("forbidden")
            self.out += IN_USE
        elif form == "open":
            self.open(fields, plain)
        elif form == "data":
            self.data(plain, steps)
        elif form == "status" and self.role != "operator":
            self.status()
        else:
            self.out += self.reaches(plain)

    def knows_run(self):
        if self.run is None:
            if found := re.search(rb"session (\d+) 1\n", self.reaches(b"console jobmedia 1")):
                self.run = int(found[1])

    def is_own(self, ticket):
        self.knows_run()
        return (self.run, ticket) in self.own

    def may(self, form, fields):
        if form == "other":
            return True
        if form not in MAY[self.role]:
            return False
        if form == "open":
            return (fields["name1"] in self.pools and fields["name2"] == b"File" and fields["job"] in self.jobs
                    and (self.limit is None or self.limit - self.used >= 12))
        if self.role == "client" and form == "cancel":
            return fields["ticket"] == self.ticket
        return self.role != "client" or form != "jobmedia" or self.is_own(fields["ticket"])

    def open(self, fields, plain):
        answer = self.reaches(plain)
        if found := re.search(rb"ticket = (\d+)\n", answer):
            self.ticket = int(found[1])
            self.run = int(re.search(rb"session (\d+) ", self.reaches(b"console jobmedia %d" % self.ticket))[1])
            self.own.add((self.run, self.ticket))
        self.out += answer

    def status(self):
        self.knows_run()
        said, _ = packets_of(self.reaches(b"console status"))
        for text in said[:-1]:
            found = re.match(rb"session (\d+) ", text)
            if text == b"ok status\n" or found and (self.run, int(found[1])) in self.own:
                self.out += line(text[:-1])
        self.out += signal(-1)

    def data(self, plain, steps):
        answer = self.reaches(plain)
        self.out += answer
        if answer != line(b"3000 OK data"):
            return
        self.count("phase")
        is_header, dropped = True, None
        for got in steps:
            if got is None:
                self.out, self.over = self.out + TOO_LONG, True
                return
            if isinstance(got, bytes) and not is_header and dropped is None:
                dropped = self.at_limit(len(got) + 12)
            if got == -4 or dropped is None:
                answer = self.reaches(got)
            if got == -4:
                self.over = True
                return
            if got == -1 and is_header:
                self.out += answer if dropped is None else dropped
                return
            if isinstance(got, bytes) or got == -1:
                is_header = got == -1
        # The input ended in the phase, maybe in a record, of which the length counts.
        if len(self.rest) >= 4 and not is_header and dropped is None:
            self.at_limit(struct.unpack_from(">i", self.rest)[0] + 12)

    def at_limit(self, size):
        """If the record has no room in the day: the session is given up, and this refuses the phase at its end."""
        if self.limit is None or self.used + size <= self.limit:
            self.used += size
            return None
        self.count("limit")
        self.reaches(-1)
        answer = self.reaches(-1)
        if answer == line(b"3000 OK append data"):
            self.reaches(b"console cancel %d" % self.ticket)
            return IN_USE
        return answer

    def read(self, fields, plain, steps):
        key = (fields["time"], fields["id"])
        passes = self.role == "operator" or self.role == "client" and key in self.own
        self.count("read" if passes else "forbidden read")
        if passes:
            self.reaches(plain)
        for got in steps:
            if got is None:
                self.out, self.over = self.out + TOO_LONG, True
                return
            answer = self.reaches(got) if passes or got == -4 else b""
            if got == -4:
                self.over = True
                return
            if got == -1:
                self.out += answer if passes else signal(-1) + IN_USE
                return


def form_has_console(payload):
    text = payload[:-1] if payload[-1:] in (b"\n", b"\0") else payload
    return text.startswith(b"console ") and text.isascii() and len(payload) <= 1024
