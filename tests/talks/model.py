"""Conversations with the daemon as texts, a plain model of one, and talks that are drawn. tests/talks holds them.

The model takes packets one by one, and keeps sizes in place of blocks. Its world has one drive of media `File` with one
volume `Vol-0001`, blocks of at most 1024 bytes, no spool, and sessions of the pool `Default`, one at a time.
"""
import itertools
import random
import re
import struct
import types

REFUSALS = {
    3901: "Bad command", 3902: "Session not open", 3903: "Bad file index", 3904: "Packet too long", 3906: "Session cancelled",
    3910: "No drive of this media", 3930: "Volume not on the shelf", 3933: "In use", 3935: "Volume already labelled",
    3937: "Bad name", 3938: "No such drive", 3950: "Bad span", 3951: "Damaged block", 3952: "Span ends early",
}
END_OF_DATA, TERMINATE, HEARTBEAT_RESPONSE, POLLS = -1, -4, -7, (-5, -6)
OTHER_SIGNALS = [-2, -3, -5, -6, -7, -8, -(2**31)]
MOST_NUMBER = 2_147_483_647
VOLUME, TIME = "Vol-0001", 1000
OPENS = "append open session JobId=7 Pool=Default Media=File"
# Sizes in bytes: a block's header, a volume's label block, a record's header, and a session's two labels.
BLOCK_HEADER, LABEL_BLOCK, RECORD_HEADER, START_LABEL, END_LABEL = 24, 92, 12, 53, 73
# In fewer bytes of a span there can be no block.
LEAST_BLOCK = 36


def signal(number):
    return struct.pack(">i", number)


def packet(payload):
    return struct.pack(">i", len(payload)) + payload


def line(text):
    """A packet of the daemon's: a text and a newline."""
    return packet(text.encode() + b"\n")


def refusal(number):
    return line(f"{number} {REFUSALS[number]}")


def packets_of(sent):
    """The packets of a connection: a number for a signal, a text for another, and bytes for what is no whole packet."""
    packets, at = [], 0
    while len(sent) - at >= 4:
        (length,) = struct.unpack_from(">i", sent, at)
        end = at + 4 + max(length, 0)
        if end > len(sent):
            break
        packets.append(length if length < 0 else sent[at + 4:end].decode("latin-1"))
        at = end
    return packets + ([sent[at:]] if at < len(sent) else [])


# Talks that only ask how things are, as they are sent.
LOOKS = [packet(f"console {text}".encode()) for text in ("status", "requests", *(f"jobmedia {at}" for at in range(1, 10)))]


class Conversation:
    """The packets of a talk in their order, `>` the client's and `<` the daemon's; how it ends; what the log has of it."""

    def __init__(self):
        self.steps, self.end, self.log = [], "finished", []

    def sent(self):
        return b"".join(step for mark, step in self.steps if mark == ">")

    def said(self, taken=None):
        """What answers so many bytes of the client, or all."""
        said, left = b"", len(self.sent()) if taken is None else taken
        for mark, step in self.steps:
            left -= len(step) if mark == ">" else 0
            said += step if mark == "<" and left >= 0 else b""
        return said

    def only_looks(self):
        """Whether it asks how things are, and nothing else."""
        return self.sent() in LOOKS

    def ends(self):
        """Where each packet of the client ends."""
        return list(itertools.accumulate(len(step) for mark, step in self.steps if mark == ">"))

    def whole(self, taken):
        """How many packets are whole in so many bytes of the client."""
        return sum(end <= taken for end in self.ends())

    def pieces(self, wire, size=None):
        """How much was read after each read, if so many bytes come, or all."""
        whole = len(self.sent()) if size is None else size
        return [*range(min(wire.first or whole, whole), whole, wire.most or whole or 1), whole]

    def writes(self, wire, size=None):
        """Each write: how much was read by then, and what is written. What one read brings is answered at once."""
        writes, told = [], 0
        for taken in self.pieces(wire, size):
            said = self.said(taken)
            most = wire.put or len(said)
            writes += [(taken, said[at:at + most]) for at in range(told, len(said), most or 1)]
            told = len(said)
        return writes


def step_of(text, end=""):
    """The bytes of a signal, of so many letters as `x*9`, or of a text and what comes after it."""
    if re.fullmatch(r"-\d+", text):
        return signal(int(text))
    if many := re.fullmatch(r"(\w)\*(\d+)", text):
        text = many[1] * int(many[2])
    for written, meant in ((r"\n", "\n"), (r"\0", "\0"), (r"\_", " ")):
        text = text.replace(written, meant)
    return packet((text + end).encode())


def parsed(text):
    """What a text has: lines of the configuration, those of its drive, the most bytes of a file or None, and acts: talks,
    and pairs of a mark and its text. An item is in a line or after ` | `.

    `>` a packet of the client, `>>` bytes of the client in hexadecimal, `<` a line of the daemon or a signal, `<<` a packet
    of the daemon that is no line, `.` how the talk ends, `%` what the log has of it; `?` a line of the operator in a talk
    of its own, `=` what answers that; `:` and `::` lines of the configuration and of its drive, `!` the most bytes of a
    file; and, between talks, `&` what the log has next of a drive, `^` the time of another run, `+` a volume's new length,
    `~` which byte of it is damaged.
    """
    lines, longest, acts, over = {":": "", "::": ""}, None, [], True
    for mark, _, rest in (item.partition(" ") for item in re.split(r" \| |\n", text) if item):
        if mark in lines:
            lines[mark] += rest + "\n"
        elif mark == "!":
            longest = int(rest)
        elif mark in "&^+~":
            acts.append((mark, rest))
        elif mark == "%":
            acts[-1].log.append(rest)
        else:
            if mark == "?" or over and mark != "=":
                acts.append(Conversation())
            over = mark in "?=."
            add_step(acts[-1], mark, rest)
    return lines[":"] if "block = " in lines[":"] else "block = 1024\n" + lines[":"], lines["::"], longest, acts


def add_step(talk, mark, text):
    if mark == ".":
        talk.end = text
    elif mark == "?":
        talk.steps.append((">", step_of("console " + text)))
    elif mark == "=":
        # The end of data comes after the last line, and after no refusal.
        talk.steps = [step for step in talk.steps if step != ("<", signal(END_OF_DATA))] + [("<", step_of(text, "\n"))]
        if not re.match(r"39\d\d ", text):
            talk.steps.append(("<", signal(END_OF_DATA)))
    elif mark == ">>":
        talk.steps.append((">", bytes.fromhex(text)))
    else:
        talk.steps.append((mark[0], step_of(text, "\n" if mark == "<" else "")))


class Dialogues:
    """The dialogue held again and again with one daemon, and what the daemon's status is to say."""

    def __init__(self):
        self.sessions, self.end = [], LABEL_BLOCK

    def next(self):
        """The dialogue as the next session has it."""
        ticket = len(self.sessions) + 1
        return parsed(f"""> {OPENS} | < 3000 OK open ticket = {ticket} | > append data {ticket} | < 3000 OK data
> 1 2 0 | > hello | > -1 | > -1 | < 3000 OK append data | > append end session {ticket} | < 3000 OK end
> append close session {ticket} | < 3000 OK close Status = 84 | < session {TIME} {ticket}
< span {VOLUME} 1 1 1 {self.end} {self.end + 167} | < -1 | > -4""")[-1][0]

    def read(self, stream):
        """It is read back with this Stream."""
        return parsed(f"""> read session Time={TIME} Id={len(self.sessions) + 1}
> span {VOLUME} 1 1 1 {self.end} {self.end + 167} | > -1 | << 1 {stream} 0 | << hello | < -1
< -1 | < 3000 OK read Records=1 Bytes=5 Ended=1""")[-1][0]

    def took(self, packets):
        """So many packets of it were taken: its session is closed by the eighth, or broken off, with the fourth's record."""
        if packets:
            self.end += 167 if packets >= 8 else 0
            self.sessions.append(("closed" if packets >= 8 else "cancelled", int(packets >= 4)))

    def status(self):
        return [f"drive 1 File {VOLUME} 0", f"volume {VOLUME} Default File append {self.end}",
                *(f"session {at} {status} {records}" for at, (status, records) in enumerate(self.sessions, 1)), "ok status"]


def fields(form, payload):
    """The groups of a form in a packet's text, if it has that form. One newline or zero byte at its end is ignored."""
    text = payload[:-1] if payload[-1:] in (b"\n", b"\0") else payload
    found = text.isascii() and re.fullmatch(form, text.decode(), re.DOTALL)
    return found and found.groups()


def number_in(text):
    """The number from 1 on that a text is, or None."""
    return int(text) if re.fullmatch(r"[1-9]\d*", text) and int(text) <= MOST_NUMBER else None


def is_name(text):
    return bool(re.fullmatch(r"[\w:.-]{1,127}", text, re.ASCII)) and text not in (".", "..")


def new_body():
    """A block's body: its size, the first and last FileIndex in it, and what of its session is whole at its end."""
    return types.SimpleNamespace(size=0, first=0, last=0, whole=0, ended=False)


class Session:
    """A session: its records as (FileIndex, Stream, data), and how they are cut into bodies."""

    def __init__(self, ticket, most=1024 - BLOCK_HEADER):
        self.ticket, self.most, self.status = ticket, most, "active"
        self.records, self.waiting, self.placed, self.open = [], [], [], new_body()
        self.put_label(START_LABEL)

    def close_body(self):
        if self.open.size:
            self.open.whole = len(self.records)
            self.waiting.append(self.open)
            self.open = new_body()

    def put_label(self, size):
        """A label that doesn't fit whole goes into the next body."""
        if self.open.size + size > self.most:
            self.close_body()
        self.open.size += size

    def put_part(self, index, left):
        """A header, and as much of the data that are left as fits. Gives how much that was."""
        taken = min(left, self.most - self.open.size - RECORD_HEADER)
        self.open.size += RECORD_HEADER + taken
        self.open.first, self.open.last = self.open.first or index, index
        return taken

    def put_record(self, index, stream, data):
        if self.most - self.open.size < RECORD_HEADER:
            self.close_body()
        left = len(data) - self.put_part(index, len(data))
        while left:
            self.close_body()
            left -= self.put_part(index, left)
        self.records.append((index, stream, data))

    def end(self):
        self.put_label(END_LABEL)
        self.open.ended = True
        self.close_body()
        self.status = "ended"


class World:
    """The volume and the sessions of a run; the log of what is opened, closed and cancelled, and of what the drive met."""

    def __init__(self):
        self.loaded, self.end = True, LABEL_BLOCK
        # Whether something was sent that nothing waited for: when its drive places it isn't said.
        self.on_way = False
        # Where each block begins, its size, and whose body it has.
        self.blocks = {0: (LABEL_BLOCK, None, None)}
        self.sessions, self.log, self.met = [], [], []

    def session(self, ticket):
        return self.sessions[ticket - 1] if 1 <= ticket <= len(self.sessions) else None

    def place_all(self, session):
        """Each round places a body that waits; a volume that isn't loaded is found and loaded."""
        if session.waiting and not self.loaded:
            self.met.append(f"drive 1: volume {VOLUME} is mounted")
        self.on_way = self.on_way or bool(session.waiting)
        for body in session.waiting:
            session.placed.append((self.end, body))
            self.blocks[self.end] = (BLOCK_HEADER + body.size, session, body)
            self.end += BLOCK_HEADER + body.size
            self.loaded = True
        session.waiting = []

    def step(self, event, ticket, *record):
        """An append, an end, a close or a cancel of a session. Gives 0, or the number of the refusal."""
        session = self.session(ticket)
        status = session.status if session else None
        if status not in {"append": ["active"], "end": ["active"], "close": ["ended"], "cancel": ["active", "ended"]}[event]:
            return 3906 if status == "cancelled" else 3902
        if event == "append":
            return self.append(session, *record)
        if event == "end":
            session.end()
            return 0
        if event == "close":
            self.place_all(session)
            self.on_way = False
        session.waiting, session.status = [], {"close": "closed", "cancel": "cancelled"}[event]
        size = sum(len(data) for *_, data in session.records)
        self.log.append(f"session {ticket} {session.status} with {len(session.records)} records of {size} bytes")
        return 0

    def append(self, session, index, stream, data):
        last = session.records[-1][0] if session.records else 0
        if index not in (last or 1, last + 1):
            return 3903
        self.place_all(session)
        session.put_record(index, stream, data)
        return 0

    def span(self, ticket):
        """The six fields of the span of what is placed of a session, if any is."""
        placed = self.session(ticket).placed
        if not placed:
            return []
        start, (at, last) = placed[0][0], placed[-1]
        indexes = [index for _, body in placed for index in (body.first, body.last) if index] or [0]
        return [(VOLUME, 1, indexes[0], indexes[-1], start, at + BLOCK_HEADER + last.size)]

    def job_media(self, ticket):
        return [f"session {TIME} {ticket}", *("span " + " ".join(map(str, span)) for span in self.span(ticket))]

    def status(self):
        running = sum(session.status in ("active", "ended") for session in self.sessions)
        return [f"drive 1 File {VOLUME if self.loaded else '-'} {running}", f"volume {VOLUME} Default File append {self.end}",
                *(f"session {one.ticket} {one.status} {len(one.records)}" for one in self.sessions), "ok status"]

    def console(self, text, own):
        """The lines that answer a line of the operator, in a talk that opened this session last, or the number of the
        refusal. Another talk's session isn't cancelled."""
        loaded, (word, _, rest) = self.loaded, text.partition(" ")
        if word in ("cancel", "jobmedia") and (ticket := number_in(rest)):
            if word == "cancel" and self.session(ticket) and ticket != own:
                return 3933
            if word == "cancel":
                return self.step("cancel", ticket) or ["ok cancelled"]
            return self.job_media(ticket) if self.session(ticket) else 3902
        if text == f"mount 1 {VOLUME}":
            self.loaded = True
            return 3933 if loaded else ["ok mounted"]
        if text == "unmount 1":
            self.loaded = False
            return ["ok unmounted"]
        return {
            "status": self.status(), "requests": ["ok requests 0"], "unmount 2": 3938, "mount 1 Vol-0009": 3930, "mount 1 .": 3937,
            f"label 1 {VOLUME} Default File": 3933 if loaded else 3935, f"adopt 1 {VOLUME}": 3935,
            "adopt 1 Vol-0009": 3933 if loaded else 3930, f"purge 1 {VOLUME}": 3933, "purge 1 Vol-0009": 3933, "purge 2 Vol-0009": 3938,
            "purge 1 ..": 3937,
        }.get(text, 3901)

    def read(self, key, spans):
        """The records that spans have of a session, why the reading stops or 0, and whether the session's end was met."""
        if spans and any(volume != VOLUME for volume, *_ in spans):
            return [], 3930, False
        in_order = [number for _, number, *_ in spans] == list(range(1, len(spans) + 1))
        if not spans or not in_order or any(start >= end for *_, start, end in spans):
            return [], 3950, False
        bodies, why = [], 0
        for *_, start, end in spans:
            why = why or self.read_span(key, start, end, bodies)
        records = self.session(key[1]).records[:bodies[-1].whole] if bodies else []
        return records, why or (0 if bodies else 3950), bool(bodies) and bodies[-1].ended

    def read_span(self, key, at, end, bodies):
        """Adds the session's bodies in a span, which must be its next. Gives why that stops, or 0."""
        if end > self.end:
            return 3952
        while at < end:
            size, session, body = self.blocks.get(at, (0, None, None))
            if end - at < LEAST_BLOCK:
                return 3950
            if not size:
                return 3951
            if at + size > end:
                return 3950
            if session and (TIME, session.ticket) == key:
                if session.placed[len(bodies):][:1] != [(at, body)]:
                    return 3951
                bodies.append(body)
            at += size
        return 0


class Talk:
    """A conversation so far: what is due next, the session that it opened last, whether that goes on, and what went out."""

    def __init__(self, world):
        self.world, self.due, self.own, self.runs, self.over, self.out = world, "command", 0, False, False, b""
        # The header of the records that come, why a phase is dropped, and the session that is read and its spans.
        self.header, self.why, self.key, self.spans = None, 0, (TIME, 0), []

    def take(self, act):
        """Takes a signal's number or a packet's payload."""
        if self.over:
            return
        if not isinstance(act, int):
            self.due = "dropped_record" if self.due == "dropped_header" else self.due
            takers = {"command": self.take_command, "header": self.take_header, "record": self.take_record, "spans": self.take_span}
            takers.get(self.due, lambda _: None)(act)
        elif act == END_OF_DATA:
            self.take_end_of_data()
        elif act == TERMINATE:
            self.over = True
        elif act in POLLS and self.due == "command":
            self.out += signal(HEARTBEAT_RESPONSE)

    def finish(self, rest):
        """The talk ends by -4, or after bytes that are no whole packet. Says how, in the log's words."""
        self.give_up()
        if self.over:
            return "finished"
        if rest == TOO_LONG:
            self.refuse(3904)
            return "a packet was too long"
        return "truncated" if rest or self.due != "command" else "finished"

    def say(self, *texts):
        self.out += b"".join(line(text) for text in texts)

    def refuse(self, number):
        self.out += refusal(number)

    def answer(self, why, *texts):
        """Answers a command by texts, or by a refusal, which may tell that the session goes on no more."""
        self.runs = self.runs and why != 3906
        self.refuse(why) if why else self.say(*texts)

    def give_up(self):
        if self.runs:
            self.world.step("cancel", self.own)
        self.runs = False

    def take_command(self, sent):
        if words := fields(r"append open session JobId=([^ ]*) Pool=([^ ]*) Media=([^ ]*)", sent):
            self.open(*words)
        elif words := fields(r"append (data|end session|close session) (0|[1-9]\d*)", sent):
            self.own_command(*words)
        elif (words := fields(r"read session Time=([^ ]*) Id=([^ ]*)", sent)) and all(map(number_in, words)):
            self.due, self.key, self.spans = "spans", tuple(map(int, words)), []
        elif words := fields(r"console (.*)", sent):
            answer = self.world.console(words[0], self.own)
            if isinstance(answer, int) and answer != 3901 and words[0].startswith(("label ", "adopt ")):
                self.world.log.append(f"{words[0]}: {answer} {REFUSALS[answer]}")
            self.refuse(answer) if isinstance(answer, int) else self.say(*answer)
            self.out += b"" if isinstance(answer, int) else signal(END_OF_DATA)
        else:
            self.refuse(3901)

    def open(self, job, pool, media):
        if not number_in(job):
            self.refuse(3901)
        elif not (is_name(pool) and is_name(media)):
            self.refuse(3937)
        elif self.runs:
            self.refuse(3901)
        elif media != "File":
            self.world.log.append(f"job {job} of pool {pool} and media {media} is refused: 3910 {REFUSALS[3910]}")
            self.refuse(3910)
        else:
            self.own, self.runs = len(self.world.sessions) + 1, True
            self.world.sessions.append(Session(self.own))
            self.world.log.append(f"session {self.own} opened for job {job} on drive 1")
            self.say(f"3000 OK open ticket = {self.own}")

    def own_command(self, word, ticket):
        if not self.own or int(ticket) != self.own:
            self.refuse(3902)
        elif word == "data":
            self.due = "header"
            self.say("3000 OK data")
        elif word == "end session":
            self.answer(self.world.step("end", self.own), "3000 OK end")
        else:
            why = self.world.step("close", self.own)
            self.answer(why, "3000 OK close Status = 84", *([] if why else self.world.job_media(self.own)))
            self.out += b"" if why else signal(END_OF_DATA)
            self.runs = self.runs and why != 0

    def take_header(self, sent):
        words = fields(r"([^ ]*) ([^ ]*) -?\d{1,20}", sent)
        if words and all(map(number_in, words)):
            self.due, self.header = "record", tuple(map(int, words))
        else:
            self.drop(3903)

    def take_record(self, sent):
        if why := self.world.step("append", self.own, *self.header, sent):
            self.runs = self.runs and why != 3906
            self.drop(why)

    def drop(self, why):
        self.give_up()
        self.due, self.why = "dropped_record", why

    def take_span(self, sent):
        words = fields(r"span ([^ ]*)" + r" (0|[1-9]\d*)" * 5, sent)
        if words and is_name(words[0]):
            self.spans.append((words[0], *map(int, words[1:])))
        else:
            self.due = "bad_spans"

    def take_end_of_data(self):
        if self.due == "header":
            self.say("3000 OK append data")
        elif self.due == "dropped_header":
            self.refuse(self.why)
        elif self.due in ("spans", "bad_spans"):
            self.read_back(*(self.world.read(self.key, self.spans) if self.due == "spans" else ([], 3950, False)))
        self.due = {"record": "header", "dropped_record": "dropped_header"}.get(self.due, "command")

    def read_back(self, records, why, ended):
        for index, stream, data in records:
            self.out += packet(f"{index} {stream} 0".encode()) + packet(data) + signal(END_OF_DATA)
        self.out += signal(END_OF_DATA)
        size = sum(len(data) for *_, data in records)
        self.refuse(why) if why else self.say(f"3000 OK read Records={len(records)} Bytes={size} Ended={int(ended)}")


class Client:
    """A client that draws what it does next: mostly what fits what is due, now and then what fits another place."""

    def __init__(self, world, seed):
        self.numbers, self.talk = random.Random(seed), Talk(world)

    def act(self):
        """A signal's number, or a packet's payload."""
        if self.numbers.random() < 0.06:
            return self.numbers.choice(OTHER_SIGNALS)
        due = self.talk.due if self.numbers.random() < 0.96 else self.numbers.choice(list(ACTS))
        if due == "command" and self.talk.runs:
            due = self.talk.world.session(self.talk.own).status
        if due == "spans" and self.talk.spans:
            due = "more_spans"
        acts = {act: weight for act, weight in ACTS[due].items() if not (self.talk.world.on_way and act in AT_REST)}
        kind, text = self.numbers.choices(list(acts), acts.values())[0]
        act = getattr(self, kind)(text)
        return act.encode() + self.numbers.choice((b"", b"", b"\n", b"\0")) if isinstance(act, str) else act

    def say(self, text):
        return text

    def one_of(self, kind):
        return self.numbers.choice(TEXTS[kind])

    def own(self, command):
        """A command for a session, mostly for the talk's own."""
        other = 0 if self.talk.own and self.numbers.random() < 0.95 else self.numbers.choice((-1, 1, 2**31))
        return f"append {command} {self.talk.own + other}"

    def any(self, command):
        """A command for a session, mostly one of the last of which something is placed; or for one that isn't there."""
        sessions = self.talk.world.sessions
        placed = [session.ticket for session in sessions if session.placed][-5:]
        return command + str(self.numbers.choice(placed if placed and self.numbers.random() < 0.9 else range(1, len(sessions) + 2)))

    def header(self, info):
        """The last FileIndex or the next one."""
        session = self.talk.world.session(self.talk.own)
        last = session.records[-1][0] if session and session.records else 0
        return f"{self.numbers.choice((last or 1, last + 1))} {self.numbers.choice((1, 2, MOST_NUMBER))} {info}"

    def record(self, _):
        return self.numbers.randbytes(self.numbers.choice((0, 1, 5, 70, 300, 862, 863, 923, 924, 988, 2000, 4000)))

    def span(self, _):
        """The span of the session that is read, as it is or with one number changed."""
        session = self.talk.world.session(self.talk.key[1])
        words = list(*(session and self.talk.world.span(session.ticket) or [(VOLUME, 1, 1, 1, LABEL_BLOCK, 259)]))
        words[1] += len(self.talk.spans)
        if self.numbers.random() < 0.4:
            at = self.numbers.choice((1, 2, 3, 4, 5, 5))
            words[at] = max(0, words[at] + self.numbers.choice((-40, -1, 1, 40)))
        return "span " + " ".join(map(str, words))


TEXTS = {
    "console": ["console " + text for text in [
        "status", "requests", "unmount 1", "unmount 2", f"mount 1 {VOLUME}", "mount 1 Vol-0009", "mount 1 .", "seek 1", "",
        "status ", f"label 1 {VOLUME} Default File", f"adopt 1 {VOLUME}", "adopt 1 Vol-0009", f"purge 1 {VOLUME}", "purge 1 Vol-0009",
        "purge 2 Vol-0009", "purge 1 ..", "purge 1"]],
    "nonsense": ["", "append", "quit", "append data", "append data 01", "append open session JobId=0 Pool=a Media=File", "\u00e9",
                 "append open session JobId=7 Pool=a/b Media=File", "append open session JobId=7 Pool=Default Media=Tape",
                 "console", "read session Time=0 Id=1"],
    "header": ["0 1 0", "1 0 0", "1 1", "01 1 0", "1 1 -", "9999999 1 0", "hello", "2147483648 1 0", "1 1 " + "0" * 21],
    "span": ["span Vol-0009 1 1 1 92 259", "span Vol-0001 1 1 1 92", "", "span . 1 1 1 92 259", "span Vol-0001 01 1 1 92 259",
             "span Vol-0001 1 1 1 92 259\nspan Vol-0001 2 1 1 92 259", "span Vol-0001 1 1 1 92 68719476736"],
}
OPEN, DATA, END, CLOSE = ("say", OPENS), ("own", "data"), ("own", "end session"), ("own", "close session")
CANCEL, DONE, HEADER, RECORD, SPAN = ("any", "console cancel "), ("say", END_OF_DATA), ("header", "-7"), ("record", ""), ("span", "")
OTHERS = {("any", f"read session Time={TIME} Id="): 4, ("one_of", "console"): 2, ("any", "console jobmedia "): 1,
          ("one_of", "nonsense"): 1, DONE: 1}
# What is answered by the state of a drive, or is done to it: that is drawn if nothing is on its way there.
AT_REST = [act for act in OTHERS if act != DONE and act != ("one_of", "nonsense")]
# What is due, for a command also the state of the talk's session, and how often which acts are drawn there.
ACTS = {
    "command": {OPEN: 12, ("say", OPENS.replace("File", "Tape")): 1, DATA: 2, END: 1, CLOSE: 1, **OTHERS},
    "active": {OPEN: 1, DATA: 20, END: 8, CLOSE: 1, CANCEL: 1, **OTHERS},
    "ended": {OPEN: 1, DATA: 2, END: 1, CLOSE: 12, **OTHERS},
    "cancelled": {OPEN: 2, DATA: 2, END: 2, CLOSE: 2},
    "header": {HEADER: 16, ("header", "9" * 20): 1, ("one_of", "header"): 1, DONE: 10},
    "record": {RECORD: 6, DONE: 4},
    "dropped_header": {HEADER: 1, DONE: 2},
    "dropped_record": {RECORD: 1, DONE: 1},
    "spans": {SPAN: 9, ("one_of", "span"): 2, DONE: 1},
    "more_spans": {SPAN: 1, ("one_of", "span"): 1, DONE: 8},
    "bad_spans": {SPAN: 1, DONE: 2},
}
TOO_LONG = b"\x00\x3d\x09\x01"
# What comes after the acts of a talk: nothing, a -4, a packet that is cut off, a length that is cut off or too long.
ENDINGS = [b"", b"", signal(TERMINATE), packet(b"hello")[:-2], b"\0", TOO_LONG]


def drawn_talk(world, seed, count=40):
    """The bytes of a client that opens a session and does so many acts more, what is to go out, and the end of the talk."""
    client, sent = Client(world, seed), b""
    world.on_way = False
    for at in range(count + 1):
        act = client.act() if at else OPENS.encode()
        client.talk.take(act)
        sent += signal(act) if isinstance(act, int) else packet(act)
    ending = client.numbers.choice(ENDINGS)
    if ending == signal(TERMINATE):
        client.talk.take(TERMINATE)
    end = client.talk.finish(ending)
    return sent + ending, client.talk.out, end
