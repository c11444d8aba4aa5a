"""Talks over queues for one thread: `sd_plain talk` holds them one after another, on its standard input and output, over one
drive in memory. tests/talks/run calls `plain`.
"""
import contextlib
import os
import pathlib
import select
import subprocess
import time

import model
from ample import never_wanting
from daemon import SD_PLAIN, WAIT

ROWS = pathlib.Path(__file__).resolve().parent / "rows"
# The time of its run, in the place of the daemon's.
TIME = 1_000_000_000
TERMINATED = (">", model.signal(model.TERMINATE))
SETTINGS, SMALL_BLOCKS = "it has settings of its own", "its spans are of blocks of at most 1024 bytes"
# The rows that aren't played here, and why.
LEFT_OUT = {
    "busy": SETTINGS, "busy_no_more": SETTINGS, "commands": SETTINGS, "failed": SETTINGS, "lane_given_back": SETTINGS,
    "no_free_lane": SETTINGS, "no_spool": SETTINGS, "two_volumes": SETTINGS,
    "cancelled": SMALL_BLOCKS, "header_alone": SMALL_BLOCKS, "large_records": SMALL_BLOCKS, "waits_for_rounds": SMALL_BLOCKS,
    "console": "the daemon alone refuses to retire a drive",
    "hello": "the daemon alone refuses to cancel what another talk opened",
    "damaged_volume": "the volume's file is changed between talks",
    "restarted": "the daemon is restarted between talks",
}


def backs_up(ticket, start, end):
    """A talk backs up a session of one record, whose block lies from there to there."""
    return f"""> {model.OPENS} | < 3000 OK open ticket = {ticket} | > append data {ticket} | < 3000 OK data
> 1 2 0 | > hello | > -1 | > -1 | < 3000 OK append data | > append end session {ticket} | < 3000 OK end
> append close session {ticket} | < 3000 OK close Status = 84 | < session {TIME} {ticket}
< span {model.VOLUME} 1 1 1 {start} {end} | < -1 | > -5 | < -7 | > -4"""


# The first of two talks labels the volume too.
DIALOGUE = [*model.parsed(f"> console label 1 {model.VOLUME} Default File | < ok labelled | < -1\n{backs_up(1, 92, 259)}")[-1],
            *model.parsed(backs_up(2, 259, 426))[-1]]


class Plain(contextlib.AbstractContextManager):
    """A running `sd_plain talk`."""

    def __init__(self):
        pipes = dict.fromkeys(("stdin", "stdout", "stderr"), subprocess.PIPE)
        self.process = subprocess.Popen([SD_PLAIN, "talk"], bufsize=0, **pipes)

    def __exit__(self, *_):
        self.process.kill()
        self.process.communicate()

    def hold(self, talk):
        """What it says in a talk after which another comes. The client's bytes go out at once, so that one read brings
        them: once they are answered, the talk has ended. It would take for its own what came together with its end."""
        if len(talk.sent()) > select.PIPE_BUF or talk.steps[-1] != TERMINATED or not talk.said():
            raise ValueError("its end isn't told by what is said")
        self.process.stdin.write(talk.sent())
        got, end = b"", time.monotonic() + WAIT
        while len(got) < len(talk.said()) and select.select([self.process.stdout], [], [], max(0, end - time.monotonic()))[0]:
            piece = os.read(self.process.stdout.fileno(), 1 << 16)
            if not piece:
                break
            got += piece
        return never_wanting(got)

    def hold_last(self, sent):
        """What it says if so much comes and then the input ends, its status, and what it prints as a fault."""
        out, fault = self.process.communicate(sent, timeout=WAIT)
        return never_wanting(out), self.process.returncode, fault


def is_held(run, text, talks):
    """These talks come as they are told, byte for byte, each begun when the one before it has ended."""
    *front, last = talks
    with Plain() as plain:
        for at, talk in enumerate(front, 1):
            run.same(f"{text}, {at}", model.packets_of(plain.hold(talk)), model.packets_of(talk.said()))
        got, status, fault = plain.hold_last(last.sent())
    run.same(f"{text}, the last", model.packets_of(got), model.packets_of(last.said()))
    run.same(f"{text}, its end", (status, fault), (int(last.end != "finished"), b""))


def talks_of(row):
    """The talks of a row at the time of this run, up to the first that isn't finished: with that the program ends. One that
    ends with the input ends by -4 if another comes after it."""
    text = (ROWS / row).read_text()
    for word in ("session ", "Time="):
        text = text.replace(f"{word}{model.TIME} ", f"{word}{TIME} ")
    talks = [act for act in model.parsed(text)[-1] if isinstance(act, model.Conversation)]
    finished = [talk.end == "finished" for talk in talks]
    talks = talks[:finished.index(False) + 1] if False in finished else talks
    for talk in talks[:-1]:
        talk.steps += [TERMINATED] if talk.steps[-1] != TERMINATED else []
    return talks


def ends(run):
    """The input ends between two commands and elsewhere; a packet is too long."""
    talk = DIALOGUE[0]
    for size, status in ((0, 0), (1, 1), (talk.ends()[0], 0), (talk.ends()[2], 1), (talk.ends()[-2], 0)):
        with Plain() as plain:
            run.same(f"plain: {size} bytes", plain.hold_last(talk.sent()[:size]), (talk.said(size), status, b""))
    with Plain() as plain:
        run.same("plain: a long packet", plain.hold_last(bytes.fromhex("003d0901")), (model.refusal(3904), 1, b""))


def usage(run):
    """Words that ask for nothing that it does."""
    for words in (["talks"], [""], ["talk", "talk"], ["--help"]):
        done = subprocess.run([SD_PLAIN, *words], stdin=subprocess.DEVNULL, capture_output=True, text=True, timeout=WAIT)
        run.same(f"plain: {words}", (done.returncode, done.stdout, done.stderr.partition(":")[0], done.stderr.count("\n")),
                 (2, "", "usage", 1))


def plain(run):
    """The dialogue in two talks, and the rows but those that are left out; how the input ends; other words."""
    is_held(run, "plain: the dialogue", DIALOGUE)
    rows = {row.name for row in ROWS.iterdir()}
    run.same("plain: no row but those", sorted(LEFT_OUT.keys() - rows), [])
    for row in sorted(rows - LEFT_OUT.keys()):
        is_held(run, f"plain: {row}", talks_of(row))
    ends(run)
    usage(run)
