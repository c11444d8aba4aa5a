"""What a daemon tells of its connections and of what it refuses: who holds the places once all are taken; jobs that are
refused, by why; volumes that are labelled and adopted, and those that can't be; folders that aren't there at the start; and the
cause of a port that can't be had. Each is read in the log, and its count in the figures. tests/serve/run runs it.
"""
import collections
import contextlib
import random
import re
import socket
import subprocess
import time

from clients import client
from crowds import MOST_TALKS, Two, refused
from daemon import SDD, SOON, WAIT, drive, later_second, listed, until
from hardships import HELLO, Place
from metered import FILE, PERIOD, metered, refused as figure_of, samples_in

# How many of those who hold a place the log names.
NAMED = 5
HOLDER = re.compile(r"talk (\d+) of 127\.0\.0\.1:(\d+) for (\d+) s with (\d+) bytes(?: in session (\d+))?")
HOLDING = "sdd_holding_talk_seconds"
ALL_TAKEN = f"all {MOST_TALKS} connections are taken; the oldest: "
# What is drawn of an operator's lines on volumes, and how often.
LINES, SEED = 300, 74
# The log has no path that is longer, in bytes.
LONGEST_PATH = 600


def written(place, holds):
    """The figures of a place, once they are so, or after a period."""
    def now():
        with contextlib.suppress(FileNotFoundError):
            samples = samples_in((place.folder / FILE).read_text())
            return samples if holds(samples) else None

    return until(now, PERIOD + SOON) or samples_in((place.folder / FILE).read_text())


def holders(checks, daemon):
    """Who is named by the last line that tells that all connections are taken."""
    lines = until(lambda: [line for line in daemon.log() if line.startswith(ALL_TAKEN)], SOON)
    checks.check("it is told", lines, daemon.log()[-3:])
    if not lines:
        return []
    parts = lines[-1].removeprefix(ALL_TAKEN).split(", ")
    found = [HOLDER.fullmatch(part) for part in parts]
    checks.check("its form", all(found), lines[-1])
    return [tuple(int(number) if number else None for number in one.groups()) for one in found if one]


def all_taken(checks, folder, _):
    """All connections are taken, some by talks with a session: log and figures tell who holds them, oldest first, each with its
    client's port, its session and the bytes that moved. The log tells it once, though more come and one goes."""
    place = Place(folder / "all_taken")
    with metered(place) as daemon, contextlib.ExitStack() as stack:
        begun = time.monotonic()
        place.label(checks)
        talks = [stack.enter_context(place.talk()) for _ in range(2)]
        tickets = [client.open_session(talk, 7, "Default", "File") for talk in talks]
        client.append_packets(talks[1], tickets[1], HELLO)
        # The third one closes its session again.
        talks.append(stack.enter_context(place.talk()))
        ticket = client.open_session(talks[2], 7, "Default", "File")
        client.append_packets(talks[2], ticket, HELLO)
        client.close_session(talks[2], ticket)
        checks.check("none is told yet", not any(line.startswith("all ") for line in daemon.log()))
        talks += [stack.enter_context(place.talk()) for _ in range(MOST_TALKS - 3)]
        named = holders(checks, daemon)
        # The label's talk was the first one.
        checks.same("their talks", [one[0] for one in named], list(range(2, 2 + NAMED)))
        checks.same("their ports", [one[1] for one in named], [talk.socket.getsockname()[1] for talk in talks[:NAMED]])
        checks.same("their sessions", [one[4] for one in named], [*tickets, None, None, None])
        checks.check("their ages", all(0 <= one[2] <= time.monotonic() - begun + 1 for one in named), named)
        asked = len(client.text_packet("append open session JobId=7 Pool=Default Media=File"))
        answered = len(client.packet(b"3000 OK open ticket = 1\n"))
        checks.same("the bytes of the first", named[0][3], asked + answered)
        checks.check("those of the others", named[1][3] > named[0][3] and [one[3] for one in named[3:]] == [0, 0], named)
        samples = written(place, lambda some: some["sdd_talks"] == MOST_TALKS)
        figures = [samples[f"sdd_talks{end}"] for end in ("", "_bound", "_with_session", "_total")]
        checks.same("the figures", figures, [MOST_TALKS, MOST_TALKS, 2, MOST_TALKS + 1])
        age = samples["sdd_oldest_talk_seconds"]
        checks.check("the age of the oldest", 0 <= age <= time.monotonic() - begun + 1, age)
        holding = {name: age for name, age in samples.items() if name.startswith(HOLDING)}
        checks.same("who holds them", list(holding), [f'{HOLDING}{{talk="{one[0]}",client="127.0.0.1:{one[1]}"}}' for one in named])
        checks.check("for how long", all(0 <= age <= time.monotonic() - begun + 1 for age in holding.values()), holding)
        with place.talk() as more:
            more.send(client.text_packet("console requests"))
            talks[-1].terminate()
            checks.same("one more is served", list(more.lines()), ["ok requests 0"])
        time.sleep(1.5)
        checks.same("told once", sum(line.startswith("all ") for line in daemon.log()), 1)
        for talk in talks[:-1]:
            talk.terminate()
        samples = written(place, lambda some: some["sdd_talks"] == 0)
        checks.same("none is left", [samples[name] for name in ("sdd_talks", "sdd_talks_with_session", "sdd_oldest_talk_seconds")],
                    [0, 0, 0])
        checks.check("nobody is named", not any(name.startswith(HOLDING) for name in samples), samples)


def refused_jobs(checks, folder, _):
    """Jobs that are refused are in the log with job, pool and media, and counted by why: no drive of the media, no free lane, and
    a spool that can't be had; also of clients at once."""
    place = Two(folder / "refused_jobs", f'spool = 100000\nspool_folder = "{folder}/refused_jobs/spools"\n')
    with metered(place) as daemon:
        place.labels(checks)
        with place.talk() as one, place.talk() as other:
            checks.same("no such media", refused(client.open_session, one, 8, "Pool-1", "Disc"), "3910 No drive of this media")
            for talk in (one, other):
                checks.same("no spool", refused(client.open_session, talk, 9, "Default", "Tape"), "3920 Spool fault")
            (place.folder / "spools").mkdir()
            with contextlib.ExitStack() as stack:
                for _ in range(4):
                    talk = stack.enter_context(place.talk())
                    client.open_session(talk, 7, "Default", "File")
                for job in (10, 11, 12):
                    checks.same("no lane", refused(client.open_session, other, job, "Default", "File"), "3911 No free lane")
        wanted = [
            "talk 3: job 8 of pool Pool-1 and media Disc is refused: 3910 No drive of this media",
            *(f"talk {talk}: job 9 of pool Default and media Tape is refused: 3920 Spool fault" for talk in (3, 4)),
            *(f"talk 4: job {job} of pool Default and media File is refused: 3911 No free lane" for job in (10, 11, 12))]
        checks.same("the log", [line for line in daemon.log() if " is refused: " in line], wanted)
        counts = {figure_of("3910 No drive of this media"): 1, figure_of("3920 Spool fault"): 2, figure_of("3911 No free lane"): 3}
        samples = written(place, lambda some: counts.items() <= some.items())
        checks.same("the figures", {name: samples.get(name) for name in samples if name.startswith("sdd_refused_jobs_total")},
                    {**{figure_of(why): 0 for why in ("3909 No session number left", "3960 Want of memory")},
                     **counts})


def told(talk, line):
    """What an operator's line comes to."""
    try:
        talk.console(line)
    except client.Refused as why:
        return str(why)
    return "obeyed"


def named_volumes(checks, folder, _):
    """Drawn lines of an operator that label and adopt: each that is obeyed is in the log with volume and drive; each that is
    refused for the volume or the drive with the line; one that is no such line isn't. The figures count the same."""
    place, numbers, came = Two(folder / "named_volumes"), random.Random(SEED), collections.Counter()
    (place.volumes / "Foreign").write_bytes(b"nothing of a volume")
    wanted = []
    with metered(place) as daemon, place.talk() as talk:
        for _ in range(LINES):
            word, number = numbers.choice(("label", "adopt")), numbers.choice((1, 1, 2, 9, 0))
            volume = numbers.choice([f"Vol-{at:04}" for at in range(20)] + ["Foreign", "a/b", ""])
            line = f"{word} {number} {volume}" + f" Default {numbers.choice(('File', 'Tape'))}" * (word == "label")
            answer = told(talk, line)
            came[word, answer] += 1
            if answer == "obeyed":
                wanted.append(f"volume {volume} is {word}{'led' if word == 'label' else 'ed'} on drive {number}")
            elif not answer.startswith(("3901", "3937")):
                wanted.append(f"{line}: {answer}")
        until(lambda: sum(": " in line for line in daemon.log()) >= len(wanted), SOON)
        got = [line.removeprefix("talk 1: ") for line in daemon.log() if line.startswith("talk 1: ")]
        checks.same("the log", got, wanted)
        counted = {word: (came[word, "obeyed"], sum(count for (one, answer), count in came.items() if one == word and
                                                    not answer.startswith(("obeyed", "3901", "3937")))) for word in ("label", "adopt")}
        names = [("sdd_labels_total", "sdd_refused_labels_total"), ("sdd_adoptions_total", "sdd_refused_adoptions_total")]
        both = {name: count for pair, word in zip(names, counted) for name, count in zip(pair, counted[word])}
        samples = written(place, lambda some: both.items() <= some.items())
        checks.same("the figures", {name: samples[name] for name in both}, both)
    later_second()
    names = [name for name in listed(place.volumes) if name.startswith("Vol-")]
    with metered(place) as daemon, place.talk() as talk:
        adopted = [talk.console(f"adopt 1 {name}")[0].rsplit(" ", 2)[0] for name in names]
        checks.same("adopted", adopted, ["ok adopted"] * len(names))
        wanted = [f"talk 1: volume {name} is adopted on drive 1" for name in names]
        checks.same("the log of the adoptions", [line for line in daemon.log() if line.startswith("talk 1: ")], wanted)
        samples = written(place, lambda some: some["sdd_adoptions_total"] == len(names))
        checks.same("the adoptions", (samples["sdd_adoptions_total"], samples["sdd_labels_total"]), (len(names), 0))
    print("operator's lines:", ", ".join(f"{word} {answer} {count}" for (word, answer), count in sorted(came.items())))
    checks.check("what was drawn", names and len(came) >= 8 and min(came["label", "obeyed"], came["adopt", "3930 Volume not on the shelf"]) > 0,
                 came)


def missing_folders(checks, folder, _):
    """Folders of drives and of the spools that aren't there, or are none, are in the log once the daemon listens, and it serves
    the others; with a path that is too long for a line the length is told. Spools aren't looked for without spooling."""
    place = Place(folder / "missing_folders")
    (place.folder / "file").touch()
    long = str(place.folder / "/".join(20 * ["f" * 50]))
    folders = [place.volumes, place.folder / "none", place.folder / "file", place.folder / "file" / "none", long]
    for spool in (0, 100_000):
        text = f'port = {place.port}\nspool = {spool}\nspool_folder = "{place.folder}/nowhere"\n'
        place.conf.write_text(text + "".join(drive("File", one) for one in folders))
        with place.daemon() as daemon:
            gone = [f"drive 2: its folder {folders[1]} isn't there", f"drive 3: its folder {folders[2]} is no folder",
                    f"drive 4: its folder {folders[3]} isn't there",
                    f"drive 5: its folder (a path of {len(long)} bytes) isn't there"]
            gone += [f"the folder of the spools, {place.folder}/nowhere, isn't there"] * (spool > 0)
            until(lambda: len(daemon.log()) > len(gone), SOON)
            checks.same(f"the log with spool {spool}", daemon.log()[1:], gone)
            with place.talk() as talk:
                checks.same("it serves", talk.console("label 1 Vol-0001 Default File" if not spool else "requests")[-1],
                            "ok labelled" if not spool else "ok requests 0")
        later_second()
    checks.check("a long path", len(long) > LONGEST_PATH)
    (place.folder / "nowhere").mkdir()
    with place.daemon() as daemon:
        checks.same("the spools are there", [line for line in daemon.log() if "spools" in line], [])


def port_taken(checks, folder, _):
    """Of a port that can't be had the cause is on standard error, whether there is a log or not; standard output has its line
    alone."""
    place = Place(folder / "port_taken")
    with socket.socket() as taken:
        taken.bind(("127.0.0.1", place.port))
        taken.listen()
        for words in ([], ["--log"]):
            run = subprocess.run([SDD, "serve", place.conf, *words], capture_output=True, text=True, timeout=WAIT)
            checks.same(f"{words}", (run.stdout, run.stderr, run.returncode),
                        ("fault port\n", f"port {place.port} of 127.0.0.1: address in use\n", 1))


GROUPS = (all_taken, refused_jobs, named_volumes, missing_folders, port_taken)
