"""Scripts of `sdtool run` in which calls of devices fail. The program's answers are compared with those of the plain
model in tests/faults/script_model.py, and looked at by themselves.
"""
import collections
import concurrent.futures
import itertools
import random
import subprocess

from ample import never_wanting
from daemon import SDTOOL
from drive_model import CALLS, WAYS
from script_model import Settings, World

# Scripts without a fault. Another session is at work beside each drain. The last two go on in a second run, or purge a
# volume of two sessions and use it anew.
SCENARIOS = {
    "two volumes": (Settings(volume=2200), [
        "label 1 Vol-0001 Default File", "label 1 Vol-0002 Default File", "open 7 Default File", "fill 1 1 2 2000",
        "end 1", "drain", "close 1",
    ]),
    "interleaved": (Settings(), [
        "label 1 Vol-0001 Default File", "open 7 Default File", "fill 1 1 2 2000", "open 8 Default File",
        "fill 2 1 2 1500", "end 1", "end 2", "drain", "close 1", "close 2",
    ]),
    "spooled": (Settings(spool=2000), [
        "label 1 Vol-0001 Default File", "open 7 Default File", "fill 1 1 2 4000", "spool 1", "spool 1", "spool 1",
        "end 1", "drain", "close 1",
    ]),
    "step by step": (Settings(volume=2200, queue=1), [
        "label 1 Vol-0001 Default File", "label 1 Vol-0002 Default File", "mount 1 Vol-0001", "open 7 Default File",
        "fill 1 1 2 1800", "rec 1 2 2 hello", "despool 1", "take 1", "place 1", "despool 1", "sync 1", "rec 1 2 2 hello",
        "rec 1 4 2 hello", "end 1", "despool 1", "take 1", "place 1", "unmount 1", "drain", "close 1", "jobmedia 1",
        "requests",
    ]),
    "two runs": (Settings(), [
        "label 1 Vol-0001 Default File", "open 7 Default File", "rec 1 1 2 hello", "fill 1 2 3 1500", "end 1", "drain",
        "close 1", "restart 1500 1 Vol-0001 500", "adopt 1 Vol-0001", "adopt 1 Vol-0001", "again 1000 1",
        "open 8 Default File", "rec 1 1 2 abc", "end 1", "drain", "close 1",
    ]),
    "purged": (Settings(volume=2200), [
        "label 1 Vol-0001 Default File", "label 1 Vol-0002 Default File", "open 7 Default File", "open 8 Default File",
        "open 9 Default File", "fill 1 1 2 2000", "end 1", "drain", "close 1", "rec 2 1 2 hello", "end 2", "drain",
        "close 2", "unmount 1", "purge 1 Vol-0001", "purge 1 Vol-0001", "jobmedia 1", "close 1", "read 2", "rec 3 1 2 abc",
        "end 3", "drain", "close 3",
    ]),
}
# The volumes of the scenarios, and what they are closed by.
VOLUMES = ("Vol-0001", "Vol-0002")
LATER = 2000
# The refusals that a fault may bring to each line, besides those that come without one.
ALLOWED = {
    "label": {3935, 3939, 3940}, "adopt": {3930, 3931, 3935, 3940}, "mount": {3930, 3940}, "unmount": {3940},
    "sync": {3940}, "close": {3905, 3907}, "read": {3905, 3907, 3940, 3950}, "again": {3902, 3930, 3940},
    "restart": {3930, 3939, 3940}, "fill": {3905}, "rec": {3905}, "end": {3905}, "cancel": {3905}, "spool": {3905},
    "despool": {3905},
}
# The refusals that a fault may bring to each line, besides those that come without one, if a volume is purged. Then a
# session whose volume it was may be gone, also if the purge met the fault.
ALLOWED_PURGED = {**ALLOWED, "purge": {3930, 3933, 3940, 3954}, "close": {3902, 3905, 3907}, "end": {3902, 3905},
                  "cancel": {3902, 3905}, "read": {3905, 3907, 3940, 3950, 3953},
                  "again": {3902, 3930, 3940, 3950, 3951, 3952, 3953}}
# Of the kinds of answers to the lines of a word, how many there must be in all if a call fails.
PLAN_FLOORS = {
    "label: 3940": 50, "mount: 3940": 2, "unmount: 3940": 1, "sync: 3940": 2, "adopt: 3940": 50, "adopt: 3930": 5,
    "adopt: 3931": 10, "read: 3940": 20, "again: 3940": 20, "restart: 3940": 5, "close: 3905": 10, "close: 3907": 20,
    "end: 3905": 10, "cancel: 3905": 10, "read: 3905": 20, "place: ok volume error": 3, "read: ok read ended": 1000,
    "again: ok read ended": 1000, "end: ok ended": 1000, "cancel: ok cancelled": 500, "purge: ok purged": 100,
    "purge: 3940": 9, "purge: 3954": 100, "purge: 3930": 10, "purge: 3933": 20, "read: 3953": 200, "again: 3952": 400,
}
# And how many if a purge is stopped.
STOP_FLOORS = {
    "purge: 3940": 100, "purge: ok purged": 1200, "purge: 3930": 200, "purge: 3933": 300, "purge: 3954": 500,
    "adopt: 3940": 150, "adopt: ok adopted": 2000, "again: 3950": 2000, "again: 3952": 2000, "again: 3953": 1200,
    "again: ok read ended": 8000, "restart: 3940": 60, "restart: ok restarted": 1000,
}
# What an end and a cancel answer to a session of each status.
STEADY = {
    "end": {"active": "ok ended", "ended": "3902 Session not open", "closed": "3902 Session not open",
            "cancelled": "3906 Session cancelled", "failed": "3905 Session failed", "purged": "3902 Session not open"},
    "cancel": {"active": "ok cancelled", "ended": "ok cancelled", "closed": "3902 Session not open",
               "cancelled": "3906 Session cancelled", "failed": "3905 Session failed", "purged": "3902 Session not open"},
}


def run(settings, lines):
    """What a script prints."""
    text = "\n".join([*settings.lines(), *lines, ""])
    done = subprocess.run([SDTOOL, "run"], input=text.encode(), capture_output=True, timeout=60)
    if done.returncode or done.stderr:
        return [f"status {done.returncode}: {done.stderr!r}"]
    return never_wanting(done.stdout.decode()).splitlines()


def length(word, printed):
    """How many of the printed lines answer a line of that word."""
    if word in ("status", "requests", "read", "again"):
        last = {"status": ("ok ", "39"), "requests": ("ok ", "39")}.get(word, ("ok read", "39"))
        return next((at + 1 for at, line in enumerate(printed) if line.startswith(last)), len(printed))
    if word == "close" and printed and printed[0].startswith("ok closed "):
        return 2 + int(printed[0].split()[2])
    if word == "jobmedia" and printed and printed[0].startswith("session "):
        return 1 + len(list(itertools.takewhile(lambda line: line.startswith("span "), printed[1:])))
    return 1


def answers(lines, printed):
    """The printed lines of each line of a script."""
    at = 0
    for line in lines:
        count = length(line.split(" ")[0], printed[at:])
        yield printed[at:at + count]
        at += count
    if at < len(printed):
        yield printed[at:]


def played(settings, lines):
    """What the program answers to each line, and what the model does; and the model's world then."""
    world = World(settings)
    wanted = [world.answer(line) for line in lines]
    return list(answers(lines, run(settings, lines))), wanted, world


def differing(name, lines, got, wanted):
    """The first answer that is another."""
    for line, one, other in itertools.zip_longest(lines, got, wanted):
        if one != other:
            yield f"{name}, {line!r}: {one!r} in place of {other!r}"
            return


def each(act, cases):
    """What an act gives for each case, several at a time. An act that breaks off is told."""
    def found(case):
        try:
            return list(act(*case))
        except Exception as why:
            return [f"{act.__name__} of {case[-2:]}: {why!r}"]

    with concurrent.futures.ThreadPoolExecutor(4) as pool:
        for faults in pool.map(found, cases):
            yield from faults


def beside(lines):
    """Beside each drain another session takes two records; then it is ended and cancelled."""
    opened = 0
    for line in lines:
        opened = 0 if line.startswith("restart") else opened + line.startswith("open")
        if line != "drain":
            yield line
            continue
        opened += 1
        yield from ["open 9 Default File", f"rec {opened} 1 2 a", "drain", f"rec {opened} 2 2 b", f"end {opened}",
                    f"cancel {opened}"]


def left(lines):
    """After a run each session is read twice, ended and cancelled."""
    opened = 0
    for line in [*lines, "restart"]:
        if line.startswith("restart"):
            for ticket in range(1, opened + 1):
                yield from [f"read {ticket}", f"read {ticket}", f"end {ticket}", f"cancel {ticket}"]
        opened = 0 if line.startswith("restart") else opened + line.startswith("open")
        if line != "restart":
            yield line


def later(lines):
    """In a later run the volumes are adopted, at a second time if the first fails, and each session is read twice."""
    yield f"restart {LATER}"
    for volume in VOLUMES:
        yield from 2 * [f"adopt 1 {volume}"]
    for time, ticket in sorted(keys(lines)):
        yield from 2 * [f"again {time} {ticket}"]
    yield from ["open 7 Default File", "rec 1 1 2 later", "end 1", "drain", "status"]


def keys(lines):
    """The time and ticket of each session that the script closes."""
    time = 1000
    for line in lines:
        word, *rest = line.split(" ")
        time = int(rest[0]) if word == "restart" else time
        if word == "close":
            yield time, int(rest[0])


def watched(lines):
    """The status is shown before each line that is answered by a session's own parts, and before each reading."""
    for line in lines:
        if line.split(" ")[0] in ("rec", "fill", "end", "cancel", "read"):
            yield "status"
        yield line


def whole(lines):
    return list(watched([*left(beside(lines)), *later(list(beside(lines)))]))


def status_of(ticket, shown):
    """A session's status in what `status` printed, or None."""
    for line in shown:
        if line.startswith(f"session {ticket} "):
            return line.split(" ")[2]
    return None


def unsteady(lines, got, without):
    """A session that is open answers as without the fault."""
    for at, (line, answer, plain) in enumerate(zip(lines, got, without)):
        word, *rest = line.split(" ")
        if word not in ("rec", "fill", "end", "cancel"):
            continue
        status = status_of(rest[0], got[at - 1])
        wanted = STEADY[word].get(status) if word in STEADY else plain[0]
        if status not in (None, "failed") and answer != [wanted]:
            yield f"{line!r} of a session that is {status}: {answer} in place of {wanted!r}"


def not_allowed(lines, got, without):
    """A refusal is one that the line may have."""
    allowed = ALLOWED_PURGED if any(line.startswith("purge") for line in lines) else ALLOWED
    for line, answer, plain in zip(lines, got, without):
        number = int(answer[-1].split(" ")[0]) if answer[-1:] and answer[-1].startswith("39") else 0
        if number and answer != plain and number not in allowed.get(line.split(" ")[0], ()):
            yield f"{line!r}: {answer[-1]}"


def taken(lines, got):
    """The lines that each session is read to, by its time and ticket: the records that were answered so."""
    time, records = 1000, collections.defaultdict(list)
    for line, answer in zip(lines, got):
        word, *rest = line.split(" ", 4)
        time = int(rest[0]) if word == "restart" else time
        if word in ("rec", "fill") and answer[0].startswith("ok taken"):
            data = b"x" * int(rest[3]) if word == "fill" else rest[3].encode()
            records[time, int(rest[0])].append((rest[1], rest[2], data))
    return {key: [f"rec {index} {stream} {len(data)} {data[:16].hex() or '-'}" for index, stream, data in one]
            + [f"ok read {len(one)} {sum(len(data) for *_, data in one)} ended"] for key, one in records.items()}


def is_purging(answer):
    """Whether a purge took the blocks of its volume away."""
    return answer in (["ok purged"], ["3940 Device fault"])


def not_read(lines, got):
    """What was closed reads whole, at another time if one reading met the fault; also after the restart. What was
    purged isn't read in that run, and in another one never as something else."""
    time, closed, wanted = 1000, {}, taken(lines, got)
    # The time of the run in which each session was purged.
    tries, gone = {}, {}
    for line, answer in zip(lines, got):
        word, *rest = line.split(" ")
        time = int(rest[0]) if word == "restart" else time
        if word == "close" and answer[0].startswith("ok closed"):
            closed[time, int(rest[0])] = {span.split(" ")[1] for span in answer[2:]}
        if word == "purge" and is_purging(answer):
            gone.update((key, time) for key, volumes in closed.items() if rest[1] in volumes)
        key = (int(rest[0]), int(rest[1])) if word == "again" else (time, int(rest[0])) if word == "read" else None
        if key in gone:
            yield from unlike_purged(line, answer, wanted[key], gone[key] == time)
        elif key in closed:
            tries.setdefault((word, key), []).append(answer)
    for (word, key), readings in tries.items():
        met = [one for one in readings if one != wanted[key]]
        fronts = all(one[-1] == "3940 Device fault" and one[:-1] == wanted[key][:len(one) - 1] for one in met)
        if len(met) > 1 or not fronts:
            yield f"{word} of {key}: {readings} in place of {wanted[key]}"


def unlike_purged(line, answer, whole, is_this_run):
    """A session that was purged in this run is read no more. In another run it is read as it was, as far as it is there."""
    front = not answer[-1].endswith(" ended") and answer[:-1] == whole[:len(answer) - 1]
    if answer != ["3953 Volume purged"] if is_this_run else answer != whole and not front:
        yield f"{line!r} of what was purged: {answer}, and it was {whole}"


def kind(line, answer):
    """The word of a line, and what its answer says, without numbers and names: that of a reading with its last line, any
    other with its first."""
    word = line.split(" ")[0]
    said = answer[-1 if word in ("read", "again") else 0]
    if said.startswith("39"):
        return f"{word}: {said[:4]}"
    return f"{word}: " + " ".join(one for one in said.split(" ") if one.isalpha() and one.islower())


def lacking(counts, floors):
    for answer, least in floors.items():
        if counts[answer] < least:
            yield f"{answer}: only {counts[answer]} times, {least} are wanted"


def plans_of(settings, lines):
    """Each call that the script makes without a fault, failing in each way; and of each kind one call more."""
    _, _, world = played(settings, lines)
    for drive, device in enumerate(world.devices, 1):
        for call, way in itertools.product(CALLS, WAYS):
            for nth in range(1, device.calls[call] + 2):
                yield (drive, call, nth, way), nth > device.calls[call]


def plans():
    """Scripts with each call of the device failing in each way: what each line answers, that sessions which are open
    answer as without the fault, which refusals come, and that what was closed is read, also in a later run."""
    seen = []
    for name, (settings, plain) in SCENARIOS.items():
        lines = whole(plain)
        without, wanted, _ = played(settings, lines)
        yield from differing(name, lines, without, wanted)
        yield from each(failing, [(name, settings, lines, without, *plan, seen) for plan in plans_of(settings, lines)])
    yield from lacking(collections.Counter(itertools.chain.from_iterable(seen)), PLAN_FLOORS)


def failing(name, settings, lines, without, plan, unmet, seen):
    got, wanted, _ = played(settings.failing(plan), lines)
    seen.append(list(map(kind, lines, got)))
    about = f"{name}, {' '.join(map(str, plan))}"
    yield from differing(about, lines, got, wanted)
    if unmet and got != without:
        yield f"{about}: otherwise than without the fault, which no call meets"
    for fault in itertools.chain(unsteady(lines, got, without), not_allowed(lines, got, without), not_read(lines, got)):
        yield f"{about}: {fault}"


# One drive with volumes of two pools, over three runs.
HISTORY = """
label 1 Vol-0001 Default Tape
label 1 Vol-0001 Default File
label 1 Vol-0001 Default File
label 1 Vol-0002 Default File
label 1 Vol-0003 Other File
place 1
mount 1 Vol-0003
unmount 1
open 7 Default File
rec 1 1 2 hello
rec 1 2 2 world
end 1
despool 1
take 1
take 1
place 1
mount 1 Vol-0009
mount 1 Vol-0003
mount 1 Vol-0001
mount 1 Vol-0001
label 1 Vol-0004 Default File
adopt 1 Vol-0004
place 1
place 1
jobmedia 1
close 1
sync 1
sync 1
close 1
open 8 Default File
fill 2 1 2 2000
despool 2
take 1
place 1
despool 2
take 1
place 1
place 1
seek 1
end 2
despool 2
take 1
place 1
status
mount 1 Vol-0001
seek 1
seek 1
place 1
unmount 1
close 2
jobmedia 1
jobmedia 2
read 1
read 2
open 9 Other File
rec 3 1 1 other
end 3
drain
close 3
requests
unmount 1
adopt 1 Vol-0002
adopt 1 Vol-0009
status
restart 1000 1 Vol-0009 10
restart 1000 1 Vol-0001 700
adopt 1 Vol-0001
restart 1500 1 Vol-0001 30
label 1 Vol-0001 Default File
adopt 1 Vol-0001
adopt 1 Vol-0001
label 1 Vol-0002 Other File
adopt 1 Vol-0002
adopt 1 Vol-0003
again 1000 1
again 1000 2
again 1000 3
status
mount 1 Vol-0001
mount 1 Vol-0003
open 7 Other File
rec 1 1 2 late
end 1
drain
close 1
open 8 Default File
fill 2 1 2 900
end 2
drain
close 2
read 2
status
restart 2000
adopt 1 Vol-0001
adopt 1 Vol-0002
adopt 1 Vol-0003
again 1500 1
again 1500 2
again 1000 2
status
""".split("\n")[1:-1]
# A volume that is labelled, written, left with bytes after its blocks and adopted.
LEFT_OVER = """
label 1 Vol-0001 Default File
open 7 Default File
fill 1 1 2 700
end 1
drain
close 1
restart 1100 1 Vol-0001 30
adopt 1 Vol-0001
restart 1200 1 Vol-0001 5
restart 1300 1 Vol-0001 1500
restart 1300 1 Vol-0001 1501
restart 1300 1 Vol-0001 300
adopt 1 Vol-0001
adopt 1 Vol-0001
again 1000 1
open 8 Default File
fill 1 1 2 500
end 1
drain
close 1
status
label 1 Vol-0001 Default File
unmount 1
label 1 Vol-0001 Default File
label 1 Vol-0002 Default File
drain
close 1
status
""".split("\n")[1:-1]
# Volumes that are purged in one run after another: one that was filled there, one that was adopted, and that once more;
# beside them what may not be purged.
PURGES = """
label 1 Vol-0001 Default File
label 1 Vol-0002 Default File
label 1 Vol-0003 Other File
open 7 Default File
fill 1 1 2 1850
end 1
drain
purge 1 Vol-0001
close 1
open 8 Default File
fill 2 1 2 1900
fill 2 1 2 100
despool 2
take 1
place 1
cancel 2
purge 1 Vol-0001
unmount 1
purge 1 Vol-0001
purge 1 Vol-0002
status
close 1
read 1
jobmedia 1
seek 1
place 1
sync 1
status
open 9 Default File
fill 3 1 2 700
end 3
drain
close 3
read 2
read 3
unmount 1
purge 1 Vol-0001
purge 1 Vol-0003
status
restart 1000 1 Vol-0001 700
adopt 1 Vol-0001
restart 1500 1 Vol-0001 30
adopt 1 Vol-0001
adopt 1 Vol-0001
adopt 1 Vol-0002
again 1000 1
again 1000 3
open 7 Default File
fill 1 1 2 1000
end 1
drain
close 1
open 8 Default File
fill 2 1 2 1500
end 2
drain
close 2
unmount 1
status
purge 1 Vol-0001
purge 1 Vol-0001
again 1000 1
again 1000 3
again 1500 1
read 2
mount 1 Vol-0001
open 9 Default File
fill 3 1 2 800
end 3
drain
close 3
status
restart 1800
adopt 1 Vol-0001
adopt 1 Vol-0002
again 1000 1
again 1000 3
again 1500 1
again 1500 2
again 1500 3
status
""".split("\n")[1:-1]
# The histories, with a volume's limit that the third block of the first one just meets, and one below that; and with
# little room on the device.
HISTORIES = {
    "history": (Settings(volume=2314, capacity=4096), HISTORY),
    "less history": (Settings(volume=2313, capacity=4096), HISTORY),
    "left over": (Settings(capacity=1500, volume=2048), LEFT_OVER),
    "purges": (Settings(capacity=4096, volume=2130), PURGES),
}


def measured(settings, lines):
    """After the lines each volume is filled to its last byte, by a stop that leaves so many zero bytes; so its length
    is seen. One byte more finds no room."""
    world = World(settings)
    for line in lines:
        world.answer(line)
    time = LATER
    for name, volume in list(world.devices[0].volumes.items()):
        for more in (1, 0):
            time += 100
            yield f"restart {time} 1 {name} {settings.capacity - len(volume) + more}"


def histories():
    """Histories of a drive, for which the model tells every answer and how long each volume is then, also with each call
    failing in each way."""
    for name, (settings, lines) in HISTORIES.items():
        yield from each(beside_model, [(name, settings.failing(plan), lines) for plan, _ in plans_of(settings, lines)])


def beside_model(name, settings, lines):
    lines = [*lines, *measured(settings, lines)]
    got, wanted, _ = played(settings, lines)
    yield from differing(f"{name}, {settings.plan}", lines, got, wanted)


# Two sessions on two volumes, of which one is purged and used anew, and one that begins after that.
STOPPED = """
label 1 Vol-0001 Default File
label 1 Vol-0002 Default File
open 7 Default File
fill 1 1 2 1850
end 1
drain
close 1
open 8 Default File
fill 2 1 2 900
end 2
drain
close 2
unmount 1
purge 1 Vol-0001
""".split("\n")[1:-1]
# What the run goes on with after the purge: nothing, another session, or one that fills the volume as the first did.
BEHIND = ([], ["open 9 Default File", "rec 3 1 2 abc", "end 3", "drain", "close 3"],
          ["open 9 Default File", "fill 3 1 2 1850", "end 3", "drain", "close 3"])
# Bytes that a stop leaves on a volume: fewer than a block may have, just below that, and more.
TAILS = (1, 35, 500)


def purge_stops():
    """A purge that is stopped: each call of the run fails in each way, and the run ends there, with a tail on either volume.
    A later run adopts both, at a second time if the first met the fault, and reads: the session of the other volume
    whole, and what was purged never as something else. Then it goes on."""
    settings, seen = Settings(volume=2130), []
    cases = []
    for behind in BEHIND:
        for plan, _ in plans_of(settings, [*STOPPED, *behind]):
            for volume, tail in [(None, 0), *itertools.product(VOLUMES, TAILS)]:
                left_there = f" 1 {volume} {tail}" if volume else ""
                lines = [*STOPPED, *behind, f"restart {LATER}{left_there}"]
                for _ in range(2):
                    lines += [f"adopt 1 {name}" for name in VOLUMES]
                reading = [f"again 1000 {ticket}" for ticket in range(1, 4) for _ in range(2)]
                lines += [*reading, "status", "open 7 Default File", "fill 1 1 2 1850", "end 1", "drain", "close 1", "read 1",
                          "read 1", *reading, "unmount 1", "purge 1 Vol-0001", *reading, "status"]
                cases.append((settings.failing(plan), lines, seen))
    yield from each(stopped_purge, cases)
    yield from lacking(collections.Counter(itertools.chain.from_iterable(seen)), STOP_FLOORS)


def stopped_purge(settings, lines, seen):
    got, wanted, _ = played(settings, lines)
    seen.append(list(map(kind, lines, got)))
    yield from differing(f"a stop, {settings.plan}", lines, got, wanted)
    for fault in not_read(lines, got):
        yield f"a stop, {settings.plan}: {fault}"


def several_faults():
    """Histories and scenarios beside the model, with several calls that fail, drawn from a seed."""
    numbers = random.Random(11)
    cases = []
    for name, (settings, lines) in {**HISTORIES, **SCENARIOS}.items():
        for _ in range(25):
            plan = [(1, numbers.choice(CALLS), numbers.randint(1, 12), numbers.choice(WAYS)) for _ in range(6)]
            cases.append((name, settings.failing(*plan), lines))
    yield from each(beside_model, cases)


def many_bodies():
    """A session of ten thousand bodies before a queue for one, through a spool that fills several times and without."""
    for spool in (0, 4_000_000):
        settings = Settings(spool=spool, queue=1, capacity=2**26)
        lines = ["label 1 Vol-0001 Default File", "open 7 Default File"]
        for index in range(1, 11):
            lines += [f"fill 1 {index} 2 998000", "drain"]
        lines += ["end 1", "drain", "close 1", "read 1", "status"]
        got, wanted, _ = played(settings, lines)
        yield from differing(f"spool {spool}", lines, got, wanted)
        placed = sum(int(answer[0].split()[2]) for answer in got if answer[0].startswith("ok drained"))
        if placed != 10_102 or got[-2][-1] != "ok read 10 9980000 ended":
            yield f"spool {spool}: {placed} blocks, {got[-2][-1]}"
