"""Scripts that are drawn from a seed, line by line, by the state that the model of tests/faults/script_model.py has
then: sessions step by step, the choice of drives, lanes and volumes, and volumes that are purged. The program's answers
are compared with the model's.
"""
import collections
import random
import string

from drive_model import CALLS, HEADER, RECORD_HEADER, WAYS
from scripts import answers, differing, each, is_purging, kind, lacking, run, taken
from script_model import Settings, World

MEDIA, POOLS = ("File", "Tape"), ("Default", "Other")
NAMES = [f"Vol-000{number}" for number in range(1, 9)]
OPEN_STATUS = ("active", "ended")


def drawn_ticket(numbers, world):
    """Mostly one of the last sessions that go on; or any, or one that isn't there."""
    going = [session.ticket for session in world.sessions if session.status in OPEN_STATUS]
    if going and numbers.random() < 0.9:
        return numbers.choice(going[-4:])
    return numbers.randint(1, len(world.sessions) + 1)


def drawn_drive(numbers, world):
    return numbers.randint(1, min(8, len(world.drives) + (numbers.random() < 0.05)))


def drawn_volume(numbers, world):
    """Mostly a name that is known."""
    return numbers.choice(list(world.names)) if world.names and numbers.random() < 0.8 else numbers.choice(NAMES)


def drawn_record(numbers, world):
    """A record whose index mostly follows, and whose size often ends near the end of a body."""
    ticket = drawn_ticket(numbers, world)
    session = world.sessions[ticket - 1] if ticket <= len(world.sessions) else None
    last = session.records[-1][0] if session and session.records else 0
    index = max(1, last + numbers.choice((0, 1, 1, 1, 1, 2)))
    most = session.most if session else 1000
    free = most - len(session.open.bytes) - RECORD_HEADER if session else 0
    size = numbers.choice((0, 300, free, free + 1, free - 73, free + numbers.randint(-13, 13), 2 * most, 4 * most,
                           6 * most, numbers.randint(0, 5 * most)))
    if numbers.random() < 0.3:
        text = "".join(numbers.choices(string.ascii_letters + "  -", k=numbers.randint(0, 40)))
        return f"rec {ticket} {index} {numbers.choice((1, 2, 2147483647))} {text}"
    return f"fill {ticket} {index} {numbers.randint(1, 9)} {max(0, size)}"


def drawn_label(numbers, world):
    number = drawn_drive(numbers, world)
    media = world.drives[number - 1].media if number <= len(world.drives) else "File"
    media = media if numbers.random() < 0.95 else numbers.choice(MEDIA)
    return f"label {number} {numbers.choice(NAMES)} {numbers.choice(POOLS)} {media}"


def drawn_place(numbers, world):
    """Mostly a volume is sought first if one is needed."""
    number = drawn_drive(numbers, world)
    drive = world.drives[number - 1] if number <= len(world.drives) else None
    needs = drive and drive.hand and not drive.takes_pool()
    return f"{'seek' if needs and numbers.random() < 0.7 else 'place'} {number}"


def drawn_adopt(numbers, world):
    """Mostly a volume that is on the drive's shelf."""
    number = drawn_drive(numbers, world)
    shelf = list(world.devices[number - 1].volumes) if number <= len(world.devices) else []
    return f"adopt {number} {numbers.choice(shelf if shelf and numbers.random() < 0.8 else NAMES)}"


def drawn_purge(numbers, world):
    """Mostly of a volume that is full; and mostly what stands in the way of that is done away with first."""
    full = [(number, volume.name) for number, drive in enumerate(world.drives, 1) if drive.online
            for volume in drive.volumes if volume.status == "full"]
    if not full or numbers.random() < 0.1:
        return f"purge {drawn_drive(numbers, world)} {drawn_volume(numbers, world)}"
    number, name = numbers.choice(full)
    drive = world.drives[number - 1]
    keeping = world.keeping(drive, name)
    if keeping and numbers.random() < 0.6:
        return freeing(numbers, world.sessions[numbers.choice(keeping) - 1], number, drive)
    return f"unmount {number}" if drive.loaded and numbers.random() < 0.6 else f"purge {number} {name}"


def freeing(numbers, session, number, drive):
    """What brings a session on so that it keeps its lane no more."""
    if session.status == "active":
        return f"{numbers.choice(('cancel', 'end', 'end'))} {session.ticket}"
    if drive.hand and not drive.takes_pool() and not drive.next_volume():
        return f"label {number} {numbers.choice(NAMES)} {drive.pool} {drive.media}"
    return numbers.choice(("drain", f"close {session.ticket}" if session.status == "ended" else "drain"))


def drawn_if_full(numbers, world):
    """A purge for which there is mostly something to purge; else what brings a session on, and so fills a volume."""
    is_full = any(volume.status == "full" for drive in world.drives for volume in drive.volumes if drive.online)
    return (drawn_purge if is_full or numbers.random() < 0.05 else drawn_onward)(numbers, world)


def drawn_onward(numbers, world):
    """What brings a session to its close: it is opened, takes one or two records, ends, is placed and closed."""
    going = [session for session in world.sessions if session.status in OPEN_STATUS]
    if not going or len(going) < 3 and numbers.random() < 0.1:
        drive = numbers.choice(world.drives)
        job, pool = numbers.randint(1, 99), drive.pool if drive.pool and numbers.random() < 0.95 else "Default"
        return f"open {job} {pool} {drive.media}"
    session = numbers.choice(going)
    drive, ticket = session.drive, session.ticket
    if session.waiting or session.ready or drive.queue or drive.hand:
        return "drain" if drive.takes_pool() or drive.next_volume() else drawn_room(numbers, world, drive)
    if session.status == "active":
        is_over = session.records and numbers.random() < 0.6
        return f"end {ticket}" if is_over else f"fill {ticket} {len(session.records) + 1} 2 {numbers.randint(0, 2500)}"
    return f"close {ticket}"


def drawn_room(numbers, world, drive):
    """What gives a drive a volume for its pool: one of its shelf, a new one, or one that is full."""
    number = world.drives.index(drive) + 1
    if drive.loaded:
        return f"unmount {number}"
    if volumes := unclaimed(world, number):
        return f"adopt {number} {numbers.choice(volumes)}"
    names = [name for name in NAMES if name not in world.names]
    full = [volume.name for volume in drive.volumes if volume.status == "full"]
    if full and (not names or numbers.random() < 0.6):
        return f"purge {number} {numbers.choice(full)}"
    return f"label {number} {numbers.choice(names or NAMES)} {drive.pool} {drive.media}"


def unclaimed(world, number):
    """The volumes on a drive's shelf of which the run doesn't know yet."""
    return [name for name in world.devices[number - 1].volumes if name not in world.names]


def drawn_takeover(numbers, world):
    """An adoption for which there is mostly something to adopt."""
    number = numbers.randint(1, len(world.drives))
    volumes = unclaimed(world, number)
    if world.drives[number - 1].loaded and volumes:
        return f"unmount {number}"
    return f"adopt {number} {numbers.choice(volumes)}" if volumes else drawn_onward(numbers, world)


def drawn_printed(numbers, world):
    time, ticket = numbers.choice([*world.printed, (world.time, 1)])
    return f"again {time} {ticket}"


def drawn_restart(numbers, world):
    tail = f" {drawn_drive(numbers, world)} {drawn_volume(numbers, world)} {numbers.choice((0, 5, 30, 900))}"
    return f"restart {world.time + numbers.choice((0, 100, 100))}" + numbers.choice(("", tail, tail))


def of_ticket(word):
    return lambda numbers, world: f"{word} {drawn_ticket(numbers, world)}"


def of_any(word):
    """Of any session, whatever became of it."""
    rest = " 1 2 9" if word == "fill" else ""
    return lambda numbers, world: f"{word} {numbers.randint(1, max(1, len(world.sessions)))}{rest}"


def of_drive(word):
    return lambda numbers, world: f"{word} {drawn_drive(numbers, world)}"


def of_volume(word):
    return lambda numbers, world: f"{word} {drawn_drive(numbers, world)} {drawn_volume(numbers, world)}"


def just(line):
    return lambda numbers, world: line


def drawn_open(numbers, world):
    return f"open {numbers.randint(1, 99)} {numbers.choice(POOLS)} {numbers.choice(MEDIA[:1] + MEDIA)}"


# How often which lines are drawn.
STEPS = [
    (0.6, just("open 7 Default File")), (6, drawn_record), (7, of_ticket("spool")), (12, of_ticket("despool")),
    (6, of_drive("take")), (6, drawn_place), (1, of_drive("sync")), (0.6, of_ticket("end")), (0.1, of_ticket("cancel")),
    (0.7, of_ticket("close")), (0.5, of_ticket("jobmedia")), (0.5, of_ticket("read")), (0.5, of_drive("seek")),
    (0.2, of_drive("unmount")), (0.2, just("drain")), (0.4, just("status")), (0.3, just("requests")), (0.5, drawn_purge),
]
CHOICES = [
    (2, drawn_label), (9, drawn_open), (3, drawn_record), (4, of_ticket("end")), (3, of_ticket("cancel")),
    (3, of_ticket("close")), (3, just("drain")), (3, of_ticket("despool")), (3, of_drive("take")), (4, drawn_place),
    (1, of_drive("sync")), (4, of_volume("mount")), (3, of_drive("unmount")), (2, of_drive("seek")),
    (0.8, of_drive("retire")), (1, just("requests")), (1.5, just("status")), (0.5, drawn_restart), (3, drawn_adopt),
    (1, of_ticket("read")), (1, of_ticket("jobmedia")), (0.7, drawn_printed), (1.2, drawn_purge),
]
# How often which lines are drawn if volumes are to be filled, purged and used anew, in one run after another.
PURGES = [
    (12, drawn_onward), (5, drawn_if_full), (2, drawn_takeover), (3, drawn_printed), (0.5, drawn_restart), (1, of_any("read")),
    (0.5, drawn_record), (0.3, of_ticket("end")), (0.3, of_ticket("cancel")), (0.5, of_ticket("close")), (0.5, just("drain")),
    (0.5, of_ticket("despool")), (0.5, of_drive("take")), (0.5, drawn_place), (0.3, of_drive("sync")), (0.2, drawn_label),
    (0.3, of_volume("mount")), (0.5, of_drive("unmount")), (0.2, of_drive("seek")), (0.05, of_drive("retire")),
    (0.5, of_any("jobmedia")), (0.1, of_any("close")), (0.1, of_any("end")), (0.1, of_any("cancel")), (0.1, of_any("spool")),
    (0.1, of_any("despool")), (0.1, of_any("fill")), (0.5, just("status")),
]
# Of the kinds of answers to the lines of a word, how many there must be in all. A number is a refusal's.
STEP_FLOORS = {
    "rec: ok taken": 200, "fill: ok taken": 500, "fill: 3903": 100, "fill: 3908": 200, "fill: 3902": 200,
    "fill: 3906": 20,
    "spool: ok spooled": 400, "spool: ok spool full": 150, "spool: ok nothing": 500, "spool: ok no spool": 300,
    "despool: ok sent": 300, "despool: ok queue full": 200, "despool: ok nothing": 500, "despool: ok not due": 500,
    "take: ok hand": 200, "take: ok hand full": 200, "take: ok idle": 500, "place: ok placed": 150, "place: ok idle": 500,
    "place: ok need volume": 100, "place: ok volume full": 8, "end: ok ended": 300, "cancel: ok cancelled": 30,
    "close: ok closed": 200, "close: 3907": 100, "read: ok read ended": 200, "read: ok read cut": 5, "read: 3907": 100,
    "seek: ok mounted": 100, "seek: ok no need": 50, "seek: ok requested": 100, "requests: request": 20,
    "purge: ok purged": 70, "purge: 3930": 50, "purge: 3933": 50, "purge: 3938": 2, "purge: 3954": 800, "read: 3953": 40,
}
CHOICE_FLOORS = {
    "open: ok ticket drive": 1000, "open: 3910": 300, "open: 3911": 500, "open: 3912": 100, "cancel: ok cancelled": 300,
    "close: ok closed": 30, "retire: ok retired": 50, "retire: 3933": 100, "retire: 3912": 20, "mount: ok mounted": 100,
    "mount: 3930": 300, "mount: 3932": 100, "mount: 3933": 50, "mount: 3912": 100, "label: ok labelled": 500,
    "label: 3932": 10, "label: 3933": 100, "label: 3935": 100, "label: 3912": 50, "label: 3940": 10,
    "adopt: ok adopted": 80,
    "adopt: 3930": 50, "adopt: 3931": 3, "adopt: 3933": 20, "adopt: 3935": 300, "adopt: 3936": 2, "adopt: 3940": 3,
    "seek: ok mounted": 100, "seek: ok requested": 100, "seek: ok no need": 100, "sync: ok synced": 150,
    "restart: ok restarted": 50, "restart: 3912": 20, "restart: 3930": 30, "again: ok read ended": 5, "read: 3912": 3,
    "jobmedia: session": 150, "requests: request": 50, "status: drive offline": 30, "unmount: ok unmounted": 500,
    "purge: 3912": 30, "purge: 3930": 100, "purge: 3954": 100,
}
PURGE_FLOORS = {
    "purge: ok purged": 800, "purge: 3912": 2, "purge: 3930": 100, "purge: 3933": 900, "purge: 3938": 9, "purge: 3940": 40,
    "purge: 3954": 100, "read: 3953": 500, "again: 3953": 1000, "again: 3912": 3, "again: 3930": 800, "again: 3940": 6,
    "again: 3950": 40, "again: 3951": 15, "again: 3952": 50, "again: ok read ended": 1200, "read: ok read ended": 500,
    "read: ok read cut": 50, "adopt: ok adopted": 800, "close: ok closed": 1200, "mount: 3934": 60, "mount: ok mounted": 50,
    "fill: 3902": 200, "cancel: 3902": 60, "end: 3902": 150, "spool: 3902": 20, "despool: 3902": 100, "close: 3902": 400,
}
# How many states of two drives with two lanes are met at least, as the sessions that are opened see them.
STATES = 500


def drawn(numbers, settings, weighed, count, head=(), tail=None):
    """A script of so many drawn lines, the model's answers to them, and what the model was before each open."""
    world, lines, wanted, views = World(settings), [], [], []

    def add(line):
        if line.startswith("open"):
            views.append(viewed(world, line))
        lines.append(line)
        wanted.append(world.answer(line))

    for line in head:
        add(line)
    weights, acts = zip(*weighed)
    for _ in range(count):
        add(numbers.choices(acts, weights)[0](numbers, world))
    for line in tail(world) if tail else ():
        add(line)
    return lines, wanted, views


def viewed(world, line):
    """What of each drive decides whether it takes the session, as that session sees it."""
    _, _, pool, media = line.split(" ")

    def seen(other):
        return "none" if other is None else "own" if other == pool else "other"

    return tuple((drive.media == media, drive.online, seen(drive.loaded and drive.loaded.pool), seen(drive.pool),
                  world.kept(drive), len(drive.lanes)) for drive in world.drives)


def compared(name, settings, lines, wanted):
    """The program answers a script as the model does."""
    yield from differing(f"{name} of {settings.lines()}", lines, answers(lines, run(settings, lines)), wanted)


def read_whole(name, settings, lines, wanted):
    """The program answers a script as the model does; and what was closed reads whole, unless a volume of it was
    purged."""
    got = list(answers(lines, run(settings, lines)))
    yield from differing(f"{name} of {settings.lines()}", lines, got, wanted)
    records, closed, gone = taken(lines, got), {}, set()
    for line, answer in zip(lines, got):
        word, *rest = line.split(" ")
        if word == "close" and answer[0].startswith("ok closed"):
            closed[rest[0]] = {span.split(" ")[1] for span in answer[2:]}
        if word == "purge" and is_purging(answer):
            gone.update(ticket for ticket, volumes in closed.items() if rest[1] in volumes)
        if word == "read" and rest[0] in closed:
            whole = records.get((settings.time, int(rest[0])), ["ok read 0 0 ended"])
            whole = ["3953 Volume purged"] if rest[0] in gone else whole
            if answer != whole:
                yield f"{name} of {settings.lines()}, {line!r}: {answer} in place of {whole}"


def come_to_their_end(world):
    """What goes on is ended, placed and closed, and each session is read; then once more, with the volumes purged that are
    full."""
    tickets = range(1, len(world.sessions) + 1)
    reading = [f"read {ticket}" for ticket in tickets]
    return [*(f"end {ticket}" for ticket in tickets), "drain", "drain", *(f"close {ticket}" for ticket in tickets),
            *reading, "status", "unmount 1", *(f"purge 1 {name}" for name in world.names), *reading, "status"]


def step_by_step():
    """Queues and spools of many sizes, step by step: what each step answers; each closed session is read whole then."""
    numbers, counts, cases = random.Random(5), collections.Counter(), []
    for number in range(300):
        block = numbers.choice((1024, 1024, 1025, 1500, 2048, 4096))
        settings = Settings(
            block=block, queue=numbers.randint(1, 4),
            spool=numbers.choice((0, block, 2 * block, 2 * (block - HEADER), 3 * (block - HEADER), 10 * block)),
            volume=numbers.choice((2**36, 2**36, 2 * block, 3 * block + 100, 9 * block)))
        head = [*(f"label 1 {name} Default File" for name in NAMES[:numbers.choice((0, 1, 8, 8))]), "open 7 Default File"]
        lines, wanted, _ = drawn(numbers, settings, STEPS, numbers.randint(40, 160), head, come_to_their_end)
        cases.append((f"steps {number}", settings, lines, wanted))
        counts.update(map(kind, lines, wanted))
    yield from lacking(counts, STEP_FLOORS)
    yield from each(read_whole, cases)


def choices():
    """Several drives, lanes, pools and media: which drive takes a session, which volume is sought, what is asked for. In
    half of the scripts calls fail."""
    numbers, counts, cases, seen = random.Random(6), collections.Counter(), [], set()
    for number in range(400):
        two = number % 2 == 0
        drives = [(numbers.choice(MEDIA[:1] + MEDIA), 2 if two else numbers.randint(1, 3))
                  for _ in range(2 if two else numbers.randint(1, 4))]
        plan = [(numbers.randint(1, len(drives)), numbers.choice(CALLS), numbers.randint(1, 20), numbers.choice(WAYS))
                for _ in range(numbers.randint(1, 8))] if number % 4 > 1 else []
        settings = Settings(volume=numbers.choice((2**36, 2**36, 2048)), queue=numbers.randint(1, 3), drives=drives,
                            plan=plan)
        head = [f"label {number} {name} {pool} {drives[number - 1][0]}" for name, (number, pool) in zip(
            NAMES, [(number, pool) for number in range(1, len(drives) + 1) for pool in POOLS]) if numbers.random() < 0.7]
        lines, wanted, views = drawn(numbers, settings, CHOICES, numbers.randint(40, 120), head)
        cases.append((f"choices {number}", settings, lines, wanted))
        counts.update(map(kind, lines, wanted))
        seen.update(views if two else ())
    yield from lacking(counts, CHOICE_FLOORS)
    if len(seen) < STATES:
        yield f"only {len(seen)} states of two drives with two lanes were met"
    yield from each(compared, cases)


def purges():
    """Small volumes on one or two drives, which are filled, purged and used anew, also by later runs. In half of the scripts
    calls fail."""
    numbers, counts, cases = random.Random(7), collections.Counter(), []
    for number in range(400):
        drives = [(numbers.choice(MEDIA[:1] + MEDIA), numbers.randint(1, 3)) for _ in range(numbers.randint(1, 2))]
        plan = [(numbers.randint(1, len(drives)), *numbers.choice(
                 (("load", numbers.randint(1, 20)), ("cut", numbers.randint(1, 8)), ("sync", numbers.randint(1, 40)),
                  (numbers.choice(CALLS), numbers.randint(1, 40)))), numbers.choice(WAYS))
                for _ in range(numbers.randint(1, 6))] if number % 2 else []
        settings = Settings(volume=numbers.choice((2048, 2130, 2200, 3300)), queue=numbers.randint(1, 8), drives=drives,
                            spool=numbers.choice((0, 0, 0, 3000)), plan=plan)
        head = [f"label {1 + at % len(drives)} {name} Default {drives[at % len(drives)][0]}"
                for at, name in enumerate(NAMES[:numbers.randint(1, 5)])]
        lines, wanted, _ = drawn(numbers, settings, PURGES, numbers.randint(60, 160), head, all_is_read)
        cases.append((f"purges {number}", settings, lines, wanted))
        counts.update(map(kind, lines, wanted))
    yield from lacking(counts, PURGE_FLOORS)
    yield from each(compared, cases)


def all_is_read(world):
    """Each session of the run is read, and each that was ever closed."""
    return [*(f"{word} {ticket}" for ticket in range(1, len(world.sessions) + 1) for word in ("read", "jobmedia")),
            *(f"again {time} {ticket}" for time, ticket in world.printed), "status"]
