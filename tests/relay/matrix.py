"""Roles by commands: what goes on to the daemon, and what is answered in its place."""
from held import Always, Place, Server, table

PASSES, FILTERED, READ = "passes", "filtered", "read refused"
NOT_YOURS, BAD, NAME = "3933 In use", "3901 Bad command", "3937 Bad name"
ROLES = ("operator", "client", "append-only")
OPEN = "append open session JobId={} Pool={} Media={}"
# A command, with {own} for the talk's session, {mine} for one that another talk of the name opened, {other} for another
# name's; and what comes of it for an operator, a client, an append-only.
MATRIX = [
    (OPEN.format(7, "Default", "File"), PASSES, PASSES, PASSES),
    (OPEN.format(9, "Default", "File"), PASSES, PASSES, PASSES),
    (OPEN.format(10, "Default", "File"), PASSES, NOT_YOURS, NOT_YOURS),
    (OPEN.format(7, "Other", "File"), PASSES, NOT_YOURS, NOT_YOURS),
    (OPEN.format(7, "Default", "Tape"), PASSES, NOT_YOURS, NOT_YOURS),
    (OPEN.format(0, "Default", "File"), BAD, BAD, BAD),
    (OPEN.format("07", "Default", "File"), BAD, BAD, BAD),
    (OPEN.format(2_147_483_648, "Default", "File"), BAD, BAD, BAD),
    (OPEN.format(7, "..", "File"), NAME, NAME, NAME),
    (OPEN.format(7, "Default", "a/b"), NAME, NAME, NAME),
    ("append data 77777", PASSES, PASSES, PASSES),
    ("append data 0", PASSES, PASSES, PASSES),
    ("append data 01", BAD, BAD, BAD),
    ("append end session {own}", PASSES, PASSES, PASSES),
    ("append close session {own}", PASSES, PASSES, PASSES),
    ("append close session {other}", PASSES, PASSES, PASSES),
    ("append", BAD, BAD, BAD),
    ("", BAD, BAD, BAD),
    ("console", BAD, BAD, BAD),
    ("console quit", PASSES, BAD, BAD),
    ("console status", PASSES, FILTERED, FILTERED),
    ("console status ", PASSES, BAD, BAD),
    ("console requests", PASSES, NOT_YOURS, NOT_YOURS),
    ("console label 1 Vol-0009 Default File", PASSES, NOT_YOURS, NOT_YOURS),
    ("console adopt 1 Vol-0009", PASSES, NOT_YOURS, NOT_YOURS),
    ("console mount 1 Vol-0009", PASSES, NOT_YOURS, NOT_YOURS),
    ("console mount 1 ..", PASSES, NAME, NAME),
    ("console mount 9 Vol-0009", PASSES, BAD, BAD),
    ("console unmount 1", PASSES, NOT_YOURS, NOT_YOURS),
    ("console retire 1", PASSES, NOT_YOURS, NOT_YOURS),
    ("console purge 1 Vol-0009", PASSES, NOT_YOURS, NOT_YOURS),
    ("console cancel {own}", PASSES, PASSES, NOT_YOURS),
    ("console cancel {mine}", PASSES, NOT_YOURS, NOT_YOURS),
    ("console cancel {other}", PASSES, NOT_YOURS, NOT_YOURS),
    ("console jobmedia {own}", PASSES, PASSES, NOT_YOURS),
    ("console jobmedia {mine}", PASSES, PASSES, NOT_YOURS),
    ("console jobmedia {other}", PASSES, NOT_YOURS, NOT_YOURS),
    ("read session Time=5000 Id={own}", PASSES, PASSES, READ),
    ("read session Time=5000 Id={mine}", PASSES, PASSES, READ),
    ("read session Time=5000 Id={other}", PASSES, READ, READ),
    ("read session Time=4999 Id={own}", PASSES, READ, READ),
    ("read session Time=0 Id={own}", BAD, BAD, BAD),
]


def rest_of(talk, first):
    """The rest of an answer of several packets."""
    return talk.lines() if isinstance(first, str) and not first.startswith(("39", "3000 OK o", "3000 OK e", "3000 OK d")) or (
        first == "3000 OK close Status = 84") else []


def one(checks, talk, daemon, command, wanted):
    before = len(daemon.taken)
    talk.send(command + "\n")
    reads = command.startswith("read session") and wanted in (PASSES, READ)
    if reads:
        talk.send("span Vol-0001 1 1 1 92 259", -1)
    first = talk.receive()
    if reads:
        # Records are drawn, up to a second end of data in a row.
        last = None
        while not (first == -1 and last in (None, -1)):
            last, first = first, talk.receive()
        first = talk.receive()
    rest = [] if reads else rest_of(talk, first)
    came = [got for _, _, got, _ in daemon.taken[before:] if isinstance(got, bytes)]
    passed = command.encode() in came
    checks.check(f"{command}: what the daemon heard", passed == (wanted in (PASSES, FILTERED)), came)
    if wanted == FILTERED:
        checks.check(f"{command}: filtered", not any(line.startswith(("drive", "volume")) for line in [first, *rest[:-1]]), rest)
    elif wanted != PASSES:
        checks.same(f"{command}: the answer", first, NOT_YOURS if wanted == READ else wanted)
    return [first, *rest]


def run(checks, folder):
    """The matrix, for each role."""
    for at, role in enumerate(ROLES):
        # What is kept of another role's run goes, since runs may not share a time.
        (folder / role).mkdir()
        place = Place(folder / role, '[name.operator]\nrole = "operator"\n' + "".join(
            table(name, kind) for name, kind in [*((one, one) for one in ROLES[1:]), ("another", "client")]))
        checks.group = f"as {role}"
        with Server(place.socket, Always) as server, place.relayed("another") as another, place.relayed(role) as before:
            tickets = {"other": another.open(), "mine": before.open()}
            with place.relayed(role) as talk:
                all_of(checks, talk, server.talk, tickets, at)
            before.send(-4)
            another.send(-4)
            checks.same("the others' ends", (before.ended()[0], another.ended()[0]), (0, 0))
    checks.group = "matrix"


def all_of(checks, talk, daemon, tickets, at):
    """All commands in one talk."""
    tickets["own"] = talk.open()
    for command, *wanted in MATRIX:
        said = one(checks, talk, daemon(), command.format(**tickets), wanted[at])
        if command.startswith("append open") and said[0].startswith("3000"):
            tickets["own"] = int(said[0].rpartition(" ")[2])
        if wanted[at] == FILTERED:
            shown = {int(line.split()[1]) for line in said[:-2]}
            own = {tickets["mine"], tickets["own"]}
            checks.check("its own sessions alone", own <= shown and tickets["other"] not in shown, said)
    talk.send(-4)
    checks.same("the end", talk.ended()[0], 0)
