"""The tests of adoptions, by the lines of a daemon's operator, of volumes that are made here. tests/media runs them."""
import random

from bench import Daemon, console, read_over_the_socket, session
from tables import no_label_blocks
from volumes import MOST_BLOCK, MOST_VOLUME, Shelf, block, jobmedia, label, packed
from volumes_model import BAD_SPAN, DAMAGED, ENDS_EARLY, NOT_OURS, NOT_THERE, OTHER_MEDIA, THIS_RUN, adopted

# The time of the run that adopts, and a run before it.
TIME, EARLIER = 2000, (1000, 1)
# Two blocks of earlier runs, which lie from 82 to 118 and from there to 167.
TWELVE = b"twelve bytes"
TWO = block(EARLIER, 1, TWELVE) + block((TIME - 1, 7), 2, b"the body of another block")
THIRD = block(EARLIER, 3, TWELVE)
NOW, LATER = block((TIME, 1), 3, TWELVE), block((TIME + 1, 1), 3, TWELVE)
WHOLE = "ok adopted 167 3"

# What comes after a label of 82 bytes, and what the adoption answers. The bytes up to END stay, or all of them.
ADOPTED = [
    ("a label alone", b"", "ok adopted 82 1"),
    ("two blocks", TWO, WHOLE),
    ("three blocks", TWO + THIRD, "ok adopted 203 4"),
    ("blocks of the least and the greatest session", block((0, 0), 1, TWELVE) + block((TIME - 1, 2**32 - 1), 2, TWELVE),
     "ok adopted 154 3"),
    ("the greatest block", block(EARLIER, 1, bytes(MOST_BLOCK - 24)) + block(EARLIER, 2, TWELVE),
     f"ok adopted {82 + MOST_BLOCK + 36} 3"),
    # Tails.
    ("a byte", TWO + b"x", WHOLE),
    ("35 zeros", TWO + bytes(35), WHOLE),
    ("many zeros", TWO + bytes(3_000_000), WHOLE),
    ("drawn bytes", TWO + random.Random(1).randbytes(50_000), WHOLE),
    ("a block's front", TWO + THIRD[:-1], WHOLE),
    ("a block's header", TWO + THIRD[:24], WHOLE),
    ("a block of a number again", TWO + block(EARLIER, 2, TWELVE), WHOLE),
    ("a block of a number left out", TWO + block(EARLIER, 4, TWELVE), WHOLE),
    ("a block of number 0", TWO + block(EARLIER, 0, TWELVE), WHOLE),
    ("a block without a checksum", TWO + bytes(4) + THIRD[4:], WHOLE),
    ("a block of another mark", TWO + block(EARLIER, 3, TWELVE, mark=b"BB01"), WHOLE),
    ("a block that is too small", TWO + block(EARLIER, 3, TWELVE[1:]), WHOLE),
    ("a block that is too great", TWO + block(EARLIER, 3, bytes(MOST_BLOCK - 23)), WHOLE),
    ("a block of a size past the end", TWO + block(EARLIER, 3, TWELVE, size=37), WHOLE),
    ("a block of a size too small", TWO + block(EARLIER, 3, TWELVE, size=35), WHOLE),
    ("a block before which a byte stands", TWO + b"x" + THIRD, WHOLE),
    ("numbers that begin with 0", block(EARLIER, 0, TWELVE) + block(EARLIER, 1, TWELVE), "ok adopted 82 1"),
    ("numbers that begin with 2", block(EARLIER, 2, TWELVE) + block(EARLIER, 3, TWELVE), "ok adopted 82 1"),
    ("a label again", label(b"Vol-0001") + TWO, "ok adopted 82 1"),
    ("a label again, with a host", label(b"Vol-0001", host=b"backup1") + TWO, "ok adopted 82 1"),
    # Blocks of this run or a later one.
    ("a block of this run", TWO + NOW, THIS_RUN),
    ("a block of a later run", TWO + LATER, THIS_RUN),
    ("a block of the latest time", TWO + block((2**32 - 1, 1), 3, TWELVE), THIS_RUN),
    ("a block of this run first", block((TIME, 5), 1, TWELVE), THIS_RUN),
    ("a block of this run among others", TWO + NOW + block(EARLIER, 4, TWELVE) + bytes(99), THIS_RUN),
    ("a tail behind a block of this run", TWO + NOW + b"x", THIS_RUN),
    ("a block of this run that is cut", TWO + NOW[:-1], WHOLE),
    ("a block of this run without a checksum", TWO + bytes(4) + NOW[4:], WHOLE),
    ("a block of this run of another number", TWO + block((TIME, 1), 4, TWELVE), WHOLE),
    ("a block of this run behind the end", TWO + b"x" + NOW, WHOLE),
]


class Adopter:
    """Adopts volumes in a talk, each under a name of its own, and keeps what the daemon's status is to say of them."""

    def __init__(self, checks, daemon, talk, prefix="Vol", media="File", drive=1):
        self.checks, self.talk, self.prefix, self.media, self.drive = checks, talk, prefix, media, drive
        self.folder = daemon.folders[drive - 1]
        self.count, self.lines = 0, []

    def next_name(self):
        self.count += 1
        return f"{self.prefix}-{self.count:04}"

    def same(self, why, name, image, wanted):
        """The volume is adopted with that answer. Its bytes are those up to the end that is told, or all of them."""
        path = self.folder / name
        if image is not None:
            path.write_bytes(image)
        answer = console(self.talk, f"adopt {self.drive} {name}")
        self.checks.same(why, answer, f"{wanted}\n")
        self.checks.same(f"{why}, by the model", answer, adopted(image, name, self.media, TIME)[0])
        kept = image
        if wanted.startswith("ok"):
            end = int(wanted.split()[2])
            kept = image[:end]
            self.lines.append(f"volume {name} Default {self.media} append {end}\n")
        self.checks.same(f"{why}, the bytes", path.read_bytes() if path.exists() else None, kept)


def adoptions(checks, room, other_system):
    """Volumes that are whole, or with a tail of any bytes, or with blocks of this run; no volumes, and those of another
    media. Those that are adopted have the status that the daemon tells."""
    with Daemon(room, other_system, TIME, "Tape", block=1024) as daemon, daemon.talk() as talk:
        adopter = Adopter(checks, daemon, talk)
        for why, rest, answer in ADOPTED:
            name = adopter.next_name()
            adopter.same(why, name, label(name.encode()) + rest, answer)
        name = adopter.next_name()
        adopter.same("a host in the label", name, label(name.encode(), host=b"h") + TWO + b"x", "ok adopted 169 3")
        name = adopter.next_name()
        for why, bad in no_label_blocks(name.encode()):
            adopter.same(why, name, bad + TWO + b"x", NOT_OURS)
        adopter.same("not there", adopter.next_name(), None, NOT_THERE)
        for why, rest in (("nothing", b""), ("two blocks", TWO + b"x"), ("a block of this run", TWO + NOW)):
            adopter.same(f"another media, {why}", name, label(name.encode(), media=b"Tape") + rest, OTHER_MEDIA)
            adopter.same(f"another name and media, {why}", name, label(b"Vol-xxxx", media=b"Tape") + rest, NOT_OURS)
        tapes = Adopter(checks, daemon, talk, "Tap", "Tape", 2)
        name = tapes.next_name()
        tapes.same("the media of another drive", name, label(name.encode()) + TWO, OTHER_MEDIA)
        tapes.same("the media of its drive", name, label(name.encode(), media=b"Tape") + TWO + b"x", WHOLE)
        lines = "drive 1 File - 0\ndrive 2 Tape - 0\n" + "".join(adopter.lines + tapes.lines)
        checks.same("status", console(talk, "status"), f"{lines}ok status\n")


def cut_and_damaged(checks, room, other_system):
    """A volume of two blocks that is cut at each byte, and one with a wrong byte at each place."""
    with Daemon(room, other_system, TIME, block=1024) as daemon, daemon.talk() as talk:
        adopter = Adopter(checks, daemon, talk)
        answers = 82 * [NOT_OURS] + 36 * ["ok adopted 82 1"] + 49 * ["ok adopted 118 2"] + [WHOLE]
        for length, answer in enumerate(answers):
            name = adopter.next_name()
            adopter.same(f"cut at {length}", name, (label(name.encode()) + TWO)[:length], answer)
        for at, answer in enumerate(answers[:82] + 36 * ["ok adopted 82 1"] + 49 * ["ok adopted 118 2"]):
            for change in (0x40, 0x01):
                name = adopter.next_name()
                changed = bytearray(label(name.encode()) + TWO)
                changed[at] ^= change
                adopter.same(f"byte {at} by {change}", name, bytes(changed), answer)


def at_the_limits(checks, room, other_system):
    """A file longer than a volume may be is refused, and one of the greatest length is adopted. A volume that ends at
    the limit of volumes is full."""
    with Daemon(room / "longest", other_system, TIME) as daemon:
        for name, length, answer, kept in (
            ("Vol-0001", MOST_VOLUME + 1, NOT_OURS, MOST_VOLUME + 1),
            ("Vol-0002", MOST_VOLUME, WHOLE, 167),
            ("Vol-0003", 2**40, NOT_OURS, 2**40),
        ):
            path = daemon.folders[0] / name
            path.write_bytes(label(name.encode()) + TWO)
            with open(path, "r+b") as volume:
                volume.truncate(length)
            checks.same(f"{length} bytes", daemon.say(f"adopt 1 {name}"), f"{answer}\n")
            with open(path, "rb") as volume:
                checks.same(f"{length} bytes, the front", volume.read(167), label(name.encode()) + TWO)
            checks.same(f"{length} bytes, the length", path.stat().st_size, kept)
    with Daemon(room / "full", other_system, TIME, block=1024, volume=2048) as daemon:
        lines = []
        for name, end, status in (("Vol-0001", 2047, "append"), ("Vol-0002", 2048, "full"), ("Vol-0003", 3000, "full")):
            image = label(name.encode()) + block(EARLIER, 1, bytes(end - 82 - 24))
            (daemon.folders[0] / name).write_bytes(image + b"tail")
            checks.same(f"up to {end}", daemon.say(f"adopt 1 {name}"), f"ok adopted {end} 2\n")
            checks.same(f"up to {end}, the bytes", daemon.bytes_of(name), image)
            lines.append(f"volume {name} Default File {status} {end}\n")
        checks.same("status", daemon.say("status"), f"drive 1 File - 0\n{''.join(lines)}ok status\n")


def order(checks, room, other_system):
    """A name that is taken comes first, then a volume that is loaded, then what the volume itself says."""
    with Daemon(room, other_system, TIME, "Tape", block=1024) as daemon:
        whole = label(b"Vol-0001") + TWO
        (daemon.folders[0] / "Vol-0001").write_bytes(whole)
        (daemon.folders[0] / "Vol-0002").write_bytes(b"no volume")
        checks.same("labelled in this run", daemon.label("Vol-0003"), "ok labelled\n")
        checks.same("adopted", daemon.say("adopt 1 Vol-0001"), f"{WHOLE}\n")
        checks.same("adopted again", daemon.say("adopt 1 Vol-0001"), "3935 Volume already labelled\n")
        checks.same("adopted on another drive", daemon.say("adopt 2 Vol-0001"), "3935 Volume already labelled\n")
        checks.same("labelled", daemon.say("adopt 1 Vol-0003"), "3935 Volume already labelled\n")
        checks.same("label a name on the shelf", daemon.label("Vol-0002"), "3935 Volume already labelled\n")
        checks.same("no such drive", daemon.say("adopt 3 Vol-0001"), "3938 No such drive\n")
        checks.same("mounted", daemon.say("mount 1 Vol-0001"), "ok mounted\n")
        checks.same("adopted while it is loaded", daemon.say("adopt 1 Vol-0001"), "3935 Volume already labelled\n")
        checks.same("not there, while one is loaded", daemon.say("adopt 1 Vol-0009"), "3933 In use\n")
        checks.same("no volume, while one is loaded", daemon.say("adopt 1 Vol-0002"), "3933 In use\n")
        checks.same("unmounted", daemon.say("unmount 1"), "ok unmounted\n")
        checks.same("no volume", daemon.say("adopt 1 Vol-0002"), f"{NOT_OURS}\n")
        checks.same("the bytes", daemon.bytes_of("Vol-0001"), whole)
        checks.same("the bytes of no volume", daemon.bytes_of("Vol-0002"), b"no volume")


def gone_on(checks, room, other_system):
    """Volumes of an earlier run, with the blocks of two sessions among each other: they are adopted, the sessions are
    read over the socket, and those of this run come after them."""
    numbers, limit, names = random.Random(13), 5000, [f"Vol-{number:04}" for number in range(1, 6)]
    shelf, records, places, bodies = Shelf(EARLIER[0], limit), {}, {1: [], 2: []}, {}
    for name in names:
        shelf.add(name, label(name.encode()))
    for one in places:
        records[one] = [(index, 5, numbers.randbytes(size)) for index, size in enumerate((900, 4000, 0, 1200), 1)]
        bodies[one] = packed(1024, records[one])
    while any(bodies.values()):
        one = numbers.choice([number for number, waiting in bodies.items() if waiting])
        places[one].append(shelf.place_one((EARLIER[0], one), bodies[one].pop(0)))
    texts = {one: jobmedia((EARLIER[0], one), places[one]) for one in places}
    # In the run that adopts them they take blocks up to the limit again.
    shelf.time, shelf.full = TIME, set()
    with Daemon(room, other_system, TIME, block=1024, volume=limit) as daemon:
        for name, image in shelf.volumes.items():
            (daemon.folders[0] / name).write_bytes(image + numbers.randbytes(300))
            checks.same(f"adopt {name}", daemon.say(f"adopt 1 {name}"),
                        f"ok adopted {len(image)} {shelf.next_numbers[name]}\n")
        for one, text in texts.items():
            checks.same(f"spans of session {one}", text.count("span ") > 2, True)
            wanted = records[one], "3000 OK read Records=4 Bytes=6100 Ended=1\n"
            checks.same(f"session {one}", read_over_the_socket(daemon, text), wanted)
        faults(checks, daemon, texts[1], records[1])
        for sizes in ([], [5000, 3, 0], [1]):
            added = [(1, 2, numbers.randbytes(size)) for size in sizes]
            text = session(daemon, added)
            checks.same(f"text of {sizes}", text, shelf.place(packed(1024, added)))
            checks.same(f"read {sizes}", read_over_the_socket(daemon, text)[0], added)
        for name, image in shelf.volumes.items():
            checks.same(name, daemon.bytes_of(name), bytes(image))
        for one, text in texts.items():
            checks.same(f"session {one} again", read_over_the_socket(daemon, text)[0], records[one])


def faults(checks, daemon, text, records):
    """Spans by which the daemon doesn't read the session, or not to its end. What it reads are the session's first
    records."""
    head, first, *rest = text.splitlines(keepends=True)
    name, begin, end = first.split()[1], int(first.split()[5]), int(first.split()[6])
    volume, number = daemon.bytes_of(name), f"span {name} 1 1 1"
    for why, asked, answer in (
        ("no span", head, BAD_SPAN),
        ("another session", text.replace(head, "session 1000 3\n"), BAD_SPAN),
        ("a volume that isn't known", head + f"span Vol-0099 1 1 1 {begin} {end}\n", NOT_THERE),
        ("a later volume that isn't known", head + first + f"span Vol-0099 2 1 1 {begin} {end}\n", NOT_THERE),
        ("an index that isn't 1", head + first.replace(" 1 ", " 2 ", 1), BAD_SPAN),
        ("an end before the start", head + f"{number} {end} {begin}\n", BAD_SPAN),
        ("an end past the volume's", head + f"{number} {begin} {len(volume) + 1}\n", ENDS_EARLY),
        ("an end within a block", head + f"{number} {begin} {end - 1}\n", BAD_SPAN),
        ("a start within a block", head + f"{number} {begin + 1} {end}\n", DAMAGED),
        ("no beginning", head + rest[0].replace(" 2 ", " 1 ", 1), DAMAGED),
    ):
        got, last = read_over_the_socket(daemon, asked)
        checks.same(why, last, f"{answer}\n")
        checks.same(f"{why}, the records", got, records[:len(got)])
    checks.same("a span alone", read_over_the_socket(daemon, head + first)[1].endswith("Ended=0\n"), True)


def continue_one(checks, room, other_system):
    """A volume of version 1 is adopted by a daemon with a host: its label stays, what is appended comes after its
    blocks, and a new volume has that host in its label."""
    one, another = "Vol-0001", "Vol-0002"
    earlier, later = [(1, 2, b"hello")], [(1, 2, b"abc")]
    shelf = Shelf(EARLIER[0])
    shelf.add(one, label(one.encode()))
    text = shelf.place(packed(1024, earlier))
    shelf.time, shelf.sessions = TIME, 0
    with Daemon(room, other_system, TIME, block=1024, host='"backup1"') as daemon:
        (daemon.folders[0] / one).write_bytes(shelf.volumes[one])
        checks.same("adopt", daemon.say(f"adopt 1 {one}"), "ok adopted 249 2\n")
        checks.same("the session before", read_over_the_socket(daemon, text)[0], earlier)
        added = session(daemon, later)
        checks.same("the session", added, f"session {TIME} 1\nspan {one} 1 1 1 249 414\n")
        checks.same("its place", added, shelf.place(packed(1024, later)))
        checks.same("read", read_over_the_socket(daemon, added)[0], later)
        checks.same("unmount", daemon.say("unmount 1"), "ok unmounted\n")
        checks.same("label", daemon.label(another), "ok labelled\n")
        checks.same("where it ends", daemon.say("status").split("\n")[2], f"volume {another} Default File append 90")
        checks.same("the volume", daemon.bytes_of(one), bytes(shelf.volumes[one]))
        checks.same("the new volume", daemon.bytes_of(another), label(another.encode(), host=b"backup1"))


def purged_before(checks, room, other_system):
    """A volume that an earlier run purged and used anew, with what a stop may leave after that, is adopted up to the
    end of its new blocks. The session there is read, and none that was there before; the next one comes after it. The
    daemon itself purges no volume, also none that is full, and does nothing to it."""
    one, another, limit = "Vol-0001", "Vol-0002", 2130
    before, anew, later = [(1, 2, 1850 * b"x")], [(1, 2, b"hello")], [(1, 2, b"abc")]
    old, shelf, full = Shelf(EARLIER[0]), Shelf(EARLIER[0]), Shelf(EARLIER[0])
    old.add(one, label(one.encode()))
    gone = old.place(packed(1024, before))
    shelf.sessions, full.sessions = 1, 2
    shelf.add(one, label(one.encode()))
    text = shelf.place(packed(1024, anew))
    full.add(another, label(another.encode()))
    kept = full.place(packed(1024, before))
    shelf.time, shelf.sessions = TIME, 0
    with Daemon(room, other_system, TIME, block=1024, volume=limit) as daemon:
        (daemon.folders[0] / one).write_bytes(shelf.volumes[one] + old.volumes[one][249:])
        (daemon.folders[0] / another).write_bytes(full.volumes[another])
        checks.same("the ends", (len(old.volumes[one]), len(shelf.volumes[one]), len(full.volumes[another])), (2130, 249, 2130))
        checks.same("adopt", daemon.say(f"adopt 1 {one}"), "ok adopted 249 2\n")
        checks.same("the volume", daemon.bytes_of(one), bytes(shelf.volumes[one]))
        checks.same("what stood there", read_over_the_socket(daemon, gone), ([], f"{ENDS_EARLY}\n"))
        checks.same("what stands there", read_over_the_socket(daemon, text)[0], anew)
        added = session(daemon, later)
        checks.same("the next session", added, f"session {TIME} 1\nspan {one} 1 1 1 249 414\n")
        checks.same("its place", added, shelf.place(packed(1024, later)))
        checks.same("unmount", daemon.say("unmount 1"), "ok unmounted\n")
        checks.same("adopt a full one", daemon.say(f"adopt 1 {another}"), "ok adopted 2130 3\n")
        status = daemon.say("status")
        checks.same("full", f"volume {another} Default File full 2130\n" in status, True)
        for name in (another, one, "Vol-0009"):
            checks.same(f"purge {name}", daemon.say(f"purge 1 {name}"), "3933 In use\n")
        checks.same("purge at another drive", daemon.say(f"purge 2 {another}"), "3938 No such drive\n")
        checks.same("the status stays", daemon.say("status"), status)
        checks.same("its session", read_over_the_socket(daemon, kept)[0], before)
        for name, image in (*shelf.volumes.items(), *full.volumes.items()):
            checks.same(name, daemon.bytes_of(name), bytes(image))


ADOPTING = (adoptions, cut_and_damaged, at_the_limits, order, gone_on, continue_one, purged_before)
