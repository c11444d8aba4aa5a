"""Drawn folders of volumes with and without notes, as stops, rot, copies and hands leave them. What a start makes of each is compared
with the model, and a second start after it: log, status, figures, files, notes, and what is read of the sessions."""
from __future__ import annotations

import collections
import dataclasses
import pathlib
import random
import shutil
import struct
import subprocess
import typing
import zlib

import compared
from blocks import Label, Note, label_of, note_in, whole_block
from checks import Checks
from clients import client
from daemon import SDTOOL, WAIT
from model import Files, Started
from site_of import Site, told
from volumes import Shelf, block, daemon_label, note, packed, start

SEED, SITES = 7300, 36
MEDIA = ("File", "File", "Tape")
NAMES = [*(f"Vol-{number}" for number in range(1, 13)), *(f"Vol-{number:04}" for number in range(1, 5)), "Vol", "a", "A-1", ".dot-1", "x.2-10"]
# A damage is this rarely none, and where it is; a note is so often what.
DAMAGES = {"none": 9, "label": 2, "first block": 2, "middle": 3, "last block": 3, "tail": 1, "above the note": 2, "hole": 2, "cut": 2, "cut at a block": 2,
           "cut in the label": 1, "a block less": 2, "a block twice": 1, "another's block": 1, "zeros behind": 2, "bytes behind": 2,
           "half a block behind": 2, "a block behind": 2, "a block of a later run behind": 1, "a gap and a block behind": 2}
NOTES = {"none": 5, "true": 8, "lags": 5, "at the label": 2, "cut": 1, "a bit changed": 1, "another form": 1, "of another label": 1,
         "of another volume": 1, "forged": 3, "inside a record": 1, "torn at the end": 1, "torn below": 1, "torn above": 1, "a folder": 1}
FLOORS = {"adopted": 150, "damaged": 60, "torn": 5, "3931": 20, "3932": 10, "3935": 15, "3936": 2, "by a note": 60, "cut": 40, "read whole": 100,
          "read on a damaged volume": 15, "not read": 40, "missing": 10, "asked for": 8, "folders gone": 3, "console lines": 60, "jobs": 15,
          "nothing below a note is cut": 90}


class Kept(typing.NamedTuple):
    """A session that was closed in a folder, with its records, and the bytes of its spans."""
    place: str
    lines: tuple[str, ...]
    records: list[tuple[int, int, bytes]]
    parts: tuple[bytes, ...] = ()

    def spans(self) -> list[tuple[str, int, int]]:
        words = [line.split() for line in self.lines[1:]]
        return [(one[1], int(one[5]), int(one[6])) for one in words]


@dataclasses.dataclass
class Folder:
    """A folder as it is drawn: its files, what its volumes were before any damage, and the sessions that were closed on them."""
    files: Files = dataclasses.field(default_factory=dict)
    truth: dict[str, bytes] = dataclasses.field(default_factory=dict)
    kept: list[Kept] = dataclasses.field(default_factory=list)
    # Up to where a volume has a note that is true of it, whatever became of the volume since.
    noted: dict[str, int] = dataclasses.field(default_factory=dict)


def picked(draw: random.Random, weights: dict[str, int]) -> str:
    return draw.choices(list(weights), list(weights.values()))[0]


def ends_of(name: str, image: bytes) -> list[tuple[int, int, int, int]]:
    """What each front of a volume's blocks comes to: its end, where its last block begins, the next number, the greatest time."""
    ends = [(label_of(name, image).size, 0, 1, 0)]
    while not isinstance(found := whole_block(image, ends[-1][0]), str):
        at, _, number, time = ends[-1]
        ends.append((at + found[0], at, number + 1, max(time, found[2][0])))
    return ends


def summed_again(content: bytes) -> bytes:
    return struct.pack(">I", zlib.crc32(content[4:])) + content[4:]


def filled(draw: random.Random, place: str, media: str, names: list[str], runs: list[int], folder: Folder):
    """Volumes of a media with sessions of some runs of a daemon, which lie on one or on several."""
    limit = draw.choice((300, 1024, 4096))
    shelf = Shelf(runs[0], draw.choice((1500, 6000, 40_000)))
    for name in names:
        shelf.add(name, daemon_label(name.encode(), media=media.encode(), moment=draw.randrange(-2**40, 2**50)))
    for time in runs:
        shelf.time, shelf.sessions = time, 0
        for _ in range(draw.randint(0, 4)):
            records = [(index, draw.randint(1, 3), draw.randbytes(draw.choice((0, 5, 200, 900)))) for index in range(1, draw.randint(2, 6))]
            try:
                text = shelf.place(packed(limit, records, media=media.encode()))
            except ValueError:
                break
            folder.kept.append(Kept(place, tuple(text.splitlines()), records))
    folder.truth.update({name: bytes(image) for name, image in shelf.volumes.items()})
    folder.kept = [with_parts(one, folder.truth) for one in folder.kept]


def with_parts(one: Kept, images: dict[str, bytes]) -> Kept:
    return one._replace(parts=tuple(images[name][low:high] for name, low, high in one.spans()))


def true_note(moment: int, ends: list[tuple[int, int, int, int]], at: int, **changed: typing.Any) -> bytes:
    return note(**{**dict(zip(("moment", "end", "last", "next_number", "time"), (moment, *ends[at]))), **changed})


def nested(draw: random.Random, label: Label, name: str, image: bytes) -> tuple[bytes, bytes]:
    """A volume with one more session, a record of which has blocks in it; and a note that takes one of these for the last block."""
    ends = ends_of(name, image)
    inner = block((900, 1), 5, start(3)) + draw.randbytes(50)
    body = start(8) + struct.pack(">iiI", 1, 2, 10_000) + draw.randbytes(40) + inner
    at = len(image) + 24 + len(start(8)) + 12 + 40
    image += block((1001, 9), ends[-1][2], body)
    size = len(block((900, 1), 5, start(3)))
    return image, note(label.moment, at + size, at, 6, 1001)


def with_note(draw: random.Random, kind: str, name: str, folder: Folder, image: bytes) -> tuple[bytes, typing.Optional[bytes]]:
    """What is in the place of the note, nothing for a folder; and the image that is beside it."""
    label, ends = label_of(name, image), ends_of(name, image)
    at = {"lags": draw.randrange(len(ends)), "at the label": 0}.get(kind, len(ends) - 1)
    content = true_note(label.moment, ends, at)
    if kind in ("true", "lags", "at the label"):
        folder.noted[name] = ends[at][0]
    elif kind == "cut":
        content = content[:draw.randrange(48)]
    elif kind == "a bit changed":
        place = draw.choice([*range(4), *range(8, 48)])
        content = content[:place] + bytes([content[place] ^ 1 << draw.randrange(8)]) + content[place + 1:]
    elif kind == "another form":
        content = note(label.moment, *ends[at], form=b"SN02")
    elif kind == "of another label":
        content = true_note(label.moment + 1, ends, at)
    elif kind == "of another volume":
        other = draw.choice(sorted(folder.truth))
        content = true_note(label_of(other, folder.truth[other]).moment, ends_of(other, folder.truth[other]), -1)
    elif kind == "forged":
        place = draw.randrange(8, 48)
        content = summed_again(content[:place] + bytes([content[place] ^ 1 << draw.randrange(8)]) + content[place + 1:])
    elif kind == "inside a record":
        image, content = nested(draw, label, name, image)
    elif kind == "torn at the end":
        content = true_note(label.moment, ends, at, torn=ends[at][0])
    elif kind == "torn below":
        content = true_note(label.moment, ends, draw.randrange(len(ends)), torn=draw.randrange(ends[at][0]))
    elif kind == "torn above":
        content = true_note(label.moment, ends, at, torn=ends[at][0] + draw.randrange(1, 500))
    return image, None if kind == "a folder" else content


def flipped(draw: random.Random, image: bytes, least: int, most: int) -> bytes:
    """A bit of a byte from one place on and before another is another."""
    if least >= most:
        return image
    at = draw.randrange(least, most)
    return image[:at] + bytes([image[at] ^ 1 << draw.randrange(8)]) + image[at + 1:]


def behind(draw: random.Random, kind: str, ends: list[tuple[int, int, int, int]]) -> bytes:
    """What lies behind the last block."""
    whole = block((1500, draw.randint(1, 9)), ends[-1][2], start(9) + draw.randbytes(draw.randrange(300)))
    return {"zeros behind": bytes(draw.choice((1, 12, 40, 3000))), "bytes behind": draw.randbytes(draw.choice((1, 30, 2000))),
            "half a block behind": whole[:draw.randrange(1, len(whole))], "a block behind": whole,
            "a block of a later run behind": block((2**31 - 1, 1), ends[-1][2], start(9)),
            "a gap and a block behind": bytes(draw.choice((0, 35, 400))) + block((1500, 1), ends[-1][2] + draw.choice((1, 2, 9)), start(9))}.get(kind, b"")


def damaged(draw: random.Random, kind: str, name: str, image: bytes, noted: int) -> bytes:
    """An image to which that happened. Up to `noted` it has a note, if that counts."""
    ends = [one[0] for one in ends_of(name, image)]
    first, last = ends[0], ends[-1]
    starts = ends[:-1] or [first]
    if kind in ("label", "first block", "middle", "last block", "above the note", "tail"):
        least, most = {"label": (0, first), "first block": (first, ends[min(1, len(ends) - 1)]), "middle": (first, last), "last block": (starts[-1], last),
                       "above the note": (noted, last), "tail": (last, len(image))}[kind]
        return flipped(draw, image + (draw.randbytes(60) if kind == "tail" else b""), least, most + 60 * (kind == "tail"))
    if kind == "hole":
        at, size = draw.randrange(len(image)), draw.choice((1, 40, 700))
        return image[:at] + bytes(min(size, len(image) - at)) + image[at + size:]
    if kind == "cut in the label":
        return image[:draw.randrange(first)]
    if kind in ("cut", "cut at a block"):
        return image[:draw.choice(ends) if kind == "cut at a block" else draw.randrange(first, last + 1)]
    if kind in ("a block less", "a block twice", "another's block") and len(ends) > 1:
        number = draw.randrange(len(ends) - 1)
        low, high = ends[number], ends[number + 1]
        other = block((1, 1), number + 1, draw.randbytes(high - low - 24))
        return image[:low] + {"a block less": b"", "a block twice": 2 * image[low:high], "another's block": other}[kind] + image[high:]
    return image + behind(draw, kind, ends_of(name, image))


def drawn_folder(draw: random.Random, place: str, medias: list[str], run: int, counts: collections.Counter) -> Folder:
    """A folder of a drive or several, whose volumes have blocks of the runs of some times."""
    folder = Folder()
    names = draw.sample(NAMES, draw.randint(2, 9))
    for media in dict.fromkeys([*medias, draw.choice(("Disc", medias[0]))]):
        own, names = names[:(len(names) + 1) // 2], names[(len(names) + 1) // 2:]
        if own:
            filled(draw, place, media, own, [run, run + 1], folder)
    for name in sorted(folder.truth):
        kind, spoilt = picked(draw, NOTES), picked(draw, DAMAGES)
        image = folder.truth[name]
        if kind != "none" and not name.startswith("."):
            image, folder.files[f"{name}~"] = with_note(draw, kind, name, folder, image)
        folder.truth[name] = image
        noted = folder.noted.get(name, ends_of(name, image)[0][0])
        folder.files[name] = damaged(draw, spoilt, name, image, noted)
        counts[f"note: {kind}"] += 1
        counts[f"damage: {spoilt}"] += 1
    others(draw, folder)
    return folder


def others(draw: random.Random, folder: Folder):
    """What else may be there: notes without their volumes, copies under another name, what is no volume, and what a stop left."""
    free = [name for name in NAMES if name not in folder.files]
    draw.shuffle(free)
    if draw.random() < 0.5:
        gone = free.pop()
        folder.files[f"{gone}~"] = draw.choice((note(5, 92, 0, 1, 0), b"", b"x" * 48))
    if draw.random() < 0.5:
        name, other = draw.choice(sorted(folder.truth)), free.pop()
        folder.files[other] = folder.files[name]
        if draw.random() < 0.5 and folder.files.get(f"{name}~"):
            folder.files[f"{other}~"] = folder.files[f"{name}~"]
    if draw.random() < 0.5:
        folder.files.update({"text": b"some text", "text~": b"an older text", "Folder": None, "two words": b"x", "Vol-1~~": b"half a no", "Vol-2~gone": b"y"})
    if draw.random() < 0.3:
        folder.files[free.pop()] = b""


def drawn_site(folder: pathlib.Path, number: int, draw: random.Random, counts: collections.Counter) -> tuple[Site, dict[str, Folder]]:
    """A site of some drives, which may share folders, with what is drawn for each folder. A folder may be gone."""
    places = [f"d{draw.randint(1, 3)}" for _ in range(draw.randint(1, 4))]
    site, folders = Site(folder / f"drawn-{number}", [(draw.choice(MEDIA), place) for place in places]), {}
    for at, place in enumerate(dict.fromkeys(place for _, place in site.drives)):
        if draw.random() < 0.08:
            shutil.rmtree(place)
            counts["folders gone"] += 1
            continue
        medias = list(dict.fromkeys(media for media, other in site.drives if other == place))
        folders[place] = drawn_folder(draw, place, medias, 1000 + 10 * at, counts)
    return site, folders


class Trial:
    """Starts over a site whose folders hold that, and what is compared."""

    def __init__(self, checks: Checks, site: Site, folders: dict[str, Folder], draw: random.Random, counts: collections.Counter):
        self.checks, self.site, self.folders, self.draw, self.counts = checks, site, folders, draw, counts
        for place, folder in folders.items():
            site.lay(place, folder.files)
        self.stop = site.folder / "stop"

    def held(self):
        """Two starts, the first perhaps with names of damaged volumes that are to be adopted."""
        names = [name for folder in self.folders.values() for name in folder.truth]
        cleared = self.draw.sample(sorted(set(names)), min(2, len(set(names)))) + ["No-such"] if self.draw.random() < 0.35 else []
        self.started(cleared)
        self.started([])

    def started(self, cleared: list[str]):
        before = self.site.left()
        words = [word for name in cleared for word in ("--adopt-damaged", name)]
        with self.site.daemon(*words, "--metrics", self.site.figures_file, "--until", self.stop) as daemon:
            time = self.site.time_of(daemon)
            wanted = Started(self.site.drives, before, time, cleared)
            status = self.site.ask("status")[0]
            compared.log(self.checks, self.site, daemon, wanted)
            compared.status(self.checks, self.site, status, wanted)
            compared.files(self.checks, self.site, before, wanted)
            self.below_notes(before, wanted)
            self.console(wanted)
            self.sessions(wanted)
            self.job(wanted)
            self.checks.same("its end", self.site.ends(daemon, self.stop), ("", 0))
        self.after(before, wanted)
        self.figures(wanted)
        self.verified(wanted)
        for fate in wanted.fates.values():
            self.counts[fate.refusal[:4] or fate.kind] += 1
            self.counts["by a note"] += fate.kind == "adopted" and fate.start > 0
            self.counts["cut"] += fate.kind == "adopted" and fate.cut > 0
        self.counts["missing"] += sum(wanted.missing.values())
        self.counts["asked for"] += sum(line.startswith("no volume") for line in wanted.lines) + len(wanted.asked)

    def below_notes(self, before: dict[str, Files], wanted: Started):
        """Nothing is cut that a note says was safe, whatever happened to the volume."""
        after = self.site.left()
        for (place, name) in wanted.fates:
            end = self.folders[place].noted.get(name, 0)
            if end and note_in(before[place].get(f"{name}~")) and name not in wanted.cleared:
                self.checks.same(f"{name} below its note", after[place][name][:end], before[place][name][:end])
                self.counts["nothing below a note is cut"] += 1

    def after(self, before: dict[str, Files], wanted: Started):
        """Once the daemon has ended each adopted volume has its note, and no other file was touched."""
        after, adopted = self.site.left(), {key for key, fate in wanted.fates.items() if fate.kind == "adopted"}
        for place, files in before.items():
            for name in sorted({*files, *after[place]}):
                volume = name.rstrip("~")
                if (place, volume) not in adopted and not (volume in wanted.asked and name == f"{volume}~") and volume not in self.added:
                    self.checks.same(f"{name}, which is none that is adopted", after[place].get(name), files.get(name))
        for place, name in adopted:
            got = note_in(after[place].get(f"{name}~"))
            if name.startswith(".") or (place, name) in wanted.unnoted:
                self.checks.same(f"no note of {name}", got, None)
            elif name in self.grown:
                self.checks.check(f"note of {name}, which grew", isinstance(got, Note) and got.end > wanted.fates[place, name].end, got)
            else:
                self.checks.same(f"note of {name}", got, wanted.fates[place, name].note())

    def console(self, wanted: Started):
        """The name of a damaged volume is taken; it can't be mounted."""
        for (_, name), fate in wanted.fates.items():
            if fate.kind not in ("damaged", "torn") or self.counts["console lines"] > 300:
                continue
            media = self.site.drives[fate.drive - 1][0]
            self.checks.same(f"lines of {name}", self.site.ask(f"label {fate.drive} {name} Default {media}", f"adopt {fate.drive} {name}", f"mount {fate.drive} {name}"),
                             [["3935 Volume already labelled"], ["3935 Volume already labelled"], ["3930 Volume not on the shelf"]])
            self.counts["console lines"] += 3

    def sessions(self, wanted: Started):
        """A session is read whole if all its volumes are known to one drive and have its bytes still; else its records up to some place."""
        after = self.site.left()
        for place, folder in self.folders.items():
            for one in folder.kept:
                fates = [wanted.fates.get((place, name)) for name, *_ in one.spans()]
                is_known = all(fate and fate.kind in ("adopted", "damaged", "torn") for fate in fates) and len({fate.drive for fate in fates}) == 1
                has_all = all(after[place].get(name, b"")[low:high] == part for (name, low, high), part in zip(one.spans(), one.parts))
                records, refusal = self.site.read(one.lines)
                if is_known and has_all:
                    self.checks.same(f"{one.lines[0]} on {[fate.kind for fate in fates]}", (records, refusal), (one.records, ""))
                    self.counts["read whole"] += 1
                    self.counts["read on a damaged volume"] += any(fate.kind == "damaged" for fate in fates)
                else:
                    self.checks.check(f"{one.lines[0]}, which isn't whole", refusal != "", records)
                    if is_known:
                        self.checks.same(f"{one.lines[0]}, up to what is lost", records, one.records[:len(records)])
                    self.counts["not read"] += 1

    added: typing.AbstractSet[str] = frozenset()
    grown: typing.AbstractSet[str] = frozenset()

    def job(self, wanted: Started):
        """Where a media has one drive, a job goes to its first volume of the pool, or to a new one."""
        self.added, self.grown = set(), set()
        medias = collections.Counter(media for media, _ in self.site.drives)
        for number, (media, place) in enumerate(self.site.drives, 1):
            if medias[media] > 1 or place not in self.folders:
                continue
            own = [name for (_, name), fate in wanted.fates.items() if fate.kind == "adopted" and fate.drive == number]
            if not own:
                own = [f"New-{wanted.time}-{number}"]
                self.checks.same("a label", self.site.ask(f"label {number} {own[0]} Default {media}"), [["ok labelled"]])
                self.added = {*self.added, own[0]}
            records = [(index, 2, self.draw.randbytes(300)) for index in (1, 2)]
            lines = self.appended(media, records)
            self.checks.same("where a job lies", {line.split()[1] for line in lines[1:]}, {own[0]})
            self.grown = {*self.grown, own[0]}
            folder = self.folders[place]
            folder.kept.append(with_parts(Kept(place, tuple(lines), records), {own[0]: pathlib.Path(place, own[0]).read_bytes()}))
            folder.noted.pop(own[0], None)
            self.counts["jobs"] += 1

    def appended(self, media: str, records: list[tuple[int, int, bytes]]) -> list[str]:
        with self.site.talk() as talk:
            ticket = client.open_session(talk, 7, "Default", media)
            for index, stream, data in records:
                client.append_packets(talk, ticket, [client.packet(data)], index, stream)
            lines = client.close_session(talk, ticket)
            talk.terminate()
            return lines

    def figures(self, wanted: Started):
        got = self.site.figures()
        places = {f'sdd_volume_damaged_at_bytes{{drive="{drive}",volume="{name}"}}': at for (drive, name), at in wanted.damaged().items()}
        self.checks.same("places", {name: value for name, value in got.items() if name.startswith("sdd_volume_damaged_at_bytes")}, places)
        damaged = collections.Counter(drive for drive, _ in wanted.damaged())
        for number in range(1, len(self.site.drives) + 1):
            for name, value in (("damaged_volumes", damaged[number]), ("missing_volumes", wanted.missing[number])):
                self.checks.same(f"{name} of drive {number}", got.get(f'sdd_{name}{{drive="{number}"}}'), value)
            unnoted = any(wanted.fates[key].drive == number for key in wanted.unnoted)
            self.checks.same(f"a failure of drive {number}'s notes", got.get(f'sdd_note_failures_total{{drive="{number}"}}', 0) > 0, unnoted)

    def verified(self, wanted: Started):
        """`sdtool verify` tells damage of each volume that the start took for damaged."""
        for place in self.folders:
            said = subprocess.run([SDTOOL, "verify", place], capture_output=True, text=True, timeout=WAIT).stdout
            found = {line.split()[1] for line in said.splitlines() if line.startswith("damage ")}
            due = {name for (other, name), fate in wanted.fates.items() if other == place and fate.kind == "damaged"}
            self.checks.same(f"verify, of {sorted(due)}", due - found, set())


def starts(checks: Checks, folder: pathlib.Path, sites: int = SITES) -> None:
    counts: collections.Counter = collections.Counter()
    for number in range(sites):
        draw = random.Random(SEED + number)
        with told(checks, f"drawn {SEED + number}"):
            site, folders = drawn_site(folder, number, draw, counts)
            Trial(checks, site, folders, draw, counts).held()
        shutil.rmtree(folder / f"drawn-{number}", ignore_errors=True)
    checks.group = "drawn"
    few = {what: counts[what] for what, least in FLOORS.items() if counts[what] < least}
    few |= {what: counts[what] for kind, kinds in (("note", NOTES), ("damage", DAMAGES)) for what in (f"{kind}: {one}" for one in kinds) if counts[what] < 3}
    checks.same("what came too rarely", few, {})
    print("drawn:", ", ".join(f"{count} {what}" for what, count in sorted(counts.items())))
