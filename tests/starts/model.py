"""What a start with `--adopt` makes of its folders: a model of its own over whole files in memory, by docs/use/FORMATS.md and
docs/use/OPERATIONS.md, 'Stop and start'."""
from __future__ import annotations

import collections
import dataclasses
import re
import typing

from blocks import Label, NAME, Note, label_of, note_in, whole_block
from volumes import LEAST_BLOCK, MOST_VOLUME

NO_SESSION = (0, 0)
NOT_OURS, OTHER_MEDIA, TAKEN, OF_THIS_RUN = ("3931 Not a volume of this profile", "3932 Other pool or media", "3935 Volume already labelled",
                                             "3936 Volume has blocks of this run")
# What is in a folder under a name: the bytes of a regular file, or nothing for anything else.
Files = dict[str, typing.Optional[bytes]]


class Run(typing.NamedTuple):
    """Whole blocks one after another: where they end, the number that is due there, where the last of them begins, and the greatest
    time of their sessions."""
    end: int
    next_number: int
    last: int
    time: int


def run_from(image: bytes, at: int, number: int, last: int = 0) -> Run:
    time = 0
    while not isinstance(found := whole_block(image, at), str) and found[1] == number:
        last, at, number, time = at, at + found[0], number + 1, max(time, found[2][0])
    return Run(at, number, last, time)


def has_own_behind(image: bytes, run: Run) -> bool:
    """Whether behind a place a block stands that may be the volume's own: of a session, of a later number than is due, and with room
    for those between."""
    at = run.end
    while (found := image.find(b"BB02", at + 12)) >= 0:
        at = found - 12
        block = whole_block(image, at)
        if not isinstance(block, str):
            _, number, key, _ = block
            if key != NO_SESSION and number > run.next_number and (number - run.next_number) * LEAST_BLOCK <= at - run.end:
                return True
        at += 1
    return False


def stands_last(image: bytes, note: Note) -> bool:
    """Whether a whole block ends where the note says, begins where it says, and has the number before the next one."""
    block = whole_block(image, note.last) if note.last <= len(image) else "short"
    return not isinstance(block, str) and (note.last + block[0], block[1] + 1) == (note.end, note.next_number)


@dataclasses.dataclass(frozen=True)
class Judged:
    """What a file is under its name: `whole`, `noted`, `damaged` or `torn` at a place, or `not ours`; its label, and the note that
    counts for it."""
    kind: str
    label: typing.Optional[Label] = None
    note: typing.Optional[Note] = None
    at: int = 0


def judged(name: str, image: bytes, content: typing.Optional[bytes]) -> Judged:
    label, note = label_of(name, image), None if name.startswith(".") else note_in(content)
    if label is None or len(image) > MOST_VOLUME:
        # A note tells that a label stood there.
        return Judged("damaged", label) if isinstance(note, Note) else Judged("not ours", label)
    if not isinstance(note, Note) or note.moment != label.moment:
        run = run_from(image, label.size, 1)
        return Judged("damaged", label, None, run.end) if has_own_behind(image, run) else Judged("whole", label)
    if len(image) < note.end:
        return Judged("damaged", label, note, len(image))
    if not stands_last(image, note):
        return Judged("damaged", label, note, note.last)
    if note.torn is not None:
        return Judged("damaged" if run_from(image, note.end, note.next_number).end > note.torn else "torn", label, note, note.torn)
    return Judged("noted", label, note)


class Fate(typing.NamedTuple):
    """What becomes of a file at a start: `adopted`, `damaged` at a place, `torn` when the disk had so much of it, or `refused`. Of what is
    adopted: where its blocks end, the number of the next, where the last of them begins, how many bytes are cut, and from where on it
    was read, 0 if all of it was; and the greatest time that its note says then. `tried` says that an adoption was."""
    kind: str
    drive: int
    refusal: str = ""
    tried: bool = False
    at: int = 0
    end: int = 0
    next_number: int = 0
    last: int = 0
    cut: int = 0
    start: int = 0
    time: int = 0
    label: typing.Optional[Label] = None

    def line(self, name: str) -> str:
        """What the log has of it."""
        said = {"adopted": f"is adopted up to {self.end}, its next block is {self.next_number}; cut {self.cut} bytes, read from {self.start} on",
                "damaged": f"is damaged at {self.at}, and isn't adopted",
                "torn": f"isn't adopted, since a sync of it failed when the disk had {self.at} bytes",
                "refused": f"can't be adopted: {self.refusal}"}
        return f"drive {self.drive}: volume {name} {said[self.kind]}"

    def note(self) -> Note:
        """Its note a moment after the start."""
        return Note(self.label.moment, self.end, self.last, self.next_number, self.time, None)


def fits(note: Note, image: bytes, label: Label, time: int) -> bool:
    """Whether an adoption reads on from where the note says. That is so if its last block is one behind the label, of an earlier run."""
    block = whole_block(image, note.last) if note.last <= len(image) else "short"
    return (label.size <= note.last and note.time < time and note.next_number * LEAST_BLOCK <= note.end
            and stands_last(image, note) and block[2][0] < time)


def adopted(image: bytes, one: Judged, time: int, drive: int) -> Fate:
    """What an adoption by a run of that time makes of a volume that is the drive's."""
    label, note = one.label, one.note
    is_noted = note is not None and fits(note, image, label, time)
    run = run_from(image, note.end, note.next_number, note.last) if is_noted else run_from(image, label.size, 1)
    if run.time >= time:
        return Fate("refused", drive, OF_THIS_RUN, True)
    is_known = note is not None and note.end == run.end and note.time < time
    latest = 0 if run.next_number == 1 else note.time if is_known else time - 1
    return Fate("adopted", drive, "", True, 0, run.end, run.next_number, run.last, len(image) - run.end, note.end if note else 0, latest, label)


def rank(name: str) -> list[tuple[int, str]]:
    """By this names are ordered, numbers in them as numbers."""
    return [(len(word) if word.isdigit() else 0, word) for word in re.split(r"(\d+)", name)]


def is_volume(name: str, files: Files) -> bool:
    """Whether that is a regular file whose name a volume may have."""
    return bool(NAME.fullmatch(name)) and files.get(name) is not None


def is_note(name: str, files: Files) -> bool:
    return name.endswith("~") and not name.startswith(".") and bool(NAME.fullmatch(name[:-1])) and files[name] is not None


class Started:
    """What a start made of all files: the fate of each by its folder and name, in the order in which they come; the lines of the log
    before the adoptions, and those of each drive's adoptions, in their order; by drive how many volumes are missing; and the names of
    damaged volumes that an adoption is tried of."""

    def __init__(self, drives: list[tuple[str, str]], folders: dict[str, Files], time: int, cleared: typing.Sequence[str] = ()):
        """Of drives, each a media and a folder; a run of that time, with names of damaged volumes that are to be adopted."""
        self.drives, self.time, self.cleared = drives, time, cleared
        self.fates: dict[tuple[str, str], Fate] = {}
        self.lines: list[str] = []
        self.missing: collections.Counter[int] = collections.Counter()
        self._names: set[str] = set()
        self.asked: set[str] = set()
        places = [place for _, place in drives]
        for number, place in enumerate(places, 1):
            if places.index(place) == number - 1:
                self._folder(number, place, folders.get(place))
        self.lines += [f"no volume {name} is damaged, so none is adopted as such" for name in cleared if name not in self.asked]
        # Adopted ones whose note can't be written, since a folder has its place.
        self.unnoted = {(place, name) for (place, name), fate in self.fates.items()
                        if fate.kind == "adopted" and not name.startswith(".") and folders[place].get(f"{name}~", b"") is None}

    def _folder(self, number: int, place: str, files: typing.Optional[Files]):
        """The folder of that place, whose first drive has that number. Nothing is in it if it can't be listed."""
        if files is None:
            self.lines.append(f"drive {number}: its folder {place} can't be listed")
            return
        missing = sorted((name[:-1] for name in files if is_note(name, files) and not is_volume(name[:-1], files)), key=rank)
        self.missing[number] += len(missing)
        self.lines += [f"drive {number}: volume {name} is missing, its note is there" for name in missing]
        for name in sorted((name for name in files if is_volume(name, files)), key=rank):
            one = judged(name, files[name], files.get(f"{name}~"))
            drive = self._drive_for(number, place, one.label)
            if why := self._unheeded(name, files):
                self.lines.append(f"drive {drive or number}: the note of volume {name} isn't heeded: it {why}")
            found = self.fates[place, name] = self._fate(name, files[name], one, drive or number, drive > 0)
            if not found.tried:
                self.lines.append(found.line(name))

    def _drive_for(self, number: int, place: str, label: typing.Optional[Label]) -> int:
        """The first drive of that folder that has the label's media, 0 if none has; the first of all without a label."""
        if label is None:
            return number
        return next((other for other, drive in enumerate(self.drives, 1) if drive == (label.media, place)), 0)

    @staticmethod
    def _unheeded(name: str, files: Files) -> str:
        """Why a note isn't heeded that is there."""
        if name.startswith(".") or f"{name}~" not in files:
            return ""
        words = {"form": "has another form", "damaged": "is damaged"}
        content = files[f"{name}~"]
        return "can't be read" if content is None else words.get(note_in(content), "")

    def _fate(self, name: str, image: bytes, one: Judged, drive: int, is_own: bool) -> Fate:
        if name in self._names:
            return Fate("refused", drive, TAKEN)
        if one.kind == "not ours":
            return Fate("refused", drive, NOT_OURS)
        if not is_own:
            return Fate("refused", drive, OTHER_MEDIA)
        self._names.add(name)
        if one.kind in ("damaged", "torn") and name not in self.cleared:
            return Fate(one.kind, drive, at=one.at, label=one.label)
        if one.kind in ("damaged", "torn"):
            self.asked.add(name)
            if one.label is None or len(image) > MOST_VOLUME:
                return Fate("refused", drive, NOT_OURS, True)
            one = Judged("whole", one.label)
        return adopted(image, one, self.time, drive)

    def tried_lines(self, drive: int) -> list[str]:
        """What the log has of the adoptions of a drive."""
        return [fate.line(name) for (_, name), fate in self.fates.items() if fate.tried and fate.drive == drive]

    def damaged(self) -> dict[tuple[int, str], int]:
        """The places of the damaged volumes by drive and name."""
        return {(fate.drive, name): fate.at for (_, name), fate in self.fates.items() if fate.kind in ("damaged", "torn")}
