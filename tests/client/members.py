"""Members of archives as they pass, beside Python's tarfile; their cutting into sessions, however they come; lists of files in
pieces. Without a daemon."""
import contextlib
import io
import itertools
import os
import queue
import random
import subprocess
import tarfile

from sdd_client import filelist
from sdd_client.catalogue import VERSION, Catalogue, listed
from sdd_client.chosen import MOST, runs_of
from sdd_client.cutter import Cutter
from sdd_client.errors import Failed
from sdd_client.filelist import Row, Writer, extents_of, plain, rows_of
from sdd_client.head import Head, Place
from sdd_client.tarcut import END, Damaged, Member, Members, Parser, nanoseconds, padded, usual
from sdd_client.tarrun import ARCHIVE
from trees import Tree

SEED = 84
LINES = ["session 1 1", "span Vol-0001 1 1 1 92 259"]


def archive_of(folder, *options):
    words = ["tar", "--create", *(options or ARCHIVE), f"--directory={folder.parent}", folder.name]
    return subprocess.run(words, stdout=subprocess.PIPE, stderr=subprocess.DEVNULL).stdout


def by_tarfile(data):
    """The members of an archive as tarfile has them: path, type, size, time, link, length of the headers."""
    with tarfile.open(fileobj=io.BytesIO(data), encoding="utf-8", errors="surrogateescape") as tar:
        for one in tar:
            said = {key: os.fsencode(value) for key, value in one.pax_headers.items()}
            kind = {b"1": "h", b"2": "l", b"3": "c", b"4": "b", b"5": "d", b"6": "p"}.get(one.type, "f")
            moment = nanoseconds(said["mtime"]) if "mtime" in said else int(one.mtime) * 10**9
            size = int(said.get("GNU.sparse.realsize", one.size)) if kind == "f" else 0
            path = said.get("GNU.sparse.name") or os.fsencode(one.name)
            yield path, kind, size, moment, os.fsencode(one.linkname) if kind in "hl" else b"", one.offset


def by_parser(data):
    parser, at = Parser(), 0
    while isinstance(member := parser.parsed(data, at, len(data)), Member):
        yield plain(member.path), member.kind, member.size, member.mtime, member.link, at
        at += member.length()


def parsed(checks, site):
    """Each member of drawn trees, in several formats, is as tarfile has it; of one that isn't all there nothing is made up."""
    is_root, many, as_most = os.geteuid() == 0, 0, 0
    for number, options in enumerate([(), (), ("--format=posix",), ("--format=gnu", "--sparse"), ("--format=ustar",),
                                      ("--format=posix", "--pax-option=comment:=x"), ("--format=posix", "--pax-option=globexthdr.name=g,a=b")]):
        folder = site.folder / f"tree{number}"
        Tree(random.Random(SEED + number), folder, is_root).grow(60)
        plain_files(random.Random(SEED + number), folder / "plain", 20 if options else 150)
        data = archive_of(folder, *options)
        wanted = [(plain(path), *others) for path, *others in by_tarfile(data)]
        # What counts for all members is before the first one, and here a part of it.
        wanted[0] = (*wanted[0][:-1], 0)
        got = list(by_parser(data))
        if options[:1] == ("--format=gnu",):
            # The size of GNU's sparse members without the holes, which the header has, is what is passed over.
            got, wanted = ([(*one[:2], *one[3:]) for one in rows] for rows in (got, wanted))
        checks.same(f"members {number}", got, [tuple(one) for one in wanted])
        many += len(got)
        checks.same(f"as a stream {number}", [at for *_, at in by_parser(data)], list(by_stream(data)))
        as_most += quickly(checks, number, data)
        cut_anywhere(checks, number, data)
    print(f"members: {many}, as most are: {as_most}")
    checks.check("many members", many > 300 and as_most > 100, (many, as_most))


def plain_files(numbers, folder, count):
    """Plain files as most are, with names of drawn lengths, and moments of few digits, of the far past and future too."""
    folder.mkdir()
    for number in range(count):
        path = folder / f"{number}{'x' * numbers.choice([1, 10, 30, 60, 80, 84, 85, 86, 90, 100])}"
        path.write_bytes(numbers.randbytes(numbers.choice([0, 1, 511, 512, 513, 3000])))
        seconds = numbers.choice([0, 1, 10**9, 1 << 33, -5, *4 * [2 * 10**9]])
        part = numbers.choice([0, 5, 120, 10**8, 999_999_999, *(numbers.randrange(10**9) for _ in range(4))])
        os.utime(path, ns=(10**18, seconds * 10**9 + part))


def quickly(checks, number, data):
    """What is read quickly of members that are as most are is what the parser says of them, and no byte before their ends is
    enough. Gives how many these are."""
    wrong, count = [], 0
    for *_, at in by_parser(data):
        member = Parser().parsed(data, at, len(data))
        if (one := next(usual(data, at, len(data)), None)) is None:
            continue
        count += 1
        path, size, moment, length = one
        if Member(path, "f", size, int(moment), b"", length - padded(size), size) != member or list(usual(data, at, at + member.headers - 1)):
            wrong.append((one, member))
    checks.same(f"quickly {number}", wrong, [])
    return count


def by_stream(data):
    """Where the members of an archive begin, if it comes as a stream."""
    stream, at = io.BytesIO(data), 0
    for member in Members(stream):
        yield at
        at += member.length()
        stream.seek(at)


def cut_anywhere(checks, number, data):
    """What is broken off within the headers of a member needs more bytes, or is damaged."""
    wrong, numbers, data = [], random.Random(SEED), memoryview(data)
    for *_, at in by_parser(data):
        whole = Parser().parsed(data, at, len(data))
        for end in (at, at + 511, at + whole.headers - 1, at + numbers.randrange(whole.headers)):
            needed = Parser().parsed(data[:end], at, end)
            if not isinstance(needed, int) or not end - at < needed <= whole.headers:
                wrong.append((at, end, needed))
    checks.same(f"cut {number}", wrong, [])


def damaged_headers(checks, site):
    """Changed headers are told, or change nothing that is looked at; where checksums are looked at all of them are told."""
    Tree(random.Random(SEED), site.folder / "tree", False).grow(40)
    data, numbers = archive_of(site.folder / "tree"), random.Random(SEED)
    good = list(by_parser(data))
    told = 0
    for *_, at in good[1:]:
        member = Parser().parsed(data, at, len(data))
        other = bytearray(data)
        other[at + member.headers - 512 + numbers.choice([0, 1, 125, 130, 156, 157])] ^= 1 << numbers.randrange(7)
        try:
            Parser(are_summed=True).parsed(other, at, len(other))
        except Damaged:
            told += 1
        try:
            list(by_parser(other))
        except (Damaged, OverflowError, ValueError) as why:
            checks.check("told as damaged", isinstance(why, Damaged), repr(why))
    checks.same("told by their sums", told, len(good) - 1)


class Collected:
    """A lane that keeps what it is given, in rooms of drawn sizes."""

    def __init__(self, numbers, sessions):
        self.numbers, self.sessions, self.session, self.free = numbers, sessions, None, queue.Queue()
        self.buffer = bytearray(1)

    def begin(self, session):
        self.session, session.data = session, bytearray()

    def room(self):
        self.buffer = bytearray(self.numbers.choice([100, 511, 512, 700, 2048, 70_000, 70_000]))
        return memoryview(self.buffer)

    def advance(self, count):
        self.session.data += self.buffer[:count]
        self.session.raw += count

    def put(self, data):
        self.session.data += data
        self.session.raw += len(data)

    def end(self):
        self.session = None

    def check(self):
        pass

    finish = check


class CollectingCutter(Cutter):
    def __init__(self, numbers, lanes, size, files):
        self.numbers = numbers
        super().__init__(None, lanes, size, files)

    def _add_lane(self):
        self.lanes.append(Collected(self.numbers, self.sessions))
        return self.lanes[-1]


class Trickle(io.RawIOBase):
    """A pipe that gives pieces of drawn sizes."""

    def __init__(self, data, numbers):
        self.data, self.at, self.numbers = data, 0, numbers

    def readable(self):
        return True

    def readinto(self, room):
        count = min(len(room), self.numbers.choice([1, 100, 512, 5000, 100_000, 100_000, 100_000]), len(self.data) - self.at)
        room[:count] = self.data[self.at:self.at + count]
        self.at += count
        return count


def cut(checks, site):
    """However a stream comes, its sessions are archives of whole members, none greater than it may be but one of one member,
    and the list says where each member lies."""
    Tree(random.Random(SEED), site.folder / "tree", False).grow(80)
    count = 0
    for options in ((), ("--format=posix", "--pax-option=globexthdr.name=g,a=b")):
        data = archive_of(site.folder / "tree", *options)
        wanted = [one[:5] for one in by_parser(data)]
        for size, lanes in ((1 << 40, 1), (20_000, 1), (9_000, 3), (1, 2)):
            pieces, numbers = [], random.Random(size)
            files = Writer(pieces.append)
            cutter = CollectingCutter(numbers, lanes, size, files)
            cutter._begin(cutter._add_lane())
            with contextlib.redirect_stderr(io.StringIO()):
                cutter.run(Trickle(data, numbers))
            files.finish()
            rows = list(rows_of(piece.data for piece in pieces))
            what = f"{options[:1]} {size} {lanes}"
            checks.same(f"{what}: members", [one[:5] for one in map(of_row, rows)], wanted)
            sessions = {one.number: one.data for one in cutter.sessions}
            checks.check(f"{what}: ends", all(data.endswith(END) and len(data) % 512 == 0 for data in sessions.values()))
            checks.check(f"{what}: many", (len(sessions) > 3) == (size < 1 << 30), len(sessions))
            wrong = [row for row in rows if not is_there(row, sessions[row.session])]
            checks.same(f"{what}: places", wrong, [])
            great = [one for one in sessions if len(sessions[one]) - 1024 > size and sum(row.session == one for row in rows) > 1]
            checks.same(f"{what}: great ones", great, [])
            count += len(sessions)
        for end in (100, 512, len(data) // 2, len(data) // 2 + 300):
            cutter = CollectingCutter(random.Random(end), 1, 1 << 40, Writer(lambda piece: None))
            cutter._begin(cutter._add_lane())
            try:
                cutter.run(Trickle(data[:end], random.Random(end)))
                checks.check(f"broken off at {end}", False)
            except Damaged as why:
                checks.check(f"broken off at {end}", "broken off" in str(why), why)
    print(f"sessions: {count}")


def of_row(row):
    return row.path, row.kind, row.size, row.mtime, row.text


def is_there(row, data):
    """Whether a session has that member where the list says."""
    member = Parser().parsed(data, row.offset, len(data))
    return isinstance(member, Member) and (plain(member.path), member.size, member.length()) == (row.path, row.size, row.length)


def lists(checks, site):
    """A list of many pieces is read back whole, of one session or all, and from files of gzip in one or many parts."""
    numbers = random.Random(SEED)
    rows = [Row("@", 0, 0, 0, 0, 0, b"/asked", b"")]
    for at in range(3000):
        path = b"/" + numbers.randbytes(numbers.randrange(1, 40)).replace(b"\0", b"/")
        rows.append(Row("f", numbers.randrange(10**9), -at * 10**9, 1 + at // 500 + numbers.randrange(2), 512 * at, 512, path, b""))
    rows.append(Row("!", 0, 0, 0, 0, 0, b"/fault", b"it changed"))
    size, filelist.PIECE = filelist.PIECE, 20_000
    with Catalogue(site.catalogue) as catalogue:
        head = Head("host", "j", 7, 1, 2, "Default", "File", 3000, 4, 1, sessions=[Place(LINES, 1, 1)])
        number = catalogue.keep(head, Place(["session 1 2", LINES[1]], 1, 1), listed(rows))
        checks.same("all", list(catalogue.rows(number)), rows[1:])
        checks.same("the path", catalogue.jobs()[0].paths, ["/asked"])
        for session in (1, 3, 7, 8):
            checks.same(f"session {session}", list(catalogue.rows(number, session)), [row for row in rows if row.session == session and row.is_member()])
        extents = [(row.session, row.offset, row.length) for row in rows if row.is_member()]
        checks.same("extents", list(catalogue.extents(number)), extents)
        checks.check("fewer pieces", len(list(catalogue.pieces(number, 1))) < len(list(catalogue.pieces(number))) / 3)
        whole = b"".join(catalogue.pieces(number))
        for step in (1, 1000, len(whole)):
            checks.same(f"in steps of {step}", list(rows_of(in_steps(whole, step))), rows)
            checks.same(f"extents in steps of {step}", list(extents_of(in_steps(whole, step))), extents)
        for other in (whole[:-1], whole[:1000], whole[:100] + b"?" + whole[101:], b"", b"x", whole + b"x"):
            for read in (rows_of, extents_of):
                try:
                    checks.check("broken", len(list(read([other]))) < 0)
                except Failed as why:
                    checks.check("told", "the list of files" in str(why), why)
    was = site.catalogue.read_bytes()
    with Catalogue(site.catalogue) as catalogue:
        checks.same("the version", catalogue.base.execute("PRAGMA user_version").fetchone()[0], VERSION)
    # The database counts its changes.
    checks.same("opened, and not changed", site.catalogue.read_bytes() == was, True)
    filelist.PIECE = size


def in_steps(data, step):
    return (data[at:at + step] for at in range(0, len(data), step))


def runs(checks, site):
    """Runs are the members in their order, and each is one stretch of a session."""
    numbers = random.Random(SEED)
    for least in (1, 20_000, 1 << 20):
        extents, session, at = [], 1, 0
        for _ in range(2000):
            if numbers.random() < 0.01:
                session, at = session + 1, 0
            at += numbers.choice([0, 0, 0, 0, 0, 0, 0, 512])
            extents.append((session, at, numbers.randrange(1, least + 1)))
            at += extents[-1][2]
        got, left = list(runs_of(extents)), iter(extents)
        for run in got:
            mine = list(itertools.islice(left, run.members))
            ends = [offset + length for _, offset, length in mine]
            fits = [run.start, *ends] == [offset for _, offset, _ in mine] + [run.start + run.length]
            checks.check(f"{least}: a stretch", fits and {one[0] for one in mine} == {run.session}, run)
            checks.check(f"{least}: not long", run.length < MOST + least, run)
        checks.same(f"{least}: all", sum(run.members for run in got), len(extents))
        checks.check(f"{least}: few", len(got) < len(extents) * (0.3 if least < MOST else 1), len(got))
    checks.same("none", list(runs_of([])), [])


GROUPS = dict.fromkeys([parsed, damaged_headers, cut, lists, runs], "")
