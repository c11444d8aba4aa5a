"""`restore --salvage` of damaged volumes beside a model: tests/scan/salvaging.py says which records of a session are whole, and
the catalogue where each file's member is. Just the files whose members are whole are restored, and nothing that lacks something
ends with status 0."""
import collections
import os
import pathlib
import random
import shutil
import sys

sys.path.append(str(pathlib.Path(__file__).resolve().parent.parent / "scan"))
import salvaging
from sdd_client.catalogue import Catalogue
from sdd_client.chosen import job_at
from sdd_client.state import State
from site_of_test import is_told
from words import found_in

SEED = 74
# So often volumes are damaged in some way, and so many of the ends must have come up.
TRIES, LEAST = 14, {0: 1, 1: 1, 3: 6}
BLOCK, RECORD = 4096, 2048
SETTINGS = f"block = {BLOCK}\nvolume = 120000\n"


def drawn_files(site, draw, count=30):
    """Plain files of drawn sizes in some folders."""
    for number in range(count):
        path = site.files / f"folder {number % 4}" / f"file {number}"
        path.parent.mkdir(parents=True, exist_ok=True)
        path.write_bytes(draw.randbytes(draw.choice([0, 1, 500, 3000, 9000, 30_000])))


def images(folder):
    return {path.name: path.read_bytes() for path in folder.glob("Vol-*")}


def damaged(draw, files, number):
    """The volumes with some damage: at first none, then all away that have more than a label, and then as it is drawn: bytes
    changed, cut, holes, blocks that are gone or lie elsewhere, a volume that is away."""
    files = dict(files)
    filled = sorted(name for name in files if len(files[name]) > BLOCK)
    if number < 2:
        return {name: files[name] for name in files if number == 0 or name not in filled}
    for name in draw.sample(filled, min(len(filled), draw.randrange(1, 3))):
        content = bytearray(files[name])
        at = draw.randrange(len(content))
        way = draw.choice(["flip", "flip", "cut", "hole", "gone", "foreign", "away"])
        if way == "flip":
            content[at] ^= draw.randrange(1, 256)
        elif way == "cut":
            del content[at:]
        elif way == "hole":
            content[at:at + BLOCK] = bytes(len(content[at:at + BLOCK]))
        elif way == "gone":
            del content[at:at + draw.choice([1, BLOCK])]
        elif way == "foreign":
            other = files[draw.choice(filled)]
            content[at:at + 2 * BLOCK] = other[at:at + 2 * BLOCK]
        files[name] = bytes(content)
        if way == "away":
            del files[name]
    return files


def put(folder, files):
    shutil.rmtree(folder, ignore_errors=True)
    folder.mkdir()
    for name, content in files.items():
        (folder / name).write_bytes(content)


def session_of(lines):
    """The key and the spans that the lines of a session say."""
    _, seconds, number = lines[0].split()
    return (int(seconds), int(number)), [(words[1], int(words[5]), int(words[6])) for words in map(str.split, lines[1:])]


def bytes_there(files, place, record):
    """Which bytes of a session's stream are in records that are whole, marked by 1, and whether some may be lost, by the
    model."""
    _, status, records = salvaging.salvaged(files, *session_of(place.lines))
    there = bytearray(place.raw)
    for index, stream, data in records:
        if stream == 2:
            there[(index - 1) * record:(index - 1) * record + len(data)] = len(data) * b"\1"
    return there, bool(status)


def expected(files, state, record):
    """The paths of the members that are whole, those of the others, and whether anything is lost in their sessions."""
    there, is_damaged = {}, False
    for number, place in state.places.items():
        there[number], lost = bytes_there(files, place, record)
        is_damaged |= lost
    whole, lacking = set(), set()
    for row in state.rows():
        if row.is_member():
            is_whole = there[row.session].count(1, row.offset, row.offset + row.length) == row.length
            (whole if is_whole else lacking).add(row.path)
    return whole, lacking, is_damaged


def kept_files(folder):
    """What the plain files are that a restore made, by their paths in the backup."""
    return {b"/" + name: data for name, (data, _, _) in found_in(folder).items()} if folder.exists() else {}


def salvaged_jobs(checks, site):
    """A job of many small sessions, of which volumes are damaged in drawn ways."""
    draw, came = random.Random(SEED), collections.Counter()
    drawn_files(site, draw)
    with site.daemon():
        for number in range(1, 5):
            site.label(f"Vol-{number:04}")
        is_told(checks, "backup", site.say("--record", RECORD, "backup", "j", "--session", "60K", site.files), 0)
    files, hurt = images(site.volumes), site.folder / "hurt"
    kept = {b"/" + os.fsencode(str(site.files / os.fsdecode(name))).lstrip(b"/"): data
            for name, (data, _, _) in found_in(site.files).items()}
    with Catalogue(site.catalogue) as catalogue:
        state = State(catalogue, job_at(catalogue, "j", None, None))
        checks.check("several sessions", len(state.places) > 3, len(state.places))
        for number in range(TRIES):
            broken = damaged(draw, files, number)
            put(hurt, broken)
            out = site.folder / "out" / str(number)
            said, status = site.say("--volumes", hurt, "restore", "j", "--salvage", "--to", out)
            whole, lacking, is_damaged = expected(broken, state, RECORD)
            wanted = 0 if not is_damaged else 3 if whole else 1
            checks.same(f"{number}: status", status, wanted)
            checks.same(f"{number}: files", kept_files(out), {path: data for path, data in kept.items() if path in whole})
            checks.same(f"{number}: named", {line.partition("sdd-client: ")[2].partition(": not restored")[0] for line in said.splitlines()
                                            if ": not restored" in line}, set(map(os.fsdecode, lacking)))
            checks.check(f"{number}: told", "Traceback" not in said and ("session " in said) == is_damaged, said)
            came[status] += 1
            if not status:
                is_told(checks, f"{number}: as it is restored", site.say("--volumes", hurt, "restore", "j", "--to", f"{out}-plain"), 0)
                checks.same(f"{number}: the same", kept_files(pathlib.Path(f"{out}-plain")), kept_files(out))
            shutil.rmtree(site.folder / "out", ignore_errors=True)
    print("salvaged jobs:", *(f"status {status}: {count}" for status, count in sorted(came.items())))
    checks.check("enough was drawn", all(came[status] >= least for status, least in LEAST.items()), came)
    some_of(checks, site, files, hurt)


def some_of(checks, site, files, hurt):
    """One path of a job, where another is damaged; and what can't be."""
    put(hurt, files)
    with Catalogue(site.catalogue) as catalogue:
        state = State(catalogue, job_at(catalogue, "j", None, None))
        rows = [row for row in state.rows() if row.is_member() and row.kind == "f" and row.session == 1]
        key, spans = session_of(state.places[1].lines)
    volume, start, _ = spans[0]
    content = bytearray(files[volume])
    # The first block of the session holds the first members' headers.
    content[start + 60] ^= 1
    (hurt / volume).write_bytes(content)
    last = os.fsdecode(rows[-1].path)
    came = site.say("--volumes", hurt, "restore", "j", last, "--salvage", "--to", site.folder / "one")
    is_told(checks, "one path", came, 3, "are restored, but the sessions are damaged" if "aren't" not in came[0] else "aren't")
    checks.check("it is there", (site.folder / "one" / last.lstrip("/")).exists(), came)
    is_told(checks, "without the volumes", site.say("restore", "j", "--salvage", "--to", site.folder / "no"), 2, "--volumes")
    is_told(checks, "no such path", site.say("--volumes", hurt, "restore", "j", "/nowhere", "--salvage", "--to", site.folder / "no"), 1)
    for path in hurt.iterdir():
        path.unlink()
    is_told(checks, "no volume", site.say("--volumes", hurt, "restore", "j", "--salvage", "--to", site.folder / "no"), 1, "nothing is there whole")
    checks.check("no folder is made", not (site.folder / "no").exists())
    without = {**site.env, "PATH": os.environ["PATH"]}
    is_told(checks, "no sdtool", site.say("--volumes", hurt, "restore", "j", "--salvage", "--to", site.folder / "no", env=without), 1, "sdtool")


def salvaged_through_stages(checks, site):
    """Of a session that went through stages just the members before its first gap are restored."""
    if not shutil.which("gzip"):
        print(f"not run: {checks.group}, which needs gzip")
        return
    draw, came = random.Random(SEED + 1), collections.Counter()
    drawn_files(site, draw)
    with site.daemon():
        for number in range(1, 5):
            site.label(f"Vol-{number:04}")
        is_told(checks, "backup", site.say("--record", RECORD, "backup", "j", "--through", "gzip", site.files), 0)
    files, hurt = images(site.volumes), site.folder / "hurt"
    kept = {os.fsencode(str(site.files / os.fsdecode(name))): data for name, (data, _, _) in found_in(site.files).items()}
    with Catalogue(site.catalogue) as catalogue:
        state = State(catalogue, job_at(catalogue, "j", None, None))
        order = [row.path for row in state.rows() if row.is_member()]
        for number in range(TRIES // 2):
            broken = damaged(draw, files, number)
            put(hurt, broken)
            out = site.folder / "out"
            said, status = site.say("--volumes", hurt, "restore", "j", "--salvage", "--to", out)
            lost = any(bytes_there(broken, place, RECORD)[1] for place in state.places.values())
            got = kept_files(out)
            checks.check(f"{number}: status", status in ((1, 3) if lost else (0,)), (status, lost, said))
            checks.check(f"{number}: each is whole", all(kept.get(path) == data for path, data in got.items()), sorted(got))
            members = [path for path in order if path in kept]
            checks.same(f"{number}: the first ones", sorted(got), sorted(members[:len(got)]))
            if not lost:
                checks.same(f"{number}: all", got, kept)
            came["lost" if lost else "whole"] += 1
            came["some"] += lost and 0 < len(got) < len(kept)
            shutil.rmtree(out, ignore_errors=True)
    print("salvaged through stages:", *(f"{what} {count}" for what, count in came.items()))
    checks.check("enough was drawn", came["lost"] >= 4 and came["some"] >= 1 and came["whole"] >= 1, came)


def salvaged_plain_files(checks, site):
    """Plain files with a file of spans: those are made of which nothing may be lost, by the records that the model gives."""
    draw, came = random.Random(SEED + 2), collections.Counter()
    drawn_files(site, draw, 12)
    spans = site.folder / "spans"
    with site.daemon():
        for number in range(1, 5):
            site.label(f"Vol-{number:04}")
        is_told(checks, "backup", site.say("--record", RECORD, "backup", "--spans", spans, site.files), 0)
    files, hurt, out = images(site.volumes), site.folder / "hurt", site.folder / "out"
    kept = kept_files(site.files)
    below = str(site.files).lstrip("/")
    for number in range(TRIES):
        broken = damaged(draw, files, number)
        put(hurt, broken)
        said, status = site.say("--volumes", hurt, "restore", spans, out, "--salvage")
        wanted, lost = files_of(broken, *session_of(spans.read_text().splitlines()))
        got = {path.removeprefix(os.fsencode(f"/{below}")): data for path, data in kept_files(out).items()}
        checks.same(f"{number}: files", got, {path: kept[path] for path in (name.removeprefix(os.fsencode(below)) for name in wanted)})
        checks.same(f"{number}: status", status, 0 if not lost else 3 if wanted else 1)
        checks.check(f"{number}: told", "Traceback" not in said and ("may be lost" in said) == lost, said)
        came[status] += 1
        shutil.rmtree(out, ignore_errors=True)
    print("salvaged plain files:", *(f"status {status}: {count}" for status, count in sorted(came.items())))
    checks.check("enough was drawn", all(came[status] >= least for status, least in LEAST.items()), came)
    checks.same("parts", site.parts(), [])


def files_of(files, key, spans):
    """The names of the files between whose records nothing may be lost, and whether anything may be, by the model: a file is
    whole if its name and what begins the next one, or the session's end, come without a gap between."""
    printed, status, records = salvaging.salvaged(files, key, spans)
    names, current, is_whole, rest, left = [], None, True, printed, list(records)
    while rest:
        line, _, rest = rest.partition(b"\n")
        if line.startswith(b"rec "):
            index, stream, data = left.pop(0)
            rest = rest[len(data) + 1:]
            if stream == 1:
                if current is not None and is_whole:
                    names.append(current)
                current, is_whole = data.split(b" ", 2)[2], True
        elif line.startswith(b"gap "):
            is_whole = False
    if current is not None and is_whole:
        names.append(current)
    return names, bool(status)


GROUPS = {salvaged_jobs: SETTINGS, salvaged_through_stages: SETTINGS, salvaged_plain_files: SETTINGS}
