"""Single folders of which it is known what a start makes of them: a volume with each byte changed, volumes in the order of numbers, drives
that share folders and names, what is no folder, a drive that hangs, clients that come meanwhile, and damaged volumes that an
operator wants adopted."""
from __future__ import annotations

import collections
import os
import pathlib
import random
import shutil
import subprocess
import threading
import time

import compared
from blocks import label_of, note_in
from checks import Checks
from clients import client
from daemon import SDTOOL, WAIT, Daemon, NotListening, later_second
from drawn import Folder, Kept, Trial, ends_of, true_note, with_parts
from model import Started
from shim import Holds, loaded
from site_of import Site, Talk, settles
from volumes import MOST_VOLUME, Shelf, daemon_label, note, packed

SEED = 5
# A changed byte is at each such place; and a byte in the middle of a tail.
STEP, TAIL = 5, b"a tail, as a stop leaves it"


def one_volume(name: str, draw: random.Random, media: str = "File", sessions: int = 3) -> tuple[bytes, list[Kept]]:
    """A volume with some sessions of one block and of several."""
    shelf, kept = Shelf(1000), []
    shelf.add(name, daemon_label(name.encode(), media=media.encode(), moment=draw.randrange(2**40)))
    for number in range(sessions):
        records = [(1, 2, draw.randbytes(20)), (2, 3, draw.randbytes(150 * number))]
        kept.append(Kept("", tuple(shelf.place(packed(220, records, media=media.encode())).splitlines()), records))
    image = bytes(shelf.volumes[name])
    return image, [with_parts(one, {name: image}) for one in kept]


def each_byte(checks: Checks, folder: pathlib.Path, _: pathlib.Path):
    """A volume with each byte changed in turn, in its tail too: without a note, with one, and with one that lags."""
    draw, counts = random.Random(SEED), collections.Counter()
    sample, _ = one_volume("V-none-0000", draw)
    for kind in ("none", "true", "lags"):
        site = Site(folder / f"each_byte-{kind}")
        here = Folder()
        for at in range(0, len(sample) + len(TAIL), STEP):
            name = f"V-{kind}-{at:04}"
            image, kept = one_volume(name, draw)
            ends = ends_of(name, image)
            here.truth[name] = image
            here.kept += [one._replace(place=str(site.place)) for one in kept]
            whole = image + TAIL
            here.files[name] = whole[:at] + bytes([whole[at] ^ 1 << at % 8]) + whole[at + 1:] if at < len(whole) else whole
            if kind != "none":
                up_to = len(ends) - 1 if kind == "true" else 2
                here.files[f"{name}~"] = true_note(label_of(name, image).moment, ends, up_to)
                here.noted[name] = ends[up_to][0]
        checks.group = f"each byte, note {kind}"
        Trial(checks, site, {str(site.place): here}, draw, counts).started([])
        counts["volumes"] += len(here.truth)
    checks.same("what came too rarely", [what for what in ("damaged", "adopted", "3931", "read on a damaged volume", "not read") if counts[what] < 10], [])
    print("each_byte:", ", ".join(f"{count} {what}" for what, count in sorted(counts.items())))


def in_order(checks: Checks, folder: pathlib.Path, _: pathlib.Path):
    """Numbers in names count as numbers: a job goes to the volume of the least one."""
    site = Site(folder / "in_order")
    names = ["Vol-2", "Vol-10", "Vol-9", "Vol-09", "Vol-100", "A", "Vol", "Vol-"]
    site.lay(str(site.place), {name: daemon_label(name.encode()) for name in names if name != "A"})
    with site.daemon():
        said = [line.split()[1] for line in site.ask("status")[0] if line.startswith("volume ")]
        checks.same("the order", said, ["Vol", "Vol-", "Vol-2", "Vol-9", "Vol-09", "Vol-10", "Vol-100"])
        checks.same("the first", {line.split()[1] for line in site.job([b"x"])[1:]}, {"Vol"})


def shared(checks: Checks, folder: pathlib.Path, _: pathlib.Path):
    """Two drives of two media share a folder, another has a volume of the same name, and one has a folder that is none."""
    site, draw = Site(folder / "shared", [("File", "one"), ("Tape", "one"), ("Tape", "one"), ("File", "two"), ("File", "file")]), random.Random(SEED)
    shutil.rmtree(site.drives[4][1])
    pathlib.Path(site.drives[4][1]).write_bytes(b"kept")
    one, two = site.drives[0][1], site.drives[3][1]
    made = {name: one_volume(name, draw, media)[0] for name, media in (("Vol-1", "File"), ("Vol-2", "Tape"), ("Vol-3", "Disc"), ("Vol-4", "Tape"))}
    unreadable = bytes([made["Vol-4"][0] ^ 1]) + made["Vol-4"][1:]
    site.lay(one, {**made, "Vol-4": unreadable, "Vol-4~": true_note(label_of("Vol-4", made["Vol-4"]).moment, ends_of("Vol-4", made["Vol-4"]), -1)})
    site.lay(two, {"Vol-1": made["Vol-1"], "Vol-4": daemon_label(b"Vol-4"), "Vol-5": daemon_label(b"Vol-5"), "Vol-9~": note()})
    before = {place: site.left()[place] for place in (one, two)}
    with site.daemon() as daemon:
        wanted = Started(site.drives, before, site.time_of(daemon))
        checks.same("whose they are", {key: (fate.kind, fate.drive, fate.refusal[:4]) for key, fate in wanted.fates.items()},
                    {(one, "Vol-1"): ("adopted", 1, ""), (one, "Vol-2"): ("adopted", 2, ""), (one, "Vol-3"): ("refused", 1, "3932"),
                     (one, "Vol-4"): ("damaged", 1, ""), (two, "Vol-1"): ("refused", 4, "3935"), (two, "Vol-4"): ("refused", 4, "3935"),
                     (two, "Vol-5"): ("adopted", 4, "")})
        said = site.ask("status")[0]
        compared.log(checks, site, daemon, wanted)
        compared.status(checks, site, said, wanted)
        checks.same("lines", site.ask("label 4 Vol-4 Default File", "adopt 4 Vol-4", "mount 4 Vol-4"),
                    [["3935 Volume already labelled"], ["3935 Volume already labelled"], ["3930 Volume not on the shelf"]])
        for place, left in before.items():
            now = site.left()[place]
            checks.same("the files", {name: now.get(name) for name in left}, left)
    checks.same("what is no folder", pathlib.Path(site.drives[4][1]).read_bytes(), b"kept")


def too_long(checks: Checks, folder: pathlib.Path, _: pathlib.Path):
    """A volume of the greatest length, and one of a byte more, each with a note and without."""
    site = Site(folder / "too_long")
    for name, size, noted in (("Most-1", MOST_VOLUME, True), ("Over-1", MOST_VOLUME + 1, True), ("Over-2", MOST_VOLUME + 1, False)):
        image = daemon_label(name.encode(), moment=3)
        (site.place / name).write_bytes(image)
        os.truncate(site.place / name, size)
        if noted:
            (site.place / f"{name}~").write_bytes(note(3, len(image), 0, 1, 0))
    size = len(daemon_label(b"Most-1"))
    with site.daemon() as daemon:
        site.ask("status")
        lines = daemon.log()
        checks.same("too long", [line for line in lines if "Over" in line],
                    ["drive 1: volume Over-1 is damaged at 0, and isn't adopted", "drive 1: volume Over-2 can't be adopted: 3931 Not a volume of this profile"])
        checks.same("the longest", [line for line in lines if "Most" in line],
                    [f"drive 1: volume Most-1 is adopted up to {size}, its next block is 1; cut {MOST_VOLUME - size} bytes, read from {size} on"])
    checks.same("their sizes", [(site.place / name).stat().st_size for name in ("Most-1", "Over-1", "Over-2")], [size, MOST_VOLUME + 1, MOST_VOLUME + 1])


def rot_below(checks: Checks, folder: pathlib.Path, _: pathlib.Path):
    """Rot in the middle, below a note whose last block stands: the start doesn't read it, nothing is cut, the other sessions are read, and
    `sdtool verify` tells the place."""
    site, draw = Site(folder / "rot_below"), random.Random(SEED)
    image, kept = one_volume("Vol-1", draw, sessions=5)
    ends = ends_of("Vol-1", image)
    at = ends[2][0] + 30
    site.lay(str(site.place), {"Vol-1": image[:at] + bytes([image[at] ^ 8]) + image[at + 1:], "Vol-1~": true_note(label_of("Vol-1", image).moment, ends, -1)})
    with site.daemon() as daemon:
        site.ask("status")
        checks.check("adopted by its note", f"drive 1: volume Vol-1 is adopted up to {len(image)}, its next block is {len(ends)}; cut 0 bytes, read from {len(image)} on"
                     in daemon.log(), daemon.log())
        whole = [one for one in kept if not any(low <= at < high for _, low, high in one.spans())]
        checks.same("whole ones", [site.read(one.lines) for one in whole], [(one.records, "") for one in whole])
        checks.check("the other", len(whole) == len(kept) - 1, len(whole))
    said = subprocess.run([SDTOOL, "verify", site.place], capture_output=True, text=True, timeout=WAIT)
    checks.check("verify", said.returncode == 1 and f"damage Vol-1 {ends[2][0]} checksum\n" in said.stdout, said.stdout)


def asked_for(checks: Checks, folder: pathlib.Path, _: pathlib.Path):
    """A damaged volume is adopted if its name is given: it is cut at the damage, whatever its note says. Its note goes, and a new one
    comes. Names that are none are refused with the command line."""
    site, draw = Site(folder / "asked_for"), random.Random(SEED)
    files, ends = {}, {}
    for name in ("Vol-1", "Vol-2", "Vol-3"):
        image, _ = one_volume(name, draw)
        ends[name] = ends_of(name, image)
        at = ends[name][1][0] + 40
        files[name] = image[:at] + bytes([image[at] ^ 1]) + image[at + 1:]
    files["Vol-1~"] = true_note(label_of("Vol-1", files["Vol-1"]).moment, ends["Vol-1"], 2)
    files["Vol-3~"] = true_note(label_of("Vol-3", files["Vol-3"]).moment, ends["Vol-3"], 2, torn=40)
    site.lay(str(site.place), files)
    with site.daemon("--adopt-damaged", "Vol-1", "--adopt-damaged", "Vol-3", "--adopt-damaged", "Vol-9") as daemon:
        site.ask("status")
        for name in ("Vol-1", "Vol-3"):
            end, size = ends[name][1][0], len(files[name])
            checks.check(f"{name} in the log", f"drive 1: volume {name} is adopted up to {end}, its next block is 2; cut {size - end} bytes, read from 0 on"
                         in daemon.log(), daemon.log())
            checks.same(f"{name} is cut", (site.place / name).read_bytes(), files[name][:end])
            checks.check(f"{name}: its note", settles(lambda name=name, end=end: (one := (site.place / f"{name}~")).exists() and note_in(one.read_bytes()).end == end))
        checks.check("the others", daemon.log()[:2] == [f"drive 1: volume Vol-2 is damaged at {ends['Vol-2'][1][0]}, and isn't adopted",
                                                        "no volume Vol-9 is damaged, so none is adopted as such"], daemon.log())
        checks.same("the one that isn't named", (site.place / "Vol-2").read_bytes(), files["Vol-2"])
    for words in (("--adopt-damaged", "Vol-1"), ("--adopt", "--adopt-damaged", "no name"), ("--adopt", "--adopt-damaged", "..")):
        try:
            with Daemon(site.conf, *words, port=site.port):
                checks.check(f"{words} is a command line", False)
        except NotListening as why:
            checks.same(f"{words}", why.status, 2)


def meanwhile(checks: Checks, folder: pathlib.Path, _: pathlib.Path):
    """Clients that come while volumes are judged wait for that, and are served then, two at once."""
    site = Site(folder / "meanwhile")
    for name in ("Vol-1", "Vol-2"):
        (site.place / name).write_bytes(daemon_label(name.encode()))
    # All of it is read, since no note says where blocks end.
    os.truncate(site.place / "Vol-2", 1_000_000_000)
    later_second()
    answers, threads = [], []
    with Daemon(site.conf, "--adopt", port=site.port, log=False) as daemon:
        begun = time.monotonic()
        for _ in range(2):
            threads.append(threading.Thread(target=lambda: answers.append((site.job([b"hello"]), time.monotonic() - begun))))
            threads[-1].start()
        for thread in threads:
            thread.join()
        checks.same("both are closed", sorted(lines[0].split()[2] for lines, _ in answers), ["1", "2"])
        checks.same("read", [site.read(lines) for lines, _ in answers], 2 * [([(1, 2, b"hello")], "")])
        checks.check("after the start", (site.place / "Vol-2").stat().st_size < 1000)
        print(f"meanwhile: two jobs waited {min(took for _, took in answers):.1f} seconds for a start that read {read_of(daemon) / 1e6:.0f} MB")


def read_of(daemon: Daemon) -> int:
    lines = pathlib.Path(f"/proc/{daemon.process.pid}/io").read_text().splitlines()
    return int(dict(line.split(": ") for line in lines)["rchar"])


def hangs(checks: Checks, folder: pathlib.Path, library: pathlib.Path):
    """While a drive's folder hangs those of the others are judged. The start waits for it: the daemon listens, and serves nobody. Once
    it answers all is adopted."""
    site, holds = Site(folder / "hangs", [("File", "one"), ("Tape", "two")]), Holds(folder)
    for (media, place), name in zip(site.drives, ("Vol-1", "Vol-2")):
        pathlib.Path(place, name).write_bytes(daemon_label(name.encode(), media=media.encode()) + b"tail")
    holds.hold("open", f"{site.drives[0][1]}/Vol-1")
    calls = folder / "hangs.calls"
    calls.write_text("")
    env = loaded(library, FAULTS_FOLDER=site.drives[1][1], FAULTS_LOG=calls, **holds.words)
    later_second()
    with Daemon(site.conf, "--adopt", port=site.port, log=False, env=env) as daemon:
        checks.check("it hangs", holds.comes("open"))
        checks.check("the other's is judged", settles(lambda: "read Vol-2" in calls.read_text().splitlines()), calls.read_text())
        try:
            with Talk(site.port, timeout=1) as talk:
                checks.check("nobody is served", False, talk.console("status"))
        except client.Lost:
            checks.check("nobody is served", True)
        checks.same("nothing is adopted", [pathlib.Path(place, name).read_bytes()[-4:] for (_, place), name in zip(site.drives, ("Vol-1", "Vol-2"))], 2 * [b"tail"])
        holds.release()
        checks.same("then both are", [line.split()[1] for line in site.ask("status")[0] if line.startswith("volume ")], ["Vol-1", "Vol-2"])
        checks.check("and cut", not any(pathlib.Path(place, name).read_bytes().endswith(b"tail") for (_, place), name in zip(site.drives, ("Vol-1", "Vol-2"))))
        daemon.kill()


GROUPS = (each_byte, in_order, shared, too_long, rot_below, asked_for, meanwhile, hangs)
