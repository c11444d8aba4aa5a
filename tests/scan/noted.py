"""Notes beside volumes: what `sdtool verify` tells of each, beside the model, and that no command takes a note for a volume."""
import random
import struct
import zlib

from model import as_json, ends_of, scanned, verified
from volumes import NOT_TORN, block, end, jobmedia, label, note, start

FIELDS = ("moment", "end", "last", "next_number", "time", "torn")


def summed_again(content):
    """The bytes of a note with the checksum that they should have."""
    return struct.pack(">I", zlib.crc32(content[4:])) + content[4:]


def true_note(name, image, moment, back=0, **changed):
    """The note of a volume so many blocks before its end, with some fields changed."""
    ends = ends_of(name, image)
    values = dict(zip(FIELDS, (moment, *ends[max(0, len(ends) - 1 - back)], NOT_TORN)))
    return note(**{**values, **changed})


def verifies(call, fill, folder, files, expected=None, name=""):
    """What differs of a verification, in lines and as JSON; and its status, if one is given."""
    fill(folder, files)
    lines, status = verified(files)
    for words, wanted in ((["verify", "."], lines), (["verify", ".", "--json"], "".join(as_json(lines)))):
        got = call(folder, *words)
        if got != (wanted, status, ""):
            yield f"{name}: {got!r} in place of {(wanted, status)!r}"
    if expected is not None and status != expected:
        yield f"{name}: the model has status {status}, and not {expected}"


def sound_volume():
    """A volume with blocks of two runs of the daemon, all whole."""
    image = label(b"Vol-0001", moment=7)
    for number, time in enumerate((1000, 3000, 2000), 1):
        image += block((time, number), number, start(number) + end(number, 0, 0))
    return image


def each_state(call, fill, folder):
    """A note of each block, with each status; and each byte of it changed, cut and gone on with."""
    image = sound_volume()
    ends = ends_of("Vol-0001", image)
    cut = image + block((4000, 1), 4, start(4))
    for back in range(4):
        files = {"Vol-0001": image, "Vol-0001~": true_note("Vol-0001", image, 7, back)}
        yield from verifies(call, fill, folder, files, 0, f"{back} blocks before the end")
        yield from verifies(call, fill, folder, {**files, "Vol-0001": cut}, 3, f"{back} blocks before the end, with a cut session")
    whole = true_note("Vol-0001", image, 7)
    for at in range(48):
        yield from verifies(call, fill, folder, {"Vol-0001": image, "Vol-0001~": whole[:at] + bytes([whole[at] ^ 1]) + whole[at + 1:]}, 0 if 4 <= at < 8 else 1, f"byte {at}")
        yield from verifies(call, fill, folder, {"Vol-0001": image, "Vol-0001~": whole[:at]}, 1, f"{at} bytes")
    yield from verifies(call, fill, folder, {"Vol-0001": image, "Vol-0001~": whole + b"\0"}, 1, "a byte more")
    yield from verifies(call, fill, folder, {"Vol-0001": image, "Vol-0001~": note(form=b"SN02")}, 0, "another form")
    yield from verifies(call, fill, folder, {"Vol-0001": image, "Vol-0001~": true_note("Vol-0001", image, 8)}, 0, "another label")
    for length in (0, 1, ends[0][0], ends[1][0], len(image) - 1):
        torn = true_note("Vol-0001", image, 7, torn=length)
        yield from verifies(call, fill, folder, {"Vol-0001": image, "Vol-0001~": torn}, 1, f"torn at {length}")
    for length in (len(image), len(image) + 1):
        yield from verifies(call, fill, folder, {"Vol-0001": image + b"tail", "Vol-0001~": true_note("Vol-0001", image, 7, torn=length)}, 1, f"torn at {length}")
        yield from verifies(call, fill, folder, {"Vol-0001": image, "Vol-0001~": true_note("Vol-0001", image, 7, torn=length)}, 0, f"torn at {length}")
    for field, value in (("end", 90), ("last", ends[1][1]), ("last", 0), ("next_number", 3), ("next_number", 0), ("time", 2999), ("end", 2**64 - 1)):
        yield from verifies(call, fill, folder, {"Vol-0001": image, "Vol-0001~": true_note("Vol-0001", image, 7, **{field: value})}, 1, f"{field} {value}")
    for time in (3000, 3001, 2**32 - 1):
        yield from verifies(call, fill, folder, {"Vol-0001": image, "Vol-0001~": true_note("Vol-0001", image, 7, time=time)}, 0, f"time {time}")


def each_cut(call, fill, folder):
    """A volume cut at each byte and with each byte changed, beside its note: what lies above the note alone may be lost untold."""
    image = sound_volume()
    ends = ends_of("Vol-0001", image)
    content = true_note("Vol-0001", image, 7, 1)
    for length in range(ends[0][0], len(image)):
        status = 1 if length < ends[2][0] or length > ends[2][0] else 0
        yield from verifies(call, fill, folder, {"Vol-0001": image[:length], "Vol-0001~": content}, status, f"cut at {length}")
    for length in (0, 1, 50, ends[0][0] - 1):
        yield from verifies(call, fill, folder, {"Vol-0001": image[:length], "Vol-0001~": content}, 1, f"cut at {length}")
    for at in range(0, len(image), 5):
        changed = image[:at] + bytes([image[at] ^ 4]) + image[at + 1:]
        yield from verifies(call, fill, folder, {"Vol-0001": changed, "Vol-0001~": content}, 1, f"byte {at} changed")


def drawn_notes(call, fill, folder, drawn_shelf):
    """Notes of many volumes: of an earlier and a later state, of another volume, cut, forged, and none."""
    told = {"damage": 0, "note": 0, "fits": 0}
    for seed in range(60):
        draw = random.Random(400 + seed)
        files, _ = drawn_shelf(draw)
        moments = {name: int(name[4:]) for name in files}
        states = dict(files)
        for name in sorted(files):
            image, kind = states[name], draw.randrange(10)
            content = true_note(name, image, moments[name], draw.randrange(6))
            if kind == 0:
                continue
            if kind == 1:
                ends = ends_of(name, image)
                files[name] = image[:draw.choice(ends)[0]]
            elif kind == 2:
                other = draw.choice(sorted(states))
                content = true_note(other, states[other], moments[draw.choice((name, other))])
            elif kind == 3:
                content = content[:draw.randrange(48)]
            elif kind == 4:
                at = draw.randrange(4, 48)
                content = summed_again(content[:at] + bytes([content[at] ^ 1 << draw.randrange(8)]) + content[at + 1:])
            elif kind == 5:
                content = true_note(name, image, moments[name], torn=draw.randrange(len(image) + 200))
            elif kind == 6 and len(image) > 100:
                at = draw.randrange(len(image))
                files[name] = image[:at] + bytes([image[at] ^ 1 + draw.randrange(255)]) + image[at + 1:]
            files[name + "~"] = content
        yield from verifies(call, fill, folder, files, None, f"drawn {seed}")
        lines = verified(files)[0].splitlines()
        damaged, passed = sum(line.endswith(" note") for line in lines), sum(line.startswith("note ") for line in lines)
        told["damage"] += damaged
        told["note"] += passed
        told["fits"] += sum(name.endswith("~") for name in files) - damaged - passed
    if min(told.values()) < 30:
        yield f"too few were drawn: {told}"


def no_volumes(call, fill, folder):
    """A note is no volume for any command, and files beside which other things lie stay what they are."""
    image = sound_volume()
    files = {"Vol-0001": image, "Vol-0001~": true_note("Vol-0001", image, 7), "Vol-0002~": image, "text": b"x", "text~": b"an older text"}
    fill(folder, files)
    for words, wanted in ((["scan", "."], (scanned(files), 0, "")), (["scan", ".", "Vol-0001~"], ("3937 Bad name\n", 1, "")),
                          (["ls", "Vol-0001~"], ("3937 Bad name\n", 1, "")), (["ls", "./Vol-0002~"], ("3937 Bad name\n", 1, ""))):
        if (got := call(folder, *words)) != wanted:
            yield f"{words}: {got!r} in place of {wanted!r}"
    yield from verifies(call, fill, folder, files, 0, "beside other files")
    yield from verifies(call, fill, folder, {**files, "Vol-0001": b"?" + image[1:]}, 1, "a note without its label")
    yield from verifies(call, fill, folder, {"Vol-0001~": files["Vol-0001~"]}, 4, "a note alone")
    fill(folder, files)
    (folder / "spans").write_text(jobmedia((1000, 1), []) + "span Vol-0002~ 1 0 0 92 200\n")
    for word in ("read", "salvage"):
        if (got := call(folder, word, "spans", ".")) != ("3950 Bad span\n", 1, ""):
            yield f"{word} of a note: {got!r}"
    (folder / "spans").unlink()
    (folder / "names").write_text("Vol-0001~\n")
    if (got := call(folder, "verify", ".", "--expect", "names")) != ("3937 Bad name\n", 4, ""):
        yield f"a note that is expected: {got!r}"
    fill(folder, {"Vol-0001": image})
    for make in (lambda path: path.mkdir(), lambda path: path.symlink_to("nowhere"), lambda path: path.symlink_to("Vol-0001")):
        make(folder / "Vol-0001~")
        got, wanted = call(folder, "verify", "."), f"volume Vol-0001 {len(image)}\ndamage Vol-0001 0 note\nok scan 1 3\n"
        if got != (wanted, 1, ""):
            yield f"what is no file: {got!r}"
        path = folder / "Vol-0001~"
        path.rmdir() if path.is_dir() and not path.is_symlink() else path.unlink()
