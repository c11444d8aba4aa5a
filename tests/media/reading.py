"""The tests of `sdtool ls` and `sdtool read` on volumes that are made here. tests/media runs them."""
import concurrent.futures
import os
import random
import zlib

from bench import printed, tool
from tables import BLOCKS, DAMAGE, DAMAGES, END, HELLO, KEY, NO_SESSION_LABELS, NO_TEXTS, OTHER_SESSION, RECORD
from tables import RECORDS_ON_SHELF, SESSIONS, SMALL_ENDS, SMALL_LAST, SMALL_RECORDS, SPAN, SPANS, START, TEXTS
from tables import label_record, no_label_blocks, small
from volumes import BLOCK_HEADER, LEAST_BLOCK, MOST_BLOCK, MOST_VOLUME, RECORD_HEADER, block, fragment, label, packed
from volumes import summed
from volumes_model import BAD_SPAN, DAMAGED, ENDS_EARLY, NOT_OURS, NOT_THERE, Refused, read, said, whole_blocks

LABEL = label(b"Vol-0001")
LISTED = b"label Vol-0001 Default File\n"
DEVICE_FAULT = "3940 Device fault\n"
# The data of a record that fills a body of a block of 1,024 bytes.
FILLING = 1024 - BLOCK_HEADER - RECORD_HEADER
NAME_CHARACTERS = b"ABCDEFGHIJKLMNOPQRSTUVWXYZabcdefghijklmnopqrstuvwxyz0123456789-_:."


def refusal(line):
    """What a refusal prints, and its status."""
    return f"{line}\n".encode(), 1


def blocks_of(*bodies, key=KEY, first=1):
    """The blocks of these bodies, numbered one after the other."""
    return b"".join(block(key, number, body) for number, body in enumerate(bodies, first))


def asked(spans, key=KEY):
    """The JobMedia text of these spans: volume, number, start and end of each."""
    lines = [f"span {volume} {number} 1 1 {begin} {end}\n" for volume, number, begin, end in spans]
    return f"session {key[0]} {key[1]}\n" + "".join(lines)


def read_by(room, text, **environment):
    """What `sdtool read` prints for a JobMedia text with the volumes of the folder, and its status."""
    (room / "spans").write_bytes(text if isinstance(text, bytes) else text.encode(errors="surrogateescape"))
    return tool(room, "read", "spans", ".", **environment)


def read_blocks(room, blocks):
    """What `sdtool read` prints for one span of all these blocks, after a label, and its status."""
    (room / "Vol-0001").write_bytes(LABEL + blocks)
    return read_by(room, asked([("Vol-0001", 1, len(LABEL), len(LABEL + blocks))]))


def by_the_model(volumes, key, spans):
    """What is to be printed by the plain reader."""
    return printed(*read(volumes, key, spans))


def put(room, volumes):
    for name, image in volumes.items():
        (room / name).write_bytes(image)


def compare(checks, room, cases):
    """Has sessions read, several at a time: what the case is, the volumes, the JobMedia text, and what is to come."""
    def read_in_a_folder(numbered):
        number, (_, volumes, text, _) = numbered
        folder = room / str(number)
        folder.mkdir()
        put(folder, volumes)
        return read_by(folder, text)

    with concurrent.futures.ThreadPoolExecutor(os.cpu_count()) as pool:
        for (what, _, _, wanted), got in zip(cases, pool.map(read_in_a_folder, enumerate(cases))):
            checks.same(what, got, wanted)


def listings(checks, room, other_system):
    """A label that is none, in each way; labels of all names; and volumes with something after their blocks."""
    path = room / "Vol-0001"
    for why, bad in no_label_blocks(b"Vol-0001"):
        path.write_bytes(bad + blocks_of(START + HELLO + END))
        checks.same(why, tool(room, "ls", "Vol-0001"), refusal(NOT_OURS))
    whole = blocks_of(START + HELLO, END)
    listed = LISTED + b"block 1 82 94 1000 1\nblock 2 176 97 1000 1\n"
    for why, tail in (
        ("nothing", b""), ("a byte", b"x"), ("zeros", bytes(5000)), ("the front of a block", block(KEY, 3, HELLO)[:-1]),
        ("a block of a number again", block(KEY, 2, HELLO)), ("a block whose number is left out", block(KEY, 4, HELLO)),
        ("a block without a checksum", bytes(4) + block(KEY, 3, HELLO)[4:]),
        ("a block too small", block(KEY, 3, HELLO[:11])), ("a block of another mark", block(KEY, 3, HELLO, b"BB01")),
        ("a block too great", block(KEY, 3, bytes(MOST_BLOCK - BLOCK_HEADER + 1))),
        ("a block of a size too great", block(KEY, 3, HELLO, size=42)),
    ):
        path.write_bytes(LABEL + whole + tail)
        checks.same(f"{why} behind", tool(room, "ls", "Vol-0001"), (listed + b"tail %d\n" % len(tail), 0))
    path.write_bytes(LABEL + whole + block(OTHER_SESSION, 3, bytes(12)))
    checks.same("a body of no session", tool(room, "ls", "Vol-0001"), (listed + b"block 3 273 36 1000 2\ntail 0\n", 0))
    with open(path, "r+b") as volume:
        volume.truncate(MOST_VOLUME + 1)
    tail = MOST_VOLUME + 1 - 309
    checks.same("longer than a volume may be", tool(room, "ls", "Vol-0001"),
                (listed + b"block 3 273 36 1000 2\ntail %d\n" % tail, 0))


def names(checks, room, other_system):
    """Each byte as a name in a label, and each character as the name of a file; the longest names, and longer ones."""
    for code in range(256):
        pool = bytes([code])
        (room / "Vol-0001").write_bytes(label(b"Vol-0001", b"x" + pool, b"File"))
        wanted = (b"label Vol-0001 x%s File\ntail 0\n" % pool, 0) if pool in NAME_CHARACTERS else refusal(NOT_OURS)
        checks.same(f"byte {code} in a label", tool(room, "ls", "Vol-0001"), wanted)
    (room / "Vol-0001").unlink()
    good = [chr(code) for code in NAME_CHARACTERS if code != ord(".")]
    good += ["...", ".a", "a.", "x_y:z.9", 127 * "n", 127 * ".", "Vol-0001", "-h"]
    bad = [chr(code) for code in range(1, 128) if code not in NAME_CHARACTERS and chr(code) != "/"]
    bad += [".", "..", "a b", "\u00e4", "a\n", "a,b", 128 * "n", "\u0661"]
    for name in good:
        for host in (None, name.encode()):
            (room / name).write_bytes(label(name.encode(), name.encode(), name.encode(), -2, host))
            words = (3 if host is None else 4) * f" {name}"
            checks.same(f"the name {name!r}, {host}", tool(room, "ls", f"./{name}"), (f"label{words}\ntail 0\n".encode(), 0))
        (room / name).unlink()
    for name in bad:
        if name not in (".", ".."):
            (room / name).write_bytes(label(name.encode()))
        checks.same(f"the name {name!r}", tool(room, "ls", f"./{name}"), refusal("3937 Bad name"))


def checksum_of_zero(key, number):
    """A block whose checksum is zero: of a record and one of four bytes. After any bytes the four that their sum and
    that of b"\x9d\x0a\xd9\x6d" give make the sum zero, as those four do by themselves."""
    front = block(key, number, START + HELLO + fragment(2, 2, b"", 4), size=BLOCK_HEADER + len(START + HELLO) + 16)[4:]
    return summed(front + (zlib.crc32(front) ^ 0x6dd90a9d).to_bytes(4, "little"))


def checksums(checks, room, other_system):
    """A volume with a block of each size up to some thousand bytes, and with the greatest ones, is listed whole; a
    checksum may be zero."""
    numbers = random.Random(3)
    sizes = [*range(LEAST_BLOCK, 4600), *range(8490, 8500), 64_511, 64_512, 64_513, MOST_BLOCK - 1, MOST_BLOCK]
    image, lines = [LABEL], []
    at = len(LABEL)
    for number, size in enumerate(sizes, 1):
        key = (numbers.randrange(2**32), numbers.randrange(2**32))
        image.append(block(key, number, numbers.randbytes(size - BLOCK_HEADER)))
        lines.append(f"block {number} {at} {size} {key[0]} {key[1]}\n")
        at += size
    (room / "Vol-0001").write_bytes(b"".join(image) + block(KEY, len(sizes) + 1, bytes(MOST_BLOCK - 23)))
    listed = LISTED + "".join(lines).encode() + b"tail %d\n" % (MOST_BLOCK + 1)
    checks.same("blocks of each size", tool(room, "ls", "Vol-0001"), (listed, 0))
    zero = checksum_of_zero(KEY, 1)
    checks.same("the sum", zero[:4], bytes(4))
    checks.same("a sum of zero", read_blocks(room, zero), printed([RECORD, (2, 2, zero[-4:])], "ok read 2 9 cut\n"))
    checks.same("a sum of zero that is none", read_blocks(room, zero[:-1] + bytes([zero[-1] ^ 1])),
                refusal(DAMAGED))


def sessions(checks, room, other_system):
    """Sessions that are read whole, or as far as they go; and damaged ones, with the records before the damage."""
    for why, bodies, records, last in SESSIONS:
        checks.same(why, read_blocks(room, blocks_of(*bodies)), printed(records, last))
    for why, bodies, records in DAMAGES:
        checks.same(why, read_blocks(room, blocks_of(*bodies)), printed(records, DAMAGE))
        # Nothing that comes after the damage is read.
        checks.same(f"{why}, and more", read_blocks(room, blocks_of(*bodies, HELLO, END)), printed(records, DAMAGE))
    for why, *row in NO_SESSION_LABELS:
        record = label_record(*row)
        checks.same(f"{why}, at the start", read_blocks(room, blocks_of(record + HELLO, END)), printed([], DAMAGE))
        if row[0] < 1:
            checks.same(f"{why}, at the end", read_blocks(room, blocks_of(START + HELLO, record)),
                        printed([RECORD], DAMAGE))
            checks.same(f"{why}, behind a record", read_blocks(room, blocks_of(START, HELLO + record)),
                        printed([], DAMAGE))


def shelf():
    """Three volumes with three sessions; see the table of their spans."""
    (first, second, third), (fourth, fifth), (sixth,) = (
        [body.data for body in packed(1024, records)] for records in RECORDS_ON_SHELF.values())
    one, two, three = KEY, OTHER_SESSION, (KEY[0], 3)
    return {
        "Vol-0001": LABEL + block(one, 1, first) + block(two, 2, fourth) + block(one, 3, second),
        "Vol-0002": label(b"Vol-0002") + block(two, 1, fifth) + block(one, 2, third),
        "Vol-0003": label(b"Vol-0003") + block(three, 1, sixth),
    }


def spans(checks, room, other_system):
    """Spans of every kind over three volumes; and lists of spans that are drawn, on volumes damaged by chance."""
    volumes = shelf()
    put(room, volumes)
    for why, session, rows, count, last in SPANS:
        key = (KEY[0], session)
        given = [(f"Vol-{volume:04}", *rest) for volume, *rest in rows]
        wanted = printed(RECORDS_ON_SHELF.get(session, [])[:count], f"{last}\n")
        checks.same(why, read_by(room, asked(given, key)), wanted)
        checks.same(f"{why}, by the model", by_the_model(volumes, key, given), wanted)
    numbers, cases = random.Random(5), []
    for turn in range(400):
        volumes = {name: damaged(image, numbers) for name, image in shelf().items()}
        key, given = drawn_spans(numbers)
        cases.append((f"drawn {turn}", volumes, asked(given, key), by_the_model(volumes, key, given)))
    compare(checks, room, cases)


def damaged(image, numbers):
    """The volume, or one that has another byte in a block, summed anew or not, or that is cut."""
    kind = numbers.randrange(8)
    if kind == 0:
        return image[:numbers.randrange(len(image))]
    if kind > 3:
        return image
    at, size, *_ = numbers.choice(list(whole_blocks(image)))
    changed = bytearray(image)
    changed[at + numbers.randrange(4, size)] ^= 1 << numbers.randrange(8)
    if kind > 1:
        changed[at:at + size] = summed(bytes(changed[at + 4:at + size]))
    return bytes(changed)


# The number of a session, and spans that have all its blocks.
RIGHT_SPANS = [(rows[1], rows[2]) for rows in SPANS if rows[4].endswith("ended")] + [
    (2, [(1, 1, 82, 3154), (2, 2, 82, 1171)]), (1, [(1, 1, 82, 2130), (1, 2, 2130, 3154), (2, 3, 82, 1171)])]


def drawn_spans(numbers):
    """The key of a session and its spans, or spans of which one is changed, or left out."""
    session, rows = numbers.choice(RIGHT_SPANS)
    rows = [list(row) for row in rows]
    kind, row = numbers.randrange(4), numbers.choice(rows)
    if kind == 0:
        at = numbers.randrange(4)
        row[at] = numbers.choice((1, 2, 3, 9)) if at == 0 else max(0, row[at] + numbers.choice((-36, -1, 1, 36, 1024)))
    if kind == 1:
        rows.remove(row)
    return (KEY[0], session), [(f"Vol-{volume:04}", *rest) for volume, *rest in rows]


def blocks(checks, room, other_system):
    """Blocks that may be read, and those that may not, in the order in which they are looked at."""
    for why, image, count, last in BLOCKS:
        wanted = printed(SMALL_RECORDS[:count], last)
        checks.same(why, read_blocks(room, image), wanted)
        model = by_the_model({"Vol-0001": LABEL + image}, KEY, [("Vol-0001", 1, 82, len(LABEL + image))])
        checks.same(f"{why}, by the model", model, wanted)


def every_byte(checks, room, other_system):
    """Each byte of a volume of three small blocks is changed in turn, as it is and with its block summed anew. One of
    the label is not looked at; any other is seen, unless it is summed anew."""
    image, cases = LABEL + small(), []
    rows = [("Vol-0001", 1, 82, len(image))]
    checks.same("the ends", tuple(at + size for at, size, *_ in whole_blocks(image))[1:], SMALL_ENDS)
    for at in range(len(image)):
        for change in (0x10, 0x01):
            changed = bytearray(image)
            changed[at] ^= change
            wanted = by_the_model({"Vol-0001": bytes(changed)}, KEY, rows)
            front, _ = printed(SMALL_RECORDS[:int(at >= SMALL_ENDS[0])], "")
            if at < 82:
                wanted = printed(SMALL_RECORDS, SMALL_LAST)
            elif wanted not in ((front + line, 1) for line in (f"{BAD_SPAN}\n".encode(), DAMAGE.encode())):
                wanted = "a fault, and the records of the blocks before it"
            cases.append((f"byte {at} by {change}", {"Vol-0001": changed}, asked(rows), wanted))
    for begin, end in zip((82, *SMALL_ENDS), SMALL_ENDS):
        for at in range(begin + 4, end):
            for change in (0x01, 0x80):
                changed = bytearray(image)
                changed[at] ^= change
                changed[begin:end] = summed(bytes(changed[begin + 4:end]))
                cases.append((f"byte {at} by {change}, summed", {"Vol-0001": changed}, asked(rows),
                              by_the_model({"Vol-0001": bytes(changed)}, KEY, rows)))
    compare(checks, room, cases)


def every_place(checks, room, other_system):
    """A volume that is cut at each place is too short for its span, and there it must be. A span that begins or ends at
    each place is read as far as its blocks go."""
    image, tail = LABEL + small(), b"and a tail"
    whole = asked([("Vol-0001", 1, 82, len(image))])
    cases = [("not there", {}, whole, refusal(NOT_THERE))]
    cases += [(f"cut at {length}", {"Vol-0001": image[:length]}, whole, refusal(ENDS_EARLY))
              for length in range(len(image))]
    records = {198: (1, "ok read 1 5 cut\n"), 244: (1, "ok read 1 5 cut\n"), 363: (2, SMALL_LAST)}
    for end in range(83, len(image + tail) + 1):
        count, last = records.get(end, ((end > 198) + (end > 363), f"{BAD_SPAN}\n"))
        cases.append((f"end at {end}", {"Vol-0001": image + tail}, asked([("Vol-0001", 1, 82, end)]),
                      printed(SMALL_RECORDS[:count], last)))
    for begin in range(len(image + tail)):
        given = [("Vol-0001", 1, begin, 363)]
        wanted = by_the_model({"Vol-0001": image}, KEY, given)
        if wanted[1] != (begin not in (0, 82)):
            wanted = "a fault where no block of the session begins"
        cases.append((f"from {begin} on", {"Vol-0001": image + tail}, asked(given), wanted))
    compare(checks, room, cases)


# A session that was on two volumes before one of them was purged, one that was on the first of them alone, and where.
TWO_RECORDS = [(1, 2, 500 * b"a"), (2, 2, 1500 * b"b")]
BEFORE, ONE_BEFORE = [("Vol-0001", 1, 82, 2130), ("Vol-0002", 2, 82, 280)], [("Vol-0001", 1, 82, 249)]
# How a volume was used anew, by the sizes of the records of the sessions there, each with one: the sizes of their blocks;
# and what is said of the two sessions that were there before.
ANEW = [
    ([], [], ENDS_EARLY, ENDS_EARLY),
    ([3], [165], ENDS_EARLY, ENDS_EARLY),
    ([5], [167], ENDS_EARLY, BAD_SPAN),
    ([1849], [1024, 1023], ENDS_EARLY, BAD_SPAN),
    # The blocks have the same places, but the other volume's block is no beginning.
    ([1850], [1024, 1024], DAMAGED, BAD_SPAN),
    # A block lies over the end of the first span.
    ([1851], [1024, 952, 97], BAD_SPAN, BAD_SPAN),
    ([5, 5000], [167, 1024, 1024, 1024, 1024, 1024, 222], BAD_SPAN, BAD_SPAN),
]


def purged(checks, room, other_system):
    """A volume that was purged and used anew is its label and blocks from number 1 on. So it is listed, and the sessions
    there are read; none that was there before is read as something else, but for the first of its records."""
    bodies = [body.data for body in packed(1024, TWO_RECORDS)]
    first, second = LABEL + blocks_of(*bodies[:2]), label(b"Vol-0002") + blocks_of(*bodies[2:])
    put(room, {"Vol-0001": first, "Vol-0002": second})
    checks.same("before", read_by(room, asked(BEFORE)), printed(TWO_RECORDS, "ok read 2 2000 ended\n"))
    for sizes, lengths, last, last_of_one in ANEW:
        image, lines, sessions = used_anew(LABEL, sizes)
        put(room, {"Vol-0001": image})
        checks.same(f"{sizes}, the blocks", [int(line.split()[3]) for line in lines], lengths)
        listed = LISTED + "".join(lines).encode() + b"tail 0\n"
        checks.same(f"{sizes}, ls", tool(room, "ls", "Vol-0001"), (listed, 0))
        checks.same(f"{sizes}, before", read_by(room, asked(BEFORE)), refusal(last))
        checks.same(f"{sizes}, one before", read_by(room, asked(ONE_BEFORE, (KEY[0], 3))), refusal(last_of_one))
        for key, spans, record in sessions:
            checks.same(f"{sizes}, session {key}", read_by(room, asked(spans, key)),
                        printed([record], f"ok read 1 {len(record[2])} ended\n"))
    # The second volume is purged in place of the first.
    put(room, {"Vol-0001": first})
    for sizes, count, last in (([], 1, ENDS_EARLY), ([35], 1, ENDS_EARLY), ([36], 1, "ok read 1 500 cut"), ([37], 1, BAD_SPAN)):
        put(room, {"Vol-0002": used_anew(label(b"Vol-0002"), sizes)[0]})
        checks.same(f"{sizes} on the second", read_by(room, asked(BEFORE)), printed(TWO_RECORDS[:count], f"{last}\n"))
    # What a stop left after the first block anew may be what was there.
    put(room, {"Vol-0001": used_anew(LABEL, [1850])[0][:1106] + first[1106:], "Vol-0002": second})
    checks.same("a block of before behind, ls", tool(room, "ls", "Vol-0001"),
                (LISTED + b"block 1 82 1024 1000 2\nblock 2 1106 1024 1000 1\ntail 0\n", 0))
    checks.same("a block of before behind", read_by(room, asked(BEFORE)), refusal(DAMAGED))


def used_anew(image, sizes):
    """The bytes of a volume with sessions of one record each after its label, what `ls` says of their blocks, and of
    each session its key, its spans and its record. The sessions are those after the first one of the run."""
    name, lines, sessions, number = image[60:68].decode(), [], [], 0
    for ident, size in enumerate(sizes, OTHER_SESSION[1]):
        key, record, start = (KEY[0], ident), (1, 2, size * b"n"), len(image)
        for body in packed(1024, [record]):
            number += 1
            lines.append(f"block {number} {len(image)} {BLOCK_HEADER + len(body.data)} {key[0]} {key[1]}\n")
            image += block(key, number, body.data)
        sessions.append((key, [(name, 1, start, len(image))], record))
    return image, lines, sessions


def texts(checks, room, other_system):
    """JobMedia texts that are read, others that are none, and each character of one in turn left out, doubled or
    changed."""
    image = LABEL + blocks_of(START + HELLO + END)
    put(room, {"Vol-0001": image})
    for text, last in TEXTS:
        checks.same(repr(text), read_by(room, text), printed([RECORD] if last.startswith("ok") else [], last))
    for text in NO_TEXTS:
        checks.same(repr(text), read_by(room, text), refusal(BAD_SPAN))
    text, cases = f"session 1000 1\n{SPAN}\n".encode(), []
    for at in range(len(text) + 1):
        changed = [text[:at] + other + text[at:] for other in (b" ", b"0", b"1", b"\n", b"-")]
        changed += [text[:at] + other + text[at + 1:] for other in (b"", b" ", b"0", b"2", b"x", b"\t", b"\0", b"\xff")]
        cases += [(repr(other), {"Vol-0001": image}, other, answer_to(other, {"Vol-0001": image})) for other in changed]
    compare(checks, room, cases)
    for key in ((2**32 - 1, 2**32 - 1), (0, 1), (1, 0), (2**31, 2**31)):
        put(room, {"Vol-0001": LABEL + blocks_of(START + HELLO + END, key=key)})
        checks.same(f"session {key}", read_by(room, f"session {key[0]} {key[1]}\n{SPAN}"),
                    printed([RECORD], "ok read 1 5 ended\n"))
    name = 127 * "n"
    put(room, {name: label(name.encode()) + blocks_of(START + HELLO + END)})
    checks.same("the longest name", read_by(room, f"session 1000 1\nspan {name} 1 1 1 201 368"),
                printed([RECORD], "ok read 1 5 ended\n"))


def answer_to(text, volumes):
    """What is to be printed for a JobMedia text by the model."""
    try:
        key, rows = said(text)
    except Refused as why:
        return refusal(why)
    return by_the_model(volumes, key, rows)


def far_away(checks, room, other_system):
    """Blocks after the first four thousand million bytes of a volume, and after the last place of one."""
    for place in (2**32 - 36, 2**32 + 82, 5_000_000_000, MOST_VOLUME, 2**40):
        with open(room / "Vol-0001", "wb") as volume:
            volume.seek(place)
            volume.write(small())
        given = [("Vol-0001", 1, place, place + len(small()))]
        checks.same(f"at {place}", read_by(room, asked(given)), printed(SMALL_RECORDS, SMALL_LAST))
        checks.same(f"before {place}", read_by(room, asked([("Vol-0001", 1, place - 36, place)])), refusal(DAMAGED))
        checks.same(f"one byte behind {place}",
                    read_by(room, asked([("Vol-0001", 1, place, place + len(small()) + 1)])), refusal(ENDS_EARLY))


def devices(checks, room, other_system):
    """A long session on two volumes: no read takes more than the greatest block. Each read, and each question for a
    file, fails in turn; the records before stay. A folder in place of the second volume."""
    numbers = random.Random(9)
    records = [(index, 2, numbers.randbytes(988)) for index in range(1, 6001)]
    bodies = [body.data for body in packed(1024, records)]
    volumes = {"Vol-0001": LABEL + blocks_of(*bodies[:3000]),
               "Vol-0002": label(b"Vol-0002") + blocks_of(*bodies[3000:])}
    put(room, volumes)
    given = [("Vol-0001", 1, 82, len(volumes["Vol-0001"])), ("Vol-0002", 2, 82, len(volumes["Vol-0002"]))]
    whole = printed(records, f"ok read 6000 {6000 * 988} ended\n")
    first, _ = read(volumes, KEY, given[:1])
    checks.same("whole", by_the_model(volumes, KEY, given), whole)
    watched = {"LD_PRELOAD": str(other_system)}
    checks.same("short reads", read_by(room, asked(given), **watched, LONGEST_READ_AT=str(MOST_BLOCK)), whole)
    checks.same("reads that are seen", read_by(room, asked(given), **watched, LONGEST_READ_AT="35"),
                printed([], DEVICE_FAULT))
    for kind in ("FAIL_READ_AT", "FAIL_LOOK"):
        counts = []
        for number in range(1, 100):
            got = read_by(room, asked(given), **watched, **{kind: str(number)})
            if got == whole:
                break
            counts.append(got[0].count(b"\nrec ") + got[0].startswith(b"rec "))
            checks.same(f"{kind} {number}", got, printed(records[:counts[-1]], DEVICE_FAULT))
        checks.same(f"{kind} one after another", (counts, counts[:1]), (sorted(counts), [0]))
        checks.same(f"{kind} at the second volume", len(first) in counts, True)
    (room / "Vol-0002").unlink()
    (room / "Vol-0002").mkdir()
    checks.same("a folder", read_by(room, asked(given)), printed(first, DEVICE_FAULT))


def lengths(checks, room, other_system):
    """A session of one block up to 10,000 is read whole. If a bit of its last block is turned, the records before stay,
    and the damage is reported."""
    numbers = random.Random(17)
    for count in (1, 100, 10_000):
        # The first body has the start label, and each other one a record that fills it, or the end label.
        sizes = [FILLING - len(START), *[FILLING] * (count - 2)] if count > 1 else [5]
        records = [(index, 2, numbers.randbytes(size)) for index, size in enumerate(sizes, 1)]
        bodies = [body.data for body in packed(1024, records)]
        image = blocks_of(*bodies)
        checks.same(f"{count} blocks are so many", len(bodies), count)
        last = f"ok read {len(sizes)} {sum(sizes)} ended\n"
        checks.same(f"{count} blocks", read_blocks(room, image), printed(records, last))
        before = records if count > 1 else []
        checks.same(f"{count} blocks, the last one damaged", read_blocks(room, image[:-1] + bytes([image[-1] ^ 1])),
                    printed(before, DAMAGE))


READING = (listings, names, checksums, sessions, spans, blocks, every_byte, every_place, purged, texts, far_away, devices, lengths)
