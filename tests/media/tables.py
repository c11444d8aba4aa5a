"""Labels, bodies, spans and texts, good and bad, with what comes of each by docs/use/FORMATS.md and docs/use/REFUSALS.md. The
tests of tests/media give them to the programs."""
import struct

from volumes import MOST_BLOCK, MOST_DATA, MOST_NUMBER, block, end, fragment, label, session_data, start, texts
from volumes import PROFILE, volume_data
from volumes_model import BAD_SPAN, DAMAGED, ENDS_EARLY, NOT_THERE

KEY, OTHER_SESSION, OTHER_RUN = (1000, 1), (1000, 2), (1001, 1)

# The parts of small sessions. The totals of END are one record and five bytes.
START, END = start(7), end(7, 1, 5)
# The data of the longest record lie in four bodies at least.
MILLION = 1_000_000
HELLO, EMPTY = fragment(1, 2, b"hello"), fragment(2, 2, b"")
# The record of HELLO in two parts.
HEL, LO = fragment(1, 2, b"hel", 5), fragment(1, -2, b"lo")
RECORD = (1, 2, b"hello")
NOTHING = (2, 2, b"")
DAMAGE = f"{DAMAGED}\n"

# The data of a volume's label, but for its names; and of the labels of a session.
FRONT = PROFILE + struct.pack(">Iq", 1, 0)
START_DATA = session_data(7)
END_DATA = session_data(7) + struct.pack(">QQI", 1, 5, 84)


def label_record(index, stream, more, data):
    """A record of these data whose header announces so many bytes more than they are."""
    return fragment(index, stream, data, len(data) + more)


def no_volume_labels(name):
    """Why it is no label of that volume; the index and the stream of its header, how many bytes more than its data it
    announces, and its data."""
    data = volume_data(name)
    return [
        ("a session's index", -4, 1, 0, data),
        ("a record's index", 2, 1, 0, data),
        ("another stream", -2, 2, 0, data),
        ("a negated stream", -2, -1, 0, data),
        ("another profile", -2, 1, 0, b"sd-profile \0" + data[12:]),
        ("a profile without its newline", -2, 1, 0, b"sd-profile\0" + data[12:]),
        ("version 0", -2, 1, 0, volume_data(name, version=0)),
        ("version 2 without its host", -2, 1, 0, volume_data(name, version=2)),
        ("version 3 without a host", -2, 1, 0, volume_data(name, version=3)),
        ("version 3 with a host", -2, 1, 0, volume_data(name, host=b"backup1", version=3)),
        ("version 0 with a host", -2, 1, 0, volume_data(name, host=b"backup1", version=0)),
        ("version 1 with a host", -2, 1, 0, volume_data(name, host=b"backup1", version=1)),
        ("a text behind the host", -2, 1, 0, volume_data(name, host=b"backup1") + b"more\0"),
        ("no zero byte behind the host", -2, 1, 0, volume_data(name, host=b"backup1")[:-1]),
        ("an empty host", -2, 1, 0, volume_data(name, host=b"")),
        ("a dot as host", -2, 1, 0, volume_data(name, host=b".")),
        ("a bad character in the host", -2, 1, 0, volume_data(name, host=b"a b")),
        ("a host of 128 characters", -2, 1, 0, volume_data(name, host=128 * b"n")),
        ("version 1 in other bytes", -2, 1, 0, volume_data(name, version=0x01000000)),
        ("no zero byte at the end", -2, 1, 0, data[:-1]),
        ("a byte behind the end", -2, 1, 0, data + b"\0"),
        ("a text behind the end", -2, 1, 0, data + b"more\0"),
        ("a bad character", -2, 1, 0, FRONT + texts(b"Vol/0001", b"Default", b"File")),
        ("no ASCII", -2, 1, 0, FRONT + texts(name, b"\xff", b"File")),
        ("an empty pool", -2, 1, 0, FRONT + texts(name, b"", b"File")),
        ("an empty media", -2, 1, 0, FRONT + texts(name, b"Default", b"")),
        ("an empty name", -2, 1, 0, FRONT + texts(b"", b"Default", b"File")),
        ("no media", -2, 1, 0, FRONT + texts(name, b"Default")),
        ("a dot as pool", -2, 1, 0, FRONT + texts(name, b".", b"File")),
        ("two dots as media", -2, 1, 0, FRONT + texts(name, b"Default", b"..")),
        ("a pool of 128 characters", -2, 1, 0, FRONT + texts(name, 128 * b"n", b"File")),
        ("a media of 128 characters", -2, 1, 0, FRONT + texts(name, b"Default", 128 * b"n")),
        ("another name", -2, 1, 0, FRONT + texts(b"Vol-xxxx", b"Default", b"File")),
        ("a longer name", -2, 1, 0, FRONT + texts(name + b"0", b"Default", b"File")),
        ("the name in capitals", -2, 1, 0, FRONT + texts(name.swapcase(), b"Default", b"File")),
        ("a moment that is cut", -2, 1, 0, data[:20]),
        ("no data", -2, 1, 0, b""),
        ("a size too small", -2, 1, -1, data),
        ("a size too great", -2, 1, 1, data),
        ("the data of a start label", -2, 7, 0, START_DATA),
        ("a volume's header before a start label", -2, 1, 0, START_DATA),
    ]


def no_label_blocks(name):
    """Why the block is no label's, and the block."""
    body = fragment(-2, 1, volume_data(name))
    return [
        *((why, block((0, 0), 0, label_record(*row))) for why, *row in no_volume_labels(name)),
        ("number 1", block((0, 0), 1, body)),
        ("the session of an id", block((0, 1), 0, body)),
        ("the session of a time", block((1, 0), 0, body)),
        ("a record behind the label", block((0, 0), 0, body + HELLO)),
        ("a label behind the label", block((0, 0), 0, body + body)),
        ("another mark", block((0, 0), 0, body, mark=b"BB01")),
        ("a size of one byte less", block((0, 0), 0, body, size=len(body) + 23)),
        ("a size of one byte more", block((0, 0), 0, body, size=len(body) + 25)),
        ("no checksum", bytes(4) + block((0, 0), 0, body)[4:]),
        ("a session's block", block(KEY, 0, START + HELLO + END)),
        ("a block too small", block((0, 0), 0, body[:11])),
        ("no byte", b""),
        ("few bytes", label(name)[:23]),
        ("a label that is cut", label(name)[:-1]),
    ]


# Why it is no label of a session, at the session's beginning and at its end; as above.
NO_SESSION_LABELS = [
    ("a volume's index", -2, 7, 0, START_DATA),
    ("a record's index", 1, 7, 0, START_DATA),
    ("index 0", 0, 7, 0, START_DATA),
    ("another negative index", -3, 7, 0, START_DATA),
    ("another job's stream", -4, 8, 0, START_DATA),
    ("another job's stream, an end's", -5, 8, 0, END_DATA),
    ("a negated stream", -4, -7, 0, START_DATA),
    ("job 0", -4, 1, 0, session_data(0)),
    ("job past the greatest", -4, -MOST_NUMBER - 1, 0, session_data(MOST_NUMBER + 1)),
    ("a stream of 1 for job past the greatest", -4, 1, 0, session_data(MOST_NUMBER + 1)),
    ("a start with totals", -4, 7, 0, END_DATA),
    ("an end without totals", -5, 7, 0, START_DATA),
    ("another status", -5, 7, 0, END_DATA[:-1] + b"U"),
    ("a byte behind the totals", -5, 7, 0, END_DATA + b"\0"),
    ("totals that are cut", -5, 7, 0, END_DATA[:-1]),
    ("an end's size too small", -5, 7, -1, END_DATA),
    ("an end's size too great", -5, 7, 1, END_DATA),
    ("a start's size too small", -4, 7, -1, START_DATA),
    ("a start's size too great", -4, 7, 1, START_DATA),
    ("version 2", -4, 7, 0, session_data(7, version=2)),
    ("an end of version 2", -5, 7, 0, session_data(7, version=2) + END_DATA[-20:]),
    ("a volume's data", -4, 1, 0, volume_data(b"Vol-0001")),
    ("an empty pool", -4, 7, 0, session_data(7, pool=b"")),
    ("a bad media", -5, 7, 0, session_data(7, media=b"a b") + END_DATA[-20:]),
    ("another profile", -4, 7, 0, b"SD" + START_DATA[2:]),
]

# Bodies of one session, the records that are read, and the last line.
SESSIONS = [
    ("one body", [START + HELLO + END], [RECORD], "ok read 1 5 ended\n"),
    ("no record", [START + end(7, 0, 0)], [], "ok read 0 0 ended\n"),
    ("no more than a start", [START], [], "ok read 0 0 cut\n"),
    ("labels alone", [START, HELLO, END], [RECORD], "ok read 1 5 ended\n"),
    ("the totals count parts", [START + HEL, LO + END], [RECORD], "ok read 1 5 ended\n"),
    ("a record unfinished", [START + HELLO + HEL], [RECORD], "ok read 1 5 cut\n"),
    ("records among others", [START + EMPTY + HEL, LO + HELLO + EMPTY, HELLO],
     [NOTHING, RECORD, RECORD, NOTHING, RECORD], "ok read 5 15 cut\n"),
    ("a header alone", [START + fragment(1, 2, b"", 5), fragment(1, -2, b"hello") + END], [RECORD],
     "ok read 1 5 ended\n"),
    ("a byte a body", [START + fragment(1, 2, b"h", 5),
                       *(fragment(1, -2, b"hello"[at:at + 1], 5 - at) for at in range(1, 5)), END], [RECORD],
     "ok read 1 5 ended\n"),
    ("the greatest numbers", [start(MOST_NUMBER) + fragment(MOST_NUMBER, MOST_NUMBER, b"x", 2),
                              fragment(MOST_NUMBER, -MOST_NUMBER, b"y") + end(MOST_NUMBER, 1, 2)],
     [(MOST_NUMBER, MOST_NUMBER, b"xy")], "ok read 1 2 ended\n"),
    ("the least numbers", [start(1) + fragment(1, 1, b"") + end(1, 1, 0)], [(1, 1, b"")], "ok read 1 0 ended\n"),
    ("the longest data", [START + fragment(1, 2, MILLION * b"m", MOST_DATA), fragment(1, -2, MILLION * b"m", 3 * MILLION),
                          fragment(1, -2, MILLION * b"m", 2 * MILLION),
                          fragment(1, -2, MILLION * b"m") + end(7, 1, MOST_DATA)],
     [(1, 2, MOST_DATA * b"m")], f"ok read 1 {MOST_DATA} ended\n"),
    ("the longest data with a last byte of its own",
     [START + fragment(1, 2, (MILLION - 1) * b"m", MOST_DATA), fragment(1, -2, MILLION * b"m", 3 * MILLION + 1),
      fragment(1, -2, MILLION * b"m", 2 * MILLION + 1), fragment(1, -2, MILLION * b"m", MILLION + 1), fragment(1, -2, b"n")],
     [(1, 2, (MOST_DATA - 1) * b"m" + b"n")], f"ok read 1 {MOST_DATA} cut\n"),
    ("indexes in no order", [START + fragment(9, 2, b"") + fragment(3, 2, b"") + fragment(3, 5, b"")],
     [(9, 2, b""), (3, 2, b""), (3, 5, b"")], "ok read 3 0 cut\n"),
    ("labels of other jobs, pools and moments",
     [start(7, moment=-2) + HELLO + end(8, 1, 5, pool=127 * b"p", media=b"x_y:z.9", moment=2**63 - 1)], [RECORD],
     "ok read 1 5 ended\n"),
    ("the greatest block", [START + fragment(1, 2, 1000 * b"a", MILLION),
                            fragment(1, -2, 999_000 * b"b") + 4127 * EMPTY + fragment(3, 2, b"ends")],
     [(1, 2, 1000 * b"a" + 999_000 * b"b"), *(4127 * [NOTHING]), (3, 2, b"ends")], "ok read 4129 1000004 cut\n"),
]

# Why a session is damaged, its bodies, and the records before the last body, which is refused whole.
DAMAGES = [
    ("no start label but a record", [HELLO], []),
    ("no start label but an end label", [END], []),
    ("no start label but an end's header", [fragment(-5, 7, b"")], []),
    ("a stream of 0 in place of a start label", [fragment(1, 0, b"")], []),
    ("a start's header alone", [fragment(-4, 7, b"")], []),
    ("a start label again", [START, START], []),
    ("a start label again in its body", [START + HELLO + START], []),
    ("a start's header again", [START + HELLO, fragment(-4, 7, b"")], [RECORD]),
    ("index 0", [START, HELLO + fragment(0, 2, b"")], []),
    ("index 0 and a size above the greatest", [START, HELLO + fragment(0, 2, b"", 0xffffff)], []),
    ("a volume's index", [START, fragment(-2, 1, b"")], []),
    *((f"index {index}", [START + HELLO, fragment(index, 1, b"")], [RECORD]) for index in (-1, -3, -6, -7)),
    ("the least index", [START, fragment(-2**31, 1, b"")], []),
    ("a stream of 0", [START, HELLO + fragment(1, 0, b"")], []),
    ("a stream without a negation", [START, HELLO + fragment(1, -2**31, b"")], []),
    ("a size above the greatest", [START, fragment(1, 2, b"", MOST_DATA + 1)], []),
    ("the greatest size of all", [START, fragment(1, 2, b"", 2**32 - 1)], []),
    ("a continuation that is too long", [START, fragment(1, -2, b"", MOST_DATA + 1)], []),
    ("an end's header alone", [START, fragment(-5, 7, b"")], []),
    ("a continuation of nothing", [START + HELLO, LO], [RECORD]),
    ("a continuation in the record's body", [START, HEL, LO + LO], []),
    ("a continuation of another index", [START + HEL, fragment(2, -2, b"lo")], []),
    ("a continuation of another stream", [START + HEL, fragment(1, -3, b"lo")], []),
    ("a continuation that isn't negated", [START + HEL, fragment(1, 2, b"lo")], []),
    ("a continuation of a greater size", [START + HEL, fragment(1, -2, b"loo")], []),
    ("a continuation of a smaller size", [START + HEL, fragment(1, -2, b"l")], []),
    ("a continuation without a byte", [START + HEL, fragment(1, -2, b"", 2)], []),
    ("a start label within a record", [START + HEL, START], []),
    ("an end label within a record", [START + HELLO + HEL, END], [RECORD]),
    ("another record within a record", [START + HEL, HELLO], []),
    ("a stream of 0 within a record", [START + HEL, fragment(1, 0, b"lo")], []),
    ("a damage behind a continuation", [START + HELLO + HEL, LO + HELLO + fragment(0, 2, b"")], [RECORD]),
    ("no record counted", [START, END], []),
    ("one record too few", [START + HELLO + EMPTY, END], [RECORD, NOTHING]),
    ("one byte too many", [START, HELLO + end(7, 1, 6)], []),
    ("one byte too few", [START, HELLO + end(7, 1, 4)], []),
    ("one record too many", [START, HELLO + end(7, 2, 5)], []),
    ("a record counted 64 bits too far", [START, HELLO + end(7, 1, 5 + 2**63)], []),
    ("a record behind the end", [START + HELLO + END, HELLO], [RECORD]),
    ("a record behind the end in its body", [START, HELLO + END + EMPTY], []),
    ("an end label behind the end", [START + HELLO + END, END], [RECORD]),
    ("a start label behind the end", [START + HELLO + END, START], [RECORD]),
    ("a continuation behind the end", [START + HELLO + END, LO], [RECORD]),
    ("a stream of 0 behind the end", [START + HELLO + END, fragment(1, 0, b"")], [RECORD]),
    *((f"{count} bytes of a header", [START + HELLO, HELLO + bytes(count)], [RECORD]) for count in range(1, 12)),
    *((f"{count} bytes behind the end", [START + HELLO + END + bytes(count)], []) for count in range(1, 12)),
    *((f"{count} bytes of a header behind a continuation", [START + HEL, LO + bytes(count)], [])
      for count in range(1, 12)),
]

# Three volumes. Vol-0001 has, after its label, a block of session 1 from 82 on, one of session 2 from 1106 on and one
# of session 1 from 2130 to 3154; Vol-0002 has the last block of session 2 from 82 on and that of session 1 from 756 to
# 1171; Vol-0003 has session 3, from 82 to 249. Sessions 1, 2 and 3 have records of these sizes.
RECORDS_ON_SHELF = {
    1: [(1, 2, 5 * b"x"), (2, 2, 1500 * b"x"), (3, 2, 700 * b"x")],
    2: [(1, 2, 1500 * b"y")],
    3: [(1, 2, 5 * b"z")],
}

# What the spans are, the session's number, the volume, number, start and end of each; how many of its records are read,
# and the last line.
SPANS = [
    ("two volumes", 1, [(1, 1, 82, 3154), (2, 2, 756, 1171)], 3, "ok read 3 2205 ended"),
    ("interleaved", 2, [(1, 1, 1106, 2130), (2, 2, 82, 756)], 1, "ok read 1 1500 ended"),
    ("numbered anew in each span", 1, [(1, 1, 82, 1106), (1, 2, 2130, 3154), (2, 3, 756, 1171)], 3,
     "ok read 3 2205 ended"),
    ("cut", 1, [(1, 1, 82, 3154)], 2, "ok read 2 1505 cut"),
    ("nothing whole", 2, [(1, 1, 1106, 2130)], 0, "ok read 0 0 cut"),
    ("one block", 3, [(3, 1, 82, 249)], 1, "ok read 1 5 ended"),
    ("no span", 1, [], 0, BAD_SPAN),
    ("numbered from 2 on", 1, [(1, 2, 82, 3154)], 0, BAD_SPAN),
    ("numbered from 0 on", 1, [(1, 0, 82, 3154), (2, 1, 756, 1171)], 0, BAD_SPAN),
    ("a number twice", 1, [(1, 1, 82, 3154), (2, 1, 756, 1171)], 0, BAD_SPAN),
    ("a number left out", 1, [(1, 1, 82, 3154), (2, 3, 756, 1171)], 0, BAD_SPAN),
    ("empty", 1, [(1, 1, 82, 82)], 0, BAD_SPAN),
    ("turned about", 1, [(1, 1, 3154, 82)], 0, BAD_SPAN),
    ("empty behind one", 1, [(1, 1, 82, 3154), (2, 2, 756, 756)], 0, BAD_SPAN),
    ("bad number before a missing volume", 1, [(9, 1, 82, 3154), (2, 1, 756, 1171)], 0, BAD_SPAN),
    ("turned about behind a missing volume", 1, [(9, 1, 82, 3154), (2, 2, 1171, 756)], 0, BAD_SPAN),
    ("bad number behind a span past the end", 1, [(1, 1, 82, 3155), (2, 3, 756, 1171)], 0, BAD_SPAN),
    ("no such volume", 1, [(9, 1, 82, 3154)], 0, NOT_THERE),
    ("no such volume behind one", 1, [(1, 1, 82, 3154), (9, 2, 756, 1171)], 2, NOT_THERE),
    ("no such volume behind one past the end", 1, [(1, 1, 82, 3155), (9, 2, 756, 1171)], 0, ENDS_EARLY),
    ("past the end", 1, [(1, 1, 82, 3155)], 0, ENDS_EARLY),
    ("far past the end", 1, [(1, 1, 82, 2**64 - 1)], 0, ENDS_EARLY),
    ("begins past the end", 1, [(1, 1, 3154, 3155)], 0, ENDS_EARLY),
    ("begins far past the end", 1, [(1, 1, 2**64 - 2, 2**64 - 1)], 0, ENDS_EARLY),
    ("past the end behind a span", 1, [(1, 1, 82, 3154), (2, 2, 756, 1172)], 2, ENDS_EARLY),
    ("past the end before a block", 1, [(1, 1, 83, 3155)], 0, ENDS_EARLY),
    ("one byte", 1, [(1, 1, 82, 83)], 0, BAD_SPAN),
    ("less than the least block", 1, [(1, 1, 82, 117)], 0, BAD_SPAN),
    ("the least block", 1, [(1, 1, 82, 118)], 0, BAD_SPAN),
    ("one byte lacks", 1, [(1, 1, 82, 1105)], 0, BAD_SPAN),
    ("one byte more", 1, [(1, 1, 82, 1107)], 1, BAD_SPAN),
    ("within a block of another session", 1, [(1, 1, 82, 2129)], 1, BAD_SPAN),
    ("from a byte on", 1, [(1, 1, 83, 3154)], 0, DAMAGED),
    ("few bytes that are no block", 1, [(1, 1, 83, 118)], 0, BAD_SPAN),
    ("bytes of a block's length that are none", 1, [(1, 1, 83, 119)], 0, DAMAGED),
    ("from the label on, whose number is 0", 1, [(1, 1, 0, 1106)], 1, "ok read 1 5 cut"),
    ("no block of the session", 9, [(1, 1, 82, 3154), (2, 2, 756, 1171)], 0, BAD_SPAN),
    ("no block of the session in the label", 1, [(1, 1, 0, 82)], 0, BAD_SPAN),
    ("begins within a record", 1, [(1, 1, 2130, 3154)], 0, DAMAGED),
    ("the end first", 1, [(2, 1, 756, 1171)], 0, DAMAGED),
    ("out of order", 1, [(2, 1, 756, 1171), (1, 2, 82, 3154)], 0, DAMAGED),
    ("a block twice", 1, [(1, 1, 82, 1106), (1, 2, 82, 1106)], 1, DAMAGED),
    ("a block left out", 1, [(1, 1, 82, 1106), (2, 2, 756, 1171)], 1, DAMAGED),
    ("a session behind its end", 3, [(3, 1, 82, 249), (3, 2, 82, 249)], 1, DAMAGED),
]

# A session in three blocks: a record of 5 bytes, and one of 30 in three parts.
LINE = b"ten bytes,and again,and again."
SMALL = [START + HELLO + fragment(2, 3, LINE[:10], 30), fragment(2, -3, LINE[10:20], 20),
         fragment(2, -3, LINE[20:]) + end(7, 2, 35)]
SMALL_RECORDS, SMALL_LAST = [RECORD, (2, 3, LINE)], "ok read 2 35 ended\n"
# They lie from 82 to 198, 244 and 363, at least if they have the numbers 1, 2 and 3.
SMALL_ENDS = (198, 244, 363)


def small(*seconds, numbers=(1, 2, 3), keys=(KEY, KEY, KEY), body=SMALL[1]):
    """The blocks of the small session, with these bytes in place of the second block if there are any."""
    first, second, third = (block(key, number, data) for key, number, data in
                            zip(keys, numbers, (SMALL[0], body, SMALL[2])))
    return first + b"".join(seconds or [second]) + third


def second(**fields):
    """The second block of the small session with other fields in its header, summed anew."""
    return block(fields.pop("key", KEY), fields.pop("number", 2), SMALL[1], **fields)


NEXT, LAST_NUMBER = second(), 2**32 - 1
NO_SUM = bytes(4) + NEXT[4:]

# Why the blocks after a label may not be read, or may: the blocks, how many records of the small session are read, and
# the last line. The span is all of them.
BLOCKS = [
    ("whole", small(), 2, SMALL_LAST),
    ("numbers from another on", small(numbers=(7, 8, 9)), 2, SMALL_LAST),
    ("numbers from 0 on", small(numbers=(0, 1, 2)), 2, SMALL_LAST),
    ("numbers up to the greatest", small(numbers=(LAST_NUMBER - 2, LAST_NUMBER - 1, LAST_NUMBER)), 2, SMALL_LAST),
    ("no number behind the greatest", small(numbers=(LAST_NUMBER, 0, 1)), 1, DAMAGE),
    ("a number again", small(numbers=(1, 1, 2)), 1, DAMAGE),
    ("a number left out", small(numbers=(1, 3, 4)), 1, DAMAGE),
    ("numbers that fall", small(numbers=(3, 2, 1)), 1, DAMAGE),
    ("a number left out behind", small(numbers=(1, 2, 4)), 1, DAMAGE),
    ("no checksum", small(NO_SUM), 1, DAMAGE),
    ("another mark", small(second(mark=b"BB01")), 1, DAMAGE),
    ("a mark in small letters", small(second(mark=b"bb02")), 1, DAMAGE),
    ("a size of 0", small(second(size=0)), 1, DAMAGE),
    ("a size of 24", small(second(size=24)), 1, DAMAGE),
    ("a size of 35", small(second(size=35)), 1, DAMAGE),
    ("a size of one byte less", small(second(size=45)), 1, DAMAGE),
    ("a size of one byte more", small(second(size=47)), 1, DAMAGE),
    ("a size up to the end", small(second(size=165)), 1, DAMAGE),
    ("a size past the end", small(second(size=166)), 1, f"{BAD_SPAN}\n"),
    ("the greatest size, past the end", small(second(size=MOST_BLOCK)), 1, f"{BAD_SPAN}\n"),
    ("a size above the greatest", small(second(size=MOST_BLOCK + 1)), 1, DAMAGE),
    ("the greatest size of all", small(second(size=2**32 - 1)), 1, DAMAGE),
    ("another mark, past the end", small(second(size=166, mark=b"BB01")), 1, DAMAGE),
    ("no checksum, past the end", small(bytes(4) + second(size=166)[4:]), 1, f"{BAD_SPAN}\n"),
    ("another number, past the end", small(second(size=166, number=9)), 1, f"{BAD_SPAN}\n"),
    ("no checksum, and another number", small(bytes(4) + second(number=9)[4:]), 1, DAMAGE),
    ("a block smaller by a byte", small(block(KEY, 2, SMALL[1][:-1])), 1, DAMAGE),
    ("a block without a body", small(block(KEY, 2, b""), NEXT), 1, DAMAGE),
    ("a block of another session", small(block(OTHER_SESSION, 2, START + HELLO), second(number=3),
                                         numbers=(1, 0, 4)), 2, SMALL_LAST),
    ("a block of another run", small(block(OTHER_RUN, 2, START + HELLO), second(number=3), numbers=(1, 0, 4)), 2,
     SMALL_LAST),
    ("another session's block of no session's bytes", small(block(OTHER_SESSION, 2, bytes(12)), second(number=3),
                                                            numbers=(1, 0, 4)), 2, SMALL_LAST),
    ("another session's greatest block", small(block(OTHER_SESSION, 2, bytes(MOST_BLOCK - 24)), second(number=3),
                                               numbers=(1, 0, 4)), 2, SMALL_LAST),
    ("another session's block that is too great", small(block(OTHER_SESSION, 2, bytes(MOST_BLOCK - 23)),
                                                        second(number=3), numbers=(1, 0, 4)), 1, DAMAGE),
    ("another session's block that is too small", small(block(OTHER_SESSION, 2, bytes(11)), second(number=3),
                                                        numbers=(1, 0, 4)), 1, DAMAGE),
    ("another session's block without checksum", small(bytes(4) + block(OTHER_SESSION, 2, START)[4:],
                                                       second(number=3), numbers=(1, 0, 4)), 1, DAMAGE),
    ("another session's block of another number", small(block(OTHER_SESSION, 5, START), second(number=3),
                                                        numbers=(1, 0, 4)), 1, DAMAGE),
    ("another session's block with a mark", small(block(OTHER_SESSION, 2, START, mark=b"BB01"), second(number=3),
                                                  numbers=(1, 0, 4)), 1, DAMAGE),
    ("the second of another session", small(keys=(KEY, OTHER_SESSION, KEY)), 1, DAMAGE),
    ("the last of another session", small(keys=(KEY, KEY, OTHER_SESSION)), 1, "ok read 1 5 cut\n"),
    ("the first of another run", small(keys=(OTHER_RUN, KEY, KEY)), 0, DAMAGE),
    ("all of other sessions", small(keys=(OTHER_RUN, OTHER_SESSION, OTHER_RUN)), 0, f"{BAD_SPAN}\n"),
    ("35 bytes more", small() + bytes(35), 2, f"{BAD_SPAN}\n"),
    ("36 bytes more", small() + bytes(36), 2, DAMAGE),
    ("35 bytes of another mark", small() + block(KEY, 4, EMPTY, mark=b"BB01")[:35], 2, f"{BAD_SPAN}\n"),
    ("the front of a block", small() + block(KEY, 4, HELLO)[:40], 2, f"{BAD_SPAN}\n"),
]

SPAN = "span Vol-0001 1 1 1 82 249"
# Texts of a session in the block of Vol-0001 that lies from 82 to 249, or of a volume of that name; and the last line.
TEXTS = [
    (f"session 1000 1\n{SPAN}\n", "ok read 1 5 ended\n"),
    (f"session 1000 1\n{SPAN}", "ok read 1 5 ended\n"),
    ("session 1000 1\nspan Vol-0001 1 0 0 82 249\n", "ok read 1 5 ended\n"),
    ("session 1000 1\nspan Vol-0001 1 4294967295 4294967295 82 249", "ok read 1 5 ended\n"),
    ("session 1000 1\nspan Vol-0001 1 9 1 82 249", "ok read 1 5 ended\n"),
    ("session 1000 1\nspan Vol-0001 1 1 1 0 249", "ok read 1 5 ended\n"),
    ("session 1000 1\nspan Vol-0001 1 1 1 82 18446744073709551615", f"{ENDS_EARLY}\n"),
    ("session 1000 1\nspan Vol-0001 1 1 1 18446744073709551614 18446744073709551615", f"{ENDS_EARLY}\n"),
    ("session 0 0\nspan Vol-0001 1 0 0 0 82", DAMAGE),
    ("session 1000 1\nspan ... 1 1 1 82 249", f"{NOT_THERE}\n"),
    ("session 1000 1\nspan _:.-z 1 1 1 82 249", f"{NOT_THERE}\n"),
    ("session 1000 1\nspan " + 127 * "n" + " 1 1 1 82 249", f"{NOT_THERE}\n"),
]

# Texts that are none; most of them say the session to a reader that is less strict.
NO_TEXTS = [
    "", "\n", " ", "session", "session 1000", "session 1000 ", "session 1000 1", "session 1000 1\n",
    SPAN, f"{SPAN}\nsession 1000 1\n", f"session 1000 1\n{SPAN}\nsession 1000 1\n",
    *(f"{line}\n{SPAN}\n" for line in (
        "session 1000 1 1", "session  1000 1", "session 1000  1", " session 1000 1", "session 1000 1 ",
        "session\t1000 1", "session 1000\t1", "Session 1000 1", "SESSION 1000 1", "sessions 1000 1", "sessio 1000 1",
        "\nsession 1000 1", "session 1000 1\n", "session 1000 1\r", "session 1000 1\0", "session 1000\n1",
        "session 01000 1", "session 1000 01", "session +1000 1", "session 1000 +1", "session -1000 1",
        "session 1000 -1", "session 1000. 1", "session 1e3 1", "session 0x3e8 1", "session 1,000 1", "session 1_000 1",
        "session  1", "session 1000", "session 4294968296 1", "session 1000 4294967297",
        "session 18446744073709552616 1",
        "session 1000 18446744073709551617", "session 340282366920938463463374607431768212456 1", "session one 1",
        "session 1000 1\u00e9", "session 1000 \uff11", "session 1000 1\u00a0", "session 1000 1\udcff", "",
    )),
    *(f"session 1000 1\n{line}" for line in (
        f"{SPAN}\n\n", f"\n{SPAN}", f"{SPAN}\r\n", f"{SPAN}\r", f"{SPAN} ", f" {SPAN}", f"{SPAN} 0", f"{SPAN}\0",
        f"{SPAN}\n ", f"{SPAN}\n#", f"{SPAN}\n{SPAN}", f"{SPAN}\nspam Vol-0001 2 1 1 82 249",
        f"{SPAN}\nspan Vol-0001 2 1 1 82 x\nspan Vol-0001 3 1 1 82 249", "span Vol-0001 1 1 1 82", "span",
        "Span Vol-0001 1 1 1 82 249", "spans Vol-0001 1 1 1 82 249", "span  Vol-0001 1 1 1 82 249",
        "span Vol-0001  1 1 1 82 249", "span Vol-0001 1 1 1 82  249", "span\tVol-0001 1 1 1 82 249",
        "span Vol-0001 1 1 1\t82 249", "span  1 1 1 82 249", "span ./Vol-0001 1 1 1 82 249",
        "span x/../Vol-0001 1 1 1 82 249", "span .. 1 1 1 82 249", "span . 1 1 1 82 249",
        "span Vol/0001 1 1 1 82 249", "span Vol-0001\0 1 1 1 82 249", "span Vol-0001\u00e9 1 1 1 82 249",
        "span \udcff 1 1 1 82 249", "span " + 128 * "n" + " 1 1 1 82 249",
        "span Vol-0001 01 1 1 82 249", "span Vol-0001 1 01 1 82 249", "span Vol-0001 1 1 01 82 249",
        "span Vol-0001 1 1 1 082 249", "span Vol-0001 1 1 1 82 0249", "span Vol-0001 1 1 1 00 249",
        "span Vol-0001 1 00 1 82 249", "span Vol-0001 +1 1 1 82 249", "span Vol-0001 1 +1 1 82 249",
        "span Vol-0001 1 1 +1 82 249", "span Vol-0001 1 1 1 +82 249", "span Vol-0001 1 1 1 82 +249",
        "span Vol-0001 -1 1 1 82 249", "span Vol-0001 1 -0 1 82 249", "span Vol-0001 1 1 1 -0 249",
        "span Vol-0001 1 1 1 82 249.", "span Vol-0001 1 1 1 0x52 249", "span Vol-0001 1 x 1 82 249",
        "span Vol-0001 18446744073709551617 1 1 82 249", "span Vol-0001 1 4294967296 1 82 249",
        "span Vol-0001 1 4294967297 1 82 249", "span Vol-0001 1 1 4294967296 82 249",
        "span Vol-0001 1 1 4294967297 82 249", "span Vol-0001 1 18446744073709551617 1 82 249",
        "span Vol-0001 1 1 1 18446744073709551698 249", "span Vol-0001 1 1 1 82 18446744073709551616",
        "span Vol-0001 1 1 1 82 18446744073709551865", "span Vol-0001 1 1 1 18446744073709551616 249",
        # Texts of that form whose numbers don't go together.
        "span Vol-0001 0 1 1 82 249", "span Vol-0001 2 1 1 82 249", "span Vol-0001 18446744073709551615 1 1 82 249",
        "span Vol-0001 1 1 1 82 82", "span Vol-0001 1 1 1 249 82", "span Vol-0001 1 1 1 0 0",
        f"{SPAN}\nspan Vol-0001 1 1 1 82 249", f"{SPAN}\nspan Vol-0001 3 1 1 82 249",
        f"{SPAN}\nspan Vol-0001 2 1 1 249 249",
    )),
]
