"""What `sdtool salvage` prints: a model of its own, over whole files in memory. It lists the fragments of the session and the
gaps between them, and looks at each fragment whether the fragments of a whole record begin there."""
from model import BLOCK_HEADER, MOST_DATA, Counting, Session, whole_block


def next_whole(image, at, limit):
    """The first place from one on and before the limit at which a whole block is, or none."""
    while 0 <= at < limit:
        if not isinstance(whole_block(image, at), str):
            return at
        at = image.find(b"BB02", at + 13) - 12
    return None


def pieces(files, spans):
    """The blocks in spans, and the places from which on some may be lost."""
    for volume, start, end in spans:
        image = files.get(volume)
        if image is None:
            yield "gap", volume, start
            continue
        at, last = start, None
        while (there := next_whole(image, at, min(len(image), end))) is not None:
            size, number, key, body = whole_block(image, there)
            if there + size > end:
                break
            if there != at or number != (number if last is None else last + 1):
                yield "gap", volume, at
            yield "block", volume, there, key, body
            at, last = there + size, number
        if at < end:
            yield "gap", volume, at


def items(files, key, spans):
    """The fragments and gaps of a session, what is told besides, and how it stands at its end."""
    session, sound, found = None, True, False
    for kind, volume, at, *block in pieces(files, spans):
        if kind == "gap":
            sound = False
            yield "gap", volume, at
        elif block[0] == key:
            found = True
            fragments = Session.fragments(block[1])
            whole = bool(fragments) and fragments[-1] is not None
            for one in fragments if whole else fragments[:-1]:
                yield "part", *one
            session = session or Counting(block[1])
            if sound:
                session.take(volume, at, block[1])
            if not whole:
                yield "gap", volume, at
            elif sound and session.damaged:
                yield "told", volume, at
            sound = sound and whole and not session.damaged
    yield "end", sound, found, bool(session and session.ended)


def record_at(stream, at):
    """The whole record that begins at a place of the stream, and how many items it has; or none."""
    kind, *first = stream[at]
    if kind != "part":
        return None
    index, kind_of_data, size, part = first
    if index < 1 or kind_of_data < 1 or size > MOST_DATA:
        return None
    data, taken = part, 1
    while len(data) < size:
        step = 1
        while at + taken + step - 1 < len(stream) and stream[at + taken + step - 1][0] == "told":
            step += 1
        taken += step
        if at + taken > len(stream):
            return None
        kind, *one = stream[at + taken - 1]
        if kind != "part" or one[:2] != [index, -kind_of_data] or one[2] != size - len(data) or not one[3]:
            return None
        data += one[3]
    return (index, kind_of_data, data), taken


def salvaged(files, key, spans):
    """What `sdtool salvage` prints of a session, its status, and its records."""
    stream = list(items(files, key, spans))
    _, sound, found, ended = stream.pop()
    if sound and not found:
        return b"3950 Bad span\n", 1, []
    begun, at = {}, 0
    while at < len(stream):
        record = record_at(stream, at)
        if record:
            begun[at + record[1] - 1] = record[0]
        at += record[1] if record else 1
    told, last, lost, gaps, records = b"", 0, False, 0, []
    for at, item in enumerate(stream):
        if item[0] in ("gap", "told"):
            told += f"gap {item[1]} {item[2]}\n".encode()
            lost, gaps = True, gaps + 1
        if at in begun:
            index, kind, data = begun[at]
            if lost:
                told += f"missing {max(last, 1)} {index}\n".encode()
            told += b"rec %d %d %d\n%s\n" % (index, kind, len(data), data)
            lost, last = False, index
            records.append(begun[at])
    if lost:
        told += f"missing {max(last, 1)} -\n".encode()
    count = sum(len(data) for _, _, data in records)
    if sound:
        return told + f"ok read {len(records)} {count} {'ended' if ended else 'cut'}\n".encode(), 0, records
    return told + f"salvaged {len(records)} {count} gaps {gaps}\n".encode(), 1, records
