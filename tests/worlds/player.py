"""Plays scripts by `sdtool run`, line by line beside the answers of the model, and counts the kinds of answers."""
import subprocess

from ample import never_wanting
from daemon import SDTOOL

WAIT = 60


def program_answers(settings, lines, wanted):
    """What the program prints of a script, as answers to its lines: each has as many lines as the one that is wanted there,
    and the last one all that is left."""
    script = "".join(f"{line}\n" for line in [*settings.lines(), *lines])
    done = subprocess.run([SDTOOL, "run"], input=script.encode(), capture_output=True, timeout=WAIT)
    printed, got = never_wanting(done.stdout.decode()).splitlines(), []
    for answer in wanted[:-1]:
        got.append(printed[:len(answer)])
        printed = printed[len(answer):]
    return [*got, printed + ([f"status {done.returncode}"] if done.returncode else [])]


def differing(about, lines, got, wanted):
    """The first line that isn't answered as it should."""
    for at, (line, answer, other) in enumerate(zip(lines, got, wanted), 1):
        if answer != other:
            yield f"{about}, line {at}, {line!r}: {answer} in place of {other}"
            return


def kind(line, answer):
    """The word of a line, and what its answer says, without numbers and names: that of a reading with its last line, any
    other with its first."""
    word = line.split(" ")[0]
    said = answer[-1 if word in ("read", "again") else 0]
    words = [one for one in said.split(" ") if one.isalpha() and one.islower()]
    return f"{word}: {said[:4] if said.startswith('39') else ' '.join(words)}"


def kinds(lines, answers):
    return [kind(line, answer) for line, answer in zip(lines, answers) if answer]


def lacking(counts, floors):
    for kind_, least in floors.items():
        if counts[kind_] < least:
            yield f"{kind_}: only {counts[kind_]} times, {least} are wanted"


def record_line(fields):
    """What a reading prints of a record that a line gave."""
    word, _, index, stream, *data = fields.split(" ", 4)
    data = b"x" * int(data[0]) if word == "fill" else "".join(data).encode()
    return f"rec {index} {stream} {len(data)} {data[:16].hex() or '-'}", len(data)


def unlike_lists(lines, answers):
    """Readings of sessions, in the run that opened them, that aren't their lists: that of a closed one is to be whole, and
    any other to be the first of what was taken; so is what was read before a fault. Of a closed one just that is refused of
    which a volume was purged."""
    lists, closed, gone = {}, {}, set()
    for line, answer in zip(lines, answers):
        word, _, rest = line.partition(" ")
        ticket, said = rest.split(" ")[0], (answer or [""])[-1]
        if word == "restart" and said[:4] not in ("3901", "3912", "3937", "3938"):
            lists, closed, gone = {}, {}, set()
        elif said.startswith("ok taken"):
            lists.setdefault(ticket, []).append(record_line(line))
        elif word == "close" and answer[0].startswith("ok closed"):
            closed[ticket] = {one.split(" ")[1] for one in answer[2:]}
        elif word == "purge" and said in ("ok purged", "3940 Device fault"):
            gone |= {one for one, volumes in closed.items() if rest.split(" ")[1] in volumes}
        elif word == "read":
            taken = lists.get(ticket, [])
            read, wanted = answer[:-1], [one for one, _ in taken]
            whole = f"ok read {len(taken)} {sum(size for _, size in taken)} ended"
            if read != wanted[:len(read)] or (ticket in closed and said.startswith("ok") and said != whole):
                yield f"{line!r}: {answer} is no reading of {wanted}"
            if ticket in closed and said[:4] != "3912" and said.startswith("3953") != (ticket in gone):
                yield f"{line!r}: {answer} of a session on {closed[ticket]}"
