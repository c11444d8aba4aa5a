"""The dialogues of docs/use/PROTOCOL.md, each in a talk of its own with a daemon of its own. tests/pages/run plays them;
the conversation that the page shows byte by byte is played by tests/talks.
"""
import pathlib
import re
import socket
import tempfile

from clients import client, say
from daemon import ROOT, WAIT, Daemon, drive, free_port
from shim import compiled, loaded

PAGE = ROOT / "docs" / "use" / "PROTOCOL.md"
BLOCK = re.compile(r"^```dialogue\n(.*?)^```$", re.MULTILINE | re.DOTALL)
SECONDS, LEAST_DIALOGUES = 1000, 5


def sent(text):
    """The bytes of a packet with that text, or of a signal."""
    return client.signal(int(text)) if re.fullmatch(r"-\d+", text) else client.packet(text.encode())


def answered(text):
    """The bytes that the daemon sends for it: its texts end with a newline, but those of records and their headers."""
    is_record = re.fullmatch(r"\d+ \d+ 0|hello", text)
    return sent(text if is_record or text.startswith("-") else f"{text}\n")


def dialogues_in(page):
    """Each dialogue with its name: who speaks, and the bytes."""
    for number, block in enumerate(BLOCK.findall(page), 1):
        lines = [(line[0], line[2:]) for line in block.splitlines()]
        yield f"dialogue {number}", [(who, (sent if who == ">" else answered)(text)) for who, text in lines]


def held(checks, name, lines, port):
    """Holds a dialogue: what the client sends goes out as soon as all before it has come."""
    with socket.create_connection(("127.0.0.1", port), timeout=WAIT) as talk:
        for number, (who, wanted) in enumerate(lines, 1):
            if who == ">":
                talk.sendall(wanted)
                continue
            came = b""
            while len(came) < len(wanted) and (more := talk.recv(len(wanted) - len(came))):
                came += more
            checks.same(f"{name}, line {number}", came, wanted)
        if lines[-1] == (">", client.signal(client.TERMINATE)):
            checks.same(f"{name}, the end", talk.recv(1), b"")


def play(checks):
    checks.group = PAGE.name
    lists = list(dialogues_in(PAGE.read_text()))
    checks.check("dialogues", len(lists) >= LEAST_DIALOGUES, len(lists))
    with tempfile.TemporaryDirectory() as folder:
        library, port = compiled(folder), free_port()
        for number, (name, lines) in enumerate(lists):
            place = pathlib.Path(folder) / str(number)
            place.mkdir()
            conf = place / "conf"
            conf.write_text(f"port = {port}\n" + drive("File", place))
            with Daemon(conf, port=port, env=loaded(library, CLOCK_SECONDS=SECONDS)):
                for line, answer in (("label 1 Vol-0001 Default File", "labelled"), ("mount 1 Vol-0001", "mounted")):
                    checks.same(line, say(port, "console", *line.split()), (f"ok {answer}\n", 0))
                held(checks, name, lines, port)
