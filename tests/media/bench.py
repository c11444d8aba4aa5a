"""What tests/media stands on: checks that are counted, `sdtool` that is run, and a daemon whose clock is set, with a
client of it."""
import contextlib
import itertools
import os
import struct
import subprocess

import daemon
from ample import never_wanting
from clients import END_OF_DATA, client
from daemon import SDTOOL, WAIT, drive, free_port
from shim import loaded


def tool(folder, *words, **environment):
    """What `sdtool` prints, and its status. It says nothing on standard error."""
    done = subprocess.run([SDTOOL, *words], capture_output=True, timeout=WAIT, cwd=folder,
                          env=os.environ | environment)
    return never_wanting(done.stdout + done.stderr), done.returncode


def printed(records, last):
    """What `sdtool read` prints of these records, and its status."""
    lines = [b"rec %d %d %d\n%s\n" % (index, stream, len(data), data) for index, stream, data in records]
    return b"".join(lines) + last.encode(), int(not last.startswith("ok"))


class Daemon(daemon.Daemon):
    """A running `sdd serve`, the run of that time, with a drive of that media and one of each other."""

    def __init__(self, room, other_system, seconds, *others, media="File", **settings):
        self.clock, conf, self.port = room / "clock", room / "conf", free_port()
        self.folders = [room / f"volumes-{word}" for word in (media, *others)]
        for folder in self.folders:
            folder.mkdir(parents=True)
        lines = [f"{key} = {value}" for key, value in {**settings, "port": self.port}.items()]
        conf.write_text("\n".join([*lines, *map(drive, (media, *others), self.folders)]))
        # The daemon asks for the time of its run before it listens.
        self.set_clock(seconds * 1_000_000)
        super().__init__(conf, port=self.port, log=False, env=loaded(other_system, CLOCK_FILE=self.clock))

    def set_clock(self, moment):
        """From now on it is that moment, in microseconds, and a little more."""
        seconds, micros = divmod(moment, 1_000_000)
        other = self.clock.with_suffix(".new")
        other.write_bytes(struct.pack("qq", seconds, 1000 * micros + 999))
        other.replace(self.clock)

    @contextlib.contextmanager
    def talk(self, moment=0):
        """A talk that begins at that moment. In it the clock says another."""
        self.set_clock(moment)
        with client.Talk(self.port, timeout=WAIT) as talk:
            console(talk, "requests")
            self.set_clock(moment + 5_000_000 if moment < 2**62 else 7)
            yield talk
            talk.terminate()

    def say(self, line, moment=0):
        """What the daemon answers to a line of the operator."""
        with self.talk(moment) as talk:
            return console(talk, line)

    def label(self, name, pool="Default", media="File", moment=0):
        return self.say(f"label 1 {name} {pool} {media}", moment)

    def bytes_of(self, name):
        """The bytes of a volume of the first drive."""
        return (self.folders[0] / name).read_bytes()


def console(talk, line):
    """The lines that answer a line of the operator, or the refusal."""
    talk.send(client.text_packet(f"console {line}"))
    answer = []
    while not isinstance(packet := talk.receive(), int):
        answer.append(never_wanting(packet.decode()))
        if answer[0].startswith("39"):
            break
    return "".join(answer)


def append(talk, ticket, records):
    """Appends records, each an index, a stream and data, in one phase."""
    talk.ask(f"append data {ticket}")
    for (index, stream), alike in itertools.groupby(records, key=lambda record: record[:2]):
        packets = (client.packet(data) for _, _, data in alike)
        talk.send(client.text_packet(f"{index} {stream} 0"), *packets, END_OF_DATA)
    talk.send(END_OF_DATA)
    talk.line()


def close(talk, ticket):
    """Ends and closes a session, and gives its JobMedia text."""
    return "".join(f"{line}\n" for line in client.close_session(talk, ticket))


def session(daemon, records, moment=0, job=7, pool="Default", media="File"):
    """The JobMedia text of a session with these records, that is appended in a talk of its own."""
    with daemon.talk(moment) as talk:
        ticket = client.open_session(talk, job, pool, media)
        append(talk, ticket, records)
        return close(talk, ticket)


def read_over_the_socket(daemon, text):
    """The records that the daemon reads back by a JobMedia text, and the last line."""
    first, *spans = text.splitlines()
    _, seconds, number = first.split()
    with daemon.talk() as talk:
        talk.send(client.text_packet(f"read session Time={seconds} Id={number}"),
                  *(client.text_packet(span) for span in spans), END_OF_DATA)
        records = []
        while (header := talk.receive()) != client.END_OF_DATA:
            index, stream, _ = map(int, header.split())
            records.append((index, stream, talk.receive()))
            if header != b"%d %d 0" % (index, stream) or talk.receive() != client.END_OF_DATA:
                return records, f"a record with the header {header}, or without its end"
        return records, never_wanting(talk.receive().decode())
