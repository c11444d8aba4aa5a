"""A daemon over folders of its own, calls on whose files fail as tests/lib/shim.c says; and what clients say to it."""
import errno
import subprocess

import daemon
from ample import never_wanting
from clients import client
from daemon import SDD, SDTOOL, WAIT, free_port
from drive_model import END_LABEL, START_LABEL, fragment, label_block, seal, session_label
from noters import noters
from printed import records_of
from shim import loaded

# A close that comes too early is told at once.
client.CLOSING, client.PAUSE = 0, 0


class Talk(client.Talk):
    """A connection that doesn't wait for ever."""

    def __init__(self, port):
        super().__init__(port, timeout=WAIT)

    def __exit__(self, *why):
        try:
            self.terminate()
        finally:
            super().__exit__(*why)


class Site:
    """A folder with those of the volumes and the spools. The calls on the files of one of the two may fail."""

    def __init__(self, folder, shim, watched="volumes", settings=("block = 1024",), drives=(("File", "volumes"),)):
        self.folder, self.shim = folder, shim
        self.port = free_port()
        self.plan, self.made, self.conf = folder / "plan", folder / "calls", folder / "sdd.conf"
        self.serial, self.told = 0, 0
        self.volumes, self.spools, self.watched = folder / "volumes", folder / "spools", folder / watched
        # The calls of the threads that write notes come at any time, and are none of those that fail.
        self.aside = noters(shim, len(drives))
        for place in (self.volumes, self.spools):
            place.mkdir(exist_ok=True)
        tables = (f'[[drive]]\nmedia = "{media}"\nfolder = "{folder / place}"' for media, place in drives)
        self.conf.write_text("\n".join([*settings, f"port = {self.port}", f'spool_folder = "{self.spools}"', *tables]))

    def env(self, seconds):
        """What a program is given so that its calls fail, and its clock says so many seconds."""
        return loaded(self.shim, FAULTS_FOLDER=self.watched, FAULTS_PLAN=self.plan, FAULTS_LOG=self.made, CLOCK_SECONDS=seconds,
                      ASIDE=self.aside)

    def daemon(self, seconds, *words, program=SDD, **options):
        """The daemon in the run of that time. The files that it makes have the permissions that it asks for, no fewer."""
        return daemon.Daemon(self.conf, *words, port=self.port, program=program, env=self.env(seconds), umask=0, **options)

    def fail(self, kind, nth, how="fail", number=errno.EIO):
        """From now on the nth call of a kind fails."""
        self.serial += 1
        self.plan.write_text(f"{self.serial} {kind} {nth} {how} {int(number)}")

    def well(self):
        """From now on no call fails."""
        self.fail("none", 1)

    def calls(self):
        """The calls since this was asked last."""
        lines = self.made.read_text().splitlines() if self.made.exists() else []
        came, self.told = lines[self.told:], len(lines)
        return came

    def say(self, line):
        """The lines that answer a line of the operator, as one text."""
        with Talk(self.port) as talk:
            talk.send(client.text_packet("console " + line))
            lines = []
            while not isinstance(answer := talk.receive(), int):
                lines.append(never_wanting(answer.decode()).rstrip("\n"))
                if lines[0].startswith("39"):
                    break
            return "\n".join(lines)

    def job(self, records, pool="Default", media="File", between=lambda: None):
        """Appends the records and closes; in between something else is done. The lines of the close, or the refusal alone."""
        with Talk(self.port) as talk:
            try:
                ticket = client.open_session(talk, 7, pool, media)
                client.append_packets(talk, ticket, map(client.packet, records))
                between()
                return client.close_session(talk, ticket)
            except client.Refused as why:
                return [never_wanting(str(why))]

    def read(self, lines):
        """The records of a session with these lines, and the last line that is said."""
        with Talk(self.port) as talk:
            _, seconds, number = lines[0].split()
            talk.send(client.text_packet(f"read session Time={seconds} Id={number}"))
            talk.send(*map(client.text_packet, lines[1:]), client.signal(client.END_OF_DATA))
            records = []
            while not isinstance(talk.receive(), int):
                records.append(talk.receive())
                talk.receive()
            return records, never_wanting(talk.receive().decode()).rstrip("\n")

    def status(self, volume):
        """The status of a volume, or None if it isn't known."""
        for line in self.say("status").splitlines():
            if line.startswith(f"volume {volume} "):
                return line.split(" ")[4]
        return None

    def tool(self, *words):
        """What `sdtool` prints if calls fail, and its status."""
        done = subprocess.run([SDTOOL, *words], capture_output=True, timeout=WAIT, env=self.env(1000))
        return never_wanting(done.stdout.decode()), done.returncode

    def by_tool(self, lines, env=None):
        """The data of the records that `sdtool read` gives of a session, and its last line."""
        spans = self.folder / "spans"
        spans.write_text("".join(f"{line}\n" for line in lines))
        done = subprocess.run([SDTOOL, "read", spans, self.volumes], capture_output=True, timeout=WAIT, env=env)
        data, last = records_of(never_wanting(done.stdout))
        if done.returncode != int(last.startswith(b"39")):
            return data, f"status {done.returncode}: {last}"
        return data, last.decode().rstrip("\n")


def whole(records):
    """What is said of a session that reads whole."""
    return f"3000 OK read Records={len(records)} Bytes={sum(map(len, records))} Ended=1"


def volume_of(name, bodies, media="File", key=(900, 1)):
    """The bytes of a volume with these blocks of a session of an earlier run."""
    blocks = (seal(key, number, body) for number, body in enumerate(bodies, 1))
    return label_block(name, name, media) + b"".join(blocks)


def session_body(records, pool="Default", moment=0):
    """The one body of a session of these records, of job 7."""
    totals = len(records).to_bytes(8, "big") + sum(map(len, records)).to_bytes(8, "big") + (84).to_bytes(4, "big")
    fragments = b"".join(fragment(1, 2, data) for data in records)
    return (session_label(START_LABEL, 7, pool, "File", moment) + fragments
            + session_label(END_LABEL, 7, pool, "File", moment, totals))
