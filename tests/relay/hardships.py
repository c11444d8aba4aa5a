"""Slow, broken and flooding clients, a daemon that is gone or says what isn't of the protocol, limits, and files that can't
be read or written: what each ends, and that it ends nothing else."""
import contextlib
import os
import socket
import subprocess
import threading
import time

import fake
from daemon import CLIENT, WAIT, until
from fake import line, packet, signal
from held import NAMES, RELAY, Always, Places, Relayed
from relay import streams, talk
from relay.allowance import Allowance
from relay.errors import ClientLost, Failed
from relay.roles import Rights, Role
from relay.store import Store

# What one relay may take of memory, whatever its client sends.
MOST_MEMORY = 60_000_000


class Waits(Always):
    """Waits for a volume at a close: answers once its client goes away, or after so many seconds."""

    seconds = 30

    def of_close(self):
        end = time.monotonic() + self.seconds
        self.gone = False
        self.waits = True
        while time.monotonic() < end and not self.gone:
            self.socket.settimeout(0.1)
            with contextlib.suppress(TimeoutError):
                self.gone = self.socket.recv(1, socket.MSG_PEEK) == b""
        self.socket.settimeout(None)
        return line("3907 Not yet")


class Hardships(Places):
    """Each in a place of its own."""

    def run(self):
        for part in (self.slow, self.broken, self.floods, self.big_commands, self.leaves_in_wait, self.half_closed, self.silent,
                     self.takes_nothing, self.no_daemon, self.daemon_ends, self.daemon_says_nonsense, self.data_unasked,
                     self.not_admitted, self.store_fails, self.same_run_twice, self.long_drop, self.told_first):
            part()
        self.checks.group = "hardships"

    def slow(self):
        """A client of one byte at a time holds up no other."""
        with self.place("slow") as (place, _), place.relayed("www") as slow, place.relayed("www") as quick:
            sent = packet(b"append open session JobId=7 Pool=Default Media=File")
            for at in range(20):
                slow.near.sendall(sent[at:at + 1])
            began = time.monotonic()
            self.checks.check("the other", isinstance(quick.open(), int))
            self.checks.check("it waits for none", time.monotonic() - began < 10, time.monotonic() - began)
            for at in range(20, len(sent)):
                time.sleep(0.005)
                slow.near.sendall(sent[at:at + 1])
            self.checks.same("its own", slow.receive(), "3000 OK open ticket = 2")

    def broken(self):
        """Input that ends in a packet, in a phase, and at once."""
        cases = [(b"\0\0", "truncated"), (packet(b"append")[:-1], "truncated"), (b"", "finished"), (signal(-4), "finished")]
        with self.place("broken") as (place, server):
            for sent, end in cases:
                with place.relayed("www") as client:
                    client.near.sendall(sent)
                    client.near.shutdown(socket.SHUT_WR)
                    self.checks.same(f"{sent}", (client.receive(), client.ended()[0]), (None, 0))
                self.checks.check(f"{sent} in the log", any(end in one for one in place.logged()[-2:]), place.logged())
            with place.relayed("www") as client:
                ticket = client.open()
                self.checks.same("a phase", client.ask(f"append data {ticket}"), "3000 OK data")
                client.send("1 2 0", signal(-1)[:2])
                client.near.shutdown(socket.SHUT_WR)
                self.checks.same("in a phase", client.ended()[0], 0)
            ends = until(lambda: server.talk().ended_by == "truncated")
            self.checks.check("the daemon's talk ends", ends, server.talk().ended_by)
            with place.relayed("www") as client:
                client.near.sendall(b"\x7f\xff\xff\xff")
                self.checks.same("too long", (client.receive(), client.receive()), ("3904 Packet too long", None))

    def floods(self):
        """Forbidden commands without end, of which no answer is read; and what is no command."""
        with self.place("floods") as (place, server), place.relayed("sink") as client:
            one = packet(b"console unmount 1") * 1000
            client.near.settimeout(3)
            sent = 0
            with contextlib.suppress(TimeoutError, OSError):
                while sent < 50_000_000:
                    sent += client.near.send(one)
            self.checks.check("it is held back", sent < 10_000_000, sent)
            self.checks.check("memory", client.memory() < MOST_MEMORY, client.memory())
            with place.relayed("www") as other:
                self.checks.check("others go on", isinstance(other.open(), int))
            client.near.close()
            self.checks.check("it ends", client.process.wait(30) != 0, client.process.returncode)
            refused = [one for one in place.logged() if "refused" in one]
            self.checks.check("few lines in the log", 100 <= len(refused) <= 102, len(refused))
            self.checks.same("none reached the daemon", server.talk(0).taken, [])

    def big_commands(self):
        """Packets that are too long for any command are no commands, and aren't kept."""
        with self.place("big_commands") as (place, server), place.relayed("www") as client:
            for _ in range(5):
                self.checks.same("3901", client.ask(packet(b"console " + b"x" * 3_999_992)), "3901 Bad command")
            self.checks.check("memory", client.memory() < MOST_MEMORY, client.memory())
            self.checks.check("the talk goes on", isinstance(client.open(), int))
            self.checks.same("it comes first", len(server.talk().taken), 2)

    def leaves_in_wait(self):
        """A client that goes away while the daemon waits for a volume ends that wait soon, though what it sent is unread."""
        for end in ("closes", "is killed"):
            with self.place(f"leaves in wait, {end}", Waits) as (place, server), place.relayed("www") as client:
                ticket = client.open()
                client.send(f"append close session {ticket}", "append end session 1" * 10)
                until(lambda: getattr(server.talk(), "waits", False))
                began = time.monotonic()
                if end == "closes":
                    client.near.close()
                else:
                    client.process.kill()
                self.checks.check("the daemon's wait ends", until(lambda: server.talk().gone, 10))
                self.checks.check("soon", time.monotonic() - began < 5, time.monotonic() - began)

    def half_closed(self):
        """One that has ended its sending side alone counts as gone in a wait, and gets the answer."""
        with self.place("half_closed", Waits) as (place, server), place.relayed("www") as client:
            ticket = client.open()
            client.send(f"append close session {ticket}")
            client.near.shutdown(socket.SHUT_WR)
            self.checks.same("the answer", client.receive(), "3907 Not yet")
            self.checks.check("the daemon saw it", server.talk().gone)
            self.checks.same("the end", client.receive(), None)

    def in_process(self, place, sent, idle):
        """A talk with a time-out of its own; what it comes to."""
        near, far = socket.socketpair()
        daemon = socket.socket(socket.AF_UNIX)
        daemon.connect(str(place.socket))
        store = Store(place.state)
        rights = Rights("www", Role.CLIENT, frozenset(["Default"]), frozenset(["File"]), (range(7, 10),))
        allowance = Allowance(store, rights)
        journal = Quiet()
        ends = streams.Ends(near.fileno(), near.fileno(), daemon, idle)
        with near, far, daemon, contextlib.closing(store), contextlib.closing(allowance), contextlib.closing(ends):
            threading.Thread(target=lambda: contextlib.suppress(OSError) and far.sendall(sent), daemon=True).start()
            held = talk.Talk(rights, ends, store, allowance, journal)
            began = time.monotonic()
            try:
                return held.hold(), time.monotonic() - began
            except Failed as why:
                return why, time.monotonic() - began

    def silent(self):
        with self.place("silent") as (place, server):
            for sent in (b"", b"\0\0", packet(b"append open session JobId=7 Pool=Default Media=File") + packet(b"append data 1")):
                why, took = self.in_process(place, sent, 0.7)
                self.checks.check(f"after {len(sent)} bytes", isinstance(why, ClientLost) and "sent nothing" in str(why), why)
                self.checks.check("at its time", 0.6 < took < 5, took)
            self.checks.check("the daemon's talk ends", until(lambda: server.talk().ended_by), server.talk().ended_by)

    def takes_nothing(self):
        """A restore of which nothing is read."""
        class Reads(Always):
            def of_read(self):
                return (packet(b"1 2 0") + packet(bytes(3_000_000)) + signal(-1)) * 3 + signal(-1) + line("3000 OK read")

        with self.place("takes_nothing", Reads) as (place, _):
            store = Store(place.state)
            store.grant("www", (5000, 1))
            store.close()
            why, took = self.in_process(place, packet(b"read session Time=5000 Id=1") + signal(-1), 0.7)
            self.checks.check("it ends", isinstance(why, ClientLost) and "took nothing" in str(why), why)
            self.checks.check("at its time", 0.6 < took < 8, took)

    def no_daemon(self):
        with self.place("no_daemon") as (place, _):
            place.socket.unlink()
            with place.relayed("www") as client:
                status, said = client.ended()
                self.checks.check("its status and words", status == 3 and "no daemon at" in said, status, said)
                self.checks.same("the client", client.receive(), None)

    def daemon_ends(self):
        """The daemon ends the talk where a command is due, in a phase, and in an answer."""
        class Ends(Always):
            def answer(self, got):
                if got == self.last:
                    raise OSError("ended")
                return super().answer(got)

        for last, sent in ((b"append end session 1", ["append end session 1"]), (b"1 2 0", ["append data 1", "1 2 0"])):
            made = type("EndsAt", (Ends,), {"last": last})
            with self.place(f"daemon ends at {last}", made) as (place, _), place.relayed("www") as client:
                client.open()
                client.send(*sent)
                status, said = client.ended()
                self.checks.check("its status", status == 3 and "the daemon ended the talk" in said, status, said)

    def daemon_says_nonsense(self):
        """An answer that isn't of the protocol ends the talk: what comes next isn't known."""
        class Nonsense(Always):
            said = b""

            def of_data(self, ticket):
                return self.said

        for said in (line("3000 OK datum"), signal(-1), packet(b"3000 OK data"), b"\x00\x3d\x09\x01"):
            made = type("Says", (Nonsense,), {"said": said})
            with self.place(f"daemon says {said!r}", made) as (place, server), place.relayed("www") as client:
                ticket = client.open()
                client.send(f"append data {ticket}", "console status", "1 2 0")
                self.checks.same("its status", client.ended()[0], 3)
                self.checks.same("nothing goes on", [got for _, _, got, _ in server.talk().taken][2:], [b"append data 1"])

    def data_unasked(self):
        """What the daemon says in a data phase is passed on, and ends the talk."""
        class Unasked(Always):
            def of_signal(self, number):
                return line("3960 Want of memory") if self.due == fake.RECORD else super().of_signal(number)

        with self.place("data_unasked", Unasked) as (place, _), place.relayed("www") as client:
            ticket = client.open()
            client.ask(f"append data {ticket}")
            client.send("1 2 0", -1)
            self.checks.same("the answer", client.receive(), "3960 Want of memory")
            self.checks.same("its status", client.ended()[0], 3)

    def not_admitted(self):
        """Names that aren't there, and certificates of which none is a name."""
        with self.place("not_admitted") as (place, server):
            for words, variables in ((["--as", "nobody"], {}), (["--as", "../x"], {}), (["--tls"], {}),
                                     *((["--tls"], {"SSL_CLIENT_DN": subject}) for subject in (
                                         "/O=x/CN=www", "/CN=www/CN=sink", "CN=www, CN=sink", "O=x, CN=www", "CN=www\n", "CN=",
                                         "www"))):
                with Relayed(place.conf, *words, env={**os.environ, **variables}) as client:
                    came = client.receive(), client.receive(), client.ended()[0]
                    self.checks.same(f"{words} {variables}", came, ("3933 In use", None, 1))
            for subject in ("CN=www", "/CN=www"):
                with Relayed(place.conf, "--tls", env={**os.environ, "SSL_CLIENT_DN": subject}) as client:
                    self.checks.check("a certificate's name", isinstance(client.open(), int))
            self.checks.same("the daemon's talks", len(server.talks), 2)
            self.checks.same("the log", sum("not admitted" in one for one in place.logged()), 10)

    def store_fails(self):
        """What can't be kept isn't begun."""
        with self.place("store_fails") as (place, server):
            place.state.write_text("no folder")
            with place.relayed("www") as client:
                self.checks.same("no folder", (client.receive(), client.ended()[0]), (None, 4))
            place.state.unlink()
            place.state.mkdir()
            (place.state / "relay.sqlite").write_bytes(b"no database" * 100)
            with place.relayed("www") as client:
                self.checks.same("no database", (client.receive(), client.ended()[0]), (None, 4))
            self.checks.same("the daemon's talks", len(server.talks), 0)

    def same_run_twice(self):
        """A session whose key is kept already is another's: it isn't begun."""
        with self.place("same_run") as (place, server):
            store = Store(place.state)
            store.add_session("sink", (5000, 1), 1, 7, "Default", "File")
            store.close()
            with place.relayed("www") as client:
                client.send("append open session JobId=7 Pool=Default Media=File")
                self.checks.same("the end", (client.receive(), client.ended()[0]), (None, 4))
            self.checks.check("the daemon's talk ends", until(lambda: server.talk().ended_by))

    def long_drop(self):
        """What the relay alone hears keeps the daemon's talk awake."""
        awake, talk.AWAKE = talk.AWAKE, 0.05
        try:
            with self.place("long_drop") as (place, server):
                sent = packet(b"console unmount 1") * 5
                near, far = socket.socketpair()
                daemon = socket.socket(socket.AF_UNIX)
                daemon.connect(str(place.socket))
                store = Store(place.state)
                rights = Rights("www", Role.CLIENT, frozenset(["Default"]), frozenset(["File"]), (range(7, 10),))
                ends = streams.Ends(near.fileno(), near.fileno(), daemon)
                with (near, far, daemon, contextlib.closing(ends), contextlib.closing(store),
                      contextlib.closing(Allowance(store, rights)) as allowance):
                    held = talk.Talk(rights, ends, store, allowance, Quiet())
                    thread = threading.Thread(target=until_lost, args=(held,), daemon=True)
                    for at in range(0, len(sent), 21):
                        time.sleep(0.06)
                        far.sendall(sent[at:at + 21])
                        if not at:
                            thread.start()
                    beats = until(lambda: [got for _, _, got, _ in server.talk().taken] in ([-6] * 4, [-6] * 5))
                    self.checks.check("heartbeats", beats, server.talk().taken)
                    far.close()
                    thread.join(10)
        finally:
            talk.AWAKE = awake


    def told_first(self):
        """A close that isn't possible yet: who may not ask what the daemon waits for is told of the close alone."""
        class NotYet(Always):
            def of_close(self):
                return line("3907 Not yet")

        with self.place("told first", NotYet, NAMES + '[name.admin]\nrole = "operator"\n') as (place, _):
            data = place.folder / "data"
            data.write_bytes(b"hello")
            for name, wanted in (("www", "sdd-client: 3907 Not yet"), ("admin", "sdd-client: the daemon says: ok requests 1")):
                rsh = f"{RELAY} --conf {place.conf} --as {name}"
                words = ["--rsh", rsh, "--retry", "0", "--job", "7", "append", data, place.folder / "spans"]
                run = subprocess.run([CLIENT, *words], stdin=subprocess.DEVNULL, capture_output=True, text=True,
                                     timeout=10 * WAIT)
                said = [one for one in run.stderr.splitlines() if one.startswith("sdd-client")]
                self.checks.check(f"{name} is told", wanted in said and said[-1] == "sdd-client: 3907 Not yet", run.stderr)
                self.checks.same(f"{name}'s status", run.returncode, 1)


def until_lost(held):
    with contextlib.suppress(Failed):
        held.hold()


class Quiet:
    """No log."""

    def say(self, text):
        """Nothing."""

    refused = ended = lambda self, *words: None


def run(checks, folder):
    Hardships(checks, folder).run()
