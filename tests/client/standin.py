"""A stand-in for the daemon: it speaks docs/use/PROTOCOL.md, keeps records in memory, and does on request what a real one does
seldom: it refuses, is slow, breaks off. What it can't do is be wrong about a volume: that is what the real one is for."""
import contextlib
import socket
import struct
import threading
import time


class Session:
    def __init__(self):
        self.records, self.status, self.bytes = [], "active", 0


class StandIn:
    """Listens on a port of its own. `refuse` has refusals by the command that gets them, each given once, in order; `delay`
    is added to each reply, in seconds, of which `replies` counts those given; after `breaks_after` bytes of records it ends the talk that sent them."""

    def __init__(self, delay=0.0, refuse=None, breaks_after=None, keeps=True):
        self.delay, self.refuse, self.breaks_after, self.keeps = delay, refuse or {}, breaks_after, keeps
        self.sessions, self.taken, self.replies, self.lock = [], 0, 0, threading.Lock()
        self.talks = set()
        self.listening = socket.create_server(("127.0.0.1", 0))
        self.port = self.listening.getsockname()[1]
        threading.Thread(target=self.accept, daemon=True).start()

    def __enter__(self):
        return self

    def __exit__(self, *_):
        self.listening.close()
        self.end_talks()

    def accept(self):
        with contextlib.suppress(OSError):
            while True:
                one, _ = self.listening.accept()
                one.setsockopt(socket.IPPROTO_TCP, socket.TCP_NODELAY, 1)
                threading.Thread(target=self.serve, args=(one,), daemon=True).start()

    def end_talks(self):
        for one in list(self.talks):
            with contextlib.suppress(OSError):
                one.shutdown(socket.SHUT_RDWR)

    def serve(self, one):
        self.talks.add(one)
        with one, contextlib.suppress(OSError, struct.error, EOFError):
            Talk(self, one).run()
        self.talks.discard(one)


class Talk:
    def __init__(self, daemon, one):
        self.daemon, self.socket, self.input = daemon, one, one.makefile("rb", buffering=1 << 18)
        self.session, self.ticket = None, 0

    def packet(self):
        (length,) = struct.unpack(">i", self.bytes(4))
        return length if length < 0 else self.bytes(length)

    def bytes(self, count):
        data = self.input.read(count)
        if len(data) < count:
            raise EOFError
        return data

    def say(self, *lines, end=False):
        time.sleep(self.daemon.delay)
        with self.daemon.lock:
            self.daemon.replies += 1
        self.socket.sendall(b"".join(struct.pack(">i", len(line) + 1) + line.encode() + b"\n" for line in lines)
                            + (b"\xff\xff\xff\xff" if end else b""))

    def run(self):
        while (one := self.packet()) != -4:
            if one in (-5, -6):
                self.socket.sendall(struct.pack(">i", -7))
            if isinstance(one, int):
                continue
            words = one.decode().strip().split(" ")
            name = " ".join(words[:2])
            if waiting := self.daemon.refuse.get(name):
                self.say(waiting.pop(0))
                continue
            getattr(self, name.replace(" ", "_"))(words[2:])

    def append_open(self, _):
        with self.daemon.lock:
            self.session = Session()
            self.daemon.sessions.append(self.session)
            self.ticket = len(self.daemon.sessions)
        self.say(f"3000 OK open ticket = {self.ticket}")

    def append_data(self, _):
        self.say("3000 OK data")
        refused = None
        while (header := self.packet()) != -1:
            if header == -6:
                continue
            index, stream, _ = header.split()
            while (data := self.packet()) != -1:
                if isinstance(data, bytes):
                    self.take(int(index), int(stream), data)
        if waiting := self.daemon.refuse.get("phase"):
            refused = waiting.pop(0)
            self.session.status = "cancelled"
        self.say(refused or "3000 OK append data")

    def take(self, index, stream, data):
        self.session.records.append((index, stream, data if self.daemon.keeps else b""))
        self.session.bytes += len(data)
        self.daemon.taken += len(data)
        if self.daemon.breaks_after is not None and self.daemon.taken > self.daemon.breaks_after:
            raise EOFError

    def append_end(self, _):
        self.session.status = "ended"
        self.say("3000 OK end")

    def append_close(self, _):
        self.session.status = "closed"
        last = self.session.records[-1][0] if self.session.records else 0
        self.say("3000 OK close Status = 84", f"session 1000 {self.ticket}", f"span Vol-0001 1 {min(1, last)} {last} 1 2", end=True)

    def read_session(self, words):
        while self.packet() != -1:
            pass
        session = self.daemon.sessions[int(words[1].removeprefix("Id=")) - 1]
        for index, stream, data in session.records:
            head = f"{index} {stream} 0\n".encode()
            self.socket.sendall(struct.pack(">i", len(head)) + head + struct.pack(">i", len(data)) + data + b"\xff\xff\xff\xff")
        self.socket.sendall(b"\xff\xff\xff\xff")
        self.say(f"3000 OK read Records={len(session.records)} Bytes={session.bytes} Ended={int(session.status == 'closed')}")

    def console_cancel(self, _):
        self.session.status = "cancelled"
        self.say("ok cancelled", end=True)

    def console_requests(self, _):
        self.say("ok requests 0", end=True)
