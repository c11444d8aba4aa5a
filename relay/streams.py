"""The two ends of a talk: the client on two files, and the daemon on a socket. Nothing blocks but the wait, which has an
end, and sees it if the other side leaves."""
import contextlib
import fcntl
import os
import select
import socket
import stat
import time

from relay.errors import ClientLost, DaemonLost
from relay.packets import LENGTH

# A client that sends nothing, or takes nothing, for so many seconds loses its talk, as with the daemon itself.
IDLE = 300.0
# After so many seconds without progress of the daemon a client that has ended its sending side counts as gone.
GRACE = 2.0
# The most that is read at once, and all that is held of what a side sent besides what is in a pipe: so much stays in a
# processor's cache.
SIZE = 1 << 17
# Payloads from this size on pass unread. After one only a few bytes are read, which hold what is before the next one.
LARGE, FEW = 1 << 15, 64
PIPE_SIZE = 1 << 20
# If fewer bytes went on together, the client is left alone for so many seconds: with a look at each small piece of what it
# sends it and the relay would only wake each other.
MUCH, MOMENT = 1 << 18, 0.0003
NONBLOCK = os.SPLICE_F_NONBLOCK
GONE = select.POLLERR | select.POLLHUP | select.POLLNVAL


class Input:
    """Bytes that were read from a file and not yet taken: those of `store` from `start` to `end`."""

    def __init__(self, file: int):
        self.file = file
        self.store = bytearray(SIZE)
        self.view = memoryview(self.store)
        self.start = self.end = 0
        self.is_over = False

    def __len__(self) -> int:
        return self.end - self.start

    def read(self, most: int = SIZE) -> int | None:
        """Reads what has come, up to so many bytes. Gives how many: 0 at the end, None if nothing has come."""
        if self.start:
            # Never more than part of a packet's beginning: what is taken is taken in large pieces.
            left = self.end - self.start
            self.store[:left] = self.store[self.start:self.end]
            self.start, self.end = 0, left
        try:
            count = os.readv(self.file, [self.view[self.end:self.end + most]])
        except BlockingIOError:
            return None
        except OSError:
            count = 0
        self.end += count
        self.is_over = not count
        return count

    def move(self, pipe: int, most: int) -> int | None:
        """Moves into a pipe what has come, while nothing that was read is left. Gives what `read` gives, and None too if
        the pipe is full."""
        return self._moved(self.file, pipe, most)

    def _moved(self, file: int, pipe: int, most: int) -> int | None:
        try:
            count = os.splice(file, pipe, most, flags=NONBLOCK)
        except BlockingIOError:
            return None
        except OSError:
            count = 0
        self.is_over = not count
        return count

    def read_few(self) -> bytes:
        """The four bytes of a length, while nothing that was read is left: fewer if no more have come, or at the end."""
        try:
            return os.read(self.file, 4)
        except OSError:
            # A read for more says why.
            return b""

    def put_back(self, data: bytes) -> None:
        """What `read_few` gave is the next again."""
        self.start, self.end = 0, len(data)
        self.store[:self.end] = data

    def close(self) -> None:
        """Closes what is its own."""

    def length(self) -> int | None:
        """The length that begins here, if its four bytes have come."""
        return LENGTH.unpack_from(self.store, self.start)[0] if len(self) >= 4 else None

    def take(self, size: int) -> bytes:
        """So many bytes, which have come."""
        taken = bytes(self.view[self.start:self.start + size])
        self.start += size
        return taken


class Stream(Input):
    """The input of a pipe or a socket. All that has come, up to 1 MB, is moved into a pipe of our own at once, and is read
    there: a pipe is locked while the client writes to it, so each look into the client's own may have to wait."""

    def __init__(self, source: int):
        self.source, self.inside = source, 0
        file, self.pipe = made_pipe()
        super().__init__(file)

    def close(self) -> None:
        os.close(self.file)
        os.close(self.pipe)

    def _draw(self) -> int | None:
        """Moves into the pipe what has come. Gives what `read` gives."""
        count = self._moved(self.source, self.pipe, PIPE_SIZE)
        self.inside += count or 0
        return count

    def read(self, most: int = SIZE) -> int | None:
        if not self.inside and not (count := self._draw()):
            return count
        count = super().read(most)
        self.inside -= count or 0
        return count

    def move(self, pipe: int, most: int) -> int | None:
        if not self.inside and not (count := self._draw()):
            return count
        count = super().move(pipe, min(most, self.inside))
        self.inside -= count or 0
        return count

    def read_few(self) -> bytes:
        if self.inside < 4:
            self._draw()
        few = super().read_few() if self.inside else b""
        self.inside -= len(few)
        return few


class Ends:
    """Both ends, and the waits for them."""

    def __init__(self, client_in: int, client_out: int, daemon: socket.socket, idle: float = IDLE):
        self.appends_unread, self.reads_unread = is_stream(client_in), is_stream(client_out)
        self.client = Stream(client_in) if self.appends_unread else Input(client_in)
        self.client_in, self.client_out, self.idle = client_in, client_out, idle
        self.socket, self.daemon = daemon, Input(daemon.fileno())
        self.sent_at, self.left_at, self.has_ended = time.monotonic(), 0.0, False
        # What passes unread is in this pipe in between: the system moves it there and on, and it isn't copied. So many
        # bytes of the client are held in it: they go on together once it is full, and before anything is waited for.
        self.pipe, self.held = made_pipe(), 0
        for file in (client_in, client_out):
            enlarge(file)
            os.set_blocking(file, False)
        daemon.setblocking(False)
        self.client_sends, self.client_takes = select.poll(), select.poll()
        for file in (client_in, self.daemon.file):
            self.client_sends.register(file, select.POLLIN)
        self.client_takes.register(client_out, select.POLLOUT)

    def close(self) -> None:
        """Closes what isn't of the two sides."""
        self.client.close()
        for file in self.pipe:
            os.close(file)

    # The client.

    def read_client(self, most: int = SIZE) -> bool:
        """Reads more of the client, once there is more. Says whether there was: if not, its input is over. What the
        daemon says meanwhile is unasked."""
        if self.client.is_over or self.has_ended:
            return False
        # Mostly it is there already.
        while (count := self.client.read(most)) is None:
            self._pause()
        if not count:
            self.send_held()
        return count > 0

    def pass_client(self, size: int) -> int:
        """Holds for the daemon what comes next of the client, up to so many bytes, unread. Gives how many, 0 if its input
        is over."""
        if self.client.is_over or self.has_ended:
            return 0
        while (count := self.client.move(self.pipe[1], size)) is None:
            self._pause()
        self.held += count
        if not count:
            self.send_held()
        return count

    def _pause(self) -> None:
        """Nothing more has come of the client, or the pipe is full."""
        if not (size := self.held):
            return self._wait_for_client()
        self.send_held()
        if size < MUCH:
            time.sleep(MOMENT)

    def _wait_for_client(self) -> None:
        ready = self.client_sends.poll(self.idle * 1000)
        if not ready:
            raise ClientLost(f"the client sent nothing for {self.idle:.0f} seconds")
        if any(file == self.daemon.file for file, _ in ready):
            self._pass_unasked()

    def _pass_unasked(self) -> None:
        """The daemon says something that nobody asked for, or ends the talk. The client is told what it said."""
        self.daemon.read()
        self.write_client(self.daemon.take(len(self.daemon)))
        raise DaemonLost("the daemon ended the talk")

    def write_client(self, data: bytes | memoryview) -> None:
        self._to_client(len(data), memoryview(data))

    def _to_client(self, size: int, data: memoryview | None) -> None:
        """Writes the data, or so many bytes of the pipe."""
        left = size
        while left:
            try:
                left -= self._write(self.client_out, left, data)
            except BlockingIOError:
                if not self.client_takes.poll(self.idle * 1000):
                    raise ClientLost(f"the client took nothing for {self.idle:.0f} seconds") from None
            except OSError as why:
                raise ClientLost(f"the client takes nothing more: {why.strerror}") from why

    def _write(self, file: int, left: int, data: memoryview | None) -> int:
        """Writes to a file of the last so many bytes of the data, or of the pipe's. Gives how many it took."""
        if data is None:
            return os.splice(self.pipe[0], file, left, flags=NONBLOCK)
        return os.write(file, data[len(data) - left:])

    # The daemon.

    def write_daemon(self, data: bytes | memoryview) -> None:
        self.send_held()
        self._to_daemon(len(data), memoryview(data))

    def add(self, data: bytes | memoryview) -> None:
        """Gives the daemon the data; a few bytes may wait for those that come after them."""
        if len(data) > FEW:
            return self.write_daemon(data)
        try:
            # The system takes so few bytes whole, or none if the pipe is full.
            self.held += os.write(self.pipe[1], data)
        except BlockingIOError:
            self.write_daemon(data)

    def send_held(self) -> None:
        """Sends the daemon what the pipe holds."""
        if self.held:
            size, self.held = self.held, 0
            self._to_daemon(size, None)

    def _to_daemon(self, size: int, data: memoryview | None) -> None:
        """Writes the data, or so many bytes of the pipe."""
        if self.has_ended:
            raise ClientLost("the client has gone")
        left = size
        while left:
            try:
                left -= self._write(self.daemon.file, left, data)
            except BlockingIOError:
                self._wait_to_write_daemon()
            except OSError:
                self._pass_unasked()
        self.sent_at = time.monotonic()

    def _wait_to_write_daemon(self) -> None:
        ready = self._wait_for_daemon(select.POLLOUT | select.POLLIN)
        if self.has_ended:
            raise ClientLost("the client has gone")
        if ready & select.POLLIN:
            self._pass_unasked()

    def read_daemon(self, most: int = SIZE) -> None:
        """Reads more of the daemon, once there is more. However long that takes, it is waited for while the client is
        there."""
        while (count := self.daemon.read(most)) is None:
            self._wait_for_daemon(select.POLLIN)
        if not count:
            raise DaemonLost("the daemon ended the talk")

    def pass_daemon(self, size: int) -> int:
        """Passes on to the client what comes next of the daemon, up to so many bytes, unread. Gives how many."""
        while (count := self.daemon.move(self.pipe[1], size)) is None:
            self._wait_for_daemon(select.POLLIN)
        if not count:
            raise DaemonLost("the daemon ended the talk")
        self._to_client(count, None)
        return count

    def _wait_for_daemon(self, events: int) -> int:
        """Waits for the daemon, and watches the client meanwhile. One that takes nothing any more is lost. To one that
        only sends nothing any more the daemon's own rule applies: its input ends here."""
        began = time.monotonic()
        while True:
            poll = select.poll()
            poll.register(self.socket, events)
            poll.register(self.client_out, 0)
            if not self.left_at:
                poll.register(self.client_in, select.POLLRDHUP)
            rest = None
            if self.left_at and not self.has_ended:
                rest = max(0.0, max(began, self.left_at) + GRACE - time.monotonic())
            ready = dict(poll.poll(None if rest is None else rest * 1000))
            if self.socket.fileno() in ready:
                return ready[self.socket.fileno()]
            if ready.get(self.client_out, 0) & GONE:
                raise ClientLost("the client has gone")
            if self.client_in in ready:
                self.left_at = time.monotonic()
            elif not ready:
                self._end_input()

    def _end_input(self) -> None:
        self.has_ended = True
        try:
            self.socket.shutdown(socket.SHUT_WR)
        except OSError as why:
            raise DaemonLost("the daemon ended the talk") from why


def is_stream(file: int) -> bool:
    """Whether it is a pipe or a socket: then the system moves bytes to and from it."""
    mode = os.fstat(file).st_mode
    return stat.S_ISFIFO(mode) or stat.S_ISSOCK(mode)


def made_pipe() -> tuple[int, int]:
    """A pipe that holds much, whose ends don't block: the one to read from, and the one to write to."""
    ends = os.pipe()
    enlarge(ends[0])
    for file in ends:
        os.set_blocking(file, False)
    return ends


def enlarge(file: int) -> None:
    """Lets a pipe hold more, so that each read takes more; what is no pipe stays as it is."""
    with contextlib.suppress(OSError):
        fcntl.fcntl(file, fcntl.F_SETPIPE_SZ, PIPE_SIZE)


def connected(path: str, port: int | None) -> socket.socket:
    """A connection to the daemon."""
    try:
        if port is not None:
            daemon = socket.create_connection(("127.0.0.1", port), 30)
            daemon.setsockopt(socket.IPPROTO_TCP, socket.TCP_NODELAY, 1)
            return daemon
        daemon = socket.socket(socket.AF_UNIX, socket.SOCK_STREAM)
        daemon.settimeout(30)
        # As much as the pipe before it holds, so that the two sides wait for each other less often.
        daemon.setsockopt(socket.SOL_SOCKET, socket.SO_SNDBUF, PIPE_SIZE)
        daemon.connect(path)
        return daemon
    except OSError as why:
        where = path if port is None else f"port {port}"
        raise DaemonLost(f"no daemon at {where}: {why.strerror or why}") from why
