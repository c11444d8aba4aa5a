"""Cuts tar's stream into sessions at members, and gives them to the lanes."""
from __future__ import annotations

import os
import typing

from .errors import complain
from .filelist import Writer, plain
from .lanes import Lane, Session, Way
from .tarcut import BLOCK, COMMON, END, TYPE, Damaged, Member, Parser, padded, usual

# A session has some so many bytes, and a lane gets so many before the next one's turn.
SESSION, TURN = 4_000_000_000, 16_000_000


class Cutter:
    """Gives members to lanes, in sessions. No member is in two sessions. A session has its size at most, unless it is of
    one member alone."""

    def __init__(self, way: Way, lanes: int, size: int, files: Writer):
        self.way, self.count, self.size, self.files = way, lanes, size, files
        self.lanes: list[Lane] = []
        self.sessions: list[Session] = []
        self.turn, self.parser = 0, Parser()

    def __enter__(self) -> Cutter:
        return self

    def __exit__(self, kind: type | None, *_: object) -> None:
        if kind:
            for lane in self.lanes:
                lane.stop()

    def open_first(self) -> None:
        """Opens a first session, before anything is read."""
        self._add_lane()
        self._begin(self.lanes[0])
        while not self.sessions[0].opened.wait(timeout=0.2):
            self.lanes[0].check()

    def _add_lane(self) -> Lane:
        self.lanes.append(Lane(self.way))
        return self.lanes[-1]

    def _begin(self, lane: Lane) -> None:
        self.sessions.append(Session(len(self.sessions) + 1))
        lane.begin(self.sessions[-1])

    def run(self, pipe: typing.BinaryIO) -> None:
        """Takes all of the stream, and closes its sessions."""
        stream, lane, left = Given(pipe), self.lanes[0], 0
        while True:
            room = lane.room()
            end = stream.readinto(room)
            left, rest = self._walk(lane, room, left, end)
            lane.advance(end - len(rest))
            if rest:
                stream.push(rest)
                if not (found := self._next(stream)):
                    break
                lane, left = self._take(lane, *found), padded(found[0].payload)
        stream.drain()
        for lane in self.lanes:
            if lane.session:
                end_session(lane)
        for lane in self.lanes:
            lane.finish()

    def _walk(self, lane: Lane, room: memoryview, at: int, end: int) -> tuple[int, bytes]:
        """Notes the members whose headers are in what has come, from `at` to `end`, as far as they are whole there and go on
        in the lane's session. Gives how many bytes of the last one are still to come, and what is left of what has come."""
        session, limit, begin = lane.session, self._limit(lane), at
        while at < end:
            if count := self.files.add_usual(usual(room, at, end), session.number, session.raw + at, limit - at):
                at += count
                continue
            member = self.parser.parsed(room, at, end)
            if not isinstance(member, Member):
                break
            length = member.length()
            if at + length > limit or room[at + TYPE] == COMMON:
                break
            self.files.add(member, session.number, session.raw + at, length)
            at += length
        self.turn += at - begin
        return max(0, at - end), bytes(room[at:end])

    def _limit(self, lane: Lane) -> int:
        """How many bytes more the lane takes before another session or another lane's turn."""
        if not lane.session:
            return 0
        limit = self.size - lane.session.raw
        return limit if self.count == 1 else min(limit, TURN - self.turn)

    def _next(self, stream: Given) -> tuple[Member, bytes] | None:
        """The next member and its headers, or nothing at the archive's end."""
        headers = b""
        found: Member | int | None = BLOCK
        while isinstance(found, int):
            headers += stream.take(found - len(headers))
            found = self.parser.parsed(headers, 0, len(headers))
        return None if found is None else (found, headers)

    def _take(self, lane: Lane, member: Member, headers: bytes) -> Lane:
        """Gives the headers of a member to the lane that takes it."""
        lane = self._lane_for(lane, member, headers)
        self.files.add(member, lane.session.number, lane.session.raw, member.length())
        self.turn += member.length()
        lane.put(headers)
        return lane

    def _lane_for(self, lane: Lane, member: Member, headers: bytes) -> Lane:
        """The lane that takes a member. It has a session with room for it."""
        lane = self._lane_in_turn(lane)
        session, length = lane.session, member.length()
        if session and session.raw and session.raw + length > self.size:
            end_session(lane)
        if length > self.size:
            complain(f"{os.fsdecode(plain(member.path))} has {member.payload} bytes, and is a session of its own")
        if not lane.session:
            self._begin(lane)
            if self.parser.common and headers[TYPE] != COMMON:
                lane.put(self.parser.common)
        return lane

    def _lane_in_turn(self, lane: Lane) -> Lane:
        """The lane whose turn it is: after one has had enough, the one that has the most room."""
        if self.count == 1 or self.turn < TURN:
            return lane
        self.turn = 0
        lane.check()
        if len(self.lanes) < self.count:
            return self._add_lane()
        return max(self.lanes, key=lambda one: one.free.qsize())


def end_session(lane: Lane) -> None:
    lane.put(END)
    lane.end()


class Given:
    """What comes of a pipe. What was taken too much can be given back."""

    def __init__(self, pipe: typing.BinaryIO):
        self.pipe, self.rest = pipe, b""

    def push(self, data: bytes) -> None:
        self.rest = data + self.rest

    def readinto(self, room: memoryview) -> int:
        """Fills a part of the room, and gives how much that is."""
        if count := min(len(room), len(self.rest)):
            room[:count], self.rest = self.rest[:count], self.rest[count:]
        else:
            count = self.pipe.readinto(room)
        if not count:
            raise Damaged("the stream of tar is broken off")
        return count

    def take(self, count: int) -> bytes:
        """The next bytes, so many."""
        room = memoryview(bytearray(count))
        filled = 0
        while filled < count:
            filled += self.readinto(room[filled:])
        return bytes(room)

    def drain(self) -> None:
        """Passes over what is behind the archive's end."""
        while self.pipe.read(1 << 16):
            pass
