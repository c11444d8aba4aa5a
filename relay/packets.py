"""Packets as docs/use/PROTOCOL.md has them: a signed length of four bytes, big-endian, and then that many bytes. A negative
length is a signal without bytes."""
import re
import struct

LENGTH = struct.Struct(">i")
END_OF_DATA, TERMINATE, POLL, HEARTBEAT, HEARTBEAT_RESPONSE = -1, -4, -5, -6, -7
MOST_BYTES = 4_000_000

BAD_COMMAND, TOO_LONG, IN_USE, BAD_NAME, BAD_SPAN = (
    b"3901 Bad command", b"3904 Packet too long", b"3933 In use", b"3937 Bad name", b"3950 Bad span")
REFUSAL = re.compile(rb"39\d\d [^\n]*\n")


def signal(number: int) -> bytes:
    return LENGTH.pack(number)


def packet(payload: bytes) -> bytes:
    return LENGTH.pack(len(payload)) + payload


def line(text: bytes) -> bytes:
    """The packet of a text, which a newline ends."""
    return packet(text + b"\n")


def is_refusal(payload: bytes) -> bool:
    return REFUSAL.fullmatch(payload) is not None


def trimmed(payload: bytes) -> bytes:
    """Without the newline or the zero byte that may end it."""
    return payload[:-1] if payload[-1:] in (b"\n", b"\0") else payload
