"""Files that tar takes for one hole. By `--sparse` it doesn't read a file without blocks; but there are file systems that tell
no blocks of files which have bytes, as the one of /sys."""
from __future__ import annotations

import errno
import os

from .tarcut import BLOCK, Member

NOT_KEPT = "File has bytes, but no blocks by its file system; kept as a hole"
PIECE = 1 << 20


def may_be_one_hole(member: Member) -> bool:
    """Whether a member may have nothing of its file but the size: then its payload is the map of a hole alone, of one block."""
    return member.kind == "f" and member.payload == BLOCK


def is_hidden(path: bytes) -> bool:
    """Whether a file that tar took for one hole has bytes, or can't be read. One that has blocks by now was written since."""
    try:
        with open(os.open(path, os.O_RDONLY | os.O_NOFOLLOW | os.O_NONBLOCK), "rb", buffering=0) as file:
            if os.fstat(file.fileno()).st_blocks:
                return False
            os.lseek(file.fileno(), 0, os.SEEK_DATA)
            return any(piece.strip(b"\0") for piece in iter(lambda: file.read(PIECE), b""))
    except OSError as why:
        # Either there is no data up to its end, or no such file any more.
        return why.errno not in (errno.ENXIO, errno.ENOENT)
