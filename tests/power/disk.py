"""A disk that keeps a log (tests/power/disk.c), file systems on it, and the log as entries. Mounts and loop devices are made in a
mount namespace of the test's own, and each loop device goes away with its mount: so none is left, however the test ends.
"""
import contextlib
import ctypes
import errno
import fcntl
import mmap
import os
import pathlib
import shutil
import struct
import subprocess
import sys
import tempfile
import time
import typing

from daemon import WAIT, until

SOURCES = pathlib.Path(__file__).resolve().parent
LIBC = ctypes.CDLL(None, use_errno=True)
# Of linux/loop.h.
GET_FREE, CONFIGURE, AUTOCLEAR, DIRECT_IO = 0x4C82, 0x4C0A, 4, 16
# Of sys/mount.h, and of linux/btrfs.h: what the kernel knows of disks that aren't mounted is forgotten.
DETACH, FORGET = 2, 0x50009405
ALONE = "POWER_ALONE"
# How long a write and a flush take on average, in microseconds.
WRITE_US, FLUSH_US = 150, 1500
HEAD = struct.Struct("<c3xIQQ")


class FileSystem(typing.NamedTuple):
    """A file system on the disk: how it is made and mounted, the disk's size in MB, and how many bytes of a write a loss of
    power leaves together."""
    make: str
    options: str
    megabytes: int
    sector: int

    @property
    def kind(self) -> str:
        return self.make.split()[0].removeprefix("mkfs.")


# btrfs reads its superblock of 4,096 bytes whole or not at all, so its disk has sectors of that size.
SYSTEMS = {"ext4": FileSystem("mkfs.ext4 -q -F", "", 96, 512),
           "xfs": FileSystem("mkfs.xfs -q -f", "", 320, 512),
           "btrfs": FileSystem("mkfs.btrfs -q -f", "", 256, 4096),
           "ext4 without barriers": FileSystem("mkfs.ext4 -q -F", "barrier=0", 96, 512)}


class Entry(typing.NamedTuple):
    """An entry of a disk's log; `data` is a place in the log."""
    kind: str
    size: int
    id: int
    at: int
    data: int


class NotMounted(OSError):
    """The system doesn't mount what is on a disk."""


def lacking() -> str:
    """What this machine lacks for any of it, in words; empty if nothing."""
    if os.geteuid() != 0:
        return "root"
    for file, what in (("/dev/fuse", "FUSE"), ("/dev/loop-control", "loop devices")):
        try:
            os.close(os.open(file, os.O_RDWR))
        except OSError as why:
            return f"{what} ({file}: {why.strerror})"
    programs = [program for program in ("unshare", os.environ.get("CC", "cc").split()[0]) if not shutil.which(program)]
    if not programs and subprocess.run(["unshare", "--mount", "--pid", "--fork", "true"], capture_output=True).returncode:
        return "a mount namespace"
    return ", ".join(programs)


def is_made(system: FileSystem) -> bool:
    """Whether the program is there that makes the file system, and the kernel has it."""
    kinds = pathlib.Path("/proc/filesystems").read_text().split()
    return shutil.which(system.make.split()[0], path=f"{os.environ['PATH']}:/usr/sbin:/sbin") is not None and system.kind in kinds


def alone():
    """Goes on in a namespace of its own: what is mounted and started there ends with it."""
    if ALONE in os.environ:
        return
    words = ["unshare", "--mount", "--pid", "--fork", "--kill-child", "--mount-proc", sys.executable, "-B", *sys.argv]
    os.execvpe(words[0], words, {**os.environ, ALONE: "1", "PATH": f"{os.environ['PATH']}:/usr/sbin:/sbin"})


def ran(*words: object):
    done = subprocess.run([str(word) for word in words], capture_output=True, text=True, timeout=10 * WAIT)
    if done.returncode:
        raise OSError(f"{words[0]}: {done.stderr.strip()}")


def compiled(folder: pathlib.Path):
    """The disk's program, and the library that spoils syncs, made in a folder."""
    compiler = [*os.environ.get("CC", "cc").split(), "-O2", "-Wall", "-Werror"]
    ran(*compiler, SOURCES / "disk.c", "-o", folder / "disk")
    ran(*compiler, "-shared", "-fPIC", SOURCES / "spoiled.c", "-o", folder / "spoiled.so", "-lpthread")


@contextlib.contextmanager
def memory(size: str) -> typing.Iterator[pathlib.Path]:
    """A folder in memory."""
    with tempfile.TemporaryDirectory() as folder:
        mount("none", pathlib.Path(folder), "tmpfs", f"size={size}")
        try:
            yield pathlib.Path(folder)
        finally:
            LIBC.umount2(folder.encode(), DETACH)


def mount(source: str, at: pathlib.Path, kind: str, options: str = ""):
    if LIBC.mount(source.encode(), str(at).encode(), kind.encode(), 0, options.encode()):
        number = ctypes.get_errno()
        raise NotMounted(number, f"{kind} is not mounted: {os.strerror(number)}")


def unmount(at: pathlib.Path):
    """Unmounts what is there, if need be once nobody has a file open there any more."""
    def is_done() -> bool:
        return LIBC.umount2(str(at).encode(), 0) == 0 or ctypes.get_errno() != errno.EBUSY

    if not until(is_done, WAIT):
        raise OSError(f"{at} is busy")


def loop_device(file: pathlib.Path, flags: int) -> tuple[int, str]:
    """A loop device over a file, which lasts as long as it is open or mounted: its descriptor, and its path."""
    info = struct.pack("<5Q4I64s64s32s2Q", 0, 0, 0, 0, 0, 0, 0, 0, AUTOCLEAR | flags, b"", b"", b"", 0, 0)
    with open("/dev/loop-control", "rb+", buffering=0) as control, open(file, "rb+", buffering=0) as behind:
        for _ in range(1000):
            path = f"/dev/loop{fcntl.ioctl(control, GET_FREE)}"
            device = os.open(path, os.O_RDWR)
            try:
                fcntl.ioctl(device, CONFIGURE, struct.pack("<II", behind.fileno(), 0) + info + bytes(64))
                return device, path
            except OSError as why:
                os.close(device)
                if why.errno != errno.EBUSY:
                    raise
                # Another was quicker.
                time.sleep(0.01)
    raise OSError("no loop device is free")


@contextlib.contextmanager
def mounted(system: FileSystem, file: pathlib.Path, at: pathlib.Path, flags: int = 0) -> typing.Iterator[None]:
    """The file system in a file, mounted there."""
    device, path = loop_device(file, flags)
    try:
        mount(path, at, system.kind, system.options)
    finally:
        os.close(device)
    try:
        yield
    finally:
        unmount(at)
        if system.kind == "btrfs":
            # The next image would be the same disk at another time.
            with open("/dev/btrfs-control", "rb+", buffering=0) as control:
                fcntl.ioctl(control, FORGET, bytearray(4096))


def made(system: FileSystem, file: pathlib.Path):
    """A new file system in a new file."""
    with open(file, "xb") as disk:
        disk.truncate(system.megabytes << 20)
    ran(*system.make.split(), file)


def copy(file: pathlib.Path, to: pathlib.Path):
    """Copies a file with its holes."""
    with open(file, "rb") as source, open(to, "wb") as into:
        into.truncate(size := os.fstat(source.fileno()).st_size)
        at = 0
        while at < size:
            try:
                at = os.lseek(source.fileno(), at, os.SEEK_DATA)
            except OSError as why:
                if why.errno != errno.ENXIO:
                    raise
                return
            end = os.lseek(source.fileno(), at, os.SEEK_HOLE)
            os.lseek(into.fileno(), at, os.SEEK_SET)
            while at < end:
                at += os.sendfile(into.fileno(), source.fileno(), at, end - at)


@contextlib.contextmanager
def recorded(system: FileSystem, tools: pathlib.Path, disk: pathlib.Path, folder: pathlib.Path, seed: int) -> typing.Iterator[
        tuple[pathlib.Path, typing.Callable[[str], None]]]:
    """The file system in the file `disk`, mounted below the folder, while the disk keeps its log there in the file `log`: where it
    is mounted, and a function that puts a text into the log."""
    behind, room = folder / "fuse", folder / "mount"
    behind.mkdir()
    room.mkdir()
    server = subprocess.Popen([tools / "disk", behind, folder / "log", disk, str(WRITE_US), str(FLUSH_US), str(seed)])
    if not until(lambda: (behind / "mark").exists() or server.poll() is not None) or server.poll() is not None:
        raise OSError(f"the disk isn't there: {server.poll()}")
    marks = os.open(behind / "mark", os.O_WRONLY)
    try:
        with mounted(system, behind / "disk", room, DIRECT_IO):
            yield room, lambda text: (os.write(marks, text.encode()), None)[1]
    finally:
        os.close(marks)
        unmount(behind)
        server.wait(timeout=WAIT)


class Log:
    """The log of a disk: its entries, and the bytes in it."""

    def __init__(self, path: pathlib.Path):
        with open(path, "rb") as file:
            self.text = mmap.mmap(file.fileno(), 0, access=mmap.ACCESS_READ)
        self.entries: list[Entry] = []
        at = 0
        while at < len(self.text):
            kind, size, number, place = HEAD.unpack_from(self.text, at)
            at += HEAD.size
            self.entries.append(Entry(kind.decode(), size, number, place, at))
            at += size if kind in b"WM" else 0

    def data(self, entry: Entry, start: int, end: int) -> bytes:
        return self.text[entry.data + start:entry.data + end] if entry.kind == "W" else bytes(end - start)

    def marks(self) -> dict[str, int]:
        """The texts that were put into the log, with their places."""
        return {self.text[one.data:one.data + one.size].decode(): at for at, one in enumerate(self.entries) if one.kind == "M"}
