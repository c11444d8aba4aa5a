"""A small tree with all that a file may have besides its bytes, and what of it is there after a restore."""
import contextlib
import os
import stat
import struct
import subprocess

OLD, SEEN = 1_234_567_890_123_456_789, 1_000_000_000_987_654_321
HOLE = 64 << 20
NO_TEXT = b"no text \xff\xfe"
LONG = "n" * 250


def grow(folder):
    """Makes the tree, as root. What this file system can't have is left out."""
    folder.mkdir()
    (folder / "plain").write_bytes(b"data" * 1000)
    for name, owner, mode in (("owned", (1234, 5678), 0o640), ("setuid", (1, 2), 0o6711)):
        (folder / name).write_bytes(b"x")
        os.chown(folder / name, *owner)
        os.chmod(folder / name, mode)
    (folder / "empty folder").mkdir(mode=0o700)
    os.chmod(folder / "empty folder", 0o1770)
    with open(folder / "hole", "wb") as file:
        file.truncate(HOLE)
        file.seek(HOLE // 2)
        file.write(b"between holes")
    os.link(folder / "plain", folder / "same file")
    os.symlink("nowhere/at all", folder / "link")
    os.mkfifo(folder / "pipe")
    os.mknod(folder / "device", stat.S_IFCHR | 0o620, os.makedev(1, 3))
    (folder / LONG).write_bytes(b"x")
    with open(os.path.join(os.fsencode(folder), NO_TEXT), "wb"):
        pass
    for name, key, value in (("user", "user.key", b"\0value\xff"), ("trusted", "trusted.key", b"value"),
                             ("capable", "security.capability", struct.pack("<5I", 0x02000001, 1 << 10, 0, 0, 0))):
        (folder / name).write_bytes(b"x")
        with contextlib.suppress(OSError):
            os.setxattr(folder / name, key, value)
    (folder / "listed").write_bytes(b"x")
    (folder / "listing").mkdir()
    for words in (["setfacl", "-m", "u:1234:rw,g:5678:r", "listed"], ["setfacl", "-d", "-m", "u:1234:rwx", "listing"],
                  ["chattr", "+d", "plain"]):
        with contextlib.suppress(OSError):
            subprocess.run(words, cwd=folder, stderr=subprocess.DEVNULL)
    age(folder)


def age(folder):
    """Sets moments, of which a backup may have changed that of the last access."""
    for name in ("plain", "link", "empty folder"):
        os.utime(folder / name, ns=(SEEN, OLD), follow_symlinks=False)


def attribute(name, key):
    return lambda folder: os.getxattr(folder / name, key)


def status(name, of):
    return lambda folder: of(os.lstat(folder / name))


def flags(folder):
    run = subprocess.run(["lsattr", "-d", folder / "plain"], stdout=subprocess.PIPE, stderr=subprocess.DEVNULL, check=True)
    return b"d" in run.stdout.split()[0]


def owner(found):
    return found.st_uid, found.st_gid


def mode(found):
    return stat.S_IMODE(found.st_mode)


def changed(found):
    return found.st_mtime_ns


# What a file may have, and how it is looked at: a restore has it if this says there what it said of the tree when that was
# made. What says nothing, or can't be asked, the file system doesn't have.
KINDS = {
    "owners": status("owned", owner),
    "modes, setuid and setgid too": status("setuid", mode),
    "a sticky empty folder": status("empty folder", mode),
    "moments of files, in nanoseconds": status("plain", changed),
    "moments of folders": status("empty folder", changed),
    "moments of links": status("link", changed),
    "moments of the last access": status("plain", lambda found: found.st_atime_ns),
    "access control lists": attribute("listed", "system.posix_acl_access"),
    "those for new files of a folder": attribute("listing", "system.posix_acl_default"),
    "attributes of users": attribute("user", "user.key"),
    "trusted attributes": attribute("trusted", "trusted.key"),
    "capabilities": attribute("capable", "security.capability"),
    "flags of chattr": flags,
    "holes": lambda folder: os.lstat(folder / "hole").st_blocks * 512 < HOLE // 2,
    "hard links": lambda folder: (folder / "plain").samefile(folder / "same file"),
    "links": lambda folder: os.readlink(folder / "link"),
    "pipes": status("pipe", lambda found: stat.S_ISFIFO(found.st_mode)),
    "devices": status("device", lambda found: (stat.S_ISCHR(found.st_mode), found.st_rdev)),
    "names of 250 letters": status(LONG, lambda found: found.st_size),
    "names that are no text": lambda folder: os.path.exists(os.path.join(os.fsencode(folder), NO_TEXT)),
}


def looked_at(folder):
    """What a tree has of each kind."""
    found = {}
    for kind, look in KINDS.items():
        found[kind] = None
        with contextlib.suppress(OSError, subprocess.CalledProcessError):
            found[kind] = look(folder)
    return found
