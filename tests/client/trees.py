"""Drawn trees of every type of file, and how two of them are compared: by rsync, which must find nothing to do."""
import collections
import os
import subprocess

NAMES = [b"a", b"b c", b"-x", b"new\nline", b"tab\t", b"\xff\xfe", "\u00e4\u20ac".encode(), b"..x", b"a:b", b"back\\slash",
         b"star*", b"q?", b"[z]", b"'", b'"', b"~", b"n" * 120, b"%d", b".dot", b"=", b"#"]
MODES = (0o644, 0o600, 0o755, 0o444, 0o000, 0o4755, 0o2755, 0o1777)


class Tree:
    """A tree drawn from a generator of random numbers. `drawn` counts what came."""

    def __init__(self, numbers, folder, is_root):
        self.numbers, self.folder, self.is_root = numbers, os.fsencode(folder), is_root
        self.drawn, self.files, self.folders = collections.Counter(), [], [self.folder]
        self.make = {"file": self.file, "folder": self.add_folder, "link": self.link, "hard": self.hard, "fifo": self.fifo,
                     "hole": self.hole, "acl": self.acl, "xattr": self.xattr, "deep": self.deep, "long": self.long,
                     "device": self.device}
        os.makedirs(self.folder)

    def grow(self, count):
        for number in range(count):
            kind = self.numbers.choice([*self.make, "file", "file", "folder"])
            kind = "file" if kind == "device" and not self.is_root else kind
            where = self.numbers.choice(self.folders)
            name = self.numbers.choice(NAMES) + str(number).encode()
            self.make[kind](os.path.join(where, name))
            self.drawn[kind] += 1
        self.finish()
        return self

    def file(self, path, size=None):
        size = self.numbers.choice([0, 1, 511, 512, 513, 3000, 10_240]) if size is None else size
        with open(path, "wb") as file:
            file.write(self.numbers.randbytes(size))
        self.files.append(path)

    def add_folder(self, path):
        os.mkdir(path)
        self.folders.append(path)

    def link(self, path):
        os.symlink(self.numbers.choice([b"a", b"..", b"/etc/passwd", b"nowhere", b"x" * 150, b"../../x"]), path)

    def hard(self, path):
        if self.files:
            os.link(self.numbers.choice(self.files), path)

    def fifo(self, path):
        os.mkfifo(path)

    def hole(self, path):
        with open(path, "wb") as file:
            file.truncate(3_000_000)
            for _ in range(self.numbers.randrange(3)):
                file.seek(self.numbers.randrange(2_900_000))
                file.write(b"data")
        self.files.append(path)

    def acl(self, path):
        self.file(path, 10)
        subprocess.run(["setfacl", "-m", "u:1:r,g:2:rw", path], check=True)

    def xattr(self, path):
        self.file(path, 10)
        os.setxattr(path, "user.name", self.numbers.randbytes(30))
        os.setxattr(path, "user.empty", b"")

    def deep(self, path):
        for _ in range(5):
            self.add_folder(path)
            path = os.path.join(path, b"d" * 60)

    def long(self, path):
        self.file(path + b"l" * 130, 3)

    def device(self, path):
        os.mknod(path, 0o20600, os.makedev(1, 3))

    def finish(self):
        """Sets modes and times, and as root owners, from the bottom up."""
        for folder, folders, files in os.walk(self.folder, topdown=False):
            for path in [os.path.join(folder, name) for name in files + folders] + [folder]:
                if os.path.islink(path):
                    continue
                if self.is_root and self.numbers.random() < 0.3:
                    os.chown(path, self.numbers.randrange(3), self.numbers.randrange(3))
                readable = 0o500 if os.path.isdir(path) else 0o400
                mode = self.numbers.choice(MODES) | (0 if self.is_root else readable)
                if not os.listxattr(path):
                    os.chmod(path, mode)
                os.utime(path, ns=(10**18, 10**18 + self.numbers.randrange(10**17)))


def differences(one, other):
    """What rsync would do to make the other tree from the one. It looks at owners only as root."""
    rsync = ["rsync", "-aHAXSn", "--delete", "--itemize-changes", "--checksum", f"{one}/", f"{other}/"]
    run = subprocess.run(rsync, stdout=subprocess.PIPE, stderr=subprocess.STDOUT, errors="replace", timeout=120)
    return run.stdout if run.returncode in (0, 23) else f"status {run.returncode}: {run.stdout}"


def blocks(folder):
    """The blocks that the files below a folder take, each file once."""
    found = {}
    for where, _, names in os.walk(os.fsencode(folder)):
        for name in names:
            status = os.lstat(os.path.join(where, name))
            found[status.st_dev, status.st_ino] = status.st_blocks
    return sum(found.values())
