"""The library that is loaded before a program: tests/lib/shim.c, which says what it is told by the environment."""
import os
import pathlib
import shlex
import subprocess

from daemon import WAIT, environment, until

SOURCE = pathlib.Path(__file__).resolve().parent / "shim.c"


def compiled(folder):
    """Makes the library in a folder. Without a compiler that fails, and with it the test."""
    library = pathlib.Path(folder) / "shim.so"
    compiler = [*shlex.split(os.environ.get("CC", "cc")), "-O2", "-Wall", "-Werror", "-shared", "-fPIC"]
    subprocess.run([*compiler, "-o", library, SOURCE, "-ldl"], check=True, timeout=120)
    return library


def loaded(library, **words):
    """The environment of a program before which it is loaded, with these words."""
    return environment(LD_PRELOAD=library, **words)


class Holds:
    """The calls of a program that are held, by kind and the begin of a path. `words` are for its environment."""

    def __init__(self, folder: pathlib.Path):
        self.plan, self.told = folder / "holds", folder / "holds.log"
        self.lines: list[str] = []
        self.words = {"HOLDS": self.plan, "HOLDS_LOG": self.told}
        self.told.write_text("")
        self._write()

    def _write(self):
        """The program finds the whole plan, whenever it looks."""
        part = self.plan.with_suffix(".part")
        part.write_text("".join(f"{line}\n" for line in self.lines))
        part.replace(self.plan)

    def hold(self, kind: str, path: object, error: int = 0):
        """Calls of this kind are held from now on; they fail with that error once they are let go, unless it is 0."""
        self.lines.append(f"{kind} {path} {error}")
        self._write()

    def release(self, kind: str = ""):
        """Lets go what is held: of that kind, or all."""
        self.lines = [line for line in self.lines if kind and not line.startswith(f"{kind} ")]
        self._write()

    def only(self, path: str):
        """Of the paths that are held only this one is from now on."""
        kept = [line.split() for line in self.lines if path.startswith(line.split()[1])]
        self.lines = [f"{kind} {path} {error}" for kind, _, error in kept]
        self._write()

    def held(self) -> list[str]:
        """The calls that were held so far, a kind and a path each."""
        return self.told.read_text().splitlines()

    def comes(self, kind: str, before: int = 0, seconds: float = WAIT) -> bool:
        """Whether a call of that kind is held within that time, after so many that were."""
        return until(lambda: any(line.startswith(f"{kind} ") for line in self.held()[before:]), seconds)
