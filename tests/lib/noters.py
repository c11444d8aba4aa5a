"""The threads of a daemon that write its notes: by their numbers tests/lib/shim.c tells them apart from those that do what clients ask for,
so that a test knows which calls come, and when."""
from __future__ import annotations

import functools
import pathlib
import tempfile

from clients import say
from daemon import SOON, Daemon, drive, free_port, until
from shim import loaded


@functools.lru_cache(None)
def noters(library: pathlib.Path, drives: int = 1, *words: str) -> str:
    """The words for ASIDE, of a daemon of so many drives that is given these words: as one that labels a volume shows them."""
    with tempfile.TemporaryDirectory() as folder:
        place, port = pathlib.Path(folder), free_port()
        conf, who = place / "conf", place / "who"
        for number in range(drives):
            (place / f"d{number}").mkdir()
        conf.write_text(f"port = {port}\n" + "".join(drive("File", place / f"d{number}") for number in range(drives)))
        with Daemon(conf, *words, port=port, env=loaded(library, WHO_LOG=who)):
            for number in range(drives):
                say(port, "console", "label", str(number + 1), f"Vol-{number}", "Default", "File")

            def numbers() -> list[int]:
                made = [line.split(" ", 1) for line in who.read_text().splitlines()]
                return sorted({int(number) for number, path in made if path.endswith("~~")})

            found = until(lambda: len(numbers()) == drives and numbers(), SOON)
    if not found or found[-1] - found[0] != drives - 1:
        raise TimeoutError(f"the notes are written by the threads {numbers()}")
    return f"{found[0]} {found[-1]}"
