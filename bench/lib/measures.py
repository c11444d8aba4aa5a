"""What a process used, and what a piece of work took."""
import math
import os
import pathlib
from collections import namedtuple

TICKS = os.sysconf("SC_CLK_TCK")


class Took(namedtuple("Took", "size seconds processor clients memory")):
    """What some jobs of so many bytes of records took: seconds by the clock, processor seconds of the daemon and those of
    its clients; and the greatest resident memory of the daemon so far, in MB."""

    @property
    def rate(self):
        """MB a second."""
        return self.size / 1e6 / self.seconds

    @property
    def each(self):
        """Processor seconds of the daemon for a GB."""
        return self.processor / (self.size / 1e9)

    def tell(self, text):
        print(f"{text:<56} {self.seconds:>7.2f} s {self.rate:>6.0f} MB/s {self.each:>6.2f} processor s/GB, "
              f"of clients {self.clients / (self.size / 1e9):>5.2f} {self.memory:>6.0f} MB", flush=True)


def least(tries):
    """Of the same work, done some times, the least of each: what else the machine does only adds."""
    size, *others = zip(*tries)
    return Took(size[0], *map(min, others))


def processor_seconds(process):
    """Those of all threads of a process, the system's for it too."""
    fields = pathlib.Path(f"/proc/{process.pid}/stat").read_text().rpartition(")")[2].split()
    return (int(fields[11]) + int(fields[12])) / TICKS


def resident(process):
    """The greatest so far, in MB."""
    return _field(f"/proc/{process.pid}/status", "VmHWM") / 1024


def bytes_read(process):
    """How many bytes it has read so far of files, by any call."""
    return _field(f"/proc/{process.pid}/io", "rchar")


def _field(file, name):
    for line in pathlib.Path(file).read_text().splitlines():
        if line.startswith(name):
            return int(line.split()[1])
    raise KeyError(name)


def share(values, part):
    """The value below or at which that part of these values is."""
    return sorted(values)[max(0, math.ceil(part * len(values)) - 1)]
