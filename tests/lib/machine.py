"""The machine on which something is measured."""
import datetime
import os
import pathlib
import platform
import re


def field(file, name):
    """What a file of the system says after a name, at its first place."""
    return re.search(rf"^{name}\s*: *(.+)$", pathlib.Path(file).read_text(), re.MULTILINE)[1]


def machine():
    """The machine, the day and what else it had to do, in a line."""
    memory = int(field("/proc/meminfo", "MemTotal").split()[0]) / 1024 ** 2
    system = platform.freedesktop_os_release()["PRETTY_NAME"]
    linux = ".".join(platform.release().split(".")[:2])
    return (f"{datetime.date.today()}, {field('/proc/cpuinfo', 'model name')}, {os.cpu_count()} processors, "
            f"{memory:.0f} GB of memory, {system}, Linux {linux}; its load before this: {os.getloadavg()[0]:.1f}")
