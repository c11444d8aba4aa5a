"""The command line."""
from __future__ import annotations

import argparse
import os
import re
import typing

from . import VERSION
from .connection import MOST_BYTES
from .cutter import SESSION
from .errors import Misused
from .lanes import RECORD

# A job's name is one of a volume's kind, so no path is taken for one.
JOB_NAME = re.compile(r"[A-Za-z0-9_:][A-Za-z0-9_:.-]{0,126}")
UNITS = {"K": 1_000, "M": 1_000_000, "G": 1_000_000_000, "T": 1_000_000_000_000}


def sizes(text: str) -> list[int]:
    """Sizes of records, with commas between."""
    numbers = [int(word) for word in text.split(",")]
    if not all(1 <= number <= MOST_BYTES for number in numbers):
        raise ValueError(text)
    return numbers


def seconds(text: str) -> float:
    if not 0 < (number := float(text)) < 1e9:
        raise ValueError(text)
    return number


def patience(text: str) -> float:
    if not 0 <= (number := float(text)) < 1e9:
        raise ValueError(text)
    return number


def port(text: str) -> int:
    if not 1 <= (number := int(text)) <= 65535:
        raise ValueError(text)
    return number


def bytes_of(text: str) -> int:
    """A number of bytes, with K, M, G or T for thousands."""
    number = int(text[:-1]) * UNITS[text[-1]] if text[-1:] in UNITS else int(text)
    if number < 1:
        raise ValueError(text)
    return number


def lanes(text: str) -> int:
    if not 1 <= (number := int(text)) <= 32:
        raise ValueError(text)
    return number


def job_name(text: str) -> str:
    """A job's name. An older command line, whose first word is a file, is told."""
    if not JOB_NAME.fullmatch(text) or text.endswith(".spans"):
        raise Misused(f"{text!r} is no job's name: letters, digits, _, :, . and -. To back up plain files and keep the lines "
                      "of their session in a file, as an earlier version did: backup --spans FILE PATH ..")
    return text


class Parser(argparse.ArgumentParser):
    """A parser whose faults begin as all lines of this program do."""

    def error(self, message: str) -> typing.NoReturn:
        self.print_usage()
        self.exit(2, f"sdd-client: {message}\n")


def parser() -> Parser:
    made = Parser(prog="sdd-client", description="A client of the storage daemon.")
    add = made.add_argument
    add("-V", "--version", action="version", version=f"sdd-client {VERSION}", help="prints the version")
    add("--port", type=port, help="the daemon's; else --conf's, SDD_PORT's, the socket /run/sdd-clients/socket, and else 9103")
    add("--rsh", metavar="COMMAND", help="the way to a daemon elsewhere: a remote shell's words, as 'ssh backup@host'")
    add("--tls", metavar="HOST[:PORT]", help="the way by TLS, with --cert; the port is 9104 if it isn't given")
    add("--cert", metavar="FILE", help="this client's key and certificate, and that of the host's authority, in PEM")
    add("--conf", metavar="CONF", help="the daemon's configuration, which names its port")
    add("--timeout", type=seconds, metavar="SECONDS",
        help="how long an answer may take; 4000 for a job and 300 for other commands if it isn't given")
    add("--retry", type=patience, default=600, metavar="SECONDS",
        help="how long a job tries again if the daemon is busy; 600 if it isn't given")
    add("--job", type=int, default=1, help="the JobId of append and of backup --spans; 1 if it isn't given")
    add("--pool", help="the pool of a job's volumes; Default if it isn't given")
    add("--media", help="their media; File if it isn't given")
    add("--record", type=sizes, metavar="SIZE[,SIZE..]",
        help=f"bytes of a record, {RECORD} for backup JOB and else 65536 if it isn't given; several sizes are taken in turn")
    add("--volumes", metavar="FOLDER", help="sessions are read from the volumes in this folder, by sdtool, without a daemon")
    add("--catalogue", metavar="FILE", default=os.environ.get("SDD_CATALOGUE"), help="the catalogue's file")
    add("--client", metavar="NAME", help="the client whose job it is; this host's name if it isn't given")
    tasks = made.add_subparsers(required=True, metavar="COMMAND", dest="task")
    for make in (of_backups, of_the_unattended, of_restores, of_retention, of_lists, of_streams, of_operators):
        make(tasks)
    return made


def parsed() -> argparse.Namespace:
    """What the command line says. Options of a command may stand among its words."""
    made = parser()
    asked, others = made.parse_known_args()
    words = getattr(asked, "words", getattr(asked, "paths", None))
    if others and (words is None or any(word.startswith("-") for word in others)):
        made.error(f"unrecognized arguments: {' '.join(others)}")
    if others:
        words += others
    return asked


def task(tasks: typing.Any, name: str, text: str) -> typing.Callable[..., typing.Any]:
    return tasks.add_parser(name, help=text, description=text).add_argument


def of_backups(tasks: typing.Any) -> None:
    add = task(tasks, "backup", "backs up what is at the paths and below them, as a job of that name")
    add("words", nargs="+", metavar="WORD", help="the job's name, and paths; with --spans paths alone")
    add("--exclude", action="append", default=[], metavar="PATTERN", help="leaves out what is like it; / begins a whole path")
    add("--system", action="store_true", help="stays in the file system of each path")
    add("--caches", action="store_true", help="leaves out folders with a CACHEDIR.TAG")
    add("--through", action="append", default=[], metavar="STAGE", help="sends the stream through a program")
    add("--incremental", action="store_true", help="sends what changed since the job's last run, if it can stand on that one")
    add("--parallel", type=lanes, default=1, metavar="N", help="uses so many lanes")
    add("--session", type=bytes_of, default=SESSION, metavar="SIZE", help="bytes of a session; 4G if it isn't given")
    add("--spans", metavar="FILE", help="backs up plain files without a catalogue, and keeps the session's lines in FILE")
    add = task(tasks, "copy", "copies a job to another daemon")
    of_one_job(add)
    add("--to", type=port, required=True, metavar="PORT", help="that daemon's port")
    add = task(tasks, "rebuild", "makes the catalogue anew from the volumes in folders")
    add("folders", nargs="+", metavar="FOLDER")
    of_the_way_back(add)


def of_one_job(add: typing.Callable[..., typing.Any], name: str = "name") -> None:
    """A command speaks of one job."""
    add(name, metavar="JOB")
    add("--at", metavar="DATE", help="the last one up to that date, or date and time")
    add("--copy", action="store_true", help="a copy of it")


def of_the_way_back(add: typing.Callable[..., typing.Any]) -> None:
    """A command undoes stages."""
    add("--identity", metavar="FILE", help="the key for what age encrypted")
    add("--undo", action="append", default=[], metavar="STAGE", help="undoes a stage, in place of what is known of it")


def of_jobs_file(add: typing.Callable[..., typing.Any]) -> None:
    add("--jobs", metavar="FILE", help="jobs.toml; else SDD_JOBS, or /etc/sdd-client/jobs.toml for root")


def of_the_unattended(tasks: typing.Any) -> None:
    add = task(tasks, "run", "runs a job of jobs.toml, as a timer does")
    add("name", metavar="JOB")
    of_jobs_file(add)
    add = task(tasks, "report", "writes a page about the jobs and the volumes")
    add("--html", required=True, metavar="FILE", help="the page, which needs no network")
    add("--keeper", metavar="FIGURES", help="shows what sdd-keeper tells of room, damage and all clients' jobs in that file")
    of_jobs_file(add)


def of_restores(tasks: typing.Any) -> None:
    add = task(tasks, "restore", "restores a job, or some of its paths, below a folder")
    add("words", nargs="+", metavar="WORD", help="the job and paths of it; without --to a file of spans and a folder")
    add("--to", metavar="FOLDER", help="a new folder, or an empty one")
    add("--replace", action="store_true", help="restores into a folder that holds something")
    add("--salvage", action="store_true", help="with --volumes: restores what is whole of damaged sessions, and tells the rest")
    add("--at", metavar="DATE", help="the last one up to that date, or date and time")
    add("--copy", action="store_true", help="a copy of it")
    of_the_way_back(add)
    add = task(tasks, "check", "reads a job back, and holds it to the catalogue")
    of_one_job(add)
    of_the_way_back(add)
    add = task(tasks, "compare", "holds a job to the files that are there now")
    of_one_job(add)
    add("paths", nargs="*", metavar="PATH")
    of_the_way_back(add)


def count(text: str) -> int:
    if (number := int(text)) < 1:
        raise ValueError(text)
    return number


def of_retention(tasks: typing.Any) -> None:
    add = task(tasks, "forget", "marks the runs of a job that no rule keeps, and says what that frees")
    add("name", metavar="JOB")
    add("--keep-last", type=count, default=0, metavar="N", help="keeps the last N runs")
    for period in ("hour", "day", "week", "month", "year"):
        name = "daily" if period == "day" else f"{period}ly"
        add(f"--keep-{name}", type=count, default=0, metavar="N", help=f"keeps the last run of each of the last N {period}s with one")
    add("--keep-within", default="", metavar="DURATION", help="keeps all runs so long before the last one, as 1y6m, 2w, 7d or 12h")
    add("--copy", action="store_true", help="of the job's copies")
    add("--dry-run", action="store_true", help="only says what it would do")


def of_lists(tasks: typing.Any) -> None:
    add = task(tasks, "list", "lists the jobs")
    add("name", nargs="?", metavar="JOB")
    add("--json", action="store_true", help="prints JSON")
    add = task(tasks, "files", "lists the files of a job")
    of_one_job(add)
    add("paths", nargs="*", metavar="PATH")
    add("--json", action="store_true", help="prints JSON")
    add = task(tasks, "find", "finds files of all jobs by name")
    add("pattern", metavar="PATTERN")
    add("--json", action="store_true", help="prints JSON")


def of_streams(tasks: typing.Any) -> None:
    add = task(tasks, "append", "backs up one stream of bytes")
    add("words", nargs="*", metavar="FILE", help="what has it, and the file for its lines")
    add("--command", metavar="CMD", help="backs up what this command of the shell prints, in place of FILE")
    add("--through", action="append", default=[], metavar="STAGE", help="sends the stream through a program")
    add = task(tasks, "read", "restores it")
    add("spans", metavar="SPANS")
    add("file", metavar="FILE")
    add("--undo", action="append", default=[], metavar="STAGE", help="undoes a stage, in the order of --through")


def of_operators(tasks: typing.Any) -> None:
    add = task(tasks, "console", "gives a line of the operator, and prints the answer")
    add("words", nargs="+", metavar="WORD", help="help lists the forms")
    add = task(tasks, "adopt-all", "adopts the volumes of a configuration")
    add("adopted", metavar="CONF")
