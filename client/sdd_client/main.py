"""What each command does, and the status that it ends with."""
from __future__ import annotations

import argparse
import contextlib
import os
import pathlib
import signal
import sys
import time
import types
import typing

from . import backup, console, copies, dialogue, listing, plainfiles, rebuild, restore, retention, salvage, settings, streams, unattended, verify
from .catalogue import Catalogue, Job, usual_place
from .chosen import Choice, Undo, job_at, moment_of
from .connection import Address, Connection, connect
from .dialogue import BUSY, Target, terminate
from .errors import Ended, Failed, Lost, Misused, Partly, Refused, Unfit, complain
from .keeperfigures import figures_in
from .lanes import RECORD, Way
from .newfile import lines_in, output
from .options import job_name, parsed
from .progress import size_of
from .sources import DaemonSource, Source, VolumesSource
from .state import State

# A job waits longer than the daemon's unit does for a volume.
JOB_TIMEOUT, TIMEOUT = 4000, 300
PLAIN_RECORD = 65536
POOL, MEDIA = "Default", "File"
# So many seconds a daemon may take to listen that has just been started, and so many pass between two tries.
START, PAUSE = 20, 0.1
Asked = argparse.Namespace


def port_of(asked: Asked) -> int | None:
    """The daemon's port, if one is named: as it was said, the configuration's, or the environment's. With a way to another
    machine the environment's doesn't count."""
    if asked.port:
        return int(asked.port)
    if asked.conf:
        return console.configured(asked.conf).port
    text = os.environ.get("SDD_PORT", "")
    if not text or asked.rsh or asked.tls:
        return None
    if not text.isdigit() or not 1 <= int(text) <= 65535:
        raise Misused(f"SDD_PORT is '{text}', and no port")
    return int(text)


def address_of(asked: Asked, usual: float = TIMEOUT) -> Address:
    return Address(port_of(asked), asked.timeout or usual, asked.rsh, asked.tls, asked.cert)


def way_of(asked: Asked, port: int | None = None) -> Way:
    """How a job's sessions go to the daemon."""
    address = address_of(asked, JOB_TIMEOUT)
    record = (asked.record or [RECORD])[0]
    if asked.task == "backup" and not asked.spans and record % 512:
        raise Misused("the records of a backup are multiples of 512 bytes")
    target = Target(asked.job, asked.pool or POOL, asked.media or MEDIA)
    if port:
        address = Address(port, address.timeout)
    return Way(address, target, asked.retry, tuple(getattr(asked, "through", ())), record)


def source_of(asked: Asked) -> Source:
    return VolumesSource(asked.volumes) if asked.volumes else DaemonSource(address_of(asked))


@contextlib.contextmanager
def talking(address: Address) -> typing.Iterator[Connection]:
    with connect(address) as talk:
        yield talk
        terminate(talk)


@contextlib.contextmanager
def catalogue_of(asked: Asked) -> typing.Iterator[Catalogue]:
    path = pathlib.Path(asked.catalogue) if asked.catalogue else usual_place()
    with Catalogue(path.absolute()) as catalogue:
        yield catalogue


def job_of(catalogue: Catalogue, asked: Asked, name: str) -> Job:
    return job_at(catalogue, job_name(name), asked.client, moment_of(asked.at) if asked.at else None, asked.copy)


def do_backup(asked: Asked) -> None:
    if asked.spans:
        again(asked, lambda: plain_backup(asked))
        return
    name, *paths = asked.words
    job_name(name)
    if not paths:
        raise Misused("the form is: backup JOB PATH ..")
    client = asked.client or backup.this_client()
    wanted = backup.Wanted(name, client, paths, way_of(asked), asked.parallel, asked.session, asked.exclude, asked.system,
                           asked.caches, asked.incremental)
    with catalogue_of(asked) as catalogue:
        head = backup.backup(wanted, catalogue)
    complain(listing.sent(head))
    if head.faults:
        raise Partly(f"kept, but for the {head.faults} named")


def plain_backup(asked: Asked) -> None:
    way = way_of(asked)
    with talking(way.address) as talk:
        plainfiles.backup(talk, way, asked.spans, asked.words, asked.record or [PLAIN_RECORD])


def again(asked: Asked, work: typing.Callable[[], None]) -> None:
    """Does a job, and does it again while the daemon is busy."""
    until = time.monotonic() + asked.retry
    while True:
        try:
            return work()
        except Refused as why:
            if why.number() != BUSY or time.monotonic() > until:
                raise
            complain(f"{why}; the job begins again, for {asked.retry:g} seconds at most")
        time.sleep(min(backup.PAUSE, asked.retry))


def do_restore(asked: Asked) -> None:
    if asked.salvage and not asked.volumes:
        raise Misused("--salvage reads volumes: --volumes FOLDER says where they are")
    if asked.to is None:
        if len(asked.words) != 2:
            raise Misused("the forms are: restore JOB [PATH ..] --to FOLDER, and restore SPANS FOLDER")
        spans, folder = asked.words
        if asked.salvage:
            salvage.restore_files(lines_in(spans), asked.volumes, folder)
            return
        plainfiles.restore(source_of(asked).records(lines_in(spans)), folder)
        return
    name, *paths = asked.words
    with catalogue_of(asked) as catalogue:
        job = job_of(catalogue, asked, name)
        state = State(catalogue, job)
        if paths and not job.has_list:
            raise Failed("the catalogue has no list of this job's files: only all of it can be restored")
        choice, undo = Choice(state, paths), Undo(asked.undo, asked.identity)
        if asked.salvage:
            count = salvage.restore_job(state, choice, asked.volumes, undo, asked.to, asked.replace)
        else:
            with restore.Streams(state, source_of(asked), undo) as read:
                count = restore.restore(choice, read, asked.to, asked.replace)
    complain(f"{count} files are restored" if job.has_list else "all is restored")


def do_check(asked: Asked) -> None:
    with catalogue_of(asked) as catalogue:
        job = job_of(catalogue, asked, asked.name)
        count = verify.check(State(catalogue, job), source_of(asked), Undo(asked.undo, asked.identity))
    complain(f"job {job.name}, number {job.number}: {count.sessions} sessions, {count.files} files, "
             f"{size_of(count.bytes)} are as they were kept")


def do_compare(asked: Asked) -> None:
    with catalogue_of(asked) as catalogue:
        job = job_of(catalogue, asked, asked.name)
        state = State(catalogue, job)
        choice = Choice(state, asked.paths)
        with restore.Streams(state, source_of(asked), Undo(asked.undo, asked.identity)) as read:
            count = verify.compare(choice, read)
    complain(f"{count} files are the same")


def do_copy(asked: Asked) -> None:
    with catalogue_of(asked) as catalogue:
        job = job_of(catalogue, asked, asked.name)
        head = copies.copy(catalogue, job, source_of(asked), way_of(asked, asked.to))
    complain(f"job {head.job}, number {head.number}: {len(head.sessions) + 1} sessions are copied")


def do_rebuild(asked: Asked) -> None:
    with catalogue_of(asked) as catalogue:
        rebuilt = rebuild.rebuild(catalogue, asked.folders, Undo(asked.undo, asked.identity))
    complain(f"{rebuilt.jobs} jobs, {rebuilt.added} of them new to the catalogue")
    rebuild.told(rebuilt)


def settings_of(asked: Asked, is_needed: bool = True) -> settings.Settings:
    """What jobs.toml says. What the command line says of the way to the daemon counts before it."""
    path = pathlib.Path(asked.jobs) if asked.jobs else settings.usual_file()
    is_there = is_needed or asked.jobs or path.exists()
    said = settings.settings_in(path) if is_there else settings.Settings({}, "", {})
    way = dict(said.way)
    asked.client = asked.client or way.pop("client", None) or backup.this_client()
    if not (asked.port or asked.rsh or asked.tls):
        vars(asked).update(way)
    return said


def do_run(asked: Asked) -> None:
    said = settings_of(asked)
    if job_name(asked.name) not in said.jobs:
        raise Misused(f"jobs.toml has no job {asked.name}")
    job = said.jobs[asked.name]
    asked.pool, asked.media = asked.pool or job.pool, asked.media or job.media
    way = way_of(asked)._replace(stages=tuple(job.through))
    with catalogue_of(asked) as catalogue:
        unattended.Run(catalogue, asked.name, asked.client, job, way).run(said.metrics)


def do_report(asked: Asked) -> None:
    # No other command needs it and what it loads.
    from . import report

    jobs = settings_of(asked, is_needed=False).jobs
    with catalogue_of(asked) as catalogue:
        facts = report.facts_of(catalogue, asked.client, jobs)
    try:
        with talking(address_of(asked)) as talk:
            facts.volumes = report.volumes_of(dialogue.console(talk, "status"), console.configured(asked.conf).volume if asked.conf else None)
    except Failed as why:
        facts.lacking = str(why)
    try:
        facts.keeper = figures_in(asked.keeper) if asked.keeper else None
    except Failed as why:
        facts.unkept = str(why)
    with output(asked.html) as file:
        file.write(report.page(facts).encode())
        file.finish()
    if facts.lacking:
        raise Partly(f"the page lacks the volumes: {facts.lacking}")
    if facts.unkept:
        raise Partly(f"the page lacks what the keeper tells: {facts.unkept}")


def do_forget(asked: Asked) -> None:
    rules = retention.Rules(*(getattr(asked, f"keep_{name}") for name in retention.Rules._fields))
    client = asked.client or backup.this_client()
    with catalogue_of(asked) as catalogue:
        done = retention.forget(catalogue, job_name(asked.name), client, rules, asked.copy, asked.dry_run)
    print("\n".join(done.lines))
    complain(f"{done.count} runs {'would be' if asked.dry_run else 'are'} forgotten")


def do_list(asked: Asked) -> None:
    with catalogue_of(asked) as catalogue:
        listing.list_jobs(catalogue, asked.name and job_name(asked.name), asked.json)


def do_files(asked: Asked) -> None:
    with catalogue_of(asked) as catalogue:
        listing.list_files(catalogue, job_of(catalogue, asked, asked.name), asked.paths, asked.json)


def do_find(asked: Asked) -> None:
    with catalogue_of(asked) as catalogue:
        if not listing.find_files(catalogue, asked.pattern, asked.json):
            raise Failed("no such file")


def do_append(asked: Asked) -> None:
    words = [None, *asked.words] if asked.command is not None else asked.words
    if not 1 <= len(words) <= 2:
        raise Misused("the forms are: append FILE [SPANS], and append --command CMD [SPANS]")
    file, spans = [*words, "-"][:2]
    way, sizes = way_of(asked), asked.record or [PLAIN_RECORD]

    def work() -> None:
        with talking(way.address) as talk:
            if file is None:
                streams.append_command(talk, way, asked.command, spans, sizes)
            else:
                streams.append(talk, way, file, spans, sizes)

    # What came of a pipe can't come again.
    if file is None or os.path.isfile(file):
        again(asked, work)
    else:
        work()


def do_read(asked: Asked) -> None:
    said = streams.read(source_of(asked), lines_in(asked.spans), asked.file, list(reversed(asked.undo)))
    complain(said)


def do_console(asked: Asked) -> None:
    if asked.words == ["help"]:
        console.print_forms()
        return
    line = console.line_of(asked.words)
    with talking(address_of(asked)) as talk:
        console.say(talk, line)


def do_adopt_all(asked: Asked) -> None:
    """Before all volumes are adopted the daemon may still be on its way to its port."""
    conf = console.configured(asked.adopted)
    address = Address(asked.port or conf.port, asked.timeout or TIMEOUT)
    until = time.monotonic() + START
    while True:
        try:
            talk = connect(address)
            break
        except Lost as why:
            if not isinstance(why.__cause__, ConnectionRefusedError) or time.monotonic() > until:
                raise
        time.sleep(PAUSE)
    with talk:
        console.adopt_all(talk, conf.folders)
        terminate(talk)


WORK = {"backup": do_backup, "restore": do_restore, "check": do_check, "compare": do_compare, "copy": do_copy,
        "rebuild": do_rebuild, "run": do_run, "report": do_report, "forget": do_forget, "list": do_list, "files": do_files, "find": do_find, "append": do_append, "read": do_read,
        "console": do_console, "adopt-all": do_adopt_all}


def is_of_jobs(asked: Asked) -> bool:
    """Whether it is a command about jobs and the catalogue, whose failure is told by 1 alone."""
    if asked.task in ("backup", "restore"):
        return not asked.spans if asked.task == "backup" else asked.to is not None
    return asked.task not in ("append", "read", "console", "adopt-all")


def ended(number: int, _: types.FrameType | None) -> typing.NoReturn:
    raise Ended(number)


def status_of(asked: Asked, why: Exception) -> int:
    if isinstance(why, (Partly, Misused)):
        return why.status
    if is_of_jobs(asked):
        return Failed.status
    return why.status if isinstance(why, Failed) else Unfit.status


def main() -> int:
    for number in (signal.SIGTERM, signal.SIGHUP, signal.SIGINT):
        signal.signal(number, ended)
    asked = parsed()
    try:
        if asked.volumes and asked.task not in ("restore", "read", "check", "compare", "copy"):
            raise Misused("--volumes is for restore and read, check, compare and copy")
        WORK[asked.task](asked)
        sys.stdout.flush()
    except (Failed, OSError, ValueError) as why:
        complain(why)
        # What can't be written to the standard output isn't tried again at the end.
        with contextlib.suppress(OSError):
            os.dup2(os.open(os.devnull, os.O_WRONLY), sys.stdout.fileno())
        return status_of(asked, why)
    except Ended as why:
        return 128 + why.number
    return 0
