"""`run JOB`: a job of jobs.toml, as a timer runs it: alone, with commands before and after it, with rules of what is kept and
figures for who watches it."""
from __future__ import annotations

import contextlib
import fcntl
import os
import subprocess
import time
import typing

from . import retention
from .backup import Wanted, backup
from .catalogue import KEPT, PARTLY, Catalogue, Job
from .errors import Ended, Failed, Partly, complain
from .lanes import Way
from .listing import sent
from .newfile import NewFile
from .settings import JobSettings, seconds_of
from .stages import ending
from .streams import SHELL

FIGURES = {"last_run_seconds": "when the last run ended, in seconds since 1970", "last_success_seconds": "when the last kept run ended",
           "last_status": "its exit status: 0 kept, 1 not, 3 kept but for some", "last_duration_seconds": "how long the last run took",
           "last_bytes": "bytes of the files that the last kept run sent", "last_files": "members that it sent",
           "last_faults": "names that it didn't keep as they were", "schedule_seconds": "how often it is to run"}


@contextlib.contextmanager
def locked(catalogue: Catalogue, name: str) -> typing.Iterator[None]:
    """No other `run` of that job goes on meanwhile. The lock is the process's, however it ends."""
    path = catalogue.path.with_name(f"{name}.lock")
    with open(path, "wb") as file:
        try:
            fcntl.flock(file, fcntl.LOCK_EX | fcntl.LOCK_NB)
        except OSError as why:
            raise Failed(f"job {name} is running: {path} is locked") from why
        yield


def command(text: str, name: str, when: str, status: int | None = None) -> None:
    """Runs a command of the shell before or after a job."""
    told = {} if status is None else {"SDD_STATUS": str(status)}
    done = subprocess.run([*SHELL, text], stdin=subprocess.DEVNULL, env={**os.environ, "SDD_JOB": name, **told})
    if done.returncode:
        raise Failed(f"the command {when} the job {ending(done.returncode)}: {text}")


class Run:
    """A run of a job."""

    def __init__(self, catalogue: Catalogue, name: str, client: str, job: JobSettings, way: Way):
        self.catalogue, self.name, self.client, self.job, self.way = catalogue, name, client, job, way

    def run(self, metrics: str) -> None:
        """Runs it, and keeps its figures in that folder, whatever comes of it."""
        with locked(self.catalogue, self.name):
            begun, status = time.time(), Failed.status
            try:
                self._between()
                status = 0
            except Failed as why:
                status = Partly.status if isinstance(why, Partly) else Failed.status
                raise
            except Ended as why:
                status = 128 + why.number
                raise
            finally:
                if metrics:
                    self._keep_figures(metrics, status, begun)

    def _between(self) -> None:
        """The job, between its commands. The one after it runs whatever comes before it."""
        status = Failed.status
        try:
            if self.job.before:
                command(self.job.before, self.name, "before")
            status = self._work()
        except Ended as why:
            status = 128 + why.number
            raise
        finally:
            if self.job.after:
                try:
                    command(self.job.after, self.name, "after", status)
                except Failed as why:
                    complain(why)
                    status = status or Partly.status
        if status:
            raise Partly("the job is kept, but not all was done")

    def _work(self) -> int:
        """Backs up and forgets. Gives the status of what is kept."""
        job = self.job
        wanted = Wanted(self.name, self.client, job.paths, self.way, job.parallel, job.session, job.exclude, job.system, job.caches,
                        job.incremental, job.incremental and self._is_full_due())
        head = backup(wanted, self.catalogue)
        complain(sent(head))
        if any(job.keep):
            done = retention.forget(self.catalogue, self.name, self.client, job.keep, False, False)
            complain(f"{done.count} runs are forgotten")
        return Partly.status if head.faults else 0

    def _runs(self) -> list[Job]:
        jobs = self.catalogue.jobs(self.name, self.client)
        return [job for job in jobs if job.status in (KEPT, PARTLY) and not job.copy_of]

    def _is_full_due(self) -> bool:
        """Whether the last full run is so long ago that another one is due."""
        full = [job for job in self._runs() if not job.chain]
        return bool(self.job.full and full and full[-1].began / 1e6 + seconds_of(self.job.full) <= time.time())

    def _keep_figures(self, folder: str, status: int, begun: float) -> None:
        """Keeps the figures of the job in a file that node_exporter reads."""
        values: dict[str, float | None] = {"last_run_seconds": round(time.time(), 3), "last_status": status,
                                           "last_duration_seconds": round(time.time() - begun, 3), "schedule_seconds": self.job.seconds()}
        if runs := self._runs():
            last = runs[-1]
            values |= {"last_success_seconds": last.ended / 1e6, "last_bytes": last.bytes, "last_files": last.files, "last_faults": last.faults}
        try:
            with NewFile(os.path.join(folder, f"sdd_client_{self.name.replace(':', '_')}.prom")) as file:
                os.fchmod(file.file.fileno(), 0o644)
                file.write(figures(self.name, self.client, values).encode())
                file.finish()
        except OSError as why:
            complain(f"the figures of the job aren't kept: {why}")


def figures(name: str, client: str, values: dict[str, float | None]) -> str:
    """The text of figures, in the format of Prometheus."""
    escaped = client.replace("\\", "\\\\").replace('"', '\\"').replace("\n", "\\n")
    lines = []
    for key, text in FIGURES.items():
        if (value := values.get(key)) is not None:
            lines += [f"# HELP sdd_client_{key} {text}", f"# TYPE sdd_client_{key} gauge",
                      f'sdd_client_{key}{{job="{name}",client="{escaped}"}} {value:.15g}']
    return "\n".join(lines) + "\n"
