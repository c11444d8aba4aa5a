"""The log: what each talk did and was refused, a line each. In a file if the configuration names one, otherwise the
system's log."""
import datetime
import os
import pathlib
import select
import syslog

# After so many refusals of a talk only their number is told, so that a client can't fill the disk with them.
MOST_REFUSALS = 100
MOST_TEXT = 200


def shown(payload: bytes) -> str:
    """What a client said, as a text without anything that could look like another line of the log."""
    text = payload[:MOST_TEXT].decode("latin-1")
    return ascii(text) + (".." if len(payload) > MOST_TEXT else "")


class Journal:
    """The log of a talk; its lines begin with the name, once that is known."""

    def __init__(self, path: pathlib.Path | None):
        self.name, self.refusals = "-", 0
        self.file = None if path is None else os.open(path, os.O_WRONLY | os.O_APPEND | os.O_CREAT | os.O_CLOEXEC, 0o640)
        if self.file is None:
            syslog.openlog("sdd-relay", syslog.LOG_PID, syslog.LOG_DAEMON)

    def say(self, text: str) -> None:
        if self.file is None:
            syslog.syslog(syslog.LOG_INFO, f"{self.name}: {text}")
            return
        moment = datetime.datetime.now(datetime.timezone.utc).strftime("%Y-%m-%dT%H:%M:%SZ")
        # One write: those of several relays don't mix.
        try:
            os.write(self.file, f"{moment} {os.getpid()} {self.name}: {text}\n".encode())
        except OSError as why:
            tell(f"the log: {why}")

    def refused(self, what: str, why: str) -> None:
        """A refusal of the relay's own. The client is told the reason too, where it has a standard error: over ssh."""
        self.refusals += 1
        if self.refusals <= MOST_REFUSALS:
            self.say(f"refused {what}: {why}")
            tell(f"refused: {why}")

    def ended(self, how: str) -> None:
        if self.refusals > MOST_REFUSALS:
            self.say(f"{self.refusals - MOST_REFUSALS} more were refused")
        self.say(f"ended: {how}")


def tell(text: str) -> None:
    """Writes a line to standard error, if it goes there at once: whoever doesn't read it holds nothing up."""
    ready = select.poll()
    ready.register(2, select.POLLOUT)
    try:
        if any(event == select.POLLOUT for _, event in ready.poll(0)):
            os.write(2, f"sdd-relay: {text[:300]}\n".encode(errors="replace"))
    except OSError:
        # There is nobody to tell it to; the log has it.
        pass
