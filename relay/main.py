"""The command line of sdd-relay(8)."""
import argparse
import collections.abc
import contextlib
import os
import pathlib
import re
import signal
import socket
import sys

from relay import VERSION
from relay.allowance import Allowance
from relay.configuration import CLIENT_NAME, configured
from relay.errors import ClientLost, Failed, NotAdmitted
from relay.journal import Journal, tell
from relay.packets import IN_USE, line
from relay.roles import Rights
from relay.store import Store, place_taken
from relay.streams import Ends, connected
from relay.talk import Talk

CONF = "/usr/local/etc/sdd-relay.toml"
# What stunnel says of the client's certificate, with a / in older versions: a subject of one common name and nothing else.
SUBJECT = re.compile(rf"/?CN=({CLIENT_NAME.pattern})")


def arguments(words: list[str]) -> argparse.Namespace:
    parser = argparse.ArgumentParser(
        prog="sdd-relay", description="Passes on to the storage daemon what a client of another machine may say.")
    parser.add_argument("-V", "--version", action="version", version=f"sdd-relay {VERSION}", help="prints the version")
    task = parser.add_mutually_exclusive_group(required=True)
    task.add_argument("--as", dest="name", metavar="NAME", help="holds the talk of this name on standard input and output")
    task.add_argument("--tls", action="store_true", help="holds that of the name in the certificate, below stunnel")
    task.add_argument("--check", action="store_true", help="prints what each name may")
    task.add_argument("--grant", nargs="+", metavar=("NAME", "SPANS"),
                      help="lets the name read the sessions of these files of spans")
    parser.add_argument("--conf", default=CONF, metavar="FILE", help="the file of names")
    return parser.parse_args(words)


def name_of(asked: argparse.Namespace) -> str:
    """The name for which a talk is held."""
    if not asked.tls:
        return str(asked.name)
    subject = os.environ.get("SSL_CLIENT_DN", "")
    if not (found := SUBJECT.fullmatch(subject)):
        raise NotAdmitted(f"the certificate's subject is {subject!r} in place of CN=NAME")
    return found[1]


def peer() -> str:
    """Where the client is, as sshd or stunnel says."""
    return (os.environ.get("SSH_CONNECTION") or os.environ.get("REMOTE_HOST") or "here").split(" ")[0]


def hold(asked: argparse.Namespace) -> int:
    """Holds a talk."""
    configuration = configured(asked.conf)
    os.umask(0o077)
    name, journal = None, Journal(configuration.log)
    try:
        name = name_of(asked)
        journal.name = name if CLIENT_NAME.fullmatch(name) else ascii(name[:64])
        if not (rights := configuration.names.get(name)):
            raise NotAdmitted("no such name")
        with place_taken(configuration.state, name, rights.talks), contextlib.closing(Store(configuration.state)) as store:
            with connected(configuration.socket, configuration.port) as daemon:
                talk_held(rights, daemon, store, journal)
    except NotAdmitted as why:
        journal.ended(f"not admitted from {peer()}: {why}")
        # The answer to whatever the client says first.
        os.write(1, line(IN_USE))
        raise
    except Failed as why:
        journal.ended(str(why))
        raise
    return 0


def talk_held(rights: Rights, daemon: socket.socket, store: Store, journal: Journal) -> None:
    """Holds a talk that is admitted, and gives back what it doesn't use of the day, however it ends."""
    journal.say(f"begins from {peer()} as {rights.role.value}")
    with contextlib.closing(Allowance(store, rights)) as allowance, contextlib.closing(Ends(0, 1, daemon)) as ends:
        talk = Talk(rights, ends, store, allowance, journal)
        try:
            journal.ended(talk.hold())
        finally:
            journal.say(f"{talk.appended} bytes were appended, {talk.read} read")


def check(asked: argparse.Namespace) -> int:
    """Prints what each name may."""
    for name, rights in sorted(configured(asked.conf).names.items()):
        jobs = None if rights.jobs is None else [
            str(part.start) if len(part) == 1 else f"{part.start}-{part.stop - 1}" for part in rights.jobs]
        print(name, rights.role.value, "pools", words(rights.pools), "media", words(rights.media), "jobs", words(jobs),
              "bytes", rights.bytes_a_day or "all", "sessions", rights.sessions_a_day or "all", "talks", rights.talks)
    return 0


def words(found: collections.abc.Iterable[str] | None) -> str:
    return "all" if found is None else ",".join(sorted(found)) or "none"


def grant(asked: argparse.Namespace) -> int:
    """Lets a name read the sessions of files of spans."""
    configuration = configured(asked.conf)
    name, *files = asked.grant
    if name not in configuration.names:
        raise NotAdmitted(f"no such name: {name}")
    keys = [key_in(file) for file in files]
    os.umask(0o077)
    as_owner(configuration.state)
    with contextlib.closing(Store(configuration.state)) as store:
        for key in keys:
            store.grant(name, key)
    return 0


def key_in(file: str) -> tuple[int, int]:
    """The session of a file of spans."""
    text = pathlib.Path(file).read_text(errors="replace")
    if not (found := re.match(r"session ([1-9]\d{0,9}) ([1-9]\d{0,9})\n", text, re.ASCII)):
        raise Failed(f"{file} has not the lines of a session")
    return int(found[1]), int(found[2])


def as_owner(folder: pathlib.Path) -> None:
    """From here on root is the owner of the folder: what it makes there must be the relay's own."""
    if os.geteuid() != 0:
        return
    if not folder.is_dir():
        raise Failed(f"{folder} isn't there; make it, and give it to the relay's user")
    found = folder.stat()
    os.setegid(found.st_gid)
    os.seteuid(found.st_uid)


def left(number: int, _frame: object) -> None:
    raise ClientLost(f"ended by {signal.Signals(number).name}")


def main() -> int:
    asked = arguments(sys.argv[1:])
    for number in (signal.SIGTERM, signal.SIGHUP, signal.SIGINT):
        signal.signal(number, left)
    try:
        if asked.check:
            return check(asked)
        return grant(asked) if asked.grant else hold(asked)
    except Failed as why:
        tell(str(why))
        return why.status
    except OSError as why:
        tell(str(why))
        return Failed.status
