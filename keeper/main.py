"""The command line of sdd-keeper(8)."""
from __future__ import annotations

import argparse
import contextlib
import signal
import time
import typing

from sdd_client.errors import Failed

from keeper import VERSION
from keeper.configuration import Configuration, configured
from keeper.journal import tell
from keeper.rounds import Keeper
from keeper.scrubs import scrub
from keeper.state import State


def arguments() -> argparse.Namespace:
    parser = argparse.ArgumentParser(prog="sdd-keeper", description="Looks after the volumes of the storage daemon.")
    parser.add_argument("-V", "--version", action="version", version=f"sdd-keeper {VERSION}", help="prints the version")
    parser.add_argument("conf", metavar="CONF", help="the file of pools")
    task = parser.add_mutually_exclusive_group()
    task.add_argument("--once", action="store_true", help="does what is to be done now, and ends")
    task.add_argument("--dry-run", action="store_true", help="prints why each volume stays or goes, and does nothing")
    task.add_argument("--scrub", action="store_true", help="reads the volumes that are due anew, to find damage")
    return parser.parse_args()


def main() -> int:
    asked = arguments()
    signal.signal(signal.SIGTERM, left)
    try:
        configuration = configured(asked.conf)
        if asked.scrub:
            return scrub(configuration)
        if not asked.once and not asked.dry_run:
            go_on(configuration)
        with contextlib.closing(State(configuration.state)) as state:
            keeper = Keeper(configuration, state)
            print_verdicts(keeper) if asked.dry_run else keeper.round()
    except Failed as why:
        tell(why)
        return why.status
    except OSError as why:
        tell(why)
        return Failed.status
    return 0


def print_verdicts(keeper: Keeper) -> None:
    keeper.check_folders()
    for one in sorted(keeper.see().verdicts):
        print(f"{one.name} {'goes' if one.goes else 'stays'}: {one.why}")


def go_on(configuration: Configuration) -> typing.NoReturn:
    """Rounds for ever. One that fails is told, and the next one tries again."""
    already: set[str] = set()
    while True:
        try:
            with contextlib.closing(State(configuration.state)) as state:
                Keeper(configuration, state, already=already).round()
        except (Failed, OSError) as why:
            tell(why)
        time.sleep(configuration.every)


def left(*_: object) -> None:
    raise SystemExit(0)
