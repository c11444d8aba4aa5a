"""Worked scripts in which one call of the device fails: the nth of each kind in each way, n rising up to a run in which no
call is the nth. Another session is at work beside each drain, and a later run adopts and reads.
"""
import itertools

from device import CALLS, WAYS
from model import Settings, World

VOLUMES = ("Vol-0001", "Vol-0002")
LATER = 2000
SCENARIOS = {
    "two volumes": ({"volume": 2200}, [
        "label 1 Vol-0001 Default File", "label 1 Vol-0002 Default File", "open 7 Default File", "fill 1 1 2 2000", "end 1",
        "drain", "close 1", "read 1", "mount 1 Vol-0001", "mount 1 Vol-0002", "mount 1 Vol-0009", "unmount 1",
    ]),
    "to the last byte": ({"volume": 2130}, [
        "label 1 Vol-0001 Default File", "open 7 Default File", "fill 1 1 2 1850", "end 1", "drain", "close 1", "read 1",
        "requests", "unmount 1", "label 1 Vol-0002 Default File",
    ]),
    "interleaved": ({}, [
        "label 1 Vol-0001 Default File", "open 7 Default File", "fill 1 1 2 2000", "open 8 Default File", "fill 2 1 2 1500",
        "end 1", "end 2", "drain", "close 1", "close 2", "read 1", "read 2",
    ]),
    "spooled": ({"spool": 2000}, [
        "label 1 Vol-0001 Default File", "open 7 Default File", "fill 1 1 2 4000", "spool 1", "spool 1", "spool 1", "end 1",
        "drain", "close 1", "read 1",
    ]),
    "purged": ({"volume": 2200}, [
        "label 1 Vol-0001 Default File", "label 1 Vol-0002 Default File", "open 7 Default File", "open 8 Default File",
        "open 9 Default File", "fill 1 1 2 2000", "end 1", "drain", "close 1", "purge 1 Vol-0001", "rec 2 1 2 hello", "end 2",
        "drain", "close 2", "unmount 1", "purge 1 Vol-0001", "read 1", "purge 1 Vol-0001", "rec 3 1 2 abc", "end 3", "drain",
        "close 3", "read 3",
    ]),
    "adopted and purged": ({"volume": 2130}, [
        "label 1 Vol-0001 Default File", "label 1 Vol-0002 Default File", "open 7 Default File", "fill 1 1 2 1850", "end 1",
        "drain", "close 1", "restart 1500", "adopt 1 Vol-0001", "adopt 1 Vol-0001", "adopt 1 Vol-0002", "again 1000 1",
        "purge 1 Vol-0001", "again 1000 1", "open 8 Default File", "fill 1 1 2 1850", "end 1", "drain", "close 1", "read 1",
        "purge 1 Vol-0001",
    ]),
}


class Played:
    """A scenario as it is played, with one call that fails: its lines, and what the model answers to each."""

    def __init__(self, given, plan):
        self.settings = Settings(block=1024, drives=[("File", 4)], plan=plan, **given)
        self.world = World(self.settings)
        self.lines, self.answers = [], []

    def add(self, line):
        self.lines.append(line)
        self.answers.append(self.world.answer(line))

    def play(self, lines):
        self.add("at 0")
        for line in lines:
            self.drain_beside() if line == "drain" else self.add(line)
            self.add("status")
        self.leave()
        self.come_back()

    def drain_beside(self):
        """Another session takes a record, then come the rounds, then it takes another, ends and is cancelled."""
        self.add("open 9 Default File")
        ticket = len(self.world.sessions)
        for line in (f"rec {ticket} 1 2 a", "drain", f"rec {ticket} 2 2 b", f"end {ticket}", f"cancel {ticket}"):
            self.add(line)

    def leave(self):
        """Each session is read, at a second time if the first met a fault, ended and cancelled."""
        for ticket in range(1, len(self.world.sessions) + 1):
            for word in ("read", "read", "end", "cancel", "jobmedia"):
                self.add(f"{word} {ticket}")
        self.add("requests")

    def come_back(self):
        """A later run adopts the volumes, at a second time if the first met a fault, and reads what was closed."""
        self.add(f"restart {LATER} 1 {VOLUMES[0]} 500")
        for volume in VOLUMES:
            for _ in range(2):
                self.add(f"adopt 1 {volume}")
        for time, ticket in self.world.told:
            self.add(f"again {time} {ticket}")
        self.add("status")

    def meets_plan(self):
        """Whether a call was the one that fails."""
        return any(self.world.devices[0].counts[call] >= nth for _, call, nth in self.settings.plan)


def failing():
    """Each scenario without a fault, and with each call that fails."""
    for name, (given, lines) in SCENARIOS.items():
        for call, way in itertools.product(CALLS, WAYS):
            for nth in itertools.count(1):
                played = Played(given, {(1, call, nth): way})
                played.play(lines)
                yield f"{name}, {call} {nth} {way}", played
                if not played.meets_plan():
                    break
