"""Whether there is an order of lines that explains their answers: a search, by when each line was begun and answered, over a
small model of names, tickets, lanes and volumes that was written from docs/use/PROTOCOL.md and docs/use/REFUSALS.md.

A line is one step of the model, but for a close: that is the placing of its one block, before which its drive may have mounted the
next volume of the pool, and then the end of its session.
"""
import dataclasses
import typing

Name = typing.Optional[str]
DONE = "done"
BAD_POOL, IN_USE, LABELLED = "3932 Other pool or media", "3933 In use", "3935 Volume already labelled"
NOT_THERE, NO_DRIVE, NO_LANE = "3930 Volume not on the shelf", "3910 No drive of this media", "3911 No free lane"


class Drive(typing.NamedTuple):
    """A drive: the loaded volume; the pool of its last session; whose its lanes are; its volumes with their pools."""
    loaded: Name
    pool: Name
    lanes: tuple[int, ...]
    volumes: tuple[tuple[str, str], ...]

    def pool_of(self, name: Name) -> Name:
        return dict(self.volumes).get(name) if name else None


class State(typing.NamedTuple):
    """The drives 1, 2 and on, the number of the next session, and the numbers of those that go on, by the line that opened each."""
    drives: tuple[Drive, ...]
    ticket: int
    live: frozenset[tuple[int, int]]

    def at(self, drive: int, **changes: typing.Any) -> "State":
        """The state with that drive changed."""
        drives = list(self.drives)
        drives[drive] = drives[drive]._replace(**changes)
        return self._replace(drives=tuple(drives))


@dataclasses.dataclass(frozen=True)
class Line:
    """A line of a client: its kind and words, when it was begun and answered, and the answer. Of what closes or gives up a
    session `opened` is the place of the line that opened it."""
    kind: str
    words: tuple[typing.Any, ...]
    begun: int
    answered: int
    answer: typing.Any
    opened: int = -1


@dataclasses.dataclass(frozen=True)
class Setting:
    """What doesn't change: the media of the drives, how many lanes each has, and the pools of the volumes that lie in the
    folder of each by their names, known to it or not."""
    media: tuple[str, ...]
    lanes: int
    shelves: tuple[dict[str, str], ...]


Moves = typing.Iterator[tuple[State, typing.Any]]


class Model:
    """What each line may do next, and what it is answered then."""

    def __init__(self, setting: Setting, lines: list[Line]):
        self.setting, self.lines = setting, lines

    def moves(self, state: State, place: int, phase: typing.Any) -> Moves:
        """The states after a step of that line, and how far the line is then; none if its answer would be another."""
        return getattr(self, self.lines[place].kind)(state, place, phase)

    def _answers(self, place: int, answer: typing.Any, state: State) -> Moves:
        if self.lines[place].answer == answer:
            yield state, DONE

    def label(self, state: State, place: int, _: typing.Any) -> Moves:
        at, name, pool, media = self.lines[place].words
        drive = state.drives[at]
        is_claimed = any(name in dict(one.volumes) for one in state.drives)
        if media != self.setting.media[at]:
            answer = BAD_POOL
        elif drive.loaded:
            answer = IN_USE
        elif is_claimed or name in self.setting.shelves[at]:
            answer = LABELLED
        else:
            return self._answers(place, "ok labelled", state.at(at, volumes=(*drive.volumes, (name, pool))))
        return self._answers(place, answer, state)

    def adopt(self, state: State, place: int, _: typing.Any) -> Moves:
        at, name = self.lines[place].words
        drive, shelf = state.drives[at], self.setting.shelves[at]
        if any(name in dict(one.volumes) for one in state.drives):
            answer = LABELLED
        elif drive.loaded:
            answer = IN_USE
        elif name not in shelf:
            answer = NOT_THERE
        else:
            return self._answers(place, "ok adopted", state.at(at, volumes=(*drive.volumes, (name, shelf[name]))))
        return self._answers(place, answer, state)

    def mount(self, state: State, place: int, _: typing.Any) -> Moves:
        at, name = self.lines[place].words
        drive = state.drives[at]
        if (pool := drive.pool_of(name)) is None:
            answer = NOT_THERE
        elif drive.loaded == name:
            answer = IN_USE
        elif drive.pool not in (None, pool):
            answer = BAD_POOL
        else:
            return self._answers(place, "ok mounted", state.at(at, loaded=name))
        return self._answers(place, answer, state)

    def unmount(self, state: State, place: int, _: typing.Any) -> Moves:
        at, = self.lines[place].words
        return self._answers(place, "ok unmounted", state.at(at, loaded=None))

    def requests(self, state: State, place: int, _: typing.Any) -> Moves:
        # Each drive has a volume of each pool, so none asks for one.
        return self._answers(place, "ok requests 0", state)

    def status(self, state: State, place: int, _: typing.Any) -> Moves:
        drives, busy, live = self.lines[place].answer
        parts = [drives[at] == (drive.loaded, drive.volumes) for at, drive in enumerate(state.drives)]
        parts.append(busy == tuple(len(drive.lanes) for drive in state.drives)
                     and live == frozenset(ticket for _, ticket in state.live))
        if all(parts):
            yield state, DONE

    def open(self, state: State, place: int, _: typing.Any) -> Moves:
        pool, media = self.lines[place].words
        of_media = [at for at, one in enumerate(self.setting.media) if one == media]
        free = [at for at in of_media if len(state.drives[at].lanes) < self.setting.lanes
                and (not state.drives[at].lanes or state.drives[at].pool == pool)]
        if not free:
            return self._answers(place, NO_LANE if of_media else NO_DRIVE, state)

        def rank(at: int) -> tuple[bool, int, int]:
            drive = state.drives[at]
            return drive.pool_of(drive.loaded) != pool, len(drive.lanes), at

        at = min(free, key=rank)
        opened = state.at(at, lanes=tuple(sorted((*state.drives[at].lanes, place))), pool=pool)
        opened = opened._replace(ticket=state.ticket + 1, live=state.live | {(place, state.ticket)})
        return self._answers(place, ("ticket", state.ticket), opened)

    def _drive_of(self, state: State, place: int) -> typing.Optional[int]:
        """The drive of the session that this line is about, if it goes on."""
        opened = self.lines[place].opened
        return next((at for at, drive in enumerate(state.drives) if opened in drive.lanes), None)

    def _left(self, state: State, place: int, at: int) -> State:
        """The session has left its lane of that drive."""
        opened = self.lines[place].opened
        state = state._replace(live=frozenset(one for one in state.live if one[0] != opened))
        return state.at(at, lanes=tuple(one for one in state.drives[at].lanes if one != opened))

    def cancel(self, state: State, place: int, _: typing.Any) -> Moves:
        if (at := self._drive_of(state, place)) is not None:
            yield from self._answers(place, "ok cancelled", self._left(state, place, at))

    def close(self, state: State, place: int, phase: typing.Any) -> Moves:
        line = self.lines[place]
        if (at := self._drive_of(state, place)) is None:
            return
        if phase == "placed":
            yield self._left(state, place, at), DONE
            return
        drive, pool = state.drives[at], self.lines[line.opened].words[0]
        if drive.pool_of(drive.loaded) == pool:
            if line.answer == ("closed", drive.loaded):
                yield state, "placed"
            return
        following = next((name for name, of in drive.volumes if of == pool), None)
        if following:
            yield state.at(at, loaded=following), "sought"


def is_explained(setting: Setting, begin: State, lines: list[Line]) -> bool:
    """Whether there is an order of the lines, each within the time of its own, by which the model gives their answers."""
    model = Model(setting, lines)
    stack: list[tuple[tuple[typing.Any, ...], State]] = [((None,) * len(lines), begin)]
    seen = set(stack)
    while stack:
        phases, state = stack.pop()
        waiting = [place for place, phase in enumerate(phases) if phase != DONE]
        if not waiting:
            return True
        # No line comes after one that was begun only when it had been answered.
        least = min(lines[place].answered for place in waiting)
        for place in waiting:
            if lines[place].begun > least:
                continue
            for after, phase in model.moves(state, place, phases[place]):
                found = ((*phases[:place], phase, *phases[place + 1:]), after)
                if found not in seen:
                    seen.add(found)
                    stack.append(found)
    return False
