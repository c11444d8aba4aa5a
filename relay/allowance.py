"""What a name may still append today."""
import collections.abc

from relay.roles import Rights
from relay.store import Store, today

# A record takes so many bytes on a volume besides its data, so empty ones aren't free. docs/use/FORMATS.md, 'Record header'.
RECORD_HEADER = 12


class Allowance:
    """The bytes and sessions of a day, shared with other talks of the name by the store. Bytes are set aside in pieces;
    those that weren't used are given back at the end. If the relay is killed they stay counted: the limit holds."""

    def __init__(self, store: Store, rights: Rights, day: collections.abc.Callable[[], str] = today):
        self.store, self.rights, self.day = store, rights, day
        self.left, self.left_of = 0, ""

    def take(self, size: int) -> bool:
        """Whether a record of so many bytes may go on. Then it is counted, before it goes."""
        size += RECORD_HEADER
        if size > self.left:
            self.close()
            self.left_of = self.day()
            self.left = self.store.set_aside(self.rights.name, self.left_of, size, self.rights.bytes_a_day)
            if not self.left:
                return False
        self.left -= size
        return True

    def is_used_up(self) -> bool:
        """Whether not even an empty record may go on."""
        limit = self.rights.bytes_a_day
        if limit is None or self.left >= RECORD_HEADER:
            return False
        self.close()
        used, _ = self.store.counted(self.rights.name, self.day())
        return limit - used < RECORD_HEADER

    def take_session(self) -> str | None:
        """The day on which one more session is counted, or None if there may be none."""
        day = self.day()
        return day if self.store.count_session(self.rights.name, day, self.rights.sessions_a_day) else None

    def close(self) -> None:
        """Gives back what was set aside and not used."""
        if self.left:
            self.store.give_back(self.rights.name, self.left_of, self.left)
            self.left = 0
