"""Memory is ample where the programs are run here, and no growth is refused, so they never say that they are out of
memory. That is asserted of each answer by itself, besides what it is compared with.
"""
WANTING = "3960 Want of memory"


class Wanting(ValueError):
    """Out of memory was reported though memory is ample."""


def never_wanting(said):
    """What was said, text or bytes; it has no `3960 Want of memory`."""
    words = WANTING if isinstance(said, str) else WANTING.encode()
    at = said.find(words)
    if at >= 0:
        raise Wanting(f"{said[max(0, at - 60):at + len(words)]!r}, where memory is ample")
    return said
