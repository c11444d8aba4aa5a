"""What the keeper tells: a line each on standard error, which the unit's journal keeps."""
import sys


def tell(what: object) -> None:
    print(f"sdd-keeper: {what}", file=sys.stderr, flush=True)
