"""What `sdtool read` prints."""
import re

RECORD = re.compile(rb"rec \d+ \d+ (\d+)\n")


def records_of(printed):
    """The data of the records that were printed, one after the other, and the last line."""
    at, data = 0, []
    while head := RECORD.match(printed, at):
        end = head.end() + int(head[1])
        data.append(printed[head.end():end])
        at = end + 1
    return b"".join(data), printed[at:]
