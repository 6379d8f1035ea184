"""The file of edits by its blocks, and the edits that a part is given.

What a part is given keeps edits apart from frames: no block of it has both. So whatever workers do, each frame is
decided by the last version of its block, as without workers.
"""
from bisect import bisect_right
from collections import namedtuple

from .captures import SECOND

WHITE = b" \t\r"
# The sync lines that a file may have, and what a part needs at its begin and for each time at which rules change.
MOST_SYNCS, SYNCS_AT_BEGIN, SYNCS_OF_CHANGE = 63, 2, 2
MOST_CHANGES = (MOST_SYNCS - SYNCS_AT_BEGIN) // SYNCS_OF_CHANGE

# The time of a sync line, and the lines after it that aren't blank, up to the next one.
Change = namedtuple("Change", "time lines")


def bare(line):
    """A line without its comment, and without white space at its ends."""
    return line.partition(b"#")[0].strip(WHITE)


def is_sync(line):
    return bare(line).split(b" ")[0].split(b"\t")[0].split(b"\r")[0] == b"sync"


def sync_time(line):
    """The time of a sync line, in nanoseconds."""
    seconds, _, fraction = bare(line)[len(b"sync"):].strip(WHITE).partition(b".")
    return int(seconds) * SECOND + int(fraction.ljust(9, b"0"))


def sync_line(time):
    return b"sync %d.%09d\n" % divmod(time, SECOND)


class Edits:
    """The edits of a file that the program has accepted: those before the first sync line, and those that change
    rules later. Changes of one time are one, since no frame comes between them."""

    def __init__(self, data):
        self.first, self.changes, self.syncs, lines = b"", [], 0, []
        time = None
        for line in data.split(b"\n"):
            if is_sync(line):
                self.add(time, lines)
                self.syncs += 1
                time, lines = sync_time(line), []
            elif kept := bare(line):
                lines.append(kept + b"\n")
        self.add(time, lines)
        self.times = [change.time for change in self.changes]

    def add(self, time, lines):
        """Adds the lines of a block."""
        text = b"".join(lines)
        if time is None:
            self.first = text
        elif text and self.changes and self.changes[-1].time == time:
            self.changes[-1] = Change(time, self.changes[-1].lines + text)
        elif text:
            self.changes.append(Change(time, text))

    def changes_between(self, first, end):
        """How often rules change after the first of these times and before the second."""
        return max(0, bisect_right(self.times, end - 1) - bisect_right(self.times, first))

    def of_part(self, first, last, aligned):
        """The edits of a part whose frames came in between these times: those before its frames, and those that
        change rules while they come. Where a frame of the tool's own stands before them, it comes before all edits. A
        part without a frame, whose times are None, has all edits."""
        before = inside = len(self.times)
        if first is not None:
            before, inside = bisect_right(self.times, first), bisect_right(self.times, last)
        begin = sync_line(first if aligned else 0)
        pieces = [begin] if aligned else []
        pieces += [self.first, *(change.lines for change in self.changes[:before]), begin]
        for change in self.changes[before:inside]:
            sync = sync_line(change.time)
            pieces += [sync, change.lines, sync]
        return b"".join(pieces)
