"""What of a journal threads must have done.

The end of a block completes it in one way: it ends a sweep that runs, settles the frames that wait in rising order, sweeps
where the last version isn't swept, and looks up the frames that are left, each of which it settles at once. The longest
such end of a block's lines is counted for it, whoever made them. All lines before are threads'.
"""
from collections import Counter
from itertools import accumulate

SWEEP, SETTLE = "begin", "settle"
# A look after a settle under a version that the block before didn't have.
NEWER = "newer"


def blocks_in(journal):
    """Each port of a journal with its blocks, as lists of the words of their lines."""
    ports, blocks = {}, None
    for words in map(str.split, journal.splitlines()):
        if words[0] == "port":
            blocks = ports[words[1]] = [[]]
        elif words[0] == "open":
            blocks.append([])
        else:
            blocks[-1].append(words)
    return ports


def is_hit(words):
    return words[0] == "look" and words[2] != "miss"


def settles_at_once(look, settle):
    return look[0] == "look" and settle[0] == SETTLE and look[1] == settle[1]


def before_looks(lines, to):
    """Where the looks begin that stand before a place, each with the settle of its frame where it missed."""
    while to:
        if is_hit(lines[to - 1]):
            to -= 1
        elif to > 1 and settles_at_once(lines[to - 2], lines[to - 1]):
            to -= 2
        else:
            break
    return to


def before_puts(lines, to):
    """Where the end of a sweep begins that stands before a place: its puts, if nothing stands between them."""
    if not to or lines[to - 1][0] != "end":
        return to
    to -= 1
    while to and lines[to - 1][0] == "put":
        to -= 1
    return to


def before_sweep(lines, to):
    """Where a sweep begins that stands before a place with nothing between."""
    start = before_puts(lines, to)
    return start - 1 if start < to and start and lines[start - 1][0] == SWEEP else to


def before_settles(lines, to):
    """Where the settles begin that stand before a place in rising order."""
    end = to
    while to and lines[to - 1][0] == SETTLE and (to == end or int(lines[to - 1][1]) < int(lines[to][1])):
        to -= 1
    return to


def by_threads(lines):
    """The lines of a block before those that may be of its end."""
    looks = before_looks(lines, len(lines))
    settles = before_settles(lines, before_sweep(lines, looks))
    return lines[: before_puts(lines, settles)]


def marks_in(lines, before):
    """How often threads began a sweep of a block, settled, and after a settle looked up with which result, and after one
    under a version newer than that of the block before."""
    marks, newest = Counter(), before
    for word, *rest in by_threads(lines):
        if word != "look":
            marks[word] += 1
            newest = max(newest, int(rest[1])) if word == SETTLE else newest
        elif marks[SETTLE]:
            marks[rest[1]] += 1
            marks[NEWER] += newest > before
    return marks


def swept_in(lines):
    """The versions at which sweeps of a block began. The end of a block sees to it that its last version is swept."""
    return [int(words[1]) for words in lines if words[0] == SWEEP]


def last_versions(blocks):
    """The last version of each block."""
    return accumulate((max(swept_in(lines), default=0) for lines in blocks), max)


def marks_of(journal):
    """The marks of all blocks by port."""
    return {
        port: sum(map(marks_in, blocks, [0, *last_versions(blocks)]), Counter())
        for port, blocks in blocks_in(journal).items()
    }


def most_sweeps(journal):
    """How many sweeps of one port began in one block, at most."""
    return max((len(swept_in(lines)) for blocks in blocks_in(journal).values() for lines in blocks), default=0)
