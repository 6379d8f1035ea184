#!/usr/bin/env python3
"""Worked rows of the caches, each named by what it shows, against the simulation.

    python3 cache_rows.py

prints each row that the simulation gives otherwise, and ends with 1 where there is one. A row has the steps of one port's
journal, those that the simulation takes by itself or those that it is given; or packets and bytes by rule, those that
entries owe among them.
"""
import os
import sys
from collections import namedtuple

sys.dont_write_bytecode = True
TOP = os.path.join(os.path.dirname(os.path.abspath(__file__)), "..")
sys.path.insert(0, os.path.join(TOP, "vectors"))
from row_check import tell
from simulation.caches import FLOW_LIMIT, ExactCache, hash_of
from simulation.captures import SECOND, Frame
from simulation.dumps import counts_of
from simulation.flow_fields import packed
from simulation.flow_text import read_script
from simulation.schedule import Schedule
from simulation.steps import read_steps

PORT, PORTS = 1, [1, 2, 3]

# When a frame comes, in seconds, and the last octet of its destination.
At = namedtuple("At", "seconds last")

FROM_1 = "in_port=1,actions=2"
FROM_1_CHANGED = f"{FROM_1}\nmodify in_port=1,actions=3"
ADDRESS_2 = "in_port=1,dl_dst=00:00:00:00:00:02,actions=2\n"
NINE = "priority=10,dl_dst=00:00:00:00:00:09"

# What a row shows, the edits, the frames, and the steps.
JOURNALS = {
    "a frame that nothing covers": (FROM_1, [At(1, 2)], "begin 1|end|look 1 miss|settle 1 1 installed 1"),
    "without rules there is nothing to sweep": ("", [At(1, 2)], "look 1 miss|settle 1 0 installed 1"),
    "a hit by its mask, and then by its key": (
        FROM_1, [At(1, 2), At(1, 2), At(2, 2), At(2, 3), At(3, 3)],
        "begin 1|end|look 1 miss|settle 1 1 installed 1|look 2 mega 1|look 3 exact 1|look 4 mega 1|look 5 exact 1",
    ),
    "an entry whose actions a sweep replaces": (
        "priority=5,in_port=1,actions=2\npriority=5,dl_dst=00:00:00:00:00:02,actions=3\nsync 2\n"
        "delete_strict priority=5,in_port=1",
        [At(1, 2), At(2, 2)],
        "begin 2|end|look 1 miss|settle 1 2 installed 1|open 1|begin 3|put 1 3 replaced|end|look 2 mega 1",
    ),
    "an entry that is kept, and named by the cache across a sweep": (
        "in_port=1,actions=2\nsync 2\nin_port=2,actions=3", [At(1, 2), At(1, 2), At(2, 2)],
        "begin 1|end|look 1 miss|settle 1 1 installed 1|look 2 mega 1|open 1|begin 2|put 1 2 kept|end|look 3 exact 1",
    ),
    "an entry of another rule with the same actions is replaced": (
        "in_port=1,actions=2\nsync 2\nadd in_port=1,actions=2", [At(1, 2)],
        "begin 1|end|look 1 miss|settle 1 1 installed 1|open 1|begin 2|put 1 2 replaced|end",
    ),
    "an entry that consults a bit outside of its mask is removed": (
        "priority=1,actions=2\nsync 2\npriority=5,dl_dst=00:00:00:00:00:09,actions=3", [At(1, 2), At(2, 2)],
        "begin 1|end|look 1 miss|settle 1 1 installed 1|open 1|begin 2|put 1 2 removed|end|look 2 miss|"
        "settle 2 2 installed 2",
    ),
    "a number that the cache names is forgotten with its entry": (
        "priority=1,actions=2\nsync 2\npriority=5,dl_dst=00:00:00:00:00:09,actions=3",
        [At(1, 2), At(1, 2), At(2, 2), At(2, 2), At(2, 2)],
        "begin 1|end|look 1 miss|settle 1 1 installed 1|look 2 mega 1|open 1|begin 2|put 1 2 removed|end|look 3 miss|"
        "settle 3 2 installed 2|look 4 mega 2|look 5 exact 2",
    ),
    "a wider entry takes the place of a narrower one": (
        f"priority=1,actions=2\n{NINE},actions=3\nsync 2\ndelete_strict {NINE}", [At(1, 2), At(2, 2), At(3, 6), At(4, 2)],
        "begin 2|end|look 1 miss|settle 1 2 installed 1|open 1|begin 3|put 1 3 kept|end|look 2 mega 1|look 3 miss|"
        "settle 3 3 installed 2 drop 1|look 4 mega 2",
    ),
    "and of several, in rising order": (
        f"priority=1,actions=2\n{NINE},actions=3\nsync 2\ndelete_strict {NINE}", [At(1, 5), At(1, 2), At(1, 4), At(2, 6)],
        "begin 2|end|look 1 miss|settle 1 2 installed 1|look 2 miss|settle 2 2 installed 2|look 3 miss|"
        "settle 3 2 installed 3|open 1|begin 3|put 1 3 kept|put 2 3 kept|put 3 3 kept|end|look 4 miss|"
        "settle 4 3 installed 4 drop 1 2 3",
    ),
    "an entry that was used ten seconds ago is idle": (
        f"{ADDRESS_2}sync 20\nin_port=3,actions=2", [At(1, 2), At(11, 6)],
        "begin 1|end|look 1 miss|settle 1 1 installed 1|look 2 miss|settle 2 1 installed 2|open 1|begin 2|"
        "put 1 2 idle|put 2 2 kept|end",
    ),
    "and isn't a moment before": (
        f"{ADDRESS_2}sync 20\nin_port=3,actions=2", [At(1, 2), At(10.999999, 6)],
        "begin 1|end|look 1 miss|settle 1 1 installed 1|look 2 miss|settle 2 1 installed 2|open 1|begin 2|"
        "put 1 2 kept|put 2 2 kept|end",
    ),
    "a hit is a use": (
        f"{ADDRESS_2}sync 20\nin_port=3,actions=2", [At(1, 2), At(5, 2), At(14, 6)],
        "begin 1|end|look 1 miss|settle 1 1 installed 1|look 2 mega 1|look 3 miss|settle 3 1 installed 2|open 1|"
        "begin 2|put 1 2 kept|put 2 2 kept|end",
    ),
    "an earlier frame that is looked up later is the last use, and time doesn't go back": (
        f"{ADDRESS_2}sync 20\nin_port=3,actions=2", [At(12, 2), At(2, 2)],
        "begin 1|end|look 1 miss|settle 1 1 installed 1|look 2 mega 1|open 1|begin 2|put 1 2 idle|end",
    ),
    "no sweep where nothing is edited": (
        f"{FROM_1}\nsync 2\nsync 3\nin_port=2,actions=3", [At(1, 2), At(2, 2), At(3, 2)],
        "begin 1|end|look 1 miss|settle 1 1 installed 1|open 1|look 2 mega 1|open 2|begin 2|put 1 2 kept|end|"
        "look 3 exact 1",
    ),
}

# What a row shows, the greatest number of entries, the edits, the frames, and the steps.
LIMITED = {
    "as many entries as may be": (
        1, ADDRESS_2, [At(1, 2), At(2, 6), At(3, 6), At(4, 2)],
        "begin 1|end|look 1 miss|settle 1 1 installed 1|look 2 miss|settle 2 1 full|look 3 miss|settle 3 1 full|"
        "look 4 mega 1",
    ),
    "entries that are dropped make room": (
        1, f"priority=1,actions=2\n{NINE},actions=3\nsync 2\ndelete_strict {NINE}", [At(1, 2), At(2, 6)],
        "begin 2|end|look 1 miss|settle 1 2 installed 1|open 1|begin 3|put 1 3 kept|end|look 2 miss|"
        "settle 2 3 installed 2 drop 1",
    ),
}

# What a row shows, the edits, the frames, and packets and bytes of each rule that has some.
TOTALS = {
    "a rule that is visited again and again": ("actions=resubmit(,0)", [At(1, 2)], {1: [65, 3900]}),
    "rules of before a sweep are paid by what was hit before it": (
        "priority=5,in_port=1,actions=2\npriority=5,dl_dst=00:00:00:00:00:02,actions=3\nsync 3\n"
        "delete_strict priority=5,in_port=1",
        [At(1, 2), At(2, 2), At(3, 2)], {1: [2, 120], 2: [1, 60]},
    ),
    "what a dropped entry owes is paid": (
        f"priority=1,actions=2\n{NINE},actions=3\nsync 2\ndelete_strict {NINE}", [At(1, 2), At(2, 2), At(3, 6)],
        {1: [3, 180]},
    ),
}

# How a frame comes to have an entry by given steps, as all of these rows begin.
FIRST = "edit|rx 1|snap 1 1|settle 1 1|"
FIRST_LINES = "look 1 miss|settle 1 1 installed 1|"

# What a row shows, the edits, the frames, the given steps, the steps of the journal, and how many given ones are unmet.
GIVEN = {
    "a settle by a version before the last sweep begun is stale, and gives the translation up": (
        FROM_1_CHANGED, [At(1, 2)], "edit|rx 1|snap 1 1|edit|sweep 1|settle 1 1|settle 1 1|swept 1",
        "look 1 miss|begin 2|end|settle 1 2 installed 1", 2,
    ),
    "a settle by a version before the newest isn't stale where no sweep of it has begun": (
        FROM_1_CHANGED, [At(1, 2)], "edit|rx 1|snap 1 1|edit|settle 1 1",
        f"{FIRST_LINES}begin 2|put 1 2 replaced|end", 0,
    ),
    "a second snap takes the place of the first": (
        FROM_1_CHANGED, [At(1, 2)], "edit|rx 1|snap 1 1|edit|snap 1 1|settle 1 1",
        "look 1 miss|settle 1 2 installed 1|begin 2|put 1 2 kept|end", 0,
    ),
    "a frame that waits while its key gets an entry": (
        FROM_1, [At(1, 2), At(2, 2)], "edit|rx 1|rx 1|snap 1 1|snap 1 2|settle 1 1|settle 1 2",
        "look 1 miss|look 2 miss|settle 1 1 installed 1|settle 2 1 present 1|begin 1|put 1 1 kept|end", 0,
    ),
    "frames are settled in any order": (
        ADDRESS_2, [At(1, 2), At(2, 6)], "edit|rx 1|rx 1|snap 1 2|settle 1 2|snap 1 1|settle 1 1",
        "look 1 miss|look 2 miss|settle 2 1 installed 1|settle 1 1 installed 2|begin 1|put 1 1 kept|put 2 1 kept|end", 0,
    ),
    "a snap of a frame that wasn't looked up, or that is settled, and a settle without a snap": (
        FROM_1, [At(1, 2)], "snap 1 1|rx 1|settle 1 1|snap 1 1|settle 1 1|snap 1 1|snap 1 2|rx 1",
        "look 1 miss|settle 1 0 installed 1|begin 1|put 1 1 replaced|end", 5,
    ),
    "an edit after the last one": (FROM_1, [], "edit|edit", "begin 1|end", 1),
    "an edit of a block that a board has yet to reach": (
        f"{FROM_1}\nsync 2\nin_port=2,actions=3", [], "edit|edit|sweep 1|swept 1|open 1|edit",
        "begin 1|end|open 1|begin 2|end", 2,
    ),
    "an entry that is put, while another waits for the end of the sweep": (
        ADDRESS_2, [At(1, 2), At(1, 6)],
        f"{FIRST}rx 1|snap 1 2|settle 1 2|sweep 1|sweep 1|check 1 2|put 1 2|put 1 2|swept 1|check 1 1|put 1 1|swept 1|"
        "swept 1",
        f"{FIRST_LINES}look 2 miss|settle 2 1 installed 2|begin 1|put 2 1 kept|put 1 1 kept|end", 4,
    ),
    "a check that no put follows before the sweep is ended": (
        FROM_1, [At(1, 2)], f"{FIRST}sweep 1|check 1 1|put 1 2|check 1 2", f"{FIRST_LINES}begin 1|put 1 1 kept|end", 2,
    ),
    "an entry that comes while a sweep runs isn't put": (
        ADDRESS_2, [At(1, 2), At(1, 6)], f"{FIRST}rx 1|snap 1 2|sweep 1|settle 1 2|check 1 2|check 1 1|put 1 1|swept 1",
        f"{FIRST_LINES}look 2 miss|begin 1|settle 2 1 installed 2|put 1 1 kept|end", 1,
    ),
    "an entry that is dropped while a sweep runs isn't put any more": (
        f"priority=1,actions=2\n{NINE},actions=3\ndelete_strict {NINE}", [At(1, 2), At(2, 6)],
        "edit|edit|rx 1|snap 1 1|settle 1 1|edit|rx 1|sweep 1|check 1 1|snap 1 2|settle 1 2|put 1 1|swept 1",
        "look 1 miss|settle 1 2 installed 1|look 2 miss|begin 3|settle 2 3 installed 2 drop 1|end", 1,
    ),
    "an entry may be put by a version between that of its sweep and the newest": (
        f"{FROM_1}\n" + "modify in_port=1,actions=3\n" * 3, [At(1, 2)],
        f"{FIRST}edit|sweep 1|edit|check 1 1|edit|put 1 1|swept 1",
        f"{FIRST_LINES}begin 2|put 1 3 replaced|end|begin 4|put 1 4 kept|end", 0,
    ),
    "what a sweep has left is put by the newest version": (
        FROM_1_CHANGED, [At(1, 2)], f"{FIRST}sweep 1|edit",
        f"{FIRST_LINES}begin 1|put 1 2 replaced|end|begin 2|put 1 2 kept|end", 0,
    ),
    "a board that opens the next block needs no frames left, no frame that waits, and a sweep": (
        f"{FROM_1}\nsync 2", [At(1, 2)], "edit|open 1|rx 1|open 1|snap 1 1|settle 1 1|open 1|sweep 1|open 1|check 1 1|"
        "put 1 1|swept 1|open 1|open 1",
        f"{FIRST_LINES}begin 1|put 1 1 kept|end|open 1", 5,
    ),
    "a block without edits before it is opened without a sweep, and its edits wait for the other boards": (
        f"sync 2\n{FROM_1}", [At(1, 2), At(2, 2)], "rx 1|snap 1 1|rx 1|settle 1 1|open 1|edit|rx 1",
        "look 1 miss|settle 1 0 installed 1|open 1|look 2 mega 1|begin 1|put 1 1 replaced|end", 2,
    ),
    "frames that wait are settled before the sweep of their block, and after one that runs": (
        FROM_1, [At(1, 2), At(1, 3)], "edit|rx 1|rx 1|sweep 1",
        "look 1 miss|look 2 miss|begin 1|end|settle 1 1 installed 1|settle 2 1 present 1", 0,
    ),
}


def frames_of(times):
    """Frames from ..:01 of 60 bytes and an unknown type, that come in at port 1."""
    for place, (seconds, last) in enumerate(times, 1):
        data = bytes([0, 0, 0, 0, 0, last, 0, 0, 0, 0, 0, 1, 0x88, 0xB5]).ljust(60, b"\0")
        yield Frame(round(seconds * SECOND), PORT, place, data)


def schedule_of(text, times, limit=FLOW_LIMIT):
    frames = {PORT: list(frames_of(times))} | {port: [] for port in PORTS if port != PORT}
    return Schedule(read_script(text.encode()), frames, limit)


def finished(schedule):
    """The board of the port after all that is left to do, and the others."""
    schedule.finish()
    return schedule.boards[PORT]


def steps_of(board):
    return "|".join(board.lines[1:])


def given(text, times, steps):
    """The steps of a journal where some are given, and how many of these aren't met."""
    schedule = schedule_of(text, times)
    unmet = schedule.take(read_steps(steps.replace("|", "\n").encode(), PORTS))
    return steps_of(finished(schedule)), unmet


def due(board):
    """What rules are credited with, and what entries owe them."""
    return dict(counts_of([board]))


# ---- the cache of keys


def with_slots(first, second):
    """Such a cache as if the hash of each key gave these two slots."""
    cache = ExactCache()
    cache.places_of = {1: (first, second), 2: (first, second), 3: (first, second)}.get
    return cache


def put_all(cache, *pairs):
    """What the cache has of the keys 1 to 3 after these were put."""
    for key, number in pairs:
        cache.put(key, number)
    return [cache.look(key) for key in (1, 2, 3)]


def all_rows():
    """Each row: its name, what is given, and what is wanted."""
    for name, (text, times, wanted) in JOURNALS.items():
        yield name, steps_of(finished(schedule_of(text, times))), wanted
    for name, (limit, text, times, wanted) in LIMITED.items():
        yield name, steps_of(finished(schedule_of(text, times, limit))), wanted
    for name, (text, times, wanted) in TOTALS.items():
        yield name, due(finished(schedule_of(text, times))), wanted
    for name, (text, times, steps, *wanted) in GIVEN.items():
        yield name, given(text, times, steps), tuple(wanted)
    yield "the hash of a key of zeros", hash_of(0), 0xEB4F61260020ABD5
    yield "the hash of a field of two bits", hash_of(packed({"ip_frag": 3})), 0x8041FC6A71947704
    yield "the slots of a key are 13 bits of each half of its hash", ExactCache().places_of(0), (0xBD5, 0x126)
    yield "a key stands where it stood", put_all(with_slots(5, 6), (1, 7), (1, 8)), [8, None, None]
    yield "a second key stands in its other slot", put_all(with_slots(5, 6), (1, 7), (2, 8)), [7, 8, None]
    yield "and stays there", put_all(with_slots(5, 6), (1, 7), (2, 8), (2, 9)), [7, 9, None]
    yield "a third one in the first", put_all(with_slots(5, 6), (1, 7), (2, 8), (3, 9)), [None, 8, 9]
    yield "one slot twice", put_all(with_slots(5, 5), (1, 7), (2, 8)), [None, 8, None]


if __name__ == "__main__":
    sys.exit(tell(all_rows()))
