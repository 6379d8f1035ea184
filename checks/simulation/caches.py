"""What a port keeps of its translations, and the journal of it: megaflows, and a cache of keys in front of them.

A frame is looked up by its whole key first, and then by the masks of the entries. One that is covered by none is
translated, and an entry is made of it. When the rules have changed, a sweep translates the keys of all entries anew.
A board takes each of these steps where it may, and has no part in when it is taken.
"""
import functools
from collections import Counter, defaultdict, deque, namedtuple

from .flow_fields import KEY_FIELDS, REMEMBERED, packed, unpacked
from .frame_key import key_of

FLOW_LIMIT = 8192

# In nanoseconds: as long an entry may stand unused.
IDLE_TIME = 10000000000

SLOTS = 8192
# Where in the hash the number of the second slot begins.
SECOND_SLOT = 32

# FNV-1a of 64 bits (draft-eastlake-fnv).
OFFSET_BASIS, PRIME, HASH_BITS = 0xCBF29CE484222325, 0x100000001B3, (1 << 64) - 1
# The bytes of each field, and what that many zeros make of a hash: most fields of a key are 0.
FIELD_SIZES = [(field.name, (field.width + 7) // 8) for field in KEY_FIELDS]
ZEROS = {size: pow(PRIME, size, 1 << 64) for _, size in FIELD_SIZES}

EXACT, MEGA, MISS = "exact", "mega", "miss"
INSTALLED, PRESENT, FULL = "installed", "present", "full"

# A block of a port: its frames, and how many bundles stand before it and before its end.
Block = namedtuple("Block", "frames lo hi")
# What a version of the rules makes of a key.
Versioned = namedtuple("Versioned", "version translated")


@functools.lru_cache(REMEMBERED)
def packed_key(port, data):
    """The key of the bytes of a frame that came in at a port."""
    return packed(key_of(port, data))


def hash_of(key):
    """The hash of a key, over the bytes of its fields in order."""
    numbers, value = unpacked(key), OFFSET_BASIS
    for name, size in FIELD_SIZES:
        if not numbers[name]:
            value = value * ZEROS[size] & HASH_BITS
        else:
            for byte in numbers[name].to_bytes(size, "big"):
                value = (value ^ byte) * PRIME & HASH_BITS
    return value


class ExactCache:
    """Keys with the numbers of their entries. A key stands in one of two slots; what stood there before is forgotten."""

    def __init__(self):
        self.slots, self.places = {}, {}

    def places_of(self, key):
        if key not in self.places:
            value = hash_of(key)
            self.places[key] = (value % SLOTS, (value >> SECOND_SLOT) % SLOTS)
        return self.places[key]

    def slot_of(self, key):
        """The slot that holds a key, or None."""
        return next((place for place in self.places_of(key) if self.slots.get(place, (None,))[0] == key), None)

    def look(self, key):
        """The number of an entry, which may be gone, or None."""
        slot = self.slot_of(key)
        return None if slot is None else self.slots[slot][1]

    def put(self, key, number):
        """Where the key stands; else in the first of its slots that is empty; else in the first."""
        slot = self.slot_of(key)
        if slot is None:
            places = self.places_of(key)
            slot = next((place for place in places if place not in self.slots), places[0])
        self.slots[slot] = (key, number)


class Entry:
    """A megaflow: for every key that is as its own in the bits of its mask, what a version of the rules makes of it."""

    def __init__(self, number, key, by, used):
        self.number, self.key, self.mask, self.used = number, key, by.translated.mask, used
        self.packets = self.bytes = self.owed_packets = self.owed_bytes = 0
        self.renew(by)

    def renew(self, by):
        """Another version says what is done. The mask stays."""
        self.version, self.actions, self.visits = by.version, by.translated.actions, by.translated.visits

    def hit(self, frame):
        self.packets += 1
        self.bytes += len(frame.bytes)
        self.owed_packets += 1
        self.owed_bytes += len(frame.bytes)
        self.used = frame.time


class Megaflows:
    """Entries, no two of which cover one key: by number, and for each mask by the bits of their keys there."""

    def __init__(self):
        self.entries, self.by_mask = {}, defaultdict(dict)

    def find(self, key):
        """The entry that covers a key, or None."""
        for mask, members in self.by_mask.items():
            if key & mask in members:
                return members[key & mask]
        return None

    def overlapping(self, key, mask):
        """The numbers of the entries that some key has in common with such a one, where none covers this key."""
        found = []
        for other, members in self.by_mask.items():
            # What agrees in all bits of an entry's mask would be covered by it.
            if other & mask != other:
                common = other & mask
                found += [it.number for it in members.values() if (it.key ^ key) & common == 0]
        return sorted(found)

    def add(self, entry):
        self.entries[entry.number] = self.by_mask[entry.mask][entry.key & entry.mask] = entry

    def remove(self, entry):
        members = self.by_mask[entry.mask]
        del self.entries[entry.number], members[entry.key & entry.mask]
        if not members:
            del self.by_mask[entry.mask]


class Board:
    """One port's caches, and the steps that they take. Each step tells whether it may be taken where it stands, and does
    nothing where it mayn't.

    `decided` has each frame with the actions that it was sent with, `totals` the packets and the bytes that each rule is
    credited with, but for those that entries still owe; `lines` is the journal, and `counts` tells how often frames were
    looked up and settled with which result.
    """

    def __init__(self, port, blocks, flow_limit=FLOW_LIMIT):
        self.port, self.blocks, self.flow_limit = port, blocks, flow_limit
        # The frames of the block that weren't looked up, and those of all that wait for a settle, with their keys.
        self.block, self.left, self.pending = 0, deque(blocks[0].frames), {}
        self.megaflows, self.cache, self.made = Megaflows(), ExactCache(), 0
        # The version of the last sweep begun and of the last one ended, and the entries that a sweep has left, or None
        # where none runs.
        self.floor = self.done = self.clock = 0
        self.listed = None
        self.lines, self.counts = [f"port {port}"], Counter()
        self.decided, self.totals = [], defaultdict(lambda: [0, 0])

    @property
    def hi(self):
        return self.blocks[self.block].hi

    # ---- frames

    def look(self):
        """Looks the next frame of the block up. One that nothing covers waits to be settled."""
        if not self.left:
            return False
        frame = self.left.popleft()
        key = packed_key(frame.port, frame.bytes)
        result, entry = self.found(key)
        self.clock = max(self.clock, frame.time)
        self.counts[result] += 1
        self.lines.append(f"look {frame.place} {result}" + (f" {entry.number}" if entry else ""))
        if entry is None:
            self.pending[frame.place] = frame, key
            return True
        entry.hit(frame)
        self.decided.append((frame, entry.actions))
        if result == MEGA:
            self.cache.put(key, entry.number)
        return True

    def found(self, key):
        """How a key is covered, and by which entry. A number of an entry that is gone counts for nothing."""
        if entry := self.megaflows.entries.get(self.cache.look(key)):
            return EXACT, entry
        entry = self.megaflows.find(key)
        return (MEGA, entry) if entry else (MISS, None)

    def settle(self, place, by):
        """Decides a frame that waits by what a version makes of its key, which is of the last sweep begun or later."""
        if place not in self.pending or not self.floor <= by.version <= self.hi:
            return False
        frame, key = self.pending.pop(place)
        self.decided.append((frame, by.translated.actions))
        self.credit(by.translated.visits, 1, len(frame.bytes))
        result, *numbers = self.install(frame, key, by)
        self.counts[result] += 1
        self.lines.append(" ".join(map(str, ["settle", place, by.version, result, *numbers])))
        return True

    def install(self, frame, key, by):
        """Makes an entry in the place of those that it overlaps, or none where there are as many others as may be."""
        if present := self.megaflows.find(key):
            return PRESENT, present.number
        dropped = self.megaflows.overlapping(key, by.translated.mask)
        if len(self.megaflows.entries) - len(dropped) >= self.flow_limit:
            return (FULL,)
        for number in dropped:
            self.pay(self.megaflows.entries[number])
            self.drop(self.megaflows.entries[number])
        self.made += 1
        self.megaflows.add(Entry(self.made, key, by, frame.time))
        return INSTALLED, self.made, *(["drop", *dropped] if dropped else [])

    def drop(self, entry):
        """An entry that is gone isn't put any more."""
        self.megaflows.remove(entry)
        if self.listed is not None:
            self.listed.discard(entry.number)

    # ---- sweeps

    def begin(self, version):
        """Begins a sweep of all entries."""
        if self.listed is not None or version > self.hi:
            return False
        self.lines.append(f"begin {version}")
        self.floor, self.listed = max(self.floor, version), set(self.megaflows.entries)
        return True

    def is_listed(self, number):
        return self.listed is not None and number in self.listed

    def put(self, number, by):
        """Checks an entry that a sweep has left by what a version makes of its key."""
        if not self.is_listed(number) or not self.floor <= by.version <= self.hi:
            return False
        self.listed.discard(number)
        self.lines.append(f"put {number} {by.version} {self.checked(self.megaflows.entries[number], by)}")
        return True

    def checked(self, entry, by):
        """Keeps an entry with what the version makes of its key, or drops it: where it stood unused for long, and where
        its mask lacks a bit of those that are consulted now."""
        self.pay(entry)
        if self.clock - entry.used >= IDLE_TIME:
            self.drop(entry)
            return "idle"
        if by.translated.mask & ~entry.mask:
            self.drop(entry)
            return "removed"
        is_same = (entry.actions, entry.visits) == (by.translated.actions, by.translated.visits)
        entry.renew(by)
        return "kept" if is_same else "replaced"

    def end(self):
        """Ends a sweep that has checked all of its entries."""
        if self.listed is None or self.listed:
            return False
        self.lines.append("end")
        self.done, self.listed = self.floor, None
        return True

    # ---- blocks

    def open(self):
        """Goes on to the next block, where all frames of this one are decided and a sweep of its version was made."""
        is_last = self.block + 1 == len(self.blocks)
        if is_last or self.left or self.pending or self.done < self.blocks[self.block + 1].lo:
            return False
        self.block += 1
        self.left = deque(self.blocks[self.block].frames)
        self.lines.append(f"open {self.block}")
        return True

    # ---- counts

    def credit(self, visits, packets, size):
        for rule in visits:
            self.totals[rule][0] += packets
            self.totals[rule][1] += size

    def pay(self, entry):
        """Credits the rules of an entry with what it owes them."""
        self.credit(entry.visits, entry.owed_packets, entry.owed_bytes)
        entry.owed_packets = entry.owed_bytes = 0
