"""A version of the rules by tables and masks: which rule decides a key, and which of the key's bits tell that it does.

A table is searched mask by mask, a mask stage by stage, and addresses by prefixes first. What is consulted is what
decides. It doesn't depend on the order in which masks are tried.
"""
from collections import defaultdict

from .flow_fields import KEY_FIELD, KEY_FIELDS, full, packed, prefix, prefix_length, unpacked

# The fields that a lookup has compared at the end of each of its stages but the last one, by the last of them.
LAST_OF_STAGES = ("reg15", "vlan_tci", "arp_tha")
# What stands behind all others in a key, and is compared with the Ethernet header.
TAGS = ("vlan_tpid", "vlan_tci2", "vlan_tpid2")
METADATA, ETHERNET, NETWORK = range(3)

# The fields whose prefixes are told apart, in the order in which they are tried.
TRACKED = ("nw_src", "nw_dst", "ipv6_src", "ipv6_dst")


def bits_of(name, bits):
    """Bits of a field, where they are in a key."""
    return packed({name: bits})


WHOLE = {name: bits_of(name, full(field.width)) for name, field in KEY_FIELD.items()}


def through(last):
    """All bits of the fields up to this one."""
    names = [field.name for field in KEY_FIELDS]
    return sum(WHOLE[name] for name in names[: names.index(last) + 1])


def stages():
    """The bits of the fields up to the end of each stage but the last one."""
    metadata, *others = map(through, LAST_OF_STAGES)
    return [metadata, *(stage | sum(WHOLE[name] for name in TAGS) for stage in others)]


STAGES = stages()


class Tables:
    """The tables of a version."""

    def __init__(self, rules):
        by_table = defaultdict(list)
        for rule in rules:
            by_table[rule.table].append(rule)
        self.tables = {number: Table(members) for number, members in by_table.items()}

    def look_up(self, number, key):
        """The rule of a table that decides a key, or None, and the bits of the key that this was found by."""
        table = self.tables.get(number)
        return table.look_up(key) if table else (None, 0)


class Table:
    """The rules of one table in groups, each of one mask."""

    def __init__(self, rules):
        by_mask = defaultdict(list)
        for rule in rules:
            by_mask[rule.matching.mask].append(rule)
        self.groups = [Group(mask, members) for mask, members in by_mask.items()]
        self.prefixes = {name: Prefixes(name) for name in TRACKED}
        for group in self.groups:
            for name, length in group.lengths.items():
                self.prefixes[name].add(length, [unpacked(match)[name] for match in group.best])

    def look_up(self, key):
        """Of the rules that match it is the one of the greatest priority; of equal ones the oldest."""
        found = [group.best[key & group.mask] for group in self.groups if key & group.mask in group.best]
        winner = max(found, key=rank, default=None)
        groups = [it for it in self.groups if winner is None or it.greatest >= winner.priority]
        consulted, numbers = 0, unpacked(key)
        for group in groups:
            consulted |= self.consulted_by(group, key, numbers)
        return winner, consulted

    def consulted_by(self, group, key, numbers):
        """The bits of a key that tell whether a rule of a group matches it, up to where they tell that none does."""
        for stage in (METADATA, ETHERNET):
            if not group.agrees(key, stage):
                return group.reached(stage)
        consulted = group.reached(ETHERNET)
        for name, length in group.lengths.items():
            prefixes = self.prefixes[name]
            is_one = prefixes.has(numbers[name], length)
            consulted |= prefixes.leading(length if is_one else min(length, prefixes.deciding(numbers[name])))
            if not is_one:
                return consulted
        return group.mask if group.agrees(key, NETWORK) else consulted | group.reached(NETWORK)


def rank(rule):
    return rule.priority, -rule.number


class Group:
    """The rules of one mask, the best one for each match; and the lengths of the prefixes that the mask has."""

    def __init__(self, mask, rules):
        self.mask, self.greatest, self.best = mask, max(rule.priority for rule in rules), {}
        for rule in sorted(rules, key=rank):
            self.best[rule.matching.key] = rule
        self.begun = [{match & stage for match in self.best} for stage in STAGES]
        masks, lengths = unpacked(mask), {}
        for name in TRACKED:
            if length := prefix_length(masks[name], KEY_FIELD[name].width):
                lengths[name] = length
        self.lengths = lengths

    def reached(self, stage):
        """The bits of the mask up to the end of a stage."""
        return self.mask & STAGES[stage]

    def agrees(self, key, stage):
        """Whether up to the end of a stage a key is as some rule has it."""
        return key & self.reached(stage) in self.begun[stage]


class Prefixes:
    """The prefixes of a field that stand in the rules of a table, by length."""

    def __init__(self, name):
        self.name, self.width, self.by_length, self.decided = name, KEY_FIELD[name].width, defaultdict(set), {}

    def add(self, length, values):
        self.by_length[length].update(values)

    def has(self, number, length):
        """Whether a number begins with a prefix of this length."""
        return number & prefix(self.width, length) in self.by_length[length]

    def deciding(self, number):
        """How many leading bits tell of each prefix whether a number begins with it."""
        if number not in self.decided:
            told = [self.telling(number, value, length) for length in self.by_length for value in self.by_length[length]]
            self.decided[number] = max(told)
        return self.decided[number]

    def telling(self, number, value, length):
        common = self.width - (number ^ value).bit_length()
        return length if common >= length else common + 1

    def leading(self, length):
        """So many of the most significant bits of the field, where they are in a key."""
        return bits_of(self.name, prefix(self.width, length))
