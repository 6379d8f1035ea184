"""The rules of a switch by version: what the edits of flow text do to them, bundle by bundle, after ovs-ofctl(8)."""
from collections import namedtuple

from .flow_text import refuse_over

# The table is a number. Rules are numbered by the edit that added them, from 1 on.
Rule = namedtuple("Rule", "number table priority matching cookie actions")


class Rules:
    """The rules that the edits so far have made, by number, and how many rules these added, changed or removed."""

    def __init__(self):
        self.version, self.edit_count, self.changes, self.live, self.numbers = 0, 0, 0, {}, {}
        # The numbers of those that were ever added.
        self.added = []

    def apply(self, bundle):
        """Makes the next version by the edits of a bundle."""
        self.version += 1
        for edit in bundle:
            self.carry_out(edit)

    def carry_out(self, edit):
        self.edit_count += 1
        if edit.word == "add":
            self.add(edit)
        else:
            reached = self.strictly_reached(edit) if edit.word.endswith("_strict") else self.loosely_reached(edit)
            for rule in reached:
                self.remove(rule) if edit.word.startswith("delete") else self.modify(rule, edit)

    def add(self, edit):
        """Adds a rule, which takes the place of one of the same table, priority and match."""
        for rule in self.strictly_reached(edit):
            self.remove(rule)
        identity = identity_of(edit)
        number = self.edit_count
        self.added.append(number)
        self.numbers[identity] = number
        self.live[number] = Rule(number, *identity, edit.cookie or 0, edit.actions)
        self.changes += 1

    def modify(self, rule, edit):
        cookie = rule.cookie if edit.cookie is None else edit.cookie
        self.live[rule.number] = rule._replace(cookie=cookie, actions=edit.actions)
        self.changes += 1

    def remove(self, rule):
        del self.live[rule.number], self.numbers[identity_of(rule)]
        self.changes += 1

    def strictly_reached(self, edit):
        """The rule of the same table, 0 where none is given, the same priority and the same match."""
        number = self.numbers.get(identity_of(edit))
        return [] if number is None else [self.live[number]]

    def loosely_reached(self, edit):
        """The rules of the given match or a more specific one, in the table given, or in any."""
        key, mask = edit.matching
        rules = [it for it in self.live.values() if it.matching.mask & mask == mask and it.matching.key & mask == key]
        return [it for it in rules if edit.table in (None, it.table)]


def identity_of(it):
    return it.table or 0, it.priority, it.matching


def last_version(edits):
    """The rules that all edits make. Raises OverLimit where the edits change too much."""
    rules = Rules()
    for edit in edits:
        rules.carry_out(edit)
    refuse_over(rules.changes, "changes")
    return rules
