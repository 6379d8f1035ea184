"""What is written of a run beside the frames: the dumps of rules and of megaflows, the journal and the summary."""
from collections import Counter, defaultdict
from itertools import groupby

from .caches import EXACT, FULL, INSTALLED, MEGA, MISS, PRESENT
from .captures import SECOND
from .dump_text import print_datapath_actions, print_entry_match
from .flow_text import print_actions, print_match


def text_of(lines):
    return "".join(line + "\n" for line in lines)


# ---- rules


def counts_of(boards):
    """The packets and the bytes of each rule: what it was credited with at all ports, and what entries owe it there."""
    counts = defaultdict(lambda: [0, 0])

    def add(rule, packets, size):
        counts[rule][0] += packets
        counts[rule][1] += size

    for board in boards:
        for rule, credited in board.totals.items():
            add(rule, *credited)
        for entry in board.megaflows.entries.values():
            for rule in entry.visits:
                add(rule, entry.owed_packets, entry.owed_bytes)
    return counts


def rules_text(rules, boards):
    """The rules that live at the end, in the order of tables, falling priority and numbers; then those that are gone."""
    counts = counts_of(boards)
    live = sorted(rules.live.values(), key=lambda rule: (rule.table, -rule.priority, rule.number))
    gone = sorted(set(rules.added) - set(rules.live))
    return text_of([rule_line(rule, *counts[rule.number]) for rule in live] + [gone_line(it, *counts[it]) for it in gone])


def rule_line(rule, packets, size):
    """Can be read again as a line of edits, as far as it isn't too long and its writes can be spelled."""
    head = f"cookie={rule.cookie:#x}, table={rule.table}, n_packets={packets}, n_bytes={size}, priority={rule.priority}"
    match = print_match(rule.matching)
    return f"{head}{',' if match else ''}{match} actions={print_actions(rule.actions)} # rule={rule.number}"


def gone_line(number, packets, size):
    return f"# gone rule={number} n_packets={packets} n_bytes={size}"


# ---- megaflows


def megaflows_text(boards):
    """The entries of each port, in the order of their numbers."""
    return text_of(entry_line(board.port, it) for board in boards for _, it in sorted(board.megaflows.entries.items()))


def entry_line(port, entry):
    return (
        f"port={port} entry={entry.number} version={entry.version} packets={entry.packets} bytes={entry.bytes} "
        f"owed_packets={entry.owed_packets} owed_bytes={entry.owed_bytes} used={print_time(entry.used)} "
        f"visits={print_visits(entry.visits)} match={print_entry_match(entry.key, entry.mask)} "
        f"actions={print_datapath_actions(entry.actions)}"
    )


def print_time(time):
    return f"{time // SECOND}.{time % SECOND:09}"


def print_visits(visits):
    """Visits of one rule, one after the other, stand together."""
    runs = [(rule, len(list(run))) for rule, run in groupby(visits)]
    return "+".join(f"{rule}x{count}" if count > 1 else f"{rule}" for rule, count in runs) or "-"


# ---- the journal


def journal_text(boards):
    return text_of(line for board in boards for line in board.lines)


# ---- the summary


def summary_text(script, boards, sent, given):
    """sent is how many frames were sent; given, where steps were given, how many, and how many of these weren't met."""
    results = sum((board.counts for board in boards), Counter())
    decided = [actions for board in boards for _, actions in board.decided]
    entries = sum(len(board.megaflows.entries) for board in boards)
    lines = [
        {"ports": len(boards), "frames": len(decided), "edits": len(script.edits), "blocks": len(script.syncs) + 1},
        {it: results[it] for it in (EXACT, MEGA, MISS)},
        {it: results[it] for it in (INSTALLED, PRESENT, FULL)},
        {"sent": sent, "dropped": sum(not is_sent(it) for it in decided), "entries": entries},
    ]
    lines += [{"steps": given.steps, "unmet": given.unmet}] if given else []
    return text_of(" ".join(f"{name}={count}" for name, count in line.items()) for line in lines)


def is_sent(actions):
    return any(action.kind == "Output" for action in actions)
