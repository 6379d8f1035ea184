#!/usr/bin/env python3
"""Compares the comparison of tables with the simulation on made-up pairs of files of edits.

    python3 diff_rows.py PROGRAM ROUNDS
    python3 diff_rows.py PROGRAM OLD NEW PORT..

Of a made-up pair NEW is OLD with some lines left out, moved, or with actions and matches of others; the second command
takes two files that are there. Packets are tried of each match, beside each match by one bit, of frames, and of no
frame at all. The first match that has it says what the simulation does to it under both files, or that this is the
same; where none has it, it is the same too. Round n is the same at each call. It prints the first packet that is told
otherwise, and ends with 1; else it tells how many rounds ended with which status, and how many packets were tried.
"""
import ipaddress
import os
import random
import subprocess
import sys
import tempfile
from collections import Counter, namedtuple

sys.dont_write_bytecode = True
TOP = os.path.join(os.path.dirname(os.path.abspath(__file__)), "..")
sys.path.insert(0, os.path.join(TOP, "vectors"))
from made_runs import CacheMaker
from simulation.classifier import Tables
from simulation.dump_text import print_datapath_actions
from simulation.flow_fields import BEGIN, FRAGMENT_WORDS, IPV4, IPV6, KEY_FIELD, KEY_FIELDS, MAC, full, prefix
from simulation.frame_key import key_of
from simulation.switch import read_edits, read_text
from simulation.translation import REGISTERS, translate

# A match, and what both do; None where they do the same.
Line = namedtuple("Line", "key mask said")

# The packets that are tried of a match, and beside it, and the random ones.
INSIDE, BESIDE, ANYWHERE = 4, 4, 200
# A round whose comparison takes longer is left out.
SECONDS = 3
GIVEN_UP = 7
ALL = sum(full(field.width) << BEGIN[field.name] for field in KEY_FIELDS) & ~REGISTERS


def read_number(field, text):
    if field.form == MAC:
        return int(text.replace(":", ""), 16)
    if field.form in (IPV4, IPV6):
        return int(ipaddress.ip_address(text))
    return int(text, 0)


def read_item(item):
    """The bits that an item of a match states, as a key and a mask."""
    name, _, text = item.partition("=")
    field = KEY_FIELD[name]
    if text in FRAGMENT_WORDS:
        value, mask = FRAGMENT_WORDS[text]
    else:
        value, _, mask = text.partition("/")
        value = read_number(field, value)
        if not mask:
            mask = full(field.width)
        elif field.form in (IPV4, IPV6) and mask.isdigit():
            mask = prefix(field.width, int(mask))
        else:
            mask = read_number(field, mask)
    return value << BEGIN[name], mask << BEGIN[name]


def read_line(match, said):
    items = [read_item(item) for item in match.split(",")]
    return Line(sum(key for key, _ in items), sum(mask for _, mask in items), said)


def read_lines(text):
    """The lines of a text, the last of which counts classes and kinds."""
    *rest, counts = text.splitlines() or [""]
    lines = []
    while rest:
        match, first, *rest = rest
        said = None
        if first != "=":
            said = (first.removeprefix("- "), rest.pop(0).removeprefix("+ "))
        lines.append(read_line(match, said))
    told = [line.said for line in lines if line.said]
    assert not lines or counts == f"{len(told)} classes, {len(set(told))} kinds", counts
    return lines


def changed(pick, lines):
    """A file whose lines are these but for a few."""
    lines = list(lines)
    for _ in range(pick.randrange(1, 4)):
        if len(lines) < 2:
            break
        one, other = pick.sample(range(len(lines)), 2)
        kind = pick.randrange(4)
        if kind == 0:
            del lines[one]
        elif kind == 1:
            lines[one], lines[other] = lines[other], lines[one]
        elif b"actions=" in lines[one] and b"actions=" in lines[other]:
            head, _, tail = lines[one].partition(b"actions=")
            _, _, actions = lines[other].partition(b"actions=")
            lines[one] = head + b"actions=" + actions
            if kind == 3:
                lines.append(head + b"actions=" + tail)
    return lines


def made_pair(number):
    """The ports, some frames and both files of a round."""
    maker = CacheMaker(number)
    pick = random.Random(number)
    old = [line for line in maker.edits().splitlines() if not line.startswith((b"sync", b"begin", b"commit"))][:12]
    return maker.ports, maker.frames, b"\n".join([*old, b""]), b"\n".join([*changed(pick, old), b""])


def compared(program, ports, old, new):
    with tempfile.TemporaryDirectory(prefix="megadiff-") as folder:
        for name, data in (("old", old), ("new", new)):
            with open(os.path.join(folder, name), "wb") as file:
                file.write(data)
        words = [program, "old", "new", *map(str, ports)]
        got = subprocess.run(words, cwd=folder, stdin=subprocess.DEVNULL, stdout=subprocess.PIPE, timeout=SECONDS)
        return got.returncode, got.stdout.decode()


def tables_of(data):
    _, rules = read_text(read_edits, data, "edits")
    return Tables(rules.live.values())


def packets(pick, ports, frames, lines):
    """Keys of packets that are tried."""
    for it in pick.sample(lines, min(len(lines), 40)):
        for _ in range(INSIDE):
            yield it.key | pick.getrandbits(ALL.bit_length()) & ALL & ~it.mask
        bits = [bit for bit in range(it.mask.bit_length()) if it.mask >> bit & 1]
        for _ in range(BESIDE):
            yield it.key ^ 1 << pick.choice(bits)
    for _ in range(ANYWHERE):
        numbers = key_of(pick.choice(ports), pick.choice(frames))
        key = sum(number << BEGIN[name] for name, number in numbers.items())
        yield key
        yield key ^ 1 << pick.randrange(ALL.bit_length()) & ALL


def is_flow(actions):
    """Whether actions are those of flows: such a list sends, and tells so by its own words."""
    return any(item.startswith("output:") or item in ("in_port", "all", "flood") for item in actions.split(","))


def done_as(actions, ports, key):
    """The datapath actions that what is said does to a packet."""
    if not is_flow(actions):
        return actions
    return print_datapath_actions(translate(tables_of(f"actions={actions}\n".encode()), ports, key).actions)


def is_told(lines, ports, tables, key):
    """Whether a packet is told as the simulation treats it. Of other ports no difference is told."""
    said = next((it.said for it in lines if key & it.mask == it.key), None)
    if key >> BEGIN["in_port"] & full(16) not in ports:
        return said is None
    old, new = (print_datapath_actions(translate(each, ports, key).actions) for each in tables)
    if said is None:
        return old == new
    return old != new and (done_as(said[0], ports, key), done_as(said[1], ports, key)) == (old, new)


def read_file(name):
    with open(name, "rb") as file:
        return file.read()


def otherwise(number, lines, ports, frames, old, new):
    """How many packets were tried, up to the first that is told otherwise, and what is to be said of that."""
    tables, tried = (tables_of(old), tables_of(new)), 0
    for key in packets(random.Random(number), ports, frames, lines):
        tried += 1
        if not is_told(lines, ports, tables, key):
            return tried, f"tells otherwise of the key {key:#x}: {old!r} and {new!r}"
    return tried, None


def compare_files(program, old, new, ports):
    _, frames, _, _ = made_pair(0)
    old, new, ports = read_file(old), read_file(new), [int(port) for port in ports]
    _, text = compared(program, ports, old, new)
    lines = read_lines(text)
    tried, fault = otherwise(0, lines, ports, frames, old, new)
    print(fault or f"{len(lines)} matches, {tried} packets")
    return 1 if fault else 0


def main(words):
    program = os.path.abspath(words[0])
    if len(words) > 2:
        return compare_files(program, words[1], words[2], words[3:])
    rounds = int(words[1])
    ended, tried = Counter(), 0
    for number in range(rounds):
        ports, frames, old, new = made_pair(number)
        try:
            status, text = compared(program, ports, old, new)
        except subprocess.TimeoutExpired:
            ended["too long"] += 1
            continue
        ended[status] += 1
        if status > 1:
            continue
        lines = read_lines(text)
        if status != any(line.said for line in lines):
            print(f"round {number}: status {status} of {len(lines)} matches")
            return 1
        more, fault = otherwise(number, lines, ports, frames, old, new)
        tried += more
        if fault:
            print(f"round {number} {fault}")
            return 1
    statuses = ", ".join(f"{count} with status {status}" for status, count in sorted(ended.items(), key=str))
    print(f"{rounds} pairs, {tried} packets: {statuses}")
    return 0


if __name__ == "__main__":
    sys.exit(main(sys.argv[1:]))
