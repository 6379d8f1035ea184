#!/usr/bin/env python3
"""Compares the masks of a program's translations with those of the simulation, on made-up tables.

    python3 masks.py PROGRAM [TABLES]

PROGRAM has the words EDITS TRACE PORT PORTS..: by the tables after all edits of EDITS, on a switch of these ports, it
prints a line for each frame of TRACE, as if it came in at PORT. A line has the mask, as a hexadecimal number for each
field, in the order of the fields of keys, then `actions=` and the datapath actions as text, and then `visits=` and the
numbers of the rules with `+` between them, or `-`.

For each of 300 tables, or of so many, the lines of some frames have to be those of the simulation, bit by bit. Beside each
frame stand others in which one bit is flipped that its mask doesn't have, and which differ from it in that bit of the key
alone: these are to have the line of the frame. The worked rows of mask_rows.py, to which the simulation is held by
hand, have to be so too. It prints each line that is otherwise, and then ends with 1.
"""
import os
import subprocess
import sys
import tempfile
from collections import namedtuple

sys.dont_write_bytecode = True
TOP = os.path.join(os.path.dirname(os.path.abspath(__file__)), "..")
sys.path.insert(0, os.path.join(TOP, "vectors"))
from made_runs import CacheMaker
from mask_rows import PORTS, ROWS, rules_of
from simulation.captures import MICROSECOND, Frame, write_trace
from simulation.classifier import TRACKED, Tables
from simulation.dump_text import print_datapath_actions
from simulation.flow_fields import KEY_FIELD, KEY_FIELDS, packed, prefix, unpacked
from simulation.flow_rules import last_version
from simulation.flow_text import Match, print_match, read_script
from simulation.frame_key import key_of
from simulation.translation import translate

TABLES = 300
MOST_EDITS = 20
# How many bits of a frame are tried; most of them are in no key, in the mask, or change other fields too.
TRIED_BITS = 30
HEADER_BYTES = 78

# What a frame shows, the frame, and the line that is wanted.
Case = namedtuple("Case", "name frame line")


def key_at(port, frame):
    return packed(key_of(port, frame))


def line_of(mask, actions, visits):
    numbers = unpacked(mask)
    shown = " ".join(f"{numbers[field.name]:x}" for field in KEY_FIELDS)
    rules = "+".join(str(number) for number in visits) or "-"
    return f"{shown} actions={print_datapath_actions(actions)} visits={rules}"


def read_line(line):
    """A line with its numbers in one form."""
    words = line.split(" ")
    return " ".join([*(f"{int(word, 16):x}" for word in words[: len(KEY_FIELDS)]), *words[len(KEY_FIELDS) :]])


def prefix_flow(maker):
    """A rule for a prefix near to an address of a frame: longer, shorter or beside it. Or for all, where it has none."""
    key = key_of(1, maker.one(*maker.frames))
    names = [name for name in TRACKED if name in key] or ["dl_type"]
    name = maker.one(*names)
    width = KEY_FIELD[name].width
    address = key.get(name, 0) ^ (1 << maker.pick.randrange(width) if maker.chance(0.7) else 0)
    mask = packed({"dl_type": 0xFFFF, name: prefix(width, maker.pick.randrange(1, width + 1))} if name in TRACKED else {})
    match = print_match(Match(packed(key | {name: address}) & mask, mask))
    return f"priority={maker.one(5, 10, 10, 20)},{match},actions={maker.one(*maker.ports)}"


def flows(maker):
    """The lines of edits: in every second run many of them for prefixes, so that several decide about an address."""
    prefixes = [prefix_flow(maker) for _ in range(maker.one(0, MOST_EDITS))]
    adds = maker.good_flows(5 if prefixes else MOST_EDITS)
    return prefixes + adds + [maker.change() for _ in range(maker.pick.randrange(MOST_EDITS))]


def flipped(maker, frame, mask, port):
    """Frames with a bit flipped that the mask doesn't have, and with the bits that differ in their keys."""
    key, size = key_at(port, frame), min(len(frame), HEADER_BYTES) * 8
    for place in maker.pick.sample(range(size), min(size, TRIED_BITS)):
        other = frame[: place // 8] + bytes([frame[place // 8] ^ 1 << place % 8]) + frame[place // 8 + 1 :]
        changed = key_at(port, other) ^ key
        if changed.bit_count() == 1 and not changed & mask:
            yield place, other


def cases_of(maker, rules, port):
    """The frames of a maker and those beside them."""
    tables = Tables(rules)
    for frame in maker.frames:
        translated = translate(tables, maker.ports, key_at(port, frame))
        line = line_of(translated.mask, translated.actions, translated.visits)
        yield Case(f"the frame {frame.hex()}", frame, line)
        for place, other in flipped(maker, frame, translated.mask, port):
            yield Case(f"the frame {frame.hex()} with bit {place % 8} of byte {place // 8} flipped", other, line)


def printed(program, edits, frames, port, ports):
    """The lines that the program prints."""
    with tempfile.TemporaryDirectory() as room:
        for name, data in {"edits": edits, "trace": write_trace(frames, MICROSECOND)}.items():
            with open(os.path.join(room, name), "wb") as file:
                file.write(data)
        words = [program, "translations", "edits", "trace", str(port), *map(str, ports)]
        ran = subprocess.run(words, cwd=room, stdin=subprocess.DEVNULL, stdout=subprocess.PIPE, check=True, text=True)
    return [read_line(line) for line in ran.stdout.splitlines()]


def compare(program, number):
    """Tries the tables of a number: how many frames there were, how many beside them, and how many lines differ."""
    maker = CacheMaker(number)
    port = maker.one(*maker.ports)
    edits = "\n".join(flows(maker)).encode()
    script = read_script(edits)
    rules = last_version(script.edits).live.values()
    cases = list(cases_of(maker, rules, port))
    frames = [Frame(0, port, place, case.frame) for place, case in enumerate(cases, 1)]
    wrong = 0
    for case, line in zip(cases, printed(program, edits, frames, port, maker.ports), strict=True):
        if line != case.line:
            wrong += 1
            print(f"tables {number}, {case.name}, at port {port}: {line}, not {case.line}")
    return len(maker.frames), len(cases) - len(maker.frames), wrong


def compare_row(program, name):
    """Tries a worked row: how many lines differ."""
    frame, port, text, _ = ROWS[name]
    frame = bytes.fromhex(frame)
    translated = translate(Tables(rules_of(text)), PORTS, key_at(port, frame))
    wanted = line_of(translated.mask, translated.actions, translated.visits)
    (line,) = printed(program, text.encode(), [Frame(0, port, 1, frame)], port, PORTS)
    if line != wanted:
        print(f"{name}: {line}, not {wanted}")
    return line != wanted


def main(words):
    program, count = os.path.abspath(words[0]), int((words[1:] or [TABLES])[0])
    rows = sum(compare_row(program, name) for name in ROWS)
    frames, flips, wrong = map(sum, zip(*(compare(program, number) for number in range(count))))
    print(f"{len(ROWS)} rows, {count} tables, {frames} frames, {flips} with a bit flipped: {rows + wrong} lines are otherwise")
    return rows + wrong > 0


if __name__ == "__main__":
    sys.exit(main(sys.argv[1:]))
