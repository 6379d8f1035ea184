#!/usr/bin/env python3
"""Compares the program with the simulation on runs of which an input file is mutated, or two.

    python3 mutated_files.py PROGRAM COUNT [SEED]

A run is one of made_runs.py that ends well. One to three mutations are made in its traces, steps, mirrors or edits: of a
trace in its bytes, its headers or its records, and of the others in their lines. The status, the text and the files have
to be those of the simulation, byte by byte; a run that doesn't end in time, or that a signal ends, is wrong too. The same
seed, which is printed, gives the same inputs. It prints each run that differs and keeps its folder, and then ends with 1.
1,000 inputs take 10 seconds, most of it in the simulation.
"""
import os
import random
import shutil
import struct
import subprocess
import sys
import tempfile
from collections import Counter, namedtuple

sys.dont_write_bytecode = True
from made_runs import made_run
from mutations import TELLING, mutated
from simulation.captures import FORMATS, SNAP_LENGTH
from simulation.command_words import read_words
from simulation.flow_text import LIMITS
from whole_run import ran_in, simulated
from workers import PATIENCE, wrong_in

# How many runs there are to choose from.
BASES = 60
KINDS = ["trace", "trace", "steps", "mirrors", "edits"]
# Where the fields of the header of a trace are, and those of a record behind its begin, with their widths.
HEADER_FIELDS = [(0, 4), (4, 2), (6, 2), (8, 4), (16, 4), (20, 4)]
RECORD_FIELDS = [(0, 4), (4, 4), (8, 4), (12, 4)]
HEADER, RECORD = 24, 16
# At the limits of lengths, of fractions in either unit and of numbers.
NUMBERS = [0, 1, 14, 65535, SNAP_LENGTH - 4, SNAP_LENGTH, SNAP_LENGTH + 1, 999999, 1000000, 999999999, 1000000000]
NUMBERS += [0x7FFFFFFF, 0x80000000, 0xFFFFFFFF]
SYNCS = [b"sync 0", b"sync 1", b"sync 2.5", b"sync 3.000000001", b"sync 4294967295.999999999"]
ODD_LINES = {
    "steps": [b"edit", b"rx 1", b"sweep 1", b"swept 1", b"open 1", b"put 1 1", b"snap 1 1", b"settle 1 1", b""],
    "mirrors": [b"select_all", b",", b"", b"select_dst_port=1", b"select_src_port=1\r"],
    "edits": [*SYNCS, *SYNCS, b"begin", b"begin", b"commit", b"commit", b"", b"delete", b"modify actions=2", b"actions=all", b"modify_strict actions=", b"#"],
}
LONG_LINES = [b" " * LIMITS["line"], b"#".ljust(LIMITS["line"] + 1)]
# How often a line is repeated: also more often than there may be mirrors and sync lines.
TIMES = [2, 2, 2, 17, 64]

# The words of a run, its files, and the names of those that are read, by their kind.
Base = namedtuple("Base", "words given names")


# ---- runs to begin with


def names_by_kind(command):
    """The names of the files that a run reads, by their kind."""
    names = {
        "trace": sorted({name for name in command.traces.values() if name}),
        "steps": [command.steps], "mirrors": [command.mirrors], "edits": [command.edits],
    }
    return {kind: of for kind, of in names.items() if any(of)}


def good_bases(pick):
    """Runs without workers that end well."""
    bases = []
    while len(bases) < BASES:
        words, given = made_run(pick.randrange(1 << 32))
        if simulated(words, given).status == 0 and not (command := read_words(words)).workers:
            bases.append(Base(words, given, names_by_kind(command)))
    return bases


# ---- mutations of lines


def mutated_lines(pick, data, kind):
    """A line is mutated by bytes or items, or lines are swapped, repeated, dropped or put in, or all is cut."""
    lines = data.split(b"\n")
    at, other = pick.randrange(len(lines)), pick.randrange(len(lines))
    way = pick.choice(["bytes"] * 4 + ["swap", "repeat", "drop", "add", "add", "cut"])
    if way == "bytes":
        lines[at] = mutated(pick, lines[at] or b" ")
    elif way == "swap":
        lines[at], lines[other] = lines[other], lines[at]
    elif way == "cut":
        return data[: pick.randrange(len(data) + 1)]
    else:
        odd = pick.choice([*ODD_LINES[kind], *ODD_LINES[kind], *LONG_LINES])
        added = {"repeat": [lines[at]] * pick.choice(TIMES), "drop": [], "add": [odd, lines[at]]}
        lines[at : at + 1] = added[way]
    return b"\n".join(lines)


# ---- mutations of traces


def order_of(data):
    """The order of the bytes of a trace, as struct names it; little-endian where none is told."""
    return FORMATS[data[:4]].order if data[:4] in FORMATS else "<"


def begins(data):
    """Where the records of a trace begin, as far as they are in form, and where the last of them ends."""
    places, at = [HEADER], HEADER
    while at + RECORD <= len(data):
        at += RECORD + struct.unpack_from(order_of(data) + "I", data, at + 8)[0]
        if at > len(data):
            break
        places.append(at)
    return places


def with_number(pick, data):
    """Sets a field of a header, mostly in the order of the trace."""
    at, width = pick.choice(HEADER_FIELDS)
    if pick.random() < 0.8:
        place, width = pick.choice(RECORD_FIELDS)
        at = pick.choice(begins(data)[:-1] or [0]) + place
    order = order_of(data) if pick.random() < 0.9 else pick.choice("<>")
    number = pick.choice(NUMBERS) if pick.random() < 0.8 else pick.getrandbits(32)
    return data[:at] + struct.pack(order + "I", number)[-width if order == ">" else 0 :][:width] + data[at + width :]


def with_records(pick, data):
    """Doubles, drops, swaps or lengthens a record."""
    places = begins(data)
    if len(places) < 2:
        return data * 2
    at = pick.randrange(len(places) - 1)
    before, record, after = data[: places[at]], data[places[at] : places[at + 1]], data[places[at + 1] :]
    way = pick.choice(["double", "drop", "swap", "lengthen"])
    if way == "swap":
        end = begins(before[:HEADER] + after)[:2][-1] - HEADER
        return before + after[:end] + record + after[end:]
    if way == "lengthen":
        length = pick.choice([number for number in NUMBERS if number <= SNAP_LENGTH + 1])
        lengths = struct.pack(order_of(data) + "II", length, length)
        return before + record[:8] + lengths + record[16 : 16 + length].ljust(length, b"\0") + after
    return before + record * (2 if way == "double" else 0) + after


def with_bytes(pick, data):
    """Changes a bit or a byte, drops, doubles or puts in some bytes, or cuts the end or the begin off."""
    at = pick.choice([pick.randrange(len(data) + 1), pick.choice(begins(data))])
    end = min(len(data), at + pick.choice([1, 1, 2, 4, 16, 60]))
    byte = pick.choice(TELLING) if pick.random() < 0.8 else pick.randrange(256)
    return pick.choice([
        data[:at] + bytes(it ^ 1 << pick.randrange(8) for it in data[at : at + 1]) + data[at + 1 :],
        data[:at] + bytes([byte]) + data[at + 1 :],
        data[:at] + data[end:],
        data[:end] + data[at:],
        data[:at] + bytes([byte]) * (end - at) + data[at:],
        data[:at],
        data[at:],
        data * 2,
    ])


def mutated_trace(pick, data):
    return pick.choice([with_number, with_number, with_records, with_bytes, with_bytes])(pick, data)


# ---- inputs


def made_inputs(count, seed):
    """The words and the files of each run, and which of them are mutated."""
    pick = random.Random(seed)
    bases = good_bases(pick)
    for _ in range(count):
        base = pick.choice(bases)
        given, changed = dict(base.given), []
        for _ in range(pick.choice([1, 1, 1, 2, 3])):
            kind = pick.choice([kind for kind in KINDS if kind in base.names])
            name = pick.choice(base.names[kind])
            if kind == "trace":
                given[name] = mutated_trace(pick, given[name])
            else:
                given[name] = mutated_lines(pick, given[name], kind)
            changed.append(name)
        yield base.words, given, sorted(set(changed))


def wrong_with(program, words, given, wanted, folder):
    """What is wrong with a run in an empty folder, or None."""
    try:
        return wrong_in(ran_in(folder, program, words, given, PATIENCE), wanted)
    except subprocess.TimeoutExpired:
        return "it hangs"


def main(words):
    program, count, seed = os.path.abspath(words[0]), int(words[1]), int((words[2:] or ["1"])[0])
    statuses, wrongs = Counter(), 0
    for words, given, changed in made_inputs(count, seed):
        folder, wanted = tempfile.mkdtemp(prefix="megaswitch-"), simulated(words, given)
        wrong = wrong_with(program, words, given, wanted, folder)
        statuses[wanted.status] += 1
        if wrong:
            wrongs += 1
            print(f"{' '.join(words)} with {', '.join(changed)} mutated, in {folder}: {wrong}", flush=True)
        else:
            shutil.rmtree(folder)
    by_status = ", ".join(f"{number} with status {status}" for status, number in sorted(statuses.items()))
    print(f"seed {seed}: {by_status}; {wrongs} differ")
    return wrongs > 0


if __name__ == "__main__":
    sys.exit(main(sys.argv[1:]))
