#!/usr/bin/env python3
"""Compares the program with the simulation on lines of flow text with bytes and items changed, dropped or doubled.

    python3 mutations.py PROGRAM COUNT [SEED]

A line is one of flow_lines.txt that is accepted, with one to three mutations. The status, the text and the files have to
be those of the simulation, and so the line, the column and the reason of a fault, or the limit, or the dump of the rule
that was read. The same seed, which is printed, gives the same lines. It prints each line that differs, as Python writes
bytes, and then ends with 1.
"""
import os
import random
import re
import sys
from collections import Counter

sys.dont_write_bytecode = True
HERE = os.path.dirname(os.path.abspath(__file__))
from simulation.flow_text import OverLimit, TextFault, read_script
from whole_run import ran, simulated

WORDS = ["edits", "out", "1=", "2="]
# Bytes that mean something in flow text; any other byte is put in now and then.
TELLING = b"0123456789abcdefxX=,:/.#()[]->_ \t\r\n\0\x7f\x80\xff"


def is_accepted(line):
    try:
        read_script(line)
    except (TextFault, OverLimit):
        return False
    return True


def good_lines():
    with open(os.path.join(HERE, "flow_lines.txt"), "rb") as file:
        lines = [line.rstrip(b"\n").replace(b"\\t", b"\t") for line in file]
    return [line for line in lines if line and not line.startswith(b"#") and is_accepted(line)]


def with_word(pick, line):
    """The line with an edit word, or as a delete, without its actions."""
    if pick.random() < 0.8:
        return line
    if pick.random() < 0.5:
        return pick.choice([b"add ", b"modify ", b"modify_strict "]) + line
    return pick.choice([b"delete ", b"delete_strict "]) + line.partition(b"action")[0]


def mutated(pick, line):
    """Changes a byte, or drops or doubles a byte or an item with its separator."""
    begin, end = pick.choice(items_of(line)) if pick.random() < 0.2 else byte_of(pick, line)
    byte = pick.choice(TELLING) if pick.random() < 0.8 else pick.randrange(256)
    change = bytes([byte]) + line[begin + 1 : end]
    return line[:begin] + pick.choice([change, b"", line[begin:end] * 2]) + line[end:]


def items_of(line):
    return [found.span() for found in re.finditer(rb"[^, \t\r]+[, \t\r]?|.", line, re.DOTALL)]


def byte_of(pick, line):
    """A byte, mostly none of a name: what is changed in a name is an unknown name, and no more."""
    places = [place for place, byte in enumerate(line) if not chr(byte).isalpha() or pick.random() < 0.1]
    at = pick.choice(places or [0])
    return at, at + 1


def made_lines(count, seed):
    pick, lines = random.Random(seed), good_lines()
    for _ in range(count):
        line = with_word(pick, pick.choice(lines))
        for _ in range(pick.choice([1, 1, 1, 2, 3])):
            line = mutated(pick, line) or b" "
        yield line


def shown(end):
    """What is told of a run that differs: its status, its text and the rules that were read."""
    return f"{end.status} {end.text!r} {end.files.get('out.rules')!r}"


def main(words):
    program, count, seed = os.path.abspath(words[0]), int(words[1]), int((words[2:] or ["1"])[0])
    statuses, wrong = Counter(), 0
    for line in made_lines(count, seed):
        got, wanted = ran(program, WORDS, {"edits": line}), simulated(WORDS, {"edits": line})
        statuses[wanted.status] += 1
        if got != wanted:
            wrong += 1
            print(f"{line!r}: {shown(got)}, not {shown(wanted)}")
    by_status = ", ".join(f"{number} with status {status}" for status, number in sorted(statuses.items()))
    print(f"seed {seed}: {by_status}; {wrong} differ")
    return wrong > 0


if __name__ == "__main__":
    sys.exit(main(sys.argv[1:]))
