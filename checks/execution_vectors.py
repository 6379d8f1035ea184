#!/usr/bin/env python3
"""Compares what is sent of the frames of vectors/rewritten.tsv with what Open vSwitch sent.

    python3 execution_vectors.py [PROGRAM]

runs the program, or where none is named the simulation, once on all of them: one file of edits, and one trace with a
frame in each second. A row that says that Open vSwitch differs has to differ. It prints each row that is otherwise, and
then ends with 1.
"""
import os
import sys

sys.dont_write_bytecode = True
TOP = os.path.join(os.path.dirname(os.path.abspath(__file__)), "..")
sys.path.insert(0, os.path.join(TOP, "vectors"))
from make_rewritten import IN_PORT, PORTS, read_table
from simulation.captures import MICROSECOND, SECOND, Frame, read_format, read_frames, write_trace
from whole_run import ended

EDITS, TRACE, OUT = "edits", "frames.pcap", "out"
WORDS = [EDITS, OUT, *(f"{port}={TRACE if port == IN_PORT else ''}" for port in PORTS)]


def given_files(rows):
    frames = [Frame(place * SECOND, IN_PORT, place, row.frame) for place, row in enumerate(rows)]
    edits = "".join(flow + "\n" for row in rows for flow in row.flows)
    return {EDITS: edits.encode(), TRACE: write_trace(frames, MICROSECOND)}


def sent_by_row(files, count):
    """Ports and bytes for each row, port by port."""
    sent = [[] for _ in range(count)]
    for port in PORTS:
        name = f"{OUT}.p{port}.pcap"
        for frame in read_frames(files[name], read_format(files[name], name), port, name, sys.maxsize):
            sent[frame.time // SECOND].append((port, frame.bytes))
    return sent


def shown(sent):
    return " ".join(f"{port}:{data.hex()}" for port, data in sent) or "nothing"


def main(words):
    rows = list(read_table())
    given = given_files(rows)
    status, text, files = ended(os.path.abspath(words[0]) if words else None, WORDS, given)
    if status:
        print(f"status {status}: {text.strip()}")
        return 1
    wrong = 0
    for row, sent in zip(rows, sent_by_row(files, len(rows)), strict=True):
        if (sent == row.sent) == bool(row.differs):
            wrong += 1
            print(f"{row.name}: {shown(sent)}, and Open vSwitch {shown(row.sent)}")
    print(f"{len(rows)} rows, {wrong} are otherwise")
    return wrong > 0 or not rows


if __name__ == "__main__":
    sys.exit(main(sys.argv[1:]))
