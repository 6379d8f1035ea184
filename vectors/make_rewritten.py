#!/usr/bin/env python3
"""Has a running Open vSwitch rewrite the frames of rewritings.py, and makes a table of what comes out.

    python3 vectors/make_rewritten.py

writes rewritten.tsv. It needs Open vSwitch 3.1 (Debian's openvswitch-switch) and tshark, which looks at the
checksums: a row where they were right and aren't any more is refused, unless it has a fault of Open vSwitch.
"""
import sys
import tempfile
from collections import namedtuple
from pathlib import Path

sys.dont_write_bytecode = True
import table
from headers import mac
from open_vswitch import Switch, version
from rewritings import FAULTY, ROWS

TABLE = Path(__file__).resolve().parent / "rewritten.tsv"
PORTS = [1, 2, 3]
IN_PORT = 1

# Wireshark's names of what a test of a checksum gave; 0 is bad.
STATUSES = [f"{protocol}.checksum.status" for protocol in ["ip", "tcp", "udp", "icmp", "icmpv6"]]
TESTED = [word for name in ["ip", "tcp", "udp"] for word in ("-o", f"{name}.check_checksum:TRUE")]
BAD = "0"

# The frame before, the flows, what came out as pairs of a port and bytes, and why Open vSwitch differs, if it does.
Rewritten = namedtuple("Rewritten", "name frame flows sent differs")
# What write_capture writes.
Captured = namedtuple("Captured", "bytes length", defaults=[None])


def source_of(place):
    """The source address of the row at a place, by which its flows know its frame."""
    return f"02:00:00:00:01:{place:02x}"


def with_source(frame, place):
    return frame[:6] + mac(source_of(place)) + frame[12:]


def flows_of(row, place):
    items = [f"dl_src={source_of(place)}", *([row.match] if row.match else [])]
    return [f"{','.join(items)},actions={row.actions}", *row.more]


def rewritten_rows():
    """Each row with what a running Open vSwitch sends."""
    rows = [(row, with_source(row.frame, place), flows_of(row, place)) for place, row in enumerate(ROWS)]
    with Switch(PORTS) as switch:
        switch.add_flows([flow for _, _, flows in rows for flow in flows])
        for row, frame, flows in rows:
            yield Rewritten(row.name, frame, flows, switch.sent(IN_PORT, frame), row.differs)


def bad_sums(frames):
    """For each frame the checksums that tshark finds wrong."""
    words = [word for name in STATUSES for word in ("-e", name)]
    with tempfile.NamedTemporaryFile(suffix=".pcap") as capture:
        table.write_capture(capture.name, [Captured(frame) for frame in frames])
        printed = table.tshark(*table.OPTIONS, *TESTED, "-r", capture.name, "-T", "fields", *words)
    return [[name for name, value in zip(STATUSES, line.split("\t")) if value == BAD] for line in printed.splitlines()]


def check_sums(rows):
    """Refuses rows that make a right checksum wrong."""
    before = bad_sums([row.frame for row in rows])
    pieces = [(row, was, data) for row, was in zip(rows, before, strict=True) for _, data in row.sent]
    after = bad_sums([data for _, _, data in pieces])
    for (row, was, _), now in zip(pieces, after, strict=True):
        if set(now) - set(was) and not row.differs.startswith(FAULTY):
            sys.exit(f"make_rewritten.py: {row.name}: wrong {', '.join(now)}")


def line_of(row):
    sent = " ".join(f"{port}:{data.hex()}" for port, data in row.sent)
    return "\t".join([row.name, row.frame.hex(), "; ".join(row.flows), sent, row.differs])


def read_table():
    """The rows of the table."""
    for line in TABLE.read_text("utf-8").splitlines()[1:]:
        name, frame, flows, sent, differs = line.split("\t")
        pieces = [(int(port), bytes.fromhex(data)) for port, data in (it.split(":") for it in sent.split())]
        yield Rewritten(name, bytes.fromhex(frame), flows.split("; "), pieces, differs)


def main():
    rows = list(rewritten_rows())
    check_sums(rows)
    TABLE.write_text("".join(line + "\n" for line in [version(), *map(line_of, rows)]), "utf-8")


if __name__ == "__main__":
    main()
