"""The flows of all parts, as one export of NetFlow version 5 (Cisco, "NetFlow Export Datagram Formats").

Each part tells its flows in the order of their first packets, by milliseconds from its own first frame, which came in
whole milliseconds after the first frame of all. So the flows of one class are joined by their numbers alone, but
where one would have more octets than a flow may: then it is found out, by runs of fewer packets of the part, with
which of them the next flow begins.
"""
import os
import struct

from .captures import FORMS, SECOND, Records
from .parts import EDITS, MILLISECOND, MIRRORS, OUT
from .refusals import DONE, Refused
from .remote import run, write_file

VERSION, MOST_RECORDS = 5, 30
MOST_OCTETS = MOST_NUMBER = 2**32 - 1
HEADER = struct.Struct(">HHIIII4x")
RECORD_SIZE = 48
# In a record: packets, octets, and the times of the first and the last packet; and the control bits.
COUNTS, COUNTS_AT, FLAGS_AT = struct.Struct(">IIII"), 16, 37
# Of a record in a trace: its time, and the lengths of a frame without bytes.
TIME_SIZE, NO_LENGTHS = 8, bytes(8)


def class_of(record):
    """What packets of a flow have in common: addresses, where they came in, ports, protocol and type of service."""
    return record[0:8] + record[12:14] + record[32:36] + record[38:40]


def records_of(datagrams):
    """The records of datagrams that stand one after the other."""
    at = 0
    while at < len(datagrams):
        count = HEADER.unpack_from(datagrams, at)[1]
        at += HEADER.size
        for _ in range(count):
            yield datagrams[at : at + RECORD_SIZE]
            at += RECORD_SIZE


class Flows:
    """The flows of the parts so far: their records in order, and where the newest of each class stands."""

    def __init__(self):
        self.records, self.newest = bytearray(), {}

    def joinable(self, datagrams):
        """The records of datagrams, each with the place of the flow that it may join, or None. Of one class the first
        joins the newest flow of the parts before, and a further one has begun because that was full."""
        met = set()
        for record in records_of(datagrams):
            name = class_of(record)
            yield record, name, None if name in met else self.newest.get(name)
            met.add(name)

    def add(self, datagrams, offset):
        """Joins the flows of frames that came in after all before. Their times are from so many milliseconds on."""
        for record, name, at in self.joinable(datagrams):
            packets, octets, first, last = COUNTS.unpack_from(record, COUNTS_AT)
            first, last = (first + offset) & MOST_NUMBER, (last + offset) & MOST_NUMBER
            if at is None:
                self.newest[name] = at = len(self.records)
                self.records += record
            else:
                known_packets, known_octets, first, _ = COUNTS.unpack_from(self.records, at + COUNTS_AT)
                packets, octets = packets + known_packets, octets + known_octets
                self.records[at + FLAGS_AT] |= record[FLAGS_AT]
            COUNTS.pack_into(self.records, at + COUNTS_AT, packets, octets, first, last)

    def overflow(self, datagrams):
        """Whether one of these flows would have too many octets where it joins the one before."""
        return any(
            at is not None and octets_of(self.records, at) + octets_of(record, 0) > MOST_OCTETS
            for record, _, at in self.joinable(datagrams)
        )

    def add_part(self, datagrams, offset, packets_of_part):
        """Joins the flows of a part, whose packets are asked for where they are needed."""
        if self.overflow(datagrams):
            packets, begin = packets_of_part(), 0
            while self.overflow(datagrams := packets.flows(begin, packets.count)):
                begin = self.add_fitting(packets, begin, offset)
        self.add(datagrams, offset)

    def add_fitting(self, packets, begin, offset):
        """Joins packets from a number on, up to the first one for which a flow has no room: the next flow of its
        class begins with that. Gives its number."""
        fitting, too_many = begin, packets.count
        while too_many - fitting > 1:
            middle = (fitting + too_many) // 2
            if self.overflow(packets.flows(begin, middle)):
                too_many = middle
            else:
                fitting = middle
        self.add(packets.flows(begin, fitting), offset)
        for record in records_of(packets.flows(fitting, too_many)):
            del self.newest[class_of(record)]
        return fitting

    def export(self, begin, end):
        """The datagrams of all flows, of a run whose first and last frames came in at these times."""
        if not self.records:
            return
        up, size = (end - begin) // MILLISECOND & MOST_NUMBER, MOST_RECORDS * RECORD_SIZE
        for at in range(0, len(self.records), size):
            some = self.records[at : at + size]
            before = at // RECORD_SIZE & MOST_NUMBER
            yield HEADER.pack(VERSION, len(some) // RECORD_SIZE, up, *divmod(end, SECOND), before) + some


def octets_of(records, at):
    return COUNTS.unpack_from(records, at + COUNTS_AT)[1]


class Packets:
    """The frames of a part, numbered in the order of time, port and place. Some of them can be looked at alone: the
    others are there without a byte then, so that each frame stays in its block."""

    def __init__(self, work, headers, folder):
        self.work, self.room = work, folder.fresh(".flows")
        self.inputs = work.inputs(headers)
        self.frames = {port: self.frames_at(port) for port in work.part.stretches}
        order = sorted(
            (time, port, place) for port, frames in self.frames.items() for place, (time, _) in enumerate(frames)
        )
        self.count = len(order)
        self.numbers = {(port, place): number for number, (_, port, place) in enumerate(order)}

    def frames_at(self, port):
        """The frames of a port: when each came in, and its record."""
        capture = self.inputs[f"{port}.pcap"]
        form, frames, data = FORMS[capture.before[0][:4]], [], b"".join(capture.records())
        runs, _ = Records(f"{port}.pcap", form).runs(0, data)
        for some in runs:
            for at, mark in enumerate(some.times):
                time = (mark >> 32) * SECOND + (mark & MOST_NUMBER) * form.unit
                frames.append((time, data[some.place(at) : some.place(at + 1)]))
        return frames

    def trace(self, port, begin, end):
        """The trace of a port with the frames from one number up to another."""
        yield from self.inputs[f"{port}.pcap"].before
        for place, (_, record) in enumerate(self.frames[port]):
            is_looked_at = begin <= self.numbers[port, place] < end
            yield record if is_looked_at else record[:TIME_SIZE] + NO_LENGTHS

    def flows(self, begin, end):
        """The flows of the frames from one number up to another."""
        for name in [EDITS, MIRRORS]:
            write_file(os.path.join(self.room, name), self.inputs.get(name, []))
        for port in self.frames:
            write_file(os.path.join(self.room, f"{port}.pcap"), [b"".join(self.trace(port, begin, end))])
        ended = run(self.work.plan.program, self.work.words, self.room)
        if ended.status != DONE:
            raise Refused(ended.status, note=f"part {self.work.part.number}, for its flows: {ended.text.strip()}")
        with open(os.path.join(self.room, f"{OUT}.netflow"), "rb") as file:
            return file.read()
