"""Traces as they are read, piece by piece: their records, by where they stand and when they came in.

A time is kept as a number whose upper half is its seconds and whose lower half is the fraction, in the unit of its
trace: so the times of a trace are in the order of these numbers. Between traces times are compared in nanoseconds.
"""
import os
import shutil
import stat
import struct
import subprocess
import sys
import tempfile
from bisect import bisect_left
from collections import namedtuple

from .refusals import BAD_TRACE, Refused, read_fault

# What a run takes at most, and the greatest frame.
MOST_FRAMES, MOST_TRACE_BYTES = 131072, 268435456
LONGEST_FRAME = 262144

HEADER_SIZE, RECORD_SIZE = 24, 16
ETHERNET = 1
# In nanoseconds.
SECOND, MICROSECOND = 1000000000, 1000

# How much is read at once: more than the greatest record.
CHUNK = 1 << 19
# How many records of one length are looked for at first, and at most at once; and how many of different lengths are
# read before they are looked for again.
PROBED, MOST_ALIKE, MOST_MIXED = 32, 8192, 1024

# The lower half of a time, and where the bytes of a number of eight stand on this machine, the least first.
LOW_HALF = 0xFFFFFFFF
PLACES = range(8) if sys.byteorder == "little" else range(7, -1, -1)

# How a trace has its numbers, as struct names it, and the unit of its fractions of a second.
Form = namedtuple("Form", "order unit")

FORMS = {
    b"\xd4\xc3\xb2\xa1": Form("<", 1000),
    b"\x4d\x3c\xb2\xa1": Form("<", 1),
    b"\xa1\xb2\xc3\xd4": Form(">", 1000),
    b"\xa1\xb2\x3c\x4d": Form(">", 1),
}


# ---- bytes

# By the first bytes of a file: what unpacks it, and the package that has this.
Unpacker = namedtuple("Unpacker", "words package")

COMPRESSED = {
    b"\x1f\x8b": Unpacker(["gzip", "-dc"], "gzip"),
    b"\x28\xb5\x2f\xfd": Unpacker(["zstd", "-dcq"], "zstd"),
}
PCAPNG = b"\x0a\x0d\x0d\x0a"
# In nanoseconds, so that no time is cut.
CONVERTER = Unpacker(["editcap", "-F", "nsecpcap", "-", "-"], "wireshark-common")


class Source:
    """The bytes of a trace, as they stand in its file or as commands unpack them."""

    def __init__(self, name, tell):
        self.name, self.running, self.complaints = name, [], None
        try:
            self.file = open(name, "rb", buffering=0)
            self.is_regular = stat.S_ISREG(os.fstat(self.file.fileno()).st_mode)
            # A pipe is read as it comes.
            self.unpackers = self.needed() if self.is_regular else []
        except OSError as why:
            raise read_fault(name, f"{name}: {why.strerror}")
        self.out = self.started(self.unpackers)
        if self.unpackers:
            tell(f"{name} is read by {' | '.join(' '.join(it.words) for it in self.unpackers)}")

    @property
    def is_plain(self):
        """Whether the bytes are those of the file, so that they can be read again."""
        return self.is_regular and not self.unpackers

    def needed(self):
        """The commands that make a trace of the file."""
        begin = os.pread(self.file.fileno(), 4, 0)
        unpackers = [unpacker for magic, unpacker in COMPRESSED.items() if begin.startswith(magic)]
        if unpackers:
            begin = read_all(self.started(unpackers), len(PCAPNG))
            self.stop()
            self.file.seek(0)
        return unpackers + [CONVERTER] * (begin == PCAPNG)

    def started(self, unpackers):
        """Starts commands, each of which reads what the one before writes, and gives what the last one writes."""
        for name, package in ((unpacker.words[0], unpacker.package) for unpacker in unpackers):
            if not shutil.which(name):
                why = f"{self.name} is read by {name}, which is not installed: apt-get install {package}"
                raise read_fault(self.name, why)
        out, self.complaints = self.file, tempfile.TemporaryFile()
        for unpacker in unpackers:
            process = subprocess.Popen(
                unpacker.words, stdin=out, stdout=subprocess.PIPE, stderr=self.complaints, bufsize=0
            )
            if self.running:
                out.close()
            self.running.append(process)
            out = process.stdout
        return out

    def read(self, size):
        """So many bytes, or fewer at the end."""
        try:
            data = read_all(self.out, size)
        except OSError as why:
            raise read_fault(self.name, f"{self.name}: {why.strerror}")
        if len(data) < size:
            self.check_end()
        return data

    def check_end(self):
        """Raises what the commands say of the file. Where it is cut editcap says so, but ends with 0."""
        ended = [process.wait() for process in self.running]
        self.complaints.seek(0)
        said = self.complaints.read().decode(errors="replace").strip()
        if any(ended) or (CONVERTER in self.unpackers and said):
            raise read_fault(self.name, said)

    def stop(self):
        for process in self.running:
            process.kill()
            process.wait()
        self.running = []

    def progress(self):
        """How many bytes of the file were read, and how many it has; or nothing of both where that isn't known."""
        if not self.is_regular:
            return 0, 0
        return os.lseek(self.file.fileno(), 0, os.SEEK_CUR), os.fstat(self.file.fileno()).st_size


def read_all(stream, size):
    """So many bytes of a stream that gives some at a time, or fewer at its end."""
    pieces = []
    while size and (piece := stream.read(size)):
        pieces.append(piece)
        size -= len(piece)
    return b"".join(pieces)


# ---- records


class Run:
    """Records one after the other: where they begin in a piece of the trace, and their times. marks has for each of
    them the greatest time up to it in the whole trace; where these are the times themselves, the run is rising."""

    def __init__(self, base, starts, end, times, marks=None):
        self.base, self.starts, self.end, self.times, self.marks, self.data = base, starts, end, times, marks, None
        self.least = None if not times else times[0] if self.is_rising else min(times)

    def place(self, at):
        """Where in the trace the record of this number begins, or what is behind the last one."""
        return self.base + (self.starts[at] if at < len(self.times) else self.end)

    def split(self, at):
        """The records before a number, and those from it on."""
        return self.some(slice(None, at), self.starts[at]), self.some(slice(at, None), self.end)

    def some(self, numbers, end):
        times = self.times[numbers]
        run = Run(self.base, self.starts[numbers], end, times, times if self.is_rising else self.marks[numbers])
        run.data = self.data
        return run

    @property
    def is_rising(self):
        return self.marks is self.times

    def bytes(self):
        return memoryview(self.data)[self.starts[0] : self.end]


class Records:
    """Reads records out of pieces of a trace. Raises the first fault."""

    def __init__(self, name, form):
        self.name, self.form = name, form
        self.record = struct.Struct(form.order + "III")
        self.whole = SECOND // form.unit
        # Where the bytes of a number stand in a record, the least first.
        self.bytes = range(4) if form.order == "<" else range(3, -1, -1)

    def fault(self, reason, at):
        return Refused(BAD_TRACE, f"{self.name}: {reason} at {at}\n")

    def runs(self, base, data):
        """The whole records in a piece of the trace that begins at base, in runs, and where the rest begins."""
        runs, at = [], 0
        while at < len(data):
            count = self.count_alike(data, at)
            run = self.alike(base, data, at, count) if count >= PROBED else self.mixed(base, data, at)
            if not run.times:
                break
            runs.append(run)
            at = run.end
        return runs, at

    def count_alike(self, data, at):
        """How many records from here on have one length."""
        if at + RECORD_SIZE > len(data):
            return 0
        size = RECORD_SIZE + self.record.unpack_from(data, at)[2]
        room = (len(data) - at) // size
        for most in (PROBED, MOST_ALIKE):
            most = min(most, room)
            count = min(leading(data[at + 8 + byte : at + most * size : size]) for byte in range(4))
            if count < most:
                break
        return count

    def alike(self, base, data, at, count):
        """A run of records of one length. Their numbers are read all at once, byte by byte."""
        size = RECORD_SIZE + self.record.unpack_from(data, at)[2]
        end, numbers = at + count * size, bytearray(8 * count)
        for place, byte in enumerate(self.bytes):
            numbers[PLACES[place] :: 8] = data[at + 4 + byte : end : size]
            numbers[PLACES[4 + place] :: 8] = data[at + byte : end : size]
        # So they take less memory than as a list.
        times = memoryview(numbers).cast("Q")
        listed = times.tolist()
        rises = listed == sorted(listed)
        wrong = self.wrong_fraction(listed, rises)
        if wrong is not None:
            raise self.fault("fraction", base + at + wrong * size)
        return Run(base, range(at, end, size), end, times, times if rises else None)

    def wrong_fraction(self, times, rises):
        """The first of these times whose fraction is a second or more, or None."""
        seconds = range((times[0] >> 32) + 1, (times[-1] >> 32) + 1)
        if rises and len(seconds) < len(times):
            # The greatest fraction of a second is that of its last time.
            lasts = (times[bisect_left(times, second << 32) - 1] for second in seconds)
            if all(time & LOW_HALF < self.whole for time in (*lasts, times[-1])):
                return None
        return next((at for at, time in enumerate(times) if time & LOW_HALF >= self.whole), None)

    def mixed(self, base, data, at):
        """A run of records of any lengths."""
        unpack, whole, starts, times = self.record.unpack_from, self.whole, [], []
        last, size, most = len(data) - RECORD_SIZE, len(data), MOST_MIXED
        while at <= last and len(starts) < most:
            seconds, fraction, length = unpack(data, at)
            if length > LONGEST_FRAME:
                raise self.fault("too long", base + at)
            end = at + RECORD_SIZE + length
            if end > size:
                break
            if fraction >= whole:
                raise self.fault("fraction", base + at)
            starts.append(at)
            times.append(seconds << 32 | fraction)
            at = end
        return Run(base, starts, at, times, times if times == sorted(times) else None)


def leading(column):
    """How many of these bytes, from the first on, are the same."""
    if column == column[:1] * len(column):
        return len(column)
    return len(column) - len(column.lstrip(column[:1]))


# ---- traces


class Trace:
    """The trace of a port: what was read of it and belongs to no part yet."""

    def __init__(self, port, name, tell):
        self.port, self.source = port, Source(name, tell)
        self.header = self.source.read(HEADER_SIZE)
        self.form = read_form(self.header, name)
        self.records = Records(name, self.form)
        # What was read: runs of records, with the greatest time of each and how many records there are up to its end;
        # a rest that is no whole record, and where that begins.
        self.runs, self.newests, self.counts = [], [], []
        self.rest, self.read_to, self.has_ended = b"", HEADER_SIZE, False
        # The greatest time so far, that of before the piece that was read last, and the time before which no record
        # may come any more.
        self.newest = self.known = self.floor = 0
        # Spans of times, their ends among them but not their begins, in which the trace can't be cut: a record of the
        # begin stands behind one of the end.
        self.knots = []
        # How many records are in parts, and where the others begin.
        self.count, self.begin = 0, HEADER_SIZE

    # -- times

    def time_at(self, mark):
        """The nanoseconds of a time of this trace."""
        return (mark >> 32) * SECOND + (mark & LOW_HALF) * self.form.unit

    def mark_at(self, time):
        """The least time of this trace that isn't before a number of nanoseconds."""
        seconds, rest = divmod(time, SECOND)
        return (seconds << 32) + -(-rest // self.form.unit)

    # -- reading

    def read_on(self):
        """Reads the next piece. Records before the times of the piece before it are all known then, unless times go
        back farther than over one piece."""
        piece = self.source.read(CHUNK)
        self.has_ended = len(piece) < CHUNK
        data = self.rest + piece
        self.known = self.newest
        runs, end = self.records.runs(self.read_to, data)
        for run in runs:
            self.add(run)
        if not self.source.is_plain:
            for run in runs:
                run.data = data
        self.rest, self.read_to = data[end:], self.read_to + end
        if self.has_ended and self.rest:
            raise self.records.fault("short record", self.read_to)

    def add(self, run):
        """Adds a run, and finds where its times go back."""
        if run.times[0] < self.newest or not run.is_rising:
            marks, newest = [], self.newest
            for at, time in enumerate(run.times):
                if time < newest:
                    self.tie(run, at, time, newest)
                else:
                    newest = time
                marks.append(newest)
            run.marks = marks
        self.newest = run.marks[-1]
        self.append(run)

    def append(self, run):
        self.runs.append(run)
        self.newests.append(run.marks[-1])
        self.counts.append((self.counts[-1] if self.counts else self.count) + len(run.times))

    def tie(self, run, at, time, newest):
        """Keeps together all from a time up to a greater one, before which it stands in the trace."""
        if time < self.floor:
            raise self.records.fault("times go back too far", run.place(at))
        while self.knots and self.knots[-1][1] >= time:
            time = min(time, self.knots.pop()[0])
        self.knots.append((time, newest))

    # -- cutting

    def count_before(self, mark):
        """How many of the records come before a time, and how many bytes they have. Where the trace can be cut at
        this time these are all before it, and no others."""
        first = bisect_left(self.newests, mark)
        before = self.counts[first - 1] if first else self.count
        if first == len(self.runs):
            return before - self.count, self.read_to - self.begin
        run = self.runs[first]
        at = bisect_left(run.marks, mark)
        return before - self.count + at, run.place(at) - self.begin

    def knot_at(self, mark):
        """The span in which the trace can't be cut at this time, or None."""
        at = bisect_left(self.knots, mark, key=lambda knot: knot[1])
        return self.knots[at] if at < len(self.knots) and self.knots[at][0] < mark else None

    def take(self, mark):
        """Takes the records before a time, at which the trace can be cut."""
        count, size = self.count_before(mark)
        self.count, self.begin, self.floor = self.count + count, self.begin + size, mark
        self.knots = [knot for knot in self.knots if knot[1] >= mark]
        first = bisect_left(self.newests, mark)
        taken, left = self.runs[:first], self.runs[first:]
        if left and (at := bisect_left(left[0].marks, mark)):
            before, left[0] = left[0].split(at)
            taken.append(before)
        self.runs, self.newests, self.counts = [], [], []
        for run in left:
            self.append(run)
        return taken


def read_form(header, name):
    """The form of a trace by its header, or the first fault in it."""
    if len(header) < HEADER_SIZE:
        raise Refused(BAD_TRACE, f"{name}: short header\n")
    form = FORMS.get(header[:4])
    if not form:
        raise Refused(BAD_TRACE, f"{name}: magic\n")
    major, minor, _, _, _, link_type = struct.unpack_from(form.order + "HHIIII", header, 4)
    if (major, minor) != (2, 4):
        raise Refused(BAD_TRACE, f"{name}: version {major}.{minor}\n")
    if link_type & 0xFFFF != ETHERNET:
        raise Refused(BAD_TRACE, f"{name}: link type {link_type & 0xFFFF}\n")
    return form
