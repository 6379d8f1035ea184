"""Capture files: the traces of the ports are read, and the files of what leaves by them are made."""
import struct
from collections import namedtuple

from .refusals import check_limit, check_trace

MOST_TRACE_BYTES = 268435456
MOST_FRAMES = 131072
SNAP_LENGTH = 262144

# In nanoseconds.
SECOND = 1000000000
MICROSECOND = 1000
NANOSECOND = 1

Frame = namedtuple("Frame", "time port place bytes")
# How a trace has its numbers, as struct names it, and the unit of its fractions of a second.
Format = namedtuple("Format", "order unit")

# By the first four bytes of a file.
FORMATS = {
    b"\xd4\xc3\xb2\xa1": Format("<", MICROSECOND),
    b"\x4d\x3c\xb2\xa1": Format("<", NANOSECOND),
    b"\xa1\xb2\xc3\xd4": Format(">", MICROSECOND),
    b"\xa1\xb2\x3c\x4d": Format(">", NANOSECOND),
}


def read_format(data, name):
    check_trace(len(data) >= 24, name, "short header")
    check_trace(data[:4] in FORMATS, name, "magic")
    form = FORMATS[data[:4]]
    major, minor, _, _, _, link_type = struct.unpack_from(form.order + "HHIIII", data, 4)
    check_trace((major, minor) == (2, 4), name, f"version {major}.{minor}")
    check_trace(link_type & 0xFFFF == 1, name, f"link type {link_type & 0xFFFF}")
    return form


def read_frames(data, form, port, name, frames_left):
    frames, at = [], 24
    while at < len(data):
        check_limit(len(frames) < frames_left, "frames", MOST_FRAMES)
        begin, end = at, at + 16
        check_trace(end <= len(data), name, f"short record at {begin}")
        seconds, fraction, length, _ = struct.unpack_from(form.order + "IIII", data, begin)
        check_trace(length <= SNAP_LENGTH, name, f"too long at {begin}")
        at = end + length
        check_trace(at <= len(data), name, f"short record at {begin}")
        check_trace(fraction * form.unit < SECOND, name, f"fraction at {begin}")
        frames.append(Frame(seconds * SECOND + fraction * form.unit, port, len(frames) + 1, data[end:at]))
    return frames


def read_traces(traces, read):
    """The frames of each port, and the finest unit of the traces. The limits are on all traces together."""
    bytes_left, frames_left, frames, units = MOST_TRACE_BYTES, MOST_FRAMES, {}, [MICROSECOND]
    for port, name in traces.items():
        frames[port] = []
        if name:
            data = read(name)
            check_limit(len(data) <= bytes_left, "trace-bytes", MOST_TRACE_BYTES)
            form = read_format(data, name)
            frames[port] = read_frames(data, form, port, name, frames_left)
            bytes_left -= len(data)
            frames_left -= len(frames[port])
            units.append(form.unit)
    return frames, min(units)


def write_trace(frames, unit):
    magic = next(magic for magic, form in FORMATS.items() if form == Format("<", unit))
    records = [magic + struct.pack("<HHIIII", 2, 4, 0, 0, SNAP_LENGTH, 1)]
    for frame in frames:
        seconds, rest, length = frame.time // SECOND, frame.time % SECOND, len(frame.bytes)
        records += [struct.pack("<IIII", seconds, rest // unit, length, length), frame.bytes]
    return b"".join(records)
