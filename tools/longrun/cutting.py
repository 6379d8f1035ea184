"""Where traces are cut into parts.

A cut is a time at which each trace can be cut: in each of them the frames from that time on stand behind all others.
So the frames of a part come before those of the next one in their traces and in time, and each is in the block in
which it is in the whole run. Where times rise along the traces, they can be cut at every time; where they fall, all
from a time up to a greater one that stands before it stay together.
"""
from collections import namedtuple

from .captures import HEADER_SIZE, MOST_FRAMES, MOST_TRACE_BYTES, RECORD_SIZE, SECOND, Run, Trace
from .edits import MOST_CHANGES, MOST_SYNCS
from .refusals import over_limit

# Behind all times.
END = (1 << 32) * SECOND
# The bytes of a part's traces, but for frames that stay together.
PART_BYTES = 1 << 26

# The most of a part: frames, bytes of its records, and times at which rules change.
Most = namedtuple("Most", "frames bytes changes")
# What a part has of a trace: from where to where in which file, which is told by its number or by its name.
Stretch = namedtuple("Stretch", "file begin end")
# A part by its number, counted from 1: its stretches by port, the times of its first and its last frame and the port
# of the first one, and how many frames it has. Without a frame it has neither times nor port.
Part = namedtuple("Part", "number stretches first first_port last frames")


class Cutter:
    """Cuts the traces of a command."""

    def __init__(self, command, edits, folder, tell):
        self.command, self.edits, self.folder, self.number = command, edits, folder, 0
        self.traces = [Trace(port, name, tell) for port, name in command.traces.items() if name]
        # A part may get a frame of the tool's own.
        own = 1 if command.netflow else 0
        room = MOST_TRACE_BYTES - len(self.traces) * HEADER_SIZE - own * RECORD_SIZE
        self.hard = Most(MOST_FRAMES - own, room, MOST_CHANGES)
        self.soft = Most(min(command.part_frames, self.hard.frames), PART_BYTES, MOST_CHANGES)

    def parts(self):
        """The parts, one after the other, of which there is one at least; and None wherever a piece was read, so that
        there is time for something else."""
        while not self.has_ended():
            end = self.next_end()
            if end is None:
                self.read_on()
                yield None
            else:
                yield self.part(end)
        if not self.number:
            yield self.part(END)

    def close(self):
        for trace in self.traces:
            trace.source.stop()

    # ---- what is known

    def known(self):
        """The time before which all frames were read."""
        return min((END if it.has_ended else it.time_at(it.known) for it in self.traces), default=END)

    def has_ended(self):
        """Whether all frames are in parts."""
        return all(trace.has_ended and not trace.runs for trace in self.traces)

    def read_on(self):
        """Reads on in the trace that is known the least far."""
        least = min((it for it in self.traces if not it.has_ended), key=lambda trace: trace.time_at(trace.known))
        least.read_on()

    def low(self):
        """A time behind which a part has a frame: the least of those that stand first in their traces. None where
        there is no frame."""
        return min((it.time_at(it.runs[0].times[0]) for it in self.traces if it.runs), default=None)

    def least(self):
        """The least time of a frame that is in no part yet."""
        return min(trace.time_at(run.least) for trace in self.traces for run in trace.runs)

    # ---- where the next part ends

    def next_end(self):
        """The time at which the next part ends, or None where more has to be read to know."""
        known, low = self.known(), self.low()
        if low is None or self.fits(known, self.soft):
            return None if known < END else END
        return self.end_within(known, low)

    def fits(self, end, most):
        """Whether the frames before a time are no more than a part may have."""
        counts = [trace.count_before(trace.mark_at(end)) for trace in self.traces]
        frames, size = sum(count for count, _ in counts), sum(size for _, size in counts)
        return frames <= most.frames and size <= most.bytes and self.changes(end) <= most.changes

    def changes(self, end):
        """How often rules change between the frames before a time."""
        return self.edits.changes_between(self.least(), end) if self.edits.changes else 0

    def end_within(self, known, low):
        """The greatest time up to which a part isn't too large and at which the traces can be cut; or else the least
        one at which they can be cut at all, where what stands before it is within the limits. None where more has to
        be read."""
        end = self.lowered(self.greatest(low, known))
        if end > low:
            return end
        end = self.raised(low + 1)
        within = min(end, known)
        if not self.fits(within, self.hard):
            raise self.too_much(within)
        return end if end <= known else None

    def greatest(self, low, known):
        """The greatest time, from one that fits to another, up to which a part isn't too large."""
        high = min(known, max(trace.time_at(trace.newest) for trace in self.traces) + 1)
        while low < high:
            middle = (low + high + 1) // 2
            if self.fits(middle, self.soft):
                low = middle
            else:
                high = middle - 1
        return low

    def lowered(self, end):
        """The greatest time up to this one at which all traces can be cut."""
        return self.moved(end, lambda trace, knot: trace.time_at(knot[0]))

    def raised(self, end):
        """The least time from this one on at which all traces can be cut."""
        return self.moved(end, lambda trace, knot: trace.time_at(knot[1]) + 1)

    def moved(self, end, beside):
        """Moves a time, by what is beside a span of a trace, until no trace has a span there."""
        while True:
            knots = ((trace, trace.knot_at(trace.mark_at(end))) for trace in self.traces)
            found = next(((trace, knot) for trace, knot in knots if knot), None)
            if not found:
                return end
            end = beside(*found)

    def too_much(self, end):
        """Why frames that stay together are refused."""
        begin = "%d.%09d" % divmod(self.low(), SECOND)
        why = f"from {begin} on frames stay together, since their times are the same or go back"
        if not self.fits(end, Most(END, self.hard.bytes, END)):
            return over_limit("trace-bytes", MOST_TRACE_BYTES, why)
        if not self.fits(end, Most(self.hard.frames, END, END)):
            return over_limit("frames", MOST_FRAMES, why)
        return over_limit("syncs", MOST_SYNCS, why)

    # ---- a part

    def part(self, end):
        """The part of the frames before a time."""
        self.number += 1
        taken = {trace: trace.take(trace.mark_at(end)) for trace in self.traces}
        runs = [(trace, run) for trace in self.traces for run in taken[trace]]
        stretches = {trace.port: self.stretch(trace, taken[trace]) for trace in self.traces}
        first, port = min(((trace.time_at(run.least), trace.port) for trace, run in runs), default=(None, None))
        last = max((trace.time_at(run.marks[-1]) for trace, run in runs), default=None)
        return Part(self.number, stretches, first, port, last, sum(len(run.times) for _, run in runs))

    def stretch(self, trace, runs):
        """Where the records of a part stand. Those of a trace that can't be read again are written to a file."""
        size = sum(run.place(len(run.times)) - run.place(0) for run in runs)
        if trace.source.is_plain:
            return Stretch(trace.source.file.fileno(), trace.begin - size, trace.begin)
        name = self.folder.unpacked(self.number, trace.port)
        self.folder.write(name, map(Run.bytes, runs))
        return Stretch(name, 0, size)

    def progress(self):
        """How many bytes of all captures were read, and how many they have; 0 and 0 where that isn't known."""
        told = [trace.source.progress() for trace in self.traces]
        return tuple(map(sum, zip(*told))) if told and all(size for _, size in told) else (0, 0)
