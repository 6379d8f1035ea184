"""One part: its inputs, its run, and what is kept of it.

Each part that is done has a folder, with a record of what was put into it and what came out. A later run of the same
command finds it there, and doesn't run the part again where its inputs and the program are the same.
"""
import contextlib
import fcntl
import hashlib
import json
import os
import re
import shutil
import struct
import zlib
from collections import namedtuple

from .captures import FORMS, RECORD_SIZE, SECOND
from .refusals import DONE, Refused, read_fault, write_fault
from .remote import Ended, write_file

MILLISECOND = 1000000
RECORD_NAME, SUMMARY_NAME = "record", "summary"
EDITS, MIRRORS, OUT = "edits", "mirrors", "out"

COUNTED = re.compile(rb"^cookie=\S+, table=\d+, n_packets=([1-9]\d*), n_bytes=(\d+), .* # rule=(\d+)$", re.MULTILINE)
GONE = re.compile(rb"^# gone rule=(\d+) n_packets=([1-9]\d*) n_bytes=(\d+)$", re.MULTILINE)
COUNT = re.compile(r"([a-z]+)=(\d+)")

# How much of a capture is in memory at once as inputs are made of it.
PIECE = 1 << 18

# What parts are made of: the program, its checksum, the options for it, the edits, the mirrors file or None, and the
# ports of the words.
Plan = namedtuple("Plan", "program checksum options edits mirrors ports")
# What becomes of a part: how its run ended, where it ran, its record where it is done, and whether it was run for
# that.
Outcome = namedtuple("Outcome", "part ended where record is_run", defaults=[True])
# A frame of the tool's own that stands before all others of a part: its port, and when it comes in.
Opener = namedtuple("Opener", "port time")


def opener_of(part, origin):
    """Flows are told by milliseconds from the first frame of their run. So where the first frame of a part doesn't
    come whole milliseconds after that of all, which is the origin, one without bytes is put before it that does."""
    if origin is None or part.first is None:
        return None
    time = part.first - (part.first - origin.first) % MILLISECOND
    return None if time == part.first else Opener(origin.first_port, time)


def empty_record(form, time):
    """A record of a frame without bytes."""
    seconds, rest = divmod(time, SECOND)
    return struct.pack(form.order + "IIII", seconds, rest // form.unit, 0, 0)


# ---- the folder of all parts


class Folder:
    """The folder of parts beside the outputs, which one run at a time has."""

    def __init__(self, out, tell):
        self.name, self.tell, self.lock = f"{out}.parts", tell, None

    def __enter__(self):
        try:
            with contextlib.suppress(FileExistsError):
                os.mkdir(self.name)
            self.lock = os.open(self.name, os.O_RDONLY)
            self.wait()
            self.sweep()
        except OSError as why:
            raise write_fault(self.name, why.strerror)
        return self

    def __exit__(self, *_):
        with contextlib.suppress(OSError):
            self.sweep()
        os.close(self.lock)

    def wait(self):
        """Waits until no other run has the folder."""
        try:
            fcntl.flock(self.lock, fcntl.LOCK_EX | fcntl.LOCK_NB)
        except BlockingIOError:
            self.tell(f"another run is at work in {self.name}; this one waits for its end")
            fcntl.flock(self.lock, fcntl.LOCK_EX)

    def sweep(self):
        """Removes what is under way, of which names begin with a dot."""
        for name in os.listdir(self.name):
            if name.startswith("."):
                self.remove(name)

    def remove(self, name):
        path = self.path(name)
        shutil.rmtree(path) if os.path.isdir(path) else os.remove(path)

    def path(self, *names):
        return os.path.join(self.name, *names)

    def fresh(self, name):
        """An empty folder of this name."""
        path = self.path(name)
        shutil.rmtree(path, ignore_errors=True)
        os.mkdir(path)
        return path

    def part(self, number, *names):
        return self.path(f"{number:06}", *names)

    def attempt(self, number):
        """Where a process makes a part: another one may still be at it."""
        return self.path(f".{number:06}-{os.getpid()}")

    def joined(self, name):
        """Where an output is until it is whole."""
        return self.path(f".joined-{name}")

    def unpacked(self, number, port):
        """The records of a part whose trace is unpacked as it is read."""
        return self.path(f".unpacked-{number:06}-{port}")

    def forget_unpacked(self, part):
        """Removes the records of a part that were unpacked."""
        for port, stretch in part.stretches.items():
            if stretch.file == self.unpacked(part.number, port):
                os.remove(stretch.file)

    def write(self, name, pieces):
        try:
            write_file(name, pieces)
        except OSError as why:
            raise write_fault(name, why.strerror)

    def leave_parts(self, count):
        """Leaves of the parts what can't be put together, and nothing of parts of an earlier run."""
        for name in os.listdir(self.name):
            if not name.isdecimal():
                continue
            if not 1 <= int(name) <= count:
                self.remove(name)
                continue
            for file in os.listdir(self.path(name)):
                if file == RECORD_NAME or file.endswith((".pcap", ".netflow")):
                    os.remove(self.path(name, file))


# ---- the inputs of a part


class Capture:
    """The capture of a part at a port: what stands before its records, and these, piece by piece as they are read."""

    def __init__(self, name, before, stretch):
        self.name, self.before, self.stretch = name, before, stretch

    def __iter__(self):
        yield from self.before
        yield from self.records()

    def records(self):
        file, at, end = self.stretch
        try:
            with open(file, "rb", buffering=0, closefd=isinstance(file, str)) as file:
                while at < end:
                    piece = os.pread(file.fileno(), min(PIECE, end - at), at)
                    if not piece:
                        raise read_fault(self.name)
                    yield piece
                    at += len(piece)
        except OSError:
            raise read_fault(self.name)


class Sum:
    """The size of a file and its checksum, as its pieces go by. It is that of gzip, since it is much sooner made than
    one that nobody can forge."""

    def __init__(self):
        self.size = self.checksum = 0

    def over(self, pieces):
        for piece in pieces:
            self.size += len(piece)
            self.checksum = zlib.crc32(piece, self.checksum)
            yield piece

    def end(self, pieces):
        """Has all pieces go by."""
        for _ in self.over(pieces):
            pass
        return self


# ---- one part


class Work:
    """A part that is to be done. It may have a frame of the tool's own before all others."""

    def __init__(self, plan, folder, part, opener):
        self.plan, self.folder, self.part, self.opener = plan, folder, part, opener

    @property
    def words(self):
        mirrors = [f"--mirrors={MIRRORS}"] if self.plan.mirrors is not None else []
        ports = [f"{port}={port}.pcap" if port in self.part.stretches else f"{port}=" for port in self.plan.ports]
        return [*self.plan.options, *mirrors, EDITS, OUT, *ports]

    def inputs(self, headers):
        """The files of the part, each in pieces, by name."""
        part = self.part
        edits = self.plan.edits.of_part(part.first, part.last, self.opener is not None)
        files = {EDITS: [edits]}
        if self.plan.mirrors is not None:
            files[MIRRORS] = [self.plan.mirrors]
        for port, stretch in part.stretches.items():
            header = headers[port]
            own = self.opener is not None and self.opener.port == port
            before = [header, empty_record(FORMS[header[:4]], self.opener.time)] if own else [header]
            files[f"{port}.pcap"] = Capture(f"{port}.pcap", before, stretch)
        return files

    def key(self, sums):
        """By what it is known that a part was done before: the program, the words and the inputs, by their sums."""
        files = [[name, it.size, it.checksum] for name, it in sums.items()]
        about = json.dumps([self.plan.checksum, self.words, files])
        return hashlib.sha256(about.encode()).hexdigest()

    def key_of(self, inputs):
        return self.key({name: Sum().end(pieces) for name, pieces in inputs.items()})

    def done_before(self, headers):
        """The outcome of the part, where it was done before; or None."""
        record = self.record()
        if not record or record["key"] != self.key_of(self.inputs(headers)):
            return None
        return Outcome(self.part, Ended(DONE, ""), None, record, False)

    def made_ready(self, headers):
        """An attempt at the part, with its inputs written."""
        attempt = Attempt(self)
        try:
            attempt.write(self.inputs(headers))
        except (OSError, Refused):
            attempt.remove()
            raise
        return attempt

    def record(self):
        """The record of the part where it was done, with all that it has made still there; or None."""
        try:
            with open(self.folder.part(self.part.number, RECORD_NAME), encoding="ascii") as file:
                record = json.load(file)
            sizes = {name: os.path.getsize(self.folder.part(self.part.number, name)) for name in record["sizes"]}
        except (OSError, ValueError, KeyError, TypeError):
            return None
        return record if record["sizes"] == sizes else None


class Attempt:
    """A part under way: the folder of its run, until what that has made is kept."""

    def __init__(self, work):
        self.work, self.inputs, self.key = work, (), None
        self.path = work.folder.attempt(work.part.number)
        self.remove()
        os.mkdir(self.path)

    def write(self, inputs):
        self.pass_on(inputs, lambda name, pieces: write_file(os.path.join(self.path, name), pieces))

    def pass_on(self, inputs, take):
        """Has the inputs taken, file by file, and gives what was made of them. By what they are known is found out as
        they go by, so that they are read once."""
        sums = {name: Sum() for name in inputs}
        taken = {name: take(name, sums[name].over(pieces)) for name, pieces in inputs.items()}
        self.inputs, self.key = sums.keys(), self.work.key(sums)
        return taken

    def outcome(self, ended, where=None):
        """What becomes of the part as its run has ended so."""
        record = None
        try:
            if ended.status == DONE:
                record = self.keep(ended.text)
        except OSError as fault:
            ended = ended_by(fault, self.work.folder)
        finally:
            self.remove()
        return Outcome(self.work.part, ended, where, record)

    def keep(self, text):
        """Makes the folder of the part of what its run has made, and gives its record."""
        for name in os.listdir(self.path):
            if name in self.inputs and name != EDITS:
                os.remove(os.path.join(self.path, name))
        made = [name for name in os.listdir(self.path) if name != EDITS]
        record = {
            "key": self.key,
            "counts": {name: int(count) for name, count in COUNT.findall(text)},
            "rules": rules_in(os.path.join(self.path, f"{OUT}.rules")),
            "sizes": {name: os.path.getsize(os.path.join(self.path, name)) for name in made},
        }
        write_file(os.path.join(self.path, SUMMARY_NAME), [text.encode()])
        write_file(os.path.join(self.path, RECORD_NAME), [json.dumps(record).encode()])
        folder = self.work.folder.part(self.work.part.number)
        shutil.rmtree(folder, ignore_errors=True)
        os.rename(self.path, folder)
        return record

    def remove(self):
        shutil.rmtree(self.path, ignore_errors=True)


def ended_by(fault, folder):
    """How a part ends whose files can't be read or written."""
    if not isinstance(fault, Refused):
        fault = write_fault(fault.filename or folder.name)
    return Ended(fault.status, fault.text)


def rules_in(name):
    """The packets and the bytes of the rules that met some, by their numbers."""
    with open(name, "rb") as file:
        text = file.read()
    counts = {int(number): (int(packets), int(size)) for packets, size, number in COUNTED.findall(text)}
    return counts | {int(number): (int(packets), int(size)) for number, packets, size in GONE.findall(text)}
