"""The captures of parts, appended to those of the run by a process of its own: so the next parts don't wait for it."""
import contextlib
import errno
import os
import struct

from .captures import FORMS, HEADER_SIZE, RECORD_SIZE, SECOND
from .helpers import Helper
from .refusals import FAILED, Refused, write_fault
from .remote import write_all

# Where the system can't copy from file to file by itself.
NOT_COPIED = (errno.EXDEV, errno.EINVAL, errno.ENOSYS, errno.EOPNOTSUPP, errno.EPERM)
PIECE = 1 << 20

# What is told behind the last capture.
END = None


class Appender:
    """The process, and the captures that it was told: the number of a part, a name, and the frame of the tool's own
    in that part. Where the process is lost, another one begins again with the first capture, once."""

    def __init__(self, folder, final, tell):
        self.folder, self.final, self.tell = folder, final, tell
        self.captures, self.was_lost, self.helper = [], False, Helper(self.serve)

    def append(self, number, name, opener):
        """Has a capture appended. Raises why one of those before can't be."""
        self.say((number, name, opener))
        if self.helper.pipe.poll():
            self.hear()

    def finish(self):
        """Waits until all are appended."""
        self.say(END)
        while not self.hear():
            continue

    def say(self, capture):
        self.captures.append(capture)
        self.send([capture])

    def send(self, captures):
        # Where the process is lost, this is found out when it is listened to.
        with contextlib.suppress(OSError):
            for capture in captures:
                self.helper.pipe.send(capture)

    def hear(self):
        """Whether the process tells that all are appended. Raises what it tells else."""
        try:
            fault = self.helper.pipe.recv()
        except (EOFError, OSError):
            self.begin_again()
            return False
        if fault:
            raise fault
        return True

    def begin_again(self):
        self.helper.dismiss()
        said = f"the process that joins parts ended by itself, with {self.helper.process.exitcode}"
        if self.was_lost:
            raise Refused(FAILED, note=said)
        self.was_lost = True
        self.tell(f"{said}; it is tried once more")
        self.helper = Helper(self.serve)
        self.send(self.captures)

    def close(self):
        self.helper.process.terminate()
        self.helper.dismiss()

    # ---- in the process

    def serve(self, pipe):
        """Appends captures as they are told, and tells the first fault, or that there was none."""
        fault, files = None, {}
        try:
            while (capture := pipe.recv()) is not END:
                self.copy(files, *capture)
        except EOFError:
            return
        except Refused as refused:
            fault = refused
        for file in files.values():
            file.close()
        with contextlib.suppress(OSError):
            pipe.send(fault)

    def copy(self, files, number, name, opener):
        """Appends the frames of a part to the file that has those of the parts before."""
        try:
            with open(self.folder.part(number, name), "rb", buffering=0) as part:
                if name not in files:
                    files[name] = open(self.folder.joined(name), "wb", buffering=0)
                    files[name].write(part.read(HEADER_SIZE))
                begin = HEADER_SIZE + RECORD_SIZE * begins_with(part, opener)
                copy(part, begin, files[name])
        except OSError as why:
            raise write_fault(self.final(name), why.strerror)


def begins_with(file, opener):
    """Whether a file of copies begins with a frame of the tool's own."""
    if not opener:
        return False
    begin = os.pread(file.fileno(), HEADER_SIZE + RECORD_SIZE, 0)
    if len(begin) < HEADER_SIZE + RECORD_SIZE:
        return False
    form = FORMS[begin[:4]]
    seconds, fraction = struct.unpack_from(form.order + "II", begin, HEADER_SIZE)
    return seconds * SECOND + fraction * form.unit == opener.time


def copy(source, begin, target):
    """Appends the bytes of a file from a place on to another one."""
    left = os.fstat(source.fileno()).st_size - begin
    try:
        while left > 0 and (count := os.copy_file_range(source.fileno(), target.fileno(), left, begin)):
            begin, left = begin + count, left - count
    except OSError as why:
        if why.errno not in NOT_COPIED:
            raise
    source.seek(begin)
    while left > 0 and (piece := source.read(PIECE)):
        write_all(target, piece)
        left -= len(piece)
