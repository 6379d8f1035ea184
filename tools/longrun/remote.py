"""What runs the program on the inputs of a part: a process of this machine, or a worker of Dask, to which this file
is sent.

So it needs nothing but Python, and there Dask.
"""
import hashlib
import os
import shutil
import subprocess
import tempfile
from collections import namedtuple

WRITE_FAULT = 6

# How the program ended, with what it printed. A status below 0 is that of a signal; None stands where it wasn't run.
Ended = namedtuple("Ended", "status text")


def checksum_of(program):
    """The checksum of a program's file."""
    with open(program, "rb") as file:
        return hashlib.sha256(file.read()).hexdigest()


def write_all(file, piece):
    rest = memoryview(piece)
    while rest:
        rest = rest[file.write(rest) :]


def write_file(name, pieces):
    with open(name, "wb", buffering=0) as file:
        for piece in pieces:
            write_all(file, piece)


class Running:
    """The program as it runs in a folder."""

    def __init__(self, program, words, folder):
        self.process = subprocess.Popen(
            [program, *words], cwd=folder, stdin=subprocess.DEVNULL, stdout=subprocess.PIPE, stderr=subprocess.PIPE
        )

    @property
    def streams(self):
        """What it prints to, which it does as it ends."""
        return [self.process.stdout, self.process.stderr]

    def ended(self):
        """Waits for its end."""
        text, complaint = self.process.communicate()
        status = self.process.returncode
        return Ended(status, (text if status == 0 else text + complaint).decode(errors="replace"))

    def stop(self):
        self.process.kill()
        self.process.wait()


def run(program, words, folder):
    """Runs the program in a folder. Where this process is ended, so is the program."""
    running = Running(program, words, folder)
    try:
        return running.ended()
    finally:
        running.stop()


def program_like(checksum, programs):
    """The first of these programs that is there with this checksum, or None."""
    for program in programs:
        found = shutil.which(program)
        if found and checksum_of(found) == checksum:
            return found
    return None


def run_remotely(programs, checksum, words, inputs):
    """Runs a part on a worker: how the program ended, its files by their names, and which worker this is."""
    from distributed import get_worker

    where, files = get_worker().address, {}
    program = program_like(checksum, programs)
    if not program:
        names = " or ".join(programs)
        return Ended(None, f"{where} has no program like that of this run by the name {names}"), {}, where
    try:
        with tempfile.TemporaryDirectory(prefix="long-run-") as folder:
            for name, data in inputs.items():
                write_file(os.path.join(folder, name), [data])
            ended = run(program, words, folder)
            for name in set(os.listdir(folder)) - set(inputs) if ended.status == 0 else ():
                with open(os.path.join(folder, name), "rb") as file:
                    files[name] = file.read()
    except OSError as why:
        return Ended(WRITE_FAULT, f"write fault: {why.filename} of {where}, {why.strerror}\n"), {}, where
    return ended, files, where
