#!/usr/bin/env python3
"""Runs the program with names that stand for several files at once, and with files that are none on a disk.

    python3 names_of_files.py PROGRAM

Outputs have the names of inputs, two ports have one trace, inputs and outputs are pipes and devices, a file stands where
a folder should, a file system becomes full, and standard output is closed. The status, the text and all files that are
there at the end have to be those that docs/FORMATS.md says, which are mostly those of the simulation with other names.
It prints each row that is otherwise, and ends with 1 where there is one. What may not be mounted here is told as skipped.
"""
import os
import subprocess
import sys
import tempfile
import threading

sys.dont_write_bytecode = True
from row_check import tell
from run_rows import DATAGRAM, WEB, trace
from simulation.captures import MOST_TRACE_BYTES
from simulation.flow_text import LIMITS
from whole_run import Ended, simulated
from workers import PATIENCE, wrong_in

BAD_TRACE, READ_FAULT, WRITE_FAULT, LIMIT = 4, 5, 6, 7
ROLES = ["edits", "steps", "mirrors", "one.pcap", "two.pcap"]
INPUTS = {
    "edits": b"in_port=1,actions=2\nin_port=2,actions=1\nsync 0\n",
    "steps": b"edit\nrx 1\nsnap 1 1\nedit\nsettle 1 1\n",
    "mirrors": b"select_src_port=1\n",
    "one.pcap": trace([DATAGRAM, bytes(60), bytes(61)] * 400),
    "two.pcap": trace([WEB, bytes(70), bytes(80)] * 400),
}
# Outputs of more bytes than a pipe holds.
LARGE = ["out.p1.pcap", "out.p2.pcap", "out.m1.pcap"]
# The bytes that a file system has for the outputs: for a part of the first.
ROOM = 65536
ZEROS = bytes(65536)
FIRST = "out.p1.pcap"


def words_of(names):
    """The words of a run whose files have other names than their roles, where such are given."""
    edits, steps, mirrors, one, two = (names.get(role, role) for role in ROLES)
    out = names.get("out", "out")
    return ["--steps", steps, "--netflow", "--mirrors", mirrors, edits, out, f"1={one}", f"2={two}"]


# ---- one run


class Room:
    """A folder with the inputs of a run, by their names, some of which may be pipes that threads fill or empty."""

    def __init__(self, folder, names):
        self.folder, self.words, self.threads, self.taken = folder, words_of(names), [], {}
        self.given = {names.get(role, role): INPUTS[role] for role in ROLES}
        for name, data in self.given.items():
            if not name.startswith("/"):
                self.write(name, data)

    def path(self, name):
        return os.path.join(self.folder, name)

    def write(self, name, data):
        with open(self.path(name), "wb") as file:
            file.write(data)

    def pipe(self, name, work):
        """Makes a pipe of this name, at whose other end a thread works."""
        if os.path.exists(self.path(name)):
            os.remove(self.path(name))
        os.mkfifo(self.path(name))
        self.threads.append(threading.Thread(target=work, args=(name,), daemon=True))
        self.threads[-1].start()

    def fill(self, name):
        self.write(name, self.given[name])

    def empty(self, name):
        with open(self.path(name), "rb") as file:
            self.taken[name] = file.read()

    def pour(self, name):
        """Writes more and more, but not without an end: a program that read it all would take all memory."""
        with open(self.path(name), "wb", buffering=0) as file:
            for _ in range(2 * MOST_TRACE_BYTES // len(ZEROS)):
                try:
                    file.write(ZEROS)
                except BrokenPipeError:
                    return
        self.taken[name] = b"read to its end"

    def leave(self, name):
        """Takes a byte, and goes."""
        with open(self.path(name), "rb", buffering=0) as file:
            file.read(1)

    def run(self, program, before=(), **options):
        """How the program ends, and all files that are there then, or were taken from pipes."""
        options = {"stdout": subprocess.PIPE, **options}
        ran = subprocess.run([*before, program, *self.words], cwd=self.folder, timeout=PATIENCE, **options)
        for thread in self.threads:
            thread.join(PATIENCE)
        files = {name: self.contents(name) for name in sorted(os.listdir(self.folder))}
        return Ended(ran.returncode, (ran.stdout or b"").decode(), files | self.taken)

    def contents(self, name):
        """The bytes of a file, or None of what is none or is no file of its own."""
        path = self.path(name)
        if os.path.islink(path) or not os.path.isfile(path):
            return None
        with open(path, "rb") as file:
            return file.read()


def closing(descriptors):
    """What is put before a command so that it has these closed, as a shell writes it."""
    return ["sh", "-c", f'exec "$0" "$@" {descriptors}']


def run_in_room(program, names, prepare=lambda room: None, **options):
    with tempfile.TemporaryDirectory() as folder:
        room = Room(folder, names)
        prepare(room)
        return room.run(program, **options)


def whole(names, **others):
    """The end of a run where all is done, with the files that are there then; some of them are others."""
    given = {names.get(role, role): INPUTS[role] for role in ROLES}
    end = simulated(words_of(names), given)
    return end._replace(files={**given, **end.files, **others})


MADE = whole({})
OUTPUTS = [name for name in MADE.files if name not in INPUTS]


def wrong_at(name, end):
    """What is wrong with a run that is to end by a fault in writing this output, or None: those before are whole, of it a
    prefix may be there, and nothing of those after it."""
    place = OUTPUTS.index(name)
    wanted = {it: MADE.files[it] for it in OUTPUTS[:place]}
    begun = end.files.get(name) or b""
    if not MADE.files[name].startswith(begun):
        return f"{name} has other bytes"
    files = {it: data for it, data in end.files.items() if it not in (*INPUTS, name)}
    return wrong_in(end._replace(files=files), Ended(WRITE_FAULT, f"write fault: {name}\n", wanted))


# ---- names of inputs for outputs

# What the names show, and the names of those roles that have another.
SHARED = {
    "the file of port 1 is the trace of port 1": {"one.pcap": "out.p1.pcap"},
    "the file of port 1 is the trace of port 2": {"two.pcap": "out.p1.pcap"},
    "the file of port 2 is the trace of port 1": {"one.pcap": "out.p2.pcap"},
    "the dump of rules is the file of edits": {"edits": "out.rules"},
    "the journal is the steps file": {"steps": "out.journal"},
    "a copy is the mirrors file": {"mirrors": "out.m1.pcap"},
    "the flows are a trace": {"two.pcap": "out.netflow"},
    "each input is an output": dict(zip(ROLES, ["out.rules", "out.m1.pcap", "out.p2.pcap", "out.journal", "out.p1.pcap"])),
}


def shared_rows(program):
    for what, names in SHARED.items():
        yield what, wrong_in(run_in_room(program, names), whole(names)), None
    yield "two ports have one trace", wrong_with_one_trace(program), None
    for name, target in (("out.p1.pcap", "two.pcap"), ("out.rules", "edits"), ("out.megaflows", "one.pcap")):
        end = run_in_room(program, {}, lambda room: os.symlink(target, room.path(name)))
        made = MADE._replace(files={**MADE.files, name: None, target: MADE.files[name]})
        yield f"{name} is a link to {target}", wrong_in(end, made), None


def wrong_with_one_trace(program):
    """What is wrong where a trace stands at two ports, beside two traces of its bytes."""
    end = simulated(words_of({}), INPUTS | {"two.pcap": INPUTS["one.pcap"]})
    with tempfile.TemporaryDirectory() as folder:
        room = Room(folder, {})
        room.words = words_of({"two.pcap": "one.pcap"})
        return wrong_in(room.run(program), end._replace(files={**INPUTS, **end.files}))


# ---- what is no file

# What stands in the place of a file, by its role, and how the run ends.
OTHERS = {
    "a trace of nothing": ({"two.pcap": "/dev/null"}, BAD_TRACE, "/dev/null: short header"),
    "a folder as the edits": ({"edits": "/"}, READ_FAULT, "read fault: /"),
    "a folder as the steps": ({"steps": "/"}, READ_FAULT, "read fault: /"),
    "a folder as the mirrors": ({"mirrors": "/"}, READ_FAULT, "read fault: /"),
    "a folder as a trace": ({"two.pcap": "/"}, READ_FAULT, "read fault: /"),
    "a file as the folder of the edits": ({"edits": "steps/edits"}, READ_FAULT, "read fault: steps/edits"),
    "a file as the folder of the outputs": ({"out": "edits/out"}, WRITE_FAULT, "write fault: edits/out.p1.pcap"),
    "a name that is too long": ({"out": "o" * 255}, WRITE_FAULT, f"write fault: {'o' * 255}.p1.pcap"),
}
# What is said of an input that has no end, by its role.
ENDLESS = {
    "edits": f"edits-bytes {LIMITS['edits-bytes']}", "steps": f"steps-bytes {LIMITS['steps-bytes']}",
    "mirrors": f"mirrors-bytes {LIMITS['mirrors-bytes']}", "two.pcap": f"trace-bytes {MOST_TRACE_BYTES}",
}


def other_rows(program):
    for what, (names, status, text) in OTHERS.items():
        with tempfile.TemporaryDirectory() as folder:
            room = Room(folder, {})
            room.words = words_of(names)
            yield what, wrong_in(room.run(program), Ended(status, text + "\n", INPUTS)), None


def pipe_rows(program):
    for name in ROLES:
        end = run_in_room(program, {}, lambda room: room.pipe(name, room.fill))
        yield f"{name} is a pipe", wrong_in(end, whole({}, **{name: None})), None
    for name, limit in ENDLESS.items():
        end = run_in_room(program, {}, lambda room: room.pipe(name, room.pour))
        wanted = Ended(LIMIT, f"limit: {limit}\n", {**INPUTS, name: None})
        yield f"{name} is a pipe without an end", wrong_in(end, wanted), None
    for name in OUTPUTS:
        end = run_in_room(program, {}, lambda room: room.pipe(name, room.empty))
        yield f"{name} is a pipe", wrong_in(end, MADE), None
    for name in LARGE:
        end = run_in_room(program, {}, lambda room: room.pipe(name, room.leave))
        yield f"{name} is a pipe whose reader goes", wrong_at(name, end), None


def full_rows(program):
    for name in OUTPUTS:
        end = run_in_room(program, {}, lambda room: os.symlink("/dev/full", room.path(name)))
        yield f"{name} is /dev/full", wrong_at(name, end), None
    yield "a file system becomes full", wrong_where_full(program), None


def wrong_where_full(program):
    """What is wrong where the file system of the outputs has too little room, or None, also where none may be made."""
    with tempfile.TemporaryDirectory() as folder:
        mount = ["mount", "-t", "tmpfs", "-o", f"size={sum(map(len, INPUTS.values())) + ROOM}", "none", folder]
        if subprocess.run(mount, capture_output=True).returncode:
            print("skipped: no file system may be mounted here, and so none becomes full")
            return None
        try:
            end = Room(folder, {}).run(program)
        finally:
            subprocess.run(["umount", folder], check=True)
        return wrong_at(FIRST, end) or (None if end.files[FIRST] else "nothing was written")


# ---- standard output


def said_rows(program):
    unsaid = MADE._replace(status=WRITE_FAULT, text="")
    end = run_in_room(program, {}, before=closing(">&-"))
    yield "standard output is closed", wrong_in(end, unsaid), None
    read, write = os.pipe()
    os.close(read)
    yield "standard output is a pipe whose reader went", wrong_in(run_in_room(program, {}, stdout=write), unsaid), None
    os.close(write)
    for what, close in (("input", "<&-"), ("error", "2>&-"), ("input and standard error", "<&- 2>&-")):
        end = run_in_room(program, {}, before=closing(close))
        yield f"standard {what} is closed", wrong_in(end, MADE), None


def all_rows(program):
    for rows in (shared_rows, other_rows, pipe_rows, full_rows, said_rows):
        yield from rows(program)


if __name__ == "__main__":
    sys.exit(tell(all_rows(os.path.abspath(sys.argv[1]))))
