#!/usr/bin/env python3
"""Has runs of tools/long-run interrupted, killed, refused and filled, and looks what is left and how they go on.

    python3 long_run_ends.py PROGRAM [cluster]

Each row has the command run in a folder of its own, with a program that is slow, or fails, where that is needed.
Status, text and outputs have to be those that docs/long-run.1 says. With the second word parts are run by two workers
of Dask on this machine, one of which is killed. It prints each row that is otherwise, and ends with 1 where there is
one.
"""
import os
import pty
import re
import resource
import select
import shutil
import signal
import socket
import subprocess
import sys
import tempfile
import time

sys.dont_write_bytecode = True
from long_run import KEPT_OF_PART, ODD, TOP, joined, outputs, trace
from row_check import tell
from run_rows import DATAGRAM, WEB
from simulation.captures import SECOND
from simulation.refusals import DONE, READ_FAULT, USAGE, WRITE_FAULT
from whole_run import Ended, simulated

COMMAND = os.path.join(TOP, "tools", "long-run")
FAILED, OUT_OF_MEMORY = 1, 8
# How long a run may take, how long a slow program takes longer than a quick one, and how often it is looked how far a
# run is, in seconds.
PATIENCE, SLOW, TURN = 240, 0.3, 0.02

FRAMES = [(SECOND + number * 1000 * ODD, [WEB, DATAGRAM][number % 2]) for number in range(40)]
EDITS = b"in_port=1,actions=2\nin_port=2,actions=1\n"
GIVEN = {"edits": EDITS, "a.pcap": trace(*FRAMES), "b.pcap": trace(*FRAMES)}
WORDS = ["--netflow", "edits", "out", "1=a.pcap", "2=b.pcap"]
MADE = simulated(WORDS, GIVEN)
FILES = joined(MADE.files)
# So that there are ten parts. A frame of the sixth may have a mark.
IN_TEN_PARTS = ["--jobs=2", "--part-frames=8"]
PARTS, MARKED, MARKED_PART = 10, 20, 6
MARK = b"MARK".ljust(60, b"\0")
# A file system that is full has so many bytes beside the inputs.
SMALL_DISK = 65536


def refuses_mark(status):
    """Has a script refuse a part with a mark."""
    return f"! grep -q MARK 1.pcap || {{ echo out of memory; exit {status}; }}"



class Room:
    """A folder with the files of a run, and a script that stands before the program: it notes each run of a part, and
    does what is asked of it first."""

    def __init__(self, program, folder, first=""):
        self.folder, self.log = folder, os.path.join(folder, "log")
        for name, data in GIVEN.items():
            self.write(name, data)
        with open(self.path("program"), "w", encoding="utf-8") as script:
            # Without frames it is asked what it says of the edits.
            script.write(f"#!/bin/sh\n[ -e 1.pcap ] || exec {program} \"$@\"\n")
            script.write(f"pwd >>{self.log}\n{first}\nexec {program} \"$@\"\n")
        os.chmod(self.path("program"), 0o755)

    def path(self, *names):
        return os.path.join(self.folder, *names)

    def write(self, name, data):
        with open(self.path(name), "wb") as file:
            file.write(data)

    def mark(self):
        """Puts a mark into a frame."""
        self.write("a.pcap", trace(*FRAMES[:MARKED], (FRAMES[MARKED][0], MARK), *FRAMES[MARKED + 1 :]))

    def start(self, *words, **options):
        words = [COMMAND, "--program", self.path("program"), *(words or IN_TEN_PARTS), *WORDS]
        options = {"stdout": subprocess.PIPE, "stderr": subprocess.PIPE, **options}
        return subprocess.Popen(words, cwd=self.folder, stdin=subprocess.DEVNULL, text=True, **options)

    def end(self, process):
        """How a run ends, with its outputs, and what it tells beside."""
        text, told = process.communicate(timeout=PATIENCE)
        own = ("program", "log", "killed")
        files = {name: data for name, data in outputs(self.folder, GIVEN).items() if name not in own}
        return Ended(process.returncode, text or "", files), told

    def clear(self):
        """Removes what a run has made."""
        shutil.rmtree(self.path("out.parts"))
        for name in FILES:
            os.remove(self.path(name))

    def run(self, *words, **options):
        return self.end(self.start(*words, **options))

    def runs(self):
        """How often the program was run on a part."""
        try:
            with open(self.log, encoding="utf-8") as file:
                return len(file.readlines())
        except FileNotFoundError:
            return 0

    def parts_done(self):
        try:
            return sum(name.isdecimal() for name in os.listdir(self.path("out.parts")))
        except FileNotFoundError:
            return 0

    def wait_for(self, holds):
        """Waits until something holds."""
        end = time.monotonic() + PATIENCE
        while not holds():
            if time.monotonic() > end:
                raise TimeoutError("what a row waits for doesn't come")
            time.sleep(TURN)


def is_whole(end):
    """Whether a run has ended well, with all outputs of one run and no other."""
    return end.status == DONE and end.files == FILES and f"parts={PARTS}\n" in end.text


# ---- rows


def interrupted_rows(program):
    for what, number in (("SIGINT", signal.SIGINT), ("SIGTERM", signal.SIGTERM), ("SIGKILL", signal.SIGKILL)):
        with tempfile.TemporaryDirectory() as folder:
            room = Room(program, folder, f"sleep {SLOW}")
            process = room.start()
            room.wait_for(lambda: room.parts_done() >= 3)
            process.send_signal(number)
            end, _ = room.end(process)
            yield f"a run that {what} ends", end, Ended(-number, "", {})
            before, done = room.runs(), room.parts_done()
            end, _ = room.run()
            yield f"a run that goes on after {what}", is_whole(end), True
            # What was under way as all was killed may come to its end.
            ran = room.runs() - before
            yield f"parts that are run after {what}", 0 < PARTS - done - ran + 1 <= 3 and ran > 0, True


def changed_rows(program):
    """Of a run that goes on, with other files, those parts are run again that are others."""
    with tempfile.TemporaryDirectory() as folder:
        room = Room(program, folder, refuses_mark(OUT_OF_MEMORY))
        room.mark()
        end, told = room.run()
        refusal = "out of memory\n"
        yield "a part that is refused", end, Ended(OUT_OF_MEMORY, refusal, {})
        named = re.findall(r"part (\d+), frames .*: status (\d+): out of memory", told)
        yield "what is told of it", named, [(str(MARKED_PART), str(OUT_OF_MEMORY))] * 2
        end, _ = room.run()
        yield "the same again", end, Ended(OUT_OF_MEMORY, refusal, {})
        room.write("a.pcap", GIVEN["a.pcap"])
        before, done = room.runs(), room.parts_done()
        end, _ = room.run()
        yield "the run with another frame in its place", is_whole(end), True
        yield "parts that are run for it", room.runs() - before, PARTS - done
        for name in ("out.parts", "out.rules"):
            yield f"{name} at the end", os.path.exists(room.path(name)), True


def lost_rows(program):
    """A process that is killed, or a program, is another one's part then; but not twice."""
    for place, what in enumerate(["the process that joins parts", "its process"]):
        with tempfile.TemporaryDirectory() as folder:
            room = Room(program, folder, f"sleep {SLOW}")
            process = room.start()
            room.wait_for(lambda: room.runs() >= 2)
            os.kill(children(process.pid)[place], signal.SIGKILL)
            end, told = room.end(process)
            yield f"{what} is killed", is_whole(end), True
            yield "what is told of it", f"{what} ended by itself, with -9; it is tried once more" in told, True
    with tempfile.TemporaryDirectory() as folder:
        # Two may count three at once, of which one makes the file.
        once = f"(set -C; : >{folder}/killed) 2>/dev/null"
        room = Room(program, folder, f"[ $(wc -l <{folder}/log) -lt 3 ] || ! {once} || kill -9 $$")
        end, told = room.run()
        yield "a program that is killed", is_whole(end), True
        yield "what is told of it", len(re.findall("status -9: ; it is tried once more", told)), 1
    with tempfile.TemporaryDirectory() as folder:
        end, told = Room(program, folder, "kill -9 $$").run()
        yield "a program that is killed again and again", end, Ended(FAILED, "", {})


def elsewhere_rows(program):
    """A part that failed is tried again by another process, also where there is one at a time."""
    for jobs in (1, 2):
        with tempfile.TemporaryDirectory() as folder:
            room = Room(program, folder, refuses_mark(OUT_OF_MEMORY))
            room.mark()
            room.run(f"--jobs={jobs}", "--part-frames=8")
            with open(room.log, encoding="utf-8") as file:
                tried = re.findall(rf"{MARKED_PART:06}-(\d+)$", file.read(), re.MULTILINE)
            yield f"processes that try a part, with {jobs} jobs", (len(tried), len(set(tried))), (2, 2)


def ahead_rows(program):
    """So many programs run at a time as there are jobs; and while they run, each next part is made ready."""
    for jobs in (1, 2):
        with tempfile.TemporaryDirectory() as folder:
            begun, seen = os.path.join(folder, "begun"), os.path.join(folder, "seen")
            running = f"$(for it in $(cat {begun}); do [ ! -d /proc/$it ] || echo $it; done | wc -l)"
            ready = "$(ls -A .. | grep -c '^[.]0')"
            room = Room(program, folder, f"echo $$ >>{begun}; sleep {SLOW}; echo {running} {ready} >>{seen}")
            room.run(f"--jobs={jobs}", "--part-frames=8")
            with open(seen, encoding="utf-8") as file:
                most = tuple(map(max, zip(*(map(int, line.split()) for line in file))))
            yield f"programs at a time, and parts ready, with {jobs} jobs", most, (jobs, 2 * jobs)


def children(process):
    with open(f"/proc/{process}/task/{process}/children", encoding="ascii") as file:
        return [int(it) for it in file.read().split()]


def full_rows(program):
    """Where a disk is full nothing is put together, and a later run goes on."""
    most = max(map(len, FILES.values())) - 1
    with tempfile.TemporaryDirectory() as folder:
        room = Room(program, folder)
        end, _ = room.run(preexec_fn=lambda: resource.setrlimit(resource.RLIMIT_FSIZE, (most, most)))
        yield "an output that is too large", end, Ended(WRITE_FAULT, "write fault: out.p1.pcap\n", {})
        before = room.runs()
        end, _ = room.run()
        yield "the same with room for it", (is_whole(end), room.runs() - before), (True, PARTS - before)
    with tempfile.TemporaryDirectory() as folder:
        mount = ["mount", "-t", "tmpfs", "-o", f"size={sum(map(len, GIVEN.values())) + SMALL_DISK}", "none", folder]
        if subprocess.run(mount, capture_output=True).returncode:
            print("skipped: no file system may be mounted here, and so none becomes full")
            return
        try:
            end, _ = Room(program, folder).run()
        finally:
            subprocess.run(["umount", folder], check=True)
        yield "a file system that becomes full", (end.status, end.text.partition(":")[0], end.files), (
            WRITE_FAULT, "write fault", {}
        )


def word_rows(program):
    with tempfile.TemporaryDirectory() as folder:
        room = Room(program, folder)
        for words in (["--steps", "edits"], ["--generate=7"], ["--jobs=0"], ["--part-frames=131073"], ["--limit=1"]):
            end, told = room.run(*words)
            yield f"the word {words[0]}", (end, "usage: " in told), (Ended(USAGE, "", {}), True)
        end, told = room.run("--mirrors=none")
        yield "no mirrors file", end, Ended(READ_FAULT, "read fault: none\n", {})
        os.remove(room.path("a.pcap"))
        yield "no capture", room.run()[0], Ended(READ_FAULT, "read fault: a.pcap\n", {})
        room.write("a.pcap", GIVEN["a.pcap"])
        os.mkdir(room.path("out.p2.pcap"))
        yield "a folder in the place of an output", room.run()[0].text, "write fault: out.p2.pcap\n"


def input_rows(program):
    """A capture may come by standard input, from a file and from a pipe; and each file by a pipe."""
    words = [*IN_TEN_PARTS, "--netflow", "edits", "out", "1=/dev/stdin", "2=b.pcap"]
    with tempfile.TemporaryDirectory() as folder:
        room = Room(program, folder)
        for what, command in [("a file", "exec {} <a.pcap"), ("a pipe", "cat a.pcap | {}")]:
            command = command.format(" ".join([COMMAND, "--program", room.path("program"), *words]))
            process = subprocess.Popen(["sh", "-c", command], cwd=folder, stdout=subprocess.PIPE, text=True)
            yield f"a capture by standard input, from {what}", is_whole(room.end(process)[0]), True
            room.clear()
        command = f"{COMMAND} --program {room.path('program')} {' '.join(IN_TEN_PARTS)} --netflow <(cat edits) out " \
            "1=<(cat a.pcap) 2=<(cat b.pcap)"
        process = subprocess.Popen(["bash", "-c", command], cwd=folder, stdout=subprocess.PIPE, text=True)
        yield "each file by a pipe", is_whole(room.end(process)[0]), True


def launcher_rows(program):
    """Without another word the tool runs what the launcher does, here where the launcher has built it."""
    if os.path.dirname(program) != os.path.join(TOP, "crates", "megaswitch", "out"):
        return
    with tempfile.TemporaryDirectory() as folder:
        room = Room(program, folder)
        words = [COMMAND, *IN_TEN_PARTS, *WORDS]
        options = {"stdout": subprocess.PIPE, "stderr": subprocess.PIPE, "text": True}
        environment = {name: value for name, value in os.environ.items() if name != "MEGASWITCH"}
        process = subprocess.Popen(words, cwd=folder, env=environment, **options)
        yield "a run by the launcher", is_whole(room.end(process)[0]), True


def beside_rows(program):
    """Two runs of one name come one after the other; what is printed goes to a terminal, or nowhere."""
    with tempfile.TemporaryDirectory() as folder:
        room = Room(program, folder, f"sleep {4 * SLOW}")
        first = room.start()
        room.wait_for(lambda: room.parts_done() >= 1)
        second = room.start()
        ends = room.end(first), room.end(second)
        yield "two runs at once", [is_whole(end) for end, _ in ends], [True, True]
        yield "what the second tells", "waits for its end" in ends[1][1], True
        yield "how often parts are run", room.runs(), 2 * PARTS
    with tempfile.TemporaryDirectory() as folder, open("/dev/full", "w", encoding="ascii") as full:
        end, _ = Room(program, folder).run(stdout=full)
        yield "a summary that can't be printed", end, Ended(WRITE_FAULT, "", FILES)
    with tempfile.TemporaryDirectory() as folder:
        ours, theirs = pty.openpty()
        process = Room(program, folder, f"sleep {SLOW}").start(stderr=theirs)
        os.close(theirs)
        shown = read_all(ours)
        process.communicate(timeout=PATIENCE)
        found = re.findall(r"\d+ parts, \d+ of some 80 frames, \d+ a second, \d+ s left", shown)
        yield "how far it is, on a terminal", found != [], True


def read_all(terminal):
    shown = b""
    while select.select([terminal], [], [], PATIENCE)[0]:
        try:
            shown += os.read(terminal, 4096)
        except OSError:
            break
    os.close(terminal)
    return shown.decode()


# ---- Dask

# What answers for a package that isn't there.
NO_DASK = "raise ImportError\n"
LOOPBACK = "127.0.0.1"


class Dask:
    """A scheduler and two workers of this machine."""

    def __init__(self, folder):
        self.folder, self.running = folder, []
        with socket.socket(socket.AF_INET, socket.SOCK_STREAM) as free:
            free.bind((LOOPBACK, 0))
            port = free.getsockname()[1]
        self.address = f"tcp://{LOOPBACK}:{port}"
        self.start("scheduler", "--host", LOOPBACK, "--port", str(port), "--no-dashboard")

    def __enter__(self):
        for _ in range(2):
            self.start_worker()
        return self

    def __exit__(self, *_):
        for process in self.running:
            process.kill()
            process.wait()

    def start(self, kind, *words):
        log = open(os.path.join(self.folder, f"{kind}.log"), "ab")
        options = {"stdin": subprocess.DEVNULL, "stdout": log, "stderr": log}
        self.running.append(subprocess.Popen([f"dask-{kind}", *words], cwd=self.folder, **options))
        log.close()

    def start_worker(self):
        options = ["--nthreads", "1", "--no-nanny", "--no-dashboard", "--local-directory", self.folder]
        self.start("worker", self.address, *options)

    def kill_worker(self):
        self.running.pop().kill()


def cluster_rows(program):
    words = ["--part-frames=8"]
    with tempfile.TemporaryDirectory() as there, Dask(there) as dask:
        with tempfile.TemporaryDirectory() as folder:
            end, _ = Room(program, folder).run("--scheduler", dask.address, *words)
            yield "a run by two workers of Dask", is_whole(end), True
            kept = sorted(os.listdir(os.path.join(folder, "out.parts", f"{MARKED_PART:06}")))
            yield "what is kept of a part of it", kept, KEPT_OF_PART
        with tempfile.TemporaryDirectory() as folder:
            room = Room(program, folder, refuses_mark(OUT_OF_MEMORY))
            room.mark()
            end, told = room.run("--scheduler", dask.address, *words)
            yield "a part that is refused", end, Ended(OUT_OF_MEMORY, "out of memory\n", {})
            room.write("a.pcap", GIVEN["a.pcap"])
            end, told = room.run(*IN_TEN_PARTS)
            yield "a run that goes on by processes", is_whole(end), True
        with tempfile.TemporaryDirectory() as folder:
            room = Room(program, folder, f"sleep {SLOW}")
            process = room.start("--scheduler", dask.address, *words)
            room.wait_for(lambda: room.parts_done() >= 2)
            dask.kill_worker()
            end, told = room.end(process)
            yield "a run of which a worker is killed", is_whole(end), True
            yield "what is told of it", "it was lost" in told and "it is tried once more" in told, True
    with tempfile.TemporaryDirectory() as folder:
        room = Room(program, folder)
        end, told = room.run("--scheduler", dask.address, *words)
        yield "no scheduler", (end, "no scheduler answers" in told), (Ended(FAILED, "", {}), True)
        room.write("distributed.py", NO_DASK.encode())
        end, told = room.run("--scheduler", dask.address, env=os.environ | {"PYTHONPATH": folder})
        yield "no Dask", "apt-get install python3-distributed" in told and end.status, FAILED


def all_rows(program, kind):
    by_processes = [word_rows, input_rows, launcher_rows, interrupted_rows, changed_rows, lost_rows, elsewhere_rows]
    for rows in [cluster_rows] if kind == "cluster" else [*by_processes, ahead_rows, full_rows, beside_rows]:
        yield from rows(program)


if __name__ == "__main__":
    sys.exit(tell(all_rows(os.path.abspath(sys.argv[1]), *sys.argv[2:] or [None])))
