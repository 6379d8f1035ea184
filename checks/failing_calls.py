#!/usr/bin/env python3
"""Makes each call of the system fail in turn, by strace's injection, and compares what the program does then.

    failing_calls.py PROGRAM

A run with given steps, flows and mirrors opens, reads and writes the files of a small switch, and so does one with workers.
Each of its calls of openat, read and write, in whichever thread, is made to fail with each error of ERRORS, alone. The
status, the text and the files have to be those that docs/FORMATS.md says: a call that a signal interrupted is made again,
every other failure is a fault of the file in use, a fault in printing the summary is told by the status alone, and one in
printing a refusal leaves its status. What differs from run to run where there are workers is compared by no byte.
"""
import os
import re
import shutil
import subprocess
import sys
import tempfile

ERRORS = ("EIO", "ENOSPC", "EACCES", "EINTR", "EAGAIN")
CALLS = ("openat", "read", "write")
HERE = os.path.dirname(os.path.realpath(__file__))
WORDS = ["--netflow", "--mirrors", "mirrors", "edits", "out", "1=small.pcap", "2=large.pcap"]
RUNS = [["--steps", "steps", *WORDS], ["--workers", "4", *WORDS], ["edits"]]
# In the order in which they are read, and written.
READ = ["edits", "steps", "mirrors", "small.pcap", "large.pcap"]
PORT_FILES, MIRROR_FILES = ["out.p1.pcap", "out.p2.pcap"], ["out.m1.pcap", "out.m2.pcap"]
WRITTEN = [*PORT_FILES, "out.rules", "out.megaflows", "out.journal", "out.netflow", *MIRROR_FILES]
# What threads choose where there are workers, beside the summary.
CHOSEN = ["out.megaflows", "out.journal"]
STDOUT = 1
DONE, READ_FAULT, WRITE_FAULT = 0, 5, 6


class Call:
    """A call of the system in a run: the how-manieth of its name it is, and the name of its file."""

    def __init__(self, name, number, file):
        self.name, self.number, self.file = name, number, file


class Outcome:
    def __init__(self, status, text, files):
        self.status, self.text, self.files = status, text, files

    def without_choice(self):
        """What doesn't depend on threads: of a file that does nothing but that it is there, and of a summary its first line."""
        files = {name: b"" if name in CHOSEN else data for name, data in self.files.items()}
        return Outcome(self.status, self.text[: self.text.find(b"\n") + 1], files)


def make_inputs():
    with open("edits", "w") as file:
        file.write("in_port=1,actions=2\nin_port=2,actions=1\nsync 0\n")
    with open("steps", "w") as file:
        file.write("edit\nrx 1\nsnap 1 1\nedit\nsettle 1 1\n")
    with open("mirrors", "w") as file:
        file.write("select_src_port=1\nselect_dst_port=2\n")
    for name, frames in (("small.pcap", 1), ("large.pcap", 2000)):
        subprocess.run([sys.executable, f"{HERE}/make_trace.py", name, str(frames), "60"], check=True)


def run(program, words, inputs, strace):
    """What the program does on these words in a new folder with the inputs, under strace with these options."""
    with tempfile.TemporaryDirectory() as room:
        for name in READ:
            shutil.copy(f"{inputs}/{name}", room)
        log = f"{inputs}/log"
        end = subprocess.run(["strace", "-f", "-o", log, *strace, program, *words], cwd=room, capture_output=True, timeout=60)
        files = {}
        for name in sorted(set(os.listdir(room)) - set(READ)):
            with open(f"{room}/{name}", "rb") as file:
                files[name] = file.read()
        return Outcome(end.returncode, end.stdout, files)


def told_calls(log):
    """The calls that the log of strace tells of the first thread, which alone reads and writes: the name, the words and the
    result. A call during which another thread called is told in two lines. strace counts each thread's calls for itself."""
    first, begun = None, ""
    with open(log) as lines:
        for line in lines:
            thread, line = line.split(maxsplit=1)
            first = first or thread
            if thread != first:
                continue
            line = begun + line.rpartition(" resumed>")[2] if begun else line
            begun = line.removesuffix(" <unfinished ...>\n") if line.endswith("<unfinished ...>\n") else ""
            found = re.match(r"(\w+)\((.*)\) += (-?\d+)", line)
            if found and found[1] in (*CALLS, "close"):
                yield found[1], found[2], int(found[3])


def calls_of(log):
    """The calls of a run, from the first that opens one of its files, or prints, on."""
    counts, names, calls = dict.fromkeys(CALLS, 0), {STDOUT: None}, []
    for name, words, result in told_calls(log):
        if name in counts:
            counts[name] += 1
        if name == "openat":
            names[result] = words.split('"')[1]
            if names[result] in READ + WRITTEN:
                calls.append(Call(name, counts[name], names[result]))
            continue
        descriptor = int(words.split(",")[0])
        if name == "close":
            names.pop(descriptor, None)
        elif names.get(descriptor, "") in [None, *READ, *WRITTEN]:
            calls.append(Call(name, counts[name], names[descriptor]))
    return calls


def is_as_expected(call, error, good, now):
    """Whether a run has come to what it has to, where one call failed so in a run that is good otherwise."""
    if error == "EINTR":
        return (now.status, now.text, now.files) == (good.status, good.text, good.files)
    if call.file is None:
        status = WRITE_FAULT if good.status == DONE else good.status
        return (now.status, now.files) == (status, good.files) and is_cut(now.text, good.text)
    if call.file in READ:
        return (now.status, now.text, now.files) == (READ_FAULT, f"read fault: {call.file}\n".encode(), {})
    place = WRITTEN.index(call.file)
    whole = all(now.files.get(name) == good.files[name] for name in WRITTEN[:place])
    none = not set(now.files) & set(WRITTEN[place + 1:])
    begun = good.files[call.file].startswith(now.files.get(call.file, b""))
    return (now.status, now.text) == (WRITE_FAULT, f"write fault: {call.file}\n".encode()) and whole and none and begun


def is_cut(text, whole):
    """Whether a text ends before its end, and nothing stands in its place."""
    return text != whole and whole.startswith(text)


def try_run(program, words, inputs):
    """Makes each call of the run on these words fail in turn, and tells of those that end otherwise."""
    good = run(program, words, inputs, ["-e", f"trace={','.join((*CALLS, 'close'))}"])
    calls = calls_of(f"{inputs}/log")
    has_workers, wrong = "--workers" in words, 0
    good = good.without_choice() if has_workers else good
    for call in calls:
        for error in ERRORS:
            now = run(program, words, inputs, ["-e", f"inject={call.name}:error={error}:when={call.number}"])
            now = now.without_choice() if has_workers else now
            if not is_as_expected(call, error, good, now):
                wrong += 1
                where = call.file or "standard output"
                ended = f"status {now.status}, {now.text!r}, {sorted(now.files)}"
                print(f"{call.name} {call.number} of {where} with {error}: {ended}")
    return len(calls) * len(ERRORS), wrong


def main():
    program = os.path.realpath(sys.argv[1])
    with tempfile.TemporaryDirectory() as inputs:
        os.chdir(inputs)
        make_inputs()
        tried = [try_run(program, words, inputs) for words in RUNS]
    print(f"{sum(count for count, _ in tried)} failures tried, {sum(wrong for _, wrong in tried)} end otherwise")
    sys.exit(any(wrong for _, wrong in tried) or not all(count for count, _ in tried))


if __name__ == "__main__":
    main()
