"""What scripts of this folder share: processor times, cycles and memory of programs, captures, and tables of figures."""
import ctypes
import os
import re
import shutil
import statistics
import struct
import subprocess
import sys

TOP = os.path.dirname(os.path.dirname(os.path.abspath(__file__)))
LAUNCHER = os.path.join(TOP, "tools", "launch")

# The program that asks parts of the switch, and where it is built.
LAYERS = "tool_layers"
PROGRAM = os.path.join(TOP, "crates", LAYERS, "out", LAYERS)

# Of ptrace(2): what it is asked, and that a process is held as it ends.
PTRACE_CONT, PTRACE_SEIZE, PTRACE_O_TRACEEXIT = 7, 0x4206, 0x40


def write_capture(name, frames):
    """A capture file of frames, all of one time."""
    with open(name, "wb") as file:
        file.write(struct.pack("<IHHIIII", 0xA1B2C3D4, 2, 4, 0, 0, 262144, 1))
        for frame in frames:
            file.write(struct.pack("<IIII", 0, 0, len(frame), len(frame)) + frame)


def run(words):
    """Runs a program, and gives what it printed and the processor's seconds that it took."""
    child = subprocess.Popen(words, stdout=subprocess.PIPE)
    printed = child.stdout.read()
    _, status, usage = os.wait4(child.pid, 0)
    # (what wait4 took, subprocess is not to wait for)
    child.returncode = status
    child.stdout.close()
    if status != 0:
        sys.exit(f"bench: {' '.join(words)} did not end with status 0")
    return printed, usage.ru_utime + usage.ru_stime


def seconds(words):
    """The processor's seconds that a program takes."""
    return run(words)[1]


def processor_of(words, environment=None):
    """The processor's seconds that a program takes whose output goes nowhere."""
    child = subprocess.Popen(words, stdout=subprocess.DEVNULL, stderr=subprocess.DEVNULL, env=environment)
    _, status, usage = os.wait4(child.pid, 0)
    # (what wait4 took, subprocess is not to wait for)
    child.returncode = status
    if status != 0:
        sys.exit(f"bench: {' '.join(words)} did not end with status 0")
    return usage.ru_utime + usage.ru_stime


def medians(measure, commands, runs):
    """The median of what is measured of each command, all run in turns."""
    taken = [[measure(words) for words in commands] for _ in range(runs)]
    return [statistics.median(column) for column in zip(*taken)]


def ptrace(request, process, options=None):
    call = ctypes.CDLL(None, use_errno=True).ptrace
    call.argtypes = [ctypes.c_long, ctypes.c_long, ctypes.c_void_p, ctypes.c_void_p]
    if call(request, process, None, options) != 0:
        sys.exit(f"bench: a process isn't traced: {os.strerror(ctypes.get_errno())}")


def peak_of(words, environment=None):
    """The greatest resident memory of a program in bytes, which the system tells as long as it is there.

    What it tells of a process that ended counts what stood there before the program, which is this script.
    """
    child = subprocess.Popen(words, stdout=subprocess.DEVNULL, stderr=subprocess.DEVNULL, env=environment)
    ptrace(PTRACE_SEIZE, child.pid, PTRACE_O_TRACEEXIT)
    os.waitpid(child.pid, 0)
    peak = resident_peak(child.pid)
    ptrace(PTRACE_CONT, child.pid)
    if child.wait() != 0:
        sys.exit(f"bench: {' '.join(words)} did not end with status 0")
    return peak


def resident_peak(process):
    """The greatest resident memory in bytes of a process that is held."""
    with open(f"/proc/{process}/status", encoding="utf-8") as file:
        return int(re.search(r"^VmHWM:\s*(\d+) kB", file.read(), re.MULTILINE)[1]) * 1024


def build(name):
    """Has the launcher prove and build a program where it isn't built here, or a source is newer. Where that needs `rt` and
    there is none, all ends here."""
    if subprocess.run([LAUNCHER, "--build", name]).returncode == 0:
        return
    if not shutil.which("rt"):
        print("bench: nothing is measured")
        sys.exit()
    sys.exit(f"bench: {name} is not built")


def build_layers():
    """Proves and builds the program that asks parts of the switch."""
    build(LAYERS)


def counts_cycles():
    """Whether perf counts the cycles of a program here; on many virtual machines none are counted."""
    return shutil.which("perf") is not None and cycles_of(["true"]) is not None


def cycles_of(words):
    """The cycles of a run by perf, if it counts them."""
    command = ["perf", "stat", "-x", ",", "-e", "cycles:u", *words]
    said = subprocess.run(command, stdout=subprocess.DEVNULL, stderr=subprocess.PIPE, text=True).stderr
    found = re.search(r"^(\d+),", said, re.MULTILINE)
    return int(found[1]) if found else None


def megahertz():
    """The frequency that Linux tells of the processor."""
    with open("/proc/cpuinfo", encoding="utf-8") as file:
        return float(re.search(r"^cpu MHz\s*: (\S+)", file.read(), re.MULTILINE)[1])


def told_cycles(counted):
    """From where cycles are."""
    return "counted by perf" if counted else f"from the time, at {megahertz():.0f} MHz by /proc/cpuinfo"


def yes_or_no(holds):
    return "yes" if holds else "NO"


def print_table(heads, rows):
    """Prints a table, as README.md has it."""
    lines = [heads, *rows]
    first, *others = [max(len(line[at]) for line in lines) for at in range(len(heads))]
    padded = [[line[0].ljust(first), *(it.rjust(width) for it, width in zip(line[1:], others))] for line in lines]
    for line in [padded[0], ["-" * width for width in (first, *others)], *padded[1:]]:
        print(f"| {' | '.join(line)} |")
    print()
