"""What the processes of a command use while it runs, as /proc tells."""
import os
import select

TICKS = os.sysconf("SC_CLK_TCK")


def lines_under_watch(run, look, pause):
    """The lines that a command prints. `look` is called before those that came together, and each `pause` seconds."""
    text = b""
    while True:
        ready = select.select([run.stdout], [], [], pause)[0]
        look()
        more = os.read(run.stdout.fileno(), 1 << 16) if ready else None
        if more == b"" or more is None and run.poll() is not None:
            return
        *whole, text = (text + (more or b"")).split(b"\n")
        yield from (line.decode(errors="replace") for line in whole)


def times_of(process):
    """The parent of a process, how many processor seconds it used, and how many its ended children did."""
    with open(f"/proc/{process}/stat") as file:
        fields = file.read().rpartition(")")[2].split()
    own, children = int(fields[11]) + int(fields[12]), int(fields[13]) + int(fields[14])
    return int(fields[1]), own / TICKS, children / TICKS


def seconds_of(process):
    """How many processor seconds a process itself used."""
    return times_of(process)[1]


def peak_of(process):
    """The most memory that a process had resident, in bytes."""
    with open(f"/proc/{process}/status") as file:
        return next((int(line.split()[1]) * 1024 for line in file if line.startswith("VmHWM:")), 0)


def running():
    """The children of each process that has some, and how many processor seconds each process used with its ended
    children."""
    children, used = {}, {}
    for process in map(int, filter(str.isdigit, os.listdir("/proc"))):
        try:
            parent, own, ended = times_of(process)
        except (OSError, ValueError):
            continue
        children.setdefault(parent, []).append(process)
        used[process] = own + ended
    return children, used


class Watched:
    """The work of the processes below one: `work_of` tells from a process's words and folder what it works on, or
    None. What its own children do is its work too."""

    def __init__(self, top, work_of):
        self.top, self.work_of = top, work_of
        self.works, self.used, self.peaks = {}, {}, {}

    def look(self):
        children, used = running()
        for process in children.get(self.top, []):
            self.visit(process, children, used)

    def visit(self, process, children, used):
        work = self.works[process] = self.works.get(process) or self.work_here(process)
        if not work:
            for child in children.get(process, []):
                self.visit(child, children, used)
            return
        tree = [process]
        for one in tree:
            tree += children.get(one, [])
        # While a child ends, it may be counted neither as running nor as ended.
        self.used[process] = max(self.used.get(process, 0), sum(used[one] for one in tree))
        self.peaks[process] = max([self.peaks.get(process, 0), *map(self.peak_here, tree)])

    def work_here(self, process):
        try:
            with open(f"/proc/{process}/cmdline", "rb") as file:
                words = file.read().decode(errors="replace").split("\0")
            return self.work_of(words, os.readlink(f"/proc/{process}/cwd"))
        except OSError:
            return None

    def peak_here(self, process):
        try:
            return peak_of(process)
        except OSError:
            return 0

    def seconds(self):
        """The processor seconds by work."""
        sums = {}
        for process, used in self.used.items():
            sums[self.works[process]] = sums.get(self.works[process], 0) + used
        return sums

    def memory(self):
        """The most bytes that a process had resident, by work."""
        most = {}
        for process, peak in self.peaks.items():
            most[self.works[process]] = max(most.get(self.works[process], 0), peak)
        return most
