"""What a check of one crate is spent on: each of its functions, each of its own files of definitions and lemmas, and
what is made of its types, as `checks/costs --functions CRATE` tells, and `--functions-of-tests` of its tests."""
import bisect
import os
import re
import subprocess
import sys
import tempfile
import time

from crate_list import TOP
from processes import lines_under_watch, seconds_of

sys.path.insert(0, os.path.join(TOP, "tools"))
import kit

# The last of Rattle's stages that read the crate and the interfaces below it. Then proofs are checked.
LAST_OF_READING = "batches"
CHECKED = re.compile(r"checked \w+::(\S+), \d+ of \d+")
# The seconds of what has a line of its own, and those of what has its dearest modules told, so many at most.
TOLD, PARTS_TOLD, MOST_PARTS = 0.1, 5, 3


class Timed:
    """A check under a clock. It leaves each module that it checked as a file in a folder, as of when it was done."""

    def __init__(self, words, folder, stages):
        self.stages, self.reading, self.functions, self.lines = stages, None, set(), []
        # The clock, and the processor seconds that were used by then.
        self.at, self.used = [time.time()], [0]
        self.run = subprocess.Popen(words, cwd=folder, stdin=subprocess.DEVNULL, stdout=subprocess.PIPE,
                                    stderr=subprocess.STDOUT)
        for line in lines_under_watch(self.run, self.look, 0.05):
            self.lines.append(line)
            self.functions.update(name.replace("::", ".") for name in CHECKED.findall(line))
        self.status = self.run.wait()

    def look(self):
        self.at.append(time.time())
        # Until it is waited for, an ended process keeps what it used.
        self.used.append(seconds_of(self.run.pid))
        if self.reading is None and LAST_OF_READING in stages_in(self.stages):
            self.reading = self.used[-1]

    def used_at(self, moment):
        """The processor seconds that were used at a moment between two looks."""
        after = min(bisect.bisect_left(self.at, moment), len(self.at) - 1)
        before = max(after - 1, 0)
        gap = self.at[after] - self.at[before]
        share = min(1, (moment - self.at[before]) / gap) if gap else 1
        return self.used[before] + share * (self.used[after] - self.used[before])

    def modules(self, folder):
        """The modules, and the processor seconds of each since the one before it."""
        files = []
        for at, _, names in os.walk(folder):
            files += [(os.stat(os.path.join(at, name)).st_mtime, name) for name in names if name.endswith(".oantt")]
        before = self.reading or 0
        for moment, name in sorted(files):
            used = max(before, self.used_at(moment))
            yield name[:-len(".oantt")].removesuffix(".decls"), used - before
            before = used


def stages_in(path):
    """The stages that have ended, as the file of stages says."""
    with open(path) as file:
        return [line.split()[1] for line in file if line.startswith("stage ")]


def peak_in(path):
    """The most memory that the check had resident, in MB."""
    with open(path) as file:
        return next((int(line.split()[1]) * 1024 / 1e6 for line in file if line.startswith("peak ")), 0)


def source_of(module, name, functions):
    """What a module of the crate of this name is made of, a function, a file of its own or something else, and which
    part of it the module is."""
    library, _, path = module.removeprefix(f"Rattle-{name}").partition(".")
    words = path.removeprefix("contracts.").split(".")
    for length in range(len(words), 0, -1):
        if ".".join(words[:length]) in functions:
            return "::".join(words[:length]), ".".join(words[length:]) or "contract"
    file = f"{library.lstrip('-')}/{path.replace('.', '/')}.antt"
    if os.path.exists(f"crates/{name}/{file}"):
        return file, ""
    is_of_type = library and any(word.startswith("The") for word in words)
    return "what is made of types" if is_of_type else "what others are handed, and the rest", path


def timed_check(rtlib, crate, tests):
    """A check of a crate, or of its tests, from nothing: the check, the seconds by what is checked and by parts of it,
    and its most memory in MB."""
    with tempfile.NamedTemporaryFile() as stages, tempfile.TemporaryDirectory() as modules:
        words = ["check", *crate.words(["--jobs", "1"], tests=tests, keeps=False), "--progress"]
        words = [*rtlib.guarded(), rtlib.RATTLE, *words, "--incremental", modules, "--stage-times", stages.name]
        timed, seconds = Timed(words, crate.folder, stages.name), {}
        for module, used in timed.modules(modules):
            source, part = source_of(module, crate.name, timed.functions)
            parts = seconds.setdefault(source, {})
            parts[part] = parts.get(part, 0) + used
        return timed, seconds, peak_in(stages.name)


def dearest(parts):
    """The dearest parts of what takes long."""
    if sum(parts.values()) < PARTS_TOLD or len(parts) == 1:
        return ""
    told = sorted(parts.items(), key=lambda it: -it[1])[:MOST_PARTS]
    return ": " + ", ".join(f"{part} {used:.1f}" for part, used in told if used >= 1)


def tell_functions(name, tests):
    """Checks a crate, or its tests, from nothing over built libraries, and tells what that is spent on, the dearest
    first: the status, 0 where it is proved."""
    rtlib = kit.load()
    crate = rtlib.Crate(os.path.abspath(f"crates/{name}"), os.getcwd(), {})
    missing = [library.name for library in crate.below() if not library.is_built()]
    if missing:
        print(f"{name}: {len(missing)} libraries below it aren't built, {missing[0]} first: tools/prove builds them")
        return 2
    timed, seconds, peak = timed_check(rtlib, crate, tests)
    if timed.status:
        print(*timed.lines[-5:], f"{name}: not proved", sep="\n")
        return 1
    print(f"{name}: {timed.used[-1]:.1f} s for {len(timed.functions)} functions, and {peak:,.0f} MB at most")
    print(f"{timed.reading or 0:7.1f}  to read the crate and the interfaces below it")
    sums = {source: sum(parts.values()) for source, parts in seconds.items()}
    for source, used in sorted(sums.items(), key=lambda it: -it[1]):
        if used >= TOLD:
            print(f"{used:7.1f}  {source}{dearest(seconds[source])}")
    print(f"{sum(used for used in sums.values() if used < TOLD):7.1f}  others")
    return 0
