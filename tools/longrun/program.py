"""The program that runs parts: which it is, and what it says of edits and mirrors before there are any parts."""
import os
import re
import shutil
import subprocess
from collections import namedtuple

from .edits import MOST_SYNCS, is_sync
from .parts import EDITS, MIRRORS, OUT
from .refusals import DONE, FAILED, Refused, read_fault
from .remote import checksum_of, run

TOP = os.path.dirname(os.path.dirname(os.path.dirname(os.path.realpath(__file__))))
LAUNCHER = os.path.join(TOP, "megaswitch")
LAUNCH = os.path.join(TOP, "tools", "launch")
NAME = "megaswitch"

EDIT_COUNT = re.compile(r" edits=(\d+) ")
# A text that tells of a line in a file.
OF_LINE = re.compile(r"(edits|mirrors):(\d+):(.*)", re.DOTALL)

Program = namedtuple("Program", "path checksum")
# The rules that all edits make, as they are dumped where no frame came in, and how many edits there are.
Checked = namedtuple("Checked", "rules edits")


# ---- which it is


def found_program(given, folder):
    """The program that is given, or that of the environment, or of this repository, or else the one on the PATH."""
    path = given or os.environ.get("MEGASWITCH") or (LAUNCHER if os.path.exists(LAUNCHER) else NAME)
    found = shutil.which(path)
    if not found:
        raise Refused(FAILED, note=f"there is no program {path}")
    if os.path.realpath(found) == LAUNCHER:
        found = launched()
    return Program(os.path.abspath(found), checksum_of(found))


def launched():
    """The program that the launcher runs. It finds that out by all sources, so it is asked once, not for each part."""
    asked = subprocess.run([LAUNCH, "--which", NAME], stdin=subprocess.DEVNULL, stdout=subprocess.PIPE, text=True)
    if asked.returncode != DONE:
        raise Refused(asked.returncode, asked.stdout)
    return asked.stdout.rstrip("\n")


# ---- what it says


def contents(name):
    try:
        with open(name, "rb") as file:
            return file.read()
    except OSError as why:
        raise read_fault(name, f"{name}: {why.strerror}")


def checked(program, command, edits, mirrors, folder):
    """What the program makes of edits and mirrors without a frame. Raises what it refuses."""
    room = folder.fresh(".checked")
    words = [*command.options, *(f"--mirrors={MIRRORS}" for _ in [mirrors] if _ is not None), EDITS, OUT]
    words += [f"{port}=" for port in command.traces]
    folder.write(os.path.join(room, MIRRORS), [mirrors or b""])
    refused = []
    for some in with_few_syncs(edits):
        folder.write(os.path.join(room, EDITS), [some])
        ended = run(program.path, words, room)
        if ended.status != DONE:
            refused.append(ended)
    if refused:
        raise first_refusal(refused, command)
    return Checked(contents(os.path.join(room, f"{OUT}.rules")), int(EDIT_COUNT.search(ended.text)[1]))


def with_few_syncs(edits):
    """The edits; or where there are more sync lines than a run takes, the edits with so many of them at a time, and
    with blank lines in the place of the others. The last of them and the first of the next time are the same."""
    lines = edits.split(b"\n")
    syncs = [at for at, line in enumerate(lines) if is_sync(line)]
    if len(syncs) <= MOST_SYNCS:
        yield edits
        return
    for begin in range(0, len(syncs) - 1, MOST_SYNCS - 1):
        blank = {*syncs[:begin], *syncs[begin + MOST_SYNCS :]}
        yield b"\n".join(b"" if at in blank else line for at, line in enumerate(lines))


def first_refusal(refused, command):
    """The first thing that is wrong, with the name of its file as the words have it."""

    def place(ended):
        found = OF_LINE.match(ended.text)
        return (0, int(found[2])) if found and found[1] == EDITS else (1, 0)

    ended = min(refused, key=place)
    names = {EDITS: command.edits, MIRRORS: command.mirrors}
    return Refused(ended.status, OF_LINE.sub(lambda found: f"{names[found[1]]}:{found[2]}:{found[3]}", ended.text))
