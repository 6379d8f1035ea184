#!/usr/bin/env python3
"""Makes the frames of this folder, asks tshark what they say, and makes rows of that.

    python3 vectors/make.py                  writes frames.tsv, which needs tshark
    python3 vectors/make.py --rows           writes the rows in crates/worked_rows/proofs/frames from frames.tsv
    python3 vectors/make.py --check          tells whether these rows are those of frames.tsv: status 0, or else 1
    python3 vectors/make.py --asked          tells whether tshark still prints frames.tsv, its version aside: so too
    python3 vectors/make.py --capture FILE   writes the frames as a capture file
"""
import argparse
import itertools
import shutil
import sys
from pathlib import Path

import rows
import table
from frames import ALL_FRAMES, MODULES

HERE = Path(__file__).resolve().parent
TABLE = HERE / "frames.tsv"
PROOFS = HERE.parent / "crates" / "worked_rows" / "proofs" / "frames"


class Fault(Exception):
    """What is wrong with the files, in a line."""


def asked_table():
    """The table as tshark prints it now."""
    if shutil.which("tshark") is None:
        raise Fault("tshark is not installed")
    return table.text_of(ALL_FRAMES)


def write_table():
    TABLE.write_text(asked_table(), "utf-8")


def check_table():
    """Whether tshark prints the lines of the table, below the first with its version."""
    for asked, stored in itertools.zip_longest(*map(rows_below, (asked_table(), TABLE.read_text("utf-8")))):
        if asked != stored:
            raise Fault(f"tshark prints otherwise: {asked}, not {stored}")


def rows_below(text):
    return text.splitlines()[1:]


def read_table():
    """What tshark printed of each frame, by its name, from the table, which is to have the frames of this script."""
    read = table.parse(TABLE.read_text("utf-8"))
    made = {frame.name: frame.bytes for frame in ALL_FRAMES}
    if len(made) < len(ALL_FRAMES):
        raise Fault("two frames have the same name")
    for name in made | read:
        if name not in read or name not in made:
            raise Fault(f"{name}: this frame is not both in frames.py and in frames.tsv")
        if read[name][0] != made[name]:
            raise Fault(f"{name}: frames.tsv has other bytes than frames.py")
    return {name: fields for name, (_, fields) in read.items()}


def modules():
    """The path and the text of each module of rows."""
    printed = read_table()
    for name, (about, frames) in MODULES.items():
        yield PROOFS / f"{name}.antt", rows.module(about, frames, printed)


def write_rows():
    for path, text in modules():
        path.write_text(text, "utf-8")


def check_rows():
    for path, text in modules():
        if not path.exists() or path.read_text("utf-8") != text:
            raise Fault(f"{path.name}: these rows are not those of frames.tsv; make.py --rows makes them")


def words():
    parser = argparse.ArgumentParser(description="Makes the table of frames, or the rows of it.")
    choice = parser.add_mutually_exclusive_group()
    choice.add_argument("--rows", action="store_true", help="write the rows from the table")
    choice.add_argument("--check", action="store_true", help="tell whether the rows are those of the table")
    choice.add_argument("--asked", action="store_true", help="tell whether tshark prints the table again")
    choice.add_argument("--capture", metavar="FILE", help="write the frames as a capture file")
    return parser.parse_args()


def main():
    asked = words()
    try:
        if asked.rows:
            write_rows()
        elif asked.check:
            check_rows()
        elif asked.asked:
            check_table()
        elif asked.capture:
            table.write_capture(asked.capture, ALL_FRAMES)
        else:
            write_table()
    except Fault as fault:
        sys.exit(f"make.py: {fault}")


if __name__ == "__main__":
    main()
