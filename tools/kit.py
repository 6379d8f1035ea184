"""The Rattle kit's own rtlib, in which `rt` has what a crate is, and how it is checked and built.

Its names are no promise of the kit: where one that is used here isn't there, `load` says so, and who calls does
without.
"""
import importlib.machinery
import importlib.util
import os
import shutil
import sys

# What is used of rtlib, and of its class Crate.
NAMES = ("Crate", "KIT", "RATTLE", "guarded", "help_of", "sum_of", "text_of")
NAMES_OF_CRATE = ("below", "count", "is_built", "need", "stamp", "words")


class NoKit(Exception):
    """There is no kit on the PATH."""


class OtherKit(Exception):
    """What of the kit's rtlib isn't as it is used here."""


def load():
    """The kit's rtlib as a module, whose stamps read each crate's files once for all crates above it."""
    command = shutil.which("rt")
    if not command:
        raise NoKit("`rt` of the Rattle kit is not on the PATH")
    path = os.path.join(os.path.dirname(os.path.realpath(command)), "rtlib.py")
    if not os.path.isfile(path):
        raise OtherKit(f"there is no {path}")
    # The kit's folder gets no compiled copy of it.
    sys.dont_write_bytecode = True
    loader = importlib.machinery.SourceFileLoader("rtlib", path)
    rtlib = importlib.util.module_from_spec(importlib.util.spec_from_loader("rtlib", loader))
    sys.modules["rtlib"] = rtlib
    try:
        loader.exec_module(rtlib)
        missing = [name for name in NAMES if not hasattr(rtlib, name)]
        missing = missing or [f"Crate.{name}" for name in NAMES_OF_CRATE if not hasattr(rtlib.Crate, name)]
    except Exception as error:
        # A file that reads otherwise may fail in any way.
        raise OtherKit(f"{path} can't be loaded: {error}") from error
    if missing:
        raise OtherKit(f"{path} has no {missing[0]}")
    if "--statements" not in rtlib.help_of("build"):
        raise OtherKit("its `rattle build` has no --statements")
    keep_stamps(rtlib)
    return rtlib


def keep_stamps(rtlib):
    """Has a crate's stamp made once, until `forget_stamps`: a stamp reads the files of all crates below, which rtlib
    does anew for each way that leads down to a crate."""
    make, kept = rtlib.Crate.stamp, {}

    def stamp(crate):
        if crate.folder not in kept:
            kept[crate.folder] = make(crate)
        return kept[crate.folder]

    rtlib.Crate.stamp, rtlib.forget_stamps = stamp, kept.clear
