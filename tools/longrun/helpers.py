"""Processes of the tool itself, beside the one that reads the captures."""
import multiprocessing
import signal

FORKED = multiprocessing.get_context("fork")
# The ends of pipes by which helpers are told something. No helper keeps one that it was forked with: it is by that
# they are closed that the others see that the tool is gone.
HELD = set()


class Helper:
    """A process that does something, and a pipe by which it is told what, and tells what became of it."""

    def __init__(self, do):
        self.pipe, theirs = FORKED.Pipe()
        HELD.add(self.pipe)
        self.process = FORKED.Process(target=begin, args=(do, theirs))
        self.process.start()
        theirs.close()

    def dismiss(self):
        """Waits for its end. It ends by itself where it has nothing to do."""
        HELD.discard(self.pipe)
        self.pipe.close()
        self.process.join()


def begin(do, pipe):
    # What comes from a terminal is for the tool, which ends its helpers.
    signal.signal(signal.SIGINT, signal.SIG_IGN)
    signal.signal(signal.SIGHUP, end)
    signal.signal(signal.SIGTERM, end)
    for held in HELD:
        held.close()
    do(pipe)


def end(*_):
    """Ends a process where it stands; what runs it is ended with it."""
    raise SystemExit(1)
