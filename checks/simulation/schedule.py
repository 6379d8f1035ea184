"""Boards under way: given steps, and how a run is finished after them, or without any.

Every translation is made by the newest version, which is the number of the bundles that are published so far.
"""
from .caches import FLOW_LIMIT, Block, Board, Versioned
from .classifier import Tables
from .flow_rules import Rules
from .translation import translate


def blocks_of(frames, script):
    """The blocks of a port: each but the last ends before the first frame that isn't before the next sync point."""
    blocks, lo = [], 0
    for sync in script.syncs:
        end = next((at for at, frame in enumerate(frames) if frame.time >= sync.time), len(frames))
        blocks.append(Block(frames[:end], lo, sync.after))
        frames, lo = frames[end:], sync.after
    return [*blocks, Block(frames, lo, len(script.bundles))]


class Schedule:
    """The boards of a run by their ports, in the order of the words, and the rules of the newest version."""

    def __init__(self, script, frames, flow_limit=FLOW_LIMIT):
        """frames has those of each port."""
        self.bundles, self.rules, self.tables = script.bundles, Rules(), None
        self.boards = {port: Board(port, blocks_of(frames[port], script), flow_limit) for port in frames}
        # What was made of the keys of frames and of entries for a later step, by the step, the port and their number.
        self.kept = {}

    @property
    def newest(self):
        return self.rules.version

    def publish(self):
        self.rules.apply(self.bundles[self.newest])
        self.tables = None

    def translate(self, key):
        """What the newest version makes of a key."""
        self.tables = self.tables or Tables(self.rules.live.values())
        return Versioned(self.newest, translate(self.tables, list(self.boards), key))

    def least(self):
        """A board of the least block."""
        return min(self.boards.values(), key=lambda board: board.block)

    # ---- given steps

    def take(self, steps):
        """Takes steps, and tells how many of them weren't met."""
        return sum(not TAKE[step.word](self, *step.numbers) for step in steps)

    def edit(self):
        if self.newest >= self.least().hi:
            return False
        self.publish()
        return True

    def snap(self, port, place):
        if place not in self.boards[port].pending:
            return False
        _, key = self.boards[port].pending[place]
        self.kept["settle", port, place] = self.translate(key)
        return True

    def check(self, port, number):
        if not self.boards[port].is_listed(number):
            return False
        self.kept["put", port, number] = self.translate(self.boards[port].megaflows.entries[number].key)
        return True

    def settle(self, port, place):
        """What was kept is given up, whether the step is met or not."""
        kept = self.kept.pop(("settle", port, place), None)
        return kept is not None and self.boards[port].settle(place, kept)

    def put(self, port, number):
        kept = self.kept.pop(("put", port, number), None)
        return kept is not None and self.boards[port].put(number, kept)

    # ---- the end of a run

    def finish(self):
        """Finishes all blocks, one after the other."""
        count = len(self.least().blocks)
        for _ in range(count):
            self.finish_block()

    def finish_block(self):
        """Publishes what is left of the least block of the boards, and finishes it on each board that is in it."""
        least = self.least()
        block, hi = least.block, least.hi
        while self.newest < hi:
            self.publish()
        for board in self.boards.values():
            if board.block == block:
                self.finish_board(board)

    def finish_board(self, board):
        if board.listed is not None:
            self.end_sweep(board)
        self.settle_all(board)
        if board.done < board.hi:
            board.begin(board.hi)
            self.end_sweep(board)
        while board.look():
            self.settle_all(board)
        board.open()

    def end_sweep(self, board):
        """Checks each entry that a sweep has left, in rising order."""
        for number in sorted(board.listed):
            board.put(number, self.translate(board.megaflows.entries[number].key))
        board.end()

    def settle_all(self, board):
        """Settles each frame that waits, in rising order."""
        for place in sorted(board.pending):
            _, key = board.pending[place]
            board.settle(place, self.translate(key))


# What is done by each step.
TAKE = {
    "edit": Schedule.edit,
    "rx": lambda schedule, port: schedule.boards[port].look(),
    "snap": Schedule.snap,
    "settle": Schedule.settle,
    "sweep": lambda schedule, port: schedule.boards[port].begin(schedule.newest),
    "check": Schedule.check,
    "put": Schedule.put,
    "swept": lambda schedule, port: schedule.boards[port].end(),
    "open": lambda schedule, port: schedule.boards[port].open(),
}
