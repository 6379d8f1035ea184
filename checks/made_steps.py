"""Made-up steps files.

Where the run is known, its steps are chosen as it goes on, most of them such as are met where they stand. So frames wait
while rules change, entries are put by versions of before, and ports are in different blocks. The others are of places
and entries that there aren't, too early, too late or twice; and now and then a line isn't in form. Some files begin with
steps after which an entry is gone that a sweep had still to put.
"""
from made_actions import Picker
from simulation.flow_text import LIMITS
from simulation.steps import NUMBERS_AFTER, Step

MOST_STEPS = 90
WORDS = list(NUMBERS_AFTER)
# How often a step is one of those that are met, and a line out of form or blank.
MET, ODD, BLANK = 0.85, 0.002, 0.02
# Small ones are those of places and of entries.
NUMBERS = [1, 1, 1, 2, 2, 3, 4, 9, 4294967295]
ODD_LINES = ["foo", "EDIT", "rx", "rx 0", "rx 01", "rx 1 1", "rx 65280", "rx 0x1", "edit 1", "edit\r", "edit,", "snap 1"]
ODD_LINES += ["put 0 0", "put 1 0", "check 1 4294967296", "sweep", "swept -1", "open 1.", "settle 1 +1", "\v", "edit\0"]
ODD_LINES += ["edit".ljust(LIMITS["line"]), "edit".ljust(LIMITS["line"] + 1)]
BLANK_LINES = ["", " \t", "# rx", "#"]
# Frames are decided while sweeps go on.
OFTEN = ["rx", "snap", "settle"]
# The words of steps that make a narrow entry, and a wider one of another frame while a sweep goes on.
NARROW = ["edit", "edit", "rx", "snap", "settle"]
WIDER = ["edit", "sweep", "check", "snap", "settle", "put"]


def can_open(board):
    return not (board.left or board.pending or board.done < board.hi) and board.block + 1 < len(board.blocks)


class StepMaker(Picker):
    """Makes steps for these ports, and where a schedule is given takes them there."""

    def __init__(self, pick, ports, schedule=None):
        super().__init__(pick)
        self.ports, self.schedule = ports, schedule

    def text(self, is_narrow=False):
        """A steps file."""
        lines = [self.printed(step) for step in self.narrow_steps()] if is_narrow else []
        return "\n".join(lines + [self.line() for _ in range(self.pick.randrange(MOST_STEPS))]) + self.one("", "\n")

    def line(self):
        if self.chance(ODD):
            return self.one(*ODD_LINES)
        return self.one(*BLANK_LINES) if self.chance(BLANK) else self.printed(self.step())

    def printed(self, step):
        gap = self.one(*[" "] * 8, "\t", "  ")
        return self.one(*[""] * 8, " ") + gap.join(map(str, [step.word, *step.numbers])) + self.one(*[""] * 8, " ", "# 1")

    def narrow_steps(self):
        """Steps of one port, as long as they are met."""
        port = max(self.ports, key=lambda port: len(self.schedule.boards[port].left))
        board = self.schedule.boards[port]
        for word in [*NARROW, *["rx"] * len(board.left), *WIDER]:
            steps = [it for it in self.steps_that_are_met(port) if it.word == word]
            if steps and not (word == "rx" and board.pending):
                self.schedule.take(steps[:1])
                yield steps[0]

    def step(self):
        met = self.steps_that_are_met(self.one(*self.ports)) if self.schedule and self.chance(MET) else []
        step = self.one(*met) if met else self.any_step()
        if self.schedule:
            self.schedule.take([step])
        return step

    def any_step(self):
        word = self.one(*WORDS)
        return Step(word, [self.one(*self.ports), self.one(*NUMBERS)][: NUMBERS_AFTER[word]])

    def steps_that_are_met(self, port):
        """Of each word one for this port, and an edit; more of those of frames."""
        board = self.schedule.boards[port]
        is_met = {
            "edit": self.schedule.newest < self.schedule.least().hi, "rx": board.left, "sweep": board.listed is None,
            "swept": board.listed == set(), "open": can_open(board),
        }
        numbers = {
            "snap": board.pending, "settle": self.kept_for("settle", port), "check": board.listed,
            "put": self.kept_for("put", port),
        }
        steps = [Step(word, [port][: NUMBERS_AFTER[word]]) for word in is_met if is_met[word]]
        steps += [Step(word, [port, self.one(*sorted(of))]) for word, of in numbers.items() if of]
        return steps + [step for step in steps if step.word in OFTEN]

    def kept_for(self, word, port):
        """The places or the entries of which something is kept for this word."""
        return [number for kept, at, number in self.schedule.kept if (kept, at) == (word, port)]
