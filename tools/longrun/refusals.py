"""How a run ends: the statuses of the program, and one for what the program has no status for."""

DONE, FAILED, USAGE, BAD_TRACE, READ_FAULT, WRITE_FAULT, LIMIT = 0, 1, 2, 4, 5, 6, 7


class Refused(Exception):
    """The status that a run ends with, the text on standard output, and what is told beside it on standard error."""

    def __init__(self, status, text="", note=""):
        super().__init__(status, text, note)
        self.status, self.text, self.note = status, text, note


def read_fault(name, note=""):
    return Refused(READ_FAULT, f"read fault: {name}\n", note)


def write_fault(name, note=""):
    return Refused(WRITE_FAULT, f"write fault: {name}\n", note)


def over_limit(quantity, most, note=""):
    return Refused(LIMIT, f"limit: {quantity} {most}\n", note)
