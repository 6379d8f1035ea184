"""Why a run ends as it does: the statuses, and what is refused by which text."""

DONE, USAGE, BAD_TEXT, BAD_TRACE, READ_FAULT, WRITE_FAULT, LIMIT = 0, 2, 3, 4, 5, 6, 7

USAGE_TEXT = (
    "usage: megaswitch [--workers N] [--steps FILE] [--flow-limit N] [--netflow] [--mirrors FILE] EDITS OUT PORT=FILE..."
)


class Refused(Exception):
    """The status and the text that a run ends with."""


def check_words(holds):
    if not holds:
        raise Refused(USAGE, USAGE_TEXT)


def check_trace(holds, name, reason):
    if not holds:
        raise Refused(BAD_TRACE, f"{name}: {reason}")


def check_limit(holds, quantity, most):
    if not holds:
        raise Refused(LIMIT, f"limit: {quantity} {most}")
