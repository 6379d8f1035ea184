"""The words of the command line."""
import re
from collections import namedtuple

from .caches import FLOW_LIMIT
from .flow_text import LAST_PORT
from .refusals import check_words

OPTIONS = ["workers", "steps", "flow-limit", "mirrors", "generate"]
FLAGS = ["netflow"]
MOST_WORKERS = 16
MOST_FLOWS = 65536
# The greatest number that makes an input.
MOST_MADE = 4294967295
MOST_PORTS = 32

NUMBER = re.compile(r"0|[1-9][0-9]*")
PORT_WORD = re.compile(r"([1-9][0-9]{0,4})=(.*)", re.DOTALL)

# How many workers there are and the most entries of a port. Then the name of the edits, the start of the names of outputs,
# the name of each port's trace, the names of the steps file and of the mirrors file or None, and whether the flows are
# written; or the number that makes the input.
Command = namedtuple("Command", "workers flow_limit edits out traces steps mirrors netflow number", defaults=[None] * 7)


def is_text(word):
    """Whether a word was in UTF-8: of others Python keeps the bytes as what no text has."""
    return word == word.encode(errors="ignore").decode()


def is_plain(word):
    """Whether a word is no option and no `--`."""
    return word == "-" or not word.startswith("-")


def split_words(words):
    """The values of options, or None for those that take none, and the other words. After `--` each word is one of these."""
    options, plain, rest = {}, [], iter(words)
    for word in rest:
        if word == "--":
            plain += rest
        elif is_plain(word):
            plain.append(word)
        else:
            name, has_value, value = word[2:].partition("=")
            if name in FLAGS:
                check_words(not has_value)
                value = None
            elif not has_value:
                value = next(rest, "--")
                check_words(is_plain(value))
            check_words(word.startswith("--") and name in OPTIONS + FLAGS and name not in options)
            options[name] = value
    return options, plain


def read_number(text, most):
    check_words(NUMBER.fullmatch(text) and int(text) <= most)
    return int(text)


def read_ports(words):
    """The name of each port's trace."""
    check_words(1 <= len(words) <= MOST_PORTS)
    traces = {}
    for word in words:
        found = PORT_WORD.fullmatch(word)
        check_words(found and int(found[1]) <= LAST_PORT and int(found[1]) not in traces)
        traces[int(found[1])] = found[2]
    return traces


def read_words(words):
    check_words(all(map(is_text, words)))
    options, plain = split_words(words)
    workers = read_number(options.get("workers", "0"), MOST_WORKERS)
    flow_limit = read_number(options.get("flow-limit", str(FLOW_LIMIT)), MOST_FLOWS)
    check_words(flow_limit > 0)
    if "generate" in options:
        return read_made_words(options, plain, Command(workers, flow_limit))
    return read_file_words(options, plain, Command(workers, flow_limit))


def read_made_words(options, plain, command):
    """What a number makes takes the place of all files."""
    number = read_number(options["generate"], MOST_MADE)
    check_words(not plain and not options.keys() & {"steps", "mirrors", "netflow"})
    return command._replace(number=number)


def read_file_words(options, plain, command):
    """Steps aren't given to workers."""
    check_words(len(plain) >= 2 and plain[0] and plain[1])
    check_words("steps" not in options or (options["steps"] and not command.workers))
    check_words(options.get("mirrors") != "")
    return command._replace(
        edits=plain[0],
        out=plain[1],
        traces=read_ports(plain[2:]),
        steps=options.get("steps"),
        mirrors=options.get("mirrors"),
        netflow="netflow" in options,
    )
