"""What pages name and count, held to what is there: used by checks/names, from the top of the repository."""
import os
import re
import sys
from collections import namedtuple
from glob import glob

# Pages whose names in backquotes are those of code. In the others they are mostly flow text and commands.
PAGES_OF_CODE = ["README.md", "bench/README.md", "vectors/README.md"]
PAGES_OF_CODE += [f"docs/{name}.md" for name in ["ARCHITECTURE", "CLAIMS", "DECISIONS", "DEFINITIONS", "HOUSE"]]
SOURCES = ["crates/*/src/**/*", "crates/*/specs/**/*", "crates/*/proofs/**/*", "checks/**/*", "tools/**/*", "bench/*"]
SOURCES += ["vectors/*", "examples/*.py", "crates.txt", "megaswitch", "megatrace", "megadiff", ".ci/run"]
PAGES = "**/*.md"

QUOTED = re.compile(r"`([^`\n]+)`")
IDENTIFIER = re.compile(r"[A-Za-z_]\w*(?:(?:\.|::)[A-Za-z_]\w*)*(?:\(\))?")
WORD = re.compile(r"[A-Za-z_]\w*")
PATH = re.compile(r"[\w.-]+(?:/[\w.-]+)+")
BARE_PATH = re.compile(r"(?<![\w/`])(?:docs|checks|tools|bench|examples|vectors|crates)/[\w./-]*\w")
# Folders of a crate, below which a page may name a file without its ending.
IN_CRATES = ("src", "specs", "proofs", "must-fail")
# What stands for a name, and what is made and isn't kept.
OPEN = re.compile(r"NAME|\bout/|/out\b|\bwork/|^\./|\.\.\.")
# Names of the kit, of the system and of others' programs, which no source has.
NAMES_ELSEWHERE = {"thiserror", "chrt"}
LINK = re.compile(r"\]\(([\w./-]*)#([\w-]+)\)")
HEADING = re.compile(r"^#+ (.*)$", re.MULTILINE)
FENCE = re.compile(r"^```.*?^```$", re.MULTILINE | re.DOTALL)


def read(path):
    with open(path, encoding="utf-8") as file:
        return file.read()


def prose(page):
    """A page without what stands in it as it would in a file or on a screen."""
    return FENCE.sub("", read(page))


# ---- names


def words_of_sources():
    words = set()
    for path in sorted({path for pattern in SOURCES for path in glob(pattern, recursive=True)}):
        if os.path.isfile(path) and not path.endswith((".md", ".pcap", ".pyc")) and "/out/" not in path:
            words |= {*WORD.findall(os.path.basename(path)), *WORD.findall(open(path, errors="replace").read())}
    words |= {os.path.basename(path) for path in glob("crates/*")}
    return words | NAMES_ELSEWHERE


def is_there(path, page):
    """Whether a path leads somewhere, with an ending or without: from the top, from its page, or in some crate."""
    begin = path.partition("/")[0]
    if begin == "..":
        path = os.path.normpath(os.path.join(os.path.dirname(page), path))
    elif begin in IN_CRATES:
        path = f"crates/*/{path}"
    elif not os.path.isdir(begin):
        return True
    return bool(glob(path) or glob(f"{path}.*"))


def faults_of_names(words):
    for page in PAGES_OF_CODE:
        for quoted in QUOTED.findall(prose(page)):
            if IDENTIFIER.fullmatch(quoted):
                for word in WORD.findall(quoted):
                    if word not in words:
                        yield f"{page}: it names `{quoted}`, and {word} is nowhere"


def faults_of_paths():
    for page in sorted(glob(PAGES, recursive=True)):
        text = prose(page)
        quoted = [it for it in QUOTED.findall(text) if PATH.fullmatch(it)]
        for path in sorted({*quoted, *BARE_PATH.findall(text)}):
            if not OPEN.search(path) and not is_there(path.rstrip("/"), page):
                yield f"{page}: it names {path}, which isn't there"


# ---- places within pages


def anchors_of(page):
    """The headings of a page as links name them."""
    for heading in HEADING.findall(prose(page)):
        yield re.sub(r"[^\w -]", "", heading.lower()).replace(" ", "-")


def faults_of_links():
    for page in sorted(glob(PAGES, recursive=True)):
        for target, anchor in LINK.findall(prose(page)):
            other = os.path.join(os.path.dirname(page), target) if target else page
            if not os.path.isfile(other) or anchor not in anchors_of(other):
                yield f"{page}: it links to {target}#{anchor}, which isn't there"


# ---- counts

# A sentence of a page with a number, and what it counts.
Count = namedtuple("Count", "page pattern number")


def lines_in(path, without=0):
    return lambda: len(read(path).splitlines()) - without


def frames_that_differ():
    sys.path.insert(0, "vectors")
    import frames

    return sum(frame.difference is not None for frame in frames.ALL_FRAMES)


def fields():
    """The variants of the fields of a key."""
    text = read("crates/spec_keys/src/field_id.rt")
    body = text[text.index("pub enum FieldId") :]
    return len(re.findall(r"^\s+[A-Z]\w*,", body[: body.index("\n}")], re.MULTILINE))


COUNTS = [
    Count("README.md", r"one definition of ([\d,]+) lines", lines_in("crates/switch_app/specs/Ends.antt")),
    Count("docs/CLAIMS.md", r"([\d,]+) frames as tshark reads them", lines_in("vectors/frames.tsv", without=1)),
    Count("docs/CLAIMS.md", r"but for ([\d,]+) where the profile differs", frames_that_differ),
    Count("docs/CLAIMS.md", r"([\d,]+) frames with lists of actions", lines_in("vectors/rewritten.tsv", without=1)),
    Count("docs/CLAIMS.md", r"([\d,]+) lines of flow text", lines_in("checks/flow_lines.txt")),
    Count("docs/DEFINITIONS.md", r"classified by ([\d,]+) \*\*fields\*\*", fields),
]


def faults_of_counts():
    for count in COUNTS:
        found = re.search(count.pattern, read(count.page))
        if not found:
            yield f"{count.page}: it no longer says {count.pattern}"
        elif int(found[1].replace(",", "")) != count.number():
            yield f"{count.page}: it says {found[0]!r}, and there are {count.number()}"


def faults_of_pages():
    yield from faults_of_names(words_of_sources())
    yield from faults_of_paths()
    yield from faults_of_links()
    yield from faults_of_counts()
