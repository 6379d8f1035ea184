"""What the gate costs by crate, checks/costs.tsv, and what of it is held to a budget.

A row has the processor seconds of a crate's proof, its tests and its must-fail edits, the most memory in MB that a
process had that proved the crate or its tests, and the commit that these are of. A cell is empty where there is
nothing to do, or too little to be seen.
"""
import csv
import os

from crate_list import TOP, listed_crates, program_of

TABLE = "checks/costs.tsv"
KINDS = ("proof", "tests", "edits")
COLUMNS = ("crate", *KINDS, "memory", "commit")

# The budget: processor seconds of the whole gate from nothing, of the proof of the program alone, and of the longest
# chain of crates below it that wait for one another; and the most memory of a check, in MB.
PROGRAM = "megaswitch"
MOST_IN_ALL, MOST_OF_PROGRAM, MOST_OF_CHAIN, MOST_MEMORY = 10_000, 5_500, 1_000, 3_000


def read_rows():
    """The rows of the table by crate."""
    path = os.path.join(TOP, TABLE)
    if not os.path.exists(path):
        return {}
    with open(path, newline="") as file:
        return {row["crate"]: row for row in csv.DictReader(file, delimiter="\t")}


def number_in(row, column):
    return int(row.get(column) or 0)


def seconds_in(row):
    return sum(number_in(row, kind) for kind in KINDS)


def write_rows(rows):
    """Writes the rows of the crates that there are, the dearest first."""
    there = {crate.name for crate in listed_crates()}
    rows = [row for row in rows.values() if row["crate"] in there]
    with open(os.path.join(TOP, TABLE), "w", newline="") as file:
        table = csv.DictWriter(file, COLUMNS, restval="", delimiter="\t", lineterminator="\n")
        table.writeheader()
        table.writerows(sorted(rows, key=lambda row: (-seconds_in(row), row["crate"])))


def missing_in(rows):
    """The crates of the list that have no row, and the rows of no crate."""
    return sorted({crate.name for crate in listed_crates()} ^ {*rows})


def longest_chain(below, seconds):
    """The dearest chain of crates that wait for one another, lowest first; `below` has each after those below it."""
    length, chain = {}, {}
    for name, others in below.items():
        before = max(others, key=length.get, default=None)
        length[name] = seconds[name] + length.get(before, 0)
        chain[name] = [*chain.get(before, []), name]
    return chain[max(length, key=length.get)]


def against(what, used, most, unit):
    """What was used of a budget."""
    over = f", {used - most:,} over" if used > most else ""
    return f"{what}: {used:,} of {most:,} {unit}{over}"


def totals(rows):
    """The lines that hold the table to the budget."""
    of_kinds = {kind: sum(number_in(row, kind) for row in rows.values()) for kind in KINDS}
    yield f"{TABLE}: " + ", ".join(f"{seconds:,} s for {kind}" for kind, seconds in of_kinds.items())
    yield against("the gate from nothing", sum(of_kinds.values()), MOST_IN_ALL, "s")
    below = program_of(PROGRAM)
    proofs = {name: number_in(rows.get(name, {}), "proof") for name in below}
    what = f"the proof of {PROGRAM} and the {len(below) - 1} crates below it"
    yield against(what, sum(proofs.values()), MOST_OF_PROGRAM, "s")
    chain = longest_chain(below, proofs)
    what = against("its longest chain", sum(proofs[name] for name in chain), MOST_OF_CHAIN, "s")
    yield f"{what}: {' > '.join(chain)}"
    largest = max(rows.values(), key=lambda row: number_in(row, "memory"), default={})
    yield against(f"the largest check, {largest.get('crate')}", number_in(largest, "memory"), MOST_MEMORY, "MB")
    missing = missing_in(rows)
    if missing:
        yield f"not both in {TABLE} and in crates.txt: {' '.join(missing)}"
