"""The refusals by name, with their words for each operation.

Made by tools/refusals --write from docs/refusals.tsv.
"""
from enum import IntEnum
from typing import NamedTuple


class Refusal(IntEnum):
    """Why an operation was refused: the refusals of docs/MODEL.md, with their numbers."""

    LENGTH = 1
    VERSION = 2
    COUNTS = 3
    SIZE = 4
    LIMITS = 5
    RATES = 6
    STEP_INPUT = 7
    STEPS_DONE = 8
    RELEASE_ABOVE_QUEUE = 9
    RELEASE_ABOVE_SUPPLY = 10
    LIST_LENGTH = 11
    SCHEDULE_LENGTH = 12
    OUTFLOW_ABOVE_DEMAND = 13
    ENTERING_ABOVE_ROOM = 14
    TARGET_LENGTH = 15
    LAW_NUMBERS = 16
    LANES_LENGTH = 17
    LANES = 18
    SECONDS = 19
    ROADS_DIFFER = 20
    SECOND_GATE = 21
    JOINED_SIZE = 22
    WANTED_INPUT = 23
    STREET_INPUT = 24
    PEAK = 25
    CALLER_LIMITS = 26
    MANY_LENGTHS = 27


class Meaning(NamedTuple):
    """The meaning of a refusal of an operation."""

    place: str  # none, place, cell, step, step and cell, step and place, list
    words: str


# a refusal, the operations that give it with these words, what its place is, the words
_ROWS: list[tuple[Refusal, str, str, str]] = [
    (
        Refusal.LENGTH,
        "read read_within run fill judge history put join run_many fill_many run_on fill_on "
        "judge_on history_on",
        "none",
        "fewer than 16 bytes (18 where byte 4 is 2), more than 65,536, or a first field that is "
        "not the count of bytes after it",
    ),
    (
        Refusal.LENGTH,
        "write",
        "none",
        "a record of more than 65,536 bytes",
    ),
    (
        Refusal.VERSION,
        "read read_within run fill judge history put join write run_many fill_many run_on fill_on"
        " judge_on history_on",
        "none",
        "a version other than 1 or 2",
    ),
    (
        Refusal.COUNTS,
        "read read_within run fill judge history put join write run_many fill_many run_on fill_on"
        " judge_on history_on",
        "none",
        "n is not 1 to 64, or T not 1 to 1,440",
    ),
    (
        Refusal.SIZE,
        "read read_within run fill judge history put join run_many fill_many run_on fill_on "
        "judge_on history_on",
        "none",
        "a size other than 16 + 24n + T × (4 + 8n) bytes, in version 2 two more",
    ),
    (
        Refusal.SIZE,
        "write",
        "none",
        "the rows do not have T × (1 + 2n) numbers",
    ),
    (
        Refusal.LIMITS,
        "read read_within run fill judge history write run_many fill_many run_on fill_on judge_on"
        " history_on",
        "place",
        "the gate or a cell out of its limits, a ramp mark above 1, held above the jam count, a "
        "queue without a ramp, or a last share other than 0",
    ),
    (
        Refusal.LIMITS,
        "put",
        "place",
        "a cell without a ramp, or that is not on the road; or in the record, the gate or a cell "
        "out of its limits",
    ),
    (
        Refusal.LIMITS,
        "join",
        "place",
        "the joint's share above 1,000; or in one of the two records, the gate or a cell out of "
        "its limits",
    ),
    (
        Refusal.RATES,
        "read read_within run fill judge history join write run_many fill_many run_on fill_on "
        "judge_on history_on",
        "step",
        "a row's number above 1,000,000, or one other than 0 for a cell without a ramp",
    ),
    (
        Refusal.RATES,
        "put",
        "step",
        "a step from T on, or a release above 1,000,000; or in the record, a row's number above "
        "1,000,000, or one other than 0 for a cell without a ramp",
    ),
    (
        Refusal.STEP_INPUT,
        "step",
        "none",
        "the row's length, the road, the row, n, the steps done or the state breaks a limit",
    ),
    (
        Refusal.STEP_INPUT,
        "run_on fill_on judge_on history_on",
        "none",
        "the state given breaks a limit",
    ),
    (
        Refusal.STEPS_DONE,
        "step",
        "none",
        "1,440 steps are done",
    ),
    (
        Refusal.STEPS_DONE,
        "run_on fill_on judge_on history_on",
        "none",
        "with the steps done, the record makes more than 1,440",
    ),
    (
        Refusal.RELEASE_ABOVE_QUEUE,
        "run judge history run_on judge_on history_on",
        "step and cell",
        "a release above its ramp's queue and this step's arrivals there together",
    ),
    (
        Refusal.RELEASE_ABOVE_QUEUE,
        "step",
        "cell",
        "a release above its ramp's queue and this step's arrivals there together",
    ),
    (
        Refusal.RELEASE_ABOVE_SUPPLY,
        "run judge history run_on judge_on history_on",
        "step and cell",
        "a release above its cell's supply",
    ),
    (
        Refusal.RELEASE_ABOVE_SUPPLY,
        "step",
        "cell",
        "a release above its cell's supply",
    ),
    (
        Refusal.LIST_LENGTH,
        "run fill run_on fill_on",
        "none",
        "the list for the outflows is shorter than T × (n + 1)",
    ),
    (
        Refusal.LIST_LENGTH,
        "history history_on",
        "none",
        "a list for the states is shorter than T × (n + 1)",
    ),
    (
        Refusal.SCHEDULE_LENGTH,
        "judge history judge_on history_on",
        "none",
        "the schedule is not of length T × (n + 1)",
    ),
    (
        Refusal.OUTFLOW_ABOVE_DEMAND,
        "judge history judge_on history_on",
        "step and place",
        "an outflow above the demand of its place",
    ),
    (
        Refusal.ENTERING_ABOVE_ROOM,
        "judge history judge_on history_on",
        "step and place",
        "an outflow that lets too much into the next cell",
    ),
    (
        Refusal.TARGET_LENGTH,
        "write join",
        "none",
        "the target is shorter than the record",
    ),
    (
        Refusal.LAW_NUMBERS,
        "fill fill_on",
        "cell",
        "a ramp's meter law has a number that isn't finite",
    ),
    (
        Refusal.LANES_LENGTH,
        "run fill judge history run_on fill_on judge_on history_on",
        "none",
        "a table of lanes that is neither empty nor of n × (T + 1) bytes",
    ),
    (
        Refusal.LANES,
        "step run fill judge history run_on fill_on judge_on history_on",
        "cell",
        "no lane built, or an open lane that is not built",
    ),
    (
        Refusal.SECONDS,
        "read read_within run fill judge history put join write run_many fill_many run_on fill_on"
        " judge_on history_on",
        "none",
        "in version 2, the step's seconds are not 1 to 900",
    ),
    (
        Refusal.ROADS_DIFFER,
        "join",
        "none",
        "of two roads to join: T, the version or the step's seconds differ",
    ),
    (
        Refusal.SECOND_GATE,
        "join",
        "none",
        "of two roads to join: the second gate has a queue or an arrival",
    ),
    (
        Refusal.JOINED_SIZE,
        "join",
        "none",
        "of two roads to join: more than 64 cells together, or a joined record of more than "
        "65,536 bytes",
    ),
    (
        Refusal.WANTED_INPUT,
        "wanted",
        "none",
        "of a wanted queue: no step, more than 1,440, lists of unequal length, a rate or arrival "
        "above 1,000,000, a start or ceiling above 1,000,000,000",
    ),
    (
        Refusal.STREET_INPUT,
        "grant",
        "none",
        "of a street: ramps not 1 to 8, lists of unequal length, a guarantee, wish or limit above"
        " 1,000,000, guarantees that together pass the limit",
    ),
    (
        Refusal.PEAK,
        "load",
        "none",
        "a peak above 1,000,000",
    ),
    (
        Refusal.CALLER_LIMITS,
        "read_within",
        "none",
        "more cells or bytes than the caller takes (the exercise program: 8 cells and 4,096 "
        "bytes)",
    ),
    (
        Refusal.MANY_LENGTHS,
        "run_many fill_many",
        "list",
        "the arrivals are no whole number of tables (list 1), or the answers have fewer than 75 "
        "numbers a study (list 2)",
    ),
]

# operations that answer like another one, and give something more
_SAME = {"run_weighted": "run", "run_longest": "run", "fill_longest": "fill"}
_MEANINGS = {
    (refusal, operation): Meaning(place, words)
    for refusal, operations, place, words in _ROWS
    for operation in operations.split()
}


def meaning(number: int, operation: str | None = None) -> Meaning:
    """Return the meaning of a refusal of an operation, or else the first row."""
    operation = _SAME.get(operation or "", operation or "")
    for refusal in Refusal:
        if refusal == number:
            first = next(Meaning(*row[2:]) for row in _ROWS if row[0] == refusal)
            return _MEANINGS.get((refusal, operation), first)
    return Meaning("none", "not in the table of refusals")
