#!/usr/bin/env python3
"""Write the cases of the program cleaning_corpus and what it prints for them.

    python3 tests/model/make_cleaning.py STDIN STDOUT HISTOGRAM

A case is a table of either mode, with steps and cleans in turn. STDIN gets
items, each two numbers in the coding of the step log, a kind and a number:

    0 N     a fresh optimistic table, the case N
    1 N     a fresh pessimistic table, the case N
    2 N     a log, the N bytes that follow, run as a whole
    3 N     the same, run step by step
    4 N     a clean at the timestamp N
    5 N     what the calls then give, with reads of the keys below N

STDOUT gets what the items give, and HISTOGRAM Markdown tables of the answers
that occur and of the cases. The files are the same in every run.

Every case is also held to Q-13 and to demand 3 with it: a clean that is
refused changes nothing, one that is taken changes the horizon and the slices
alone, and drops a slice exactly if a newer one of its group, at or below the
clean, is completed; steps are answered as on a table that is not cleaned; the
scan at or above the horizon lists what the history says, and below it is
refused; a settled listing stays until a clean passes it; no key stands in the
committed slices of two groups, as they were stored.
"""

from __future__ import annotations

import copy
import itertools
import sys
from collections import Counter
from collections.abc import Iterable, Iterator, Sequence
from dataclasses import replace
from pathlib import Path
from typing import NamedTuple

from make_corpus import (
    ANSWERS,
    DISORDER,
    EDGES,
    NEVER,
    NEW_KEYS,
    ONE_GROUP,
    REMOVES,
    SEED,
    SHORT_LIVED,
    STALLS,
    TWO_GROUPS,
    Checked,
    Draw,
    Profile,
    operation_steps,
    random_step,
    require,
)
from table_model import (
    ERASED_WORD,
    KEYS,
    MAX_NUMBER,
    MAX_TIMESTAMP,
    WRITERS,
    Action,
    Answer,
    Instant,
    Mode,
    Phase,
    Put,
    Remove,
    State,
    Step,
    Stop,
    Table,
    encode,
    encode_number,
    run_log,
)

GIVE_UP = Action.GIVE_UP


class Clean(NamedTuple):
    """A clean, between steps."""

    at: int


Event = Step | Clean


class Case(NamedTuple):
    """Steps and cleans on a fresh table, and how many keys are read after a clean."""

    mode: Mode
    keys: int
    events: Sequence[Event]


# --- The papers' claims ------------------------------------------------------


class CheckedCleans(Checked):
    """A table held to Q-13 as well, beside one that takes the steps alone."""

    def __init__(self, mode: Mode) -> None:
        super().__init__(mode)
        self.uncleaned = Table(mode=mode)

    def step(self, step: Step, timestamps: Sequence[int]) -> None:
        horizon = self.table.horizon
        super().step(step, timestamps)
        require(self.uncleaned.step(step) == self.answers[-1], "an answer to a step")
        require(self.table.horizon == horizon, "a horizon moved by a step")

    def clean(self, at: int) -> Answer:
        """Take a clean, and check what it changed."""
        before = copy.deepcopy(self.table)
        answer = self.table.clean(at)
        changed = replace(before, horizon=self.table.horizon, slices=self.table.slices)
        require(self.table == changed, "changed by a clean")
        if answer != Answer.TAKEN:
            require(self.table == before, "changed by a refused clean")
        else:
            require(self.table.horizon == at, "horizon")
            self.check_slices(before.slices, at)
        valid = before.horizon <= at <= before.last_timestamp
        require((answer == Answer.NO_SUCH_HORIZON) == (not valid), "34")
        needed = valid and self.base_needed(at)
        require((answer == Answer.BASE_NEEDED) == needed, "33")
        return answer

    def superseded(self, timestamp: int, at: int) -> bool:
        """Whether the history has a commit of the same group that is later, but not
        later than the clean.
        """
        if timestamp not in self.history.committed:
            return False
        group = self.history.committed[timestamp].group
        return any(
            timestamp < other <= at and committed.group == group
            for other, committed in self.history.committed.items()
        )

    def check_slices(self, before: dict[tuple[int, int], dict], at: int) -> None:
        """Exactly the superseded slices are gone, and the others are as they were."""
        left = {
            (group, timestamp): rows
            for (group, timestamp), rows in before.items()
            if not self.superseded(timestamp, at)
        }
        require(self.table.slices == left, f"slices after a clean at {at}")

    def base_needed(self, at: int) -> bool:
        return any(
            writer.phase == Phase.WRITE and self.superseded(writer.base, at)
            for writer in self.table.writers
        )

    def check_everywhere(self) -> None:
        super().check_everywhere()
        last = self.history.last_timestamp
        for timestamp in range(self.table.horizon, last + 2):
            rows = self.uncleaned.snapshot(timestamp)
            require(self.table.snapshot(timestamp) == rows, f"uncleaned at {timestamp}")
        require(self.table.timeline == self.uncleaned.timeline, "timeline")

    def check_extension(self, draw: Draw) -> None:
        """Check a copy on which random steps and cleans follow."""
        extension = copy.deepcopy(self)
        profile = draw.among((ONE_GROUP, TWO_GROUPS, REMOVES, SHORT_LIVED))
        for event in walk(draw, profile, 60, copy.deepcopy(self.table), 0.05):
            extension.take(event, [])
        extension.check_everywhere()

    def take(self, event: Event, timestamps: Sequence[int]) -> Answer:
        if isinstance(event, Clean):
            return self.clean(event.at)
        self.step(event, timestamps)
        return self.answers[-1]


def check(case: Case, draw: Draw) -> Counter:
    """Take a case against the claims, and count the answers to steps and cleans."""
    run = CheckedCleans(case.mode)
    counts: Counter = Counter()
    for event in case.events:
        last = run.history.last_timestamp
        answer = run.take(event, [0, draw.below(last + 1), last, last + 1])
        counts[isinstance(event, Clean), answer] += 1
        if isinstance(event, Clean):
            run.check_everywhere()
            if draw.chance(0.1):
                run.check_extension(draw)
    run.check_everywhere()
    return counts


# --- Cases set by hand -------------------------------------------------------


def put(
    mode: Mode, writer: int, key: int, value: int, group: int
) -> list[Step]:
    return operation_steps(writer, Put(key, value, group), mode)


def cleans(*timestamps: int) -> list[Event]:
    return [Clean(at) for at in timestamps]


def kept_cases(mode: Mode) -> Iterator[Case]:
    """Keys put in two groups, and cleaned between: at each timestamp, one after the
    other, and at the last one alone.
    """
    operations = [
        put(mode, writer % 3, key, 10 + writer, group)
        for writer, (key, group) in enumerate(
            [(0, 2), (1, 2), (2, 5), (0, 2), (3, 5), (2, 5), (1, 2), (3, 5)]
        )
    ]
    steps = list(itertools.chain(*operations))
    last = len(operations)
    yield Case(mode, 4, [*steps, *cleans(*range(last + 1))])
    for at in range(last + 1):
        yield Case(mode, 4, [*steps, Clean(at)])
    between = [event for done in operations for event in (*done, Clean(0))]
    yield Case(mode, 4, [*between, Clean(last)])
    followed = [
        event
        for number, done in enumerate(operations, 1)
        for event in (*done, Clean(number))
    ]
    yield Case(mode, 4, followed)
    behind = [
        event
        for number, done in enumerate(operations, 1)
        for event in (*done, Clean(max(0, number - 2)))
    ]
    yield Case(mode, 4, behind)


def timestamp_cases(mode: Mode) -> Iterator[Case]:
    """Cleans at timestamps that are no horizon, and at those that are."""
    steps = [
        step
        for value in range(4)
        for step in put(mode, value, value % 2, 10 + value, 6)
    ]
    wide = (2**8, 2**8 + 3, 2**16 + 3, 2**32 + 3, 2**63, MAX_NUMBER)
    yield Case(mode, 2, cleans(0, 1, 2**8, 2**32, MAX_NUMBER, 0))
    yield Case(mode, 2, [*steps, *cleans(5, *wide, 3, 2, 3, 4, 0, 3, 4, 5, *wide)])
    started = [Step(0, Put(0, 20, 6))]
    yield Case(mode, 2, [*steps, *cleans(4, 5), *started, *cleans(6, 5, 4, 5)])


def base_cases() -> Iterator[Case]:
    """A writer at its write step whose base would be dropped: 33 until it has written,
    or has given up. Only an optimistic table gets there.
    """
    mode = Mode.OPTIMISTIC
    first, second = put(mode, 0, 0, 10, 3), put(mode, 1, 1, 11, 3)
    slow = put(mode, 2, 2, 12, 3)
    elsewhere = put(mode, 3, 5, 13, 4)
    begun = [*first, *slow[:3], *second, *elsewhere]
    tried = cleans(1, 2, 3, 4)
    # The base is 1, timestamps 3 and 4 are completed, 3 in its group.
    yield Case(mode, 6, [*begun, Clean(4), Clean(3), Clean(2), Clean(5), Clean(4)])
    yield Case(mode, 6, [*begun, *tried, slow[3], Clean(4), *slow[4:], Clean(4)])
    yield Case(mode, 6, [*begun, *tried, Step(2, GIVE_UP), Clean(4)])
    yield Case(mode, 6, [*begun, Clean(4), *slow[3:], Clean(4)])
    between = [slow[3], Clean(3), slow[4], Clean(4), slow[5]]
    yield Case(mode, 6, [*begun, Clean(4), *between])
    # The base is 0, which is never dropped.
    unbased = [*slow[:3], *first, *second]
    yield Case(mode, 3, [*unbased, *cleans(1, 2, 3), *slow[3:6], Clean(3)])
    # Two bases in two groups; each is needed, the older one first.
    other = put(mode, 4, 6, 14, 4)
    both = [*begun, *other[:3], *put(mode, 0, 7, 15, 4), *put(mode, 1, 0, 16, 3)]
    for one, two in ((slow, other), (other, slow)):
        written = [one[3], Clean(6), Clean(3), two[3], Clean(6), Clean(7)]
        yield Case(mode, 8, [*both, Clean(7), *written, *one[4:6], *two[4:6], Clean(7)])
    # Sixteen writers have read; the last one to write is the one that is needed.
    all_slow = [put(mode, writer, writer, 20 + writer, 3) for writer in range(WRITERS)]
    read = [step for steps in all_slow for step in steps[:3]]
    done = [*first, *read[: 3 * (WRITERS - 2)]]
    newest = put(mode, WRITERS - 1, 31, 99, 3)
    last = WRITERS
    for order in (all_slow[:-2], all_slow[-3::-1]):
        writes = [event for steps in order for event in (steps[3], Clean(last))]
        yield Case(mode, 2, [*done, *newest, Clean(last), *writes])


def phase_cases(mode: Mode) -> Iterator[Case]:
    """An operation in progress, cleaned at each of its phases, which then commits, or
    ends in each way.
    """
    old = [*put(mode, 0, 0, 10, 2), *put(mode, 0, 1, 11, 2), *put(mode, 0, 2, 12, 7)]
    again = put(mode, 1, 0, 13, 2)
    newer = put(mode, 3, 1, 14, 2)
    for taken in range(1, len(again) + 1):
        for at in (2, 4):
            begun = [*old, *again[:taken], Clean(at)]
            yield Case(mode, 3, [*begun, *again[taken:], Clean(at)])
        given_up = [*old, *again[:taken], Clean(4), Step(1, GIVE_UP), Clean(4)]
        yield Case(mode, 3, given_up)
    # 5, or in a pessimistic table a read that waits; and 3.
    for taken in range(1, 6):
        begun = [*old, *again[:taken], *newer, Clean(4), Clean(5)]
        yield Case(mode, 3, [*begun, *again[taken:], Clean(5)])
    # 2, at the look up and at the index step; 4.
    made = put(mode, 4, 9, 15, 5)
    remove = operation_steps(5, Remove(9), mode)
    moved = put(mode, 6, 9, 16, 6)
    yield Case(mode, 3, [*old, remove[0], Clean(4), remove[1], Clean(4)])
    for later in (remove, moved):
        begun = [*old, *made[:5], *later[:3], Clean(3), Clean(5), Step(4, GIVE_UP)]
        yield Case(mode, 10, [*begun, *later[2:4], Clean(5), *later[4:], Clean(5)])
        begun = [*old, *made[:2], *moved[:3], *made[2:], Clean(5)]
        yield Case(mode, 10, [*begun, *moved[3:5], Clean(5), *later, Clean(6)])


def late_cases(mode: Mode) -> Iterator[Case]:
    """Commits at or below the horizon after a clean, and the same clean again."""
    old = [*put(mode, 0, 0, 10, 2), *put(mode, 0, 1, 11, 3)]
    slow, quick = put(mode, 1, 0, 12, 2), put(mode, 2, 1, 13, 3)
    for taken in (1, 2, 3, 4, 5, 6):
        begun = [*old, *slow[:taken], *quick]
        yield Case(mode, 2, [*begun, Clean(4), *slow[taken:], Clean(4), Clean(4)])
        yield Case(mode, 2, [*begun, Clean(3), *slow[taken:], Clean(3), Clean(4)])
    # Two that commit below the horizon, the later one first and last.
    one, two = put(mode, 3, 4, 14, 2), put(mode, 4, 5, 15, 3)
    for first, second in ((one, two), (two, one)):
        begun = [*old, *one[:2], *two[:2], *quick, Clean(5)]
        yield Case(mode, 6, [*begun, *first[2:], Clean(5), *second[2:], Clean(5)])
    # The group has no slice yet: its first one is committed below the horizon.
    new = put(mode, 5, 8, 16, 6)
    yield Case(mode, 9, [*old, *new[:2], *quick, Clean(4), *new[2:], Clean(4)])


def remove_cases(mode: Mode) -> Iterator[Case]:
    """Removes, and index entries that are taken out again, between cleans."""
    one, other = put(mode, 0, 1, 10, 1), put(mode, 1, 2, 20, 1)
    remove = operation_steps(2, Remove(1), mode)
    again = put(mode, 3, 1, 11, 4)
    yield Case(mode, 3, [*one, *other, *remove, Clean(2), Clean(3), *again, Clean(4)])
    yield Case(mode, 3, [*one, Clean(1), *remove, Clean(2), *remove, Clean(3), *again])
    for taken in range(1, len(remove)):
        begun = [*one, *other, *remove[:taken], Clean(3)]
        yield Case(mode, 3, [*begun, Step(2, GIVE_UP), *again, Clean(3), Clean(4)])
    for taken in range(4, len(one)):
        begun = [*other, *one[:taken], Clean(2), Step(0, GIVE_UP), Clean(1), Clean(2)]
        yield Case(mode, 3, [*begun, *again, Clean(3), *remove, Clean(4)])


def value_cases(mode: Mode) -> Iterator[Case]:
    """Values of 64 bits are kept, and every key and group."""
    wide = [ERASED_WORD - 1, 2**63, 2**32, 2**32 - 1]
    steps = [
        step
        for number, value in enumerate(wide)
        for step in put(mode, number, 31, value, 7)
    ]
    yield Case(mode, KEYS, [*steps, Clean(3), Clean(4)])
    steps = [
        step
        for key in range(KEYS)
        for step in put(mode, key % WRITERS, key, key, key % 8)
    ]
    yield Case(mode, KEYS, [*steps, Clean(20), Clean(32)])


# --- Random walks ------------------------------------------------------------


def random_clean(draw: Draw, table: Table) -> Clean:
    """Mostly a little above the horizon, and now and then anywhere."""
    last, horizon = table.last_timestamp, table.horizon
    if draw.chance(0.6):
        return Clean(horizon + draw.below(6))
    return Clean(
        draw.among(
            (
                *(last, last, last + 1, horizon, max(0, horizon - 1), 0),
                *(draw.below(last + 1), draw.below(last + 1)),
                *(2**8 + horizon, 2**32 + horizon, MAX_NUMBER - draw.below(3)),
            )
        )
    )


def walk(
    draw: Draw, profile: Profile, length: int, table: Table, cleaning: float
) -> Iterator[Event]:
    """Random steps and cleans, each taken on the table."""
    writer = 0
    for _ in range(length):
        if draw.chance(cleaning):
            clean = random_clean(draw, table)
            table.clean(clean.at)
            yield clean
            continue
        step = random_step(draw, table, profile, writer)
        table.step(step)
        yield step
        writer = step.writer % profile.writers


FOUR_KEYS = Profile(keys=range(4), groups=(1, 6), same_writer=0.5)
WALKS = (
    (ONE_GROUP, 3),
    (TWO_GROUPS, 4),
    (replace(REMOVES, keys=range(4)), 4),
    (STALLS, 4),
    (replace(EDGES, keys=(0, 1)), 2),
    (DISORDER, 4),
    (replace(SHORT_LIVED, keys=range(4)), 4),
)


def walk_cases(draw: Draw, mode: Mode) -> Iterator[Case]:
    """Walks by four writers and by sixteen, with some eight cleans each."""
    for profile, keys in WALKS:
        for writers, length in ((4, 250), (WRITERS, 400)):
            walking = replace(profile, writers=writers)
            events = walk(draw, walking, length, Table(mode=mode), 8 / length)
            yield Case(mode, keys, list(events))


def exhausting_cases(draw: Draw, mode: Mode) -> Iterator[Case]:
    """Walks that use up the timestamps, with some six cleans each."""
    for profile, keys in (
        (replace(FOUR_KEYS, keys=range(3), same_writer=0.8), 3),
        (replace(SHORT_LIVED, keys=range(3)), 3),
        (replace(NEW_KEYS, same_writer=0.85), 1),
    ):
        table = Table(mode=mode)
        events = list(walk(draw, profile, 900, table, 6 / 900))
        require(table.last_timestamp == MAX_TIMESTAMP, "timestamps left")
        yield Case(mode, keys, [*events, Clean(table.horizon), Clean(MAX_TIMESTAMP)])


Family = tuple[str, Iterator[Case]]


def families() -> Iterator[Family]:
    draw = Draw(SEED)
    optimistic, pessimistic = Mode

    def each(cases) -> Iterator[Case]:
        return itertools.chain(cases(optimistic), cases(pessimistic))

    yield "two groups, cleaned at each timestamp", each(kept_cases)
    yield "timestamps that are no horizon", each(timestamp_cases)
    yield "a writer at phase 3 that needs its base", base_cases()
    yield "an operation in progress at each phase, and how it ends", each(phase_cases)
    yield "commits at or below the horizon", each(late_cases)
    yield "removes, and index entries taken out again", each(remove_cases)
    yield "values of 64 bits, and every key and group", each(value_cases)
    yield "random walks by four and sixteen writers", itertools.chain(
        walk_cases(draw, optimistic), walk_cases(draw, pessimistic)
    )
    yield "random walks that use up the timestamps", itertools.chain(
        exhausting_cases(draw, optimistic), exhausting_cases(draw, pessimistic)
    )


# --- The files ---------------------------------------------------------------

Item = tuple[int, int, bytes]
KINDS = {Mode.OPTIMISTIC: 0, Mode.PESSIMISTIC: 1}
RUN, RUN_BY_STEPS, CLEAN, SHOW = 2, 3, 4, 5

# The places for a log's answers that the program has.
MAX_ANSWERS = 2 * MAX_TIMESTAMP


def items(number: int, case: Case) -> Iterator[Item]:
    """A case as items; the steps between cleans are one log or more, of which every
    other one is run step by step.
    """
    yield KINDS[case.mode], number, b""
    kinds = itertools.cycle((RUN, RUN_BY_STEPS))
    for cleaning, group in itertools.groupby(
        case.events, lambda event: isinstance(event, Clean)
    ):
        events = list(group)
        if cleaning:
            for event in events:
                yield CLEAN, event.at, b""
                yield SHOW, case.keys, b""
            continue
        for first in range(0, len(events), MAX_ANSWERS):
            log = encode(events[first : first + MAX_ANSWERS])
            yield next(kinds), len(log), log
    if not isinstance(case.events[-1], Clean):
        yield SHOW, case.keys, b""


def coded(item: Item) -> bytes:
    kind, number, log = item
    return encode_number(kind) + encode_number(number) + log


def state_text(instant: Instant) -> str:
    match instant.state:
        case State.NONE:
            return "-"
        case State.REQUESTED:
            return "r"
        case State.INFLIGHT:
            return f"i{instant.group}"
    return f"c{instant.group}"


def rows_text(table: Table, at: int) -> str:
    buffer = [0] * (3 * KEYS)
    answer, count = table.scan(at, buffer)
    if answer != Answer.TAKEN:
        return f" !{answer:d}"
    rows = [buffer[3 * row : 3 * row + 3] for row in range(count)]
    return ",".join(f" {key} {value} {group}" for key, value, group in rows)


def read_text(table: Table, at: int, key: int) -> str:
    found = table.point_read(key, at)
    if found is None:
        return " ."
    if isinstance(found, Answer):
        return f" !{found:d}"
    return f" {found.value}/{found.group}"


def stored_text(table: Table, at: int) -> str:
    """The rows of all slices of a timestamp, each its group and key."""
    slices = [(g, rows) for (g, ts), rows in table.slices.items() if ts == at]
    return "".join(
        f" {group}:{key}" for group, rows in sorted(slices) for key in sorted(rows)
    )


def shown(table: Table, keys: int) -> Iterator[str]:
    """For each timestamp, up to one that is not issued: the instant, the scan, the
    point reads, and the rows that are stored.
    """
    for at in range(table.last_timestamp + 2):
        reads = "".join(read_text(table, at, key) for key in range(keys))
        parts = rows_text(table, at), reads, stored_text(table, at)
        yield f"{at} {state_text(table.instant(at))}:" + ";".join(parts)


def printed(item: Item, table: Table) -> tuple[list[str], Table]:
    """What the program prints for an item, and the table then."""
    kind, number, log = item
    if kind in KINDS.values():
        mode = Mode.OPTIMISTIC if kind == 0 else Mode.PESSIMISTIC
        return [f"== case {number}"], Table(mode=mode)
    if kind in (RUN, RUN_BY_STEPS):
        run = run_log(table, log, MAX_ANSWERS)
        require(run.stop == Stop.USED_UP, "a log too long")
        answers = "".join(f" {answer:d}" for answer in run.answers)
        return [f"run:{answers}", f"stop 0 at {run.offset}"], table
    if kind == CLEAN:
        return [f"clean at {number}: {table.clean(number):d}"], table
    return list(shown(table, number)), table


CLEAN_ANSWERS = {
    Answer.TAKEN: "taken",
    Answer.OUT_OF_RANGE: "table value out of range",
    Answer.BASE_NEEDED: "a base would be dropped",
    Answer.NO_SUCH_HORIZON: "below the horizon, or above the last timestamp",
}
READ_ANSWERS = {
    Answer.TAKEN: "rows listed",
    Answer.OUT_OF_RANGE: "table value out of range",
    Answer.NO_ROOM_FOR_ROWS: "no room for the rows",
    Answer.BELOW_HORIZON: "below the horizon",
}


def histogram_rows(counts: dict[Mode, Counter]) -> Iterator[str]:
    """Rows of each call's answers in each mode."""
    for call, meanings in (
        ("step", ANSWERS),
        ("clean", CLEAN_ANSWERS),
        ("scan", READ_ANSWERS),
    ):
        for answer, meaning in meanings.items():
            numbers = [counts[mode][call, answer] for mode in Mode]
            if not any(numbers):
                continue
            cells = " | ".join(map(str, numbers))
            yield f"| {call} | {answer:d} | {meaning} | {cells} |"


def scan_answers(table: Table) -> Iterable[tuple[str, Answer]]:
    for at in range(table.last_timestamp + 2):
        yield "scan", table.scan(at, [0] * (3 * KEYS))[0]


def main(stdin: Path, stdout: Path, histogram: Path) -> None:
    draw = Draw(SEED + 1)
    packed, lines, ranges = [], [], []
    counts: dict[Mode, Counter] = {mode: Counter() for mode in Mode}
    number = 0
    for family, family_cases in families():
        cases = list(family_cases)
        ranges.append(f"| {number} to {number + len(cases) - 1} | {family} |")
        for case in cases:
            for (cleaned, answer), count in check(case, draw).items():
                counts[case.mode]["clean" if cleaned else "step", answer] += count
            table = Table()
            for item in items(number, case):
                packed.append(coded(item))
                text, table = printed(item, table)
                lines += text
                if item[0] == SHOW:
                    counts[case.mode].update(scan_answers(table))
            number += 1
    for mode in Mode:
        for answer in NEVER[mode]:
            require(counts[mode]["step", answer] == 0, f"{mode}: {answer!r}")
    # The lock of a group keeps a base newest until it is written.
    require(counts[Mode.PESSIMISTIC]["clean", Answer.BASE_NEEDED] == 0, "33")
    report = [
        "| Call | Answer | Meaning | Optimistic | Pessimistic |",
        "|---|---|---|---|---|",
        *histogram_rows(counts),
        "",
        "| Cases | What they are |",
        "|---|---|",
        *ranges,
    ]
    stdin.write_bytes(b"".join(packed))
    stdout.write_text(
        "".join(f"{line}\n" for line in lines), encoding="ascii", newline="\n"
    )
    histogram.write_text("\n".join(report) + "\n", encoding="ascii", newline="\n")


if __name__ == "__main__":
    if len(sys.argv) != 4:
        sys.exit(__doc__)
    main(*map(Path, sys.argv[1:]))
