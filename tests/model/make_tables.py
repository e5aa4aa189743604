#!/usr/bin/env python3
"""Write the cases of the program any_table and what it prints for them.

    python3 tests/model/make_tables.py STDIN STDOUT HISTOGRAM

A case is a table of either mode that is led to other tables, by steps and cleans
or by numbers that are put in the place of its own; on each of them the calls are
tried. STDIN gets items, each two numbers in the coding of the step log, a kind and
a number, some with so many bytes behind them:

    0 N     a fresh optimistic table, the case N
    1 N     a fresh pessimistic table, the case N
    2 N     a log, the N bytes that follow, run as a whole
    4 N     a clean at the timestamp N
    7 N     the candidate instants of the writer N
    9 N     pairs of numbers in N bytes, a place of the table and its new number
    10 N    a log of N bytes: each step of it tried alone, then the whole log
    11 N    a clean at the timestamp N, tried
    12 N    two numbers in N bytes, a timestamp and a key: the instant, the point
            read of the key, and the scan, there
    13 N    two numbers in N bytes, a timestamp and a room: the scan into so many
            numbers

What is tried leaves the table as it is. STDOUT gets what the items give, with
each number of the table that a step, a log or a clean changes. HISTOGRAM gets
Markdown tables of the answers that occur and of the tables. The files are the
same in every run.

The tables are reached from a fresh one, or such a one with a single number
changed, in its range or out, or random, with small numbers that meet. Whatever
the table is, it is held to this: a refused step or clean changes nothing; a table
out of range answers 17 to every call; steps and cleans lead from a table in range
to none that is out of range; a run answers as its steps do, one after the other;
reads, scans and candidates change nothing, and a scan leaves the numbers behind
its rows alone.
"""

from __future__ import annotations

import bisect
import itertools
import sys
from collections import Counter
from collections.abc import Callable, Iterable, Iterator, Sequence
from dataclasses import replace
from enum import IntEnum
from pathlib import Path
from typing import NamedTuple

from make_candidates import candidates_line
from make_cleaning import (
    CLEAN_ANSWERS,
    READ_ANSWERS,
    Clean,
    coded,
    read_text,
    state_text,
)
from make_cleaning import walk as walk_with_cleans
from make_corpus import ANSWERS, PROFILES, SEED, STOPS, Draw, Profile, require
from make_stories import listed
from table_model import (
    ERASED_WORD,
    GROUPS,
    KEYS,
    MAX_NUMBER,
    MAX_TIMESTAMP,
    WRITERS,
    Action,
    Answer,
    Candidates,
    Instant,
    Mode,
    Operation,
    Phase,
    Put,
    Remove,
    State,
    Step,
    Table,
    Writer,
    encode,
    encode_number,
    read_log,
    read_number,
    run_log,
)
from table_numbers import (
    COMPLETED,
    COUNTS,
    HORIZON,
    INDEX,
    INFLIGHT,
    LAST,
    LOCKS,
    MODE,
    MODES,
    NONE,
    NOTED,
    PLACES,
    PRESENT,
    RECORDS,
    REQUESTED,
    ROWS,
    TIMELINE,
    VALUES,
    Field,
    Numbers,
    Pair,
    RowPlace,
    changed_places,
    field_place,
    lock_holders,
    nonzero,
    numbers_of,
    split,
    stored,
    table_of,
    writer_numbers,
)

# --- Items -------------------------------------------------------------------


class Kind(IntEnum):
    """What an item does; the numbers left out are kinds of other programs."""

    OPTIMISTIC = 0
    PESSIMISTIC = 1
    RUN = 2
    CLEAN = 4
    ASK = 7
    CHANGE = 9
    TRY_LOG = 10
    TRY_CLEAN = 11
    READ = 12
    SCAN = 13


class Item(NamedTuple):
    """An item of the input."""

    kind: int
    number: int
    content: bytes = b""


# The places for a log's answers and for the numbers of a scan that the program has.
MAX_ANSWERS = 2 * MAX_TIMESTAMP
MAX_ROOM = 3 * GROUPS * KEYS

# What stands in a scan's buffer before it.
BLANK = 7


def with_content(kind: int, content: bytes) -> Item:
    return Item(kind, len(content), content)


def with_numbers(kind: int, numbers: Iterable[int]) -> Item:
    return with_content(kind, b"".join(map(encode_number, numbers)))


def numbers_in(content: bytes) -> list[int]:
    numbers, place = [], 0
    while place < len(content):
        number, place = read_number(content, place)
        numbers.append(number)
    return numbers


def leading_pairs(before: Numbers, after: Numbers) -> Iterator[Pair]:
    """The pairs that lead from one table to another. A row that is present gets its
    value, whatever was left there.
    """
    places, rows = split(changed_places(before, after))
    for place in places:
        yield place, after.get(place, 0)
    for row in rows:
        present = after.get(PRESENT + row, 0)
        if present:
            yield VALUES + row, after.get(VALUES + row, 0)
        if present != before.get(PRESENT + row, 0):
            yield PRESENT + row, present


def change(pairs: Iterable[Pair]) -> Item:
    return with_numbers(Kind.CHANGE, itertools.chain(*pairs))


# --- The program -------------------------------------------------------------


def row_text(row: int, after: Numbers) -> str:
    """A row that has changed, with its value if it is present now."""
    group, timestamp, key = RowPlace.of(row)
    if PRESENT + row not in after:
        return f" {group}/{timestamp}/{key}-"
    return f" {group}/{timestamp}/{key}={after.get(VALUES + row, 0)}"


def changes_text(before: Numbers, after: Numbers) -> str:
    places, rows = split(changed_places(before, after))
    texts = [f" {place}={after.get(place, 0)}" for place in places]
    return "".join([*texts, *(row_text(row, after) for row in rows)])


def answers_text(answers: Iterable[Answer]) -> str:
    return "".join(f" {answer:d}" for answer in answers)


def instant_text(found: Instant | Answer) -> str:
    return f" !{found:d}" if isinstance(found, Answer) else f" {state_text(found)}"


def largest_at(place: int) -> int:
    """The largest number that can be stored at a place, in its range or not."""
    flags = (Field.PUT, Field.MADE)
    which = (place - RECORDS) % len(Field) if RECORDS <= place < PRESENT else None
    if place == MODE or which in flags or PRESENT <= place < VALUES:
        return 1
    return MAX_NUMBER if which == Field.VALUE or place >= VALUES else 255


class Program:
    """What the program does, by the model alone: its table, the lines that it prints,
    and how often each call gave what.
    """

    def __init__(self) -> None:
        self.table = Table()
        self.lines: list[str] = []
        self.counts: dict[Mode, Counter] = {mode: Counter() for mode in Mode}

    def count(self, call: str, given: int | State | None) -> None:
        self.counts[self.table.mode][call, given] += 1

    def take(self, item: Item) -> None:
        kind, number, content = item
        match kind:
            case Kind.OPTIMISTIC | Kind.PESSIMISTIC:
                self.table = Table(mode=MODES[kind])
                self.lines.append(f"== case {number}")
            case Kind.RUN:
                self.run(content)
            case Kind.CLEAN:
                self.clean(number)
            case Kind.ASK:
                self.ask(number)
            case Kind.CHANGE:
                self.change(numbers_in(content))
            case Kind.TRY_LOG:
                self.try_log(content)
            case Kind.TRY_CLEAN:
                self.try_clean(number)
            case Kind.READ:
                self.read(*numbers_in(content))
            case Kind.SCAN:
                self.scan(*numbers_in(content))
            case _:
                raise ValueError(f"not a kind: {kind}")

    # -- What leads to a table

    def run(self, log: bytes) -> None:
        run = run_log(self.table, log, MAX_ANSWERS)
        for answer in run.answers:
            self.count("step of a walk", answer)
        self.lines.append(f"run:{answers_text(run.answers)}")
        self.lines.append(f"stop {run.stop:d} at {run.offset}")

    def clean(self, at: int) -> None:
        answer = self.table.clean(at)
        self.count("clean of a walk", answer)
        self.lines.append(f"clean at {at}: {answer:d}")

    def change(self, numbers: Sequence[int]) -> None:
        """Put numbers in the place of the table's own. A row that is made present has
        its value among them, since that of an absent row is not kept here.
        """
        new = dict(zip(numbers[::2], numbers[1::2], strict=True))
        stored_now = numbers_of(self.table)
        for place, number in new.items():
            require(number <= largest_at(place), f"{number} at {place}")
            if PRESENT <= place < VALUES and number and place not in stored_now:
                require(place + ROWS in new, f"no value for {place}")
        stored_now |= new
        self.table = table_of(nonzero(stored_now.items()))
        kept = numbers_of(self.table)
        for place in changed_places(stored_now, kept):
            absent = place >= VALUES and not stored_now.get(place - ROWS)
            require(absent, f"the model keeps no number at {place}")

    # -- What is tried

    def check(self, answer: Answer, before: Numbers, after: Table) -> None:
        """What holds of a step and of a clean, whatever the table is."""
        usable = self.table.in_range()
        require((answer == Answer.OUT_OF_RANGE) == (not usable), "17")
        if answer >= Answer.NO_SUCH_WRITER:
            require(numbers_of(after) == before, "changed by a refusal")
        require(after.in_range() == usable, "led out of range")
        require(after.mode is self.table.mode, "another mode")

    def try_log(self, log: bytes) -> None:
        usable = self.table.in_range()
        self.lines.append("in range" if usable else "out of range")
        before = numbers_of(self.table)
        for step in read_log(log)[0]:
            after = table_of(before)
            answer = after.step(step)
            self.check(answer, before, after)
            self.count("step", answer)
            changes = changes_text(before, numbers_of(after))
            self.lines.append(f"step: {answer:d}{changes}")
        self.try_run(log, before)

    def try_run(self, log: bytes, before: Numbers) -> None:
        after, stepped = table_of(before), table_of(before)
        run = run_log(after, log, MAX_ANSWERS)
        steps, stop, offset = read_log(log)
        answers = [stepped.step(step) for step in steps]
        require((answers, stop, offset) == (run.answers, run.stop, run.offset), "run")
        require(numbers_of(stepped) == numbers_of(after), "a run's table")
        require(after.in_range() == self.table.in_range(), "run out of range")
        for answer in run.answers:
            self.count("step of a log", answer)
        self.count("log", run.stop)
        changes = changes_text(before, numbers_of(after))
        stopped = f"stop {run.stop:d} at {run.offset}"
        self.lines.append(f"ran:{answers_text(run.answers)}; {stopped}{changes}")

    def try_clean(self, at: int) -> None:
        before = numbers_of(self.table)
        after = table_of(before)
        answer = after.clean(at)
        self.check(answer, before, after)
        self.count("clean", answer)
        changes = changes_text(before, numbers_of(after))
        self.lines.append(f"clean tried at {at}: {answer:d}{changes}")

    def check_read(self, answer: Answer | None, before: Numbers) -> None:
        """What holds of every other call; ``None`` is no refusal."""
        usable = self.table.in_range()
        require((answer == Answer.OUT_OF_RANGE) == (not usable), "17 of a read")
        require(numbers_of(self.table) == before, "changed by a read")

    def ask(self, writer: int) -> None:
        before = numbers_of(self.table)
        found = self.table.candidates(writer)
        self.check_read(found.answer, before)
        if found.answer != Answer.TAKEN:
            require(found == Candidates(found.answer), "a refusal with lists")
        else:
            same = found.by_start == found.by_completion
            self.count("lists", int(same))
        self.count("candidates", found.answer)
        self.lines.append(candidates_line(self.table, writer))

    def read(self, at: int, key: int) -> None:
        before = numbers_of(self.table)
        instant = self.table.instant(at)
        refused = isinstance(instant, Answer)
        self.check_read(instant if refused else None, before)
        self.count("instant", instant if refused else instant.state)
        row = self.table.point_read(key, at)
        refused = isinstance(row, Answer)
        self.check_read(row if refused else None, before)
        self.count("point read", row if refused else row and Answer.TAKEN)
        texts = instant_text(instant), read_text(self.table, at, key)
        self.lines.append(f"at {at}:{''.join(texts)};{self.listing(at)}")

    def listing(self, at: int) -> str:
        """The rows of a scan with room for all."""
        answer, rows = self.stored_by_scan(at, [0] * MAX_ROOM)
        self.count("scan", answer)
        return listed(rows) if answer == Answer.TAKEN else f" !{answer:d}"

    def scan(self, at: int, room: int) -> None:
        require(room <= MAX_ROOM, "more room than there is")
        buffer = [BLANK] * room
        answer, rows = self.stored_by_scan(at, buffer)
        self.count("scan into a buffer", answer)
        count = len(rows) // 3
        self.lines.append(
            f"room for {room}: answer {answer:d}, {count} rows:{listed(buffer)}"
        )

    def stored_by_scan(self, at: int, buffer: list[int]) -> tuple[Answer, list[int]]:
        """A scan's answer and the numbers of its rows; no other number is changed."""
        before, kept = numbers_of(self.table), list(buffer)
        answer, count = self.table.scan(at, buffer)
        self.check_read(answer, before)
        require(buffer[3 * count :] == kept[3 * count :], "changed behind the rows")
        return answer, buffer[: 3 * count]


# --- Calls -------------------------------------------------------------------


class Focus(NamedTuple):
    """What the calls on a table are mostly about."""

    writers: Sequence[int]
    timestamps: Sequence[int]
    keys: Sequence[int]


def busy_writers(table: Table) -> list[int]:
    return [
        number
        for number, writer in enumerate(table.writers)
        if writer.phase != Phase.READY
    ]


def known_keys(table: Table) -> list[int]:
    """The keys that have an index entry, a row or an operation."""
    keys = {key for rows in table.slices.values() for key in rows} | table.index.keys()
    operations = (writer.operation for writer in table.writers)
    keys |= {operation.key for operation in operations if operation is not None}
    return sorted(key for key in keys if key < KEYS)


def focus_of(table: Table) -> Focus:
    completed = sorted(table.completed())
    return Focus(
        busy_writers(table) or [0, 15],
        [*completed, table.last_timestamp, table.horizon],
        known_keys(table) or [0, 31],
    )


def aimed(focus: Focus, table: Table, place: int) -> Focus:
    """The focus, mostly on what a place of the table is about."""
    writers, timestamps, keys = [], [], []
    if RECORDS <= place < PRESENT:
        writers = [(place - RECORDS) // len(Field)]
    elif NOTED <= place < RECORDS:
        writers = [(place - NOTED) // WRITERS]
    elif COUNTS <= place < NOTED:
        writers = [place - COUNTS]
    elif TIMELINE <= place < COUNTS:
        timestamps = [(place - TIMELINE) % MAX_TIMESTAMP + 1]
    elif INDEX <= place < TIMELINE:
        keys = [place - INDEX]
        writers = [
            number
            for number in busy_writers(table)
            if table.writers[number].operation.key in keys
        ]
    elif place >= PRESENT:
        row = RowPlace.of((place - PRESENT) % ROWS)
        timestamps, keys = [row.timestamp], [row.key]
    return Focus(
        [*focus.writers, *writers * len(focus.writers)],
        [*focus.timestamps, *timestamps * len(focus.timestamps)],
        [*focus.keys, *keys * len(focus.keys)],
    )


SMALL_VALUES = range(100)
EDGE_VALUES = (0, 1, 127, 128, 2**32 - 1, 2**32, 2**63, ERASED_WORD - 1, ERASED_WORD)


def random_value(draw: Draw) -> int:
    return draw.among(EDGE_VALUES if draw.chance(0.04) else SMALL_VALUES)


def random_operation(draw: Draw, keys: Sequence[int]) -> Operation:
    key = draw.among(keys) if draw.chance(0.8) else draw.below(KEYS)
    if draw.chance(0.3):
        return Remove(key)
    return Put(key, draw.among(SMALL_VALUES), draw.below(GROUPS))


def fitting_step(draw: Draw, table: Table, number: int, keys: Sequence[int]) -> Step:
    """The step that a writer's phase asks for; any one at a phase that there is not."""
    phase = table.writers[number].phase
    if phase == Phase.READY:
        return Step(number, random_operation(draw, keys))
    if not isinstance(phase, Phase):
        return Step(number, draw.among(list(Action)))
    return Step(number, Action[phase.name])


def edge_step(draw: Draw, focus: Focus) -> Step:
    """A step with a number that is out of range, or a put of the erased word."""
    writer, key = draw.among(focus.writers), draw.among(focus.keys)
    number = draw.among((WRITERS, WRITERS + 1, 2**8 + writer, 2**32 + writer))
    return draw.among(
        (
            Step(number, Put(key, 1, 0)),
            Step(number, draw.among(list(Action))),
            Step(MAX_NUMBER, Put(KEYS, 1, GROUPS)),
            Step(writer, Put(KEYS, ERASED_WORD, GROUPS)),
            Step(writer, Remove(draw.among((KEYS, 2**8 + key, 2**32 + key)))),
            Step(writer, Put(key, 1, draw.among((GROUPS, 2**8, 2**32)))),
            Step(writer, Put(key, ERASED_WORD, GROUPS)),
            Step(writer, Put(key, ERASED_WORD, GROUPS - 1)),
        )
    )


def likely_step(draw: Draw, table: Table, focus: Focus) -> Step:
    """Mostly a step that is taken."""
    writer = draw.among(focus.writers)
    if draw.chance(0.66):
        return fitting_step(draw, table, writer, focus.keys)
    ready = sorted({*range(WRITERS)} - {*busy_writers(table)})
    if ready and draw.chance(0.35):
        return Step(draw.among(ready), random_operation(draw, focus.keys))
    if draw.chance(0.5):
        return Step(writer, Action.GIVE_UP)
    if draw.chance(0.5):
        return Step(writer, draw.among(list(Action)))
    return edge_step(draw, focus)


# What cannot be read at the end of a log: each stop.
DAMAGES = tuple(
    map(bytes.fromhex, ("00", "00 01 01", "80 00 03", "FF " * 9 + "02", "00 0A"))
)


def random_log(draw: Draw, table: Table, focus: Focus, length: int) -> bytes:
    """Steps that fit the table as it is, or each the table after the ones before it;
    few logs have an end that cannot be read.
    """
    after = table_of(numbers_of(table))
    follows = draw.chance(0.5)
    steps = []
    for _ in range(length):
        steps.append(likely_step(draw, after, focus))
        if follows:
            after.step(steps[-1])
    return encode(steps) + (draw.among(DAMAGES) if draw.chance(0.015) else b"")


def random_timestamp(draw: Draw, table: Table, focus: Focus) -> int:
    """Mostly one that is completed, or near the horizon; now and then not issued."""
    last, horizon = table.last_timestamp, table.horizon
    if draw.chance(0.5):
        return draw.among(focus.timestamps)
    if draw.chance(0.8):
        near = (horizon, horizon + 1, max(0, horizon - 1), last, last, last + 1, 0)
        return draw.among((*near, draw.below(last + 1)))
    at = draw.among(focus.timestamps)
    return draw.among((last + 2, MAX_TIMESTAMP, 2**8 + at, 2**32 + at, MAX_NUMBER))


def random_read(draw: Draw, table: Table, focus: Focus) -> Item:
    at = random_timestamp(draw, table, focus)
    if draw.chance(0.6):
        at = max(at, table.horizon)
    key = draw.among(focus.keys) if draw.chance(0.93) else draw.among((KEYS, 2**32))
    return with_numbers(Kind.READ, (at, key))


def random_ask(draw: Draw, focus: Focus) -> Item:
    if draw.chance(0.9):
        return Item(Kind.ASK, draw.among(focus.writers))
    writer = draw.below(WRITERS)
    unusual = (writer, WRITERS, 2**8 + writer, 2**32 + writer, MAX_NUMBER)
    return Item(Kind.ASK, draw.among(unusual))


def random_scan(draw: Draw, table: Table, focus: Focus) -> Item:
    """A scan with just enough room, a little less, or a little more."""
    at = max(table.horizon, random_timestamp(draw, table, focus))
    if draw.chance(0.1):
        at = random_timestamp(draw, table, focus)
    needed = 3 * len(table.snapshot(at))
    room = draw.among((needed, needed, needed - 1, needed + 1, needed + 2, needed + 4))
    if draw.chance(0.1):
        room = draw.among((0, 1, 2, 3, needed - 3))
    return with_numbers(Kind.SCAN, (at, min(max(0, room), MAX_ROOM)))


def random_clean(draw: Draw, table: Table, focus: Focus) -> Item:
    """A clean, mostly from the horizon up to the last timestamp."""
    above = table.last_timestamp - table.horizon
    if above > 0 and draw.chance(0.5):
        return Item(Kind.TRY_CLEAN, table.horizon + 1 + draw.below(above))
    return Item(Kind.TRY_CLEAN, random_timestamp(draw, table, focus))


def calls_on(draw: Draw, table: Table, focus: Focus) -> list[Item]:
    """Calls on a table; fewer if it is out of range."""
    usable = table.in_range()
    length = draw.among((3, 3, 3, 3, 4, 4, 5, 6) if usable else (1, 2, 3))
    log = random_log(draw, table, focus, length)
    calls = [with_content(Kind.TRY_LOG, log), random_clean(draw, table, focus)]
    if usable and draw.chance(0.3):
        calls.append(random_clean(draw, table, focus))
    calls += [random_read(draw, table, focus) for _ in range(2 if usable else 1)]
    calls.append(random_ask(draw, focus))
    if usable and draw.chance(0.3):
        calls.append(random_ask(draw, focus))
    if draw.chance(0.25):
        calls.append(random_scan(draw, table, focus))
    return calls


# --- One number changed ------------------------------------------------------

FIELD_NAMES = {which: f"a writer's {which.name.lower()}" for which in Field}
NAMES = (
    *("mode", "horizon", "last timestamp", "lock", "index entry", "instant"),
    *("place of a completion", "count", "noted timestamp"),
    *FIELD_NAMES.values(),
    *("presence of a row", "value of a row"),
)
BYTE_EDGES = (127, 128, 129, 254, 255)

# The names that are no writer's, and the first place of each.
OTHER_NAMES = tuple(name for name in NAMES if name not in FIELD_NAMES.values())
FIRST_PLACES = (
    *(MODE, HORIZON, LAST, LOCKS, INDEX, TIMELINE, PLACES, COUNTS, NOTED),
    *(PRESENT, VALUES),
)


def random_writer(draw: Draw, table: Table) -> int:
    busy = busy_writers(table)
    return draw.among(busy) if busy and draw.chance(0.75) else draw.below(WRITERS)


def slot(draw: Draw, table: Table) -> int:
    """The place of a timestamp in its block: mostly of one that has been issued."""
    last = min(table.last_timestamp, MAX_TIMESTAMP)
    if last > 0 and draw.chance(0.8):
        return draw.below(last)
    unissued = (min(last, MAX_TIMESTAMP - 1), MAX_TIMESTAMP - 1)
    return draw.among((*unissued, draw.below(MAX_TIMESTAMP)))


def random_row(draw: Draw, table: Table) -> int:
    """A row: one that is present, or beside one, or at either end of all rows."""
    present = sorted(
        RowPlace(group, timestamp, key).row
        for (group, timestamp), rows in table.slices.items()
        for key in rows
    )
    if present and draw.chance(0.6):
        return draw.among(present)
    if draw.chance(0.8):
        key = draw.among(known_keys(table) or [0])
        return RowPlace(draw.below(GROUPS), slot(draw, table) + 1, key).row
    return draw.among((0, KEYS - 1, ROWS - KEYS, ROWS - 1))


def place_named(draw: Draw, table: Table, name: str) -> int:
    """A place of a number with this name."""
    writer = random_writer(draw, table)
    for which, field_name in FIELD_NAMES.items():
        if name == field_name:
            return field_place(writer, which)
    match name:
        case "mode":
            return MODE
        case "horizon":
            return HORIZON
        case "last timestamp":
            return LAST
        case "lock":
            return LOCKS + draw.below(GROUPS)
        case "index entry":
            known = known_keys(table)
            near = known and draw.chance(0.7)
            return INDEX + (draw.among(known) if near else draw.below(KEYS))
        case "instant":
            return TIMELINE + slot(draw, table)
        case "place of a completion":
            return PLACES + slot(draw, table)
        case "count":
            return COUNTS + writer
        case "noted timestamp":
            return NOTED + WRITERS * writer + draw.below(WRITERS)
        case "presence of a row":
            return PRESENT + random_row(draw, table)
        case "value of a row":
            return VALUES + random_row(draw, table)
    raise ValueError(f"no number has this name: {name}")


FIELD_LIMITS = {Field.PHASE: Phase.COMMIT, Field.KEY: KEYS - 1, Field.GROUP: GROUPS - 1}


def limit_of(place: int, last: int) -> int:
    """The largest number in range at a place, if this is the last timestamp."""
    if RECORDS <= place < PRESENT:
        which = Field((place - RECORDS) % len(Field))
        if which in (Field.TIMESTAMP, Field.BASE):
            return last
        return int(FIELD_LIMITS.get(which, largest_at(place)))
    if place == MODE or place >= PRESENT:
        return largest_at(place)
    for first, limit in (
        (NOTED, last),
        (PLACES, MAX_TIMESTAMP),
        (TIMELINE + last, NONE),
        (TIMELINE, COMPLETED + GROUPS - 1),
        (INDEX, GROUPS),
        (LOCKS, WRITERS),
        (LAST, MAX_TIMESTAMP),
    ):
        if place >= first:
            return limit
    return last


def edges_of(place: int, last: int) -> tuple[int, ...]:
    """Numbers at the edges of a place's range, and of a byte or a word."""
    largest, limit = largest_at(place), limit_of(place, last)
    if largest == MAX_NUMBER:
        return EDGE_VALUES
    edges = (0, 1, limit, limit + 1, last, last + 1, *BYTE_EDGES)
    return tuple(edge for edge in edges if edge <= largest)


def number_in_range(draw: Draw, place: int, last: int) -> int:
    limit = limit_of(place, last)
    return random_value(draw) if limit == MAX_NUMBER else draw.below(limit + 1)


def name_of(place: int) -> str:
    """The name of a place's number."""
    if RECORDS <= place < PRESENT:
        return FIELD_NAMES[Field((place - RECORDS) % len(Field))]
    return OTHER_NAMES[bisect.bisect(FIRST_PLACES, place) - 1]


def places_in_use(table: Table, name: str) -> list[int]:
    """The places with this name whose numbers are not 0."""
    return sorted(place for place in numbers_of(table) if name_of(place) == name)


def limit_places() -> Iterator[int]:
    """Places whose numbers have a limit: all locks, both ends of every other block, and
    all numbers of the first writer and the last.
    """
    yield from (HORIZON, LAST)
    yield from range(LOCKS, INDEX)
    for first, behind in itertools.pairwise(
        (INDEX, TIMELINE, PLACES, COUNTS, NOTED, RECORDS)
    ):
        yield from (first, behind - 1)
    limited = {*Field} - {Field.PUT, Field.MADE, Field.VALUE}
    for writer in (0, WRITERS - 1):
        yield from (field_place(writer, which) for which in sorted(limited))


class Changes:
    """Single numbers to change. First every other one is at its limit or one above it;
    the others are of each name in turn, and of each name the edges in turn, with
    numbers in range between them.
    """

    def __init__(self, draw: Draw) -> None:
        self.draw = draw
        self.names = itertools.cycle(NAMES)
        self.limits = itertools.product(limit_places(), (0, 1))
        self.total = 0
        self.turns: Counter = Counter()
        self.edges: Counter = Counter()

    def next(self, table: Table) -> Pair:
        """A place of this table, and another number than it has there."""
        self.total += 1
        numbers = numbers_of(table)
        chosen = self.next_limit if self.total % 2 else self.next_named
        while True:
            place, number = chosen(table)
            if number != numbers.get(place, 0):
                return place, number

    def next_limit(self, table: Table) -> Pair:
        place, above = next(self.limits, (None, 0))
        if place is None:
            return self.next_named(table)
        return place, limit_of(place, table.last_timestamp) + above

    def next_named(self, table: Table) -> Pair:
        name = next(self.names)
        place = place_named(self.draw, table, name)
        used = places_in_use(table, name)
        if used and self.draw.chance(0.4):
            place = self.draw.among(used)
        if largest_at(place) == 1:
            return place, 1 - numbers_of(table).get(place, 0)
        return place, self.next_number(name, place, table.last_timestamp)

    def next_number(self, name: str, place: int, last: int) -> int:
        self.turns[name] += 1
        if self.turns[name] % 3 == 0:
            return number_in_range(self.draw, place, last)
        self.edges[name] += 1
        edges = edges_of(place, last)
        return edges[self.edges[name] % len(edges)]


# --- Random tables -----------------------------------------------------------


class Pools(NamedTuple):
    """The few numbers that a random table is made of, so that they meet."""

    last: int
    writers: Sequence[int]
    keys: Sequence[int]
    groups: Sequence[int]


def some_below(draw: Draw, bound: int, count: int) -> list[int]:
    """So many different numbers below a bound."""
    numbers = list(range(bound))
    while len(numbers) > count:
        del numbers[draw.below(len(numbers))]
    return numbers


LAST_TIMESTAMPS = (0, 1, 2, 2, 3, 3, 4, 4, 5, 5, 6, 6, 7, 8, 9, 12, 127, 128)


def random_pools(draw: Draw) -> Pools:
    return Pools(
        draw.among(LAST_TIMESTAMPS),
        some_below(draw, WRITERS, 2 + draw.below(5)),
        some_below(draw, KEYS, 2 + draw.below(3)),
        some_below(draw, GROUPS, 1 + draw.below(3)),
    )


def issued(draw: Draw, last: int, count: int) -> list[int]:
    """Timestamps of a random table: all, or so many if there are more."""
    if last <= count:
        return list(range(1, last + 1))
    chosen = {0, last - 1, *(draw.below(last) for _ in range(count - 2))}
    return [at + 1 for at in sorted(chosen)]


def random_shared(draw: Draw, pools: Pools) -> Iterator[Pair]:
    """The horizon, the last timestamp, the locks and the index."""
    yield LAST, pools.last
    if draw.chance(0.6):
        yield HORIZON, draw.below(pools.last + 1)
    locked = draw.among((0.0, 0.2, 0.6))
    for group in range(GROUPS):
        if draw.chance(locked):
            yield LOCKS + group, draw.among(pools.writers) + 1
    for key in pools.keys:
        if draw.chance(0.7):
            yield INDEX + key, draw.among(pools.groups) + 1
    if draw.chance(0.5):
        yield INDEX + draw.below(KEYS), draw.below(GROUPS + 1)


def random_instant(draw: Draw, groups: Sequence[int]) -> int:
    group = draw.among(groups)
    if draw.chance(0.6):
        return COMPLETED + group
    return draw.among((NONE, REQUESTED, REQUESTED, INFLIGHT + group, INFLIGHT + group))


def random_places(draw: Draw, at: Sequence[int]) -> Iterator[Pair]:
    """Places in the order of completions, of instants that are not completed, and not
    issued, too.
    """
    for timestamp in at:
        if draw.chance(0.7):
            yield PLACES + timestamp - 1, draw.below(len(at) + 2)
    if draw.chance(0.3):
        yield PLACES + draw.below(MAX_TIMESTAMP), draw.below(MAX_TIMESTAMP + 1)


def random_notes(draw: Draw, pools: Pools, at: Sequence[int]) -> Iterator[Pair]:
    """Counts and noted timestamps, of ready writers too."""
    noting = draw.among((0.1, 0.3, 0.6))
    for writer in pools.writers:
        if draw.chance(0.7):
            yield COUNTS + writer, draw.below(len(at) + 2)
        for other in pools.writers:
            if at and draw.chance(noting):
                yield NOTED + WRITERS * writer + other, draw.among(at)
    if draw.chance(0.2):
        yield COUNTS + draw.below(WRITERS), draw.below(MAX_TIMESTAMP + 1)
    if draw.chance(0.2):
        yield NOTED + draw.below(WRITERS * WRITERS), draw.below(pools.last + 1)


def random_writers(draw: Draw, pools: Pools, at: Sequence[int]) -> Iterator[Pair]:
    """Writers at any phase; a ready one keeps numbers as well, or none."""
    for writer in pools.writers:
        phase = draw.below(len(Phase)) if at else Phase.READY
        if phase == Phase.READY and draw.chance(0.4):
            continue
        fields = {
            Field.PHASE: int(phase),
            Field.PUT: int(draw.chance(0.7)),
            Field.MADE: int(draw.chance(0.3)),
            Field.KEY: draw.among(pools.keys),
            Field.GROUP: draw.among(pools.groups),
            Field.TIMESTAMP: draw.among(at or [0]),
            Field.BASE: draw.among([0, *at]),
            Field.VALUE: random_value(draw),
        }
        for which, number in fields.items():
            yield field_place(writer, which), number


def random_slice(
    draw: Draw, pools: Pools, timeline: dict[int, int]
) -> tuple[int, int]:
    """A group and a timestamp: mostly those of an instant, else any, and now and then
    above the last timestamp.
    """
    above = min(pools.last + 1, MAX_TIMESTAMP)
    if not timeline or draw.chance(0.1):
        return draw.among(pools.groups), above
    place = draw.among(sorted(timeline))
    if timeline[place] >= COMPLETED and draw.chance(0.7):
        return timeline[place] - COMPLETED, place - TIMELINE + 1
    return draw.among(pools.groups), place - TIMELINE + 1


def random_rows(
    draw: Draw, pools: Pools, timeline: dict[int, int]
) -> Iterator[Pair]:
    for _ in range(draw.among((2, 6, 12, 20))):
        group, timestamp = random_slice(draw, pools, timeline)
        row = RowPlace(group, timestamp, draw.among(pools.keys)).row
        yield PRESENT + row, 1
        yield VALUES + row, random_value(draw)


def random_numbers(draw: Draw, mode: Mode) -> Numbers:
    """A random table that is in range."""
    pools = random_pools(draw)
    at = issued(draw, pools.last, 12)
    timeline = {
        TIMELINE + timestamp - 1: random_instant(draw, pools.groups)
        for timestamp in at
    }
    pairs = itertools.chain(
        [(MODE, MODES.index(mode))],
        random_shared(draw, pools),
        timeline.items(),
        random_places(draw, at),
        random_notes(draw, pools, at),
        random_writers(draw, pools, at),
        random_rows(draw, pools, timeline),
    )
    return nonzero(dict(pairs).items())


def any_numbers(draw: Draw, mode: Mode) -> Numbers:
    """A table whose every number is any that can be stored, with a few rows."""
    numbers = {place: draw.below(largest_at(place) + 1) for place in range(PRESENT)}
    for row in (draw.below(ROWS) for _ in range(10)):
        numbers |= {PRESENT + row: 1, VALUES + row: random_value(draw)}
    numbers[MODE] = MODES.index(mode)
    return nonzero(numbers.items())


def out_of_range_numbers(draw: Draw, mode: Mode) -> Numbers:
    """A random table with a few numbers that are any that can be stored."""
    numbers = random_numbers(draw, mode)
    for _ in range(1 + draw.below(4)):
        place = 1 + draw.below(PRESENT - 1)
        numbers[place] = draw.below(largest_at(place) + 1)
    return nonzero(numbers.items())


# --- Full tables -------------------------------------------------------------


def full_writers(draw: Draw, last: int) -> Iterator[Pair]:
    for writer in range(WRITERS):
        fields = {
            Field.PHASE: 1 + writer % Phase.COMMIT,
            Field.PUT: int(draw.chance(0.8)),
            Field.MADE: int(draw.chance(0.5)),
            Field.KEY: draw.below(KEYS),
            Field.GROUP: draw.below(GROUPS),
            Field.TIMESTAMP: last if draw.chance(0.4) else 1 + draw.below(last),
            Field.BASE: last if draw.chance(0.2) else draw.below(last + 1),
            Field.VALUE: random_value(draw),
        }
        for which, number in fields.items():
            yield field_place(writer, which), number


def full_timeline(draw: Draw, last: int) -> Iterator[Pair]:
    """An instant and a place for every timestamp. The last eight instants are
    completed, each in another group.
    """
    for slot_number in range(last):
        newest = last - 1 - slot_number
        instant = random_instant(draw, range(GROUPS)) or REQUESTED
        instant = COMPLETED + newest if newest < GROUPS else instant
        yield TIMELINE + slot_number, instant
        yield PLACES + slot_number, 1 + draw.below(MAX_TIMESTAMP)


def full_rows(draw: Draw, last: int) -> Iterator[Pair]:
    """Every key in each group's newest slice, and a few rows elsewhere."""
    newest = (
        RowPlace(group, last - group, key).row
        for group in range(GROUPS)
        for key in range(KEYS)
    )
    for row in (*newest, *(draw.below(ROWS) for _ in range(20))):
        yield PRESENT + row, 1
        yield VALUES + row, draw.among(SMALL_VALUES)


def full_numbers(draw: Draw, mode: Mode, last: int) -> Numbers:
    """A table in range with every lock held, every key indexed, an instant, a place, a
    count and a noted timestamp wherever there can be one, no writer ready, and every
    key shown by every group.
    """
    pairs = itertools.chain(
        [(MODE, MODES.index(mode)), (HORIZON, draw.below(last)), (LAST, last)],
        ((LOCKS + group, 1 + draw.below(WRITERS)) for group in range(GROUPS)),
        ((INDEX + key, 1 + draw.below(GROUPS)) for key in range(KEYS)),
        full_timeline(draw, last),
        ((COUNTS + writer, 1 + draw.below(last)) for writer in range(WRITERS)),
        ((NOTED + at, 1 + draw.below(last)) for at in range(WRITERS * WRITERS)),
        full_writers(draw, last),
        full_rows(draw, last),
    )
    return nonzero(dict(pairs).items())


def varied(draw: Draw, numbers: Numbers, count: int) -> Numbers:
    """So many numbers of a table drawn anew, in their ranges; no writer is made ready.
    """
    table = table_of(numbers)
    new = dict(numbers)
    drawn = [name for name in NAMES if name not in ("mode", "last timestamp")]
    for _ in range(count):
        place = place_named(draw, table, draw.among(drawn))
        if place < PRESENT or place in new:
            new[place] = number_in_range(draw, place, table.last_timestamp)
    for writer, which in itertools.product(
        range(WRITERS), (Field.PHASE, Field.TIMESTAMP)
    ):
        place = field_place(writer, which)
        new[place] = new[place] or numbers[place]
    # Without the values of rows that are absent now.
    return numbers_of(table_of(nonzero(new.items())))


# --- Cases -------------------------------------------------------------------


class Trial(NamedTuple):
    """A table and the calls on it: the items that lead to it from the table before,
    the calls, and the items that lead back.
    """

    origin: str
    led: Sequence[Item]
    calls: Sequence[Item]
    back: Sequence[Item] = ()
    changed: str | None = None


class Case(NamedTuple):
    """Trials, on a fresh table and what becomes of it."""

    mode: Mode
    trials: Sequence[Trial]


REACHED, CHANGED, RANDOM, UNLIKELY, FULL = (
    "reached from a fresh table",
    "reached, with one number changed",
    "random",
    "random, with any numbers",
    "full",
)


# The pieces of a walk, and their mean length by the number of its writers.
PIECES_OF_A_WALK = 25
LENGTHS = {4: 6, WRITERS: 24}

# The random tables of each mode, and the tables that are made of each full one.
RANDOM_TABLES = 400
VARIANTS = 4


def event_items(events: Iterable[Step | Clean]) -> Iterator[Item]:
    """Steps and cleans; the steps between two cleans are one log."""
    for cleaning, group in itertools.groupby(
        events, lambda event: isinstance(event, Clean)
    ):
        if cleaning:
            yield from (Item(Kind.CLEAN, event.at) for event in group)
        else:
            yield with_content(Kind.RUN, encode(group))


def changed_trial(draw: Draw, table: Table, changes: Changes) -> Trial:
    """A table with one number changed, and the way back."""
    before = numbers_of(table)
    place, number = changes.next(table)
    new = {place: number}
    if PRESENT <= place < VALUES:
        new[place + ROWS] = random_value(draw) if number else 0
    after = nonzero((before | new).items())
    changed = table_of(after)
    # The value of an absent row leads to no other table.
    forth = list(leading_pairs(before, after)) or [(place, after[place])]
    back = list(leading_pairs(after, before)) or [(place, 0)]
    focus = aimed(focus_of(changed), changed, place)
    calls = calls_on(draw, changed, focus)
    return Trial(CHANGED, [change(forth)], calls, [change(back)], name_of(place))


def walk_trials(
    draw: Draw, changes: Changes, table: Table, profile: Profile, length: int
) -> Iterator[Trial]:
    """A random walk with cleans between, and calls every few steps; there also with
    numbers changed.
    """
    steps = 2 * PIECES_OF_A_WALK * length
    walking = walk_with_cleans(draw, profile, steps, table, 0.05)
    for turn in range(PIECES_OF_A_WALK):
        events = list(itertools.islice(walking, 1 + draw.below(2 * length - 1)))
        led = list(event_items(events))
        yield Trial(REACHED, led, calls_on(draw, table, focus_of(table)))
        for _ in range(2 if turn % 5 == 0 else 1):
            yield changed_trial(draw, table, changes)


def walk_cases(draw: Draw, mode: Mode) -> Iterator[Case]:
    """Walks by four writers and by sixteen."""
    changes = Changes(draw)
    for profile in PROFILES:
        for writers, length in LENGTHS.items():
            walking = replace(profile, writers=writers)
            table = Table(mode=mode)
            trials = list(walk_trials(draw, changes, table, walking, length))
            yield Case(mode, trials)


def numbers_trial(
    draw: Draw, origin: str, before: Numbers, after: Numbers
) -> Trial:
    """A table by its numbers."""
    table = table_of(after)
    led = [change(leading_pairs(before, after))]
    return Trial(origin, led, calls_on(draw, table, focus_of(table)))


def random_cases(draw: Draw, mode: Mode) -> Iterator[Case]:
    """Random tables, most of them in range."""
    fresh = numbers_of(Table(mode=mode))
    for turn in range(RANDOM_TABLES):
        if turn % 100 == 99:
            origin, numbers = UNLIKELY, any_numbers(draw, mode)
        elif turn % 20 == 9:
            origin, numbers = UNLIKELY, out_of_range_numbers(draw, mode)
        else:
            origin, numbers = RANDOM, random_numbers(draw, mode)
        yield Case(mode, [numbers_trial(draw, origin, fresh, numbers)])


def full_trials(draw: Draw, mode: Mode, last: int) -> Iterator[Trial]:
    """A full table, and ones with some of its numbers drawn anew. Of the first all
    rows are listed, into room for all and for one number less.
    """
    before, numbers = numbers_of(Table(mode=mode)), full_numbers(draw, mode, last)
    listings = [
        with_numbers(Kind.READ, (last, draw.below(KEYS))),
        *(with_numbers(Kind.SCAN, (last, room)) for room in (MAX_ROOM, MAX_ROOM - 1)),
    ]
    for _ in range(1 + VARIANTS):
        trial = numbers_trial(draw, FULL, before, numbers)
        yield trial._replace(calls=[*trial.calls, *listings])
        before, numbers, listings = numbers, varied(draw, numbers, 30), []


def full_cases(draw: Draw, mode: Mode) -> Iterator[Case]:
    """Full tables, most of them with all timestamps issued."""
    for last in (MAX_TIMESTAMP, MAX_TIMESTAMP, MAX_TIMESTAMP, MAX_TIMESTAMP - 1):
        yield Case(mode, list(full_trials(draw, mode, last)))


Family = tuple[str, Iterator[Case]]


def families() -> Iterator[Family]:
    draw = Draw(SEED)

    def each(cases: Callable[[Draw, Mode], Iterator[Case]]) -> Iterator[Case]:
        return itertools.chain(*(cases(draw, mode) for mode in Mode))

    yield "random walks by four and sixteen writers, with one number changed", each(
        walk_cases
    )
    yield "random tables", each(random_cases)
    yield "full tables", each(full_cases)


# --- The histogram -----------------------------------------------------------

CANDIDATE_ANSWERS = {
    Answer.TAKEN: "lists given",
    Answer.NO_SUCH_WRITER: "no such writer",
    Answer.PHASE_DOES_NOT_FIT: "the writer is ready",
    Answer.OUT_OF_RANGE: "table value out of range",
}
POINT_ANSWERS = {
    Answer.TAKEN: "a row",
    None: "absent",
    Answer.NO_SUCH_KEY: "no such key",
    Answer.OUT_OF_RANGE: "table value out of range",
    Answer.BELOW_HORIZON: "below the horizon",
}
INSTANT_ANSWERS = {
    **{state: state.value for state in State},
    Answer.OUT_OF_RANGE: "table value out of range",
}
CALLS = {
    "step of a walk": ANSWERS,
    "clean of a walk": CLEAN_ANSWERS,
    "step": ANSWERS,
    "step of a log": ANSWERS,
    "log": STOPS,
    "clean": CLEAN_ANSWERS,
    "instant": INSTANT_ANSWERS,
    "point read": POINT_ANSWERS,
    "scan": READ_ANSWERS,
    "scan into a buffer": READ_ANSWERS,
    "candidates": CANDIDATE_ANSWERS,
    "lists": {1: "the same both ways", 0: "not the same"},
}


def answer_rows(counts: dict[Mode, Counter]) -> Iterator[str]:
    """Rows of what each call gave in each mode."""
    for call, meanings in CALLS.items():
        for given, meaning in meanings.items():
            numbers = [counts[mode][call, given] for mode in Mode]
            if any(numbers):
                shown = int(given) if isinstance(given, int) else "-"
                cells = " | ".join(map(str, numbers))
                yield f"| {call} | {shown} | {meaning} | {cells} |"


def pending(table: Table) -> list[Writer]:
    return [table.writers[number] for number in busy_writers(table)]


def shares_timestamp(table: Table) -> bool:
    held = [writer.timestamp for writer in pending(table)]
    return len(held) > len(set(held))


def has_foreign_base(table: Table) -> bool:
    return any(
        writer.base > 0
        and table.timeline.get(writer.base) != Instant(State.COMPLETED, writer.group)
        for writer in pending(table)
        if writer.phase >= Phase.WRITE
    )


def ready_writer_holds_a_lock(table: Table) -> bool:
    busy = busy_writers(table)
    return any(holder not in busy for holder in lock_holders(table).values())


def holds_two_locks(table: Table) -> bool:
    holders = list(lock_holders(table).values())
    return len(holders) > len(set(holders))


def keeps_numbers(table: Table) -> bool:
    ready = (writer for writer in table.writers if writer.phase == Phase.READY)
    return any(any(writer_numbers(writer)) for writer in ready)


def keeps_notes(table: Table) -> bool:
    ready = set(range(WRITERS)) - set(busy_writers(table))
    return any(table.counts[number] or any(table.noted[number]) for number in ready)


def has_stray_place(table: Table) -> bool:
    """A place twice, or of no completed instant, or a completed instant without one."""
    places = sorted(table.places.values())
    one_each = table.places.keys() == table.completed()
    return not one_each or places != list(range(1, len(places) + 1))


def has_stray_slice(table: Table) -> bool:
    """Rows in a group that their instant is not in, or has not reached."""
    groups = {at: instant.group for at, instant in table.timeline.items()}
    return any(
        rows and groups.get(timestamp) != group
        for (group, timestamp), rows in table.slices.items()
    )


def has_bare_instant(table: Table) -> bool:
    return any(
        instant.state is State.COMPLETED and not table.slices.get((instant.group, at))
        for at, instant in table.timeline.items()
    )


def has_rows_above(table: Table) -> bool:
    last = table.last_timestamp
    return any(rows and at > last for (_, at), rows in table.slices.items())


def shows_key_twice(table: Table) -> bool:
    keys = [row.key for row in table.snapshot(table.last_timestamp)]
    return len(keys) > len(set(keys))


def has_early_flag(table: Table) -> bool:
    """A writer that is said to have made an entry before its index step, or one that
    there is not.
    """
    return any(
        writer.made
        and (writer.phase <= Phase.INDEX or writer.operation.key not in table.index)
        for writer in table.writers
    )


def removes_with_value(table: Table) -> bool:
    operations = (writer.operation for writer in pending(table))
    return any(isinstance(op, Remove) and getattr(op, "value", 0) for op in operations)


TRAITS: dict[str, Callable[[Table], bool]] = {
    "two writers with one timestamp": shares_timestamp,
    "a base that is not completed in its writer's group": has_foreign_base,
    "a lock of a ready writer": ready_writer_holds_a_lock,
    "two locks of one writer": holds_two_locks,
    "a ready writer that keeps numbers": keeps_numbers,
    "a ready writer with a count or a noted timestamp": keeps_notes,
    "places that no commits gave": has_stray_place,
    "rows in a group that their instant is not in": has_stray_slice,
    "a completed instant without rows": has_bare_instant,
    "rows above the last timestamp": has_rows_above,
    "a key that two groups show": shows_key_twice,
    "a flag of an entry not yet made, or not there": has_early_flag,
    "a remove with a value": removes_with_value,
    "timestamps used up": lambda table: table.last_timestamp == MAX_TIMESTAMP,
}


class Tally:
    """How many tables there are of each kind."""

    def __init__(self) -> None:
        self.tables: dict[Mode, Counter] = {mode: Counter() for mode in Mode}
        self.traits: dict[Mode, Counter] = {mode: Counter() for mode in Mode}
        self.changed: Counter = Counter()

    def add(self, trial: Trial, table: Table) -> None:
        usable = table.in_range()
        require(usable or trial.origin != REACHED, "reached out of range")
        self.tables[table.mode][trial.origin, usable] += 1
        if trial.changed is not None:
            self.changed[trial.changed, usable] += 1
        if usable:
            for trait, has in TRAITS.items():
                self.traits[table.mode][trait] += has(table)

    def table_rows(self) -> Iterator[str]:
        for origin in (REACHED, CHANGED, RANDOM, UNLIKELY, FULL):
            cells = [
                str(self.tables[mode][origin, usable])
                for mode in Mode
                for usable in (True, False)
            ]
            yield f"| {origin} | {' | '.join(cells)} |"

    def changed_rows(self) -> Iterator[str]:
        for name in NAMES:
            numbers = self.changed[name, True], self.changed[name, False]
            yield f"| {name} | {numbers[0]} | {numbers[1]} |"

    def trait_rows(self) -> Iterator[str]:
        for trait in TRAITS:
            numbers = [self.traits[mode][trait] for mode in Mode]
            yield f"| {trait} | {numbers[0]} | {numbers[1]} |"


def report(program: Program, tally: Tally, ranges: Iterable[str]) -> list[str]:
    return [
        "| Call | Answer | Meaning | Optimistic | Pessimistic |",
        "|---|---|---|---|---|",
        *answer_rows(program.counts),
        "",
        "| Tables | Optimistic, in range | out | Pessimistic, in range | out |",
        "|---|---|---|---|---|",
        *tally.table_rows(),
        "",
        "| The number changed | Tables in range | Tables out of range |",
        "|---|---|---|",
        *tally.changed_rows(),
        "",
        "| What tables in range have | Optimistic | Pessimistic |",
        "|---|---|---|",
        *tally.trait_rows(),
        "",
        "| Cases | What they are |",
        "|---|---|",
        *ranges,
    ]


def main(stdin: Path, stdout: Path, histogram: Path) -> None:
    packed, ranges = [], []
    program, tally = Program(), Tally()

    def take(items: Iterable[Item]) -> None:
        for item in items:
            packed.append(coded(item))
            program.take(item)

    number = 0
    for family, family_cases in families():
        first = number
        for case in family_cases:
            take([Item(Kind(MODES.index(case.mode)), number)])
            for trial in case.trials:
                take(trial.led)
                tally.add(trial, program.table)
                take([*trial.calls, *trial.back])
            number += 1
        ranges.append(f"| {first} to {number - 1} | {family} |")
    stdin.write_bytes(b"".join(packed))
    stdout.write_text(
        "".join(f"{line}\n" for line in program.lines), encoding="ascii", newline="\n"
    )
    lines = report(program, tally, ranges)
    histogram.write_text("\n".join(lines) + "\n", encoding="ascii", newline="\n")


if __name__ == "__main__":
    if len(sys.argv) != 4:
        sys.exit(__doc__)
    main(*map(Path, sys.argv[1:]))
