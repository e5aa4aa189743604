"""A table of the model as numbers, and back.

Every field of a table has a place: mode, horizon and last timestamp, the locks, the
index, the timeline, the places in the order of completions, the counts, the noted
timestamps, the writers, and behind them which rows are present, and their values. A
table of any such numbers, in range or out, is one of the model's.
"""

from __future__ import annotations

import itertools
from collections.abc import Iterable, Iterator, Sequence
from enum import IntEnum
from typing import NamedTuple

from table_model import (
    GROUPS,
    KEYS,
    MAX_TIMESTAMP,
    WRITERS,
    Instant,
    Mode,
    Phase,
    Put,
    Remove,
    State,
    Table,
    Writer,
)

# A table's numbers that are not 0, by their places. An absent row has no value here.
Numbers = dict[int, int]
Pair = tuple[int, int]


class Field(IntEnum):
    """The numbers of a writer. Its group is the proposed one before its look up."""

    PHASE = 0
    PUT = 1
    MADE = 2
    KEY = 3
    GROUP = 4
    TIMESTAMP = 5
    BASE = 6
    VALUE = 7


# The places of a table's numbers: the first one of each block.
MODE, HORIZON, LAST, LOCKS = range(4)
INDEX = LOCKS + GROUPS
TIMELINE = INDEX + KEYS
PLACES = TIMELINE + MAX_TIMESTAMP
COUNTS = PLACES + MAX_TIMESTAMP
NOTED = COUNTS + WRITERS
RECORDS = NOTED + WRITERS * WRITERS
PRESENT = RECORDS + len(Field) * WRITERS
ROWS = MAX_TIMESTAMP * GROUPS * KEYS
VALUES = PRESENT + ROWS

# The numbers of an instant: none, requested, and the first of those with a group.
NONE, REQUESTED, INFLIGHT, COMPLETED = 0, 1, 2, 2 + GROUPS
MODES = tuple(Mode)


class StoredRemove(Remove):
    """A remove whose writer has a value as well. No rule reads it, and the steps that
    keep the operation keep it.
    """

    value: int

    def __new__(cls, key: int, value: int = 0) -> StoredRemove:
        remove = super().__new__(cls, key)
        remove.value = value
        return remove


class RowPlace(NamedTuple):
    """Where a row is stored."""

    group: int
    timestamp: int
    key: int

    @classmethod
    def of(cls, row: int) -> RowPlace:
        timestamp, place = divmod(row, GROUPS * KEYS)
        group, key = divmod(place, KEYS)
        return cls(group, timestamp + 1, key)

    @property
    def row(self) -> int:
        return ((self.timestamp - 1) * GROUPS + self.group) * KEYS + self.key


def field_place(writer: int, which: Field) -> int:
    return RECORDS + len(Field) * writer + which


def instant_number(instant: Instant) -> int:
    match instant.state:
        case State.NONE:
            return NONE
        case State.REQUESTED:
            return REQUESTED
        case State.INFLIGHT:
            return INFLIGHT + instant.group
    return COMPLETED + instant.group


def instant_of(number: int) -> Instant:
    """The instant of a number; 18 and above is completed in a group that there is not.
    """
    if number < INFLIGHT:
        return Instant(State.REQUESTED if number == REQUESTED else State.NONE)
    if number < COMPLETED:
        return Instant(State.INFLIGHT, number - INFLIGHT)
    return Instant(State.COMPLETED, number - COMPLETED)


def writer_numbers(writer: Writer) -> tuple[int, ...]:
    """A writer's numbers, in the order of its fields. The model keeps a put's proposed
    group in the operation, and the numbers have one group.
    """
    operation = Remove(0) if writer.operation is None else writer.operation
    puts = isinstance(operation, Put)
    proposed = puts and writer.phase == Phase.LOOK_UP
    return (
        int(writer.phase),
        int(puts),
        int(writer.made),
        operation.key,
        operation.group if proposed else writer.group,
        writer.timestamp,
        writer.base,
        getattr(operation, "value", 0),
    )


def writer_of(fields: Sequence[int]) -> Writer:
    """The writer of its numbers, ready or not, in range or out."""
    if not any(fields):
        return Writer()
    phase, put, made, key, group, timestamp, base, value = fields
    operation = Put(key, value, group) if put else StoredRemove(key, value)
    named = Phase(phase) if phase <= Phase.COMMIT else phase
    return Writer(named, operation, timestamp, group, base, bool(made))


def lock_holders(table: Table) -> dict[int, int]:
    """Who holds which lock; "an optimistic table has the table lock", the first one."""
    if table.mode is Mode.OPTIMISTIC and table.lock is not None:
        return table.group_locks | {0: table.lock}
    return table.group_locks


def stored(table: Table) -> Iterator[Pair]:
    """The places and numbers of a table."""
    yield from enumerate(
        (MODES.index(table.mode), table.horizon, table.last_timestamp), MODE
    )
    for group, holder in lock_holders(table).items():
        yield LOCKS + group, holder + 1
    for key, group in table.index.items():
        yield INDEX + key, group + 1
    for timestamp, instant in table.timeline.items():
        yield TIMELINE + timestamp - 1, instant_number(instant)
    for timestamp, place in table.places.items():
        yield PLACES + timestamp - 1, place
    yield from enumerate(table.counts, COUNTS)
    yield from enumerate(itertools.chain(*table.noted), NOTED)
    yield from enumerate(
        itertools.chain(*map(writer_numbers, table.writers)), RECORDS
    )
    for (group, timestamp), rows in table.slices.items():
        for key, value in rows.items():
            row = RowPlace(group, timestamp, key).row
            yield PRESENT + row, 1
            yield VALUES + row, value


def nonzero(pairs: Iterable[Pair]) -> Numbers:
    return {place: number for place, number in pairs if number != 0}


def numbers_of(table: Table) -> Numbers:
    return nonzero(stored(table))


def slices_of(numbers: Numbers) -> dict[tuple[int, int], dict[int, int]]:
    """The slices of the rows that are present; a slice without rows is as none."""
    slices: dict[tuple[int, int], dict[int, int]] = {}
    for place in numbers:
        if PRESENT <= place < VALUES:
            group, timestamp, key = RowPlace.of(place - PRESENT)
            rows = slices.setdefault((group, timestamp), {})
            rows[key] = numbers.get(place + ROWS, 0)
    return slices


def table_of(numbers: Numbers) -> Table:
    """The model's table of these numbers, whatever they are."""

    def block(first: int, length: int) -> list[int]:
        return [numbers.get(first + place, 0) for place in range(length)]

    mode = MODES[numbers.get(MODE, 0)]
    holders = {
        group: name - 1 for group, name in enumerate(block(LOCKS, GROUPS)) if name
    }
    lock = holders.pop(0, None) if mode is Mode.OPTIMISTIC else None
    entries = enumerate(block(INDEX, KEYS))
    instants = enumerate(block(TIMELINE, MAX_TIMESTAMP), 1)
    places = enumerate(block(PLACES, MAX_TIMESTAMP), 1)
    return Table(
        last_timestamp=numbers.get(LAST, 0),
        timeline={at: instant_of(number) for at, number in instants if number},
        slices=slices_of(numbers),
        index={key: entry - 1 for key, entry in entries if entry},
        lock=lock,
        group_locks=holders,
        writers=[
            writer_of(block(field_place(writer, Field.PHASE), len(Field)))
            for writer in range(WRITERS)
        ],
        mode=mode,
        horizon=numbers.get(HORIZON, 0),
        places={timestamp: place for timestamp, place in places if place},
        counts=block(COUNTS, WRITERS),
        noted=[block(NOTED + WRITERS * row, WRITERS) for row in range(WRITERS)],
    )


def changed_places(before: Numbers, after: Numbers) -> list[int]:
    places = before.keys() | after.keys()
    return sorted(at for at in places if before.get(at, 0) != after.get(at, 0))


def split(places: Sequence[int]) -> tuple[list[int], list[int]]:
    """Places that are no row's, and the rows of the others."""
    rows = {(place - PRESENT) % ROWS for place in places if place >= PRESENT}
    return [place for place in places if place < PRESENT], sorted(rows)
