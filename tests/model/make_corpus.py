#!/usr/bin/env python3
"""Write a corpus of step logs and what is printed for each.

    python3 tests/model/make_corpus.py MODE STDIN STDOUT HISTOGRAM

MODE is ``optimistic`` or ``pessimistic``, the mode of the tables on which the
logs are run. STDIN gets each log as a 4-byte little-endian length and the log's
bytes. STDOUT gets for each log the line ``log I``, counted from 0, and its
text. HISTOGRAM gets Markdown tables of the answers and stops that occur and of
the logs. The files are the same in every run.

Every log but the one that is too long is also run step by step against the
papers' own claims: the scan lists what the history says, no key stands in the
committed slices of two groups, the listing at a stable timestamp stays
whatever steps follow (demand 3), the steps coded again give the log's bytes
(demand 2), no row has the erased word as its value (Q-3), every index entry
is that of a committed put or of a put in progress that made it (Q-4), and the
locks are those that the mode gives to the writers in progress: in a pessimistic
table two writers past their read steps have different groups, and none is at
phase 5 (Q-9).
"""

from __future__ import annotations

import copy
import random
import struct
import sys
from collections import Counter
from collections.abc import Callable, Iterator, Sequence
from dataclasses import dataclass, replace
from pathlib import Path

from table_model import (
    ERASED_WORD,
    GROUPS,
    KEYS,
    MAX_INPUT,
    MAX_NUMBER,
    MAX_TIMESTAMP,
    WRITERS,
    Action,
    Answer,
    History,
    Mode,
    Phase,
    Put,
    Remove,
    Row,
    Step,
    Stop,
    Table,
    encode,
    encode_number,
    encode_step,
    program,
    read_log,
)

SEED = 20_240_501
EDGE_VALUES = (
    *(0, 1, 127, 128, 16_383, 16_384, 2**31),
    *(2**32 - 1, 2**32, 2**63 - 1, 2**63, ERASED_WORD - 1, ERASED_WORD),
)

# The step with the longest record.
LONGEST = Step(MAX_NUMBER, Put(MAX_NUMBER, MAX_NUMBER, MAX_NUMBER))


class Draw:
    """Pseudo-random choices that every Python version makes alike.

    Of the ``random`` module only ``random()`` is promised to repeat its
    sequence in later versions, so that everything is drawn from it.
    """

    def __init__(self, seed: int) -> None:
        self._random = random.Random(seed).random

    def below(self, bound: int) -> int:
        return int(self._random() * bound)

    def among(self, options: Sequence):
        return options[self.below(len(options))]

    def chance(self, probability: float) -> bool:
        return self._random() < probability


# --- Random walks ------------------------------------------------------------


@dataclass(frozen=True)
class Profile:
    """How a random walk chooses its steps.

    The first ``writers`` writers take part. A walk goes on with the same
    writer with chance ``same_writer``; if ``uneven``, writers with high
    numbers come seldom. A writer that would meet a held lock, the table's or
    its group's, tries nevertheless with chance ``stall``, else the holder goes
    on. A step fits
    the writer's phase with chance ``fit``, and gives up with chance
    ``give_up``. Successive starts share a key while ``starts_per_key``
    timestamps are issued, or draw their keys if it is 0. Numbers out of range
    come with chances that grow with ``wild``.
    """

    keys: Sequence[int]
    groups: Sequence[int]
    writers: int = WRITERS
    values: Sequence[int] = range(1000)
    same_writer: float = 0.4
    uneven: bool = False
    stall: float = 0.2
    fit: float = 0.95
    give_up: float = 0.02
    remove: float = 0.2
    starts_per_key: int = 0
    wild: float = 0.0


ONE_GROUP = Profile(keys=range(3), groups=(0,), uneven=True)
TWO_GROUPS = Profile(keys=range(4), groups=(3, 7), uneven=True)
NEW_KEYS = Profile(keys=range(KEYS), groups=range(GROUPS), starts_per_key=4)
REMOVES = Profile(keys=range(5), groups=range(3), remove=0.6)
ALL_KEYS = Profile(keys=range(KEYS), groups=range(GROUPS), same_writer=0.8)
STALLS = Profile(keys=range(4), groups=range(4), stall=1.0, give_up=0.0)
EDGES = Profile(keys=(0, 31), groups=(0, 7), values=EDGE_VALUES, same_writer=0.7)
DISORDER = Profile(keys=range(4), groups=range(2), fit=0.5)
SHORT_LIVED = Profile(keys=range(6), groups=range(4), give_up=0.2, remove=0.4)
WILD = Profile(keys=range(6), groups=range(4), values=EDGE_VALUES, wild=0.3)
PROFILES = (
    ONE_GROUP,
    TWO_GROUPS,
    NEW_KEYS,
    REMOVES,
    ALL_KEYS,
    STALLS,
    EDGES,
    DISORDER,
    SHORT_LIVED,
    WILD,
)


def random_operation(draw: Draw, table: Table, profile: Profile) -> Put | Remove:
    if profile.starts_per_key:
        turn = table.last_timestamp // profile.starts_per_key
        key = profile.keys[turn % len(profile.keys)]
    else:
        key = draw.among(profile.keys)
    group = draw.among(profile.groups)
    if draw.chance(profile.wild / 2):
        key = draw.among((KEYS, KEYS + 1, 127, 128, 2**32, MAX_NUMBER))
    if draw.chance(profile.wild / 2):
        group = draw.among((GROUPS, GROUPS + 1, 127, 128, 2**32, MAX_NUMBER))
    if draw.chance(profile.remove):
        return Remove(key)
    return Put(key, draw.among(profile.values), group)


def lock_holder(table: Table, writer: int) -> int | None:
    """Who holds the lock that the writer's next step takes."""
    match table.mode, table.writers[writer].phase:
        case Mode.OPTIMISTIC, Phase.INDEX:
            return table.lock
        case Mode.PESSIMISTIC, Phase.READ:
            return table.group_locks.get(table.writers[writer].group)
    return None


def random_step(draw: Draw, table: Table, profile: Profile, writer: int) -> Step:
    """A step after one by this writer."""
    if not draw.chance(profile.same_writer):
        writer = draw.below(profile.writers)
        if profile.uneven:
            writer = draw.below(writer + 1)
    if draw.chance(profile.wild / 4):
        writer = draw.among((WRITERS, WRITERS + 1, 127, 128, 2**32, MAX_NUMBER))
        return Step(writer, draw.among([Remove(0), *Action]))
    if draw.chance(profile.give_up):
        return Step(writer, Action.GIVE_UP)
    holder = lock_holder(table, writer)
    if holder is not None and not draw.chance(profile.stall):
        writer = holder
    phase = table.writers[writer].phase
    if not draw.chance(profile.fit):
        phase = draw.among(list(Phase))
    if phase == Phase.READY:
        return Step(writer, random_operation(draw, table, profile))
    return Step(writer, Action[phase.name])


def walk(
    draw: Draw,
    profile: Profile,
    length: int,
    table: Table,
    until: Callable[[Table], bool] = lambda table: False,
) -> Iterator[Step]:
    """Random steps, each taken on the table."""
    writer = 0
    for _ in range(length):
        if until(table):
            return
        step = random_step(draw, table, profile, writer)
        table.step(step)
        yield step
        writer = step.writer % profile.writers


# --- The logs ----------------------------------------------------------------


def operation_steps(
    writer: int, operation: Put | Remove, mode: Mode = Mode.OPTIMISTIC
) -> list[Step]:
    """All steps of one operation that commits; a pessimistic one has no check."""
    actions = [action for action in Action if action is not Action.GIVE_UP]
    if mode is Mode.PESSIMISTIC:
        actions.remove(Action.CHECK)
    return [Step(writer, operation), *(Step(writer, action) for action in actions)]


def trace_logs() -> Iterator[bytes]:
    """Document 01's example, the empty log, single records, and P5 to P10."""
    yield bytes.fromhex("00 01 01 AC 02 02 00 03 00 04 00 05 00 06 00 07 00 08")
    yield b""
    yield encode([Step(WRITERS - 1, Put(KEYS - 1, ERASED_WORD - 1, GROUPS - 1))])
    yield encode([Step(0, Action.GIVE_UP)])

    def put(writer: int, key: int, value: int, group: int) -> list[Step]:
        return operation_steps(writer, Put(key, value, group))

    one, two = put(0, 0, 10, 0), put(1, 1, 20, 0)
    yield encode([*one[:3], *two[:3], *one[3:], *two[3:]])  # P5
    yield encode([*one[:3], *two[:3], *two[3:], *one[3:]])  # P5, commits swapped
    one, two = put(0, 1, 10, 0), put(1, 1, 20, 1)
    yield encode([*one[:2], *two[:2], *one[2:], *two[2:]])  # P6
    one, two, three = (put(writer, 5, 10 + writer, 4) for writer in range(3))
    yield encode([*one, two[0], *three, *two[1:]])  # P7
    yield encode([*one, *two[:3], *three, *two[3:]])  # P7, 2 reads before 3
    yield encode([Step(0, Remove(9)), Step(0, Action.LOOK_UP)])  # P8
    yield encode([Step(WRITERS, Put(0, 0, 0)), Step(WRITERS, Put(32, 0, 0))])  # P9
    one, two = put(0, 1, 10, 1), put(0, 2, 20, 2)
    three, four = put(3, 1, 11, 1), put(4, 2, 21, 2)
    overtaken = [*one, *two, three[0], *four]
    yield encode(overtaken)  # P10
    yield encode([*overtaken, *three[1:]])  # P10
    pair = [Step(0, Put(0, 0, 0)), Step(0, Action.GIVE_UP)]
    yield encode(pair * (MAX_TIMESTAMP + 1))


def remove_logs(mode: Mode) -> Iterator[bytes]:
    """A remove keeps the index entry, also for a put with an earlier timestamp."""
    first = operation_steps(0, Put(1, 10, 1), mode)
    early = operation_steps(1, Put(1, 11, 2), mode)
    remove = operation_steps(2, Remove(1), mode)
    again = operation_steps(3, Put(1, 12, 3), mode)
    yield encode([*first, *remove, *again])
    yield encode([*first, early[0], *remove, *early[1:]])
    yield encode([early[0], *first, *remove, *early[1:]])
    yield encode([*first, *remove, *remove, *again[:-1]])


def lock_logs() -> Iterator[bytes]:
    """The lock is freed by a commit, by giving up and by a failed check."""
    one = operation_steps(0, Put(1, 10, 1))
    two = operation_steps(1, Put(2, 20, 2))
    conflicting = operation_steps(1, Put(2, 19, 1))
    give_up = [Step(0, Action.GIVE_UP)]
    for held, freed in (
        (one[:5], one[5:]),
        (one[:5], give_up),
        (one[:6], give_up),
        ([*one[:3], *conflicting, *one[3:5]], one[5:]),
    ):
        yield encode([*held, *two[:5], *freed, *two[4:]])


def withdrawn_logs() -> Iterator[bytes]:
    """An index entry that an operation made is taken out again where it ends without
    commit, and another group may have the key; an older entry stays (Q-4).
    """

    def given_up(writer: int) -> Step:
        return Step(writer, Action.GIVE_UP)

    made = operation_steps(0, Put(1, 10, 0))
    other = operation_steps(1, Put(2, 20, 0))
    proposing = operation_steps(2, Put(1, 11, 1))
    remove = operation_steps(3, Remove(1))
    yield encode([*made[:3], *other, *made[3:6], *proposing])  # 5
    for taken in range(1, len(made)):
        yield encode([*made[:taken], given_up(0), *proposing])
        yield encode([*made, *proposing[:taken], given_up(2), *remove])
    yield encode([*made, *proposing[:3], *remove, *proposing[3:6], *other])  # 5
    # A remove, and a put, that looked up an entry which is then taken out.
    for later in (remove, proposing):
        for taken in range(2, 5):
            waiting = [*made[:5], *later[:taken]]
            yield encode([*waiting, given_up(0), *later[taken:], *other])
            yield encode([*waiting, given_up(0), *later[taken:5], *other[:5]])
        waiting = [*made[:5], *later[:4], given_up(0), *other[:5]]
        yield encode([*waiting, later[4], *other[5:], *later[4:], *later])


def refusal_logs(mode: Mode) -> Iterator[bytes]:
    """The first refusal that applies is given: 10, 12, 13, 18, 14, 15, then 16 or,
    in the pessimistic mode, 19.
    """
    starts = [
        Step(writer, operation)
        for writer in (0, 1, WRITERS, 2**32, MAX_NUMBER)
        for operation in (
            Put(32, 5, 8),
            Put(31, 5, 8),
            Put(2**32, 5, 7),
            Put(31, 5, 2**32),
            Put(MAX_NUMBER, 5, 7),
            Put(32, ERASED_WORD, 7),
            Put(31, ERASED_WORD, 8),
            Put(31, ERASED_WORD, 7),
            Remove(32),
            Remove(MAX_NUMBER),
        )
    ]
    actions = [Step(writer, action) for writer in (1, 2, WRITERS) for action in Action]
    locked = operation_steps(0, Put(1, 10, 1), mode)[:5]
    if mode is Mode.OPTIMISTIC:
        waiting = operation_steps(1, Put(2, 20, 2))[:5]
    else:
        waiting = operation_steps(1, Put(2, 20, 1))[:3]
    issued = [Step(2, Remove(31)), Step(2, Action.GIVE_UP)] * MAX_TIMESTAMP
    last = [
        Step(2, Put(31, ERASED_WORD, 7)),
        Step(0, Put(31, 5, 7)),
        Step(2, Put(31, 5, 7)),
        Step(2, Remove(31)),
    ]
    yield encode([*starts, *actions])
    yield encode([*locked, *starts, *actions, *last])
    yield encode([*locked, *waiting, *starts, *actions, *last])
    yield encode([*locked, *waiting, *issued, *starts, *actions, *last])


def erased_logs(mode: Mode) -> Iterator[bytes]:
    """A put of the erased word is refused at its start and changes nothing, whatever
    its writer has in progress; the value below it is put, and the largest of 32 bits.
    """
    erased, below, narrow = (
        operation_steps(0, Put(1, value, 1), mode)
        for value in (ERASED_WORD, ERASED_WORD - 1, 2**32 - 1)
    )
    yield encode([*erased, *below, *erased])
    yield encode([*erased, *narrow, *erased])
    for taken in range(1, len(below)):
        yield encode([*below[:taken], erased[0], *below[taken:]])


def walk_logs(draw: Draw, mode: Mode) -> Iterator[bytes]:
    """Walks of 50 to 800 steps by four, eight and all sixteen writers."""
    for profile in PROFILES:
        for length, writers in ((50, 4), (150, 8), (800, WRITERS)):
            walking = replace(profile, writers=writers)
            yield encode(walk(draw, walking, length, Table(mode=mode)))


def exhausting_logs(draw: Draw, mode: Mode) -> Iterator[bytes]:
    """Walks that use up the timestamps, and 40 steps more."""

    def exhausted(table: Table) -> bool:
        return table.last_timestamp == MAX_TIMESTAMP

    for profile in (ALL_KEYS, SHORT_LIVED, REMOVES, NEW_KEYS, DISORDER, WILD):
        table = Table(mode=mode)
        steps = list(walk(draw, profile, 4000, table, exhausted))
        require(exhausted(table), "timestamps left")
        yield encode([*steps, *walk(draw, profile, 40, table)])


def prefix_logs(draw: Draw, mode: Mode) -> Iterator[bytes]:
    """One walk, ended after ever more of its steps."""
    profile = replace(ALL_KEYS, keys=range(6))
    steps = list(walk(draw, profile, 240, Table(mode=mode)))
    for length in range(30, 241, 30):
        yield encode(steps[:length])


def stop_logs(draw: Draw) -> Iterator[bytes]:
    """Each stop in each number of a record, behind some good records."""
    numbers = (300, 1, 16_384, MAX_NUMBER, 128)
    record = [encode_number(number) for number in numbers]
    whole = b"".join(record)
    good = [
        encode(walk(draw, ALL_KEYS, 10 + draw.below(20), Table())) for _ in range(5)
    ]

    for length in range(1, len(whole)):
        yield good[0] + whole[:length]

    def damaged(place: int, number: str) -> bytes:
        behind = b"".join(record[place + 1 :])
        return good[place] + b"".join(record[:place]) + bytes.fromhex(number) + behind

    longer = ("80 00", "FF 00", "80 80 00", "81 80 80 00", "80 " * 9 + "00")
    large = ("FF " * 9 + "02", "80 " * 10 + "00", "FF " * 10 + "01", "FF " * 9 + "7F")
    fifth_byte = ("FF FF FF FF 10", "FF FF FF FF 7F", "FF FF FF FF FF 0F")
    for place in range(len(record)):
        yield damaged(place, longer[place])
        yield damaged(place, longer[place - 2])
        yield damaged(place, large[place % len(large)])
        yield damaged(place, fifth_byte[place % len(fifth_byte)])
    for number in ("00", "0A", "FF FF FF FF 0F", "83 00", "81 80 00", "83 80 80 80 10"):
        yield damaged(1, number)
    yield damaged(1, "83 " + "80 " * 8 + "02")
    longest = encode_step(LONGEST)
    yield good[1] + longest
    yield good[1] + longest[:-1]
    # The first fault in reading order counts, and the kind before its numbers.
    yield good[1] + bytes.fromhex("00 00")
    yield good[1] + bytes.fromhex("00 0A 80 00")
    yield good[1] + bytes.fromhex("80 00 00")
    yield good[1] + bytes.fromhex("FF " * 9)
    yield good[1] + bytes.fromhex("FF " * 9 + "80")
    yield good[1] + bytes.fromhex("05 01 " + "80 " * 9)
    yield good[1] + bytes.fromhex("05 02")
    yield bytes.fromhex("80")
    yield bytes.fromhex("00")
    yield bytes.fromhex("00 00")


def noise_logs(draw: Draw) -> Iterator[bytes]:
    """Random bytes, and random small bytes, which go on for longer."""
    for bound in (256, 256, 140, 64, 10, 10):
        yield bytes(draw.below(bound) for _ in range(100 + draw.below(300)))


def damaged_logs(draw: Draw) -> Iterator[bytes]:
    """Walks with a byte changed, inserted or removed, or cut anywhere."""
    for damage in ("change", "insert", "remove", "cut") * 4:
        profile = draw.among(PROFILES)
        log = encode(walk(draw, profile, 150 + draw.below(100), Table()))
        place = len(log) // 4 + draw.below(3 * len(log) // 4)
        head, tail = log[:place], log[place:]
        match damage:
            case "change":
                yield head + bytes([tail[0] ^ 1 << draw.below(8)]) + tail[1:]
            case "insert":
                yield head + bytes([draw.below(256)]) + tail
            case "remove":
                yield head + tail[1:]
            case "cut":
                yield head


def size_logs(draw: Draw) -> Iterator[bytes]:
    """Logs of 32,768 bytes, one with as many records as fit, and a longer one."""
    actions = list(Action)
    shortest = (
        Step(draw.below(WRITERS), draw.among(actions)) for _ in range(MAX_INPUT // 2)
    )
    yield encode(shortest)
    log = encode(walk(draw, ALL_KEYS, 800, Table()))
    longest = encode_step(LONGEST)
    log += longest * ((MAX_INPUT - 10 - len(log)) // len(longest))
    if len(log) % 2 == 1:
        log += encode_step(Step(0, Remove(32)))
    log += encode_step(Step(0, Action.GIVE_UP)) * ((MAX_INPUT - len(log)) // 2)
    yield log
    yield log + b"\x00"


def pessimistic_put(writer: int, key: int, value: int, group: int) -> list[Step]:
    return operation_steps(writer, Put(key, value, group), Mode.PESSIMISTIC)


def waiting_logs() -> Iterator[bytes]:
    """P5, P6, P7 and P10 in a pessimistic table: a read waits for its group's lock, and
    goes on when it is free.
    """
    put = pessimistic_put
    one, two = put(0, 0, 10, 0), put(1, 1, 20, 0)
    yield encode([*one[:3], *two[:3], *one[3:], *two[2:]])  # P5
    yield encode([*one[:2], *two[:3], *one[2:], *two[3:], *one[2:]])  # 1 reads first
    for taken in range(3, len(one)):
        yield encode([*one[:taken], *two, *one[taken:], *two[2:]])
    one, two = put(0, 1, 10, 0), put(1, 1, 20, 1)
    yield encode([*one[:2], *two[:2], *one[2:], *two[2:]])  # P6
    yield encode([*one[:4], *two[:4], one[4], two[4], *one[5:], *two])
    one, two, three = (put(writer, 5, 10 + writer, 4) for writer in range(3))
    yield encode([*one, two[0], *three, *two[1:], *two])  # P7
    yield encode([*one, *two[:3], *three[:3], *two[3:], *three[2:]])
    yield encode([*one, *three[:3], *two[:3], *three[3:], *two[2:]])
    one, two = put(0, 1, 10, 1), put(0, 2, 20, 2)
    three, four = put(3, 1, 11, 1), put(4, 2, 21, 2)
    yield encode([*one, *two, three[0], *four, *three[1:]])  # P10


def check_logs() -> Iterator[bytes]:
    """A check step is refused at every phase of a pessimistic table."""
    steps = pessimistic_put(0, 1, 10, 1)
    refused, end = Step(0, Action.CHECK), Step(0, Action.GIVE_UP)
    yield encode([refused, *(each for step in steps for each in (step, refused))])
    for taken in range(1, len(steps)):
        yield encode([*steps[:taken], refused, end, refused, *steps])


def group_lock_logs() -> Iterator[bytes]:
    """A group's lock is freed by a commit and by every end, and by nothing else."""
    put = pessimistic_put
    one, two, apart = put(0, 1, 10, 1), put(1, 2, 20, 1), put(2, 3, 30, 2)
    give_up = [Step(0, Action.GIVE_UP)]
    for taken in range(3, len(one)):
        for freed in (one[taken:], give_up):
            yield encode([*one[:taken], *two[:3], *apart, *freed, *two[2:]])
    # Too late: the lock is free at once.
    yield encode([one[0], *two, *one[1:3], *put(3, 4, 40, 1)])
    # The key belongs to another group.
    elsewhere = put(3, 1, 11, 2)
    yield encode([*elsewhere[:2], *one, *elsewhere[2:5], *apart])
    # A remove whose key is no longer indexed.
    remove = operation_steps(3, Remove(1), Mode.PESSIMISTIC)
    yield encode([*one[:5], *remove[:3], *give_up, *remove[2:4], *two, remove[4], *two])
    # Writer 0 stalls behind its read: nobody else reads in its group, others commit.
    stalled = [*one[:3], *two[:3]]
    for value in range(30, 35):
        stalled += [*put(2, 3, value, 2), two[2]]
    yield encode([*stalled, *one[3:], *two[2:]])
    yield encode([*stalled, *give_up, *two[2:]])
    # Each group's lock has its own holder, and one more writer waits for each.
    holders = [put(group, group, 10 + group, group) for group in range(GROUPS)]
    waiting = [
        put(GROUPS + group, GROUPS + group, 20 + group, group)
        for group in range(GROUPS)
    ]
    begun = [step for steps in (*holders, *waiting) for step in steps[:3]]
    freed = [
        step
        for held, waits in zip(holders, waiting)
        for step in (*held[3:], *(other[2] for other in waiting), *waits[3:])
    ]
    yield encode([*begun, *freed])
    yield encode([*begun, *freed[::-1], *freed])


def pessimistic_withdrawn_logs() -> Iterator[bytes]:
    """An index entry that an operation made is taken out again where it gives up, and
    another group may have the key; an older entry stays (Q-4).
    """

    def given_up(writer: int) -> Step:
        return Step(writer, Action.GIVE_UP)

    def steps_of(writer: int, operation: Put | Remove) -> list[Step]:
        return operation_steps(writer, operation, Mode.PESSIMISTIC)

    made, other = steps_of(0, Put(1, 10, 0)), steps_of(1, Put(2, 20, 0))
    proposing, remove = steps_of(2, Put(1, 11, 1)), steps_of(3, Remove(1))
    for taken in range(1, len(made)):
        yield encode([*made[:taken], given_up(0), *proposing])
        yield encode([*made, *proposing[:taken], given_up(2), *remove])
        yield encode([*made, *remove[:taken], given_up(3), *proposing])
    # A remove, and a put, that looked up an entry which is then taken out.
    for later in (remove, proposing):
        waiting = [*made[:5], *later[:3]]
        yield encode([*waiting, given_up(0), *later[2:], *other])
        yield encode([*waiting, given_up(0), *later[2:4], *other, *later[4:], *other])
        yield encode([*waiting, given_up(0), *steps_of(4, Put(1, 12, 5)), *later[2:]])
    # One key, two groups: both have written when the first one enters the key.
    for taken in range(2, 5):
        both = [*made[:4], *proposing[:taken]]
        yield encode([*both, made[4], *proposing[taken:5], made[5], *proposing])
        yield encode([*both, made[4], given_up(0), *proposing[taken:], *made])


def crowded_logs(draw: Draw) -> Iterator[bytes]:
    """Sixteen writers in turn, on few groups and keys."""
    for keys, groups, starts_per_key in (
        (range(2), (5,), 0),
        (range(3), (0, 7), 0),
        (range(4), range(3), 0),
        (range(KEYS), range(4), 4),
        (range(KEYS), range(GROUPS), 8),
    ):
        for stall in (0.1, 0.5, 1.0):
            profile = Profile(
                keys,
                groups,
                same_writer=0.1,
                stall=stall,
                starts_per_key=starts_per_key,
            )
            yield encode(walk(draw, profile, 500, Table(mode=Mode.PESSIMISTIC)))


def pessimistic_stop_logs(draw: Draw) -> Iterator[bytes]:
    """Each stop but 24 behind some good records."""
    for damage in ("00", "00 01 01", "80 00 03", "FF " * 9 + "02", "00 0A", "00 00"):
        steps = walk(draw, ALL_KEYS, 30 + draw.below(30), Table(mode=Mode.PESSIMISTIC))
        yield encode(steps) + bytes.fromhex(damage)


Family = tuple[str, Iterator[bytes]]


def shared_families(draw: Draw, mode: Mode) -> Iterator[Family]:
    """Families of either mode that are drawn."""
    title = "random walks by four, eight and sixteen writers"
    yield title, walk_logs(draw, mode)
    yield "random walks that use up the timestamps", exhausting_logs(draw, mode)
    yield "one random walk, ended at ever later steps", prefix_logs(draw, mode)


def optimistic_families() -> Iterator[Family]:
    draw, mode = Draw(SEED), Mode.OPTIMISTIC
    yield "document 01's example, empty log, one record, P5 to P10", trace_logs()
    yield "puts after removes", remove_logs(mode)
    yield "the lock freed", lock_logs()
    yield "index entries taken out again", withdrawn_logs()
    yield "refusals", refusal_logs(mode)
    yield "puts of the erased word", erased_logs(mode)
    yield from shared_families(draw, mode)
    yield "each stop but 24", stop_logs(draw)
    yield "noise", noise_logs(draw)
    yield "random walks damaged by a byte, or cut", damaged_logs(draw)
    yield "32,768 bytes, and 32,769", size_logs(draw)


def pessimistic_families() -> Iterator[Family]:
    draw, mode = Draw(SEED), Mode.PESSIMISTIC
    yield "the bytes of the optimistic logs 0 to 13, with check steps", trace_logs()
    yield "P5, P6, P7 and P10, without check steps", waiting_logs()
    yield "check steps at each phase", check_logs()
    yield "puts after removes", remove_logs(mode)
    yield "locks per group: held, freed, stalled", group_lock_logs()
    yield "index entries taken out again", pessimistic_withdrawn_logs()
    yield "refusals", refusal_logs(mode)
    yield "puts of the erased word", erased_logs(mode)
    yield from shared_families(draw, mode)
    yield "sixteen writers in turn, on few groups and keys", crowded_logs(draw)
    yield "each stop but 24", pessimistic_stop_logs(draw)


FAMILIES = {
    Mode.OPTIMISTIC: optimistic_families,
    Mode.PESSIMISTIC: pessimistic_families,
}


# --- The papers' claims ------------------------------------------------------


# Answers that never come in a table of the mode.
NEVER = {
    Mode.OPTIMISTIC: (Answer.GROUP_LOCK_HELD,),
    Mode.PESSIMISTIC: (Answer.GROUP_CHANGED, Answer.LOCK_HELD),
}


def require(claim: bool, message: str) -> None:
    if not claim:
        raise AssertionError(message)


class Checked:
    """A table and its history, held to demand 3, Q-3, Q-4 and Q-9 while steps are
    taken.
    """

    def __init__(self, mode: Mode) -> None:
        self.table = Table(mode=mode)
        self.history = History()
        self.answers: list[Answer] = []
        self.stable: dict[int, list[Row]] = {}
        self.stored: dict[int, dict[int, int]] = {}

    def step(self, step: Step, timestamps: Sequence[int]) -> None:
        """Take a step and check the listings at these timestamps."""
        answer = self.table.step(step)
        self.answers.append(answer)
        self.history.record(step, answer, self.table)
        if step.action is Action.WRITE and answer == Answer.TAKEN:
            writer = self.table.writers[step.writer]
            rows = self.table.slices[writer.group, writer.timestamp]
            self.stored[writer.timestamp] = dict(rows)
        if answer < Answer.NO_SUCH_WRITER:
            for timestamp in timestamps:
                self.check_rows(timestamp)
            self.note_stable()
            self.check_index()
            self.check_locks()
        require(answer not in NEVER[self.table.mode], f"answer {answer:d}")
        if answer == Answer.COMMITTED:
            self.check_groups()

    def check_rows(self, timestamp: int) -> None:
        """The listing is the history's, a stable one is what it was, and no value is
        the erased word; below the horizon there is none (Q-13).
        """
        if timestamp < self.table.horizon:
            refused = self.table.scan(timestamp, []) == (Answer.BELOW_HORIZON, 0)
            require(refused, f"listed below the horizon: {timestamp}")
            return
        rows = self.table.snapshot(timestamp)
        require(rows == self.history.rows(timestamp), f"rows at {timestamp}")
        require(rows == self.stable.get(timestamp, rows), f"stability at {timestamp}")
        require(all(row.value != ERASED_WORD for row in rows), f"erased at {timestamp}")

    def note_stable(self) -> None:
        first = max(1, self.table.horizon)
        for timestamp in range(first, self.history.last_timestamp + 1):
            if timestamp not in self.stable and self.history.is_stable(timestamp):
                self.stable[timestamp] = self.table.snapshot(timestamp)

    def check_index(self) -> None:
        """Every entry is bound by a committed put on its key, or by a put in progress
        that made it, and a committed key has its group's.
        """
        committed = self.history.committed.values()
        puts = [done.operation for done in committed] + [
            operation
            for writer, (_, operation) in self.history.open.items()
            if self.table.writers[writer].made
        ]
        bound = {put.key for put in puts if isinstance(put, Put)}
        require(self.table.index.keys() <= bound, "an entry bound by no operation")
        for operation, group in committed:
            require(self.table.index.get(operation.key) == group, "a committed entry")

    def check_locks(self) -> None:
        """An optimistic writer holds the table lock from its index step on; each
        pessimistic one past its read step has a group of its own, and its lock.
        """
        table = self.table
        numbered = list(enumerate(table.writers))
        if table.mode is Mode.OPTIMISTIC:
            past = [number for number, writer in numbered if writer.phase > Phase.INDEX]
            held = [] if table.lock is None else [table.lock]
            require(past == held, "table lock")
            require(table.group_locks == {}, "a group's lock")
            return
        past = [
            (writer.group, number)
            for number, writer in numbered
            if writer.phase > Phase.READ
        ]
        require(len(past) == len({group for group, _ in past}), "two in a group")
        require(table.group_locks == dict(past), "locks of the groups")
        require(table.lock is None, "table lock")
        require(all(writer.phase != Phase.CHECK for _, writer in numbered), "phase 5")

    def check_groups(self) -> None:
        """No key stands in the committed slices of two groups, as they were stored."""
        group_of: dict[int, int] = {}
        for timestamp, (_, group) in self.history.committed.items():
            for key in self.stored[timestamp]:
                require(group_of.setdefault(key, group) == group, f"two groups: {key}")

    def check_everywhere(self) -> None:
        """Check the listing at every timestamp, and the scan with its room."""
        for timestamp in (*range(self.history.last_timestamp + 2), 2**64 - 1):
            self.check_rows(timestamp)
            if timestamp < self.table.horizon:
                continue
            rows = self.history.rows(timestamp)
            numbers = [number for row in rows for number in row]
            buffer = [0] * len(numbers)
            result = self.table.scan(timestamp, buffer)
            require(result == (Answer.TAKEN, len(rows)), f"row count at {timestamp}")
            require(buffer == numbers, f"scan at {timestamp}")

    def check_extension(self, draw: Draw) -> None:
        """Check a copy on which random steps follow."""
        extension = copy.deepcopy(self)
        profile = draw.among(PROFILES)
        for step in walk(draw, profile, 60, copy.deepcopy(self.table)):
            extension.step(step, [])
        extension.check_everywhere()


def check(log: bytes, mode: Mode, draw: Draw) -> tuple[list[Answer], Stop]:
    """Run a log against the claims; return its answers and stop."""
    run = Checked(mode)
    steps, stop, place = read_log(log)
    extend = 6 / (1 + len(log))
    for step in steps:
        last = run.history.last_timestamp
        run.step(step, [0, draw.below(last + 1), last, last + 1, last + 2])
        if draw.chance(extend):
            run.check_extension(draw)
    run.check_everywhere()
    require(encode(steps) == log[:place], "coded again")
    return run.answers, stop


# --- The files ---------------------------------------------------------------

ANSWERS = {
    Answer.TAKEN: "step taken",
    Answer.COMMITTED: "committed",
    Answer.KEY_NOT_INDEXED: "key not indexed",
    Answer.TOO_LATE: "too late for the group",
    Answer.KEY_IN_OTHER_GROUP: "key belongs to another group",
    Answer.GROUP_CHANGED: "group changed since the read",
    Answer.GAVE_UP: "gave up",
    Answer.NO_SUCH_WRITER: "no such writer",
    Answer.NO_SUCH_KEY: "no such key",
    Answer.NO_SUCH_GROUP: "no such group",
    Answer.PHASE_DOES_NOT_FIT: "phase doesn't fit",
    Answer.TIMESTAMPS_USED_UP: f"{MAX_TIMESTAMP} timestamps issued",
    Answer.LOCK_HELD: "lock held by another",
    Answer.OUT_OF_RANGE: "table value out of range",
    Answer.VALUE_ERASED: "value is the erased word",
    Answer.GROUP_LOCK_HELD: "group's lock held by another",
}
STOPS = {
    Stop.USED_UP: "input used up",
    Stop.CUT_SHORT: "record cut short",
    Stop.LONGER_THAN_NEEDED: "number longer than needed",
    Stop.TOO_LARGE: "number too large",
    Stop.NO_SUCH_KIND: "kind not 1 to 9",
    Stop.NO_PLACE: "no place for the next answer",
}
IMPOSSIBLE = {
    Answer.OUT_OF_RANGE: "cannot occur: the program's table starts fresh",
    Stop.NO_PLACE: "cannot occur: the program's buffer has room for every answer",
}
TOO_LONG = "too long"


def histogram_rows(
    meanings: dict[int, str], counts: Counter, impossible: dict[int, str]
) -> Iterator[str]:
    """Table rows; fails if a number is missing, or an impossible one is there."""
    for number, meaning in meanings.items():
        occurs = counts[number] > 0
        require(occurs != (number in impossible), f"{number!r}: {counts[number]}")
        count = impossible.get(number, counts[number])
        yield f"| {number:d} | {meaning} | {count} |"


def main(mode: Mode, stdin: Path, stdout: Path, histogram: Path) -> None:
    draw = Draw(SEED + 1)
    never = dict.fromkeys(NEVER[mode], f"cannot occur: the table is {mode.value}")
    packed, printed = b"", ""
    answers, stops = Counter(), Counter()
    ranges = []
    number = 0
    for family, family_logs in FAMILIES[mode]():
        logs = list(family_logs)
        ranges.append(f"| {number} to {number + len(logs) - 1} | {family} |")
        for log in logs:
            text = program(log, mode)
            packed += struct.pack("<I", len(log)) + log
            printed += f"log {number}\n{text}"
            number += 1
            if len(log) > MAX_INPUT:
                stops[TOO_LONG] += 1
                continue
            log_answers, stop = check(log, mode, draw)
            lines = [*(f"{answer:d}" for answer in log_answers), f"stop {stop:d} at "]
            require(text.startswith("\n".join(lines)), f"text of log {number}")
            answers.update(log_answers)
            stops[stop] += 1
    too_long = f"| none | only `too long` is printed | {stops[TOO_LONG]} |"
    report = [
        "| Answer | Meaning | Count |",
        "|---|---|---|",
        *histogram_rows(ANSWERS, answers, IMPOSSIBLE | never),
        "",
        "| Stop | Meaning | Count |",
        "|---|---|---|",
        *histogram_rows(STOPS, stops, IMPOSSIBLE),
        *([too_long] if stops[TOO_LONG] else []),
        "",
        "| Logs | What they are |",
        "|---|---|",
        *ranges,
    ]
    stdin.write_bytes(packed)
    stdout.write_text(printed, encoding="ascii", newline="\n")
    histogram.write_text("\n".join(report) + "\n", encoding="ascii", newline="\n")


if __name__ == "__main__":
    if len(sys.argv) != 5:
        sys.exit(__doc__)
    main(Mode(sys.argv[1]), *map(Path, sys.argv[2:]))
