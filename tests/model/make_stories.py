#!/usr/bin/env python3
"""Write what the programs stories, calls, encoding, lists, reading, tables,
cleaned_tables, candidate_tables, out_of_range and searches have to print.

    python3 tests/model/make_stories.py CRATES

CRATES is the folder of the crates: each program's file ``stdout`` there is
written anew, always the same. Stories, logs and tables are built here a
second time, from steps and from the model's own tables, and nothing is taken
from the programs.
"""

from __future__ import annotations

import copy
import itertools
import sys
from collections.abc import Callable, Iterator, Sequence
from dataclasses import replace
from pathlib import Path

from make_candidates import candidates_line, numbers_lines
from make_corpus import LONGEST, operation_steps
from table_model import (
    ERASED_WORD,
    GROUPS,
    KEYS,
    MAX_NUMBER,
    MAX_TIMESTAMP,
    WRITERS,
    Action,
    Answer,
    Instant,
    Malformed,
    Mode,
    Operation,
    Phase,
    Put,
    Remove,
    State,
    Step,
    Stop,
    Table,
    Writer,
    conflict_search,
    encode,
    encode_number,
    encode_step,
    latest_completed,
    read_record,
    run_log,
    run_steps,
    write_log,
)

LOOK_UP, READ, WRITE, INDEX, CHECK, COMMIT, GIVE_UP = Action
EXAMPLE = bytes.fromhex("00 01 01 AC 02 02 00 03 00 04 00 05 00 06 00 07 00 08")
NEVER_ISSUED = 2**64 - 1

# A story's pieces: a label, and steps or the bytes of a log.
Piece = tuple[str, Sequence[Step] | bytes]


# --- Steps -------------------------------------------------------------------


def steps(writer: int, first: Action, last: Action) -> list[Step]:
    """A writer's steps from one to another."""
    return [Step(writer, action) for action in Action if first <= action <= last]


def step(writer: int, action: Operation | Action) -> list[Step]:
    return [Step(writer, action)]


def through(writer: int, operation: Operation, last: Action) -> list[Step]:
    """A writer's steps from the operation's start to one."""
    return step(writer, operation) + steps(writer, LOOK_UP, last)


def whole(writer: int, operation: Operation) -> list[Step]:
    """All steps of an operation that commits."""
    return through(writer, operation, COMMIT)


def to_commit(writer: int, first: Action) -> list[Step]:
    """A pessimistic writer's steps from one to its commit, without a check."""
    return steps(writer, first, INDEX) + step(writer, COMMIT)


def committing(writer: int, operation: Operation) -> list[Step]:
    """All steps of an operation that commits in a pessimistic table."""
    return step(writer, operation) + to_commit(writer, LOOK_UP)


def log_of(piece: Sequence[Step] | bytes) -> bytes:
    return piece if isinstance(piece, bytes) else encode(piece)


# --- Printing ----------------------------------------------------------------


def numbers(label: str, values: Sequence[int]) -> str:
    return " ".join([label, *map(str, values)])


def listed(values: Sequence[int]) -> str:
    """Numbers, with a comma behind each row of three but the last."""
    rows = [values[at : at + 3] for at in range(0, len(values), 3)]
    return ",".join("".join(f" {number}" for number in row) for row in rows)


def ran(
    table: Table, label: str, log: bytes, places: list[int]
) -> tuple[list[str], int]:
    """A run's answers and stop, and its offset. The places are filled."""
    run = run_log(table, log, len(places))
    places[: len(run.answers)] = run.answers
    lines = [numbers(f"{label}:", [int(answer) for answer in run.answers])]
    return [*lines, f"stop {run.stop:d} at {run.offset}"], run.offset


def scan_line(table: Table, at: int) -> str:
    buffer = [0] * (3 * KEYS)
    answer, count = table.scan(at, buffer)
    if answer != Answer.TAKEN:
        return f"at {at}: refused with {answer:d}"
    return f"at {at}:{listed(buffer[: 3 * count]) or ' no rows'}"


def scan_into(table: Table, at: int, room: int) -> str:
    buffer = [9] * room
    answer, count = table.scan(at, buffer)
    return f"room for {room}: answer {answer:d}, {count} rows:{listed(buffer)}"


def instant_line(table: Table, at: int) -> str:
    instant = table.instant(at)
    if isinstance(instant, Answer):
        return f"instant {at}: refused with {instant:d}"
    group = "" if instant.group is None else f" in group {instant.group}"
    return f"instant {at}: {instant.state.value}{group}"


def point_line(table: Table, at: int, key: int) -> str:
    found = table.point_read(key, at)
    if found is None:
        text = "absent"
    elif isinstance(found, Answer):
        text = f"refused with {found:d}"
    else:
        text = f"{found.value} in group {found.group}"
    return f"key {key} at {at}: {text}"


def clean_line(table: Table, at: int) -> str:
    """A clean's answer; the table is cleaned."""
    return f"clean at {at}: {table.clean(at):d}"


def written(label: str, answer: int, count: int, buffer: bytes) -> str:
    """What a writer of bytes gave, and its whole buffer."""
    stored = "".join(f" {byte:02x}" for byte in buffer)
    return f"{label}: answer {answer:d}, {count} bytes:{stored}"


def played(table: Table, first: int, last: int, *pieces: Piece) -> Iterator[str]:
    """A script on a table: the program runs it as logs and step by step, with
    the same results. After each piece come the rows and the instants from one
    timestamp to another.
    """
    for once in (True, False):
        here = copy.deepcopy(table)
        for label, piece in pieces:
            yield from ran(here, label, log_of(piece), [0] * (2 * MAX_TIMESTAMP))[0]
            for at in range(first, last + 1):
                yield scan_line(here, at)
                yield instant_line(here, at)
        if once:
            yield "-- step by step"


def story(
    title: str, first: int, last: int, *pieces: Piece, mode: Mode = Mode.OPTIMISTIC
) -> Iterator[str]:
    """A script from a fresh table on."""
    yield f"== {title}"
    yield from played(Table(mode=mode), first, last, *pieces)


# --- The program stories -----------------------------------------------------


def examples() -> Iterator[str]:
    """Source 002's examples."""
    a, b, c, x, y = 10, 11, 12, 20, 21
    for title, second in (
        ("Case 2: two keys in one file group", Put(2, x, 1)),
        ("Case 2: one key", Put(1, b, 1)),
    ):
        yield from story(
            title, 1, 2,
            (
                "both have read",
                through(1, Put(1, a, 1), READ) + through(2, second, READ),
            ),
            ("writer 1 commits", steps(1, WRITE, COMMIT)),
            ("writer 2's check fails", steps(2, WRITE, CHECK)),
        )
    both = [Step(1, Put(1, a, 1)), Step(2, Put(2, x, 1))]
    both += [Step(w, action) for action in (LOOK_UP, READ, WRITE) for w in (1, 2)]
    for title, first, second in (
        ("Case 1's order", 1, 2),
        ("Case 1's order, commits swapped", 2, 1),
    ):
        yield from story(
            title, 1, 2,
            ("both have written", both),
            (f"writer {first} commits", steps(first, INDEX, COMMIT)),
            (f"writer {second} ends", steps(second, INDEX, COMMIT)),
        )
    put_1, put_2 = Put(1, a, 1), Put(1, a, 2)
    looked_up = through(1, put_1, LOOK_UP) + through(2, put_2, LOOK_UP)
    yield from story(
        "Case 3's order: one key, two file groups", 1, 2,
        ("both have looked up", looked_up),
        ("writer 1 commits", steps(1, READ, COMMIT)),
        ("writer 2's index step fails", steps(2, READ, INDEX)),
    )
    yield from story(
        "Case 3's order, lock held", 1, 2,
        ("writer 1 holds the lock", looked_up + steps(1, READ, INDEX)),
        ("writer 2 waits", steps(2, READ, INDEX)),
        ("writer 1 commits", steps(1, CHECK, COMMIT)),
        ("writer 2's index step fails", step(2, INDEX)),
    )
    started = step(2, Put(1, b, 1)) + step(3, Put(1, c, 1))
    yield from story(
        "Out of order, one key", 1, 3,
        ("operation 1 is complete", whole(1, Put(1, a, 1))),
        ("2 and 3 have timestamps", started),
        ("operation 3 is complete", steps(3, LOOK_UP, COMMIT)),
        ("operation 2 is too late", steps(2, LOOK_UP, READ)),
    )
    yield from story(
        "Out of order, one key, the other interleaving", 1, 3,
        ("operation 1 is complete", whole(1, Put(1, a, 1))),
        ("operation 2 has read", started + steps(2, LOOK_UP, READ)),
        ("operation 3 is complete", steps(3, LOOK_UP, COMMIT)),
        ("operation 2's check fails", steps(2, WRITE, CHECK)),
    )
    yield from story(
        "Out of order, two keys in two file groups", 1, 4,
        ("before any step", []),
        ("operation 1 is complete", whole(1, Put(1, a, 1))),
        ("operation 2 is complete", whole(2, Put(2, x, 2))),
        ("3 and 4 have timestamps", step(3, Put(1, b, 1)) + step(4, Put(2, y, 2))),
        ("operation 4 is complete", steps(4, LOOK_UP, COMMIT)),
        ("operation 3 is complete", steps(3, LOOK_UP, COMMIT)),
    )


def traces() -> Iterator[str]:
    """Document 01's traces, its rules on refusals, ends, removes and stops, and the
    refusal of the erased word.
    """
    yield from story(
        "P5", 1, 3,
        (
            "both have read",
            through(0, Put(0, 10, 0), READ) + through(1, Put(1, 11, 0), READ),
        ),
        ("writer 0 commits", steps(0, WRITE, COMMIT)),
        ("writer 1's check", steps(1, WRITE, CHECK)),
        ("writer 2 finds the lock free", whole(2, Put(2, 20, 1))),
    )
    yield from story(
        "P6", 1, 3,
        (
            "both have looked up",
            [
                Step(0, Put(1, 10, 0)),
                Step(1, Put(1, 11, 1)),
                Step(0, LOOK_UP),
                Step(1, LOOK_UP),
            ],
        ),
        ("writer 0 commits", steps(0, READ, COMMIT)),
        ("writer 1's index step", steps(1, READ, INDEX)),
        ("writer 2 finds the lock free", whole(2, Put(2, 20, 1))),
    )
    yield from story(
        "P7", 1, 3,
        ("three have started", [Step(w, Put(1, 10 + w, 3)) for w in range(3)]),
        ("timestamp 1 commits", steps(0, LOOK_UP, COMMIT)),
        ("timestamp 3 commits", steps(2, LOOK_UP, COMMIT)),
        ("timestamp 2 reads", steps(1, LOOK_UP, READ)),
    )
    yield from story("P8", 1, 1, ("remove", through(0, Remove(5), LOOK_UP)))
    starts = step(WRITERS, Put(1, 10, 1)) + step(WRITERS, Put(32, 10, 1))
    low_bytes = step(2**8, Put(1, 10, 1)) + step(0, Put(2**8, 10, 1))
    low_bytes += step(0, Remove(2**16)) + step(0, Put(1, 10, 2**8))
    low_bytes += step(2**32, Put(1, 10, 1)) + step(0, Put(2**32, 10, 1))
    low_bytes += step(0, Remove(2**32)) + step(0, Put(1, 10, 2**32))
    yield from story(
        "P9", 0, 1,
        (f"writer {WRITERS}", starts),
        ("numbers whose lowest byte is in range", low_bytes),
        (f"writer {WRITERS - 1} commits", whole(WRITERS - 1, Put(1, 10, 1))),
    )
    yield from story(
        "The order of the refusals", 1, 2,
        (
            "two have begun",
            through(0, Put(1, 10, 1), WRITE) + through(1, Put(2, 20, 2), INDEX),
        ),
        (
            "10, then 12 and 13",
            [
                Step(WRITERS + 1, Put(40, 1, 9)),
                Step(0, Put(40, 1, 9)),
                Step(0, Put(1, 1, 9)),
                Step(0, Remove(32)),
            ],
        ),
        (
            "14, not 16",
            [
                Step(0, Put(1, 1, 1)),
                Step(0, CHECK),
                Step(0, COMMIT),
                Step(1, INDEX),
                Step(2, INDEX),
            ],
        ),
        ("16", step(0, INDEX)),
        (
            "writer 1 gives up, writer 0 commits",
            step(1, GIVE_UP) + steps(0, INDEX, COMMIT),
        ),
    )
    erased, in_progress = Put(1, ERASED_WORD, 1), whole(1, Put(2, 20, 1))
    yield from story(
        "The erased word", 1, 3,
        ("by a ready writer", step(0, erased) + step(0, LOOK_UP)),
        (
            "13, 12 and 10 before 18",
            [
                Step(0, erased._replace(group=8)),
                Step(0, erased._replace(key=32)),
                Step(WRITERS, erased),
            ],
        ),
        ("the value below it", whole(0, erased._replace(value=ERASED_WORD - 1))),
        ("the largest of 32 bits", whole(0, Put(3, 2**32 - 1, 2))),
        (
            "at each phase",
            sum(([taken, Step(1, erased)] for taken in in_progress), []),
        ),
    )
    put = Put(1, 10, 1)
    aborted = [[Step(0, put), Step(0, GIVE_UP)]]
    for last in (LOOK_UP, READ, WRITE, INDEX, CHECK):
        aborted.append(through(0, put, last) + step(0, GIVE_UP))
    yield from story(
        "Giving up", 1, 7,
        ("at phase 0", step(0, GIVE_UP)),
        ("at phases 1 to 4", sum(aborted[:4], [])),
        ("at phases 5 and 6", sum(aborted[4:], [])),
        ("key 1 is in no group", whole(1, Put(1, 11, 2))),
    )
    yield from story(
        "A remove, and a put after it", 1, 4,
        ("keys 1 and 2 are put", whole(0, Put(1, 10, 3)) + whole(0, Put(2, 20, 3))),
        ("key 1 is removed", whole(1, Remove(1))),
        ("key 1 is put again", whole(2, Put(1, 11, 5))),
    )
    zero, all_but_one = Put(0, 0, 0), MAX_TIMESTAMP - 1
    yield from story(
        "The largest number of starts", all_but_one, MAX_TIMESTAMP + 1,
        (f"{all_but_one} starts", [Step(0, Remove(0)), Step(0, GIVE_UP)] * all_but_one),
        (f"the {MAX_TIMESTAMP}th", step(0, zero)),
        (
            "another",
            [
                Step(1, zero),
                Step(1, Put(32, 0, 0)),
                Step(1, Put(0, 0, 8)),
                Step(1, Remove(0)),
                Step(0, zero),
                Step(1, GIVE_UP),
            ],
        ),
        (f"its end, the {MAX_TIMESTAMP + 1}th", [Step(0, GIVE_UP), Step(0, zero)]),
    )
    before = {writer: encode([Step(writer, Put(1, 10, 1))]) for writer in range(1, 5)}
    yield from story(
        "Stops of a run", 1, 1,
        ("empty log", b""),
        ("document 01's log", EXAMPLE),
        ("record cut short", before[1] + b"\x01"),
        ("number longer than needed", before[2] + b"\x02\x83\x00"),
        ("number too large", before[3] + b"\xff" * 9 + b"\x02"),
        ("no such kind", before[4] + b"\x04\x0a"),
    )


def entries() -> Iterator[str]:
    """Q-4: the index entry of an operation that ends without commit."""
    put = Put(1, 10, 0)
    yield from story(
        "A failed check gives the key back", 1, 3,
        ("both have read", through(0, put, READ) + through(1, Put(2, 20, 0), READ)),
        ("writer 1 commits", steps(1, WRITE, COMMIT)),
        ("writer 0's check fails", steps(0, WRITE, CHECK)),
        ("key 1 is put in group 1", whole(2, Put(1, 11, 1))),
    )
    again = Put(1, 11, 1)
    yield from story(
        "An entry that was there before", 5, 6,
        ("key 1 is put in group 0", whole(0, put)),
        ("writer 1 gives up at phase 5", through(1, again, INDEX) + step(1, GIVE_UP)),
        ("at phase 6", through(1, again, CHECK) + step(1, GIVE_UP)),
        (
            "its check fails",
            through(1, again, READ) + whole(0, Put(2, 20, 0)) + steps(1, WRITE, CHECK),
        ),
        ("key 1 is still in group 0", whole(2, Put(1, 12, 2))),
    )
    entered = ("writer 0 has entered key 1", through(0, put, INDEX))
    given_up = ("writer 0 gives up", step(0, GIVE_UP))
    yield from story(
        "A remove whose key is no longer indexed", 1, 4,
        entered,
        (
            "two wait for the lock",
            through(1, Remove(1), INDEX) + through(2, Put(2, 20, 0), INDEX),
        ),
        given_up,
        ("writer 2 takes the lock", step(2, INDEX)),
        ("the remove waits", step(1, INDEX)),
        ("writer 2 commits", steps(2, CHECK, COMMIT)),
        ("the remove ends", step(1, INDEX)),
        ("key 1 is put in group 5", whole(3, Put(1, 11, 5))),
        ("writer 1 is ready", step(1, Remove(1))),
    )
    yield from story(
        "A put keeps the group that it found", 1, 2,
        entered,
        ("writer 1 looks key 1 up", through(1, again, LOOK_UP)),
        given_up,
        ("writer 1 commits", steps(1, READ, COMMIT)),
    )


def pessimistic_story(
    title: str, first: int, last: int, *pieces: Piece
) -> Iterator[str]:
    mode = Mode.PESSIMISTIC
    yield from story(f"Locks per group: {title}", first, last, *pieces, mode=mode)


def locks_per_group() -> Iterator[str]:
    """Q-9: the pessimistic mode."""
    yield from pessimistic_story(
        "P5", 1, 2,
        ("writer 0 has read", through(0, Put(0, 10, 0), READ)),
        ("writer 1's read is refused", through(1, Put(1, 11, 0), READ)),
        ("writer 0 commits", to_commit(0, WRITE)),
        ("writer 1 reads, and commits", to_commit(1, READ)),
    )
    looked_up = [Step(0, Put(1, 10, 0)), Step(1, Put(1, 11, 1))]
    looked_up += [Step(0, LOOK_UP), Step(1, LOOK_UP)]
    yield from pessimistic_story(
        "P6", 1, 3,
        ("both have looked up", looked_up),
        ("writer 0 commits", to_commit(0, READ)),
        ("writer 1's index step", steps(1, READ, INDEX)),
        ("writer 2 finds the lock free", committing(2, Put(2, 20, 1))),
    )
    yield from pessimistic_story(
        "P7", 1, 4,
        ("three have started", [Step(w, Put(1, 10 + w, 3)) for w in range(3)]),
        ("timestamp 1 commits", to_commit(0, LOOK_UP)),
        ("timestamp 3 commits", to_commit(2, LOOK_UP)),
        ("timestamp 2 reads", steps(1, LOOK_UP, READ)),
        ("writer 3 finds the lock free", committing(3, Put(2, 20, 3))),
    )
    yield from pessimistic_story(
        "document 01's log", 1, 1,
        ("its check step is refused", EXAMPLE),
    )
    checked = step(0, CHECK)
    yield from pessimistic_story(
        "a check step at each phase", 1, 1,
        ("at phase 0", checked),
        *(
            (f"at phase {phase}", step(0, action) + checked)
            for phase, action in (
                (1, Put(1, 10, 1)),
                (2, LOOK_UP),
                (3, READ),
                (4, WRITE),
                (6, INDEX),
            )
        ),
        ("at phase 0 again", step(0, COMMIT) + checked),
    )
    put = Put(1, 10, 3)
    aborted = [[Step(0, put), Step(0, GIVE_UP)]]
    for last in (LOOK_UP, READ, WRITE, INDEX):
        aborted.append(through(0, put, last) + step(0, GIVE_UP))
    free = through(1, Put(2, 20, 3), READ) + step(1, GIVE_UP)
    yield from pessimistic_story(
        "giving up", 1, 7,
        ("at phases 1 and 2", sum(aborted[:2], [])),
        ("at phase 3", aborted[2] + free),
        ("at phase 4", aborted[3] + free),
        ("at phase 6", aborted[4] + free),
        ("key 1 is in no group", committing(2, Put(1, 11, 4))),
    )
    yield from pessimistic_story(
        "a writer that stalls", 1, 4,
        ("writer 0 has read", through(0, Put(1, 10, 3), READ)),
        ("writer 1 waits", through(1, Put(2, 20, 3), READ)),
        ("writer 2 commits in another group", committing(2, Put(3, 30, 4))),
        ("writer 1 waits still", step(1, READ)),
        ("writer 2 commits again", committing(2, Put(3, 31, 4))),
        ("writer 1 waits still", step(1, READ)),
        ("writer 0 commits", to_commit(0, WRITE)),
        ("writer 1 commits", to_commit(1, READ)),
    )
    yield from pessimistic_story(
        "the order of the refusals", 1, 3,
        ("writer 0 has looked up", through(0, Put(1, 10, 3), LOOK_UP)),
        ("writer 1 commits", committing(1, Put(2, 20, 3))),
        ("writer 2 has read", through(2, Put(3, 30, 3), READ)),
        ("10 and 14, not 19", [Step(WRITERS, READ), Step(1, READ), Step(2, READ)]),
        ("19, not 3", step(0, READ)),
        ("writer 2 gives up", step(2, GIVE_UP)),
        ("3", step(0, READ)),
    )
    yield from pessimistic_story(
        "index steps take no lock", 1, 2,
        (
            "both have written",
            through(0, Put(1, 10, 0), WRITE) + through(1, Put(2, 20, 1), WRITE),
        ),
        ("both have indexed", [Step(0, INDEX), Step(1, INDEX)]),
        ("both commit", [Step(1, COMMIT), Step(0, COMMIT)]),
    )
    yield from pessimistic_story(
        "one key, two file groups, both past their reads", 1, 2,
        (
            "both have written",
            through(0, Put(1, 10, 0), WRITE) + through(1, Put(1, 11, 1), WRITE),
        ),
        ("writer 1 has the key", [Step(1, INDEX), Step(0, INDEX)]),
        ("writer 1 commits", step(1, COMMIT)),
    )
    reading = [through(w, Put(w, 10 + w, w), READ) for w in range(GROUPS)]
    waiting = [through(15 - w, Put(15 - w, 20 + w, w), READ) for w in range(GROUPS)]
    yield from pessimistic_story(
        "a lock for each file group", 16, 16,
        ("writers 0 to 7 have read", sum(reading, [])),
        ("writers 15 to 8 wait", sum(waiting, [])),
        ("writer 3 commits", to_commit(3, WRITE)),
        ("writer 12 reads, and no other", [Step(w, READ) for w in range(15, 7, -1)]),
        ("writer 7 gives up", step(7, GIVE_UP)),
        ("writer 8 reads", step(8, READ)),
    )
    entered = ("writer 0 has entered key 1", through(0, Put(1, 10, 0), INDEX))
    given_up = ("writer 0 gives up", step(0, GIVE_UP))
    yield from pessimistic_story(
        "a remove whose key is no longer indexed", 1, 3,
        entered,
        ("the remove waits", through(1, Remove(1), READ)),
        given_up,
        ("the remove ends", steps(1, READ, INDEX)),
        ("key 2 is put in its group", committing(2, Put(2, 20, 0))),
    )
    yield from pessimistic_story(
        "a remove whose key has gone to another group", 1, 3,
        entered,
        ("the remove has looked up", through(1, Remove(1), LOOK_UP)),
        given_up,
        ("key 1 is put in group 5", committing(2, Put(1, 11, 5))),
        ("the remove ends", steps(1, READ, INDEX)),
    )
    yield from pessimistic_story(
        "an entry that was there before", 2, 3,
        ("key 1 is put in group 0", committing(0, Put(1, 10, 0))),
        ("writer 1 gives up", through(1, Put(1, 11, 1), INDEX) + step(1, GIVE_UP)),
        ("key 1 is still in group 0", committing(2, Put(1, 12, 2))),
    )


# --- The programs calls, encoding, lists and reading -------------------------


def calls() -> Iterator[str]:
    """What the calls answer, and the limits."""
    yield "== Limits"
    for name, limit in (
        ("writers", WRITERS),
        ("keys", KEYS),
        ("groups", GROUPS),
        ("timestamps", MAX_TIMESTAMP),
        ("erased word", ERASED_WORD),
        ("last phase", max(Phase)),
        ("rows", MAX_TIMESTAMP * GROUPS * KEYS),
        ("noted", WRITERS * WRITERS),
    ):
        yield f"{name}: {limit:d}"

    table = Table()
    yield "== Point reads"
    puts = Put(1, 10, 1), Put(2, 20, 2), Put(1, 11, 1), Put(2, 2**32 + 21, 2)
    log = encode(sum((whole(writer, put) for writer, put in enumerate(puts, 1)), []))
    yield from ran(table, "two keys are put, and put again", log, [0] * 28)[0]
    for at, key in ((4, 1), (2, 1), (0, 1), (3, 2), (4, 2), (NEVER_ISSUED, 3)):
        yield point_line(table, at, key)
    for key in (32, 2**8 + 1, 2**16 + 1, 2**32 + 1, MAX_NUMBER):
        yield point_line(table, 4, key)

    last = MAX_TIMESTAMP
    timestamps = (*range(9), last, last + 1, 2**8 + 3, 2**32 + 3, NEVER_ISSUED)
    table = Table()
    yield "== Instants"
    yield from (instant_line(table, at) for at in timestamps)
    log = encode(
        through(1, Remove(1), LOOK_UP)
        + step(2, Put(1, 20, 5))
        + whole(3, Put(1, 30, 5))
        + steps(2, LOOK_UP, READ)
        + through(4, Put(4, 40, 7), READ) + step(4, GIVE_UP)
        + step(5, Put(5, 50, 0))
        + through(6, Put(6, 10, 0), LOOK_UP)
        + through(7, Put(7, 10, 0), READ)
    )
    yield from ran(table, "seven timestamps", log, [0] * 28)[0]
    yield from (instant_line(table, at) for at in timestamps)

    yield "== Room for two rows"
    for once in (True, False):
        table = Table()
        log = encode(whole(1, Put(1, 10, 1)) + whole(2, Put(2, 20, 2)))
        yield from ran(table, "two keys are put", log, [0] * 14)[0]
        for at, room in ((2, 0), (2, 5), (2, 6), (2, 8), (0, 2)):
            yield scan_into(table, at, room)
        if once:
            yield "-- step by step"

    for title, puts in (
        ("Reads and the horizon", whole),
        ("Reads and the horizon, pessimistic", committing),
    ):
        yield f"== {title}"
        mode = Mode.OPTIMISTIC if puts is whole else Mode.PESSIMISTIC
        yield from reads_and_horizon(Table(mode=mode), puts)

    yield "== No place for the next answer"
    for once in (True, False):
        table = Table()
        lines, offset = ran(table, "four places", EXAMPLE, [99] * 4)
        yield from lines
        places = [99] * 8
        yield from ran(table, "the rest", EXAMPLE[offset:], places)[0]
        yield numbers("all places:", [int(place) for place in places])
        if once:
            yield "-- step by step"


def reads_and_horizon(
    table: Table, all_steps: Callable[[int, Operation], list[Step]]
) -> Iterator[str]:
    """Reads below the horizon, at it and above it (Q-13)."""
    puts = Put(1, 10, 1), Put(2, 20, 2), Put(1, 11, 1), Put(2, 21, 2)
    put_twice = [all_steps(writer, put) for writer, put in enumerate(puts, 1)]
    log = encode(sum(put_twice, []))
    yield from ran(table, "two keys are put, and put again", log, [0] * 28)[0]
    yield clean_line(table, 3)
    for at, key in ((2, 1), (2, 32), (0, MAX_NUMBER), (3, 1), (3, 32)):
        yield point_line(table, at, key)
    for at in (2**8 + 2, 2**32 + 2, NEVER_ISSUED):
        yield point_line(table, at, 2)
    for at, room in ((2, 0), (2, 5), (2, 6), (3, 5), (3, 8)):
        yield scan_into(table, at, room)
    for at in (2**8 + 2, NEVER_ISSUED):
        yield scan_into(table, at, 6)
    yield from (instant_line(table, at) for at in range(4))


def encoding() -> Iterator[str]:
    """What the log writer and the number writer store."""
    yield "== The log writer"
    for place in (13, 12, 5, 4, 3):
        buffer = bytearray(b"\xff" * 12)
        answer, count = write_log(through(0, Put(1, 300, 2), LOOK_UP), buffer, place)
        yield written(f"place {place} of 12", answer, count, buffer)

    yield "== The number writer"
    five_bytes = [(number, room) for number in (2**32 - 1, 2**32) for room in (4, 5)]
    ten_bytes = [(MAX_NUMBER, room) for room in (9, 10, 11)]
    for number, room in ((0, 0), (0, 1), (300, 1), (300, 2), *five_bytes, *ten_bytes):
        buffer, code = bytearray(b"\xff" * room), encode_number(number)
        count = len(code) if len(code) <= room else 0
        buffer[:count] = code[:count]
        yield written(f"{number} into {room}", 0, count, buffer)


def ran_list(
    table: Table, label: str, listed_steps: Sequence[Step], room: int
) -> Iterator[str]:
    """A run over a list, with all its places, and the rows at the last timestamp."""
    run = run_steps(table, listed_steps, room)
    answers = [int(answer) for answer in run.answers]
    yield numbers(f"{label}:", answers)
    yield numbers("all places:", answers + [255] * (room - len(answers)))
    yield f"stop {run.stop:d} at {run.offset}"
    yield scan_line(table, table.last_timestamp)


def lists() -> Iterator[str]:
    """Runs over a list of steps, each time two on one table."""
    refused = step(WRITERS, LOOK_UP) + step(1, Remove(KEYS))
    listed_steps = refused + whole(0, Put(1, 300, 2))
    for mode, mark in ((Mode.OPTIMISTIC, ""), (Mode.PESSIMISTIC, ", pessimistic")):
        for title, first, second in (
            ("A place for every answer", 9, 12),
            ("A place too few", 8, 9),
            ("No place", 0, 3),
        ):
            table = Table(mode=mode)
            yield f"== {title}{mark}"
            yield from ran_list(table, "run", listed_steps, first)
            yield from ran_list(table, "again", listed_steps, second)


def action_text(action: Operation | Action) -> str:
    """What a step does, in words, and an operation's numbers."""
    if isinstance(action, Action):
        return action.name.lower().replace("_", " ")
    return numbers("put" if isinstance(action, Put) else "remove", action)


def read_on(log: bytes, place: int) -> tuple[str, int]:
    """What a reader at a place gives, and its place then; at a stop it stays."""
    if place == len(log):
        return f"stop {Stop.USED_UP:d}", place
    try:
        (writer, action), behind = read_record(log, place)
    except Malformed as malformed:
        return f"stop {malformed.stop:d}", place
    return f"writer {writer} {action_text(action)}, next at {behind}", behind


def reading() -> Iterator[str]:
    """What a reader that is kept gives, asked five times."""
    look_up, put = step(0, LOOK_UP), Put(1, 300, 2)
    no_such_kind = encode_number(0) + encode_number(10)
    removed = step(7, Remove(99)) + step(0, GIVE_UP) + step(10, COMMIT)
    cut = encode(step(0, Put(99, 0, 0)))[:-2]
    longest = encode_step(LONGEST)
    for title, log in (
        (
            "A put, a look up, and a record of kind 10",
            encode(step(0, put) + look_up) + no_such_kind + encode(look_up),
        ),
        ("A remove, a give up and a commit, to the log's end", encode(removed)),
        ("A read, and a put that is cut short", encode(step(0, READ)) + cut),
        ("A writer longer than needed", b"\x80" + encode(look_up)),
        ("The longest record, and 40 bytes of another", longest + longest[:40]),
        ("No records", b""),
    ):
        yield f"== {title}"
        place = 0
        for _ in range(5):
            line, place = read_on(log, place)
            yield line
        yield f"reader at {place}"


# --- The programs tables and out_of_range ------------------------------------


def inflight(group: int) -> Instant:
    return Instant(State.INFLIGHT, group)


def completed(group: int) -> Instant:
    return Instant(State.COMPLETED, group)


def at_write(put: Put, timestamp: int, base: int) -> Writer:
    """A writer at its write step, in the group that it proposed."""
    return Writer(Phase.WRITE, put, timestamp, put.group, base)


def table_of(
    last: int,
    timeline: dict[int, Instant],
    writers: dict[int, Writer],
    slices: dict[tuple[int, int], dict[int, int]],
    index: dict[int, int] | None = None,
    **fields,
) -> Table:
    table = Table(last, timeline, slices, index or {}, **fields)
    for number, writer in writers.items():
        table.writers[number] = writer
    return table


def hand_set() -> Iterator[str]:
    """Tables in range that no steps lead to."""

    def alone(writer: int) -> list[Piece]:
        return [
            ("as it is", []),
            (f"writer {writer} writes", step(writer, WRITE)),
            ("indexes", step(writer, INDEX)),
            ("checks", step(writer, CHECK)),
            ("commits", step(writer, COMMIT)),
        ]

    yield "== A timestamp that is completed in another file group"
    table = table_of(
        1,
        {1: completed(0)},
        {1: at_write(Put(5, 55, 1), 1, 0)},
        {(0, 1): {0: 10}},
    )
    yield from played(table, 1, 1, *alone(1))

    yield "== A base of another file group"
    table = table_of(
        2,
        {1: completed(1), 2: inflight(0)},
        {0: at_write(Put(2, 9, 0), 2, 1)},
        {(1, 1): {5: 7}},
        index={5: 1},
    )
    yield from played(table, 1, 2, *alone(0))

    yield "== One timestamp, two writers, two file groups"
    table = table_of(
        1,
        {1: inflight(0)},
        {0: at_write(Put(0, 10, 0), 1, 0), 1: at_write(Put(5, 55, 1), 1, 0)},
        {},
    )
    yield from played(
        table, 1, 2,
        ("as it is", []),
        ("writer 0 writes", step(0, WRITE)),
        ("writer 1 writes", step(1, WRITE)),
        ("writer 0 indexes", step(0, INDEX)),
        ("writer 1 waits", step(1, INDEX)),
        ("writer 0 checks", step(0, CHECK)),
        ("writer 0 commits", step(0, COMMIT)),
        ("writer 1 indexes", step(1, INDEX)),
        ("writer 1 checks", step(1, CHECK)),
        ("writer 1 commits", step(1, COMMIT)),
    )

    yield "== One key in two file groups, and a base with no slice"
    table = table_of(
        4,
        {1: completed(6), 2: completed(5), 3: completed(5), 4: inflight(5)},
        {0: at_write(Put(2, 20, 5), 4, 3)},
        {(6, 1): {1: 10}, (5, 2): {1: 99}},
    )
    yield from played(
        table, 1, 4,
        ("as it is", []),
        ("writer 0 commits", steps(0, WRITE, COMMIT)),
    )
    yield from (point_line(table, at, 1) for at in (1, 2, 3))
    yield from (scan_into(table, 2, room) for room in (3, 6))

    yield "== A lock whose holder has no operation"
    table = table_of(
        3,
        {1: completed(4), 2: inflight(4), 3: inflight(6)},
        {
            0: Writer(Phase.COMMIT, Put(1, 11, 4), 2, 4, 1),
            1: Writer(Phase.CHECK, Remove(2), 3, 4, 1),
        },
        {(4, 1): {1: 10}, (4, 2): {1: 11}},
        lock=2,
    )
    put = Put(7, 70, 4)
    yield from played(
        table, 1, 6,
        ("as it is", []),
        ("writer 0 commits", step(0, COMMIT)),
        ("writer 1's check fails", step(1, CHECK)),
        ("writer 3 is at its index step", through(3, put, INDEX)),
        ("writer 3 gives up", step(3, GIVE_UP)),
        ("the holder is not refused", through(2, Put(8, 80, 4), INDEX)),
        ("it gives up", step(2, GIVE_UP)),
        ("the lock is free", whole(3, put)),
    )

    yield from locks_set_by_hand()

    yield "== Numbers that no steps give"
    table = table_of(
        5,
        {1: completed(2), 2: completed(3)},
        {
            0: Writer(Phase.READ, Put(4, 41, 2), 1, 2, 5),
            1: Writer(Phase.INDEX, Remove(9), 4, 2, 0),
            3: Writer(Phase.WRITE, Put(8, 80, 2), 4, 2, 5),
            WRITERS - 1: Writer(Phase.READY, Put(31, 7, 7), 5, 7, 5),
        },
        {(2, 1): {4: 40}, (3, 2): {6: 60}, (2, 4): {9: 90}},
    )
    yield from played(
        table, 1, 7,
        ("as it is", []),
        ("writer 0 reads", step(0, READ)),
        ("writer 0 commits", steps(0, WRITE, COMMIT)),
        ("writer 1's key is not indexed", step(1, INDEX)),
        ("writer 3 commits", steps(3, WRITE, COMMIT)),
        ("key 9 is in no group", through(2, Put(9, 91, 3), READ)),
        (f"writer {WRITERS - 1} starts anew", whole(WRITERS - 1, Put(30, 70, 6))),
    )

    yield "== Writers that are said to have made an entry"
    table = table_of(
        9,
        {5: completed(0)},
        {
            0: Writer(Phase.LOOK_UP, Put(1, 11, 0), 1, made=True),
            1: Writer(Phase.LOOK_UP, Put(2, 21, 0), 2, made=True),
            2: Writer(Phase.READ, Put(3, 31, 0), 3, 0, made=True),
            3: Writer(Phase.INDEX, Put(4, 41, 4), 4, 4, made=True),
            4: Writer(Phase.CHECK, Remove(5), 6, 0, made=True),
            5: Writer(Phase.INDEX, Put(6, 61, 3), 7, 3, made=True),
            6: Writer(Phase.COMMIT, Put(7, 71, 3), 8, 3, made=True),
            7: Writer(Phase.READY, Put(8, 81, 3), 9, 3, made=True),
        },
        {(3, 8): {7: 71}},
        index={1: 7, 2: 6, 3: 0, 4: 5, 5: 0, 6: 3, 7: 3, 8: 3},
    )
    anew = through(7, Put(8, 82, 1), LOOK_UP)
    puts = [whole(WRITERS - 1, Put(key, 100 + key, 1)) for key in range(1, 9)]
    yield from played(
        table, 20, 20,
        ("writer 0 gives up", step(0, GIVE_UP)),
        ("writer 1 gives up at phase 4", steps(1, LOOK_UP, WRITE) + step(1, GIVE_UP)),
        ("writer 2 is too late", step(2, READ)),
        ("writer 3's key is another group's", step(3, INDEX)),
        ("writer 4's check fails", step(4, CHECK)),
        ("writer 5 finds its entry, and gives up", [Step(5, INDEX), Step(5, GIVE_UP)]),
        ("writer 6 commits", step(6, COMMIT)),
        ("writer 7 starts anew, and gives up", anew + step(7, GIVE_UP)),
        ("keys 1 to 8 are put in group 1, or where they are", sum(puts, [])),
    )


def stored_line(table: Table, values: dict[tuple[int, int, int], int]) -> str:
    """The rows that a table was set with, each its group, timestamp, key and value; a
    dropped one is absent, and keeps its value.
    """
    line = "rows:"
    for timestamp, group, key in sorted(values):
        value = values[timestamp, group, key]
        shown = key in table.slices.get((group, timestamp), {})
        line += f" {group} {timestamp} {key} {value}{'' if shown else ' absent'},"
    return line


def cleaned(table: Table, *timestamps: int) -> Iterator[str]:
    """Cleans of a table, and the rows that it was set with after each."""
    values = {
        (timestamp, group, key): value
        for (group, timestamp), rows in table.slices.items()
        for key, value in rows.items()
    }
    for at in timestamps:
        yield clean_line(table, at)
        yield stored_line(table, values)


def clean_story(
    title: str,
    table: Table,
    timestamps: Sequence[int],
    first: int,
    last: int,
    *pieces: Piece,
) -> Iterator[str]:
    """Cleans of a table, and a script on what they leave."""
    yield f"== {title}"
    yield from cleaned(table, *timestamps)
    yield from played(table, first, last, *pieces)


AS_IT_IS = ("as it is", [])


def cleaned_by_hand() -> Iterator[str]:
    """Q-13 on tables in range that no steps lead to."""
    in_0, in_1, in_3, in_7 = map(completed, (0, 1, 3, 7))
    yield from clean_story(
        "A dropped slice and the rows beside it",
        table_of(
            5,
            {1: in_7, 2: in_3, 3: in_3, 4: inflight(3)},
            {},
            {
                (3, 1): {5: 10},
                (7, 1): {31: 11},
                (2, 2): {0: 20, 31: 21},
                (3, 2): {0: 22, 15: 23, 31: 24},
                (4, 2): {0: 25, 31: 26},
                (0, 3): {0: 30},
                (3, 3): {1: 31},
                (3, 4): {2: 40},
            },
        ),
        (1, 2, 3, 5), 2, 5, AS_IT_IS,
    )
    full = MAX_TIMESTAMP
    yield from clean_story(
        "The first slice and the last",
        table_of(
            full,
            {1: in_0, 2: in_0, full - 1: in_7, full: in_7},
            {},
            {
                (0, 1): {0: 10, 31: 11},
                (0, 2): {0: 12},
                (7, full - 1): {0: 13, 31: 14},
                (7, full): {0: 15, 31: 16},
            },
            mode=Mode.PESSIMISTIC,
        ),
        (0, 1, 2, full - 1, full, full + 1), full - 1, full + 1, AS_IT_IS,
    )
    yield from clean_story(
        "A completed instant without a slice",
        table_of(
            3,
            {1: in_3, 2: in_3, 3: inflight(3)},
            {0: at_write(Put(2, 20, 3), 3, 2)},
            {(3, 1): {1: 10}},
        ),
        (1, 2, 3), 2, 3,
        AS_IT_IS,
        ("writer 0 commits", steps(0, WRITE, COMMIT)),
    )
    yield from clean_story(
        "A horizon that no clean has set",
        table_of(
            4,
            dict.fromkeys(range(1, 5), in_3),
            {},
            {(3, timestamp): {1: 9 + timestamp} for timestamp in range(1, 5)},
            horizon=3,
        ),
        (2, 5, 3), 1, 5,
        AS_IT_IS,
        ("key 1 is put", whole(0, Put(1, 14, 3))),
    )
    yield from clean_story(
        "A base of another file group",
        table_of(
            5,
            {1: in_1, 2: in_0, 3: in_1, 4: in_0, 5: inflight(0)},
            {0: at_write(Put(5, 50, 0), 5, 1)},
            {(1, 1): {1: 10}, (0, 2): {2: 20}, (1, 3): {1: 11}, (0, 4): {2: 21}},
        ),
        (2, 3, 4, 5, 2), 2, 5,
        ("writer 0 ends", steps(0, WRITE, CHECK)),
    )
    requested = Instant(State.REQUESTED)
    for base in range(8):
        table = table_of(
            7,
            {1: in_3, 2: in_3, 3: inflight(3), 4: requested, 6: in_3},
            {2: Writer(Phase.WRITE, Remove(1), 7, 3, base)},
            {(3, timestamp): {1: 9 + timestamp} for timestamp in range(2, 7)},
        )
        yield "== The base of writer 2"
        yield f"base {base}"
        yield from cleaned(table, 1, 2, 5, 6, 7)
    for mode in Mode:
        for number in (0, WRITERS - 1):
            suffix = ", pessimistic" if mode is Mode.PESSIMISTIC else ""
            yield f"== The base of writer {number}{suffix}"
            for phase in Phase:
                yield f"phase {phase:d}"
                writer = Writer(phase, Put(2, 20, 3), 3, 3, 1)
                slices = {(3, 1): {1: 10}, (3, 2): {1: 11}}
                timeline = {1: in_3, 2: in_3}
                table = table_of(3, timeline, {number: writer}, slices, mode=mode)
                yield from cleaned(table, 1, 2)


def with_locks(table: Table, locks: Sequence[int | None]) -> Table:
    """The table with these holders of the engine's eight locks: the first is the table
    lock of an optimistic table; else they are those of the groups.
    """
    held = {place: holder for place, holder in enumerate(locks) if holder is not None}
    lock = held.pop(0, None) if table.mode is Mode.OPTIMISTIC else None
    return replace(table, lock=lock, group_locks=held)


def locks_line(table: Table) -> str:
    """The engine's eight locks, each 0 or the number of its holder plus 1."""
    held = dict(table.group_locks)
    if table.mode is Mode.OPTIMISTIC and table.lock is not None:
        held[0] = table.lock
    return numbers("locks:", [held.get(place, -1) + 1 for place in range(GROUPS)])


def locks_set_by_hand() -> Iterator[str]:
    """Locks that no steps give."""
    yield "== A writer that holds two locks"
    table = table_of(
        3,
        {1: inflight(2)},
        {
            0: Writer(Phase.COMMIT, Put(1, 11, 2), 1, 2),
            1: Writer(Phase.READ, Put(2, 20, 2), 2, 2),
            2: Writer(Phase.READ, Put(3, 30, 5), 3, 5),
        },
        {(2, 1): {1: 11}},
        group_locks={2: 0, 5: 0},
        mode=Mode.PESSIMISTIC,
    )
    yield from played(
        table, 1, 3,
        ("writers 1 and 2 wait", [Step(1, READ), Step(2, READ)]),
        ("writer 0 commits", step(0, COMMIT)),
        ("both locks are free", [Step(1, READ), Step(2, READ)]),
        ("both commit", to_commit(1, WRITE) + to_commit(2, WRITE)),
    )

    yield "== A pessimistic writer at phase 5"
    table = table_of(
        2,
        {1: inflight(2), 2: Instant(State.REQUESTED)},
        {
            0: Writer(Phase.CHECK, Put(1, 11, 2), 1, 2),
            1: Writer(Phase.READ, Put(2, 20, 2), 2, 2),
        },
        {(2, 1): {1: 11}},
        group_locks={2: 0},
        mode=Mode.PESSIMISTIC,
    )
    yield from played(
        table, 1, 2,
        ("its check and its commit are refused", [Step(0, CHECK), Step(0, COMMIT)]),
        ("writer 1 waits", step(1, READ)),
        ("writer 0 gives up", step(0, GIVE_UP)),
        ("writer 1 commits", to_commit(1, READ)),
    )

    yield "== Pessimistic writers and locks that no steps give"
    table = table_of(
        4,
        {2: completed(4)},
        {
            0: Writer(Phase.READ, Put(1, 11, 2), 3, 2),
            1: Writer(Phase.INDEX, Put(2, 21, 3), 4, 3),
            2: Writer(Phase.READ, Put(3, 31, 4), 1, 4),
        },
        {(4, 2): {8: 80}, (3, 4): {2: 21}},
        group_locks={2: 0, 3: 7, 4: 7},
        mode=Mode.PESSIMISTIC,
    )
    yield from played(
        table, 2, 4,
        ("writer 0 holds its lock already", step(0, READ)),
        ("writer 1's lock is another's", [Step(1, INDEX), Step(1, COMMIT)]),
        ("writer 2 is too late, and waits", step(2, READ)),
        ("the holder starts, and gives up", [Step(7, Remove(9)), Step(7, GIVE_UP)]),
        ("writer 2 is too late", step(2, READ)),
        ("writer 0 commits", to_commit(0, WRITE)),
    )

    put, remove = Put(1, 11, 4), Remove(9)
    endings = (
        ("commit", COMMIT, Writer(Phase.COMMIT, put, 1, 4)),
        ("give up", GIVE_UP, Writer(Phase.WRITE, put, 1, 4)),
        ("remove's look up", LOOK_UP, Writer(Phase.LOOK_UP, remove, 1, 4)),
        ("remove's index step", INDEX, Writer(Phase.INDEX, remove, 1, 4)),
        ("read", READ, Writer(Phase.READ, put, 1, 4)),
        ("index step", INDEX, Writer(Phase.INDEX, Put(5, 50, 4), 1, 4)),
        ("check", CHECK, Writer(Phase.CHECK, put, 1, 4)),
    )
    put = Put(1, 11, 5)
    going_on = (
        ("start", put, Writer()),
        ("look up", LOOK_UP, Writer(Phase.LOOK_UP, put, 1, 5)),
        ("read", READ, Writer(Phase.READ, put, 1, 5)),
        ("write", WRITE, Writer(Phase.WRITE, put, 1, 5)),
        ("index step", INDEX, Writer(Phase.INDEX, put, 1, 5)),
        ("check", CHECK, Writer(Phase.CHECK, put, 1, 5)),
    )
    for mode in Mode:
        for title, locks, steps in (
            ("an ending: {}, the even locks are the writer's", [3, 7] * 4, endings),
            ("an ending: {}, the odd locks are the writer's", [7, 3] * 4, endings),
            ("an ending: {}, all locks are the writer's", [3] * 8, endings),
            ("a step that goes on: {}", [3, *[None] * 5, 7, 3], going_on),
        ):
            yield f"== Locks of {title.format(mode.value)}"
            for label, action, writer in steps:
                timeline = {2: completed(4)}
                table = table_of(2, timeline, {3: writer}, {}, {5: 6}, mode=mode)
                for _ in ("as a log", "by advance"):
                    here = with_locks(copy.deepcopy(table), locks)
                    yield from ran(here, label, encode(step(3, action)), [0])[0]
                    yield locks_line(here)


# --- The program candidate_tables --------------------------------------------


def looking(
    phase: int = Phase.WRITE, own: int = 5, last: int = 9, mode: Mode = Mode.OPTIMISTIC
) -> Table:
    """Timestamps 1, 2, 5, 6 and 9 are completed, 3 is inflight and 4 requested; writer
    3 is at a phase, with a timestamp.
    """
    timeline = {at: completed(at % GROUPS) for at in (1, 2, 5, 6, 9)}
    timeline |= {3: inflight(3), 4: Instant(State.REQUESTED)}
    writer = Writer(phase, Put(9, 90, 7), own, 7, 0)
    return table_of(last, timeline, {3: writer}, {}, mode=mode)


def chosen(label: str, table: Table, writer: int = 3) -> str:
    return f"{label}: {candidates_line(table, writer)}"


def chosen_by_hand() -> Iterator[str]:
    """The call of Q-12 on tables in range that no steps lead to."""
    yield "== Noted timestamps that no steps give"
    for label, noted in (
        ("none", {}),
        ("not completed", {0: 3, 1: 4, 2: 7}),
        ("twice", {4: 2, 15: 2}),
        ("its own", {3: 5}),
        ("above its own", {13: 9, 14: 6, 15: 1}),
        ("all of these", {0: 2, 1: 9, 2: 3, 3: 5, 4: 2, 5: 1, 14: 7, 15: 6}),
    ):
        table = looking()
        for place, timestamp in noted.items():
            table.noted[3][place] = timestamp
        yield chosen(label, table)
    table = looking()
    table.noted[2][15] = table.noted[4][0] = 1
    table.counts[4] = 128
    yield chosen("of other writers", table)

    yield "== Places and counts that no steps give"
    for label, places in (
        ("in order", {1: 1, 2: 2, 5: 3, 6: 4, 9: 5}),
        ("against the order", {1: 5, 2: 4, 5: 3, 6: 2, 9: 1}),
        ("equal", {1: 2, 2: 2, 5: 2, 6: 2, 9: 2}),
        ("0, and of instants that are not completed", {1: 2, 3: 9, 4: 9, 8: 9, 100: 9}),
        ("the largest", {1: 128, 9: 127}),
    ):
        yield f"-- {label}"
        for count in (0, 1, 2, 127, 128):
            table = looking()
            table.places, table.counts[3] = places, count
            yield chosen(f"count {count}", table)

    yield "== The ends of the timeline"
    timeline = {1: completed(0), 128: completed(7)}
    writer = Writer(Phase.WRITE, Put(9, 90, 7), 127, 7, 0)
    for label, places, noted in (
        ("not noted", {1: 128, 128: 1}, 0),
        ("noted", {}, 1),
        ("noted above its own", {1: 1}, 128),
    ):
        table = table_of(128, timeline, {3: writer}, {}, places=places)
        table.noted[3][15] = noted
        yield chosen(label, table)
    timeline = dict.fromkeys(range(1, 129), completed(0))
    writer = Writer(Phase.COMMIT, Put(9, 90, 7), 1, 7, 0)
    table = table_of(128, timeline, {3: writer}, {})
    yield chosen("all but its own", table)
    table.noted[3][0], table.places = 1, dict.fromkeys(range(1, 129), 1)
    yield chosen("all", table)
    table.counts[3] = 1
    yield chosen("all, and none", table)

    yield "== At each phase"
    for phase in range(Phase.COMMIT + 1):
        table = looking(phase)
        table.places, table.noted[3][0] = {1: 1}, 2
        yield chosen(f"phase {phase}", table)
        yield chosen("past the last writer", table, WRITERS)


def stepped(table: Table, label: str, *taken: Step) -> Iterator[str]:
    """Steps on a table, as a log and by advance, and the numbers of Q-12 then."""
    for _ in ("as a log", "by advance"):
        here = copy.deepcopy(table)
        yield from ran(here, label, encode(taken), [0] * 8)[0]
        yield from numbers_lines(here)


def starts_by_hand() -> Iterator[str]:
    """What starts record for Q-12 in such tables."""
    put = Put(1, 10, 1)
    yield "== Starts beside a ready writer that holds a timestamp"
    table = looking(Phase.READY)
    table.writers[0] = Writer(Phase.LOOK_UP, put, 4, 1)
    table.writers[15] = Writer(Phase.COMMIT, put, 9, 1)
    table.counts[3], table.noted[3][2], table.noted[3][3] = 9, 8, 8
    table.places = {1: 1, 4: 128}
    yield from stepped(table, "writer 2 starts", Step(2, put))
    yield from stepped(table, "the ready writer starts", Step(3, put))
    yield from stepped(table, "both start", Step(3, Remove(1)), Step(2, put))

    yield "== A start where all but one timestamp are completed"
    timeline = dict.fromkeys(range(1, 128), completed(7))
    yield from stepped(table_of(127, timeline, {}, {}), "start", Step(9, put))

    yield "== Two holders of one timestamp"
    table = looking()
    table.writers[4] = Writer(Phase.COMMIT, put, 5, 1)
    both = [Step(0, Remove(1)), Step(4, COMMIT)]
    yield from stepped(table, "a start, and a commit", *both)
    for taken in both:
        table.step(taken)
    for writer in (0, 3, 4):
        yield candidates_line(table, writer)


def ends_by_hand() -> Iterator[str]:
    """What commits and other endings record for Q-12 in such tables, and keep."""
    all_done = dict.fromkeys(range(1, 129), completed(2))
    for mode in Mode:
        yield f"== Commits: {mode.value}"
        for label, own, timeline in (
            ("its instant is inflight", 3, {}),
            ("it is requested", 4, {}),
            ("it is completed", 5, {}),
            ("there is none", 7, {}),
            ("all are completed", 1, all_done),
            ("all but the last are completed", 128, all_done | {128: inflight(2)}),
        ):
            table = looking(Phase.COMMIT, own, 128, mode)
            table.timeline |= timeline
            table.places = {2: 66, 100: 55} | {own: 77}
            table.counts[3], table.noted[3][9] = 4, 2
            yield from stepped(table, label, Step(3, COMMIT))

        yield f"== Numbers of others: {mode.value}"
        table = looking(Phase.LOOK_UP, mode=mode)
        table.places = {1: 9, 5: 8, 128: 7}
        table.counts = [6] * WRITERS
        table.noted = [[7] * WRITERS for _ in range(WRITERS)]
        walk = operation_steps(3, Put(9, 90, 7), mode)[1:]
        yield from stepped(table, "it gives up", Step(3, GIVE_UP))
        yield from stepped(table, "it commits", *walk)
        yield from stepped(table, "it goes on", *walk[:-1])
        yield from stepped(table, "refused", Step(3, Remove(1)), Step(9, COMMIT))


def largest(last: int = MAX_TIMESTAMP) -> Table:
    """A table in range with every number at its largest."""
    group = GROUPS - 1
    put = Put(KEYS - 1, MAX_NUMBER, group)
    return Table(
        last,
        {timestamp: completed(group) for timestamp in range(1, last + 1)},
        {(group, MAX_TIMESTAMP): {KEYS - 1: MAX_NUMBER}},
        {key: group for key in range(KEYS)},
        WRITERS - 1,
        {place: WRITERS - 1 for place in range(1, GROUPS)},
        [Writer(Phase.COMMIT, put, last, group, last, True) for _ in range(WRITERS)],
        horizon=last,
        places=dict.fromkeys(range(1, MAX_TIMESTAMP + 1), MAX_TIMESTAMP),
        counts=[MAX_TIMESTAMP] * WRITERS,
        noted=[[last] * WRITERS for _ in range(WRITERS)],
    )


def tried(title: str, table: Table) -> Iterator[str]:
    """A step by a writer past the last, and the other calls; nothing changes."""
    yield f"== {title}"
    for label in ("run", "advance"):
        yield from ran(table, label, encode(step(WRITERS, LOOK_UP)), [99])[0]
    yield point_line(table, MAX_TIMESTAMP, KEYS)
    yield scan_into(table, MAX_TIMESTAMP, 4)
    yield scan_into(table, MAX_TIMESTAMP, 2)
    yield instant_line(table, MAX_TIMESTAMP)
    yield clean_line(table, MAX_TIMESTAMP + 1)
    for writer in (WRITERS, WRITERS - 1):
        yield f"candidates of {candidates_line(table, writer)}"


def recorded_grounds() -> Iterator[str]:
    """Answer 17 for the numbers of Q-12: the first and the last of each kind."""
    last, above = MAX_TIMESTAMP - 1, MAX_TIMESTAMP + 1
    ends = ("first", 0), ("last", -1)

    def place_off(timestamp: int, issued: int = MAX_TIMESTAMP) -> Table:
        table = largest(issued)
        table.places[timestamp] = above
        return table

    def count_off(writer: int) -> Table:
        table = largest()
        table.counts[writer] = above
        return table

    def noted_off(place: int, issued: int) -> Table:
        table = largest(issued)
        table.noted[place][place] = issued + 1
        return table

    yield from tried("17: place of the first timestamp", place_off(1))
    yield from tried("17: place of the last timestamp", place_off(MAX_TIMESTAMP))
    for name, writer in ends:
        yield from tried(f"17: count of the {name} writer", count_off(writer))
    for name, place in ends:
        title = f"17: {name} noted timestamp"
        yield from tried(title, noted_off(place, MAX_TIMESTAMP))
    for name, place in ends:
        title = f"17: {name} noted timestamp, one timestamp left"
        yield from tried(title, noted_off(place, last))
    title = "17: place of the last timestamp, one timestamp left"
    yield from tried(title, place_off(MAX_TIMESTAMP, last))
    for name, table in (
        ("place of the last timestamp", place_off(MAX_TIMESTAMP)),
        ("count of the last writer", count_off(-1)),
        ("last noted timestamp", noted_off(-1, MAX_TIMESTAMP)),
    ):
        pessimistic = with_locks(table, [WRITERS - 1] * GROUPS)
        pessimistic = replace(pessimistic, mode=Mode.PESSIMISTIC)
        yield from tried(f"17: {name}, pessimistic", pessimistic)


def grounds() -> Iterator[str]:
    """Answer 17, ground by ground."""

    def changed(**fields) -> Table:
        return replace(largest(), **fields)

    def locked(mode: Mode, off: int | None) -> Table:
        """Every lock held by the last writer, but for one that names no writer."""
        places = range(GROUPS)
        locks = [WRITERS if place == off else WRITERS - 1 for place in places]
        return with_locks(changed(mode=mode), locks)

    def off(last: int = MAX_TIMESTAMP, **fields) -> Table:
        table = largest(last)
        table.writers[-1] = replace(table.writers[-1], **fields)
        return table

    put = Put(KEYS - 1, MAX_NUMBER, GROUPS - 1)
    group_8 = largest()
    group_8.timeline[MAX_TIMESTAMP] = completed(GROUPS)
    above = largest(MAX_TIMESTAMP - 1)
    above.timeline[MAX_TIMESTAMP] = Instant(State.REQUESTED)
    index = largest().index | {KEYS - 1: GROUPS}
    yield from tried("17: no ground", largest())
    above_all = MAX_TIMESTAMP + 1
    too_large = changed(last_timestamp=above_all, horizon=above_all)
    yield from tried("17: last timestamp", too_large)
    yield from tried("17: lock", locked(Mode.OPTIMISTIC, 0))
    yield from tried("17: index entry", changed(index=index))
    yield from tried("17: group of an instant", group_8)
    yield from tried("17: instant above the last timestamp", above)
    passed = replace(largest(MAX_TIMESTAMP - 1), horizon=MAX_TIMESTAMP)
    yield from tried("17: horizon", passed)
    passed = replace(locked(Mode.PESSIMISTIC, None), horizon=above_all)
    yield from tried("17: horizon, pessimistic", passed)
    for place in (3, 7):
        yield from tried(f"17: lock {place}", locked(Mode.OPTIMISTIC, place))
    yield from tried("17: no ground, pessimistic", locked(Mode.PESSIMISTIC, None))
    for place in (0, 3, 7):
        title = f"17: lock {place}, pessimistic"
        yield from tried(title, locked(Mode.PESSIMISTIC, place))
    yield from tried("17: phase", off(phase=7))
    key = {"operation": put._replace(key=KEYS)}
    group = {"operation": put._replace(group=GROUPS), "group": GROUPS}
    yield from tried("17: key", off(**key))
    yield from tried("17: group", off(**group))
    last = MAX_TIMESTAMP - 1
    yield from tried("17: no ground, one timestamp left", off(last))
    yield from tried("17: timestamp", off(last, timestamp=last + 1))
    yield from tried("17: base", off(last, base=last + 1))
    yield from tried("17: timestamp 0", off(timestamp=0))
    no_timestamp = off(phase=Phase.READY, timestamp=0)
    yield from tried("17: no ground, timestamp 0 at phase 0", no_timestamp)
    yield from tried("17: key at phase 0", off(phase=Phase.READY, **key))
    yield from tried("17: group at phase 0", off(phase=Phase.READY, **group))
    timestamp = off(last, phase=Phase.READY, timestamp=last + 1)
    yield from tried("17: timestamp at phase 0", timestamp)
    base = off(last, phase=Phase.READY, base=last + 1)
    yield from tried("17: base at phase 0", base)
    yield from recorded_grounds()

    yield "== Out of range"
    table = Table(MAX_TIMESTAMP + 1)
    places = [99] * 4
    yield from ran(table, "run", encode(through(0, Put(1, 10, 1), LOOK_UP)), places)[0]
    yield numbers("all places:", [int(place) for place in places])
    yield numbers("last timestamp:", [table.last_timestamp])
    table.last_timestamp = 0
    yield "== Back in range"
    yield from played(table, 1, 1, ("a put", whole(0, Put(1, 10, 1))))


# --- The program searches ----------------------------------------------------


def search_line(
    timeline: dict[int, Instant], group: int, base: int, last: int
) -> str:
    hit, looked_at = conflict_search(timeline, group, base, last)
    found = "no hit" if hit is None else f"hit {hit}"
    newest = latest_completed(timeline, group, last)
    return (
        f"group {group} from {last} down to {base}: "
        f"{found}, looked at {looked_at}; newest {newest}"
    )


def instant_number_line(timeline: dict[int, Instant], at: int) -> str:
    """The one number that the engine keeps an instant as."""
    state, group = timeline.get(at, Instant(State.NONE))
    match state:
        case State.NONE:
            number = 0
        case State.REQUESTED:
            number = 1
        case State.INFLIGHT:
            number = 2 + group
        case State.COMPLETED:
            number = 2 + GROUPS + group
    return f"instant {at}: {number}"


def timeline_of(*instants: Instant) -> dict[int, Instant]:
    return dict(enumerate(instants, 1))


def searches() -> Iterator[str]:
    """Searches of timelines that are set by hand."""
    none, requested = Instant(State.NONE), Instant(State.REQUESTED)
    timeline = timeline_of(
        completed(0),
        completed(1),
        requested,
        completed(1),
        completed(3),
        completed(1),
        completed(0),
        inflight(1),
    )
    yield "== Every base and last timestamp up to 9"
    for group, base, last in itertools.product(range(4), range(10), range(10)):
        yield search_line(timeline, group, base, last)
    yield "== Last timestamps and bases past the end"
    full = MAX_TIMESTAMP
    for group, base, last in (
        *((1, 5, 255), (1, 6, 255), (2, 0, 255), (0, 0, full), (1, full, full + 1)),
        *((1, 254, 255), (1, 255, 255), (1, 255, 0)),
    ):
        yield search_line(timeline, group, base, last)

    timeline = timeline_of(*[requested] * full)
    timeline |= dict.fromkeys((1, 9, full), completed(7))
    yield "== As many instants as a table has"
    for group, base, last in (
        *((7, 0, full), (7, 9, full), (7, 9, 255), (7, full, full)),
        *((7, 0, full - 1), (7, 9, full - 1), (7, 0, 8), (6, 0, full)),
    ):
        yield search_line(timeline, group, base, last)

    timeline = timeline_of(completed(245), none, inflight(7))
    yield "== File groups that do not exist"
    for group, base in ((244, 0), (245, 0), (245, 1), (246, 0), (255, 0)):
        yield search_line(timeline, group, base, 3)

    timeline = timeline_of(completed(7), requested, completed(245))
    yield "== The instants of a short timeline"
    for at in (0, 1, 2, 3, 4, 2**8 + 1, 2**32 + 1, NEVER_ISSUED):
        yield instant_number_line(timeline, at)

    yield "== An empty timeline"
    yield search_line({}, 0, 0, 3)
    yield search_line({}, 0, 2, 5)
    yield instant_number_line({}, 1)


PROGRAMS = {
    "stories": (examples, traces, entries, locks_per_group),
    "calls": (calls,),
    "encoding": (encoding,),
    "lists": (lists,),
    "reading": (reading,),
    "tables": (hand_set,),
    "cleaned_tables": (cleaned_by_hand,),
    "candidate_tables": (chosen_by_hand, starts_by_hand, ends_by_hand),
    "out_of_range": (grounds,),
    "searches": (searches,),
}


def main() -> None:
    crates = Path(sys.argv[1])
    for name, parts in PROGRAMS.items():
        lines = [line for part in parts for line in part()]
        (crates / name / "stdout").write_text("".join(f"{line}\n" for line in lines))


if __name__ == "__main__":
    main()
