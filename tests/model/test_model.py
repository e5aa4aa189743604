#!/usr/bin/env python3
"""Tests of the reference model against document 01's traces, source 002 and the
requests of document 02 that are built.

    python3 tests/model/test_model.py
"""

from __future__ import annotations

import copy
import itertools
import random
import unittest
from collections.abc import Sequence
from dataclasses import replace

from make_candidates import CheckedCandidates
from make_cleaning import CheckedCleans, Clean
from make_cleaning import walk as walk_with_cleans
from make_corpus import PROFILES, Draw, operation_steps, walk
from make_tables import (
    Item,
    Program,
    any_numbers,
    full_numbers,
    largest_at,
    leading_pairs,
    limit_of,
    name_of,
    out_of_range_numbers,
    random_numbers,
    varied,
    with_content,
    with_numbers,
)
from table_model import (
    ERASED_WORD,
    GROUPS,
    KEYS,
    MAX_INPUT,
    MAX_NUMBER,
    MAX_TIMESTAMP,
    OLD_CODING,
    WRITERS,
    Action,
    Answer,
    Candidates,
    Committed,
    History,
    Instant,
    InstantList,
    LogWrite,
    Malformed,
    Mode,
    Operation,
    Phase,
    Put,
    Remove,
    Row,
    Run,
    Search,
    State,
    Step,
    Stop,
    Table,
    Writer,
    coded_size,
    conflict_search,
    encode,
    encode_number,
    encode_step,
    program,
    read_log,
    read_number,
    read_record,
    run_log,
    run_steps,
    write_log,
)
from table_numbers import (
    PRESENT,
    ROWS,
    VALUES,
    Field,
    RowPlace,
    StoredRemove,
    field_place,
    instant_number,
    instant_of,
    numbers_of,
    table_of,
)

LOOK_UP, READ, WRITE, INDEX, CHECK, COMMIT, GIVE_UP = Action
EXAMPLE = bytes.fromhex("00 01 01 AC 02 02 00 03 00 04 00 05 00 06 00 07 00 08")
REQUESTED = Instant(State.REQUESTED)
NEVER_ISSUED = 2**64 - 1


def between(writer: int, first: Action, last: Action) -> list[Step]:
    """A writer's steps from one to another."""
    return [Step(writer, action) for action in Action if first <= action <= last]


def through(
    writer: int, last: Action, operation: Operation | None = None
) -> list[Step]:
    """A writer's steps up to one, from the operation's start or, without an
    operation, from the look up.
    """
    start = [] if operation is None else [Step(writer, operation)]
    return start + between(writer, LOOK_UP, last)


def whole(writer: int, operation: Operation) -> list[Step]:
    """All steps of an operation that commits."""
    return through(writer, COMMIT, operation)


class TableTest(unittest.TestCase):
    """A fresh table of a mode and the steps taken on it."""

    MODE = Mode.OPTIMISTIC

    def setUp(self) -> None:
        self.table = Table(mode=self.MODE)

    def take(self, *steps: Step) -> list[int]:
        return [int(self.table.step(step)) for step in steps]

    def assert_last(self, answer: int, steps: Sequence[Step]) -> None:
        """The last of the steps gets this answer, those before it 0 or 1."""
        *before, last = self.take(*steps)
        self.assertLessEqual(set(before), {Answer.TAKEN, Answer.COMMITTED})
        self.assertEqual(last, answer)

    def assert_rows(self, timestamp: int, *rows: tuple[int, int, int]) -> None:
        """The scan, in a buffer just large enough, lists exactly these rows."""
        buffer = [0] * (3 * len(rows))
        result = self.table.scan(timestamp, buffer)
        self.assertEqual(result, (Answer.TAKEN, len(rows)))
        self.assertEqual(buffer, [number for row in rows for number in row])


class TracesOfTheLog(unittest.TestCase):
    """Document 01's traces P1 to P4, with Q-8, the empty log and the example."""

    def test_p1_p2_p3(self) -> None:
        for number, coded in (
            (0, "00"),
            (127, "7F"),
            (128, "80 01"),
            (16_383, "FF 7F"),
            (16_384, "80 80 01"),
            (4_294_967_295, "FF FF FF FF 0F"),
            (4_294_967_296, "80 80 80 80 10"),
            (4_563_402_751, "FF FF FF FF 10"),
            (18_446_744_073_709_551_615, "FF FF FF FF FF FF FF FF FF 01"),
        ):
            with self.subTest(number=number):
                log = bytes.fromhex(coded)
                self.assertEqual(encode_number(number), log)
                self.assertEqual(read_number(log, 0), (number, len(log)))
                self.assertEqual(coded_size(number), len(log))

    def test_p4(self) -> None:
        for coded, stop in (("80 00", 21), ("FF " * 9 + "02", 22), ("80", 20)):
            with self.subTest(coded=coded), self.assertRaises(Malformed) as raised:
                read_number(bytes.fromhex(coded), 0)
            self.assertEqual(raised.exception.stop, stop)

    def test_empty_log(self) -> None:
        self.assertEqual(program(b""), "stop 0 at 0\n")

    def test_example(self) -> None:
        printed = "0\n0\n0\n0\n0\n0\n1\nstop 0 at 18\n1 300 2\n"
        self.assertEqual(program(EXAMPLE), printed)


class TracesOfTheTable(TableTest):
    """Document 01's traces P5 to P10, and those without a letter."""

    def test_p5(self) -> None:
        self.take(*through(0, READ, Put(0, 10, 0)), *through(1, READ, Put(1, 20, 0)))
        self.assert_last(1, between(0, WRITE, COMMIT))
        self.assert_last(5, between(1, WRITE, CHECK))
        self.assert_rows(2, (0, 10, 0))

    def test_p5_with_the_commits_swapped(self) -> None:
        self.take(*through(0, READ, Put(0, 10, 0)), *through(1, READ, Put(1, 20, 0)))
        self.assert_last(1, between(1, WRITE, COMMIT))
        self.assert_last(5, between(0, WRITE, CHECK))
        self.assert_rows(2, (1, 20, 0))

    def test_p6(self) -> None:
        self.take(*through(0, LOOK_UP, Put(1, 10, 0)))
        self.take(*through(1, LOOK_UP, Put(1, 20, 1)))
        self.assert_last(1, between(0, READ, COMMIT))
        self.assert_last(4, between(1, READ, INDEX))
        self.assert_rows(2, (1, 10, 0))
        self.assertIsNone(self.table.lock)

    def test_p7(self) -> None:
        self.assert_last(1, whole(0, Put(5, 10, 4)))
        self.take(Step(1, Put(5, 11, 4)))
        self.assert_last(1, whole(2, Put(5, 12, 4)))
        self.assert_last(3, through(1, READ))
        self.assertEqual(self.table.instant(2), REQUESTED)

    def test_p8(self) -> None:
        self.assert_last(2, [Step(0, Remove(9)), Step(0, LOOK_UP)])

    def test_p9(self) -> None:
        answers = self.take(Step(16, Put(0, 0, 0)), Step(16, Put(32, 0, 0)))
        self.assertEqual(answers, [10, 10])

    def test_p10(self) -> None:
        self.take(*whole(0, Put(1, 10, 1)), *whole(0, Put(2, 20, 2)))
        self.take(Step(0, Put(1, 11, 1)))
        self.assert_last(1, whole(1, Put(2, 21, 2)))
        self.assert_rows(3, (1, 10, 1), (2, 20, 2))
        self.assert_rows(4, (1, 10, 1), (2, 21, 2))
        self.assert_last(1, through(0, COMMIT))
        self.assert_rows(3, (1, 11, 1), (2, 20, 2))

    def test_128_timestamps(self) -> None:
        for _ in range(127):
            self.take(Step(0, Put(0, 0, 0)), Step(0, GIVE_UP))
        self.assertEqual(self.take(Step(0, Put(0, 0, 0))), [0])
        self.assertEqual(self.take(Step(1, Put(0, 0, 0))), [15])
        self.assertEqual(self.table.last_timestamp, 128)

    def test_room_of_a_scan(self) -> None:
        self.take(*whole(0, Put(1, 10, 1)), *whole(0, Put(2, 20, 2)))
        buffer = [9] * 5
        self.assertEqual(self.table.scan(2, buffer), (31, 0))
        self.assertEqual(buffer, [9] * 5)
        buffer = [9] * 6
        self.assertEqual(self.table.scan(2, buffer), (0, 2))
        self.assertEqual(buffer, [1, 10, 1, 2, 20, 2])

    def test_numbers_behind_the_rows_stay(self) -> None:
        self.take(*whole(0, Put(1, 10, 1)))
        buffer = [9] * 5
        self.assertEqual(self.table.scan(1, buffer), (0, 1))
        self.assertEqual(buffer, [1, 10, 1, 9, 9])


class Stories(TableTest):
    """Source 002's scenarios in document 01's configuration.

    Writer n carries 002's writer wn, or operation n. Key 1 is k1 and key 2 is
    k2; the values 10, 11, 12 stand for k1's A, B, C and 20, 21 for k2's X, Y.
    """

    def test_cases_1_and_2(self) -> None:
        """Two keys in one group, both writers read first: w2's check fails."""
        self.take(*through(1, READ, Put(1, 10, 1)), *through(2, READ, Put(2, 20, 1)))
        self.assertEqual(self.table.writers[2].base, 0)
        self.assert_last(1, between(1, WRITE, COMMIT))
        self.assert_last(5, between(2, WRITE, CHECK))
        self.assert_rows(2, (1, 10, 1))
        self.assertEqual(self.take(Step(2, COMMIT)), [14])

    def test_case_2_with_one_key(self) -> None:
        self.take(*through(1, READ, Put(1, 10, 1)), *through(2, READ, Put(1, 11, 1)))
        self.assert_last(1, between(1, WRITE, COMMIT))
        self.assert_last(5, between(2, WRITE, CHECK))
        self.assert_rows(2, (1, 10, 1))

    def test_case_3(self) -> None:
        """One key in two groups: w2's index step finds w1's mapping."""
        self.take(*through(1, LOOK_UP, Put(1, 10, 1)))
        self.take(*through(2, LOOK_UP, Put(1, 10, 2)))
        self.assert_last(1, between(1, READ, COMMIT))
        self.assert_last(4, between(2, READ, INDEX))
        self.assert_rows(2, (1, 10, 1))
        self.assertEqual(self.table.index, {1: 1})

    def test_out_of_order_same_key(self) -> None:
        """Operation 2 resumes after 3 and aborts at its read."""
        self.assert_last(1, whole(1, Put(1, 10, 1)))
        self.take(Step(2, Put(1, 11, 1)), Step(3, Put(1, 12, 1)))
        self.assert_last(1, through(3, COMMIT))
        self.assert_last(3, through(2, READ))
        self.assert_rows(1, (1, 10, 1))
        self.assert_rows(2, (1, 10, 1))
        self.assert_rows(3, (1, 12, 1))

    def test_out_of_order_same_key_interleaved(self) -> None:
        """Operation 2 reads before 3 completes; its check fails."""
        self.assert_last(1, whole(1, Put(1, 10, 1)))
        self.take(Step(2, Put(1, 11, 1)), Step(3, Put(1, 12, 1)))
        self.assert_last(0, through(2, READ))
        self.assert_last(1, through(3, COMMIT))
        self.assert_last(5, between(2, WRITE, CHECK))
        self.assert_rows(2, (1, 10, 1))
        self.assert_rows(3, (1, 12, 1))

    def test_out_of_order_two_groups(self) -> None:
        """A reader at 3 and at 4 sees 002's listings one after the other."""
        at_3, at_4 = [self.table.snapshot(3)], [self.table.snapshot(4)]
        for steps in (
            whole(1, Put(1, 10, 1)),
            whole(2, Put(2, 20, 2)),
            [Step(3, Put(1, 11, 1)), Step(4, Put(2, 21, 2))],
            through(4, COMMIT),
            through(3, COMMIT),
        ):
            self.take(*steps)
            at_3.append(self.table.snapshot(3))
            at_4.append(self.table.snapshot(4))
        a, b, x, y = (1, 10, 1), (1, 11, 1), (2, 20, 2), (2, 21, 2)
        self.assertEqual(at_3, [[], [a], [a, x], [a, x], [a, x], [b, x]])
        self.assertEqual(at_4, [[], [a], [a, x], [a, x], [a, y], [b, y]])


class Walk(TableTest):
    """Document 01's "A writer's walk", where the traces say nothing."""

    def test_instants(self) -> None:
        self.assertEqual(self.table.instant(1), Instant(State.NONE))
        self.take(*through(0, LOOK_UP, Put(1, 10, 3)))
        self.assertEqual(self.table.instant(1), REQUESTED)
        self.take(Step(0, READ))
        self.assertEqual(self.table.instant(1), Instant(State.INFLIGHT, 3))
        self.take(*between(0, WRITE, CHECK))
        self.assertEqual(self.table.instant(1), Instant(State.INFLIGHT, 3))
        self.assertEqual(self.take(Step(0, COMMIT)), [1])
        self.assertEqual(self.table.instant(1), Instant(State.COMPLETED, 3))
        for timestamp in (0, 2, NEVER_ISSUED):
            self.assertEqual(self.table.instant(timestamp), Instant(State.NONE))

    def test_a_slice_is_not_seen_before_the_commit(self) -> None:
        self.take(*through(0, CHECK, Put(1, 10, 3)))
        self.assert_rows(1)
        self.take(Step(0, COMMIT))
        self.assert_rows(1, (1, 10, 3))
        self.assert_rows(0)
        self.assert_rows(NEVER_ISSUED, (1, 10, 3))

    def test_an_indexed_key_keeps_its_group(self) -> None:
        self.take(*whole(0, Put(1, 10, 3)), *whole(0, Put(1, 11, 4)))
        self.assert_rows(2, (1, 11, 3))
        self.assertEqual(self.table.index, {1: 3})

    def test_a_slice_keeps_the_base_slices_rows(self) -> None:
        self.take(*whole(0, Put(1, 10, 3)), *whole(1, Put(2, 20, 3)))
        self.take(*whole(2, Remove(1)))
        self.assert_rows(1, (1, 10, 3))
        self.assert_rows(2, (1, 10, 3), (2, 20, 3))
        self.assert_rows(3, (2, 20, 3))

    def test_rows_stand_by_rising_key(self) -> None:
        self.take(*whole(0, Put(9, 1, 0)), *whole(0, Put(4, 2, 7)))
        self.take(*whole(0, Put(6, 3, 0)))
        self.assert_rows(3, (4, 2, 7), (6, 3, 0), (9, 1, 0))

    def test_a_remove_keeps_the_index_entry(self) -> None:
        self.take(*whole(0, Put(1, 10, 3)))
        self.take(Step(1, Put(1, 11, 4)))
        self.assert_last(1, whole(0, Remove(1)))
        self.assert_last(3, through(1, READ))
        self.assert_last(1, whole(1, Put(1, 12, 5)))
        self.assert_rows(4, (1, 12, 3))

    def test_a_remove_of_an_indexed_key_without_a_row_commits(self) -> None:
        self.take(*whole(0, Put(1, 10, 3)), *whole(0, Remove(1)))
        self.assert_last(1, whole(1, Remove(1)))
        self.assert_rows(3)

    def test_other_groups_do_not_conflict(self) -> None:
        self.take(*through(0, READ, Put(1, 10, 3)))
        self.take(*whole(1, Put(2, 20, 4)))
        self.assert_last(1, between(0, WRITE, COMMIT))

    def test_uncommitted_instants_do_not_conflict(self) -> None:
        self.take(*through(0, LOOK_UP, Put(1, 10, 3)))
        self.take(*through(1, WRITE, Put(2, 20, 3)))
        self.assert_last(1, between(0, READ, COMMIT))

    def test_the_lock_is_held_from_index_to_end(self) -> None:
        for end in ([Step(0, CHECK), Step(0, COMMIT)], [Step(0, GIVE_UP)]):
            with self.subTest(end=end):
                self.table = Table()
                self.take(*through(0, INDEX, Put(1, 10, 3)))
                self.take(*through(1, WRITE, Put(2, 20, 4)))
                self.assertEqual(self.take(Step(1, INDEX)), [16])
                self.take(*end)
                self.assert_last(1, between(1, INDEX, COMMIT))

    def test_a_failed_check_frees_the_lock(self) -> None:
        self.take(*through(0, READ, Put(1, 10, 3)), *whole(1, Put(2, 20, 3)))
        self.assert_last(5, between(0, WRITE, CHECK))
        self.assert_last(1, whole(1, Put(2, 21, 3)))

    def test_an_end_elsewhere_leaves_the_lock(self) -> None:
        self.take(*through(0, INDEX, Put(1, 10, 3)))
        self.take(Step(1, Put(2, 20, 4)), Step(1, GIVE_UP))
        self.assertEqual(self.table.lock, 0)

    def test_give_up_fits_phases_1_to_6(self) -> None:
        steps = whole(0, Put(1, 10, 3))
        for taken in range(8):
            with self.subTest(taken=taken):
                self.table = Table()
                self.take(*steps[:taken])
                answer = 6 if 1 <= taken <= 6 else 14
                self.assertEqual(self.take(Step(0, GIVE_UP)), [answer])
                self.assertEqual(self.table.writers[0], Writer())

    def test_a_step_fits_one_phase(self) -> None:
        steps = whole(0, Put(1, 10, 3))
        for taken in range(len(steps)):
            for other in [*steps, Step(0, Remove(1))]:
                fits = other == steps[taken] or taken == 0 and other.starts
                with self.subTest(taken=taken, other=other):
                    self.table = Table()
                    self.take(*steps[:taken])
                    self.assertEqual(self.take(other) == [14], not fits)


class IndexEntries(TableTest):
    """Q-4: "A failed put must not keep the slot"."""

    def test_the_entry_of_a_failed_check_is_taken_out(self) -> None:
        self.take(*through(0, READ, Put(1, 10, 0)), *whole(1, Put(2, 20, 0)))
        self.assert_last(5, between(0, WRITE, CHECK))
        self.assertEqual(self.table.index, {2: 0})
        self.assert_last(1, whole(2, Put(1, 11, 1)))
        self.assert_rows(3, (1, 11, 1), (2, 20, 0))

    def test_giving_up(self) -> None:
        for last in (INDEX, CHECK):
            with self.subTest(last=last):
                self.table = Table()
                self.take(*through(0, last, Put(1, 10, 0)))
                self.assertEqual(self.table.index, {1: 0})
                self.assertEqual(self.take(Step(0, GIVE_UP)), [6])
                self.assertEqual(self.table.index, {})
                self.assert_last(1, whole(1, Put(1, 11, 1)))
                self.assert_rows(2, (1, 11, 1))

    def test_a_commit_leaves_the_entry(self) -> None:
        self.take(*whole(0, Put(1, 10, 0)))
        self.assertEqual(self.table.index, {1: 0})

    def test_an_older_entry_stays(self) -> None:
        for last in (INDEX, CHECK):
            with self.subTest(last=last):
                self.table = Table()
                self.take(*whole(0, Put(1, 10, 0)), *through(1, last, Put(1, 11, 1)))
                self.assertEqual(self.take(Step(1, GIVE_UP)), [6])
                self.assert_last(1, whole(2, Put(1, 12, 2)))
                self.assert_rows(3, (1, 12, 0))

    def test_a_remove_must_find_the_key_still_indexed(self) -> None:
        self.take(*through(0, INDEX, Put(1, 10, 0)), *through(1, WRITE, Remove(1)))
        self.take(*through(2, WRITE, Put(2, 20, 0)), Step(0, GIVE_UP))
        self.take(*through(3, INDEX, Put(3, 30, 7)))
        self.assertEqual(self.take(Step(1, INDEX), Step(3, GIVE_UP)), [16, 6])
        self.assertEqual(self.take(Step(1, INDEX)), [2])
        self.assertEqual(self.table.writers[1], Writer())
        self.assertEqual(self.take(Step(2, INDEX)), [0])

    def test_a_put_keeps_the_group_that_it_found(self) -> None:
        self.take(*through(0, INDEX, Put(1, 10, 0)))
        self.take(*through(1, LOOK_UP, Put(1, 11, 1)), Step(0, GIVE_UP))
        self.assert_last(1, between(1, READ, COMMIT))
        self.assert_rows(2, (1, 11, 0))

    def test_only_the_flag_decides(self) -> None:
        """In a table not reached from a fresh one an entry is taken out at any phase,
        and whatever it names; a start and an index step set the flag anew.
        """
        for phase in range(Phase.LOOK_UP, Phase.COMMIT + 1):
            for made in (False, True):
                with self.subTest(phase=phase, made=made):
                    self.table = Table(1, {1: REQUESTED}, {}, {1: 7, 2: 0})
                    writer = Writer(phase, Remove(1), 1, made=made)
                    self.table.writers[3] = writer
                    self.assertEqual(self.take(Step(3, GIVE_UP)), [6])
                    self.assertEqual(1 not in self.table.index, made)
                    self.assertEqual(self.table.index[2], 0)
        for phase, again in (
            (Phase.READY, through(3, LOOK_UP, Put(1, 10, 7))),
            (Phase.INDEX, [Step(3, INDEX)]),
        ):
            with self.subTest(phase=phase, again=again):
                self.table = Table(1, {1: REQUESTED}, {}, {1: 7})
                self.table.writers[3] = Writer(phase, Put(1, 10, 7), 1, 7, made=True)
                self.take(*again, Step(3, GIVE_UP))
                self.assertEqual(self.table.index, {1: 7})


def committing(writer: int, operation: Operation | None = None) -> list[Step]:
    """A pessimistic writer's steps to its commit, from the operation's start or from
    the look up; there is no check among them.
    """
    return through(writer, INDEX, operation) + [Step(writer, COMMIT)]


class PessimisticTest(TableTest):
    """A fresh pessimistic table and the steps taken on it."""

    MODE = Mode.PESSIMISTIC

    def commit_from(self, writer: int, first: Action) -> list[int]:
        """The answers to a writer's steps from one to its commit."""
        return self.take(*between(writer, first, INDEX), Step(writer, COMMIT))


class LocksPerGroup(PessimisticTest):
    """Document 02's Q-9."""

    def test_p5(self) -> None:
        """The second read waits, and finds what the first writer committed."""
        self.take(*through(0, READ, Put(0, 10, 0)))
        self.assert_last(19, through(1, READ, Put(1, 20, 0)))
        self.assertEqual(self.commit_from(0, WRITE), [0, 0, 1])
        self.assertEqual(self.take(Step(1, READ)), [0])
        self.assertEqual(self.table.writers[1].base, 1)
        self.assertEqual(self.commit_from(1, WRITE), [0, 0, 1])
        self.assert_rows(1, (0, 10, 0))
        self.assert_rows(2, (0, 10, 0), (1, 20, 0))

    def test_p6(self) -> None:
        self.take(*through(0, LOOK_UP, Put(1, 10, 0)))
        self.take(*through(1, LOOK_UP, Put(1, 20, 1)))
        self.assertEqual(self.commit_from(0, READ), [0, 0, 0, 1])
        self.assert_last(4, between(1, READ, INDEX))
        self.assert_rows(2, (1, 10, 0))
        self.assertEqual(self.table.group_locks, {})

    def test_p6_with_both_past_the_read(self) -> None:
        self.take(*through(0, WRITE, Put(1, 10, 0)), *through(1, WRITE, Put(1, 20, 1)))
        self.assertEqual(self.take(Step(0, INDEX), Step(1, INDEX)), [0, 4])
        self.assertEqual(self.table.group_locks, {0: 0})
        self.assertEqual(self.take(Step(0, COMMIT)), [1])
        self.assert_rows(2, (1, 10, 0))

    def test_a_check_step_is_refused_at_each_phase(self) -> None:
        steps = committing(0, Put(1, 10, 3))
        phases = []
        for step in steps:
            phases.append(int(self.table.writers[0].phase))
            before = copy.deepcopy(self.table)
            self.assertEqual(self.take(Step(0, CHECK)), [14])
            self.assertEqual(self.table, before)
            self.take(step)
        self.assertEqual(phases, [0, 1, 2, 3, 4, 6])
        self.assert_rows(1, (1, 10, 3))

    def test_phase_5(self) -> None:
        """Not reached from a fresh table: only giving up fits."""
        writer = Writer(Phase.CHECK, Put(1, 10, 3), 1, 3, 0)
        for step in (
            Step(0, Put(1, 10, 3)),
            *(Step(0, action) for action in Action if action is not GIVE_UP),
        ):
            with self.subTest(step=step):
                self.table.last_timestamp = 1
                self.table.group_locks = {3: 0}
                self.table.writers[0] = replace(writer)
                self.assertEqual(self.take(step), [14])
                self.assertEqual(self.table.writers[0], writer)
        self.assertEqual(self.take(Step(0, GIVE_UP)), [6])
        self.assertEqual(self.table.group_locks, {})

    def test_too_late_leaves_no_lock(self) -> None:
        self.take(Step(1, Put(5, 11, 4)), *committing(0, Put(5, 10, 4)))
        self.assert_last(3, through(1, READ))
        self.assertEqual(self.table.group_locks, {})
        self.assertEqual(self.table.instant(1), REQUESTED)
        self.assert_last(0, through(2, READ, Put(6, 12, 4)))

    def test_giving_up_frees(self) -> None:
        for last in (READ, WRITE, INDEX):
            with self.subTest(last=last):
                self.table = Table(mode=self.MODE)
                self.take(*through(0, last, Put(1, 10, 3)))
                self.assertEqual(self.table.group_locks, {3: 0})
                self.assert_last(19, through(1, READ, Put(2, 20, 3)))
                self.assertEqual(self.take(Step(0, GIVE_UP), Step(1, READ)), [6, 0])
                self.assertEqual(self.table.group_locks, {3: 1})

    def test_giving_up_before_the_read(self) -> None:
        self.take(*through(0, READ, Put(1, 10, 3)), *through(1, READ, Put(2, 20, 3)))
        self.assertEqual(self.take(Step(1, GIVE_UP)), [6])
        self.assertEqual(self.table.group_locks, {3: 0})

    def test_a_writer_that_stalls(self) -> None:
        """It keeps its group, and no other."""
        self.take(*through(0, READ, Put(1, 10, 3)), *through(1, LOOK_UP, Put(2, 20, 3)))
        for number in range(4):
            self.assertEqual(self.take(Step(1, READ)), [19])
            self.assert_last(1, committing(2, Put(3, 30 + number, 4)))
        self.assert_rows(6, (3, 33, 4))
        self.assertEqual(self.commit_from(0, WRITE), [0, 0, 1])
        self.assertEqual(self.commit_from(1, READ), [0, 0, 0, 1])
        self.assert_rows(6, (1, 10, 3), (2, 20, 3), (3, 33, 4))

    def test_a_commit_of_a_later_timestamp_ends_who_waited(self) -> None:
        self.take(*through(0, LOOK_UP, Put(1, 10, 3)), *through(1, READ, Put(2, 20, 3)))
        self.assertEqual(self.take(Step(0, READ)), [19])
        self.assertEqual(self.commit_from(1, WRITE), [0, 0, 1])
        self.assertEqual(self.take(Step(0, READ)), [3])

    def test_19_before_3(self) -> None:
        self.take(*through(0, LOOK_UP, Put(1, 10, 3)))
        self.take(*committing(1, Put(2, 20, 3)), *through(2, READ, Put(3, 30, 3)))
        before = copy.deepcopy(self.table)
        self.assertEqual(self.take(Step(0, READ)), [19])
        self.assertEqual(self.table, before)
        self.assertEqual(self.take(Step(2, GIVE_UP), Step(0, READ)), [6, 3])

    def test_10_and_14_before_19(self) -> None:
        self.take(*through(0, READ, Put(1, 10, 3)))
        self.assertEqual(self.take(Step(16, READ), Step(1, READ)), [10, 14])
        self.take(Step(1, Put(2, 20, 3)))
        self.assertEqual(self.take(Step(1, READ)), [14])
        self.assertEqual(self.take(Step(1, LOOK_UP), Step(1, READ)), [0, 19])
        self.assertEqual(self.take(Step(0, READ)), [14])

    def test_a_lock_for_each_group(self) -> None:
        for group in range(GROUPS):
            self.assert_last(0, through(group, READ, Put(group, 10, group)))
        self.assertEqual(self.table.group_locks, {g: g for g in range(GROUPS)})
        for group in range(GROUPS):
            writer = GROUPS + group
            self.assert_last(19, through(writer, READ, Put(writer, 20, group)))
        for group in range(GROUPS):
            self.assertEqual(self.commit_from(group, WRITE), [0, 0, 1])
            self.assertEqual(self.commit_from(GROUPS + group, READ), [0, 0, 0, 1])
        self.assertEqual(len(self.table.snapshot(16)), 16)

    def test_an_index_step_asks_for_no_lock(self) -> None:
        self.take(*through(0, INDEX, Put(1, 10, 3)), *through(1, WRITE, Put(2, 20, 4)))
        self.assertEqual(self.take(Step(1, INDEX)), [0])
        self.assertIsNone(self.table.lock)
        for writer in (0, 1):
            self.assertEqual(self.table.writers[writer].phase, Phase.COMMIT)
            self.assertEqual(self.take(Step(writer, COMMIT)), [1])

    def test_a_walk_never_gives_5_or_16(self) -> None:
        """Nor does a refused step change anything."""
        answers = set()
        for seed, profile in enumerate(PROFILES):
            self.table = Table(mode=self.MODE)
            for step in walk(Draw(seed), profile, 300, Table(mode=self.MODE)):
                before = copy.deepcopy(self.table)
                answer = self.table.step(step)
                answers.add(int(answer))
                if answer >= Answer.NO_SUCH_WRITER:
                    self.assertEqual(self.table, before)
        self.assertEqual(answers, {0, 1, 2, 3, 4, 6, 10, 12, 13, 14, 18, 19})

    def test_log_bytes_are_the_same(self) -> None:
        printed = "0\n0\n0\n0\n0\n14\n1\nstop 0 at 18\n1 300 2\n"
        self.assertEqual(program(EXAMPLE, Mode.PESSIMISTIC), printed)


class IndexEntriesOfThePessimisticMode(PessimisticTest):
    """Q-4 in a pessimistic table."""

    def test_giving_up(self) -> None:
        self.take(*through(0, INDEX, Put(1, 10, 0)))
        self.assertEqual(self.table.index, {1: 0})
        self.assertEqual(self.take(Step(0, GIVE_UP)), [6])
        self.assertEqual(self.table.index, {})
        self.assert_last(1, committing(1, Put(1, 11, 1)))
        self.assert_rows(2, (1, 11, 1))

    def test_an_older_entry_stays(self) -> None:
        self.take(*committing(0, Put(1, 10, 0)), *through(1, INDEX, Put(1, 11, 1)))
        self.assertEqual(self.take(Step(1, GIVE_UP)), [6])
        self.assert_last(1, committing(2, Put(1, 12, 2)))
        self.assert_rows(3, (1, 12, 0))

    def test_a_remove_must_find_the_key_still_indexed(self) -> None:
        self.take(*through(0, INDEX, Put(1, 10, 0)), *through(1, LOOK_UP, Remove(1)))
        self.assertEqual(self.take(Step(1, READ), Step(0, GIVE_UP)), [19, 6])
        self.assert_last(2, between(1, READ, INDEX))
        self.assertEqual(self.table.writers[1], Writer())
        self.assert_last(0, through(2, READ, Put(2, 20, 0)))

    def test_a_remove_whose_key_has_gone_to_another_group(self) -> None:
        self.take(*through(0, INDEX, Put(1, 10, 0)), *through(1, LOOK_UP, Remove(1)))
        self.take(Step(0, GIVE_UP), *committing(2, Put(1, 11, 1)))
        self.assert_last(4, between(1, READ, INDEX))
        self.assert_rows(3, (1, 11, 1))

    def test_a_put_keeps_the_group_that_it_found(self) -> None:
        self.take(*through(0, INDEX, Put(1, 10, 0)))
        self.take(*through(1, LOOK_UP, Put(1, 11, 1)), Step(0, GIVE_UP))
        self.assertEqual(self.commit_from(1, READ), [0, 0, 0, 1])
        self.assert_rows(2, (1, 11, 0))


class LocksSetByHand(unittest.TestCase):
    """Locks that no steps give, in tables of either mode."""

    # A step, the writer that it ends, and the answer. Timestamp 2 is completed in
    # group 4, and key 5 is indexed to group 6.
    ENDINGS = (
        (COMMIT, Writer(Phase.COMMIT, Put(1, 11, 4), 1, 4), 1),
        (LOOK_UP, Writer(Phase.LOOK_UP, Remove(9), 1), 2),
        (READ, Writer(Phase.READ, Put(1, 11, 4), 1, 4), 3),
        (INDEX, Writer(Phase.INDEX, Put(5, 50, 4), 1, 4), 4),
        (INDEX, Writer(Phase.INDEX, Remove(9), 1, 4), 2),
        (GIVE_UP, Writer(Phase.WRITE, Put(1, 11, 4), 1, 4), 6),
    )

    def table_with(
        self, mode: Mode, writer: Writer, lock: int | None, group_locks: dict[int, int]
    ) -> Table:
        table = Table(2, {2: Instant(State.COMPLETED, 4)}, index={5: 6}, mode=mode)
        table.writers[3] = replace(writer)
        table.lock, table.group_locks = lock, dict(group_locks)
        return table

    def test_each_ending_frees_the_locks_of_both_kinds(self) -> None:
        others = {1: 7, 7: 2}
        for mode in Mode:
            for action, writer, answer in self.ENDINGS:
                with self.subTest(mode=mode, answer=answer):
                    held = dict.fromkeys((0, 2, 4, 5), 3)
                    table = self.table_with(mode, writer, 3, held | others)
                    self.assertEqual(table.step(Step(3, action)), answer)
                    self.assertIsNone(table.lock)
                    self.assertEqual(table.group_locks, others)

    def test_a_failed_check(self) -> None:
        writer = Writer(Phase.CHECK, Put(1, 11, 4), 1, 4)
        for mode, answer, left in (
            (Mode.OPTIMISTIC, 5, {1: 7}),
            (Mode.PESSIMISTIC, 14, {1: 7, 4: 3}),
        ):
            with self.subTest(mode=mode):
                table = self.table_with(mode, writer, None, {1: 7, 4: 3})
                self.assertEqual(table.step(Step(3, CHECK)), answer)
                self.assertEqual(table.group_locks, left)

    def test_an_optimistic_table_ignores_the_locks_of_the_groups(self) -> None:
        held = dict.fromkeys(range(GROUPS), 7)
        table = Table(group_locks=held)
        answers = [table.step(step) for step in whole(3, Put(1, 10, 4))]
        self.assertEqual(answers, [0, 0, 0, 0, 0, 0, 1])
        self.assertEqual(table.group_locks, held)

    def test_a_pessimistic_table_ignores_the_table_lock(self) -> None:
        table = Table(lock=7, mode=Mode.PESSIMISTIC)
        answers = [table.step(step) for step in committing(3, Put(1, 10, 4))]
        self.assertEqual(answers, [0, 0, 0, 0, 0, 1])
        self.assertEqual(table.lock, 7)

    def test_a_read_that_holds_its_lock_already(self) -> None:
        writer = Writer(Phase.READ, Put(1, 11, 2), 1, 2)
        table = self.table_with(Mode.PESSIMISTIC, writer, None, {2: 3})
        self.assertEqual(table.step(Step(3, READ)), 0)
        self.assertEqual(table.group_locks, {2: 3})

    def test_an_index_step_whose_groups_lock_another_holds(self) -> None:
        writer = Writer(Phase.INDEX, Put(1, 11, 2), 1, 2)
        table = self.table_with(Mode.PESSIMISTIC, writer, 5, {2: 7})
        self.assertEqual(table.step(Step(3, INDEX)), 0)
        self.assertEqual(table.writers[3].phase, Phase.COMMIT)
        self.assertEqual((table.lock, table.group_locks), (5, {2: 7}))

    def test_a_writer_that_is_too_late_and_waits(self) -> None:
        writer = Writer(Phase.READ, Put(1, 11, 4), 1, 4)
        for mode, answer in ((Mode.OPTIMISTIC, 3), (Mode.PESSIMISTIC, 19)):
            with self.subTest(mode=mode):
                table = self.table_with(mode, writer, None, {4: 7})
                self.assertEqual(table.step(Step(3, READ)), answer)
                self.assertEqual(table.group_locks, {4: 7})

    def test_a_lock_that_names_no_writer(self) -> None:
        for mode in Mode:
            self.assertFalse(Table(lock=WRITERS, mode=mode).in_range())
            self.assertTrue(Table(lock=WRITERS - 1, mode=mode).in_range())
            for group in range(GROUPS):
                with self.subTest(mode=mode, group=group):
                    table = Table(group_locks={group: WRITERS}, mode=mode)
                    before = copy.deepcopy(table)
                    self.assertEqual(table.step(Step(16, Put(32, 0, 8))), 17)
                    self.assertEqual(table.point_read(32, 0), 17)
                    self.assertEqual(table.scan(0, []), (17, 0))
                    self.assertEqual(table.instant(1), 17)
                    self.assertEqual(table, before)
                    table.group_locks = {group: WRITERS - 1}
                    self.assertTrue(table.in_range())


class CleaningTest(TableTest):
    """A fresh table, and cleans on it."""

    def steps_of(self, writer: int, operation: Operation) -> list[Step]:
        """All steps of an operation that commits in the table's mode."""
        return operation_steps(writer, operation, self.MODE)

    def commit(self, *operations: Operation, writer: int = 0) -> None:
        """Carry out operations whole, one after the other."""
        for operation in operations:
            self.assert_last(1, self.steps_of(writer, operation))

    def assert_clean(self, at: int, answer: int = 0) -> None:
        """The clean has this answer; if it is refused the table stays, else nothing
        but its slices and its horizon changes.
        """
        before = copy.deepcopy(self.table)
        self.assertEqual(self.table.clean(at), answer)
        if answer == 0:
            self.assertEqual(self.table.horizon, at)
            before.horizon, before.slices = at, self.table.slices
        self.assertEqual(self.table, before)

    def assert_slices(self, *slices: tuple[int, int]) -> None:
        """These slices are left, each a group and a timestamp."""
        self.assertEqual(set(self.table.slices), set(slices))

    def assert_refused_below(self, horizon: int) -> None:
        """Reads and scans are refused with 32 below the horizon, and not from it on."""
        above = 2**8 + horizon - 1, 2**32 + horizon - 1, NEVER_ISSUED
        for at in (*range(self.table.last_timestamp + 2), *above):
            with self.subTest(at=at):
                below = at < horizon
                buffer = [9] * 99
                answer, count = self.table.scan(at, buffer)
                self.assertEqual(answer == 32, below)
                if below:
                    self.assertEqual((count, buffer), (0, [9] * 99))
                self.assertEqual(self.table.point_read(0, at) == 32, below)

    def two_groups(self) -> None:
        """Timestamps 1, 2, 4 and 7 in group 3, and 3, 5 and 6 in group 5."""
        self.commit(Put(1, 10, 3), Put(2, 20, 3), Put(3, 30, 5), Put(1, 11, 3))
        self.commit(Put(3, 31, 5), Put(4, 40, 5), Put(2, 21, 3))


class Cleaning(CleaningTest):
    """Document 02's Q-13, in the optimistic mode."""

    def test_a_fresh_table(self) -> None:
        self.assertEqual(self.table.horizon, 0)
        self.assert_rows(0)
        self.assert_clean(0)
        self.assert_clean(1, 34)
        self.assert_rows(0)

    def test_kept_and_dropped(self) -> None:
        self.two_groups()
        listings = [self.table.snapshot(at) for at in range(9)]
        of_3, of_5 = [(3, at) for at in (1, 2, 4, 7)], [(5, at) for at in (3, 5, 6)]
        for at, first_of_3, first_of_5 in (
            (0, 0, 0), (1, 0, 0), (2, 1, 0), (3, 1, 0), (4, 2, 0),
            (5, 2, 1), (6, 2, 2), (7, 3, 2), (7, 3, 2),
        ):
            with self.subTest(at=at):
                self.assert_clean(at)
                self.assert_slices(*of_3[first_of_3:], *of_5[first_of_5:])
                self.assert_refused_below(at)
                for seen in range(at, 9):
                    self.assert_rows(seen, *listings[seen])

    def test_one_clean_drops_what_many_do(self) -> None:
        self.two_groups()
        before = copy.deepcopy(self.table)
        for at in range(8):
            once = copy.deepcopy(before)
            self.assertEqual((once.clean(at), self.table.clean(at)), (0, 0))
            self.assertEqual(once, self.table)

    def test_what_is_left_is_as_it_was(self) -> None:
        self.two_groups()
        before = copy.deepcopy(self.table.slices)
        self.assert_clean(5)
        for place, rows in self.table.slices.items():
            self.assertEqual(rows, before[place])

    def test_an_uncompleted_slice_stays(self) -> None:
        self.take(*through(1, WRITE, Put(1, 10, 3)), Step(1, GIVE_UP))
        slow = self.steps_of(2, Put(2, 20, 4))
        self.take(*slow[:4])
        self.commit(Put(3, 30, 3), Put(3, 31, 3))
        self.assert_clean(4)
        self.assert_slices((3, 1), (4, 2), (3, 4))
        self.assert_last(1, slow[4:])
        self.assert_rows(4, (2, 20, 4), (3, 31, 3))

    def test_order_of_the_refusals(self) -> None:
        """17, then 34, then 33."""
        self.commit(Put(1, 10, 3), Put(1, 11, 3))
        self.table.writers[5] = Writer(Phase.WRITE, Put(1, 12, 3), 2, 3, 1)
        for at in (3, 2**8 + 2, 2**32 + 2, NEVER_ISSUED):
            self.assert_clean(at, 34)
        self.assert_clean(2, 33)
        self.table.writers[5].phase = Phase.INDEX
        self.assert_clean(1)
        self.table.writers[5].phase = Phase.WRITE
        self.assert_clean(0, 34)
        self.assert_clean(2, 33)
        for out_of_range in ({"horizon": 3}, {"lock": WRITERS}, {"last_timestamp": 1}):
            table = replace(copy.deepcopy(self.table), **out_of_range)
            before = copy.deepcopy(table)
            for at in (0, 1, 2, 3, NEVER_ISSUED):
                self.assertEqual(table.clean(at), 17)
            self.assertEqual(table, before)

    def test_a_horizon_above_the_last_timestamp(self) -> None:
        self.commit(Put(1, 10, 3))
        self.table.horizon = 1
        self.assertTrue(self.table.in_range())
        self.table.horizon = 2
        before = copy.deepcopy(self.table)
        self.assertEqual(self.take(Step(16, Put(32, 0, 8))), [17])
        self.assertEqual(self.table.point_read(32, 0), 17)
        self.assertEqual(self.table.scan(0, []), (17, 0))
        self.assertEqual(self.table.instant(1), 17)
        self.assertEqual(self.table.clean(NEVER_ISSUED), 17)
        self.assertEqual(self.table, before)

    def test_below_the_horizon_and_at_it(self) -> None:
        self.two_groups()
        self.assert_clean(3)
        self.assert_clean(2, 34)
        self.assert_clean(0, 34)
        self.assert_clean(3)
        self.assert_clean(7)
        self.assert_clean(6, 34)

    def test_an_issued_timestamp_is_enough(self) -> None:
        """Whatever became of its operation."""
        self.take(Step(0, Put(1, 10, 3)))
        self.assert_clean(1)
        self.take(Step(0, GIVE_UP), Step(1, Remove(1)))
        self.assert_clean(2)
        self.assert_clean(3, 34)

    def test_32_before_12_and_31(self) -> None:
        self.two_groups()
        self.assert_clean(5)
        for key in (1, 31, 32, MAX_NUMBER):
            self.assertEqual(self.table.point_read(key, 4), 32)
        self.assertEqual(self.table.point_read(32, 5), 12)
        for room in range(9):
            buffer = [9] * room
            self.assertEqual(self.table.scan(4, buffer), (32, 0))
            self.assertEqual(self.table.scan(5, buffer), (31, 0))
            self.assertEqual(buffer, [9] * room)

    def test_instants_stay_completed(self) -> None:
        """In the instant call also below the horizon."""
        self.two_groups()
        before = [self.table.instant(at) for at in range(9)]
        self.assert_clean(7)
        self.assertEqual([self.table.instant(at) for at in range(9)], before)
        self.assertEqual(before[1], Instant(State.COMPLETED, 3))

    def test_a_read_is_too_late_for_a_dropped_slice_s_instant(self) -> None:
        """As it is for the kept one above it."""
        self.take(Step(1, Put(1, 9, 3)))
        self.commit(Put(1, 10, 3), Put(1, 11, 3))
        self.assert_clean(3)
        self.assert_slices((3, 3))
        self.assert_last(3, through(1, READ))

    def test_commits_at_or_below_the_horizon(self) -> None:
        """The same clean again drops what such a commit has replaced."""
        slow = self.steps_of(1, Put(1, 11, 3))
        self.commit(Put(1, 10, 3))
        self.take(*slow[:4])
        self.commit(Put(2, 20, 4))
        self.assert_clean(3)
        self.assert_slices((3, 1), (3, 2), (4, 3))
        self.assert_rows(3, (1, 10, 3), (2, 20, 4))
        self.assert_last(1, slow[4:])
        self.assert_rows(3, (1, 11, 3), (2, 20, 4))
        self.assert_slices((3, 1), (3, 2), (4, 3))
        self.assert_clean(3)
        self.assert_slices((3, 2), (4, 3))
        self.assert_rows(3, (1, 11, 3), (2, 20, 4))
        self.assert_clean(3)
        self.assert_slices((3, 2), (4, 3))

    def test_a_group_s_first_commit_below_the_horizon(self) -> None:
        slow = self.steps_of(1, Put(1, 10, 3))
        self.take(*slow[:2])
        self.commit(Put(2, 20, 4))
        self.assert_clean(2)
        self.assert_last(1, slow[2:])
        self.assert_rows(2, (1, 10, 3), (2, 20, 4))
        self.assert_clean(2)
        self.assert_slices((3, 1), (4, 2))

    def test_an_operation_in_progress_ends_as_without_the_clean(self) -> None:
        """Cleaned at each of its phases, whichever timestamp is the horizon."""
        rest = self.steps_of(1, Put(1, 12, 3))
        for taken in range(len(rest) + 1):
            for at in range(6):
                for newer in (False, True):
                    for last in (rest, [*rest[:taken], Step(1, GIVE_UP)]):
                        self.assert_same_end(rest[:taken], at, newer, last[taken:])

    def assert_same_end(
        self, begun: list[Step], at: int, newer: bool, rest: list[Step]
    ) -> None:
        self.table = Table(mode=self.MODE)
        self.commit(Put(1, 10, 3), Put(2, 20, 4), Put(1, 11, 3))
        self.take(*begun)
        if newer:
            self.take(*self.steps_of(2, Put(2, 21, 3)), Step(2, GIVE_UP))
        plain = copy.deepcopy(self.table)
        answer = self.table.clean(at)
        expected = [int(plain.step(step)) for step in rest]
        with self.subTest(begun=len(begun), at=at, newer=newer, answer=answer):
            self.assertEqual(self.take(*rest), expected)
            for seen in range(at if answer == 0 else 0, 7):
                self.assert_rows(seen, *plain.snapshot(seen))
            self.assertEqual(self.table.timeline, plain.timeline)
            self.assertEqual(self.table.index, plain.index)

    def test_cleans_change_no_step_and_nothing_in_the_history(self) -> None:
        """Demand 3 with cleans anywhere, and each answer as on a table that is not
        cleaned: `CheckedCleans` has these claims.
        """
        answers = set()
        for seed, profile in enumerate(PROFILES):
            draw = Draw(seed)
            table, checked = Table(mode=self.MODE), CheckedCleans(self.MODE)
            for event in walk_with_cleans(draw, profile, 200, table, 0.1):
                last = checked.history.last_timestamp
                before = copy.deepcopy(checked.history)
                answer = checked.take(event, range(last + 2))
                if isinstance(event, Clean):
                    answers.add(int(answer))
                    self.assertEqual(checked.history, before)
                    checked.check_everywhere()
            self.assertEqual(table, checked.table)
        self.assertLessEqual(answers, {0, 33, 34})
        self.assertEqual(33 in answers, self.MODE is Mode.OPTIMISTIC)

    def test_a_settled_listing_stays_until_a_clean_passes_it(self) -> None:
        self.two_groups()
        listings = [self.table.snapshot(at) for at in range(8)]
        self.assert_clean(4)
        self.commit(Put(1, 99, 3), Remove(3), Put(2, 98, 3), writer=2)
        self.assert_clean(5)
        for at in range(5, 8):
            self.assert_rows(at, *listings[at])
        self.assert_clean(10)
        for at in range(10):
            self.assertEqual(self.table.scan(at, [0] * 99), (32, 0))

    def test_a_key_keeps_its_group(self) -> None:
        """Also if all rows of the key are dropped."""
        self.commit(Put(1, 10, 3), Remove(1))
        self.assert_clean(2)
        self.assert_rows(2)
        self.commit(Put(1, 11, 5))
        self.assert_rows(3, (1, 11, 3))


class CleaningOfThePessimisticMode(Cleaning):
    """Q-13 in a pessimistic table."""

    MODE = Mode.PESSIMISTIC

    def test_a_base_is_never_needed(self) -> None:
        """Its group's lock keeps it the newest until it is copied."""
        self.commit(Put(1, 10, 3), Put(1, 11, 3))
        self.take(*through(1, READ, Put(1, 12, 3)), *through(2, READ, Put(2, 20, 3)))
        self.commit(Put(4, 40, 4))
        self.assert_clean(5)
        self.assert_last(1, self.steps_of(1, Put(1, 12, 3))[3:])
        self.assert_rows(5, (1, 12, 3), (4, 40, 4))


class NeededBases(CleaningTest):
    """Answer 33: "exactly if a writer at phase 3 has a base that would be dropped"."""

    def begin(self) -> list[Step]:
        """Writer 1 has base 1 in group 3, where timestamp 3 is completed. Its steps
        from the write on are given.
        """
        self.commit(Put(1, 10, 3))
        self.take(*through(1, READ, Put(2, 20, 3)))
        self.commit(Put(1, 11, 3), Put(4, 40, 4))
        self.assertEqual(self.table.writers[1].base, 1)
        return between(1, WRITE, CHECK)

    def test_only_if_it_would_be_dropped(self) -> None:
        self.begin()
        for at, answer in ((0, 0), (1, 0), (2, 0), (4, 33), (3, 33), (2, 0)):
            self.assert_clean(at, answer)
        self.assert_slices((3, 1), (3, 3), (4, 4))

    def test_after_the_write_step(self) -> None:
        rest = self.begin()
        self.assert_clean(4, 33)
        self.assertEqual(self.take(rest[0]), [0])
        self.assert_clean(4)
        self.assert_slices((3, 2), (3, 3), (4, 4))
        self.assertEqual(self.table.slices[3, 2], {1: 10, 2: 20})
        self.assert_last(5, rest[1:])

    def test_an_uncompleted_slice_below_a_completed_one_stays(self) -> None:
        rest = self.begin()
        self.take(*rest[:2])
        self.assert_clean(4)
        self.assertEqual(self.take(rest[2]), [5])
        self.assert_clean(4)
        self.assert_slices((3, 2), (3, 3), (4, 4))

    def test_after_giving_up(self) -> None:
        self.begin()
        self.assert_clean(4, 33)
        self.assertEqual(self.take(Step(1, GIVE_UP)), [6])
        self.assert_clean(4)
        self.assert_slices((3, 3), (4, 4))

    def test_at_phase_3_alone(self) -> None:
        for phase in Phase:
            with self.subTest(phase=phase):
                self.table = Table(mode=self.MODE)
                self.begin()
                self.table.writers[1].phase = phase
                self.assert_clean(4, 33 if phase == 3 else 0)

    def test_each_writer_counts(self) -> None:
        for number in range(WRITERS):
            with self.subTest(number=number):
                self.table = Table(mode=self.MODE)
                self.commit(Put(1, 10, 3), Put(1, 11, 3))
                writer = Writer(Phase.WRITE, Put(1, 12, 3), 2, 3, 1)
                self.table.writers[number] = writer
                self.assert_clean(1)
                self.assert_clean(2, 33)

    def test_base_0(self) -> None:
        self.take(*through(1, READ, Put(2, 20, 3)))
        self.commit(Put(1, 10, 3), Put(1, 11, 3))
        self.assertEqual(self.table.writers[1].base, 0)
        self.assert_clean(3)
        self.assert_slices((3, 3))
        self.assert_last(5, between(1, WRITE, CHECK))

    def set_writer(self, group: int, base: int, **timeline: Instant) -> None:
        """A writer at phase 3, in a table that no steps lead to."""
        self.table = Table(4, mode=self.MODE)
        self.table.timeline = {int(at[1:]): on for at, on in timeline.items()}
        for number, instant in self.table.timeline.items():
            if instant.group is not None:
                self.table.slices[instant.group, number] = {number: number}
        writer = Writer(Phase.WRITE, Put(9, 90, group), 4, group, base)
        self.table.writers[7] = writer

    def test_the_base_s_own_instant_decides(self) -> None:
        """Not the writer's group. Reached from no fresh table."""
        in_3, in_5 = Instant(State.COMPLETED, 3), Instant(State.COMPLETED, 5)
        for group in (3, 5, 6):
            with self.subTest(group=group):
                self.set_writer(group, 1, t1=in_5, t2=in_3, t3=in_3)
                self.assert_clean(4)
                self.set_writer(group, 2, t1=in_5, t2=in_3, t3=in_3)
                self.assert_clean(2)
                self.assert_clean(3, 33)
                self.set_writer(group, 1, t1=in_5, t2=in_3, t3=in_5)
                self.assert_clean(2)
                self.assert_clean(4, 33)

    def test_a_base_that_is_not_completed(self) -> None:
        for instant in (REQUESTED, Instant(State.INFLIGHT, 3)):
            with self.subTest(instant=instant):
                newer = Instant(State.COMPLETED, 3)
                self.set_writer(3, 1, t1=instant, t2=newer, t3=newer)
                self.assert_clean(4)
        self.set_writer(3, 1, t2=Instant(State.COMPLETED, 3))
        self.assert_clean(4)

    def test_a_base_without_a_slice(self) -> None:
        """Its instant is completed, and that counts."""
        in_3 = Instant(State.COMPLETED, 3)
        self.set_writer(3, 1, t1=in_3, t2=in_3)
        del self.table.slices[3, 1]
        self.assert_clean(1)
        self.assert_clean(2, 33)


class CleanedByHand(unittest.TestCase):
    """Q-13 on tables that no steps lead to."""

    def test_a_slice_of_another_group_than_its_instant_s_stays(self) -> None:
        in_3 = Instant(State.COMPLETED, 3)
        table = Table(3, {1: in_3, 2: in_3, 3: in_3})
        table.slices = {(group, 1): {group: 10} for group in (2, 3, 4)}
        self.assertEqual(table.clean(3), 0)
        self.assertEqual(table.slices, {(2, 1): {2: 10}, (4, 1): {4: 10}})

    def test_a_completed_instant_without_a_slice(self) -> None:
        """It is the newest of its group, and shows no rows."""
        in_3 = Instant(State.COMPLETED, 3)
        table = Table(2, {1: in_3, 2: in_3}, {(3, 1): {1: 10}})
        self.assertEqual(table.clean(2), 0)
        self.assertEqual(table.slices, {})
        self.assertEqual(table.scan(2, []), (0, 0))

    def test_a_base_that_is_dropped_behind_a_writer_at_its_read(self) -> None:
        """The read step sets the base anew."""
        for mode in Mode:
            in_3 = Instant(State.COMPLETED, 3)
            table = Table(3, {1: in_3, 2: in_3}, {(3, 1): {1: 10}, (3, 2): {1: 11}})
            table.mode = mode
            table.writers[0] = Writer(Phase.READ, Put(2, 20, 3), 3, 3, 1)
            self.assertEqual(table.clean(3), 0)
            self.assertEqual(table.step(Step(0, READ)), 0)
            self.assertEqual(table.step(Step(0, WRITE)), 0)
            self.assertEqual(table.slices, {(3, 2): {1: 11}, (3, 3): {1: 11, 2: 20}})


def list_of(*timestamps: int) -> InstantList:
    """A list with these timestamps in its first places."""
    unused = (0,) * (128 - len(timestamps))
    return InstantList(len(timestamps), timestamps + unused)


def lists(by_start: Sequence[int], by_completion: Sequence[int]) -> Candidates:
    return Candidates(Answer.TAKEN, list_of(*by_start), list_of(*by_completion))


NO_ROW = [0] * WRITERS


class CandidateTest(CleaningTest):
    """A fresh table, and the candidate instants of its writers."""

    def assert_candidates(self, expected: dict[int, Sequence[int]]) -> None:
        """These writers, and no others, have lists, and both are the same."""
        for number in range(WRITERS):
            with self.subTest(number=number):
                found = self.table.candidates(number)
                if number in expected:
                    listed = expected[number]
                    self.assertEqual(found, lists(listed, listed))
                else:
                    self.assert_ready(number)
        self.assertEqual(self.table.candidates(WRITERS), refused_with(10))

    def assert_ready(self, number: int) -> None:
        """A ready writer keeps nothing, and the call is refused with 14."""
        self.assertEqual(self.table.candidates(number), refused_with(14))
        self.assertEqual(self.table.counts[number], 0)
        self.assertEqual(self.table.noted[number], NO_ROW)

    def assert_recorded(self, number: int, count: int, held: dict[int, int]) -> None:
        """What the writer's operation recorded at its start."""
        row = [held.get(other, 0) for other in range(WRITERS)]
        self.assertEqual(self.table.counts[number], count)
        self.assertEqual(self.table.noted[number], row)


def refused_with(answer: int) -> Candidates:
    """A refusal: all places and counts are 0."""
    return Candidates(Answer(answer), list_of(), list_of())


class CandidateInstants(CandidateTest):
    """Document 02's Q-12, in the optimistic mode."""

    def test_a_fresh_table(self) -> None:
        self.assertEqual(self.table.places, {})
        self.assert_candidates({})

    def test_p10(self) -> None:
        """The candidates of each operation at each step."""
        one, two = Put(1, 10, 1), Put(2, 20, 2)
        for operation in (one, two):
            *steps, commit = self.steps_of(0, operation)
            for step in steps:
                self.take(step)
                self.assert_candidates({0: []})
            self.take(commit)
            self.assert_candidates({})
        self.assertEqual(self.table.places, {1: 1, 2: 2})
        three, four = self.steps_of(3, Put(1, 11, 1)), self.steps_of(4, Put(2, 21, 2))
        self.take(three[0])
        self.assert_recorded(3, 2, {})
        self.assert_candidates({3: []})
        for step in four[:-1]:
            self.take(step)
            self.assert_recorded(4, 2, {3: 3})
            self.assert_candidates({3: [], 4: []})
        self.assertEqual(self.take(four[-1]), [1])
        self.assertEqual(self.table.places, {1: 1, 2: 2, 4: 3})
        for step in three[1:]:
            self.assert_recorded(3, 2, {})
            self.assert_candidates({3: [4]})
            self.take(step)
        self.assertEqual(self.table.places, {1: 1, 2: 2, 4: 3, 3: 4})
        self.assert_candidates({})

    def test_p10_with_a_third_operation(self) -> None:
        """It starts between the two commits: what completed before is not listed."""
        self.commit(Put(1, 10, 1), Put(2, 20, 2))
        three, four = self.steps_of(3, Put(1, 11, 1)), self.steps_of(4, Put(2, 21, 2))
        five = self.steps_of(5, Put(3, 30, 3))
        self.take(three[0], *four, five[0])
        self.assert_recorded(5, 3, {3: 3})
        self.assert_candidates({3: [4], 5: []})
        self.assert_last(1, three[1:])
        self.assert_candidates({5: [3]})

    def test_a_place_is_one_more_than_the_other_commits(self) -> None:
        for number in range(1, 6):
            self.assertEqual(sorted(self.table.places.values()), [*range(1, number)])
            self.take(Step(1, Remove(9)), Step(1, GIVE_UP))
            *steps, commit = self.steps_of(0, Put(1, number, 3))
            for step in steps:
                self.take(step)
                self.assertNotIn(2 * number, self.table.places)
            self.take(commit)
            self.assertEqual(self.table.places[2 * number], number)
        self.assertEqual(self.table.places, {2: 1, 4: 2, 6: 3, 8: 4, 10: 5})

    def test_the_first_to_start_and_the_last_to_commit(self) -> None:
        slow = self.steps_of(9, Put(31, 1, 7))
        self.take(slow[0])
        for number in range(1, 6):
            self.commit(Put(number, number, number), writer=number)
            self.assert_candidates({9: [*range(2, number + 2)]})
        for step in slow[1:-1]:
            self.assertEqual(self.take(step), [0])
            self.assert_candidates({9: [2, 3, 4, 5, 6]})
        self.take(slow[-1])
        self.assertEqual(self.table.places, {2: 1, 3: 2, 4: 3, 5: 4, 6: 5, 1: 6})
        self.assert_candidates({})

    def test_pending_at_the_start_and_completed_since(self) -> None:
        early, late = self.steps_of(1, Put(1, 1, 1)), self.steps_of(2, Put(2, 2, 2))
        self.take(early[0], late[0], Step(3, Remove(3)))
        self.assert_recorded(1, 0, {})
        self.assert_recorded(2, 0, {1: 1})
        self.assert_recorded(3, 0, {1: 1, 2: 2})
        self.assert_candidates({1: [], 2: [], 3: []})
        self.assert_last(1, late[1:])
        self.assert_candidates({1: [2], 3: [2]})
        self.assert_last(1, early[1:])
        self.assert_candidates({3: [1, 2]})

    def test_pending_at_the_start_and_given_up(self) -> None:
        """At each phase; its instant is in no list, then or later."""
        pending = self.steps_of(1, Put(1, 1, 1))
        for taken in range(1, len(pending)):
            self.table = Table(mode=self.MODE)
            self.take(*pending[:taken], Step(2, Put(2, 2, 2)))
            self.assert_recorded(2, 0, {1: 1})
            self.assertEqual(self.take(Step(1, GIVE_UP)), [6])
            self.assert_recorded(2, 0, {1: 1})
            self.assert_candidates({2: []})
            self.commit(Put(1, 1, 1), writer=1)
            self.assert_candidates({2: [3]})
            self.assertEqual(self.table.places, {3: 1})

    def test_a_later_start_that_ends_or_is_pending(self) -> None:
        self.take(Step(0, Put(0, 1, 0)), *through(1, READ, Put(1, 1, 1)))
        self.take(Step(2, Remove(9)), Step(2, LOOK_UP))
        self.take(*through(3, READ, Put(3, 3, 3)), Step(3, GIVE_UP))
        self.assert_candidates({0: [], 1: []})

    def test_each_ending_keeps_nothing(self) -> None:
        """2 to 6 and the commit: neither a count nor a noted timestamp stays, and the
        places are those of the commits.
        """
        own, other = self.steps_of(2, Put(5, 1, 5)), self.steps_of(4, Put(6, 1, 5))
        moved, remove = self.steps_of(4, Put(5, 2, 4)), self.steps_of(2, Remove(5))
        ends = [
            (1, own),
            (6, [*own[:3], Step(2, GIVE_UP)]),
            (2, remove[:2]),
            (3, [*own[:2], *other, own[2]]),
            (4, [*own[:2], *moved[:2], *moved[2:], *own[2:5]]),
        ]
        if self.MODE is Mode.OPTIMISTIC:
            ends.append((5, [*own[:3], *other, *own[3:6]]))
        for answer, steps in ends:
            with self.subTest(answer=answer):
                self.table = Table(mode=self.MODE)
                self.commit(Put(1, 10, 3), writer=8)
                self.take(Step(7, Remove(30)), Step(9, Remove(31)))
                self.take(*steps[:-1])
                self.assert_recorded(2, 1, {7: 2, 9: 3})
                self.assertEqual(self.take(steps[-1]), [answer])
                self.assert_ready(2)
                self.assert_recorded(9, 1, {7: 2})

    def test_an_end_leaves_the_others_notes(self) -> None:
        """They keep the timestamp that the ended operation held."""
        self.take(*(Step(writer, Remove(writer)) for writer in range(WRITERS)))
        for ended in (0, 7, 15):
            self.take(Step(ended, GIVE_UP))
            for number in range(WRITERS):
                if self.table.writers[number].phase:
                    self.assert_recorded(number, 0, {u: u + 1 for u in range(number)})
                else:
                    self.assert_recorded(number, 0, {})

    def test_a_new_start_records_anew(self) -> None:
        self.take(Step(1, Remove(1)), Step(2, Remove(2)))
        self.assert_recorded(2, 0, {1: 1})
        self.take(Step(1, GIVE_UP), Step(2, GIVE_UP))
        self.commit(Put(3, 3, 3))
        self.take(Step(5, Remove(5)), Step(2, Remove(2)))
        self.assert_recorded(2, 1, {5: 4})
        self.assert_candidates({2: [], 5: []})

    def test_each_writer_is_noted_by_each(self) -> None:
        for noting in range(WRITERS):
            self.table = Table(mode=self.MODE)
            others = [writer for writer in range(WRITERS) if writer != noting]
            self.take(*(Step(writer, Remove(writer)) for writer in others))
            self.take(Step(noting, Remove(31)))
            held = {writer: place for place, writer in enumerate(others, 1)}
            self.assert_recorded(noting, 0, held)

    def test_each_phase_is_noted(self) -> None:
        steps = self.steps_of(1, Put(1, 1, 1))
        for taken in range(len(steps) + 1):
            self.table = Table(mode=self.MODE)
            self.take(*steps[:taken], Step(2, Remove(9)))
            done = taken == len(steps)
            held = {1: 1} if 0 < taken and not done else {}
            self.assert_recorded(2, 1 if done else 0, held)

    def test_each_order_of_the_commits(self) -> None:
        """The lists rise by timestamp, whatever the order of completions."""
        for order in itertools.permutations(range(4)):
            self.table = Table(mode=self.MODE)
            operations = [self.steps_of(w, Put(w, w, w)) for w in range(4)]
            self.take(Step(10, Remove(30)), *(steps[0] for steps in operations))
            self.take(Step(11, Remove(31)))
            for place, writer in enumerate(order):
                self.assert_last(1, operations[writer][1:])
                done = sorted(other + 2 for other in order[: place + 1])
                for watching in (10, 11):
                    found = self.table.candidates(watching)
                    self.assertEqual(found, lists(done, done))
                for other in order[place + 1 :]:
                    found = self.table.candidates(other)
                    self.assertEqual(found, lists(done, done))
            places = {writer + 2: place for place, writer in enumerate(order, 1)}
            self.assertEqual(self.table.places, places)

    def test_instants_of_any_group_and_key(self) -> None:
        self.take(Step(9, Remove(31)))
        for group in range(GROUPS):
            self.commit(Put(group, 1, group), Put(8, 1, 0))
        self.assert_candidates({9: [*range(2, 18)]})

    def test_a_remove_counts_as_a_put_does(self) -> None:
        self.commit(Put(1, 1, 1))
        self.take(Step(9, Put(2, 2, 2)))
        self.commit(Remove(1))
        self.assertEqual(self.table.places, {1: 1, 3: 2})
        self.assert_candidates({9: [3]})

    def test_refusals_in_order(self) -> None:
        """17, then 10, then 14; any 64-bit number names a writer."""
        self.commit(Put(1, 1, 1))
        self.take(Step(3, Put(2, 2, 2)))
        self.commit(Put(1, 2, 1))
        wide = (16, 17, 128, 255, 256, 259, 2**16 + 3, 2**32 + 3, 2**63, NEVER_ISSUED)
        for number in wide:
            self.assertEqual(self.table.candidates(number), refused_with(10))
        for number in range(WRITERS):
            if number != 3:
                self.assertEqual(self.table.candidates(number), refused_with(14))
        self.assertEqual(self.table.candidates(3), lists([3], [3]))
        self.table.horizon = 4
        for number in (0, 3, 15, *wide):
            self.assertEqual(self.table.candidates(number), refused_with(17))

    def test_the_call_changes_nothing(self) -> None:
        self.take(Step(1, Remove(9)), Step(3, Put(2, 2, 2)))
        self.commit(Put(1, 1, 1))
        before = copy.deepcopy(self.table)
        for number in (*range(WRITERS + 1), NEVER_ISSUED):
            self.table.candidates(number)
        self.assertEqual(self.table, before)

    def test_each_phase_from_1_on(self) -> None:
        start, *rest, commit = self.steps_of(3, Put(2, 2, 2))
        self.take(start)
        self.commit(Put(1, 1, 1))
        self.assert_candidates({3: [2]})
        for step in rest:
            self.assertEqual(self.take(step), [0])
            self.assert_candidates({3: [2]})
        self.assertEqual(self.take(commit), [1])
        self.assert_candidates({})

    def test_refused_steps_change_nothing(self) -> None:
        self.commit(Put(1, 1, 1))
        self.take(Step(2, Put(2, 2, 2)), Step(3, Put(3, 3, 3)))
        before = copy.deepcopy(self.table)
        for step, answer in (
            (Step(3, Put(4, 4, 4)), 14),
            (Step(3, COMMIT), 14),
            (Step(4, GIVE_UP), 14),
            (Step(4, COMMIT), 14),
            (Step(4, Put(32, 4, 4)), 12),
            (Step(4, Put(4, 4, 8)), 13),
            (Step(4, Put(4, ERASED_WORD, 4)), 18),
            (Step(16, Put(4, 4, 4)), 10),
        ):
            self.assertEqual(self.take(step), [answer])
            self.assertEqual(self.table, before)
        while self.table.last_timestamp < MAX_TIMESTAMP:
            self.take(Step(5, Remove(9)), Step(5, GIVE_UP))
        before = copy.deepcopy(self.table)
        self.assertEqual(self.take(Step(5, Put(4, 4, 4))), [15])
        self.assertEqual(self.table, before)

    def test_cleans_change_none_of_it(self) -> None:
        self.commit(Put(1, 1, 1))
        self.take(Step(2, Put(2, 2, 2)), Step(3, Put(3, 3, 3)))
        self.commit(Put(1, 2, 1), Put(1, 3, 1))
        for at, answer in ((0, 0), (4, 0), (3, 34), (5, 0), (6, 34), (5, 0)):
            self.assert_clean(at, answer)
            self.assertEqual(self.table.places, {1: 1, 4: 2, 5: 3})
            self.assert_recorded(2, 1, {})
            self.assert_recorded(3, 1, {2: 2})
            self.assert_candidates({2: [4, 5], 3: [4, 5]})
        self.assert_last(1, self.steps_of(3, Put(3, 3, 3))[1:])
        self.assertEqual(self.table.places, {1: 1, 4: 2, 5: 3, 3: 4})

    def test_all_timestamps(self) -> None:
        """127 candidates; the places and a count are at their largest."""
        slow = self.steps_of(15, Put(31, 1, 7))
        self.take(slow[0])
        for number in range(126):
            self.commit(Put(number % 5, number, number % 5), writer=number % 10)
        last = self.steps_of(14, Put(30, 1, 6))
        self.take(last[0])
        self.assert_recorded(14, 126, {15: 1})
        listed = [*range(2, 128)]
        self.assert_candidates({15: listed, 14: []})
        self.assert_last(1, slow[1:])
        self.assertEqual(self.table.places[1], 127)
        self.assert_candidates({14: [1]})
        self.assert_last(1, last[1:])
        self.assertEqual(self.table.places[128], 128)
        self.assertEqual(sorted(self.table.places.values()), [*range(1, 129)])
        self.assertTrue(self.table.in_range())

    def test_127_candidates(self) -> None:
        self.take(Step(15, Put(31, 1, 7)))
        for number in range(127):
            self.commit(Put(number % 5, number, number % 5), writer=number % 10)
        self.assert_candidates({15: [*range(2, 129)]})

    def test_walks_with_cleans(self) -> None:
        """`CheckedCandidates` holds them to what the history says."""
        listed = 0
        for seed, profile in enumerate(PROFILES):
            table, checked = Table(mode=self.MODE), CheckedCandidates(self.MODE)
            for event in walk_with_cleans(Draw(seed), profile, 150, table, 0.1):
                checked.take(event)
            self.assertEqual(table, checked.table)
            listed += sum(table.candidates(w).by_start.count for w in range(WRITERS))
        self.assertGreater(listed, 0)


class CandidateInstantsOfThePessimisticMode(CandidateInstants):
    """Q-12 in a pessimistic table."""

    MODE = Mode.PESSIMISTIC


class CandidatesSetByHand(unittest.TestCase):
    """Q-12 on tables that no steps lead to."""

    def table_with(
        self, *completed: int, own: int = 5, last: int = 9, phase: int = Phase.WRITE
    ) -> Table:
        """Writer 3 holds a timestamp, and these timestamps are completed."""
        timeline = {at: Instant(State.COMPLETED, at % 8) for at in completed}
        table = Table(last, timeline)
        table.writers[3] = Writer(phase, Put(9, 90, 7), own, 7, 0)
        return table

    def test_way_one_uses_no_place_and_no_count(self) -> None:
        table = self.table_with(1, 2, 5, 6, 9)
        table.noted[3][4] = 2
        for place in (0, 1, 128):
            for count in (0, 1, 128):
                table.places = dict.fromkeys(range(1, 10), place)
                table.counts[3] = count
                found = table.candidates(3)
                self.assertEqual(found.by_start, list_of(2, 6, 9))
                expected = (1, 2, 5, 6, 9) if place > count else ()
                self.assertEqual(found.by_completion, list_of(*expected))

    def test_way_two_uses_no_noted_timestamp(self) -> None:
        table = self.table_with(1, 2, 5, 6, 9)
        table.places = {1: 1, 2: 3, 5: 3, 6: 2, 9: 4}
        table.counts[3] = 2
        for noted in range(10):
            table.noted[3] = [noted] * WRITERS
            self.assertEqual(table.candidates(3).by_completion, list_of(2, 5, 9))

    def test_noted_timestamps(self) -> None:
        """Not completed, twice, its own, above its own, at each place of the row."""
        table = self.table_with(1, 2, 5, 6, 9)
        table.timeline[3] = Instant(State.INFLIGHT, 3)
        table.timeline[4] = REQUESTED
        for noted, listed in (
            ((), (6, 9)),
            ((3, 4, 7), (6, 9)),
            ((2, 2), (2, 6, 9)),
            ((5,), (5, 6, 9)),
            ((9, 6, 1), (1, 6, 9)),
            ((2, 1, 2, 5, 5, 9), (1, 2, 5, 6, 9)),
        ):
            for first in (0, WRITERS - len(noted)):
                with self.subTest(noted=noted, first=first):
                    table.noted[3] = list(NO_ROW)
                    table.noted[3][first : first + len(noted)] = noted
                    found = table.candidates(3)
                    self.assertEqual(found, lists(listed, ()))

    def test_only_the_writer_s_own_row_and_count(self) -> None:
        table = self.table_with(1, 2)
        table.places = {1: 1, 2: 2}
        table.counts = [0 if number != 3 else 1 for number in range(WRITERS)]
        table.noted = [[1] * WRITERS for _ in range(WRITERS)]
        table.noted[3] = list(NO_ROW)
        self.assertEqual(table.candidates(3), lists((), (2,)))
        table.counts = [128 if number != 3 else 0 for number in range(WRITERS)]
        table.noted[3] = [2] * WRITERS
        self.assertEqual(table.candidates(3), lists((2,), (1, 2)))

    def test_places(self) -> None:
        """Equal ones, 0 for a completed instant, and one of an instant that is not
        completed, or of none.
        """
        table = self.table_with(1, 2, 5, 6)
        table.timeline[3] = Instant(State.INFLIGHT, 3)
        table.timeline[4] = REQUESTED
        table.places = {1: 2, 2: 2, 3: 9, 4: 9, 5: 1, 8: 9, 100: 9}
        for count, listed in ((0, (1, 2, 5)), (1, (1, 2)), (2, ()), (128, ())):
            table.counts[3] = count
            self.assertEqual(table.candidates(3), lists((6,), listed))

    def test_the_ends_of_the_timeline(self) -> None:
        table = self.table_with(1, 128, own=127, last=128)
        table.places = {1: 128, 128: 1}
        self.assertEqual(table.candidates(3), lists((128,), (1, 128)))
        table.counts[3] = 127
        self.assertEqual(table.candidates(3), lists((128,), (1,)))
        table.counts[3] = 128
        self.assertEqual(table.candidates(3), lists((128,), ()))
        table = self.table_with(*range(1, 129), own=1, last=128)
        table.noted[3][0] = 1
        table.places = dict.fromkeys(range(1, 129), 1)
        every = range(1, 129)
        self.assertEqual(table.candidates(3), lists((*every,), (*every,)))

    def test_phase_0_with_a_timestamp(self) -> None:
        """The call is refused with 14, whatever the writer's numbers are."""
        table = self.table_with(6, phase=Phase.READY)
        table.places, table.noted[3] = {6: 1}, [6] * WRITERS
        self.assertEqual(table.candidates(3), refused_with(14))

    def test_a_ready_writer_that_holds_a_timestamp_is_not_noted(self) -> None:
        for mode in Mode:
            table = self.table_with(1, 2, phase=Phase.READY)
            table.mode = mode
            table.writers[4] = Writer(Phase.READ, Put(1, 1, 1), 4, 1, 0)
            table.writers[15] = Writer(Phase.COMMIT, Put(1, 1, 1), 9, 1, 0)
            self.assertEqual(table.step(Step(0, Put(5, 5, 5))), 0)
            self.assertEqual(table.counts[0], 2)
            self.assertEqual(table.noted[0], [0] * 4 + [4] + [0] * 10 + [9])

    def test_the_starting_writer_does_not_note_itself(self) -> None:
        """Though it is ready and holds a timestamp, and keeps older notes."""
        table = self.table_with(1, 2, 6, phase=Phase.READY)
        table.counts[3], table.noted[3] = 9, [8] * WRITERS
        self.assertEqual(table.step(Step(3, Put(5, 5, 5))), 0)
        self.assertEqual((table.counts[3], table.noted[3]), (3, NO_ROW))
        self.assertEqual(table.candidates(3), lists((), ()))

    def test_a_start_counts_all_completed_instants(self) -> None:
        table = self.table_with(*range(1, 128), own=1, last=127)
        self.assertEqual(table.step(Step(5, Remove(1))), 0)
        self.assertEqual(table.counts[5], 127)

    def test_own_instant_completed_at_its_commit(self) -> None:
        """It is not counted, whatever it was, and its place is set anew."""
        for mode in Mode:
            for own, completed, place in (
                (5, (), 1),
                (5, (5,), 1),
                (5, (1, 2, 6), 4),
                (5, (1, 2, 5, 6), 4),
                (128, range(1, 128), 128),
                (128, range(1, 129), 128),
                (1, range(1, 129), 128),
            ):
                with self.subTest(mode=mode, own=own, completed=completed):
                    last = max(9, own, *completed)
                    table = self.table_with(*completed, own=own, last=last)
                    table.mode, table.writers[3].phase = mode, Phase.COMMIT
                    table.places = {own: 77, 2: 66, 100: 55}
                    kept = table.places | {own: place}
                    self.assertEqual(table.step(Step(3, COMMIT)), 1)
                    self.assertEqual(table.places, kept)

    def test_own_instant_inflight_or_requested_at_its_commit(self) -> None:
        for instant in (REQUESTED, Instant(State.INFLIGHT, 7)):
            table = self.table_with(1, 2, phase=Phase.COMMIT)
            table.timeline |= {5: instant, 4: REQUESTED, 3: Instant(State.INFLIGHT, 1)}
            self.assertEqual(table.step(Step(3, COMMIT)), 1)
            self.assertEqual(table.places, {5: 3})

    def test_only_a_commit_sets_a_place(self) -> None:
        """Nor does an ending take one back."""
        for mode in Mode:
            steps = operation_steps(3, Put(9, 90, 7), mode)[1:-1]
            for taken in range(len(steps) + 1):
                table = self.table_with(own=9, phase=Phase.LOOK_UP)
                table.mode, table.places = mode, {1: 4, 5: 6, 9: 7, 77: 8}
                for step in steps[:taken]:
                    self.assertEqual(table.step(step), 0)
                self.assertEqual(table.step(Step(3, GIVE_UP)), 6)
                self.assertEqual(table.places, {1: 4, 5: 6, 9: 7, 77: 8})

    def test_an_end_clears_the_own_row_and_count_alone(self) -> None:
        for mode in Mode:
            for action, phase in ((GIVE_UP, Phase.READ), (COMMIT, Phase.COMMIT)):
                table = self.table_with(phase=phase)
                table.mode = mode
                table.counts = [number + 1 for number in range(WRITERS)]
                table.noted = [[number % 9] * WRITERS for number in range(WRITERS)]
                kept = copy.deepcopy(table)
                kept.counts[3], kept.noted[3] = 0, NO_ROW
                self.assertLess(table.step(Step(3, action)), 10)
                self.assertEqual(table.counts, kept.counts)
                self.assertEqual(table.noted, kept.noted)

    def test_steps_that_go_on_change_nothing(self) -> None:
        for mode in Mode:
            table = self.table_with(phase=Phase.LOOK_UP)
            table.mode = mode
            table.counts = [number + 1 for number in range(WRITERS)]
            table.noted = [[number % 9] * WRITERS for number in range(WRITERS)]
            kept = copy.deepcopy((table.places, table.counts, table.noted))
            for step in operation_steps(3, Put(9, 90, 7), mode)[1:-1]:
                self.assertEqual(table.step(step), 0)
                self.assertEqual((table.places, table.counts, table.noted), kept)

    def test_a_pending_instant_of_no_writer(self) -> None:
        """An instant is noted for its holder, not for its state."""
        table = self.table_with(phase=Phase.READY)
        table.timeline = {4: REQUESTED, 6: Instant(State.INFLIGHT, 1)}
        table.writers[8] = Writer(Phase.WRITE, Put(1, 1, 1), 2, 1, 0)
        self.assertEqual(table.step(Step(0, Remove(1))), 0)
        self.assertEqual(table.noted[0], [0] * 8 + [2] + [0] * 7)

    def test_two_holders_of_one_timestamp(self) -> None:
        table = self.table_with(own=5)
        table.writers[4] = Writer(Phase.COMMIT, Put(1, 1, 1), 5, 1, 0)
        self.assertEqual(table.step(Step(0, Remove(1))), 0)
        self.assertEqual(table.noted[0][3:5], [5, 5])
        self.assertEqual(table.step(Step(4, COMMIT)), 1)
        self.assertEqual(table.candidates(0), lists((5,), (5,)))
        self.assertEqual(table.candidates(3), lists((), (5,)))


class ConflictSearch(unittest.TestCase):
    """Document 02's Q-2."""

    def test_hit_and_count(self) -> None:
        completed = Instant(State.COMPLETED, 1)
        for base, completions, expected in (
            (1, (2, 4), Search(4, 3)),
            (1, (), Search(None, 5)),
            (3, (3,), Search(None, 3)),
            (6, (2, 4), Search(None, 0)),
            (7, (2, 4), Search(None, 0)),
        ):
            with self.subTest(base=base, completions=completions):
                timeline = dict.fromkeys(range(1, 7), REQUESTED)
                timeline |= dict.fromkeys(completions, completed)
                self.assertEqual(conflict_search(timeline, 1, base, 6), expected)

    def test_first_sentence(self) -> None:
        """It looks "from the last issued timestamp down" and leaves "at the first
        hit or at the base".
        """
        draw = random.Random(2)
        instants = REQUESTED, *(Instant(State.COMPLETED, group) for group in range(3))
        for _ in range(1000):
            timeline = {ts: draw.choice(instants) for ts in range(1, draw.randrange(12))}
            base, last = draw.randrange(12), draw.randrange(12)
            hit, looked_at = None, 0
            for timestamp in range(last, base, -1):
                looked_at += 1
                if timeline.get(timestamp) == instants[2]:
                    hit = timestamp
                    break
            self.assertEqual(conflict_search(timeline, 1, base, last), (hit, looked_at))


class Refusals(TableTest):
    """Document 01's "Answer numbers" from 10 on, and 18 of Q-3."""

    def test_order(self) -> None:
        for operation, ready, unknown in (
            (Put(32, 0, 8), 12, 10),
            (Put(31, 0, 8), 13, 10),
            (Put(32, 0, 7), 12, 10),
            (Remove(MAX_NUMBER), 12, 10),
            (Put(31, ERASED_WORD, 7), 18, 10),
            (Put(31, ERASED_WORD - 1, 7), 0, 10),
            (Put(31, ERASED_WORD - 1, 7), 14, 10),
            (Put(31, ERASED_WORD, 7), 18, 10),
            (Put(32, ERASED_WORD, 8), 12, 10),
            (Put(0, ERASED_WORD, 8), 13, 10),
        ):
            with self.subTest(operation=operation):
                self.assertEqual(self.take(Step(0, operation)), [ready])
                self.assertEqual(self.take(Step(16, operation)), [unknown])
        self.assertEqual(self.take(Step(MAX_NUMBER, GIVE_UP)), [10])
        self.assertEqual(self.take(Step(15, Put(0, 0, 0))), [0])

    def test_order_with_all_timestamps_issued(self) -> None:
        for _ in range(127):
            self.take(Step(0, Put(0, 0, 0)), Step(0, GIVE_UP))
        self.take(Step(1, Remove(0)))
        for step, answer in (
            (Step(0, Put(32, 0, 0)), 12),
            (Step(0, Put(0, 0, 8)), 13),
            (Step(0, Put(0, ERASED_WORD, 0)), 18),
            (Step(1, Put(0, ERASED_WORD, 0)), 18),
            (Step(1, Put(0, 0, 0)), 14),
            (Step(0, Put(0, 0, 0)), 15),
            (Step(0, Remove(0)), 15),
            (Step(1, LOOK_UP), 2),
        ):
            with self.subTest(step=step):
                self.assertEqual(self.take(step), [answer])

    def test_phase_before_lock(self) -> None:
        self.take(*through(0, INDEX, Put(1, 10, 3)))
        self.take(*through(1, READ, Put(2, 20, 4)))
        self.assertEqual(self.take(Step(1, INDEX), Step(2, INDEX)), [14, 14])

    def test_a_refused_step_changes_nothing(self) -> None:
        refused = set()
        for seed, profile in enumerate(PROFILES):
            self.table = Table()
            for step in walk(Draw(seed), profile, 100, Table()):
                before = copy.deepcopy(self.table)
                answer = self.table.step(step)
                if answer >= Answer.NO_SUCH_WRITER:
                    refused.add(int(answer))
                    self.assertEqual(self.table, before)
        self.assertLessEqual({10, 12, 13, 14, 16, 18}, refused)
        self.assertNotIn(19, refused)

    def test_only_a_start_is_refused_for_its_value(self) -> None:
        """A writer that has the erased word, which no steps give, goes on, gives up
        and starts as any other.
        """
        for end, answer in ((between(0, LOOK_UP, COMMIT), 1), ([Step(0, GIVE_UP)], 6)):
            with self.subTest(answer=answer):
                self.table = Table()
                self.take(Step(0, Put(1, 10, 3)))
                self.table.writers[0].operation = Put(1, ERASED_WORD, 3)
                self.assert_last(answer, end)
                self.assert_rows(1, *[(1, ERASED_WORD, 3)] * (answer == 1))
        self.table.writers[0].operation = Put(1, ERASED_WORD, 3)
        self.assert_last(1, whole(0, Put(1, 11, 3)))

    def test_a_log_codes_the_erased_word(self) -> None:
        step = Step(0, Put(1, ERASED_WORD, 2))
        log = bytes.fromhex("00 01 01 FF FF FF FF FF FF FF FF FF 01 02")
        self.assertEqual(encode_step(step), log)
        self.assertEqual(read_record(log, 0), (step, len(log)))
        self.assertEqual(program(log), "18\nstop 0 at 14\n")


class OutOfRange(TableTest):
    """Answer 17, on tables not reached from a fresh one."""

    def setUp(self) -> None:
        super().setUp()
        self.take(*whole(0, Put(1, 10, 3)), *through(1, INDEX, Put(2, 20, 4)))

    def assert_out_of_range(self) -> None:
        before = copy.deepcopy(self.table)
        self.assertEqual(self.take(Step(16, Put(32, 0, 8))), [17])
        self.assertEqual(self.take(Step(0, Put(0, ERASED_WORD, 0))), [17])
        self.assertEqual(self.table.point_read(32, 1), 17)
        buffer = [9] * 99
        self.assertEqual(self.table.scan(1, buffer), (17, 0))
        self.assertEqual(buffer, [9] * 99)
        self.assertEqual(self.table.instant(1), 17)
        self.assertEqual(self.table.clean(NEVER_ISSUED), 17)
        for writer in (0, 1, 16, NEVER_ISSUED):
            self.assertEqual(self.table.candidates(writer), refused_with(17))
        self.assertEqual(self.table, before)

    def test_reached_table(self) -> None:
        self.assertTrue(self.table.in_range())

    def test_table(self) -> None:
        for name, value in (
            ("last_timestamp", 129),
            ("last_timestamp", 1),
            ("lock", 16),
            ("horizon", 3),
            ("index", {1: 8}),
            ("index", {32: 0}),
            ("timeline", {3: REQUESTED}),
            ("timeline", {0: REQUESTED}),
            ("timeline", {1: Instant(State.COMPLETED, 8)}),
        ):
            with self.subTest(name=name, value=value):
                kept = getattr(self.table, name)
                setattr(self.table, name, value)
                self.assert_out_of_range()
                setattr(self.table, name, kept)
                self.assertTrue(self.table.in_range())

    def test_writer(self) -> None:
        for name, value in (
            ("phase", 7),
            ("timestamp", 3),
            ("timestamp", 0),
            ("base", 3),
            ("group", 8),
            ("operation", Remove(32)),
            ("operation", Put(32, 0, 0)),
            ("operation", Put(0, MAX_NUMBER + 1, 0)),
            ("operation", Put(0, 0, 8)),
        ):
            with self.subTest(name=name, value=value):
                writer = self.table.writers[1]
                kept = getattr(writer, name)
                setattr(writer, name, value)
                self.assert_out_of_range()
                setattr(writer, name, kept)
                self.assertTrue(self.table.in_range())


    def test_places(self) -> None:
        for timestamp in range(1, MAX_TIMESTAMP + 1):
            kept = dict(self.table.places)
            self.table.places[timestamp] = 128
            self.assertTrue(self.table.in_range())
            self.table.places[timestamp] = 129
            self.assert_out_of_range()
            self.table.places = kept

    def test_counts(self) -> None:
        for writer in range(WRITERS):
            self.table.counts[writer] = 128
            self.assertTrue(self.table.in_range())
            self.table.counts[writer] = 129
            self.assert_out_of_range()
            self.table.counts[writer] = 0

    def test_noted(self) -> None:
        """For all rows; the last issued timestamp is 2."""
        for writer, other in itertools.product(range(WRITERS), repeat=2):
            self.table.noted[writer][other] = 2
            self.assertTrue(self.table.in_range())
            for noted in (3, 128, 129):
                self.table.noted[writer][other] = noted
                self.assertFalse(self.table.in_range())
            self.table.noted[writer][other] = 0
        for writer, other in ((0, 0), (0, 15), (7, 8), (15, 0), (15, 15)):
            self.table.noted[writer][other] = 3
            self.assert_out_of_range()
            self.table.noted[writer][other] = 0
        self.assertTrue(self.table.in_range())


class Reading(TableTest):
    """Document 01's "Reading at a timestamp"."""

    def test_point_read(self) -> None:
        self.take(*whole(0, Put(1, 10, 3)), *whole(0, Put(1, 11, 3)))
        self.assertIsNone(self.table.point_read(1, 0))
        self.assertEqual(self.table.point_read(1, 1), Row(1, 10, 3))
        self.assertEqual(self.table.point_read(1, NEVER_ISSUED), Row(1, 11, 3))
        self.assertIsNone(self.table.point_read(31, 2))
        self.assertEqual(self.table.point_read(32, 2), Answer.NO_SUCH_KEY)

    def test_one_key_in_two_groups(self) -> None:
        """Not reached from a fresh table."""
        self.table.last_timestamp = 2
        self.table.timeline = {
            1: Instant(State.COMPLETED, 6),
            2: Instant(State.COMPLETED, 5),
        }
        self.table.slices = {(6, 1): {1: 10}, (5, 2): {1: 99, 2: 7}}
        self.assert_rows(2, (1, 99, 5), (1, 10, 6), (2, 7, 5))
        self.assertEqual(self.table.point_read(1, 2), Row(1, 99, 5))
        self.assertEqual(self.table.point_read(1, 1), Row(1, 10, 6))

    def test_completed_instant_without_a_slice(self) -> None:
        """Not reached from a fresh table: no rows, for readers and as a base."""
        self.take(*whole(0, Put(1, 10, 3)))
        self.table.slices.clear()
        self.assert_rows(1)
        self.take(*whole(0, Put(2, 20, 3)))
        self.assert_rows(2, (2, 20, 3))

    def test_timestamp_completed_in_another_group(self) -> None:
        """Not reached from a fresh table: the slice of the other group stays."""
        self.table.last_timestamp = 1
        self.table.timeline = {1: Instant(State.COMPLETED, 0)}
        self.table.slices = {(0, 1): {0: 10}}
        self.table.writers[1] = Writer(Phase.WRITE, Put(5, 55, 1), 1, 1, 0)
        self.take(Step(1, WRITE))
        self.assert_rows(1, (0, 10, 0))

    def test_base_completed_in_another_group(self) -> None:
        """Not reached from a fresh table: the writer's group has no slice there."""
        self.table.last_timestamp = 2
        self.table.timeline = {
            1: Instant(State.COMPLETED, 1),
            2: Instant(State.INFLIGHT, 0),
        }
        self.table.slices = {(1, 1): {5: 7}}
        self.table.index = {5: 1}
        self.table.writers[0] = Writer(Phase.WRITE, Put(2, 9, 0), 2, 0, 1)
        self.assert_last(1, between(0, WRITE, COMMIT))
        self.assert_rows(2, (2, 9, 0), (5, 7, 1))

    def test_one_timestamp_in_two_groups(self) -> None:
        """Not reached from a fresh table: the last commit names the group."""
        self.table.last_timestamp = 1
        self.table.timeline = {1: Instant(State.INFLIGHT, 0)}
        for writer, put in enumerate((Put(0, 10, 0), Put(5, 55, 1))):
            self.table.writers[writer] = Writer(Phase.WRITE, put, 1, put.group, 0)
        self.take(Step(0, WRITE), Step(1, WRITE))
        self.assert_last(1, between(0, INDEX, COMMIT))
        self.assert_rows(1, (0, 10, 0))
        self.assert_last(1, between(1, INDEX, COMMIT))
        self.assert_rows(1, (5, 55, 1))

    def test_own_lock_does_not_refuse(self) -> None:
        """Not reached from a fresh table."""
        self.take(*through(0, WRITE, Put(1, 10, 3)))
        self.table.lock = 0
        self.assertEqual(self.take(Step(0, INDEX)), [0])


class StepLog(unittest.TestCase):
    """Document 01's "The step log"."""

    STEPS = (
        Step(0, Put(99, MAX_NUMBER, 128)),
        Step(MAX_NUMBER, Remove(16_384)),
        *(Step(300, action) for action in Action),
    )

    def test_read_back(self) -> None:
        log = encode(self.STEPS)
        self.assertEqual(read_log(log), ([*self.STEPS], Stop.USED_UP, len(log)))

    def test_old_logs(self) -> None:
        """Q-8: what the old rule read is read the same, up to what was too large."""
        draw, stops, wider = random.Random(8), set(), 0
        numbers = [encode_number(n) for n in (0, 1, 2, 3, 9, 2**28, 2**32 - 1, 2**32)]
        numbers += [bytes.fromhex(faulty) for faulty in ("0A", "80 00", "80 " * 4)]
        for _ in range(5_000):
            log = b"".join(draw.choices(numbers, k=draw.randrange(12)))
            old, new = read_log(log, OLD_CODING), read_log(log)
            stops.add(old[1])
            if old[1] == Stop.TOO_LARGE:
                self.assertEqual(new[0][: len(old[0])], old[0])
                wider += old != new
            else:
                self.assertEqual(old, new)
        self.assertEqual(stops, set(Stop) - {Stop.NO_PLACE})
        self.assertGreater(wider, 0)

    def test_records(self) -> None:
        largest = "ff" * 9 + "01"
        self.assertEqual(encode_step(self.STEPS[0]).hex(), f"000163{largest}8001")
        self.assertEqual(encode_step(self.STEPS[1]).hex(), f"{largest}02808001")
        kinds = [encode_step(step) for step in self.STEPS[2:]]
        self.assertEqual(kinds, [bytes([0xAC, 2, kind]) for kind in range(3, 10)])

    def test_all_numbers_of_up_to_two_bytes(self) -> None:
        """Each number has one form; every other pair of bytes is refused."""
        read = {}
        for first in range(256):
            for log in (bytes([first]), *(bytes([first, b]) for b in range(256))):
                try:
                    number, size = read_number(log, 0)
                except Malformed:
                    continue
                if size == len(log):
                    self.assertNotIn(number, read)
                    read[number] = log
        self.assertEqual(read, {n: encode_number(n) for n in range(2**14)})

    def test_refused_numbers(self) -> None:
        for coded, stop in (
            ("", 20),
            ("80 80", 20),
            ("FF " * 9, 20),
            ("80 80 00", 21),
            ("80 80 80 00", 21),
            ("80 80 80 80 80 00", 21),
            ("80 " * 9 + "00", 21),
            ("80 " * 9 + "02", 22),
            ("80 " * 10, 22),
            ("80 " * 10 + "00", 22),
            ("FF " * 9 + "81", 22),
        ):
            with self.subTest(coded=coded), self.assertRaises(Malformed) as raised:
                read_number(bytes.fromhex(coded), 0)
            self.assertEqual(raised.exception.stop, stop)

    def test_refused_records(self) -> None:
        for coded, stop in (
            ("00", 20),
            ("00 00", 23),
            ("00 0A", 23),
            ("00 0A 80 00", 23),
            ("00 FF FF FF FF 0F", 23),
            ("00 83 00", 21),
            ("00 83 80 80 80 10", 23),
            ("00 83 " + "80 " * 8 + "02", 22),
            ("80 00 00", 21),
            ("00 01", 20),
            ("00 01 01 01", 20),
            ("00 01 80 00", 21),
            ("00 01 01 80 00 00", 21),
            ("00 01 01 01 80 00", 21),
            ("00 02", 20),
            ("00 02 " + "FF " * 9 + "1F", 22),
        ):
            with self.subTest(coded=coded), self.assertRaises(Malformed) as raised:
                read_record(bytes.fromhex(coded), 0)
            self.assertEqual(raised.exception.stop, stop)

    def test_writer(self) -> None:
        steps = [Step(0, LOOK_UP), Step(1, Remove(2))]
        buffer = bytearray(b"\xEE" * 8)
        self.assertEqual(write_log(steps, buffer, 2), (LogWrite.WRITTEN, 5))
        self.assertEqual(buffer.hex(" "), "ee ee 00 03 01 02 02 ee")
        self.assertEqual(write_log(steps, buffer, 4), (LogWrite.NO_FIT, 0))
        self.assertEqual(write_log(steps, buffer, 9), (LogWrite.PLACE_PAST_END, 0))
        self.assertEqual(write_log([], buffer, 9), (LogWrite.PLACE_PAST_END, 0))
        self.assertEqual(write_log([], buffer, 8), (LogWrite.WRITTEN, 0))
        self.assertEqual(buffer.hex(" "), "ee ee 00 03 01 02 02 ee")
        self.assertEqual(write_log(steps, buffer, 3), (LogWrite.WRITTEN, 5))
        self.assertEqual(buffer.hex(" "), "ee ee 00 00 03 01 02 02")


class Runs(unittest.TestCase):
    """Document 01's runs and the program's text."""

    def test_a_stopped_run_keeps_the_steps_before_the_stop(self) -> None:
        table, expected = Table(), Table()
        run = run_log(table, EXAMPLE + bytes.fromhex("63 02 05 00 0A"), 9)
        self.assertEqual(run, Run(Stop.NO_SUCH_KIND, [0, 0, 0, 0, 0, 0, 1, 10], 21))
        run_log(expected, EXAMPLE, 9)
        self.assertEqual(table, expected)

    def test_no_place_comes_after_used_up_and_before_the_record(self) -> None:
        run = run_log(Table(), EXAMPLE, 7)
        self.assertEqual(run, Run(Stop.USED_UP, [0, 0, 0, 0, 0, 0, 1], 18))
        run = run_log(Table(), EXAMPLE, 3)
        self.assertEqual(run, Run(Stop.NO_PLACE, [0, 0, 0], 10))
        self.assertEqual(run_log(Table(), b"\x80", 0), Run(Stop.NO_PLACE, [], 0))
        self.assertEqual(run_log(Table(), b"", 0), Run(Stop.USED_UP, [], 0))

    def test_list_run(self) -> None:
        steps = whole(0, Put(1, 300, 2))
        run = run_steps(Table(), steps, 7)
        self.assertEqual(run, Run(Stop.USED_UP, [0, 0, 0, 0, 0, 0, 1], 7))
        self.assertEqual(run_steps(Table(), steps, 2), Run(Stop.NO_PLACE, [0, 0], 2))
        self.assertEqual(run_steps(Table(), [], 0), Run(Stop.USED_UP, [], 0))

    def test_input_limit(self) -> None:
        step = encode_step(Step(0, GIVE_UP))
        log = step * (MAX_INPUT // 2)
        *answers, stop = program(log).splitlines()
        self.assertEqual((len(answers), set(answers)), (16_384, {"14"}))
        self.assertEqual(stop, "stop 0 at 32768")
        self.assertEqual(program(log + b"\x00"), "too long\n")

    def test_the_scan_is_at_the_last_issued_timestamp(self) -> None:
        put, later = whole(0, Put(1, 10, 1)), Step(0, Put(1, 11, 1))
        lines = program(encode([*put, later, *through(0, COMMIT)])).splitlines()
        self.assertEqual(lines[-3:], ["1", "stop 0 at 34", "1 11 1"])


class Histories(TableTest):
    """Document 01's "The book behind demand 3"."""

    def record(self, *steps: Step) -> History:
        history = History()
        for step in steps:
            history.record(step, self.table.step(step), self.table)
        return history

    def test_commit(self) -> None:
        put = Put(1, 10, 3)
        history = self.record(*whole(0, put), Step(1, Remove(1)))
        self.assertEqual(history.committed, {1: Committed(put, 3)})
        self.assertEqual(history.open, {1: (2, Remove(1))})
        self.assertEqual(history.last_timestamp, 2)

    def test_the_group_is_that_of_the_commit(self) -> None:
        history = self.record(*whole(0, Put(1, 10, 3)), *whole(0, Put(1, 11, 4)))
        self.assertEqual(history.rows(2), [Row(1, 11, 3)])

    def test_ends_and_refusals(self) -> None:
        history = self.record(
            *through(0, LOOK_UP, Remove(1)),
            Step(0, Put(32, 0, 0)),
            Step(16, Put(1, 0, 0)),
            Step(0, GIVE_UP),
            Step(1, Put(1, 10, 3)),
            Step(1, GIVE_UP),
        )
        self.assertEqual(history, History(last_timestamp=2))

    def test_rows_are_newest_by_timestamp(self) -> None:
        history = History(
            3,
            {},
            {
                3: Committed(Put(1, 12, 1), 1),
                1: Committed(Put(1, 10, 1), 1),
                2: Committed(Remove(1), 1),
            },
        )
        listings = [[], [Row(1, 10, 1)], [], [Row(1, 12, 1)], [Row(1, 12, 1)]]
        self.assertEqual([history.rows(t) for t in range(5)], listings)

    def test_stable(self) -> None:
        history = History(4, {0: (3, Remove(0))}, {})
        stable = [timestamp for timestamp in range(7) if history.is_stable(timestamp)]
        self.assertEqual(stable, [1, 2])
        history.open.clear()
        stable = [timestamp for timestamp in range(7) if history.is_stable(timestamp)]
        self.assertEqual(stable, [1, 2, 3, 4])


class TablesAsNumbers(unittest.TestCase):
    """The numbers that tables are handed over as, and the model's tables of them."""

    def drawn(self) -> list[dict[int, int]]:
        """Tables of each kind and mode."""
        draw = Draw(8)
        tables = []
        for mode in Mode:
            kinds = (random_numbers, out_of_range_numbers, any_numbers)
            tables += [make(draw, mode) for make in kinds for _ in range(20)]
            full = full_numbers(draw, mode, MAX_TIMESTAMP)
            tables += [full, varied(draw, full, 50)]
        return tables

    def test_fresh_tables(self) -> None:
        self.assertEqual(numbers_of(Table()), {})
        self.assertEqual(numbers_of(Table(mode=Mode.PESSIMISTIC)), {0: 1})
        for mode in Mode:
            self.assertEqual(table_of(numbers_of(Table(mode=mode))), Table(mode=mode))

    def test_places(self) -> None:
        row = ((128 - 1) * 8 + 7) * 32 + 31
        table = Table(
            last_timestamp=128,
            timeline={1: REQUESTED, 128: Instant(State.COMPLETED, 7)},
            slices={(0, 1): {0: 5}, (7, 128): {31: 0}, (3, 2): {}},
            index={0: 0, 31: 7},
            lock=15,
            group_locks={7: 0},
            horizon=9,
            places={1: 2, 128: 128},
        )
        table.counts[15], table.noted[15][14] = 3, 4
        table.writers[15] = Writer(Phase.WRITE, Put(6, 7, 0), 8, 5, 2, True)
        writer = {691: 3, 692: 1, 693: 1, 694: 6, 695: 5, 696: 8, 697: 2, 698: 7}
        expected = {1: 9, 2: 128, 3: 16, 10: 1, 11: 1, 42: 8, 43: 1, 170: 17}
        expected |= {171: 2, 298: 128, 314: 3, 315 + 16 * 15 + 14: 4, **writer}
        expected |= {699: 1, 699 + 32768: 5, 699 + row: 1}
        self.assertEqual(numbers_of(table), expected)
        self.assertEqual((PRESENT, VALUES, ROWS), (699, 33467, 32768))
        self.assertEqual(numbers_of(table_of(expected)), expected)

    def test_rows(self) -> None:
        for row in (0, 31, 32, 255, 256, 5000, ROWS - 1):
            self.assertEqual(RowPlace.of(row).row, row)
        self.assertEqual(RowPlace.of(ROWS - 1), (7, 128, 31))
        self.assertEqual(RowPlace.of(256), (0, 2, 0))

    def test_locks(self) -> None:
        """The first lock is the table's in an optimistic table."""
        table = table_of({3: 5, 4: 17})
        self.assertEqual((table.lock, table.group_locks), (4, {1: 16}))
        table = table_of({0: 1, 3: 5, 4: 17})
        self.assertEqual((table.lock, table.group_locks), (None, {0: 4, 1: 16}))

    def test_instants(self) -> None:
        for number in range(256):
            self.assertEqual(instant_number(instant_of(number)), number)
        for number, instant in (
            (1, REQUESTED),
            (2, Instant(State.INFLIGHT, 0)),
            (9, Instant(State.INFLIGHT, 7)),
            (10, Instant(State.COMPLETED, 0)),
            (18, Instant(State.COMPLETED, 8)),
        ):
            self.assertEqual(instant_of(number), instant)

    def test_there_and_back(self) -> None:
        for numbers in self.drawn():
            self.assertEqual(numbers_of(table_of(numbers)), numbers)

    def test_there_and_back_one_by_one(self) -> None:
        """Each number alone, the smallest above 0 and the largest."""
        for place in (*range(PRESENT), *range(PRESENT, VALUES, 999)):
            for number in {1, largest_at(place)}:
                numbers = {place: number}
                self.assertEqual(numbers_of(table_of(numbers)), numbers)

    def test_a_table_of_numbers_goes_on_as_the_one_it_is_of(self) -> None:
        """Though the proposed group is not among the numbers after the look up."""
        draw = Draw(9)
        for mode, profile in itertools.product(Mode, PROFILES):
            table = Table(mode=mode)
            events = list(walk_with_cleans(draw, profile, 150, table, 0.05))
            walked, copied = Table(mode=mode), Table(mode=mode)
            for event in events:
                copied = table_of(numbers_of(copied))
                for each in (walked, copied):
                    clean = isinstance(event, Clean)
                    each.clean(event.at) if clean else each.step(event)
                self.assertEqual(numbers_of(walked), numbers_of(copied))
            self.assertEqual(numbers_of(table), numbers_of(walked))

    def test_proposed_and_found_groups(self) -> None:
        table = Table(index={4: 6})
        table.step(Step(2, Put(4, 9, 3)))
        place = field_place(2, Field.GROUP)
        self.assertEqual(numbers_of(table)[place], 3)
        table.step(Step(2, LOOK_UP))
        self.assertEqual(numbers_of(table)[place], 6)
        back = table_of(numbers_of(table) | {field_place(2, Field.PHASE): 1})
        self.assertEqual(back.writers[2].operation, Put(4, 9, 6))

    def test_the_value_of_a_remove(self) -> None:
        """It is kept until an ending, and not by a start."""
        place = field_place(1, Field.VALUE)
        for mode in Mode:
            table = Table(1, {1: REQUESTED}, index={3: 2}, mode=mode)
            table.writers[1] = Writer(Phase.LOOK_UP, StoredRemove(3, 77), 1)
            for step in operation_steps(1, Remove(3), mode)[1:-1]:
                self.assertEqual(table.step(step), 0)
                self.assertEqual(numbers_of(table)[place], 77)
                self.assertEqual(numbers_of(copy.deepcopy(table))[place], 77)
            self.assertEqual(table.step(Step(1, COMMIT)), 1)
            self.assertNotIn(place, numbers_of(table))
            table.writers[1] = Writer(operation=StoredRemove(3, 77))
            self.assertEqual(numbers_of(table)[place], 77)
            self.assertEqual(table.step(Step(1, Remove(3))), 0)
            self.assertNotIn(place, numbers_of(table))

    def test_limits(self) -> None:
        """At a number's limit the table is in range, one above it is not."""
        for mode, last in itertools.product(Mode, (20, MAX_TIMESTAMP)):
            full = full_numbers(Draw(last), mode, last)
            self.assertTrue(table_of(full).in_range())
            for place in range(1, PRESENT):
                with self.subTest(mode=mode, last=last, place=place):
                    limit = limit_of(place, last)
                    at_limit = {at: n for at, n in full.items() if at != place}
                    at_limit |= {place: limit} if limit else {}
                    self.assertTrue(table_of(at_limit).in_range())
                    if limit < largest_at(place):
                        above = table_of(full | {place: limit + 1})
                        self.assertFalse(above.in_range())

    def test_names(self) -> None:
        names = [name_of(place) for place in (0, 1, 2, 3, 10, 11, 42, 43, 170, 171)]
        expected = ["mode", "horizon", "last timestamp", "lock", "lock"]
        expected += ["index entry", "index entry", "instant", "instant"]
        self.assertEqual(names, [*expected, "place of a completion"])
        names = [name_of(place) for place in (298, 299, 315, 570, 571, 698, 699, 33467)]
        expected = ["place of a completion", "count", "noted timestamp"]
        expected += ["noted timestamp", "a writer's phase", "a writer's value"]
        self.assertEqual(names, [*expected, "presence of a row", "value of a row"])

    def test_pairs_lead_from_one_table_to_another(self) -> None:
        tables = self.drawn()
        for before, after in zip(tables, tables[1:]):
            pairs = dict(leading_pairs(before, after))
            led = {place: n for place, n in (before | pairs).items() if n}
            self.assertEqual(numbers_of(table_of(led)), after)


class ProgramAnyTable(unittest.TestCase):
    """What is printed for the items of any_table."""

    def printed(self, *items: Item) -> list[str]:
        program = Program()
        for item in items:
            program.take(item)
        return program.lines

    def test_walk(self) -> None:
        lines = self.printed(Item(0, 7), with_content(2, EXAMPLE), Item(4, 1))
        expected = ["== case 7", "run: 0 0 0 0 0 0 1", "stop 0 at 18"]
        self.assertEqual(lines, [*expected, "clean at 1: 0"])

    def test_tried(self) -> None:
        """What is tried leaves the table as it is."""
        write = with_content(10, encode([Step(0, WRITE), Step(16, WRITE)]))
        remove = with_content(10, encode([Step(0, Remove(KEYS))]))
        lines = self.printed(
            with_content(2, EXAMPLE[:10]), write, Item(11, 1), Item(11, 2), remove
        )
        expected = [
            "run: 0 0 0",
            "stop 0 at 10",
            "in range",
            "step: 0 571=4 2/1/1=300",
            "step: 10",
            "ran: 0 10; stop 0 at 4 571=4 2/1/1=300",
            "clean tried at 1: 0 1=1",
            "clean tried at 2: 34",
            "in range",
            "step: 12",
            "ran: 12; stop 0 at 3",
        ]
        self.assertEqual(lines, expected)

    def test_a_log_with_an_end_that_cannot_be_read(self) -> None:
        log = encode([Step(0, Remove(3)), Step(0, GIVE_UP)]) + b"\x00"
        started = " 2=1 43=1 571=1 574=3 576=1"
        self.assertEqual(
            self.printed(with_content(10, log)),
            [
                "in range",
                f"step: 0{started}",
                "step: 14",
                "ran: 0 6; stop 20 at 5 2=1 43=1",
            ],
        )

    def test_reads(self) -> None:
        run, clean = with_content(2, EXAMPLE), Item(4, 1)
        reads = [with_numbers(12, pair) for pair in ((1, 1), (2, 0), (0, 1), (1, 32))]
        scans = [with_numbers(13, pair) for pair in ((1, 2), (1, 3), (1, 7))]
        lines = self.printed(run, clean, *reads, *scans, Item(7, 0), Item(7, 16))
        expected = [
            "at 1: c2 300/2; 1 300 2",
            "at 2: - .; 1 300 2",
            "at 0: - !32; !32",
            "at 1: c2 !12; 1 300 2",
            "room for 2: answer 31, 0 rows: 7 7",
            "room for 3: answer 0, 1 rows: 1 300 2",
            "room for 7: answer 0, 1 rows: 1 300 2, 7 7 7, 7",
            "0: 14 | 0: | 0:",
            "16: 10 | 0: | 0:",
        ]
        self.assertEqual(lines[3:], expected)

    def test_numbers_put_in_place(self) -> None:
        put = with_numbers(9, (2, 1, 43, 10, 43, 11, VALUES + 33, 8, PRESENT + 33, 1))
        read, drop = with_numbers(12, (1, 1)), with_numbers(9, (PRESENT + 33, 0))
        lines = self.printed(put, read, drop, read)
        self.assertEqual(lines, ["at 1: c1 8/1; 1 8 1", "at 1: c1 .;"])

    def test_out_of_range(self) -> None:
        put = with_numbers(9, (1, 1))
        log = with_content(10, encode([Step(16, GIVE_UP), Step(0, Remove(1))]))
        read, scan = with_numbers(12, (0, 32)), with_numbers(13, (0, 1))
        self.assertEqual(
            self.printed(put, log, Item(11, 9), read, scan, Item(7, 16)),
            [
                "out of range",
                *["step: 17"] * 2,
                "ran: 17 17; stop 0 at 5",
                "clean tried at 9: 17",
                "at 0: !17 !17; !17",
                "room for 1: answer 17, 0 rows: 7",
                "16: 17 | 0: | 0:",
            ],
        )


if __name__ == "__main__":
    unittest.main()
