#!/usr/bin/env python3
"""Write the cases of the program candidates_corpus and what it prints for them.

    python3 tests/model/make_candidates.py STDIN STDOUT HISTOGRAM

A case is a table of either mode, with steps, cleans and calls in turn. STDIN
gets items, each two numbers in the coding of the step log, a kind and a number:

    0 N     a fresh optimistic table, the case N
    1 N     a fresh pessimistic table, the case N
    2 N     a log, the N bytes that follow, run as a whole
    3 N     the same, run step by step
    4 N     a clean at the timestamp N
    6 N     the candidate instants of each writer below N
    7 N     the candidate instants of the writer N
    8 0     the places, the counts and the noted timestamps that are not 0

STDOUT gets what the items give, and HISTOGRAM Markdown tables of the answers
that occur, of the lists and of the cases. The files are the same in every run.

Every case is also held to Q-12, by what the history alone says: after each
step and each clean the two lists of every operation in progress are the
instants committed since its start, by rising timestamp, and zeros; none of
them is pending or has ended without commit; each completed instant's place is
that of its commit among all commits, and no other has one; a ready writer
keeps no count and no noted timestamp; and past its read step a writer's lists
have every completed timestamp of its group above its base. A refused step and
a clean change none of these numbers.
"""

from __future__ import annotations

import copy
import itertools
import sys
from collections import Counter
from collections.abc import Iterable, Iterator, Sequence
from dataclasses import replace
from pathlib import Path
from typing import NamedTuple

from make_cleaning import CLEAN_ANSWERS, FOUR_KEYS, Clean, put
from make_cleaning import walk as walk_with_cleans
from make_corpus import (
    ANSWERS,
    DISORDER,
    EDGES,
    NEW_KEYS,
    ONE_GROUP,
    REMOVES,
    SEED,
    SHORT_LIVED,
    STALLS,
    TWO_GROUPS,
    WILD,
    Draw,
    operation_steps,
    require,
)
from table_model import (
    ERASED_WORD,
    KEYS,
    MAX_NUMBER,
    MAX_TIMESTAMP,
    WRITERS,
    Action,
    Answer,
    Candidates,
    History,
    InstantList,
    Mode,
    Phase,
    Put,
    Remove,
    Step,
    Stop,
    Table,
    encode,
    encode_number,
    run_log,
)

GIVE_UP = Action.GIVE_UP


class Ask(NamedTuple):
    """The call for one writer, or for each one and the first that there is not."""

    writer: int | None = None


class Show(NamedTuple):
    """The places, the counts and the noted timestamps."""


Event = Step | Clean | Ask | Show
ASK, SHOW = Ask(), Show()


class Case(NamedTuple):
    """Steps, cleans and calls on a fresh table."""

    mode: Mode
    events: Sequence[Event]


# --- The papers' claims ------------------------------------------------------


class Started(NamedTuple):
    """What the history says of an operation's start: how many operations had been
    committed, and which writers held which timestamps.
    """

    committed: int
    pending: dict[int, int]


class CheckedCandidates:
    """A table held to Q-12 while steps and cleans are taken.

    ``order`` has the committed timestamps in the order of their commits, and
    ``started`` maps a writer with an operation in progress to its start; both are
    kept from steps and answers alone.
    """

    def __init__(self, mode: Mode) -> None:
        self.table = Table(mode=mode)
        self.history = History()
        self.order: list[int] = []
        self.started: dict[int, Started] = {}

    def take(self, event: Step | Clean) -> Answer:
        """Take a step or a clean, and check the table then."""
        before = copy.deepcopy(self.table)
        if isinstance(event, Clean):
            answer = self.table.clean(event.at)
            kept = before.places, before.counts, before.noted
            now = self.table.places, self.table.counts, self.table.noted
            require(now == kept, "changed by a clean")
        else:
            answer = self.table.step(event)
            self.record(event, answer)
        if answer >= Answer.NO_SUCH_WRITER:
            require(self.table == before, "changed by a refusal")
        self.check()
        return answer

    def record(self, step: Step, answer: Answer) -> None:
        pending = {writer: held for writer, (held, _) in self.history.open.items()}
        self.history.record(step, answer, self.table)
        if step.starts and answer == Answer.TAKEN:
            self.started[step.writer] = Started(len(self.order), pending)
        elif Answer.TAKEN < answer < Answer.NO_SUCH_WRITER:
            del self.started[step.writer]
        if answer == Answer.COMMITTED:
            self.order.append(pending[step.writer])

    def check(self) -> None:
        places = {timestamp: place for place, timestamp in enumerate(self.order, 1)}
        require(self.table.places == places, "places")
        for number in range(WRITERS):
            found = self.table.candidates(number)
            if number in self.history.open:
                self.check_operation(number, found)
            else:
                require(found == Candidates(Answer.PHASE_DOES_NOT_FIT), "14")
                require(self.table.counts[number] == 0, "a ready writer's count")
                require(not any(self.table.noted[number]), "a ready writer's notes")
        refused = self.table.candidates(WRITERS)
        require(refused == Candidates(Answer.NO_SUCH_WRITER), "10")

    def check_operation(self, number: int, found: Candidates) -> None:
        """The lists of an operation in progress, and what it recorded."""
        count, pending = self.started[number]
        since = sorted(self.order[count:])
        unused = [0] * (MAX_TIMESTAMP - len(since))
        expected = InstantList(len(since), (*since, *unused))
        require(found == Candidates(Answer.TAKEN, expected, expected), "lists")
        held = {timestamp for timestamp, _ in self.history.open.values()}
        listed = set(found.by_start.timestamps[: found.by_start.count])
        require(listed <= self.history.committed.keys(), "not committed")
        require(not listed & held, "pending")
        require(listed >= self.changed_since_the_read(number), "above the base")
        noted = [pending.get(writer, 0) for writer in range(WRITERS)]
        require(self.table.noted[number] == noted, "noted")
        require(self.table.counts[number] == count, "count")

    def changed_since_the_read(self, number: int) -> set[int]:
        """What the check step of a writer past its read would find."""
        writer = self.table.writers[number]
        if writer.phase < Phase.WRITE:
            return set()
        return {
            timestamp
            for timestamp, committed in self.history.committed.items()
            if committed.group == writer.group and timestamp > writer.base
        }


# --- Cases set by hand -------------------------------------------------------


def asked(events: Iterable[Event], every: int = 1, shown: int = 0) -> list[Event]:
    """The events with calls behind every so many, and at the end; and, behind every
    so many calls and at the end, the numbers that they rest on.
    """
    asking: list[Event] = []
    calls = 0
    for number, event in enumerate(events, 1):
        asking.append(event)
        if number % every == 0:
            asking.append(ASK)
            calls += 1
            if shown and calls % shown == 0:
                asking.append(SHOW)
    return [*asking, ASK, SHOW]


def overtaken_cases(mode: Mode) -> Iterator[Case]:
    """P10: timestamp 4 commits before 3; with cleans between the steps as well."""
    one, two = put(mode, 0, 1, 10, 1), put(mode, 0, 2, 20, 2)
    three, four = put(mode, 3, 1, 11, 1), put(mode, 4, 2, 21, 2)
    steps = [*one, *two, three[0], *four, *three[1:]]
    yield Case(mode, asked(steps, shown=4))
    cleaned = [event for step in steps for event in (step, Clean(2), Clean(4))]
    yield Case(mode, asked(cleaned, every=6, shown=2))
    begun = [one[0], *put(mode, 1, 2, 20, 2), three[0], *four]
    yield Case(mode, asked([*begun, *one[1:], *three[1:]], every=2, shown=4))


def first_and_last_cases(mode: Mode) -> Iterator[Case]:
    """An operation that starts before all others and is the last to commit, or never
    does; and one that starts when all others are done.
    """
    slow = put(mode, 7, 31, 70, 7)
    others = [put(mode, writer, writer, writer, writer) for writer in range(6)]
    done = [event for steps in others for event in (*steps, ASK)]
    yield Case(mode, [slow[0], *done, *asked(slow[1:])])
    yield Case(mode, [slow[0], *done, Step(7, GIVE_UP), ASK, *asked(slow)])
    yield Case(mode, [*slow[:-1], *done, *asked(slow[-1:])])
    yield Case(mode, [*done, *asked(slow)])
    between = [event for steps in others for event in (*steps[:3], ASK)]
    rest = [event for steps in others for event in (*steps[3:], ASK)]
    yield Case(mode, [*between, slow[0], *rest, *asked(slow[1:])])


def ended_cases(mode: Mode) -> Iterator[Case]:
    """An instant that is pending when another operation starts, and that gives up at
    each phase, or ends in each other way; the notes of both, before and after.
    """
    pending = put(mode, 2, 5, 20, 5)
    watcher, early = put(mode, 3, 6, 30, 6), put(mode, 1, 7, 10, 7)
    for taken in range(1, len(pending)):
        begun = [early[0], *pending[:taken], watcher[0], ASK]
        ended = [Step(2, GIVE_UP), ASK, SHOW, *early[1:], ASK, *watcher[1:3]]
        yield Case(mode, [*begun, *ended, *asked(pending[:1]), *asked(watcher[3:])])
    # 3, and 4, and 2 at the look up and at the index step; 5 in an optimistic table.
    later = put(mode, 4, 5, 21, 5)
    too_late = [*pending[:2], watcher[0], *later, ASK, pending[2], ASK, SHOW]
    yield Case(mode, [*too_late, *asked(watcher[1:], every=3)])
    moved = put(mode, 4, 5, 21, 4)
    bound = [*pending[:2], *moved[:2], watcher[0], *moved[2:], ASK, *pending[2:5], ASK]
    yield Case(mode, [*bound, SHOW, *asked(watcher[1:], every=3)])
    remove = operation_steps(2, Remove(9), mode)
    yield Case(mode, [early[0], remove[0], watcher[0], ASK, remove[1], ASK, SHOW])
    made = put(mode, 4, 9, 22, 4)
    begun = [*made[:5], *remove[:2], watcher[0], ASK, Step(4, GIVE_UP)]
    yield Case(mode, [*begun, *remove[2:5], ASK, SHOW, *asked(watcher[1:], every=3)])
    conflict = put(mode, 4, 10, 23, 5)
    begun = [*pending[:3], watcher[0], *conflict, ASK, *pending[3:6], ASK, SHOW]
    yield Case(mode, [*begun, *asked(watcher[1:], every=3)])


def order_cases(mode: Mode) -> Iterator[Case]:
    """Four operations in four groups that commit in each order: one that started
    before them and ones that start before and after each commit look on.
    """
    operations = [put(mode, writer, writer, writer, writer) for writer in range(4)]
    started = [steps[0] for steps in operations]
    first = Step(15, Remove(31))
    for order in itertools.permutations(range(4)):
        events = [first, *started[:2], Step(14, Remove(30)), *started[2:]]
        for place, writer in enumerate(order):
            events += [Step(10 + place, Remove(29)), *operations[writer][1:], ASK]
        yield Case(mode, [*events, SHOW])


def crowded_cases(mode: Mode) -> Iterator[Case]:
    """All sixteen writers have started; they commit in rising, in falling and in
    another order, as far as their groups allow, and start again.
    """
    operations = [put(mode, w, w, w, w % 8) for w in range(WRITERS)]
    started = [steps[0] for steps in operations]
    rising = list(range(WRITERS))
    for order in (rising, rising[::-1], [5 * w % WRITERS for w in rising]):
        events: list[Event] = [*started, ASK, SHOW]
        for place, writer in enumerate(order):
            again = [operations[writer][0]] if place % 2 else []
            events += [*operations[writer][1:], *again]
            events += [ASK] if place % 4 == 3 else []
        yield Case(mode, [*events, SHOW])


def again_cases(mode: Mode) -> Iterator[Case]:
    """A writer that starts anew sees what completes from then on."""
    one, two = put(mode, 0, 1, 10, 1), put(mode, 1, 2, 20, 2)
    slow = put(mode, 15, 31, 30, 7)
    for end in (one[1:], [Step(0, GIVE_UP)]):
        begun = [one[0], slow[0], two[0], *end, ASK, one[0], ASK, *two[1:], ASK, SHOW]
        yield Case(mode, [*begun, *asked(slow[1:], every=2), *one[1:], one[0], ASK])


def refused_cases(mode: Mode) -> Iterator[Case]:
    """Writers that there are not, ready writers, and refused steps in between."""
    numbers = (15, 16, 17, 255, 256, 2**16, 2**32, 2**32 + 3, 2**63, MAX_NUMBER)
    calls = [Ask(number) for number in numbers]
    one, two = put(mode, 3, 1, 10, 1), put(mode, 0, 2, 20, 2)
    yield Case(mode, [ASK, *calls, SHOW])
    refused = [
        *(Step(3, operation) for operation in (Put(1, 10, 1), Remove(1))),
        Step(3, Put(KEYS, 1, 1)),
        Step(5, Put(1, 1, 8)),
        Step(5, Put(1, ERASED_WORD, 1)),
        Step(WRITERS, Put(1, 10, 1)),
        Step(MAX_NUMBER, GIVE_UP),
        *(Step(5, action) for action in Action),
        Step(3, Action.COMMIT),
        Step(3, Action.READ),
    ]
    events = [*two[:2], *one[:2], ASK, SHOW, *refused, ASK, SHOW, *two[2:], ASK, *calls]
    yield Case(mode, [*events, *refused[:-1], SHOW, *asked(one[2:]), *calls])
    # The lock of the table, or of the group, is another's.
    beside = put(mode, 0, 2, 20, 1 if mode is Mode.PESSIMISTIC else 2)
    waiting = [*one[:5], *beside[:5], ASK, SHOW, beside[2], beside[4], ASK, SHOW]
    yield Case(mode, [*waiting, *asked(one[5:]), *asked(beside[2:], every=2)])


def used_up_cases(mode: Mode) -> Iterator[Case]:
    """One operation in progress from the first start on, others from later ones, while
    all other timestamps commit; then it commits as the 128th.
    """
    slow = put(mode, 15, 31, 1, 7)
    joining = {20: 14, 50: 13, 90: 12, 123: 11}
    events: list[Event] = [slow[0]]
    issued = 1
    while issued < MAX_TIMESTAMP:
        if issued in joining:
            events.append(Step(joining[issued], Put(issued % 30, issued, 6)))
        else:
            writer = issued % 10
            events += put(mode, writer, issued % 5, issued, issued % 5)
        issued += 1
        events += [ASK] if issued in (16, 64, 127, MAX_TIMESTAMP) else []
    late = [Step(0, Remove(0)), Step(15, Remove(0)), Clean(MAX_TIMESTAMP)]
    yield Case(mode, [*events, SHOW, *late, *slow[1:], ASK, *late, SHOW, ASK])
    # All of them, one after the other.
    whole = [put(mode, n % WRITERS, n % KEYS, n, n % 8) for n in range(MAX_TIMESTAMP)]
    last = whole[-1]
    steps = list(itertools.chain(*whole[:-1], last[:-1]))
    yield Case(mode, [*steps, ASK, SHOW, last[-1], ASK, SHOW])


# --- Random walks ------------------------------------------------------------

WALKS = (
    ONE_GROUP,
    TWO_GROUPS,
    REMOVES,
    STALLS,
    EDGES,
    DISORDER,
    SHORT_LIVED,
    WILD,
)


def walk_cases(draw: Draw, mode: Mode) -> Iterator[Case]:
    """Walks by four writers and by sixteen, with some eight cleans each."""
    for profile in WALKS:
        for writers, length, every in ((4, 220, 11), (WRITERS, 400, 36)):
            walking = replace(profile, writers=writers)
            table = Table(mode=mode)
            events = walk_with_cleans(draw, walking, length, table, 8 / length)
            yield Case(mode, asked(events, every, shown=4))


def until_used_up(events: Iterator[Event], table: Table) -> Iterator[Event]:
    """The events up to the one that takes the last timestamp, and 40 more."""
    for event in events:
        yield event
        if table.last_timestamp == MAX_TIMESTAMP:
            yield from itertools.islice(events, 40)
            return


def exhausting_cases(draw: Draw, mode: Mode) -> Iterator[Case]:
    """Walks that use up the timestamps, with some six cleans each."""
    for profile in (
        replace(FOUR_KEYS, keys=range(8), groups=range(8), same_writer=0.8),
        SHORT_LIVED,
        replace(NEW_KEYS, same_writer=0.85),
        replace(NEW_KEYS, writers=4, same_writer=0.7, give_up=0.0),
    ):
        table = Table(mode=mode)
        walking = walk_with_cleans(draw, profile, 1100, table, 6 / 800)
        events = list(until_used_up(walking, table))
        require(table.last_timestamp == MAX_TIMESTAMP, "timestamps left")
        yield Case(mode, asked(events, every=90, shown=3))


Family = tuple[str, Iterator[Case]]


def families() -> Iterator[Family]:
    draw = Draw(SEED)
    optimistic, pessimistic = Mode

    def each(cases) -> Iterator[Case]:
        return itertools.chain(cases(optimistic), cases(pessimistic))

    yield "P10, and the same with cleans between the steps", each(overtaken_cases)
    yield "the first to start and the last to commit", each(first_and_last_cases)
    yield "pending at a start, and ended without commit", each(ended_cases)
    yield "four operations that commit in each order", each(order_cases)
    yield "sixteen operations in progress", each(crowded_cases)
    yield "a writer that starts anew", each(again_cases)
    yield "refused calls and refused steps", each(refused_cases)
    yield "all timestamps, with an operation in progress from the first on", each(
        used_up_cases
    )
    yield "random walks by four and sixteen writers", itertools.chain(
        walk_cases(draw, optimistic), walk_cases(draw, pessimistic)
    )
    yield "random walks that use up the timestamps", itertools.chain(
        exhausting_cases(draw, optimistic), exhausting_cases(draw, pessimistic)
    )


# --- The files ---------------------------------------------------------------

Item = tuple[int, int, bytes]
KINDS = {Mode.OPTIMISTIC: 0, Mode.PESSIMISTIC: 1}
RUN, RUN_BY_STEPS, CLEAN = range(2, 5)
ASK_BELOW, ASK_ONE, NUMBERS = range(6, 9)

# The places for a log's answers that the program has.
MAX_ANSWERS = 2 * MAX_TIMESTAMP


def event_item(event: Clean | Ask | Show) -> Item:
    match event:
        case Clean():
            return CLEAN, event.at, b""
        case Ask(None):
            return ASK_BELOW, WRITERS + 1, b""
        case Ask():
            return ASK_ONE, event.writer, b""
    return NUMBERS, 0, b""


def items(number: int, case: Case) -> Iterator[Item]:
    """A case as items; the steps in between are one log or more, of which every other
    one is run step by step.
    """
    yield KINDS[case.mode], number, b""
    kinds = itertools.cycle((RUN, RUN_BY_STEPS))
    for stepping, group in itertools.groupby(
        case.events, lambda event: isinstance(event, Step)
    ):
        events = list(group)
        if not stepping:
            yield from map(event_item, events)
            continue
        for first in range(0, len(events), MAX_ANSWERS):
            log = encode(events[first : first + MAX_ANSWERS])
            yield next(kinds), len(log), log


def coded(item: Item) -> bytes:
    kind, number, log = item
    return encode_number(kind) + encode_number(number) + log


def list_text(instants: InstantList) -> str:
    """The count, the used places, and those of the others that are not 0."""
    used = instants.timestamps[: instants.count]
    stray = [at for at in instants.timestamps[instants.count :] if at != 0]
    text = "".join(f" {at}" for at in used) + "".join(f" !{at}" for at in stray)
    return f" | {instants.count}:{text}"


def candidates_line(table: Table, writer: int) -> str:
    """A writer, the answer of the call for it, and the list of each way."""
    answer, by_start, by_completion = table.candidates(writer)
    return f"{writer}: {answer:d}{list_text(by_start)}{list_text(by_completion)}"


def numbers_line(label: str, values: Iterable[int]) -> str:
    """The numbers that are not 0, each behind its place, counted from 0."""
    found = (f" {at}:{value}" for at, value in enumerate(values) if value != 0)
    return label + ":" + "".join(found)


def numbers_lines(table: Table) -> list[str]:
    timestamps = range(1, MAX_TIMESTAMP + 1)
    return [
        numbers_line("places", (table.places.get(at, 0) for at in timestamps)),
        numbers_line("counts", table.counts),
        numbers_line("noted", itertools.chain(*table.noted)),
    ]


def printed(item: Item, table: Table) -> tuple[list[str], Table]:
    """What the program prints for an item, and the table then."""
    kind, number, log = item
    if kind in KINDS.values():
        mode = Mode.OPTIMISTIC if kind == 0 else Mode.PESSIMISTIC
        return [f"== case {number}"], Table(mode=mode)
    if kind in (RUN, RUN_BY_STEPS):
        run = run_log(table, log, MAX_ANSWERS)
        require(run.stop == Stop.USED_UP, "a log too long")
        answers = "".join(f" {answer:d}" for answer in run.answers)
        return [f"run:{answers}", f"stop 0 at {run.offset}"], table
    if kind == CLEAN:
        return [f"clean at {number}: {table.clean(number):d}"], table
    if kind == ASK_BELOW:
        return [candidates_line(table, writer) for writer in range(number)], table
    if kind == ASK_ONE:
        return [candidates_line(table, number)], table
    return numbers_lines(table), table


# --- The histogram -----------------------------------------------------------

CALL_ANSWERS = {
    Answer.TAKEN: "lists given",
    Answer.NO_SUCH_WRITER: "no such writer",
    Answer.PHASE_DOES_NOT_FIT: "the writer is ready",
}
SIZES = ((0, 0), (1, 1), (2, 3), (4, 15), (16, 63), (64, MAX_TIMESTAMP))
NOTED, LATER, TURNED = (
    "instants that were noted, and completed since",
    "instants with a later start",
    "neighbours in a list of which the later one completed first",
)


def size_of(count: int) -> tuple[int, int]:
    return next((low, high) for low, high in SIZES if low <= count <= high)


def asked_counts(table: Table, writers: Iterable[int]) -> Counter:
    """What the calls of an item give: answers, sizes of the lists, and why an instant
    is in them.
    """
    counts: Counter = Counter()
    for writer in writers:
        answer, listed, _ = table.candidates(writer)
        counts["candidates", answer] += 1
        if answer != Answer.TAKEN:
            continue
        instants = listed.timestamps[: listed.count]
        places = [table.places[timestamp] for timestamp in instants]
        counts["size", size_of(listed.count)] += 1
        noted = sum(at < table.writers[writer].timestamp for at in instants)
        counts["reason", NOTED] += noted
        counts["reason", LATER] += listed.count - noted
        counts["reason", TURNED] += sum(a > b for a, b in zip(places, places[1:]))
    return counts


def check(case: Case) -> Counter:
    """Take a case against the claims, and count what occurs."""
    run = CheckedCandidates(case.mode)
    counts: Counter = Counter()
    for event in case.events:
        match event:
            case Step():
                counts["step", run.take(event)] += 1
            case Clean():
                counts["clean", run.take(event)] += 1
            case Ask(None):
                counts += asked_counts(run.table, range(WRITERS + 1))
            case Ask():
                counts += asked_counts(run.table, [event.writer])
    return counts


def answer_rows(counts: dict[Mode, Counter]) -> Iterator[str]:
    for call, meanings in (
        ("step", ANSWERS),
        ("clean", CLEAN_ANSWERS),
        ("candidates", CALL_ANSWERS),
    ):
        for answer, meaning in meanings.items():
            numbers = [counts[mode][call, answer] for mode in Mode]
            if any(numbers):
                cells = " | ".join(map(str, numbers))
                yield f"| {call} | {answer:d} | {meaning} | {cells} |"


def list_rows(counts: dict[Mode, Counter]) -> Iterator[str]:
    for low, high in SIZES:
        numbers = [counts[mode]["size", (low, high)] for mode in Mode]
        name = f"{low}" if low == high else f"{low} to {high}"
        yield f"| lists of {name} | {numbers[0]} | {numbers[1]} |"
    for reason in (NOTED, LATER, TURNED):
        numbers = [counts[mode]["reason", reason] for mode in Mode]
        yield f"| {reason} | {numbers[0]} | {numbers[1]} |"


def main(stdin: Path, stdout: Path, histogram: Path) -> None:
    packed, lines, ranges = [], [], []
    counts: dict[Mode, Counter] = {mode: Counter() for mode in Mode}
    number = 0
    for family, family_cases in families():
        cases = list(family_cases)
        ranges.append(f"| {number} to {number + len(cases) - 1} | {family} |")
        for case in cases:
            counts[case.mode] += check(case)
            table = Table()
            for item in items(number, case):
                packed.append(coded(item))
                text, table = printed(item, table)
                lines += text
            number += 1
    report = [
        "| Call | Answer | Meaning | Optimistic | Pessimistic |",
        "|---|---|---|---|---|",
        *answer_rows(counts),
        "",
        "| What is listed | Optimistic | Pessimistic |",
        "|---|---|---|",
        *list_rows(counts),
        "",
        "| Cases | What they are |",
        "|---|---|",
        *ranges,
    ]
    stdin.write_bytes(b"".join(packed))
    stdout.write_text(
        "".join(f"{line}\n" for line in lines), encoding="ascii", newline="\n"
    )
    histogram.write_text("\n".join(report) + "\n", encoding="ascii", newline="\n")


if __name__ == "__main__":
    if len(sys.argv) != 4:
        sys.exit(__doc__)
    main(*map(Path, sys.argv[1:]))
