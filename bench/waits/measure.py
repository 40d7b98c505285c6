"""A change beside callers: how long a caller is kept.

A station of the example board has 62 clients, each with its 64 slots open. Version 1 withholds reading from one of them, so a change to it
and a change back each make 64 of 3,968 slots stale. Callers of other clients read, each in a thread of its own: a call is timed from before the
caller enters until it has left. Beside them an administrator changes the policy without a pause, until the last caller is done; it is timed from
before its notice until the change is settled. The same calls are timed with no change.

Times are those of the clock, and not of a processor, and are known to a power of two. Where the system takes a thread off its processor, a call
shows the milliseconds that it was off; and where that thread had the turn, or was the next to have it, so do the calls that wait behind it. This is what
the longest calls show, with changes and without, and most of all with more threads than processors: four callers and the administrator are five. The
history's memory is moved as it grows, within some call's turn, which the longest calls show too.

What a change itself keeps from callers is told apart: the processor time of its three turns on one thread, with no callers and all that they touch
near. About so long a call is kept at most by one change where each thread keeps its processor, since the administrator has one turn at a time.

The plain program beside it has the same words and steps, the same history, and its board with the places of each pair.
"""

import sys

import timing

RUNS = 5
CRATES = "may_wait=14: thread_tasks station_crossing managed_run managed example_board retained_rights manager_history epoch_gate gate_rule access_vectors flask_sid"
# The reads of each caller, and how many changes there are at most beside them: more than are made before the last caller is done.
CALLS = 200_000
MOST = 1_000_000
# The changes with no callers.
ALONE = 20_000
# What is timed: how many callers, and how many changes at most.
WORKS = ((1, 0), (1, MOST), (4, 0), (4, MOST))
# A line of the program has the longest time and then this many counts.
SIZES = 40
PARTS = (0.5, 0.999, 0.9999)


def spread(numbers):
    """The longest time, and how many took at least 2^k nanoseconds and less than twice that, by k."""
    longest, *counts = (int(number) for number in numbers)
    return longest, counts


def together(spreads):
    """The same of several spreads."""
    longests, counts = zip(*spreads)
    return max(longests), [sum(column) for column in zip(*counts)]


def bound(counts, part):
    """Microseconds below which this part of the pieces stayed."""
    wanted, seen = part * sum(counts), 0
    for size, count in enumerate(counts):
        seen += count
        if seen >= wanted:
            return 2 ** (size + 1) / 1000
    return 0


def cells(found):
    """The bounds of a spread, and its longest, in microseconds."""
    longest, counts = found
    return *(f"{bound(counts, part):.1f}" for part in PARTS), f"{longest / 1000:.0f}"


def waits(program, callers, most, runs):
    """How long the reads of so many callers took, and how long the changes beside them, of all runs together."""
    reads, changes = [], []
    for _ in range(runs):
        words = timing.told(program, (callers, CALLS, most))
        reads.append(spread(words[: SIZES + 1]))
        changes.append(spread(words[SIZES + 1 :]))
        if sum(reads[-1][1]) != callers * CALLS:
            sys.exit("bench: waits: not each read was given a number")
    return together(reads), together(changes)


def alone(program, runs):
    """Nanoseconds of a processor for one change with no callers, for each run."""
    figures = []
    for _ in range(runs):
        took, *words = timing.told(program, (0, 0, ALONE))
        if sum(spread(words)[1]) != ALONE:
            sys.exit("bench: waits: not each change was settled")
        figures.append(int(took) / ALONE)
    return figures


def measure(programs, asked):
    both = (("proved", programs.proved), ("plain Rust", programs.plain))
    print("Microseconds of the clock, of all runs together:\n")
    timing.head("what was timed", "program", "pieces", "half below", "99.9 in 100 below", "99.99 in 100 below", "the longest")
    for callers, most in WORKS:
        beside = "beside changes" if most else "with no change"
        found = [(name, waits(program, callers, most, asked.runs)) for name, program in both]
        for name, (reads, _) in found:
            timing.row(f"calls of {callers}, {beside}", name, sum(reads[1]), *cells(reads))
        for name, (_, changes) in found if most else ():
            timing.row(f"changes beside calls of {callers}", name, sum(changes[1]), *cells(changes))
    print("\nMicroseconds of a processor for a change's three turns on one thread, in the best run / the median run: ", end="")
    print(", ".join(f"{name} {timing.shown(alone(program, asked.runs), unit=1000, digits=2)}" for name, program in both))
    print(f"\nload after: {timing.load()}\n")
