"""Calls of a station on one thread and on four, beside the core's own call.

The work is done on a station over the example board: reads through a slot that a client holds. Reads of an open file, of 4 bytes, are done on
a station of files. Four clients read at one board, or at three boards in turn, each in a thread of its own; the threads begin together. Figures are of
the processor time of all threads together, so they count what a thread that waits for its turn spends.
"""

import timing

RUNS = 11
CRATES = "may_wait=16: thread_tasks station_crossing managed_run managed example_board file_manager file_store file_calls retained_rights manager_history avc_rows epoch_gate gate_rule access_vectors flask_sid"
# What is measured: the program's word, what it is called, the threads, the rounds of each, and the pieces in a round.
WORKS = (
    ("core", "a read by the core's own call", 1, 400_000, 1),
    ("call", "a read through a station, in a held pass", 1, 400_000, 1),
    ("call4", "a read through a station, in a held pass", 4, 50_000, 1),
    ("pass", "enter, read, leave", 1, 400_000, 1),
    ("pass4", "enter, read, leave", 4, 50_000, 1),
    ("three", "reads at three stations in turn", 1, 100_000, 3),
    ("three4", "reads at three stations in turn", 4, 20_000, 3),
    ("check", "a check that the cache has", 1, 4_000_000, 1),
    ("core_file", "a read of an open file by the core's own call", 1, 400_000, 1),
    ("file", "a read of an open file through a station, in a held pass", 1, 400_000, 1),
)


def measure(programs, asked):
    print("Nanoseconds of a processor for one piece, in the best run / the median run:\n")
    timing.head("piece of work", "threads", "proved, best / median, ns a piece", "plain Rust", "ratio of medians")
    for work, name, threads, rounds, pieces in WORKS:
        proved, plain = timing.both(programs, (work, rounds), threads * rounds * pieces, asked.runs)
        timing.row(name, threads, timing.shown(proved, digits=1), timing.shown(plain, digits=1), timing.ratio(proved, plain))
    print(f"\nload after: {timing.load()}\n")
