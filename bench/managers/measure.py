"""Calls of the cores of the process manager and the port manager.

Both programs do the two calls of a case many times, in turn, under a policy that allows all, and must count the same replies. A
figure is processor time for one call, the mean of the two.
"""

import timing

RUNS = 11
CRATES = (
    "process_manager process_store process_calls port_manager port_store port_calls retained_rights manager_history "
    "access_vectors flask_sid"
)
ROUNDS = 400_000

# the cases: their names, the numbers by which both programs know them, and what else the plain program is told
CASES = (
    ("peek through a slot", 0, ()),
    ("poke through a slot", 1, ()),
    ("attach, and detach", 2, ()),
    ("attach, and detach, with indexes", 2, ("indexes",)),
    ("send of 2 bytes without a slot, and recv", 3, ()),
    ("push of 2 bytes through a slot, and recv", 4, ()),
)


def measure(programs, asked):
    timing.head("calls", "proved, best / median, ns a call", "plain Rust", "ratio of medians")
    for name, case, more in CASES:
        words = (case, ROUNDS)
        proved, plain = timing.times((programs.proved, programs.plain), (words, (*words, *more)), 2 * ROUNDS, asked.runs)
        timing.row(name, timing.shown(proved), timing.shown(plain), timing.ratio(proved, plain))
