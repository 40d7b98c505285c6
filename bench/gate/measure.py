"""The gate's steps on many threads.

Figures are of processor time, in runs in which the threads did run beside each other, and of instructions with one thread.
"""

import re
import shutil
import subprocess

import timing

RUNS = 21
CRATES = "may_wait=8: access_vectors flask_sid gate_rule epoch_gate avc_rows gate_ledger"
KEYS = 256

# What is measured: the program's word, what it is called, and the pieces in one round.
WORKS = (
    ("hit_one_row", "a hit, all on one row", KEYS),
    ("hit_rows", "a hit, on 256 rows in turn", KEYS),
    ("pass", "enter and leave", 1),
    ("turn", "take and give, value in a box", 1),
)
# Rounds of each thread, by threads. The threads wait for each other before they begin. Runs are short, so that on a busy
# machine some of them have all their processors to themselves.
ROUNDS = {
    "hit_one_row": {1: 10_000, 2: 5_000, 4: 5_000},
    "hit_rows": {1: 10_000, 2: 5_000, 4: 5_000},
    "pass": {1: 500_000, 2: 50_000, 4: 20_000},
    "turn": {1: 500_000, 2: 5_000, 4: 2_000},
}
# A run counts where the threads were on a processor for this part of the time from the first beginning to the last end,
# so that they did run beside each other. With one thread each run counts, since it shares nothing.
BESIDE = 0.9
TRIES = 8


def times(programs, work, pieces, threads, runs):
    """Nanoseconds of a processor for one piece, of the proved and of the plain program, for each run that counts.

    A run prints the nanoseconds from the first beginning to the last end, those of all processors, and a sum of what was
    found. The programs run one after the other, until both have so many runs that count, or TRIES times as many were tried.
    """
    rounds = ROUNDS[work][threads]
    figures = {programs.proved: [], programs.plain: []}
    for _ in range(TRIES * runs):
        if all(len(found) >= runs for found in figures.values()):
            break
        said = set()
        for program, found in figures.items():
            clock, processors, total = (int(number) for number in timing.told(program, (work, threads, rounds)))
            said.add(total)
            if threads == 1 or processors >= BESIDE * threads * clock:
                found.append(processors / (threads * rounds * pieces))
        timing.agreed(work, said)
    return figures.values()


def counted(program, work, rounds):
    """Instructions that a run with one thread took."""
    words = ["valgrind", "--tool=callgrind", "--callgrind-out-file=/dev/null", str(program), work, "1", str(rounds)]
    text = subprocess.run(words, capture_output=True, check=True, text=True).stderr
    return int(re.search(r"Collected : (\d+)", text).group(1))


def instructions(program, work, pieces):
    """Instructions of one piece: the difference between two lengths, so that the start does not count."""
    few = max(1, 10_000 // pieces)
    return (counted(program, work, 3 * few) - counted(program, work, few)) / (2 * few * pieces)


def shown(figures):
    return f"{timing.shown(figures, digits=1)} ({len(figures)})" if figures else "none counts"


def print_times(programs, runs):
    timing.head("piece of work", "threads", "proved, best / median, ns a piece (runs)", "plain Rust", "ratio of medians")
    for work, name, pieces in WORKS:
        for threads in (1, 2, 4):
            proved, plain = times(programs, work, pieces, threads, runs)
            timing.row(name, threads, shown(proved), shown(plain), timing.ratio(proved, plain))


def print_instructions(programs):
    if shutil.which("valgrind") is None:
        print("Instructions were not counted: there is no valgrind.")
        return
    timing.head("piece of work", "proved, instructions a piece", "plain Rust", "ratio of instructions")
    for work, name, pieces in WORKS:
        proved, plain = instructions(programs.proved, work, pieces), instructions(programs.plain, work, pieces)
        timing.row(name, f"{proved:.1f}", f"{plain:.1f}", f"{proved / plain:.2f}")


def measure(programs, asked):
    print("Nanoseconds of a processor for one piece, in the best run / the median run (runs that count):\n")
    print_times(programs, asked.runs)
    print(f"\nload after: {timing.load()}\n")
    print_instructions(programs)
