"""A change of policy over held rights.

Each of 62 clients holds 1, 8 or 64 slots, on objects of one label, so there are 62 pairs. A change is a notice, an update of
all, and an acknowledgement; the two versions differ on 0, 1, 8, 31 or 62 of the pairs. Both programs must find
the same sums. A figure is processor time for one change. The plain program is run twice: with a list of pairs, and with the ordered
map by which the proved one finds a slot that is given back.
"""

import timing

RUNS = 11
CRATES = "retained_rights slot_tables access_vectors flask_sid"
SLOTS = (1, 8, 64)
STALE = (0, 1, 8, 31, 62)


def rounds_of(slots, stale):
    """So many changes that a run takes some milliseconds; an even number, since each second one leads back."""
    return 20_000_000 // (200 + 5 * slots * stale) // 10 * 2


def measure(programs, asked):
    head = ("slots of a client", "pairs that differ", "open slots", "stale slots")
    timing.head(*head, "proved, best / median, µs", "plain Rust", "ratio of medians", "plain Rust with an ordered map", "ratio of medians to that")
    for slots in SLOTS:
        for stale in STALE:
            rounds = rounds_of(slots, stale)
            words = (slots, stale, rounds)
            every = (programs.proved, programs.plain, programs.plain)
            proved, listed, ordered = timing.times(every, (words, words, (*words, "ordered")), rounds, asked.runs)
            shown = (timing.shown(figures, 1_000, 2) for figures in (proved, listed, ordered))
            mine, list_row, map_row = shown
            ratios = (timing.ratio(proved, listed), timing.ratio(proved, ordered))
            timing.row(slots, stale, 62 * slots, slots * stale, mine, list_row, ratios[0], map_row, ratios[1])
