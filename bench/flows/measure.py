"""Shortest paths of flows and entries, and `flaskd flow` as a whole command.

Both programs find the paths between all pairs of 128 types, each with a context, and must tell the same hops. One policy is drawn, where paths
have a few hops; in one most have a single hop; and in a chain each type can write to the next alone. The figure of a pair is the least of its
runs, and shown are the median pair and the slowest. The whole command is measured less the start of the process, which is that of words that
are no command.
"""

import os
import random
import statistics
import subprocess

import timing

RUNS = 5
CRATES = "flow_query policy_versions policy_text flask_sid"
PAIRS = 128 * 128
WRITES = ("file write", "file append", "dir add_name", "process signal", "port send")


def policy(rules):
    lines = ["policy 1"] + [f"context u:r:k{kind}" for kind in range(128)] + ["version"]
    return "\n".join(lines + rules) + "\n"


def drawn(lines, others):
    """So many rule lines that make hops, and others that make none."""
    draw = random.Random(9)
    rules = [f"allow k{draw.randrange(128)} k{draw.randrange(128)} {draw.choice(WRITES)}" for _ in range(lines)]
    rules += [f"allow k{draw.randrange(128)} k{draw.randrange(128)} process transition" for _ in range(others)]
    draw.shuffle(rules)
    return policy(rules)


def dense():
    return policy([f"allow k{k % 128} * file {'read' if k % 2 else 'write'}" for k in range(1024)])


def chain():
    return policy([f"allow k{k} k{k + 1} file write" for k in range(127)] + [f"allow k{k % 128} k0 file unlink" for k in range(897)])


def pairs(program, work, text, runs):
    """For each pair of types the least nanoseconds of its runs, and what the program told of the paths."""
    figures, said = [], []
    for _ in range(runs):
        words = timing.told(program, (work, PAIRS), text)
        figures.append([int(word) for word in words[::2]])
        said.append(words[1::2])
    return [min(pair) for pair in zip(*figures)], said


def shown(figures):
    return f"{statistics.median(figures) / 1_000:.1f} / {max(figures) / 1_000:.1f} us"


def path_row(programs, work, name, text, runs):
    proved, told = pairs(programs.proved, work, text, runs)
    plain, said = pairs(programs.plain, work, text, runs)
    timing.agreed(name, {tuple(words) for words in told + said})
    timing.row(name, shown(proved), shown(plain), timing.ratio(proved, plain))


def command(program, words, text, count):
    """Nanoseconds of a processor for one run of a command, its start with it."""
    before = os.times()
    for _ in range(count):
        subprocess.run([str(program), *words], input=text, capture_output=True, check=False)
    after = os.times()
    return ((after.children_user - before.children_user) + (after.children_system - before.children_system)) * 1e9 / count


def measure(programs, asked):
    timing.head("piece of work", "proved, median / slowest pair", "plain Rust", "ratio of medians")
    texts = (("128 types, 1,024 lines, 896 hops", drawn(896, 128)), ("all of one hop", dense()), ("a chain of 128 types", chain()))
    for name, text in texts:
        path_row(programs, "flow", f"a path of flows, {name}", text, asked.runs)
    path_row(programs, "enter", "a path of entries, 128 types, 128 hops", texts[0][1], asked.runs)
    for name, text in texts:
        whole = [command(asked.program, ("flow", "0", "k3", "k77"), text.encode(), 100) for _ in range(asked.runs)]
        start = [command(asked.program, (), b"", 100) for _ in range(asked.runs)]
        took = [one - other for one, other in zip(sorted(whole), sorted(start))]
        timing.row(f"`flaskd flow 0 k3 k77` less the start, {name}", timing.shown(took, 1_000_000, 2) + " ms", "", "")
