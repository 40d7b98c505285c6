"""Reading and compiling a policy, and look-ups in its rows.

Both programs read the same policy and must find the same sum. What only the proved program does is measured by itself.
"""

import random

import timing

RUNS = 11
CRATES = "policy_versions policy_text access_vectors flask_sid"
KEYS = 65_536
PERMS = {
    "file": "read write append create unlink getattr relabelfrom relabelto".split(),
    "dir": "read search create add_name remove_name getattr relabelfrom relabelto".split(),
    "process": "fork transition signal ptrace exit wait getattr".split(),
    "port": "name_bind recv send connect getattr".split(),
}
# What is measured: the program's word, what it is called, versions, rounds in a run, and pieces in a round.
WORKS = (
    ("look", "a vector by random keys, 1 version", 1, 100, KEYS),
    ("look", "a vector by random keys, 64 versions", 64, 100, KEYS),
    ("compile", "vectors of 1,024 lines, 1 version", 1, 40, 1),
    ("compile", "vectors of 1,024 lines each, 64 versions", 64, 2, 1),
)


def policy(versions, contexts=1, differing=1024):
    """A drawn policy: 128 types, some with a context, 64 attributes of 1 to 32 types, and 1,024 rule lines a version, of which so many differ from
    those of the version above."""
    draw = random.Random(5)
    lines = ["policy 1"] + [f"type k{kind}" for kind in range(128)]
    for attribute in range(64):
        members = sorted(draw.sample(range(128), draw.randint(1, 32)))
        lines.append(f"attribute a{attribute} " + " ".join(f"k{kind}" for kind in members))
    lines += [f"context u:r:k{kind}" for kind in range(contexts)]

    def who():
        part = draw.random()
        if part < 0.45:
            return f"k{draw.randrange(128)}"
        return f"a{draw.randrange(64)}" if part < 0.95 else "*"

    def rule():
        decision = "withhold" if draw.random() < 0.25 else "allow"
        target = "self" if draw.random() < 0.05 else who()
        name = draw.choice(list(PERMS))
        perms = "*" if draw.random() < 0.1 else " ".join(draw.sample(PERMS[name], draw.randint(1, 3)))
        return f"{decision} {who()} {target} {name} {perms}"

    rules = [""] * 1024
    for version in range(versions):
        for place in range(1024) if version == 0 or differing == 1024 else sorted(draw.sample(range(1024), differing)):
            rules[place] = rule()
        lines += ["version", *rules]
    return "\n".join(lines) + "\n"


def nevers():
    """1,024 rule lines that allow reading, and 1,024 `neverallow` lines that forbid writing."""
    draw = random.Random(7)
    lines = ["policy 1"] + [f"type k{kind}" for kind in range(1, 128)] + ["context u:r:k0"]
    lines += [f"neverallow k{draw.randrange(128)} * file write" for _ in range(1024)]
    lines += ["version"] + [f"allow * k{draw.randrange(128)} file read" for _ in range(1024)]
    return "\n".join(lines) + "\n"


def shown(figures):
    if max(figures) < 1_000:
        return timing.shown(figures, digits=1) + " ns"
    return timing.shown(figures, 1_000_000, 2) + " ms"


def measure(programs, asked):
    timing.head("piece of work", "proved, best / median", "plain Rust", "ratio of medians")
    for work, name, versions, rounds, pieces in WORKS:
        proved, plain = timing.both(programs, (work, rounds), rounds * pieces, asked.runs, policy(versions))
        timing.row(name, shown(proved), shown(plain), timing.ratio(proved, plain))
    large = policy(64)
    for work, name, text, rounds, pieces in (
        ("catalogue", "a whole policy, 64 versions of 1,024 lines, 1 context", large, 2, 1),
        ("catalogue", "the same with 128 contexts", policy(64, 128), 2, 1),
        ("catalogue", "the same with 128 contexts, where a version differs from the one above in 8 lines", policy(64, 128, 8), 2, 1),
        ("catalogue", "a whole policy, 1,024 lines, 1,024 neverallow lines", nevers(), 10, 1),
        ("read", "a policy text read, for each megabyte", large, 2, len(large) / 1e6),
    ):
        (proved,) = timing.times((programs.proved,), ((work, rounds),), rounds * pieces, asked.runs, text)
        timing.row(name, shown(proved), "", "")
