"""Calls of the file manager's core.

Both programs read one session, do its first calls once and the others many times, under a policy that allows all, and must
count the same replies. A figure is processor time for one of the repeated calls.
"""

import timing

RUNS = 11
CRATES = (
    "session_text policy_text process_calls port_calls file_manager file_store file_calls file_tree retained_rights manager_history "
    "access_vectors flask_sid"
)
POLICY = "policy 1\ncontext u:r:t\nversion\nsession\n"
DEEP = [f"/{'/'.join(f'p{at}' for at in range(depth))}" for depth in range(1, 17)]


def session(nodes, calls):
    lines = [f"{kind} {path} u:r:t{data}" for kind, path, data in nodes]
    return POLICY + "\n".join([*lines, "client alice u:r:t", "run", *(f"alice file {call}" for call in calls)]) + "\n"


def deep_nodes():
    return [("dir", path, "") for path in DEEP[:-1]] + [("file", DEEP[-1], " " + 64 * "d")]


def many_nodes(count):
    return [("dir", "/many", "")] + [("file", f"/many/f{at:04}", " x") for at in range(count)]


def opens(paths):
    return [call for path in paths for call in (f"open 0 {path} r", "close 0")]


def many(count):
    return [f"/many/f{at * 7919 % count:04}" for at in range(count)]


def made(count):
    paths = many(count)
    return [f"create {path}" for path in paths] + [f"unlink {path}" for path in paths]


def full():
    """A file that is filled, and then a write into it."""
    return ["open 0 /f rw", *(f"write 0 {1024 * at} {1024 * 'd'}" for at in range(64)), "write 0 60000 " + 16 * "w"]


def appended():
    """A file that grows by 4,000 appends, and is taken away."""
    return ["create /g", "open 0 /g rwa", *(["append 0 " + 16 * "a"] * 4_000), "close 0", "unlink /g"]


# what is measured: its name, the session, how many of its calls are done once, and how often the others are done
CASES = (
    ("open through 16 parts, and close", session(deep_nodes(), opens([DEEP[-1]])), 0, 100_000),
    ("open of a name in the root, and close", session([("file", "/f", " x")], opens(["/f"])), 0, 200_000),
    ("read of 16 bytes through a slot", session(deep_nodes(), [f"open 0 {DEEP[-1]} rw", "read 0 0 16"]), 1, 400_000),
    ("write of 16 bytes through a slot, into 64", session(deep_nodes(), [f"open 0 {DEEP[-1]} rw", "write 0 0 " + 16 * "w"]), 1, 200_000),
    ("write of 16 bytes through a slot, into 65,536", session([("file", "/f", " x")], full()), 65, 200_000),
    ("append of 16 bytes, up to 64,000", session([("file", "/f", " x")], appended()), 0, 40),
    ("open in a directory of 40 entries, and close", session(many_nodes(40), opens(many(40))), 0, 4_000),
    ("open in a directory of 400 entries, and close", session(many_nodes(400), opens(many(400))), 0, 400),
    ("open in a directory of 4,000 entries, and close", session(many_nodes(4_000), opens(many(4_000))), 0, 40),
    ("create and unlink, 40 entries", session(many_nodes(0), made(40)), 0, 2_000),
    ("create and unlink, 4,000 entries", session(many_nodes(0), made(4_000)), 0, 20),
)


def measure(programs, asked):
    timing.head("calls", "proved, best / median, ns a call", "plain Rust", "ratio of medians")
    path = timing.OUT / "files.session"
    for name, text, first, rounds in CASES:
        path.write_text(text)
        calls = (text.count("\nalice file ") - first) * rounds
        proved, plain = timing.both(programs, (path, first, rounds), calls, asked.runs)
        timing.row(name, timing.shown(proved), timing.shown(plain), timing.ratio(proved, plain))
