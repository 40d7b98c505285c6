"""Sessions of 90,000 lines on threads, as whole commands, on one to four processors.

`flaskd threads` and the plain program run the same sessions; `flaskd serial` runs them on one thread. A figure is of the whole process, its start with it, by the clock. In the first session each of
eight clients calls all managers, by the calls of `generate`, in the second each client calls one of them, in the third four clients call all, and in the fourth each of three clients has
a manager that no other calls. What both programs print of a run is judged by tests/judge once.
"""

import os
import pathlib
import random
import subprocess
import sys
import tempfile
import time

import timing

RUNS = 9
CRATES = ""
LINES = 90_000
SESSIONS = (
    ("each of eight clients calls all managers", 8, False),
    ("each of eight clients calls one manager", 8, True),
    ("each of four clients calls all managers", 4, False),
    ("each of three clients calls a manager of its own", 3, True),
)
ABOVE = """policy 1
context u:r:a_t
context u:r:b_t
context u:object_r:d_t
version
allow * * dir search add_name
allow * * file read write create
allow * * process fork
allow * * port name_bind recv send
version
allow * * dir search
allow a_t * file read write
allow * self process fork
allow a_t * port name_bind recv send
version
allow * * dir search
allow b_t * file read
session
initial root u:object_r:d_t
initial port u:object_r:d_t
"""


def call(draw, manager):
    """A call of a manager, as `generate` draws them."""
    slot, path = draw.randrange(8), f"/f{draw.randrange(64)}"
    calls = (
        (f"create {path}", f"open {slot} {path} rw", f"write {slot} 0 x{draw.randrange(64)}", f"read {slot} 0 16"),
        (f"fork {draw.randrange(1, 513)}",),
        (f"bind {slot} {draw.randrange(1, 129)} br", f"send {draw.randrange(1, 129)} m{draw.randrange(64)}"),
    )
    return f"{('file', 'process', 'port')[manager]} {draw.choice(calls[manager])}"


def admin(draw):
    return "admin " + draw.choice((f"notify {draw.randrange(3)}", "update 64", "update 64", "ack"))


def text(clients, is_divided):
    """A session in which each client calls all managers, or one of them where it is divided."""
    draw = random.Random(7)
    said = [f"client c{client} u:r:{'ab'[client % 2]}_t" for client in range(clients)] + ["run"]
    for _ in range(LINES):
        client = draw.randrange(clients)
        manager = client % 3 if is_divided else draw.choice((0, 0, 0, 0, 1, 2, 2))
        said.append(admin(draw) if draw.randrange(8) == 0 else f"c{client} {call(draw, manager)}")
    return ABOVE + "\n".join(said) + "\n"


def once(words, path, processors):
    """Seconds by the clock and of processors in the user's part, of one run."""
    with open(path, "rb") as source, open(os.devnull, "wb") as sink:
        begun = time.perf_counter()
        child = subprocess.Popen(words, stdin=source, stdout=sink, preexec_fn=lambda: os.sched_setaffinity(0, range(processors)))
        _, status, usage = os.wait4(child.pid, 0)
        took = time.perf_counter() - begun
        child.returncode = os.waitstatus_to_exitcode(status)
    if child.returncode != 0:
        sys.exit(f"bench: {' '.join(map(str, words))} ended with {child.returncode}")
    return took * 1e9, usage.ru_utime * 1e9


def judged(words, path):
    """Stops where what a run prints is not lawful."""
    with tempfile.NamedTemporaryFile() as printed:
        subprocess.run(words, stdin=open(path, "rb"), stdout=printed, check=True)
        subprocess.run([timing.TOP / "tests" / "judge", path, printed.name], check=True, stdout=subprocess.DEVNULL)


def measure(programs, asked):
    flaskd = asked.program.resolve()
    runs = {"threads": [flaskd, "threads"], "plain": [programs.plain], "serial": [flaskd, "serial"]}
    timing.head("session, processors", "`threads`, ms by the clock, best / median", "plain Rust", "ratio of medians", "`serial`", "ratio of medians to that", "user time: ratio to plain Rust")
    with tempfile.TemporaryDirectory() as folder:
        for name, clients, is_divided in SESSIONS:
            path = pathlib.Path(folder) / "session"
            path.write_text(text(clients, is_divided))
            judged(runs["threads"], path)
            judged(runs["plain"], path)
            for processors in (1, 2, 3, 4):
                found = {which: [] for which in runs}
                for _ in range(asked.runs):
                    for which, words in runs.items():
                        found[which].append(once(words, path, processors))
                clock = {which: [one[0] for one in figures] for which, figures in found.items()}
                user = {which: [one[1] for one in figures] for which, figures in found.items()}
                shown = [timing.shown(clock[which], 1_000_000, 1) for which in ("threads", "plain")]
                timing.row(
                    f"{name}, {processors}",
                    *shown,
                    timing.ratio(clock["threads"], clock["plain"]),
                    timing.shown(clock["serial"], 1_000_000, 1),
                    timing.ratio(clock["threads"], clock["serial"]),
                    timing.ratio(user["threads"], user["plain"]),
                )
