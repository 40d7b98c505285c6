"""The sessions of `flaskd generate`, and reading and printing a session's text.

`generate 7 8 90000` is measured as a whole program, less its start, which is `generate 7 8 1`. Both programs must print the
same summary. The plain one keeps no session for it, so making one is measured alone too. A text to read is drawn: 80,000
lines that run, of all calls, below 16 clients and 40 files and directories. Both programs read it, or print what they read,
many times; what they made or read they must print as the same bytes.

Of `flaskd` alone it is measured how long, by the clock, the smallest session's first answer takes; what memory a session of as many reads of
1,024 bytes as there may be lines takes at most; and how long two texts with many names take to read, which are refused for their last line.
"""

import os
import random
import subprocess
import sys
import tempfile
import time

import timing

RUNS = 11
CRATES = "session_generator session_print session_text flask_sid"
LINES = 80_000
ROUNDS = 10
ABOVE = """policy 1
type a_t
type b_t
context u:r:a_t
context u:object_r:b_t
version
allow * * file read write
version
allow a_t self process fork
session
initial root u:object_r:b_t
initial port u:object_r:b_t
port 80 u:r:a_t
audit
"""


def path(draw):
    """A path of one to four parts, each of one to eight letters."""
    parts = ("".join(draw.choices("abcdefghij", k=draw.randint(1, 8))) for _ in range(draw.randint(1, 4)))
    return "/" + "/".join(parts)


def datum(draw):
    return "".join(draw.choices("0123456789abcdefABCDEF#:/+-", k=draw.randint(1, 24)))


def argument(draw, kind):
    """The word for an argument of a call: a choice of words, a number up to a limit, or what its name says."""
    if isinstance(kind, list):
        return draw.choice(kind)
    if isinstance(kind, range):
        return str(draw.choice(kind))
    return kind(draw)


SLOT, PLACE, OFFSET = range(64), range(1, 65_536), range(65_537)
CONTEXT = ["u:r:a_t", "u:object_r:b_t"]
CLIENTS = [f"client_{number}" for number in range(16)]
CALLS = (
    ("file mkdir", path),
    ("file create", path),
    ("file open", SLOT, path, "r w a rw ra wa rwa".split()),
    ("file read", SLOT, OFFSET, range(1, 1_025)),
    ("file write", SLOT, OFFSET, datum),
    ("file append", SLOT, datum),
    ("file close", SLOT),
    ("file unlink", path),
    ("file list", path, range(4_097)),
    ("file stat", path),
    ("file relabel", path, CONTEXT),
    ("file give", SLOT, CLIENTS, SLOT),
    ("process fork", PLACE),
    ("process exec", PLACE, CONTEXT),
    ("process signal", PLACE, range(1, 65)),
    ("process exit", PLACE, range(256)),
    ("process wait", PLACE),
    ("process attach", SLOT, PLACE),
    ("process peek", SLOT),
    ("process poke", SLOT, range(4_294_967_296)),
    ("process detach", SLOT),
    ("process stat", PLACE),
    ("port bind", SLOT, PLACE, ["b", "br"]),
    ("port connect", SLOT, PLACE, ["c", "cs"]),
    ("port recv", SLOT),
    ("port push", SLOT, datum),
    ("port send", PLACE, datum),
    ("port unbind", SLOT),
    ("port stat", PLACE),
)
ORDERS = (("admin notify", range(256)), ("admin update", range(4_294_967_296)), ("admin ack",))


def text(lines):
    """A drawn session: of 32 lines about one is the administrator's, two begin or end an operation, and the others are calls."""
    draw, held = random.Random(9), set()
    said = [f"dir /d{at} u:r:a_t" for at in range(8)]
    said += [f"file /d{at % 8}/f{at} u:object_r:b_t {datum(draw)}" for at in range(32)]
    said += [f"client {name} {draw.choice(CONTEXT)}" for name in CLIENTS] + ["run"]
    for _ in range(lines):
        kind = draw.randrange(32)
        client = draw.choice(CLIENTS)
        if kind < 2:
            place = f"{client} {draw.choice(['file', 'process', 'port'])}"
            held ^= {place}
            said.append(f"{place} {'begin' if place in held else 'end'}")
            continue
        words, *kinds = draw.choice(ORDERS if kind == 2 else CALLS)
        front = [] if kind == 2 else [client]
        said.append(" ".join([*front, words, *(argument(draw, kind) for kind in kinds)]))
    return ABOVE + "\n".join(said) + "\n"


STARTS = 300
DATUM = 1_024
FULL = f"""policy 1
context u:r:t
version
allow t t file read
allow t t dir search
session
file /a u:r:t {'x' * DATUM}
client alice u:r:t
run
alice file open 0 /a r
"""
READS = 100_000 - FULL.count("\n")


def first_answers(program):
    """Milliseconds from a start of the program to the first line of the smallest session's answer, by the clock, for each of many starts."""
    session, found = (timing.TOP / "examples/smallest.session").read_bytes(), []
    for _ in range(STARTS):
        began = time.perf_counter()
        with subprocess.Popen([program, "serial"], stdin=subprocess.PIPE, stdout=subprocess.PIPE) as child:
            child.stdin.write(session)
            child.stdin.close()
            child.stdout.readline()
            found.append((time.perf_counter() - began) * 1_000)
            child.stdout.read()
    return found


def full_memory(program):
    """The most memory, in KiB, that a session of so many reads took, whose answers are all thrown away."""
    with tempfile.TemporaryFile() as session, open(os.devnull, "w") as nowhere:
        session.write((FULL + f"alice file read 0 0 {DATUM}\n" * READS).encode())
        session.seek(0)
        child = subprocess.Popen([program, "serial"], stdin=session, stdout=nowhere)
        _, status, usage = os.wait4(child.pid, 0)
        child.returncode = os.waitstatus_to_exitcode(status)
    if child.returncode != 0:
        sys.exit(f"bench: the full session ended with {child.returncode}")
    return usage.ru_maxrss


DIRECTORIES, FILES, CONTEXTS = 63, 4_032, 4_000
REFUSED = 3


def tree_text():
    """A session of 4,095 files and directories, whose last line has a fault."""
    lines = ["policy 1", "context u:r:t", "version", "session"]
    lines += [f"dir /directory{at} u:r:t" for at in range(DIRECTORIES)]
    lines += [f"file /directory{at % DIRECTORIES}/file{at} u:r:t hello" for at in range(FILES)]
    return "\n".join([*lines, "client alice u:r:t", "run", "bob file close 0"]) + "\n"


def relabel_text():
    """A session of 4,000 relabels over 4,000 contexts, whose last line has a fault."""
    lines = ["policy 1", *(f"context user{at}:r:t" for at in range(CONTEXTS)), "version", "session"]
    lines += ["file /a user0:r:t", "client alice user0:r:t", "run"]
    lines += [f"alice file relabel /a user{at * 7 % CONTEXTS}:r:t" for at in range(CONTEXTS)]
    return "\n".join([*lines, "bob file close 0"]) + "\n"


def read_times(program, session, runs):
    """Nanoseconds of a processor that a whole run takes which reads a session and refuses it, the program's start with it."""
    found = []
    with tempfile.TemporaryFile() as source:
        source.write(session.encode())
        for _ in range(runs):
            source.seek(0)
            child = subprocess.Popen([program, "serial"], stdin=source, stdout=subprocess.DEVNULL, stderr=subprocess.DEVNULL)
            _, status, usage = os.wait4(child.pid, 0)
            child.returncode = os.waitstatus_to_exitcode(status)
            if child.returncode != REFUSED:
                sys.exit(f"bench: a session with a fault ended with {child.returncode}")
            found.append((usage.ru_utime + usage.ru_stime) * 1e9)
    return found


def generated(program, lines):
    """The summary of a made session, and the nanoseconds of a processor that the whole program took."""
    words = [str(program), "generate", "7", "8", str(lines)]
    child = subprocess.Popen(words, stdin=subprocess.DEVNULL, stdout=subprocess.PIPE, text=True)
    said = child.stdout.read()
    child.stdout.close()
    _, status, usage = os.wait4(child.pid, 0)
    child.returncode = os.waitstatus_to_exitcode(status)
    if child.returncode != 0:
        sys.exit(f"bench: {' '.join(words)} ended with {child.returncode}")
    return said, (usage.ru_utime + usage.ru_stime) * 1e9


def made_times(programs, runs):
    """Nanoseconds of a processor for the made session without the program's start, of each program, for each run."""
    figures = [[] for _ in programs]
    for _ in range(runs):
        said = set()
        for program, found in zip(programs, figures):
            start = generated(program, 1)[1]
            summary, took = generated(program, 90_000)
            said.add(summary)
            found.append(took - start)
        timing.agreed("the made sessions", said)
    return figures


def row(name, proved, plain):
    timing.row(name, timing.shown(proved, 1_000_000, 2), timing.shown(plain, 1_000_000, 2), timing.ratio(proved, plain))


def measure(programs, asked):
    flaskd = asked.program.resolve()
    if not flaskd.exists():
        print(f"bench: {flaskd} is not there, so `generate` is measured of the plain program alone\n", file=sys.stderr)
    timing.head("piece of work", "proved, best / median, ms", "plain Rust", "ratio of medians")
    *proved, plain = made_times([flaskd, programs.plain] if flaskd.exists() else [programs.plain], asked.runs)
    row("`generate 7 8 90000`, less its start", proved[0] if proved else [], plain)
    session = text(LINES)
    megabytes = len(session) / 1e6
    for work, name, pieces in (
        ("make", "its session made, and not run", 1),
        ("read", "a session text read, for each megabyte", megabytes),
        ("print", "a session printed, for each megabyte", megabytes),
    ):
        row(name, *timing.both(programs, (work, ROUNDS), ROUNDS * pieces, asked.runs, session))
    if flaskd.exists():
        alone(flaskd, asked.runs)


def alone(flaskd, runs):
    """What is measured of `flaskd` alone."""
    print()
    timing.head("the whole program", "proved, best / median, ms", "plain Rust", "ratio of medians")
    for name, session in (("4,095 files and directories read", tree_text()), ("4,000 relabels over 4,000 contexts read", relabel_text())):
        timing.row(f"{name}, {len(session) // 1000} KB", timing.shown(read_times(flaskd, session, runs), 1_000_000, 2), "", "")
    print()
    timing.head("the whole program", "proved, best / median, ms by the clock", "plain Rust", "ratio of medians")
    timing.row("the smallest session's first answer", timing.shown(first_answers(flaskd), digits=2), "", "")
    print()
    timing.head("the whole program", "proved, bytes a read, at most", "plain Rust", "ratio of medians")
    timing.row(f"memory of a session of {READS:,} reads of {DATUM:,} bytes", f"{full_memory(flaskd) * 1024 // READS:,}", "", "")
