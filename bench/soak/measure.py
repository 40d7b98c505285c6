"""Threads that call a station under constant change of its policy, for a stated time: no answer may be stale, and memory stays flat.

In each round two callers use the example board beside fifty changes of its policy, and a plain judge reads the history that they left: each
answer has to be that of the version in force under the entry's own policy number, and none may stand under a number below
the one that was settled. All rounds are of one process, whose resident memory is looked at each second.
"""

import pathlib
import subprocess
import sys
import time

RUNS = 1
SECONDS = 600
TRIAL = 20
CRATES = "may_wait=1: station_rounds"


def resident(process):
    """The resident memory of a process in KiB, or None where it has ended."""
    try:
        lines = pathlib.Path(f"/proc/{process.pid}/status").read_text().splitlines()
    except OSError:
        return None
    return next((int(line.split()[1]) for line in lines if line.startswith("VmRSS:")), None)


def soaked(program, rounds):
    """What a process of so many rounds told, and what memory it had at each second."""
    process = subprocess.Popen([program, str(rounds)], stdout=subprocess.PIPE, text=True)
    seen = []
    while process.poll() is None:
        time.sleep(1)
        now = resident(process)
        if now:
            seen.append(now)
    told = [int(word) for word in process.stdout.read().split()]
    if process.returncode != 0 or len(told) != 4:
        sys.exit(f"bench: the soak ended with status {process.returncode}")
    return told, seen


def measure(programs, asked):
    began = time.monotonic()
    soaked(programs.proved, TRIAL)
    rounds = int(TRIAL * (asked.seconds or SECONDS) / (time.monotonic() - began))
    began = time.monotonic()
    (done, unlawful, calls, changes), seen = soaked(programs.proved, rounds)
    took = time.monotonic() - began
    if done != rounds:
        sys.exit(f"bench: the soak ended after {done} of {rounds} rounds: memory or seats were missing")
    tenth = max(len(seen) // 10, 1)
    first, last = max(seen[:tenth]), max(seen[-tenth:])
    print(f"{took:.0f} seconds, {done} rounds, {calls} calls, {changes} changes, {unlawful} histories with a stale or another unlawful answer; "
          f"resident memory at most {first} KiB in the first tenth, {last} KiB in the last")
    if unlawful:
        sys.exit(1)
