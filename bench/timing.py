"""What all measurements share: their programs, built into bench/out, and the figures of repeated runs.

The proved program of a measurement is a crate of its own, whose files stand in bench/NAME/proved with .txt behind their names,
since the gate takes no source outside the crates that crates.txt names. It is built in a temporary copy of the repository, by a gate of
its own without wrong bodies: what the gate proved on this machine is taken as proved, and only the measured crate is proved anew. Where the
gate did not run, the copy proves the crates below first, which takes minutes.
"""

import datetime
import os
import pathlib
import re
import shutil
import statistics
import subprocess
import sys
import tempfile

BENCH = pathlib.Path(__file__).resolve().parent
TOP = BENCH.parent
OUT = BENCH / "out"
FLASKD = TOP / "crates" / "flaskd" / "out" / "flaskd"
RUSTC = ["rustc", "-O", "-C", "codegen-units=1", "--edition", "2024"]


class Programs:
    """The proved program of a measurement and the plain one, and how they are built."""

    def __init__(self, name, crates):
        """`crates` is what the proved one stands on, as a line of crates.txt has it behind the name. Where the folder has no crate of its own,
        flaskd itself is measured beside the plain program; where it has no plain program, the proved one is looked at alone."""
        self.folder = BENCH / name
        self.crate = f"{name}_bench"
        self.line = f"{self.crate} {crates}" if crates.startswith("may_wait") else f"{self.crate}: {crates}"
        self.proved = OUT / self.crate
        self.plain = OUT / f"plain_{name}"

    def build(self):
        OUT.mkdir(exist_ok=True)
        if (self.folder / "plain.rs").is_file():
            subprocess.run([*RUSTC, str(self.folder / "plain.rs"), "-o", str(self.plain)], check=True)
        if not (self.folder / "proved").is_dir():
            return
        with tempfile.TemporaryDirectory() as place:
            crate = self.copied_to(pathlib.Path(place))
            log = OUT / f"{self.crate}.log"
            with open(log, "w") as lines:
                built = subprocess.run(["rt", "ci"], cwd=place, stdin=subprocess.DEVNULL, stdout=lines, stderr=lines)
            if built.returncode != 0:
                sys.exit(f"bench: no program was built; {log} says why")
            shutil.copy(crate / "out" / self.crate, self.proved)

    def copied_to(self, place):
        """The folder of the crate in a copy of what it needs."""
        names = needed_crates(self.line)
        for needed in names:
            shutil.copytree(TOP / "crates" / needed, place / "crates" / needed, ignore=shutil.ignore_patterns("out", "must-fail"))
        shutil.copy(TOP / "HANDLES", place)
        lines = (TOP / "crates.txt").read_text().splitlines(keepends=True)
        kept = [text for text in lines if text.split() and text.split()[0].rstrip(":") in names]
        (place / "crates.txt").write_text("".join(kept) + self.line + "\n")
        crate = place / "crates" / self.crate
        for path in (self.folder / "proved").rglob("*.txt"):
            target = crate / path.relative_to(self.folder / "proved").with_suffix("")
            target.parent.mkdir(parents=True, exist_ok=True)
            shutil.copy(path, target)
        return crate


def needed_crates(line):
    """The crates of this repository that a line of crates.txt stands on, those below them too."""
    below = {}
    for text in (TOP / "crates.txt").read_text().splitlines():
        head, _, tail = text.partition("#")[0].partition(":")
        if head.strip():
            below[head.split()[0]] = tail.split()
    wanted, found = line.partition(":")[2].split(), set()
    while wanted:
        name = wanted.pop()
        if name in below and name not in found:
            found.add(name)
            wanted.extend(below[name])
    return found


def told(program, words, given=None):
    """The words that a run prints."""
    command = [str(program), *(str(word) for word in words)]
    return subprocess.run(command, input=given, capture_output=True, check=True, text=True).stdout.split()


def agreed(name, said):
    """Ends the measurement where the programs told different things of their work."""
    if len(said) > 1:
        sys.exit(f"bench: {name}: the programs told {said}")


def times(programs, words, pieces, runs, given=None):
    """Nanoseconds of a processor for one piece, of each of the programs, for each run. `words` has the words of each program.

    A run prints the nanoseconds that it took and then what it did, which all programs must tell alike.
    """
    figures = [[] for _ in programs]
    for _ in range(runs):
        said = set()
        for program, own, found in zip(programs, words, figures):
            took, *rest = told(program, own, given)
            said.add(tuple(rest))
            found.append(int(took) / pieces)
        agreed(words, said)
    return figures


def both(programs, words, pieces, runs, given=None):
    """The same of the proved program and the plain one."""
    return times((programs.proved, programs.plain), (words, words), pieces, runs, given)


def shown(figures, unit=1, digits=0):
    """The best run and the median run, in units of so many nanoseconds."""
    return f"{min(figures) / unit:.{digits}f} / {statistics.median(figures) / unit:.{digits}f}" if figures else ""


def ratio(proved, plain):
    """The ratio of medians."""
    return f"{statistics.median(proved) / statistics.median(plain):.2f}" if proved and plain else ""


# The tables that were printed so far: of each its head and its rows.
TABLES = []


def head(*cells):
    TABLES.append((cells, []))
    line(cells)
    print("|" + "---|" * len(cells))


def row(*cells):
    TABLES[-1][1].append(cells)
    line(cells)


def line(cells):
    text = " | ".join(str(cell) for cell in cells)
    print(f"| {text} |".replace("|  |", "| |").replace("|  |", "| |"), flush=True)


def load():
    return " ".join(pathlib.Path("/proc/loadavg").read_text().split()[:3])


def processor():
    names = re.findall(r"model name\s*: (.*)", pathlib.Path("/proc/cpuinfo").read_text())
    return f"{os.cpu_count()} cores, {names[0] if names else 'unknown'}"


def now():
    return f"{datetime.datetime.now(datetime.timezone.utc):%Y-%m-%d %H:%M}"


def headline(runs):
    return f"{processor()}; {now()} UTC; {runs} runs; load before: {load()}\n"
