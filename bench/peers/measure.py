"""Compiling a policy with `neverallow` lines, beside `secilc` and `checkpolicy`, and single decisions beside libsepol, where the machine has them.

The policy has 128 types, 1,024 lines that allow reading and 1,024 `neverallow` lines that forbid writing, and is written in the language of each program.
`flaskd serial` reads and compiles it below a session of no lines; the others write the binary policy to a file. A figure is processor time of a whole
command. The programs do not do the same: the others write a policy for a kernel, which has more in it, and `flaskd` makes rows for all pairs of types.
A decision is a vector for drawn pairs of types of the same policy: a look-up by the program of `bench/run rows`, where that is built, and
`sepol_compute_av`, which walks the attributes of both types, as a kernel does where its cache has no entry. Nothing is installed: what is not there is left out.
"""

import os
import pathlib
import random
import shutil
import statistics
import subprocess
import sys
import tempfile

import timing

RUNS = 11
CRATES = ""
KEYS = 65_536
SESSION = "session\nclient alice u:r:k0\nrun\n"
MLS_FREE = """(handleunknown allow)
(mls false)
(policycap open_perms)
(class file (read write))
(classorder (file))
(sid kernel)
(sidorder (kernel))
(user u)
(role r)
(role object_r)
(sensitivity s0)
(sensitivityorder (s0))
(userrole u r)
(userrole u object_r)
(userlevel u (s0))
(userrange u ((s0) (s0)))
(sidcontext kernel (u r k0 ((s0) (s0))))
(roletype r k0)
"""
BASE = """class file
sid kernel
class file { read write }
"""
TAIL = """role r;
role r types k0;
user u roles r;
sid kernel u:r:k0
"""


def drawn():
    """The types forbidden to write, and the types that all may read, of each line."""
    draw = random.Random(7)
    return [draw.randrange(128) for _ in range(1024)], [draw.randrange(128) for _ in range(1024)]


def own_text(nevers, allows):
    lines = ["policy 1", "context u:r:k0"] + [f"type k{kind}" for kind in range(1, 128)]
    lines += [f"neverallow k{kind} * file write" for kind in nevers] + ["version"]
    lines += [f"allow * k{kind} file read" for kind in allows]
    return "\n".join(lines) + "\n" + SESSION


def cil_text(nevers, allows):
    lines = [f"(type k{kind})" for kind in range(128)]
    lines += ["(typeattribute every)", "(typeattributeset every (all))"]
    lines += [f"(neverallow k{kind} every (file (write)))" for kind in nevers]
    lines += [f"(allow every k{kind} (file (read)))" for kind in allows]
    return MLS_FREE + "\n".join(lines) + "\n"


def policy_text(nevers, allows):
    lines = ["attribute all;"] + [f"type k{kind}, all;" for kind in range(128)]
    lines += [f"neverallow k{kind} all:file write;" for kind in nevers]
    lines += [f"allow all k{kind}:file read;" for kind in allows]
    return BASE + "\n".join(lines) + "\n" + TAIL


def took(words, path):
    """Nanoseconds of a processor for one run of a command that reads a file as its standard input."""
    with open(path, "rb") as source:
        child = subprocess.Popen([str(word) for word in words], stdin=source, stdout=subprocess.DEVNULL, stderr=subprocess.PIPE)
        said = child.stderr.read()
        child.stderr.close()
        _, status, usage = os.wait4(child.pid, 0)
    child.returncode = os.waitstatus_to_exitcode(status)
    if child.returncode != 0:
        sys.exit(f"bench: {words[0]} ended with {child.returncode}: {said.decode(errors='replace')}")
    return (usage.ru_utime + usage.ru_stime) * 1e9


def share(proved, peer):
    """The ratio of medians, which is small."""
    return f"{statistics.median(proved) / statistics.median(peer):.4f}"


def decisions(place, asked):
    """Single decisions, where libsepol can be linked, `secilc` has written its policy, and the program of look-ups is built."""
    timing.head("a vector by drawn pairs of 128 types", "proved, best / median, ns", "the peer", "ratio of medians")
    look, decision = timing.OUT / "rows_bench", place / "decision"
    compiler = shutil.which("gcc") or shutil.which("cc")
    source = pathlib.Path(__file__).parent / "decision.c"
    made = compiler and subprocess.run([compiler, "-O2", "-o", decision, source, "-l:libsepol.a"], stderr=subprocess.DEVNULL).returncode == 0
    for there, what in ((look.is_file(), "bench/out/rows_bench"), (made, "libsepol to link with"), ((place / "binary").is_file(), "policy of secilc")):
        if not there:
            print(f"bench: there is no {what} on this machine", file=sys.stderr)
            return
    text, figures = (place / "own").read_text().removesuffix(SESSION), ([], [])
    for _ in range(asked.runs):
        for found, words, rounds, given in ((figures[0], [look, "look", "100"], 100, text), (figures[1], [decision, place / "binary", "1"], 1, None)):
            told = subprocess.run([str(word) for word in words], input=given, capture_output=True, text=True, check=True)
            found.append(int(told.stdout.split()[0]) / rounds / KEYS)
    timing.row("beside `sepol_compute_av`", timing.shown(figures[0], digits=1), timing.shown(figures[1], digits=1), share(*figures))


def measure(programs, asked):
    flaskd = asked.program.resolve()
    timing.head("a policy of 1,024 `allow` and 1,024 `neverallow` lines, compiled", "proved, best / median, ms", "the peer", "ratio of medians")
    with tempfile.TemporaryDirectory() as folder:
        place, lines = pathlib.Path(folder), drawn()
        own, cil, conf = place / "own", place / "peer.cil", place / "peer.conf"
        own.write_text(own_text(*lines))
        cil.write_text(cil_text(*lines))
        conf.write_text(policy_text(*lines))
        peers = {
            "secilc": (["secilc", "-o", place / "binary", "-f", place / "contexts", cil], cil),
            "checkpolicy": (["checkpolicy", "-o", place / "another", conf], conf),
        }
        for name, (words, path) in peers.items():
            if shutil.which(name) is None:
                print(f"bench: there is no {name} on this machine", file=sys.stderr)
                continue
            figures = [(took([flaskd, "serial"], own), took(words, path)) for _ in range(asked.runs)]
            proved, peer = [one[0] for one in figures], [one[1] for one in figures]
            timing.row(f"beside `{name}`", timing.shown(proved, 1_000_000, 2), timing.shown(peer, 1_000_000, 2), share(proved, peer))
        decisions(place, asked)
