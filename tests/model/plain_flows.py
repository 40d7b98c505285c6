#!/usr/bin/env python3
"""A second `flaskd flow` and `flaskd enter`, for policies without a fault: a plain breadth-first search.

    tests/model/plain_flows.py flow VERSION FROM TO < POLICY     prints the answer, as `enter` does
    tests/model/plain_flows.py --pairs POLICY..                  writes NAME.pairs beside each NAME.policy: the answers of all pairs
    tests/model/plain_flows.py --draw SEED TYPES                 prints a policy that is drawn

It shares nothing with the program: vectors are those of `plain_model.py`, which walks the lines; contexts are closed by trying every pair;
and a path is found from its beginning, by trying all paths of one hop more in the order of their nodes, where the program
finds distances from the end.
"""

import argparse
import itertools
import pathlib
import random
import sys

from plain_model import CLASSES, Policy, words_of

WRITING = {
    "file": ["write", "append", "create"],
    "dir": ["add_name", "remove_name"],
    "process": ["signal", "ptrace"],
    "port": ["send"],
}
READING = {
    "file": ["read", "getattr"],
    "dir": ["read", "search", "getattr"],
    "process": ["ptrace", "wait", "getattr"],
    "port": ["recv", "getattr"],
}


class Typed(Policy):
    """A policy with its types in the order of their declarations."""

    def __init__(self, text):
        super().__init__()
        self.types = []
        for _, words in words_of(text):
            self.declare(words)
            if words[0] == "type":
                self.types.append(words[1])
            elif words[0] == "context" and self.contexts[-1][2] not in self.types:
                self.types.append(self.contexts[-1][2])
        self.nodes = self.types_of_contexts()
        self.vectors = {}

    def types_of_contexts(self):
        """The types of all contexts to which the policy leads, in the order of their declarations."""
        known = set(self.contexts)
        while True:
            more = set(known)
            for version, s, t, name in itertools.product(range(len(self.versions)), known, known, CLASSES):
                more.add(self.label(version, s, t, name))
                more.add(self.member(version, s, t, name))
            if more == known:
                kinds = {context[2] for context in known}
                return [kind for kind in self.types if kind in kinds]
            known = more

    def allows(self, version, s, t, name, perm):
        key = (version, s, t, name)
        if key not in self.vectors:
            self.vectors[key] = self.vector(version, ("u", "r", s), ("u", "r", t), name)
        return perm in self.vectors[key]

    def flow(self, version, a, b):
        """The first question by which information gets from a to b: source, target, class and permission."""
        for name in ("file", "dir", "process", "port"):
            for perm in CLASSES[name]:
                if perm in WRITING[name] and self.allows(version, a, b, name, perm):
                    return (a, b, name, perm)
                if perm in READING[name] and self.allows(version, b, a, name, perm):
                    return (b, a, name, perm)
        return None

    def enter(self, version, a, b):
        return (a, b, "process", "transition") if self.allows(version, a, b, "process", "transition") else None


def shortest(hop, nodes, start, end):
    """The nodes of the shortest path, the first of them, or None."""
    paths, seen = [[start]], {start}
    while paths:
        for path in paths:
            if path[-1] == end:
                return path
        longer = [path + [node] for path in paths for node in nodes if node not in seen and hop(path[-1], node)]
        paths = list({path[-1]: path for path in reversed(longer)}.values())
        paths.sort(key=lambda path: [nodes.index(node) for node in path])
        seen |= {path[-1] for path in paths}
    return None


def answer(policy, kind, version, start, end):
    """The lines of an answer."""
    if version >= len(policy.versions):
        return ["noversion"]
    for name in (start, end):
        if name not in policy.nodes:
            return ["notype " + name]
    ask = policy.flow if kind == "flow" else policy.enter
    path = shortest(lambda a, b: ask(version, a, b), policy.nodes, start, end)
    if path is None:
        return ["none"]
    return [f"path {len(path) - 1}"] + [" ".join((a, b) + ask(version, a, b)) for a, b in zip(path, path[1:])]


def pairs_of(policy):
    """The answers of both commands for all pairs of types under all versions, each behind its words."""
    for version, kind in itertools.product(range(len(policy.versions)), ("flow", "enter")):
        for start, end in itertools.product(policy.types, policy.types):
            yield f"> {kind} {version} {start} {end}"
            yield from answer(policy, kind, version, start, end)


def draw(seed, count):
    """A policy of so many types, whose rules are few enough that paths are long."""
    one = random.Random(seed)
    types = [f"t{number}" for number in range(count)]
    bare = types[count - 2:]
    order = types[:-2]
    one.shuffle(order)
    lines = ["policy 1"] + [f"context u:r:{kind}" for kind in order] + [f"type {kind}" for kind in bare]
    lines.append("attribute some " + " ".join(one.sample(types, 3)))
    for version in range(2):
        lines.append("version")
        for _ in range(2 * count - 2):
            name = one.choice(["file", "dir", "process", "port"])
            perms = [one.choice(WRITING[name] + READING[name])] + one.sample(CLASSES[name], one.randint(0, 1))
            lines.append(f"allow {one.choice(types)} {one.choice(types)} {name} {' '.join(perms)}")
        for _ in range(count + 1):
            lines.append(f"allow {one.choice(types)} {one.choice(types)} process transition")
        lines.append(f"withhold some {one.choice(types)} {one.choice(['file', 'process'])} *")
        if version:
            lines.append(f"transition {one.choice(order)} * {one.choice(['file', 'process'])} {bare[0]}")
    return "\n".join(lines) + "\n"


def main():
    parser = argparse.ArgumentParser(description="Finds paths as `flow` and `enter` do, by a plain search.")
    parser.add_argument("--pairs", action="store_true")
    parser.add_argument("--draw", action="store_true")
    parser.add_argument("words", nargs="+")
    asked = parser.parse_args()
    if asked.draw:
        sys.stdout.write(draw(int(asked.words[0]), int(asked.words[1])))
    elif asked.pairs:
        for path in map(pathlib.Path, asked.words):
            path.with_suffix(".pairs").write_text("".join(line + "\n" for line in pairs_of(Typed(path.read_text()))))
    else:
        kind, version, start, end = asked.words
        print("\n".join(answer(Typed(sys.stdin.read()), kind, int(version), start, end)))


if __name__ == "__main__":
    main()
