#!/usr/bin/env python3
"""A second `flaskd threads`, for sessions without a fault: the plain managers of the model on one thread, in an order that is drawn.

    tests/model/plain_threads.py threads < SESSION           prints a text that is lawful, another one each time
    tests/model/plain_threads.py threads SEED < SESSION      the same one for one SEED
    tests/model/plain_threads.py in_order < SESSION          that of the order in which the lines stand

Each client and the administrator go step by step, and who is next is drawn. A call is two steps, in the first of which it takes its
policy number; a line of the administrator is a step at each manager. A change that is pending at the end is completed then.
"""

import collections
import random
import sys

import plain_model as model


class Histories(model.Run):
    """A run that keeps each manager's history."""

    def __init__(self, text):
        super().__init__(text)
        self.histories = {kind: [] for kind in self.managers}

    def steps(self, number, words):
        return self.admin_steps(words[1:]) if words[0] == "admin" else self.client_steps(number, *words[:2], words[1:])

    def client_steps(self, number, client, kind, words):
        manager = self.managers[kind]
        is_call = words[1] not in ("begin", "end")
        holds = client in manager.held
        if is_call and not holds:
            manager.held[client] = manager.number
            yield
        said = self.client_line(number, client, words)
        if is_call:
            self.histories[kind].append(f"{number} {client} {kind} {said}")
            if not holds:
                del manager.held[client]
        yield

    def admin_steps(self, words):
        changing = self.is_changing()
        if words[0] == "update" or changing == (words[0] != "notify") and (changing or int(words[1]) < len(self.policy.versions)):
            for manager in self.managers.values():
                self.admin_step(manager, words)
                yield
            self.changes += changing and not self.is_changing()
        yield

    def admin_step(self, manager, words):
        if words[0] == "notify":
            manager.notify(int(words[1]))
            self.histories[manager.kind].append(f"notice {manager.number} {manager.new}")
        elif words[0] == "update":
            manager.update(int(words[1]))
        elif manager.pending and manager.acknowledge(words[0] == "force") == "kept":
            self.histories[manager.kind].append(f"{'forced' if words[0] == 'force' else 'ack'} {manager.number}")

    def end(self):
        """Completes a change that is pending."""
        self.changes += self.is_changing()
        for manager in self.managers.values():
            if manager.pending:
                manager.pending = False
                self.histories[manager.kind].append(f"ack {manager.number}")

    def in_order(self):
        """Runs the lines as they stand."""
        for number, words in self.runs:
            collections.deque(self.steps(number, words), 0)

    def drawn(self, draw):
        """Runs the lines of each script, step by step among those of the others."""
        scripts = {}
        for number, words in self.runs:
            scripts.setdefault(words[0], []).append((number, words))
        goers = [(step for line in script for step in self.steps(*line)) for script in scripts.values()]
        while goers:
            goer = draw.choice(goers)
            if next(goer, self) is self:
                goers.remove(goer)

    def text(self):
        lines = []
        for kind, history in self.histories.items():
            lines += [f"history {kind}", *history]
        lines += [line for client in self.clients for line in self.audited[client]]
        lines.append(f"calls {self.calls} denied {self.denied} changes {self.changes}")
        return "\n".join(lines) + "\n"


def printed(text, draw=None):
    """What a run of a session prints, in an order that is drawn, or without a draw in that of its lines."""
    run = Histories(text)
    if draw:
        run.drawn(draw)
    else:
        run.in_order()
    run.end()
    return run.text()


def main():
    draw = random.Random(*sys.argv[2:3]) if sys.argv[1] == "threads" else None
    sys.stdout.write(printed(sys.stdin.read(), draw))


if __name__ == "__main__":
    main()
