#!/usr/bin/env python3
"""A second `flaskd learn`, for sessions without a fault.

    tests/model/plain_learning.py VERSION < SESSION     prints the answer

It shares nothing with the program: the session is run by `plain_model.py`, and the denials are put into a dictionary and sorted at the end.
"""

import sys

from plain_model import CLASSES, Run, words_of


class Learning(Run):
    """A run that keeps its denials under a version."""

    def __init__(self, text, version):
        super().__init__(text)
        self.asked_version, self.types, self.nevers, self.denials = version, [], [], {}
        for _, words in words_of(text):
            if words[0] == "session":
                break
            name = words[1] if words[0] == "type" else words[1].split(":")[2] if words[0] == "context" else None
            if name and name not in self.types:
                self.types.append(name)
            if words[0] == "neverallow":
                self.nevers.append(words)

    def log(self, line, call):
        if call.manager.version(call.number) != self.asked_version:
            return
        for s, t, name, perm, allowed in call.asked:
            if not allowed and self.policy.is_audited(s, t, name, perm, False):
                self.denials.setdefault((self.types.index(s[2]), self.types.index(t[2]), list(CLASSES).index(name)), set()).add(perm)

    def is_refused(self, s, t, name, perm):
        lines = self.policy.matching(self.nevers, ("neverallow",), s, t, name)
        return any(line[4] == "*" or perm in line[4:] for line in lines)

    def learned(self):
        if self.asked_version >= len(self.policy.versions):
            return "noversion\n"
        self.answer()
        allow, refused = [], []
        for (s, t, name), perms in sorted(self.denials.items()):
            s, t, name = self.types[s], self.types[t], list(CLASSES)[name]
            for lines, word, of in ((allow, "allow", False), (refused, "refused", True)):
                names = [perm for perm in CLASSES[name] if perm in perms and self.is_refused(s, t, name, perm) == of]
                if names:
                    lines.append(" ".join([word, s, t, name, *names]))
        return "".join(f"{line}\n" for line in allow + refused)


def main():
    sys.stdout.write(Learning(sys.stdin.read(), int(sys.argv[1])).learned())


if __name__ == "__main__":
    main()
