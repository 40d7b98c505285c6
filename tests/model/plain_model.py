#!/usr/bin/env python3
"""A second `flaskd serial`, for sessions without a fault: plain, slow, and sharing nothing with the program.

    tests/model/plain_model.py < SESSION          prints the answer
    tests/model/plain_model.py --write FOLDER     writes NAME.out beside each NAME.in of a folder

It knows the whole policy language and every line of a session. Decisions walk the lines, contexts are tuples, and a
slot keeps the policy number that it follows, from which the stale slots are counted anew at each line.
"""

import pathlib
import sys

CLASSES = {
    "file": "read write append create unlink getattr relabelfrom relabelto".split(),
    "dir": "read search create add_name remove_name getattr relabelfrom relabelto".split(),
    "process": "fork transition signal ptrace exit wait getattr".split(),
    "port": "name_bind recv send connect getattr".split(),
    "security": "load_policy".split(),
}
MODES = {"r": "read", "w": "write", "a": "append"}
PORT_MODES = {"b": ["name_bind"], "br": ["name_bind", "recv"], "c": ["connect"], "cs": ["send", "connect"]}


def words_of(text):
    """The lines that say anything, each with its number."""
    for number, line in enumerate(text.split("\n"), 1):
        words = line.split()
        if words and not words[0].startswith("#"):
            yield number, words


def context_of(word):
    return tuple(word.split(":"))


def names_of(path):
    return [name for name in path.split("/") if name]


class Policy:
    """The contexts, the declarations on audit, and the rule lines of each version."""

    def __init__(self):
        self.contexts, self.attributes, self.audits, self.versions = [], {}, [], []

    def declare(self, words):
        if words[0] == "context":
            self.contexts.append(context_of(words[1]))
        elif words[0] == "attribute":
            self.attributes[words[1]] = set(words[2:])
        elif words[0] in ("dontaudit", "auditallow"):
            self.audits.append(words)
        elif words[0] == "version":
            self.versions.append([])
        elif words[0] in ("allow", "withhold", "transition", "member"):
            self.versions[-1].append(words)

    def is_type(self, word, kind):
        return word == "*" or word == kind or kind in self.attributes.get(word, ())

    def matching(self, lines, verbs, source, target, name):
        """The lines of these verbs that match a pair of types and a class, in order."""
        for line in lines:
            if line[0] in verbs and line[3] == name and self.is_type(line[1], source):
                if source == target if line[2] == "self" else self.is_type(line[2], target):
                    yield line

    def vector(self, version, s, t, name):
        allowed = set()
        for line in self.matching(self.versions[version], ("allow", "withhold"), s[2], t[2], name):
            perms = set(CLASSES[name] if line[4] == "*" else line[4:])
            allowed = allowed | perms if line[0] == "allow" else allowed - perms
        return allowed

    def label(self, version, s, t, name):
        """The label of a new object of a class."""
        lines = list(self.matching(self.versions[version], ("transition",), s[2], t[2], name))
        if name == "process":
            return (s[0], s[1], lines[-1][4] if lines else s[2])
        return (s[0], "object_r", lines[-1][4] if lines else t[2])

    def member(self, version, s, t, name):
        lines = list(self.matching(self.versions[version], ("member",), s[2], t[2], name))
        return (s[0], "object_r", lines[-1][4]) if lines else t

    def is_audited(self, s, t, name, perm, allowed):
        """Whether a question has an audit line: a denial but where it is silenced, a grant where it is watched."""
        lines = self.matching(self.audits, ("auditallow" if allowed else "dontaudit",), s[2], t[2], name)
        return allowed == any(line[4] == "*" or perm in line[4:] for line in lines)


class Node:
    """A directory, where there is no data, or a file. Entries stand under a key, None or a member, and a name."""

    def __init__(self, label, data=None):
        self.label, self.data, self.entries = label, data, {}

    @property
    def kind(self):
        return "dir" if self.data is None else "file"

    def names(self, key):
        return sorted(name for under, name in self.entries if under == key)


class Process:
    """A process, which runs while it has no code."""

    def __init__(self, label, parent):
        self.label, self.parent, self.code, self.register = label, parent, None, 0


class Port:
    """A bound port, and the messages that wait there."""

    def __init__(self, number, label):
        self.number, self.label, self.messages = number, label, []


class Slot:
    """What a client's slot holds: an object, permissions, and the policy number that it follows."""

    def __init__(self, held, perms, follows):
        self.held, self.perms, self.follows = held, perms, follows


class Refused(Exception):
    """A call that ends with this reply."""


class Manager:
    """Where a manager's change of policy stands, which passes are held, and its slots."""

    def __init__(self, session, kind):
        self.session, self.kind = session, kind
        self.number, self.old, self.new, self.pending = 0, 0, 0, False
        self.held, self.slots = {}, {}

    @property
    def settled(self):
        """The policy number that is in force: while a change is pending, the one before the newest."""
        return self.number - self.pending

    def version(self, number):
        return self.old if self.pending and number < self.number else self.new

    def stale(self):
        """The stale slots, least client and then least slot first."""
        order, policy = list(self.session.clients), self.session.policy
        found = []
        for (client, slot), held in self.slots.items():
            if self.pending and held.follows == self.settled:
                pair = (self.session.clients[client], held.held.label, self.kind)
                if policy.vector(self.old, *pair) != policy.vector(self.new, *pair):
                    found.append((order.index(client), slot, client))
        return [(client, slot) for _, slot, client in sorted(found)]

    def notify(self, version):
        self.number, self.old, self.new, self.pending = self.number + 1, self.new, version, True

    def update(self, k):
        for place in self.stale()[:k]:
            self.slots[place].follows = self.number
        return str(len(self.stale()))

    def acknowledge(self, forced):
        older = sum(number == self.settled for number in self.held.values())
        if self.pending and older and not forced:
            return f"busy:{older}"
        if self.stale():
            return f"behind:{len(self.stale())}"
        if self.pending:
            self.pending = False
            for slot in self.slots.values():
                slot.follows = self.number
        return "kept"

    def free(self, held):
        self.slots = {place: slot for place, slot in self.slots.items() if slot.held is not held}


class Session:
    """What a session opens with, and where its run stands."""

    def __init__(self, text):
        self.policy, self.clients, self.runs, self.audits = Policy(), {}, [], False
        part, nodes, self.initial, self.labels = "policy", [], {}, {}
        for number, words in words_of(text):
            if words in (["session"], ["run"]) and part != "run":
                part = words[0]
            elif part == "policy":
                self.policy.declare(words)
            elif part == "run":
                self.runs.append((number, words))
            elif words[0] == "audit":
                self.audits = True
            elif words[0] in ("dir", "file"):
                nodes.append(words)
            elif words[0] == "initial":
                self.initial[words[1]] = context_of(words[2])
            elif words[0] == "port":
                self.labels[int(words[1])] = context_of(words[2])
            elif words[0] == "client":
                self.clients[words[1]] = context_of(words[2])
        self.root, self.nodes = Node(self.initial.get("root", self.policy.contexts[0])), 1
        for kind, path, context, *data in nodes:
            self.lay(names_of(path), Node(context_of(context), None if kind == "dir" else "".join(data)))
        self.processes, self.ports = {}, {}
        self.managers = {kind: Manager(self, kind) for kind in ("file", "process", "port")}
        self.calls = self.denied = self.changes = 0
        self.audited = {client: [] for client in self.clients}

    def lay(self, names, node):
        at = self.root
        for name in names[:-1]:
            at = at.entries[None, name]
        at.entries[None, names[-1]] = node
        self.nodes += 1

    def port_label(self, number):
        return self.labels.get(number, self.initial.get("port", self.policy.contexts[0]))


class Call:
    """One call of a client on a manager, under the policy number of its pass. It keeps what it asked, and each answer."""

    def __init__(self, session, manager, client, number):
        self.session, self.manager, self.client, self.number = session, manager, client, number
        self.subject, self.version, self.asked = session.clients[client], manager.version(number), []

    def ask(self, label, name, *perms, subject=None):
        source = subject or self.subject
        vector = self.session.policy.vector(self.version, source, label, name)
        for perm in perms:
            self.asked.append((source, label, name, perm, perm in vector))
            if perm not in vector:
                raise Refused(f"denied {name} {perm}")

    def test(self, refused, reply):
        if refused:
            raise Refused(reply)

    def place(self, slot, client=None):
        return client or self.client, int(slot)

    def slot(self, slot):
        self.test(self.place(slot) not in self.manager.slots, "badslot")
        return self.manager.slots[self.place(slot)]

    def fill(self, slot, held, perms, client=None):
        self.manager.slots[self.place(slot, client)] = Slot(held, perms, self.number)
        return "done"

    def leave(self, slot):
        self.slot(slot)
        del self.manager.slots[self.place(slot)]
        return "done"


class FileCall(Call):
    """A call of the file manager."""

    def key(self, directory):
        member = self.session.policy.member(self.version, self.subject, directory.label, "dir")
        return None if member == directory.label else member

    def walk(self, path):
        """The directory, the place and the node of a path; the node is None where only the last name is missing."""
        above, place, node = None, None, self.session.root
        for name in names_of(path):
            if node is None:
                raise Refused("notfound")
            if node.kind == "file":
                raise Refused("notdir")
            self.ask(node.label, "dir", "search")
            above, place = node, (self.key(node), name)
            node = above.entries.get(place)
        return above, place, node

    def found(self, path):
        above, place, node = self.walk(path)
        if node is None:
            raise Refused("notfound")
        return above, place, node

    def make(self, path, kind, data):
        above, place, node = self.walk(path)
        if node is not None:
            raise Refused("exists")
        label = self.session.policy.label(self.version, self.subject, above.label, kind)
        self.ask(above.label, "dir", "add_name")
        self.ask(label, kind, "create")
        if self.session.nodes >= 4096:
            raise Refused("toomany")
        above.entries[place] = Node(label, data)
        self.session.nodes += 1
        return "done"

    def mkdir(self, path):
        return self.make(path, "dir", None)

    def create(self, path):
        return self.make(path, "file", "")

    def open(self, slot, path, mode):
        self.test(self.place(slot) in self.manager.slots, "slotused")
        _above, _place, node = self.found(path)
        self.test(node.kind == "dir", "isdir")
        perms = [MODES[letter] for letter in "rwa" if letter in mode]
        self.ask(node.label, "file", *perms)
        return self.fill(slot, node, perms)

    def used(self, slot, perm):
        slot = self.slot(slot)
        self.test(perm not in slot.perms, "badmode")
        self.ask(slot.held.label, "file", perm)
        return slot.held

    def read(self, slot, offset, length):
        data = self.used(slot, "read").data[int(offset) :][: int(length)]
        return f"data {len(data)} {data}" if data else "data 0"

    def write(self, slot, offset, data):
        node, start = self.used(slot, "write"), int(offset)
        if start + len(data) > 65536:
            return "toobig"
        node.data = node.data.ljust(start, ".")[:start] + data + node.data[start + len(data) :]
        return "done"

    def append(self, slot, data):
        node = self.used(slot, "append")
        if len(node.data) + len(data) > 65536:
            return "toobig"
        node.data += data
        return "done"

    def close(self, slot):
        return self.leave(slot)

    def unlink(self, path):
        above, place, node = self.found(path)
        self.ask(above.label, "dir", "remove_name")
        if node.kind == "file":
            self.ask(node.label, "file", "unlink")
        elif node.entries:
            return "notempty"
        del above.entries[place]
        self.session.nodes -= 1
        self.manager.free(node)
        return "done"

    def list(self, path, skip):
        _above, _place, node = self.found(path)
        if node.kind == "file":
            return "notdir"
        self.ask(node.label, "dir", "read")
        names = node.names(self.key(node))[int(skip) :][:16]
        return " ".join(["names", str(len(names)), *names])

    def stat(self, path):
        _above, _place, node = self.found(path)
        self.ask(node.label, node.kind, "getattr")
        size = len(node.data) if node.kind == "file" else len(node.names(self.key(node)))
        return f"stat {':'.join(node.label)} {size}"

    def relabel(self, path, context):
        _above, _place, node = self.found(path)
        self.ask(node.label, node.kind, "relabelfrom")
        self.ask(context_of(context), node.kind, "relabelto")
        node.label = context_of(context)
        for slot in self.manager.slots.values():
            if slot.held is node:
                slot.follows = self.number
        return "done"

    def give(self, slot, receiver, target):
        slot = self.slot(slot)
        self.test(self.place(target, receiver) in self.manager.slots, "slotused")
        self.ask(slot.held.label, "file", *slot.perms, subject=self.session.clients[receiver])
        return self.fill(target, slot.held, slot.perms, receiver)


class ProcessCall(Call):
    """A call of the process manager."""

    def found(self, pid):
        self.test(int(pid) not in self.session.processes, "noprocess")
        return self.session.processes[int(pid)]

    def child(self, pid):
        process = self.found(pid)
        self.test(process.parent != self.client, "notchild")
        return process

    def running(self, process):
        self.test(process.code is not None, "ended")
        return process

    def become(self, before, label):
        if label != before:
            self.ask(label, "process", "transition")

    def fork(self, pid):
        self.ask(self.subject, "process", "fork")
        label = self.session.policy.label(self.version, self.subject, self.subject, "process")
        self.become(self.subject, label)
        self.test(int(pid) in self.session.processes, "exists")
        self.test(len(self.session.processes) >= 4096, "toomany")
        self.session.processes[int(pid)] = Process(label, self.client)
        return "done"

    def exec(self, pid, context):
        process = self.running(self.child(pid))
        label = self.session.policy.label(self.version, process.label, context_of(context), "process")
        self.become(process.label, label)
        process.label = label
        for slot in self.manager.slots.values():
            if slot.held is process:
                slot.follows = self.number
        return "done"

    def signal(self, pid, number):
        process = self.running(self.found(pid))
        self.ask(process.label, "process", "signal")
        if int(number) == 9:
            process.code = 137
        else:
            process.register = int(number)
        return "done"

    def exit(self, pid, code):
        process = self.running(self.child(pid))
        self.ask(process.label, "process", "exit")
        process.code = int(code)
        return "done"

    def wait(self, pid):
        process = self.child(pid)
        self.ask(process.label, "process", "wait")
        self.test(process.code is None, "running")
        del self.session.processes[int(pid)]
        self.manager.free(process)
        return f"num {process.code}"

    def attach(self, slot, pid):
        self.test(self.place(slot) in self.manager.slots, "slotused")
        process = self.running(self.found(pid))
        self.ask(process.label, "process", "ptrace", "getattr")
        return self.fill(slot, process, ["ptrace", "getattr"])

    def used(self, slot):
        process = self.slot(slot).held
        self.ask(process.label, "process", "ptrace", "getattr")
        return self.running(process)

    def peek(self, slot):
        return f"num {self.used(slot).register}"

    def poke(self, slot, value):
        self.used(slot).register = int(value)
        return "done"

    def detach(self, slot):
        return self.leave(slot)

    def stat(self, pid):
        process = self.found(pid)
        self.ask(process.label, "process", "getattr")
        return f"stat {':'.join(process.label)} {self.running(process).register}"


class PortCall(Call):
    """A call of the port manager."""

    def found(self, number):
        self.test(int(number) not in self.session.ports, "noport")
        return self.session.ports[int(number)]

    def bind(self, slot, number, mode):
        self.test(self.place(slot) in self.manager.slots, "slotused")
        self.test(int(number) in self.session.ports, "taken")
        port = Port(int(number), self.session.port_label(int(number)))
        self.ask(port.label, "port", *PORT_MODES[mode])
        self.session.ports[port.number] = port
        return self.fill(slot, port, PORT_MODES[mode])

    def connect(self, slot, number, mode):
        self.test(self.place(slot) in self.manager.slots, "slotused")
        port = self.found(number)
        self.ask(port.label, "port", *PORT_MODES[mode])
        return self.fill(slot, port, PORT_MODES[mode])

    def used(self, slot, perm):
        slot = self.slot(slot)
        self.test(perm not in slot.perms, "badmode")
        self.ask(slot.held.label, "port", *slot.perms)
        return slot.held

    def recv(self, slot):
        port = self.used(slot, "recv")
        self.test(not port.messages, "empty")
        message = port.messages.pop(0)
        return f"data {len(message)} {message}"

    def put(self, port, message):
        self.test(len(message) > 256, "toobig")
        self.test(len(port.messages) >= 16, "full")
        port.messages.append(message)
        return "done"

    def push(self, slot, message):
        return self.put(self.used(slot, "send"), message)

    def send(self, number, message):
        port = self.found(number)
        self.ask(port.label, "port", "send")
        return self.put(port, message)

    def unbind(self, slot):
        held = self.slot(slot)
        if "name_bind" not in held.perms:
            return self.leave(slot)
        del self.session.ports[held.held.number]
        self.manager.free(held.held)
        return "done"

    def stat(self, number):
        port = self.found(number)
        self.ask(port.label, "port", "getattr")
        return f"stat {':'.join(port.label)} {len(port.messages)}"


CALLS = {"file": FileCall, "process": ProcessCall, "port": PortCall}


class Run(Session):
    """The lines of a session, run one after another."""

    def log(self, line, call):
        """The audit lines of a call."""
        for s, t, name, perm, allowed in call.asked:
            if self.audits and self.policy.is_audited(s, t, name, perm, allowed):
                verdict = f"{'granted' if allowed else 'denied'} {':'.join(s)} {':'.join(t)} {name} {perm}"
                self.audited[call.client].append(f"audit {call.client} {line} {verdict} policy {call.number}")

    def client_line(self, line, client, words):
        manager = self.managers[words[0]]
        number = manager.held.get(client, manager.number)
        if words[1] == "begin":
            manager.held[client] = number
            return f"{number} begun"
        if words[1] == "end":
            del manager.held[client]
            return f"{number} ended"
        self.calls += 1
        if number < manager.settled:
            return f"{number} aborted"
        call = CALLS[words[0]](self, manager, client, number)
        try:
            reply = getattr(call, words[1])(*words[2:])
        except Refused as refused:
            reply = str(refused)
        self.log(line, call)
        self.denied += reply.startswith("denied")
        return f"{number} {reply}"

    def is_changing(self):
        return any(manager.pending for manager in self.managers.values())

    def notify(self, version):
        newest = self.managers["file"].number
        if self.is_changing():
            return f"pending {newest}"
        if version >= len(self.policy.versions):
            return "noversion"
        for manager in self.managers.values():
            manager.notify(version)
        return f"notified {newest + 1}"

    def update(self, k):
        return " ".join(["updated", *(manager.update(k) for manager in self.managers.values())])

    def acknowledge(self, forced):
        if not self.is_changing():
            return "idle"
        items = [manager.acknowledge(forced) for manager in self.managers.values()]
        if self.is_changing():
            return " ".join(["waiting", *items])
        self.changes += 1
        return f"complete {self.managers['file'].number}"

    def admin_line(self, words):
        if words[0] == "notify":
            return self.notify(int(words[1]))
        return self.update(int(words[1])) if words[0] == "update" else self.acknowledge(words[0] == "force")

    def answer(self):
        lines = []
        for number, words in self.runs:
            if words[0] == "admin":
                lines.append(f"{number} admin {self.admin_line(words[1:])}")
            else:
                said = self.client_line(number, words[0], words[1:])
                lines.append(f"{number} {words[0]} {words[1]} {said}")
        lines += [line for client in self.clients for line in self.audited[client]]
        lines.append(f"calls {self.calls} denied {self.denied} changes {self.changes}")
        return "\n".join(lines) + "\n"


def main():
    if sys.argv[1:2] == ["--write"]:
        for path in sorted(pathlib.Path(sys.argv[2]).glob("*.in")):
            path.with_suffix(".out").write_text(Run(path.read_text("latin-1")).answer(), "latin-1")
        return
    sys.stdout.write(Run(sys.stdin.read()).answer())


if __name__ == "__main__":
    main()
