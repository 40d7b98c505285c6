#!/usr/bin/env python3
"""Draws a session of many clients for a threaded run: calls of all three managers, held passes, and changes of policy.

    tests/model/drawn_session.py CLIENTS LINES SEED      prints it; CLIENTS from 1 to 62, LINES of the run
    tests/model/drawn_session.py --long FOLDER           writes two long ones of 62 clients with two changes each, which tests/threads runs

Each client uses slots and paths of its own and one file, process and port that all share, so that what one does another sees. A
client gives back each pass that it took before it takes the next, and the administrator's lines stand among those of the clients.

In a long one the first change is noticed a third down the lines and forced at once, over the passes that are held then; the second is noticed two
thirds down, and not forced. The administrator has about as many lines as a client there, so that threads come to them while clients act.
"""

import pathlib
import random
import sys

POLICY = """policy 1
context u:r:a_t
context u:r:b_t
context u:r:c_t
auditallow b_t * file write
version
allow * * file *
allow * * dir *
allow * * process *
allow * * port *
version
allow a_t * file *
allow b_t * file read getattr
allow * * dir *
allow * * process fork exit wait getattr
allow a_t * port *
version
allow * * file read
allow c_t * file *
allow * * dir search add_name
allow b_t * process *
allow * * port name_bind connect send recv getattr
"""

KINDS = ("a_t", "b_t", "c_t")


def head(clients):
    """The lines above the run."""
    lines = [POLICY + "session", "file /all u:r:a_t hello", "port 80 u:r:b_t", "audit"]
    lines += [f"client k{client} u:r:{KINDS[client % 3]}" for client in range(clients)]
    return lines + ["run"]


def file_call(draw, client):
    slot = draw.randrange(3)
    return draw.choice(
        (
            f"open {slot} /all r",
            f"open {slot} /all rw",
            f"create /f{client}_{draw.randrange(4)}",
            f"open {slot} /f{client}_{draw.randrange(4)} rwa",
            f"read {slot} 0 16",
            f"read {slot} 0 16",
            f"write {slot} {draw.randrange(8)} w{client}",
            f"append {slot} a{client}",
            f"close {slot}",
            "stat /all",
            "list / 0",
            f"unlink /f{client}_{draw.randrange(4)}",
        )
    )


def process_call(draw, client):
    pid = draw.choice((7, 100 + client))
    slot = draw.randrange(2)
    return draw.choice(
        (f"fork {pid}", f"attach {slot} {pid}", f"peek {slot}", f"poke {slot} {draw.randrange(100)}", f"detach {slot}", f"exit {pid} 3", f"wait {pid}", f"stat {pid}")
    )


def port_call(draw, client):
    number = draw.choice((80, 1000 + client))
    slot = draw.randrange(2)
    return draw.choice(
        (
            f"bind {slot} {number} br",
            f"connect {slot} {number} cs",
            f"recv {slot}",
            f"push {slot} m{client}",
            f"send {number} n{client}",
            f"unbind {slot}",
            f"stat {number}",
        )
    )


CALLS = (("file", file_call), ("process", process_call), ("port", port_call))


def client_line(draw, client, held):
    kind, call = CALLS[draw.choice((0, 0, 1, 2))]
    if draw.random() < 0.1:
        if (client, kind) in held:
            held.remove((client, kind))
            return f"k{client} {kind} end"
        held.add((client, kind))
        return f"k{client} {kind} begin"
    return f"k{client} {kind} {call(draw, client)}"


def admin_line(draw):
    return "admin " + draw.choice((f"notify {draw.randrange(3)}", f"notify {draw.randrange(3)}", "update 2", "update 100", "ack", "ack", "ack", "force"))


def drawn(clients, lines, seed):
    draw, held = random.Random(seed), set()
    run = [admin_line(draw) if draw.random() < 0.08 else client_line(draw, draw.randrange(clients), held) for _ in range(lines)]
    return "\n".join(head(clients) + run) + "\n"


def two_changes(clients, lines, seed):
    """A session with two changes, the first of them forced."""
    draw, held, run = random.Random(seed), set(), []
    fixed = {lines // 3 + at: line for at, line in enumerate(["notify 1", *["update 4294967295", "force"] * 8])}
    fixed[lines * 2 // 3] = "notify 2"
    for at in range(lines):
        if at in fixed:
            run.append(f"admin {fixed[at]}")
        elif draw.randrange(clients + 1) == clients:
            run.append("admin " + draw.choice(("update 2", "update 100", "ack", "ack")))
        else:
            run.append(client_line(draw, draw.randrange(clients), held))
    return "\n".join(head(clients) + run) + "\n"


def long_sessions():
    """The long sessions, each with its name."""
    return {f"clients_62_lines_{lines}": two_changes(62, lines, 7) for lines in (10_000, 30_000, 80_000)}


def main():
    if sys.argv[1] == "--long":
        for name, text in long_sessions().items():
            pathlib.Path(sys.argv[2], f"{name}.text").write_text(text)
    else:
        print(drawn(*map(int, sys.argv[1:4])), end="")


if __name__ == "__main__":
    main()
