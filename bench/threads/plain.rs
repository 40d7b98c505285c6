//! The same work as `flaskd threads`, as a Rust programmer writes it: three managers, each behind a ticket lock with its history, a gate word and two
//! leave counters; a thread for each client, and one for the administrator.
//!
//! `plain_threads` reads a session from standard input, runs it, and writes the three histories and the summary through a buffer. It knows the calls
//! of made sessions, `begin` and `end`, and has no audit lines.
#[path = "../plain_managers.rs"]
mod plain_managers;
#[allow(dead_code)] // what only the program of sessions uses
#[path = "../sessions/session_text.rs"]
mod session_text;

use plain_managers::{CLASSES, Files, Manager, PERMS, Ports, Processes, Reply, Rules};
use session_text::{Client, Manager as Kind, Run, Session, read};
use std::cell::UnsafeCell;
use std::io::{self, Read, Write};
use std::sync::atomic::{AtomicU64, Ordering::SeqCst};
use std::{hint, process, thread};

enum Entry {
    Op { line: u32, client: u8, number: u32, reply: Reply },
    Notice(u32, usize),
    Ack(u32),
}

/// What lies behind a gate: a manager with its history, and how many passes of even and of odd numbers were closed.
struct Kept<M> {
    manager: M,
    history: Vec<Entry>,
    closed: [u64; 2],
}

/// A manager that threads call.
struct Station<M> {
    /// The newest number in the upper 24 bits, its version in the next 8, and how many passes of it were given out.
    gate: AtomicU64,
    left: [AtomicU64; 2],
    next: AtomicU64,
    served: AtomicU64,
    kept: UnsafeCell<Kept<M>>,
}

// What is kept is touched by the holder of the turn alone.
unsafe impl<M: Send> Sync for Station<M> {}

#[derive(Clone, Copy)]
struct Pass {
    number: u32,
    version: usize,
}

fn gate_word(number: u32, version: usize) -> u64 {
    u64::from(number) << 40 | (version as u64) << 32
}

impl<M: Manager> Station<M> {
    fn open(session: &Session) -> Station<M> {
        let kept = Kept { manager: M::open(session), history: Vec::new(), closed: [0; 2] };
        let counter = || AtomicU64::new(0);
        Station { gate: counter(), left: [counter(), counter()], next: counter(), served: counter(), kept: UnsafeCell::new(kept) }
    }

    fn enter(&self) -> Pass {
        let word = self.gate.fetch_add(1, SeqCst);
        Pass { number: (word >> 40) as u32, version: (word >> 32 & 255) as usize }
    }

    fn leave(&self, pass: Pass) {
        self.left[pass.number as usize & 1].fetch_add(1, SeqCst);
    }

    fn turn<T>(&self, work: impl FnOnce(&mut Kept<M>) -> T) -> T {
        let ticket = self.next.fetch_add(1, SeqCst);
        let mut looks = 0u32;
        while self.served.load(SeqCst) != ticket {
            if looks < 7 { (0..1 << looks).for_each(|_| hint::spin_loop()) } else { thread::yield_now() }
            looks += 1;
        }
        let done = work(unsafe { &mut *self.kept.get() });
        self.served.store(ticket + 1, SeqCst);
        done
    }

    fn call(&self, rules: &Rules, pass: Pass, line: u32, client: Client, call: &M::Call) -> Reply {
        self.turn(|kept| {
            let reply = kept.manager.call(rules, pass.version, client, call).unwrap_or_else(|refused| refused);
            kept.history.push(Entry::Op { line, client: client.0, number: pass.number, reply: reply.clone() });
            reply
        })
    }

    fn notify(&self, rules: &Rules, number: u32, old: usize, new: usize) {
        self.turn(|kept| {
            kept.manager.slots().notice(rules, old, new);
            kept.history.push(Entry::Notice(number, new));
            let word = self.gate.swap(gate_word(number, new), SeqCst);
            kept.closed[(number as usize + 1) & 1] += word & 0xffff_ffff;
        });
    }

    /// Whether the manager has acknowledged the number that is pending.
    fn acknowledge(&self, number: u32) -> bool {
        self.turn(|kept| {
            let older = (number as usize + 1) & 1;
            let is_busy = kept.closed[older] != self.left[older].load(SeqCst) || kept.manager.slots().has_stale();
            if kept.manager.slots().is_pending && !is_busy {
                kept.manager.slots().is_pending = false;
                kept.history.push(Entry::Ack(number));
            }
            !kept.manager.slots().is_pending
        })
    }

    fn update(&self, most: usize) {
        self.turn(|kept| kept.manager.slots().update(most));
    }
}

struct Desk {
    rules: Rules,
    files: Station<Files>,
    processes: Station<Processes>,
    ports: Station<Ports>,
}

/// A client, with the passes that it holds.
struct Worker<'d> {
    desk: &'d Desk,
    client: Client,
    held: [Option<Pass>; 3],
}

/// Does a call under the held pass, or else under one of its own.
fn called<M: Manager>(desk: &Desk, station: &Station<M>, held: Option<Pass>, line: u32, client: Client, call: &M::Call) {
    let pass = held.unwrap_or_else(|| station.enter());
    hint::black_box(station.call(&desk.rules, pass, line, client, call));
    if held.is_none() {
        station.leave(pass);
    }
}

impl Worker<'_> {
    fn run(&mut self, line: u32, run: &Run) {
        let (desk, client) = (self.desk, self.client);
        match run {
            Run::File(_, call) => called(desk, &desk.files, self.held[0], line, client, call),
            Run::Process(_, call) => called(desk, &desk.processes, self.held[1], line, client, call),
            Run::Port(_, call) => called(desk, &desk.ports, self.held[2], line, client, call),
            Run::Begin(_, kind) => self.held[*kind as usize] = Some(self.enter(*kind)),
            Run::End(_, kind) => self.give_back(*kind),
            _ => unreachable!("no line of a client"),
        }
    }

    fn enter(&self, kind: Kind) -> Pass {
        match kind {
            Kind::File => self.desk.files.enter(),
            Kind::Process => self.desk.processes.enter(),
            Kind::Port => self.desk.ports.enter(),
        }
    }

    fn give_back(&mut self, kind: Kind) {
        let Some(pass) = self.held[kind as usize].take() else { return };
        match kind {
            Kind::File => self.desk.files.leave(pass),
            Kind::Process => self.desk.processes.leave(pass),
            Kind::Port => self.desk.ports.leave(pass),
        }
    }
}

fn run_client(desk: &Desk, client: Client, lines: Vec<(u32, Run)>) {
    let mut worker = Worker { desk, client, held: [None; 3] };
    lines.iter().for_each(|(line, run)| worker.run(*line, run));
    [Kind::File, Kind::Process, Kind::Port].into_iter().for_each(|kind| worker.give_back(kind));
}

/// Where the change of policy stands: the newest number and its version, and which managers have acknowledged it.
struct Administrator {
    number: u32,
    version: usize,
    done: [bool; 3],
}

impl Administrator {
    fn run(&mut self, desk: &Desk, run: &Run) {
        match run {
            Run::Notify(version) => self.notify(desk, version.0 as usize),
            Run::Update(most) => self.update(desk, most.0 as usize),
            Run::Ack => self.acknowledge(desk),
            _ => unreachable!("no line of the administrator"),
        }
    }

    fn notify(&mut self, desk: &Desk, version: usize) {
        if self.done != [true; 3] || version >= desk.rules.versions {
            return;
        }
        self.number += 1;
        desk.files.notify(&desk.rules, self.number, self.version, version);
        desk.processes.notify(&desk.rules, self.number, self.version, version);
        desk.ports.notify(&desk.rules, self.number, self.version, version);
        (self.version, self.done) = (version, [false; 3]);
    }

    fn update(&mut self, desk: &Desk, most: usize) {
        desk.files.update(most);
        desk.processes.update(most);
        desk.ports.update(most);
    }

    fn acknowledge(&mut self, desk: &Desk) {
        let [files, processes, ports] = self.done;
        self.done = [
            files || desk.files.acknowledge(self.number),
            processes || desk.processes.acknowledge(self.number),
            ports || desk.ports.acknowledge(self.number),
        ];
    }
}

fn run_administrator(desk: &Desk, lines: Vec<(u32, Run)>) -> Administrator {
    let mut administrator = Administrator { number: 0, version: 0, done: [true; 3] };
    lines.iter().for_each(|(_, run)| administrator.run(desk, run));
    administrator
}

/// The number of the client of a line, or how many clients there are for a line of the administrator.
fn owner(run: &Run, clients: usize) -> usize {
    match run {
        Run::File(client, _) | Run::Process(client, _) | Run::Port(client, _) => usize::from(client.0),
        Run::Begin(client, _) | Run::End(client, _) => usize::from(client.0),
        _ => clients,
    }
}

/// Runs all lines, each client's in a thread of its own, and settles a change that is pending then.
fn run_all(desk: &Desk, clients: usize, lines: Vec<(u32, Run)>) {
    let mut scripts: Vec<Vec<(u32, Run)>> = (0..=clients).map(|_| Vec::new()).collect();
    for line in lines {
        scripts[owner(&line.1, clients)].push(line);
    }
    let of_administrator = scripts.pop().unwrap_or_default();
    let mut administrator = thread::scope(|scope| {
        for (client, script) in scripts.into_iter().enumerate() {
            scope.spawn(move || run_client(desk, Client(client as u8), script));
        }
        run_administrator(desk, of_administrator)
    });
    if administrator.done != [true; 3] {
        administrator.update(desk, usize::MAX);
        administrator.acknowledge(desk);
    }
}

fn reply_text(reply: &Reply) -> String {
    match reply {
        Reply::Done => "done".to_string(),
        Reply::Data(data) if data.is_empty() => "data 0".to_string(),
        Reply::Data(data) => format!("data {} {data}", data.len()),
        Reply::Denied(class, perm) => format!("denied {} {}", CLASSES[*class], PERMS[*class][*perm]),
        Reply::Refused(why) => why.to_string(),
    }
}

/// What the summary counts.
#[derive(Default)]
struct Counts {
    calls: u64,
    denied: u64,
    changes: u64,
}

/// Writes a history, and answers what it counts.
fn write_history(out: &mut impl Write, clients: &[(String, session_text::Context)], name: &str, history: &[Entry]) -> io::Result<Counts> {
    let mut counts = Counts::default();
    out.write_all(format!("history {name}\n").as_bytes())?;
    for entry in history {
        let line = match entry {
            Entry::Op { line, client, number, reply } => {
                counts.calls += 1;
                counts.denied += u64::from(matches!(reply, Reply::Denied(..)));
                format!("{line} {} {name} {number} {}\n", clients[usize::from(*client)].0, reply_text(reply))
            }
            Entry::Notice(number, version) => format!("notice {number} {version}\n"),
            Entry::Ack(number) => {
                counts.changes += 1;
                format!("ack {number}\n")
            }
        };
        out.write_all(line.as_bytes())?;
    }
    Ok(counts)
}

fn main() -> io::Result<()> {
    let mut text = Vec::new();
    io::stdin().read_to_end(&mut text)?;
    let mut session = read(&text).unwrap_or_else(|_| process::exit(3));
    let desk = Desk { rules: Rules::of(&session), files: Station::open(&session), processes: Station::open(&session), ports: Station::open(&session) };
    run_all(&desk, session.clients.len(), std::mem::take(&mut session.lines));
    let mut out = io::BufWriter::with_capacity(32_768, io::stdout().lock());
    let files = write_history(&mut out, &session.clients, "file", &desk.files.kept.into_inner().history)?;
    let processes = write_history(&mut out, &session.clients, "process", &desk.processes.kept.into_inner().history)?;
    let ports = write_history(&mut out, &session.clients, "port", &desk.ports.kept.into_inner().history)?;
    let calls = files.calls + processes.calls + ports.calls;
    let denied = files.denied + processes.denied + ports.denied;
    writeln!(out, "calls {calls} denied {denied} changes {}", files.changes)?;
    out.flush()
}
