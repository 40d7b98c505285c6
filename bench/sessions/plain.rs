//! The same work as `flaskd generate` and as the proved program of this folder, as a Rust programmer writes it: a table
//! of vectors, numbered nodes, slots by client and number, and while a change is pending a list of the stale ones. Reading
//! and printing are in `session_text.rs`.
//!
//! `plain_sessions generate SEED CLIENTS LINES` makes the session of these numbers, runs it, and prints its summary.
//! `plain_sessions read ROUNDS` and `plain_sessions print ROUNDS` read a session from standard input, and read or print it
//! ROUNDS times more; `plain_sessions make ROUNDS` makes one of 90,000 lines. They print the nanoseconds of a processor that
//! this took, how many lines were made or read or bytes printed, and a sum over the bytes that the session is printed to.
//!
//! It runs the lines that made sessions have, and them alone: no operation is begun or ended, no slot is freed, and of a
//! label only the type matters. It keeps neither the session nor a history, and has no audit lines.
#[path = "../plain_managers.rs"]
mod plain_managers;
mod session_text;

use plain_managers::{Files, Manager, Ports, Processes, Reply, Rules, Slots};
use session_text::{Client, Data, FileCall, Mode, Number, Path};
use session_text::{PortCall, ProcessCall, Run, Session, put_number, read};
use std::hint::black_box;
use std::io::Read;
use std::{env, io, process};

/// What stands above the clients of a made session, as a session is printed.
const HEAD: &str = "policy 1
type a_t
type b_t
type d_t
context u:r:a_t
context u:r:b_t
context u:object_r:d_t
version
allow * * dir search add_name
allow * * file read write create
allow * * process fork
allow * * port name_bind recv send
version
allow * * dir search
allow a_t * file read write
allow * self process fork
allow a_t * port name_bind recv send
version
allow * * dir search
allow b_t * file read
session
initial root u:object_r:d_t
initial port u:object_r:d_t
";

/// What stands above the lines that run in a session of so many clients.
fn above(clients: u64) -> Session {
    let client = |at| format!("client c{at} u:r:{}_t\n", if at % 2 == 1 { 'a' } else { 'b' });
    let clients: String = (1..=clients).map(client).collect();
    read(format!("{HEAD}{clients}run\n").as_bytes()).unwrap()
}

/// So many lines that run, drawn from a seed, with their numbers.
fn lines_from(seed: u64, clients: u64, lines: u64) -> impl Iterator<Item = (u32, Run)> {
    let mut state = seed;
    let mut draw = move || {
        state = (1_103_515_245 * state + 12_345) % 2_147_483_648;
        (state / 65_536) as u32
    };
    let numbers = 22 + clients..22 + clients + lines;
    numbers.map(move |number| {
        let (client, which) = (draw() % clients as u32, draw() % 8);
        (number as u32, made_run(Client(client as u8), which, draw()))
    })
}

fn made(seed: u64, clients: u64, lines: u64) -> Session {
    let mut session = above(clients);
    session.lines.extend(lines_from(seed, clients, lines));
    session
}

fn made_run(client: Client, which: u32, draw: u32) -> Run {
    let numbered = |letter| {
        let mut word = String::with_capacity(3);
        word.push(letter);
        put_number(&mut word, draw % 64);
        word
    };
    let parts = || vec![numbered('f')];
    let (slot, port) = (Number(draw / 64 % 8), Number(1 + draw % 128));
    match which {
        0 => Run::File(client, FileCall::Create(Path(parts()))),
        1 => Run::File(client, FileCall::Open(slot, Path(parts()), Mode(3))),
        2 => Run::File(client, FileCall::Write(slot, Number(0), Data(numbered('x')))),
        3 => Run::File(client, FileCall::Read(slot, Number(0), Number(16))),
        4 => Run::Process(client, ProcessCall::Fork(Number(1 + draw % 512))),
        5 => Run::Port(client, PortCall::Bind(slot, port, Mode(3))),
        6 => Run::Port(client, PortCall::Send(port, Data(numbered('m')))),
        _ => match draw % 4 {
            0 => Run::Notify(Number(draw / 4 % 3)),
            3 => Run::Ack,
            _ => Run::Update(Number(64)),
        },
    }
}

struct Desk {
    rules: Rules,
    version: usize,
    files: Files,
    processes: Processes,
    ports: Ports,
    calls: u64,
    denied: u64,
    changes: u64,
}

impl Desk {
    /// The desk of a session without nodes and labelled ports.
    fn open(session: &Session) -> Desk {
        Desk {
            rules: Rules::of(session),
            version: 0,
            files: Files::open(session),
            processes: Processes::open(session),
            ports: Ports::open(session),
            calls: 0,
            denied: 0,
            changes: 0,
        }
    }

    fn run(&mut self, run: &Run) {
        let answer = match run {
            Run::File(client, call) => self.files.call(&self.rules, self.version, *client, call),
            Run::Process(client, call) => self.processes.call(&self.rules, self.version, *client, call),
            Run::Port(client, call) => self.ports.call(&self.rules, self.version, *client, call),
            Run::Notify(version) => return self.notify(version.0 as usize),
            Run::Update(most) => return self.managers().into_iter().for_each(|slots| slots.update(most.0 as usize)),
            Run::Ack => return self.acknowledge(),
            _ => unreachable!("no made session has such a line"),
        };
        let reply = black_box(answer.unwrap_or_else(|refused| refused));
        self.calls += 1;
        self.denied += u64::from(matches!(reply, Reply::Denied(..)));
    }

    fn managers(&mut self) -> [&mut Slots; 3] {
        [self.files.slots(), self.processes.slots(), self.ports.slots()]
    }

    fn is_changing(&mut self) -> bool {
        self.managers().iter().any(|slots| slots.is_pending)
    }

    fn notify(&mut self, version: usize) {
        if self.is_changing() || version >= self.rules.versions {
            return;
        }
        for slots in [self.files.slots(), self.processes.slots(), self.ports.slots()] {
            slots.notice(&self.rules, self.version, version);
        }
        self.version = version;
    }

    fn acknowledge(&mut self) {
        if !self.is_changing() {
            return;
        }
        for slots in self.managers() {
            slots.is_pending &= slots.has_stale();
        }
        self.changes += u64::from(!self.is_changing());
    }
}

/// Nanoseconds of a processor that this thread took so far.
fn clock() -> u64 {
    #[repr(C)]
    struct Time {
        seconds: i64,
        nanoseconds: i64,
    }
    unsafe extern "C" {
        fn clock_gettime(clock: i32, time: *mut Time) -> i32;
    }
    let mut time = Time { seconds: 0, nanoseconds: 0 };
    unsafe { clock_gettime(3, &mut time) };
    time.seconds as u64 * 1_000_000_000 + time.nanoseconds as u64
}

/// Runs each line of a made session when it is drawn, and keeps none of them.
fn generate(seed: u64, clients: u64, lines: u64) {
    let mut desk = Desk::open(&above(clients));
    lines_from(seed, clients, lines).for_each(|(_, run)| desk.run(&run));
    println!("calls {} denied {} changes {}", desk.calls, desk.denied, desk.changes);
}

fn read_input(text: &[u8]) -> Session {
    read(text).unwrap_or_else(|(line, fault)| {
        eprintln!("line {line}: {}", format!("{fault:?}").to_lowercase());
        process::exit(3)
    })
}

/// Makes, reads or prints a session so many times more.
fn repeat(work: &str, rounds: u64) {
    let mut text = Vec::new();
    io::stdin().read_to_end(&mut text).unwrap();
    let once_more = || if work == "make" { made(7, 8, 90_000) } else { read_input(&text) };
    let session = once_more();
    let begun = clock();
    let count = || if work == "print" { session.print().len() } else { once_more().lines.len() };
    let count: usize = (0..rounds).map(|_| count()).sum();
    let took = clock() - begun;
    let sum = session.print().bytes().fold(0, |sum: u64, byte| sum.wrapping_mul(31).wrapping_add(u64::from(byte)));
    println!("{took} {count} {sum}");
}

fn main() {
    let words: Vec<String> = env::args().skip(1).collect();
    let numbers: Vec<u64> = words.iter().skip(1).filter_map(|word| word.parse().ok()).collect();
    match (words.first().map(String::as_str), &numbers[..]) {
        (Some("generate"), [seed, clients, lines]) => generate(*seed, *clients, *lines),
        (Some(work @ ("make" | "read" | "print")), [rounds]) => repeat(work, *rounds),
        _ => process::exit(2),
    }
}
