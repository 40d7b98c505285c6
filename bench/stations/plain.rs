//! The same work as the proved program of this folder, as a Rust programmer writes it: a gate word and two leave counters, two
//! ticket words, 512 cache rows in one table, and a boxed manager with its history that the holder of the turn takes out. The manager is
//! a board, or files of which the one file is opened by its name and read.
//!
//! `plain_stations WORK ROUNDS` prints the nanoseconds of all processors together, and a sum that tells the work was done.
#[path = "../plain_gate.rs"]
mod plain_gate;

use plain_gate::{Gate, Seat};
use std::sync::atomic::{AtomicU64, Ordering::SeqCst};
use std::{env, hint, thread};

const CLIENTS: usize = 4;
const LABEL: u16 = 1;

/// Version 0 allows all, and version 1 withholds reading.
fn decided(version: u8, _s: u16, _t: u16) -> u16 {
    if version == 0 { 7 } else { 6 }
}

#[derive(Clone, Copy)]
struct Asked {
    _s: u16,
    _t: u16,
    _class: u8,
    _index: u8,
    _yes: bool,
}

#[derive(Clone, Copy)]
struct Slot {
    mode: u16,
    bits: u16,
    follows: u32,
}

#[derive(Clone, Copy)]
enum Call {
    Open { slot: usize, mode: u16 },
    Read { slot: usize },
}

#[derive(Clone, Copy)]
enum Reply {
    Done,
    Number(u32),
    Denied,
    Refused,
}

enum Entry<M: Manager> {
    Op { _caller: u8, _mark: u32, _call: M::Call, _number: u32, _asked: Vec<Asked>, _reply: M::Reply },
}

/// What lies at a station.
trait Manager {
    type Call;
    type Reply: Clone;

    fn call(&mut self, caller: usize, call: &Self::Call, number: u32, ask: &mut dyn FnMut(u16, u16) -> u16, asked: &mut Vec<Asked>) -> Self::Reply;
}

struct Board {
    posted: u32,
    clients: Vec<u16>,
    slots: Vec<Option<Slot>>,
}

impl Board {
    /// Reads through a slot: its bits answer where it follows the call's number, and else the policy is asked.
    fn read(&self, caller: usize, slot: usize, number: u32, ask: &mut dyn FnMut(u16, u16) -> u16, asked: &mut Vec<Asked>) -> Reply {
        let Some(held) = self.slots[64 * caller + slot] else {
            return Reply::Refused;
        };
        if held.mode & 1 == 0 {
            return Reply::Refused;
        }
        let s = self.clients[caller];
        let bits = if held.follows == number { held.bits } else { ask(s, LABEL) };
        let yes = bits & 1 == 1;
        asked.push(Asked { _s: s, _t: LABEL, _class: 0, _index: 0, _yes: yes });
        if yes { Reply::Number(self.posted) } else { Reply::Denied }
    }

    fn open(&mut self, caller: usize, slot: usize, mode: u16, number: u32, ask: &mut dyn FnMut(u16, u16) -> u16, asked: &mut Vec<Asked>) -> Reply {
        let place = 64 * caller + slot;
        if self.slots[place].is_some() {
            return Reply::Refused;
        }
        let s = self.clients[caller];
        for index in 0..2 {
            if mode >> index & 1 == 1 {
                let yes = ask(s, LABEL) >> index & 1 == 1;
                asked.push(Asked { _s: s, _t: LABEL, _class: 0, _index: index, _yes: yes });
                if !yes {
                    return Reply::Denied;
                }
            }
        }
        let bits = mode & ask(s, LABEL);
        self.slots[place] = Some(Slot { mode, bits, follows: number });
        Reply::Done
    }

}

impl Manager for Board {
    type Call = Call;
    type Reply = Reply;

    fn call(&mut self, caller: usize, call: &Call, number: u32, ask: &mut dyn FnMut(u16, u16) -> u16, asked: &mut Vec<Asked>) -> Reply {
        match *call {
            Call::Open { slot, mode } => self.open(caller, slot, mode, number, ask, asked),
            Call::Read { slot } => self.read(caller, slot, number, ask, asked),
        }
    }
}

fn board() -> Board {
    Board { posted: 0, clients: vec![LABEL; CLIENTS], slots: vec![None; 64 * CLIENTS] }
}

enum FileCall {
    Open { slot: usize, name: Vec<u8>, mode: u16 },
    Read { slot: usize, offset: usize, length: usize },
}

#[derive(Clone)]
enum FileReply {
    Done,
    Bytes(Vec<u8>),
    Denied,
    Refused,
}

struct File {
    name: Vec<u8>,
    label: u16,
    bytes: Vec<u8>,
}

/// Files in one directory, and the slots in which they are open.
struct Files {
    clients: Vec<u16>,
    label: u16,
    nodes: Vec<File>,
    slots: Vec<Option<(usize, Slot)>>,
}

impl Files {
    fn open(&mut self, caller: usize, slot: usize, name: &[u8], mode: u16, number: u32, ask: &mut dyn FnMut(u16, u16) -> u16, asked: &mut Vec<Asked>) -> FileReply {
        let place = 64 * caller + slot;
        if self.slots[place].is_some() {
            return FileReply::Refused;
        }
        let s = self.clients[caller];
        let may_search = ask(s, self.label) >> 1 & 1 == 1;
        asked.push(Asked { _s: s, _t: self.label, _class: 1, _index: 1, _yes: may_search });
        if !may_search {
            return FileReply::Denied;
        }
        let Some(node) = self.nodes.iter().position(|file| file.name == name) else {
            return FileReply::Refused;
        };
        let t = self.nodes[node].label;
        for index in 0..3 {
            if mode >> index & 1 == 1 {
                let yes = ask(s, t) >> index & 1 == 1;
                asked.push(Asked { _s: s, _t: t, _class: 0, _index: index, _yes: yes });
                if !yes {
                    return FileReply::Denied;
                }
            }
        }
        let bits = mode & ask(s, t);
        self.slots[place] = Some((node, Slot { mode, bits, follows: number }));
        FileReply::Done
    }

    fn read(&mut self, caller: usize, slot: usize, from: usize, length: usize, number: u32, ask: &mut dyn FnMut(u16, u16) -> u16, asked: &mut Vec<Asked>) -> FileReply {
        let Some((node, held)) = self.slots[64 * caller + slot] else {
            return FileReply::Refused;
        };
        if held.mode & 1 == 0 {
            return FileReply::Refused;
        }
        let s = self.clients[caller];
        let file = &self.nodes[node];
        let bits = if held.follows == number { held.bits } else { ask(s, file.label) };
        let yes = bits & 1 == 1;
        asked.push(Asked { _s: s, _t: file.label, _class: 0, _index: 0, _yes: yes });
        if !yes {
            return FileReply::Denied;
        }
        let start = from.min(file.bytes.len());
        let end = (start + length).min(file.bytes.len());
        FileReply::Bytes(file.bytes[start..end].to_vec())
    }
}

impl Manager for Files {
    type Call = FileCall;
    type Reply = FileReply;

    fn call(&mut self, caller: usize, call: &FileCall, number: u32, ask: &mut dyn FnMut(u16, u16) -> u16, asked: &mut Vec<Asked>) -> FileReply {
        match call {
            FileCall::Open { slot, name, mode } => self.open(caller, *slot, name, *mode, number, ask, asked),
            FileCall::Read { slot, offset, length } => self.read(caller, *slot, *offset, *length, number, ask, asked),
        }
    }
}

fn files() -> Files {
    let file = File { name: b"motd".to_vec(), label: 3, bytes: b"dawn".to_vec() };
    Files { clients: vec![LABEL], label: 2, nodes: vec![file], slots: vec![None; 64] }
}

/// A manager with its history.
struct Keeper<M: Manager> {
    manager: M,
    history: Vec<Entry<M>>,
}

/// A manager with its history at a gate.
type Station<M> = Gate<Keeper<M>>;

impl<M: Manager> Station<M> {
    fn new(manager: M) -> Station<M> {
        Gate::of(Keeper { manager, history: Vec::new() })
    }

    fn call(&self, seat: &Seat, mark: u32, call: M::Call) -> Option<M::Reply> {
        let pass = seat.pass?;
        let mut keeper = self.take();
        let mut asked = Vec::new();
        let reply = keeper.manager.call(seat.number, &call, pass.0, &mut |s, t| self.check(pass, (s, t, 0), decided), &mut asked);
        keeper.history.push(Entry::Op { _caller: seat.number as u8, _mark: mark, _call: call, _number: pass.0, _asked: asked, _reply: reply.clone() });
        self.give(keeper);
        Some(reply)
    }
}

fn sum_of(reply: Option<Reply>) -> u64 {
    match reply {
        Some(Reply::Number(number)) => u64::from(number) + 1,
        _ => 0,
    }
}

#[repr(C)]
struct Timespec {
    seconds: i64,
    nanos: i64,
}

unsafe extern "C" {
    fn clock_gettime(clock: i32, time: *mut Timespec) -> i32;
}

/// The processor time of this thread, in nanoseconds.
fn thread_time() -> u64 {
    const THREAD_CPUTIME: i32 = 3;
    let mut time = Timespec { seconds: 0, nanos: 0 };
    unsafe { clock_gettime(THREAD_CPUTIME, &mut time) };
    (time.seconds * 1_000_000_000 + time.nanos) as u64
}

fn seat(number: usize) -> Seat {
    Seat { number, quota: 1 << 29, pass: None }
}

fn prepared(station: &Station<Board>, seat: &mut Seat) {
    station.enter(seat);
    station.call(seat, 0, Call::Open { slot: 0, mode: 3 });
}

fn core(rounds: u32) -> (u64, u64) {
    let mut board = board();
    let mut asked = Vec::new();
    board.call(0, &Call::Open { slot: 0, mode: 3 }, 0, &mut |s, t| decided(0, s, t), &mut asked);
    let before = thread_time();
    let mut sum = 0u64;
    for _ in 0..rounds {
        let mut asked = Vec::new();
        sum += sum_of(Some(hint::black_box(&mut board).call(0, &Call::Read { slot: 0 }, 0, &mut |s, t| decided(0, s, t), &mut asked)));
        hint::black_box(&asked);
    }
    (thread_time() - before, sum)
}

fn one(work: &str, rounds: u32) -> (u64, u64) {
    let station = Station::new(board());
    let mut seat = seat(0);
    prepared(&station, &mut seat);
    let read = Call::Read { slot: 0 };
    let before = thread_time();
    let mut sum = 0u64;
    match work {
        "call" => (0..rounds).for_each(|_| sum += sum_of(station.call(&seat, 0, read))),
        "pass" => {
            station.leave(&mut seat);
            for _ in 0..rounds {
                station.enter(&mut seat);
                sum += sum_of(station.call(&seat, 0, read));
                station.leave(&mut seat);
            }
        }
        _ => {
            for _ in 0..rounds {
                if let Some(pass) = seat.pass {
                    sum += u64::from(station.check(pass, (LABEL, LABEL, 0), decided));
                }
            }
        }
    }
    (thread_time() - before, sum)
}

/// The work of clients, each in a thread of its own, which begin together: nanoseconds of all of them, and their sums.
fn beside(threads: usize, work: impl Fn(usize, &dyn Fn()) -> (u64, u64) + Sync) -> (u64, u64) {
    let ready = AtomicU64::new(0);
    let meet = || {
        ready.fetch_add(1, SeqCst);
        while ready.load(SeqCst) < threads as u64 {
            hint::spin_loop();
        }
    };
    let run = |number: usize| work(number, &meet);
    thread::scope(|scope| {
        let run = &run;
        let others: Vec<_> = (1..threads).map(|number| scope.spawn(move || run(number))).collect();
        let first = run(0);
        others.into_iter().map(|other| other.join().unwrap()).fold(first, |(a, b), (c, d)| (a + c, b + d))
    })
}

/// Reads of four clients at one board.
fn four_at_one(enters: bool, rounds: u32) -> (u64, u64) {
    let station = Station::new(board());
    beside(4, |number, meet| {
        let mut seat = seat(number);
        prepared(&station, &mut seat);
        let read = Call::Read { slot: 0 };
        meet();
        let before = thread_time();
        let mut sum = 0u64;
        if enters {
            station.leave(&mut seat);
            for _ in 0..rounds {
                station.enter(&mut seat);
                sum += sum_of(station.call(&seat, 0, read));
                station.leave(&mut seat);
            }
        } else {
            (0..rounds).for_each(|_| sum += sum_of(station.call(&seat, 0, read)));
        }
        (thread_time() - before, sum)
    })
}

/// Reads at three boards in turn.
fn at_three(threads: usize, rounds: u32) -> (u64, u64) {
    let stations = [Station::new(board()), Station::new(board()), Station::new(board())];
    beside(threads, |number, meet| {
        let mut seats = [seat(number), seat(number), seat(number)];
        for (station, seat) in stations.iter().zip(&mut seats) {
            prepared(station, seat);
        }
        meet();
        let before = thread_time();
        let mut sum = 0u64;
        for _ in 0..rounds {
            for (station, seat) in stations.iter().zip(&seats) {
                sum += sum_of(station.call(seat, 0, Call::Read { slot: 0 }));
            }
        }
        (thread_time() - before, sum)
    })
}

fn bytes_of(reply: &FileReply) -> u64 {
    match reply {
        FileReply::Bytes(bytes) => bytes.len() as u64,
        _ => 0,
    }
}

fn file_open() -> FileCall {
    FileCall::Open { slot: 0, name: b"motd".to_vec(), mode: 1 }
}

fn file(rounds: u32) -> (u64, u64) {
    let station = Station::new(files());
    let mut seat = seat(0);
    station.enter(&mut seat);
    station.call(&seat, 0, file_open());
    let before = thread_time();
    let mut sum = 0u64;
    for _ in 0..rounds {
        let reply = station.call(&seat, 0, FileCall::Read { slot: 0, offset: 0, length: 16 });
        sum += reply.map_or(0, |reply| bytes_of(&reply));
    }
    (thread_time() - before, sum)
}

fn core_file(rounds: u32) -> (u64, u64) {
    let mut files = files();
    files.call(0, &file_open(), 0, &mut |s, t| decided(0, s, t), &mut Vec::new());
    let before = thread_time();
    let mut sum = 0u64;
    for _ in 0..rounds {
        let mut asked = Vec::new();
        let read = FileCall::Read { slot: 0, offset: 0, length: 16 };
        sum += bytes_of(&hint::black_box(&mut files).call(0, &read, 0, &mut |s, t| decided(0, s, t), &mut asked));
        hint::black_box(&asked);
    }
    (thread_time() - before, sum)
}

fn main() {
    let words: Vec<String> = env::args().skip(1).collect();
    let [work, rounds] = words.as_slice() else {
        return;
    };
    let rounds: u32 = rounds.parse().unwrap();
    let (took, sum) = match work.as_str() {
        "core" => core(rounds),
        "core_file" => core_file(rounds),
        "file" => file(rounds),
        "call4" => four_at_one(false, rounds),
        "pass4" => four_at_one(true, rounds),
        "three" => at_three(1, rounds),
        "three4" => at_three(4, rounds),
        _ => one(work, rounds),
    };
    println!("{took} {sum}");
}
