//! The same work as the proved program of this folder, as a Rust programmer writes it: a gate word and two leave counters, two ticket words, 512
//! cache rows in one table, and a boxed board with its history that the holder of the turn takes out. The board has the places of each pair, and
//! stale places as bits.
//!
//! `plain_waits CALLERS CALLS CHANGES` prints a line for the reads and one for the changes: the longest in nanoseconds, and how many took so long, by
//! powers of two. `plain_waits 0 0 CHANGES` does the changes with no callers: it prints the nanoseconds of a processor, and a line for the changes.
#[path = "../plain_gate.rs"]
mod plain_gate;

use plain_gate::{Gate, Seat};
use std::sync::atomic::{AtomicU32, Ordering::SeqCst};
use std::time::Instant;
use std::{env, hint, thread};

const CLIENTS: usize = 62;
const SLOTS: usize = 64;
const LABEL: u16 = 1;
const SIZES: usize = 40;
/// The gate word counts the passes that were entered below the version.
const ENTERED: u64 = (1 << 36) - 1;

/// Version 1 withholds reading from identifier 2, and from no other.
fn decided(version: u8, s: u16, _t: u16) -> u16 {
    if version == 1 && s == 2 { 6 } else { 7 }
}

#[derive(Clone, Copy)]
struct Asked {
    _s: u16,
    _t: u16,
    _class: u8,
    _index: u8,
    _yes: bool,
}

#[derive(Clone, Copy)]
struct Slot {
    mode: u16,
    bits: u16,
    number: u32,
}

#[derive(Clone, Copy)]
enum Call {
    Open { slot: usize, mode: u16 },
    Read { slot: usize },
}

#[derive(Clone, Copy)]
enum Reply {
    Done,
    Number(u32),
    Denied,
    Refused,
}

enum Entry {
    Op { _caller: u8, _mark: u32, _call: Call, _number: u32, _asked: Vec<Asked>, _reply: Reply },
    Notice { _number: u32, _version: u8 },
    Ack { _number: u32 },
}

#[derive(Clone, Copy)]
enum Phase {
    Settled { number: u32, version: u8 },
    Pending { number: u32, new: u8 },
}

/// The places of the slots of clients with one identifier.
struct Pair {
    s: u16,
    places: Vec<u32>,
}

struct Board {
    posted: u32,
    clients: Vec<u16>,
    slots: Vec<Option<Slot>>,
    pairs: Vec<Pair>,
    stale: Vec<u64>,
    left: usize,
    phase: Phase,
}

impl Board {
    fn new() -> Board {
        let mut clients = vec![3; CLIENTS];
        clients[CLIENTS - 1] = 2;
        Board {
            posted: 0,
            clients,
            slots: vec![None; SLOTS * CLIENTS],
            pairs: Vec::new(),
            stale: vec![0; CLIENTS],
            left: 0,
            phase: Phase::Settled { number: 0, version: 0 },
        }
    }

    /// The policy number that a slot follows: the pending one where it was updated, and else the settled one.
    fn followed(&self, slot: Slot) -> u32 {
        match self.phase {
            Phase::Settled { number, .. } => number,
            Phase::Pending { number, .. } => number - u32::from(slot.number != number),
        }
    }

    fn call(&mut self, caller: usize, call: Call, number: u32, ask: &mut dyn FnMut(u16, u16) -> u16, asked: &mut Vec<Asked>) -> Reply {
        match call {
            Call::Open { slot, mode } => self.open(caller, slot, mode, number, ask, asked),
            Call::Read { slot } => self.read(caller, slot, number, ask, asked),
        }
    }

    /// Reads through a slot: its bits answer where it follows the call's number, and else the policy is asked.
    fn read(&self, caller: usize, slot: usize, number: u32, ask: &mut dyn FnMut(u16, u16) -> u16, asked: &mut Vec<Asked>) -> Reply {
        let Some(held) = self.slots[SLOTS * caller + slot] else {
            return Reply::Refused;
        };
        if held.mode & 1 == 0 {
            return Reply::Refused;
        }
        let s = self.clients[caller];
        let bits = if self.followed(held) == number { held.bits } else { ask(s, LABEL) };
        let yes = bits & 1 == 1;
        asked.push(Asked { _s: s, _t: LABEL, _class: 0, _index: 0, _yes: yes });
        if yes { Reply::Number(self.posted) } else { Reply::Denied }
    }

    fn open(&mut self, caller: usize, slot: usize, mode: u16, number: u32, ask: &mut dyn FnMut(u16, u16) -> u16, asked: &mut Vec<Asked>) -> Reply {
        let place = SLOTS * caller + slot;
        if self.slots[place].is_some() {
            return Reply::Refused;
        }
        let s = self.clients[caller];
        for index in 0..2 {
            if mode >> index & 1 == 1 {
                let yes = ask(s, LABEL) >> index & 1 == 1;
                asked.push(Asked { _s: s, _t: LABEL, _class: 0, _index: index, _yes: yes });
                if !yes {
                    return Reply::Denied;
                }
            }
        }
        let bits = mode & ask(s, LABEL);
        self.slots[place] = Some(Slot { mode, bits, number });
        match self.pairs.iter_mut().find(|pair| pair.s == s) {
            Some(pair) => pair.places.push(place as u32),
            None => self.pairs.push(Pair { s, places: vec![place as u32] }),
        }
        Reply::Done
    }

    /// Begins a change, and marks the slots on whose pair the versions differ.
    fn start(&mut self, new: u8) -> u32 {
        let Phase::Settled { number, version } = self.phase else { unreachable!() };
        for pair in &self.pairs {
            if decided(version, pair.s, LABEL) != decided(new, pair.s, LABEL) {
                for &place in &pair.places {
                    self.stale[place as usize / 64] |= 1 << (place % 64);
                    self.left += 1;
                }
            }
        }
        self.phase = Phase::Pending { number: number + 1, new };
        number + 1
    }

    fn update(&mut self, most: usize) -> usize {
        let Phase::Pending { number, new } = self.phase else { return 0 };
        let mut most = most.min(self.left);
        self.left -= most;
        for at in 0..self.stale.len() {
            while most > 0 && self.stale[at] != 0 {
                let place = at * 64 + self.stale[at].trailing_zeros() as usize;
                self.stale[at] &= self.stale[at] - 1;
                most -= 1;
                if let Some(slot) = &mut self.slots[place] {
                    slot.bits = slot.mode & decided(new, self.clients[place / SLOTS], LABEL);
                    slot.number = number;
                }
            }
            if most == 0 {
                break;
            }
        }
        self.left
    }
}

/// A board with its history.
struct Keeper {
    board: Board,
    history: Vec<Entry>,
}

/// A board with its history at a gate.
type Station = Gate<Keeper>;

/// What an administrator counts: its number and version, and the passes that were entered under numbers of the current parity before.
struct Office {
    number: u32,
    version: u8,
    entered: u64,
}

fn gate_word(number: u32, version: u8) -> u64 {
    u64::from(number) << 44 | u64::from(version) << 36
}

impl Station {
    fn new() -> Station {
        Gate::of(Keeper { board: Board::new(), history: Vec::new() })
    }

    fn call(&self, seat: &Seat, mark: u32, call: Call) -> Option<Reply> {
        let pass = seat.pass?;
        let mut keeper = self.take();
        let mut asked = Vec::new();
        let reply = keeper.board.call(seat.number, call, pass.0, &mut |s, t| self.check(pass, (s, t, 0), decided), &mut asked);
        keeper.history.push(Entry::Op { _caller: seat.number as u8, _mark: mark, _call: call, _number: pass.0, _asked: asked, _reply: reply });
        self.give(keeper);
        Some(reply)
    }

    fn notify(&self, office: &mut Office, version: u8) {
        let mut keeper = self.take();
        let number = keeper.board.start(version);
        keeper.history.push(Entry::Notice { _number: number, _version: version });
        let raised = gate_word(number, version).wrapping_sub(gate_word(office.number, office.version));
        let found = self.words[0].fetch_add(raised, SeqCst);
        // Those of the older number's parity: all that were entered so far, but for those of the other.
        *office = Office { number, version, entered: (found & ENTERED) - office.entered };
        self.give(keeper);
    }

    fn update(&self, most: usize) -> usize {
        let mut keeper = self.take();
        let left = keeper.board.update(most);
        self.give(keeper);
        left
    }

    fn acknowledge(&self, office: &Office) -> bool {
        let mut keeper = self.take();
        let left = self.words[1 + ((office.number + 1) % 2) as usize].load(SeqCst);
        let done = left == office.entered && keeper.board.left == 0;
        if done {
            keeper.board.phase = Phase::Settled { number: office.number, version: office.version };
            keeper.history.push(Entry::Ack { _number: office.number });
        }
        self.give(keeper);
        done
    }
}

/// How many pieces of work took so many nanoseconds, by powers of two, and the longest of them.
struct Spread {
    counts: [u64; SIZES],
    longest: u64,
}

impl Spread {
    fn new() -> Spread {
        Spread { counts: [0; SIZES], longest: 0 }
    }

    fn note(&mut self, nanos: u64) {
        let size = nanos.checked_ilog2().unwrap_or(0) as usize;
        self.counts[size.min(SIZES - 1)] += 1;
        self.longest = self.longest.max(nanos);
    }

    fn take(&mut self, other: &Spread) {
        for (count, more) in self.counts.iter_mut().zip(other.counts) {
            *count += more;
        }
        self.longest = self.longest.max(other.longest);
    }

    fn print(&self) {
        print!("{}", self.longest);
        for count in self.counts {
            print!(" {count}");
        }
        println!();
    }
}

#[repr(C)]
struct Timespec {
    seconds: i64,
    nanos: i64,
}

unsafe extern "C" {
    fn clock_gettime(clock: i32, time: *mut Timespec) -> i32;
}

/// The processor time of this thread, in nanoseconds.
fn thread_time() -> u64 {
    const THREAD_CPUTIME: i32 = 3;
    let mut time = Timespec { seconds: 0, nanos: 0 };
    unsafe { clock_gettime(THREAD_CPUTIME, &mut time) };
    (time.seconds * 1_000_000_000 + time.nanos) as u64
}

fn nanos(begun: Instant) -> u64 {
    begun.elapsed().as_nanos() as u64
}

/// All clients open their slots. The first so many of them stay as callers.
fn seated(station: &Station, callers: usize) -> Vec<Seat> {
    let mut seats: Vec<Seat> = (0..CLIENTS).map(|number| Seat { number, quota: 1 << 29, pass: None }).collect();
    for seat in &mut seats {
        station.enter(seat);
        for slot in 0..SLOTS {
            station.call(seat, slot as u32, Call::Open { slot, mode: 1 });
        }
        station.leave(seat);
    }
    seats.truncate(callers);
    seats
}

/// A caller's reads, one after another.
fn reads(station: &Station, mut seat: Seat, calls: u32, working: &AtomicU32) -> Spread {
    let mut spread = Spread::new();
    for mark in 0..calls {
        let begun = Instant::now();
        station.enter(&mut seat);
        let reply = station.call(&seat, mark, Call::Read { slot: 0 });
        station.leave(&mut seat);
        if let Some(Reply::Number(number)) = reply {
            hint::black_box(number);
            spread.note(nanos(begun));
        }
    }
    working.fetch_sub(1, SeqCst);
    spread
}

/// Changes to version 1 and back in turn, while a caller is at work.
fn changes(station: &Station, most: u32, working: &AtomicU32) -> Spread {
    let mut office = Office { number: 0, version: 0, entered: 0 };
    let mut spread = Spread::new();
    for number in 0..most {
        let begun = Instant::now();
        if working.load(SeqCst) == 0 {
            break;
        }
        station.notify(&mut office, u8::from(number % 2 == 0));
        loop {
            station.update(usize::MAX);
            if station.acknowledge(&office) {
                break;
            }
        }
        spread.note(nanos(begun));
    }
    spread
}

fn waits(callers: usize, calls: u32, most: u32) {
    let station = Station::new();
    let seats = seated(&station, callers);
    let working = AtomicU32::new(callers as u32);
    let (station, working) = (&station, &working);
    let (read, changed) = thread::scope(|scope| {
        let workers: Vec<_> = seats.into_iter().map(|seat| scope.spawn(move || reads(station, seat, calls, working))).collect();
        let changed = changes(station, most, working);
        let mut read = Spread::new();
        for worker in workers {
            read.take(&worker.join().unwrap());
        }
        (read, changed)
    });
    read.print();
    changed.print();
}

fn alone(most: u32) {
    let station = Station::new();
    seated(&station, 1);
    let working = AtomicU32::new(1);
    let before = thread_time();
    let changed = changes(&station, most, &working);
    println!("{}", thread_time() - before);
    changed.print();
}

fn main() {
    let words: Vec<u32> = env::args().skip(1).filter_map(|word| word.parse().ok()).collect();
    let [callers, calls, most] = words[..] else { return };
    if callers == 0 { alone(most) } else { waits(callers as usize, calls, most) }
}
