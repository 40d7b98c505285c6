//! The same work as the proved program of this folder, as a Rust programmer writes it: a gate word and two leave
//! counters, two ticket words, 512 cache rows in one table, and a boxed value that the holder of the turn takes out.
//!
//! `plain_gate WORK THREADS ROUNDS` prints the nanoseconds from the first thread's beginning to the last one's end, those of
//! all processors together, and a sum that tells the work was done.
use std::cell::{Cell, UnsafeCell};
use std::sync::atomic::{AtomicU64, Ordering::SeqCst};
use std::time::Instant;
use std::{env, hint, thread};

const KEYS: u16 = 256;

#[derive(Clone, Copy)]
struct Sid(u16);

/// What decides, which a miss asks.
struct Numbered;

impl Numbered {
    fn vector(&self, s: Sid) -> u16 {
        s.0
    }
}

/// A manager's value: 552 bytes, as large as that of the proved program.
struct Large {
    lines: Vec<u64>,
    settled: u32,
    newest: u32,
    cells: [u64; 64],
}

struct Gate<'d> {
    words: Box<[AtomicU64]>,
    slot: UnsafeCell<Option<Box<Large>>>,
    decider: &'d Numbered,
}

// The slot is touched by the holder of the turn alone.
unsafe impl Sync for Gate<'_> {}

struct Seat {
    quota: u32,
    pass: Option<(u32, u8)>,
}

struct Backoff {
    step: Cell<u32>,
}

impl Backoff {
    fn snooze(&self) {
        let step = self.step.get();
        if step <= 6 {
            for _ in 0..1u32 << step {
                hint::spin_loop();
            }
        } else {
            thread::yield_now();
        }
        if step <= 10 {
            self.step.set(step + 1);
        }
    }
}

fn row_word(number: u32, s: Sid, t: Sid, class: u8, vector: u16) -> u64 {
    u64::from(number) << 44
        | u64::from(s.0) << 32
        | u64::from(t.0) << 20
        | u64::from(class) << 16
        | u64::from(vector)
}

fn row_place(s: Sid, t: Sid, class: u8) -> usize {
    (31 * usize::from(s.0) + 7 * usize::from(t.0) + usize::from(class)) % 512
}

impl Gate<'_> {
    fn enter(&self, seat: &mut Seat) -> Result<(), ()> {
        if seat.quota == 0 {
            return Err(());
        }
        let found = self.words[0].fetch_add(1, SeqCst);
        seat.quota -= 1;
        seat.pass = Some(((found >> 44) as u32, (found >> 36) as u8));
        Ok(())
    }

    fn leave(&self, seat: &mut Seat) {
        if let Some((number, _)) = seat.pass.take() {
            self.words[1 + (number % 2) as usize].fetch_add(1, SeqCst);
        }
    }

    fn check(&self, seat: &mut Seat, s: Sid, t: Sid, class: u8) -> u16 {
        let Some((number, _)) = seat.pass else {
            unreachable!()
        };
        let row = &self.words[5 + row_place(s, t, class)];
        let found = row.load(SeqCst);
        let vector = found as u16;
        if found == row_word(number, s, t, class, vector) {
            return vector;
        }
        let vector = self.decider.vector(s);
        row.swap(row_word(number, s, t, class, vector), SeqCst);
        vector
    }

    fn take(&self) -> Box<Large> {
        let ticket = self.words[3].fetch_add(1, SeqCst);
        let backoff = Backoff { step: Cell::new(0) };
        while self.words[4].load(SeqCst) != ticket {
            backoff.snooze();
        }
        let slot = unsafe { &mut *self.slot.get() };
        slot.take().unwrap()
    }

    fn give(&self, value: Box<Large>) {
        let slot = unsafe { &mut *self.slot.get() };
        *slot = Some(value);
        self.words[4].fetch_add(1, SeqCst);
    }
}

fn hits(gate: &Gate, mut seat: Seat, keys: &[Sid], rounds: u32) -> u64 {
    let mut sum = 0u64;
    if gate.enter(&mut seat).is_err() {
        return sum;
    }
    for _ in 0..rounds {
        for s in keys {
            sum = sum.wrapping_add(u64::from(gate.check(&mut seat, *s, *s, 1)));
        }
    }
    gate.leave(&mut seat);
    sum
}

fn passes(gate: &Gate, mut seat: Seat, rounds: u32) -> u64 {
    let mut sum = 0u64;
    for _ in 0..rounds {
        if gate.enter(&mut seat).is_err() {
            return sum;
        }
        if let Some((number, _)) = seat.pass {
            sum = sum.wrapping_add(u64::from(number)).wrapping_add(1);
        }
        gate.leave(&mut seat);
    }
    sum
}

fn turns(gate: &Gate, rounds: u32) -> u64 {
    let mut sum = 0u64;
    for _ in 0..rounds {
        let mut value = gate.take();
        value.cells[0] = value.cells[0].wrapping_add(1);
        sum = sum.wrapping_add(value.cells[0]);
        gate.give(value);
    }
    sum
}

#[repr(C)]
struct Timespec {
    seconds: i64,
    nanos: i64,
}

unsafe extern "C" {
    fn clock_gettime(clock: i32, time: *mut Timespec) -> i32;
}

/// The processor time of this thread, in nanoseconds.
fn thread_time() -> u64 {
    const THREAD_CPUTIME: i32 = 3;
    let mut time = Timespec {
        seconds: 0,
        nanos: 0,
    };
    unsafe { clock_gettime(THREAD_CPUTIME, &mut time) };
    (time.seconds * 1_000_000_000 + time.nanos) as u64
}

struct Found {
    sum: u64,
    begun: u64,
    ended: u64,
    processors: u64,
}

fn main() {
    let words: Vec<String> = env::args().skip(1).collect();
    let [work, threads, rounds] = words.as_slice() else {
        return;
    };
    let threads: u64 = threads.parse().unwrap();
    let rounds: u32 = rounds.parse().unwrap();
    let differ = work != "hit_one_row";
    let keys: Vec<Sid> = (0..KEYS)
        .map(|place| Sid(if differ { place + 1 } else { 1 }))
        .collect();
    let gate = Gate {
        words: (0..517).map(|_| AtomicU64::new(0)).collect(),
        slot: UnsafeCell::new(Some(Box::new(Large {
            lines: Vec::new(),
            settled: 0,
            newest: 0,
            cells: [0; 64],
        }))),
        decider: &Numbered,
    };
    let ready = AtomicU64::new(0);
    let base = Instant::now();
    let run = || {
        let seat = Seat {
            quota: 1 << 29,
            pass: None,
        };
        ready.fetch_add(1, SeqCst);
        while ready.load(SeqCst) < threads {
            hint::spin_loop();
        }
        let (begun, before) = (base.elapsed().as_nanos() as u64, thread_time());
        let sum = match work.as_str() {
            "pass" => passes(&gate, seat, rounds),
            "turn" => turns(&gate, rounds),
            _ => hits(&gate, seat, &keys, rounds),
        };
        Found {
            sum,
            begun,
            ended: base.elapsed().as_nanos() as u64,
            processors: thread_time() - before,
        }
    };
    let all = thread::scope(|scope| {
        let others: Vec<_> = (1..threads).map(|_| scope.spawn(run)).collect();
        let mut all = run();
        for other in others {
            let found = other.join().unwrap();
            all.sum = all.sum.wrapping_add(found.sum);
            all.begun = all.begun.min(found.begun);
            all.ended = all.ended.max(found.ended);
            all.processors += found.processors;
        }
        all
    });
    let value = gate.take();
    assert_eq!((value.lines.len(), value.settled, value.newest), (0, 0, 0));
    println!("{} {} {}", all.ended - all.begun, all.processors, all.sum);
}
