//! A gate as the plain programs of stations and waits have it: a gate word and two leave counters, two ticket words, 512 cache rows in one table,
//! and a value in a box that the holder of the turn takes out.
use std::cell::{Cell, UnsafeCell};
use std::sync::atomic::{AtomicU64, Ordering::SeqCst};
use std::{hint, thread};

pub struct Gate<V> {
    pub words: Box<[AtomicU64]>,
    slot: UnsafeCell<Option<Box<V>>>,
}

// The slot is touched by the holder of the turn alone.
unsafe impl<V> Sync for Gate<V> {}

pub struct Seat {
    pub number: usize,
    pub quota: u32,
    /// The number and the version of its pass.
    pub pass: Option<(u32, u8)>,
}

struct Backoff {
    step: Cell<u32>,
}

impl Backoff {
    fn snooze(&self) {
        let step = self.step.get();
        if step <= 6 {
            for _ in 0..1u32 << step {
                hint::spin_loop();
            }
        } else {
            thread::yield_now();
        }
        if step <= 10 {
            self.step.set(step + 1);
        }
    }
}

fn row_word(number: u32, s: u16, t: u16, class: u8, vector: u16) -> u64 {
    u64::from(number) << 44 | u64::from(s) << 32 | u64::from(t) << 20 | u64::from(class) << 16 | u64::from(vector)
}

fn row_place(s: u16, t: u16, class: u8) -> usize {
    (31 * usize::from(s) + 7 * usize::from(t) + usize::from(class)) % 512
}

impl<V> Gate<V> {
    pub fn of(value: V) -> Gate<V> {
        Gate { words: (0..517).map(|_| AtomicU64::new(0)).collect(), slot: UnsafeCell::new(Some(Box::new(value))) }
    }

    pub fn enter(&self, seat: &mut Seat) {
        if seat.quota == 0 {
            return;
        }
        let found = self.words[0].fetch_add(1, SeqCst);
        seat.quota -= 1;
        seat.pass = Some(((found >> 44) as u32, (found >> 36) as u8));
    }

    pub fn leave(&self, seat: &mut Seat) {
        if let Some((number, _)) = seat.pass.take() {
            self.words[1 + (number % 2) as usize].fetch_add(1, SeqCst);
        }
    }

    /// The vector of a key for the version of a pass, from the key's row where it has it, and else as it is decided.
    pub fn check(&self, pass: (u32, u8), (s, t, class): (u16, u16, u8), decided: impl Fn(u8, u16, u16) -> u16) -> u16 {
        let (number, version) = pass;
        let row = &self.words[5 + row_place(s, t, class)];
        let found = row.load(SeqCst);
        let vector = found as u16;
        if found == row_word(number, s, t, class, vector) {
            return vector;
        }
        let vector = decided(version, s, t);
        row.swap(row_word(number, s, t, class, vector), SeqCst);
        vector
    }

    pub fn take(&self) -> Box<V> {
        let ticket = self.words[3].fetch_add(1, SeqCst);
        let backoff = Backoff { step: Cell::new(0) };
        while self.words[4].load(SeqCst) != ticket {
            backoff.snooze();
        }
        let slot = unsafe { &mut *self.slot.get() };
        slot.take().unwrap()
    }

    pub fn give(&self, value: Box<V>) {
        let slot = unsafe { &mut *self.slot.get() };
        *slot = Some(value);
        self.words[4].fetch_add(1, SeqCst);
    }
}
