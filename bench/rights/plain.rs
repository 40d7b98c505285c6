//! The same work as the proved program of this folder, as a Rust programmer writes it: grants by place, the places of each
//! pair, and stale places as bits.
//!
//! `plain_rights SLOTS STALE ROUNDS [ordered]` fills SLOTS slots for each of 62 clients, all on objects of one label, and changes the
//! policy ROUNDS times between two versions that differ on the pairs of the first STALE clients: notice, update of all,
//! acknowledgement. It prints the nanoseconds of a processor that the changes took, how many slots were stale in all, and how
//! many may read at the end. The pairs stand in a list, from which no slot can be taken without looking at all of them; with `ordered`
//! they stand in an ordered map from pairs and blocks of 64 places to words, as in the proved program, where a slot is found to be given back.
use std::collections::BTreeMap;
use std::env;

const CLIENTS: usize = 62;
const READ: u16 = 1;

#[derive(Clone, Copy)]
struct Grant {
    source: u16,
    target: u16,
    mode: u16,
    bits: u16,
    number: u32,
}

struct Pair {
    source: u16,
    target: u16,
    places: Vec<u32>,
}

#[derive(Clone, Copy)]
enum Phase {
    Settled { number: u32, version: usize },
    Pending { number: u32, new: usize },
}

/// Two versions, of which the second allows the first sources nothing.
struct Decider {
    stale: u16,
}

impl Decider {
    fn vector(&self, version: usize, source: u16, _target: u16) -> u16 {
        if version == 1 && source <= self.stale { 0 } else { READ }
    }
}

/// Where the slots of each pair are found.
trait Index: Default {
    fn add(&mut self, grant: Grant, place: usize);

    /// Marks the places on pairs whose vectors differ in two versions, and answers how many they are.
    fn mark(&self, decider: &Decider, old: usize, new: usize, stale: &mut [u64]) -> usize;
}

/// A list, in which a pair is found by looking at all.
#[derive(Default)]
struct Listed(Vec<Pair>);

impl Index for Listed {
    fn add(&mut self, grant: Grant, place: usize) {
        let found = self.0.iter_mut().find(|pair| pair.source == grant.source && pair.target == grant.target);
        match found {
            Some(pair) => pair.places.push(place as u32),
            None => {
                let Grant { source, target, .. } = grant;
                self.0.push(Pair { source, target, places: vec![place as u32] });
            }
        }
    }

    fn mark(&self, decider: &Decider, old: usize, new: usize, stale: &mut [u64]) -> usize {
        let mut left = 0;
        for pair in &self.0 {
            let before = decider.vector(old, pair.source, pair.target);
            if before != decider.vector(new, pair.source, pair.target) {
                for &place in &pair.places {
                    stale[place as usize / 64] |= 1 << (place % 64);
                    left += 1;
                }
            }
        }
        left
    }
}

/// An ordered map from pairs and blocks of 64 places to words of places.
#[derive(Default)]
struct Ordered(BTreeMap<u64, u64>);

impl Index for Ordered {
    fn add(&mut self, grant: Grant, place: usize) {
        let pair = u64::from(grant.source) << 12 | u64::from(grant.target);
        *self.0.entry(1024 * pair + place as u64 / 64).or_default() |= 1 << (place % 64);
    }

    fn mark(&self, decider: &Decider, old: usize, new: usize, stale: &mut [u64]) -> usize {
        let (mut asked, mut differs, mut left) = (u64::MAX, false, 0);
        for (&key, &word) in &self.0 {
            if asked != key / 1024 {
                asked = key / 1024;
                let (source, target) = ((asked >> 12) as u16, (asked & 4095) as u16);
                differs = decider.vector(old, source, target) != decider.vector(new, source, target);
            }
            if differs {
                stale[(key % 1024) as usize] |= word;
                left += word.count_ones() as usize;
            }
        }
        left
    }
}

struct Grants<I> {
    held: Vec<Option<Grant>>,
    pairs: I,
    stale: Vec<u64>,
    left: usize,
    phase: Phase,
}

impl<I: Index> Grants<I> {
    fn add(&mut self, place: usize, grant: Grant) {
        self.held[place] = Some(grant);
        self.pairs.add(grant, place);
    }

    fn notify(&mut self, decider: &Decider, new: usize) {
        let Phase::Settled { number, version: old } = self.phase else { return };
        self.left += self.pairs.mark(decider, old, new, &mut self.stale);
        self.phase = Phase::Pending { number: number + 1, new };
    }

    fn update(&mut self, decider: &Decider, most: usize) -> usize {
        let Phase::Pending { number, new } = self.phase else { return 0 };
        let mut most = most.min(self.left);
        self.left -= most;
        for at in 0..self.stale.len() {
            while most > 0 && self.stale[at] != 0 {
                let place = at * 64 + self.stale[at].trailing_zeros() as usize;
                self.stale[at] &= self.stale[at] - 1;
                most -= 1;
                if let Some(grant) = &mut self.held[place] {
                    grant.bits = grant.mode & decider.vector(new, grant.source, grant.target);
                    grant.number = number;
                }
            }
            if most == 0 {
                break;
            }
        }
        self.left
    }

    fn acknowledge(&mut self) {
        if let (Phase::Pending { number, new }, 0) = (self.phase, self.left) {
            self.phase = Phase::Settled { number, version: new };
        }
    }
}

fn opened<I: Index>(slots: usize, decider: &Decider) -> Grants<I> {
    let mut grants = Grants {
        held: vec![None; 256 * CLIENTS],
        pairs: I::default(),
        stale: vec![0; 4 * CLIENTS],
        left: 0,
        phase: Phase::Settled { number: 0, version: 0 },
    };
    for client in 0..CLIENTS {
        for slot in 0..slots {
            let (source, target) = (client as u16 + 1, 100);
            let bits = READ & decider.vector(0, source, target);
            grants.add(256 * client + slot, Grant { source, target, mode: READ, bits, number: 0 });
        }
    }
    grants
}

/// Nanoseconds of a processor that this process took so far.
fn clock() -> u64 {
    #[repr(C)]
    struct Time {
        seconds: i64,
        nanoseconds: i64,
    }
    unsafe extern "C" {
        fn clock_gettime(clock: i32, time: *mut Time) -> i32;
    }
    let mut time = Time { seconds: 0, nanoseconds: 0 };
    unsafe { clock_gettime(2, &mut time) };
    time.seconds as u64 * 1_000_000_000 + time.nanoseconds as u64
}

fn changed<I: Index>(slots: usize, stale: usize, rounds: usize) {
    let decider = Decider { stale: stale as u16 };
    let mut grants: Grants<I> = opened(slots, &decider);
    let begun = clock();
    let mut sum = 0u64;
    for round in 0..rounds {
        grants.notify(&decider, (round + 1) % 2);
        sum += grants.left as u64;
        grants.update(&decider, usize::MAX);
        grants.acknowledge();
    }
    let took = clock() - begun;
    let usable = grants.held.iter().flatten().filter(|grant| grant.bits == READ).count();
    println!("{took} {sum} {usable}");
}

fn main() {
    let words: Vec<usize> = env::args().skip(1).filter_map(|word| word.parse().ok()).collect();
    let [slots, stale, rounds] = words[..] else { return };
    if env::args().any(|word| word == "ordered") {
        changed::<Ordered>(slots, stale, rounds);
    } else {
        changed::<Listed>(slots, stale, rounds);
    }
}
