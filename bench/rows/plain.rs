//! The same work as the proved program of this folder, as a Rust programmer writes it: rows of cells by the places of
//! types, drawn a line at a time.
//!
//! `plain_rows WORK ROUNDS` reads a policy text from standard input, does the work ROUNDS times, and prints the
//! nanoseconds of a processor that it took, and a sum that tells the work was done.
#[path = "../plain_policy.rs"]
mod plain_policy;

use plain_policy::{cell, compile, read};
use std::io::Read;
use std::{env, fs, io};

fn keys(versions: u64, kinds: u64) -> Vec<(u8, u8, u8, u8)> {
    let mut state = 1u64;
    let mut keys = Vec::new();
    for _ in 0..65_536 {
        state = state.wrapping_mul(6_364_136_223_846_793_005).wrapping_add(1_442_695_040_888_963_407);
        let draw = state >> 20;
        keys.push(((draw % versions) as u8, ((draw >> 7) % kinds) as u8, ((draw >> 17) % kinds) as u8, ((draw >> 27) % 4) as u8));
    }
    keys
}

// The time that this program has had on a processor.
fn processor() -> u64 {
    let text = fs::read_to_string("/proc/thread-self/schedstat").unwrap();
    text.split(' ').next().unwrap().parse().unwrap()
}

fn main() {
    let words: Vec<String> = env::args().collect();
    let [_, work, rounds] = words.as_slice() else { return };
    let rounds: u32 = rounds.parse().unwrap();
    let mut text = String::new();
    io::stdin().read_to_string(&mut text).unwrap();
    let policy = read(&text, false);
    let rows = compile(&policy);
    let keys = keys(policy.versions.len() as u64, policy.kinds.len() as u64);
    let begun = processor();
    let mut sum = 0u64;
    for _ in 0..rounds {
        if work == "look" {
            for key in &keys {
                sum = sum.wrapping_mul(3).wrapping_add(u64::from(cell(&rows, *key)));
            }
        } else {
            let rows = std::hint::black_box(compile(std::hint::black_box(&policy)));
            sum = sum.wrapping_add(u64::from(cell(&rows, (0, 1, 1, 0))));
        }
    }
    println!("{} {sum}", processor() - begun);
}
