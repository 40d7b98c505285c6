//! The same work as the proved program of this folder, as a Rust programmer writes it: rows of cells by the places of types, distances from
//! the end level by level, and a walk from the beginning. Every type is a node.
//!
//! `plain_flows WORK ROUNDS` reads a policy text from standard input, finds a shortest path ROUNDS times, of flows or of entries, and prints
//! for each the nanoseconds of a processor that it took, and a sum that tells the path's hops.
#[path = "../plain_policy.rs"]
mod plain_policy;

use plain_policy::{Rows, cell, compile, read};
use std::io::Read;
use std::{env, io};

// By which permissions information flows: class, index, and whether it goes to the target.
const FLOWS: [(u8, u32, bool); 18] = [
    (0, 0, false),
    (0, 1, true),
    (0, 2, true),
    (0, 3, true),
    (0, 5, false),
    (1, 0, false),
    (1, 1, false),
    (1, 3, true),
    (1, 4, true),
    (1, 5, false),
    (2, 2, true),
    (2, 3, true),
    (2, 3, false),
    (2, 5, false),
    (2, 6, false),
    (3, 1, false),
    (3, 2, true),
    (3, 4, false),
];
const ENTRIES: [(u8, u32, bool); 1] = [(2, 1, true)];

// The question by which a hop leads from one type to another: source, target and the permission's index.
fn hop(rows: &Rows, routes: &[(u8, u32, bool)], from: u8, to: u8) -> Option<(u8, u8, u32)> {
    routes.iter().find_map(|(class, index, writes)| {
        let (s, t) = if *writes { (from, to) } else { (to, from) };
        (cell(rows, (0, s, t, *class)) >> index & 1 == 1).then_some((s, t, *index))
    })
}

// The hops of the shortest path, and of those the first: distances from the end, then a walk from the beginning.
fn shortest(rows: &Rows, routes: &[(u8, u32, bool)], nodes: &[u8], from: u8, to: u8) -> Option<Vec<(u8, u8, u32)>> {
    let mut levels: Vec<Vec<u8>> = Vec::new();
    let mut level = vec![to];
    let mut rest: Vec<u8> = nodes.iter().copied().filter(|node| *node != to).collect();
    while !level.contains(&from) {
        if level.is_empty() {
            return None;
        }
        let (nearer, farther) = rest.iter().partition(|node| level.iter().any(|next| hop(rows, routes, **node, *next).is_some()));
        levels.push(level);
        (level, rest) = (nearer, farther);
    }
    let mut at = from;
    let mut path = Vec::new();
    while let Some(level) = levels.pop() {
        let (next, question) = level.iter().find_map(|next| Some((*next, hop(rows, routes, at, *next)?)))?;
        path.push(question);
        at = next;
    }
    Some(path)
}

unsafe extern "C" {
    fn clock_gettime(clock: i32, time: *mut [i64; 2]) -> i32;
}

// The time that this thread has had on a processor.
fn processor() -> i64 {
    let mut time = [0, 0];
    unsafe { clock_gettime(3, &mut time) };
    time[0] * 1_000_000_000 + time[1]
}

fn main() {
    let words: Vec<String> = env::args().collect();
    let [_, work, rounds] = words.as_slice() else { return };
    let rounds: u32 = rounds.parse().unwrap();
    let mut text = String::new();
    io::stdin().read_to_string(&mut text).unwrap();
    let policy = read(&text, true);
    let rows = compile(&policy);
    let routes: &[(u8, u32, bool)] = if work == "enter" { &ENTRIES } else { &FLOWS };
    let nodes: Vec<u8> = (0..policy.kinds.len()).map(|place| place as u8).collect();
    for round in 0..rounds {
        let (from, to) = ((round % 128) as u8, (round / 128 % 128) as u8);
        let begun = processor();
        let found = std::hint::black_box(shortest(&rows, routes, &nodes, from, to));
        let took = processor() - begun;
        let sum = found.map_or(1, |path| {
            path.iter().fold(2u64, |sum, (s, t, index)| {
                [u64::from(*s), u64::from(*t), u64::from(*index)].iter().fold(sum, |sum, part| sum.wrapping_mul(131).wrapping_add(*part))
            })
        });
        println!("{took} {sum}");
    }
}
