//! The same work as the proved program of this folder, as a Rust programmer writes it: numbered nodes, each directory with
//! its entries by key and name, and slots by place.
//!
//! `plain_files SESSION FIRST ROUNDS` reads the session in the file SESSION, does its first FIRST calls once, and the rest
//! ROUNDS times, under a policy that allows all. It prints the nanoseconds of a processor that the rest took, and how many
//! calls in all were done, gave bytes, and gave how many bytes.
use std::collections::BTreeMap;
use std::{env, fs};

const CLIENTS: usize = 62;

#[derive(Clone, Copy)]
struct Asked {
    _s: u16,
    _t: u16,
    _class: u8,
    _index: u8,
    _yes: bool,
}

/// One version, which allows all.
struct Decider {
    vectors: Vec<u16>,
}

impl Decider {
    fn vector(&self, _s: u16, _t: u16, class: u8) -> u16 {
        self.vectors[class as usize]
    }

    fn member(&self, _s: u16, t: u16) -> u16 {
        t
    }
}

struct Node {
    label: u16,
    bytes: Option<Vec<u8>>,
    entries: BTreeMap<(u16, Vec<u8>), u32>,
}

#[derive(Clone, Copy)]
struct Slot {
    object: u32,
    mode: u16,
    bits: u16,
    number: u32,
}

enum Call {
    Create(Vec<Vec<u8>>),
    Unlink(Vec<Vec<u8>>),
    Open(usize, Vec<Vec<u8>>, u16),
    Read(usize, usize, usize),
    Write(usize, usize, Vec<u8>),
    Append(usize, Vec<u8>),
    Close(usize),
}

enum Reply {
    Done,
    Bytes(Vec<u8>),
    Refused,
}

struct Files {
    decider: Decider,
    nodes: Vec<Option<Node>>,
    spare: Vec<u32>,
    slots: Vec<Option<Slot>>,
    clients: Vec<u16>,
    asked: Vec<Asked>,
}

struct Place {
    directory: u32,
    key: u16,
    node: Option<u32>,
}

impl Files {
    fn ask(&mut self, s: u16, t: u16, class: u8, index: u8) -> bool {
        let yes = self.decider.vector(s, t, class) >> index & 1 == 1;
        self.asked.push(Asked { _s: s, _t: t, _class: class, _index: index, _yes: yes });
        yes
    }

    fn walk(&mut self, s: u16, path: &[Vec<u8>]) -> Option<Place> {
        let mut place = Place { directory: 0, key: 0, node: Some(0) };
        for name in path {
            let here = place.node?;
            let node = self.nodes[here as usize].as_ref()?;
            if node.bytes.is_some() {
                return None;
            }
            let label = node.label;
            if !self.ask(s, label, 1, 1) {
                return None;
            }
            let member = self.decider.member(s, label);
            let key = if member == label { 0 } else { member };
            let node = self.nodes[here as usize].as_ref()?;
            place = Place { directory: here, key, node: node.entries.get(&(key, name.clone())).copied() };
        }
        Some(place)
    }

    fn create(&mut self, s: u16, path: &[Vec<u8>]) -> Option<Reply> {
        let place = self.walk(s, path)?;
        if place.node.is_some() {
            return None;
        }
        let label = self.nodes[place.directory as usize].as_ref()?.label;
        if !self.ask(s, label, 1, 3) || !self.ask(s, label, 0, 3) {
            return None;
        }
        let number = self.spare.pop().unwrap_or(self.nodes.len() as u32);
        let node = Some(Node { label, bytes: Some(Vec::new()), entries: BTreeMap::new() });
        if (number as usize) < self.nodes.len() {
            self.nodes[number as usize] = node;
        } else {
            self.nodes.push(node);
        }
        let entries = &mut self.nodes[place.directory as usize].as_mut()?.entries;
        entries.insert((place.key, path.last()?.clone()), number);
        Some(Reply::Done)
    }

    fn unlink(&mut self, s: u16, path: &[Vec<u8>]) -> Option<Reply> {
        let place = self.walk(s, path)?;
        let number = place.node?;
        let above = self.nodes[place.directory as usize].as_ref()?.label;
        let label = self.nodes[number as usize].as_ref()?.label;
        if !self.ask(s, above, 1, 4) || !self.ask(s, label, 0, 4) {
            return None;
        }
        self.nodes[place.directory as usize].as_mut()?.entries.remove(&(place.key, path.last()?.clone()));
        self.nodes[number as usize] = None;
        self.spare.push(number);
        for slot in &mut self.slots {
            if slot.is_some_and(|held| held.object == number) {
                *slot = None;
            }
        }
        Some(Reply::Done)
    }

    fn open(&mut self, s: u16, at: usize, path: &[Vec<u8>], mode: u16) -> Option<Reply> {
        if self.slots[at].is_some() {
            return None;
        }
        let object = self.walk(s, path)?.node?;
        let node = self.nodes[object as usize].as_ref()?;
        node.bytes.as_ref()?;
        let label = node.label;
        for index in 0..3 {
            if mode >> index & 1 == 1 && !self.ask(s, label, 0, index) {
                return None;
            }
        }
        let bits = mode & self.decider.vector(s, label, 0);
        self.slots[at] = Some(Slot { object, mode, bits, number: 0 });
        Some(Reply::Done)
    }

    /// The node of a slot, where it may be used.
    fn used(&mut self, s: u16, at: usize, index: u8) -> Option<&mut Node> {
        let slot = self.slots[at]?;
        if slot.mode >> index & 1 == 0 {
            return None;
        }
        let label = self.nodes[slot.object as usize].as_ref()?.label;
        let yes = if slot.number == 0 { slot.bits >> index & 1 == 1 } else { self.decider.vector(s, label, 0) >> index & 1 == 1 };
        self.asked.push(Asked { _s: s, _t: label, _class: 0, _index: index, _yes: yes });
        if !yes {
            return None;
        }
        self.nodes[slot.object as usize].as_mut()
    }

    fn read(&mut self, s: u16, at: usize, offset: usize, most: usize) -> Option<Reply> {
        let bytes = self.used(s, at, 0)?.bytes.as_ref()?;
        let start = offset.min(bytes.len());
        let end = (start + most).min(bytes.len());
        Some(Reply::Bytes(bytes[start..end].to_vec()))
    }

    fn write(&mut self, s: u16, at: usize, offset: usize, piece: &[u8]) -> Option<Reply> {
        let bytes = self.used(s, at, 1)?.bytes.as_mut()?;
        let end = offset + piece.len();
        if end > 65_536 {
            return None;
        }
        if bytes.len() < end {
            bytes.resize(end, b'.');
        }
        bytes[offset..end].copy_from_slice(piece);
        Some(Reply::Done)
    }

    fn append(&mut self, s: u16, at: usize, piece: &[u8]) -> Option<Reply> {
        let bytes = self.used(s, at, 2)?.bytes.as_mut()?;
        if bytes.len() + piece.len() > 65_536 {
            return None;
        }
        bytes.extend_from_slice(piece);
        Some(Reply::Done)
    }

    fn call(&mut self, client: usize, call: &Call) -> Reply {
        self.asked = Vec::new();
        let s = self.clients[client];
        let reply = match call {
            Call::Create(path) => self.create(s, path),
            Call::Unlink(path) => self.unlink(s, path),
            Call::Open(slot, path, mode) => self.open(s, 64 * client + slot, path, *mode),
            Call::Read(slot, offset, most) => self.read(s, 64 * client + slot, *offset, *most),
            Call::Write(slot, offset, piece) => self.write(s, 64 * client + slot, *offset, piece),
            Call::Append(slot, piece) => self.append(s, 64 * client + slot, piece),
            Call::Close(slot) => self.slots[64 * client + slot].take().map(|_| Reply::Done),
        };
        reply.unwrap_or(Reply::Refused)
    }
}

fn names(path: &str) -> Vec<Vec<u8>> {
    path.split('/').filter(|name| !name.is_empty()).map(|name| name.as_bytes().to_vec()).collect()
}

fn mode(word: &str) -> u16 {
    word.bytes().map(|letter| match letter { b'r' => 1, b'w' => 2, _ => 4 }).sum()
}

fn call(words: &[&str]) -> Option<Call> {
    let number = |at: usize| words[at].parse::<usize>().ok();
    Some(match words[0] {
        "create" => Call::Create(names(words[1])),
        "unlink" => Call::Unlink(names(words[1])),
        "open" => Call::Open(number(1)?, names(words[2]), mode(words[3])),
        "read" => Call::Read(number(1)?, number(2)?, number(3)?),
        "write" => Call::Write(number(1)?, number(2)?, words[3].as_bytes().to_vec()),
        "append" => Call::Append(number(1)?, words[2].as_bytes().to_vec()),
        "close" => Call::Close(number(1)?),
        _ => return None,
    })
}

/// The files and the calls of a session: each label is the first, and every caller the first client.
fn opened(text: &str) -> (Files, Vec<Call>) {
    let root = Node { label: 1, bytes: None, entries: BTreeMap::new() };
    let mut files = Files {
        decider: Decider { vectors: vec![255; 5] },
        nodes: vec![Some(root)],
        spare: Vec::new(),
        slots: vec![None; 64 * CLIENTS],
        clients: vec![1; CLIENTS],
        asked: Vec::new(),
    };
    let mut calls = Vec::new();
    for line in text.lines() {
        let words: Vec<&str> = line.split_whitespace().collect();
        match words[..] {
            ["dir" | "file", path, ..] => {
                let path = names(path);
                let mut here = 0;
                for name in &path[..path.len() - 1] {
                    here = files.nodes[here].as_ref().map_or(0, |node| node.entries[&(0, name.clone())]) as usize;
                }
                let number = files.nodes.len() as u32;
                let bytes = (words[0] == "file").then(|| words.get(3).unwrap_or(&"").as_bytes().to_vec());
                files.nodes.push(Some(Node { label: 1, bytes, entries: BTreeMap::new() }));
                let last = path[path.len() - 1].clone();
                if let Some(node) = &mut files.nodes[here] {
                    node.entries.insert((0, last), number);
                }
            }
            [_, "file", ..] => calls.extend(call(&words[2..])),
            _ => (),
        }
    }
    (files, calls)
}

/// Nanoseconds of a processor that this process took so far.
fn clock() -> u64 {
    #[repr(C)]
    struct Time {
        seconds: i64,
        nanoseconds: i64,
    }
    unsafe extern "C" {
        fn clock_gettime(clock: i32, time: *mut Time) -> i32;
    }
    let mut time = Time { seconds: 0, nanoseconds: 0 };
    unsafe { clock_gettime(2, &mut time) };
    time.seconds as u64 * 1_000_000_000 + time.nanoseconds as u64
}

fn main() {
    let words: Vec<String> = env::args().skip(1).collect();
    let [session, first, rounds] = &words[..] else { return };
    let (Ok(text), Ok(first), Ok(rounds)) = (fs::read_to_string(session), first.parse::<usize>(), rounds.parse::<usize>()) else {
        return;
    };
    let (mut files, calls) = opened(&text);
    let (once, again) = calls.split_at(first);
    let mut sums = [0u64; 3];
    let mut count = |reply: Reply| match reply {
        Reply::Done => sums[0] += 1,
        Reply::Bytes(bytes) => {
            sums[1] += 1;
            sums[2] += bytes.len() as u64;
        }
        Reply::Refused => (),
    };
    for call in once {
        count(files.call(0, call));
    }
    let begun = clock();
    for _ in 0..rounds {
        for call in again {
            count(files.call(0, call));
        }
    }
    let took = clock() - begun;
    println!("{took} {} {} {}", sums[0], sums[1], sums[2]);
}
