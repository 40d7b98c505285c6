//! The same work as the proved program of this folder, as a Rust programmer writes it: processes and ports by number, slots
//! by place, and the messages of a port in a queue.
//!
//! `plain_managers CASE ROUNDS [indexes]` does the two calls of a case ROUNDS times, under a policy that allows all. It prints the
//! nanoseconds of a processor that they took, and of all calls how many were done, the sum of the numbers told, and how many
//! bytes were given. With `indexes` it keeps which slots stand on each pair of identifiers and on each object, by which a change of
//! policy, a relabel or an end finds its slots without going over all of them.
use std::collections::{BTreeMap, VecDeque};
use std::env;

const CLIENTS: usize = 62;
const PROCESS: u8 = 2;
const PORT: u8 = 3;
const MESSAGES: usize = 16;
const MESSAGE_BYTES: usize = 256;
const ATTACH_MODE: u16 = 72;
/// The permissions of modes, by their bits' places, in the order in which they are asked.
const ATTACH_PERMS: [u8; 2] = [3, 6];
const PORT_PERMS: [u8; 4] = [0, 1, 2, 3];

#[derive(Clone, Copy)]
struct Asked {
    _s: u16,
    _t: u16,
    _class: u8,
    _index: u8,
    _yes: bool,
}

/// One version, which allows all.
struct Decider {
    vectors: Vec<u16>,
}

impl Decider {
    fn vector(&self, _s: u16, _t: u16, class: u8) -> u16 {
        self.vectors[class as usize]
    }
}

/// What a slot holds: its object and mode, and the whole mode or nothing as usable under a policy number.
#[derive(Clone, Copy)]
struct Slot {
    object: u32,
    s: u16,
    t: u16,
    mode: u16,
    bits: u16,
    number: u32,
}

/// Places by name, as bits of words of 64 places, in the order of the names.
#[derive(Default)]
struct PlaceIndex(BTreeMap<u64, u64>);

impl PlaceIndex {
    fn key(name: u32, at: u32) -> u64 {
        1024 * u64::from(name) + u64::from(at / 64)
    }

    fn add(&mut self, name: u32, at: u32) {
        *self.0.entry(Self::key(name, at)).or_default() |= 1 << (at % 64);
    }

    /// Takes a place out of its word, and the word where it was the last.
    fn remove(&mut self, name: u32, at: u32) {
        let key = Self::key(name, at);
        if let Some(word) = self.0.get_mut(&key) {
            *word &= !(1 << (at % 64));
            if *word == 0 {
                self.0.remove(&key);
            }
        }
    }
}

/// The places of slots by their pair of identifiers and by their object.
#[derive(Default)]
struct Indexes {
    pairs: PlaceIndex,
    objects: PlaceIndex,
}

impl Indexes {
    fn add(&mut self, at: u32, slot: Slot) {
        self.pairs.add(pair_name(slot), at);
        self.objects.add(slot.object, at);
    }

    fn remove(&mut self, at: u32, slot: Slot) {
        self.pairs.remove(pair_name(slot), at);
        self.objects.remove(slot.object, at);
    }
}

/// The number by which the index knows a slot's pair of identifiers, which are below 4,096.
fn pair_name(slot: Slot) -> u32 {
    u32::from(slot.s) << 12 | u32::from(slot.t)
}

/// Slots, identifiers of clients, decider and questions, which both managers have.
struct Rights {
    class: u8,
    perms: &'static [u8],
    decider: Decider,
    clients: Vec<u16>,
    slots: Vec<Option<Slot>>,
    indexes: Option<Indexes>,
    asked: Vec<Asked>,
}

fn place(client: u8, slot: u8) -> usize {
    64 * client as usize + slot as usize
}

impl Rights {
    fn new(class: u8, perms: &'static [u8], indexed: bool) -> Rights {
        Rights {
            class,
            perms,
            decider: Decider { vectors: vec![255; 5] },
            clients: vec![1; CLIENTS],
            slots: vec![None; 64 * CLIENTS],
            indexes: indexed.then(Indexes::default),
            asked: Vec::new(),
        }
    }

    /// Whether a vector has a permission, which is asked.
    fn judge(&mut self, s: u16, t: u16, vector: u16, index: u8) -> bool {
        let yes = vector >> index & 1 == 1;
        self.asked.push(Asked { _s: s, _t: t, _class: self.class, _index: index, _yes: yes });
        yes
    }

    fn ask(&mut self, s: u16, t: u16, index: u8) -> bool {
        let vector = self.decider.vector(s, t, self.class);
        self.judge(s, t, vector, index)
    }

    /// Asks the permissions of a mode; `None` where one is denied.
    fn ask_mode(&mut self, s: u16, t: u16, mode: u16, vector: u16) -> Option<()> {
        for &index in self.perms {
            if mode >> index & 1 == 1 && !self.judge(s, t, vector, index) {
                return None;
            }
        }
        Some(())
    }

    /// Fills a free slot where the whole mode is allowed.
    fn fill(&mut self, client: u8, slot: u8, object: u32, t: u16, mode: u16, number: u32) -> Option<()> {
        let s = self.clients[client as usize];
        let at = place(client, slot);
        if self.slots[at].is_some() {
            return None;
        }
        let vector = self.decider.vector(s, t, self.class);
        self.ask_mode(s, t, mode, vector)?;
        let bits = if mode & vector == mode { mode } else { 0 };
        let slot = Slot { object, s, t, mode, bits, number };
        self.slots[at] = Some(slot);
        if let Some(indexes) = &mut self.indexes {
            indexes.add(at as u32, slot);
        }
        Some(())
    }

    /// Frees a slot; `None` where it was free.
    fn free(&mut self, client: u8, slot: u8) -> Option<()> {
        let at = place(client, slot);
        let held = self.slots[at].take()?;
        if let Some(indexes) = &mut self.indexes {
            indexes.remove(at as u32, held);
        }
        Some(())
    }

    /// Asks the whole mode of a slot: where it follows the policy number its bits tell.
    fn ask_slot(&mut self, slot: Slot, number: u32) -> Option<()> {
        let vector = if slot.number == number && slot.bits == slot.mode {
            slot.mode
        } else {
            self.decider.vector(slot.s, slot.t, self.class)
        };
        self.ask_mode(slot.s, slot.t, slot.mode, vector)
    }
}

enum Reply {
    Done,
    Number(u32),
    Bytes(Vec<u8>),
    Refused,
}

/// A reply twice, for the history and for the caller.
fn both(reply: Reply) -> (Reply, Reply) {
    let kept = match &reply {
        Reply::Done => Reply::Done,
        Reply::Number(number) => Reply::Number(*number),
        Reply::Bytes(bytes) => Reply::Bytes(bytes.clone()),
        Reply::Refused => Reply::Refused,
    };
    (kept, reply)
}

#[derive(Clone, Copy)]
struct Process {
    label: u16,
    _parent: u8,
    ended: Option<u32>,
    register: u32,
}

enum ProcessCall {
    Fork(u32),
    Attach(u8, u32),
    Peek(u8),
    Poke(u8, u32),
    Detach(u8),
}

struct Processes {
    rights: Rights,
    table: Vec<Option<Process>>,
}

impl Processes {
    fn fork(&mut self, client: u8, pid: u32) -> Option<Reply> {
        let s = self.rights.clients[client as usize];
        let at = pid as usize;
        if self.table.get(at).is_some_and(|process| process.is_some()) || !self.rights.ask(s, s, 0) {
            return None;
        }
        if self.table.len() <= at {
            self.table.resize(at + 1, None);
        }
        self.table[at] = Some(Process { label: s, _parent: client, ended: None, register: 0 });
        Some(Reply::Done)
    }

    fn attach(&mut self, client: u8, slot: u8, pid: u32, number: u32) -> Option<Reply> {
        let process = (*self.table.get(pid as usize)?)?;
        if process.ended.is_some() {
            return None;
        }
        self.rights.fill(client, slot, pid, process.label, ATTACH_MODE, number)?;
        Some(Reply::Done)
    }

    /// The running process of a slot, where it may be used.
    fn used(&mut self, client: u8, slot: u8, number: u32) -> Option<&mut Process> {
        let held = self.rights.slots[place(client, slot)]?;
        let process = self.table.get_mut(held.object as usize)?.as_mut()?;
        self.rights.ask_slot(held, number)?;
        if process.ended.is_some() { None } else { Some(process) }
    }

    fn call(&mut self, client: u8, call: &ProcessCall, number: u32) -> (Reply, Reply) {
        self.rights.asked = Vec::new();
        let reply = match *call {
            ProcessCall::Fork(pid) => self.fork(client, pid),
            ProcessCall::Attach(slot, pid) => self.attach(client, slot, pid, number),
            ProcessCall::Peek(slot) => self.used(client, slot, number).map(|process| Reply::Number(process.register)),
            ProcessCall::Poke(slot, value) => self.used(client, slot, number).map(|process| {
                process.register = value;
                Reply::Done
            }),
            ProcessCall::Detach(slot) => self.rights.free(client, slot).map(|()| Reply::Done),
        };
        both(reply.unwrap_or(Reply::Refused))
    }
}

struct Queue {
    _owner: u8,
    messages: VecDeque<Vec<u8>>,
}

enum PortCall {
    Bind(u8, u32, u16),
    Connect(u8, u32, u16),
    Recv(u8),
    Push(u8, Vec<u8>),
    Send(u32, Vec<u8>),
}

struct Ports {
    rights: Rights,
    initial: u16,
    labels: Vec<(u32, u16)>,
    table: Vec<Option<Queue>>,
}

impl Ports {
    fn label(&self, port: u32) -> u16 {
        self.labels.iter().find(|line| line.0 == port).map_or(self.initial, |line| line.1)
    }

    fn bound(&self, port: u32) -> Option<&Queue> {
        self.table.get(port as usize)?.as_ref()
    }

    fn bind(&mut self, client: u8, slot: u8, port: u32, mode: u16, number: u32) -> Option<Reply> {
        if self.bound(port).is_some() {
            return None;
        }
        let t = self.label(port);
        self.rights.fill(client, slot, port, t, mode, number)?;
        let at = port as usize;
        if self.table.len() <= at {
            self.table.resize_with(at + 1, || None);
        }
        self.table[at] = Some(Queue { _owner: client, messages: VecDeque::with_capacity(MESSAGES) });
        Some(Reply::Done)
    }

    fn connect(&mut self, client: u8, slot: u8, port: u32, mode: u16, number: u32) -> Option<Reply> {
        self.bound(port)?;
        let t = self.label(port);
        self.rights.fill(client, slot, port, t, mode, number)?;
        Some(Reply::Done)
    }

    /// The queue of a slot's port, where the slot may be used for a permission.
    fn used(&mut self, client: u8, slot: u8, index: u8, number: u32) -> Option<&mut Queue> {
        let held = self.rights.slots[place(client, slot)]?;
        if held.mode >> index & 1 == 0 {
            return None;
        }
        let queue = self.table.get_mut(held.object as usize)?.as_mut()?;
        self.rights.ask_slot(held, number)?;
        Some(queue)
    }

    fn send(&mut self, client: u8, port: u32, message: &[u8]) -> Option<Reply> {
        self.bound(port)?;
        let (s, t) = (self.rights.clients[client as usize], self.label(port));
        if !self.rights.ask(s, t, 2) {
            return None;
        }
        deliver(self.table[port as usize].as_mut()?, message)
    }

    fn call(&mut self, client: u8, call: &PortCall, number: u32) -> (Reply, Reply) {
        self.rights.asked = Vec::new();
        let reply = match call {
            PortCall::Bind(slot, port, mode) => self.bind(client, *slot, *port, *mode, number),
            PortCall::Connect(slot, port, mode) => self.connect(client, *slot, *port, *mode, number),
            PortCall::Recv(slot) => self.used(client, *slot, 1, number).and_then(|queue| queue.messages.pop_front()).map(Reply::Bytes),
            PortCall::Push(slot, message) => self.used(client, *slot, 2, number).and_then(|queue| deliver(queue, message)),
            PortCall::Send(port, message) => self.send(client, *port, message),
        };
        both(reply.unwrap_or(Reply::Refused))
    }
}

fn deliver(queue: &mut Queue, message: &[u8]) -> Option<Reply> {
    if message.len() > MESSAGE_BYTES || queue.messages.len() >= MESSAGES {
        return None;
    }
    queue.messages.push_back(message.to_vec());
    Some(Reply::Done)
}

/// Nanoseconds of a processor that this thread took so far.
fn clock() -> u64 {
    #[repr(C)]
    struct Time {
        seconds: i64,
        nanoseconds: i64,
    }
    unsafe extern "C" {
        fn clock_gettime(clock: i32, time: *mut Time) -> i32;
    }
    let mut time = Time { seconds: 0, nanoseconds: 0 };
    unsafe { clock_gettime(3, &mut time) };
    time.seconds as u64 * 1_000_000_000 + time.nanoseconds as u64
}

/// What all calls came to: how many were done, the sum of the numbers told, and how many bytes were given.
fn count(sums: &mut [u64; 3], reply: &Reply) {
    match reply {
        Reply::Done => sums[0] += 1,
        Reply::Number(number) => sums[1] += *number as u64,
        Reply::Bytes(bytes) => sums[2] += bytes.len() as u64,
        Reply::Refused => (),
    }
}

/// Does some calls once and two others many times, and gives what these took.
fn measure<C>(mut call: impl FnMut(&C) -> (Reply, Reply), once: &[C], again: [&C; 2], rounds: u32, sums: &mut [u64; 3]) -> u64 {
    for said in once {
        count(sums, &call(said).0);
    }
    let begun = clock();
    for _ in 0..rounds {
        for said in again {
            count(sums, &call(said).0);
        }
    }
    clock() - begun
}

fn main() {
    let indexed = env::args().any(|word| word == "indexes");
    let words: Vec<u32> = env::args().skip(1).filter_map(|word| word.parse().ok()).collect();
    let [case, rounds] = words[..] else { return };
    let mut sums = [0; 3];
    let mut processes = Processes { rights: Rights::new(PROCESS, &ATTACH_PERMS, indexed), table: Vec::new() };
    let mut ports = Ports { rights: Rights::new(PORT, &PORT_PERMS, indexed), initial: 3, labels: vec![(80, 4)], table: Vec::new() };
    let processes_once = [ProcessCall::Fork(7), ProcessCall::Attach(0, 7), ProcessCall::Poke(0, 7)];
    let ports_once = [PortCall::Bind(0, 80, 3), PortCall::Connect(1, 80, 12)];
    let (peek, poke) = (ProcessCall::Peek(0), ProcessCall::Poke(0, 7));
    let (attach, detach) = (ProcessCall::Attach(1, 7), ProcessCall::Detach(1));
    let (send, push, recv) = (PortCall::Send(80, b"hi".to_vec()), PortCall::Push(1, b"hi".to_vec()), PortCall::Recv(0));
    let took = if case < 3 {
        let again = [[&peek, &peek], [&poke, &poke], [&attach, &detach]][case as usize];
        measure(|call| processes.call(0, call, 0), &processes_once, again, rounds, &mut sums)
    } else {
        let again = if case == 3 { [&send, &recv] } else { [&push, &recv] };
        measure(|call| ports.call(0, call, 0), &ports_once, again, rounds, &mut sums)
    };
    println!("{took} {} {} {}", sums[0], sums[1], sums[2]);
}
