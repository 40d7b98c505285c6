//! The managers of files, processes and ports as a Rust programmer writes them, for the plain programs of sessions and threads: a table of vectors,
//! numbered nodes, slots by client and number, and while a change is pending a list of the stale ones.
//!
//! They do the calls that made sessions have, and them alone: no slot is freed, and of a label only the type matters.
use crate::session_text::{Client, Context, FileCall, Place, PortCall, ProcessCall, Session, Slot};
use std::collections::{BTreeMap, HashMap, VecDeque};

const FILE: usize = 0;
const DIR: usize = 1;
const PROCESS: usize = 2;
const PORT: usize = 3;

pub const CLASSES: [&str; 4] = ["file", "dir", "process", "port"];
pub const PERMS: [&[&str]; 4] = [
    &["read", "write", "append", "create", "unlink", "getattr", "relabelfrom", "relabelto"],
    &["read", "search", "create", "add_name", "remove_name", "getattr", "relabelfrom", "relabelto"],
    &["fork", "transition", "signal", "ptrace", "exit", "wait", "getattr"],
    &["name_bind", "recv", "send", "connect", "getattr"],
];

// Permissions of these classes.
const READ: usize = 0;
const WRITE: usize = 1;
const CREATE: usize = 3;
const SEARCH: usize = 1;
const ADD_NAME: usize = 3;
const FORK: usize = 0;
const SEND: usize = 2;

/// The label of a client or of an object, as the place of its type. Each context of these policies has a type of its own.
type Label = usize;

fn label(context: Context) -> Label {
    usize::from(context.0)
}

/// The vector for each version, class, source and target.
#[derive(Default)]
pub struct Rules {
    types: usize,
    pub versions: usize,
    vectors: Vec<u16>,
}

impl Rules {
    /// The rules of a session's policy, which has contexts, versions and `allow` lines of types.
    pub fn of(session: &Session) -> Rules {
        let types: Vec<&str> = session.contexts.iter().filter_map(|context| context.rsplit(':').next()).collect();
        let mut rules = Rules { types: types.len(), ..Rules::default() };
        for line in &session.policy {
            let words: Vec<&str> = line.split(' ').collect();
            if let ["version"] = words[..] {
                rules.versions += 1;
                rules.vectors.resize(rules.place(rules.versions, 0, 0, 0), 0);
            }
            if let ["allow", source, target, class, perms @ ..] = &words[..] {
                let class = CLASSES.iter().position(|name| name == class).unwrap();
                let bit = |word| 1 << PERMS[class].iter().position(|name| *name == word).unwrap();
                let perms = perms.iter().fold(0, |perms, word| perms | bit(*word));
                rules.allow(&types, source, target, class, perms);
            }
        }
        rules
    }

    fn allow(&mut self, types: &[&str], source: &str, target: &str, class: usize, perms: u16) {
        for (s, s_name) in types.iter().enumerate() {
            for (t, t_name) in types.iter().enumerate() {
                let is_target = if target == "self" { s == t } else { target == "*" || target == *t_name };
                if is_target && (source == "*" || source == *s_name) {
                    let place = self.place(self.versions - 1, class, s, t);
                    self.vectors[place] |= perms;
                }
            }
        }
    }

    fn place(&self, version: usize, class: usize, s: Label, t: Label) -> usize {
        ((version * CLASSES.len() + class) * self.types + s) * self.types + t
    }

    fn vector(&self, version: usize, class: usize, s: Label, t: Label) -> u16 {
        self.vectors[self.place(version, class, s, t)]
    }

    fn ask(&self, version: usize, s: Label, t: Label, class: usize, perm: usize) -> Result<(), Reply> {
        let is_allowed = self.vector(version, class, s, t) >> perm & 1 == 1;
        if is_allowed { Ok(()) } else { Err(Reply::Denied(class, perm)) }
    }

    fn ask_mode(&self, version: usize, s: Label, t: Label, class: usize, mode: u16) -> Result<(), Reply> {
        let mut perms = (0..PERMS[class].len()).filter(|perm| mode >> perm & 1 == 1);
        perms.try_for_each(|perm| self.ask(version, s, t, class, perm))
    }
}

#[derive(Clone)]
pub enum Reply {
    Done,
    Data(String),
    Denied(usize, usize),
    Refused(&'static str),
}

/// A reply, or the one with which a call ends early.
type Answer = Result<Reply, Reply>;

fn refuse(is_refused: bool, why: &'static str) -> Result<(), Reply> {
    if is_refused { Err(Reply::Refused(why)) } else { Ok(()) }
}

/// What a slot holds: its object, the labels of client and object, and a mode.
struct Held {
    object: usize,
    s: Label,
    t: Label,
    mode: u16,
}

/// The slots of a manager by client and number, and the stale ones while a change is pending.
#[derive(Default)]
pub struct Slots {
    class: usize,
    held: BTreeMap<(u8, u8), Held>,
    stale: VecDeque<(u8, u8)>,
    pub is_pending: bool,
}

impl Slots {
    fn new(class: usize) -> Slots {
        Slots { class, ..Slots::default() }
    }

    /// The place of a slot, where it is free.
    fn free(&self, client: Client, slot: Slot) -> Result<(u8, u8), Reply> {
        let place = (client.0, slot.0 as u8);
        refuse(self.held.contains_key(&place), "slotused")?;
        Ok(place)
    }

    pub fn notice(&mut self, rules: &Rules, old: usize, new: usize) {
        let vector = |version, held: &Held| rules.vector(version, self.class, held.s, held.t);
        let stale = self.held.iter().filter(|(_, held)| vector(old, held) != vector(new, held));
        self.stale = stale.map(|(place, _)| *place).collect();
        self.is_pending = true;
    }

    /// The first stale slots follow the newest number.
    pub fn update(&mut self, most: usize) {
        self.stale.drain(..most.min(self.stale.len()));
    }

    pub fn has_stale(&self) -> bool {
        !self.stale.is_empty()
    }
}

/// A manager, its calls, and its slots.
pub trait Manager {
    type Call;

    fn open(session: &Session) -> Self;

    /// Does a call of a client under a version.
    fn call(&mut self, rules: &Rules, version: usize, client: Client, call: &Self::Call) -> Answer;

    fn slots(&mut self) -> &mut Slots;
}

fn clients_of(session: &Session) -> Vec<Label> {
    session.clients.iter().map(|client| label(client.1)).collect()
}

enum Node {
    Directory(Label, BTreeMap<String, usize>),
    File(Label, String),
}

pub struct Files {
    clients: Vec<Label>,
    slots: Slots,
    /// The root and what was made.
    nodes: Vec<Node>,
}

impl Manager for Files {
    type Call = FileCall;

    fn open(session: &Session) -> Files {
        let root = Node::Directory(label(session.root.unwrap_or_default()), BTreeMap::new());
        Files { clients: clients_of(session), slots: Slots::new(FILE), nodes: vec![root] }
    }

    fn call(&mut self, rules: &Rules, version: usize, client: Client, call: &FileCall) -> Answer {
        let s = self.clients[usize::from(client.0)];
        match call {
            FileCall::Create(path) => self.create(rules, version, s, &path.0),
            FileCall::Open(slot, path, mode) => {
                let place = self.slots.free(client, *slot)?;
                let (_, found) = self.walk(rules, version, s, &path.0)?;
                let object = found.ok_or(Reply::Refused("notfound"))?;
                let Node::File(t, _) = self.nodes[object] else { return Err(Reply::Refused("isdir")) };
                rules.ask_mode(version, s, t, FILE, mode.0)?;
                self.slots.held.insert(place, Held { object, s, t, mode: mode.0 });
                Ok(Reply::Done)
            }
            FileCall::Read(slot, offset, most) => {
                let bytes = self.used(rules, version, client, *slot, READ)?;
                let start = bytes.len().min(offset.0 as usize);
                let end = bytes.len().min(start + most.0 as usize);
                Ok(Reply::Data(bytes[start..end].to_string()))
            }
            FileCall::Write(slot, offset, data) => {
                let bytes = self.used(rules, version, client, *slot, WRITE)?;
                let (start, end) = (offset.0 as usize, offset.0 as usize + data.0.len());
                refuse(end > 65_536, "toobig")?;
                while bytes.len() < end {
                    bytes.push('.');
                }
                bytes.replace_range(start..end, &data.0);
                Ok(Reply::Done)
            }
            _ => unreachable!("no made session has such a call"),
        }
    }

    fn slots(&mut self) -> &mut Slots {
        &mut self.slots
    }
}

impl Files {
    /// The directory in which a path stands, and the node there; only the last name may be missing.
    fn walk(&self, rules: &Rules, version: usize, s: Label, path: &[String]) -> Result<(usize, Option<usize>), Reply> {
        let (mut above, mut found) = (0, Some(0));
        for name in path {
            let here = found.ok_or(Reply::Refused("notfound"))?;
            let Node::Directory(t, entries) = &self.nodes[here] else { return Err(Reply::Refused("notdir")) };
            rules.ask(version, s, *t, DIR, SEARCH)?;
            (above, found) = (here, entries.get(name).copied());
        }
        Ok((above, found))
    }

    fn create(&mut self, rules: &Rules, version: usize, s: Label, path: &[String]) -> Answer {
        let (above, found) = self.walk(rules, version, s, path)?;
        refuse(found.is_some(), "exists")?;
        let number = self.nodes.len();
        let Node::Directory(t, _) = self.nodes[above] else { return Err(Reply::Refused("notdir")) };
        rules.ask(version, s, t, DIR, ADD_NAME)?;
        rules.ask(version, s, t, FILE, CREATE)?;
        refuse(number >= 4_096, "toomany")?;
        if let (Node::Directory(_, entries), Some(name)) = (&mut self.nodes[above], path.last()) {
            entries.insert(name.clone(), number);
        }
        self.nodes.push(Node::File(t, String::new()));
        Ok(Reply::Done)
    }

    /// The bytes of the file of a slot, which is used for a permission.
    fn used(&mut self, rules: &Rules, version: usize, client: Client, slot: Slot, perm: usize) -> Result<&mut String, Reply> {
        let held = self.slots.held.get(&(client.0, slot.0 as u8)).ok_or(Reply::Refused("badslot"))?;
        refuse(held.mode >> perm & 1 == 0, "badmode")?;
        rules.ask(version, held.s, held.t, FILE, perm)?;
        match &mut self.nodes[held.object] {
            Node::File(_, bytes) => Ok(bytes),
            Node::Directory(..) => Err(Reply::Refused("isdir")),
        }
    }
}

pub struct Processes {
    clients: Vec<Label>,
    slots: Slots,
    running: HashMap<u32, Label>,
}

impl Manager for Processes {
    type Call = ProcessCall;

    fn open(session: &Session) -> Processes {
        Processes { clients: clients_of(session), slots: Slots::new(PROCESS), running: HashMap::new() }
    }

    fn call(&mut self, rules: &Rules, version: usize, client: Client, call: &ProcessCall) -> Answer {
        let ProcessCall::Fork(pid) = call else { unreachable!("no made session has such a call") };
        let s = self.clients[usize::from(client.0)];
        rules.ask(version, s, s, PROCESS, FORK)?;
        refuse(self.running.contains_key(&pid.0), "exists")?;
        refuse(self.running.len() >= 4_096, "toomany")?;
        self.running.insert(pid.0, s);
        Ok(Reply::Done)
    }

    fn slots(&mut self) -> &mut Slots {
        &mut self.slots
    }
}

pub struct Ports {
    clients: Vec<Label>,
    slots: Slots,
    label: Label,
    /// The messages that wait at each port that is bound.
    bound: HashMap<u32, VecDeque<String>>,
}

impl Manager for Ports {
    type Call = PortCall;

    fn open(session: &Session) -> Ports {
        let label = label(session.port.unwrap_or_default());
        Ports { clients: clients_of(session), slots: Slots::new(PORT), label, bound: HashMap::new() }
    }

    fn call(&mut self, rules: &Rules, version: usize, client: Client, call: &PortCall) -> Answer {
        match call {
            PortCall::Bind(slot, port, mode) => self.bind(rules, version, client, *slot, *port, mode.0),
            PortCall::Send(port, data) => self.send(rules, version, client, *port, &data.0),
            _ => unreachable!("no made session has such a call"),
        }
    }

    fn slots(&mut self) -> &mut Slots {
        &mut self.slots
    }
}

impl Ports {
    fn bind(&mut self, rules: &Rules, version: usize, client: Client, slot: Slot, port: Place, mode: u16) -> Answer {
        let place = self.slots.free(client, slot)?;
        refuse(self.bound.contains_key(&port.0), "taken")?;
        let (s, t) = (self.clients[usize::from(client.0)], self.label);
        rules.ask_mode(version, s, t, PORT, mode)?;
        self.bound.insert(port.0, VecDeque::new());
        self.slots.held.insert(place, Held { object: port.0 as usize, s, t, mode });
        Ok(Reply::Done)
    }

    fn send(&mut self, rules: &Rules, version: usize, client: Client, port: Place, data: &str) -> Answer {
        refuse(!self.bound.contains_key(&port.0), "noport")?;
        rules.ask(version, self.clients[usize::from(client.0)], self.label, PORT, SEND)?;
        refuse(data.len() > 256, "toobig")?;
        let messages = self.bound.entry(port.0).or_default();
        refuse(messages.len() >= 16, "full")?;
        messages.push_back(data.to_string());
        Ok(Reply::Done)
    }
}
