//! Sessions as values, read from texts and printed, as a Rust programmer writes it: a line is matched by its words, its
//! faults are noted as they are met, and the least of them is told.
//!
//! A policy's lines it keeps as they are; all that stands below a policy it knows and checks.
use std::borrow::Cow;
use std::collections::{HashMap, HashSet};

/// What is wrong with a line, in the order in which it is told.
#[derive(Clone, Copy, Debug, PartialEq, Eq, PartialOrd, Ord)]
pub enum Fault { Syntax, Order, Limit, Unknown, Undeclared, Twice, Ended }

/// A directory, where there is no datum, or a file.
pub struct Node {
    pub path: Path,
    pub context: Context,
    pub data: Option<Data>,
}

#[derive(Clone, Copy)]
pub enum Manager { File, Process, Port }
const MANAGERS: [&str; 3] = ["file", "process", "port"];

/// What a line that runs asks.
pub enum Run {
    File(Client, FileCall),
    Process(Client, ProcessCall),
    Port(Client, PortCall),
    Begin(Client, Manager),
    End(Client, Manager),
    Notify(Number<0, 255>),
    Update(Number<0, 4_294_967_295>),
    Ack,
}

#[derive(Default)]
pub struct Session {
    /// The lines of the policy, their words with one space between them, and the contexts that they declare.
    pub policy: Vec<String>,
    pub contexts: Vec<String>,
    pub root: Option<Context>,
    pub port: Option<Context>,
    pub ports: Vec<(Place, Context)>,
    pub audit: bool,
    pub nodes: Vec<Node>,
    pub clients: Vec<(String, Context)>,
    /// The lines that run, with their numbers.
    pub lines: Vec<(u32, Run)>,
}

/// An enum of a manager's calls, by their words and arguments, with its reader and its printer.
macro_rules! calls {
    ($Calls:ident: $($Call:ident $word:literal ($($argument:ident: $Argument:ty),+)),+) => {
        pub enum $Calls { $($Call($($Argument),+)),+ }

        impl $Calls {
            fn read(reader: &mut Reader, call: &str, arguments: &[&str]) -> Option<$Calls> {
                match (call, arguments) {
                    $(($word, [$($argument),+]) => Some($Calls::$Call($(<$Argument>::read(reader, $argument)?),+)),)+
                    _ => None,
                }
            }

            fn print(&self, session: &Session, text: &mut String) {
                match self {
                    $($Calls::$Call($($argument),+) => {
                        text.push_str($word);
                        $(text.push(' '); $argument.print(session, text);)+
                    })+
                }
            }
        }
    };
}

calls!(FileCall:
    Mkdir "mkdir" (path: Path<false>),
    Create "create" (path: Path<false>),
    Open "open" (slot: Slot, path: Path, mode: Mode<0>),
    Read "read" (slot: Slot, offset: Number<0, 65_536>, length: Number<1, 1_024>),
    Write "write" (slot: Slot, offset: Number<0, 65_536>, data: Data),
    Append "append" (slot: Slot, data: Data),
    Close "close" (slot: Slot),
    Unlink "unlink" (path: Path<false>),
    List "list" (path: Path, skip: Number<0, 4_096>),
    Stat "stat" (path: Path),
    Relabel "relabel" (path: Path, context: Context),
    Give "give" (slot: Slot, receiver: Client, target: Slot)
);

calls!(ProcessCall:
    Fork "fork" (pid: Place),
    Exec "exec" (pid: Place, context: Context),
    Signal "signal" (pid: Place, number: Number<1, 64>),
    Exit "exit" (pid: Place, code: Number<0, 255>),
    Wait "wait" (pid: Place),
    Attach "attach" (slot: Slot, pid: Place),
    Peek "peek" (slot: Slot),
    Poke "poke" (slot: Slot, value: Number<0, 4_294_967_295>),
    Detach "detach" (slot: Slot),
    Stat "stat" (pid: Place)
);

calls!(PortCall:
    Bind "bind" (slot: Slot, port: Place, mode: Mode<1>),
    Connect "connect" (slot: Slot, port: Place, mode: Mode<2>),
    Recv "recv" (slot: Slot),
    Push "push" (slot: Slot, data: Data),
    Send "send" (port: Place, data: Data),
    Unbind "unbind" (slot: Slot),
    Stat "stat" (port: Place)
);

/// A word that stands for a value. The reader answers `None` where the word has not its form, and notes other faults.
trait Argument: Sized {
    fn read(reader: &mut Reader, word: &str) -> Option<Self>;
    fn print(&self, session: &Session, text: &mut String);
}

#[derive(Clone, Copy)]
pub struct Number<const LEAST: u64, const MOST: u64>(pub u32);
pub type Slot = Number<0, 63>;
/// The number of a process or of a port.
pub type Place = Number<1, 65_535>;

impl<const LEAST: u64, const MOST: u64> Argument for Number<LEAST, MOST> {
    fn read(reader: &mut Reader, word: &str) -> Option<Self> {
        if word.len() > 10 || !word.bytes().all(|digit| digit.is_ascii_digit()) {
            return None;
        }
        let number = word.bytes().fold(0, |value, digit| 10 * value + u64::from(digit - b'0'));
        reader.note(number < LEAST || number > MOST, Fault::Limit);
        Some(Number(number as u32))
    }

    fn print(&self, _: &Session, text: &mut String) {
        put_number(text, self.0);
    }
}

pub struct Path<const MAY_BE_ROOT: bool = true>(pub Vec<String>);

impl<const MAY_BE_ROOT: bool> Argument for Path<MAY_BE_ROOT> {
    fn read(reader: &mut Reader, word: &str) -> Option<Self> {
        let parts = word.strip_prefix('/')?;
        if parts.is_empty() {
            return MAY_BE_ROOT.then_some(Path(Vec::new()));
        }
        let parts = parts.split('/').map(|part| is_part(part).then(|| part.to_string()));
        let parts: Vec<String> = parts.collect::<Option<_>>()?;
        reader.note(parts.len() > 16 || parts.iter().any(|part| part.len() > 32), Fault::Limit);
        Some(Path(parts))
    }

    fn print(&self, _: &Session, text: &mut String) {
        if self.0.is_empty() {
            text.push('/');
        }
        for part in &self.0 {
            text.push('/');
            text.push_str(part);
        }
    }
}

/// The permissions of a file that is opened, of a port that is bound, or of a connection.
#[derive(Clone, Copy)]
pub struct Mode<const OF: usize>(pub u16);
const MODES: [&[(&str, u16)]; 3] = [
    &[("r", 1), ("w", 2), ("a", 4), ("rw", 3), ("ra", 5), ("wa", 6), ("rwa", 7)],
    &[("b", 1), ("br", 3)],
    &[("c", 8), ("cs", 12)],
];

impl<const OF: usize> Argument for Mode<OF> {
    fn read(_: &mut Reader, word: &str) -> Option<Self> {
        MODES[OF].iter().find(|mode| mode.0 == word).map(|mode| Mode(mode.1))
    }

    fn print(&self, _: &Session, text: &mut String) {
        text.push_str(MODES[OF].iter().find(|mode| mode.1 == self.0).map_or("", |mode| mode.0));
    }
}

pub struct Data(pub String);

impl Argument for Data {
    fn read(reader: &mut Reader, word: &str) -> Option<Self> {
        reader.note(word.len() > 1_024, Fault::Limit);
        Some(Data(word.to_string()))
    }

    fn print(&self, _: &Session, text: &mut String) {
        text.push_str(&self.0);
    }
}

/// A context by its place among the `context` lines.
#[derive(Clone, Copy, Default)]
pub struct Context(pub u16);

impl Argument for Context {
    fn read(reader: &mut Reader, word: &str) -> Option<Self> {
        let parts = context_parts(word)?;
        reader.note(parts.iter().any(|part| part.len() > 32), Fault::Limit);
        let context = reader.contexts.get(word).copied();
        reader.note(context.is_none(), Fault::Undeclared);
        Some(context.unwrap_or_default())
    }

    fn print(&self, session: &Session, text: &mut String) {
        text.push_str(&session.contexts[usize::from(self.0)]);
    }
}

/// A client by its place among the `client` lines.
#[derive(Clone, Copy, Default)]
pub struct Client(pub u8);

impl Argument for Client {
    fn read(reader: &mut Reader, word: &str) -> Option<Self> {
        let client = reader.session.client(word);
        if client.is_none() {
            is_name(word).then_some(())?;
            reader.note(word.len() > 32, Fault::Limit);
            reader.note(true, Fault::Unknown);
        }
        Some(client.unwrap_or_default())
    }

    fn print(&self, session: &Session, text: &mut String) {
        text.push_str(&session.clients[usize::from(self.0)].0);
    }
}

fn is_name(word: &str) -> bool {
    let is_rest = |byte: u8| byte.is_ascii_lowercase() || byte.is_ascii_digit() || byte == b'_';
    word.starts_with(|first: char| first.is_ascii_lowercase()) && word.bytes().all(is_rest)
}

fn is_part(part: &str) -> bool {
    let is_byte = |byte: u8| byte.is_ascii_alphanumeric() || matches!(byte, b'.' | b'_' | b'-');
    !part.is_empty() && part.bytes().all(is_byte) && part != "." && part != ".."
}

fn context_parts(word: &str) -> Option<[&str; 3]> {
    let mut parts = word.split(':');
    let [user, role, kind] = [parts.next()?, parts.next()?, parts.next()?];
    let are_formed = parts.next().is_none() && is_name(user) && is_name(role) && is_name(kind) && kind != "self";
    are_formed.then_some([user, role, kind])
}

/// Puts a number's digits.
pub fn put_number(text: &mut String, number: u32) {
    let (mut digits, mut first, mut rest) = ([0; 10], 10, number);
    loop {
        first -= 1;
        digits[first] = b'0' + (rest % 10) as u8;
        rest /= 10;
        if rest == 0 {
            return digits[first..].iter().for_each(|digit| text.push(char::from(*digit)));
        }
    }
}

#[derive(Default, PartialEq)]
enum Part { #[default] Policy, Setup, Run }

/// What the lines so far said.
#[derive(Default)]
struct Reader<'a> {
    part: Part,
    session: Session,
    contexts: HashMap<&'a str, Context>,
    ports: HashSet<u32>,
    /// The paths of nodes, and whether each is a directory.
    nodes: HashMap<&'a str, bool>,
    /// Which clients are between `begin` and `end`, by client and manager.
    held: Vec<[bool; 3]>,
    fault: Option<Fault>,
}

/// Reads a session, or tells the first faulty line and what is wrong with it.
pub fn read(text: &[u8]) -> Result<Session, (u32, Fault)> {
    let text = str::from_utf8(text).map_or_else(|_| String::from_utf8_lossy(text), Cow::from);
    let mut reader = Reader::default();
    let (mut words, mut number) = (Vec::new(), 1);
    for line in text.split_terminator('\n') {
        words.clear();
        words.extend(line.split_ascii_whitespace());
        reader.line(number, line, &words).map_err(|fault| (number, fault))?;
        number += 1;
    }
    if reader.part == Part::Run { Ok(reader.session) } else { Err((number, Fault::Ended)) }
}

impl<'a> Reader<'a> {
    /// Notes a fault where there is one.
    fn note(&mut self, is_there: bool, fault: Fault) {
        if is_there {
            self.fault = Some(self.fault.map_or(fault, |other| other.min(fault)));
        }
    }

    fn line(&mut self, number: u32, line: &str, words: &[&'a str]) -> Result<(), Fault> {
        if number > 100_000 {
            return Err(Fault::Limit);
        }
        let may_stand = |byte| matches!(byte, b'\t' | b' '..=b'~');
        if !line.bytes().fold(true, |may_all, byte| may_all & may_stand(byte)) {
            return Err(Fault::Syntax);
        }
        let said = match (words, &self.part) {
            ([], _) => Some(()),
            ([first, ..], _) if first.starts_with('#') => Some(()),
            (["session"], Part::Policy) => Some(self.part = Part::Setup),
            (_, Part::Policy) => self.policy_line(words),
            (_, Part::Setup) => self.setup_line(words),
            (_, Part::Run) => self.run_line(words).map(|run| self.session.lines.push((number, run))),
        };
        said.ok_or(Fault::Syntax)?;
        self.fault.map_or(Ok(()), Err)
    }

    fn policy_line(&mut self, words: &[&'a str]) -> Option<()> {
        if let ["context", context] = words {
            self.contexts.insert(context, Context(self.session.contexts.len() as u16));
            self.session.contexts.push(context.to_string());
        }
        self.session.policy.push(words.join(" "));
        Some(())
    }

    fn setup_line(&mut self, words: &[&'a str]) -> Option<()> {
        match words {
            ["file", path, context] => self.node(path, context, Some(""))?,
            ["file", path, context, data] => self.node(path, context, Some(data))?,
            ["dir", path, context] => self.node(path, context, None)?,
            ["client", name, context] => self.client_line(name, context)?,
            ["initial", what @ ("root" | "port"), context] => {
                let context = Context::read(self, context)?;
                let given = if *what == "root" { &mut self.session.root } else { &mut self.session.port };
                let is_twice = given.replace(context).is_some();
                self.note(is_twice, Fault::Twice);
            }
            ["port", number, context] => {
                let port = (Place::read(self, number)?, Context::read(self, context)?);
                self.note(self.session.ports.len() >= 1_024, Fault::Limit);
                let is_twice = !self.ports.insert(port.0.0);
                self.note(is_twice, Fault::Twice);
                self.session.ports.push(port);
            }
            ["audit"] => {
                self.note(self.session.audit, Fault::Twice);
                self.session.audit = true;
            }
            ["run"] => {
                self.held = vec![[false; 3]; 62];
                self.part = Part::Run;
            }
            _ => return None,
        }
        Some(())
    }

    fn node(&mut self, word: &'a str, context: &str, data: Option<&str>) -> Option<()> {
        let (path, context) = (Path::read(self, word)?, Context::read(self, context)?);
        let data = data.and_then(|data| Data::read(self, data));
        self.note(self.session.nodes.len() >= 4_095, Fault::Limit);
        let (above, _) = word.rsplit_once('/')?;
        self.note(!above.is_empty() && self.nodes.get(above) != Some(&true), Fault::Unknown);
        let before = self.nodes.insert(word, data.is_none());
        self.note(path.0.is_empty() || before.is_some(), Fault::Twice);
        self.session.nodes.push(Node { path, context, data });
        Some(())
    }

    fn client_line(&mut self, name: &str, context: &str) -> Option<()> {
        is_name(name).then_some(())?;
        let context = Context::read(self, context)?;
        self.note(name.len() > 32 || self.session.clients.len() >= 62, Fault::Limit);
        self.note(name == "admin" || self.session.client(name).is_some(), Fault::Twice);
        self.session.clients.push((name.to_string(), context));
        Some(())
    }

    fn run_line(&mut self, words: &[&str]) -> Option<Run> {
        match words {
            ["admin", "notify", version] => Some(Run::Notify(Number::read(self, version)?)),
            ["admin", "update", most] => Some(Run::Update(Number::read(self, most)?)),
            ["admin", "ack"] => Some(Run::Ack),
            ["admin", ..] => None,
            [client, "file", call, arguments @ ..] => self.asked(client, Manager::File, call, arguments),
            [client, "process", call, arguments @ ..] => self.asked(client, Manager::Process, call, arguments),
            [client, "port", call, arguments @ ..] => self.asked(client, Manager::Port, call, arguments),
            _ => None,
        }
    }

    fn asked(&mut self, name: &str, manager: Manager, call: &str, arguments: &[&str]) -> Option<Run> {
        let client = Client::read(self, name)?;
        match (call, arguments, manager) {
            ("begin", [], _) => {
                self.pass(name, client, manager, true);
                Some(Run::Begin(client, manager))
            }
            ("end", [], _) => {
                self.pass(name, client, manager, false);
                Some(Run::End(client, manager))
            }
            (_, _, Manager::File) => FileCall::read(self, call, arguments).map(|call| Run::File(client, call)),
            (_, _, Manager::Process) => ProcessCall::read(self, call, arguments).map(|call| Run::Process(client, call)),
            (_, _, Manager::Port) => PortCall::read(self, call, arguments).map(|call| Run::Port(client, call)),
        }
    }

    /// A client begins or ends an operation. It may not begin a second one, nor end one that it has not begun.
    fn pass(&mut self, name: &str, client: Client, manager: Manager, begins: bool) {
        let held = &mut self.held[usize::from(client.0)][manager as usize];
        let before = std::mem::replace(held, begins) && self.session.client(name).is_some();
        self.note(before == begins, Fault::Order);
    }
}

impl Session {
    fn client(&self, name: &str) -> Option<Client> {
        self.clients.iter().position(|client| client.0 == name).map(|place| Client(place as u8))
    }

    /// The text of the session.
    pub fn print(&self) -> String {
        let mut text = String::new();
        self.policy.iter().for_each(|line| text += &format!("{line}\n"));
        self.print_setup(&mut text);
        for (_, run) in &self.lines {
            self.print_run(run, &mut text);
            text.push('\n');
        }
        text
    }

    fn print_setup(&self, text: &mut String) {
        let context = |context: &Context| &self.contexts[usize::from(context.0)];
        *text += &format!("session\ninitial root {}\n", context(&self.root.unwrap_or_default()));
        *text += &format!("initial port {}\n", context(&self.port.unwrap_or_default()));
        self.ports.iter().for_each(|port| *text += &format!("port {} {}\n", port.0.0, context(&port.1)));
        text.push_str(if self.audit { "audit\n" } else { "" });
        for node in &self.nodes {
            text.push_str(if node.data.is_some() { "file " } else { "dir " });
            node.path.print(self, text);
            *text += &format!(" {}", context(&node.context));
            if let Some(data) = node.data.as_ref().filter(|data| !data.0.is_empty()) {
                *text += &format!(" {}", data.0);
            }
            text.push('\n');
        }
        self.clients.iter().for_each(|client| *text += &format!("client {} {}\n", client.0, context(&client.1)));
        text.push_str("run\n");
    }

    /// Prints a client and a manager, behind which comes what is asked.
    fn print_asked<'a>(&self, client: &Client, manager: Manager, text: &'a mut String) -> &'a mut String {
        client.print(self, text);
        text.push(' ');
        text.push_str(MANAGERS[manager as usize]);
        text.push(' ');
        text
    }

    fn print_run(&self, run: &Run, text: &mut String) {
        match run {
            Run::File(client, call) => call.print(self, self.print_asked(client, Manager::File, text)),
            Run::Process(client, call) => call.print(self, self.print_asked(client, Manager::Process, text)),
            Run::Port(client, call) => call.print(self, self.print_asked(client, Manager::Port, text)),
            Run::Begin(client, manager) => self.print_asked(client, *manager, text).push_str("begin"),
            Run::End(client, manager) => self.print_asked(client, *manager, text).push_str("end"),
            Run::Notify(version) => {
                text.push_str("admin notify ");
                version.print(self, text);
            }
            Run::Update(most) => {
                text.push_str("admin update ");
                most.print(self, text);
            }
            Run::Ack => text.push_str("admin ack"),
        }
    }
}
