//! What the plain programs of this folder that ask a policy share: a policy as its text has it, and rows of cells by the places of types,
//! drawn a line at a time.
use std::collections::HashMap;

pub const PERMS: [&[&str]; 5] = [
    &["read", "write", "append", "create", "unlink", "getattr", "relabelfrom", "relabelto"],
    &["read", "search", "create", "add_name", "remove_name", "getattr", "relabelfrom", "relabelto"],
    &["fork", "transition", "signal", "ptrace", "exit", "wait", "getattr"],
    &["name_bind", "recv", "send", "connect", "getattr"],
    &["load_policy"],
];
pub const CLASSES: [&str; 5] = ["file", "dir", "process", "port", "security"];

pub type Row = [u16; 128];

pub enum Who {
    Named(String),
    Any,
    Itself,
}

pub struct Rule {
    pub source: Who,
    pub target: Who,
    pub class: usize,
    pub allow: bool,
    pub perms: u16,
}

pub struct Policy {
    pub kinds: Vec<String>,
    pub attributes: Vec<(String, Vec<String>)>,
    pub versions: Vec<Vec<Rule>>,
}

pub fn who(word: &str) -> Who {
    match word {
        "*" => Who::Any,
        "self" => Who::Itself,
        name => Who::Named(name.to_string()),
    }
}

/// The policy of a text. The types of its contexts are types too where they are asked for.
pub fn read(text: &str, of_contexts: bool) -> Policy {
    let mut policy = Policy { kinds: Vec::new(), attributes: Vec::new(), versions: Vec::new() };
    for line in text.lines() {
        let words: Vec<&str> = line.split_whitespace().collect();
        match words.as_slice() {
            ["type", name] => policy.kinds.push(name.to_string()),
            ["context", name] if of_contexts => policy.kinds.push(name.rsplit(':').next().unwrap().to_string()),
            ["attribute", name, members @ ..] => {
                let members = members.iter().map(|member| member.to_string()).collect();
                policy.attributes.push((name.to_string(), members));
            }
            ["version"] => policy.versions.push(Vec::new()),
            [word @ ("allow" | "withhold"), s, t, class, perms @ ..] => {
                let class = CLASSES.iter().position(|name| name == class).unwrap();
                let names = PERMS[class];
                let bit = |perm: &&str| match *perm {
                    "*" => (1u16 << names.len()) - 1,
                    perm => 1 << names.iter().position(|name| *name == perm).unwrap(),
                };
                let perms = perms.iter().map(bit).fold(0, |all, bit| all | bit);
                let rule = Rule { source: who(s), target: who(t), class, allow: *word == "allow", perms };
                policy.versions.last_mut().unwrap().push(rule);
            }
            _ => {}
        }
    }
    policy
}

pub struct Set {
    members: Vec<usize>,
    words: Row,
}

pub fn set(members: Vec<usize>) -> Set {
    let mut words = [0; 128];
    for member in &members {
        words[*member] = u16::MAX;
    }
    Set { members, words }
}

pub struct Rows {
    pub firsts: Vec<[usize; 5]>,
    pub rows: Vec<Row>,
}

pub fn draw(block: &mut [Row], rules: &[Rule], class: usize, sets: &HashMap<&str, Set>, every: &Set) {
    block.fill([0; 128]);
    for rule in rules.iter().filter(|rule| rule.class == class) {
        let set_of = |who: &Who| match who {
            Who::Named(name) => &sets[name.as_str()],
            _ => every,
        };
        let (keep, put) = (!rule.perms, if rule.allow { rule.perms } else { 0 });
        let change = |cell: u16| cell & keep | put;
        for s in &set_of(&rule.source).members {
            let row = &mut block[*s];
            if let Who::Itself = rule.target {
                row[*s] = change(row[*s]);
                continue;
            }
            for (cell, word) in row.iter_mut().zip(&set_of(&rule.target).words) {
                *cell = if *word == 0 { *cell } else { change(*cell) };
            }
        }
    }
}

pub fn compile(policy: &Policy) -> Rows {
    let places: HashMap<&str, usize> = policy.kinds.iter().enumerate().map(|(place, name)| (name.as_str(), place)).collect();
    let mut sets: HashMap<&str, Set> = HashMap::new();
    for (place, name) in policy.kinds.iter().enumerate() {
        sets.insert(name, set(vec![place]));
    }
    for (name, members) in &policy.attributes {
        sets.insert(name, set(members.iter().map(|member| places[member.as_str()]).collect()));
    }
    let every = set((0..128).collect());
    let mut rows = vec![[0; 128]; 128];
    let mut block = vec![[0; 128]; 128];
    let mut firsts: Vec<[usize; 5]> = Vec::new();
    for rules in &policy.versions {
        let before = firsts.last().copied().unwrap_or([0; 5]);
        let mut here = [0; 5];
        for class in 0..5 {
            draw(&mut block, rules, class, &sets, &every);
            let stands = |first: usize| rows[first..first + 128] == block[..];
            here[class] = if stands(0) {
                0
            } else if stands(before[class]) {
                before[class]
            } else {
                rows.extend_from_slice(&block);
                rows.len() - 128
            };
        }
        firsts.push(here);
    }
    Rows { firsts, rows }
}

pub fn cell(rows: &Rows, key: (u8, u8, u8, u8)) -> u16 {
    match rows.firsts.get(usize::from(key.0)) {
        None => 0,
        Some(firsts) => rows.rows[firsts[usize::from(key.3)] + usize::from(key.1)][usize::from(key.2)],
    }
}
