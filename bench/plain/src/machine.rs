//! Machines, and the reading of machine texts.

use crate::words::{self, decimal, hexadecimal, Format};
use std::collections::{HashMap, HashSet};
use std::hash::{BuildHasherDefault, Hasher};

const MOST_BYTES: usize = 1_048_576;
const MOST_THREADS: usize = 1_024;
const MOST_INSTRUCTIONS: usize = 1_024;
const MOST_CPUS: u64 = 16;
const MOST_WORDS: usize = 6;

/// Whom an id names. A stranger is a local or an undeclared id, by its word of 64 bits.
#[derive(Clone, Copy, PartialEq, Eq)]
pub enum Peer {
    Nil,
    Any,
    AnyLocal,
    Thread(usize),
    Stranger(u64),
}

#[derive(Clone, Copy, PartialEq, Eq)]
pub enum To {
    Peer(Peer),
    /// Whom the thread last received from.
    Last,
}

#[derive(Clone, Copy)]
pub struct Ipc {
    pub to: To,
    pub from: Peer,
    pub send_period: Option<u64>,
    pub receive_period: Option<u64>,
}

#[derive(Clone, Copy, PartialEq, Eq)]
pub enum Order {
    Cancel { send: bool, receive: bool },
    Delete,
}

#[derive(Clone, Copy)]
pub enum Instruction {
    Set { register: usize, word: u64 },
    Copy { register: usize, source: usize },
    Add { register: usize, word: u64 },
    Tag(u64),
    Virtual(Peer),
    Ipc(Ipc),
    Order(Peer, Order),
    Jump(usize),
    OnError(usize),
    End,
}

/// A thread as it is declared.
pub struct Declared {
    pub id: u64,
    /// The id as it is written.
    pub name: Vec<u8>,
    pub cpu: usize,
    space: u64,
    script: Vec<Instruction>,
}

pub struct Machine {
    pub retargets: bool,
    pub format: Format,
    pub cpus: usize,
    pub threads: Vec<Declared>,
    index: HashMap<u64, usize, BuildHasherDefault<IdHasher>>,
}

/// Spreads ids, which are small numbers in two halves of a word.
#[derive(Default)]
struct IdHasher(u64);

impl Hasher for IdHasher {
    fn finish(&self) -> u64 {
        self.0
    }

    fn write(&mut self, _: &[u8]) {
        unreachable!("ids are words")
    }

    fn write_u64(&mut self, id: u64) {
        let spread = id.wrapping_mul(0x9e37_79b9_7f4a_7c15);
        self.0 = spread ^ spread >> 32;
    }
}

/// The line that has a fault, counted from 1, or 0 for a text that is too long.
pub struct Fault(pub usize);

/// Whether the first line that says something asks for scripts of version 2.
pub fn has_second_scripts(text: &[u8]) -> bool {
    let said = |line: &[u8]| line.split(|&byte| byte == b';').next().unwrap_or_default().trim_ascii().to_vec();
    let first = text.split(|&byte| byte == b'\n').map(said).find(|said| !said.is_empty());
    let words = String::from_utf8(first.unwrap_or_default()).unwrap_or_default();
    matches!(words.split(' ').collect::<Vec<_>>()[..], ["l4", _, _, version] if number(version) == Some(2))
}

impl Machine {
    /// The machine of a text.
    pub fn read(text: &[u8]) -> Result<Machine, Fault> {
        if text.len() > MOST_BYTES {
            return Err(Fault(0));
        }
        let text = String::from_utf8_lossy(text);
        let mut reader = Reader::default();
        let mut count = 0;
        for (place, line) in text.split_inclusive('\n').enumerate() {
            count = place + 1;
            reader.line(count, line).ok_or(Fault(count))?;
        }
        reader.machine(count + 1)
    }

    pub fn thread(&self, id: u64) -> Option<usize> {
        self.index.get(&id).copied()
    }

    pub fn instruction(&self, thread: usize, place: usize) -> &Instruction {
        self.threads[thread].script.get(place).unwrap_or(&Instruction::End)
    }

    pub fn are_of_one_space(&self, one: usize, other: usize) -> bool {
        self.threads[one].space == self.threads[other].space
    }

    /// Whether a receive phase of this thread from this source takes a message that shows this sender.
    pub fn accepts(&self, receiver: usize, source: Peer, shown: usize) -> bool {
        match source {
            Peer::Any => true,
            Peer::AnyLocal => self.are_of_one_space(receiver, shown),
            Peer::Thread(thread) => thread == shown,
            Peer::Nil | Peer::Stranger(_) => false,
        }
    }

    /// The thread that an order of this caller is about, where it is admitted.
    pub fn admitted(&self, caller: usize, target: Peer, order: Order) -> Option<usize> {
        match target {
            Peer::Thread(thread) if order == Order::Delete || self.are_of_one_space(caller, thread) => Some(thread),
            _ => None,
        }
    }

    fn resolve(&self, peer: &mut Peer) {
        if let Peer::Stranger(id) = *peer {
            *peer = self.thread(id).map_or(*peer, Peer::Thread);
        }
    }

    /// Puts threads in the place of ids that are declared somewhere.
    fn resolve_all(&mut self) {
        let mut threads = std::mem::take(&mut self.threads);
        for instruction in threads.iter_mut().flat_map(|thread| &mut thread.script) {
            match instruction {
                Instruction::Virtual(peer) | Instruction::Order(peer, _) => self.resolve(peer),
                Instruction::Ipc(ipc) => {
                    self.resolve(&mut ipc.from);
                    if let To::Peer(peer) = &mut ipc.to {
                        self.resolve(peer);
                    }
                }
                _ => {}
            }
        }
        self.threads = threads;
    }
}

/// What was read of a text so far. Ids in scripts are strangers until all threads are known.
#[derive(Default)]
struct Reader {
    head: Option<(u64, Format)>,
    cpus: Option<u64>,
    threads: Vec<Declared>,
    numbers: HashSet<u64>,
    /// The places that scripts go on at, each with its line and its thread.
    targets: Vec<(usize, usize, usize)>,
}

impl Reader {
    fn line(&mut self, number: usize, line: &str) -> Option<()> {
        let line = line.strip_suffix('\n')?;
        if !line.bytes().all(|byte| (b' '..=b'~').contains(&byte)) {
            return None;
        }
        if line.is_empty() || line.starts_with(';') {
            return Some(());
        }
        let mut words = [""; MOST_WORDS];
        let mut count = 0;
        for word in line.split(' ') {
            *words.get_mut(count)? = word;
            count += 1;
        }
        let words = &words[..count];
        match (self.head, self.cpus, words) {
            (None, _, ["l4", profile, bits]) => self.head = Some((profile_of(profile)?, format_of(bits)?)),
            (Some(_), None, ["cpus", count]) => self.cpus = Some(number_in(count, 1, MOST_CPUS)?),
            (Some((_, format)), Some(cpus), ["thread", id, "cpu", cpu, "space", space]) => {
                self.declare(format.global(id)?, number_in(cpu, 0, cpus - 1)?, number_in(space, 0, u32::MAX.into())?)?;
            }
            (Some((_, format)), Some(_), _) => self.instruct(number, instruction(words, format)?)?,
            _ => return None,
        }
        Some(())
    }

    fn declare(&mut self, id: u64, cpu: u64, space: u64) -> Option<()> {
        if self.threads.len() == MOST_THREADS || !self.numbers.insert(id >> 32) {
            return None;
        }
        let mut name = Vec::new();
        words::push_id(&mut name, id);
        self.threads.push(Declared { id, name, cpu: cpu as usize, space, script: Vec::new() });
        Some(())
    }

    fn instruct(&mut self, line: usize, instruction: Instruction) -> Option<()> {
        let thread = self.threads.len().checked_sub(1)?;
        let script = &mut self.threads[thread].script;
        if script.len() == MOST_INSTRUCTIONS {
            return None;
        }
        if let Instruction::Jump(target) | Instruction::OnError(target) = instruction {
            self.targets.push((line, thread, target));
        }
        script.push(instruction);
        Some(())
    }

    /// The machine, where the text has all its lines. Else its end is faulty.
    fn machine(self, end: usize) -> Result<Machine, Fault> {
        let (Some((profile, format)), Some(cpus)) = (self.head, self.cpus) else {
            return Err(Fault(end));
        };
        let threads = self.threads;
        let is_bad = |&&(_, thread, target): &&(usize, usize, usize)| target > threads[thread].script.len();
        if let Some(&(line, ..)) = self.targets.iter().find(is_bad) {
            return Err(Fault(line));
        }
        let index = threads.iter().enumerate().map(|(place, thread)| (thread.id, place)).collect();
        let mut machine = Machine { retargets: profile == 2, format, cpus: cpus as usize, threads, index };
        machine.resolve_all();
        Ok(machine)
    }
}

fn profile_of(word: &str) -> Option<u64> {
    number_in(word, 1, 2)
}

fn format_of(word: &str) -> Option<Format> {
    match number(word)? {
        64 => Some(Format::LONG),
        32 => Some(Format::SHORT),
        _ => None,
    }
}

fn number(word: &str) -> Option<u64> {
    match word.strip_prefix("0x") {
        Some(digits) => hexadecimal(digits.as_bytes()),
        None => decimal(word.as_bytes()),
    }
}

fn number_in(word: &str, least: u64, most: u64) -> Option<u64> {
    number(word).filter(|number| (least..=most).contains(number))
}

fn register(word: &str, least: u64) -> Option<usize> {
    number_in(word, least, 63).map(|register| register as usize)
}

fn place(word: &str) -> Option<usize> {
    number(word).map(|place| usize::try_from(place).unwrap_or(usize::MAX))
}

fn period(word: &str) -> Option<Option<u64>> {
    match word {
        "never" => Some(None),
        "zero" => Some(Some(0)),
        _ => number_in(word, 0, 0x7fff).map(words::period),
    }
}

/// Who an id names, as far as that is known without the threads.
fn peer(word: &str, format: Format) -> Option<Peer> {
    Some(match format.id(word)? {
        words::NIL => Peer::Nil,
        words::ANY => Peer::Any,
        words::ANY_LOCAL => Peer::AnyLocal,
        id => Peer::Stranger(id),
    })
}

fn instruction(words: &[&str], format: Format) -> Option<Instruction> {
    let word = |word| number_in(word, 0, format.mask());
    Some(match *words {
        ["set", to, value] => Instruction::Set { register: register(to, 1)?, word: word(value)? },
        ["copy", to, from] => Instruction::Copy { register: register(to, 1)?, source: register(from, 0)? },
        ["add", to, value] => Instruction::Add { register: register(to, 1)?, word: word(value)? },
        ["tag", value] => Instruction::Tag(word(value).filter(|tag| tag & words::TYPED_MASK == 0)?),
        ["vs", id] => Instruction::Virtual(peer(id, format)?),
        ["ipc", to, from, send, receive] => Instruction::Ipc(Ipc {
            to: if to == "last" { To::Last } else { To::Peer(peer(to, format)?) },
            from: peer(from, format)?,
            send_period: period(send)?,
            receive_period: period(receive)?,
        }),
        ["exregs", id, bits] => Instruction::Order(peer(id, format)?, cancellation(bits)?),
        ["delete", id] => Instruction::Order(peer(id, format)?, Order::Delete),
        ["jump", to] => Instruction::Jump(place(to)?),
        ["onerr", to] => Instruction::OnError(place(to)?),
        ["end"] => Instruction::End,
        _ => return None,
    })
}

/// The order that the bits of an ExchangeRegisters stand for.
pub fn cancellation(bits: &str) -> Option<Order> {
    match bits {
        "S" => Some(Order::Cancel { send: true, receive: false }),
        "R" => Some(Order::Cancel { send: false, receive: true }),
        "SR" => Some(Order::Cancel { send: true, receive: true }),
        _ => None,
    }
}
