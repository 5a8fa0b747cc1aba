//! What a thread has by itself: its registers, its place in its script, and its undecided send.

use crate::machine::{Instruction, Ipc, Machine, Peer, To};
use crate::words::{ACROSS, COUNT_MASK, ERROR, LABEL_SHIFT, PROPAGATED};

pub const REGISTERS: usize = 64;

#[derive(Clone, Copy, PartialEq, Eq)]
pub enum Code {
    None = 0,
    SendTimeout = 2,
    ReceiveTimeout = 3,
    SendNobody = 4,
    ReceiveNobody = 5,
    SendCancelled = 6,
    ReceiveCancelled = 7,
}

impl Code {
    /// The code of an order that is not admitted.
    const REFUSED: Code = Code::SendTimeout;
}

#[derive(Clone, Copy, PartialEq, Eq)]
pub enum Phase {
    Ready,
    Sending,
    Receiving,
    Ordering,
    Ended,
}

impl Phase {
    pub fn name(self) -> &'static str {
        match self {
            Phase::Ready => "ready",
            Phase::Sending => "sending",
            Phase::Receiving => "receiving",
            Phase::Ordering => "ordering",
            Phase::Ended => "ended",
        }
    }
}

/// A receive phase that is to follow a send.
#[derive(Clone, Copy)]
pub struct Receive {
    pub source: Peer,
    pub period: Option<u64>,
}

/// A send that began. Its words are those of its sender, who is in the send phase until it is decided.
#[derive(Clone, Copy)]
pub struct Send {
    pub to: Peer,
    /// Whom the message shows as its sender.
    pub shown: usize,
    /// The tag that the receiver gets.
    pub tag: u64,
    pub period: Option<u64>,
    /// The receive phase of a call.
    pub receive: Option<Receive>,
    /// The clock of its beginning.
    pub since: u64,
    /// How many sends of all threads began before.
    pub order: u64,
}

/// What is owed since a propagated send was delivered: its originator is to turn from one partner to another.
#[derive(Clone, Copy)]
pub struct Retarget {
    pub sender: usize,
    pub number: u64,
    pub originator: usize,
    pub receiver: usize,
}

#[derive(Clone)]
pub struct Context {
    pub registers: [u64; REGISTERS],
    pub code: Code,
    /// Whom the last message showed as its sender.
    pub from: Peer,
    pub actual: Peer,
    pub place: usize,
    /// How many sends the thread began.
    pub begun: u64,
}

impl Context {
    pub fn new() -> Context {
        let registers = [0; REGISTERS];
        Context { registers, code: Code::None, from: Peer::Nil, actual: Peer::Nil, place: 0, begun: 0 }
    }

    pub fn destination(&self, ipc: &Ipc) -> Peer {
        match ipc.to {
            To::Last => self.from,
            To::Peer(peer) => peer,
        }
    }

    /// Runs an instruction that concerns nobody else. Answers whether the script goes on.
    pub fn run(&mut self, instruction: &Instruction, mask: u64) -> bool {
        match *instruction {
            Instruction::End => return false,
            Instruction::Jump(place) => {
                self.place = place;
                return true;
            }
            Instruction::OnError(place) if self.code != Code::None => {
                self.place = place;
                return true;
            }
            Instruction::OnError(_) => {}
            Instruction::Set { register, word } => self.registers[register] = word,
            Instruction::Copy { register, source } => self.registers[register] = self.registers[source],
            Instruction::Add { register, word } => {
                self.registers[register] = self.registers[register].wrapping_add(word) & mask;
            }
            Instruction::Tag(word) => self.registers[0] = word,
            Instruction::Virtual(peer) => self.actual = peer,
            Instruction::Ipc(_) => self.end_well(),
            Instruction::Order(..) => self.code = Code::REFUSED,
        }
        self.place += 1;
        true
    }

    /// Begins the send of an ipc, which this thread is at.
    pub fn begin(&mut self, machine: &Machine, thread: usize, ipc: &Ipc, since: u64, order: u64) -> Send {
        let to = self.destination(ipc);
        let tag = self.registers[0];
        let originator = match self.actual {
            Peer::Thread(originator) if tag & PROPAGATED != 0 && machine.are_of_one_space(originator, thread) => {
                Some(originator)
            }
            _ => None,
        };
        let is_across = matches!(to, Peer::Thread(to) if machine.threads[to].cpu != machine.threads[thread].cpu);
        let flags = originator.map_or(0, |_| PROPAGATED) | if is_across { ACROSS } else { 0 };
        self.begun += 1;
        self.place += 1;
        Send {
            to,
            shown: originator.unwrap_or(thread),
            tag: tag >> LABEL_SHIFT << LABEL_SHIFT | tag & COUNT_MASK | flags,
            period: ipc.send_period,
            receive: (ipc.from != Peer::Nil).then_some(Receive { source: ipc.from, period: ipc.receive_period }),
            since,
            order,
        }
    }

    /// What an ipc leaves that ended well and received nothing.
    pub fn end_well(&mut self) {
        self.leave(0, Code::None);
    }

    /// What an ipc leaves that failed.
    pub fn fail(&mut self, code: Code) {
        self.leave(ERROR, code);
    }

    fn leave(&mut self, tag: u64, code: Code) {
        self.registers[0] = tag;
        self.from = Peer::Nil;
        self.code = code;
    }

    /// Gets a message of this sender, with its words.
    pub fn receive(&mut self, send: &Send, sender: usize, words: &[u64; REGISTERS]) {
        let behind = send.count() + 1;
        self.registers[1..behind].copy_from_slice(&words[1..behind]);
        self.registers[0] = send.tag;
        self.from = Peer::Thread(send.shown);
        self.actual = Peer::Thread(sender);
        self.code = Code::None;
    }

    pub fn end_order(&mut self) {
        self.code = Code::None;
        self.place += 1;
    }
}

impl Send {
    /// How many words it brings.
    pub fn count(&self) -> usize {
        (self.tag & COUNT_MASK) as usize
    }

    /// What its delivery leaves owed.
    pub fn owed(&self, machine: &Machine, sender: usize, number: u64, receiver: usize) -> Option<Retarget> {
        let is_owed = machine.retargets && self.tag & PROPAGATED != 0;
        is_owed.then_some(Retarget { sender, number, originator: self.shown, receiver })
    }
}
