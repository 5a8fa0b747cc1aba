//! What is printed: the lines of steps and of reports.

use crate::context::{Context, Send};
use crate::machine::{Machine, Order, Peer};
use crate::words::{push_decimal, push_hexadecimal, push_id};
use std::io::{self, Write};

/// Printed bytes go out by so many.
const FULL: usize = 1 << 16;

/// What is printed of a machine, in a buffer.
pub struct Output<'a> {
    machine: &'a Machine,
    bytes: Vec<u8>,
    fault: Option<io::Error>,
}

impl Output<'_> {
    pub fn new(machine: &Machine) -> Output<'_> {
        Output { machine, bytes: Vec::with_capacity(2 * FULL), fault: None }
    }

    /// Prints what is left. Answers whether all could be printed.
    pub fn finish(mut self) -> io::Result<()> {
        self.write_out();
        self.fault.map_or(Ok(()), Err)
    }

    fn write_out(&mut self) {
        if self.fault.is_none() {
            self.fault = io::stdout().write_all(&self.bytes).err();
        }
        self.bytes.clear();
    }

    fn end_line(&mut self) {
        self.bytes.push(b'\n');
        if self.bytes.len() >= FULL {
            self.write_out();
        }
    }

    fn push(&mut self, text: &str) {
        self.bytes.extend_from_slice(text.as_bytes());
    }

    fn push_thread(&mut self, thread: usize) {
        self.bytes.extend_from_slice(&self.machine.threads[thread].name);
    }

    fn push_name(&mut self, sender: usize, number: u64) {
        self.push_thread(sender);
        self.bytes.push(b'#');
        push_decimal(&mut self.bytes, number);
    }

    fn push_peer(&mut self, peer: Peer) {
        match peer {
            Peer::Nil => self.push("nil"),
            Peer::Any => self.push("any"),
            Peer::AnyLocal => self.push("anylocal"),
            Peer::Thread(thread) => self.push_thread(thread),
            Peer::Stranger(id) => push_id(&mut self.bytes, id),
        }
    }

    fn push_words(&mut self, words: &[u64]) {
        for &word in words {
            self.bytes.push(b' ');
            push_hexadecimal(&mut self.bytes, word);
        }
    }

    /// `VERB T`
    pub fn of_thread(&mut self, verb: &str, thread: usize) {
        self.push(verb);
        self.bytes.push(b' ');
        self.push_thread(thread);
        self.end_line();
    }

    /// `VERB T#K`
    pub fn of_send(&mut self, verb: &str, sender: usize, number: u64) {
        self.push(verb);
        self.bytes.push(b' ');
        self.push_name(sender, number);
        self.end_line();
    }

    /// `deliver T#K R S A TAG W..`
    pub fn deliver(&mut self, sender: usize, sending: &Context, receiver: usize, send: &Send) {
        self.push("deliver ");
        self.push_name(sender, sending.begun);
        for thread in [receiver, send.shown, sender] {
            self.bytes.push(b' ');
            self.push_thread(thread);
        }
        self.push_words(&[send.tag]);
        self.push_words(&sending.registers[1..=send.count()]);
        self.end_line();
    }

    /// `order C R WHAT`
    pub fn order(&mut self, caller: usize, target: usize, order: Order) {
        self.push("order ");
        self.push_thread(caller);
        self.bytes.push(b' ');
        self.push_thread(target);
        self.push(match order {
            Order::Delete => " delete",
            Order::Cancel { receive: false, .. } => " S",
            Order::Cancel { send: false, .. } => " R",
            Order::Cancel { .. } => " SR",
        });
        self.end_line();
    }

    /// `tick P N`
    pub fn tick(&mut self, cpu: usize, clock: u64) {
        self.push("tick ");
        push_decimal(&mut self.bytes, cpu as u64);
        self.bytes.push(b' ');
        push_decimal(&mut self.bytes, clock);
        self.end_line();
    }

    /// `passed N ENDING`
    pub fn passed(&mut self, steps: u64, is_quiet: bool) {
        self.push("passed ");
        push_decimal(&mut self.bytes, steps);
        self.push(if is_quiet { " quiet" } else { " spent" });
        self.end_line();
    }

    /// The report of threads in order of declaration, each with its state and its undecided send.
    pub fn report<'t>(
        &mut self,
        threads: impl Iterator<Item = (&'static str, &'t Context, Option<&'t Send>)>,
        is_quiet: bool,
    ) {
        let mut waiting = Vec::new();
        for (thread, (state, context, send)) in threads.enumerate() {
            self.thread(thread, state, context);
            waiting.extend(send.map(|send| (send.order, thread, context.begun, send.to)));
        }
        waiting.sort_unstable_by_key(|&(order, ..)| order);
        for (_, sender, number, to) in waiting {
            self.push("waiting ");
            self.push_name(sender, number);
            self.bytes.push(b' ');
            self.push_peer(to);
            self.end_line();
        }
        self.push(if is_quiet { "ending quiet" } else { "ending spent" });
        self.end_line();
    }

    fn thread(&mut self, thread: usize, state: &str, context: &Context) {
        self.push("thread ");
        self.push_thread(thread);
        self.bytes.push(b' ');
        self.push(state);
        self.bytes.push(b' ');
        push_decimal(&mut self.bytes, context.code as u64);
        for peer in [context.from, context.actual] {
            self.bytes.push(b' ');
            self.push_peer(peer);
        }
        let last = context.registers.iter().rposition(|&word| word != 0).unwrap_or(0);
        self.push_words(&context.registers[..=last]);
        self.end_line();
    }
}
