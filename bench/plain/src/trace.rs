//! The reading of traces, line by line.

use crate::context::REGISTERS;
use crate::machine::{cancellation, Order};
use crate::words::{self, global_id, COUNT_MASK, ERROR, LAST_CLOCK, REDIRECTED, TYPED_MASK};

/// The greatest number of a thread, and the greatest version.
const LAST_NUMBER: u64 = u32::MAX as u64;
const LAST_CPU: u64 = 15;
/// Of a tag that is received all of these are zero.
const NEVER_RECEIVED: u64 = TYPED_MASK | REDIRECTED | ERROR;

/// The name of a send: the id of the thread that began it, and the how manieth of this thread it is.
#[derive(Clone, Copy)]
pub struct Name {
    pub sender: u64,
    pub number: u64,
}

/// A step as a line tells it. Threads are named by their ids, declared or not.
pub enum Step<'w> {
    Local(u64),
    Begin(Name),
    Queue(Name),
    Deliver { name: Name, receiver: u64, shown: u64, actual: u64, tag: u64, words: &'w [u64] },
    Wait(u64),
    SendTimeout(Name),
    ReceiveTimeout(u64),
    SendNobody(Name),
    ReceiveNobody(u64),
    CancelSend(Name),
    CancelReceive(u64),
    Drop(Name),
    Order { caller: u64, target: u64, order: Order },
    Obey(u64),
    Retarget(Name),
    Tick { cpu: usize, clock: u64 },
}

pub struct Reader<'t> {
    rest: &'t [u8],
    words: [u64; REGISTERS],
}

impl<'t> Reader<'t> {
    pub fn new(trace: &'t [u8]) -> Reader<'t> {
        Reader { rest: trace, words: [0; REGISTERS] }
    }

    pub fn is_at_end(&self) -> bool {
        self.rest.is_empty()
    }

    /// The step of the next line, or none where it is the line of no step.
    pub fn step(&mut self) -> Option<Step<'_>> {
        let verb = self.word()?;
        if verb == b"deliver" {
            return self.delivery();
        }
        let step = match verb {
            b"local" => Step::Local(self.thread()?),
            b"begin" => Step::Begin(self.name()?),
            b"queue" => Step::Queue(self.name()?),
            b"wait" => Step::Wait(self.thread()?),
            b"stimeout" => Step::SendTimeout(self.name()?),
            b"rtimeout" => Step::ReceiveTimeout(self.thread()?),
            b"snobody" => Step::SendNobody(self.name()?),
            b"rnobody" => Step::ReceiveNobody(self.thread()?),
            b"scancel" => Step::CancelSend(self.name()?),
            b"rcancel" => Step::CancelReceive(self.thread()?),
            b"drop" => Step::Drop(self.name()?),
            b"obey" => Step::Obey(self.thread()?),
            b"retarget" => Step::Retarget(self.name()?),
            b"order" => {
                Step::Order { caller: self.spaced_thread()?, target: self.spaced_thread()?, order: self.order()? }
            }
            b"tick" => Step::Tick { cpu: self.cpu()?, clock: self.clock()? },
            _ => return None,
        };
        self.take(b'\n')?;
        Some(step)
    }

    fn delivery(&mut self) -> Option<Step<'_>> {
        let name = self.name()?;
        self.take(b' ')?;
        let (receiver, shown, actual) = (self.spaced_thread()?, self.spaced_thread()?, self.thread()?);
        self.take(b' ')?;
        let tag = self.hexadecimal()?;
        if tag & NEVER_RECEIVED != 0 {
            return None;
        }
        let count = (tag & COUNT_MASK) as usize;
        for place in 0..count {
            self.take(b' ')?;
            self.words[place] = self.hexadecimal()?;
        }
        self.take(b'\n')?;
        Some(Step::Deliver { name, receiver, shown, actual, tag, words: &self.words[..count] })
    }

    fn take(&mut self, byte: u8) -> Option<()> {
        let (&first, rest) = self.rest.split_first()?;
        self.rest = rest;
        (first == byte).then_some(())
    }

    /// The bytes in front of the next space, which is taken too.
    fn word(&mut self) -> Option<&'t [u8]> {
        let end = self.rest.iter().position(|&byte| byte == b' ')?;
        let word = &self.rest[..end];
        self.rest = &self.rest[end + 1..];
        Some(word)
    }

    /// A decimal number without leading zeros.
    fn decimal(&mut self) -> Option<u64> {
        let end = self.rest.iter().position(|byte| !byte.is_ascii_digit())?;
        let (digits, rest) = self.rest.split_at(end);
        self.rest = rest;
        words::decimal(digits)
    }

    /// 1 to 16 hexadecimal digits in lower case, without leading zeros.
    fn hexadecimal(&mut self) -> Option<u64> {
        let (mut value, mut count) = (0, 0);
        while let Some(digit) = self.rest.get(count).and_then(|&byte| words::hexadecimal_digit(byte)) {
            value = value << 4 | digit;
            count += 1;
        }
        let (digits, rest) = self.rest.split_at(count);
        self.rest = rest;
        let is_number = matches!(digits, [b'0'] | [b'1'..=b'9' | b'a'..=b'f', ..]) && count <= 16;
        is_number.then_some(value)
    }

    fn thread(&mut self) -> Option<u64> {
        let number = self.decimal()?;
        self.take(b'.')?;
        let version = self.decimal()?;
        let is_in_range = number <= LAST_NUMBER && version <= LAST_NUMBER;
        let id = is_in_range.then(|| global_id(number, version))?;
        words::is_global(id).then_some(id)
    }

    fn spaced_thread(&mut self) -> Option<u64> {
        let thread = self.thread()?;
        self.take(b' ')?;
        Some(thread)
    }

    fn name(&mut self) -> Option<Name> {
        let sender = self.thread()?;
        self.take(b'#')?;
        let number = self.decimal().filter(|&number| number > 0)?;
        Some(Name { sender, number })
    }

    fn order(&mut self) -> Option<Order> {
        let end = self.rest.iter().position(|&byte| byte == b'\n')?;
        let (what, rest) = self.rest.split_at(end);
        self.rest = rest;
        match what {
            b"delete" => Some(Order::Delete),
            bits => cancellation(std::str::from_utf8(bits).ok()?),
        }
    }

    fn cpu(&mut self) -> Option<usize> {
        let cpu = self.decimal().filter(|&cpu| cpu <= LAST_CPU)?;
        self.take(b' ')?;
        Some(cpu as usize)
    }

    fn clock(&mut self) -> Option<u64> {
        self.decimal().filter(|clock| (1..=LAST_CLOCK).contains(clock))
    }
}
