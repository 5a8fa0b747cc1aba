//! The judge of traces: which steps are possible at a world, and what they make of it.

use crate::context::{Code, Context, Phase, Retarget, Send};
use crate::lists::Waiting;
use crate::machine::{Instruction, Ipc, Machine, Order, Peer};
use crate::told::Output;
use crate::trace::{Name, Reader, Step};
use crate::words::LAST_CLOCK;

/// Why a trace is none of a machine. Lines and steps are counted from 1.
pub enum Fault {
    Line(u64),
    Step(u64),
}

struct Member {
    context: Context,
    deleted: bool,
    phase: Phase,
    send: Option<Send>,
    order: Option<(usize, Order)>,
    /// Of a receive phase its source, the clock of its beginning and its period.
    source: Peer,
    since: u64,
    period: Option<u64>,
    send_wish: bool,
    receive_wish: bool,
}

impl Member {
    fn new() -> Member {
        Member {
            context: Context::new(),
            deleted: false,
            phase: Phase::Ready,
            send: None,
            order: None,
            source: Peer::Nil,
            since: 0,
            period: None,
            send_wish: false,
            receive_wish: false,
        }
    }

    fn is_ready(&self) -> bool {
        self.phase == Phase::Ready && !self.deleted
    }

    fn receives(&self) -> bool {
        self.phase == Phase::Receiving && !self.deleted
    }

    fn begin_receive(&mut self, source: Peer, since: u64, period: Option<u64>) {
        self.phase = Phase::Receiving;
        (self.source, self.since, self.period) = (source, since, period);
    }

    /// The ipc has failed. A deleted thread gets no code.
    fn fail(&mut self, code: Code) {
        self.receive_wish = false;
        if !self.deleted {
            self.context.fail(code);
            self.phase = Phase::Ready;
        }
    }
}

/// What a history leads to.
pub struct World<'a> {
    machine: &'a Machine,
    members: Vec<Member>,
    waiting: Waiting,
    owed: Vec<Retarget>,
    clocks: Vec<u64>,
    begun: u64,
    steps: u64,
}

/// The world that a trace leads to.
pub fn audit<'a>(machine: &'a Machine, trace: &[u8]) -> Result<World<'a>, Fault> {
    let count = machine.threads.len();
    let mut world = World {
        machine,
        members: (0..count).map(|_| Member::new()).collect(),
        waiting: Waiting::new(count),
        owed: Vec::new(),
        clocks: vec![0; machine.cpus],
        begun: 0,
        steps: 0,
    };
    let mut reader = Reader::new(trace);
    let mut refused = None;
    // A line that is none counts before a step that is refused.
    while !reader.is_at_end() {
        world.steps += 1;
        let step = reader.step().ok_or(Fault::Line(world.steps))?;
        if refused.is_none() && world.take(step).is_none() {
            refused = Some(Fault::Step(world.steps));
        }
    }
    refused.map_or(Ok(world), Err)
}

impl World<'_> {
    /// Prints that the trace has passed.
    pub fn passed(&self, output: &mut Output) {
        output.passed(self.steps, self.is_still());
    }

    pub fn report(&self, output: &mut Output) {
        let members = self.members.iter().map(|member| {
            let state = if member.deleted { "deleted" } else { member.phase.name() };
            (state, &member.context, member.send.as_ref())
        });
        output.report(members, self.is_still());
    }

    /// Takes a step. There is none where it is not possible.
    fn take(&mut self, step: Step) -> Option<()> {
        match step {
            Step::Local(thread) => self.local(self.machine.thread(thread)?),
            Step::Begin(name) => self.begin(name),
            Step::Queue(name) => self.queue(self.undecided(name)?),
            Step::Deliver { name, receiver, shown, actual, tag, words } => {
                let ids = [receiver, shown, actual];
                self.deliver(self.undecided(name)?, ids, tag, words)
            }
            Step::Wait(thread) => self.wait(self.machine.thread(thread)?),
            Step::SendTimeout(name) => {
                let sender = self.undecided(name)?;
                let clock = self.clock(sender);
                self.refuse_if(sender, self.may_time_out(sender, clock), Code::SendTimeout)
            }
            Step::SendNobody(name) => {
                let sender = self.undecided(name)?;
                self.refuse_if(sender, self.goes_to_nobody(sender), Code::SendNobody)
            }
            Step::CancelSend(name) => {
                let sender = self.undecided(name)?;
                self.refuse_if(sender, self.may_cancel(sender), Code::SendCancelled)
            }
            Step::Drop(name) => {
                let sender = self.undecided(name)?;
                self.may_drop(sender).then(|| self.decide(sender))
            }
            Step::ReceiveTimeout(thread) => {
                let thread = self.machine.thread(thread)?;
                let clock = self.clock(thread);
                self.end_receive_if(thread, self.may_end_late(thread, clock), Code::ReceiveTimeout)
            }
            Step::ReceiveNobody(thread) => {
                let thread = self.machine.thread(thread)?;
                self.end_receive_if(thread, self.comes_from_nobody(thread), Code::ReceiveNobody)
            }
            Step::CancelReceive(thread) => {
                let thread = self.machine.thread(thread)?;
                let member = &self.members[thread];
                self.end_receive_if(thread, member.receives() && member.receive_wish, Code::ReceiveCancelled)
            }
            Step::Order { caller, target, order } => {
                self.order(self.machine.thread(caller)?, self.machine.thread(target)?, order)
            }
            Step::Obey(caller) => self.obey(self.machine.thread(caller)?),
            Step::Retarget(name) => self.retarget(self.machine.thread(name.sender)?, name.number),
            Step::Tick { cpu, clock } => {
                let now = self.clocks.get_mut(cpu).filter(|now| **now < clock)?;
                *now = clock;
                Some(())
            }
        }
    }

    fn clock(&self, thread: usize) -> u64 {
        self.clocks[self.machine.threads[thread].cpu]
    }

    /// The sender of an undecided send of this name.
    fn undecided(&self, name: Name) -> Option<usize> {
        let sender = self.machine.thread(name.sender)?;
        let member = &self.members[sender];
        (member.send.is_some() && member.context.begun == name.number).then_some(sender)
    }

    fn send_of(&self, sender: usize) -> &Send {
        self.members[sender].send.as_ref().expect("who waits or was looked up has an undecided send")
    }

    /// The declared thread that a send goes to, alive or not.
    fn receiver_of(&self, sender: usize) -> Option<usize> {
        match self.send_of(sender).to {
            Peer::Thread(receiver) => Some(receiver),
            _ => None,
        }
    }

    fn accepts(&self, receiver: usize, source: Peer, sender: usize) -> bool {
        self.machine.accepts(receiver, source, self.send_of(sender).shown)
    }

    fn first_accepted(&self, receiver: usize) -> Option<usize> {
        let source = self.members[receiver].source;
        self.waiting.senders(receiver).find(|&sender| self.accepts(receiver, source, sender))
    }

    /// Whether a send must wait since its receiver may not have turned to the sender yet.
    fn must_wait(&self, sender: usize) -> bool {
        !self.owed.is_empty() && {
            let to = self.send_of(sender).to;
            self.owed.iter().any(|owed| Peer::Thread(owed.originator) == to && owed.receiver == sender)
        }
    }

    // Whether steps about an undecided send, or about a thread, are possible.

    fn may_queue(&self, sender: usize) -> bool {
        let is_alive = self.receiver_of(sender).is_some_and(|receiver| !self.members[receiver].deleted);
        is_alive && !self.waiting.waits(sender) && !self.must_wait(sender)
    }

    /// The receiver that a send may be delivered to.
    fn deliverable(&self, sender: usize) -> Option<usize> {
        let receiver = self.receiver_of(sender).filter(|_| self.waiting.waits(sender))?;
        let may_be = self.members[receiver].receives() && self.first_accepted(receiver) == Some(sender);
        may_be.then_some(receiver)
    }

    fn may_time_out(&self, sender: usize, clock: u64) -> bool {
        let send = self.send_of(sender);
        let is_over = match send.period {
            None => false,
            Some(0) => self.may_refuse(sender),
            Some(period) => clock >= send.since + period && self.waiting.waits(sender),
        };
        is_over && !self.must_wait(sender)
    }

    /// Whether a send of time zero may be refused: its receiver neither accepts it nor is in the send phase of a call
    /// to a declared thread of another processor whose receive phase would accept it.
    fn may_refuse(&self, sender: usize) -> bool {
        let Some(receiver) = self.receiver_of(sender) else {
            return false;
        };
        let member = &self.members[receiver];
        if member.deleted {
            return false;
        }
        if member.phase == Phase::Receiving {
            return !self.accepts(receiver, member.source, sender);
        }
        match member.send {
            Some(Send { to: Peer::Thread(to), receive: Some(receive), .. }) => {
                let threads = &self.machine.threads;
                threads[to].cpu == threads[receiver].cpu || !self.accepts(receiver, receive.source, sender)
            }
            _ => true,
        }
    }

    fn is_nobody(&self, peer: Peer) -> bool {
        match peer {
            Peer::Thread(thread) => self.members[thread].deleted,
            _ => true,
        }
    }

    fn goes_to_nobody(&self, sender: usize) -> bool {
        self.is_nobody(self.send_of(sender).to) && !self.must_wait(sender)
    }

    fn may_cancel(&self, sender: usize) -> bool {
        self.members[sender].send_wish && self.waiting.waits(sender)
    }

    fn may_drop(&self, sender: usize) -> bool {
        self.members[sender].deleted && self.waiting.waits(sender)
    }

    fn receives_from_none(&self, thread: usize) -> bool {
        self.members[thread].receives() && self.first_accepted(thread).is_none()
    }

    fn may_end_late(&self, thread: usize, clock: u64) -> bool {
        let member = &self.members[thread];
        member.period.is_some_and(|period| clock >= member.since + period) && self.receives_from_none(thread)
    }

    fn comes_from_nobody(&self, thread: usize) -> bool {
        let is_nobody = match self.members[thread].source {
            Peer::Thread(source) => self.members[source].deleted,
            Peer::Stranger(_) => true,
            Peer::Nil | Peer::Any | Peer::AnyLocal => false,
        };
        is_nobody && self.receives_from_none(thread)
    }

    /// Whether no step but a tick is possible, now or after any ticks.
    fn is_still(&self) -> bool {
        self.owed.is_empty() && (0..self.members.len()).all(|thread| self.is_stuck(thread))
    }

    /// Whether no step but a tick is possible for this thread, even if it is as late as it can be.
    fn is_stuck(&self, thread: usize) -> bool {
        let member = &self.members[thread];
        let may_send = member.send.is_some()
            && (self.may_queue(thread)
                || self.deliverable(thread).is_some()
                || self.may_time_out(thread, LAST_CLOCK)
                || self.goes_to_nobody(thread)
                || self.may_cancel(thread)
                || self.may_drop(thread));
        let may_receive = self.may_end_late(thread, LAST_CLOCK)
            || self.comes_from_nobody(thread)
            || member.receives() && member.receive_wish;
        !(may_send || may_receive || member.order.is_some() || member.is_ready())
    }

    // What steps do.

    /// A send waits no longer, and no wish to cancel it is left.
    fn decide(&mut self, sender: usize) {
        if self.waiting.waits(sender) {
            if let Some(receiver) = self.receiver_of(sender) {
                self.waiting.remove(receiver, sender);
            }
        }
        let member = &mut self.members[sender];
        member.send_wish = false;
        member.send = None;
    }

    fn refuse_if(&mut self, sender: usize, is_possible: bool, code: Code) -> Option<()> {
        is_possible.then(|| {
            self.decide(sender);
            self.members[sender].fail(code);
        })
    }

    fn end_receive_if(&mut self, thread: usize, is_possible: bool, code: Code) -> Option<()> {
        is_possible.then(|| self.members[thread].fail(code))
    }

    fn local(&mut self, thread: usize) -> Option<()> {
        let machine = self.machine;
        let member = &mut self.members[thread];
        let instruction = machine.instruction(thread, member.context.place);
        let concerns_nobody_else = match *instruction {
            Instruction::Ipc(ref ipc) => ipc.from == Peer::Nil && member.context.destination(ipc) == Peer::Nil,
            Instruction::Order(target, order) => machine.admitted(thread, target, order).is_none(),
            _ => true,
        };
        (member.is_ready() && concerns_nobody_else).then(|| {
            if !member.context.run(instruction, machine.format.mask()) {
                member.phase = Phase::Ended;
            }
        })
    }

    /// The ipc that a ready thread is at.
    fn ready_ipc(&self, thread: usize) -> Option<&Ipc> {
        let member = &self.members[thread];
        match self.machine.instruction(thread, member.context.place) {
            Instruction::Ipc(ipc) if member.is_ready() => Some(ipc),
            _ => None,
        }
    }

    fn begin(&mut self, name: Name) -> Option<()> {
        let sender = self.machine.thread(name.sender)?;
        let ipc = *self.ready_ipc(sender)?;
        let since = self.clock(sender);
        let member = &mut self.members[sender];
        if member.context.destination(&ipc) == Peer::Nil || Some(name.number) != member.context.begun.checked_add(1) {
            return None;
        }
        member.send = Some(member.context.begin(self.machine, sender, &ipc, since, self.begun));
        member.phase = Phase::Sending;
        self.begun += 1;
        Some(())
    }

    fn queue(&mut self, sender: usize) -> Option<()> {
        let receiver = self.receiver_of(sender).filter(|_| self.may_queue(sender))?;
        self.waiting.push(receiver, sender);
        Some(())
    }

    fn deliver(&mut self, sender: usize, ids: [u64; 3], tag: u64, words: &[u64]) -> Option<()> {
        let receiver = self.deliverable(sender)?;
        let send = *self.send_of(sender);
        let said = [receiver, send.shown, sender].map(|thread| self.machine.threads[thread].id);
        let context = &self.members[sender].context;
        if ids != said || tag != send.tag || words != &context.registers[1..=send.count()] {
            return None;
        }
        let owed = send.owed(self.machine, sender, context.begun, receiver);
        self.owed.extend(owed);
        self.decide(sender);
        let since = self.clock(sender);
        let Ok([sending, receiving]) = self.members.get_disjoint_mut([sender, receiver]) else {
            unreachable!("who receives sends nothing")
        };
        receiving.context.receive(&send, sender, &sending.context.registers);
        receiving.phase = Phase::Ready;
        receiving.receive_wish = false;
        if sending.deleted {
            return Some(());
        }
        if let Some(receive) = send.receive {
            sending.begin_receive(receive.source, since, receive.period);
        } else {
            sending.context.end_well();
            sending.receive_wish = false;
            sending.phase = Phase::Ready;
        }
        Some(())
    }

    fn wait(&mut self, thread: usize) -> Option<()> {
        let ipc = *self.ready_ipc(thread)?;
        let since = self.clock(thread);
        let member = &mut self.members[thread];
        let is_wait = member.context.destination(&ipc) == Peer::Nil && ipc.from != Peer::Nil;
        is_wait.then(|| {
            member.context.place += 1;
            member.begin_receive(ipc.from, since, ipc.receive_period);
        })
    }

    fn order(&mut self, caller: usize, target: usize, order: Order) -> Option<()> {
        let member = &mut self.members[caller];
        let is_there = match *self.machine.instruction(caller, member.context.place) {
            Instruction::Order(to, what) => what == order && self.machine.admitted(caller, to, what) == Some(target),
            _ => false,
        };
        (is_there && member.is_ready()).then(|| {
            member.phase = Phase::Ordering;
            member.order = Some((target, order));
        })
    }

    fn obey(&mut self, caller: usize) -> Option<()> {
        let (target, order) = self.members[caller].order.take()?;
        let member = &mut self.members[target];
        match order {
            _ if member.deleted => {}
            Order::Delete => {
                member.deleted = true;
                member.receive_wish = false;
            }
            Order::Cancel { send, receive } => {
                let is_sending = member.phase == Phase::Sending;
                let is_call = member.send.is_some_and(|send| send.receive.is_some());
                member.send_wish |= send && is_sending;
                member.receive_wish |= receive && (member.phase == Phase::Receiving || is_sending && is_call);
            }
        }
        let member = &mut self.members[caller];
        if !member.deleted {
            member.context.end_order();
            member.phase = Phase::Ready;
        }
        Some(())
    }

    fn retarget(&mut self, sender: usize, number: u64) -> Option<()> {
        let place = self.owed.iter().position(|owed| owed.sender == sender && owed.number == number)?;
        let owed = self.owed.remove(place);
        let member = &mut self.members[owed.originator];
        let source = match (member.phase, &mut member.send) {
            _ if member.deleted => return Some(()),
            (Phase::Receiving, _) => &mut member.source,
            (Phase::Sending, Some(Send { receive: Some(receive), .. })) => &mut receive.source,
            _ => return Some(()),
        };
        if *source == Peer::Thread(owed.sender) {
            *source = Peer::Thread(owed.receiver);
        }
        Some(())
    }
}
