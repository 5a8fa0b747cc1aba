//! Processors at work: what a turn of one does, and what they tell each other by letters.

use crate::context::{Code, Context, Phase, Retarget, Send};
use crate::lists::{Deadlines, Marked, Waiting};
use crate::machine::{Instruction, Ipc, Machine, Order, Peer};
use crate::told::Output;
use crate::words::LAST_CLOCK;
use std::collections::VecDeque;

/// How a send is decided.
#[derive(Clone, Copy, PartialEq, Eq)]
enum Decision {
    Delivered,
    TimedOut,
    Nobody,
    Cancelled,
    Dropped,
}

impl Decision {
    fn verb(self) -> &'static str {
        match self {
            Decision::Delivered => "deliver",
            Decision::TimedOut => "stimeout",
            Decision::Nobody => "snobody",
            Decision::Cancelled => "scancel",
            Decision::Dropped => "drop",
        }
    }
}

/// What a processor tells another one. Threads are named by their indices; a send by its sender, who has one at most.
enum Letter {
    Send(usize),
    Done(usize, Decision),
    Withdraw { sender: usize, receiver: usize, why: Decision },
    Gone(usize),
    Order { caller: usize, target: usize, order: Order },
    OrderDone(usize),
    Retarget(Retarget),
}

/// What is to be done for a thread before any instruction runs.
enum Duty {
    Retarget { receiver: usize },
    Refuse { sender: usize, why: Decision },
    TellDeletion { thread: usize, cpu: usize },
    EndReceive { thread: usize, verb: &'static str, code: Code },
    Deliver { receiver: usize, sender: usize },
}

/// An entry of a schedule. Where what it asks for can't be done, nothing happens.
#[derive(Clone, Copy)]
pub enum Entry {
    Turn { cpu: usize },
    OwnTurn { cpu: usize },
    TakeLetter { cpu: usize, poster: usize },
    Tick { cpu: usize },
    TickTo { cpu: usize, clock: u64 },
}

impl Entry {
    /// The processors that it names.
    pub fn cpus(self) -> [usize; 2] {
        match self {
            Entry::TakeLetter { cpu, poster } => [cpu, poster],
            Entry::Turn { cpu } | Entry::OwnTurn { cpu } | Entry::Tick { cpu } | Entry::TickTo { cpu, .. } => {
                [cpu, cpu]
            }
        }
    }
}

/// A thread as its own processor has it.
struct Thread {
    context: Context,
    phase: Phase,
    deleted: bool,
    send: Option<Send>,
    /// The send was posted to another processor.
    away: bool,
    /// What the letter under way says of the send, which is decided elsewhere.
    decided: Option<Decision>,
    /// What was ordered is done elsewhere, and the letter under way.
    obeyed: bool,
    send_wish: bool,
    receive_wish: bool,
    /// The source of the receive phase.
    source: Peer,
    /// How many processors were told, or need not be told, that the thread is deleted, from the lowest up.
    told: usize,
    /// A bit for each processor that knows that the thread is deleted.
    gone_at: u64,
    owed: Option<Retarget>,
    /// How many sends without time wait at this thread.
    hasty: usize,
}

impl Thread {
    fn new() -> Thread {
        Thread {
            context: Context::new(),
            phase: Phase::Ready,
            deleted: false,
            send: None,
            away: false,
            decided: None,
            obeyed: false,
            send_wish: false,
            receive_wish: false,
            source: Peer::Nil,
            told: 0,
            gone_at: 0,
            owed: None,
            hasty: 0,
        }
    }

    fn is_call(&self) -> bool {
        self.send.as_ref().is_some_and(|send| send.receive.is_some())
    }

    fn is_sending(&self) -> bool {
        self.phase == Phase::Sending
    }

    fn is_receiving(&self) -> bool {
        self.phase == Phase::Receiving
    }

    /// What becomes of the registers of a sender that receives nothing.
    fn hear(&mut self, decision: Decision) {
        match decision {
            Decision::Delivered => self.context.end_well(),
            Decision::TimedOut => self.context.fail(Code::SendTimeout),
            Decision::Nobody => self.context.fail(Code::SendNobody),
            Decision::Cancelled => self.context.fail(Code::SendCancelled),
            Decision::Dropped => {}
        }
    }
}

struct Processor {
    clock: u64,
    ready: VecDeque<usize>,
    deadlines: Deadlines,
    /// The threads for which something may be to be done.
    duties: Marked,
    /// The letters of each other processor, and how many these are.
    mail: Vec<VecDeque<Letter>>,
    letters: usize,
}

pub struct Processors<'a> {
    machine: &'a Machine,
    threads: Vec<Thread>,
    waiting: Waiting,
    processors: Vec<Processor>,
    begun: u64,
    /// Where steps are told, if they are.
    trace: Option<Output<'a>>,
}

impl<'a> Processors<'a> {
    pub fn new(machine: &'a Machine, trace: Option<Output<'a>>) -> Processors<'a> {
        let count = machine.threads.len();
        let processor = |cpu| Processor {
            clock: 0,
            ready: (0..count).filter(|&thread| machine.threads[thread].cpu == cpu).collect(),
            deadlines: Deadlines::new(count),
            duties: Marked::new(count),
            mail: (0..machine.cpus).map(|_| VecDeque::new()).collect(),
            letters: 0,
        };
        Processors {
            machine,
            threads: (0..count).map(|_| Thread::new()).collect(),
            waiting: Waiting::new(count),
            processors: (0..machine.cpus).map(processor).collect(),
            begun: 0,
            trace,
        }
    }

    /// So many turns and ticks of a machine of one processor, or fewer where it comes to rest.
    pub fn run(&mut self, turns: u64) {
        for _ in 0..turns {
            if !self.turn(0) && !self.tick(0) {
                break;
            }
        }
    }

    pub fn take(&mut self, entry: Entry) {
        match entry {
            Entry::Turn { cpu } => {
                self.turn(cpu);
            }
            Entry::OwnTurn { cpu } => {
                self.own_turn(cpu);
            }
            Entry::TakeLetter { cpu, poster } => {
                self.take_letter(cpu, poster);
            }
            Entry::Tick { cpu } => {
                self.tick(cpu);
            }
            Entry::TickTo { cpu, clock } => {
                self.tick_to(cpu, clock);
            }
        }
    }

    /// Whether no processor has anything to do, nothing is armed and no letter is under way.
    pub fn is_at_rest(&mut self) -> bool {
        (0..self.machine.cpus).all(|cpu| {
            let processor = &self.processors[cpu];
            let is_idle = processor.letters == 0 && processor.deadlines.is_empty() && processor.ready.is_empty();
            is_idle && self.next_duty(cpu).is_none()
        })
    }

    /// Where the trace was told.
    pub fn into_trace(self) -> Option<Output<'a>> {
        self.trace
    }

    /// Prints the world that all told steps have reached: each thread as its processor will have it once the letter
    /// about its send or its order is handled.
    pub fn report(mut self, output: &mut Output, is_quiet: bool) {
        for thread in 0..self.threads.len() {
            let cpu = self.machine.threads[thread].cpu;
            if let Some(decision) = self.threads[thread].decided {
                self.end_send(cpu, thread, decision);
            }
            if self.threads[thread].obeyed {
                self.end_order(cpu, thread);
            }
        }
        let threads = self.threads.iter().map(|thread| {
            let state = if thread.deleted { "deleted" } else { thread.phase.name() };
            (state, &thread.context, thread.send.as_ref())
        });
        output.report(threads, is_quiet);
    }

    // What is told.

    fn tell(&mut self, verb: &str, thread: usize) {
        if let Some(trace) = &mut self.trace {
            trace.of_thread(verb, thread);
        }
    }

    /// A step about the last send of this thread.
    fn tell_send(&mut self, verb: &str, sender: usize) {
        if let Some(trace) = &mut self.trace {
            trace.of_send(verb, sender, self.threads[sender].context.begun);
        }
    }

    fn cpu(&self, thread: usize) -> usize {
        self.machine.threads[thread].cpu
    }

    fn post(&mut self, from: usize, to: usize, letter: Letter) {
        self.processors[to].mail[from].push_back(letter);
        self.processors[to].letters += 1;
    }

    // Turns and ticks. Each answers whether something was done.

    fn turn(&mut self, cpu: usize) -> bool {
        if self.processors[cpu].letters == 0 {
            return self.own_turn(cpu);
        }
        (0..self.machine.cpus).any(|poster| self.take_letter(cpu, poster))
    }

    fn take_letter(&mut self, cpu: usize, poster: usize) -> bool {
        let Some(letter) = self.processors[cpu].mail[poster].pop_front() else {
            return false;
        };
        self.processors[cpu].letters -= 1;
        self.handle(cpu, letter);
        true
    }

    fn own_turn(&mut self, cpu: usize) -> bool {
        if let Some(duty) = self.next_duty(cpu) {
            self.fulfil(cpu, duty);
            return true;
        }
        let processor = &mut self.processors[cpu];
        if let Some(thread) = processor.deadlines.past(processor.clock) {
            self.time_out(cpu, thread);
            return true;
        }
        let Some(thread) = processor.ready.pop_front() else {
            return false;
        };
        self.step(cpu, thread);
        true
    }

    fn tick(&mut self, cpu: usize) -> bool {
        let least = self.processors[cpu].deadlines.least();
        least.is_some_and(|least| self.tick_to(cpu, least))
    }

    fn tick_to(&mut self, cpu: usize, clock: u64) -> bool {
        let now = &mut self.processors[cpu].clock;
        let goes_on = *now < clock && clock <= LAST_CLOCK;
        if goes_on {
            *now = clock;
            if let Some(trace) = &mut self.trace {
                trace.tick(cpu, clock);
            }
        }
        goes_on
    }

    // How phases begin and end. What a thread may be in for by that is looked at in the next turn.

    fn set_phase(&mut self, cpu: usize, index: usize, phase: Phase) {
        let thread = &mut self.threads[index];
        thread.phase = phase;
        if thread.hasty > 0 {
            self.processors[cpu].duties.add(index);
        }
    }

    fn make_ready(&mut self, cpu: usize, thread: usize) {
        self.set_phase(cpu, thread, Phase::Ready);
        self.processors[cpu].ready.push_back(thread);
    }

    fn end_ipc(&mut self, cpu: usize, thread: usize) {
        self.threads[thread].receive_wish = false;
        self.make_ready(cpu, thread);
    }

    fn arm(&mut self, cpu: usize, thread: usize, period: Option<u64>) {
        if let Some(period) = period {
            let processor = &mut self.processors[cpu];
            processor.deadlines.arm(thread, processor.clock + period);
        }
    }

    fn begin_receive(&mut self, cpu: usize, index: usize, source: Peer, period: Option<u64>) {
        self.set_phase(cpu, index, Phase::Receiving);
        let thread = &mut self.threads[index];
        thread.source = source;
        if thread.receive_wish || self.waiting.first(index).is_some() || self.is_nobody(cpu, source) {
            self.processors[cpu].duties.add(index);
        }
        self.arm(cpu, index, period);
    }

    fn end_receive(&mut self, cpu: usize, thread: usize, verb: &str, code: Code) {
        self.tell(verb, thread);
        self.processors[cpu].deadlines.disarm(thread);
        self.threads[thread].context.fail(code);
        self.end_ipc(cpu, thread);
    }

    /// A thread of this processor hears how its send was decided.
    fn end_send(&mut self, cpu: usize, sender: usize, decision: Decision) {
        self.processors[cpu].deadlines.disarm(sender);
        let thread = &mut self.threads[sender];
        let receive = thread.send.take().and_then(|send| send.receive);
        (thread.away, thread.send_wish, thread.decided) = (false, false, None);
        if thread.deleted {
            return;
        }
        match receive {
            Some(receive) if decision == Decision::Delivered => {
                self.begin_receive(cpu, sender, receive.source, receive.period);
            }
            _ => {
                thread.hear(decision);
                self.end_ipc(cpu, sender);
            }
        }
    }

    fn end_order(&mut self, cpu: usize, caller: usize) {
        let thread = &mut self.threads[caller];
        thread.obeyed = false;
        if !thread.deleted {
            thread.context.end_order();
            self.make_ready(cpu, caller);
        }
    }

    // How sends are decided, by the receiver's processor, or the sender's where they go to nobody.

    fn send_of(&self, sender: usize) -> &Send {
        self.threads[sender].send.as_ref().expect("a send that is dealt with is undecided")
    }

    fn first_accepted(&self, receiver: usize) -> Option<usize> {
        let source = self.threads[receiver].source;
        self.waiting.senders(receiver).find(|&sender| self.accepts(receiver, source, sender))
    }

    fn accepts(&self, receiver: usize, source: Peer, sender: usize) -> bool {
        self.machine.accepts(receiver, source, self.send_of(sender).shown)
    }

    /// Whether a send without time is refused at this receiver. It is not at one that would receive it, nor at one in
    /// the send phase of a call to another processor that would receive it then: whether that was decided is not
    /// known here.
    fn may_refuse(&self, receiver: usize, sender: usize) -> bool {
        let thread = &self.threads[receiver];
        if thread.is_receiving() {
            return !self.accepts(receiver, thread.source, sender);
        }
        let call = thread.send.as_ref().filter(|_| thread.away).and_then(|send| send.receive);
        !call.is_some_and(|receive| self.accepts(receiver, receive.source, sender))
    }

    /// The send waits no longer, and its sender hears of it.
    fn decide(&mut self, cpu: usize, sender: usize, decision: Decision) {
        if self.waiting.waits(sender) {
            let send = self.send_of(sender);
            let is_hasty = send.period == Some(0);
            if let Peer::Thread(receiver) = send.to {
                self.waiting.remove(receiver, sender);
                self.threads[receiver].hasty -= usize::from(is_hasty);
            }
        }
        let home = self.cpu(sender);
        if home == cpu {
            self.end_send(cpu, sender, decision);
        } else {
            self.threads[sender].decided = Some(decision);
            self.post(cpu, home, Letter::Done(sender, decision));
        }
    }

    fn refuse(&mut self, cpu: usize, sender: usize, why: Decision) {
        self.tell_send(why.verb(), sender);
        self.decide(cpu, sender, why);
    }

    fn deliver(&mut self, cpu: usize, receiver: usize, sender: usize) {
        let Ok([sending, receiving]) = self.threads.get_disjoint_mut([sender, receiver]) else {
            unreachable!("who receives sends nothing")
        };
        let send = sending.send.as_ref().expect("a send that is delivered is undecided");
        let owed = send.owed(self.machine, sender, sending.context.begun, receiver);
        if let Some(trace) = &mut self.trace {
            trace.deliver(sender, &sending.context, receiver, send);
        }
        receiving.context.receive(send, sender, &sending.context.registers);
        self.processors[cpu].deadlines.disarm(receiver);
        self.end_ipc(cpu, receiver);
        self.decide(cpu, sender, Decision::Delivered);
        if let Some(owed) = owed {
            self.owe(cpu, owed);
        }
    }

    /// A send has come to the processor of its receiver.
    fn arrive(&mut self, cpu: usize, sender: usize, receiver: usize) {
        let is_hasty = self.send_of(sender).period == Some(0);
        if self.threads[receiver].deleted {
            self.refuse(cpu, sender, Decision::Nobody);
        } else if is_hasty && self.may_refuse(receiver, sender) {
            self.refuse(cpu, sender, Decision::TimedOut);
        } else {
            self.tell_send("queue", sender);
            if self.is_awaited(receiver, sender) {
                return self.deliver(cpu, receiver, sender);
            }
            self.waiting.push(receiver, sender);
            self.threads[receiver].hasty += usize::from(is_hasty);
        }
    }

    /// Whether a receiver waits for this send, and accepts none of those that wait at it.
    fn is_awaited(&self, receiver: usize, sender: usize) -> bool {
        let thread = &self.threads[receiver];
        thread.is_receiving()
            && self.accepts(receiver, thread.source, sender)
            && self.first_accepted(receiver).is_none()
    }

    fn withdraw(&mut self, cpu: usize, sender: usize, why: Decision) {
        if let Peer::Thread(receiver) = self.send_of(sender).to {
            self.post(cpu, self.cpu(receiver), Letter::Withdraw { sender, receiver, why });
        }
    }

    // Retargets.

    /// The originator turns by a duty of the receiver, or where it has another processor, by a letter.
    fn owe(&mut self, cpu: usize, owed: Retarget) {
        let home = self.cpu(owed.originator);
        if home == cpu {
            self.threads[owed.receiver].owed = Some(owed);
            self.processors[cpu].duties.add(owed.receiver);
        } else {
            self.post(cpu, home, Letter::Retarget(owed));
        }
    }

    fn retarget(&mut self, cpu: usize, owed: Retarget) {
        if let Some(trace) = &mut self.trace {
            trace.of_send("retarget", owed.sender, owed.number);
        }
        let thread = &mut self.threads[owed.originator];
        let source = match (thread.phase, &mut thread.send) {
            _ if thread.deleted => return,
            (Phase::Receiving, _) => &mut thread.source,
            (Phase::Sending, Some(Send { receive: Some(receive), .. })) => &mut receive.source,
            _ => return,
        };
        if *source == Peer::Thread(owed.sender) {
            *source = Peer::Thread(owed.receiver);
            self.processors[cpu].duties.add(owed.originator);
        }
    }

    // Orders.

    fn obey(&mut self, cpu: usize, caller: usize, target: usize, order: Order) {
        self.tell("obey", caller);
        if self.threads[target].deleted {
            return;
        }
        match order {
            Order::Delete => self.delete(cpu, target),
            Order::Cancel { send, receive } => self.cancel(cpu, target, send, receive),
        }
    }

    fn delete(&mut self, cpu: usize, target: usize) {
        let thread = &mut self.threads[target];
        // What was done elsewhere before the deletion is known to the world, whenever its letter comes.
        match thread.decided {
            Some(Decision::Delivered) if thread.is_call() => {}
            Some(decision) => thread.hear(decision),
            None => {}
        }
        if thread.obeyed {
            thread.context.end_order();
        }
        thread.deleted = true;
        thread.receive_wish = false;
        let is_away = thread.away;
        let processor = &mut self.processors[cpu];
        processor.deadlines.disarm(target);
        processor.ready.retain(|&ready| ready != target);
        processor.duties.add(target);
        self.know_deleted(cpu, target);
        if is_away {
            self.withdraw(cpu, target, Decision::Dropped);
        }
    }

    /// This processor hears of a deletion: who receives from the thread receives from nobody.
    fn know_deleted(&mut self, cpu: usize, deleted: usize) {
        self.threads[deleted].gone_at |= 1 << cpu;
        for (index, thread) in self.threads.iter().enumerate() {
            if self.machine.threads[index].cpu == cpu && thread.is_receiving() {
                self.processors[cpu].duties.add(index);
            }
        }
    }

    /// A phase is to be cancelled where the thread is in it, a receive phase also where it is to follow.
    fn cancel(&mut self, cpu: usize, target: usize, send: bool, receive: bool) {
        let thread = &mut self.threads[target];
        if receive && (thread.is_receiving() || thread.is_sending() && thread.is_call()) {
            thread.receive_wish = true;
        }
        self.processors[cpu].duties.add(target);
        if send && thread.away {
            self.withdraw(cpu, target, Decision::Cancelled);
        } else if send && thread.is_sending() {
            thread.send_wish = true;
        }
    }

    // Duties.

    /// The first thing that is to be done for the threads of a processor, in order of declaration.
    fn next_duty(&mut self, cpu: usize) -> Option<Duty> {
        while let Some(thread) = self.processors[cpu].duties.first() {
            let duty = self.duty_of(cpu, thread);
            if duty.is_some() {
                return duty;
            }
            self.processors[cpu].duties.remove(thread);
        }
        None
    }

    fn duty_of(&self, cpu: usize, index: usize) -> Option<Duty> {
        let thread = &self.threads[index];
        if thread.owed.is_some() {
            return Some(Duty::Retarget { receiver: index });
        }
        if thread.deleted {
            return self.duty_of_deleted(cpu, index);
        }
        if thread.send_wish {
            return Some(Duty::Refuse { sender: index, why: Decision::Cancelled });
        }
        if thread.is_receiving() {
            if thread.receive_wish {
                return Some(Duty::EndReceive { thread: index, verb: "rcancel", code: Code::ReceiveCancelled });
            }
            if let Some(sender) = self.first_accepted(index) {
                return Some(Duty::Deliver { receiver: index, sender });
            }
            if self.is_nobody(cpu, thread.source) {
                return Some(Duty::EndReceive { thread: index, verb: "rnobody", code: Code::ReceiveNobody });
            }
        }
        if thread.hasty == 0 {
            return None;
        }
        let is_refused = |&sender: &usize| self.send_of(sender).period == Some(0) && self.may_refuse(index, sender);
        let sender = self.waiting.senders(index).find(is_refused)?;
        Some(Duty::Refuse { sender, why: Decision::TimedOut })
    }

    fn duty_of_deleted(&self, cpu: usize, index: usize) -> Option<Duty> {
        let thread = &self.threads[index];
        if thread.send.is_some() && !thread.away {
            return Some(Duty::Refuse { sender: index, why: Decision::Dropped });
        }
        if let Some(sender) = self.waiting.first(index) {
            return Some(Duty::Refuse { sender, why: Decision::Nobody });
        }
        let next = thread.told + usize::from(thread.told == cpu);
        (next < self.machine.cpus).then_some(Duty::TellDeletion { thread: index, cpu: next })
    }

    /// Whether it is known here that the source of a receive phase is nobody.
    fn is_nobody(&self, cpu: usize, source: Peer) -> bool {
        match source {
            Peer::Thread(thread) => self.threads[thread].gone_at & 1 << cpu != 0,
            Peer::Stranger(_) => true,
            Peer::Nil | Peer::Any | Peer::AnyLocal => false,
        }
    }

    fn fulfil(&mut self, cpu: usize, duty: Duty) {
        match duty {
            Duty::Retarget { receiver } => {
                if let Some(owed) = self.threads[receiver].owed.take() {
                    self.retarget(cpu, owed);
                }
            }
            Duty::Refuse { sender, why } => self.refuse(cpu, sender, why),
            Duty::TellDeletion { thread, cpu: to } => {
                self.post(cpu, to, Letter::Gone(thread));
                self.threads[thread].told = to + 1;
            }
            Duty::EndReceive { thread, verb, code } => self.end_receive(cpu, thread, verb, code),
            Duty::Deliver { receiver, sender } => self.deliver(cpu, receiver, sender),
        }
    }

    // What a processor does by itself.

    /// The phase with the least deadline is over. A send that was posted to another processor is asked back from there.
    fn time_out(&mut self, cpu: usize, thread: usize) {
        self.processors[cpu].deadlines.disarm(thread);
        if self.threads[thread].is_receiving() {
            self.end_receive(cpu, thread, "rtimeout", Code::ReceiveTimeout);
        } else if self.threads[thread].away {
            self.withdraw(cpu, thread, Decision::TimedOut);
        } else {
            self.refuse(cpu, thread, Decision::TimedOut);
        }
    }

    /// A ready thread runs its next instruction.
    fn step(&mut self, cpu: usize, index: usize) {
        let machine = self.machine;
        let context = &mut self.threads[index].context;
        let instruction = machine.instruction(index, context.place);
        match *instruction {
            Instruction::Ipc(ref ipc) => {
                if context.destination(ipc) != Peer::Nil {
                    return self.begin_send(cpu, index, ipc);
                }
                if ipc.from != Peer::Nil {
                    context.place += 1;
                    self.tell("wait", index);
                    return self.begin_receive(cpu, index, ipc.from, ipc.receive_period);
                }
            }
            Instruction::Order(target, order) => {
                if let Some(target) = machine.admitted(index, target, order) {
                    return self.order(cpu, index, target, order);
                }
            }
            _ => {}
        }
        if context.run(instruction, machine.format.mask()) {
            self.processors[cpu].ready.push_back(index);
        } else {
            self.threads[index].phase = Phase::Ended;
        }
        self.tell("local", index);
    }

    fn order(&mut self, cpu: usize, caller: usize, target: usize, order: Order) {
        self.threads[caller].phase = Phase::Ordering;
        if let Some(trace) = &mut self.trace {
            trace.order(caller, target, order);
        }
        let home = self.cpu(target);
        if home == cpu {
            self.obey(cpu, caller, target, order);
            self.end_order(cpu, caller);
        } else {
            self.post(cpu, home, Letter::Order { caller, target, order });
        }
    }

    fn begin_send(&mut self, cpu: usize, sender: usize, ipc: &Ipc) {
        let clock = self.processors[cpu].clock;
        let thread = &mut self.threads[sender];
        let to = thread.context.destination(ipc);
        thread.send = Some(thread.context.begin(self.machine, sender, ipc, clock, self.begun));
        self.begun += 1;
        self.set_phase(cpu, sender, Phase::Sending);
        self.tell_send("begin", sender);
        let Peer::Thread(receiver) = to else {
            return self.refuse(cpu, sender, Decision::Nobody);
        };
        self.arm(cpu, sender, ipc.send_period.filter(|&period| period != 0));
        let home = self.cpu(receiver);
        if home == cpu {
            self.arrive(cpu, sender, receiver);
        } else {
            self.threads[sender].away = true;
            self.post(cpu, home, Letter::Send(sender));
        }
    }

    fn handle(&mut self, cpu: usize, letter: Letter) {
        match letter {
            Letter::Send(sender) => {
                if let Peer::Thread(receiver) = self.send_of(sender).to {
                    self.arrive(cpu, sender, receiver);
                }
            }
            Letter::Done(sender, decision) => self.end_send(cpu, sender, decision),
            Letter::Withdraw { sender, receiver, why } => {
                let waits_here = self.waiting.waits(sender) && self.send_of(sender).to == Peer::Thread(receiver);
                if waits_here {
                    self.refuse(cpu, sender, why);
                }
            }
            Letter::Gone(thread) => self.know_deleted(cpu, thread),
            Letter::Order { caller, target, order } => {
                self.obey(cpu, caller, target, order);
                self.threads[caller].obeyed = true;
                self.post(cpu, self.cpu(caller), Letter::OrderDone(caller));
            }
            Letter::OrderDone(caller) => self.end_order(cpu, caller),
            Letter::Retarget(owed) => self.retarget(cpu, owed),
        }
    }
}
