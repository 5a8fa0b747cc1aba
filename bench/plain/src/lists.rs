//! Lists of threads by their indices: who waits at whom, and whose time is over when.

/// For each thread the senders that wait at it, in order of arrival. A sender waits at one thread at most.
pub struct Waiting {
    ends: Vec<Ends>,
    links: Vec<Link>,
}

#[derive(Clone, Default)]
struct Ends {
    first: Option<usize>,
    last: Option<usize>,
}

#[derive(Clone, Default)]
struct Link {
    waits: bool,
    before: Option<usize>,
    behind: Option<usize>,
}

impl Waiting {
    pub fn new(count: usize) -> Waiting {
        Waiting { ends: vec![Ends::default(); count], links: vec![Link::default(); count] }
    }

    pub fn waits(&self, sender: usize) -> bool {
        self.links[sender].waits
    }

    pub fn first(&self, receiver: usize) -> Option<usize> {
        self.ends[receiver].first
    }

    pub fn senders(&self, receiver: usize) -> impl Iterator<Item = usize> + '_ {
        std::iter::successors(self.first(receiver), |&sender| self.links[sender].behind)
    }

    pub fn push(&mut self, receiver: usize, sender: usize) {
        let last = self.ends[receiver].last.replace(sender);
        match last {
            Some(last) => self.links[last].behind = Some(sender),
            None => self.ends[receiver].first = Some(sender),
        }
        self.links[sender] = Link { waits: true, before: last, behind: None };
    }

    pub fn remove(&mut self, receiver: usize, sender: usize) {
        let Link { before, behind, .. } = std::mem::take(&mut self.links[sender]);
        match before {
            Some(before) => self.links[before].behind = behind,
            None => self.ends[receiver].first = behind,
        }
        match behind {
            Some(behind) => self.links[behind].before = before,
            None => self.ends[receiver].last = before,
        }
    }
}

/// The armed deadlines of a processor, one for each thread at most: a heap, with the place of each thread in it.
pub struct Deadlines {
    heap: Vec<Deadline>,
    places: Vec<Option<usize>>,
    armed: u64,
}

/// Compared by clocks, and of one clock by the order of arming.
#[derive(Clone, Copy, PartialEq, Eq, PartialOrd, Ord)]
struct Deadline {
    clock: u64,
    order: u64,
    thread: usize,
}

impl Deadlines {
    pub fn new(count: usize) -> Deadlines {
        Deadlines { heap: Vec::new(), places: vec![None; count], armed: 0 }
    }

    pub fn is_empty(&self) -> bool {
        self.heap.is_empty()
    }

    pub fn least(&self) -> Option<u64> {
        self.heap.first().map(|least| least.clock)
    }

    pub fn arm(&mut self, thread: usize, clock: u64) {
        self.armed += 1;
        self.heap.push(Deadline { clock, order: self.armed, thread });
        self.rise(self.heap.len() - 1);
    }

    #[inline]
    pub fn disarm(&mut self, thread: usize) {
        if let Some(place) = self.places[thread].take() {
            self.remove(place);
        }
    }

    fn remove(&mut self, place: usize) {
        self.heap.swap_remove(place);
        if place < self.heap.len() {
            self.rise(place);
            self.sink(place);
        }
    }

    /// The thread whose deadline is past, the least first.
    pub fn past(&self, clock: u64) -> Option<usize> {
        self.heap.first().filter(|least| least.clock <= clock).map(|least| least.thread)
    }

    fn put(&mut self, place: usize, deadline: Deadline) {
        self.heap[place] = deadline;
        self.places[deadline.thread] = Some(place);
    }

    fn rise(&mut self, mut place: usize) {
        let deadline = self.heap[place];
        while place > 0 {
            let above = self.heap[(place - 1) / 2];
            if above <= deadline {
                break;
            }
            self.put(place, above);
            place = (place - 1) / 2;
        }
        self.put(place, deadline);
    }

    fn sink(&mut self, mut place: usize) {
        let deadline = self.heap[place];
        loop {
            let left = 2 * place + 1;
            let Some(&first) = self.heap.get(left) else { break };
            let (below, least) = match self.heap.get(left + 1) {
                Some(&second) if second < first => (left + 1, second),
                _ => (left, first),
            };
            if deadline <= least {
                break;
            }
            self.put(place, least);
            place = below;
        }
        self.put(place, deadline);
    }
}

const BITS: usize = u64::BITS as usize;

/// A set of threads, of which the first is found at once.
pub struct Marked {
    words: Vec<u64>,
    /// A bit for each word that is not zero. There are at most 1,024 threads.
    used: u64,
}

impl Marked {
    pub fn new(count: usize) -> Marked {
        Marked { words: vec![0; count.div_ceil(BITS)], used: 0 }
    }

    pub fn add(&mut self, thread: usize) {
        self.words[thread / BITS] |= 1 << (thread % BITS);
        self.used |= 1 << (thread / BITS);
    }

    pub fn remove(&mut self, thread: usize) {
        let word = &mut self.words[thread / BITS];
        *word &= !(1 << (thread % BITS));
        if *word == 0 {
            self.used &= !(1 << (thread / BITS));
        }
    }

    pub fn first(&self) -> Option<usize> {
        let word = (self.used != 0).then(|| self.used.trailing_zeros() as usize)?;
        Some(word * BITS + self.words[word].trailing_zeros() as usize)
    }
}
