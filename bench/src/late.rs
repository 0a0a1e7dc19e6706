//! The second profile, in which every read is granted and a job writes and ends by one publish: an arbiter that keeps the whole history, by the definitions,
//! one in bounded memory that holds for each cell which slots have it, both written apart from the project's own, and the proved one. Every reply is compared, and
//! every state of the two bounded ones; of each window the log with the open jobs taken out is to have an order, by two judges.
use crate::differ::any_port;
use crate::judge;
use crate::ours::{check, list, OursLate};
use crate::requests::*;
use reedtangle::State;

/// Four words of 64 marks, one for each cell.
pub type Cells = [u64; 4];

#[derive(Clone, Copy)]
pub enum Ask {
    Request(Request),
    Publish(u32, Cells),
}

/// The cells of a set, the lowest first.
pub fn named(cells: Cells) -> Vec<u8> {
    (0..=255u8)
        .filter(|&c| cells[c as usize / 64] >> (c % 64) & 1 == 1)
        .collect()
}

// ---- the whole history

#[derive(Clone, Copy, PartialEq)]
struct Event {
    kind: u8,
    job: u32,
    cell: u8,
}

/// Does the job of the earlier one precede that of the later one by these two? Two steps that conflict, or an end and an open after it.
fn precedes(x: Event, y: Event, in_time: bool) -> bool {
    let steps = [x.kind, y.kind].iter().all(|&k| k == READ || k == WRITE);
    let conflict = steps && x.cell == y.cell && (x.kind == WRITE || y.kind == WRITE);
    x.job != y.job && (conflict || (in_time && x.kind == END && y.kind == OPEN))
}

/// The precedences among jobs.
struct Graph {
    jobs: Vec<u32>,
    before: Vec<Vec<bool>>,
}

impl Graph {
    fn of(events: &[Event], in_time: bool) -> Graph {
        let mut jobs: Vec<u32> = events.iter().map(|e| e.job).collect();
        jobs.sort_unstable();
        jobs.dedup();
        let at: Vec<usize> = events
            .iter()
            .map(|e| jobs.binary_search(&e.job).unwrap())
            .collect();
        let mut before = vec![vec![false; jobs.len()]; jobs.len()];
        for b in 0..events.len() {
            for a in 0..b {
                if precedes(events[a], events[b], in_time) {
                    before[at[a]][at[b]] = true;
                }
            }
        }
        Graph { jobs, before }
    }

    /// Jobs that no job left precedes are taken out, until there is none: is one left?
    fn has_circle(&self) -> bool {
        let n = self.jobs.len();
        let mut left = vec![true; n];
        while let Some(j) =
            (0..n).find(|&j| left[j] && !(0..n).any(|i| left[i] && self.before[i][j]))
        {
            left[j] = false;
        }
        left.contains(&true)
    }

    /// Two jobs that precede each other.
    fn has_pair(&self) -> bool {
        let n = self.jobs.len();
        (0..n).any(|i| (0..i).any(|j| self.before[i][j] && self.before[j][i]))
    }
}

/// Everything that was granted, in time order; a publish as its writes, the lowest cell first, and its end.
pub struct WholeLate {
    first: u64,
    history: Vec<Event>,
    /// The port of each job, in the sequence of their opens.
    ports: Vec<u32>,
    /// Of the publishes with code 7: those whose every circle passes two ended jobs or more, those that would have none without the pairs of an end and a later open,
    /// and those that named no cell.
    pub chained: u64,
    pub by_time: u64,
    pub of_none: u64,
}

impl WholeLate {
    pub fn new(first: u32) -> WholeLate {
        WholeLate {
            first: first as u64,
            history: vec![],
            ports: vec![],
            chained: 0,
            by_time: 0,
            of_none: 0,
        }
    }

    fn has(&self, kind: u8, job: u32) -> bool {
        self.history.iter().any(|e| e.kind == kind && e.job == job)
    }

    fn is_open(&self, job: u32) -> bool {
        self.has(OPEN, job) && !self.has(END, job) && !self.has(ABANDON, job)
    }

    fn opened(&self) -> Vec<u32> {
        let opens = self.history.iter().filter(|e| e.kind == OPEN);
        opens.map(|e| e.job).collect()
    }

    pub fn open_jobs(&self) -> Vec<u32> {
        let mut jobs = self.opened();
        jobs.retain(|&j| self.is_open(j));
        jobs
    }

    /// How many jobs of the port are open?
    fn crowd(&self, port: u32) -> usize {
        let all = self.opened().into_iter().zip(&self.ports);
        all.filter(|&(j, &p)| p == port && self.is_open(j)).count()
    }

    fn grant(&mut self, kind: u8, job: u32, cell: u8) -> (u32, u32) {
        self.history.push(Event { kind, job, cell });
        (0, job)
    }

    fn request(&mut self, r: Request) -> (u32, u32) {
        let (cell, job) = (cell_of(r), job_of(r));
        match (r[0], r[1]) {
            (OPEN, 0) => {
                let number = self.first + self.opened().len() as u64;
                if number > u32::MAX as u64 {
                    return (6, 0);
                }
                if job > 2 {
                    return (8, 0);
                }
                if self.open_jobs().len() >= 32 {
                    return (5, 0);
                }
                if self.crowd(job) >= 16 {
                    return (9, 0);
                }
                self.ports.push(job);
                self.grant(OPEN, number as u32, 0)
            }
            (READ, 0) if cell > 255 => (2, 0),
            (READ, 0) if !self.is_open(job) => (3, 0),
            (READ, 0) => self.grant(READ, job, cell as u8),
            (ABANDON, 0) if !self.is_open(job) => (3, 0),
            (ABANDON, 0) if self.has(WRITE, job) => (4, 0),
            (ABANDON, 0) => self.grant(ABANDON, job, 0),
            _ => (1, 0),
        }
    }

    fn publish(&mut self, job: u32, cells: Cells) -> (u32, u32) {
        if !self.is_open(job) {
            return (3, 0);
        }
        let event = |kind, cell| Event { kind, job, cell };
        let mut published: Vec<Event> = named(cells).iter().map(|&c| event(WRITE, c)).collect();
        published.push(event(END, 0));
        let with: Vec<Event> = self.history.iter().chain(&published).copied().collect();
        let ended: Vec<u32> = with
            .iter()
            .filter(|e| e.kind == END)
            .map(|e| e.job)
            .collect();
        let tested: Vec<Event> = with
            .into_iter()
            .filter(|e| ended.contains(&e.job))
            .collect();
        let graph = Graph::of(&tested, true);
        if graph.has_circle() {
            self.chained += !graph.has_pair() as u64;
            self.by_time += !Graph::of(&tested, false).has_circle() as u64;
            self.of_none += (cells == [0; 4]) as u64;
            return (7, 0);
        }
        self.history.extend(published);
        (0, job)
    }

    pub fn ask(&mut self, a: Ask) -> (u32, u32) {
        match a {
            Ask::Request(r) => self.request(r),
            Ask::Publish(job, cells) => self.publish(job, cells),
        }
    }

    /// No job is open, and no number is left.
    fn is_spent(&self) -> bool {
        self.first + self.opened().len() as u64 > u32::MAX as u64 && self.open_jobs().is_empty()
    }

    /// The log with the jobs still open taken out.
    pub fn closed(&self) -> Vec<u8> {
        let open = self.open_jobs();
        let closed = self.history.iter().filter(|e| !open.contains(&e.job));
        closed
            .flat_map(|e| request(e.kind, 0, e.cell as u16, e.job))
            .collect()
    }
}

// ---- bounded memory

/// For each cell which slots have it, among own and among past, used and altered cells apart (a write is among both); and for each slot which ones it leads to, itself too.
#[derive(Clone, PartialEq)]
pub struct Columns {
    next: u64,
    free: u32,
    numbers: [u32; 32],
    leads: [u32; 32],
    own: [[u32; 256]; 2],
    past: [[u32; 256]; 2],
    /// for each slot the ports that have it, one of three marks each
    of: [u8; 32],
}

fn slots(mask: u32) -> impl Iterator<Item = usize> {
    (0..32).filter(move |i| mask >> i & 1 == 1)
}

impl Columns {
    pub fn of(s: &State) -> Columns {
        let mut c = Columns {
            next: s.next,
            free: s.free,
            numbers: s.numbers,
            leads: s.leads,
            own: [[0; 256]; 2],
            past: [[0; 256]; 2],
            of: std::array::from_fn(|i| {
                let mark = |p: usize| ((s.ports[p] >> i & 1) as u8) << p;
                mark(0) | mark(1) | mark(2)
            }),
        };
        for (w, word) in s.sets.iter().enumerate() {
            let (slot, kind, part) = (w / 16, w / 4 % 2, w % 4);
            let table = if w % 16 < 8 { &mut c.own } else { &mut c.past };
            for bit in 0..64 {
                table[kind][part * 64 + bit] |= ((word >> bit & 1) as u32) << slot;
            }
        }
        c
    }

    pub fn new(first: u32) -> Columns {
        Columns {
            next: first as u64,
            free: !0,
            numbers: [0; 32],
            leads: [0; 32],
            own: [[0; 256]; 2],
            past: [[0; 256]; 2],
            of: [0; 32],
        }
    }

    /// The state that says the same, row by row.
    pub fn state(&self) -> State {
        let mut sets = [0; 512];
        for (w, word) in sets.iter_mut().enumerate() {
            let (slot, kind, part) = (w / 16, w / 4 % 2, w % 4);
            let table = if w % 16 < 8 { &self.own } else { &self.past };
            for bit in 0..64 {
                *word |= ((table[kind][part * 64 + bit] >> slot & 1) as u64) << bit;
            }
        }
        State {
            next: self.next,
            free: self.free,
            numbers: self.numbers,
            leads: self.leads,
            sets,
            ports: [0, 1, 2].map(|p| {
                let has = (0..32).filter(|&i| self.of[i] >> p & 1 == 1);
                has.fold(0, |all, i| all | 1 << i)
            }),
        }
    }

    fn slot(&self, job: u32) -> Option<usize> {
        slots(!self.free).find(|&i| self.numbers[i] == job)
    }

    /// The slots that a step of slot s on a cell comes after: those with an own step that conflicts, s not, or a past one, s too.
    fn met(&self, s: usize, cell: usize, write: bool) -> u32 {
        let reads = if write { !0 } else { 0 };
        let own = self.own[1][cell] | self.own[0][cell] & reads;
        let past = self.past[1][cell] | self.past[0][cell] & reads;
        (own & !(1 << s) | past) & !self.free
    }

    fn lead(&mut self, from: u32, s: usize) {
        for i in slots(from) {
            self.leads[i] |= 1 << s;
        }
    }

    /// Slot s is left: those given take over what it has and where it leads, and nothing of it stays.
    fn leave(&mut self, s: usize, to: u32) {
        let me = 1u32 << s;
        for kind in 0..2 {
            for cell in 0..256 {
                let (own, past) = (&mut self.own[kind][cell], &mut self.past[kind][cell]);
                if (*own | *past) & me != 0 {
                    *past |= to;
                }
                *own &= !me;
                *past &= !me;
            }
        }
        let onward = self.leads[s] & !self.free;
        for i in slots(to) {
            self.leads[i] |= onward;
        }
        for l in &mut self.leads {
            *l &= !me;
        }
        self.leads[s] = 0;
        self.numbers[s] = 0;
        self.free |= me;
    }

    fn open(&mut self, port: u32) -> (u32, u32) {
        if self.next > u32::MAX as u64 {
            return (6, 0);
        }
        if port > 2 {
            return (8, 0);
        }
        if self.free == 0 {
            return (5, 0);
        }
        let crowd = slots(!self.free).filter(|&i| self.of[i] >> port & 1 == 1);
        if crowd.count() >= 16 {
            return (9, 0);
        }
        let s = self.free.trailing_zeros() as usize;
        let (number, open) = (self.next as u32, !self.free);
        self.leave(s, 0);
        let after = self.past.iter().flatten().fold(0, |all, slots| all | slots);
        self.lead(after & open, s);
        self.of[s] = 1 << port;
        self.numbers[s] = number;
        self.free &= !(1 << s);
        self.next += 1;
        (0, number)
    }

    fn publish(&mut self, job: u32, cells: Cells) -> (u32, u32) {
        let Some(s) = self.slot(job) else {
            return (3, 0);
        };
        let cells = named(cells);
        let met = cells
            .iter()
            .fold(0, |all, &c| all | self.met(s, c as usize, true));
        if (met | self.leads[s]) >> s & 1 == 1 {
            return (7, 0);
        }
        self.lead(met, s);
        for c in cells {
            // a write uses its cell and alters it
            self.own[0][c as usize] |= 1 << s;
            self.own[1][c as usize] |= 1 << s;
        }
        let others = slots(!self.free & !(1 << s)).filter(|&i| self.leads[i] >> s & 1 == 1);
        let to = others.fold(0, |all, i| all | 1 << i);
        self.leave(s, to);
        (0, job)
    }

    pub fn ask(&mut self, a: Ask) -> (u32, u32) {
        let r = match a {
            Ask::Request(r) => r,
            Ask::Publish(job, cells) => return self.publish(job, cells),
        };
        let (cell, job) = (cell_of(r) as usize, job_of(r));
        match (r[0], r[1], self.slot(job)) {
            (OPEN, 0, _) => self.open(job),
            (READ, 0, _) if cell > 255 => (2, 0),
            (READ | ABANDON, 0, None) => (3, 0),
            (READ, 0, Some(s)) => {
                self.lead(self.met(s, cell, false), s);
                self.own[0][cell] |= 1 << s;
                (0, job)
            }
            (ABANDON, 0, Some(s)) if self.own[1].iter().any(|slots| slots >> s & 1 == 1) => (4, 0),
            (ABANDON, 0, Some(s)) => {
                self.leave(s, 0);
                (0, job)
            }
            _ => (1, 0),
        }
    }
}

// ---- streams

#[derive(Clone, Copy, PartialEq, Debug)]
pub enum Shape {
    FewCells,
    ManyReaders,
    Retries,
    Chains,
    Abandons,
    WrongKinds,
    SlotsFull,
    NumbersOut,
    OnePort,
}

pub const LATE_SHAPES: [Shape; 9] = [
    Shape::FewCells,
    Shape::ManyReaders,
    Shape::Retries,
    Shape::Chains,
    Shape::Abandons,
    Shape::WrongKinds,
    Shape::SlotsFull,
    Shape::NumbersOut,
    Shape::OnePort,
];

/// Makes what is likely to be granted, and some that is not. It is told the replies, so that it knows which jobs are open and which publish got 7.
pub struct Stream {
    random: Random,
    shape: Shape,
    open: Vec<u32>,
    barred: Vec<(u32, Cells)>,
    last: Option<Ask>,
}

impl Stream {
    pub fn new(shape: Shape, seed: u64) -> Stream {
        Stream {
            random: Random::new(seed),
            shape,
            open: vec![],
            barred: vec![],
            last: None,
        }
    }

    pub fn first(&mut self) -> u32 {
        match self.shape {
            Shape::NumbersOut => u32::MAX - self.random.below(40) as u32,
            _ => self.random.below(3) as u32,
        }
    }

    fn most(&self) -> usize {
        match self.shape {
            Shape::FewCells => 10,
            Shape::ManyReaders => 24,
            Shape::Retries => 6,
            Shape::Chains => 5,
            Shape::Abandons => 10,
            Shape::WrongKinds => 8,
            Shape::SlotsFull => 33,
            Shape::NumbersOut => 20,
            Shape::OnePort => 33,
        }
    }

    /// A cell, among few that stand in all four words.
    fn cell(&mut self) -> u16 {
        let few = match self.shape {
            Shape::FewCells => 6,
            Shape::Retries => 10,
            Shape::Chains | Shape::Abandons => 16,
            Shape::ManyReaders => 40,
            Shape::NumbersOut => 60,
            Shape::WrongKinds | Shape::SlotsFull | Shape::OnePort => 256,
        };
        (self.random.below(few) * 37 % 256) as u16
    }

    /// None, a few, or now and then many.
    fn cells(&mut self) -> Cells {
        let mut cells = [0; 4];
        let count = match self.random.below(24) {
            0..=2 => 0,
            3 if self.shape != Shape::Chains => 20 + self.random.below(300),
            n => 1 + n % 4,
        };
        for _ in 0..count {
            let c = self.cell();
            cells[c as usize / 64] |= 1 << (c % 64);
        }
        cells
    }

    fn job(&mut self) -> u32 {
        match self.open.len() {
            0 => self.random.below(4) as u32,
            n => self.open[self.random.below(n as u64) as usize],
        }
    }

    pub fn ask(&mut self) -> Ask {
        let bad = if self.shape == Shape::WrongKinds {
            3
        } else {
            40
        };
        let a = if self.random.one_in(bad) {
            self.bad()
        } else {
            self.good()
        };
        self.last = Some(a);
        a
    }

    fn bad(&mut self) -> Ask {
        let (known, cell) = (self.job(), self.cell());
        let r = &mut self.random;
        Ask::Request(match r.below(7) {
            0 => request(r.next() as u8, 0, cell, known),
            1 => request(3 + r.below(4) as u8, 0, cell, known),
            2 => request(1 + r.below(6) as u8, 1 << r.below(8), cell, known),
            3 => {
                let job = if r.one_in(2) { known } else { r.next() as u32 };
                request(READ, 0, 256 + r.below(65280) as u16, job)
            }
            4 => request(
                [READ, ABANDON][r.below(2) as usize],
                0,
                cell,
                r.next() as u32,
            ),
            5 => r.next().to_le_bytes(),
            _ => {
                let job = known.wrapping_sub(1 + r.below(9) as u32);
                return Ask::Publish(job, self.cells());
            }
        })
    }

    fn good(&mut self) -> Ask {
        if !self.barred.is_empty() && self.random.one_in(2) {
            return self.retry();
        }
        let full =
            self.open.len() >= self.most() || (self.open.len() > 31 && !self.random.one_in(8));
        let eager =
            matches!(self.shape, Shape::SlotsFull | Shape::OnePort) && self.random.one_in(3);
        if self.open.is_empty() || (!full && (eager || self.random.one_in(4))) {
            let r = &mut self.random;
            let any = r.one_in(9);
            let cell = r.next() as u16 * any as u16;
            let port = port(r, self.shape == Shape::OnePort);
            return Ask::Request(request(OPEN, 0, cell, port));
        }
        let (job, cell) = (self.job(), self.cell());
        let (goes, gives_up) = match self.shape {
            Shape::ManyReaders => (8, 6),
            Shape::Chains => (3, 20),
            Shape::Abandons => (4, 2),
            Shape::SlotsFull | Shape::OnePort => (12, 6),
            _ => (4, 8),
        };
        if !self.random.one_in(goes) {
            return Ask::Request(request(READ, 0, cell, job));
        }
        if self.random.one_in(gives_up) {
            return Ask::Request(request(ABANDON, 0, cell, job));
        }
        Ask::Publish(job, self.cells())
    }

    /// After a 7: the same again, other cells, none, or the job is given up.
    fn retry(&mut self) -> Ask {
        let i = self.random.below(self.barred.len() as u64) as usize;
        let (job, cells) = self.barred[i];
        match self.random.below(6) {
            0 => Ask::Publish(job, cells),
            1 => Ask::Publish(job, [0; 4]),
            2 => Ask::Publish(job, self.cells()),
            3 if self.shape == Shape::Retries => Ask::Request(request(READ, 0, self.cell(), job)),
            _ => Ask::Request(request(ABANDON, 0, 0, job)),
        }
    }

    pub fn told(&mut self, code: u32, job: u32) {
        let left = match self.last {
            Some(Ask::Request(r)) if code == 0 && r[0] == OPEN => return self.open.push(job),
            Some(Ask::Request(r)) if r[0] == ABANDON => code == 0,
            Some(Ask::Publish(job, cells)) if code == 7 => return self.barred.push((job, cells)),
            Some(Ask::Publish(..)) => code == 0,
            _ => false,
        };
        if left {
            self.open.retain(|&j| j != job);
            self.barred.retain(|&(j, _)| j != job);
        }
    }
}

// ---- compared

#[derive(Default)]
struct Tally {
    asks: u64,
    codes: [u64; 10],
    publishes: u64,
    chained: u64,
    by_time: u64,
    of_none: u64,
    logs: u64,
    jobs: u64,
    differ: u64,
}

impl Tally {
    fn count(&mut self, a: Ask, code: u32, same: bool) {
        self.asks += 1;
        self.codes[code as usize] += 1;
        self.publishes += (code == 0 && matches!(a, Ask::Publish(..))) as u64;
        self.differ += !same as u64;
    }

    fn add(&mut self, t: &Tally) {
        for (sum, n) in self.codes.iter_mut().zip(t.codes) {
            *sum += n;
        }
        self.asks += t.asks;
        self.publishes += t.publishes;
        self.chained += t.chained;
        self.by_time += t.by_time;
        self.of_none += t.of_none;
        self.logs += t.logs;
        self.jobs += t.jobs;
        self.differ += t.differ;
    }
}

/// How many jobs the log's order has, where the plain judge finds one, the proved lister lists the same, and both checkers accept it.
fn ordered(log: &[u8]) -> Option<usize> {
    let (found, order) = judge::list(log, 512);
    let mut ours = [0; 512];
    let same = list(log, &mut ours) == found && ours[..order.len()] == order[..];
    let accepted = judge::check(log, &order) == found && check(log, &order) == found;
    (found.code == 0 && same && accepted).then_some(order.len())
}

/// A whole history is compared for so many asks, from a fresh state, or until its log is nearly full or no ask can be granted any more.
const WINDOW: u64 = 300;
const RECORDS: usize = 3700;

fn windows(shape: Shape, seed: u64, asks: u64) -> Tally {
    let mut t = Tally::default();
    let mut window = 0;
    while t.asks < asks {
        let mut s = Stream::new(shape, seed.wrapping_mul(3_000_017) + window);
        window += 1;
        let first = s.first();
        let (mut w, mut b, mut o) = (
            WholeLate::new(first),
            Columns::new(first),
            OursLate::new(first),
        );
        for _ in 0..WINDOW {
            let a = s.ask();
            let reply = w.ask(a);
            s.told(reply.0, reply.1);
            let same = b.ask(a) == reply && o.ask(a) == reply && *o.state() == b.state();
            t.count(a, reply.0, same);
            if w.history.len() > RECORDS || (reply.0 == 6 && w.is_spent()) {
                break;
            }
        }
        t.chained += w.chained;
        t.by_time += w.by_time;
        t.of_none += w.of_none;
        t.logs += 1;
        let ended = w.history.iter().filter(|e| e.kind == END).count();
        t.jobs += ended as u64;
        t.differ += (ordered(&w.closed()) != Some(ended)) as u64;
    }
    t
}

fn long(shape: Shape, seed: u64, asks: u64) -> Tally {
    let mut t = Tally::default();
    let mut s = Stream::new(shape, seed.wrapping_mul(9_000_011));
    let first = s.first();
    let (mut b, mut o) = (Columns::new(first), OursLate::new(first));
    while t.asks < asks {
        let a = s.ask();
        let reply = b.ask(a);
        s.told(reply.0, reply.1);
        let same = o.ask(a) == reply && (t.asks % 64 != 0 || *o.state() == b.state());
        t.count(a, reply.0, same);
        // numbers run out soon: start again
        if reply.0 == 6 && b.free == !0 {
            s = Stream::new(shape, seed.wrapping_mul(9_000_011) + t.asks);
            let first = s.first();
            (b, o) = (Columns::new(first), OursLate::new(first));
        }
    }
    t
}

/// A state of any content.
fn any_state(r: &mut Random, few: u64) -> State {
    let mut s = State {
        next: match r.below(5) {
            0 => r.next(),
            1 => (1 << 32) - 1 + r.below(3),
            2 => u64::MAX - r.below(2),
            _ => r.below(1000),
        },
        free: match r.below(4) {
            0 => r.next() as u32,
            1 => !(r.next() as u32 & r.next() as u32),
            2 => r.next() as u32 & r.next() as u32 & r.next() as u32,
            _ => 0,
        },
        numbers: [0; 32],
        leads: [0; 32],
        sets: [0; 512],
        ports: [0; 3].map(|_| any_port(r)),
    };
    let thin = r.below(6);
    for i in 0..32 {
        // from a few, so that some stand in two slots
        s.numbers[i] = if r.one_in(30) { r.next() } else { r.below(few) } as u32;
        s.leads[i] = (0..thin).fold(r.next() as u32, |l, _| l & r.next() as u32);
    }
    let full = r.one_in(8);
    for w in &mut s.sets {
        *w = match r.below(16) {
            _ if full => r.next(),
            0 => 1 << r.below(64),
            _ => 0,
        };
    }
    s
}

/// States that no requests give, and one ask of each.
fn made_up(seed: u64, states: u64) -> Tally {
    let mut t = Tally::default();
    let mut r = Random::new(seed.wrapping_mul(13_000_027));
    for _ in 0..states {
        let few = 1 + r.below(40);
        let state = any_state(&mut r, few);
        let open: Vec<usize> = slots(!state.free).collect();
        let job = match open.len() as u64 {
            n if n == 0 || r.one_in(10) => r.below(few) as u32,
            n => state.numbers[open[r.below(n) as usize]],
        };
        let a = if r.one_in(2) {
            let thin = r.below(8);
            let cells = [0; 4].map(|_: u64| (0..thin).fold(r.next(), |w, _| w & r.next()));
            Ask::Publish(job, cells)
        } else {
            let cell = if r.one_in(20) { r.next() } else { r.below(256) };
            let kind = [OPEN, READ, READ, ABANDON, 1 + r.below(6) as u8][r.below(5) as usize];
            let job = if kind == OPEN {
                port(&mut r, false)
            } else {
                job
            };
            Ask::Request(request(kind, r.one_in(50) as u8, cell as u16, job))
        };
        let (mut b, mut o) = (Columns::of(&state), OursLate::of(state));
        let reply = b.ask(a);
        let same = o.ask(a) == reply && *o.state() == b.state();
        t.count(a, reply.0, same);
    }
    t
}

fn show(name: &str, t: &Tally) {
    print!(
        "{name}: {} differ of {} asks, codes {:?}, {} publishes granted",
        t.differ, t.asks, t.codes, t.publishes
    );
    if t.logs != 0 {
        print!(
            "; of the 7, {} by two ended jobs or more, {} by an end before an open, {} with no cell; {} logs with an order of {} ended jobs",
            t.chained, t.by_time, t.of_none, t.logs, t.jobs
        );
    }
    println!();
}

pub fn run(seed: u64, asks: u64) -> bool {
    println!("seed {seed}");
    let share = asks / LATE_SHAPES.len() as u64;
    let (mut all, mut whole) = (Tally::default(), Tally::default());
    for shape in LATE_SHAPES {
        let t = windows(shape, seed, share / 20);
        show(&format!("whole history, {shape:?}"), &t);
        whole.add(&t);
        let t = long(shape, seed, share - share / 20);
        show(&format!("bounded, {shape:?}"), &t);
        all.add(&t);
    }
    show("all whole histories", &whole);
    let t = made_up(seed, asks / 10);
    show("made-up states", &t);
    all.add(&t);
    all.add(&whole);
    println!(
        "{} differ of {} asks in all, codes {:?}",
        all.differ, all.asks, all.codes
    );
    // in a history nothing is written before the end: 4 is of made-up states alone
    let enough = (0..10).all(|c| all.codes[c] > 0)
        && [5, 6, 8, 9].iter().all(|&c: &usize| whole.codes[c] > 0)
        && whole.codes[4] == 0
        && [whole.chained, whole.by_time, whole.of_none]
            .iter()
            .all(|&n| n > 0);
    if !enough {
        println!("a code or a sort of circle never came, or a history gave a 4");
    }
    let failed = all.differ != 0 || !enough;
    println!("{} passed, {} failed", !failed as u32, failed as u32);
    failed
}
