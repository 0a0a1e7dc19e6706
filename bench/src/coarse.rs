//! The coarse mode: streams with cells to 65,535, the proved code against the arbiter that keeps the whole history, asked by groups, and on long streams against
//! the bounded one. The log is kept here with its true cells. It is to be free of circles by these after every grant, and so no step that would close one may be granted; a
//! step that got 7 is looked at too: is there a circle by true cells, or by groups alone? Both are to occur.
use crate::bounded::Bounded;
use crate::ours::OursCoarse;
use crate::requests::*;
use crate::whole::Whole;

/// The whole history is kept for so many requests, from a fresh state.
const WINDOW: u64 = 240;

/// The request with its cell's group for its cell.
pub fn by_group(r: Request) -> Request {
    request(r[0], r[1], cell_of(r) / 16, job_of(r))
}

/// Requests of a stream over groups, each cell then any of its group, or one of the first few of them. Of the cells that are none in the exact mode some
/// are cells here; a few more are put about the last one.
pub struct CoarseStream {
    groups: Stream,
    random: Random,
    few: u64,
}

impl CoarseStream {
    pub fn new(shape: Shape, seed: u64) -> CoarseStream {
        let mut random = Random::new(seed.wrapping_mul(13_000_027));
        CoarseStream {
            groups: Stream::new(shape, seed),
            few: [1, 2, 3, 16][random.below(4) as usize],
            random,
        }
    }

    pub fn first(&mut self) -> u32 {
        self.groups.first()
    }

    pub fn ask(&mut self) -> Request {
        let r = self.groups.ask();
        let cell = cell_of(r);
        let cell = match self.random.below(60) {
            0 => 4090 + self.random.below(12) as u16,
            1 => self.random.next() as u16,
            _ if cell > 255 => cell,
            _ => cell * 16 + self.random.below(self.few) as u16,
        };
        request(r[0], r[1], cell, job_of(r))
    }

    pub fn told(&mut self, code: u32, job: u32) {
        self.groups.told(code, job);
    }
}

/// An event of the log: an open, a step on its true cell, an end.
type Event = (u8, u32, u16);

/// What was granted, with true cells. Written apart from the others: jobs that nothing left precedes are taken out until none is.
#[derive(Default)]
struct Log {
    events: Vec<Event>,
}

fn clash(x: Event, y: Event) -> bool {
    let step = |k: u8| k == READ || k == WRITE || k == ADD;
    let both = |k: u8| x.0 == k && y.0 == k;
    let on_one = step(x.0) && step(y.0) && x.2 == y.2 && !both(READ) && !both(ADD);
    x.1 != y.1 && (on_one || (x.0 == END && y.0 == OPEN))
}

fn has_circle(events: &[Event]) -> bool {
    let mut left = events.to_vec();
    loop {
        let jobs: std::collections::BTreeSet<u32> = left.iter().map(|e| e.1).collect();
        let free = |job: u32| {
            let mine = left.iter().enumerate().filter(|(_, e)| e.1 == job);
            mine.into_iter().all(|(i, &e)| left[..i].iter().all(|&x| !clash(x, e)))
        };
        let gone: Vec<u32> = jobs.iter().copied().filter(|&j| free(j)).collect();
        if gone.is_empty() {
            return !left.is_empty();
        }
        left.retain(|e| !gone.contains(&e.1));
    }
}

impl Log {
    /// What the request puts into the log where it is granted with this job; an abandon takes out.
    fn grant(&mut self, r: Request, job: u32) {
        match r[0] {
            OPEN | END => self.events.push((r[0], job, 0)),
            ABANDON => self.events.retain(|e| e.1 != job),
            PUBLISH => self.events.extend([(WRITE, job, cell_of(r)), (END, job, 0)]),
            kind => self.events.push((kind, job, cell_of(r))),
        }
    }

    /// Would the step close a circle by true cells?
    fn would_close(&self, r: Request) -> bool {
        let kind = if r[0] == PUBLISH { WRITE } else { r[0] };
        let mut with = self.events.clone();
        with.push((kind, job_of(r), cell_of(r)));
        has_circle(&with)
    }
}

#[derive(Default)]
struct Tally {
    requests: u64,
    codes: [u64; 10],
    /// Of the steps that got 7: those that would close a circle by true cells, and the others.
    by_cells: u64,
    by_groups: u64,
    /// Grants on a cell above 255, and codes 2.
    far: u64,
    /// Logs with a circle by true cells after a grant.
    circles: u64,
    differ: u64,
}

impl Tally {
    fn count(&mut self, r: Request, code: u32, same: bool) {
        self.requests += 1;
        self.codes[code as usize] += 1;
        let step = matches!(r[0], READ | WRITE | ADD | PUBLISH);
        self.far += (code == 0 && step && cell_of(r) > 255) as u64;
        self.differ += !same as u64;
    }
}

fn windows(shape: Shape, seed: u64, requests: u64) -> Tally {
    let mut t = Tally::default();
    let mut turn = 0;
    while t.requests < requests {
        turn += 1;
        let mut s = CoarseStream::new(shape, seed.wrapping_mul(5_000_011) + turn);
        let first = s.first();
        let (mut w, mut b, mut o) = (Whole::new(first), Bounded::new(first), OursCoarse::new(first));
        let mut log = Log::default();
        for _ in 0..WINDOW {
            let r = s.ask();
            let reply = w.ask(by_group(r));
            s.told(reply.0, reply.1);
            if reply.0 == 7 {
                let true_one = log.would_close(r);
                t.by_cells += true_one as u64;
                t.by_groups += !true_one as u64;
            }
            if reply.0 == 0 {
                log.grant(r, reply.1);
                t.circles += has_circle(&log.events) as u64;
            }
            let same = b.ask(by_group(r)) == reply && o.ask(r) == reply && o.is(&b);
            t.count(r, reply.0, same);
        }
    }
    t
}

fn long(shape: Shape, seed: u64, requests: u64) -> Tally {
    let mut t = Tally::default();
    let mut s = CoarseStream::new(shape, seed.wrapping_mul(7_000_003));
    let first = s.first();
    let (mut b, mut o) = (Bounded::new(first), OursCoarse::new(first));
    while t.requests < requests {
        let r = s.ask();
        let reply = b.ask(by_group(r));
        s.told(reply.0, reply.1);
        let same = o.ask(r) == reply && (t.requests % 64 != 0 || o.is(&b));
        t.count(r, reply.0, same);
    }
    t
}

fn show(name: &str, t: &Tally) -> bool {
    print!("{name}: {} requests, codes", t.requests);
    for c in t.codes {
        print!(" {c}");
    }
    println!(
        ", of the 7 {} by true cells and {} by groups alone, {} steps granted on a cell above 255, {} logs with a circle by true cells, {} differ",
        t.by_cells, t.by_groups, t.far, t.circles, t.differ
    );
    t.differ == 0 && t.circles == 0
}

pub fn run(seed: u64, requests: u64) -> bool {
    println!("seed {seed}");
    let (mut passed, mut failed) = (0, 0);
    let (mut codes, mut by_cells, mut by_groups, mut far) = ([0u64; 10], 0, 0, 0);
    let mut count = |ok: bool| {
        passed += ok as u32;
        failed += !ok as u32;
    };
    let share = requests / SHAPES.len() as u64;
    for shape in SHAPES {
        let t = windows(shape, seed, share / 20);
        count(show(&format!("whole history, {shape:?}"), &t));
        for (sum, n) in codes.iter_mut().zip(t.codes) {
            *sum += n;
        }
        by_cells += t.by_cells;
        by_groups += t.by_groups;
        far += t.far;
        count(show(&format!("bounded, {shape:?}"), &long(shape, seed, share - share / 20)));
    }
    println!("by the whole history: codes {codes:?}, of the 7 {by_cells} by true cells and {by_groups} by groups alone, {far} grants on a cell above 255");
    count(codes.iter().all(|&n| n != 0) && by_cells != 0 && by_groups != 0 && far != 0);
    println!("{passed} passed, {failed} failed");
    failed != 0
}

// ---- the text of the program `shelves`

/// A line of the text: a request with the reply expected.
fn line(r: Request, code: u32, job: u32) -> String {
    format!("{:3} {:3} {:5} {:10} {:2} {:10}", r[0], r[1], cell_of(r), job_of(r), code, job)
}

/// Streams for the text, with the replies of the whole history by groups.
pub fn make(seed: u64, windows: u64, asks: u64) -> bool {
    for turn in 0..windows {
        for shape in SHAPES {
            let mut s = CoarseStream::new(shape, seed.wrapping_mul(9_000_011) + turn);
            let first = s.first();
            let mut w = Whole::new(first);
            println!("{:<38}", format!("# {shape:?}, seed {seed}, {turn}"));
            println!("{:<13} {:10} {:13}", "history", first, "");
            for _ in 0..asks {
                let r = s.ask();
                let (code, job) = w.ask(by_group(r));
                s.told(code, job);
                println!("{}", line(r, code, job));
            }
        }
    }
    false
}

/// Is each reply in the text that of the whole history by groups? What the program is to write comes last.
pub fn text(file: &str) -> bool {
    let text = std::fs::read_to_string(file).expect("the text of shelves");
    let mut w = Whole::new(0);
    let (mut codes, mut histories, mut requests, mut differ) = ([0u64; 10], 0, 0, 0);
    for (place, l) in text.lines().enumerate() {
        if l.len() != 38 {
            println!("line {}: not 38 bytes", place + 1);
            differ += 1;
            continue;
        }
        let field = |from: usize, to: usize| number::<u32>(l[from..to].trim());
        match &l[..1] {
            "#" => {}
            "h" => {
                w = Whole::new(field(14, 24));
                histories += 1;
            }
            _ => {
                let r = request(field(0, 3) as u8, field(4, 7) as u8, field(8, 13) as u16, field(14, 24));
                let reply = w.ask(by_group(r));
                let want = (field(25, 27), field(28, 38));
                requests += 1;
                codes[reply.0 as usize] += 1;
                if reply != want {
                    println!("line {}: {} {}", place + 1, reply.0, reply.1);
                    differ += 1;
                }
            }
        }
    }
    print!("{histories} histories, codes 0 to 9:");
    for c in codes {
        print!(" {c}");
    }
    println!("\n{requests} requests, {differ} differ");
    differ != 0
}
