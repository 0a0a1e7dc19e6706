//! Random requests: the proved arbiter, step by step and by replay, against an arbiter that keeps the whole history (in windows that it can afford) and a
//! bounded one; and made-up states, lent to the step, against the bounded one's reading of the same rule. Counts of each code, so that nothing is vacuous.
use crate::bounded::Bounded;
use crate::ours::{replay, replay_by_value, Ours};
use crate::requests::*;
use crate::whole::Whole;
use reedtangle::State;

/// A whole history is compared for so many requests, from a fresh state.
const WINDOW: u64 = 300;

#[derive(Default)]
struct Tally {
    requests: u64,
    codes: [u64; 10],
    through_ended: u64,
    by_time: u64,
    /// Publishes and adds that were granted, and those that got 7; of the adds granted, those that would not have been as writes, where the whole history is kept.
    published: [u64; 2],
    added: [u64; 2],
    spared: u64,
    differ: u64,
}

impl Tally {
    fn count(&mut self, r: Request, code: u32, same: bool) {
        self.requests += 1;
        self.codes[code as usize] += 1;
        for (kind, sums) in [(PUBLISH, &mut self.published), (ADD, &mut self.added)] {
            sums[0] += (r[0] == kind && code == 0) as u64;
            sums[1] += (r[0] == kind && code == 7) as u64;
        }
        self.differ += !same as u64;
    }
}

/// A publish leaves and answers what a write and, where that is granted, an end of its job do; asked of the proved arbiter itself, one request after the other.
fn is_both(before: &Ours, r: Request, reply: (u32, u32), after: &Ours) -> bool {
    if r[0] != PUBLISH || r[1] != 0 {
        return true;
    }
    let mut two = before.clone();
    let mut said = two.ask(request(WRITE, 0, cell_of(r), job_of(r)));
    if said.0 == 0 {
        said = two.ask(request(END, 0, 0, job_of(r)));
    }
    said == reply && two.state() == after.state()
}

pub fn same_state(o: &Ours, b: &Bounded) -> bool {
    let o = o.state();
    o.next == b.next
        && o.free == b.free
        && o.numbers == b.numbers
        && o.leads == b.leads
        && o.sets == b.sets()
        && o.ports == b.ports
}

/// Windows against the whole history.
fn windows(shape: Shape, seed: u64, requests: u64) -> Tally {
    let mut t = Tally::default();
    let mut window = 0;
    while t.requests < requests {
        let mut s = Stream::new(shape, seed.wrapping_mul(1_000_003) + window);
        window += 1;
        let first = s.first();
        let (mut w, mut b, mut o) = (Whole::new(first), Bounded::new(first), Ours::new(first));
        let mut sent = Vec::new();
        let mut said = Vec::new();
        for _ in 0..WINDOW {
            let r = s.ask();
            let reply = w.ask(r);
            s.told(reply.0, reply.1);
            let before = o.clone();
            let same = b.ask(r) == reply && o.ask(r) == reply && same_state(&o, &b);
            t.count(r, reply.0, same && is_both(&before, r, reply, &o));
            sent.extend_from_slice(&r);
            said.extend_from_slice(&reply.0.to_le_bytes());
            said.extend_from_slice(&reply.1.to_le_bytes());
        }
        t.through_ended += w.through_ended;
        t.by_time += w.by_time;
        t.spared += w.spared;
        if !replayed(first, &sent, &said) {
            t.differ += 1;
        }
    }
    t
}

/// `replay` writes what was said, with room to spare and with a tail of bytes that are no record, and nothing where the room is one byte short; and so does
/// the same with the state handed on by value.
fn replayed(first: u32, sent: &[u8], said: &[u8]) -> bool {
    let mut with_tail = sent.to_vec();
    with_tail.extend_from_slice(&[1, 0, 0]);
    [replay, replay_by_value].iter().all(|by| {
        let mut out = vec![0xaa; said.len() + 5];
        let done = by(first, &with_tail, &mut out) == (0, said.len())
            && out[..said.len()] == *said
            && out[said.len()..].iter().all(|&x| x == 0xaa);
        let mut short = vec![0xaa; said.len() - 1];
        done && by(first, &with_tail, &mut short) == (24, 0) && short.iter().all(|&x| x == 0xaa)
    })
}

/// Long streams against the bounded arbiter.
fn long(shape: Shape, seed: u64, requests: u64) -> Tally {
    let mut t = Tally::default();
    let mut s = Stream::new(shape, seed.wrapping_mul(7_000_003));
    let mut first = s.first();
    let (mut b, mut o) = (Bounded::new(first), Ours::new(first));
    while t.requests < requests {
        let r = s.ask();
        let reply = b.ask(r);
        s.told(reply.0, reply.1);
        let same = o.ask(r) == reply && (t.requests % 64 != 0 || same_state(&o, &b));
        t.count(r, reply.0, same);
        // numbers run out soon: start again
        if shape == Shape::NumbersOut && t.requests % 2000 == 0 {
            s = Stream::new(shape, seed.wrapping_mul(7_000_003) + t.requests);
            first = s.first();
            b = Bounded::new(first);
            o = Ours::new(first);
        }
    }
    t
}

/// The slots of a port in a made-up state: a half of them, three quarters, or all, open or not, and whatever the other ports have.
pub fn any_port(r: &mut Random) -> u32 {
    match r.below(3) {
        0 => r.next() as u32,
        1 => r.next() as u32 | r.next() as u32,
        _ => !0,
    }
}

/// States of any content, one request each.
fn made_up(seed: u64, states: u64) -> Tally {
    let mut t = Tally::default();
    let mut r = Random::new(seed.wrapping_mul(11_000_003));
    let mut numbers = [0u32; 32];
    let mut leads = [0u32; 32];
    let mut sets = Box::new([0u64; 512]);
    let mut ports = [0u32; 3];
    for _ in 0..states {
        // dense or sparse, numbers from a few so that some stand in two slots
        let few = 1 + r.below(40);
        let thin = r.below(6);
        for i in 0..32 {
            numbers[i] = if r.one_in(30) {
                r.next() as u32
            } else {
                r.below(few) as u32
            };
            let mut l = r.next() as u32;
            for _ in 0..thin {
                l &= r.next() as u32;
            }
            leads[i] = l;
        }
        let full = r.one_in(8);
        for w in sets.iter_mut() {
            *w = if full {
                r.next()
            } else if r.one_in(16) {
                1u64 << r.below(64)
            } else {
                0
            };
        }
        let free = match r.below(4) {
            0 => r.next() as u32,
            1 => !(r.next() as u32 & r.next() as u32),
            2 => r.next() as u32 & r.next() as u32 & r.next() as u32,
            _ => 0,
        };
        let next = match r.below(5) {
            0 => r.next(),
            1 => (1 << 32) - 1 + r.below(3),
            2 => u64::MAX - r.below(2),
            _ => r.below(1000),
        };
        for mask in ports.iter_mut() {
            *mask = any_port(&mut r);
        }
        let kind = 1 + r.below(7) as u8;
        let mut b = Bounded::of(next, free, numbers, leads, &sets, ports);
        let mut o = Ours::of(State {
            next,
            free,
            numbers,
            leads,
            sets: *sets,
            ports,
        });
        let open: Vec<usize> = (0..32).filter(|i| free >> i & 1 == 0).collect();
        let job = if kind == OPEN {
            port(&mut r, false)
        } else if open.is_empty() || r.one_in(10) {
            r.below(few) as u32
        } else {
            numbers[open[r.below(open.len() as u64) as usize]]
        };
        let q = request(
            kind,
            if r.one_in(50) { 1 } else { 0 },
            if r.one_in(20) {
                r.next() as u16
            } else {
                r.below(256) as u16
            },
            job,
        );
        let reply = b.ask(q);
        let before = o.clone();
        let same = o.ask(q) == reply && same_state(&o, &b);
        t.count(q, reply.0, same && is_both(&before, q, reply, &o));
    }
    t
}

fn show(name: &str, t: &Tally) {
    print!("{name}: {} requests, codes", t.requests);
    for c in t.codes {
        print!(" {c}");
    }
    println!(
        ", {} circles through an ended job, {} only by an end before an open, publishes granted and with code 7 {:?}, adds {:?}, adds granted where a write would not be {}, {} differ",
        t.through_ended, t.by_time, t.published, t.added, t.spared, t.differ
    );
}

pub fn run(seed: u64, requests: u64) -> bool {
    println!("seed {seed}");
    let mut failed = 0;
    let mut passed = 0;
    let mut codes = [0u64; 10];
    let mut whole = [0u64; 10];
    let mut total = 0;
    let mut by_time = 0;
    let mut without = 0;
    let mut spared = 0;
    let mut count = |name: String, t: Tally| {
        show(&name, &t);
        total += t.requests;
        by_time += t.by_time;
        let sums = [t.published, t.added];
        without += sums.iter().flatten().any(|&n| n == 0) as u32;
        spared += t.spared;
        for (sum, n) in codes.iter_mut().zip(t.codes) {
            *sum += n;
        }
        if name.starts_with("whole") {
            for (sum, n) in whole.iter_mut().zip(t.codes) {
                *sum += n;
            }
        }
        if t.differ == 0 {
            passed += 1
        } else {
            failed += 1
        }
    };
    let share = requests / SHAPES.len() as u64;
    for shape in SHAPES {
        count(
            format!("whole history, {shape:?}"),
            windows(shape, seed, share / 20),
        );
        count(
            format!("bounded, {shape:?}"),
            long(shape, seed, share - share / 20),
        );
    }
    count("made-up states".to_string(), made_up(seed, requests / 10));
    println!("{total} requests in all, codes {codes:?}; of those by the whole history {whole:?}");
    if whole.iter().any(|&n| n == 0) || by_time == 0 || spared == 0 || without != 0 {
        println!("a code was never given by the whole history, or no circle came only by an end before an open, or no add was granted where a write would not be, or in some line no publish or no add was granted or none got 7");
        failed += 1;
    } else {
        passed += 1;
    }
    println!("{passed} passed, {failed} failed");
    failed != 0
}
