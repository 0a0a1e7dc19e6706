//! Does a request cost the same late in a history as early? One long run of one arbiter, kept as it stood at its start, around one million requests and around
//! ten million; each goes on by stretches of ten thousand requests, and these are timed by turns, so that whatever else the machine does meets all alike.
//! The requests of a stretch are made beforehand by the arbiter in Rust: no processor has seen them before, nor seen their answers. A second run at its
//! start is timed too: how far it is from the first shows what the measurement can tell.
use crate::differ::same_state;
use crate::ours::Ours;
use crate::requests::Request;
use crate::speed::{median, nanos, steps, Steady};
use reedtangle::State;
use std::fmt::Write;

const STRETCH: u64 = 10_000;
const AGES: [(&str, u64); 4] = [
    ("10,000", STRETCH),
    ("10,000, another run", STRETCH),
    ("1,000,000", 1_000_000),
    ("10,000,000", 10_000_000),
];
/// Which of the ages the others are held against.
const START: usize = 0;

/// An arbiter and the history that it is in.
#[derive(Clone)]
struct Run {
    history: Steady,
    ours: Ours,
    requests: u64,
}

impl Run {
    fn new(open: u64, seed: u64) -> Run {
        Run {
            history: Steady::new(open, seed),
            ours: Ours::new(1),
            requests: 0,
        }
    }

    /// Goes on to so many requests, with nothing timed.
    fn to(&mut self, requests: u64) {
        while self.requests < requests {
            self.ours.ask(self.history.next());
            self.requests += 1;
        }
    }

    /// Nanoseconds a request of the next stretch.
    fn timed(&mut self, out: &mut [u8]) -> f64 {
        let bytes = self.history.stretch(STRETCH);
        let time = nanos(|| steps(&mut self.ours, &bytes, out)) / STRETCH as f64;
        self.requests += STRETCH;
        assert!(same_state(&self.ours, &self.history.arbiter));
        time
    }
}

/// One long run as it stood at each age.
fn ages(open: u64, seed: u64) -> Vec<Run> {
    let mut run = Run::new(open, 2 * seed + 1);
    let mut other = Run::new(open, 2 * seed + 2);
    other.to(STRETCH);
    AGES.iter()
        .enumerate()
        .map(|(i, &(_, age))| {
            if i == 1 {
                return other.clone();
            }
            run.to(age);
            let mut kept = run.clone();
            kept.history.reseed(1000 * seed + i as u64);
            kept
        })
        .collect()
}

/// The lower quartile, the median and the upper quartile.
fn quartiles(mut v: Vec<f64>) -> (f64, f64, f64) {
    v.sort_by(|a, b| a.partial_cmp(b).unwrap());
    (v[v.len() / 4], v[v.len() / 2], v[v.len() * 3 / 4])
}

/// So many long runs with so many stretches at each age, as a table.
pub fn table(text: &mut String, runs: u64, stretches: u64) {
    let mut out = vec![0u8; STRETCH as usize * 8];
    for open in [8, 32] {
        let mut times = vec![vec![]; AGES.len()];
        let mut ratios = vec![vec![]; AGES.len()];
        for seed in 0..runs {
            let mut all = ages(open, seed);
            let mut here = vec![vec![]; AGES.len()];
            for turn in 0..stretches as usize {
                // each age is the first of a turn as often as the others
                for k in 0..AGES.len() {
                    let i = (turn + k) % AGES.len();
                    here[i].push(all[i].timed(&mut out));
                }
            }
            let start = median(here[START].clone());
            for i in 0..AGES.len() {
                ratios[i].push(median(here[i].clone()) / start);
                times[i].append(&mut here[i]);
            }
        }
        for (i, (name, _)) in AGES.iter().enumerate() {
            let (low, middle, high) = quartiles(ratios[i].clone());
            writeln!(
                text,
                "| {open} | {name} | {:.1} | {middle:.3} | {low:.3} to {high:.3} |",
                median(times[i].clone())
            )
            .unwrap();
        }
    }
}

pub fn run(runs: u64, stretches: u64) -> bool {
    let mut text = format!("{runs} long runs for each count of jobs, {stretches} stretches of 10,000 requests at each age, timed by turns; the ratio is that of the medians of one run, the median over the runs:\n\n");
    text.push_str("| jobs open | from request | step, ns | to the start | quartiles over the runs |\n|---|---|---|---|---|\n");
    table(&mut text, runs, stretches);
    print!("{text}");
    false
}

// ---- for an instruction counter

/// Writes the state that a long run has reached, and the requests that come next.
pub fn make(open: u64, age: u64, requests: u64, path: &str) -> bool {
    let mut run = Run::new(open, 1);
    run.to(age);
    let s = run.ours.state();
    let mut bytes = s.next.to_le_bytes().to_vec();
    bytes.extend(s.free.to_le_bytes());
    bytes.extend(
        s.numbers
            .iter()
            .chain(&s.leads)
            .flat_map(|n| n.to_le_bytes()),
    );
    bytes.extend(s.sets.iter().flat_map(|n| n.to_le_bytes()));
    bytes.extend(s.ports.iter().flat_map(|n| n.to_le_bytes()));
    bytes.extend(run.history.stretch(requests));
    std::fs::write(path, bytes).unwrap();
    false
}

/// Goes on from such a file: all its requests by the proved step, or none.
pub fn count(side: &str, path: &str) -> bool {
    let bytes = std::fs::read(path).unwrap();
    let (next, rest) = bytes.split_at(8);
    let (free, rest) = rest.split_at(4);
    let (numbers, rest) = rest.split_at(128);
    let (leads, rest) = rest.split_at(128);
    let (sets, rest) = rest.split_at(4096);
    let (ports, requests) = rest.split_at(12);
    let four = |b: &[u8], i: usize| u32::from_le_bytes(b[4 * i..4 * i + 4].try_into().unwrap());
    let eight = |b: &[u8], i: usize| u64::from_le_bytes(b[8 * i..8 * i + 8].try_into().unwrap());
    let mut ours = Ours::of(State {
        next: eight(next, 0),
        free: four(free, 0),
        numbers: std::array::from_fn(|i| four(numbers, i)),
        leads: std::array::from_fn(|i| four(leads, i)),
        sets: std::array::from_fn(|i| eight(sets, i)),
        ports: std::array::from_fn(|i| four(ports, i)),
    });
    let mut out = vec![0u8; requests.len()];
    if side == "ours" {
        steps(&mut ours, requests, &mut out);
    }
    let told: u64 = out.iter().map(|&b| b as u64).sum();
    println!("{} requests, {told}", requests.len() / size_of::<Request>());
    false
}
