//! The run by plain locks: an arbiter that keeps the whole history and looks through it for what other open jobs hold, written apart from the project's own, against the proved step and
//! against the program `locked`. Every reply is compared, and that what is not granted leaves the state; of each window the log that was granted, whole and cut at random
//! places, is to have an order, by the plain judge.
use crate::judge;
use crate::ours::Ours;
use crate::requests::*;
use reedtangle::State;
use std::io::Write;
use std::process::{Command, Stdio};

/// So many requests from a fresh state.
const WINDOW: u64 = 300;

#[derive(Clone, Copy)]
struct Event {
    kind: u8,
    job: u32,
    cell: u8,
}

/// Everything that was granted, in time order, and the port of each open.
pub struct Locks {
    first: u64,
    history: Vec<Event>,
    ports: Vec<u32>,
    /// Of the steps put off, by the kind that asked (read, write, add, publish) and whether only reads stood in the way.
    pub off: [[u64; 2]; 4],
}

impl Locks {
    pub fn new(first: u32) -> Locks {
        Locks {
            first: first as u64,
            history: vec![],
            ports: vec![],
            off: [[0; 2]; 4],
        }
    }

    fn has(&self, kinds: &[u8], job: u32) -> bool {
        let mut all = self.history.iter();
        all.any(|e| kinds.contains(&e.kind) && e.job == job)
    }

    fn is_open(&self, job: u32) -> bool {
        self.has(&[OPEN], job) && !self.has(&[END, ABANDON], job)
    }

    /// What other open jobs hold of the cell: the kinds of their steps.
    fn held(&self, job: u32, cell: u8) -> Vec<u8> {
        let steps = self.history.iter().filter(|e| {
            [READ, WRITE, ADD].contains(&e.kind)
                && e.cell == cell
                && e.job != job
                && self.is_open(e.job)
        });
        steps.map(|e| e.kind).collect()
    }

    fn grant(&mut self, kind: u8, job: u32, cell: u8) -> (u32, u32) {
        self.history.push(Event { kind, job, cell });
        (0, job)
    }

    pub fn ask(&mut self, r: Request) -> (u32, u32) {
        let (cell, job) = (cell_of(r), job_of(r));
        match (r[0], r[1]) {
            (OPEN, 0) => {
                let opens = self.history.iter().filter(|e| e.kind == OPEN);
                let opened: Vec<u32> = opens.map(|e| e.job).collect();
                let number = self.first + opened.len() as u64;
                let all = opened.iter().zip(&self.ports);
                let open: Vec<u32> = all
                    .filter(|(&j, _)| self.is_open(j))
                    .map(|(_, &p)| p)
                    .collect();
                if number > u32::MAX as u64 {
                    return (6, 0);
                }
                if job > 2 {
                    return (8, 0);
                }
                if open.len() >= 32 {
                    return (5, 0);
                }
                if open.iter().filter(|&&p| p == job).count() >= 16 {
                    return (9, 0);
                }
                self.ports.push(job);
                self.grant(OPEN, number as u32, 0)
            }
            (READ | WRITE | ADD | PUBLISH, 0) if cell > 255 => (2, 0),
            (READ..=PUBLISH | ADD, 0) if !self.is_open(job) => (3, 0),
            (READ | WRITE | ADD | PUBLISH, 0) => {
                let held = self.held(job, cell as u8);
                // a read shares with reads; what alters shares with nobody
                let barred = held.iter().any(|&k| r[0] != READ || k != READ);
                if barred {
                    let row = [READ, WRITE, ADD, PUBLISH]
                        .iter()
                        .position(|&k| k == r[0]);
                    self.off[row.unwrap()][held.iter().all(|&k| k == READ) as usize] += 1;
                    return (10, 0);
                }
                if r[0] == PUBLISH {
                    self.grant(WRITE, job, cell as u8);
                    return self.grant(END, job, 0);
                }
                self.grant(r[0], job, cell as u8)
            }
            (END, 0) => self.grant(END, job, 0),
            (ABANDON, 0) if self.has(&[WRITE, ADD], job) => (4, 0),
            (ABANDON, 0) => self.grant(ABANDON, job, 0),
            _ => (1, 0),
        }
    }

    pub fn log(&self) -> Vec<u8> {
        let all = self.history.iter();
        all.flat_map(|e| request(e.kind, 0, e.cell as u16, e.job))
            .collect()
    }
}

#[cfg(locking)]
extern "C" {
    fn reedtangle_lock_step(
        next: *mut u64,
        free: *mut u32,
        numbers: *mut [u32; 32],
        leads: *mut [u32; 32],
        sets: *mut [u64; 512],
        ports: *mut [u32; 3],
        request: *const [u8; 8],
    ) -> u64;
}

#[cfg(locking)]
fn lock_step(s: &mut State, r: Request) -> Option<(u32, u32)> {
    // Six fields of one value and a request apart from it: they do not overlap, and each is as large as its type says.
    let both = unsafe {
        reedtangle_lock_step(
            &mut s.next,
            &mut s.free,
            &mut s.numbers,
            &mut s.leads,
            &mut s.sets,
            &mut s.ports,
            &r,
        )
    };
    Some(((both >> 32) as u32, both as u32))
}

#[cfg(not(locking))]
fn lock_step(_: &mut State, _: Request) -> Option<(u32, u32)> {
    None
}

/// What the program is to print.
pub fn printed(input: &[u8]) -> String {
    let mut locks = Locks::new(1);
    let mut text = String::from("request code job\n");
    let mut off = 0;
    for (place, r) in input.chunks_exact(8).enumerate() {
        let (code, job) = locks.ask(r.try_into().unwrap());
        off += (code == 10) as u64;
        text += &format!("{place} {code} {job}\n");
    }
    if input.len() % 8 != 0 {
        text += &format!("tail {}\n", input.len() % 8);
    }
    text + &format!("put off {off}\n")
}

/// The program's output.
fn program(path: &str, input: &[u8]) -> String {
    let piped = Command::new(path).stdin(Stdio::piped()).stdout(Stdio::piped()).spawn();
    let mut child = piped.unwrap_or_else(|e| panic!("{path}: {e}"));
    let mut stdin = child.stdin.take().unwrap();
    let bytes = input.to_vec();
    let feeds = std::thread::spawn(move || stdin.write_all(&bytes).unwrap());
    let out = child.wait_with_output().unwrap();
    feeds.join().unwrap();
    String::from_utf8(out.stdout).unwrap()
}

/// `bench locks-text FILE`: what the program is to print for the requests in a file.
pub fn text(file: &str) -> bool {
    let input = std::fs::read(file).expect("a file of requests");
    print!("{}", printed(&input));
    false
}

pub fn run(seed: u64, windows: u64, path: &str) -> bool {
    let mut codes = [0u64; 11];
    let mut off = [[0u64; 2]; 4];
    let (mut steps, mut differ, mut moved, mut circles, mut judged, mut sevens) = (0u64, 0u64, 0u64, 0u64, 0u64, 0u64);
    let (mut programs, mut wrong) = (0u64, 0u64);
    let mut random = Random::new(seed ^ 0x10c5);
    for window in 0..windows {
        let shape = SHAPES[window as usize % SHAPES.len()];
        let mut stream = Stream::new(shape, seed.wrapping_mul(1_000_003).wrapping_add(window));
        // every third window is asked of the program too, which counts from 1
        let asked = window % 3 == 0;
        let first = if asked { 1 } else { stream.first() };
        let mut locks = Locks::new(first);
        let mut by_first = Ours::new(first);
        let mut state = by_first.state().clone();
        let mut input = vec![];
        for _ in 0..WINDOW {
            let r = stream.ask();
            let said = locks.ask(r);
            let before = state.clone();
            if let Some(ours) = lock_step(&mut state, r) {
                steps += 1;
                differ += (ours != said) as u64;
                moved += (said.0 != 0 && state != before) as u64;
            }
            sevens += (by_first.ask(r).0 == 7) as u64;
            codes[said.0 as usize] += 1;
            stream.told(said.0, said.1);
            input.extend(r);
        }
        for (sum, n) in off.iter_mut().flatten().zip(locks.off.iter().flatten()) {
            *sum += n;
        }
        let log = locks.log();
        let cuts = [log.len() / 8, random.below(log.len() as u64 / 8 + 1) as usize, random.below(log.len() as u64 / 8 + 1) as usize];
        for cut in cuts {
            judged += 1;
            circles += (judge::list(&log[..cut * 8], 512).0.code != 0) as u64;
        }
        if asked {
            input.truncate(input.len() - random.below(20) as usize);
            programs += 1;
            wrong += (program(path, &input) != printed(&input)) as u64;
        }
    }
    println!("{} requests in {windows} windows; of each code {codes:?}", windows * WINDOW);
    println!("put off, with others than reads in the way or reads alone: reads {:?}, writes {:?}, adds {:?}, publishes {:?}", off[0], off[1], off[2], off[3]);
    println!("the first profile gives 7 to {sevens} of the same requests");
    println!("{steps} answers of the proved step: {differ} differ, {moved} moved a state that was to stay");
    println!("{judged} granted logs, whole and in part: {circles} without an order");
    println!("{programs} runs of the program: {wrong} differ");
    steps == 0 || programs == 0 || differ + moved + circles + wrong > 0
}
