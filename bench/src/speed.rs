//! Nanoseconds a request: replay, the step by value and the exported step against the bounded arbiter in Rust, in one run, by turns, medians.
use crate::bounded::Bounded;
use crate::ours::{self, replay, replay_by_value, Ours};
use crate::requests::*;
use crate::{judge, judge_fast, logs};
use std::time::Duration;

/// A history that goes on for ever, with so many jobs open nearly always: reads and writes on 200 cells, an end and an open now and then, of port 0 or 1 by turns.
#[derive(Clone)]
pub struct Steady {
    random: Random,
    open: u64,
    jobs: Vec<u32>,
    pub arbiter: Bounded,
}

impl Steady {
    pub fn new(open: u64, seed: u64) -> Steady {
        Steady {
            random: Random::new(open * 17 + seed),
            open,
            jobs: vec![],
            arbiter: Bounded::new(1),
        }
    }

    /// From here on with other random numbers.
    pub fn reseed(&mut self, seed: u64) {
        self.random = Random::new(self.open * 17 + seed);
    }

    pub fn next(&mut self) -> Request {
        let r = &mut self.random;
        let q = if (self.jobs.len() as u64) < self.open {
            request(OPEN, 0, 0, self.arbiter.emptier())
        } else {
            let job = self.jobs[r.below(self.open) as usize];
            match r.below(20) {
                0 => request(END, 0, 0, job),
                1..=6 => request(WRITE, 0, r.below(200) as u16, job),
                _ => request(READ, 0, r.below(200) as u16, job),
            }
        };
        let (code, job) = self.arbiter.ask(q);
        if code == 0 && q[0] == OPEN {
            self.jobs.push(job);
        }
        if code == 0 && q[0] == END {
            self.jobs.retain(|&j| j != job);
        }
        q
    }

    /// The next so many requests.
    pub fn stretch(&mut self, requests: u64) -> Vec<u8> {
        (0..requests).flat_map(|_| self.next()).collect()
    }
}

/// The start of such a history.
pub fn stream(open: u64, requests: u64, seed: u64) -> Vec<u8> {
    Steady::new(open, seed).stretch(requests)
}

pub fn by_replay(bytes: &[u8], out: &mut [u8]) {
    assert_eq!(replay(1, bytes, out).0, 0);
}

pub fn by_value(bytes: &[u8], out: &mut [u8]) {
    assert_eq!(replay_by_value(1, bytes, out).0, 0);
}

pub fn by_step(bytes: &[u8], out: &mut [u8]) {
    steps(&mut Ours::new(1), bytes, out);
}

/// Goes on from any state.
pub fn steps(o: &mut Ours, bytes: &[u8], out: &mut [u8]) {
    for (q, a) in bytes.chunks_exact(8).zip(out.chunks_exact_mut(8)) {
        let (code, job) = o.ask(q.try_into().unwrap());
        a[..4].copy_from_slice(&code.to_le_bytes());
        a[4..].copy_from_slice(&job.to_le_bytes());
    }
}

pub fn by_rust(bytes: &[u8], out: &mut [u8]) {
    let mut b = Bounded::new(1);
    for (q, a) in bytes.chunks_exact(8).zip(out.chunks_exact_mut(8)) {
        let (code, job) = b.ask(q.try_into().unwrap());
        a[..4].copy_from_slice(&code.to_le_bytes());
        a[4..].copy_from_slice(&job.to_le_bytes());
    }
}

/// Processor time of this thread so far: what else runs on the machine does not count, as far as it only waits its turn.
pub fn spent() -> Duration {
    #[repr(C)]
    struct Time {
        seconds: i64,
        nanos: i64,
    }
    extern "C" {
        fn clock_gettime(clock: i32, time: *mut Time) -> i32;
    }
    const THREAD: i32 = 3;
    let mut t = Time {
        seconds: 0,
        nanos: 0,
    };
    assert_eq!(unsafe { clock_gettime(THREAD, &mut t) }, 0);
    Duration::new(t.seconds as u64, t.nanos as u32)
}

/// Nanoseconds of processor time.
pub fn nanos(call: impl FnOnce()) -> f64 {
    let start = spent();
    call();
    (spent() - start).as_nanos() as f64
}

/// Nanoseconds a request.
pub fn timed(f: fn(&[u8], &mut [u8]), bytes: &[u8], out: &mut [u8]) -> f64 {
    nanos(|| f(bytes, out)) / (bytes.len() / 8) as f64
}

pub fn median(mut v: Vec<f64>) -> f64 {
    v.sort_by(|a, b| a.partial_cmp(b).unwrap());
    v[v.len() / 2]
}

pub fn run(requests: u64) -> bool {
    let mut failed = false;
    println!("nanoseconds a request, median of 9 turns; {requests} requests");
    println!("open  replay  step  rust  replay/rust");
    for open in [8, 32] {
        let bytes = stream(open, requests, 1);
        let mut a = vec![0u8; bytes.len()];
        let mut b = vec![0u8; bytes.len()];
        let mut c = vec![0u8; bytes.len()];
        let (mut x, mut y, mut z) = (vec![], vec![], vec![]);
        for _ in 0..9 {
            x.push(timed(by_replay, &bytes, &mut a));
            y.push(timed(by_step, &bytes, &mut b));
            z.push(timed(by_rust, &bytes, &mut c));
        }
        failed |= a != b || b != c;
        let (x, y, z) = (median(x), median(y), median(z));
        println!("{open:4}  {x:6.1}  {y:4.1}  {z:4.1}  {:11.2}", x / z);
    }
    if failed {
        println!("the answers differ");
    }
    failed
}

/// One run of one side, for an instruction counter.
pub fn count(side: &str, open: u64, requests: u64) -> bool {
    let bytes = stream(open, requests, 1);
    let mut out = vec![0u8; bytes.len()];
    match side {
        "ours" => by_replay(&bytes, &mut out),
        "step" => by_step(&bytes, &mut out),
        "value" => by_value(&bytes, &mut out),
        "rust" => by_rust(&bytes, &mut out),
        _ => {}
    }
    println!("{}", out.iter().map(|&b| b as u64).sum::<u64>());
    false
}

/// The stream that `count` runs, as a file, for a program that reads requests.
pub fn write_stream(open: u64, requests: u64, path: &str) -> bool {
    std::fs::write(path, stream(open, requests, 1)).unwrap();
    false
}

/// The kinds of full-size logs that are measured.
pub const LOGS: [(&str, &str); 4] = [
    ("sparse", "4,096 records, 512 jobs, 256 cells"),
    ("dense", "the same on 12 cells"),
    ("gaps", "256 cells, gaps between the numbers"),
    ("reversed", "512 jobs, the only order reversed"),
];

pub fn log_of(kind: &str) -> Vec<u8> {
    let r = &mut Random::new(5);
    match kind {
        "sparse" => logs::granted(r, 4096, 512, 32, 256, false, false),
        "dense" => logs::granted(r, 4096, 512, 32, 12, false, false),
        "gaps" => logs::granted(r, 4096, 512, 32, 256, false, true),
        "reversed" => logs::reversed(512),
        _ => panic!("no kind of logs: {kind}"),
    }
}

/// One check or listing of a log of a kind, so many times, for an instruction counter: by the proved code, by the fast code in Rust, by that
/// with no hash, by the plain.
pub fn orders(side: &str, kind: &str, times: u64) -> bool {
    let log = log_of(kind);
    let (v, order) = judge::list(&log, 512);
    let mut out = [0u32; 512];
    let mut sum = 0;
    for _ in 0..times {
        let log = std::hint::black_box(&log[..]);
        sum += match side {
            "ours-check" => ours::check(log, &order).place,
            "ours-list" => ours::list(log, &mut out).place,
            "rust-check" => judge_fast::check(log, &order).place,
            "rust-list" => judge_fast::list(log, &mut out).place,
            "halving-check" => judge_fast::check_halving(log, &order).place,
            "halving-list" => judge_fast::list_halving(log, &mut out).place,
            "plain-check" => judge::check(log, &order).place,
            "plain-list" => judge::list(log, 512).1.len(),
            _ => 0,
        };
    }
    if let Ok(path) = std::env::var("WRITE") {
        std::fs::write(&path, &log).unwrap();
    }
    println!(
        "{} records, {:?}, {:?}, {sum}",
        log.len() / 8,
        v,
        judge::check(&log, &order)
    );
    false
}
