//! Random logs, orders and damaged logs: the proved checker and lister, and the fast ones of `judge_fast`, against those of `judge`. Counts of each code, so
//! that nothing is vacuous.
use crate::judge::{self, Verdict};
use crate::judge_fast;
use crate::logs;
use crate::ours;
use crate::requests::*;

#[derive(Default)]
struct Tally {
    asked: u64,
    codes: [u64; 19],
    differ: u64,
}

impl Tally {
    fn count(&mut self, code: u32, same: bool) {
        self.asked += 1;
        self.codes[code as usize] += 1;
        self.differ += !same as u64;
    }
}

/// A log: what an arbiter granted, or records put together from a few jobs with no arbiter at all, so that circles come up too.
pub fn log(r: &mut Random) -> Vec<u8> {
    let size = match r.below(200) {
        0 => 4096,
        1..=19 => 300,
        _ => 8 + r.below(40) as usize,
    };
    let jobs = 1 + r.below((size / 4) as u64).min(511) as usize;
    let cells = [1, 3, 12, 256][r.below(4) as usize];
    let mut log = if r.one_in(400) {
        logs::reversed(512)
    } else if r.one_in(2) {
        let open = 2 + r.below(31) as usize;
        logs::granted(r, size, jobs, open, cells, true, false)
    } else {
        logs::loose(r, size, jobs, cells)
    };
    match r.below(8) {
        0 => logs::renumber(&mut log, |_| r.next() as u32),
        // numbers that meet in the table of `judge_fast`
        1 => {
            let meet = r.below(2048) as u32;
            let few = 1 + r.below(3) as u32;
            logs::renumber(&mut log, |_| {
                judge_fast::met(meet + r.below(few as u64) as u32, r.next() as u32)
            })
        }
        2 => logs::renumber(&mut log, |i| u32::MAX - i),
        _ => {}
    }
    log
}

/// Something is wrong with it: a byte, a record, the length.
pub fn damage(r: &mut Random, log: &mut Vec<u8>) {
    match r.below(6) {
        0 => {
            let cut = r.below(log.len() as u64 + 1) as usize;
            log.truncate(cut);
        }
        1 => log.extend_from_slice(&r.next().to_le_bytes()[..1 + r.below(8) as usize]),
        2 if log.len() >= 16 => {
            let a = r.below(log.len() as u64 / 8) as usize * 8;
            let b = r.below(log.len() as u64 / 8) as usize * 8;
            for i in 0..8 {
                log.swap(a + i, b + i);
            }
        }
        3 if r.one_in(20) => log.resize(32776, 0),
        _ if !log.is_empty() => {
            let at = r.below(log.len() as u64) as usize;
            log[at] = if r.one_in(2) {
                r.below(9) as u8
            } else {
                r.next() as u8
            };
        }
        _ => {}
    }
}

/// An order to propose: the right one, or one that is not, or not quite.
pub fn order(r: &mut Random, log: &[u8], right: &[u32]) -> Vec<u32> {
    let mut o = if right.is_empty() || r.one_in(4) {
        log.chunks_exact(8)
            .filter(|x| x[0] == OPEN)
            .map(|x| u32::from_le_bytes(x[4..].try_into().unwrap()))
            .collect()
    } else {
        right.to_vec()
    };
    if o.is_empty() {
        return if r.one_in(2) {
            vec![r.next() as u32]
        } else {
            o
        };
    }
    let n = o.len() as u64;
    match r.below(8) {
        0 => o.swap(r.below(n) as usize, r.below(n) as usize),
        1 => {
            let i = r.below(n) as usize;
            let j = (i + 1).min(o.len() - 1);
            o.swap(i, j);
        }
        2 => o[r.below(n) as usize] = r.next() as u32,
        3 => o[r.below(n) as usize] = o[r.below(n) as usize],
        4 => {
            o.remove(r.below(n) as usize);
        }
        5 => o.push(o[r.below(n) as usize]),
        6 if r.one_in(8) => {
            for _ in 0..r.below(1200) {
                o.push(r.next() as u32 >> r.below(32));
            }
        }
        _ => {}
    }
    o
}

/// What a side answers, on any log and order or list.
struct Side {
    name: &'static str,
    check: fn(&[u8], &[u32]) -> Verdict,
    list: fn(&[u8], &mut [u32]) -> Verdict,
    checks: Tally,
    lists: Tally,
}

fn side(
    name: &'static str,
    check: fn(&[u8], &[u32]) -> Verdict,
    list: fn(&[u8], &mut [u32]) -> Verdict,
) -> Side {
    Side {
        name,
        check,
        list,
        checks: Tally::default(),
        lists: Tally::default(),
    }
}

impl Side {
    /// Into a list of so many entries, each of which had something in it.
    fn lists(&mut self, log: &[u8], room: usize) {
        let before: Vec<u32> = (0..room).map(|i| !(i as u32)).collect();
        let mut lent = before.clone();
        let listed = (self.list)(log, &mut lent);
        let (expected, given) = judge::list(log, room);
        let mut after = before;
        after[..given.len()].copy_from_slice(&given);
        self.lists
            .count(listed.code, listed == expected && lent == after);
    }

    fn checks(&mut self, log: &[u8], order: &[u32], expected: Verdict) {
        let v = (self.check)(log, order);
        self.checks.count(v.code, v == expected);
    }

    /// Prints the counts; how many of the two failed.
    fn show(&self) -> u32 {
        let mut failed = 0;
        for (what, t, codes) in [
            ("checker", &self.checks, &[0, 11, 12, 13, 14, 15, 16][..]),
            ("lister", &self.lists, &[0, 11, 12, 13, 14, 17, 18][..]),
        ] {
            print!("{} {what}: {} verdicts, codes", self.name, t.asked);
            for &c in codes {
                print!(" {c}:{}", t.codes[c]);
            }
            println!(", {} differ", t.differ);
            if t.differ != 0 || codes.iter().any(|&c| t.codes[c] == 0) {
                failed += 1;
            }
        }
        failed
    }
}

pub fn run(seed: u64, logs: u64) -> bool {
    let mut r = Random::new(seed.wrapping_mul(13_000_003));
    let mut sides = [
        side("proved", ours::check, ours::list),
        side("fast", judge_fast::check, judge_fast::list),
        side(
            "halving",
            judge_fast::check_halving,
            judge_fast::list_halving,
        ),
    ];
    for _ in 0..logs {
        let mut l = log(&mut r);
        if r.one_in(3) {
            damage(&mut r, &mut l);
        }
        let (verdict, right) = judge::list(&l, 512);
        let room = match r.below(8) {
            0 => right.len(),
            1 => right.len().saturating_sub(1),
            2 => 0,
            _ => 512 + r.below(40) as usize,
        };
        let mut orders: Vec<(Vec<u32>, Verdict)> = (0..2)
            .map(|_| {
                let o = order(&mut r, &l, &right);
                let v = judge::check(&l, &o);
                (o, v)
            })
            .collect();
        // a listed order is accepted
        if verdict.code == 0 {
            orders.push((right, verdict));
        }
        for s in &mut sides {
            s.lists(&l, room);
            for (o, v) in &orders {
                s.checks(&l, o, *v);
            }
        }
    }
    println!("seed {seed}, {logs} logs");
    let failed: u32 = sides.iter().map(Side::show).sum();
    println!(
        "{} passed, {failed} failed",
        2 * sides.len() as u32 - failed
    );
    failed != 0
}
