//! Random logs: the proved morning sheet against one by plain search, and the promise itself: the sheet of a granted log begins an order that the checker of `judge`
//! accepts for every longer log of the same requests. Counts, so that nothing is vacuous.
use crate::judge::{self, Verdict};
use crate::logs;
use crate::ours;
use crate::requests::*;
use crate::verdicts;

struct Searched {
    /// of the whole log, with room for all
    whole: Verdict,
    sheet: Vec<u32>,
    /// how many jobs are at rest, and how many have ended and are not
    rest: usize,
    moving: usize,
}

/// By the words of the order alone: every pair of records, the chains by trying every job between, the lowest that is ready by looking at all that are left.
fn search(log: &[u8]) -> Searched {
    let (whole, _) = judge::list(log, 512);
    if (11..=14).contains(&whole.code) {
        return Searched {
            whole,
            sheet: vec![],
            rest: 0,
            moving: 0,
        };
    }
    let records: Vec<Request> = log.chunks_exact(8).map(|x| x.try_into().unwrap()).collect();
    let named = |kind: u8| -> Vec<u32> {
        records
            .iter()
            .filter(|r| r[0] == kind)
            .map(|r| job_of(*r))
            .collect()
    };
    let (ended, gone) = (named(END), named(ABANDON));
    let kept: Vec<u32> = named(OPEN)
        .into_iter()
        .filter(|j| !gone.contains(j))
        .collect();
    let n = kept.len();
    let place = |r: &Request| kept.iter().position(|&j| j == job_of(*r));
    let places: Vec<Option<usize>> = records.iter().map(place).collect();
    let conflict = |a: &Request, b: &Request| {
        let step = |r: &Request| [READ, WRITE, ADD].contains(&r[0]);
        let both = |k: u8| a[0] == k && b[0] == k;
        (step(a) && step(b) && cell_of(*a) == cell_of(*b) && !both(READ) && !both(ADD))
            || (a[0] == END && b[0] == OPEN)
    };
    let mut before = vec![vec![false; n]; n];
    for (b, later) in records.iter().enumerate() {
        for (a, earlier) in records[..b].iter().enumerate() {
            if let (Some(i), Some(j)) = (places[a], places[b]) {
                if i != j && conflict(earlier, later) {
                    before[i][j] = true;
                }
            }
        }
    }
    let mut leads = before.clone();
    for m in 0..n {
        let on = leads[m].clone();
        for row in leads.iter_mut().filter(|row| row[m]) {
            for (to, by) in row.iter_mut().zip(&on) {
                *to |= by;
            }
        }
    }
    let open = |i: usize| !ended.contains(&kept[i]);
    let mut left: Vec<usize> = (0..n)
        .filter(|&j| !open(j) && !(0..n).any(|i| open(i) && leads[i][j]))
        .collect();
    let rest = left.len();
    let mut sheet = vec![];
    while let Some(at) = left
        .iter()
        .position(|&j| !left.iter().any(|&i| before[i][j]))
    {
        sheet.push(kept[left.remove(at)]);
    }
    Searched {
        whole,
        sheet,
        rest,
        moving: ended.len() - rest,
    }
}

impl Searched {
    /// The answer with so much room, and what is then written.
    fn answer(&self, room: usize) -> (Verdict, &[u32]) {
        let rest = self.rest;
        match self.whole.code {
            0 | 17 if room < rest => (
                Verdict {
                    code: 18,
                    place: rest,
                },
                &[],
            ),
            0 => (
                Verdict {
                    code: 0,
                    place: rest,
                },
                &self.sheet,
            ),
            _ => (self.whole, &[]),
        }
    }
}

pub fn run(seed: u64, logs: u64) -> bool {
    let mut r = Random::new(seed.wrapping_mul(17_000_023));
    let (mut codes, mut differ, mut given, mut moving) = ([0u64; 19], 0u64, 0u64, 0u64);
    for _ in 0..logs {
        let mut l = verdicts::log(&mut r);
        if r.one_in(6) {
            verdicts::damage(&mut r, &mut l);
        }
        let s = search(&l);
        let room = match r.below(8) {
            0 => s.rest,
            1 => s.rest.saturating_sub(1),
            2 => 0,
            3 => r.below(s.rest as u64 + 2) as usize,
            _ => 512 + r.below(40) as usize,
        };
        let (expected, sheet) = s.answer(room);
        let before: Vec<u32> = (0..room).map(|i| !(i as u32)).collect();
        let mut lent = before.clone();
        let answer = ours::sheet(&l, &mut lent);
        let mut after = before;
        after[..sheet.len()].copy_from_slice(sheet);
        codes[expected.code as usize] += 1;
        given += (!sheet.is_empty()) as u64;
        moving += (!sheet.is_empty() && s.moving > 0) as u64;
        differ += (answer != expected || lent != after) as u64;
    }
    println!("seed {seed}, {logs} logs");
    print!("sheets: codes");
    let told = [0, 11, 12, 13, 14, 17, 18];
    for c in told {
        print!(" {c}:{}", codes[c]);
    }
    println!(", {given} name a job, {moving} of them beside ended jobs that are not at rest, {differ} differ");
    let vacuous = told.iter().any(|&c| codes[c] == 0) || given == 0 || moving == 0;

    // a granted log and what was granted after it
    let (mut pairs, mut named, mut turned, mut broken) = (0u64, 0u64, 0u64, 0u64);
    for _ in 0..logs {
        let size = match r.below(100) {
            0 => 4096,
            1..=9 => 300,
            _ => 8 + r.below(60) as usize,
        };
        let jobs = 1 + r.below((size / 3) as u64).min(511) as usize;
        let cells = [1, 3, 12, 256][r.below(4) as usize];
        let open = 2 + r.below(31) as usize;
        let l = logs::granted(&mut r, size, jobs, open, cells, true, false);
        let cut = r.below(l.len() as u64 / 8 + 1) as usize * 8;
        let mut lent = [0; 512];
        let first = ours::sheet(&l[..cut], &mut lent);
        let sheet = &lent[..first.place];
        let (whole, order) = judge::list(&l, 512);
        let on: Vec<u32> = order
            .iter()
            .copied()
            .filter(|j| !sheet.contains(j))
            .collect();
        let joined = [sheet, &on].concat();
        let accepted = judge::check(&l, &joined);
        pairs += 1;
        named += (first.place > 0) as u64;
        turned += (first.code == 0 && !order.starts_with(sheet)) as u64;
        broken += (first.code != 0 || whole.code != 0 || accepted.code != 0) as u64;
    }
    println!("longer logs: {pairs}, {named} after a sheet that names a job; the listed order of {turned} does not start with the sheet; {broken} have no accepted order that does");
    let failed =
        (differ != 0 || vacuous) as u32 + (broken != 0 || named == 0 || turned == 0) as u32;
    println!("{} passed, {failed} failed", 2 - failed);
    failed != 0
}
