//! Logs from a seed: what an arbiter granted, cut to size; damaged ones; and orders, right and wrong.
use crate::bounded::Bounded;
use crate::requests::*;

/// The log of granted requests from a fresh state: at most so many records and jobs, with so many open at once, on so many cells, with
/// adds or without, with gaps between the numbers or without.
pub fn granted(
    r: &mut Random,
    records: usize,
    jobs: usize,
    open: usize,
    cells: u64,
    adds: bool,
    gap: bool,
) -> Vec<u8> {
    let first = if gap { 0 } else { r.below(100) as u32 };
    let mut b = Bounded::new(first);
    let mut log = Vec::with_capacity(records * 8);
    let mut now: Vec<u32> = vec![];
    let mut opened = 0;
    // so that the jobs last to the end of the log
    let steps = (records / jobs.max(1)).max(3) as u64 - 2;
    let mut tries = 0;
    while log.len() < records * 8 && tries < records * 20 {
        tries += 1;
        let q = if now.is_empty() || (now.len() < open && opened < jobs && r.one_in(2)) {
            if opened == jobs {
                break;
            }
            request(OPEN, 0, 0, b.emptier())
        } else {
            let job = now[r.below(now.len() as u64) as usize];
            if opened < jobs && r.one_in(steps + 1) {
                request(if r.one_in(6) { ABANDON } else { END }, 0, 0, job)
            } else {
                let kind = match r.one_in(3) {
                    true if adds && r.one_in(2) => ADD,
                    true => WRITE,
                    false => READ,
                };
                request(kind, 0, r.below(cells) as u16, job)
            }
        };
        let (code, job) = b.ask(q);
        if code != 0 {
            continue;
        }
        let mut record = q;
        if q[0] == OPEN {
            opened += 1;
            now.push(job);
            record = request(OPEN, 0, 0, job);
        }
        if q[0] == END || q[0] == ABANDON {
            now.retain(|&j| j != job);
        }
        log.extend_from_slice(&record);
    }
    if gap {
        // the same log with numbers further apart
        for rec in log.chunks_exact_mut(8) {
            let j = u32::from_le_bytes(rec[4..].try_into().unwrap());
            rec[4..].copy_from_slice(&(j * 8_000_000 + j % 7).to_le_bytes());
        }
    }
    log
}

/// The same log with other numbers, in the same order: as many as there are jobs, made from their places.
pub fn renumber(log: &mut [u8], mut number: impl FnMut(u32) -> u32) {
    let told: Vec<u32> = log
        .chunks_exact(8)
        .map(|x| u32::from_le_bytes(x[4..].try_into().unwrap()))
        .collect();
    let mut before = told.clone();
    before.sort_unstable();
    before.dedup();
    let mut after = std::collections::BTreeSet::new();
    let mut i = 0;
    while after.len() < before.len() {
        after.insert(number(i));
        i += 1;
    }
    let after: Vec<u32> = after.into_iter().collect();
    for (rec, job) in log.chunks_exact_mut(8).zip(told) {
        rec[4..].copy_from_slice(&after[before.binary_search(&job).unwrap()].to_le_bytes());
    }
}

/// Every job writes one cell that the job above it wrote before: the only order is the reverse of the numbers.
pub fn reversed(jobs: u32) -> Vec<u8> {
    let mut log = vec![];
    for j in 0..jobs {
        log.extend_from_slice(&request(OPEN, 0, 0, j));
    }
    for j in (0..jobs).rev() {
        log.extend_from_slice(&request(WRITE, 0, (j % 250) as u16, j));
        if j > 0 {
            log.extend_from_slice(&request(WRITE, 0, ((j - 1) % 250) as u16, j));
        }
    }
    log
}

/// Records of a few jobs in turn, with no arbiter: circles may come up. Sometimes a job too many is opened.
pub fn loose(r: &mut Random, records: usize, jobs: usize, cells: u64) -> Vec<u8> {
    let mut log = vec![];
    let mut next = r.below(5) as u32;
    let mut open: Vec<(u32, bool)> = vec![];
    let mut opened = 0;
    let most = if r.one_in(300) { 513 } else { jobs };
    while log.len() < records.max(if most == 513 { 600 } else { 0 }) * 8 {
        let opens = opened < most && (open.is_empty() || r.one_in(3) || most == 513);
        if opens {
            next += 1 + r.below(3) as u32;
            log.extend_from_slice(&request(OPEN, 0, 0, next));
            open.push((next, false));
            opened += 1;
            continue;
        }
        if open.is_empty() {
            break;
        }
        let i = r.below(open.len() as u64) as usize;
        let (job, wrote) = open[i];
        match r.below(12) {
            0 => {
                log.extend_from_slice(&request(END, 0, 0, job));
                open.swap_remove(i);
            }
            1 if !wrote => {
                log.extend_from_slice(&request(ABANDON, 0, 0, job));
                open.swap_remove(i);
            }
            2..=5 => {
                let kind = if r.one_in(2) { WRITE } else { ADD };
                log.extend_from_slice(&request(kind, 0, r.below(cells) as u16, job));
                open[i].1 = true;
            }
            _ => log.extend_from_slice(&request(READ, 0, r.below(cells) as u16, job)),
        }
    }
    log
}
