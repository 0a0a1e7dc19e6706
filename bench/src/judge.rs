//! A checker and a lister in plain Rust, written apart from the project's own: a hash-free table of jobs found by halving, edges to the last writer, to the
//! readers and the adders since, and at an open to every job that has ended; counts of predecessors not yet placed.

#[derive(Clone, Copy, PartialEq, Debug)]
pub struct Verdict {
    pub code: u32,
    pub place: usize,
}

fn verdict(code: u32, place: usize) -> Verdict {
    Verdict { code, place }
}

#[derive(Clone, Copy, PartialEq)]
enum Stand {
    Open,
    Wrote,
    Ended,
    Abandoned,
}

#[derive(Clone, Copy, PartialEq)]
enum Did {
    Open,
    Read(u8),
    Write(u8),
    Add(u8),
    End,
}

struct Table {
    numbers: Vec<u32>,
    stand: Vec<Stand>,
    /// job's place, what it did, the record; in the order of the log
    did: Vec<(u16, Did, u16)>,
}

impl Table {
    fn is_kept(&self, i: u16) -> bool {
        self.stand[i as usize] != Stand::Abandoned
    }
}

fn read(log: &[u8]) -> Result<Table, Verdict> {
    if log.len() % 8 != 0 || log.len() > 32768 {
        return Err(verdict(11, 0));
    }
    let mut t = Table {
        numbers: Vec::with_capacity(512),
        stand: Vec::with_capacity(512),
        did: Vec::with_capacity(log.len() / 8),
    };
    for (place, r) in log.chunks_exact(8).enumerate() {
        let cell = u16::from_le_bytes([r[2], r[3]]);
        let job = u32::from_le_bytes([r[4], r[5], r[6], r[7]]);
        let most = match r[0] {
            1 | 4 | 5 => Some(0),
            2 | 3 | 7 => Some(255),
            _ => None,
        };
        if r[1] != 0 || most.is_none_or(|most| cell > most) {
            return Err(verdict(12, place));
        }
        if r[0] == 1 {
            if t.numbers.last().is_some_and(|&n| n >= job) {
                return Err(verdict(13, place));
            }
            if t.numbers.len() == 512 {
                return Err(verdict(14, place));
            }
            t.did
                .push((t.numbers.len() as u16, Did::Open, place as u16));
            t.numbers.push(job);
            t.stand.push(Stand::Open);
            continue;
        }
        let Ok(i) = t.numbers.binary_search(&job) else {
            return Err(verdict(13, place));
        };
        let stand = t.stand[i];
        if stand == Stand::Ended
            || stand == Stand::Abandoned
            || (r[0] == 5 && stand == Stand::Wrote)
        {
            return Err(verdict(13, place));
        }
        let (after, did) = match r[0] {
            2 => (stand, Did::Read(cell as u8)),
            3 => (Stand::Wrote, Did::Write(cell as u8)),
            7 => (Stand::Wrote, Did::Add(cell as u8)),
            4 => (Stand::Ended, Did::End),
            _ => {
                t.stand[i] = Stand::Abandoned;
                continue;
            }
        };
        t.stand[i] = after;
        t.did.push((i as u16, did, place as u16));
    }
    Ok(t)
}

pub fn check(log: &[u8], order: &[u32]) -> Verdict {
    let t = match read(log) {
        Ok(t) => t,
        Err(v) => return v,
    };
    let kept = t.stand.iter().filter(|&&s| s != Stand::Abandoned).count();
    let mut place = vec![0u32; t.numbers.len()];
    for (k, job) in order.iter().enumerate() {
        match t.numbers.binary_search(job) {
            Ok(i) if t.stand[i] != Stand::Abandoned && place[i] == 0 => place[i] = k as u32 + 1,
            _ => return verdict(15, k),
        }
    }
    if order.len() < kept {
        return verdict(15, order.len());
    }
    // the highest place of those that read each cell, that wrote it, that added to it, and that have ended
    let (mut read, mut wrote, mut added, mut ended) = ([0u32; 256], [0u32; 256], [0u32; 256], 0);
    for &(i, did, record) in &t.did {
        if !t.is_kept(i) {
            continue;
        }
        let p = place[i as usize];
        let (before, of) = match did {
            Did::Open => (ended, None),
            Did::Read(c) => (
                wrote[c as usize].max(added[c as usize]),
                Some(&mut read[c as usize]),
            ),
            Did::Write(c) => (
                wrote[c as usize]
                    .max(read[c as usize])
                    .max(added[c as usize]),
                Some(&mut wrote[c as usize]),
            ),
            Did::Add(c) => (
                wrote[c as usize].max(read[c as usize]),
                Some(&mut added[c as usize]),
            ),
            Did::End => (0, Some(&mut ended)),
        };
        if p < before {
            return verdict(16, record as usize);
        }
        if let Some(highest) = of {
            *highest = p.max(*highest);
        }
    }
    verdict(0, kept)
}

pub fn list(log: &[u8], room: usize) -> (Verdict, Vec<u32>) {
    let t = match read(log) {
        Ok(t) => t,
        Err(v) => return (v, vec![]),
    };
    let n = t.numbers.len();
    let kept = t.stand.iter().filter(|&&s| s != Stand::Abandoned).count();
    if room < kept {
        return (verdict(18, kept), vec![]);
    }
    // edges to the last writer, and to the readers and the adders since it: the others follow
    let mut after: Vec<Vec<u16>> = vec![vec![]; n];
    let mut waits = vec![0u32; n];
    let mut writer: Vec<Option<u16>> = vec![None; 256];
    let mut readers: Vec<Vec<u16>> = vec![vec![]; 256];
    let mut adders: Vec<Vec<u16>> = vec![vec![]; 256];
    let mut ended: Vec<u16> = vec![];
    for &(i, did, _) in &t.did {
        if !t.is_kept(i) {
            continue;
        }
        let mut edges = |from: &mut dyn Iterator<Item = u16>| {
            for j in from.filter(|&j| j != i) {
                after[j as usize].push(i);
                waits[i as usize] += 1;
            }
        };
        match did {
            Did::Open => edges(&mut ended.iter().copied()),
            Did::Read(c) => {
                edges(&mut writer[c as usize].into_iter());
                edges(&mut adders[c as usize].iter().copied());
                readers[c as usize].push(i);
            }
            Did::Write(c) => {
                edges(&mut writer[c as usize].into_iter());
                edges(&mut readers[c as usize].drain(..));
                edges(&mut adders[c as usize].drain(..));
                writer[c as usize] = Some(i);
            }
            Did::Add(c) => {
                edges(&mut writer[c as usize].into_iter());
                edges(&mut readers[c as usize].iter().copied());
                adders[c as usize].push(i);
            }
            Did::End => ended.push(i),
        }
    }
    let mut ready = [0u64; 8];
    for i in 0..n {
        if t.stand[i] != Stand::Abandoned && waits[i] == 0 {
            ready[i / 64] |= 1 << (i % 64);
        }
    }
    let mut order = Vec::with_capacity(kept);
    while let Some(w) = (0..8).find(|&w| ready[w] != 0) {
        let i = w * 64 + ready[w].trailing_zeros() as usize;
        ready[w] &= ready[w] - 1;
        order.push(t.numbers[i]);
        for &k in &after[i] {
            waits[k as usize] -= 1;
            if waits[k as usize] == 0 {
                ready[k as usize / 64] |= 1 << (k % 64);
            }
        }
    }
    if order.len() < kept {
        return (verdict(17, 0), vec![]);
    }
    (verdict(0, kept), order)
}
