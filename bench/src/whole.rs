//! The arbiter that keeps the whole history, straight from the definitions: a step is granted exactly when the precedences of the kept
//! history with the step have no circle. Slow, and meant to be.
use crate::requests::*;

/// What was granted: an open with the number it got, a step with its cell, an end. A publish is its write and its end.
#[derive(Clone, Copy, PartialEq)]
struct Granted {
    kind: u8,
    job: u32,
    cell: u8,
}

/// Does the job of the earlier one precede that of the later one by these two? Two steps that conflict, or an end and an open after it.
fn precedes(x: Granted, y: Granted) -> bool {
    let steps = [x.kind, y.kind]
        .iter()
        .all(|&k| k == READ || k == WRITE || k == ADD);
    // two reads may change places, and so may two adds
    let conflict = steps && x.cell == y.cell && (x.kind != y.kind || x.kind == WRITE);
    x.job != y.job && (conflict || (x.kind == END && y.kind == OPEN))
}

pub struct Whole {
    next: u64,
    opened: Vec<u32>,
    /// the port that each of them named
    ports: Vec<u32>,
    ended: Vec<u32>,
    abandoned: Vec<u32>,
    history: Vec<Granted>,
    /// Of the refusals with code 7: how many circles pass a job that has ended, and how many there would not be without the pairs of an end and a later open.
    pub through_ended: u64,
    pub by_time: u64,
    /// How many adds were granted where a write would not have been.
    pub spared: u64,
}

impl Whole {
    pub fn new(first: u32) -> Whole {
        Whole {
            next: first as u64,
            opened: vec![],
            ports: vec![],
            ended: vec![],
            abandoned: vec![],
            history: vec![],
            through_ended: 0,
            by_time: 0,
            spared: 0,
        }
    }

    fn is_open(&self, job: u32) -> bool {
        self.opened.contains(&job) && !self.ended.contains(&job) && !self.abandoned.contains(&job)
    }

    /// Is there a chain of precedences from the asking job back to itself once the step is there? Every new precedence points into the asking job, and
    /// there was no circle before, so each circle passes it. Found by walking from the job along precedences, over every pair of the kept history.
    fn closes(&mut self, step: Granted) -> bool {
        let kept = self.kept_with(step);
        let Some(ended) = self.circle(&kept, step.job) else {
            return false;
        };
        self.through_ended += ended as u64;
        let steps: Vec<Granted> = kept.into_iter().filter(|g| g.kind != END).collect();
        self.by_time += self.circle(&steps, step.job).is_none() as u64;
        true
    }

    /// The kept history with one step more.
    fn kept_with(&self, step: Granted) -> Vec<Granted> {
        let kept = |g: &&Granted| !self.abandoned.contains(&g.job);
        let history = self.history.iter().filter(kept).copied();
        history.chain([step]).collect()
    }

    /// A circle through the job, if there is one: does the one found pass a job that has ended?
    fn circle(&self, kept: &[Granted], job: u32) -> Option<bool> {
        let mut jobs: Vec<u32> = kept.iter().map(|g| g.job).collect();
        jobs.sort_unstable();
        jobs.dedup();
        let index = |j: u32| jobs.binary_search(&j).unwrap();
        let n = jobs.len();
        let mut edge = vec![false; n * n];
        for b in 0..kept.len() {
            for a in 0..b {
                if precedes(kept[a], kept[b]) {
                    edge[index(kept[a].job) * n + index(kept[b].job)] = true;
                }
            }
        }
        let start = index(job);
        let mut from = vec![usize::MAX; n];
        let mut todo = vec![start];
        while let Some(i) = todo.pop() {
            for k in 0..n {
                if edge[i * n + k] && from[k] == usize::MAX {
                    from[k] = i;
                    if k == start {
                        let mut at = i;
                        let mut ended = false;
                        while at != start {
                            ended |= self.ended.contains(&jobs[at]);
                            at = from[at];
                        }
                        return Some(ended);
                    }
                    todo.push(k);
                }
            }
        }
        None
    }

    fn grant(&mut self, kind: u8, job: u32, cell: u8) -> (u32, u32) {
        self.history.push(Granted { kind, job, cell });
        (0, job)
    }

    fn end(&mut self, job: u32) -> (u32, u32) {
        self.ended.push(job);
        self.grant(END, job, 0)
    }

    pub fn ask(&mut self, r: Request) -> (u32, u32) {
        if r[1] != 0 {
            return (1, 0);
        }
        let (cell, job) = (cell_of(r), job_of(r));
        match r[0] {
            OPEN => {
                if self.next > u32::MAX as u64 {
                    return (6, 0);
                }
                if job > 2 {
                    return (8, 0);
                }
                let all = self.opened.iter().zip(&self.ports);
                let open: Vec<u32> = all
                    .filter(|(&j, _)| self.is_open(j))
                    .map(|(_, &p)| p)
                    .collect();
                if open.len() >= 32 {
                    return (5, 0);
                }
                if open.iter().filter(|&&p| p == job).count() >= 16 {
                    return (9, 0);
                }
                let number = self.next as u32;
                self.next += 1;
                self.opened.push(number);
                self.ports.push(job);
                self.grant(OPEN, number, 0)
            }
            READ | WRITE | PUBLISH | ADD => {
                if cell > 255 {
                    return (2, 0);
                }
                if !self.is_open(job) {
                    return (3, 0);
                }
                let kind = if r[0] == PUBLISH { WRITE } else { r[0] };
                let cell = cell as u8;
                if self.closes(Granted { kind, job, cell }) {
                    return (7, 0);
                }
                if kind == ADD {
                    let kind = WRITE;
                    let write = self.kept_with(Granted { kind, job, cell });
                    self.spared += self.circle(&write, job).is_some() as u64;
                }
                self.grant(kind, job, cell);
                if r[0] == PUBLISH {
                    self.end(job);
                }
                (0, job)
            }
            END => {
                if !self.is_open(job) {
                    return (3, 0);
                }
                self.end(job)
            }
            ABANDON => {
                if !self.is_open(job) {
                    return (3, 0);
                }
                let bars = |g: &Granted| g.job == job && (g.kind == WRITE || g.kind == ADD);
                if self.history.iter().any(bars) {
                    return (4, 0);
                }
                self.abandoned.push(job);
                (0, job)
            }
            _ => (1, 0),
        }
    }
}
