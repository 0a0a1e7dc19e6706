//! An arbiter in bounded memory, in place, written apart from the project's own and tuned: beside each row's four sets it keeps three
//! unions, what a read, a write and an add clash with, word by word for all rows side by side; and the rows that have a past.
use crate::requests::*;

pub const ROWS: usize = 32;

/// The unions: which one a step is held against.
const FOR_READ: usize = 0;
const FOR_WRITE: usize = 1;
const FOR_ADD: usize = 2;

#[derive(Clone, PartialEq)]
pub struct Bounded {
    pub next: u64,
    pub free: u32,
    pub numbers: [u32; ROWS],
    pub leads: [u32; ROWS],
    /// own used, own altered, past used, past altered, four words each: used is read or written, altered is written or added to
    pub rows: [[u64; 16]; ROWS],
    /// for a read: what is altered, own and past; for a write: everything; for an add: what is used
    clash: [[[u64; ROWS]; 4]; 3],
    /// rows whose past is not empty: they precede a job that has ended, and so every job that opens now
    past: u32,
    /// the slots of each port: those that are open count
    pub ports: [u32; 3],
}

fn all(bits: u32) -> impl Iterator<Item = usize> {
    let mut left = bits;
    std::iter::from_fn(move || {
        if left == 0 {
            return None;
        }
        let i = left.trailing_zeros() as usize;
        left &= left - 1;
        Some(i)
    })
}

impl Bounded {
    pub fn new(first: u32) -> Bounded {
        Bounded {
            next: first as u64,
            free: !0,
            numbers: [0; ROWS],
            leads: [0; ROWS],
            rows: [[0; 16]; ROWS],
            clash: [[[0; ROWS]; 4]; 3],
            past: 0,
            ports: [0; 3],
        }
    }

    /// Any state: what the arrays hold, whether requests give it or not.
    pub fn of(
        next: u64,
        free: u32,
        numbers: [u32; ROWS],
        leads: [u32; ROWS],
        sets: &[u64; 512],
        ports: [u32; 3],
    ) -> Bounded {
        let mut b = Bounded {
            next,
            free,
            numbers,
            leads,
            rows: [[0; 16]; ROWS],
            clash: [[[0; ROWS]; 4]; 3],
            past: 0,
            ports,
        };
        for i in 0..ROWS {
            b.rows[i].copy_from_slice(&sets[i * 16..i * 16 + 16]);
            b.unions(i);
        }
        b
    }

    pub fn sets(&self) -> [u64; 512] {
        let mut s = [0; 512];
        for i in 0..ROWS {
            s[i * 16..i * 16 + 16].copy_from_slice(&self.rows[i]);
        }
        s
    }

    /// How many jobs of the port are open?
    #[inline]
    pub fn crowd(&self, port: usize) -> u32 {
        (self.ports[port] & !self.free).count_ones()
    }

    /// Port 0 or port 1, whichever has fewer open jobs: so 32 can be open, and no such open gets 9.
    pub fn emptier(&self) -> u32 {
        (self.crowd(1) < self.crowd(0)) as u32
    }

    #[inline]
    fn unions(&mut self, i: usize) {
        let r = &self.rows[i];
        for w in 0..4 {
            let altered = r[4 + w] | r[12 + w];
            let used = r[w] | r[8 + w];
            self.clash[FOR_READ][w][i] = altered;
            self.clash[FOR_WRITE][w][i] = altered | used;
            self.clash[FOR_ADD][w][i] = used;
        }
        let some = r[8..].iter().any(|&w| w != 0) as u32;
        self.past = self.past & !(1 << i) | some << i;
    }

    #[inline]
    fn slot(&self, job: u32) -> Option<usize> {
        all(!self.free).find(|&i| self.numbers[i] == job)
    }

    #[inline]
    fn touched(&self, s: usize, cell: usize, by: usize) -> u32 {
        let (w, b) = (cell / 64, cell % 64);
        let column = &self.clash[by][w];
        let open = !self.free;
        let mut found = 0u32;
        if open.count_ones() < 14 {
            for i in all(open & !(1 << s)) {
                found |= (((column[i] >> b) & 1) as u32) << i;
            }
        } else {
            for i in 0..ROWS {
                found |= (((column[i] >> b) & 1) as u32) << i;
            }
            found &= open & !(1 << s);
        }
        let r = &self.rows[s];
        let past = match by {
            FOR_READ => r[12 + w],
            FOR_ADD => r[8 + w],
            _ => r[8 + w] | r[12 + w],
        };
        found | ((((past >> b) & 1) as u32) << s)
    }

    #[inline]
    fn reached(&self, s: usize) -> u32 {
        let open = !self.free;
        let mut seen = self.leads[s] & open;
        let mut todo = seen;
        while todo != 0 {
            let i = todo.trailing_zeros() as usize;
            let fresh = self.leads[i] & open & !seen;
            seen |= fresh;
            todo = (todo & (todo - 1)) | fresh;
        }
        seen
    }

    #[inline]
    fn blank(&mut self, s: usize) {
        for l in self.leads.iter_mut() {
            *l &= !(1 << s);
        }
        self.leads[s] = 0;
        self.rows[s] = [0; 16];
        for column in self.clash.iter_mut().flatten() {
            column[s] = 0;
        }
        self.past &= !(1 << s);
    }

    #[inline]
    fn leave(&mut self, s: usize) {
        self.blank(s);
        self.numbers[s] = 0;
        self.free |= 1 << s;
    }

    /// Who leads to the slot takes over what it held and whom it led to.
    #[inline]
    fn end(&mut self, s: usize) {
        let open = !self.free;
        let theirs = self.leads[s] & open;
        let gone = self.rows[s];
        for i in all(open & !(1 << s)) {
            if self.leads[i] >> s & 1 == 1 {
                for w in 0..8 {
                    self.rows[i][8 + w] |= gone[w] | gone[8 + w];
                }
                self.leads[i] |= theirs;
                self.unions(i);
            }
        }
        self.leave(s);
    }

    #[inline]
    pub fn ask(&mut self, r: Request) -> (u32, u32) {
        if r[1] != 0 {
            return (1, 0);
        }
        let (cell, job) = (cell_of(r), job_of(r));
        match r[0] {
            OPEN => {
                if self.next > u32::MAX as u64 {
                    return (6, 0);
                }
                if job > 2 {
                    return (8, 0);
                }
                if self.free == 0 {
                    return (5, 0);
                }
                if self.crowd(job as usize) >= 16 {
                    return (9, 0);
                }
                let s = self.free.trailing_zeros() as usize;
                let number = self.next as u32;
                self.blank(s);
                for i in all(self.past & !self.free) {
                    self.leads[i] |= 1 << s;
                }
                for mask in self.ports.iter_mut() {
                    *mask &= !(1 << s);
                }
                self.ports[job as usize] |= 1 << s;
                self.numbers[s] = number;
                self.next += 1;
                self.free &= !(1 << s);
                (0, number)
            }
            READ | WRITE | PUBLISH | ADD => {
                if cell > 255 {
                    return (2, 0);
                }
                let Some(s) = self.slot(job) else {
                    return (3, 0);
                };
                let by = match r[0] {
                    READ => FOR_READ,
                    ADD => FOR_ADD,
                    _ => FOR_WRITE,
                };
                let touched = self.touched(s, cell as usize, by);
                let seen = self.reached(s);
                let me = 1u32 << s;
                if seen & me != 0 || touched & (seen | me) != 0 {
                    return (7, 0);
                }
                for i in all(touched) {
                    self.leads[i] |= me;
                }
                let (w, m) = (cell as usize / 64, 1u64 << (cell % 64));
                self.clash[FOR_WRITE][w][s] |= m;
                if by != FOR_ADD {
                    self.rows[s][w] |= m;
                    self.clash[FOR_ADD][w][s] |= m;
                }
                if by != FOR_READ {
                    self.rows[s][4 + w] |= m;
                    self.clash[FOR_READ][w][s] |= m;
                }
                if r[0] == PUBLISH {
                    self.end(s);
                }
                (0, job)
            }
            END => {
                let Some(s) = self.slot(job) else {
                    return (3, 0);
                };
                self.end(s);
                (0, job)
            }
            ABANDON => {
                let Some(s) = self.slot(job) else {
                    return (3, 0);
                };
                if self.rows[s][4..8].iter().any(|&w| w != 0) {
                    return (4, 0);
                }
                self.leave(s);
                (0, job)
            }
            _ => (1, 0),
        }
    }
}
