//! Requests as bytes, and streams of them from a seed, in several shapes.

pub const OPEN: u8 = 1;
pub const READ: u8 = 2;
pub const WRITE: u8 = 3;
pub const END: u8 = 4;
pub const ABANDON: u8 = 5;
/// A write and the end of its job.
pub const PUBLISH: u8 = 6;
/// A raise of a counter: it conflicts with reads and writes, not with another add.
pub const ADD: u8 = 7;

pub type Request = [u8; 8];

pub fn request(kind: u8, byte1: u8, cell: u16, job: u32) -> Request {
    let c = cell.to_le_bytes();
    let j = job.to_le_bytes();
    [kind, byte1, c[0], c[1], j[0], j[1], j[2], j[3]]
}

pub fn cell_of(r: Request) -> u16 {
    u16::from_le_bytes([r[2], r[3]])
}

pub fn job_of(r: Request) -> u32 {
    u32::from_le_bytes([r[4], r[5], r[6], r[7]])
}

/// xorshift: the same numbers from the same seed everywhere.
#[derive(Clone)]
pub struct Random(u64);

impl Random {
    pub fn new(seed: u64) -> Random {
        Random(seed.wrapping_mul(0x9e37_79b9_7f4a_7c15) | 1)
    }

    pub fn next(&mut self) -> u64 {
        self.0 ^= self.0 << 13;
        self.0 ^= self.0 >> 7;
        self.0 ^= self.0 << 17;
        self.0.wrapping_mul(0x2545_f491_4f6c_dd1d)
    }

    pub fn below(&mut self, n: u64) -> u64 {
        (self.next() >> 33) % n
    }

    pub fn one_in(&mut self, n: u64) -> bool {
        self.below(n) == 0
    }
}

/// The port that an open names: any of the three, or mostly one of them; now and then one that is none, by a little or in its low bytes not.
pub fn port(r: &mut Random, one: bool) -> u32 {
    let port = if one && !r.one_in(8) { 1 } else { r.below(3) } as u32;
    match r.below(60) {
        0 => port + 3,
        1 => port + (256 << (8 * r.below(3))),
        2 => r.next() as u32,
        _ => port,
    }
}

/// The shapes of streams.
#[derive(Clone, Copy, PartialEq, Debug)]
pub enum Shape {
    FewCells,
    OneThroughout,
    BadRequests,
    Abandons,
    SlotsFull,
    NumbersOut,
    OnePort,
}

pub const SHAPES: [Shape; 7] = [
    Shape::FewCells,
    Shape::OneThroughout,
    Shape::BadRequests,
    Shape::Abandons,
    Shape::SlotsFull,
    Shape::OnePort,
    Shape::NumbersOut,
];

/// Makes requests that are likely to be granted, and some that are not. It is told the replies, so that it knows which jobs are open.
pub struct Stream {
    random: Random,
    shape: Shape,
    open: Vec<u32>,
    last: Request,
}

impl Stream {
    pub fn new(shape: Shape, seed: u64) -> Stream {
        Stream {
            random: Random::new(seed),
            shape,
            open: Vec::new(),
            last: [0; 8],
        }
    }

    pub fn first(&mut self) -> u32 {
        match self.shape {
            Shape::NumbersOut => u32::MAX - self.random.below(40) as u32,
            _ => self.random.below(3) as u32,
        }
    }

    fn most(&self) -> usize {
        match self.shape {
            Shape::FewCells => 12,
            Shape::OneThroughout => 6,
            Shape::BadRequests => 8,
            Shape::Abandons => 10,
            Shape::SlotsFull => 33,
            Shape::NumbersOut => 20,
            Shape::OnePort => 33,
        }
    }

    fn cells(&self) -> u64 {
        match self.shape {
            Shape::FewCells => 6,
            Shape::OneThroughout => 24,
            Shape::BadRequests => 256,
            Shape::Abandons => 12,
            Shape::SlotsFull => 96,
            Shape::NumbersOut => 40,
            Shape::OnePort => 64,
        }
    }

    pub fn ask(&mut self) -> Request {
        let bad = match self.shape {
            Shape::BadRequests => 3,
            _ => 40,
        };
        self.last = if self.random.one_in(bad) {
            self.bad()
        } else {
            self.good()
        };
        self.last
    }

    fn bad(&mut self) -> Request {
        let r = &mut self.random;
        let known = if self.open.is_empty() {
            0
        } else {
            self.open[r.below(self.open.len() as u64) as usize]
        };
        match r.below(6) {
            0 => request(r.next() as u8, 0, r.below(300) as u16, known),
            1 => request(
                1 + r.below(7) as u8,
                1 << r.below(8),
                r.below(300) as u16,
                known,
            ),
            2 => request(
                [READ, WRITE, PUBLISH, ADD][r.below(4) as usize],
                0,
                256 + r.below(65280) as u16,
                if r.one_in(2) { known } else { r.next() as u32 },
            ),
            3 => request(
                2 + r.below(6) as u8,
                0,
                r.below(256) as u16,
                r.next() as u32,
            ),
            4 => request(
                2 + r.below(6) as u8,
                0,
                r.below(256) as u16,
                known.wrapping_sub(1 + r.below(9) as u32),
            ),
            _ => (r.next()).to_le_bytes(),
        }
    }

    fn good(&mut self) -> Request {
        let most = self.most();
        let cells = self.cells();
        let r = &mut self.random;
        let full = self.open.len() >= most;
        if self.open.is_empty()
            || (!full && r.one_in(5))
            || (matches!(self.shape, Shape::SlotsFull | Shape::OnePort)
                && self.open.len() < 33
                && r.one_in(3))
        {
            let cell = if r.one_in(9) { r.next() as u16 } else { 0 };
            let port = port(r, self.shape == Shape::OnePort);
            return request(OPEN, 0, cell, port);
        }
        let keep_first = self.shape == Shape::OneThroughout;
        let from = if keep_first && self.open.len() > 1 {
            1
        } else {
            0
        };
        let i = r.below(self.open.len() as u64) as usize;
        let job = self.open[i];
        let may_go = i >= from && !(keep_first && self.open.len() == 1);
        if may_go && r.one_in(if full { 6 } else { 12 }) {
            let abandon = match self.shape {
                Shape::Abandons => r.one_in(2),
                _ => r.one_in(6),
            };
            if !abandon && r.one_in(2) {
                return request(PUBLISH, 0, r.below(cells) as u16, job);
            }
            return request(
                if abandon { ABANDON } else { END },
                0,
                if r.one_in(9) { r.next() as u16 } else { 0 },
                job,
            );
        }
        let writes = match self.shape {
            Shape::Abandons => 4,
            _ => 2,
        };
        let kind = match r.one_in(writes) {
            true if r.one_in(2) => ADD,
            true => WRITE,
            false => READ,
        };
        request(kind, 0, r.below(cells) as u16, job)
    }

    /// The reply to the request asked last.
    pub fn told(&mut self, code: u32, job: u32) {
        if code != 0 {
            return;
        }
        match self.last[0] {
            OPEN => self.open.push(job),
            END | ABANDON | PUBLISH => self.open.retain(|&j| j != job),
            _ => {}
        }
    }
}

// ---- words of the texts

/// A number as it is written; a word that is none ends the run.
pub fn number<T: std::str::FromStr>(word: &str) -> T {
    word.parse()
        .unwrap_or_else(|_| panic!("no number that fits: {word}"))
}

/// A kind by its name, or by its number.
pub fn kind_of(word: &str) -> u8 {
    match word {
        "open" => OPEN,
        "read" => READ,
        "write" => WRITE,
        "end" => END,
        "abandon" => ABANDON,
        "publish" => PUBLISH,
        "add" => ADD,
        w => number(w),
    }
}
