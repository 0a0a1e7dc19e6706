//! A checker and a lister made to be fast, the partner of the figures: safe Rust, written apart from the project's own and from `judge`. One pass over the
//! records, nothing allocated. The checker takes down the places of the order before it reads the log, so that a step is held at once against the latest
//! place that its cell has seen, and an open against the latest place of those that have ended; a job that the order lacks is passed over, since it is abandoned
//! or missing in the end. The lister keeps sets of bits: for each job some that it comes after, for each cell the last writer, the readers and the adders since,
//! and those that have ended. Reads and writes are looked for first; adds take the way of the other records.
use crate::judge::Verdict;

type Records<'a> = &'a [[u8; 8]];

fn verdict(code: u32, place: usize) -> Verdict {
    Verdict { code, place }
}

// ---- which job is meant

/// More than a log's jobs and an order's entries, up to the one too many.
const ROOM: usize = 1088;

/// Gives each job of a log, and each entry of an order, a number of its own below `ROOM`. Those of a log's jobs rise as they are opened.
trait Find {
    fn new(records: Records) -> Self;
    /// The number of a job that was entered; for another, one that no job has.
    fn at(&self, job: u32) -> usize;
    /// The same, given where there is none yet. `None`: this way of finding does not do for the job.
    fn enter(&mut self, job: u32) -> Option<usize>;
    /// The job that has the number.
    fn job(&self, number: usize) -> u32;
    /// The number of the job of a record that is a well-formed read or write, or one that no job has. For other records `None`.
    #[inline(always)]
    fn step(&self, record: u64) -> Option<usize> {
        (record & STEP == 2).then(|| self.at(job_of(record)))
    }
}

/// Of a read or a write, with a cell below 256, these bits of the record are 2.
const STEP: u64 = 0xff00_fffe;

/// Of an add, with a cell below 256, these bits of the record are 7.
const ADD: u64 = 0xff00_ffff;

/// Jobs side by side, as an arbiter issues them: a difference.
struct Dense {
    first: u32,
}

impl Find for Dense {
    fn new(records: Records) -> Dense {
        let first = records
            .first()
            .map_or(0, |r| job_of(u64::from_le_bytes(*r)));
        Dense { first }
    }

    #[inline(always)]
    fn at(&self, job: u32) -> usize {
        job.wrapping_sub(self.first) as usize
    }

    #[inline(always)]
    fn enter(&mut self, job: u32) -> Option<usize> {
        Some(self.at(job)).filter(|&n| n < 512)
    }

    #[inline(always)]
    fn job(&self, number: usize) -> u32 {
        self.first + number as u32
    }

    /// `None` also where the number would be above 511.
    #[inline(always)]
    fn step(&self, record: u64) -> Option<usize> {
        let less = record.wrapping_sub((self.first as u64) << 32);
        (less & (STEP | !0 << 41) == 2).then_some((less >> 32) as usize & 511)
    }
}

/// Any jobs, by a hash, unless too many of them meet at one place; then by halving, so that no log takes long.
struct Hashed {
    table: [u16; 2048],
    jobs: [u32; ROOM],
    count: usize,
}

const MOST_STEPS: usize = 24;

const FACTOR: u32 = 0x9e37_79b1;

fn hash(job: u32) -> usize {
    (job.wrapping_mul(FACTOR) >> 21) as usize
}

/// A number whose hash is given, for tests: the product, turned back.
pub fn met(hash: u32, rest: u32) -> u32 {
    let mut inverse = FACTOR;
    for _ in 0..4 {
        inverse = inverse.wrapping_mul(2u32.wrapping_sub(FACTOR.wrapping_mul(inverse)));
    }
    (hash << 21 | rest >> 11).wrapping_mul(inverse)
}

impl Find for Hashed {
    fn new(_: Records) -> Hashed {
        Hashed {
            table: [0; 2048],
            jobs: [0; ROOM],
            count: 0,
        }
    }

    #[inline(always)]
    fn at(&self, job: u32) -> usize {
        let mut h = hash(job);
        loop {
            // one more than the number; 0 where nothing stands
            let n = (self.table[h] as usize).wrapping_sub(1);
            match self.jobs.get(n) {
                Some(&j) if j == job => return n,
                None => return ROOM,
                _ => h = (h + 1) % 2048,
            }
        }
    }

    #[inline(always)]
    fn enter(&mut self, job: u32) -> Option<usize> {
        let mut h = hash(job);
        for _ in 0..MOST_STEPS {
            let n = (self.table[h] as usize).wrapping_sub(1);
            match self.jobs.get(n) {
                Some(&j) if j == job => return Some(n),
                None => {
                    let n = self.count;
                    *self.jobs.get_mut(n)? = job;
                    self.table[h] = n as u16 + 1;
                    self.count += 1;
                    return Some(n);
                }
                _ => h = (h + 1) % 2048,
            }
        }
        None
    }

    #[inline(always)]
    fn job(&self, number: usize) -> u32 {
        self.jobs[number]
    }
}

/// Any jobs, by halving with no branch, from a list of all that the log opens.
struct Halved {
    jobs: [u32; 512],
    count: usize,
}

impl Find for Halved {
    /// Up to the first open that does not rise or is one too many: no record after it is read.
    fn new(records: Records) -> Halved {
        let mut all = Halved {
            jobs: [u32::MAX; 512],
            count: 0,
        };
        for r in records.iter().map(|r| u64::from_le_bytes(*r)) {
            if r as u32 == 1 {
                let rises = all.count == 0 || job_of(r) > all.jobs[all.count - 1];
                if !rises || all.count == 512 {
                    break;
                }
                all.jobs[all.count] = job_of(r);
                all.count += 1;
            }
        }
        all
    }

    #[inline(always)]
    fn at(&self, job: u32) -> usize {
        let mut n = 0;
        for half in [256, 128, 64, 32, 16, 8, 4, 2, 1] {
            n += if self.jobs[(n + half - 1) % 512] < job {
                half
            } else {
                0
            };
        }
        if n < self.count && self.jobs[n % 512] == job {
            n
        } else {
            ROOM
        }
    }

    #[inline(always)]
    fn enter(&mut self, job: u32) -> Option<usize> {
        Some(self.at(job)).filter(|&n| n < ROOM)
    }

    #[inline(always)]
    fn job(&self, number: usize) -> u32 {
        self.jobs[number]
    }
}

// ---- the reading of a log

#[inline(always)]
fn job_of(record: u64) -> u32 {
    (record >> 32) as u32
}

/// Who is told the records of a log in turn. Each answers whether the record may stand there.
trait Told {
    fn open(&mut self, number: usize, place: usize);
    /// A read, 0, or a write, 1.
    fn step(&mut self, number: usize, cell: usize, write: usize, place: usize) -> bool;
    fn add(&mut self, number: usize, cell: usize, place: usize) -> bool;
    fn end(&mut self, number: usize) -> bool;
    fn abandon(&mut self, number: usize) -> bool;
}

enum Stop {
    Fault(Verdict),
    /// Another way of finding is wanted.
    Lost,
}

#[cold]
fn fault(code: u32, place: usize) -> Stop {
    Stop::Fault(verdict(code, place))
}

/// A whole log.
#[inline(always)]
fn read<F: Find, T: Told>(records: Records, find: &mut F, told: &mut T) -> Result<(), Stop> {
    let mut opened = 0;
    let mut last = 0;
    // by index: an iterator that counts keeps two counters
    #[allow(clippy::needless_range_loop)]
    for place in 0..records.len() {
        let record = u64::from_le_bytes(records[place]);
        if let Some(number) = find.step(record) {
            let (cell, write) = ((record >> 16) as usize & 255, record as usize & 1);
            if !told.step(number, cell, write, place) {
                return Err(fault(13, place));
            }
            continue;
        }
        let job = job_of(record);
        let turn = match record as u32 {
            1 if opened > 0 && job <= last => false,
            1 if opened == 512 => return Err(fault(14, place)),
            1 => {
                told.open(find.enter(job).ok_or(Stop::Lost)?, place);
                opened += 1;
                last = job;
                true
            }
            4 => told.end(find.at(job)),
            5 => told.abandon(find.at(job)),
            _ if record & STEP == 2 => false,
            _ if record & ADD == 7 => told.add(find.at(job), (record >> 16) as usize & 255, place),
            _ => return Err(fault(12, place)),
        };
        if !turn {
            return Err(fault(13, place));
        }
    }
    Ok(())
}

/// What is said of a log's records; of bytes that are none, their fault.
fn on_records<'a>(
    log: &'a [u8],
    tried: impl FnOnce(Records<'a>) -> Result<Verdict, Stop>,
) -> Verdict {
    let (records, tail) = log.as_chunks::<8>();
    if !tail.is_empty() || records.len() > 4096 {
        return verdict(11, 0);
    }
    match tried(records) {
        Ok(found) | Err(Stop::Fault(found)) => found,
        Err(Stop::Lost) => unreachable!("halving finds every job that a log opens"),
    }
}

/// Another way of finding, where one is wanted.
fn again(stop: Stop, next: impl FnOnce() -> Result<Verdict, Stop>) -> Result<Verdict, Stop> {
    match stop {
        Stop::Fault(fault) => Ok(fault),
        Stop::Lost => next(),
    }
}

// ---- the checker

// How a job stands: one of these, an open one with 1 more once it wrote or added; or, where the order has the job and it is open, twice its place there, from
// `FIRST` on, and again 1 more.
const NEVER: u32 = 0;
const ENDED: u32 = 2;
const ABANDONED: u32 = 4;
const OPEN: u32 = 6;
const FIRST: u32 = 8;

struct Check {
    stands: [u32; ROOM],
    /// How a job that the order has stands once it is open.
    places: [u32; ROOM],
    /// For each cell: a place for what is not kept, the highest that read or wrote, the highest that wrote or added, the highest that did anything.
    highest: [[u32; 4]; 256],
    /// The highest that has ended; an open job that the order lacks counts as below all that it has.
    ended: u32,
    backward: Option<usize>,
    kept: usize,
    kept_placed: usize,
}

impl Check {
    /// A step that is not above the highest: is the job open at all?
    #[cold]
    #[inline(never)]
    fn below(&mut self, stand: u32, place: usize) -> bool {
        if stand >= FIRST && self.backward.is_none() {
            self.backward = Some(place);
        }
        stand >= OPEN
    }
}

impl Told for Check {
    #[inline(always)]
    fn open(&mut self, number: usize, record: usize) {
        let place = self.places[number];
        self.stands[number] = place.max(OPEN);
        self.kept += 1;
        self.kept_placed += (place != 0) as usize;
        if place < self.ended {
            self.below(place, record);
        }
    }

    #[inline(always)]
    fn step(&mut self, number: usize, cell: usize, write: usize, place: usize) -> bool {
        let Some(stand) = self.stands.get_mut(number) else {
            return false;
        };
        let before = *stand;
        *stand = before | write as u32;
        let highest = &mut self.highest[cell];
        let at = before | 1;
        if at < highest[2 + write] {
            return self.below(before, place);
        }
        highest[1] = highest[1].max(at);
        highest[3] = highest[3].max(at);
        highest[2 * write] = at;
        true
    }

    #[inline(always)]
    fn add(&mut self, number: usize, cell: usize, place: usize) -> bool {
        let Some(stand) = self.stands.get_mut(number) else {
            return false;
        };
        let before = *stand;
        *stand = before | 1;
        let highest = &mut self.highest[cell];
        let at = before | 1;
        if at < highest[1] {
            return self.below(before, place);
        }
        highest[2] = highest[2].max(at);
        highest[3] = highest[3].max(at);
        true
    }

    #[inline(always)]
    fn end(&mut self, number: usize) -> bool {
        let Some(stand) = self.stands.get_mut(number) else {
            return false;
        };
        let open = *stand >= OPEN;
        self.ended = self.ended.max(*stand);
        *stand = ENDED;
        open
    }

    #[inline(always)]
    fn abandon(&mut self, number: usize) -> bool {
        let Some(stand) = self.stands.get_mut(number) else {
            return false;
        };
        let may = *stand >= OPEN && *stand & 1 == 0;
        self.kept -= may as usize;
        self.kept_placed -= (may && *stand >= FIRST) as usize;
        *stand = ABANDONED;
        may
    }
}

#[inline(never)]
fn check_by<F: Find>(records: Records, order: &[u32]) -> Result<Verdict, Stop> {
    let mut find = F::new(records);
    let mut check = Check {
        stands: [NEVER; ROOM],
        places: [0; ROOM],
        highest: [[FIRST; 4]; 256],
        ended: 0,
        backward: None,
        kept: 0,
        kept_placed: 0,
    };
    // of more entries one of these is wrong
    let mut placed = 0;
    for &job in order.iter().take(513) {
        match find.enter(job) {
            Some(n) if check.places[n] == 0 => check.places[n] = FIRST + 2 * placed as u32,
            _ => break,
        }
        placed += 1;
    }
    read(records, &mut find, &mut check)?;
    let kept = check.kept;
    if check.kept_placed != placed || placed != order.len() || kept != placed {
        let wrong = order[..placed].iter().position(|&job| {
            let stand = check.stands[find.at(job)];
            stand == NEVER || stand == ABANDONED
        });
        return Ok(verdict(15, wrong.unwrap_or(placed)));
    }
    Ok(match check.backward {
        Some(place) => verdict(16, place),
        None => verdict(0, kept),
    })
}

/// The verdict on a log and an order.
pub fn check(log: &[u8], order: &[u32]) -> Verdict {
    on_records(log, |records| {
        check_by::<Dense>(records, order)
            .or_else(|stop| again(stop, || check_by::<Hashed>(records, order)))
            .or_else(|stop| again(stop, || check_by::<Halved>(records, order)))
    })
}

/// The same with no hash.
pub fn check_halving(log: &[u8], order: &[u32]) -> Verdict {
    on_records(log, |records| {
        check_by::<Dense>(records, order)
            .or_else(|stop| again(stop, || check_by::<Halved>(records, order)))
    })
}

// ---- the lister

#[derive(Clone, Copy, PartialEq, PartialOrd)]
enum Stand {
    Open,
    Wrote,
    Never,
    Ended,
    Abandoned,
}

/// A mark among 512, of which there may be none: its word, and its bit or no bit.
#[derive(Clone, Copy)]
struct Mark {
    word: usize,
    bit: u64,
}

#[inline(always)]
fn mark(number: usize) -> Mark {
    Mark {
        word: number / 64 % 8,
        bit: 1 << (number % 64),
    }
}

/// The last writer of a cell, that one with the readers since, and whether there were adders since.
#[derive(Clone, Copy)]
#[repr(align(128))]
struct Cell {
    used: [u64; 8],
    writer: Mark,
    added: bool,
}

struct List {
    stands: [Stand; 512],
    /// For each job, jobs that it comes after; what those come after may be left out.
    after: [[u64; 8]; 512],
    cells: [Cell; 256],
    /// For each cell the adders since its last writer.
    adders: [[u64; 8]; 256],
    kept: [u64; 8],
    ended: [u64; 8],
}

#[inline(always)]
fn join(after: &mut [u64; 8], more: &[u64; 8]) {
    for (a, m) in after.iter_mut().zip(more) {
        *a |= m;
    }
}

impl Told for List {
    #[inline(always)]
    fn open(&mut self, number: usize, _: usize) {
        self.stands[number] = Stand::Open;
        self.after[number] = self.ended;
        let m = mark(number);
        self.kept[m.word] |= m.bit;
    }

    #[inline(always)]
    fn step(&mut self, number: usize, cell: usize, write: usize, _: usize) -> bool {
        let Some(stand) = self.stands.get_mut(number) else {
            return false;
        };
        if *stand > Stand::Wrote {
            return false;
        }
        let me = mark(number);
        let after = &mut self.after[number];
        let adders = &mut self.adders[cell];
        let cell = &mut self.cells[cell];
        if cell.added {
            join(after, adders);
        }
        if write == 1 {
            *stand = Stand::Wrote;
            join(after, &cell.used);
            if cell.added {
                *adders = [0; 8];
                cell.added = false;
            }
            cell.used = [0; 8];
            cell.writer = me;
        } else {
            after[cell.writer.word % 8] |= cell.writer.bit;
        }
        cell.used[me.word] |= me.bit;
        true
    }

    #[inline(always)]
    fn add(&mut self, number: usize, cell: usize, _: usize) -> bool {
        let Some(stand) = self.stands.get_mut(number) else {
            return false;
        };
        if *stand > Stand::Wrote {
            return false;
        }
        *stand = Stand::Wrote;
        let me = mark(number);
        join(&mut self.after[number], &self.cells[cell].used);
        self.cells[cell].added = true;
        self.adders[cell][me.word] |= me.bit;
        true
    }

    #[inline(always)]
    fn end(&mut self, number: usize) -> bool {
        let Some(stand) = self.stands.get_mut(number) else {
            return false;
        };
        let open = *stand <= Stand::Wrote;
        *stand = Stand::Ended;
        let m = mark(number);
        self.ended[m.word] |= m.bit;
        open
    }

    #[inline(always)]
    fn abandon(&mut self, number: usize) -> bool {
        let Some(stand) = self.stands.get_mut(number) else {
            return false;
        };
        let may = *stand == Stand::Open;
        *stand = Stand::Abandoned;
        let m = mark(number);
        self.kept[m.word] &= !m.bit;
        may
    }
}

/// Who is to be placed: a job waits for the highest of those left that it comes after, or is ready.
struct Queue<'a> {
    after: &'a mut [[u64; 8]; 512],
    left: [u64; 8],
    ready: [u64; 8],
    /// Which words of `ready` are not 0.
    some: u32,
    /// For each job the first that waits for it and the next that waits for the same; one more than its number, 0 where there is none.
    first: [u16; 512],
    next: [u16; 512],
}

/// All these jobs, each settled.
#[inline(always)]
fn queue(jobs: [u64; 8], after: &mut [[u64; 8]; 512]) -> Queue<'_> {
    let mut queue = Queue {
        after,
        left: jobs,
        ready: [0; 8],
        some: 0,
        first: [0; 512],
        next: [0; 512],
    };
    for (w, &word) in jobs.iter().enumerate() {
        let mut rest = word;
        while rest != 0 {
            let number = w * 64 + rest.trailing_zeros() as usize % 64;
            // no job waits for itself
            queue.after[number][w] &= !(rest & rest.wrapping_neg());
            queue.settle(number, 8);
            rest &= rest - 1;
        }
    }
    queue
}

impl Queue<'_> {
    /// A job that comes after none of those left past so many words.
    #[inline(always)]
    fn settle(&mut self, number: usize, words: usize) {
        let after = &self.after[number];
        for w in (0..words.min(8)).rev() {
            let waits = after[w] & self.left[w];
            if waits != 0 {
                let other = w * 64 + 63 - waits.leading_zeros() as usize;
                self.next[number] = self.first[other];
                self.first[other] = number as u16 + 1;
                return;
            }
        }
        let me = mark(number);
        self.ready[me.word] |= me.bit;
        self.some |= 1 << me.word;
    }

    /// The lowest that is ready is placed, and those that waited for it are looked at again.
    #[inline(always)]
    fn place(&mut self) -> Option<usize> {
        if self.some == 0 {
            return None;
        }
        let w = self.some.trailing_zeros() as usize % 8;
        let number = w * 64 + self.ready[w].trailing_zeros() as usize % 64;
        let bit = self.ready[w] & self.ready[w].wrapping_neg();
        self.left[w] ^= bit;
        self.ready[w] ^= bit;
        if self.ready[w] == 0 {
            self.some ^= 1 << w;
        }
        let mut waits = self.first[number] as usize;
        while waits != 0 {
            let other = (waits - 1) % 512;
            waits = self.next[other] as usize;
            self.settle(other, w + 1);
        }
        Some(number)
    }
}

#[inline(never)]
fn list_by<F: Find>(records: Records, out: &mut [u32]) -> Result<Verdict, Stop> {
    let mut find = F::new(records);
    let no_cell = Cell {
        used: [0; 8],
        writer: Mark { word: 0, bit: 0 },
        added: false,
    };
    let mut list = List {
        stands: [Stand::Never; 512],
        after: [[0; 8]; 512],
        cells: [no_cell; 256],
        adders: [[0; 8]; 256],
        kept: [0; 8],
        ended: [0; 8],
    };
    read(records, &mut find, &mut list)?;
    let kept: usize = list.kept.iter().map(|w| w.count_ones() as usize).sum();
    if out.len() < kept {
        return Ok(verdict(18, kept));
    }
    let mut order = [0; 512];
    let mut placed = 0;
    let mut queue = queue(list.kept, &mut list.after);
    while let Some(number) = queue.place() {
        order[placed % 512] = find.job(number);
        placed += 1;
    }
    if placed < kept {
        return Ok(verdict(17, 0));
    }
    out[..kept].copy_from_slice(&order[..kept]);
    Ok(verdict(0, kept))
}

/// The lowest-first order of a log, in the lent list. On a refusal the list stays.
pub fn list(log: &[u8], out: &mut [u32]) -> Verdict {
    on_records(log, |records| {
        list_by::<Dense>(records, out)
            .or_else(|stop| again(stop, || list_by::<Hashed>(records, out)))
            .or_else(|stop| again(stop, || list_by::<Halved>(records, out)))
    })
}

/// The same with no hash.
pub fn list_halving(log: &[u8], out: &mut [u32]) -> Verdict {
    on_records(log, |records| {
        list_by::<Dense>(records, out)
            .or_else(|stop| again(stop, || list_by::<Halved>(records, out)))
    })
}
