//! Reedtangle for Rust: an arbiter for overlapping jobs over 256 shared cells, a checker of orders, a lister of orders and one of the
//! morning sheet.
//!
//! The work is done by the proved functions of three archives, which `tools/build.sh arbiter orders archive` writes at the top of
//! the repository; this crate lends them memory and takes their answers apart. It is plain Rust and not proved; `tests/night.rs` tries it.
//! It has no dependencies, allocates nothing and keeps no globals.
//!
//! Two steps (reads, writes and adds) conflict when their jobs differ, their cell is the same, and they are neither both reads nor both adds. A
//! job is kept unless it was abandoned. An order of the kept jobs would do when any two conflicting steps come in it as they came in the log,
//! and each job comes in it before all that were opened after its end; so the words are used below. That a job gets through is not promised: one
//! that is refused may be refused for ever.
//!
//! Every function here is total: any request, any bytes and any list get exactly one answer, and a refusal changes nothing.
//!
//! ```
//! use reedtangle::{check_order, list_order, record, request, Arbiter, Job, Refusal};
//!
//! let (a, b) = (Job(1), Job(2));
//! let (mut arbiter, mut log, mut order) = (Arbiter::new(1), Vec::new(), [0; 512]);
//! for ask in [request::open(0), request::open(2), request::read(b, 5), request::write(a, 5), request::end(a)] {
//!     log.extend(record(ask, arbiter.ask(ask).unwrap()));
//! }
//! assert_eq!(arbiter.write(b, 5), Err(Refusal::Circle));
//! let count = list_order(&log, &mut order).unwrap();
//! assert_eq!(order[..count], [2, 1]);
//! assert_eq!(check_order(&log, &order[..count]), Ok(2));
//! ```
#![no_std]
#![warn(missing_docs)]

use core::error::Error;
use core::fmt;

extern "C" {
    fn reedtangle_fresh(
        first: u32,
        next: *mut u64,
        free: *mut u32,
        numbers: *mut [u32; 32],
        leads: *mut [u32; 32],
        sets: *mut [u64; 512],
        ports: *mut [u32; 3],
    );
    fn reedtangle_step(
        next: *mut u64,
        free: *mut u32,
        numbers: *mut [u32; 32],
        leads: *mut [u32; 32],
        sets: *mut [u64; 512],
        ports: *mut [u32; 3],
        request: *const [u8; 8],
    ) -> u64;
    fn reedtangle_replay(
        first: u32,
        requests: *const u8,
        length: usize,
        answers: *mut u8,
        room: usize,
        written: *mut u64,
    ) -> u32;
    fn reedtangle_replay_by_value(
        first: u32,
        requests: *const u8,
        length: usize,
        answers: *mut u8,
        room: usize,
        written: *mut u64,
    ) -> u32;
    fn reedtangle_late_step(
        next: *mut u64,
        free: *mut u32,
        numbers: *mut [u32; 32],
        leads: *mut [u32; 32],
        sets: *mut [u64; 512],
        ports: *mut [u32; 3],
        request: *const [u8; 8],
    ) -> u64;
    fn reedtangle_coarse_step(
        next: *mut u64,
        free: *mut u32,
        numbers: *mut [u32; 32],
        leads: *mut [u32; 32],
        sets: *mut [u64; 512],
        ports: *mut [u32; 3],
        request: *const [u8; 8],
    ) -> u64;
    fn reedtangle_publish(
        next: *mut u64,
        free: *mut u32,
        numbers: *mut [u32; 32],
        leads: *mut [u32; 32],
        sets: *mut [u64; 512],
        job: u32,
        cells: *const [u64; 4],
    ) -> u64;
    fn reedtangle_check_order(
        log: *const u8,
        length: usize,
        order: *const u32,
        entries: usize,
    ) -> u64;
    fn reedtangle_list_order(log: *const u8, length: usize, out: *mut u32, room: usize) -> u64;
    fn reedtangle_list_sheet(log: *const u8, length: usize, out: *mut u32, room: usize) -> u64;
}

/// At most so many jobs are open at once.
pub const SLOTS: usize = 32;
/// Ports are numbered 0 to 2.
pub const PORTS: usize = 3;
/// At most so many jobs of one port are open at once.
pub const PORT_SLOTS: usize = 16;
/// Cells are numbered 0 to 255, so that a `u8` is always a cell.
pub const CELLS: usize = 256;
/// A log has at most so many records of eight bytes.
pub const LOG_RECORDS: usize = 4096;
/// A log has at most so many bytes.
pub const LOG_BYTES: usize = 32768;
/// A log opens at most so many jobs; a list of so many entries has room for every order.
pub const LOG_JOBS: usize = 512;

/// The number of a job, issued once.
#[derive(Clone, Copy, PartialEq, Eq, PartialOrd, Ord, Hash, Debug)]
pub struct Job(pub u32);

impl fmt::Display for Job {
    fn fmt(&self, f: &mut fmt::Formatter<'_>) -> fmt::Result {
        self.0.fmt(f)
    }
}

// ---- requests and records

/// Requests: eight bytes each. Byte 0 is the kind, byte 1 is 0, bytes 2 and 3 are the cell and bytes 4 to 7 the job, low byte first; of an open
/// these four are its port.
pub mod request {
    use crate::Job;

    /// Any kind, cell and job, in the layout of a request.
    pub const fn of(kind: u8, cell: u16, job: u32) -> [u8; 8] {
        let c = cell.to_le_bytes();
        let j = job.to_le_bytes();
        [kind, 0, c[0], c[1], j[0], j[1], j[2], j[3]]
    }

    /// Opens a job of a port, 0 to 2; the answer has its number.
    pub const fn open(port: u32) -> [u8; 8] {
        of(1, 0, port)
    }

    /// A read of a cell.
    pub const fn read(job: Job, cell: u8) -> [u8; 8] {
        of(2, cell as u16, job.0)
    }

    /// A write of a cell.
    pub const fn write(job: Job, cell: u8) -> [u8; 8] {
        of(3, cell as u16, job.0)
    }

    /// The end of a job. Never refused while the job is open.
    pub const fn end(job: Job) -> [u8; 8] {
        of(4, 0, job.0)
    }

    /// Gives up a job that has written nothing and added to nothing: it counts no more.
    pub const fn abandon(job: Job) -> [u8; 8] {
        of(5, 0, job.0)
    }

    /// A write of a cell and the end of its job in one request. Granted exactly when the write is; where it is refused the job stays open.
    pub const fn publish(job: Job, cell: u8) -> [u8; 8] {
        of(6, cell as u16, job.0)
    }

    /// A raise of a cell that is a counter. It conflicts with reads and writes of other jobs, not with their adds.
    pub const fn add(job: Job, cell: u8) -> [u8; 8] {
        of(7, cell as u16, job.0)
    }
}

/// The record of a request that was granted with this job. A log is such records, one after another, of all that was granted.
///
/// An open has the number issued in its record, and only reads, writes and adds have a cell. Not for a publish, which has two: [`records`] makes those of any
/// request.
pub const fn record(request: [u8; 8], granted: Job) -> [u8; 8] {
    let cell = match request[0] {
        2 | 3 | 7 => u16::from_le_bytes([request[2], request[3]]),
        _ => 0,
    };
    request::of(request[0], cell, granted.0)
}

/// The bytes of the records of a request that was granted with this job: eight, or sixteen for a publish, its write and its end.
pub fn records(request: [u8; 8], granted: Job) -> impl Iterator<Item = u8> {
    let mut first = request;
    let mut last = None;
    if request[0] == 6 {
        first[0] = 3;
        last = Some(request::end(granted));
    }
    let first = record(first, granted);
    first.into_iter().chain(last.into_iter().flatten())
}

// ---- the arbiter

/// Why a request was refused.
#[derive(Clone, Copy, PartialEq, Eq, Hash, Debug)]
pub enum Refusal {
    /// 1: the kind is none of 1 to 7, or byte 1 is not 0.
    Malformed = 1,
    /// 2: the cell of a read, write, add or publish is 256 or more.
    NoCell = 2,
    /// 3: the asking job is not open.
    NotOpen = 3,
    /// 4: an abandon of a job that has written or added.
    HasWritten = 4,
    /// 5: an open while 32 jobs are open.
    Full = 5,
    /// 6: an open after job number 4,294,967,295 was issued.
    Spent = 6,
    /// 7: with this read, add, or write, a publish's too, no order of the jobs would do.
    Circle = 7,
    /// 8: an open whose port is above 2.
    NoPort = 8,
    /// 9: an open while 16 jobs of its port are open.
    PortFull = 9,
}

impl Refusal {
    /// Document 01's code.
    pub const fn code(self) -> u32 {
        self as u32
    }

    /// The refusal that has the code, 1 to 9.
    #[inline]
    pub const fn from_code(code: u32) -> Option<Refusal> {
        Some(match code {
            1 => Refusal::Malformed,
            2 => Refusal::NoCell,
            3 => Refusal::NotOpen,
            4 => Refusal::HasWritten,
            5 => Refusal::Full,
            6 => Refusal::Spent,
            7 => Refusal::Circle,
            8 => Refusal::NoPort,
            9 => Refusal::PortFull,
            _ => return None,
        })
    }
}

impl fmt::Display for Refusal {
    fn fmt(&self, f: &mut fmt::Formatter<'_>) -> fmt::Result {
        f.write_str(match self {
            Refusal::Malformed => "not a request",
            Refusal::NoCell => "no such cell",
            Refusal::NotOpen => "the job is not open",
            Refusal::HasWritten => "the job has written or added",
            Refusal::Full => "32 jobs are open",
            Refusal::Spent => "the last job number was issued",
            Refusal::Circle => "no order of the jobs would do",
            Refusal::NoPort => "no such port",
            Refusal::PortFull => "16 jobs of the port are open",
        })
    }
}

impl Error for Refusal {}

/// What an arbiter holds: 4,384 bytes of plain numbers, to be copied, saved and read back at will.
#[derive(Clone, PartialEq, Eq, Hash, Debug)]
#[repr(C)]
pub struct State {
    /// The number that the next open gets; 2^32 once there is none left.
    pub next: u64,
    /// Bit i: slot i is free.
    pub free: u32,
    /// The job in each slot.
    pub numbers: [u32; 32],
    /// Bit j of the i-th: the job in slot i leads to the one in slot j.
    pub leads: [u32; 32],
    /// Sixteen words a slot, four a cell set: own used, own altered, past used, past altered. Used is read or written, altered is written or
    /// added to.
    pub sets: [u64; 512],
    /// Bit i of the p-th: slot i is of port p. A slot keeps its port when its job is gone, and counts while it is open.
    pub ports: [u32; 3],
}

fn fresh(first: u32, s: &mut State) {
    // Six fields of one value: they do not overlap, and each is as large as its type says.
    unsafe {
        reedtangle_fresh(
            first,
            &mut s.next,
            &mut s.free,
            &mut s.numbers,
            &mut s.leads,
            &mut s.sets,
            &mut s.ports,
        )
    };
}

/// An arbiter: one state, and the requests that it was asked.
#[derive(Clone, PartialEq, Eq, Hash, Debug)]
pub struct Arbiter {
    state: State,
}

impl Arbiter {
    /// No job open. The first job gets the number `first`, which may be any.
    pub fn new(first: u32) -> Arbiter {
        let mut state = State {
            next: 0,
            free: 0,
            numbers: [0; 32],
            leads: [0; 32],
            sets: [0; 512],
            ports: [0; 3],
        };
        fresh(first, &mut state);
        Arbiter { state }
    }

    /// Starts again, in the same memory: what [`Arbiter::new`] makes, whatever was held before.
    pub fn restart(&mut self, first: u32) {
        fresh(first, &mut self.state);
    }

    /// Goes on from a state that was kept. Any content is safe and gets an answer; that the answers are those of a history holds for
    /// states that [`Arbiter::state`] gave.
    pub const fn from_state(state: State) -> Arbiter {
        Arbiter { state }
    }

    /// What the arbiter holds.
    pub const fn state(&self) -> &State {
        &self.state
    }

    /// One request, any eight bytes. A grant has the job: the number issued for an open, else the asking job. A refusal changes no bit of
    /// the state.
    ///
    /// From a fresh state each answer is the one that the whole history gives: a read, write or add of an open job on a real cell gets
    /// [`Refusal::Circle`] exactly when no order of the jobs would do with it. A publish is granted exactly when its write is, and leaves the
    /// state that the write and the end of the job leave.
    #[inline]
    pub fn ask(&mut self, request: [u8; 8]) -> Result<Job, Refusal> {
        granted(self.answer(request))
    }

    /// One request as with [`Arbiter::ask`], the answer in document 01's numbers: the code, 0 for a grant, and the job, 0 for a refusal.
    #[inline]
    pub fn answer(&mut self, request: [u8; 8]) -> (u32, u32) {
        let s = &mut self.state;
        // Six fields of one value and a request apart from it: they do not overlap, and each is as large as its type says.
        apart(unsafe {
            reedtangle_step(
                &mut s.next,
                &mut s.free,
                &mut s.numbers,
                &mut s.leads,
                &mut s.sets,
                &mut s.ports,
                &request,
            )
        })
    }

    /// Asks to open a job of a port, 0 to 2.
    ///
    /// The refusals in their sequence: [`Refusal::Spent`], [`Refusal::NoPort`], [`Refusal::Full`], [`Refusal::PortFull`].
    pub fn open(&mut self, port: u32) -> Result<Job, Refusal> {
        self.ask(request::open(port))
    }

    /// Asks to read a cell.
    pub fn read(&mut self, job: Job, cell: u8) -> Result<Job, Refusal> {
        self.ask(request::read(job, cell))
    }

    /// Asks to write a cell.
    pub fn write(&mut self, job: Job, cell: u8) -> Result<Job, Refusal> {
        self.ask(request::write(job, cell))
    }

    /// Asks to end a job.
    pub fn end(&mut self, job: Job) -> Result<Job, Refusal> {
        self.ask(request::end(job))
    }

    /// Asks to abandon a job.
    pub fn abandon(&mut self, job: Job) -> Result<Job, Refusal> {
        self.ask(request::abandon(job))
    }

    /// Asks to write a cell and end the job, in one request.
    pub fn publish(&mut self, job: Job, cell: u8) -> Result<Job, Refusal> {
        self.ask(request::publish(job, cell))
    }

    /// Asks to add to a cell.
    pub fn add(&mut self, job: Job, cell: u8) -> Result<Job, Refusal> {
        self.ask(request::add(job, cell))
    }
}

// ---- the second profile

/// A set of cells: cell c is bit c % 64 of word c / 64.
#[derive(Clone, Copy, PartialEq, Eq, Hash, Debug, Default)]
pub struct CellSet(pub [u64; 4]);

impl CellSet {
    /// No cell.
    pub const NONE: CellSet = CellSet([0; 4]);

    /// The cells named, in any sequence, each once or more.
    pub const fn of(cells: &[u8]) -> CellSet {
        let mut set = CellSet::NONE;
        let mut i = 0;
        while i < cells.len() {
            set.0[cells[i] as usize / 64] |= 1 << (cells[i] % 64);
            i += 1;
        }
        set
    }

    /// Is the cell in the set?
    pub const fn has(&self, cell: u8) -> bool {
        self.0[cell as usize / 64] >> (cell % 64) & 1 == 1
    }

    /// The cells of the set, the lowest first.
    pub fn cells(self) -> impl Iterator<Item = u8> {
        (0..=255).filter(move |&cell| self.has(cell))
    }
}

/// The bytes of the records of a publish of these cells that was granted: a write for each cell, the lowest first, and the end. Those of a request that a
/// [`LateArbiter`] granted are one record, by [`record`].
pub fn published(job: Job, cells: CellSet) -> impl Iterator<Item = u8> {
    cells
        .cells()
        .flat_map(move |cell| request::write(job, cell))
        .chain(request::end(job))
}

/// An arbiter of the second profile: reads are granted as they come, and a job writes and ends by one publish, which is tested then.
///
/// Its state has the form of an [`Arbiter`]'s and not its meaning: an open job's reads may already stand against each other. A state belongs to the profile it
/// was started in, so the two are types apart; to hand the state of one to the other is safe and gets answers, and they are those of no history.
///
/// ```
/// use reedtangle::{CellSet, LateArbiter, Refusal};
///
/// let mut desk = LateArbiter::new(1);
/// let (a, b) = (desk.open(0).unwrap(), desk.open(0).unwrap());
/// for job in [a, b] {
///     desk.read(job, 5).unwrap();
/// }
/// assert_eq!(desk.publish(b, CellSet::of(&[5])), Ok(b));
/// // a has read 5 before b wrote it, and would write it after
/// assert_eq!(desk.publish(a, CellSet::of(&[5])), Err(Refusal::Circle));
/// assert_eq!(desk.publish(a, CellSet::of(&[6, 7])), Ok(a));
/// ```
#[derive(Clone, PartialEq, Eq, Hash, Debug)]
pub struct LateArbiter {
    state: State,
}

impl LateArbiter {
    /// No job open. The first job gets the number `first`, which may be any.
    pub fn new(first: u32) -> LateArbiter {
        LateArbiter {
            state: Arbiter::new(first).state,
        }
    }

    /// Starts again, in the same memory: what [`LateArbiter::new`] makes, whatever was held before.
    pub fn restart(&mut self, first: u32) {
        fresh(first, &mut self.state);
    }

    /// Goes on from a state that was kept. Any content is safe and gets an answer; that the answers are those of a history holds for
    /// states that [`LateArbiter::state`] gave.
    pub const fn from_state(state: State) -> LateArbiter {
        LateArbiter { state }
    }

    /// What the arbiter holds.
    pub const fn state(&self) -> &State {
        &self.state
    }

    /// One request, any eight bytes: an open, a read or an abandon, and [`Refusal::Malformed`] for any other kind. A read of an open job on a real cell is
    /// granted, and an open job may be abandoned until it publishes. A refusal changes no bit of the state.
    #[inline]
    pub fn ask(&mut self, request: [u8; 8]) -> Result<Job, Refusal> {
        granted(self.answer(request))
    }

    /// One request as with [`LateArbiter::ask`], the answer in document 01's numbers: the code, 0 for a grant, and the job, 0 for a refusal.
    #[inline]
    pub fn answer(&mut self, request: [u8; 8]) -> (u32, u32) {
        let s = &mut self.state;
        // Six fields of one value and a request apart from it: they do not overlap, and each is as large as its type says.
        apart(unsafe {
            reedtangle_late_step(
                &mut s.next,
                &mut s.free,
                &mut s.numbers,
                &mut s.leads,
                &mut s.sets,
                &mut s.ports,
                &request,
            )
        })
    }

    /// Asks to write the cells, any or none, and end the job.
    ///
    /// [`Refusal::NotOpen`] if the job is not open. From a fresh state, [`Refusal::Circle`] exactly when the jobs that have ended and this one would have no order
    /// that will do, with these writes put at its end; other open jobs do not count. A refused job is open as before. The log of all that was granted, without the
    /// records of the jobs still open, always has an order.
    #[inline]
    pub fn publish(&mut self, job: Job, cells: CellSet) -> Result<Job, Refusal> {
        granted(self.publish_answer(job.0, cells))
    }

    /// A publish as with [`LateArbiter::publish`], the answer in document 01's numbers.
    #[inline]
    pub fn publish_answer(&mut self, job: u32, cells: CellSet) -> (u32, u32) {
        let s = &mut self.state;
        // Five fields of one value and a set apart from it: they do not overlap, and each is as large as its type says.
        apart(unsafe {
            reedtangle_publish(
                &mut s.next,
                &mut s.free,
                &mut s.numbers,
                &mut s.leads,
                &mut s.sets,
                job,
                &cells.0,
            )
        })
    }

    /// Asks to open a job of a port, 0 to 2.
    ///
    /// The refusals in their sequence: [`Refusal::Spent`], [`Refusal::NoPort`], [`Refusal::Full`], [`Refusal::PortFull`].
    pub fn open(&mut self, port: u32) -> Result<Job, Refusal> {
        self.ask(request::open(port))
    }

    /// Asks to read a cell.
    pub fn read(&mut self, job: Job, cell: u8) -> Result<Job, Refusal> {
        self.ask(request::read(job, cell))
    }

    /// Asks to abandon a job.
    pub fn abandon(&mut self, job: Job) -> Result<Job, Refusal> {
        self.ask(request::abandon(job))
    }
}

// ---- the coarse mode

/// A coarse arbiter: 4,096 cells in 256 groups of sixteen, a cell's group being its number divided by 16, rounded down.
///
/// It answers as an [`Arbiter`] does that is asked with each cell's group for the cell, so that two steps stand against each other by groups and some are refused
/// that the exact mode would grant. What it grants has an order by its true cells. Its state holds groups: it is made as that of an [`Arbiter`] and goes on in
/// this mode alone. The log of what it grants has cells above 255, which the checker and the lister do not take.
///
/// ```
/// use reedtangle::{CoarseArbiter, Refusal};
///
/// let mut archive = CoarseArbiter::new(1);
/// let (a, b) = (archive.open(0).unwrap(), archive.open(0).unwrap());
/// archive.read(a, 4080).unwrap();
/// archive.write(b, 4095).unwrap();
/// // a comes before b by the group of 4,080 to 4,095
/// assert_eq!(archive.read(a, 4090), Err(Refusal::Circle));
/// assert_eq!(archive.read(a, 4079), Ok(a));
/// assert_eq!(archive.read(a, 4096), Err(Refusal::NoCell));
/// ```
#[derive(Clone, PartialEq, Eq, Hash, Debug)]
pub struct CoarseArbiter {
    state: State,
}

impl CoarseArbiter {
    /// No job open. The first job gets the number `first`, which may be any.
    pub fn new(first: u32) -> CoarseArbiter {
        CoarseArbiter {
            state: Arbiter::new(first).state,
        }
    }

    /// Starts again, in the same memory: what [`CoarseArbiter::new`] makes, whatever was held before.
    pub fn restart(&mut self, first: u32) {
        fresh(first, &mut self.state);
    }

    /// Goes on from a state that was kept. Any content is safe and gets an answer; that the answers are those of a history holds for
    /// states that [`CoarseArbiter::state`] gave.
    pub const fn from_state(state: State) -> CoarseArbiter {
        CoarseArbiter { state }
    }

    /// What the arbiter holds.
    pub const fn state(&self) -> &State {
        &self.state
    }

    /// One request, any eight bytes, as with [`Arbiter::ask`]; [`Refusal::NoCell`] is for a cell above 4,095.
    #[inline]
    pub fn ask(&mut self, request: [u8; 8]) -> Result<Job, Refusal> {
        granted(self.answer(request))
    }

    /// One request as with [`CoarseArbiter::ask`], the answer in document 01's numbers: the code, 0 for a grant, and the job, 0 for a refusal.
    #[inline]
    pub fn answer(&mut self, request: [u8; 8]) -> (u32, u32) {
        let s = &mut self.state;
        // Six fields of one value and a request apart from it: they do not overlap, and each is as large as its type says.
        apart(unsafe {
            reedtangle_coarse_step(
                &mut s.next,
                &mut s.free,
                &mut s.numbers,
                &mut s.leads,
                &mut s.sets,
                &mut s.ports,
                &request,
            )
        })
    }

    /// Asks to open a job of a port, 0 to 2.
    ///
    /// The refusals in their sequence: [`Refusal::Spent`], [`Refusal::NoPort`], [`Refusal::Full`], [`Refusal::PortFull`].
    pub fn open(&mut self, port: u32) -> Result<Job, Refusal> {
        self.ask(request::open(port))
    }

    /// Asks to read a cell.
    pub fn read(&mut self, job: Job, cell: u16) -> Result<Job, Refusal> {
        self.ask(request::of(2, cell, job.0))
    }

    /// Asks to write a cell.
    pub fn write(&mut self, job: Job, cell: u16) -> Result<Job, Refusal> {
        self.ask(request::of(3, cell, job.0))
    }

    /// Asks to add to a cell.
    pub fn add(&mut self, job: Job, cell: u16) -> Result<Job, Refusal> {
        self.ask(request::of(7, cell, job.0))
    }

    /// Asks to write a cell and end the job, in one request.
    pub fn publish(&mut self, job: Job, cell: u16) -> Result<Job, Refusal> {
        self.ask(request::of(6, cell, job.0))
    }

    /// Asks to end a job.
    pub fn end(&mut self, job: Job) -> Result<Job, Refusal> {
        self.ask(request::end(job))
    }

    /// Asks to abandon a job.
    pub fn abandon(&mut self, job: Job) -> Result<Job, Refusal> {
        self.ask(request::abandon(job))
    }
}

// ---- many requests

/// Why `replay` was refused: the answers do not fit.
#[derive(Clone, Copy, PartialEq, Eq, Hash, Debug)]
pub struct NoRoom;

impl NoRoom {
    /// Document 01's code, 24.
    pub const fn code(self) -> u32 {
        24
    }
}

impl fmt::Display for NoRoom {
    fn fmt(&self, f: &mut fmt::Formatter<'_>) -> fmt::Result {
        f.write_str("the answers do not fit")
    }
}

impl Error for NoRoom {}

/// Many requests from a fresh state of its own: the count of bytes written to `answers`.
///
/// Each eight bytes of `requests` get eight of answer: the code, and the job or 0, four bytes each, low byte first. A tail of 1 to 7 bytes
/// is not read, and bytes of `answers` past those written stay. Where the room is short nothing is written. The answers are those of
/// [`Arbiter::ask`] one by one.
#[inline]
pub fn replay(first: u32, requests: &[u8], answers: &mut [u8]) -> Result<usize, NoRoom> {
    run(reedtangle_replay, first, requests, answers)
}

/// The same with the state handed on by value from step to step: for measuring what that costs.
#[inline]
pub fn replay_by_value(first: u32, requests: &[u8], answers: &mut [u8]) -> Result<usize, NoRoom> {
    run(reedtangle_replay_by_value, first, requests, answers)
}

type Run = unsafe extern "C" fn(u32, *const u8, usize, *mut u8, usize, *mut u64) -> u32;

#[inline]
fn run(by: Run, first: u32, requests: &[u8], answers: &mut [u8]) -> Result<usize, NoRoom> {
    let mut written = 0;
    // Two slices and a number, apart since one slice and the number are lent to be written.
    let code = unsafe {
        by(
            first,
            requests.as_ptr(),
            requests.len(),
            answers.as_mut_ptr(),
            answers.len(),
            &mut written,
        )
    };
    match code {
        0 => Ok(written as usize),
        24 => Err(NoRoom),
        _ => unexpected(code),
    }
}

// ---- orders

/// What is wrong with a log. A place is that of the first faulty record, counted from 0.
#[derive(Clone, Copy, PartialEq, Eq, Hash, Debug)]
pub enum Fault {
    /// 11: the length is no multiple of 8, or over 32,768 bytes.
    Length,
    /// 12: a record with a wrong kind, byte 1 or cell.
    Form(usize),
    /// 13: an open whose number is not above those before it; a job that is not open there; an abandon after a write or an add.
    Turn(usize),
    /// 14: an open with 512 opens before it.
    TooMany(usize),
}

impl Fault {
    /// Document 01's code.
    pub const fn code(self) -> u32 {
        match self {
            Fault::Length => 11,
            Fault::Form(_) => 12,
            Fault::Turn(_) => 13,
            Fault::TooMany(_) => 14,
        }
    }

    /// The place that goes with it.
    pub const fn place(self) -> usize {
        match self {
            Fault::Length => 0,
            Fault::Form(place) | Fault::Turn(place) | Fault::TooMany(place) => place,
        }
    }

    const fn from_code(code: u32, place: usize) -> Option<Fault> {
        Some(match code {
            11 => Fault::Length,
            12 => Fault::Form(place),
            13 => Fault::Turn(place),
            14 => Fault::TooMany(place),
            _ => return None,
        })
    }
}

impl fmt::Display for Fault {
    fn fmt(&self, f: &mut fmt::Formatter<'_>) -> fmt::Result {
        match self {
            Fault::Length => f.write_str("the length of the log is wrong"),
            Fault::Form(place) => write!(f, "record {place} is none"),
            Fault::Turn(place) => write!(f, "record {place} is out of turn"),
            Fault::TooMany(place) => write!(f, "record {place} opens a job too many"),
        }
    }
}

impl Error for Fault {}

/// Why an order was refused.
#[derive(Clone, Copy, PartialEq, Eq, Hash, Debug)]
pub enum BadOrder {
    /// 11 to 14: the log is at fault.
    Log(Fault),
    /// 15: the first entry that is no kept job or a repeated one; or, with none, the length of a list that lacks a kept job.
    Entry(usize),
    /// 16: the first record that must come after an earlier one whose job the order puts later: a step that conflicts with it, or an open
    /// after its end.
    Backward(usize),
}

impl BadOrder {
    /// Document 01's code.
    pub const fn code(self) -> u32 {
        match self {
            BadOrder::Log(fault) => fault.code(),
            BadOrder::Entry(_) => 15,
            BadOrder::Backward(_) => 16,
        }
    }

    /// The place that goes with it.
    pub const fn place(self) -> usize {
        match self {
            BadOrder::Log(fault) => fault.place(),
            BadOrder::Entry(place) | BadOrder::Backward(place) => place,
        }
    }
}

impl fmt::Display for BadOrder {
    fn fmt(&self, f: &mut fmt::Formatter<'_>) -> fmt::Result {
        match self {
            BadOrder::Log(fault) => fault.fmt(f),
            BadOrder::Entry(place) => write!(f, "entry {place} of the order is wrong or missing"),
            BadOrder::Backward(place) => {
                write!(f, "the order turns round a pair that record {place} ends")
            }
        }
    }
}

impl Error for BadOrder {}

/// Why no order was listed.
#[derive(Clone, Copy, PartialEq, Eq, Hash, Debug)]
pub enum NoList {
    /// 11 to 14: the log is at fault.
    Log(Fault),
    /// 17: no order would do.
    NoOrder,
    /// 18: the list has fewer entries than there are kept jobs, or of a sheet jobs at rest, so many.
    Short(usize),
}

impl NoList {
    /// Document 01's code.
    pub const fn code(self) -> u32 {
        match self {
            NoList::Log(fault) => fault.code(),
            NoList::NoOrder => 17,
            NoList::Short(_) => 18,
        }
    }

    /// The place that goes with it.
    pub const fn place(self) -> usize {
        match self {
            NoList::Log(fault) => fault.place(),
            NoList::NoOrder => 0,
            NoList::Short(jobs) => jobs,
        }
    }
}

impl fmt::Display for NoList {
    fn fmt(&self, f: &mut fmt::Formatter<'_>) -> fmt::Result {
        match self {
            NoList::Log(fault) => fault.fmt(f),
            NoList::NoOrder => f.write_str("no order of the jobs would do"),
            NoList::Short(jobs) => {
                write!(
                    f,
                    "{jobs} jobs are to be listed, more than the list has entries"
                )
            }
        }
    }
}

impl Error for NoList {}

/// Would this order do for the log? The count of kept jobs (those opened and not abandoned), or what is wrong.
///
/// It is accepted exactly when the log has no fault, the order has each kept job once and nothing else, no conflicting pair of steps runs
/// backward, and no job comes before one that had ended when it was opened. Running the kept jobs one at a time in that order then shows each
/// of their reads the same last write and the same adds since, in any order, and leaves each cell so, as the log did. Takes about 28,000 bytes of
/// stack.
#[inline]
pub fn check_order(log: &[u8], order: &[u32]) -> Result<usize, BadOrder> {
    // Two slices that are only read.
    let both =
        unsafe { reedtangle_check_order(log.as_ptr(), log.len(), order.as_ptr(), order.len()) };
    let (code, place) = (apart(both).0, apart(both).1 as usize);
    match code {
        0 => Ok(place),
        15 => Err(BadOrder::Entry(place)),
        16 => Err(BadOrder::Backward(place)),
        _ => match Fault::from_code(code, place) {
            Some(fault) => Err(BadOrder::Log(fault)),
            None => unexpected(code),
        },
    }
}

/// An order for the log, the lowest ready job first: the count of kept jobs, whose numbers are then at the start of `out`. Entries past them
/// stay. On a refusal all of `out` stays.
///
/// With room, an order comes exactly when there is one. The log of what a fresh arbiter granted, within the sizes of a log, always has one.
/// Takes about 108,000 bytes of stack.
#[inline]
pub fn list_order(log: &[u8], out: &mut [u32]) -> Result<usize, NoList> {
    // Two slices, apart since one is lent to be written.
    let both =
        unsafe { reedtangle_list_order(log.as_ptr(), log.len(), out.as_mut_ptr(), out.len()) };
    listed(both)
}

/// The morning sheet of the log, the part of an order that will not move: the count of the jobs at rest, whose numbers are then at the start
/// of `out`, in the lister's order. Entries past them stay. On a refusal all of `out` stays.
///
/// A job is at rest when it has ended and no open job leads to it: precedes it, or precedes a job that leads to it. `NoList::Short` asks for
/// room for the jobs at rest alone; with room, `NoList::NoOrder` comes exactly when the whole log has no order. Of the log of what a fresh
/// arbiter granted, and of whatever it grants after that within the sizes of a log, the longer log has an order that starts with exactly this
/// sheet. Takes about 110,000 bytes of stack.
#[inline]
pub fn list_sheet(log: &[u8], out: &mut [u32]) -> Result<usize, NoList> {
    // As above.
    let both =
        unsafe { reedtangle_list_sheet(log.as_ptr(), log.len(), out.as_mut_ptr(), out.len()) };
    listed(both)
}

// A code and a place, as the count of what was listed or why nothing was.
#[inline]
fn listed(both: u64) -> Result<usize, NoList> {
    let (code, place) = (apart(both).0, apart(both).1 as usize);
    match code {
        0 => Ok(place),
        17 => Err(NoList::NoOrder),
        18 => Err(NoList::Short(place)),
        _ => match Fault::from_code(code, place) {
            Some(fault) => Err(NoList::Log(fault)),
            None => unexpected(code),
        },
    }
}

// A code and a job, as a grant or a refusal.
#[inline]
fn granted((code, job): (u32, u32)) -> Result<Job, Refusal> {
    match Refusal::from_code(code) {
        Some(refusal) => Err(refusal),
        None if code == 0 => Ok(Job(job)),
        None => unexpected(code),
    }
}

// A code in the high half, a job or a place in the low half.
const fn apart(both: u64) -> (u32, u32) {
    ((both >> 32) as u32, both as u32)
}

// The contracts leave no other code; were there one, the archives would not be those that were proved.
#[cold]
fn unexpected(code: u32) -> ! {
    panic!("code {code} from an archive that is not the proved one")
}
