//! The proved arbiter, checker and lister, by the bindings for Rust, with each answer as document 01's numbers.
use crate::bounded::Bounded;
use crate::differ::same_state;
use crate::judge::Verdict;
use crate::late::Ask;
use crate::requests::Request;
use reedtangle::{Arbiter, CellSet, CoarseArbiter, LateArbiter, State};

#[derive(Clone)]
pub struct Ours(Arbiter);

impl Ours {
    pub fn new(first: u32) -> Ours {
        // not zero, so that what is fresh then is the proved code's own doing
        let mut o = Ours::of(State {
            next: 9,
            free: 9,
            numbers: [9; 32],
            leads: [9; 32],
            sets: [9; 512],
            ports: [9; 3],
        });
        o.0.restart(first);
        o
    }

    /// Any state, whether requests give it or not.
    pub fn of(state: State) -> Ours {
        Ours(Arbiter::from_state(state))
    }

    pub fn state(&self) -> &State {
        self.0.state()
    }

    #[inline]
    pub fn ask(&mut self, r: Request) -> (u32, u32) {
        self.0.answer(r)
    }
}

/// The proved arbiter of the second profile.
pub struct OursLate(LateArbiter);

impl OursLate {
    pub fn new(first: u32) -> OursLate {
        // as above, what is fresh is the proved code's own doing
        let mut o = OursLate::of(Ours::new(9).state().clone());
        o.0.restart(first);
        o
    }

    pub fn of(state: State) -> OursLate {
        OursLate(LateArbiter::from_state(state))
    }

    pub fn state(&self) -> &State {
        self.0.state()
    }

    pub fn ask(&mut self, a: Ask) -> (u32, u32) {
        match a {
            Ask::Request(r) => self.0.answer(r),
            Ask::Publish(job, cells) => self.0.publish_answer(job, CellSet(cells)),
        }
    }
}

/// The proved arbiter of the coarse mode.
pub struct OursCoarse(CoarseArbiter);

impl OursCoarse {
    pub fn new(first: u32) -> OursCoarse {
        let mut o = OursCoarse(CoarseArbiter::from_state(Ours::new(9).state().clone()));
        o.0.restart(first);
        o
    }

    pub fn ask(&mut self, r: Request) -> (u32, u32) {
        self.0.answer(r)
    }

    /// Is its state that of the bounded arbiter?
    pub fn is(&self, b: &Bounded) -> bool {
        same_state(&Ours::of(self.0.state().clone()), b)
    }
}

/// Code and bytes written.
#[inline]
pub fn replay(first: u32, requests: &[u8], answers: &mut [u8]) -> (u32, usize) {
    match reedtangle::replay(first, requests, answers) {
        Ok(written) => (0, written),
        Err(refusal) => (refusal.code(), 0),
    }
}

/// The same with the state handed on by value.
#[inline]
pub fn replay_by_value(first: u32, requests: &[u8], answers: &mut [u8]) -> (u32, usize) {
    match reedtangle::replay_by_value(first, requests, answers) {
        Ok(written) => (0, written),
        Err(refusal) => (refusal.code(), 0),
    }
}

/// Code and place.
#[inline]
pub fn check(log: &[u8], order: &[u32]) -> Verdict {
    match reedtangle::check_order(log, order) {
        Ok(place) => Verdict { code: 0, place },
        Err(e) => Verdict {
            code: e.code(),
            place: e.place(),
        },
    }
}

/// Code and place; the order in `out`.
#[inline]
pub fn list(log: &[u8], out: &mut [u32]) -> Verdict {
    match reedtangle::list_order(log, out) {
        Ok(place) => Verdict { code: 0, place },
        Err(e) => Verdict {
            code: e.code(),
            place: e.place(),
        },
    }
}

/// Code and place; the morning sheet in `out`.
#[inline]
pub fn sheet(log: &[u8], out: &mut [u32]) -> Verdict {
    match reedtangle::list_sheet(log, out) {
        Ok(place) => Verdict { code: 0, place },
        Err(e) => Verdict {
            code: e.code(),
            place: e.place(),
        },
    }
}
