//! The tried histories, logs and orders against programs written apart. Is the reply that each row expects the one that the arbiter with the whole history
//! gives, and is each verdict and each list expected the one that the checker and the lister in Rust give? Made-up states, and what a line says that a request leaves,
//! are held to the arbiter in bounded memory.
use crate::bounded::Bounded;
use crate::judge;
use crate::requests::*;
use crate::whole::Whole;

/// A number and its step, as in `5`, `5+1`, `512-1`.
pub fn stepped(word: &str) -> (u32, u32) {
    if let Some((first, step)) = word.split_once('+') {
        (number(first), number(step))
    } else if let Some((first, step)) = word.split_once('-') {
        (number(first), number::<u32>(step).wrapping_neg())
    } else {
        (number(word), 0)
    }
}

/// The jobs of a run, as in `7`, `7*3`, `1+1*512`, `512-1*512`.
pub fn run_of(word: &str) -> Vec<u32> {
    let (first, count) = match word.split_once('*') {
        Some((first, count)) => (first, number(count)),
        None => (word, 1),
    };
    let (first, step) = stepped(first);
    (0..count)
        .map(|i: u32| first.wrapping_add(i.wrapping_mul(step)))
        .collect()
}

fn runs(words: &[&str]) -> Vec<u32> {
    words.iter().flat_map(|w| run_of(w)).collect()
}

/// The verdict in a text, and what follows it.
fn verdict<'a>(words: &'a [&'a str]) -> (judge::Verdict, &'a [&'a str]) {
    let found = judge::Verdict {
        code: number(words[0]),
        place: number(words[1]),
    };
    (found, &words[2..])
}

/// The state that the requests are made on, and the one that lines are writing: what the next request is to leave, where that is said.
struct States {
    now: Bounded,
    want: Bounded,
    made: bool,
    /// from a fresh state: the arbiter with the whole history is asked too
    from_fresh: bool,
}

impl States {
    fn start(next: u64, full: bool, from_fresh: bool) -> States {
        let ones = if full { !0 } else { 0 };
        let state = Bounded::of(
            next,
            !ones,
            [ones; 32],
            [ones; 32],
            &[ones as u64 | (ones as u64) << 32; 512],
            [ones; 3],
        );
        States {
            now: state.clone(),
            want: state,
            made: false,
            from_fresh,
        }
    }

    fn row(&mut self, words: &[&str]) {
        for slot in run_of(words[0]) {
            let (slot, mark) = (slot as usize, 1 << slot);
            self.want.free = if words[1] == "1" {
                self.want.free & !mark
            } else {
                self.want.free | mark
            };
            self.want.numbers[slot] = number(words[2]);
            self.want.leads[slot] = number(words[3]);
        }
    }

    fn cells(&mut self, words: &[&str]) {
        let (slot, set): (usize, usize) = (number(words[0]), number(words[1]));
        for cell in run_of(words[2]) {
            self.want.rows[slot][set * 4 + cell as usize / 64] ^= 1 << (cell % 64);
        }
    }

    fn port(&mut self, words: &[&str]) {
        self.want.ports[number::<usize>(words[0])] = number(words[1]);
    }

    fn left(&mut self, next: u64) {
        let w = &self.want;
        self.now = Bounded::of(w.next, w.free, w.numbers, w.leads, &w.sets(), w.ports);
        self.want.next = next;
        self.made = true;
    }

    /// The reply, and whether the state is then as the lines say.
    fn ask(&mut self, r: Request) -> ((u32, u32), bool) {
        let (reply, n) = (self.now.ask(r), &self.now);
        let w = &self.want;
        let same = (n.next, n.free, n.numbers, n.leads, n.rows, n.ports)
            == (w.next, w.free, w.numbers, w.leads, w.rows, w.ports);
        let right = same || !self.made;
        self.want = self.now.clone();
        self.made = false;
        (reply, right)
    }
}

#[derive(Default)]
struct Counts {
    histories: u32,
    requests: u32,
    states: u32,
    logs: u32,
    verdicts: u32,
    wrong: u32,
}

/// A line, in words. What the other program gives, where that is not what the line expects.
fn line(
    words: &[&str],
    whole: &mut Whole,
    states: &mut States,
    log: &mut Vec<u8>,
    n: &mut Counts,
) -> Option<String> {
    let colon = words.iter().position(|&w| w == ":").unwrap_or(words.len());
    let (asked, expected) = (&words[1..colon], words.get(colon + 1..).unwrap_or(&[]));
    match words[0] {
        "history" => {
            *whole = Whole::new(number(words[1]));
            *states = States::start(number(words[1]), false, true);
            n.histories += 1;
        }
        "state" | "full" => *states = States::start(number(words[1]), words[0] == "full", false),
        "row" => states.row(asked),
        "cells" => states.cells(asked),
        "port" => states.port(asked),
        "left" => {
            states.left(number(words[1]));
            n.states += 1;
        }
        "log" => {
            log.clear();
            n.logs += 1;
        }
        "record" => {
            let (cell, step) = stepped(asked[2]);
            for (i, job) in run_of(asked[3]).into_iter().enumerate() {
                let cell = cell.wrapping_add(step.wrapping_mul(i as u32)) as u16;
                log.extend(request(kind_of(asked[0]), number(asked[1]), cell, job));
            }
        }
        "tail" => log.extend(vec![0; number(asked[0])]),
        "order" => {
            n.verdicts += 1;
            let (expected, rest) = verdict(expected);
            let found = judge::check(log, &runs(asked));
            if found != expected || !rest.is_empty() {
                return Some(format!("{} {}", found.code, found.place));
            }
        }
        "list" => {
            n.verdicts += 1;
            let (expected, rest) = verdict(expected);
            let (found, jobs) = judge::list(log, number(asked[0]));
            // the checker must accept what the lister lists
            let kept = found.code != 0 || judge::check(log, &jobs) == found;
            if found != expected || jobs != runs(rest) || !kept {
                return Some(format!("{} {} {jobs:?}", found.code, found.place));
            }
        }
        kind => {
            n.requests += 1;
            let r = request(
                kind_of(kind),
                number(asked[0]),
                number(asked[1]),
                number(asked[2]),
            );
            let expected = (number(expected[0]), number(expected[1]));
            let (reply, same) = states.ask(r);
            if reply != expected || !same {
                return Some(format!(
                    "{} {}, the state as written: {same}",
                    reply.0, reply.1
                ));
            }
            let reply = if states.from_fresh {
                whole.ask(r)
            } else {
                expected
            };
            if reply != expected {
                return Some(format!("{} {}", reply.0, reply.1));
            }
        }
    }
    None
}

/// The program `recount` reads the same text, from a file of its own.
fn is_copied(path: &str, text: &str) -> bool {
    let copy = path.replace("tried/stdin", "recount/stdin");
    let same = copy != path && std::fs::read_to_string(&copy).is_ok_and(|other| other == text);
    if !same {
        println!("{copy} is not the text of {path}");
    }
    same
}

pub fn run(path: &str) -> bool {
    let text = std::fs::read_to_string(path).expect("the file can be read");
    let mut whole = Whole::new(1);
    let mut states = States::start(1, false, true);
    let mut log = vec![];
    let mut n = Counts::default();
    for (i, l) in text.lines().enumerate() {
        let spaced = l.replace(':', " : ");
        let words: Vec<&str> = spaced.split_whitespace().collect();
        if words.is_empty() || l.starts_with('#') {
            continue;
        }
        if let Some(found) = line(&words, &mut whole, &mut states, &mut log, &mut n) {
            println!("line {}: {l}: the other program gives {found}", i + 1);
            n.wrong += 1;
        }
    }
    println!(
        "{} histories, {} requests, {} states, {} logs, {} verdicts, {} differ",
        n.histories, n.requests, n.states, n.logs, n.verdicts, n.wrong
    );
    let same = is_copied(path, &text);
    let right = n.wrong == 0 && n.requests > 0 && n.states > 0 && n.verdicts > 0 && same;
    println!("{} passed, {} failed", right as u32, !right as u32);
    !right
}
