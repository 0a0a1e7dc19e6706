//! The built programs for people and the trial program, run as processes on made files: exit codes and every byte printed, against what is worked out here
//! from the plain checker and lister and from the arbiters in Rust. Of the text that says how a program is used, only the first line and the end are looked at.
use crate::bounded::Bounded;
use crate::judge::{self, Verdict};
use crate::logs;
use crate::requests::*;
use crate::verdicts;
use crate::whole::Whole;
use std::io::Write;
use std::path::{Path, PathBuf};
use std::process::{Command, Output, Stdio};
use std::time::Duration;

/// What a run of a program leaves.
#[derive(PartialEq, Debug, Default)]
struct Said {
    code: i32,
    out: Vec<u8>,
    err: Vec<u8>,
}

impl From<Output> for Said {
    fn from(o: Output) -> Said {
        Said {
            code: o.status.code().unwrap_or(-1),
            out: o.stdout,
            err: o.stderr,
        }
    }
}

fn printed(out: String) -> Said {
    Said {
        out: out.into_bytes(),
        ..Said::default()
    }
}

fn complained(err: String) -> Said {
    Said {
        err: err.into_bytes(),
        ..Said::default()
    }
}

// ---- what is expected

/// What is wrong with a log, in words.
fn fault(v: Verdict) -> String {
    let p = v.place;
    match v.code {
        11 => "the log is no whole number of records of 8 bytes, or has more than 4096 of them".into(),
        12 => format!("record {p} has a wrong kind, a byte 1 that is not 0, a cell above 255, or a cell that must be 0 and is not"),
        13 => format!("record {p} is out of turn: an open that is not above all numbers opened before, a job that is not open there, or an abandon after its own write or add"),
        _ => format!("record {p} opens the 513th job"),
    }
}

/// A log and the bytes of an order, of which the first 2,052 count.
fn checked(log: &[u8], order: &[u8]) -> Said {
    let order = &order[..order.len().min(2052)];
    if order.len() % 4 != 0 {
        return complained(
            "ORDER: the length is no multiple of 4, and an entry has 4 bytes\n".into(),
        );
    }
    let entries: Vec<u32> = order
        .chunks(4)
        .map(|e| u32::from_le_bytes(e.try_into().unwrap()))
        .collect();
    let v = judge::check(log, &entries);
    let p = v.place;
    if v.code == 0 {
        return printed(format!("accepted {p}\n"));
    }
    let words = match v.code {
        15 if p == entries.len() => format!("the order has length {p} and lacks a kept job"),
        15 => format!("entry {p} repeats an earlier entry or names a job that is not kept"),
        16 => {
            format!("record {p} must come after an earlier record whose job the order puts later")
        }
        _ => fault(v),
    };
    printed(format!("refused {} {p}\n{words}\n", v.code))
}

fn listed(log: &[u8]) -> Said {
    let (v, order) = judge::list(log, 512);
    if v.code == 0 {
        let jobs: String = order.iter().map(|j| format!("{j}\n")).collect();
        return printed(format!("accepted {}\n{jobs}", v.place));
    }
    let words = match v.code {
        17 => "no order keeps every conflicting pair and puts each job before those opened after its end".into(),
        _ => fault(v),
    };
    printed(format!("refused {} {}\n{words}\n", v.code, v.place))
}

/// The lines of the trial program, by the arbiter that keeps the whole history where the input is short.
fn answered(input: &[u8]) -> Said {
    let records = input.chunks_exact(8).map(|q| Request::try_from(q).unwrap());
    let replies: Vec<(u32, u32)> = if input.len() < 300 * 8 {
        let mut w = Whole::new(1);
        records.map(|q| w.ask(q)).collect()
    } else {
        let mut b = Bounded::new(1);
        records.map(|q| b.ask(q)).collect()
    };
    let mut text = String::from("request code job\n");
    for (i, (code, job)) in replies.iter().enumerate() {
        text.push_str(&format!("{i} {code} {job}\n"));
    }
    if input.len() % 8 != 0 {
        text.push_str(&format!("tail {}\n", input.len() % 8));
    }
    printed(text)
}

// ---- the runs

struct Tried {
    programs: PathBuf,
    folder: PathBuf,
    passed: u32,
    failed: u32,
    /// How often each verdict was expected.
    codes: [u32; 19],
    /// How many publishes and how many adds the trial program was given, and how many of them are granted.
    published: (u64, u64),
    added: (u64, u64),
    /// And how many opens get 8, 5 and 9: no such port, no slot, no room at the port.
    kept_out: [u64; 3],
}

impl Tried {
    fn file(&self, name: &str, bytes: &[u8]) -> String {
        let path = self.folder.join(name);
        std::fs::write(&path, bytes).expect("the folder can be written to");
        path.to_str().unwrap().to_string()
    }

    fn command(&self, program: &str, words: &[&str]) -> Command {
        let mut c = Command::new(self.programs.join(program));
        c.args(words).stdin(Stdio::null());
        c
    }

    fn count(&mut self, what: &str, said: Said, expected: Said) {
        if said == expected {
            self.passed += 1;
            return;
        }
        self.failed += 1;
        println!("FAIL  {what}");
        for (name, s) in [("came", said), ("expected", expected)] {
            let start = |b: &[u8]| String::from_utf8_lossy(&b[..b.len().min(300)]).into_owned();
            println!(
                "      {name} status {}, {} bytes {:?}, {} bytes of complaint {:?}",
                s.code,
                s.out.len(),
                start(&s.out),
                s.err.len(),
                start(&s.err)
            );
        }
    }

    fn run(&mut self, what: &str, program: &str, words: &[&str], expected: Said) {
        let said = self.command(program, words).output();
        let said = said.expect("the program is built").into();
        self.count(what, said, expected);
    }

    /// The same with these bytes coming through a pipe, in writes of so many bytes, the first ones with a pause after each.
    fn pipe(
        &mut self,
        what: &str,
        program: &str,
        words: &[&str],
        input: &[u8],
        write: usize,
        expected: Said,
    ) {
        let mut command = self.command(program, words);
        command
            .stdin(Stdio::piped())
            .stdout(Stdio::piped())
            .stderr(Stdio::piped());
        let mut child = command.spawn().expect("the program is built");
        let mut pipe = child.stdin.take().unwrap();
        let bytes = input.to_vec();
        let writer = std::thread::spawn(move || {
            for (i, part) in bytes.chunks(write).enumerate() {
                // a program that is done may leave the rest
                if pipe.write_all(part).is_err() {
                    return;
                }
                if i < 20 {
                    std::thread::sleep(Duration::from_micros(500));
                }
            }
        });
        let said = child.wait_with_output().unwrap().into();
        writer.join().unwrap();
        self.count(what, said, expected);
    }

    // ---- logs and orders

    fn log_and_order(&mut self, what: &str, log: &[u8], order: &[u8]) {
        let (l, o) = (self.file("log", log), self.file("order", order));
        let expected = checked(log, order);
        self.codes[code_of(&expected)] += 1;
        self.run(&format!("checker, {what}"), "checker", &[&l, &o], expected);
    }

    fn log(&mut self, what: &str, log: &[u8]) {
        let l = self.file("log", log);
        let expected = listed(log);
        self.codes[code_of(&expected)] += 1;
        self.run(&format!("lister, {what}"), "lister", &[&l], expected);
    }

    /// Random logs, whole and damaged, and orders, right and wrong.
    fn random(&mut self, r: &mut Random, logs: u32) {
        for i in 0..logs {
            let mut log = verdicts::log(r);
            if r.one_in(3) {
                verdicts::damage(r, &mut log);
            }
            let right = judge::list(&log, 512).1;
            let what = format!("random log {i}");
            self.log(&what, &log);
            for _ in 0..2 {
                let order = verdicts::order(r, &log, &right);
                let mut order = bytes_of(&order);
                if r.one_in(12) {
                    order.truncate(r.below(order.len() as u64 + 1) as usize);
                }
                self.log_and_order(&what, &log, &order);
            }
        }
    }

    /// Lengths at the ends of what a log and an order can have, and past them.
    fn lengths(&mut self, r: &mut Random) {
        let long = logs::granted(r, 4096, 512, 32, 256, true, false);
        for bytes in [
            0, 1, 7, 8, 9, 32760, 32761, 32767, 32768, 32769, 32776, 70000,
        ] {
            let mut log = long.clone();
            log.resize(bytes, 0);
            self.log(&format!("a log of {bytes} bytes"), &log);
            self.log_and_order(&format!("a log of {bytes} bytes"), &log, &[]);
        }
        for high in [false, true] {
            let mut log = logs::reversed(512);
            if high {
                logs::renumber(&mut log, |i| u32::MAX - i);
            }
            let right = bytes_of(&judge::list(&log, 512).1);
            self.log("512 jobs", &log);
            for bytes in [
                0, 4, 2044, 2047, 2048, 2049, 2051, 2052, 2053, 2055, 2056, 4096, 9000,
            ] {
                let mut order = right.clone();
                order.resize(bytes, 7);
                let what = format!("512 jobs, an order of {bytes} bytes");
                self.log_and_order(&what, &log, &order);
            }
        }
        let mut opens: Vec<u8> = (0..513).flat_map(|n| request(OPEN, 0, 0, n)).collect();
        self.log("513 opens", &opens);
        self.log_and_order("513 opens", &opens, &[]);
        opens.truncate(512 * 8);
        self.log("512 opens", &opens);
        self.log_and_order("512 opens", &opens, &bytes_of(&Vec::from_iter(0..512)));
        self.log_and_order("nothing, nothing", &[], &[]);
    }

    /// Files that are not there or cannot be read, a name too long, too few and too many words, an output that is full, a log through a pipe.
    fn files(&mut self, r: &mut Random) {
        let log = logs::granted(r, 300, 40, 8, 12, true, false);
        let order = bytes_of(&judge::list(&log, 512).1);
        let (l, o) = (self.file("log", &log), self.file("order", &order));
        let nowhere = self.folder.join("nowhere").to_str().unwrap().to_string();
        let folder = self.folder.to_str().unwrap().to_string();
        let long = "x".repeat(5000);
        let gone = || complained(format!("{nowhere}: No such file or directory\n"));
        let dir = || complained(format!("{folder}: Is a directory\n"));
        let name = || complained("the name of a file: File name too long\n".into());
        self.run("lister, no such log", "lister", &[&nowhere], gone());
        self.run("checker, no such log", "checker", &[&nowhere, &o], gone());
        self.run("checker, no such order", "checker", &[&l, &nowhere], gone());
        self.run("checker, neither", "checker", &[&nowhere, &nowhere], gone());
        self.run("lister, a folder", "lister", &[&folder], dir());
        self.run("checker, a folder", "checker", &[&folder, &o], dir());
        self.run(
            "checker, a folder as order",
            "checker",
            &[&l, &folder],
            dir(),
        );
        self.run("lister, a long name", "lister", &[&long], name());
        self.run("checker, a long name", "checker", &[&l, &long], name());
        self.usage("checker LOG ORDER", "checker", &[&[], &[&l], &[&l, &o, &o]]);
        self.usage("lister LOG", "lister", &[&[], &[&l, &l]]);
        self.full("lister", &[&l]);
        self.full("checker", &[&l, &o]);
        for write in [1, 3, 8, 4096] {
            let what = format!("lister, a log through a pipe, {write} bytes a write");
            self.pipe(&what, "lister", &["/dev/stdin"], &log, write, listed(&log));
            let what = format!("checker, an order through a pipe, {write} bytes a write");
            let expected = checked(&log, &order);
            self.pipe(
                &what,
                "checker",
                &[&l, "/dev/stdin"],
                &order,
                write,
                expected,
            );
        }
    }

    /// With another count of words a program says how it is used.
    fn usage(&mut self, use_: &str, program: &str, all: &[&[&str]]) {
        for words in all {
            let said: Said = self.command(program, words).output().unwrap().into();
            let first = format!("usage: {use_}\n");
            let good = said.out.starts_with(first.as_bytes()) && said.out.ends_with(b".\n");
            let seen = (said.code, good, said.err.len());
            let what = format!("{program} with {} words: {seen:?}", words.len());
            // compared by what was seen, since the text is long
            let bit = |b: bool| Said {
                code: b as i32,
                ..Said::default()
            };
            self.count(&what, bit(seen == (0, true, 0)), bit(true));
        }
    }

    /// An answer that cannot be written.
    fn full(&mut self, program: &str, words: &[&str]) {
        let full = std::fs::OpenOptions::new().write(true).open("/dev/full");
        let mut command = self.command(program, words);
        let child = command.stdout(full.unwrap()).stderr(Stdio::piped()).spawn();
        let said = child.unwrap().wait_with_output().unwrap().into();
        let expected = complained("standard output: No space left on device\n".into());
        self.count(&format!("{program}, a full output"), said, expected);
    }

    // ---- the trial program

    /// From a file.
    fn trial(&mut self, what: &str, input: &[u8]) {
        for (kind, sum) in [(PUBLISH, &mut self.published), (ADD, &mut self.added)] {
            let (asked, granted) = given(input, kind);
            sum.0 += asked;
            sum.1 += granted;
        }
        for (code, sum) in [8, 5, 9].into_iter().zip(&mut self.kept_out) {
            *sum += refused(input, code);
        }
        let path = self.file("requests", input);
        let mut command = self.command("trial", &[]);
        let said = command.stdin(std::fs::File::open(path).unwrap()).output();
        self.count(
            &format!("trial, {what}"),
            said.expect("the program is built").into(),
            answered(input),
        );
    }

    fn trials(&mut self, r: &mut Random, short: u32) {
        for i in 0..short {
            let requests = r.below(299);
            let shape = SHAPES[r.below(SHAPES.len() as u64 - 1) as usize];
            let mut input = history(shape, r.next(), requests);
            input.extend(&r.next().to_le_bytes()[..r.below(8) as usize]);
            self.trial(&format!("{shape:?} {i}"), &input);
        }
        // about the sizes at which a batch is answered, up to several batches
        for whole in [
            32760, 32768, 32776, 65528, 65536, 65544, 98304, 131_072, 400_000,
        ] {
            let shape = SHAPES[r.below(SHAPES.len() as u64 - 1) as usize];
            let input = history(shape, r.next(), whole / 8);
            for tail in 0..8 {
                let mut input = input.clone();
                input.extend(&[1, 0, 0, 0, 0, 0, 0][..tail]);
                self.trial(&format!("{whole} bytes and {tail}"), &input);
            }
        }
        for (requests, write) in [
            (40, 1),
            (40, 3),
            (500, 7),
            (500, 9),
            (5000, 13),
            (9000, 4099),
            (20_000, 60_001),
        ] {
            let mut input = history(Shape::SlotsFull, r.next(), requests);
            input.extend(&[1, 0, 0, 0, 0][..(write % 6).min(5)]);
            let what = format!("trial, {requests} requests, {write} bytes a write");
            self.pipe(&what, "trial", &[], &input, write, answered(&input));
        }
    }
}

/// The code of an answer that refuses; 0 for any other.
fn code_of(said: &Said) -> usize {
    let text = String::from_utf8_lossy(&said.out);
    let mut words = text.split_whitespace();
    match words.next() {
        Some("refused") => words.next().unwrap().parse().unwrap(),
        _ => 0,
    }
}

fn bytes_of(order: &[u32]) -> Vec<u8> {
    order.iter().flat_map(|j| j.to_le_bytes()).collect()
}

/// Requests of a shape, from the first number 1.
fn history(shape: Shape, seed: u64, requests: u64) -> Vec<u8> {
    let mut s = Stream::new(shape, seed);
    let mut b = Bounded::new(1);
    (0..requests)
        .flat_map(|_| {
            let q = s.ask();
            let (code, job) = b.ask(q);
            s.told(code, job);
            q
        })
        .collect()
}

/// How many of the requests are of the kind, and how many of those are granted.
fn given(input: &[u8], kind: u8) -> (u64, u64) {
    let mut b = Bounded::new(1);
    let mut sum = (0, 0);
    for q in input.chunks_exact(8) {
        let (code, _) = b.ask(q.try_into().unwrap());
        sum.0 += (q[0] == kind) as u64;
        sum.1 += (q[0] == kind && code == 0) as u64;
    }
    sum
}

/// How many of the requests get the code.
fn refused(input: &[u8], code: u32) -> u64 {
    let mut b = Bounded::new(1);
    let replies = input.chunks_exact(8).map(|q| b.ask(q.try_into().unwrap()));
    replies.filter(|reply| reply.0 == code).count() as u64
}

pub fn run(programs: &str, seed: u64, logs: u32) -> bool {
    for name in ["checker", "lister", "trial"] {
        let path = Path::new(programs).join(name);
        if !path.exists() {
            println!("there is no {}: run `tools/build.sh {name}` at the top of the repository", path.display());
            println!("0 passed, 1 failed");
            return true;
        }
    }
    let folder = std::env::temp_dir().join(format!("reedtangle-{}", std::process::id()));
    std::fs::create_dir(&folder).expect("a folder for the files");
    let mut t = Tried {
        programs: Path::new(programs).to_path_buf(),
        folder: folder.clone(),
        passed: 0,
        failed: 0,
        codes: [0; 19],
        published: (0, 0),
        added: (0, 0),
        kept_out: [0; 3],
    };
    let r = &mut Random::new(seed.wrapping_mul(17_000_003));
    t.random(r, logs);
    t.lengths(r);
    t.files(r);
    t.trials(r, logs / 4);
    std::fs::remove_dir_all(folder).unwrap();
    print!("verdicts");
    for code in [0, 11, 12, 13, 14, 15, 16, 17] {
        print!(" {code}:{}", t.codes[code]);
        t.failed += (t.codes[code] == 0) as u32;
    }
    println!();
    for (kind, (asked, granted)) in [("publishes", t.published), ("adds", t.added)] {
        println!("the trial program was given {asked} {kind}, of which {granted} are granted");
        t.failed += (granted == 0 || granted == asked) as u32;
    }
    println!("of its opens, {:?} get 8, 5 and 9", t.kept_out);
    t.failed += t.kept_out.contains(&0) as u32;
    println!("{} passed, {} failed", t.passed, t.failed);
    t.failed != 0
}
