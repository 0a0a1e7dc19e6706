//! The report of the program `recount`, worked out by programs written apart: its streams are made here again, the replies are those of the arbiter with the whole history, the
//! verdicts those of the checker and the lister in Rust. Is it what the program is to write?
use crate::judge;
use crate::requests::*;
use crate::tried::{run_of, stepped};
use crate::whole::Whole;

/// Which records are kept: all that was granted, or read as a log. Past the length stand those of earlier ones, as in the program, where a damaged length may bring one back.
struct Kept {
    records: Vec<[u8; 8]>,
    bytes: usize,
}

impl Kept {
    fn add(&mut self, record: [u8; 8]) {
        self.records[self.bytes / 8] = record;
        self.bytes += 8;
    }

    fn all(&self) -> &[[u8; 8]] {
        &self.records[..self.bytes / 8]
    }

    fn log(&self) -> Vec<u8> {
        self.records.concat()[..self.bytes].to_vec()
    }

    fn has(&self, kind: u8, job: u32) -> bool {
        let mut all = self.all().iter();
        all.any(|&r| r[0] == kind && job_of(r) == job)
    }

    fn open_jobs(&self) -> Vec<u32> {
        let opens = self.all().iter().filter(|r| r[0] == OPEN);
        let jobs = opens.map(|&r| job_of(r));
        jobs.filter(|&j| !self.has(END, j) && !self.has(ABANDON, j))
            .collect()
    }

    /// The refused step closes no circle among the jobs that are open alone.
    fn is_through_ended(&self, q: Request) -> bool {
        let open = self.open_jobs();
        let mut log: Vec<[u8; 8]> = self.all().to_vec();
        log.retain(|&r| open.contains(&job_of(r)));
        log.push(step_of(q));
        judge::list(&log.concat(), 512).0.code == 0
    }
}

/// The write of a publish; any other request is itself.
fn step_of(q: Request) -> Request {
    let mut step = q;
    if q[0] == PUBLISH {
        step[0] = WRITE;
    }
    step
}

/// A line of the report: how many there were, of each code, those of 7 through ended jobs, histories or logs, publishes and adds granted.
#[derive(Default, Clone, Copy)]
struct Row {
    asked: u64,
    codes: [u64; 19],
    ended: u64,
    begun: u64,
    granted: [u64; 2],
}

impl Row {
    fn add(&mut self, other: &Row) {
        self.asked += other.asked;
        self.ended += other.ended;
        self.begun += other.begun;
        for (a, b) in self.codes.iter_mut().zip(other.codes) {
            *a += b;
        }
        for (a, b) in self.granted.iter_mut().zip(other.granted) {
            *a += b;
        }
    }

    fn count(&mut self, code: u32) {
        self.asked += 1;
        self.codes[code as usize] += 1;
    }

    fn requests(&self, name: &str) -> String {
        let codes: Vec<String> = self.codes[..10].iter().map(u64::to_string).collect();
        format!(
            "{name}: 0 differ of {} requests: {}, {}; {} histories, {} publishes and {} adds granted\n",
            self.asked,
            codes.join(" "),
            self.ended,
            self.begun,
            self.granted[0],
            self.granted[1]
        )
    }

    fn verdicts(&self, name: &str, what: &str) -> String {
        let mut codes = vec![self.codes[0].to_string()];
        codes.extend(self.codes[11..19].iter().map(u64::to_string));
        format!(
            "{name}: 0 differ of {} {what}: {}",
            self.asked,
            codes.join(" ")
        )
    }
}

/// One request: the reply is counted, and what is granted is kept.
fn ask(whole: &mut Whole, kept: &mut Kept, q: Request, row: &mut Row) {
    let (code, job) = whole.ask(q);
    row.count(code);
    row.ended += (code == 7 && kept.is_through_ended(q)) as u64;
    if code != 0 {
        return;
    }
    row.granted[0] += (q[0] == PUBLISH) as u64;
    row.granted[1] += (q[0] == ADD) as u64;
    let step = step_of(q);
    kept.add(match step[0] {
        READ | WRITE | ADD => step,
        kind => request(kind, 0, 0, job),
    });
    if q[0] == PUBLISH {
        kept.add(request(END, 0, 0, job));
    }
}

// ---- the text

#[derive(Default)]
struct Text {
    histories: Row,
    orders: Row,
    lists: Row,
}

fn read(text: &str, kept: &mut Kept) -> Text {
    let mut t = Text::default();
    let mut whole = Whole::new(0);
    let mut from_fresh = true;
    for l in text.lines().filter(|l| !l.starts_with('#')) {
        let spaced = l.replace(':', " : ");
        let words: Vec<&str> = spaced.split_whitespace().collect();
        let Some(&word) = words.first() else {
            continue;
        };
        let colon = words.iter().position(|&w| w == ":").unwrap_or(words.len());
        match word {
            "history" | "log" => {
                from_fresh = true;
                kept.bytes = 0;
                if word == "log" {
                    t.orders.begun += 1;
                } else {
                    whole = Whole::new(number(words[1]));
                    t.histories.begun += 1;
                }
            }
            "state" | "full" => from_fresh = false,
            "row" | "cells" | "port" | "left" => {}
            "record" => {
                let (cell, step) = stepped(words[3]);
                for (i, job) in run_of(words[4]).into_iter().enumerate() {
                    let cell = cell.wrapping_add(step.wrapping_mul(i as u32)) as u16;
                    kept.add(request(kind_of(words[1]), number(words[2]), cell, job));
                }
            }
            "tail" => kept.bytes += number::<usize>(words[1]),
            "order" => {
                let order: Vec<u32> = words[1..colon].iter().flat_map(|w| run_of(w)).collect();
                t.orders.count(judge::check(&kept.log(), &order).code);
            }
            "list" => t
                .lists
                .count(judge::list(&kept.log(), number(words[1])).0.code),
            kind if from_fresh => {
                let q = request(
                    kind_of(kind),
                    number(words[1]),
                    number(words[2]),
                    number(words[3]),
                );
                ask(&mut whole, kept, q, &mut t.histories);
            }
            _ => {}
        }
    }
    t
}

// ---- the streams

fn shifted(x: u64) -> u64 {
    let y = x ^ (x << 13);
    let z = y ^ (y >> 7);
    z ^ (z << 17)
}

/// A request of a shape: the cells in use, and seven kinds for each of two sorts of jobs, one digit each.
fn made(kept: &Kept, k: usize, r: u64) -> Request {
    const SHAPES: [(u64, [u64; 2]); 6] = [
        (0x83, [0x1227736, 0x1223745]),
        (0xc3, [0x1127733, 0x1237446]),
        (0x33, [0x1227736, 0x1223745]),
        (0x43, [0x1237756, 0x1222275]),
        (0xe3, [0x1117236, 0x1123745]),
        (0xc3, [0x1112733, 0x1117736]),
    ];
    let (cells, kinds) = SHAPES[k];
    let open = kept.open_jobs();
    let job = match open.len() as u64 {
        0 => r >> 40,
        n => open[((r >> 40) % n) as usize] as u64,
    };
    let half = if k == 1 { job >> 31 } else { job };
    let kind = kinds[half as usize % 2] >> (r % 7 * 4) & 15;
    let whose = match kind {
        1 => (r >> 33) % 128 / if k == 5 { 60 } else { 42 },
        _ => job,
    };
    let right = kind | (r >> 8 & cells) << 16 | whose << 32;
    let bad = (k == 2 && r >> 16 & 1 == 0) as u64;
    (right ^ bad << ((r >> 20) % 64) ^ bad << ((r >> 26) % 64)).to_le_bytes()
}

fn window(kept: &mut Kept, k: usize, seed: u64, row: &mut Row) {
    let first = match k {
        1 => 2147483647,
        5 => 4294967271 - seed % 24,
        _ => seed % 3,
    };
    let mut whole = Whole::new(first as u32);
    let mut r = seed;
    kept.bytes = 0;
    row.begun += 1;
    for _ in 0..256 {
        r = shifted(r);
        ask(&mut whole, kept, made(kept, k, r), row);
    }
}

/// A log of a window in a round, damaged or not, and an order of it, right or not.
fn round(kept: &Kept, round: u64, r: u64, orders: &mut Row, lists: &mut Row) {
    let here = (r >> 20 & 127) as usize;
    let any = r >> 27;
    let bits = match round {
        4 => 1,
        5 => 4,
        6 => any % 8 << 32,
        7 => 1 << (any % 64),
        8 => any % 16,
        _ => 0u64,
    };
    let mut log = Kept {
        records: kept.records.clone(),
        bytes: kept.bytes,
    };
    if round == 8 {
        log.bytes ^= bits as usize;
    } else {
        let record = u64::from_le_bytes(log.records[here]) ^ bits;
        log.records[here] = record.to_le_bytes();
    }
    let mut order = judge::list(&kept.log(), 512).1;
    let jobs = order.len();
    let k = (r >> 20) as usize % 16;
    if round < 4 && k < jobs {
        // past the end stands what no order has
        order.push(0xffff_0000);
        order.swap(k, k + 1);
        order.truncate(jobs);
    }
    orders.count(judge::check(&log.log(), &order).code);
    let room = (jobs + (r % 3) as usize).wrapping_sub(1);
    lists.count(judge::list(&log.log(), room).0.code);
}

fn report(text: &str) -> String {
    let mut kept = Kept {
        records: vec![[0; 8]; 4200],
        bytes: 0,
    };
    let t = read(text, &mut kept);
    let mut shapes = [Row::default(); 6];
    let (mut orders, mut lists, mut all) = (Row::default(), Row::default(), Row::default());
    let mut r = 1981;
    for i in 0..1200 {
        r = shifted(r);
        match i % 10 {
            0 => window(
                &mut kept,
                i as usize / 200,
                r,
                &mut shapes[i as usize / 200],
            ),
            n => round(&kept, n, r, &mut orders, &mut lists),
        }
    }
    let names = [
        "few cells",
        "one job open throughout",
        "bad requests",
        "abandons",
        "slots full",
        "numbers running out",
    ];
    let mut out = String::from("seed 1981; codes 0 to 9, and of 7 those through ended jobs; of orders and lists, codes 0 and 11 to 18\n");
    for (name, row) in names.iter().zip(&shapes) {
        out += &row.requests(name);
        all.add(row);
    }
    out += &all.requests("all streams");
    out += &t.histories.requests("tried histories");
    out += &t.orders.verdicts("tried orders", "verdicts");
    out += &format!("; {} logs\n", t.orders.begun);
    out += &t.lists.verdicts("tried lists", "answers");
    out += "\n";
    out += &orders.verdicts("orders of the streams", "verdicts");
    out += "\n";
    out += &lists.verdicts("lists of the streams", "answers");
    out + "\nrecount: 0 differ\n"
}

pub fn run(path: &str) -> bool {
    let text = std::fs::read_to_string(path).expect("the file can be read");
    let want = report(&text);
    print!("{want}");
    let other = path.replace("stdin", "stdout");
    let same = other != path && std::fs::read_to_string(&other).is_ok_and(|text| text == want);
    if !same {
        println!("{other} has something else");
    }
    println!("{} passed, {} failed", same as u32, !same as u32);
    !same
}
