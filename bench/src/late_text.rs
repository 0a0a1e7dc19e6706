//! The text of the program `desk` against the two arbiters of `late`: is each reply that the text expects the one that they give, is each record of the log, with
//! the open jobs taken out, that of the whole history, and has that log an order, by the lister and the checker in Rust? And is what the program is to write
//! what is counted here? The streams in the text are made here too.
use crate::judge;
use crate::late::{named, Ask, Cells, Columns, Stream, WholeLate, LATE_SHAPES};
use crate::requests::*;

fn set_of(words: &[&str]) -> Cells {
    let mut cells = [0; 4];
    for word in words {
        let c: u8 = number(word);
        cells[c as usize / 64] |= 1 << (c % 64);
    }
    cells
}

#[derive(Default)]
struct Counts {
    differ: u64,
    asks: u64,
    codes: [u64; 10],
    published: u64,
    records: u64,
    histories: u64,
}

struct Told {
    whole: WholeLate,
    columns: Columns,
    n: Counts,
}

impl Told {
    /// A history is over: its log without the open jobs has an order.
    fn settle(&mut self) -> bool {
        self.n.histories += 1;
        let log = self.whole.closed();
        let (found, order) = judge::list(&log, 512);
        found.code == 0 && judge::check(&log, &order) == found
    }

    /// A line, in words before and after the colon. What the other programs give, where that is not what the line expects.
    fn line(&mut self, asked: &[&str], expected: &[&str]) -> Option<String> {
        match asked[0] {
            "history" => {
                let right = self.settle();
                let first = number(asked[1]);
                (self.whole, self.columns) = (WholeLate::new(first), Columns::new(first));
                (!right).then(|| "no order for the history before".to_string())
            }
            "record" => {
                self.n.records += 1;
                let at = number::<usize>(asked[1]) * 8;
                let log = self.whole.closed();
                let here = log.get(at..at + 8).unwrap_or(&[0; 8]);
                let want = request(
                    kind_of(expected[0]),
                    number(expected[1]),
                    number(expected[2]),
                    number(expected[3]),
                );
                (here != want).then(|| format!("{here:?}"))
            }
            kind => {
                let a = if kind == "publish" {
                    Ask::Publish(number(asked[1]), set_of(&asked[2..]))
                } else {
                    Ask::Request(request(
                        kind_of(kind),
                        number(asked[1]),
                        number(asked[2]),
                        number(asked[3]),
                    ))
                };
                let (whole, columns) = (self.whole.ask(a), self.columns.ask(a));
                self.n.asks += 1;
                self.n.codes[whole.0 as usize] += 1;
                self.n.published += (whole.0 == 0 && kind == "publish") as u64;
                let want = (number(expected[0]), number(expected[1]));
                (whole != want || columns != want).then(|| format!("{whole:?} and {columns:?}"))
            }
        }
    }

    /// What the program is to write.
    fn written(&self) -> String {
        let n = &self.n;
        let codes: Vec<String> = n.codes.iter().map(u64::to_string).collect();
        format!(
            "{} differ of {} asks; codes 0 to 9: {}; {} publishes granted, {} records, {} histories\n",
            n.differ,
            n.asks,
            codes.join(" "),
            n.published,
            n.records,
            n.histories
        )
    }
}

pub fn run(path: &str) -> bool {
    let text = std::fs::read_to_string(path).expect("the file can be read");
    let mut told = Told {
        whole: WholeLate::new(0),
        columns: Columns::new(0),
        n: Counts::default(),
    };
    for (i, l) in text.lines().enumerate() {
        let spaced = l.split('#').next().unwrap_or("").replace(':', " : ");
        let words: Vec<&str> = spaced.split_whitespace().collect();
        if words.is_empty() {
            continue;
        }
        let colon = words.iter().position(|&w| w == ":").unwrap_or(words.len());
        if let Some(found) = told.line(&words[..colon], words.get(colon + 1..).unwrap_or(&[])) {
            println!("line {}: {l}: the other programs give {found}", i + 1);
            told.n.differ += 1;
        }
    }
    told.n.differ += !told.settle() as u64;
    let want = told.written();
    print!("{want}");
    let other = path.replace("stdin", "stdout");
    let same = other != path && std::fs::read_to_string(&other).is_ok_and(|text| text == want);
    if !same {
        println!("{other} has something else");
    }
    let right = told.n.differ == 0 && told.n.asks > 0 && same;
    println!("{} passed, {} failed", right as u32, !right as u32);
    !right
}

/// A row of the text.
fn row(a: Ask, (code, job): (u32, u32)) -> String {
    let asked = match a {
        Ask::Publish(job, cells) => {
            let cells = named(cells).into_iter().map(|c| format!(" {c}"));
            format!("publish {job}{}", cells.collect::<String>())
        }
        Ask::Request(r) => {
            let names = ["open", "read", "write", "end", "abandon"];
            let kind = match names.get((r[0] as usize).wrapping_sub(1)) {
                Some(name) => name.to_string(),
                None => r[0].to_string(),
            };
            format!("{kind} {} {} {}", r[1], cell_of(r), job_of(r))
        }
    };
    format!("{asked}: {code} {job}")
}

/// The streams of the text: so many windows of each shape, with the replies of the arbiter that keeps the whole history.
pub fn make(seed: u64, windows: u64, asks: u64) -> bool {
    for shape in LATE_SHAPES {
        for window in 0..windows {
            let mut s = Stream::new(shape, seed.wrapping_mul(1_000_003) + window);
            let first = s.first();
            println!("\nhistory {first} {shape:?}");
            let mut w = WholeLate::new(first);
            for _ in 0..asks {
                let a = s.ask();
                let reply = w.ask(a);
                s.told(reply.0, reply.1);
                println!("{}", row(a, reply));
            }
        }
    }
    false
}
