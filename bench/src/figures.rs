//! The figures: a table of costs, a picture of cost against the length of the history, and the deepest stack.
use crate::judge::{self, Verdict};
use crate::judge_fast;
use crate::logs;
use crate::ours::{self, Ours};
use crate::requests::*;
use crate::speed::{
    by_replay, by_rust, by_step, by_value, log_of, median, nanos, stream, timed, LOGS,
};
use crate::whole::Whole;
use std::fmt::Write;

/// Nanoseconds a request of the arbiter that keeps the whole history, at so many requests.
fn by_whole(bytes: &[u8]) -> f64 {
    let mut w = Whole::new(1);
    let time = nanos(|| {
        for q in bytes.chunks_exact(8) {
            std::hint::black_box(w.ask(q.try_into().unwrap()));
        }
    });
    time / (bytes.len() / 8) as f64
}

struct Point {
    requests: u64,
    ours: f64,
    whole: Option<f64>,
}

/// One row of the table: medians of turns taken alternately.
fn row(open: u64, requests: u64, text: &mut String) -> f64 {
    // short histories are many, each from its own seed: one that is run again and again is learnt by the processor
    let turns = if requests > 1_000_000 { 5 } else { 15 };
    let several = if requests < 100_000 { 40 } else { 1 };
    let (mut x, mut v, mut y, mut z) = (vec![], vec![], vec![], vec![]);
    for turn in 0..turns {
        let (mut a, mut w, mut b, mut c) = (0.0, 0.0, 0.0, 0.0);
        for k in 0..several {
            let seed = if several == 1 {
                1
            } else {
                turn * several + k + 1
            };
            let bytes = stream(open, requests, seed);
            let mut out = vec![0u8; bytes.len()];
            a += timed(by_replay, &bytes, &mut out);
            w += timed(by_value, &bytes, &mut out);
            b += timed(by_step, &bytes, &mut out);
            c += timed(by_rust, &bytes, &mut out);
        }
        x.push(a / several as f64);
        v.push(w / several as f64);
        y.push(b / several as f64);
        z.push(c / several as f64);
    }
    let (x, v, y, z) = (median(x), median(v), median(y), median(z));
    writeln!(
        text,
        "| {open} | {requests} | {x:.1} | {y:.1} | {v:.1} | {z:.1} | {:.2} | {:.2} |",
        x / z,
        v / z
    )
    .unwrap();
    x
}

/// Microseconds of a call, over a few in a row.
fn micros(call: &mut dyn FnMut() -> u32) -> f64 {
    const CALLS: u32 = 8;
    let mut codes = 0;
    let time = nanos(|| codes = (0..CALLS).map(|_| call()).sum());
    assert_eq!(codes, 0);
    time / 1000.0 / CALLS as f64
}

type Checks = fn(&[u8], &[u32]) -> Verdict;
type Lists = fn(&[u8], &mut [u32]) -> Verdict;

/// One row: a kind of log, and the partner.
fn order_row(text: &mut String, kind: &str, name: &str, check: Checks, list: Lists) {
    let log = log_of(kind);
    let order = judge::list(&log, 512).1;
    let mut lent = vec![0u32; 512];
    let (mut a, mut b, mut c, mut d) = (vec![], vec![], vec![], vec![]);
    for _ in 0..301 {
        a.push(micros(&mut || ours::check(&log, &order).code));
        b.push(micros(&mut || check(&log, &order).code));
        c.push(micros(&mut || ours::list(&log, &mut lent).code));
        d.push(micros(&mut || list(&log, &mut lent).code));
    }
    let (a, b, c, d) = (median(a), median(b), median(c), median(d));
    writeln!(
        text,
        "| {name} | {a:.1} | {b:.1} | {:.2} | {c:.1} | {d:.1} | {:.2} |",
        a / b,
        c / d
    )
    .unwrap();
}

fn orders(text: &mut String) {
    for (kind, name) in LOGS {
        order_row(text, kind, name, judge_fast::check, judge_fast::list);
        if kind == "gaps" {
            let name = "the same, the partner with no hash";
            let (check, list) = (judge_fast::check_halving, judge_fast::list_halving);
            order_row(text, kind, name, check, list);
        }
    }
}

// ---- the stack

const PAINT: u8 = 0xc7;

/// How deep a call goes, in bytes below the frame that makes it: the stack is painted, and what is no longer paint was used.
#[inline(never)]
fn depth(call: &mut dyn FnMut()) -> usize {
    const ROOM: usize = 256 * 1024;
    let top: usize;
    unsafe { std::arch::asm!("mov {}, rsp", out(reg) top) };
    // what stands just below the stack's end may be in use
    let painted = top - 128;
    unsafe {
        for a in (painted - ROOM)..painted {
            (a as *mut u8).write_volatile(PAINT);
        }
    }
    call();
    let mut low = painted - ROOM;
    unsafe {
        while low < painted && (low as *const u8).read_volatile() == PAINT {
            low += 1;
        }
    }
    top - low
}

/// The deepest of many calls, the call of the export included.
fn stack(text: &mut String) {
    let measured = std::thread::Builder::new()
        .stack_size(2 * 1024 * 1024)
        .spawn(|| {
            let bytes = stream(32, 3000, 1);
            let mut out = vec![0u8; bytes.len()];
            let mut o = Ours::new(1);
            let mut step = 0;
            for q in bytes.chunks_exact(8) {
                let q: Request = q.try_into().unwrap();
                step = step.max(depth(&mut || {
                    o.ask(q);
                }));
            }
            let replay = depth(&mut || by_replay(&bytes, &mut out));
            let value = depth(&mut || by_value(&bytes, &mut out));
            let mut r = Random::new(5);
            let log = logs::granted(&mut r, 4096, 512, 32, 12, false, false);
            let order = judge::list(&log, 512).1;
            let mut lent = vec![0u32; 512];
            let check = depth(&mut || {
                ours::check(&log, &order);
            });
            let list = depth(&mut || {
                ours::list(&log, &mut lent);
            });
            [
                ("reedtangle_step", step),
                ("reedtangle_replay", replay),
                ("reedtangle_replay_by_value", value),
                ("reedtangle_check_order", check),
                ("reedtangle_list_order", list),
            ]
        })
        .unwrap()
        .join()
        .unwrap();
    for (name, bytes) in measured {
        writeln!(text, "| `{name}` | {bytes} |").unwrap();
    }
}

// ---- the picture

fn picture(points: &[Point]) -> String {
    let (w, h) = (640.0, 400.0);
    let x = |n: f64| 70.0 + (n.log10() - 2.0) / 5.0 * (w - 100.0);
    let y = |v: f64| h - 50.0 - (v.log10() - 1.0) / 5.0 * (h - 90.0);
    let mut s = format!("<svg xmlns=\"http://www.w3.org/2000/svg\" width=\"{w}\" height=\"{h}\" font-family=\"sans-serif\" font-size=\"12\">\n<rect width=\"100%\" height=\"100%\" fill=\"white\"/>\n");
    for e in 2..=7 {
        let at = x(10f64.powi(e));
        writeln!(s, "<line x1=\"{at:.1}\" y1=\"40\" x2=\"{at:.1}\" y2=\"{}\" stroke=\"#ddd\"/><text x=\"{at:.1}\" y=\"{}\" text-anchor=\"middle\">10^{e}</text>", h - 50.0, h - 34.0).unwrap();
    }
    for e in 1..=6 {
        let at = y(10f64.powi(e));
        writeln!(s, "<line x1=\"70\" y1=\"{at:.1}\" x2=\"{}\" y2=\"{at:.1}\" stroke=\"#ddd\"/><text x=\"62\" y=\"{:.1}\" text-anchor=\"end\">10^{e}</text>", w - 30.0, at + 4.0).unwrap();
    }
    let mut line = |colour: &str, name: &str, values: Vec<(f64, f64)>, down: f64| {
        let path: Vec<String> = values
            .iter()
            .map(|&(a, b)| format!("{:.1},{:.1}", x(a), y(b)))
            .collect();
        writeln!(
            s,
            "<polyline fill=\"none\" stroke=\"{colour}\" stroke-width=\"2\" points=\"{}\"/>",
            path.join(" ")
        )
        .unwrap();
        for &(a, b) in &values {
            writeln!(
                s,
                "<circle cx=\"{:.1}\" cy=\"{:.1}\" r=\"3\" fill=\"{colour}\"/>",
                x(a),
                y(b)
            )
            .unwrap();
        }
        let &(a, b) = values.last().unwrap();
        writeln!(
            s,
            "<text x=\"{:.1}\" y=\"{:.1}\" fill=\"{colour}\" text-anchor=\"end\">{name}</text>",
            x(a),
            y(b) + down
        )
        .unwrap();
    };
    line(
        "#b03020",
        "whole history",
        points
            .iter()
            .filter_map(|p| p.whole.map(|v| (p.requests as f64, v)))
            .collect(),
        -10.0,
    );
    line(
        "#2050a0",
        "replay, 8 jobs open",
        points.iter().map(|p| (p.requests as f64, p.ours)).collect(),
        -10.0,
    );
    writeln!(s, "<text x=\"{}\" y=\"{}\" text-anchor=\"middle\">requests in the history</text><text x=\"16\" y=\"24\">nanoseconds a request</text>\n</svg>", w / 2.0, h - 12.0).unwrap();
    s
}

/// The trial program against one in Rust. True where their lines differ.
fn trial(text: &mut String, program: &str) -> bool {
    if !std::path::Path::new(program).exists() {
        text.push_str(
            "\nThe trial program is not built (`tools/build.sh trial`), so its table is left out.\n",
        );
        return false;
    }
    text.push_str("\nThe trial program and a Rust program of the same input and output, whole processes by the clock, output to nowhere; their output was compared first:\n\n| jobs open | requests | trial, ns a request | Rust, ns a request | to Rust |\n|---|---|---|---|---|\n");
    crate::lines::table(text, program, "target/requests")
}

pub fn run(folder: &str) -> bool {
    let mut text = String::from("Nanoseconds of processor time a request, medians of turns taken alternately. Histories of 10,000 requests are 40 different ones a turn.\n\n");
    text.push_str("| jobs open | requests | replay, ns | exported step, ns | step by value, ns | Rust, ns | replay to Rust | by value to Rust |\n|---|---|---|---|---|---|---|---|\n");
    for open in [8, 32] {
        for requests in [10_000, 1_000_000, 10_000_000] {
            row(open, requests, &mut text);
        }
    }
    text.push_str("\nMicroseconds of processor time a log, medians of 301 turns taken alternately, eight calls a turn:\n\n| log | check, µs | Rust, µs | to Rust | list, µs | Rust, µs | to Rust |\n|---|---|---|---|---|---|---|\n");
    orders(&mut text);
    let differ = trial(&mut text, "../target/bin/trial");
    text.push_str(
        "\nThe deepest stack, by painting it:\n\n| function | deepest stack, bytes |\n|---|---|\n",
    );
    stack(&mut text);
    let mut points = vec![];
    for requests in [
        100u64, 300, 1000, 3000, 10_000, 100_000, 1_000_000, 10_000_000,
    ] {
        let several = (300_000 / requests).clamp(1, 1000);
        let mut times = vec![];
        for turn in 0..if requests > 1_000_000 { 3 } else { 5 } {
            let mut sum = 0.0;
            for k in 0..several {
                let bytes = stream(8, requests, turn * several + k + 1);
                let mut out = vec![0u8; bytes.len()];
                sum += timed(by_replay, &bytes, &mut out);
            }
            times.push(sum / several as f64);
        }
        let ours = median(times);
        let whole = (requests <= 3000).then(|| by_whole(&stream(8, requests, 1)));
        points.push(Point {
            requests,
            ours,
            whole,
        });
    }
    text.push_str("\nCost against the length of the history, 8 jobs open:\n\n| requests | replay, ns a request | whole history, ns a request |\n|---|---|---|\n");
    for p in &points {
        let whole = p.whole.map_or("-".to_string(), |v| format!("{v:.0}"));
        writeln!(text, "| {} | {:.1} | {whole} |", p.requests, p.ours).unwrap();
    }
    print!("{text}");
    std::fs::write(format!("{folder}/history-length.svg"), picture(&points))
        .expect("the folder can be written to");
    if differ {
        println!("the two trial programs print different lines");
    }
    differ
}
