//! The trial program in plain Rust: requests from standard input, the same lines on standard output. And the two programs timed on one input.
//! And the program `byvalue` in plain Rust.
use crate::bounded::Bounded;
use crate::requests::Request;
use crate::speed::{median, stream};
use std::fmt::Write as _;
use std::io::{Read, Write};
use std::process::{Command, Stdio};
use std::time::Instant;

fn put(out: &mut Vec<u8>, n: u64) {
    let mut digits = [0u8; 20];
    let mut at = 20;
    let mut rest = n;
    loop {
        at -= 1;
        digits[at] = b'0' + (rest % 10) as u8;
        rest /= 10;
        if rest == 0 {
            break;
        }
    }
    out.extend_from_slice(&digits[at..]);
}

/// Reads to the end, answers each whole record.
pub fn trial() -> bool {
    let mut input = std::io::stdin().lock();
    let mut output = std::io::stdout().lock();
    let mut b = Bounded::new(1);
    let mut buffer = vec![0u8; 65536];
    let mut out = Vec::with_capacity(400_000);
    out.extend_from_slice(b"request code job\n");
    let (mut waiting, mut place) = (0usize, 0u64);
    loop {
        let got = input.read(&mut buffer[waiting..]).unwrap_or(0);
        waiting += got;
        if got == 0 || waiting >= 32768 {
            let whole = waiting - waiting % 8;
            for q in buffer[..whole].chunks_exact(8) {
                let (code, job) = b.ask(Request::try_from(q).unwrap());
                put(&mut out, place);
                out.push(b' ');
                out.push(b'0' + code as u8);
                out.push(b' ');
                put(&mut out, job as u64);
                out.push(b'\n');
                place += 1;
            }
            buffer.copy_within(whole..waiting, 0);
            waiting -= whole;
            if output.write_all(&out).is_err() {
                return true;
            }
            out.clear();
        }
        if got == 0 {
            break;
        }
    }
    if waiting > 0 {
        out.extend_from_slice(b"tail ");
        put(&mut out, waiting as u64);
        out.push(b'\n');
    }
    output.write_all(&out).is_err()
}

/// Reads to the end, and prints what `byvalue` prints: the requests, how many were granted, and the sum of the replies.
pub fn sum() -> bool {
    let mut input = std::io::BufReader::with_capacity(65536, std::io::stdin().lock());
    let mut b = Bounded::new(1);
    let mut q: Request = [0; 8];
    let (mut requests, mut granted, mut sum) = (0u64, 0u64, 0u64);
    while input.read_exact(&mut q).is_ok() {
        let (code, job) = b.ask(q);
        requests += 1;
        granted += (code == 0) as u64;
        sum = (sum * 31 + code as u64 * 7 + job as u64) % 4_294_967_291;
    }
    println!("{requests} requests, {granted} granted, {sum}");
    false
}

fn run(program: &str, words: &[&str], path: &str, keep: bool) -> (f64, Vec<u8>) {
    let start = Instant::now();
    let input = std::fs::File::open(path).unwrap();
    let mut child = Command::new(program)
        .args(words)
        .stdin(input)
        .stdout(if keep { Stdio::piped() } else { Stdio::null() })
        .spawn()
        .expect("the program is built");
    let mut said = vec![];
    if keep {
        child.stdout.take().unwrap().read_to_end(&mut said).unwrap();
    }
    child.wait().unwrap();
    (start.elapsed().as_nanos() as f64, said)
}

/// Both programs on the same input, by turns; their output is compared once.
pub fn table(text: &mut String, program: &str, path: &str) -> bool {
    let own = std::env::current_exe().unwrap();
    let own = own.to_str().unwrap();
    let mut failed = false;
    for open in [8, 32] {
        let requests = 2_000_000u64;
        let mut bytes = stream(open, requests, 1);
        bytes.extend_from_slice(&[1, 0, 0]);
        std::fs::write(path, &bytes).unwrap();
        failed |= run(program, &[], path, true).1 != run(own, &["trial"], path, true).1;
        let (mut a, mut b) = (vec![], vec![]);
        for _ in 0..7 {
            a.push(run(program, &[], path, false).0 / requests as f64);
            b.push(run(own, &["trial"], path, false).0 / requests as f64);
        }
        let (a, b) = (median(a), median(b));
        writeln!(
            text,
            "| {open} | {requests} | {a:.1} | {b:.1} | {:.2} |",
            a / b
        )
        .unwrap();
    }
    std::fs::remove_file(path).unwrap();
    failed
}
