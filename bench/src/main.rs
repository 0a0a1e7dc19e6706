//! The second witness and the figures, outside the gate. README names the commands.
mod bounded;
mod coarse;
mod differ;
mod figures;
mod flat;
mod judge;
mod judge_fast;
mod late;
mod late_text;
mod lines;
mod locks;
mod logs;
mod ours;
mod programs;
mod recounted;
mod requests;
mod sheets;
mod speed;
mod tried;
mod verdicts;
mod whole;

const USE: &str = "bench differ [SEED [REQUESTS]]            the arbiter against two others
bench verdicts [SEED [LOGS]]              the checker and the lister against two others
bench sheets [SEED [LOGS]]                the morning sheet against one by search, and what it promises of longer logs
bench tried FILE                          what the tried histories expect
bench recount FILE                        what the program recount is to write, of the same text
bench late [SEED [ASKS]]                  the second profile's arbiter against two others
bench locks [SEED [WINDOWS [PROGRAM]]]    the run by locks, the step and the program, against another
bench locks-text FILE                     what the program locked prints for a file of requests
bench desk FILE                           what the text of the program desk expects, and its output
bench desk-make SEED WINDOWS ASKS         the streams in that text
bench coarse [SEED [REQUESTS]]            the coarse mode's arbiter against two others
bench shelves FILE                        what the text of the program shelves expects, and its output
bench shelves-make SEED WINDOWS ASKS      the streams in that text
bench programs [FOLDER [SEED [LOGS]]]     the built programs on made files
bench figures FOLDER                      tables of times, the stack, a picture
bench flat [RUNS [STRETCHES]]             cost early and late in one history
bench speed [REQUESTS]                    nanoseconds a request
for an instruction counter:
bench count none|ours|step|value|rust OPEN REQUESTS
bench orders none|(ours|rust|halving|plain)-(check|list) sparse|dense|gaps|reversed TIMES
bench flat-make OPEN AGE REQUESTS FILE, then bench flat-count none|ours FILE
programs that read requests:
bench stream OPEN REQUESTS FILE, then bench trial < FILE, bench sum < FILE";

fn main() {
    let words: Vec<String> = std::env::args().skip(1).collect();
    let number =
        |i: usize, other: u64| words.get(i).map_or(other, |w| w.parse().expect("a number"));
    let failed = match words.first().map(String::as_str) {
        Some("differ") => differ::run(number(1, 1), number(2, 10_000_000)),
        Some("verdicts") => verdicts::run(number(1, 1), number(2, 1_000_000)),
        Some("sheets") => sheets::run(number(1, 1), number(2, 50_000)),
        Some("tried") => tried::run(words.get(1).expect("the file of tried histories")),
        Some("recount") => recounted::run(words.get(1).expect("the file of tried histories")),
        Some("late") => late::run(number(1, 1), number(2, 4_000_000)),
        Some("locks") => locks::run(
            number(1, 1),
            number(2, 3_000),
            words.get(3).map_or("../target/bin/locked", |w| w),
        ),
        Some("locks-text") => locks::text(words.get(1).expect("a file of requests")),
        Some("desk") => late_text::run(words.get(1).expect("the file of histories")),
        Some("desk-make") => late_text::make(number(1, 1), number(2, 3), number(3, 160)),
        Some("coarse") => coarse::run(number(1, 1), number(2, 4_000_000)),
        Some("shelves") => coarse::text(words.get(1).expect("the text of shelves")),
        Some("shelves-make") => coarse::make(number(1, 1), number(2, 1), number(3, 160)),
        Some("programs") => programs::run(
            words.get(1).map_or("../target/bin", |w| w),
            number(2, 1),
            number(3, 400) as u32,
        ),
        Some("figures") => figures::run(words.get(1).map_or(".", |w| w)),
        Some("flat") => flat::run(number(1, 15), number(2, 20)),
        Some("flat-make") => flat::make(
            number(1, 8),
            number(2, 10_000),
            number(3, 100_000),
            words.get(4).expect("a file to write"),
        ),
        Some("flat-count") => flat::count(
            words.get(1).map_or("", |w| w),
            words.get(2).expect("a file of flat-make"),
        ),
        Some("trial") => lines::trial(),
        Some("sum") => lines::sum(),
        Some("stream") => speed::write_stream(
            number(1, 8),
            number(2, 100_000),
            words.get(3).expect("a file to write"),
        ),
        Some("speed") => speed::run(number(1, 1_000_000)),
        Some("count") => speed::count(
            words.get(1).map_or("ours", |w| w),
            number(2, 8),
            number(3, 100_000),
        ),
        Some("orders") => speed::orders(
            words.get(1).map_or("", |w| w),
            words.get(2).map_or("", |w| w),
            number(3, 1),
        ),
        _ => {
            eprintln!("{USE}");
            true
        }
    };
    std::process::exit(failed as i32);
}
