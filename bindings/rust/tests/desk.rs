//! The second profile: worked rows, what a publish is in a log, and that every log without the jobs still open has an order.
use reedtangle::*;

fn numbers(reply: Result<Job, Refusal>) -> (u32, u32) {
    match reply {
        Ok(job) => (0, job.0),
        Err(refusal) => (refusal.code(), 0),
    }
}

#[test]
fn sets() {
    let set = CellSet::of(&[9, 4, 200, 4]);
    assert_eq!(set.0, [1 << 9 | 1 << 4, 0, 0, 1 << 8]);
    assert!(set.has(200) && !set.has(201));
    assert_eq!(set.cells().collect::<Vec<_>>(), [4, 9, 200]);
    assert_eq!(CellSet([u64::MAX; 4]).cells().count(), 256);
    let want = [
        request::write(Job(7), 4),
        request::write(Job(7), 9),
        request::write(Job(7), 200),
        request::end(Job(7)),
    ];
    assert_eq!(published(Job(7), set).collect::<Vec<_>>(), want.concat());
    let none = published(Job(7), CellSet::NONE).collect::<Vec<_>>();
    assert_eq!(none, request::end(Job(7)));
}

/// Two jobs read a cell and both want to write it; a read that the first profile would refuse; real time.
#[test]
fn worked() {
    let mut desk = LateArbiter::new(1);
    let [a, b, c] = [1, 2, 3].map(Job);
    assert_eq!([desk.open(0), desk.open(1)], [Ok(a), Ok(b)]);
    assert_eq!([desk.read(a, 5), desk.read(b, 5)], [Ok(a), Ok(b)]);
    assert_eq!(desk.publish(b, CellSet::of(&[5, 6])), Ok(b));
    let before = desk.clone();
    for cells in [&[5][..], &[6], &[200, 6]] {
        assert_eq!(desk.publish(a, CellSet::of(cells)), Err(Refusal::Circle));
    }
    assert_eq!(desk, before);
    // a before b by cell 5 and after it by cell 6: an arbiter of the first profile refuses the read
    assert_eq!(desk.open(0), Ok(c));
    assert_eq!(desk.read(a, 6), Ok(a));
    assert_eq!(desk.publish(a, CellSet::NONE), Err(Refusal::Circle));
    assert_eq!(desk.abandon(a), Ok(a));
    assert_eq!(desk.publish(a, CellSet::NONE), Err(Refusal::NotOpen));
    // b had ended when c was opened
    assert_eq!(desk.publish(c, CellSet::of(&[5])), Ok(c));
    // kinds of the first profile, and byte 1
    for kind in [0, 3, 4, 6, 7] {
        let reply = desk.ask(request::of(kind, 5, 3));
        assert_eq!(numbers(reply), (1, 0));
    }
    assert_eq!(numbers(desk.ask([2, 1, 0, 0, 3, 0, 0, 0])), (1, 0));
    assert_eq!(numbers(desk.ask(request::of(2, 256, 3))), (2, 0));
    assert_eq!(numbers(desk.ask(request::of(2, 255, 3))), (3, 0));
}

/// Of one port 16 jobs are open at most, in this profile too; a publish and an abandon make room for one.
#[test]
fn ports() {
    let mut desk = LateArbiter::new(1);
    for i in 1..=PORT_SLOTS as u32 {
        assert_eq!(desk.open(2), Ok(Job(i)));
    }
    let before = desk.clone();
    assert_eq!(desk.open(2), Err(Refusal::PortFull));
    assert_eq!(desk.open(3), Err(Refusal::NoPort));
    assert_eq!(desk, before);
    assert_eq!(desk.open(0), Ok(Job(17)));
    assert_eq!(desk.publish(Job(1), CellSet::NONE), Ok(Job(1)));
    assert_eq!(desk.open(2), Ok(Job(18)));
    assert_eq!(desk.open(2), Err(Refusal::PortFull));
    assert_eq!(desk.abandon(Job(2)), Ok(Job(2)));
    assert_eq!(desk.open(1), Ok(Job(19)));
    assert_eq!(desk.open(2), Ok(Job(20)));
    assert_eq!(desk.open(2), Err(Refusal::PortFull));
    // slot 0 is that of job 18, slot 1 that of job 19, slot 16 that of job 17, slot 17 that of job 20
    assert_eq!(desk.state().ports, [0x10000, 2, 0x2fffd]);
    for i in 21..=34 {
        assert_eq!(desk.open(i % 2), Ok(Job(i)));
    }
    assert_eq!(desk.open(3), Err(Refusal::NoPort));
    assert_eq!(desk.open(2), Err(Refusal::Full));
    let mut last = LateArbiter::new(u32::MAX);
    assert_eq!(last.open(3), Err(Refusal::NoPort));
    assert_eq!(last.open(0), Ok(Job(u32::MAX)));
    assert_eq!(last.open(3), Err(Refusal::Spent));
}

/// The log that a host keeps, and the same without the jobs still open.
#[test]
fn logs() {
    let (mut desk, mut log) = (LateArbiter::new(10), Vec::new());
    let mut step = 1u64;
    let mut below = |n: u64| {
        step = step.wrapping_mul(6364136223846793005).wrapping_add(1);
        (step >> 33) % n
    };
    let (mut opened, mut barred) = (0, 0);
    for _ in 0..2000 {
        let job = Job(10 + below(opened as u64 + 1) as u32);
        let ask = match below(8) {
            0 if opened < 400 => request::open(below(3) as u32),
            7 => {
                let set = CellSet::of(&[below(9) as u8 * 30, below(9) as u8 * 30]);
                match desk.publish(job, set) {
                    Ok(job) => log.extend(published(job, set)),
                    Err(refusal) => barred += (refusal == Refusal::Circle) as u32,
                }
                continue;
            }
            6 => request::abandon(job),
            _ => request::read(job, below(9) as u8 * 30),
        };
        if let Ok(granted) = desk.ask(ask) {
            opened += (ask[0] == 1) as u32;
            log.extend(record(ask, granted));
        }
    }
    let s = desk.state();
    let open = |r: &[u8]| {
        let job = u32::from_le_bytes(r[4..].try_into().unwrap());
        (0..32).any(|i| s.free >> i & 1 == 0 && s.numbers[i] == job)
    };
    let closed: Vec<u8> = log
        .chunks(8)
        .filter(|r| !open(r))
        .flatten()
        .copied()
        .collect();
    let mut order = [0; LOG_JOBS];
    let count = list_order(&closed, &mut order).unwrap();
    assert_eq!(check_order(&closed, &order[..count]), Ok(count));
    let ended = closed.chunks(8).filter(|r| r[0] == 4).count();
    assert!(
        count == ended && ended > 30 && barred > 5,
        "{count} {ended} {barred}"
    );
}
