//! What bindings/c/night.c does, through this crate: replies worked out by hand, `ask` against `replay` over the same requests, and orders
//! against a slow judge written here.
use reedtangle::*;

/// Document 01's code and job of a reply.
fn numbers(reply: Result<Job, Refusal>) -> (u32, u32) {
    match reply {
        Ok(job) => (0, job.0),
        Err(refusal) => (refusal.code(), 0),
    }
}

/// One request. A grant goes to the log; a refusal must leave the state as it was. The same in numbers must give the same.
fn ask(arbiter: &mut Arbiter, log: &mut Vec<u8>, request: [u8; 8]) -> Result<Job, Refusal> {
    let before = arbiter.clone();
    let reply = arbiter.ask(request);
    let mut other = before.clone();
    assert_eq!(other.answer(request), numbers(reply));
    assert!(
        other == *arbiter,
        "the two ways to ask leave different states"
    );
    match reply {
        Ok(job) => log.extend(records(request, job)),
        Err(_) => assert!(*arbiter == before, "a refusal changed the state"),
    }
    reply
}

/// Kind, byte 1, cell and job of a request, and the code and job expected.
type Row = (u8, u8, u16, u32, u32, u32);

fn bytes(row: &Row) -> [u8; 8] {
    let mut bytes = request::of(row.0, row.2, row.3);
    bytes[1] = row.1;
    bytes
}

/// The night of examples/night.sh. Job 2 read cell 5 before job 1 wrote it, so its own write of cell 5 would close a circle. So would its
/// write of cell 6: job 3, which has read it, was opened after the end of job 1.
const NIGHT: [Row; 11] = [
    (1, 0, 0, 0, 0, 1),
    (1, 0, 0, 0, 0, 2),
    (2, 0, 5, 2, 0, 2),
    (3, 0, 5, 1, 0, 1),
    (4, 0, 0, 1, 0, 1),
    (1, 0, 0, 0, 0, 3),
    (2, 0, 6, 3, 0, 3),
    (4, 0, 0, 3, 0, 3),
    (3, 0, 6, 2, 7, 0),
    (3, 0, 5, 2, 7, 0),
    (4, 0, 0, 2, 0, 2),
];

/// Another one, from job 70,000: the refusals 1 to 4 and 7, and cells that are ignored.
const OTHER: [Row; 16] = [
    (1, 0, 0, 0, 0, 70000),
    (1, 0, 0, 0, 0, 70001),
    (3, 0, 7, 70000, 0, 70000),
    (2, 0, 7, 70001, 0, 70001),
    (3, 0, 9, 70001, 0, 70001),
    (4, 0, 0, 70001, 0, 70001),
    (2, 0, 9, 70000, 7, 0),
    (5, 0, 0, 70000, 4, 0),
    (4, 0, 65535, 70000, 0, 70000),
    (2, 0, 300, 70002, 2, 0),
    (1, 0, 9, 0, 0, 70002),
    (2, 0, 0, 70000, 3, 0),
    (2, 1, 0, 70002, 1, 0),
    (8, 0, 0, 70002, 1, 0),
    (2, 0, 255, 70002, 0, 70002),
    (5, 0, 0, 70002, 0, 70002),
];

/// The two nights, turn by turn, each on its own state; their logs.
fn two_nights() -> (Vec<u8>, Vec<u8>) {
    let mut one = Arbiter::new(1);
    let mut two = Arbiter::new(70000);
    let (mut log_one, mut log_two) = (Vec::new(), Vec::new());
    for (i, row) in OTHER.iter().enumerate() {
        if let Some(row) = NIGHT.get(i) {
            let reply = numbers(ask(&mut one, &mut log_one, bytes(row)));
            assert_eq!(reply, (row.4, row.5), "request {i} of the night");
        }
        let reply = numbers(ask(&mut two, &mut log_two, bytes(row)));
        assert_eq!(reply, (row.4, row.5), "request {i} of the other night");
    }
    // every job has ended or was abandoned: nothing is held but the next number, and that slots 0 and 1 were of port 0
    for (arbiter, next) in [(&one, 4), (&two, 70003)] {
        let mut want = Arbiter::new(next).state().clone();
        want.ports[0] = 3;
        assert_eq!(*arbiter.state(), want);
    }
    (log_one, log_two)
}

#[test]
fn the_night() {
    let (one, two) = two_nights();
    assert_eq!((one.len(), two.len()), (72, 80));
}

#[test]
fn a_restart() {
    let mut arbiter = Arbiter::new(1);
    for row in &NIGHT[..9] {
        let _ = arbiter.ask(bytes(row));
    }
    assert_ne!(arbiter, Arbiter::new(4));
    arbiter.restart(u32::MAX);
    assert_eq!(arbiter, Arbiter::new(u32::MAX));
    assert_eq!(arbiter.open(0), Ok(Job(u32::MAX)));
    assert_eq!(arbiter.open(0), Err(Refusal::Spent));
}

#[test]
fn orders_by_hand() {
    let (log, other) = two_nights();
    let mut list = [90, 91, 92, 93, 94];
    assert_eq!(list_order(&log, &mut list), Ok(3));
    assert_eq!(list, [2, 1, 3, 93, 94]);
    assert_eq!(check_order(&log, &list[..3]), Ok(3));
    assert_eq!(check_order(&log, &[1, 2, 3]), Err(BadOrder::Backward(3)));
    // record 5 is the open of job 3, after the end of job 1
    assert_eq!(check_order(&log, &[3, 2, 1]), Err(BadOrder::Backward(5)));
    assert_eq!(check_order(&log, &[2, 1, 3, 2]), Err(BadOrder::Entry(3)));
    assert_eq!(check_order(&log, &[2, 1]), Err(BadOrder::Entry(2)));
    assert_eq!(check_order(&log, &[2, 9]), Err(BadOrder::Entry(1)));
    // the abandoned job of the other night is no kept job; 70,000 wrote cell 7 before 70,001 read it
    assert_eq!(list_order(&other, &mut list[..2]), Ok(2));
    assert_eq!(list, [70000, 70001, 3, 93, 94]);
    assert_eq!(check_order(&[], &[]), Ok(0));
    assert_eq!(list_order(&[], &mut []), Ok(0));
}

#[test]
fn sheets_by_hand() {
    let (log, _) = two_nights();
    let mut list = [90, 91, 92, 93];
    assert_eq!(list_sheet(&log, &mut list), Ok(3));
    assert_eq!(list, [2, 1, 3, 93]);
    assert_eq!(list_sheet(&log, &mut list[..2]), Err(NoList::Short(3)));
    // before its last record job 2 is open: it read cell 5 before job 1 wrote it, and job 1 had ended when job 3 was opened
    let mut list = [90, 91, 92];
    assert_eq!(list_sheet(&log[..64], &mut list), Ok(0));
    assert_eq!(list_sheet(&log[..64], &mut []), Ok(0));
    // job 2 ends, and job 1 is open and has done nothing
    let short: Vec<u8> = [
        request::of(1, 0, 1),
        request::of(1, 0, 2),
        request::end(Job(2)),
    ]
    .concat();
    assert_eq!(list_sheet(&short, &mut []), Err(NoList::Short(1)));
    assert_eq!(list, [90, 91, 92]);
    assert_eq!(list_sheet(&short, &mut list[..1]), Ok(1));
    assert_eq!(list, [2, 91, 92]);
    // the write that the arbiter refused makes a circle: 17 with room for the jobs at rest, of which there is none
    let mut bad = log[..64].to_vec();
    bad.extend(request::write(Job(2), 5));
    assert_eq!(list_sheet(&bad, &mut []), Err(NoList::NoOrder));
    assert_eq!(
        list_sheet(&log[..71], &mut list),
        Err(NoList::Log(Fault::Length))
    );
    assert_eq!(list, [2, 91, 92]);
}

#[test]
fn logs_by_hand() {
    let (log, _) = two_nights();
    let both = |log: &[u8], fault: Fault| {
        let mut list = [90, 91, 92];
        assert_eq!(list_order(log, &mut list), Err(NoList::Log(fault)));
        assert_eq!(list, [90, 91, 92]);
        assert_eq!(check_order(log, &[2, 1, 3]), Err(BadOrder::Log(fault)));
    };
    both(&log[..71], Fault::Length);
    both(&[0; LOG_BYTES + 8], Fault::Length);
    let mut bad = log.clone();
    bad[2 * 8 + 3] = 1;
    both(&bad, Fault::Form(2));
    let mut bad = log.clone();
    bad[5 * 8 + 4] = 2;
    both(&bad, Fault::Turn(5));
    let opens: Vec<u8> = (0..513).flat_map(|n| request::of(1, 0, n)).collect();
    both(&opens, Fault::TooMany(512));

    let mut list = [90, 91, 92];
    assert_eq!(list_order(&log, &mut list[..2]), Err(NoList::Short(3)));
    // each write that the arbiter refused, put into the log all the same, before job 2 ends
    for cell in [5, 6] {
        let mut bad = log[..64].to_vec();
        bad.extend(request::write(Job(2), cell));
        assert_eq!(list_order(&bad, &mut list), Err(NoList::NoOrder));
        assert_eq!(list, [90, 91, 92]);
    }
}

#[test]
fn codes_and_places() {
    let codes: Vec<u32> = (0..12)
        .filter_map(Refusal::from_code)
        .map(Refusal::code)
        .collect();
    assert_eq!(codes, [1, 2, 3, 4, 5, 6, 7, 8, 9]);
    assert_eq!(NoRoom.code(), 24);
    let faults = [
        Fault::Length,
        Fault::Form(1),
        Fault::Turn(2),
        Fault::TooMany(3),
    ];
    assert_eq!(
        faults.map(|f| (f.code(), f.place())),
        [(11, 0), (12, 1), (13, 2), (14, 3)]
    );
    let orders = [
        BadOrder::Log(Fault::Form(1)),
        BadOrder::Entry(4),
        BadOrder::Backward(5),
    ];
    assert_eq!(
        orders.map(|o| (o.code(), o.place())),
        [(12, 1), (15, 4), (16, 5)]
    );
    let lists = [
        NoList::Log(Fault::Turn(2)),
        NoList::NoOrder,
        NoList::Short(6),
    ];
    assert_eq!(
        lists.map(|l| (l.code(), l.place())),
        [(13, 2), (17, 0), (18, 6)]
    );
}

#[test]
fn ends_of_ranges() {
    let mut one = Arbiter::new(0);
    for i in 0..SLOTS as u32 {
        assert_eq!(one.open(i / PORT_SLOTS as u32), Ok(Job(i)));
    }
    let before = one.clone();
    assert_eq!(one.open(2), Err(Refusal::Full));
    assert_eq!(one, before);

    let mut two = Arbiter::new(u32::MAX);
    assert_eq!(two.open(2), Ok(Job(u32::MAX)));
    let before = two.clone();
    assert_eq!(two.open(2), Err(Refusal::Spent));
    assert_eq!(two, before);
}

/// Of port 1 the 17th open gets 9 while the others have room; 8 before 5, 5 before 9, 6 before 8. An end, an abandon and a publish make room for one each, and leave the
/// slots with their ports: slot 1 goes on to port 0 with job 18.
#[test]
fn ports() {
    const ROWS: [Row; 16] = [
        (1, 0, 0, 1, 9, 0),
        (1, 0, 7, 3, 8, 0),
        (1, 0, 0, 257, 8, 0),
        (1, 1, 0, 3, 1, 0),
        (1, 0, 0, 2, 0, 17),
        (4, 0, 0, 17, 0, 17),
        (1, 0, 0, 1, 9, 0),
        (4, 0, 0, 2, 0, 2),
        (1, 0, 0, 0, 0, 18),
        (1, 0, 0, 1, 0, 19),
        (1, 0, 0, 1, 9, 0),
        (5, 0, 0, 3, 0, 3),
        (1, 0, 0, 1, 0, 20),
        (6, 0, 5, 4, 0, 4),
        (1, 0, 0, 1, 0, 21),
        (1, 0, 0, 1, 9, 0),
    ];
    let (mut one, mut log) = (Arbiter::new(1), Vec::new());
    for i in 1..=PORT_SLOTS as u32 {
        assert_eq!(ask(&mut one, &mut log, request::open(1)), Ok(Job(i)));
    }
    for (i, row) in ROWS.iter().enumerate() {
        let reply = numbers(ask(&mut one, &mut log, bytes(row)));
        assert_eq!(reply, (row.4, row.5), "request {i}");
    }
    // jobs 19, 20 and 21 have the slots 16, 2 and 3, job 18 has slot 1
    assert_eq!(one.state().ports, [2, 0x1fffd, 0]);
    assert_eq!(one.state().free, 0xfffe_0000);
    for i in 22..=36 {
        assert_eq!(ask(&mut one, &mut log, request::open(2)), Ok(Job(i)));
    }
    let before = one.clone();
    assert_eq!(one.open(3), Err(Refusal::NoPort));
    assert_eq!(one.open(1), Err(Refusal::Full));
    assert_eq!(one.open(2), Err(Refusal::Full));
    assert_eq!(one, before);
    assert_eq!(one.abandon(Job(18)), Ok(Job(18)));
    assert_eq!(one.open(1), Err(Refusal::PortFull));
    assert_eq!(one.open(2), Ok(Job(37)));
    assert_eq!(one.open(0), Err(Refusal::Full));
    // in a log an open has its number, and not its port
    assert_eq!(log.len(), 8 * 41);
    assert_eq!(log[8 * 40..], request::of(1, 0, 36));

    let mut two = Arbiter::new(u32::MAX);
    assert_eq!(two.open(3), Err(Refusal::NoPort));
    assert_eq!(two.open(2), Ok(Job(u32::MAX)));
    assert_eq!(two.open(3), Err(Refusal::Spent));
}

#[test]
fn replay_by_hand() {
    let requests = [1, 0, 0, 0, 0, 0, 0, 0, 2, 0, 5, 0, 2, 0, 0, 0, 1, 1, 1];
    let mut answers = [200; 20];
    assert_eq!(replay(1, &requests, &mut answers[..15]), Err(NoRoom));
    assert_eq!(answers, [200; 20]);
    assert_eq!(replay(1, &requests, &mut answers), Ok(16));
    assert_eq!(
        answers,
        [0, 0, 0, 0, 1, 0, 0, 0, 3, 0, 0, 0, 0, 0, 0, 0, 200, 200, 200, 200]
    );
    assert_eq!(replay(1, &[], &mut []), Ok(0));
}

/// What the fields of a state hold, number by number; and a state that is kept and gone on from.
#[test]
fn states() {
    assert_eq!(std::mem::size_of::<State>(), 4384);
    let mut one = Arbiter::new(100);
    let [a, b] = [one.open(0), one.open(2)].map(|job| job.unwrap());
    assert_eq!(one.read(b, 5), Ok(b));
    assert_eq!(one.write(b, 69), Ok(b));
    assert_eq!(one.write(a, 5), Ok(a));
    let mut want = State {
        next: 102,
        free: 0xffff_fffc,
        numbers: [0; 32],
        leads: [0; 32],
        sets: [0; 512],
        ports: [1, 0, 2], // slot 0 is of port 0, slot 1 of port 2
    };
    want.numbers[..2].copy_from_slice(&[100, 101]);
    want.leads[1] = 1; // job 101, in slot 1, leads to job 100, in slot 0
    want.sets[0] = 1 << 5; // own used of slot 0: cell 5, written
    want.sets[4] = 1 << 5; // own altered of slot 0: cell 5
    want.sets[16] = 1 << 5; // own used of slot 1: cell 5, read
    want.sets[16 + 1] = 1 << 5; // and, in the second word, cell 64 + 5, written
    want.sets[16 + 5] = 1 << 5; // own altered of slot 1, second word: cell 64 + 5
    assert_eq!(*one.state(), want);

    let mut two = Arbiter::from_state(one.state().clone());
    assert_eq!(two, one);
    assert_eq!(two.end(a), Ok(a));
    want.free = 0xffff_fffd;
    want.numbers[0] = 0;
    want.leads[1] = 0;
    want.sets[0] = 0;
    want.sets[4] = 0;
    want.sets[16 + 8] = 1 << 5; // past used of slot 1: cell 5
    want.sets[16 + 12] = 1 << 5; // past altered of slot 1: cell 5
    assert_eq!(*two.state(), want);
    assert_eq!(two.write(b, 5), Err(Refusal::Circle));
    assert_eq!(*two.state(), want);

    assert_eq!(two.open(1), Ok(Job(102)));
    want.ports = [0, 1, 2]; // slot 0 goes from port 0 to port 1
    want.next = 103;
    want.free = 0xffff_fffc;
    want.numbers[0] = 102;
    want.leads[1] = 1; // job 101 comes before job 100, which ended before job 102, in slot 0, was opened
    assert_eq!(*two.state(), want);
}

/// Publishes: each answers and leaves what a write and, where that is granted, an end do. 1 has read cell 5 when 2 publishes it, so 1 comes before 2
/// and may not come to that cell any more; a refused publish leaves it open.
#[test]
fn publishes() {
    const ROWS: [Row; 14] = [
        (1, 0, 0, 0, 0, 1),
        (1, 0, 0, 0, 0, 2),
        (1, 0, 0, 0, 0, 3),
        (2, 0, 5, 1, 0, 1),
        (6, 0, 5, 2, 0, 2),
        (6, 0, 6, 2, 3, 0),
        (6, 0, 256, 2, 2, 0),
        (6, 0, 5, 1, 7, 0),
        (6, 1, 8, 1, 1, 0),
        (8, 0, 8, 1, 1, 0),
        (2, 0, 8, 1, 0, 1),
        (6, 0, 9, 1, 0, 1),
        (4, 0, 0, 1, 3, 0),
        (6, 0, 5, 3, 0, 3),
    ];
    let (mut one, mut two, mut log) = (Arbiter::new(1), Arbiter::new(1), Vec::new());
    for (i, row) in ROWS.iter().enumerate() {
        let request = bytes(row);
        let reply = numbers(ask(&mut one, &mut log, request));
        assert_eq!(reply, (row.4, row.5), "request {i}");
        let mut half = request;
        if request[0] == 6 {
            half[0] = 3;
        }
        let mut said = two.ask(half);
        if request[0] == 6 && said.is_ok() {
            half[0] = 4;
            said = two.ask(half);
        }
        assert_eq!((numbers(said), &two), (reply, &one), "request {i} in two");
    }
    let (a, b, c) = (Job(1), Job(2), Job(3));
    let want = [
        request::of(1, 0, 1),
        request::of(1, 0, 2),
        request::of(1, 0, 3),
        request::read(a, 5),
        request::write(b, 5),
        request::end(b),
        request::read(a, 8),
        request::write(a, 9),
        request::end(a),
        request::write(c, 5),
        request::end(c),
    ];
    assert_eq!(log, want.concat());
    let mut list = [0; 3];
    assert_eq!(list_order(&log, &mut list), Ok(3));
    assert_eq!(list, [1, 2, 3]);
    // in a log a publish is two records, and one of kind 6 is none
    log[4 * 8] = 6;
    let fault = Fault::Form(4);
    assert_eq!(list_order(&log, &mut list), Err(NoList::Log(fault)));
    assert_eq!(check_order(&log, &list), Err(BadOrder::Log(fault)));
    // by name
    let job = one.open(0).unwrap();
    assert_eq!(one.publish(job, 255), Ok(job));
    assert_eq!(one.publish(job, 255), Err(Refusal::NotOpen));
}

/// Adds: 1 and 2 raise cell 9 by turns; 3 reads it, so both come before 3 and may not come to that cell any more. 3 and 1 add to cell 10: 1 may not
/// read it, but add to it. An add bars abandoning.
#[test]
fn adds() {
    const ROWS: [Row; 20] = [
        (1, 0, 0, 0, 0, 1),
        (1, 0, 0, 0, 0, 2),
        (1, 0, 0, 0, 0, 3),
        (7, 0, 9, 1, 0, 1),
        (7, 0, 9, 2, 0, 2),
        (7, 0, 9, 1, 0, 1),
        (2, 0, 9, 3, 0, 3),
        (7, 0, 9, 1, 7, 0),
        (3, 0, 9, 2, 7, 0),
        (7, 0, 10, 3, 0, 3),
        (7, 0, 10, 1, 0, 1),
        (2, 0, 10, 1, 7, 0),
        (5, 0, 0, 1, 4, 0),
        (7, 1, 9, 9, 1, 0),
        (7, 0, 256, 9, 2, 0),
        (7, 0, 9, 9, 3, 0),
        (8, 0, 9, 1, 1, 0),
        (4, 0, 0, 3, 0, 3),
        (7, 0, 9, 1, 7, 0),
        (7, 0, 10, 2, 0, 2),
    ];
    let (mut one, mut log) = (Arbiter::new(1), Vec::new());
    for (i, row) in ROWS.iter().enumerate() {
        let reply = numbers(ask(&mut one, &mut log, bytes(row)));
        assert_eq!(reply, (row.4, row.5), "request {i}");
    }
    let mut want = State {
        next: 4,
        free: 0xffff_fffc,
        numbers: [0; 32],
        leads: [0; 32],
        sets: [0; 512],
        ports: [7, 0, 0],
    };
    for i in 0..2 {
        want.numbers[i] = i as u32 + 1;
        want.sets[16 * i + 4] = 3 << 9; // own altered: cells 9 and 10
        want.sets[16 * i + 8] = 1 << 9; // past used: cell 9, which 3 read
        want.sets[16 * i + 12] = 1 << 10; // past altered: cell 10, which 3 added to
    }
    assert_eq!(*one.state(), want);
    let (a, b, c) = (Job(1), Job(2), Job(3));
    let want = [
        request::of(1, 0, 1),
        request::of(1, 0, 2),
        request::of(1, 0, 3),
        request::add(a, 9),
        request::add(b, 9),
        request::add(a, 9),
        request::read(c, 9),
        request::add(c, 10),
        request::add(a, 10),
        request::end(c),
        request::add(b, 10),
    ];
    assert_eq!(log, want.concat());
    let mut list = [0; 3];
    assert_eq!(list_order(&log, &mut list), Ok(3));
    assert_eq!(list, [1, 2, 3]);
    assert_eq!(check_order(&log, &[2, 1, 3]), Ok(3));
    let backward = Err(BadOrder::Backward(6));
    assert_eq!(check_order(&log, &[1, 3, 2]), backward);
    // an add is a write for an abandon after it
    log[8 * 10..].copy_from_slice(&request::abandon(b));
    let fault = Err(NoList::Log(Fault::Turn(10)));
    assert_eq!(list_order(&log, &mut list), fault);
    // by name
    assert_eq!(one.add(a, 10), Ok(a));
    assert_eq!(one.add(a, 9), Err(Refusal::Circle));
    assert_eq!(one.abandon(b), Err(Refusal::HasWritten));
}

/// A state that no requests give gets answers all the same.
#[test]
fn any_content() {
    // job 7 in all 32 slots, each row leading everywhere
    let full = State {
        next: u64::MAX,
        free: 0,
        numbers: [7; 32],
        leads: [u32::MAX; 32],
        sets: [u64::MAX; 512],
        ports: [u32::MAX; 3],
    };
    let mut odd = Arbiter::from_state(full);
    assert_eq!(odd.open(0), Err(Refusal::Spent));
    assert_eq!(odd.read(Job(7), 0), Err(Refusal::Circle));
    assert_eq!(odd.abandon(Job(7)), Err(Refusal::HasWritten));
    assert_eq!(odd.read(Job(8), 0), Err(Refusal::NotOpen));
    assert_eq!(odd.end(Job(7)), Ok(Job(7)));
    assert_eq!(odd.state().free, 1);
}

// ---- many requests by a simple rule

const MANY: usize = 2000;

/// A fixed sequence, the same as that of the C program.
struct Rule(u32);

impl Rule {
    fn below(&mut self, n: u32) -> u32 {
        self.0 = self.0.wrapping_mul(1664525).wrapping_add(1013904223);
        (self.0 >> 8) % n
    }
}

struct Host {
    arbiter: Arbiter,
    log: Vec<u8>,
    first: u32,
    opened: u32,
    open: Vec<u32>,
    requests: Vec<u8>,
    replies: Vec<u8>,
}

impl Host {
    fn new(first: u32) -> Host {
        Host {
            arbiter: Arbiter::new(first),
            log: Vec::new(),
            first,
            opened: 0,
            open: Vec::new(),
            requests: Vec::new(),
            replies: Vec::new(),
        }
    }

    /// Few cells, jobs that are open, port 0 more than the others, and now and then any job, a wrong cell, no port or a wrong byte.
    fn make_request(&self, rule: &mut Rule) -> [u8; 8] {
        const KINDS: [u8; 16] = [1, 1, 1, 2, 2, 2, 2, 2, 3, 3, 7, 7, 4, 5, 6, 6];
        let any = rule.below(20);
        let cell = if rule.below(40) == 0 {
            250 + rule.below(20)
        } else {
            rule.below(24)
        };
        let mut job = if any == 0 || self.open.is_empty() {
            self.first + rule.below(self.opened + 2)
        } else {
            self.open[rule.below(self.open.len() as u32) as usize]
        };
        let kind = KINDS[rule.below(16) as usize];
        if kind == 1 {
            job = if rule.below(30) == 0 {
                3 + rule.below(400)
            } else {
                rule.below(4) % 3
            };
        }
        let mut bytes = request::of(kind, cell as u16, job);
        if rule.below(100) == 0 {
            let at = rule.below(2) as usize;
            bytes[at] = rule.below(256) as u8;
        }
        bytes
    }

    /// What a grant means to the host: it must fit what the host has seen.
    fn follow(&mut self, kind: u8, job: u32) {
        if kind == 1 {
            assert!(self.open.len() < SLOTS && job == self.first + self.opened);
            self.open.push(job);
            self.opened += 1;
            return;
        }
        let at = self
            .open
            .iter()
            .position(|&j| j == job)
            .expect("a grant to a job that is not open");
        if matches!(kind, 4..=6) {
            self.open.swap_remove(at);
        }
    }
}

/// The slow judge: the place of the first record that must come after an earlier one whose job the order puts later. It must where the two are
/// conflicting steps, and where they are an end and an open. Every pair is looked at.
fn turned(log: &[u8], order: &[u32]) -> Option<usize> {
    // place in the log, kind, cell, place of the job in the order
    let records: Vec<(usize, u8, u8, usize)> = log
        .chunks(8)
        .enumerate()
        .filter_map(|(at, r)| {
            let job = u32::from_le_bytes(r[4..8].try_into().unwrap());
            Some((at, r[0], r[2], order.iter().position(|&j| j == job)?))
        })
        .collect();
    for (n, &(at, kind, cell, place)) in records.iter().enumerate() {
        let must = |earlier: &(usize, u8, u8, usize)| match (earlier.1, kind) {
            (2 | 7, 3) | (3, 2 | 3 | 7) | (2, 7) | (7, 2) => earlier.2 == cell,
            (4, 1) => true,
            _ => false,
        };
        if records[..n].iter().any(|r| must(r) && r.3 > place) {
            return Some(at);
        }
    }
    None
}

/// Every 7 is right: the log so far has an order, and with that step, of a publish its write, it has none.
fn seven_is_right(log: &mut Vec<u8>, request: [u8; 8]) {
    let mut order = [0; LOG_JOBS];
    assert!(list_order(log, &mut order).is_ok());
    let job = Job(u32::from_le_bytes(request[4..].try_into().unwrap()));
    log.extend(records(request, job).take(8));
    assert_eq!(list_order(log, &mut order), Err(NoList::NoOrder));
    log.truncate(log.len() - 8);
}

#[test]
fn many_requests() {
    let mut codes = [0; 10];
    for round in 1..=5 {
        let mut rule = Rule(round);
        let mut hosts = [Host::new(1), Host::new(4_000_000_000 + round)];
        // two states in turn, step by step
        for _ in 0..MANY {
            for h in &mut hosts {
                let request = h.make_request(&mut rule);
                let reply = ask(&mut h.arbiter, &mut h.log, request);
                let (code, job) = numbers(reply);
                codes[code as usize] += 1;
                h.requests.extend(request);
                h.replies.extend(code.to_le_bytes());
                h.replies.extend(job.to_le_bytes());
                match reply {
                    Ok(job) => h.follow(request[0], job.0),
                    Err(Refusal::Circle) => seven_is_right(&mut h.log, request),
                    Err(_) => (),
                }
            }
        }
        for h in &hosts {
            // the same requests in one call
            let mut answers = [200; 8 * MANY];
            assert_eq!(replay(h.first, &h.requests, &mut answers), Ok(8 * MANY));
            assert!(
                answers[..] == h.replies[..],
                "step by step and replay differ"
            );

            let mut order = [0; LOG_JOBS];
            let kept = list_order(&h.log, &mut order).unwrap();
            let order = &mut order[..kept];
            assert_eq!(check_order(&h.log, order), Ok(kept));
            assert_eq!(turned(&h.log, order), None);

            // orders with two entries changed round, judged twice
            let mut backward = 0;
            for _ in 0..20 {
                let (a, b) = (
                    rule.below(kept as u32) as usize,
                    rule.below(kept as u32) as usize,
                );
                order.swap(a, b);
                let judged = turned(&h.log, order);
                assert_eq!(
                    check_order(&h.log, order),
                    judged.map_or(Ok(kept), |at| Err(BadOrder::Backward(at)))
                );
                backward += judged.is_some() as u32;
                order.swap(a, b);
            }
            assert!(backward > 0);
        }
    }
    println!("replies by code: {codes:?}");
    // the C program makes the same requests and expects the same; 6 is tried by hand
    assert_eq!(codes, [13483, 160, 240, 1316, 640, 334, 0, 3662, 124, 41]);
}
