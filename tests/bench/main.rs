//! bench: Table, Record, Find, the visitor, the walker and Rewrite through the exports, against the
//! outside implementation, a loop in C that only follows the length words, memcpy, and each other. All
//! sides in one run, on the same bytes, round by round; of each side the middle time counts: at its best
//! a side may have found the memory idle for once. For Rewrite and beside the C reader the best is given too.
//!
//! Table: the exports fill a row buffer that is made once, before the clock starts, and whose pages
//! have been touched. The outside implementation has no such call: its `table` is timed as it is,
//! and makes a vector of rows for every file (its memory stays with the process from one call to the
//! next, see ./bench, so that no page is fetched anew). The C loop keeps nothing.
//!
//! Record: one call for each entry and record of the file, at its place. The exports write twelve
//! numbers into a lent array, the outside implementation gives back its enum, C adds two words.
//!
//! Find: the last trace of the file, and a code that no trace has, in the last event.
//!
//! Visit and the walker give Table's rows, so they are timed against Table through the exports: one
//! visit with room for all rows, and a walk from opening to the end, a call to a row.
//!
//! Rewrite: into an output made once, whose pages have been touched; against the outside
//! implementation, which makes vectors of rows and of each record's words, and against memcpy.
//!
//! Table beside a C reader (peer.c): a plain reader of the whole format in C, as each compiler at
//! hand builds it, on files of five shapes; it reads a file once, and may leave rows behind under a
//! refusal. All sides fill one row buffer. The check alone is the same call without room for a row. The
//! goal is asked against the faster of this machine's own compilers; the clang that built the exports
//! stands beside them. Before the first timing its answers are held against the outside implementation's.
//!
//! No buffer is cleared between calls.

#[allow(dead_code)]
#[path = "../outside/aimed.rs"]
mod aimed;
#[allow(dead_code)]
#[path = "../outside/big.rs"]
mod big;
#[allow(dead_code)]
#[path = "../outside/files.rs"]
mod files;
mod inputs;
#[allow(dead_code)]
#[path = "../calls/interface.rs"]
mod interface;
#[allow(dead_code)]
#[path = "../calls/large.rs"]
mod large;
mod peer;
#[allow(dead_code)]
#[path = "../outside/random.rs"]
mod random;
#[allow(dead_code)]
#[path = "../outside/reader.rs"]
mod reader;
#[allow(dead_code)]
#[path = "../outside/trees.rs"]
mod trees;
#[allow(dead_code)]
#[path = "../outside/writer.rs"]
mod writer;
#[allow(dead_code)]
#[path = "../writing/interface.rs"]
mod writing;

use std::arch::asm;
use std::time::Instant;

use inputs::{events_with_traces, mixed_records, most_events, small_file, smallest_events};
use peer::{Peer, TableCall, PEERS};
use trees::Call;
use writing::Lent;

extern "C" {
    fn floor_table(file: *const u8, length: usize) -> u64;
    fn floor_record(file: *const u8, place: usize) -> u64;
}

/// How often each side is timed, and for how long at least each time.
const ROUNDS: usize = 41;
const LEAST_SECONDS: f64 = 0.002;

/// What is aimed at: Find against the outside implementation, Visit against Table;
const FIND_GOAL: f64 = 1.5;
const VISIT_GOAL: f64 = 1.5;
/// Rewrite against memcpy for long traces, and against the outside implementation for the smallest
/// events.
const COPY_GOAL: f64 = 1.4;
const REWRITE_GOAL: f64 = 2.0;
/// Table against the C reader: for long traces and mixed records, and for small structures.
const PEER_GOAL: f64 = 1.3;
const SMALL_PEER_GOAL: f64 = 1.6;
/// The sides of that comparison: the exports, then the peers.
const SIDES: usize = 1 + PEERS.len();
/// A code that names no channel.
const NO_CODE: u32 = 0;
/// The row kinds of entries and records.
const RECORD_KINDS: [u32; 8] = [3, 4, 6, 7, 8, 9, 10, 11];

// A value that the compiler has to have ready in memory, and knows nothing about afterwards.
fn opaque<T>(value: T) -> T {
    unsafe { asm!("/* {0} */", in(reg) &value, options(nostack, preserves_flags)) };
    value
}

// The sides in turn, round by round; each side's times in nanoseconds, the best first. A short run is
// repeated until the clock can tell.
fn rounds<const N: usize>(mut sides: [&mut dyn FnMut(); N]) -> [[f64; ROUNDS]; N] {
    let mut repeats = [1usize; N];
    let mut times = [[0.0; ROUNDS]; N];
    let mut once = |side: usize, repeats: usize| {
        let started = Instant::now();
        for _ in 0..repeats {
            sides[side]();
        }
        started.elapsed().as_secs_f64()
    };
    for (side, repeats) in repeats.iter_mut().enumerate() {
        while once(side, *repeats) < LEAST_SECONDS {
            *repeats *= 2;
        }
    }
    for round in 0..ROUNDS {
        for side in 0..N {
            times[side][round] = once(side, repeats[side]) * 1e9 / repeats[side] as f64;
        }
    }
    times.map(|mut times| {
        times.sort_by(f64::total_cmp);
        times
    })
}

// The middle one of each side's times.
fn middle<const N: usize>(sides: [&mut dyn FnMut(); N]) -> [f64; N] {
    rounds(sides).map(|times| times[ROUNDS / 2])
}

// Table of a file; the three sides are first seen to agree.
fn time_table(file: &[u8]) -> [f64; 3] {
    let expected = reader::table(file);
    assert_eq!(expected.number, 0, "the file is accepted");
    let mut rows = vec![u32::MAX; 6 * expected.rows.len()];
    let (mut count, mut place) = (0, 0);
    let number = interface::table(file, &mut rows, &mut count, &mut place);
    let answer = (number, count, place);
    assert_eq!(answer, (0, expected.count.into(), expected.place));
    let rows_agree = rows.chunks_exact(6).eq(expected.rows.iter());
    assert!(rows_agree, "the rows agree");
    let structures = unsafe { floor_table(file.as_ptr(), file.len()) };
    assert_eq!(structures, count, "C finds every structure");
    middle([
        &mut || {
            let number = interface::table(opaque(file), &mut rows, &mut count, &mut place);
            opaque(number);
        },
        &mut || {
            opaque(reader::table(opaque(file)));
        },
        &mut || {
            let file = opaque(file);
            opaque(unsafe { floor_table(file.as_ptr(), file.len()) });
        },
    ])
}

// Table of a file with room for so many rows, through the exports and by the peers, which are first seen
// to agree with the outside implementation. The middle times and the best ones.
fn time_peers(file: &[u8], rows_lent: usize) -> [[f64; SIDES]; 2] {
    let expected = reader::table(file);
    let fits = expected.rows.len() <= rows_lent;
    let number = if fits { 0 } else { 12 };
    let mut rows = vec![0; 6 * rows_lent];
    let mut calls: [TableCall; SIDES] = [peer::dwj_table; SIDES];
    for (call, peer) in calls[1..].iter_mut().zip(PEERS) {
        *call = peer.call;
    }
    for call in calls {
        rows.fill(u32::MAX);
        let answer = peer::answer(call, file, &mut rows);
        assert_eq!(answer, (number, expected.count.into(), expected.place));
        let rows_agree = rows.chunks_exact(6).eq(expected.rows.iter());
        assert!(rows_agree || !fits, "the rows agree");
    }
    let (lent, room) = (rows.as_mut_ptr(), rows.len());
    let mut sides = calls.map(|call| {
        move || {
            let file = opaque(file);
            let (mut count, mut place) = (0, 0);
            opaque(unsafe {
                call(
                    file.as_ptr(),
                    file.len(),
                    lent,
                    room,
                    &mut count,
                    &mut place,
                )
            });
        }
    });
    let times = rounds(sides.each_mut().map(|side| side as &mut dyn FnMut()));
    [ROUNDS / 2, 0].map(|round| times.map(|times| times[round]))
}

// Record at the place of every entry and record of a file.
fn time_records(file: &[u8]) -> [f64; 3] {
    let rows = reader::table(file).rows;
    let records = rows.iter().filter(|row| RECORD_KINDS.contains(&row[0]));
    let places: Vec<usize> = records.map(|row| row[1] as usize).collect();
    let mut values = [0; 12];
    let mut refused_at = 0;
    for place in &places {
        let number = interface::record(file, *place, &mut values, &mut refused_at);
        let expected = reader::record(file, *place as u64).map(|found| reader::row_kind(&found));
        assert_eq!((number, Ok(values[0] as u32)), (0, expected));
    }
    middle([
        &mut || {
            for place in &places {
                let file = opaque(file);
                opaque(interface::record(
                    file,
                    *place,
                    &mut values,
                    &mut refused_at,
                ));
            }
        },
        &mut || {
            for place in &places {
                opaque(reader::record(opaque(file), *place as u64)).ok();
            }
        },
        &mut || {
            for place in &places {
                let file = opaque(file);
                opaque(unsafe { floor_record(file.as_ptr(), *place) });
            }
        },
    ])
}

// Find, by an event's number and a code; the two sides are first seen to agree.
fn time_find(file: &[u8], number: u32, code: u32) -> [f64; 2] {
    let (mut place, mut refused_at) = (0, 0);
    let answer = interface::find(file, number, code, &mut place, &mut refused_at);
    let found = Some(place).filter(|place| *place > 0);
    assert_eq!((answer, Ok(found)), (0, reader::find(file, number, code)));
    middle([
        &mut || {
            let file = opaque(file);
            let answer = interface::find(file, number, code, &mut place, &mut refused_at);
            opaque(answer);
        },
        &mut || {
            opaque(reader::find(opaque(file), number, code)).ok();
        },
    ])
}

// A whole walk: a row for each call; gives how many there were.
fn walk(file: &[u8], row: &mut [u32; 6]) -> u64 {
    let (mut walker, mut refused_at) = ([0; 6], 0);
    let mut rows = 0;
    interface::open(file, &mut walker, row, &mut refused_at);
    while row[0] != 0 {
        rows += 1;
        interface::next(file, &mut walker, row, &mut refused_at);
    }
    rows
}

// All rows by one visit, by Table and by a walker; the three are first seen to agree.
fn time_rows(file: &[u8]) -> [f64; 3] {
    let expected = reader::table(file).rows;
    let mut rows = vec![u32::MAX; 6 * expected.len()];
    let mut row = [0; 6];
    let (mut count, mut place) = (0, 0);
    let number = interface::visit(file, 0, &mut rows, &mut count, &mut place);
    assert_eq!((number, count), (0, expected.len() as u64));
    let rows_agree = rows.chunks_exact(6).eq(expected.iter());
    assert!(rows_agree, "the rows agree");
    assert_eq!(walk(file, &mut row), count, "a walk has every row");
    let mut table_rows = rows.clone();
    let (mut table_count, mut table_place) = (0, 0);
    middle([
        &mut || {
            let number = interface::visit(opaque(file), 0, &mut rows, &mut count, &mut place);
            opaque(number);
        },
        &mut || {
            let (count, place) = (&mut table_count, &mut table_place);
            let number = interface::table(opaque(file), &mut table_rows, count, place);
            opaque(number);
        },
        &mut || {
            opaque(walk(opaque(file), &mut row));
        },
    ])
}

// A file written again; the sides are first seen to restore it. The middle times and the best ones.
fn time_rewrite(file: &[u8]) -> [[f64; 3]; 2] {
    let call = Call::Rewrite {
        file: file.to_vec(),
    };
    // The bytes that the call has, for all sides: none finds them nearer than another.
    let Call::Rewrite { file } = &call else {
        unreachable!()
    };
    let mut lent = Lent {
        next: 0,
        refused_at: 0,
    };
    let mut out = vec![1; file.len()];
    let parts = writing::parts(&call);
    assert_eq!(writing::perform(&call, parts, &mut out, &mut lent), 0);
    assert!(lent.next == file.len() as u64 && out == *file, "restored");
    out.fill(1);
    assert!(writer::rewrite(file, &mut out) == Ok(file.len()) && out == *file);
    let mut copies = [out.clone(), out.clone()];
    let [outside, copy] = &mut copies;
    let times = rounds([
        &mut || {
            let (call, parts) = opaque((&call, parts));
            opaque(writing::perform(call, parts, &mut out, &mut lent));
        },
        &mut || {
            opaque(writer::rewrite(opaque(file), outside)).ok();
        },
        &mut || {
            opaque(&mut *copy).copy_from_slice(opaque(file));
        },
    ]);
    [ROUNDS / 2, 0].map(|round| times.map(|times| times[round]))
}

// What was aimed at, and whether it was reached.
fn judged(ratio: f64, goal: Option<f64>, against: &str) -> String {
    match goal {
        Some(goal) if ratio <= goal => format!("   goal <= {goal} x {against}: met"),
        Some(goal) => format!("   goal <= {goal} x {against}: MISSED"),
        None => String::new(),
    }
}

// A line of times against the outside implementation, and against C where there is such a loop.
fn print_times(call: &str, times: &[f64], goal: Option<f64>) {
    let ratio = times[0] / times[1];
    let floor = match times.get(2) {
        Some(floor) => [format!("{floor:.0}"), format!("{:.2}", times[0] / floor)],
        None => ["", ""].map(String::from),
    };
    println!(
        "  {call:<10}{:>14.0}{:>14.0}{:>14}{ratio:>14.2}{:>14}{}",
        times[0],
        times[1],
        floor[0],
        floor[1],
        judged(ratio, goal, "Rust")
    );
}

// A line of times of a call that gives Table's rows, against Table.
fn print_against_table(call: &str, time: f64, table: f64, goal: Option<f64>) {
    let ratio = time / table;
    let judged = judged(ratio, goal, "Table");
    println!("  {call:<10}{time:>14.0}   {ratio:.2} x Table{judged}");
}

// A line of times of a rewriting, against the outside implementation and against memcpy.
fn print_rewrite(name: &str, times: [f64; 3], to_copy: Option<f64>, to_outside: Option<f64>) {
    let [exports, outside, copy] = times;
    let (outside_ratio, copy_ratio) = (exports / outside, exports / copy);
    println!(
        "  {name:<10}{exports:>14.0}{outside:>14.0}{copy:>14.0}{outside_ratio:>14.2}{copy_ratio:>14.2}   (memcpy for C floor){}{}",
        judged(outside_ratio, to_outside, "Rust"),
        judged(copy_ratio, to_copy, "memcpy")
    );
}

// A file's size and shape.
fn print_shape(name: &str, file: &[u8]) {
    let rows = reader::table(file).rows;
    let of_kind = |kind: u32| rows.iter().filter(|row| row[0] == kind).count();
    println!(
        "{name}: {} bytes, {} events, {} traces, {} rows",
        file.len(),
        of_kind(5),
        of_kind(7),
        rows.len()
    );
}

// A file's size and shape, then Table and Record on it.
fn print_case(name: &str, file: &[u8], goal: Option<f64>) -> [[f64; 3]; 2] {
    print_shape(name, file);
    println!(
        "  {:<10}{:>14}{:>14}{:>14}{:>14}{:>14}",
        "ns/file", "exports", "Rust", "C floor", "exports/Rust", "exports/C"
    );
    let times = [time_table(file), time_records(file)];
    print_times("Table", &times[0], goal);
    print_times("Record", &times[1], goal);
    times
}

// Find, a visit, a walk and a rewriting, on the same file.
fn print_further(file: &[u8], to_copy: Option<f64>, to_outside: Option<f64>) {
    let rows = reader::table(file).rows;
    let last = |kind: u32| rows.iter().rev().find(|row| row[0] == kind);
    let number = last(6).expect("an event")[4];
    if let Some(trace) = last(7) {
        print_times(
            "Find last",
            &time_find(file, number, trace[4]),
            Some(FIND_GOAL),
        );
    }
    print_times(
        "Find none",
        &time_find(file, number, NO_CODE),
        Some(FIND_GOAL),
    );
    let [visit, table, walk] = time_rows(file);
    print_against_table("Visit", visit, table, Some(VISIT_GOAL));
    print_against_table("walk", walk, table, None);
    let [middle, best] = time_rewrite(file);
    print_rewrite("Rewrite", middle, to_copy, to_outside);
    print_rewrite(" at best", best, to_copy, to_outside);
}

// A line of times beside the peers: against the faster of this machine's compilers, and against the
// clang that built the exports, where it is at hand.
fn print_peer_times(name: &str, call: &str, times: [f64; SIDES], goal: Option<f64>) {
    let by_peer = || PEERS.iter().zip(&times[1..]);
    let of_machine = by_peer().filter(|(peer, _)| peer.of_machine);
    let fastest = of_machine.min_by(|one, other| one.1.total_cmp(other.1));
    let (Peer { compiler, .. }, time) = fastest.expect("the machine has a compiler");
    let ratio = times[0] / time;
    print!("  {name:<12}");
    times.iter().for_each(|time| print!("{time:>12.0}"));
    print!("   {call} / C reader {ratio:.2} ({compiler})");
    for (peer, time) in by_peer().filter(|(peer, _)| !peer.of_machine) {
        print!(", {:.2} ({})", times[0] / time, peer.compiler);
    }
    println!("{}", judged(ratio, goal, "C reader"));
}

// A file's shape, then Table and its check alone, beside the peers.
fn print_peers(name: &str, file: &[u8], goal: f64) {
    print_shape(name, file);
    print!("  {:<12}{:>12}", "ns/file", "exports");
    PEERS
        .iter()
        .for_each(|peer| print!("{:>12}", peer.compiler));
    println!();
    let rows = reader::table(file).rows.len();
    let [middle, best] = time_peers(file, rows);
    print_peer_times("Table", "Table", middle, Some(goal));
    print_peer_times(" at best", "Table", best, Some(goal));
    let [middle, best] = time_peers(file, 0);
    print_peer_times("check alone", "check", middle, None);
    print_peer_times(" at best", "check", best, None);
}

fn main() {
    let started = Instant::now();
    match peer::hold_to_outside() {
        Ok(numbers) => println!(
            "bench: the C reader agrees with Rust on {} files, {} of them refused ({:.1} s)",
            numbers.iter().sum::<usize>(),
            numbers[1..].iter().sum::<usize>(),
            started.elapsed().as_secs_f64()
        ),
        Err(found) => panic!("the C reader and Rust differ: {found}"),
    }
    println!("bench: the middle of {ROUNDS} rounds (of Rewrite also the best), the sides in turn, on the same bytes");
    let file = events_with_traces(most_events(2_048), 2_048);
    print_case("(a) traces of 2,048 samples to 16 MiB", &file, Some(1.3));
    print_further(&file, Some(COPY_GOAL), None);

    let events = most_events(4_096);
    let file = events_with_traces(events, 2_048);
    let short = print_case("(a2) traces of 2,048 samples to 8 MiB", &file, None);
    let file = events_with_traces(events, 4_096);
    let name = "(a2) the same count of 4,096 samples to 16 MiB";
    let long = print_case(name, &file, None);
    for (call, number) in [("Table", 0), ("Record", 1)] {
        println!(
            "  {call}, twice the samples: {:.2} times as long through the exports, {:.2} in Rust, {:.2} in C",
            long[number][0] / short[number][0],
            long[number][1] / short[number][1],
            long[number][2] / short[number][2]
        );
    }

    let file = smallest_events();
    print_case("(b) smallest events to 16 MiB", &file, Some(2.0));
    print_further(&file, None, Some(REWRITE_GOAL));

    let file = small_file();
    print_case("(c) a small file", &file, None);
    print_further(&file, None, None);

    println!("Table beside a C reader of the whole format (peer.c, -O3): the middle of the rounds and the best");
    let file = events_with_traces(most_events(2_048), 2_048);
    print_peers("(1) traces of 2,048 samples to 16 MiB", &file, PEER_GOAL);
    print_peers("(2) mixed records to 16 MiB", &mixed_records(), PEER_GOAL);
    let file = events_with_traces(most_events(2), 2);
    print_peers("(3) traces of 2 samples to 16 MiB", &file, SMALL_PEER_GOAL);
    let file = smallest_events();
    print_peers("(4) smallest events to 16 MiB", &file, SMALL_PEER_GOAL);
    print_peers("(5) a 2 KB file", &small_file(), SMALL_PEER_GOAL);
}
