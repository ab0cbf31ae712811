//! cases [DIR]: writes the stored stream of the cases program and its output, DIR/stdin and
//! DIR/stdout (crates/cases without one), and prints how many cases and places each number has.
//! Every answer is the outside implementation's.

#[allow(dead_code)]
#[path = "outside/aimed.rs"]
mod aimed;
#[allow(dead_code)]
#[path = "outside/big.rs"]
mod big;
#[allow(dead_code)]
#[path = "outside/files.rs"]
mod files;
#[allow(dead_code)]
#[path = "outside/random.rs"]
mod random;
#[allow(dead_code)]
#[path = "outside/reader.rs"]
mod reader;

use std::collections::{BTreeMap, BTreeSet};
use std::fmt::Write;
use std::fs;
use std::io;
use std::path::Path;

use files::{
    configuration, event, header, set_word, structure_of, words, ADMINISTRATIVE, CHARGE, EVENT,
    TRACE,
};

/// What the program's own buffers hold.
const MOST_ROWS: u32 = 64;
const MOST_BYTES: usize = 131_072;
/// More rows than any buffer of the program holds.
const ANY_ROWS: u32 = 0xFFFF_FFFF;
/// The bytes that the stored stream stays under.
const MOST_STORED: usize = 400_000;

/// The stream, the output, the cases that they have, and the places of each number.
#[derive(Default)]
struct Stored {
    stdin: Vec<u8>,
    stdout: String,
    cases: BTreeSet<(u32, Vec<u8>)>,
    places: BTreeMap<u32, Vec<u64>>,
}

impl Stored {
    // A case, unless it is there already: so many rows to lend, and a file. Gives number and
    // place.
    fn put(&mut self, rows: u32, file: &[u8]) -> (u32, u64) {
        let lent = u64::from(rows.min(MOST_ROWS));
        let answer = reader::table_within(file, 6 * lent);
        assert!(file.len() <= MOST_BYTES);
        if self.cases.insert((rows, file.to_vec())) {
            self.stdin.extend(words(&[rows, file.len() as u32]));
            self.stdin.extend(file);
            let first = (answer.number, answer.count, answer.place);
            writeln!(self.stdout, "{} {} {}", first.0, first.1, first.2).unwrap();
            for (index, row) in answer.rows.iter().enumerate() {
                write!(self.stdout, "{}", index + 1).unwrap();
                for value in row {
                    write!(self.stdout, " {value}").unwrap();
                }
                self.stdout.push('\n');
            }
            self.places
                .entry(answer.number)
                .or_default()
                .push(answer.place);
        }
        (answer.number, answer.place)
    }

    // A case that the buffer is big enough for.
    fn file(&mut self, file: &[u8]) -> (u32, u64) {
        self.put(MOST_ROWS, file)
    }
}

fn main() -> io::Result<()> {
    let folder = std::env::args().nth(1);
    let folder = Path::new(folder.as_deref().unwrap_or("crates/cases"));
    let mut stored = Stored::default();
    for case in aimed::aimed() {
        let answer = stored.file(&case.bytes);
        assert_eq!(answer, (case.number, case.place), "{}", case.name);
    }
    long_traces(&mut stored);
    further_on(&mut stored);
    capacities(&mut stored);
    check(&stored);
    for (number, places) in &stored.places {
        let different: BTreeSet<&u64> = places.iter().collect();
        println!(
            "{number}: {} cases, {} places",
            places.len(),
            different.len()
        );
    }
    // Last a case that is cut short, for which nothing is printed.
    stored.stdin.extend(words(&[MOST_ROWS, 88]));
    stored.stdin.extend(&aimed::p14()[..87]);
    assert!(stored.stdin.len() < MOST_STORED);
    fs::create_dir_all(folder)?;
    fs::write(folder.join("stdin"), &stored.stdin)?;
    fs::write(folder.join("stdout"), &stored.stdout)
}

// The bounds of n: the longest and the shortest trace with all their samples; counts out of
// bounds are refused before the length is looked at.
fn long_traces(stored: &mut Stored) {
    let longest = aimed::with_record(big::trace_of(32_768));
    let size = longest.len() as u64;
    assert_eq!(stored.file(&longest), (0, size));
    assert_eq!(stored.file(&aimed::with_record(big::trace_of(2))).0, 0);
    for n in [0, 3, 32_770] {
        let file = aimed::with_record(counted(n));
        assert_eq!(stored.file(&file), (11, 56));
    }
}

// A trace of two samples whose two counts say n.
fn counted(n: u32) -> Vec<u8> {
    let mut trace = big::trace_of(2);
    set_word(&mut trace, 8 + 4 * 9, n);
    set_word(&mut trace, 8 + 4 * 11, n);
    trace
}

// Faults that stand further on than in the aimed files: in a second event behind entries, in its
// last record, and one byte after it.
fn further_on(stored: &mut Stored) {
    let first = event(
        EVENT,
        &[administrative(), big::trace_of(4), big::trace_of(2)],
    );
    let start = [header(), configuration(&[charge(), charge()]), first].concat();
    let with_last = |record: Vec<u8>| {
        let records = [administrative(), big::trace_of(6), record];
        [start.clone(), event(EVENT | 0x2601, &records)].concat()
    };
    let second = start.len() as u64;
    let last = second + 8 + (administrative().len() + big::trace_of(6).len()) as u64;
    let good = with_last(big::trace_of(2));
    let size = good.len() as u64;
    assert_eq!(stored.file(&good), (0, size));
    for n in [0, 3, 32_770] {
        assert_eq!(stored.file(&with_last(counted(n))), (11, last));
    }
    let longer = [good.clone(), vec![0]].concat();
    assert_eq!(stored.file(&longer), (2, size));
    // The offset in the last trace, the word put there, and the refusal.
    for (offset, word, number) in [
        (0, TRACE + 1, 5),
        (4, 53, 2),
        (8, 0x12, 5),
        (12, 13, 6),
        (20, 0, 10),
        (20, 9, 10),
        (24, 3_005_001, 10),
        (40, 0, 10),
        (44, 4, 11),
        (52, 4, 11),
        (0, ADMINISTRATIVE, 9),
    ] {
        let mut file = good.clone();
        set_word(&mut file, last as usize + offset, word);
        assert_eq!(stored.file(&file), (number, last), "{offset} {word}");
    }
    for (low, number) in [
        (0x1000, 7),
        (0x0200, 7),
        (0x000B, 7),
        (0x0007, 8),
        (0x2607, 8),
    ] {
        let mut file = good.clone();
        set_word(&mut file, second as usize, EVENT | low);
        assert_eq!(stored.file(&file), (number, second), "{low}");
    }
}

// Buffers that hold just the rows of a file, one row more, one less, one alone and none; refused
// files, whose fault comes before the rows; and the bound of the program's own buffer.
fn capacities(stored: &mut Stored) {
    for file in [
        aimed::p14(),
        aimed::full(),
        [header(), configuration(&[])].concat(),
    ] {
        let size = file.len() as u64;
        let rows = reader::table(&file).count;
        assert_eq!(stored.put(rows, &file), (0, size));
        assert_eq!(stored.put(rows + 1, &file), (0, size));
        assert_eq!(stored.put(rows - 1, &file), (12, size));
        assert_eq!(stored.put(1, &file), (12, size));
        assert_eq!(stored.put(0, &file), (12, size));
        let longer = [file, vec![0]].concat();
        assert_eq!(stored.put(0, &longer), (2, size));
        assert_eq!(stored.put(rows - 1, &longer), (2, size));
    }
    assert_eq!(stored.put(ANY_ROWS, &aimed::p14()), (0, 88));
    for (entries, number) in [(MOST_ROWS - 2, 0), (MOST_ROWS - 1, 12)] {
        let entries = vec![charge(); entries as usize];
        let file = [header(), configuration(&entries)].concat();
        assert_eq!(stored.put(ANY_ROWS, &file), (number, file.len() as u64));
    }
}

// An administrative record, and a charge entry.
fn administrative() -> Vec<u8> {
    structure_of(ADMINISTRATIVE, &[51_120_229, 2_359, 8, 1_330_556_340, 5, 4])
}

fn charge() -> Vec<u8> {
    structure_of(CHARGE, &[10_999_007, 1, 100, 0, 0, 800, 0, 2_048])
}

// Every number but 1 and 13 has two cases or more, at different places; a header's faults, 3 and
// 4, stand at 0 only.
fn check(stored: &Stored) {
    assert!(stored.cases.contains(&(MOST_ROWS, aimed::p14())));
    for number in [0].into_iter().chain(2..=12) {
        let places = &stored.places[&number];
        let different: BTreeSet<&u64> = places.iter().collect();
        assert!(places.len() >= 2, "{number}");
        assert!(
            different.len() >= 2 || number == 3 || number == 4,
            "{number}"
        );
    }
}
