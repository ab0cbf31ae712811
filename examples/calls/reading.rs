//! reading FILE: every call of the reader, from Rust, on any file. Exit status: 0 accepted, 1 refused, 2 no file. docs/CALLS.md
//! shows lines of it; tests/snippets compiles it and runs it; reading.expected is what it prints of examples/every-kind.raw.

use std::process::ExitCode;

// As in include/dwejrasq.h. A lent array or number is a reference; a file and a lent buffer are a pointer and a length.
#[rustfmt::skip]
extern "C" {
    fn dwj_table(file: *const u8, length: usize, rows: *mut u32, rows_length: usize, count: &mut u64, place: &mut u64) -> u32;
    fn dwj_record(file: *const u8, length: usize, place: usize, values: &mut [i64; 12], refused_at: &mut u64) -> u32;
    fn dwj_setting(file: *const u8, length: usize, place: usize, setting: &mut [i64; 8], units: &mut [f64; 4], refused_at: &mut u64) -> u32;
    fn dwj_samples(file: *const u8, length: usize, place: usize, offset: &mut u64, size: &mut u64);
    fn dwj_sample(file: *const u8, length: usize, place: usize, number: usize, value: &mut u32, refused_at: &mut u64) -> u32;
    fn dwj_find(file: *const u8, length: usize, number: u32, code: u32, place: &mut u64, refused_at: &mut u64) -> u32;
    fn dwj_open(file: *const u8, length: usize, walker: &mut [u64; 6], row: &mut [u32; 6], refused_at: &mut u64) -> u32;
    fn dwj_next(file: *const u8, length: usize, walker: &mut [u64; 6], row: &mut [u32; 6], refused_at: &mut u64) -> u32;
    fn dwj_visit(file: *const u8, length: usize, first: usize, rows: *mut u32, rows_length: usize, count: &mut u64, place: &mut u64) -> u32;
    fn dwj_channel(code: u32, numbers: &mut [u32; 4], analysis: &mut [u8; 4], cold: &mut [u8; 4]) -> u32;
    fn dwj_code(kind: u32, number: u32, name: *const u8, name_length: usize, code: &mut u32) -> u32;
    fn dwj_zip(word: u32, zip: u32) -> u32;
}

/// Kinds of rows.
const PHONON: u32 = 3;
const CHARGE: u32 = 4;
const EVENT: u32 = 5;
const TRACE: u32 = 7;
const TLB: u32 = 11;
/// Rows that the visitor is lent room for. Each of its calls checks the file, so that many small pieces take long.
const PIECE: usize = 8192;

/// The call that was refused, its number and its place.
struct Refusal(&'static str, u32, u64);

// A call's answer: nothing more for 0, else its refusal.
fn accepted(call: &'static str, number: u32, place: u64) -> Result<(), Refusal> {
    if number == 0 { Ok(()) } else { Err(Refusal(call, number, place)) }
}

fn main() -> ExitCode {
    let Some(bytes) = std::env::args_os().nth(1).and_then(|name| std::fs::read(name).ok()) else {
        eprintln!("reading: a file that can be read is asked for");
        return ExitCode::from(2);
    };
    match read(&bytes) {
        Ok(()) => ExitCode::SUCCESS,
        Err(Refusal(call, number, place)) => {
            println!("{call}: refused, number {number} at byte {place}");
            ExitCode::from(1)
        }
    }
}

#[rustfmt::skip]
fn read(bytes: &[u8]) -> Result<(), Refusal> {
    let (file, length) = (bytes.as_ptr(), bytes.len());
    let (mut count, mut place, mut refused_at) = (0, 0, 0);

    // Table: the whole file is checked; its rows, no more than one for each eight bytes.
    let mut rows = vec![[0u32; 6]; length / 8];
    let number = unsafe { dwj_table(file, length, rows.as_mut_ptr().cast(), 6 * rows.len(), &mut count, &mut place) };
    accepted("table", number, place)?;
    rows.truncate(count as usize);
    println!("table: {count} rows in {place} bytes");

    // A row is a trace, an entry or a TLB record only where its kind says so; a file may have none of them.
    if let Some(trace) = rows.iter().find(|row| row[0] == TRACE) {
        // Record: the fields of the record at a place.
        let at = trace[1] as usize;
        let mut values = [0; 12];
        let number = unsafe { dwj_record(file, length, at, &mut values, &mut refused_at) };
        accepted("record", number, refused_at)?;
        let (code, last) = (values[3] as u32, values[6] as usize);
        println!("record: code {code}, t0 {} ns, {last} samples", values[4]);

        // Samples: where they stand in the file, two bytes each; and one of them by its number, from 1.
        let (mut offset, mut size, mut sample) = (0, 0, 0);
        unsafe { dwj_samples(file, length, at, &mut offset, &mut size) };
        let number = unsafe { dwj_sample(file, length, at, last, &mut sample, &mut refused_at) };
        accepted("sample", number, refused_at)?;
        println!("samples: {size} bytes from byte {offset} on; the last is {sample}");

        // Channel and Code: a code's names, and back.
        let (mut numbers, mut analysis, mut cold, mut again) = ([0; 4], [0; 4], [0; 4], 0);
        accepted("channel", unsafe { dwj_channel(code, &mut numbers, &mut analysis, &mut cold) }, 0)?;
        let name = &analysis[..numbers[2] as usize];
        accepted("code", unsafe { dwj_code(numbers[0], numbers[1], name.as_ptr(), name.len(), &mut again) }, 0)?;
        println!("channel: type {}, detector {}, {}; code {again}", numbers[0], numbers[1], String::from_utf8_lossy(name));

        // Find: the first trace with a code in an event with a number, which stands in the row behind the event's; place 0 is nothing.
        let event_number = rows[trace[3] as usize][4];
        let number = unsafe { dwj_find(file, length, event_number, code, &mut place, &mut refused_at) };
        accepted("find", number, refused_at)?;
        if place != 0 {
            println!("find: event number {event_number}, byte {place}");
        }
    } else {
        println!("no trace");
    }

    if let Some(entry) = rows.iter().find(|row| row[0] == PHONON || row[0] == CHARGE) {
        // Setting: an entry in working units; of a charge entry units[0] alone.
        let (mut setting, mut units) = ([0; 8], [0.0; 4]);
        let number = unsafe { dwj_setting(file, length, entry[1] as usize, &mut setting, &mut units, &mut refused_at) };
        accepted("setting", number, refused_at)?;
        println!("setting: code {}, tower {}, gain {:.2}", setting[1], setting[2], units[0]);
        if setting[0] == i64::from(PHONON) {
            println!("setting: QET bias {:.2}, SQUID bias {:.2}, lockpoint {:.2}", units[1], units[2], units[3]);
        }
    } else {
        println!("no entry");
    }

    // ZIP: which bits the word of the first tower has, row[4] of a TLB record.
    if let Some(tlb) = rows.iter().find(|row| row[0] == TLB) {
        for zip in (1..=24).filter(|zip| unsafe { dwj_zip(tlb[4], *zip) } == 1) {
            println!("zip: {zip} of the first tower");
        }
    }

    // Walker: a row at a time; kind 0 is the end.
    let (mut walker, mut row, mut events) = ([0; 6], [0; 6], 0);
    let mut number = unsafe { dwj_open(file, length, &mut walker, &mut row, &mut refused_at) };
    while number == 0 && row[0] != 0 {
        events += u64::from(row[0] == EVENT);
        number = unsafe { dwj_next(file, length, &mut walker, &mut row, &mut refused_at) };
    }
    accepted("walker", number, refused_at)?;
    println!("walker: {events} events");

    // Visitor: many rows at a time, from the number first on; none are left where the count is 0.
    let (mut piece, mut first, mut traces) = (vec![[0u32; 6]; PIECE], 0, 0);
    loop {
        let number = unsafe { dwj_visit(file, length, first, piece.as_mut_ptr().cast(), 6 * PIECE, &mut count, &mut place) };
        accepted("visitor", number, place)?;
        if count == 0 {
            break;
        }
        traces += piece[..count as usize].iter().filter(|row| row[0] == TRACE).count();
        first += count as usize;
    }
    println!("visitor: {first} rows, {traces} of them traces");
    Ok(())
}
