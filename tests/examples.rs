//! examples [DIR [limit]]: writes the example files into DIR (examples/ without one), and beside each its
//! listing by the outside implementation; prints a line about each: name, size, the listing's first line.
//! With `limit` it writes in their place two accepted files with many rows: limit.raw has exactly as many
//! bytes as the listing program takes, long.raw has more (its listing is what it would list), traces far
//! behind its first rows, and no entry.

#[allow(dead_code)]
#[path = "outside/aimed.rs"]
mod aimed;
#[allow(dead_code)]
#[path = "outside/files.rs"]
mod files;
#[allow(dead_code)]
#[path = "outside/random.rs"]
mod random;
#[allow(dead_code)]
#[path = "outside/reader.rs"]
mod reader;

use std::fs;
use std::io;
use std::path::Path;

use files::{
    bcd, configuration, event, structure_of, words, ADMINISTRATIVE, CHARGE, EVENT, GPS, HISTORY,
    MAGIC, PHONON, TLB, TRACE, TRIGGER,
};

/// DAQ 3.5, format 2.0.
const VERSION: u32 = 0x0305_0200;
/// Classes, categories and types of the three events, as low halves of their first words.
const RAW_SEARCH: u32 = 0x0000;
const RAW_BARIUM_SELECTIVE: u32 = 0x0609;
const MONTE_CARLO_NEUTRON: u32 = 0x2003;
/// The series of 15 January 2010, 16:30, at Soudan, and the same day simulated.
const SERIES: [u32; 2] = [1_100_115, 1_630];
const SIMULATED_SERIES: [u32; 2] = [51_100_115, 1_630];
const FIRST_TIME: u32 = 1_263_573_000;
/// Nanoseconds between samples, samples of a trace, and its start before the trigger.
const DELTA_T: u32 = 800;
const SAMPLES: u32 = 256;
const T0: i32 = -51_200;

/// Where the first event of every-kind.raw begins.
const FIRST_EVENT: usize = 304;

/// The most bytes that the listing program reads.
const MOST_LISTED: usize = 16_384;

/// Answer, count and place; then each row's number and six values.
fn listing(answer: &reader::Table) -> String {
    let mut text = format!("{} {} {}\n", answer.number, answer.count, answer.place);
    for (i, row) in answer.rows.iter().enumerate() {
        let values: Vec<String> = row.iter().map(u32::to_string).collect();
        text += &format!("{} {}\n", i + 1, values.join(" "));
    }
    text
}

fn main() -> io::Result<()> {
    let folder = std::env::args().nth(1);
    let folder = Path::new(folder.as_deref().unwrap_or("examples"));
    fs::create_dir_all(folder)?;
    let (every_kind, broken_word) = every_kind();
    let long = long(&every_kind);
    let mut damaged = every_kind.clone();
    files::set_word(&mut damaged, broken_word, bcd(2010) << 16 | bcd(366));
    let files = if std::env::args().nth(2).as_deref() == Some("limit") {
        let limit = at_limit();
        assert_eq!(limit.len(), MOST_LISTED);
        assert!(long.len() > MOST_LISTED);
        vec![("limit.raw", limit), ("long.raw", long)]
    } else {
        vec![
            ("p14.raw", aimed::p14()),
            ("every-kind.raw", every_kind),
            ("damaged.raw", damaged),
        ]
    };
    for (name, bytes) in files {
        fs::write(folder.join(name), &bytes)?;
        let listing = listing(&reader::table(&bytes));
        fs::write(folder.join(name).with_extension("listing"), &listing)?;
        let first = listing.lines().next().unwrap_or("");
        println!("{name}: {} bytes, lists as '{first}'", bytes.len());
    }
    Ok(())
}

// A file of all six record kinds and both entry kinds, and the place of the second event's GPS
// year and day. Its iZIPs, number 1 of class I and 17 of class II, have channels whose side is
// not the one that the channel's number suggests.
fn every_kind() -> (Vec<u8>, usize) {
    let entries = [
        phonon(10_001_003, 1),
        phonon(10_001_009, 1),
        charge(10_001_000, 1),
        phonon(11_017_002, 2),
        phonon(11_017_010, 2),
        charge(11_017_006, 2),
    ];
    let search = [
        administrative(SERIES, 7, 0),
        trigger([0x0000_0004, 0x0000_0010, 0, 0, 0, 0]),
        tlb([0x0100_0004, 0x0200_0010, 0x0300_0000, 0x0400_0000, 0, 0]),
        gps(2010, 15, 0, 22_30_00, 1_234_567),
        history(&[-120, 45], &[0x0000_0101, 0x8000_0000], &[-3]),
        trace(0, 10_001_003),
        trace(1, 10_001_009),
        trace(2, 10_001_000),
        trace(3, 11_017_002),
        trace(4, 11_017_010),
        trace(5, 11_017_006),
    ];
    let barium = [
        administrative(SERIES, 8, 2),
        gps(2010, 15, 1, 22_30_02, 9_999_999),
        trace(0, 11_017_008),
        trace(1, 4_003_002),
        history(&[], &[], &[0, 6]),
        trace(2, 3_001_000),
    ];
    let simulated = [
        administrative(SIMULATED_SERIES, 9, 4),
        gps(2008, 366, 15, 23_59_59, 0),
        trace(6, 11_017_004),
        trace(7, 7_002_000),
    ];
    let mut bytes = words(&[MAGIC, VERSION]);
    bytes.extend(configuration(&entries));
    bytes.extend(event(EVENT | RAW_SEARCH, &search));
    let gps_word = bytes.len() + 8 + barium[0].len() + 8;
    bytes.extend(event(EVENT | RAW_BARIUM_SELECTIVE, &barium));
    bytes.extend(event(EVENT | MONTE_CARLO_NEUTRON, &simulated));
    (bytes, gps_word)
}

// 408 of the smallest events, two of them with an empty history: 820 rows in as many bytes as the
// listing program reads.
fn at_limit() -> Vec<u8> {
    let mut bytes = words(&[MAGIC, VERSION]);
    bytes.extend(configuration(&[]));
    for number in 0..408 {
        let mut records = vec![administrative(SERIES, number * 10_000_000, number)];
        if number % 204 == 0 {
            records.push(history(&[], &[], &[]));
        }
        bytes.extend(event(EVENT | RAW_SEARCH, &records));
    }
    bytes
}

// 4,200 of the smallest events, and behind them those of every_kind, which begin behind its header and
// its configuration.
fn long(every_kind: &[u8]) -> Vec<u8> {
    let mut bytes = words(&[MAGIC, VERSION]);
    bytes.extend(configuration(&[]));
    for number in 0..4_200 {
        let records = [administrative(SERIES, 1_000 + number, number)];
        bytes.extend(event(EVENT | RAW_SEARCH, &records));
    }
    bytes.extend(&every_kind[FIRST_EVENT..]);
    bytes
}

// A signed number as its word.
fn signed(value: i32) -> u32 {
    value as u32
}

// A phonon entry: gain 10.5, biases 3.25 and -3.33, lockpoint 0.
fn phonon(code: u32, tower: u32) -> Vec<u8> {
    let t0 = signed(T0);
    let body = [
        code,
        tower,
        1_050,
        325,
        signed(-333),
        0,
        7,
        2,
        DELTA_T,
        t0,
        SAMPLES,
    ];
    structure_of(PHONON, &body)
}

// A charge entry: gain 40.01, bias -3000.
fn charge(code: u32, tower: u32) -> Vec<u8> {
    let t0 = signed(T0);
    let body = [code, tower, 4_001, signed(-3_000), 9, DELTA_T, t0, SAMPLES];
    structure_of(CHARGE, &body)
}

// An administrative record of the event so many seconds after the first.
fn administrative(series: [u32; 2], number: u32, seconds: u32) -> Vec<u8> {
    let since_last = if seconds == 0 { 0 } else { 2_000 };
    let body = [
        series[0],
        series[1],
        number,
        FIRST_TIME + seconds,
        since_last,
        since_last / 2,
    ];
    structure_of(ADMINISTRATIVE, &body)
}

// A trigger record of six masks.
fn trigger(masks: [u32; 6]) -> Vec<u8> {
    let mut body = vec![0];
    body.extend(masks);
    structure_of(TRIGGER, &body)
}

// A TLB record of six towers.
fn tlb(masks: [u32; 6]) -> Vec<u8> {
    structure_of(TLB, &masks)
}

// A GPS record; the clock is hhmmss in decimal.
fn gps(year: u32, day: u32, status: u32, clock: u32, tenths: u32) -> Vec<u8> {
    let body = [
        bcd(year) << 16 | bcd(day),
        status << 28 | bcd(clock),
        bcd(tenths),
    ];
    structure_of(GPS, &body)
}

// A history of veto times with one mask each, and trigger times with six masks each.
fn history(veto_times: &[i32], veto_masks: &[u32], trigger_times: &[i32]) -> Vec<u8> {
    let mut body = vec![veto_times.len() as u32];
    body.extend(veto_times.iter().map(|time| signed(*time)));
    body.push(u32::from(!veto_times.is_empty()));
    body.extend(veto_masks);
    body.push(trigger_times.len() as u32);
    body.extend(trigger_times.iter().map(|time| signed(*time)));
    body.push(if trigger_times.is_empty() { 0 } else { 6 });
    for time in 0..trigger_times.len() as u32 {
        body.extend((1..=6).map(|tower| tower << 24 | time + 1));
    }
    structure_of(HISTORY, &body)
}

// A trace of the digitizer channel with this number from 0: a baseline, then a pulse that falls.
fn trace(digitizer: u32, code: u32) -> Vec<u8> {
    let base_address = 0xA000 + 0x100 * (digitizer / 4);
    let mut body = vec![0x11, 12, base_address, digitizer + 1, code];
    body.extend([0x12, 12, signed(T0), DELTA_T, SAMPLES, 0x13, SAMPLES]);
    let sample = |number: u32| {
        let trigger = SAMPLES / 4;
        let ripple = number * 7 % 5;
        if number < trigger {
            2_000 + ripple
        } else {
            2_000 + ripple + 1_500 * trigger / (number + 1)
        }
    };
    body.extend((0..SAMPLES / 2).map(|pair| sample(2 * pair + 1) << 16 | sample(2 * pair)));
    structure_of(TRACE, &body)
}
