//! The files that are timed.

use super::aimed::full;
use super::big::trace_of;
use super::files::{configuration, event, header, set_word, structure, EVENT};
use super::large::full_of_events;
use super::reader::{table, MOST_BYTES};

/// An event has a trace for each channel of one iZIP.
const CHANNELS: u32 = 12;
/// Bytes of an event around its traces, of a trace around its samples, and before the first event.
const AROUND_TRACES: usize = 40;
const AROUND_SAMPLES: usize = 56;
const BEFORE_EVENTS: usize = 16;
/// The samples of a mixed event's traces.
const MIXED_SAMPLES: [u32; 4] = [2, 32, 128, 512];
/// Where an event has its number: in the administrative record, which comes first.
const NUMBER_AT: usize = 24;

// The administrative record of P14.
fn administrative() -> Vec<u8> {
    super::aimed::p14()[24..56].to_vec()
}

// A trace of so many samples of a channel of iZIP 17, class II.
fn trace(channel: u32, n: u32) -> Vec<u8> {
    let mut bytes = trace_of(n);
    set_word(&mut bytes, 20, channel % 8 + 1);
    set_word(&mut bytes, 24, 11_017_000 + channel);
    bytes
}

/// How many events with traces of so many samples the limit allows.
pub fn most_events(n: u32) -> usize {
    let one = AROUND_TRACES + CHANNELS as usize * (AROUND_SAMPLES + 2 * n as usize);
    (MOST_BYTES - BEFORE_EVENTS) / one
}

/// So many events, numbered from 1, each with twelve traces of so many samples.
pub fn events_with_traces(events: usize, n: u32) -> Vec<u8> {
    let mut records = vec![administrative()];
    records.extend((0..CHANNELS).map(|channel| trace(channel, n)));
    let mut one = event(EVENT, &records);
    let mut bytes = [header(), configuration(&[])].concat();
    for number in 1..=events as u32 {
        set_word(&mut one, NUMBER_AT, number);
        bytes.extend_from_slice(&one);
    }
    bytes
}

/// The smallest events up to the limit.
pub fn smallest_events() -> Vec<u8> {
    full_of_events()
}

// The first structure of a row kind in a file that has every kind.
fn part(kind: u32) -> Vec<u8> {
    let full = full();
    let rows = table(&full).rows;
    let found = rows.iter().find(|row| row[0] == kind).expect("every kind");
    full[found[1] as usize..(found[1] + found[2]) as usize].to_vec()
}

/// 2,048 bytes: two entries, and two events with every kind of record.
pub fn small_file() -> Vec<u8> {
    let mut bytes = [header(), configuration(&[part(3), part(4)])].concat();
    for (number, n) in [(1, 362), (2, 364)] {
        let records = [part(6), trace(6, n), part(8), part(9), part(10), part(11)];
        let mut one = structure(EVENT, &records.concat());
        set_word(&mut one, NUMBER_AT, number);
        bytes.extend(one);
    }
    bytes
}

/// Two entries, then events to the limit, each with every kind of record: among the others four traces,
/// of as many lengths, which change places from one event to the next.
pub fn mixed_records() -> Vec<u8> {
    let mut bytes = [header(), configuration(&[part(3), part(4)])].concat();
    for number in 1.. {
        let traced = |channel: u32| trace(channel, MIXED_SAMPLES[(number + channel) as usize % 4]);
        let records = [
            part(6),
            part(10),
            part(11),
            traced(0),
            traced(1),
            part(9),
            traced(2),
            part(8),
            traced(3),
        ];
        let mut one = event(EVENT, &records);
        if bytes.len() + one.len() > MOST_BYTES {
            break;
        }
        set_word(&mut one, NUMBER_AT, number);
        bytes.extend(one);
    }
    bytes
}
