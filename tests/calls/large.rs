//! Large files: traces around the most samples, files of exactly the most bytes.

use super::aimed::{p14, with_record};
use super::big::{full_of_history, full_of_traces, trace_of};
use super::files::{configuration, header, structure, EVENT};
use super::reader::MOST_BYTES;

/// Each with its name; it is made when its turn comes.
pub const LARGE: [(&str, fn() -> Vec<u8>); 9] = [
    ("a trace of 32,768 samples", || {
        with_record(trace_of(32_768))
    }),
    ("a trace of 32,770 samples", || {
        with_record(trace_of(32_770))
    }),
    ("a trace of 65,536 samples", || {
        with_record(trace_of(65_536))
    }),
    ("traces to the limit", full_of_traces),
    ("a history to the limit", full_of_history),
    ("smallest events to the limit", full_of_events),
    ("zeros to the limit", || vec![0; MOST_BYTES]),
    ("P14 and zeros to the limit", || {
        let mut bytes = p14();
        bytes.resize(MOST_BYTES, 0);
        bytes
    }),
    ("smallest events, the last one cut", || {
        let mut bytes = full_of_events();
        bytes.pop();
        bytes
    }),
];

/// The smallest events, of one administrative record each, as many as the limit allows.
pub fn full_of_events() -> Vec<u8> {
    let administrative = &p14()[24..56];
    let event = structure(EVENT, administrative);
    let mut bytes = [header(), configuration(&[])].concat();
    while bytes.len() + event.len() <= MOST_BYTES {
        bytes.extend_from_slice(&event);
    }
    bytes
}
