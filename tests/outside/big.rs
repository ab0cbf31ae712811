//! A few big files, made only when asked for.

use std::fmt::Write;

use super::aimed::{p14, with_record};
use super::files::{structure_of, HISTORY, TRACE};
use super::reader::{table, MOST_BYTES};

// FORMAT 5.2: a trace whose two counts are n, with n samples.
pub fn trace_of(n: u32) -> Vec<u8> {
    let mut body = vec![
        0x11, 12, 0xA000, 1, 11_017_006, 0x12, 12, 0, 800, n, 0x13, n,
    ];
    body.extend((0..n / 2).map(|pair| (2 * pair + 1) << 16 | (2 * pair)));
    structure_of(TRACE, &body)
}

// FORMAT 1.1: one event of traces that fills a file to the limit:
// 255 traces of 32,768 samples and one of 25,572.
pub fn full_of_traces() -> Vec<u8> {
    let mut records = Vec::new();
    for _ in 0..255 {
        records.extend(trace_of(32_768));
    }
    records.extend(trace_of(25_572));
    with_record(records)
}

// FORMAT 1.1: one history that fills a file to the limit: nvt times,
// one mask each, no triggers.
pub fn full_of_history() -> Vec<u8> {
    let nvt = 2_097_142;
    let mut body = vec![nvt];
    body.extend(0..nvt);
    body.push(1);
    body.extend(0..nvt);
    body.extend([0, 0]);
    with_record(structure_of(HISTORY, &body))
}

// FORMAT 10.1: the same bytes with one more.
fn one_more(mut bytes: Vec<u8>) -> Vec<u8> {
    bytes.push(0);
    bytes
}

// FORMAT 2.2: the answers for big files, by name.
pub fn answers(text: &mut String) -> bool {
    answer(text, "trace-of-32768", &with_record(trace_of(32_768)));
    answer(text, "trace-of-32770", &with_record(trace_of(32_770)));
    answer(text, "trace-of-65536", &with_record(trace_of(65_536)));
    answer(text, "traces-to-limit", &full_of_traces());
    answer(text, "traces-to-limit-and-1", &one_more(full_of_traces()));
    answer(text, "history-to-limit", &full_of_history());
    answer(text, "history-to-limit-and-1", &one_more(full_of_history()));
    answer(text, "zeros-to-limit", &vec![0; MOST_BYTES]);
    answer(text, "zeros-to-limit-and-1", &vec![0; MOST_BYTES + 1]);
    let mut followed = p14();
    followed.resize(MOST_BYTES, 0);
    answer(text, "p14-then-zeros-to-limit", &followed);
    true
}

// FORMAT 8.2: answer, count, place.
fn answer(text: &mut String, name: &str, file: &[u8]) {
    let given = table(file);
    let _ = writeln!(text, "case {name}");
    let _ = writeln!(
        text,
        "list {} {} {}",
        given.number, given.count, given.place
    );
}
