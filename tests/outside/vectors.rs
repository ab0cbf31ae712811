//! The answers as lines of text.

use std::fmt::Write;
use std::time::Instant;

use super::aimed::aimed;
use super::files::{likely_start, random_file};
use super::random::Random;
use super::reader::{
    channel_of, code_of, find, record, row_kind, sample, setting, table, Record, Row, Setting,
};

// A line of text; writing to a string cannot fail.
macro_rules! line {
    ($text:expr, $($part:tt)*) => {
        let _ = writeln!($text, $($part)*);
    };
}

// FORMAT 8: the aimed cases, then random files, each with its answers.
pub fn vectors(text: &mut String, seed: u64, count: u64, most_bytes: u64) -> bool {
    let mut random = Random::new(seed);
    let mut printed = 0;
    for case in aimed() {
        if case.bytes.len() as u64 <= most_bytes {
            file_lines(text, &case.name, &case.bytes, &mut random);
            printed += 1;
        }
    }
    let mut tries = 0;
    while printed < count && tries < 1_000 * count {
        let bytes = random_file(&mut random);
        if bytes.len() as u64 <= most_bytes {
            file_lines(text, &format!("random-{tries}"), &bytes, &mut random);
            printed += 1;
        }
        tries += 1;
    }
    true
}

// FORMAT 8: all the answers for one file.
fn file_lines(text: &mut String, name: &str, file: &[u8], random: &mut Random) {
    line!(text, "case {name}");
    text.push_str("file");
    if !file.is_empty() {
        text.push(' ');
    }
    for byte in file {
        let _ = write!(text, "{byte:02x}");
    }
    text.push('\n');
    let answer = table(file);
    line!(
        text,
        "list {} {} {}",
        answer.number,
        answer.count,
        answer.place
    );
    for (before, row) in answer.rows.iter().enumerate() {
        line!(text, "list {} {}", before + 1, joined(row));
    }
    let mut places: Vec<u64> = answer.rows.iter().map(|row| u64::from(row[1])).collect();
    if answer.number != 0 {
        places.push(answer.place);
    }
    for place in random_places(file, random) {
        if !places.contains(&place) {
            places.push(place);
        }
    }
    for place in &places {
        record_lines(text, file, *place);
    }
    refused_example_lines(text, file, &places, random);
    find_lines(text, file, &answer.rows, random);
}

// FORMAT 8.5: three places: of a word, any, and near or past the end.
fn random_places(file: &[u8], random: &mut Random) -> [u64; 3] {
    let length = file.len() as u64;
    let word_place = match random.below(2) {
        0 => likely_start(random, file) as u64,
        _ => 4 * random.below(length / 4 + 2),
    };
    let any_place = random.below(length + 9);
    let near_end = match random.below(8) {
        0..=3 => length.saturating_sub(random.below(13)),
        4 | 5 => length + random.below(9),
        6 => random.pick(&[0x7FFF_FFFF, 0x8000_0000, 0xFFFF_FFF8, 0xFFFF_FFFF]),
        _ => random.pick(&[0x1_0000_0000, 0x1_0000_0018, u64::MAX - 8, u64::MAX]),
    };
    [word_place, any_place, near_end]
}

// FORMAT 8.5, 8.6, 8.7: its answer, with the setting of an entry and samples of a
// trace.
fn record_lines(text: &mut String, file: &[u8], place: u64) {
    match record(file, place) {
        Err((number, at)) => {
            line!(text, "record {place} {number} {at}");
        }
        Ok(found) => {
            let kind = row_kind(&found);
            line!(text, "record {place} 0 {kind} {}", fields(&found));
            match found {
                Record::Phonon(_) | Record::Charge(_) => setting_line(text, file, place),
                Record::Trace { n, .. } => {
                    let n = u64::from(n);
                    for number in [0, 1, n, n + 1] {
                        sample_line(text, file, place, number);
                    }
                }
                _ => {}
            }
        }
    }
}

// FORMAT 8.6, 8.7: now and then a setting or a sample asked where there is none.
fn refused_example_lines(text: &mut String, file: &[u8], places: &[u64], random: &mut Random) {
    let place = random.pick(places);
    let found = record(file, place);
    let is_entry = matches!(found, Ok(Record::Phonon(_)) | Ok(Record::Charge(_)));
    if !is_entry && random.once_in(4) {
        setting_line(text, file, place);
    }
    let is_trace = matches!(found, Ok(Record::Trace { .. }));
    if !is_trace && random.once_in(4) {
        sample_line(text, file, place, random.pick(&[0, 1, 2]));
    }
}

// FORMAT 8.5: a record's fields in order.
fn fields(found: &Record) -> String {
    match found {
        Record::Phonon(words) => joined(words),
        Record::Charge(words) => joined(words),
        Record::Administrative {
            series_date,
            series_time,
            event_number,
            event_time,
            since_last,
            live,
        } => format!("{series_date} {series_time} {event_number} {event_time} {since_last} {live}"),
        Record::Trace {
            base_address,
            channel,
            code,
            t0,
            delta_t,
            n,
        } => format!("{base_address} {channel} {code} {t0} {delta_t} {n}"),
        Record::History {
            nvt,
            veto_times,
            nvw,
            veto_masks,
            ntt,
            trigger_times,
            ntw,
            trigger_masks,
        } => format!(
            "{nvt} {veto_times} {nvw} {veto_masks} {ntt} {trigger_times} {ntw} {trigger_masks}"
        ),
        Record::Gps {
            year,
            day,
            status,
            hour,
            minute,
            second,
            tenths,
        } => format!("{year} {day} {status} {hour} {minute} {second} {tenths}"),
        Record::Trigger(masks) => joined(masks),
        Record::Tlb(masks) => joined(masks),
    }
}

// Numbers with one blank between.
fn joined<T: ToString>(values: &[T]) -> String {
    let texts: Vec<String> = values.iter().map(T::to_string).collect();
    texts.join(" ")
}

// FORMAT 8.6: an entry in working units, floats by their bits.
fn setting_line(text: &mut String, file: &[u8], place: u64) {
    match setting(file, place) {
        Err((number, at)) => {
            line!(text, "setting {place} {number} {at}");
        }
        Ok(Setting::Phonon {
            code,
            tower,
            gain,
            qet_bias,
            squid_bias,
            lockpoint,
            rtf_offset,
            variable_gain,
            delta_t,
            t0,
            trace_length,
        }) => {
            let floats = joined(&[gain, qet_bias, squid_bias, lockpoint].map(f64::to_bits));
            let rest = joined(&[rtf_offset, variable_gain, delta_t, t0, trace_length]);
            line!(text, "setting {place} 0 3 {code} {tower} {floats} {rest}");
        }
        Ok(Setting::Charge {
            code,
            tower,
            gain,
            bias,
            rtf_offset,
            delta_t,
            t0,
            trace_length,
        }) => {
            let gain = gain.to_bits();
            let rest = joined(&[bias, rtf_offset, delta_t, t0, trace_length]);
            line!(text, "setting {place} 0 4 {code} {tower} {gain} {rest}");
        }
    }
}

// FORMAT 8.7: a sample by number.
fn sample_line(text: &mut String, file: &[u8], place: u64, number: u64) {
    match sample(file, place, number) {
        Ok(value) => {
            line!(text, "sample {place} {number} 0 {value}");
        }
        Err((refused, at)) => {
            line!(text, "sample {place} {number} {refused} {at}");
        }
    }
}

// FORMAT 8.8: a trace that is there, and a mixture of what is there.
fn find_lines(text: &mut String, file: &[u8], rows: &[Row], random: &mut Random) {
    let pairs = numbers_and_codes(rows);
    if pairs.is_empty() {
        let numbers: Vec<u32> = values_of_kind(rows, 6);
        let number = if numbers.is_empty() {
            7
        } else {
            random.pick(&numbers)
        };
        find_line(text, file, number, 11_017_006);
        return;
    }
    let (number, code) = random.pick(&pairs);
    find_line(text, file, number, code);
    let other_number = match random.below(3) {
        0 => random.pick(&pairs).0.wrapping_add(1),
        _ => random.pick(&values_of_kind(rows, 6)),
    };
    let other_code = match random.below(3) {
        0 => random.pick(&pairs).1 + 1,
        _ => random.pick(&pairs).1,
    };
    if (other_number, other_code) != (number, code) {
        find_line(text, file, other_number, other_code);
    }
}

// FORMAT 7.2: the first values of the rows of a kind.
fn values_of_kind(rows: &[Row], kind: u32) -> Vec<u32> {
    let of_kind = rows.iter().filter(|row| row[0] == kind);
    of_kind.map(|row| row[4]).collect()
}

// FORMAT 8.8: each trace's event number and code.
fn numbers_and_codes(rows: &[Row]) -> Vec<(u32, u32)> {
    let mut number = 0;
    let mut pairs = Vec::new();
    for row in rows {
        match row[0] {
            6 => number = row[4],
            7 => pairs.push((number, row[4])),
            _ => {}
        }
    }
    pairs
}

// FORMAT 8.8: found, nothing or refused.
fn find_line(text: &mut String, file: &[u8], number: u32, code: u32) {
    match find(file, number, code) {
        Ok(Some(place)) => {
            line!(text, "find {number} {code} 0 1 {place}");
        }
        Ok(None) => {
            line!(text, "find {number} {code} 0 0 0");
        }
        Err((refused, at)) => {
            line!(text, "find {number} {code} {refused} {at}");
        }
    }
}

// FORMAT 3.4: what each code gives.
pub fn channels(text: &mut String) -> bool {
    for detector_type in (0..=13).chain([999]) {
        for number in [0, 17, 999] {
            for channel in 0..=13 {
                channel_line(text, detector_type * 1_000_000 + number * 1_000 + channel);
            }
        }
    }
    true
}

// FORMAT 3.4: a code and what it stands for.
fn channel_line(text: &mut String, code: u32) {
    match channel_of(code) {
        Ok((detector_type, number, analysis, cold)) => {
            let analysis = String::from_utf8_lossy(analysis);
            let cold = String::from_utf8_lossy(cold);
            line!(
                text,
                "channel {code} {detector_type} {number} {analysis} {cold}"
            );
        }
        Err(()) => {
            line!(text, "channel {code} 10");
        }
    }
}

/// Every name that some type has, and names that none has.
const NAMES: [&str; 50] = [
    "Q", "QI", "QO", "PA", "PB", "PC", "PD", "PS1", "PS2", "Veto", "QIS1", "QOS1", "QIS2", "QOS2",
    "PAS1", "PBS1", "PCS1", "PDS1", "PAS2", "PBS2", "PCS2", "PDS2", "A1", "B1", "C1", "D1", "A2",
    "B2", "C2", "D2", "q", "qi", "Qo", "Q0", "pa", "Pa", "veto", "VETO", "QIs1", "pas1", "P", "V",
    "PE", "QI2", "PAS3", "PAS", "PAS11", "PS3", "QIS", "PS",
];

// FORMAT 3.4: what each type, number and name give.
pub fn names(text: &mut String) -> bool {
    for detector_type in (0..=13).chain([999, 1_000, 4_295]) {
        for name in NAMES {
            for number in [0, 17, 999, 1_000] {
                name_line(text, detector_type, number, name);
            }
        }
    }
    for number in [1_001, 1_000_000, 0x7FFF_FFFF, 0xFFFF_FFFF] {
        name_line(text, 4, number, "PA");
        name_line(text, 11, number, "QIS2");
    }
    for detector_type in [0x7FFF_FFFF, 0x8000_0004, 0xFFFF_FFFF] {
        name_line(text, detector_type, 17, "PA");
    }
    true
}

// FORMAT 3.4: a channel by its name, and its code.
fn name_line(text: &mut String, detector_type: u32, number: u32, name: &str) {
    let answer = code_of(detector_type, number, name.as_bytes()).unwrap_or(10);
    line!(text, "name {detector_type} {number} {name} {answer}");
}

// FORMAT 2.1: how often random files get each number, and how often each
// kind of row stands in accepted ones.
pub fn count(text: &mut String, seed: u64, files: u64) -> bool {
    let started = Instant::now();
    let mut random = Random::new(seed);
    let mut numbers = [0u64; 12];
    let mut kinds = [0u64; 12];
    let mut bytes = 0;
    let mut most = 0;
    for _ in 0..files {
        let file = random_file(&mut random);
        bytes += file.len();
        most = most.max(file.len());
        let answer = table(&file);
        numbers[answer.number as usize] += 1;
        for row in &answer.rows {
            kinds[row[0] as usize] += 1;
        }
    }
    for (number, times) in numbers.iter().enumerate() {
        line!(text, "answer {number} {times}");
    }
    for (kind, times) in kinds.iter().enumerate().skip(1) {
        line!(text, "kind {kind} {times}");
    }
    line!(text, "files {files} bytes {bytes} most {most}");
    line!(text, "seconds {:.3}", started.elapsed().as_secs_f64());
    true
}
