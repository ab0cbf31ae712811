//! The worked examples (FORMAT 10), and the aimed cases' expected answers.

use std::collections::{HashMap, HashSet};
use std::fmt::Write;

use super::aimed::{aimed, full, p14, with_record};
use super::big::{full_of_history, full_of_traces, trace_of};
use super::files::{
    event, random_file, structure, structure_of, valid_parts, words, ADMINISTRATIVE, CHARGE, EVENT,
    GPS, HISTORY, PHONON, TLB, TRACE, TRIGGER,
};
use super::random::Random;
use super::reader::{
    channel_of, code_of, find, record, sample, samples, setting, table, table_within, walk, zip,
    Record, Refusal, Row, Setting, Yield, MOST_BYTES,
};

struct Checks {
    failures: Vec<String>,
}

impl Checks {
    // Notes a check that fails.
    fn check(&mut self, name: &str, holds: bool) {
        if !holds {
            self.failures.push(name.to_string());
        }
    }
}

// FORMAT 10.1: all of them, and more.
pub fn selftest(text: &mut String) -> bool {
    let mut checks = Checks {
        failures: Vec::new(),
    };
    channel_examples(&mut checks);
    listed_examples(&mut checks);
    name_examples(&mut checks);
    series_examples(&mut checks);
    gps_examples(&mut checks);
    sample_examples(&mut checks);
    file_examples(&mut checks);
    listing_example(&mut checks);
    row_examples(&mut checks);
    count_examples(&mut checks);
    field_examples(&mut checks);
    history_examples(&mut checks);
    setting_examples(&mut checks);
    zip_examples(&mut checks);
    find_examples(&mut checks);
    limit_examples(&mut checks);
    aimed_answers(&mut checks);
    valid_answers(&mut checks);
    agreement(&mut checks);
    for failure in &checks.failures {
        let _ = writeln!(text, "failed: {failure}");
    }
    if checks.failures.is_empty() {
        text.push_str("selftest ok\n");
    }
    checks.failures.is_empty()
}

// FORMAT 10.1: P1 to P5.
fn channel_examples(checks: &mut Checks) {
    let name = |text: &'static str| text.as_bytes();
    let p1 = Ok((11, 17, name("QIS2"), name("QIS2")));
    checks.check(
        "P1",
        channel_of(11_017_006) == p1 && channel_of(0x00A8_1B2E) == p1,
    );
    checks.check("P1 back", code_of(11, 17, b"QIS2") == Ok(11_017_006));
    checks.check(
        "P2",
        channel_of(10_001_003) == Ok((10, 1, name("PBS2"), name("B1"))),
    );
    checks.check(
        "P3",
        channel_of(11_001_003) == Ok((11, 1, name("PBS1"), name("B1"))),
    );
    checks.check("P4", channel_of(12_000_000).is_err());
    checks.check("P5", channel_of(3_005_001).is_err());
}

/// FORMAT 3.2, 3.3: the lists as text; of class II what differs from class I.
const CLASS_ONE: &str = "0 QIS1, 1 QOS1, 2 PAS1 (A1), 3 PBS2 (B1), 4 PCS1 (C1), 5 PDS1 (D1), \
    6 QIS2, 7 QOS2, 8 PAS2 (A2), 9 PBS1 (B2), 10 PCS2 (C2), 11 PDS2 (D2)";
const CLASS_TWO_CHANGES: &str =
    "2 PAS2 (A1), 3 PBS1 (B1), 4 PCS2 (C1), 8 PAS1 (A2), 9 PBS2 (B2), 10 PCS1 (C2)";
const LISTS: [(&[u32], &str); 6] = [
    (&[1], "1 QI, 2 QO, 3 PS1, 4 PS2"),
    (&[3], "0 Veto"),
    (&[2, 4, 5, 6], "0 QI, 1 QO, 2 PA, 3 PB, 4 PC, 5 PD"),
    (&[7], "0 Q, 1 PA, 2 PB"),
    (&[10, 11], CLASS_ONE),
    (&[11], CLASS_TWO_CHANGES),
];

// FORMAT 3.2: channel number, analysis name and cold name of a list's item; the cold
// name stands in brackets or is the analysis name.
fn listed_item(item: &str) -> (u32, String, String) {
    let parts: Vec<&str> = item.split_whitespace().collect();
    let cold = parts[parts.len() - 1].trim_matches(|mark| mark == '(' || mark == ')');
    (
        parts[0].parse().unwrap_or(999),
        parts[1].to_string(),
        cold.to_string(),
    )
}

// FORMAT 3.2, 3.4: every code of three digits each gives what the lists say, later lists
// replacing earlier ones.
fn listed_examples(checks: &mut Checks) {
    let mut listed = HashMap::new();
    for (detector_types, list) in LISTS {
        for detector_type in detector_types {
            for item in list.split(',') {
                let (channel, analysis, cold) = listed_item(item);
                listed.insert((*detector_type, channel), (analysis, cold));
            }
        }
    }
    for detector_type in 0..1_000 {
        for channel in 0..1_000 {
            let code = detector_type * 1_000_000 + 17_000 + channel;
            let fine = match (channel_of(code), listed.get(&(detector_type, channel))) {
                (Ok((given_type, 17, analysis, cold)), Some(names)) => {
                    given_type == detector_type
                        && analysis == names.0.as_bytes()
                        && cold == names.1.as_bytes()
                }
                (Err(()), None) => true,
                _ => false,
            };
            checks.check("listed channel", fine);
        }
    }
}

// FORMAT 3.2, 3.4: each listed code and its name give each other.
fn name_examples(checks: &mut Checks) {
    let mut listed = 0;
    for detector_type in 0..1_000 {
        for channel in 0..1_000 {
            let code = detector_type * 1_000_000 + 17_000 + channel;
            if let Ok((given_type, number, analysis, cold)) = channel_of(code) {
                listed += 1;
                checks.check("type of code", given_type == detector_type && number == 17);
                checks.check(
                    "code of name",
                    code_of(given_type, number, analysis) == Ok(code),
                );
                let same = cold == analysis || code_of(given_type, number, cold).is_err();
                checks.check("cold name is no analysis name", same);
            }
        }
    }
    checks.check("listed channels", listed == 4 + 1 + 4 * 6 + 3 + 12 + 12);
    checks.check("number 999", code_of(4, 999, b"PA") == Ok(4_999_002));
    checks.check("number 1000", code_of(4, 1_000, b"PA").is_err());
    checks.check("empty name", code_of(4, 1, b"").is_err());
    checks.check("code over nine digits", channel_of(1_004_001_002).is_err());
}

// FORMAT 5.1: the answer for an administrative record alone.
fn administrative_at_0(series_date: u32, series_time: u32) -> Result<Record, Refusal> {
    let body = [series_date, series_time, 1, 2, 3, 4];
    record(&structure_of(ADMINISTRATIVE, &body), 0)
}

// FORMAT 10.1: P6 and P7.
fn series_examples(checks: &mut Checks) {
    let p6 = Record::Administrative {
        series_date: 1_100_115,
        series_time: 1_630,
        event_number: 1,
        event_time: 2,
        since_last: 3,
        live: 4,
    };
    checks.check("P6", administrative_at_0(1_100_115, 1_630) == Ok(p6));
    checks.check("P7 valid", administrative_at_0(1_120_229, 0).is_ok());
    checks.check("P7 not", administrative_at_0(1_100_230, 0) == Err((10, 0)));
}

// FORMAT 10.1: P8 to P10.
fn gps_examples(checks: &mut Checks) {
    let at_0 = |body: [u32; 3]| record(&structure_of(GPS, &body), 0);
    let p8 = Record::Gps {
        year: 2005,
        day: 320,
        status: 0,
        hour: 11,
        minute: 15,
        second: 26,
        tenths: 2_000_000,
    };
    checks.check(
        "P8",
        at_0([0x2005_0320, 0x0011_1526, 0x0200_0000]) == Ok(p8),
    );
    checks.check("P9 valid", at_0([0x2004_0366, 0, 0]).is_ok());
    checks.check("P9 not", at_0([0x2005_0366, 0, 0]) == Err((10, 0)));
    checks.check("P10 valid", at_0([0x2005_0320, 0, 0x0999_9999]).is_ok());
    checks.check(
        "P10 not",
        at_0([0x2005_0320, 0, 0x1000_0000]) == Err((10, 0)),
    );
}

// FORMAT 10.1: P11, and the sample numbers.
fn sample_examples(checks: &mut Checks) {
    let file = [vec![0xEE; 3], trace_of(2)].concat();
    let (offset, length) = samples(&file, 3);
    checks.check("samples' part", (offset, length) == (59, 4));
    let mut changed = file;
    changed[59..63].copy_from_slice(&[2, 1, 4, 3]);
    checks.check("P11 first", sample(&changed, 3, 1) == Ok(0x0102));
    checks.check("P11 second", sample(&changed, 3, 2) == Ok(0x0304));
    checks.check("sample 0", sample(&changed, 3, 0) == Err((11, 3)));
    checks.check("sample n + 1", sample(&changed, 3, 3) == Err((11, 3)));
    checks.check("no samples", samples(&changed, 0) == (0, 0));
    let counted = trace_of(8);
    for number in 1..=8 {
        let value = number as u16 - 1;
        checks.check("samples in order", sample(&counted, 0, number) == Ok(value));
    }
    let tlb = p14();
    checks.check(
        "sample of another kind",
        sample(&tlb, 56, 1) == Err((5, 56)),
    );
    checks.check("sample past the end", sample(&tlb, 81, 1) == Err((2, 81)));
}

// FORMAT 8.2: its number and place.
fn answer(file: &[u8]) -> (u32, u64) {
    let given = table(file);
    (given.number, given.place)
}

// FORMAT 10.1: P12, P13 and the byte after the last event.
fn file_examples(checks: &mut Checks) {
    checks.check("P12", answer(&[]) == (2, 0));
    let with_first_word = |first_word: u32| {
        let mut file = p14();
        file[16..20].copy_from_slice(&first_word.to_le_bytes());
        answer(&file)
    };
    checks.check("P13 type 7", with_first_word(0xA980_0007) == (8, 16));
    checks.check("P13 class 1", with_first_word(0xA980_1007) == (7, 16));
    checks.check(
        "one byte more",
        answer(&[p14(), vec![0]].concat()) == (2, 88),
    );
}

// FORMAT 10.1: P14.
fn listing_example(checks: &mut Checks) {
    let file = words(&[
        0x0102_0304,
        0x0100_0200,
        0x0001_0000,
        0,
        0xA980_0000,
        64,
        2,
        24,
        1_100_115,
        1_630,
        7,
        1_263_573_000,
        0,
        0,
        0x81,
        24,
        0x0100_0004,
        0x0200_0000,
        0x0300_0000,
        0x0400_0000,
        0x0500_0000,
        0,
    ]);
    let rows: [Row; 5] = [
        [1, 0, 8, 0, 16_777_728, 0],
        [2, 8, 8, 0, 0, 0],
        [5, 16, 72, 0, 0, 2],
        [6, 24, 32, 3, 7, 1_263_573_000],
        [11, 56, 32, 3, 16_777_220, 33_554_432],
    ];
    let given = table(&file);
    checks.check("P14 file", file.len() == 88 && file == p14());
    checks.check(
        "P14 answer",
        (given.number, given.count, given.place) == (0, 5, 88),
    );
    checks.check("P14 rows", given.rows == rows);
    let tight = table_within(&file, 29);
    checks.check(
        "12",
        (tight.number, tight.count, tight.place) == (12, 5, 88),
    );
    checks.check("12 has no rows", tight.rows.is_empty());
    checks.check("rows that just fit", table_within(&file, 30) == given);
    checks.check(
        "12 is given last",
        table_within(&file[..87], 0) == table(&file[..87]),
    );
}

// FORMAT 7.2: a row of each kind.
fn row_examples(checks: &mut Checks) {
    let rows: [Row; 13] = [
        [1, 0, 8, 0, 0x0100_0200, 0],
        [2, 8, 100, 0, 2, 0],
        [3, 16, 52, 2, 10_001_003, 1],
        [4, 68, 40, 2, 11_017_006, 2],
        [5, 108, 248, 0, 0, 6],
        [6, 116, 32, 5, 7, 1_263_573_000],
        [7, 148, 60, 5, 11_017_006, 2],
        [8, 208, 60, 5, 1, 1],
        [9, 268, 20, 5, 0x2005_0320, 0x0011_1526],
        [10, 288, 36, 5, 0x11, 0x22],
        [11, 324, 32, 5, 0x0100_0004, 0x0200_0000],
        [5, 356, 40, 0, 0x2609, 1],
        [6, 364, 32, 12, 7, 1_263_573_000],
    ];
    let given = table(&full());
    checks.check("rows of each kind", given.number == 0 && given.rows == rows);
}

// FORMAT 10.1: the counts of samples at both ends of what is admitted, and just past them.
fn count_examples(checks: &mut Checks) {
    for n in [2, 32_768] {
        checks.check("n passes", answer(&with_record(trace_of(n))).0 == 0);
    }
    for n in [0, 32_770] {
        checks.check("n gives 11", answer(&with_record(trace_of(n))) == (11, 56));
    }
    let mut three = trace_of(4);
    three[44..48].copy_from_slice(&3u32.to_le_bytes());
    three[52..56].copy_from_slice(&3u32.to_le_bytes());
    checks.check("n of 3 gives 11", answer(&with_record(three)) == (11, 56));
}

// FORMAT 5: every field from its own word.
fn field_examples(checks: &mut Checks) {
    let body = [
        0x11,
        12,
        101,
        8,
        11_017_006,
        0x12,
        12,
        0x8000_0001,
        0x8000_0002,
        2,
        0x13,
        2,
        0,
    ];
    let trace = Record::Trace {
        base_address: 101,
        channel: 8,
        code: 11_017_006,
        t0: -0x7FFF_FFFF,
        delta_t: 0x8000_0002,
        n: 2,
    };
    checks.check(
        "trace fields",
        record(&structure_of(TRACE, &body), 0) == Ok(trace),
    );
    let gps = Record::Gps {
        year: 9876,
        day: 123,
        status: 15,
        hour: 23,
        minute: 45,
        second: 57,
        tenths: 9_123_457,
    };
    let body = [0x9876_0123, 0xF023_4557, 0x0912_3457];
    checks.check(
        "GPS fields",
        record(&structure_of(GPS, &body), 0) == Ok(gps),
    );
    let body = [0, 11, 12, 13, 14, 15, 16];
    let trigger = Record::Trigger([11, 12, 13, 14, 15, 16]);
    checks.check(
        "trigger fields",
        record(&structure_of(TRIGGER, &body), 0) == Ok(trigger),
    );
    let body = [
        0x0100_0001,
        0x0200_0002,
        0x0300_0003,
        0x0400_0004,
        0x0500_0005,
        0x0600_0006,
    ];
    let tlb = Record::Tlb(body);
    checks.check(
        "TLB fields",
        record(&structure_of(TLB, &body), 0) == Ok(tlb),
    );
    let minus_one = 0xFFFF_FFFF;
    let body = [11_017_006, minus_one, 2, 3, 4, 5, 6, 7];
    let charge = Record::Charge([11_017_006, -1, 2, 3, 4, 5, 6, 7]);
    checks.check(
        "charge fields",
        record(&structure_of(CHARGE, &body), 0) == Ok(charge),
    );
    let body = [10_001_003, minus_one, 2, 3, 4, 5, 6, 7, 8, 9, 10];
    let phonon = Record::Phonon([10_001_003, -1, 2, 3, 4, 5, 6, 7, 8, 9, 10]);
    checks.check(
        "phonon fields",
        record(&structure_of(PHONON, &body), 0) == Ok(phonon),
    );
}

// FORMAT 5.3: the places of a history's lists.
fn history_examples(checks: &mut Checks) {
    let missing = Record::History {
        nvt: 0,
        veto_times: 17,
        nvw: 0,
        veto_masks: 21,
        ntt: 0,
        trigger_times: 25,
        ntw: 0,
        trigger_masks: 29,
    };
    let file = [vec![0; 5], structure_of(HISTORY, &[0; 4])].concat();
    checks.check("history missing", record(&file, 5) == Ok(missing));
    let both = Record::History {
        nvt: 2,
        veto_times: 12,
        nvw: 1,
        veto_masks: 24,
        ntt: 1,
        trigger_times: 36,
        ntw: 6,
        trigger_masks: 44,
    };
    let body = [2, 9, 9, 1, 8, 8, 1, 7, 6, 1, 2, 3, 4, 5, 6];
    checks.check(
        "history whole",
        record(&structure_of(HISTORY, &body), 0) == Ok(both),
    );
}

// FORMAT 8.6: each x100 word divided by 100.
fn setting_examples(checks: &mut Checks) {
    let minus = |value: u32| 0u32.wrapping_sub(value);
    let body = [10_001_003, 4, 1_025, minus(25), 0, 1, minus(7), 2, 3, 4, 5];
    let file = structure_of(PHONON, &body);
    let expected = Setting::Phonon {
        code: 10_001_003,
        tower: 4,
        gain: 10.25,
        qet_bias: -0.25,
        squid_bias: 0.0,
        lockpoint: 0.01,
        rtf_offset: -7,
        variable_gain: 2,
        delta_t: 3,
        t0: 4,
        trace_length: 5,
    };
    checks.check("phonon setting", setting(&file, 0) == Ok(expected));
    let plus_zero = match setting(&file, 0) {
        Ok(Setting::Phonon { squid_bias, .. }) => squid_bias.to_bits() == 0,
        _ => false,
    };
    checks.check("zero is plus zero", plus_zero);
    let file = structure_of(CHARGE, &[11_017_006, 4, minus(1), 100, 5, 6, minus(7), 8]);
    let expected = Setting::Charge {
        code: 11_017_006,
        tower: 4,
        gain: -0.01,
        bias: 100,
        rtf_offset: 5,
        delta_t: 6,
        t0: -7,
        trace_length: 8,
    };
    checks.check("charge setting", setting(&file, 0) == Ok(expected));
    checks.check(
        "setting of another kind",
        setting(&p14(), 24) == Err((5, 24)),
    );
    checks.check("setting past the end", setting(&p14(), 90) == Err((2, 90)));
}

// FORMAT 5.6: the bits of the ZIPs.
fn zip_examples(checks: &mut Checks) {
    let set: Vec<u32> = (0..64).filter(|number| zip(0x0100_0004, *number)).collect();
    checks.check("ZIP 3 of tower 1", set == [3]);
    checks.check("ZIPs 1 and 24", zip(1, 1) && zip(0x0080_0000, 24));
    checks.check(
        "no ZIP 0 or 25",
        !zip(0xFFFF_FFFF, 0) && !zip(0xFFFF_FFFF, 25),
    );
}

// FORMAT 8.8: the search goes on through later events.
fn find_examples(checks: &mut Checks) {
    let administrative = |number: u32| structure_of(ADMINISTRATIVE, &[101, 0, number, 0, 0, 0]);
    let events = [
        event(EVENT, &[administrative(1), trace_of(4)]),
        event(EVENT, &[administrative(2), structure_of(TLB, &[0; 6])]),
        event(EVENT, &[administrative(2), trace_of(2), trace_of(2)]),
    ];
    let file = [
        words(&[0x0102_0304, 0x0200, 0x0001_0000, 0]),
        events.concat(),
    ]
    .concat();
    let third = 16 + (events[0].len() + events[1].len()) as u64;
    checks.check("find first", find(&file, 1, 11_017_006) == Ok(Some(56)));
    checks.check(
        "find later",
        find(&file, 2, 11_017_006) == Ok(Some(third + 40)),
    );
    checks.check("find no number", find(&file, 3, 11_017_006) == Ok(None));
    checks.check("find no code", find(&file, 1, 11_017_007) == Ok(None));
    checks.check(
        "find refused",
        find(&file[..20], 1, 11_017_006) == Err((2, 16)),
    );
}

// FORMAT 1.1, number 1: exactly 16,777,216 bytes are read, one more gives 1.
fn limit_examples(checks: &mut Checks) {
    let mut file = full_of_traces();
    checks.check("limit reached", file.len() == MOST_BYTES);
    let rows = 4 + 256;
    let given = table(&file);
    let wanted = (0, rows, MOST_BYTES as u64);
    checks.check(
        "limit accepted",
        (given.number, given.count, given.place) == wanted,
    );
    let last = u64::from(given.rows[rows as usize - 1][1]);
    checks.check("last trace", sample(&file, last, 25_572) == Ok(25_571));
    file.push(0);
    checks.check("over the limit", answer(&file) == (1, 0));
    checks.check("over the limit, record", record(&file, last) == Err((1, 0)));
    checks.check(
        "over the limit, setting",
        setting(&file, last) == Err((1, 0)),
    );
    checks.check(
        "over the limit, sample",
        sample(&file, last, 1) == Err((1, 0)),
    );
    checks.check("over the limit, samples", samples(&file, last) == (0, 0));
    checks.check(
        "over the limit, find",
        find(&file, 7, 11_017_006) == Err((1, 0)),
    );
    checks.check(
        "over the limit, walk",
        walk(&file).step() == Yield::Refused(1, 0),
    );
    let file = full_of_history();
    checks.check(
        "history limit",
        file.len() == MOST_BYTES && answer(&file).0 == 0,
    );
}

// FORMAT 2.2: the aimed cases give what they are said to give.
fn aimed_answers(checks: &mut Checks) {
    let mut names = HashSet::new();
    for case in aimed() {
        let plain = case.name.bytes().all(|byte| byte.is_ascii_graphic());
        checks.check(
            &format!("name {}", case.name),
            plain && names.insert(case.name.clone()),
        );
        let given = table(&case.bytes);
        let same = (given.number, given.place) == (case.number, case.place);
        let counted = given.count as usize == given.rows.len();
        checks.check(
            &case.name,
            same && counted && (given.number == 0) != (given.count == 0),
        );
    }
    checks.check("full", full().len() == 396);
    let last_place = record(&structure(TLB, &[0; 24]), u64::MAX);
    checks.check("last place", last_place == Err((2, u64::MAX)));
}

// FORMAT 6.5: valid files are accepted with a row for each structure.
fn valid_answers(checks: &mut Checks) {
    let mut random = Random::new(1);
    for _ in 0..3_000 {
        let parts = valid_parts(&mut random);
        let file = parts.bytes();
        let given = table(&file);
        let fine = given.number == 0 && given.rows.len() == parts.row_count();
        checks.check("valid file", fine && given.place == file.len() as u64);
    }
}

// FORMAT 8.2, 8.3, 8.5: walker, table and Record say the same of any file.
fn agreement(checks: &mut Checks) {
    let mut random = Random::new(2);
    for _ in 0..3_000 {
        let file = random_file(&mut random);
        let given = table(&file);
        let mut walker = walk(&file);
        for row in &given.rows {
            checks.check("walker's row", walker.step() == Yield::Row(*row));
            let is_record = ![1, 2, 5].contains(&row[0]);
            let found = record(&file, u64::from(row[1]));
            checks.check("record at row", found.is_ok() == is_record);
        }
        let last = match given.number {
            0 => Yield::End,
            number => Yield::Refused(number, given.place),
        };
        checks.check(
            "walker's end",
            walker.step() == last && walker.step() == last,
        );
    }
}
