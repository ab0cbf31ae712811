//! Files aimed at one boundary of one rule each, with the answer that docs/FORMAT.md asks for.

use super::files::{
    bcd, configuration, event, header, last_day, set_word, structure, structure_of,
    structure_saying, words, ADMINISTRATIVE, CHARGE, CONFIGURATION, EVENT, GPS, HISTORY, MAGIC,
    PHONON, RECORD_KINDS, TLB, TRACE, TRIGGER, VERSION,
};

/// A named file and its expected answer: number and place.
pub struct Case {
    pub name: String,
    pub bytes: Vec<u8>,
    pub number: u32,
    pub place: u64,
}

/// Where the first event and the first entry stand after an empty configuration.
const EVENT_PLACE: u64 = 16;
const ENTRY_PLACE: u64 = 16;
/// Where the first event's first and second record stand.
const FIRST_PLACE: u64 = 24;
const SECOND_PLACE: u64 = 56;

const MINUS_ONE: u32 = 0xFFFF_FFFF;

struct Cases {
    list: Vec<Case>,
}

impl Cases {
    // FORMAT 2.1, number 0: accepted, at the file's length.
    fn accepted(&mut self, name: impl Into<String>, bytes: Vec<u8>) {
        let place = bytes.len() as u64;
        self.refused(name, bytes, 0, place);
    }

    // FORMAT 2.2: refused with a number at a place.
    fn refused(&mut self, name: impl Into<String>, bytes: Vec<u8>, number: u32, place: u64) {
        self.list.push(Case {
            name: name.into(),
            bytes,
            number,
            place,
        });
    }

    // FORMAT 2.1: number 0 means accepted.
    fn answered(&mut self, name: impl Into<String>, bytes: Vec<u8>, number: u32, place: u64) {
        if number == 0 {
            self.accepted(name, bytes);
        } else {
            self.refused(name, bytes, number, place);
        }
    }

    // FORMAT 2.2, number 10: accepted, or refused so.
    fn field(&mut self, name: impl Into<String>, bytes: Vec<u8>, fine: bool, place: u64) {
        self.answered(name, bytes, if fine { 0 } else { 10 }, place);
    }
}

// FORMAT 2.2: every boundary of every rule.
pub fn aimed() -> Vec<Case> {
    let mut cases = Cases { list: Vec::new() };
    example_cases(&mut cases);
    header_cases(&mut cases);
    configuration_cases(&mut cases);
    entry_cases(&mut cases);
    code_cases(&mut cases);
    event_word_cases(&mut cases);
    event_length_cases(&mut cases);
    first_record_cases(&mut cases);
    repeated_kind_cases(&mut cases);
    record_kind_cases(&mut cases);
    stray_cases(&mut cases);
    record_length_cases(&mut cases);
    series_date_cases(&mut cases);
    series_time_cases(&mut cases);
    trace_word_cases(&mut cases);
    trace_count_cases(&mut cases);
    trace_length_cases(&mut cases);
    trace_order_cases(&mut cases);
    history_length_cases(&mut cases);
    history_shape_cases(&mut cases);
    history_count_cases(&mut cases);
    history_end_cases(&mut cases);
    history_wrap_cases(&mut cases);
    gps_digit_cases(&mut cases);
    gps_day_cases(&mut cases);
    gps_clock_cases(&mut cases);
    trigger_cases(&mut cases);
    tlb_cases(&mut cases);
    first_fault_cases(&mut cases);
    cases.list
}

// FORMAT 6.5: header, empty configuration, events.
fn with_events(events: &[Vec<u8>]) -> Vec<u8> {
    [header(), configuration(&[]), events.concat()].concat()
}

// FORMAT 6.5: a file of one event with these records.
fn with_records(records: &[Vec<u8>]) -> Vec<u8> {
    with_events(&[event(EVENT, records)])
}

// FORMAT 6.2: a file whose one event has this record after the first.
pub fn with_record(record: Vec<u8>) -> Vec<u8> {
    with_records(&[good_administrative(), record])
}

// FORMAT 6.3: a file whose configuration has this entry and no events.
fn with_entry(entry: Vec<u8>) -> Vec<u8> {
    [header(), configuration(&[entry])].concat()
}

// FORMAT 1.2: these bytes with one word changed.
fn with_word(mut bytes: Vec<u8>, place: u64, value: u32) -> Vec<u8> {
    set_word(&mut bytes, place as usize, value);
    bytes
}

// FORMAT 1.2: a list of words with one of them changed.
fn replaced(list: &[u32], number: usize, value: u32) -> Vec<u32> {
    let mut changed = list.to_vec();
    changed[number] = value;
    changed
}

// FORMAT 4.1: a phonon entry's words.
fn phonon_words() -> Vec<u32> {
    let squid_bias = 0u32.wrapping_sub(333);
    let t0 = 0u32.wrapping_sub(410_000);
    vec![
        10_001_003, 1, 1_050, 25, squid_bias, 0, 7, 2, 800, t0, 2_048,
    ]
}

// FORMAT 4.2: a charge entry's words.
fn charge_words() -> Vec<u32> {
    let bias = 0u32.wrapping_sub(3_000);
    let t0 = 0u32.wrapping_sub(410_000);
    vec![11_017_006, 2, 4_001, bias, 9, 800, t0, 2_048]
}

// FORMAT 10.1: P14: the administrative record's words.
fn administrative_words() -> Vec<u32> {
    vec![1_100_115, 1_630, 7, 1_263_573_000, 0, 0]
}

// FORMAT 5.2: a trace's words with two samples.
fn trace_words() -> Vec<u32> {
    let t0 = 0u32.wrapping_sub(1_000);
    let samples = 0x0304_0102;
    vec![
        0x11, 12, 0xA000, 1, 11_017_006, 0x12, 12, t0, 800, 2, 0x13, 2, samples,
    ]
}

// FORMAT 5.3: a history's words with both sections.
fn history_words() -> Vec<u32> {
    vec![1, MINUS_ONE, 1, 0xF0, 1, 5, 6, 1, 2, 3, 4, 5, 6]
}

// FORMAT 10.1: P8: a GPS record's words.
fn gps_words() -> Vec<u32> {
    vec![0x2005_0320, 0x0011_1526, 0x0200_0000]
}

// FORMAT 5.5: a trigger's words.
fn trigger_words() -> Vec<u32> {
    vec![0, 0x11, 0x22, 0x33, 0x44, 0x55, 0x66]
}

// FORMAT 10.1: P14: the TLB mask's words.
fn tlb_words() -> Vec<u32> {
    vec![
        0x0100_0004,
        0x0200_0000,
        0x0300_0000,
        0x0400_0000,
        0x0500_0000,
        0,
    ]
}

// FORMAT 4, 5: the good words of a kind.
fn good_words(kind: u32) -> Vec<u32> {
    match kind {
        PHONON => phonon_words(),
        CHARGE => charge_words(),
        ADMINISTRATIVE => administrative_words(),
        TRACE => trace_words(),
        HISTORY => history_words(),
        GPS => gps_words(),
        TRIGGER => trigger_words(),
        _ => tlb_words(),
    }
}

// FORMAT 4, 5: a good structure of a kind.
fn good(kind: u32) -> Vec<u8> {
    structure_of(kind, &good_words(kind))
}

// FORMAT 10.1: P14: the administrative record.
fn good_administrative() -> Vec<u8> {
    good(ADMINISTRATIVE)
}

// FORMAT 6.2: a good event of 40 bytes.
fn good_event() -> Vec<u8> {
    event(EVENT, &[good_administrative()])
}

// FORMAT 5: a kind's name in the cases' names.
fn kind_name(kind: u32) -> &'static str {
    match kind {
        PHONON => "phonon",
        CHARGE => "charge",
        ADMINISTRATIVE => "administrative",
        TRACE => "trace",
        HISTORY => "history",
        GPS => "gps",
        TRIGGER => "trigger",
        _ => "tlb",
    }
}

// FORMAT 5: a word of this kind, from 0, that breaks its rule when it takes
// this value; the number is 10 each time.
fn bad_word(kind: u32) -> (usize, u32) {
    match kind {
        PHONON | CHARGE => (0, 3_001_000),
        ADMINISTRATIVE => (0, 1_100_230),
        TRACE => (8, 0),
        HISTORY => (0, MINUS_ONE),
        GPS => (0, 0x2005_0366),
        TRIGGER => (0, 1),
        _ => (0, 0x0200_0000),
    }
}

// FORMAT 2.2: a structure of a kind with one word against its rule.
fn faulty(kind: u32) -> Vec<u8> {
    let (number, value) = bad_word(kind);
    structure_of(kind, &replaced(&good_words(kind), number, value))
}

// FORMAT 10.1: P14: the file of 88 bytes.
pub fn p14() -> Vec<u8> {
    with_records(&[good_administrative(), good(TLB)])
}

// FORMAT 10.1: P14, cut to every length.
fn example_cases(cases: &mut Cases) {
    let whole = p14();
    cases.accepted("p14", whole.clone());
    for length in 0..whole.len() {
        let name = format!("p14-cut-to-{length}");
        let bytes = whole[..length].to_vec();
        match length {
            0..=7 => cases.refused(name, bytes, 2, 0),
            8..=15 => cases.refused(name, bytes, 2, 8),
            16 => cases.accepted(name, bytes),
            _ => cases.refused(name, bytes, 2, EVENT_PLACE),
        }
    }
}

// FORMAT 6.4: the file header's two words.
fn header_cases(cases: &mut Cases) {
    for length in 1..8 {
        cases.refused(format!("header-{length}-zeros"), vec![0; length], 2, 0);
    }
    for length in [8, 9, 16] {
        cases.refused(format!("header-{length}-zeros"), vec![0; length], 3, 0);
    }
    let magics = [
        0,
        0x0403_0201,
        0x0102_0305,
        0x0102_0303,
        0x1102_0304,
        0x0102_0204,
        0x0103_0304,
    ];
    for magic in magics {
        let name = format!("header-first-word-{magic:08x}");
        cases.refused(name, with_word(p14(), 0, magic), 3, 0);
    }
    for low in [
        0, 0x0002, 0x0100, 0x01FF, 0x0201, 0x02FF, 0x0202, 0x0300, 0x1200, 0x2000,
    ] {
        let name = format!("header-format-{}-{}", low >> 8, low & 0xFF);
        cases.refused(name, with_word(p14(), 4, 0x0100_0000 | low), 4, 0);
    }
    for high in [0, 0x0001, 0x0100, 0x0200, 0xFFFF, 0x8080] {
        let name = format!("header-daq-{}-{}", high >> 8, high & 0xFF);
        cases.accepted(name, with_word(p14(), 4, high << 16 | 0x0200));
    }
    cases.refused(
        "header-both-words-wrong",
        with_word(vec![0; 16], 4, 0x0101),
        3,
        0,
    );
    cases.refused("header-alone", header(), 2, 8);
    cases.refused(
        "header-alone-first-word-wrong",
        words(&[MAGIC + 1, VERSION]),
        3,
        0,
    );
    cases.refused(
        "header-alone-format-wrong",
        words(&[MAGIC, VERSION + 1]),
        4,
        0,
    );
    cases.refused(
        "header-version-swapped",
        words(&[MAGIC, 0x0200_0100, CONFIGURATION, 0]),
        4,
        0,
    );
}

// FORMAT 6.3: the configuration, exactly one, at byte 8.
fn configuration_cases(cases: &mut Cases) {
    let empty = with_events(&[]);
    cases.accepted("configuration-empty", empty.clone());
    cases.accepted(
        "configuration-empty-and-event",
        with_events(&[good_event()]),
    );
    for kind in [
        0,
        2,
        0x0001_0001,
        0x0001_0002,
        0x0001_0003,
        0x0000_0100,
        0x0100_0000,
        MAGIC,
    ] {
        let name = format!("configuration-kind-{kind:08x}");
        cases.refused(name, with_word(empty.clone(), 8, kind), 5, 8);
    }
    let missing = [header(), good_event()].concat();
    cases.refused("configuration-missing-before-event", missing, 5, 8);
    let missing = [header(), good(PHONON)].concat();
    cases.refused("configuration-missing-before-entry", missing, 5, 8);
    let second = with_events(&[configuration(&[])]);
    cases.refused("configuration-twice", second, 5, 16);
    let second = with_events(&[configuration(&[good(PHONON)])]);
    cases.refused("configuration-twice-with-entry", second, 5, 16);
    let second = with_events(&[good_event(), configuration(&[])]);
    cases.refused("configuration-after-event", second, 5, 56);
    for length in [1, 4, 8, 0x8000_0000, 0xFFFF_FFF0, 0xFFFF_FFF8, 0xFFFF_FFFF] {
        let bytes = with_word(empty.clone(), 12, length);
        cases.refused(
            format!("configuration-length-{length}-past-file"),
            bytes.clone(),
            2,
            8,
        );
        let bytes = with_word(bytes, 8, PHONON);
        cases.refused(
            format!("configuration-length-{length}-past-file-kind"),
            bytes,
            5,
            8,
        );
    }
    let one_event = with_events(&[good_event()]);
    let swallowing = with_word(one_event.clone(), 12, 40);
    cases.refused("configuration-length-takes-event", swallowing, 5, 16);
    let swallowing = with_word(one_event.clone(), 12, 4);
    cases.refused("configuration-length-takes-4", swallowing, 2, 16);
    let swallowing = with_word(one_event.clone(), 12, 8);
    cases.refused("configuration-length-takes-8", swallowing, 5, 16);
    let swallowing = with_word(one_event, 12, 41);
    cases.refused("configuration-length-past-file-by-1", swallowing, 2, 8);
}

// FORMAT 6.3: the entries of a configuration.
fn entry_cases(cases: &mut Cases) {
    for kind in [PHONON, CHARGE] {
        let name = kind_name(kind);
        let body = words(&good_words(kind));
        let whole = 8 + body.len() as u64;
        cases.accepted(format!("entry-{name}"), with_entry(good(kind)));
        let twice = [header(), configuration(&[good(kind), good(kind)])].concat();
        cases.accepted(format!("entry-{name}-twice"), twice);
        for value in [0, 1, 25, 50, 99, 0x7FFF_FFFF, 0x8000_0000, MINUS_ONE] {
            let mut free = vec![value; body.len() / 4];
            free[0] = good_words(kind)[0];
            let name = format!("entry-{name}-words-{value}");
            cases.accepted(name, with_entry(structure_of(kind, &free)));
        }
        for length in [0, 4, 28, 31, 32, 33, 36, 40, 43, 44, 45, 48] {
            let mut other = body.clone();
            other.resize(length, 0);
            if other.len() != body.len() {
                let bytes = with_entry(structure(kind, &other));
                cases.refused(
                    format!("entry-{name}-length-{length}"),
                    bytes,
                    6,
                    ENTRY_PLACE,
                );
                let bytes = with_entry(structure(kind, &vec![0; length]));
                let name = format!("entry-{name}-length-{length}-code-0");
                cases.refused(name, bytes, 6, ENTRY_PLACE);
            }
        }
        for more in [1, 4, 40, 0x8000_0000, 0xFFFF_FFC0] {
            let followed = [with_entry(good(kind)), good_event()].concat();
            let length = (body.len() as u32).wrapping_add(more);
            let bytes = with_word(followed, ENTRY_PLACE + 4, length);
            cases.refused(
                format!("entry-{name}-past-by-{more}"),
                bytes.clone(),
                2,
                ENTRY_PLACE,
            );
            let bytes = with_word(bytes, ENTRY_PLACE, 0x0001_0003);
            cases.refused(
                format!("entry-{name}-past-by-{more}-kind"),
                bytes,
                5,
                ENTRY_PLACE,
            );
        }
        let second = [header(), configuration(&[good(kind), faulty(kind)])].concat();
        cases.refused(
            format!("entry-{name}-second-faulty"),
            second,
            10,
            16 + whole,
        );
        let second = [header(), configuration(&[faulty(kind), good(kind)])].concat();
        cases.refused(format!("entry-{name}-first-faulty"), second, 10, 16);
    }
    let both = [
        header(),
        configuration(&[good(CHARGE), good(PHONON)]),
        good_event(),
    ]
    .concat();
    cases.accepted("entry-both-kinds-and-event", both);
    let strangers = [
        0,
        1,
        2,
        0x11,
        0x81,
        CONFIGURATION,
        0x0001_0003,
        0x0101_0001,
        EVENT,
    ];
    for kind in strangers {
        let bytes = with_entry(structure_of(kind, &phonon_words()));
        cases.refused(format!("entry-kind-{kind:08x}"), bytes, 5, ENTRY_PLACE);
    }
    for kind in RECORD_KINDS {
        let name = format!("entry-is-{}", kind_name(kind));
        cases.refused(name, with_entry(good(kind)), 5, ENTRY_PLACE);
    }
    cases.refused("entry-is-event", with_entry(good_event()), 5, ENTRY_PLACE);
    cases.refused(
        "entry-is-configuration",
        with_entry(configuration(&[])),
        5,
        ENTRY_PLACE,
    );
}

// FORMAT 3.2: P, Q or V for a listed type and channel, by the first letter of its name.
fn letter(detector_type: u32, channel: u32) -> Option<char> {
    match (detector_type, channel) {
        (1, 1 | 2) | (2 | 4 | 5 | 6, 0 | 1) | (7, 0) | (10 | 11, 0 | 1 | 6 | 7) => Some('Q'),
        (1, 3 | 4) | (2 | 4 | 5 | 6, 2..=5) | (7, 1 | 2) => Some('P'),
        (10 | 11, 2..=5 | 8..=11) => Some('P'),
        (3, 0) => Some('V'),
        _ => None,
    }
}

// FORMAT 3.2: the first channel number past a type's list.
fn past_list(detector_type: u32) -> u32 {
    match detector_type {
        1 => 5,
        2 | 4 | 5 | 6 => 6,
        7 => 3,
        10 | 11 => 12,
        _ => 1,
    }
}

// FORMAT 3.2, 4.1, 4.2: a code in an entry of each kind and in a trace.
fn code_case(cases: &mut Cases, code: u32, first_letter: Option<char>) {
    for kind in [PHONON, CHARGE] {
        let bytes = with_entry(structure_of(kind, &replaced(&good_words(kind), 0, code)));
        let wanted = if kind == PHONON { 'P' } else { 'Q' };
        let name = format!("code-{}-{code}", kind_name(kind));
        cases.field(name, bytes, first_letter == Some(wanted), ENTRY_PLACE);
    }
    let bytes = with_record(structure_of(TRACE, &replaced(&trace_words(), 4, code)));
    cases.field(
        format!("code-trace-{code}"),
        bytes,
        first_letter.is_some(),
        SECOND_PLACE,
    );
}

// FORMAT 3.2: every type around its list, and codes that are no codes.
fn code_cases(cases: &mut Cases) {
    for detector_type in (0..=13).chain([999]) {
        for channel in 0..=past_list(detector_type) {
            let code = detector_type * 1_000_000 + 17_000 + channel;
            code_case(cases, code, letter(detector_type, channel));
        }
    }
    for (code, first_letter) in [
        (4_000_002, 'P'),
        (4_999_002, 'P'),
        (4_000_000, 'Q'),
        (4_999_000, 'Q'),
        (3_000_000, 'V'),
        (3_999_000, 'V'),
        (11_999_011, 'P'),
        (10_000_000, 'Q'),
    ] {
        code_case(cases, code, Some(first_letter));
    }
    let unlisted = [
        0,
        17,
        1_002,
        4_001_012,
        4_001_999,
        4_002,
        999_999_999,
        1_000_000_000,
        1_004_001_002,
        1_010_001_003,
        1_011_001_000,
        4_004_001_002,
        0x7FFF_FFFF,
        0x8000_0000,
        0x80A8_1B2E,
        MINUS_ONE,
        0u32.wrapping_sub(11_017_006),
        0x1101_7006,
        0x2E1B_A800,
    ];
    for code in unlisted {
        code_case(cases, code, None);
    }
}

// FORMAT 6.2: an event's first word: 0xA980, class, category, type.
fn event_word_cases(cases: &mut Cases) {
    let base = with_events(&[good_event()]);
    let mut word_case = |first_word: u32, number: u32| {
        let name = format!("event-word-{first_word:08x}");
        cases.answered(
            name,
            with_word(base.clone(), 16, first_word),
            number,
            EVENT_PLACE,
        );
    };
    for high in [
        0xA981, 0xA97F, 0xA880, 0xAA80, 0x2980, 0x80A9, 0x0000, 0xFFFF,
    ] {
        word_case(high << 16, 5);
        word_case(high << 16 | 0x1007, 5);
        word_case(high << 16 | 0x000B, 5);
    }
    for class in 0..16 {
        let fine = class == 0 || class == 2;
        word_case(EVENT | class << 12, if fine { 0 } else { 7 });
        word_case(EVENT | class << 12 | 7, if fine { 8 } else { 7 });
    }
    for category in 1..16 {
        let fine = category == 1 || category == 6;
        word_case(EVENT | category << 8, if fine { 0 } else { 7 });
        word_case(EVENT | category << 8 | 7, if fine { 8 } else { 7 });
    }
    let higher = [
        0x0C, 0x0F, 0x10, 0x17, 0x27, 0x70, 0x77, 0x7F, 0x80, 0x87, 0xF7, 0xFF,
    ];
    for event_type in (1..7).chain(8..12).chain(higher) {
        word_case(EVENT | event_type, if event_type <= 0xA { 0 } else { 7 });
    }
    word_case(EVENT | 0x260A, 0);
    word_case(EVENT | 0x2107, 8);
    word_case(EVENT | 0x260B, 7);
    word_case(EVENT | 0x1207, 7);
    word_case(EVENT | 0x2600, 0);
    word_case(EVENT | 0x6200, 7);
    word_case(EVENT | 0x120B, 7);
}

// FORMAT 6.2: an event's length, 2 and 9, and what comes before them.
fn event_length_cases(cases: &mut Cases) {
    let second = good_event();
    for (name, first_word, number) in [
        ("", EVENT, 9),
        ("-class-1", EVENT | 0x1000, 7),
        ("-type-7", EVENT | 7, 8),
        ("-type-11", EVENT | 0xB, 7),
        ("-a981", 0xA981_0000, 5),
    ] {
        let empty = event(first_word, &[]);
        let bytes = with_events(std::slice::from_ref(&empty));
        cases.refused(format!("event-empty{name}"), bytes, number, 16);
        let bytes = with_events(&[empty.clone(), second.clone()]);
        cases.refused(format!("event-empty{name}-before-event"), bytes, number, 16);
        let bytes = with_events(&[second.clone(), empty]);
        cases.refused(format!("event-empty{name}-after-event"), bytes, number, 56);
    }
    for more in [
        1u32,
        2,
        3,
        4,
        7,
        8,
        0x7FFF_FFFF,
        0xFFFF_FFC8,
        0xFFFF_FFD8,
        0xFFFF_FFDF,
    ] {
        let base = with_events(&[good_event()]);
        let bytes = with_word(base, 20, 32u32.wrapping_add(more));
        cases.refused(format!("event-past-file-by-{more}"), bytes.clone(), 2, 16);
        let classed = with_word(bytes.clone(), 16, EVENT | 0x1000);
        cases.refused(format!("event-past-file-by-{more}-class-1"), classed, 7, 16);
        let monitoring = with_word(bytes.clone(), 16, EVENT | 7);
        cases.refused(
            format!("event-past-file-by-{more}-type-7"),
            monitoring,
            8,
            16,
        );
        let inside = with_word(bytes.clone(), 24, TLB);
        cases.refused(
            format!("event-past-file-by-{more}-not-first"),
            inside,
            2,
            16,
        );
        let unknown = with_word(bytes, 16, 0xA981_0000);
        cases.refused(format!("event-past-file-by-{more}-a981"), unknown, 5, 16);
    }
    for length in [1, 7, 8, 12, 16, 24, 28, 31] {
        let bytes = with_word(with_events(&[good_event()]), 20, length);
        cases.refused(format!("event-length-{length}-not-32"), bytes, 2, 24);
    }
    let two = with_events(&[good_event(), second]);
    for (more, number) in [(1, 2), (4, 2), (7, 2), (8, 5), (39, 5), (40, 5)] {
        let bytes = with_word(two.clone(), 20, 32 + more);
        cases.refused(format!("event-takes-{more}-of-next"), bytes, number, 56);
    }
    cases.refused(
        "event-takes-next-and-1",
        with_word(two.clone(), 20, 73),
        2,
        16,
    );
    cases.accepted("event-two", two);
    let first_two = [ADMINISTRATIVE, 24];
    let head_only = with_events(&[structure_of(EVENT, &first_two)]);
    cases.refused("event-of-administrative-head", head_only, 2, 24);
    let middle = event(EVENT | 0x2000, &[good_administrative(), good(TLB)]);
    let three = with_events(&[good_event(), middle, good_event()]);
    cases.accepted("event-three", three);
}

// FORMAT 6.2: the first record is administrative.
fn first_record_cases(cases: &mut Cases) {
    for kind in RECORD_KINDS {
        let name = kind_name(kind);
        let number = if kind == ADMINISTRATIVE { 0 } else { 9 };
        let alone = with_records(&[good(kind)]);
        cases.answered(format!("first-{name}"), alone.clone(), number, FIRST_PLACE);
        if kind != ADMINISTRATIVE {
            let before = with_records(&[good(kind), good_administrative()]);
            cases.refused(
                format!("first-{name}-then-administrative"),
                before,
                9,
                FIRST_PLACE,
            );
            let field = with_records(&[faulty(kind)]);
            cases.refused(format!("first-{name}-faulty"), field, 9, FIRST_PLACE);
        }
        let empty = with_records(&[structure(kind, &[])]);
        let number = if kind == ADMINISTRATIVE { 6 } else { 9 };
        cases.refused(format!("first-{name}-length-0"), empty, number, FIRST_PLACE);
        let long = with_records(&[structure_of(kind, &[0; 30])]);
        cases.refused(
            format!("first-{name}-length-120"),
            long,
            number,
            FIRST_PLACE,
        );
        let past = with_word(alone, FIRST_PLACE + 4, 4_096);
        cases.refused(format!("first-{name}-past-event"), past, 2, FIRST_PLACE);
    }
    for kind in [0, 1, 3, 0x10, 0x12, 0x22, PHONON, CONFIGURATION, EVENT] {
        let empty = with_records(&[structure(kind, &[])]);
        cases.refused(format!("first-kind-{kind:08x}"), empty, 5, FIRST_PLACE);
        let past = with_records(&[structure_saying(kind, 100, &[])]);
        cases.refused(
            format!("first-kind-{kind:08x}-past-event"),
            past,
            5,
            FIRST_PLACE,
        );
        let before = with_records(&[structure(kind, &[]), good_administrative()]);
        let name = format!("first-kind-{kind:08x}-then-administrative");
        cases.refused(name, before, 5, FIRST_PLACE);
    }
}

// FORMAT 6.2: a second record of each kind, which only a trace may have.
fn repeated_kind_cases(cases: &mut Cases) {
    for kind in RECORD_KINDS {
        let name = kind_name(kind);
        let repeated = if kind == TRACE { 0 } else { 9 };
        let mut before = vec![good_administrative()];
        if kind != ADMINISTRATIVE {
            before.push(good(kind));
        }
        let place = 24 + before.concat().len() as u64;
        let followed_by = |last: &[Vec<u8>]| with_records(&[before.concat(), last.concat()]);

        let bytes = followed_by(&[good(kind)]);
        cases.answered(format!("repeated-{name}"), bytes.clone(), repeated, place);
        let past = with_word(bytes, place + 4, 0x0010_0000);
        cases.refused(format!("repeated-{name}-past-event"), past, 2, place);
        let number = if kind == TRACE { 6 } else { 9 };
        let empty = followed_by(&[structure(kind, &[])]);
        cases.refused(format!("repeated-{name}-length-0"), empty, number, place);
        let number = if kind == TRACE { 10 } else { 9 };
        let field = followed_by(&[faulty(kind)]);
        cases.refused(format!("repeated-{name}-faulty"), field, number, place);
        let between = if kind == TRACE {
            good(TLB)
        } else {
            good(TRACE)
        };
        let apart = followed_by(&[between.clone(), good(kind)]);
        let place_apart = place + between.len() as u64;
        cases.answered(
            format!("repeated-{name}-apart"),
            apart,
            repeated,
            place_apart,
        );
        let thrice = followed_by(&[good(kind), good(kind)]);
        cases.answered(format!("repeated-{name}-thrice"), thrice, repeated, place);
        if kind != ADMINISTRATIVE {
            let records = [good_administrative(), faulty(kind), good(kind)];
            let bytes = with_records(&records);
            cases.refused(
                format!("repeated-{name}-first-faulty"),
                bytes,
                10,
                SECOND_PLACE,
            );
            let one = event(EVENT, &[good_administrative(), good(kind)]);
            let bytes = with_events(&[one.clone(), one]);
            cases.accepted(format!("repeated-{name}-in-another-event"), bytes);
        }
    }
    let mut all: Vec<Vec<u8>> = RECORD_KINDS.iter().map(|kind| good(*kind)).collect();
    cases.accepted("all-kinds", with_records(&all));
    all[1..].reverse();
    cases.accepted("all-kinds-backwards", with_records(&all));
    all.swap(1, 3);
    cases.accepted("all-kinds-mixed", with_records(&all));
    all.push(good(TRACE));
    all.insert(1, good(TRACE));
    cases.accepted("all-kinds-three-traces", with_records(&all));
}

// FORMAT 6.1, number 5: kinds that are no records.
fn record_kind_cases(cases: &mut Cases) {
    let strangers = [
        0,
        1,
        3,
        0x10,
        0x12,
        0x13,
        0x20,
        0x22,
        0x59,
        0x61,
        0x7F,
        0x82,
        0x0200_0000,
        0x8100_0000,
        0x0000_0102,
        0x0001_0002,
        0x0001_0081,
        0x8000_0081,
        CONFIGURATION,
        PHONON,
        EVENT,
        MAGIC,
        MINUS_ONE,
    ];
    for kind in strangers {
        let bytes = with_record(structure_of(kind, &tlb_words()));
        cases.refused(format!("record-kind-{kind:08x}"), bytes, 5, SECOND_PLACE);
        let bytes = with_record(structure_saying(kind, 25, &words(&tlb_words())));
        cases.refused(
            format!("record-kind-{kind:08x}-past-event"),
            bytes,
            5,
            SECOND_PLACE,
        );
    }
    for (name, inside) in [
        ("phonon", good(PHONON)),
        ("charge", good(CHARGE)),
        ("configuration", configuration(&[good(PHONON)])),
        ("event", good_event()),
    ] {
        cases.refused(
            format!("record-is-{name}"),
            with_record(inside),
            5,
            SECOND_PLACE,
        );
    }
}

// FORMAT 2.3, number 2: strays of 1 to 7 bytes after the last structure.
fn stray_cases(cases: &mut Cases) {
    for count in 1..8 {
        let zeros = vec![0; count];
        let next_event = good_event()[..count].to_vec();
        let next_record = good(TLB)[..count].to_vec();
        let next_entry = good(PHONON)[..count].to_vec();

        for (name, strays) in [("zeros", zeros.clone()), ("event", next_event)] {
            let bytes = [with_events(&[]), strays.clone()].concat();
            let case_name = format!("stray-{count}-of-{name}-after-configuration");
            cases.refused(case_name, bytes, 2, 16);
            let bytes = [with_events(&[good_event()]), strays].concat();
            let case_name = format!("stray-{count}-of-{name}-after-event");
            cases.refused(case_name, bytes, 2, 56);
        }
        for (name, strays) in [("zeros", zeros.clone()), ("record", next_record)] {
            let bytes = with_records(&[good_administrative(), strays.clone()]);
            let case_name = format!("stray-{count}-of-{name}-in-event");
            cases.refused(case_name, bytes.clone(), 2, SECOND_PLACE);
            let bytes = [bytes, good_event()].concat();
            let case_name = format!("stray-{count}-of-{name}-in-event-before-event");
            cases.refused(case_name, bytes, 2, SECOND_PLACE);
            let bytes = with_records(&[strays]);
            let case_name = format!("stray-{count}-of-{name}-alone-in-event");
            cases.refused(case_name, bytes, 2, FIRST_PLACE);
        }
        for (name, strays) in [("zeros", zeros), ("entry", next_entry)] {
            let bytes = with_entry(strays.clone());
            let case_name = format!("stray-{count}-of-{name}-in-configuration");
            cases.refused(case_name, bytes.clone(), 2, ENTRY_PLACE);
            let bytes = [bytes, good_event()].concat();
            let case_name = format!("stray-{count}-of-{name}-in-configuration-before-event");
            cases.refused(case_name, bytes, 2, ENTRY_PLACE);
            let bytes = [header(), configuration(&[good(CHARGE), strays])].concat();
            let case_name = format!("stray-{count}-of-{name}-after-entry");
            cases.refused(case_name, bytes, 2, ENTRY_PLACE + 40);
        }
    }
    let eight = vec![0; 8];
    let bytes = [with_events(&[good_event()]), eight.clone()].concat();
    cases.refused("stray-8-of-zeros-after-event", bytes, 5, 56);
    let bytes = with_record(eight.clone());
    cases.refused("stray-8-of-zeros-in-event", bytes, 5, SECOND_PLACE);
    cases.refused(
        "stray-8-of-zeros-in-configuration",
        with_entry(eight),
        5,
        ENTRY_PLACE,
    );
}

// FORMAT 2.3, numbers 2 and 6: a record's length.
fn record_length_cases(cases: &mut Cases) {
    for kind in [ADMINISTRATIVE, GPS, TRIGGER, TLB] {
        let name = kind_name(kind);
        let body = words(&good_words(kind));
        let first = kind == ADMINISTRATIVE;
        let place = if first { FIRST_PLACE } else { SECOND_PLACE };
        let file_with = |record: Vec<u8>| {
            if first {
                with_records(&[record])
            } else {
                with_record(record)
            }
        };
        let right = body.len();
        let around = [
            right - 8,
            right - 4,
            right - 1,
            right + 1,
            right + 4,
            right + 8,
        ];
        for length in [0, 2].into_iter().chain(around) {
            let mut other = body.clone();
            other.resize(length, 0);
            let bytes = file_with(structure(kind, &other));
            cases.refused(format!("length-{name}-{length}"), bytes, 6, place);
            let bytes = file_with(structure(kind, &vec![0xFF; length]));
            cases.refused(format!("length-{name}-{length}-fields"), bytes, 6, place);
        }
    }
    for kind in RECORD_KINDS {
        let name = kind_name(kind);
        let first = kind == ADMINISTRATIVE;
        let (place, records) = if first {
            (FIRST_PLACE, vec![good(kind)])
        } else {
            (SECOND_PLACE, vec![good_administrative(), good(kind)])
        };
        let alone = with_records(&records);
        let followed = [alone.clone(), good_event()].concat();
        let right = words(&good_words(kind)).len() as u32;
        for more in [1u32, 4, 8, 40, 41, 0x7FFF_FFFF, 0xFFFF_FF00] {
            let length = right.wrapping_add(more);
            let bytes = with_word(alone.clone(), place + 4, length);
            cases.refused(format!("past-event-{name}-by-{more}"), bytes, 2, place);
            let bytes = with_word(followed.clone(), place + 4, length);
            cases.refused(
                format!("past-event-{name}-by-{more}-before-event"),
                bytes,
                2,
                place,
            );
        }
        for less in [1, 4, 8] {
            let bytes = with_word(alone.clone(), place + 4, right - less);
            cases.refused(format!("too-short-{name}-by-{less}"), bytes, 6, place);
        }
    }
}

// FORMAT 5.1: LLYYMMDD.
fn series_date_cases(cases: &mut Cases) {
    let mut date_case = |series: u32, fine: bool| {
        let record = structure_of(
            ADMINISTRATIVE,
            &replaced(&administrative_words(), 0, series),
        );
        let name = format!("series-date-{series:08}");
        cases.field(name, with_records(&[record]), fine, FIRST_PLACE);
    };
    for location in (0..=12).chain(48..=62).chain([96, 97, 99]) {
        let fine = [0, 1, 2, 3, 6, 7, 50, 51, 52, 53, 56, 57].contains(&location);
        date_case(location * 1_000_000 + 100_116, fine);
    }
    for month in [0, 13, 19, 20, 99] {
        date_case(1_100_015 + 100 * month, false);
        date_case(1_100_001 + 100 * month, false);
    }
    for year in [0, 1, 2, 3, 4, 10, 50, 96, 98, 99] {
        date_case(1_000_229 + 10_000 * year, year % 4 == 0);
        date_case(1_000_230 + 10_000 * year, false);
    }
    for month in 1..=12 {
        let base = 1_110_000 + 100 * month;
        date_case(base, false);
        date_case(base + 1, true);
        date_case(base + 28, true);
        for day in 29..=32 {
            date_case(base + day, day <= last_day(11, month));
        }
        date_case(base + 99, false);
    }
    date_case(101, true);
    date_case(0, false);
    date_case(100, false);
    date_case(57_991_231, true);
    date_case(99_991_231, false);
    for series in [
        100_100_117,
        101_100_117,
        150_100_117,
        201_100_117,
        1_001_100_117,
        0x0110_0115,
        0x1510_0110,
        MINUS_ONE,
        0x8000_0000 | 1_100_115,
    ] {
        date_case(series, false);
    }
}

// FORMAT 5.1: HHMM.
fn series_time_cases(cases: &mut Cases) {
    let mut time_case = |series: u32, fine: bool| {
        let record = structure_of(
            ADMINISTRATIVE,
            &replaced(&administrative_words(), 1, series),
        );
        let name = format!("series-time-{series:04}");
        cases.field(name, with_records(&[record]), fine, FIRST_PLACE);
    };
    for time in [
        0, 1, 59, 100, 159, 959, 1_000, 1_959, 2_000, 2_300, 2_358, 2_359,
    ] {
        time_case(time, true);
    }
    for time in [
        60, 61, 99, 160, 199, 1_960, 2_260, 2_299, 2_360, 2_399, 2_400, 2_401, 2_459,
    ] {
        time_case(time, false);
    }
    for time in [
        2_500,
        9_959,
        9_999,
        10_000,
        12_359,
        0x1630,
        0x2359,
        0x8000_0000,
        MINUS_ONE,
    ] {
        time_case(time, false);
    }
    for free in 2..6 {
        for value in [0, MINUS_ONE] {
            let changed = replaced(&administrative_words(), free, value);
            let bytes = with_records(&[structure_of(ADMINISTRATIVE, &changed)]);
            cases.accepted(format!("administrative-word-{free}-{value}"), bytes);
        }
    }
    let both = structure_of(ADMINISTRATIVE, &[1_100_230, 2_360, 0, 0, 0, 0]);
    cases.refused("series-both-wrong", with_records(&[both]), 10, FIRST_PLACE);
}

// FORMAT 5.2: each word of a trace, alone.
fn trace_word_cases(cases: &mut Cases) {
    let mut word_case = |number: usize, value: u32, answer: u32| {
        let bytes = with_record(structure_of(
            TRACE,
            &replaced(&trace_words(), number, value),
        ));
        cases.answered(
            format!("trace-word-{number}-{value}"),
            bytes,
            answer,
            SECOND_PLACE,
        );
    };
    for kind in [0, 0x10, 0x12, 0x13, 0x0011_0000, 0x1100_0000, 0x0001_0011] {
        word_case(0, kind, 5);
    }
    for kind in [0, 0x11, 0x13, 0x0001_0012] {
        word_case(5, kind, 5);
    }
    for kind in [0, 0x11, 0x12, 0x14, 0x0001_0013] {
        word_case(10, kind, 5);
    }
    for length in [0, 3, 4, 8, 11, 13, 16, 20, 0x0C00_0000, MINUS_ONE] {
        word_case(1, length, 6);
        word_case(6, length, 6);
    }
    for address in [0, 0xF000_0000, MINUS_ONE] {
        word_case(2, address, 0);
    }
    for channel in 1..=8 {
        word_case(3, channel, 0);
    }
    for channel in [0, 9, 10, 0x0101, 0x0100_0000, MINUS_ONE] {
        word_case(3, channel, 10);
    }
    for t0 in [0, 1, 0x7FFF_FFFF, 0x8000_0000, MINUS_ONE] {
        word_case(7, t0, 0);
    }
    word_case(8, 0, 10);
    for delta_t in [1, 0x8000_0000, MINUS_ONE] {
        word_case(8, delta_t, 0);
    }
    for samples in [0, MINUS_ONE, 0x8000_7FFF] {
        word_case(12, samples, 0);
    }
}

// FORMAT 5.2, numbers 11 and 6: the two counts of a trace.
fn trace_count_cases(cases: &mut Cases) {
    for count in [
        0,
        1,
        2,
        3,
        4,
        6,
        8,
        32_766,
        32_767,
        32_768,
        32_769,
        32_770,
        65_536,
        65_538,
        0x0200_0000,
        0x7FFF_FFFE,
        0x8000_0000,
        0x8000_0002,
        0xFFFF_FFFE,
        MINUS_ONE,
    ] {
        let first = replaced(&trace_words(), 9, count);
        let second = replaced(&trace_words(), 11, count);
        let both = replaced(&first, 11, count);
        let even = count % 2 == 0 && count > 0 && count <= 32_768;
        let same = match count {
            2 => 0,
            _ if even => 6,
            _ => 11,
        };
        let differing = if count == 2 { 0 } else { 11 };
        for (name, list, number) in [
            ("both", &both, same),
            ("first", &first, differing),
            ("second", &second, differing),
        ] {
            let bytes = with_record(structure_of(TRACE, list));
            let name = format!("trace-count-{name}-{count}");
            cases.answered(name, bytes, number, SECOND_PLACE);
        }
        let unmarked = replaced(&first, 10, 0x12);
        let bytes = with_record(structure_of(TRACE, &unmarked));
        cases.refused(
            format!("trace-count-first-{count}-no-0x13"),
            bytes,
            5,
            SECOND_PLACE,
        );
    }
    for n in [0, 1, 2, 3, 4, 5, 6, 14, 15, 16] {
        let mut body = words(&replaced(&replaced(&trace_words(), 9, n), 11, n)[..12]);
        body.extend((0..2 * n).map(|byte| byte as u8));
        let even = n >= 2 && n % 2 == 0;
        let bytes = with_record(structure(TRACE, &body));
        let number = if even { 0 } else { 11 };
        cases.answered(format!("trace-samples-{n}"), bytes, number, SECOND_PLACE);
    }
}

// FORMAT 5.2, number 6: a trace's length, below 48 and against 48 + 2n.
fn trace_length_cases(cases: &mut Cases) {
    let good_body = words(&trace_words());
    for length in [
        0, 4, 8, 12, 20, 24, 40, 44, 46, 47, 48, 49, 50, 51, 53, 54, 55, 56, 60, 100,
    ] {
        let mut body = good_body.clone();
        body.resize(length, 0);
        let bytes = with_record(structure(TRACE, &body));
        cases.refused(format!("trace-length-{length}-n-2"), bytes, 6, SECOND_PLACE);
        let zeros = with_record(structure(TRACE, &vec![0; length]));
        let number = if length < 48 { 6 } else { 5 };
        cases.refused(
            format!("trace-length-{length}-zeros"),
            zeros,
            number,
            SECOND_PLACE,
        );
    }
    for n in [2, 4, 8] {
        let right = 48 + 2 * n;
        for length in [
            right - 4,
            right - 2,
            right - 1,
            right + 1,
            right + 2,
            right + 4,
        ] {
            let mut body = words(&replaced(&replaced(&trace_words(), 9, n), 11, n));
            body.resize(length as usize, 0);
            let bytes = with_record(structure(TRACE, &body));
            cases.refused(
                format!("trace-length-{length}-for-n-{n}"),
                bytes,
                6,
                SECOND_PLACE,
            );
        }
    }
    let mut body = words(&replaced(&replaced(&trace_words(), 9, 16), 11, 16));
    body.resize(48 + 16, 0);
    let bytes = with_record(structure(TRACE, &body));
    cases.refused("trace-count-16-taken-for-bytes", bytes, 6, SECOND_PLACE);
    let bytes = with_record(structure_of(TRACE, &trace_words()[..5]));
    cases.refused("trace-bookkeeping-only", bytes, 6, SECOND_PLACE);
}

// FORMAT 5.2: a trace's words in order; every two faults of one trace.
fn trace_order_cases(cases: &mut Cases) {
    let faults = [
        (0, 0x12, 5),
        (1, 13, 6),
        (3, 9, 10),
        (4, 3_005_001, 10),
        (5, 0x11, 5),
        (6, 8, 6),
        (8, 0, 10),
        (10, 0x12, 5),
        (11, 3, 11),
        (11, 4, 11),
    ];
    for (at, (first, first_value, number)) in faults.iter().enumerate() {
        let one = replaced(&trace_words(), *first, *first_value);
        for (second, second_value, _) in &faults[at + 1..] {
            if second != first {
                let two = replaced(&one, *second, *second_value);
                let bytes = with_record(structure_of(TRACE, &two));
                let name = format!("trace-faults-{first}-and-{second}-{second_value}");
                cases.refused(name, bytes, *number, SECOND_PLACE);
            }
        }
        let longer = [one.clone(), vec![0]].concat();
        let bytes = with_record(structure_of(TRACE, &longer));
        let name = format!("trace-faults-{first}-{first_value}-and-length");
        cases.refused(name, bytes, *number, SECOND_PLACE);
        let bytes = with_record(structure(TRACE, &words(&one)[..47]));
        let name = format!("trace-faults-{first}-{first_value}-and-length-47");
        cases.refused(name, bytes, 6, SECOND_PLACE);
    }
}

// FORMAT 5.3: a history of these words.
fn history_case(cases: &mut Cases, name: &str, list: &[u32], number: u32) {
    let bytes = with_record(structure_of(HISTORY, list));
    cases.answered(format!("history-{name}"), bytes, number, SECOND_PLACE);
}

// FORMAT 5.3: lengths of a history that are too short, or no whole words.
fn history_length_cases(cases: &mut Cases) {
    for length in [0, 1, 4, 8, 12, 13, 14, 15, 17, 18, 19, 21, 22, 23] {
        let zeros = with_record(structure(HISTORY, &vec![0; length]));
        cases.refused(
            format!("history-length-{length}-zeros"),
            zeros,
            6,
            SECOND_PLACE,
        );
        let negative = with_record(structure(HISTORY, &vec![0xFF; length]));
        cases.refused(
            format!("history-length-{length}-ones"),
            negative,
            6,
            SECOND_PLACE,
        );
    }
    for length in [16, 20, 24] {
        let negative = with_record(structure(HISTORY, &vec![0xFF; length]));
        cases.refused(
            format!("history-length-{length}-ones"),
            negative,
            10,
            SECOND_PLACE,
        );
    }
    let body = words(&history_words());
    for less in [1, 2, 3, 4, 8, 24, 28] {
        let cut = with_record(structure(HISTORY, &body[..body.len() - less]));
        cases.refused(format!("history-cut-by-{less}"), cut, 6, SECOND_PLACE);
    }
    for more in 1..=8 {
        let longer = [body.clone(), vec![0; more]].concat();
        let bytes = with_record(structure(HISTORY, &longer));
        cases.refused(format!("history-longer-by-{more}"), bytes, 6, SECOND_PLACE);
    }
}

// FORMAT 5.3: histories with sections missing or not, all small counts.
fn history_shape_cases(cases: &mut Cases) {
    for nvt in 0..=3u32 {
        let widths = if nvt == 0 { 0..=0 } else { 1..=3 };
        for nvw in widths {
            for ntt in 0..=2u32 {
                let ntw = if ntt == 0 { 0 } else { 6 };
                let mut list = vec![nvt];
                list.extend((0..nvt).map(|time| 100 + time));
                list.push(nvw);
                list.extend((0..nvt * nvw).map(|mask| 200 + mask));
                list.push(ntt);
                list.extend((0..ntt).map(|time| 300 + time));
                list.push(ntw);
                list.extend((0..ntt * ntw).map(|mask| 400 + mask));
                history_case(cases, &format!("shape-{nvt}-{nvw}-{ntt}"), &list, 0);
                let extra = [list.clone(), vec![0]].concat();
                history_case(
                    cases,
                    &format!("shape-{nvt}-{nvw}-{ntt}-and-word"),
                    &extra,
                    6,
                );
                let less = &list[..list.len() - 1];
                history_case(
                    cases,
                    &format!("shape-{nvt}-{nvw}-{ntt}-less-word"),
                    less,
                    6,
                );
            }
        }
    }
    history_case(cases, "minus-ones", &[1, MINUS_ONE, 1, MINUS_ONE, 0, 0], 0);
}

// FORMAT 5.3, number 10: negative counts, and a section that has one count of two.
fn history_count_cases(cases: &mut Cases) {
    let negatives = [MINUS_ONE, 0xFFFF_FFFA, 0x8000_0000, 0x8000_0001];
    for (at, count) in negatives.iter().enumerate() {
        let count = *count;
        history_case(cases, &format!("nvt-negative-{at}"), &[count, 0, 0, 0], 10);
        history_case(cases, &format!("nvw-negative-{at}"), &[0, count, 0, 0], 10);
        history_case(cases, &format!("ntt-negative-{at}"), &[0, 0, count, 0], 10);
        history_case(cases, &format!("ntw-negative-{at}"), &[0, 0, 0, count], 10);
        history_case(
            cases,
            &format!("nvw-negative-{at}-nvt-1"),
            &[1, 0, count, 0, 0],
            10,
        );
        history_case(
            cases,
            &format!("nvw-negative-{at}-last"),
            &[2, 0, 0, count],
            10,
        );
        let list = [1, 0, 1, 0, count, 0];
        history_case(cases, &format!("ntt-negative-{at}-veto"), &list, 10);
        history_case(
            cases,
            &format!("ntt-negative-{at}-last"),
            &[1, 0, 1, 0, count],
            10,
        );
        let list = [0, 0, 1, 0, count, 1, 2, 3, 4, 5, 6];
        history_case(cases, &format!("ntw-negative-{at}-ntt-1"), &list, 10);
        history_case(
            cases,
            &format!("ntw-negative-{at}-last"),
            &[0, 0, 1, 0, count],
            10,
        );
        for number in [0, 2, 4, 6] {
            let list = replaced(&history_words(), number, count);
            history_case(cases, &format!("word-{number}-negative-{at}"), &list, 10);
        }
    }
    for nvw in [1, 2, 6, 0x7FFF_FFFF] {
        history_case(cases, &format!("nvt-0-nvw-{nvw}"), &[0, nvw, 0, 0], 10);
    }
    history_case(cases, "nvt-0-nvw-1-left-over", &[0, 1, 0, 0, 0], 10);
    for nvt in [1usize, 2, 3] {
        let list = [vec![nvt as u32], vec![9; nvt], vec![0, 0, 0]].concat();
        history_case(cases, &format!("nvt-{nvt}-nvw-0"), &list, 10);
        let list = [vec![nvt as u32], vec![9; nvt], vec![0; 4 - nvt]].concat();
        history_case(cases, &format!("nvt-{nvt}-nvw-0-short"), &list, 10);
    }
    for ntw in [1, 5, 6, 7] {
        history_case(cases, &format!("ntt-0-ntw-{ntw}"), &[0, 0, 0, ntw], 10);
        history_case(
            cases,
            &format!("ntt-0-ntw-{ntw}-left"),
            &[0, 0, 0, ntw, 0, 0],
            10,
        );
    }
    for ntw in [0, 1, 2, 5, 7, 8, 12, 0x106, 0x0600_0000] {
        let masks = if ntw < 16 { ntw as usize } else { 6 };
        let list = [vec![0, 0, 1, 9, ntw], vec![4; masks]].concat();
        history_case(cases, &format!("ntt-1-ntw-{ntw}"), &list, 10);
        history_case(
            cases,
            &format!("ntt-1-ntw-{ntw}-no-masks"),
            &[0, 0, 1, 9, ntw],
            10,
        );
        let list = [vec![0, 0, 1, 9, ntw], vec![4; 6]].concat();
        history_case(cases, &format!("ntt-1-ntw-{ntw}-six-masks"), &list, 10);
    }
}

// FORMAT 5.3, number 6: words missing at the end, and words too many.
fn history_end_cases(cases: &mut Cases) {
    history_case(cases, "nvt-3-width-past-end", &[3, 0, 0, 0], 6);
    history_case(cases, "nvt-4-times-past-end", &[4, 0, 0, 0], 6);
    history_case(cases, "nvt-2-width-last-masks-past-end", &[2, 0, 0, 1], 6);
    history_case(cases, "nvt-1-masks-then-end", &[1, 0, 1, 0], 6);
    history_case(cases, "nvt-1-two-masks-then-end", &[1, 0, 2, 0, 0], 6);
    history_case(cases, "nvt-1-nvw-3-masks-past-end", &[1, 0, 3, 0, 0], 6);
    history_case(cases, "ntt-last", &[1, 0, 1, 0, 0], 6);
    history_case(cases, "ntt-1-width-past-end", &[0, 0, 1, 0], 6);
    history_case(cases, "ntt-2-times-past-end", &[0, 0, 2, 0], 6);
    history_case(cases, "ntt-2-width-past-end", &[0, 0, 2, 0, 0], 6);
    history_case(cases, "ntt-1-no-masks", &[0, 0, 1, 0, 6], 6);
    for masks in [1, 5, 7, 8, 12] {
        let list = [vec![0, 0, 1, 9, 6], vec![4; masks]].concat();
        history_case(cases, &format!("ntt-1-masks-{masks}"), &list, 6);
    }
    history_case(cases, "left-over-1", &[0, 0, 0, 0, 0], 6);
    history_case(cases, "left-over-2", &[0, 0, 0, 0, 0, 0], 6);
    history_case(cases, "left-over-history", &[0; 8], 6);
    let list = [history_words(), history_words()].concat();
    history_case(cases, "left-over-whole", &list, 6);
    history_case(cases, "nvt-2-nvw-0-at-end", &[2, 0, 0, 0], 10);
    history_case(cases, "nvt-5-past-end", &[5, 0, 0, 0], 6);
}

// FORMAT 5.3: counts whose sums or products pass 32 bits.
fn history_wrap_cases(cases: &mut Cases) {
    for nvt in [
        0x1000_0000,
        0x3FFF_FFFD,
        0x3FFF_FFFE,
        0x3FFF_FFFF,
        0x4000_0000,
        0x4000_0001,
    ] {
        history_case(cases, &format!("wrap-nvt-{nvt:08x}"), &[nvt, 4, 0, 0], 6);
        history_case(cases, &format!("wrap-ntt-{nvt:08x}"), &[0, 0, nvt, 6], 6);
        history_case(cases, &format!("wrap-nvw-{nvt:08x}"), &[1, 9, nvt, 0, 0], 6);
        history_case(
            cases,
            &format!("wrap-four-nvw-{nvt:08x}"),
            &[4, 9, 9, 9, 9, nvt, 0, 0],
            6,
        );
    }
    for count in [0x7FFF_FFFC, 0x7FFF_FFFD, 0x7FFF_FFFE, 0x7FFF_FFFF] {
        history_case(
            cases,
            &format!("wrap-nvt-{count:08x}"),
            &[count, 1, 0, 0],
            6,
        );
        history_case(
            cases,
            &format!("wrap-nvw-{count:08x}"),
            &[1, 9, count, 0, 0],
            6,
        );
        history_case(
            cases,
            &format!("wrap-two-nvw-{count:08x}"),
            &[2, 9, 9, count, 0, 0],
            6,
        );
        history_case(
            cases,
            &format!("wrap-ntt-{count:08x}"),
            &[0, 0, count, 6],
            6,
        );
        history_case(
            cases,
            &format!("wrap-nvt-nvw-{count:08x}"),
            &[count, count, 0, 0],
            6,
        );
    }
    history_case(
        cases,
        "wrap-2-by-40000000",
        &[2, 9, 9, 0x4000_0000, 0, 0],
        6,
    );
    let three = [3, 9, 9, 9, 0x5555_5556, 1, 2, 0, 0];
    history_case(cases, "wrap-3-by-55555556", &three, 6);
    let sixteen = [vec![16], vec![9; 16], vec![0x1000_0000, 0, 0]].concat();
    history_case(cases, "wrap-16-by-10000000", &sixteen, 6);
    let eight = [vec![8], vec![9; 8], vec![0x2000_0000, 0, 0]].concat();
    history_case(cases, "wrap-8-by-20000000", &eight, 6);
    let six = [0, 0, 0x2AAA_AAAB, 6, 1, 2];
    history_case(cases, "wrap-ntt-2aaaaaab", &six, 6);
}

// FORMAT 5.4: a GPS record of these words.
fn gps_case(cases: &mut Cases, name: String, list: &[u32], fine: bool) {
    let bytes = with_record(structure_of(GPS, list));
    cases.field(format!("gps-{name}"), bytes, fine, SECOND_PLACE);
}

// FORMAT 5.4: digits A to F, the status digit and the zero digit.
fn gps_digit_cases(cases: &mut Cases) {
    for number in 0..3 {
        for digit in 0..8 {
            let shift = 4 * digit;
            let free = number == 1 && digit == 7;
            for value in 0xA..=0xF {
                let kept = gps_words()[number] & !(0xF << shift);
                let list = replaced(&gps_words(), number, kept | value << shift);
                gps_case(
                    cases,
                    format!("word-{number}-digit-{digit}-{value:x}"),
                    &list,
                    free,
                );
            }
        }
    }
    for status in 0..10 {
        let list = replaced(&gps_words(), 1, status << 28 | 0x0011_1526);
        gps_case(cases, format!("status-{status}"), &list, true);
    }
    for zero in 1..10 {
        let list = replaced(&gps_words(), 1, zero << 24 | 0x0011_1526);
        gps_case(cases, format!("zero-digit-{zero}"), &list, false);
        let list = replaced(&gps_words(), 1, 0xF000_0000 | zero << 24 | 0x0011_1526);
        gps_case(cases, format!("status-15-zero-digit-{zero}"), &list, false);
    }
}

// FORMAT 5.4: the days at both ends of years of every sort.
fn gps_day_cases(cases: &mut Cases) {
    let leap = [0, 4, 400, 1600, 1996, 2000, 2004, 2400, 9996];
    let common = [
        1, 2, 100, 200, 1000, 1700, 1800, 1900, 1999, 2001, 2002, 2005, 2100, 9999,
    ];
    for year in leap.into_iter().chain(common) {
        for day in [0, 1, 365, 366, 367] {
            let fine = (1..=365).contains(&day) || (day == 366 && leap.contains(&year));
            let list = replaced(&gps_words(), 0, bcd(year) << 16 | bcd(day));
            gps_case(cases, format!("year-{year:04}-day-{day:04}"), &list, fine);
        }
    }
    for (day, fine) in [
        (9, true),
        (10, true),
        (99, true),
        (100, true),
        (299, true),
        (300, true),
        (360, true),
        (370, false),
        (400, false),
        (999, false),
        (1000, false),
        (1001, false),
        (1320, false),
        (9999, false),
    ] {
        let list = replaced(&gps_words(), 0, 0x2005_0000 | bcd(day));
        gps_case(cases, format!("in-2005-day-{day:04}"), &list, fine);
    }
}

// FORMAT 5.4: hour, minute, second and tenths.
fn gps_clock_cases(cases: &mut Cases) {
    for (clock, fine) in [
        (0x00_0000, true),
        (0x23_5959, true),
        (0x09_0909, true),
        (0x10_1010, true),
        (0x19_1526, true),
        (0x20_1526, true),
        (0x23_1526, true),
        (0x24_1526, false),
        (0x24_0000, false),
        (0x25_1526, false),
        (0x29_1526, false),
        (0x30_1526, false),
        (0x99_1526, false),
        (0x11_5926, true),
        (0x11_6026, false),
        (0x11_6126, false),
        (0x11_9926, false),
        (0x11_1559, true),
        (0x11_1560, false),
        (0x11_1561, false),
        (0x23_5960, false),
        (0x11_1599, false),
    ] {
        let list = replaced(&gps_words(), 1, clock);
        gps_case(cases, format!("clock-{clock:06x}"), &list, fine);
    }
    for (tenths, fine) in [
        (0, true),
        (1, true),
        (0x0000_9999, true),
        (0x0500_0000, true),
        (0x0999_9998, true),
        (0x0999_9999, true),
        (0x1000_0000, false),
        (0x1000_0001, false),
        (0x1999_9999, false),
        (0x2000_0000, false),
        (0x9000_0000, false),
        (0x9999_9999, false),
        (9_999_999, false),
    ] {
        let list = replaced(&gps_words(), 2, tenths);
        gps_case(cases, format!("tenths-{tenths:08x}"), &list, fine);
    }
}

// FORMAT 5.5: trigger, time 0, masks free.
fn trigger_cases(cases: &mut Cases) {
    for time in [
        0,
        1,
        0x100,
        0x0100_0000,
        0x7FFF_FFFF,
        0x8000_0000,
        MINUS_ONE,
    ] {
        let bytes = with_record(structure_of(TRIGGER, &replaced(&trigger_words(), 0, time)));
        cases.field(
            format!("trigger-time-{time}"),
            bytes,
            time == 0,
            SECOND_PLACE,
        );
    }
    for mask in 1..7 {
        for value in [0, MINUS_ONE] {
            let bytes = with_record(structure_of(
                TRIGGER,
                &replaced(&trigger_words(), mask, value),
            ));
            cases.accepted(format!("trigger-mask-{mask}-{value}"), bytes);
        }
    }
}

// FORMAT 5.6: each word of a TLB mask against its tower.
fn tlb_cases(cases: &mut Cases) {
    for tower in 1..=6u32 {
        let mut mask_case = |value: u32, fine: bool| {
            let list = replaced(&tlb_words(), tower as usize - 1, value);
            let bytes = with_record(structure_of(TLB, &list));
            cases.field(
                format!("tlb-word-{tower}-{value:08x}"),
                bytes,
                fine,
                SECOND_PLACE,
            );
        };
        mask_case(0, true);
        for low in [0, 1, 0x80_0000, 0xFF_FFFF] {
            mask_case(tower << 24 | low, true);
            mask_case((tower + 1) << 24 | low, false);
            mask_case((tower | 0x80) << 24 | low, false);
            mask_case((tower << 4) << 24 | low, false);
            if tower > 1 {
                mask_case((tower - 1) << 24 | low, false);
            }
            if low != 0 {
                mask_case(low, false);
            }
        }
        mask_case(tower << 8, false);
        mask_case(tower << 16, false);
    }
    let zeros = with_record(structure_of(TLB, &[0; 6]));
    cases.accepted("tlb-all-zero", zeros);
}

// FORMAT 6.5: a file of 396 bytes with every kind and two events.
pub fn full() -> Vec<u8> {
    let all: Vec<Vec<u8>> = RECORD_KINDS.iter().map(|kind| good(*kind)).collect();
    [
        header(),
        configuration(&[good(PHONON), good(CHARGE)]),
        event(EVENT, &all),
        event(EVENT | 0x2609, &[good_administrative()]),
    ]
    .concat()
}

// FORMAT 2.2: the first fault in file order; every two faults of one file.
fn first_fault_cases(cases: &mut Cases) {
    cases.accepted("full", full());
    let faults = [
        ("header", 4, 0x0100_0201, 4, 0),
        ("configuration", 8, 0x0001_0003, 5, 8),
        ("phonon", 24, 0, 10, 16),
        ("charge", 72, 31, 6, 68),
        ("event", 108, EVENT | 7, 8, 108),
        ("administrative", 124, 1_100_230, 10, 116),
        ("trace", 200, 4, 11, 148),
        ("history", 216, MINUS_ONE, 10, 208),
        ("gps", 268, 0x61, 5, 268),
        ("trigger", 292, 0x1000, 2, 288),
        ("tlb", 324, ADMINISTRATIVE, 9, 324),
        ("next-event", 356, EVENT | 0x1000, 7, 356),
        ("next-administrative", 376, 2_360, 10, 364),
    ];
    for (at, (name, word_place, value, number, place)) in faults.iter().enumerate() {
        let one = with_word(full(), *word_place, *value);
        cases.refused(format!("fault-in-{name}"), one.clone(), *number, *place);
        for (later, word_place, value, _, _) in &faults[at + 1..] {
            let two = with_word(one.clone(), *word_place, *value);
            cases.refused(format!("fault-in-{name}-and-{later}"), two, *number, *place);
        }
    }
}
