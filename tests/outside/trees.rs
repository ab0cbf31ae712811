//! Calls of the writing half (FORMAT 9), for one implementation or another: random trees,
//! aimed calls, random calls. Another program needs its own `perform` alone.
//!
//! - A tree: `calls(&tree)` gives the calls in order, all over one output of any length; with
//!   `tree_length(&tree)` bytes every place and end lies within it.
//! - A single call, aimed or random: a call and its output's length; the output before the call
//!   is `output_before(&call, length)`.
//!
//! Places and ends go up to `usize::MAX`. A trigger has no time: where another implementation
//! takes one, it is 0.

use super::files::{
    likely_start, random_file, set_word, structure_of, structure_saying, valid_parts, word_at,
    words, Parts, ADMINISTRATIVE, CHARGE, CONFIGURATION, EVENT, GPS, HISTORY, MAGIC, PHONON, TLB,
    TRACE, TRIGGER, VERSION,
};
use super::random::Random;
use super::reader::{record, Record, MOST_BYTES};
use super::writer::{self, Answer};

/// What stands in an output before it is written.
const FILLER: u8 = 0xC3;

/// FORMAT 9: one call with its fields. A closing's contents are the
/// bytes put behind its eight free bytes before the call (see `output_before`); they are no
/// part of the call itself, and empty where earlier calls have written them.
#[derive(Clone, Debug, PartialEq, Eq)]
pub enum Call {
    Header {
        major: u8,
        minor: u8,
    },
    Phonon {
        place: usize,
        words: [i32; 11],
    },
    Charge {
        place: usize,
        words: [i32; 8],
    },
    Administrative {
        place: usize,
        series_date: u32,
        series_time: u32,
        event_number: u32,
        event_time: u32,
        since_last: u32,
        live: u32,
    },
    Trace {
        place: usize,
        base_address: u32,
        channel: u32,
        code: u32,
        t0: i32,
        delta_t: u32,
        n: u32,
        samples: Vec<u8>,
    },
    History {
        place: usize,
        nvt: u32,
        veto_times: Vec<u8>,
        nvw: u32,
        veto_masks: Vec<u8>,
        ntt: u32,
        trigger_times: Vec<u8>,
        ntw: u32,
        trigger_masks: Vec<u8>,
    },
    Gps {
        place: usize,
        year: u32,
        day: u32,
        status: u32,
        hour: u32,
        minute: u32,
        second: u32,
        tenths: u32,
    },
    Trigger {
        place: usize,
        masks: [u32; 6],
    },
    Tlb {
        place: usize,
        masks: [u32; 6],
    },
    CloseConfiguration {
        place: usize,
        end: usize,
        contents: Vec<u8>,
    },
    CloseEvent {
        place: usize,
        end: usize,
        class: u32,
        category: u32,
        event_type: u32,
        contents: Vec<u8>,
    },
    Rewrite {
        file: Vec<u8>,
    },
}

/// FORMAT 9.1: the call, made of this side's writers.
pub fn perform(call: &Call, out: &mut [u8]) -> Answer {
    match call {
        Call::Header { major, minor } => writer::header(out, *major, *minor),
        Call::Phonon { place, words } => writer::phonon(out, *place, words),
        Call::Charge { place, words } => writer::charge(out, *place, words),
        Call::Administrative {
            place,
            series_date,
            series_time,
            event_number,
            event_time,
            since_last,
            live,
        } => writer::administrative(
            out,
            *place,
            *series_date,
            *series_time,
            *event_number,
            *event_time,
            *since_last,
            *live,
        ),
        Call::Trace {
            place,
            base_address,
            channel,
            code,
            t0,
            delta_t,
            n,
            samples,
        } => writer::trace(
            out,
            *place,
            *base_address,
            *channel,
            *code,
            *t0,
            *delta_t,
            *n,
            samples,
        ),
        Call::History {
            place,
            nvt,
            veto_times,
            nvw,
            veto_masks,
            ntt,
            trigger_times,
            ntw,
            trigger_masks,
        } => writer::history(
            out,
            *place,
            *nvt,
            veto_times,
            *nvw,
            veto_masks,
            *ntt,
            trigger_times,
            *ntw,
            trigger_masks,
        ),
        Call::Gps {
            place,
            year,
            day,
            status,
            hour,
            minute,
            second,
            tenths,
        } => writer::gps(
            out, *place, *year, *day, *status, *hour, *minute, *second, *tenths,
        ),
        Call::Trigger { place, masks } => writer::trigger(out, *place, masks),
        Call::Tlb { place, masks } => writer::tlb(out, *place, masks),
        Call::CloseConfiguration { place, end, .. } => {
            writer::close_configuration(out, *place, *end)
        }
        Call::CloseEvent {
            place,
            end,
            class,
            category,
            event_type,
            ..
        } => writer::close_event(out, *place, *end, *class, *category, *event_type),
        Call::Rewrite { file } => writer::rewrite(file, out),
    }
}

/// The output before a single call: so many filler bytes, with a closing's contents put behind
/// its eight free bytes as far as they go.
pub fn output_before(call: &Call, length: usize) -> Vec<u8> {
    let mut out = vec![FILLER; length];
    if let Call::CloseConfiguration {
        place, contents, ..
    }
    | Call::CloseEvent {
        place, contents, ..
    } = call
    {
        let first = place.saturating_add(8);
        if let Some(rest) = out.get_mut(first..) {
            let fitting = contents.len().min(rest.len());
            rest[..fitting].copy_from_slice(&contents[..fitting]);
        }
    }
    out
}

impl Call {
    /// The same call at another place; header and rewrite have none.
    pub fn at(mut self, given: usize) -> Call {
        match &mut self {
            Call::Header { .. } | Call::Rewrite { .. } => {}
            Call::Phonon { place, .. }
            | Call::Charge { place, .. }
            | Call::Administrative { place, .. }
            | Call::Trace { place, .. }
            | Call::History { place, .. }
            | Call::Gps { place, .. }
            | Call::Trigger { place, .. }
            | Call::Tlb { place, .. }
            | Call::CloseConfiguration { place, .. }
            | Call::CloseEvent { place, .. } => *place = given,
        }
        self
    }

    /// The place that is given; header and rewrite have none and start at byte 0.
    pub fn place(&self) -> usize {
        match self {
            Call::Header { .. } | Call::Rewrite { .. } => 0,
            Call::Phonon { place, .. }
            | Call::Charge { place, .. }
            | Call::Administrative { place, .. }
            | Call::Trace { place, .. }
            | Call::History { place, .. }
            | Call::Gps { place, .. }
            | Call::Trigger { place, .. }
            | Call::Tlb { place, .. }
            | Call::CloseConfiguration { place, .. }
            | Call::CloseEvent { place, .. } => *place,
        }
    }

    /// FORMAT 4, 5, 6.4: how many bytes a header, an entry or
    /// a record takes, its parts as they are handed over; a closing its eight; a rewrite all.
    pub fn size(&self) -> usize {
        match self {
            Call::Header { .. } => 8,
            Call::Phonon { .. } => 52,
            Call::Charge { .. } => 40,
            Call::Administrative { .. } => 32,
            Call::Trace { samples, .. } => 56 + samples.len(),
            Call::History {
                veto_times,
                veto_masks,
                trigger_times,
                trigger_masks,
                ..
            } => {
                let times = veto_times.len() + trigger_times.len();
                24 + times + veto_masks.len() + trigger_masks.len()
            }
            Call::Gps { .. } => 20,
            Call::Trigger { .. } => 36,
            Call::Tlb { .. } => 32,
            Call::CloseConfiguration { .. } | Call::CloseEvent { .. } => 8,
            Call::Rewrite { file } => file.len(),
        }
    }
}

// ---------------------------------------------------------------------------------------------
// Random trees.

/// A file as a caller means to write it: the entries and records are calls without a place.
#[derive(Clone, Debug)]
pub struct Tree {
    pub daq: (u8, u8),
    pub entries: Vec<Call>,
    /// How far the configuration's end is off.
    pub end_shift: isize,
    pub events: Vec<Event>,
    /// Whether a refused entry or record leaves its room free, or takes none.
    pub gaps: bool,
}

/// An event of a tree.
#[derive(Clone, Debug)]
pub struct Event {
    pub class: u32,
    pub category: u32,
    pub event_type: u32,
    pub records: Vec<Call>,
    /// How far the event's end is off.
    pub end_shift: isize,
}

/// FORMAT 9: the tree's calls in order: header; entries, the
/// configuration's closing; each event's records and its closing.
pub fn calls(tree: &Tree) -> Vec<Call> {
    let mut list = vec![Call::Header {
        major: tree.daq.0,
        minor: tree.daq.1,
    }];
    let mut place = place_all(&tree.entries, 16, tree.gaps, &mut list);
    list.push(Call::CloseConfiguration {
        place: 8,
        end: shifted(place, tree.end_shift),
        contents: Vec::new(),
    });
    for event in &tree.events {
        let start = place;
        place = place_all(&event.records, start + 8, tree.gaps, &mut list);
        list.push(Call::CloseEvent {
            place: start,
            end: shifted(place, event.end_shift),
            class: event.class,
            category: event.category,
            event_type: event.event_type,
            contents: Vec::new(),
        });
    }
    list
}

// A number moved up or down, as far as numbers go.
fn shifted(number: usize, by: isize) -> usize {
    if by < 0 {
        number.saturating_sub(by.unsigned_abs())
    } else {
        number.saturating_add(by.unsigned_abs())
    }
}

// A container's entries or records from a place on; gives the next place.
fn place_all(members: &[Call], first: usize, gaps: bool, list: &mut Vec<Call>) -> usize {
    let mut place = first;
    for member in members {
        list.push(member.clone().at(place));
        let size = member.size();
        if gaps || perform(member, &mut vec![0; size]).is_ok() {
            place += size;
        }
    }
    place
}

/// The tree's length in bytes: how long an output has to be for all of its calls.
pub fn tree_length(tree: &Tree) -> usize {
    let mut longest = 8;
    for call in calls(tree) {
        longest = longest.max(match call {
            Call::CloseConfiguration { place, end, .. } | Call::CloseEvent { place, end, .. } => {
                end.max(place + 8)
            }
            other => other.place() + other.size(),
        });
    }
    longest
}

/// FORMAT 9: the tree's calls performed in order over one output.
pub fn assemble(tree: &Tree, out: &mut [u8]) -> Vec<Answer> {
    calls(tree).iter().map(|call| perform(call, out)).collect()
}

/// A tree without a fault.
pub fn valid_tree(random: &mut Random) -> Tree {
    tree_of(&valid_parts(random))
}

/// A tree, with a fault or some in every other case.
pub fn random_tree(random: &mut Random) -> Tree {
    let mut tree = valid_tree(random);
    tree.gaps = random.once_in(4);
    if random.once_in(2) {
        for _ in 0..random.between(1, 3) {
            spoil(random, &mut tree);
        }
    }
    tree
}

// FORMAT 6.5: a file in parts as a tree.
fn tree_of(parts: &Parts) -> Tree {
    let [major, minor, _, _] = parts.version.to_be_bytes();
    Tree {
        daq: (major, minor),
        entries: parts.entries.iter().map(|bytes| call_of(bytes)).collect(),
        end_shift: 0,
        events: parts.events.iter().map(event_of).collect(),
        gaps: false,
    }
}

// FORMAT 6.2: an event in parts as a tree's event.
fn event_of((first_word, records): &(u32, Vec<Vec<u8>>)) -> Event {
    Event {
        class: first_word >> 12 & 0xF,
        category: first_word >> 8 & 0xF,
        event_type: first_word & 0xFF,
        records: records.iter().map(|bytes| call_of(bytes)).collect(),
        end_shift: 0,
    }
}

// FORMAT 9.2: the call that writes a valid structure.
fn call_of(bytes: &[u8]) -> Call {
    let place = 0;
    match record(bytes, 0).expect("a valid structure") {
        Record::Phonon(words) => Call::Phonon { place, words },
        Record::Charge(words) => Call::Charge { place, words },
        Record::Trigger(masks) => Call::Trigger { place, masks },
        Record::Tlb(masks) => Call::Tlb { place, masks },
        Record::Administrative {
            series_date,
            series_time,
            event_number,
            event_time,
            since_last,
            live,
        } => Call::Administrative {
            place,
            series_date,
            series_time,
            event_number,
            event_time,
            since_last,
            live,
        },
        Record::Trace {
            base_address,
            channel,
            code,
            t0,
            delta_t,
            n,
        } => Call::Trace {
            place,
            base_address,
            channel,
            code,
            t0,
            delta_t,
            n,
            samples: bytes[56..].to_vec(),
        },
        Record::History {
            nvt,
            veto_times,
            nvw,
            veto_masks,
            ntt,
            trigger_times,
            ntw,
            trigger_masks,
        } => Call::History {
            place,
            nvt,
            veto_times: words_from(bytes, veto_times, nvt),
            nvw,
            veto_masks: words_from(bytes, veto_masks, nvt * nvw),
            ntt,
            trigger_times: words_from(bytes, trigger_times, ntt),
            ntw,
            trigger_masks: words_from(bytes, trigger_masks, ntt * ntw),
        },
        Record::Gps {
            year,
            day,
            status,
            hour,
            minute,
            second,
            tenths,
        } => Call::Gps {
            place,
            year,
            day,
            status,
            hour,
            minute,
            second,
            tenths,
        },
    }
}

// FORMAT 5.3: the bytes of so many words.
fn words_from(bytes: &[u8], start: u64, count: u32) -> Vec<u8> {
    let first = start as usize;
    bytes[first..first + 4 * count as usize].to_vec()
}

// One fault, or a field at a boundary, somewhere in a tree.
fn spoil(random: &mut Random, tree: &mut Tree) {
    if tree.events.is_empty() || random.once_in(4) {
        spoil_members(random, &mut tree.entries, &mut tree.end_shift);
        return;
    }
    let chosen = random.below(tree.events.len() as u64) as usize;
    let event = &mut tree.events[chosen];
    match random.below(6) {
        0 => event.class = random.pick(&CLASSES),
        1 => event.category = random.pick(&CATEGORIES),
        2 => event.event_type = random.pick(&TYPES),
        _ => spoil_members(random, &mut event.records, &mut event.end_shift),
    }
}

// One change of a container's list of entries or records, or of its end.
fn spoil_members(random: &mut Random, members: &mut Vec<Call>, end_shift: &mut isize) {
    let stranger = random.pick(&bases().iter().collect::<Vec<_>>()).clone();
    let place = random.below(members.len() as u64 + 1) as usize;
    if members.is_empty() || random.once_in(8) {
        members.insert(place, stranger);
        return;
    }
    let chosen = random.below(members.len() as u64) as usize;
    match random.below(8) {
        0 => *end_shift = random.pick(&[-9, -8, -4, -1, 1, 4, 7, 8, 1_000]),
        1 => members.insert(place, members[chosen].clone()),
        2 => drop(members.remove(chosen)),
        3 => members.swap(0, chosen),
        _ => {
            let mut changed = variants(&members[chosen]);
            let which = random.below(changed.len() as u64) as usize;
            members[chosen] = changed.swap_remove(which);
        }
    }
}

// ---------------------------------------------------------------------------------------------
// Values at and around the boundaries of the fields.

/// FORMAT 6.2: class, four bits, 0 or 2.
const CLASSES: [u32; 10] = [0, 1, 2, 3, 4, 15, 16, 18, 0x8000_0000, u32::MAX];

/// FORMAT 6.2: category, four bits, 0, 1 or 6.
const CATEGORIES: [u32; 12] = [0, 1, 2, 5, 6, 7, 15, 16, 17, 22, 0x8000_0000, u32::MAX];

/// FORMAT 6.2: type, eight bits, 0 to 0xA but 7.
const TYPES: [u32; 22] = [
    0,
    1,
    2,
    3,
    4,
    5,
    6,
    7,
    8,
    9,
    0xA,
    0xB,
    0xC,
    0x10,
    0x17,
    0x7F,
    0x80,
    0xFF,
    0x100,
    0x107,
    0x8000_0007,
    u32::MAX,
];

/// FORMAT 4: signed words that are free.
const SIGNED: [i32; 9] = [
    i32::MIN,
    i32::MIN + 1,
    -1_000,
    -1,
    0,
    1,
    25,
    i32::MAX - 1,
    i32::MAX,
];

/// FORMAT 5: words that are free.
const FREE: [u32; 6] = [0, 1, 0x0102_0304, 0x7FFF_FFFF, 0x8000_0000, u32::MAX];

/// FORMAT 5.3: counts at the ends of the signed words, and such whose
/// size in bytes is not a 32-bit number.
const COUNTS: [u32; 13] = [
    0,
    1,
    2,
    6,
    0x2000_0000,
    0x3FFF_FFFF,
    0x4000_0000,
    0x4000_0001,
    0x7FFF_FFFF,
    0x8000_0000,
    0x8000_0001,
    0xC000_0000,
    u32::MAX,
];

/// FORMAT 4, 5: words near some rule, for contents.
const CONTENT_WORDS: [u32; 62] = [
    0,
    1,
    2,
    3,
    4,
    6,
    7,
    8,
    9,
    11,
    12,
    13,
    16,
    17,
    18,
    19,
    20,
    23,
    24,
    25,
    28,
    29,
    32,
    33,
    44,
    45,
    48,
    49,
    52,
    60,
    GPS,
    TRIGGER,
    TLB,
    1_160,
    2_359,
    2_360,
    32_768,
    32_770,
    CONFIGURATION,
    PHONON,
    CHARGE,
    EVENT,
    EVENT + 7,
    MAGIC,
    1_100_229,
    1_120_229,
    4_100_101,
    100_100_101,
    3_005_000,
    3_005_001,
    4_001_000,
    4_001_002,
    11_017_006,
    12_000_000,
    0x2004_0366,
    0x2005_0366,
    0x0023_5959,
    0x0023_5960,
    0x0999_9999,
    0x0100_0001,
    0x7FFF_FFFF,
    u32::MAX,
];

// FORMAT 3.2: codes of listed and unlisted types and channels, and codes past the end.
fn codes() -> Vec<u32> {
    let mut list = vec![
        999_999_999,
        1_000_000_000,
        1_004_001_002,
        2_147_483_647,
        2_147_483_648,
        u32::MAX,
    ];
    for detector_type in (0..=12).chain([99, 100, 104, 999]) {
        for number in [0, 1, 999] {
            for channel in (0..=13).chain([99, 100, 102, 999]) {
                list.push(detector_type * 1_000_000 + number * 1_000 + channel);
            }
        }
    }
    list
}

// FORMAT 5.1: LLYYMMDD; every LL, then the ends of every month.
fn series_dates() -> Vec<u32> {
    let mut list = vec![0, 101, 99_999_999, 100_000_000, 0x0110_0115, u32::MAX];
    list.extend((0..=101).map(|location| location * 1_000_000 + 100_115));
    list.extend((1..=42).map(|hundreds| hundreds * 100_000_000 + 1_100_115));
    for year in [0, 1, 2, 4, 96, 98, 99] {
        for month in 0..=13 {
            let days = [0, 1, 28, 29, 30, 31, 32, 99];
            list.extend(days.map(|day| 1_000_000 + year * 10_000 + month * 100 + day));
        }
    }
    list
}

// FORMAT 5.1: HHMM; the ends of every hour.
fn series_times() -> Vec<u32> {
    let mut list = vec![10_000, 10_059, 12_359, 0x1630, 0x8000_0000, u32::MAX];
    for hour in 0..=25 {
        list.extend([0, 1, 59, 60, 61, 99].map(|minute| 100 * hour + minute));
    }
    list
}

/// FORMAT 5.2: counts of samples around 512 and 1,024 bytes, 4,096, 8,192 and
/// 12,288; an implementation may store a part in blocks.
const AROUND_BLOCKS: [u32; 15] = [
    254, 256, 258, 510, 512, 514, 2_046, 2_048, 2_050, 4_094, 4_096, 4_098, 6_142, 6_144, 6_146,
];

/// FORMAT 5.3: counts of times, or of masks, whose lists have 512, 1,024,
/// 4,096 or 8,192 bytes, or a little less or more: of 4 bytes each, or of 24.
const LONG_LISTS: [u32; 17] = [
    21, 22, 42, 43, 127, 128, 129, 170, 171, 341, 342, 1_023, 1_024, 1_025, 2_047, 2_048, 2_049,
];

// FORMAT 5.2: n with the size of the samples handed over.
fn sample_sizes() -> Vec<(u32, usize)> {
    let mut list: Vec<(u32, usize)> = Vec::new();
    list.extend((0..=100).map(|n| (n, 2 * n as usize)));
    list.extend((32_764..=32_772).map(|n| (n, 2 * n as usize)));
    list.extend(AROUND_BLOCKS.map(|n| (n, 2 * n as usize)));
    for n in [2, 4, 10, 32_768] {
        let right = 2 * n as usize;
        let around = [right - 4, right - 2, right - 1, right + 1, right + 2];
        list.extend(around.map(|size| (n, size)));
        list.extend([0, 1, right / 2, right + 4, 2 * right].map(|size| (n, size)));
    }
    let wide = [0x10002, 0x7FFF_FFFE, 0x8000_0000, 0x8000_0002, 0x8000_8000];
    for n in wide.into_iter().chain([u32::MAX - 1, u32::MAX]) {
        list.extend([0, 2, 4].map(|size| (n, size)));
    }
    list
}

/// The bytes of a part that is handed over: no two near ones alike, and no two blocks of 256 in
/// 65,536 bytes.
pub fn part(size: usize) -> Vec<u8> {
    let mut bytes = vec![0; size];
    for (block, held) in bytes.chunks_mut(256).enumerate() {
        for (place, byte) in held.iter_mut().enumerate() {
            *byte = (37 * place + 101 * block + 11) as u8;
        }
    }
    bytes
}

/// Versions of an entry's or a record's call, each with one field (with its part) at or around
/// a boundary; none for other calls.
pub fn variants(call: &Call) -> Vec<Call> {
    match call {
        Call::Phonon { words, .. } => entry_variants(words, |words| Call::Phonon {
            place: 0,
            words: words.try_into().expect("eleven words"),
        }),
        Call::Charge { words, .. } => entry_variants(words, |words| Call::Charge {
            place: 0,
            words: words.try_into().expect("eight words"),
        }),
        Call::Administrative { .. } => administrative_variants(call),
        Call::Trace { .. } => trace_variants(call),
        Call::History { .. } => history_variants(call),
        Call::Gps { .. } => gps_variants(call),
        Call::Trigger { masks, .. } => trigger_variants(masks),
        Call::Tlb { masks, .. } => tlb_variants(masks),
        _ => Vec::new(),
    }
}

// Copies of a call, each with a change made by a value of a list.
fn changed<T: Copy>(call: &Call, list: &[T], change: impl Fn(&mut Call, T)) -> Vec<Call> {
    let mut copies = Vec::new();
    for value in list {
        let mut copy = call.clone();
        change(&mut copy, *value);
        copies.push(copy);
    }
    copies
}

// FORMAT 4.1, 4.2: the code, then the words that are free.
fn entry_variants(words: &[i32], call: impl Fn(&[i32]) -> Call) -> Vec<Call> {
    let mut list = Vec::new();
    let mut held = words.to_vec();
    for code in codes() {
        held[0] = code as i32;
        list.push(call(&held));
    }
    for position in 1..words.len() {
        held = words.to_vec();
        for value in SIGNED {
            held[position] = value;
            list.push(call(&held));
        }
    }
    list
}

// FORMAT 5.1: administrative; the series words, then the words that are free.
fn administrative_variants(call: &Call) -> Vec<Call> {
    let set = |position: usize| {
        move |call: &mut Call, value: u32| {
            if let Call::Administrative {
                series_date,
                series_time,
                event_number,
                event_time,
                since_last,
                live,
                ..
            } = call
            {
                let fields = [
                    series_date,
                    series_time,
                    event_number,
                    event_time,
                    since_last,
                    live,
                ];
                *fields.into_iter().nth(position).expect("six fields") = value;
            }
        }
    };
    let mut list = changed(call, &series_dates(), set(0));
    list.extend(changed(call, &series_times(), set(1)));
    for position in 2..6 {
        list.extend(changed(call, &FREE, set(position)));
    }
    list
}

// FORMAT 5.2: trace; each word, then n with its samples.
fn trace_variants(call: &Call) -> Vec<Call> {
    let set = |position: usize| {
        move |call: &mut Call, value: u32| {
            if let Call::Trace {
                base_address,
                channel,
                code,
                t0,
                delta_t,
                ..
            } = call
            {
                match position {
                    0 => *base_address = value,
                    1 => *channel = value,
                    2 => *code = value,
                    3 => *t0 = value as i32,
                    _ => *delta_t = value,
                }
            }
        }
    };
    let mut list = changed(call, &FREE, set(0));
    let mut channels: Vec<u32> = (0..=10).collect();
    channels.extend([0x101, 0x8000_0001, u32::MAX]);
    list.extend(changed(call, &channels, set(1)));
    list.extend(changed(call, &codes(), set(2)));
    list.extend(changed(call, &SIGNED.map(|value| value as u32), set(3)));
    list.extend(changed(call, &FREE, set(4)));
    list.extend(changed(call, &sample_sizes(), |call, (given, size)| {
        set_samples(call, given, size);
    }));
    list
}

// FORMAT 5.2: another n, and samples of a size.
fn set_samples(call: &mut Call, given: u32, size: usize) {
    if let Call::Trace { n, samples, .. } = call {
        *n = given;
        *samples = part(size);
    }
}

// FORMAT 5.3: a call from counts and sizes of the four lists; no list's
// bytes are another's.
fn history_call(counts: [u32; 4], sizes: [usize; 4]) -> Call {
    let all = part(sizes.iter().sum());
    let mut rest = &all[..];
    let [veto_times, veto_masks, trigger_times, trigger_masks] = sizes.map(|size| {
        let (list, behind) = rest.split_at(size);
        rest = behind;
        list.to_vec()
    });
    Call::History {
        place: 0,
        nvt: counts[0],
        veto_times,
        nvw: counts[1],
        veto_masks,
        ntt: counts[2],
        trigger_times,
        ntw: counts[3],
        trigger_masks,
    }
}

// FORMAT 5.3: the sizes of the four lists by small counts.
fn list_sizes(counts: [u32; 4]) -> [usize; 4] {
    let [nvt, nvw, ntt, ntw] = counts.map(|count| count as usize);
    [4 * nvt, 4 * nvt * nvw, 4 * ntt, 4 * ntt * ntw]
}

// FORMAT 5.3: history; every small set of counts, long lists, then each count and
// each size off from the call's own.
fn history_variants(call: &Call) -> Vec<Call> {
    let mut list = small_histories();
    list.extend(long_histories());
    let (own_counts, own_sizes) = counts_and_sizes(call);
    for position in 0..4 {
        for count in COUNTS {
            let mut counts = own_counts;
            counts[position] = count;
            list.push(history_call(counts, own_sizes));
            list.push(history_call(counts, wrapped_sizes(counts)));
        }
        for off in [-5, -4, -1, 1, 4, 5] {
            let mut sizes = own_sizes;
            sizes[position] = shifted(sizes[position], off);
            list.push(history_call(own_counts, sizes));
        }
    }
    list
}

// FORMAT 5.3: the four counts, and the sizes of the lists handed over.
fn counts_and_sizes(call: &Call) -> ([u32; 4], [usize; 4]) {
    match call {
        Call::History {
            nvt,
            veto_times,
            nvw,
            veto_masks,
            ntt,
            trigger_times,
            ntw,
            trigger_masks,
            ..
        } => {
            let lists = [veto_times, veto_masks, trigger_times, trigger_masks];
            ([*nvt, *nvw, *ntt, *ntw], lists.map(|list| list.len()))
        }
        _ => ([0; 4], [0; 4]),
    }
}

// FORMAT 5.3: every small set of counts, with lists of their sizes.
fn small_histories() -> Vec<Call> {
    let mut list = Vec::new();
    for nvt in 0..3 {
        for nvw in 0..3 {
            for ntt in 0..3 {
                for ntw in [0, 1, 5, 6, 7] {
                    let counts = [nvt, nvw, ntt, ntw];
                    list.push(history_call(counts, list_sizes(counts)));
                }
            }
        }
    }
    list
}

// FORMAT 5.3: long veto times with their masks, veto masks alone, trigger
// times with their masks.
fn long_histories() -> Vec<Call> {
    let mut list = Vec::new();
    for many in LONG_LISTS {
        for counts in [[many, 1, 1, 6], [1, many, 1, 6], [1, 1, many, 6]] {
            list.push(history_call(counts, list_sizes(counts)));
        }
    }
    list
}

// FORMAT 5.3, number 6: the sizes that the counts would have by 32-bit arithmetic,
// where those are small; else none.
fn wrapped_sizes(counts: [u32; 4]) -> [usize; 4] {
    let [nvt, nvw, ntt, ntw] = counts;
    let masks = |times: u32, each: u32| times.wrapping_mul(each).wrapping_mul(4);
    [
        masks(nvt, 1),
        masks(nvt, nvw),
        masks(ntt, 1),
        masks(ntt, ntw),
    ]
    .map(|size| if size < 1_000 { size as usize } else { 0 })
}

// FORMAT 5.4: GPS; each of the seven fields, the day in years of every sort.
fn gps_variants(call: &Call) -> Vec<Call> {
    let set = |position: usize| {
        move |call: &mut Call, value: u32| {
            if let Call::Gps {
                year,
                day,
                status,
                hour,
                minute,
                second,
                tenths,
                ..
            } = call
            {
                let fields = [year, day, status, hour, minute, second, tenths];
                *fields.into_iter().nth(position).expect("seven fields") = value;
            }
        }
    };
    let years = [
        0,
        1,
        4,
        100,
        400,
        1900,
        1999,
        2000,
        2004,
        2005,
        2100,
        2400,
        9996,
        9999,
        10_000,
        0x2005,
        99_999,
        u32::MAX,
    ];
    let days = [
        0,
        1,
        9,
        10,
        99,
        100,
        365,
        366,
        367,
        1_000,
        0x365,
        10_001,
        u32::MAX,
    ];
    let sixty = [0, 1, 9, 10, 58, 59, 60, 61, 99, 100, 256, u32::MAX];
    let mut list = Vec::new();
    for with_year in changed(call, &years, set(0)) {
        list.extend(changed(&with_year, &days, set(1)));
    }
    list.extend(changed(
        call,
        &[0, 1, 9, 10, 15, 16, 17, 256, u32::MAX],
        set(2),
    ));
    let hours = [0, 1, 9, 10, 19, 20, 23, 24, 25, 99, 100, 256, u32::MAX];
    list.extend(changed(call, &hours, set(3)));
    list.extend(changed(call, &sixty, set(4)));
    list.extend(changed(call, &sixty, set(5)));
    let tenths = [
        0,
        1,
        9,
        10,
        2_000_000,
        9_999_999,
        10_000_000,
        99_999_999,
        100_000_000,
        u32::MAX,
    ];
    list.extend(changed(call, &tenths, set(6)));
    list
}

// FORMAT 5.5: trigger; six free masks.
fn trigger_variants(masks: &[u32; 6]) -> Vec<Call> {
    let mut list = Vec::new();
    for position in 0..6 {
        for value in FREE {
            let mut masks = *masks;
            masks[position] = value;
            list.push(Call::Trigger { place: 0, masks });
        }
    }
    list
}

// FORMAT 5.6: TLB; each word zero, with its own top byte, or with another.
fn tlb_variants(masks: &[u32; 6]) -> Vec<Call> {
    let mut list = Vec::new();
    for position in 0..6 {
        let mut values = vec![0, 1, 0x00FF_FFFF, 0x8000_0000, u32::MAX];
        for top in (0..=8).chain([0x11 * (position as u32 + 1), 0x80 + position as u32 + 1]) {
            values.extend([top << 24, top << 24 | 1, top << 24 | 0x00FF_FFFF]);
        }
        for value in values {
            let mut masks = *masks;
            masks[position] = value;
            list.push(Call::Tlb { place: 0, masks });
        }
    }
    list
}

// ---------------------------------------------------------------------------------------------
// Aimed calls.

/// FORMAT 9.1: single calls with their output's length. Every field of every
/// writer stands at its boundaries; every refusal is given at least a hundred times.
pub fn aimed_calls() -> Vec<(Call, usize)> {
    let mut list = Vec::new();
    aim_headers(&mut list);
    for base in bases() {
        aim_fields(&base, &mut list);
        aim_places(&base, &mut list);
        aim_limits(&base, &mut list);
    }
    aim_long_parts(&mut list);
    aim_own_words(&mut list);
    aim_ends(&mut list);
    aim_contents(&mut list);
    aim_closing_limits(&mut list);
    aim_rewrites(&mut list);
    aim_rewrite_limits(&mut list);
    list
}

// FORMAT 4, 5: one valid call of each of the eight kinds.
fn bases() -> Vec<Call> {
    let place = 0;
    vec![
        Call::Phonon {
            place,
            words: [4_001_002, 1, 100, -25, 33, 7, -8, 9, 800, -512_000, 2_048],
        },
        Call::Charge {
            place,
            words: [11_017_006, 5, 100, -3_000, 12, 800, -512_000, 2_048],
        },
        Call::Administrative {
            place,
            series_date: 1_100_115,
            series_time: 1_630,
            event_number: 7,
            event_time: 1_263_573_000,
            since_last: 20,
            live: 19,
        },
        Call::Trace {
            place,
            base_address: 0xF000_0000,
            channel: 3,
            code: 10_001_003,
            t0: -409_600,
            delta_t: 800,
            n: 4,
            samples: part(8),
        },
        history_call([2, 3, 1, 6], list_sizes([2, 3, 1, 6])),
        Call::Gps {
            place,
            year: 2005,
            day: 320,
            status: 0,
            hour: 11,
            minute: 15,
            second: 26,
            tenths: 2_000_000,
        },
        Call::Trigger {
            place,
            masks: [1, 2, 3, 0x8000_0000, 5, u32::MAX],
        },
        Call::Tlb {
            place,
            masks: [0x0100_0004, 0x0200_0000, 0, 0x04FF_FFFF, 0x0500_0001, 0],
        },
    ]
}

/// FORMAT 5.2, 5.3: traces and histories with long parts.
pub fn long_calls() -> Vec<Call> {
    let mut long = long_histories();
    for base in bases() {
        if matches!(base, Call::Trace { .. }) {
            long.extend(changed(&base, &AROUND_BLOCKS, |call, n| {
                set_samples(call, n, 2 * n as usize);
            }));
        }
    }
    long
}

// Those, at places of every alignment, where they fit exactly.
fn aim_long_parts(list: &mut Vec<(Call, usize)>) {
    for call in long_calls() {
        for place in 0..16 {
            list.push((call.clone().at(place), place + call.size()));
        }
    }
}

// FORMAT 6.4: the file header; free DAQ bytes, lengths around 8 and the limit.
fn aim_headers(list: &mut Vec<(Call, usize)>) {
    for (major, minor) in [
        (0, 0),
        (1, 0),
        (0, 1),
        (2, 3),
        (255, 0),
        (0, 255),
        (255, 255),
    ] {
        for length in (0..=10).chain([MOST_BYTES, MOST_BYTES + 1]) {
            list.push((Call::Header { major, minor }, length));
        }
    }
}

// FORMAT 9.1: fields before 13; each version where it fits exactly,
// with bytes left over, and where one byte is missing.
fn aim_fields(base: &Call, list: &mut Vec<(Call, usize)>) {
    for version in variants(base) {
        let size = version.size();
        list.push((version.clone().at(5), 5 + size));
        list.push((version.clone().at(3), 3 + size + 9));
        list.push((version.at(4), 4 + size - 1));
    }
}

// FORMAT 9.1, number 13: places and lengths around the room that is needed.
fn aim_places(base: &Call, list: &mut Vec<(Call, usize)>) {
    let size = base.size();
    let near = [0, 1, 7, 8, size - 1, size, size + 1, 2 * size];
    let far = [
        usize::MAX - 2 * size,
        usize::MAX - size,
        usize::MAX - size + 1,
        usize::MAX - 8,
        usize::MAX - 7,
        usize::MAX,
        u32::MAX as usize - size + 1,
        u32::MAX as usize + 1,
    ];
    for length in near {
        for place in near.into_iter().chain(far) {
            list.push((base.clone().at(place), length));
        }
    }
}

// FORMAT 1.1, number 1: outputs at the limit and over it, before all else.
fn aim_limits(base: &Call, list: &mut Vec<(Call, usize)>) {
    let last = MOST_BYTES - base.size();
    for place in [last, last + 1, MOST_BYTES, MOST_BYTES + 1] {
        list.push((base.clone().at(place), MOST_BYTES));
    }
    for place in [0, last + 1, MOST_BYTES + 2, usize::MAX] {
        list.push((base.clone().at(place), MOST_BYTES + 1));
    }
    let versions = variants(base);
    for version in versions.iter().step_by(versions.len() / 8 + 1) {
        list.push((version.clone().at(5), MOST_BYTES + 1));
    }
}

// FORMAT 4, 5: a valid entry's or record's bytes.
fn written(call: &Call) -> Vec<u8> {
    let mut out = vec![0; call.size()];
    perform(call, &mut out).expect("a valid call");
    out
}

// FORMAT 6.2, 6.3: the two entries, or the six records of an event, as bytes.
fn valid_members() -> (Vec<Vec<u8>>, Vec<Vec<u8>>) {
    let mut all: Vec<Vec<u8>> = bases().iter().map(written).collect();
    let records = all.split_off(2);
    (all, records)
}

// A closing over contents at a place, its end where they end; bytes are left over.
fn closing(event: Option<[u32; 3]>, place: usize, contents: Vec<u8>) -> (Call, usize) {
    let end = place + 8 + contents.len();
    (closing_to(event, place, end, contents), end + 3)
}

// A closing over contents at a place with any end; an event has class, category and type.
fn closing_to(event: Option<[u32; 3]>, place: usize, end: usize, contents: Vec<u8>) -> Call {
    match event {
        None => Call::CloseConfiguration {
            place,
            end,
            contents,
        },
        Some([class, category, event_type]) => Call::CloseEvent {
            place,
            end,
            class,
            category,
            event_type,
            contents,
        },
    }
}

// FORMAT 9.4: 7, then 8, before 9 for length 0 and before the contents.
fn aim_own_words(list: &mut Vec<(Call, usize)>) {
    let (_, records) = valid_members();
    let contents = [records[0].clone(), Vec::new(), words(&[9, 9])];
    for class in CLASSES {
        for category in CATEGORIES {
            for event_type in TYPES {
                for held in &contents {
                    let own = Some([class, category, event_type]);
                    list.push(closing(own, 5, held.clone()));
                }
            }
        }
    }
    for category in [0, 1, 6] {
        for cut in 0..40 {
            let held = records.concat()[..cut].to_vec();
            list.push(closing(Some([2, category, 7]), 16, held));
        }
    }
}

// FORMAT 9.4, number 13: places and ends around the output; before the own word.
fn aim_ends(list: &mut Vec<(Call, usize)>) {
    let (entries, records) = valid_members();
    let kinds = [
        (None, entries.concat()),
        (Some([0, 0, 0]), records.concat()),
        (Some([1, 0, 0]), records[0].clone()),
        (None, Vec::new()),
        (Some([0, 0, 7]), Vec::new()),
    ];
    for (event, contents) in kinds {
        for place in [0, 1, 16] {
            let end = place + 8 + contents.len();
            aim_ends_of(event, place, end, &contents, list);
        }
    }
}

// FORMAT 9.4, number 13: one closing, its places, ends and lengths of output.
fn aim_ends_of(
    event: Option<[u32; 3]>,
    place: usize,
    end: usize,
    contents: &[u8],
    list: &mut Vec<(Call, usize)>,
) {
    let far = [usize::MAX, usize::MAX - 7, usize::MAX - 8, 1 << 32];
    for length in [0, place + 7, place + 8, end - 1, end, end + 1] {
        let near = [0, place, place + 7, place + 8, end - 1, end, end + 1];
        for given in near.into_iter().chain([length, length + 1]).chain(far) {
            let call = closing_to(event, place, given, contents.to_vec());
            list.push((call.clone(), length));
            list.push((call.at(length.saturating_sub(8)), length));
        }
        for given in far.into_iter().chain([length + 1, length]) {
            for to in [end, given, given.wrapping_add(8), 0] {
                let call = closing_to(event, given, to, contents.to_vec());
                list.push((call, length));
            }
        }
    }
}

// FORMAT 9.4: the contents' own refusals, in a configuration and an event.
fn aim_contents(list: &mut Vec<(Call, usize)>) {
    let (entries, records) = valid_members();
    for (event, base) in [(None, &entries), (Some([0, 0, 0]), &records)] {
        for contents in contents_of(base, &[&entries[..], &records[..]].concat()) {
            list.push(closing(event, 5, contents));
        }
        let whole = base.concat();
        for end in 8..8 + whole.len() {
            let call = closing_to(event, 16, 16 + end, whole.clone());
            list.push((call, 16 + 8 + whole.len()));
        }
    }
}

// FORMAT 2.3, 9.4: contents made from valid members by
// one change: of the list, of a word, of the length.
fn contents_of(base: &[Vec<u8>], strangers: &[Vec<u8>]) -> Vec<Vec<u8>> {
    let mut list = member_changes(base, strangers);
    let whole = base.concat();
    for place in (0..whole.len()).step_by(4) {
        for value in CONTENT_WORDS {
            let mut contents = whole.clone();
            set_word(&mut contents, place, value);
            list.push(contents);
        }
    }
    for extra in 0..=16 {
        let mut contents = whole.clone();
        contents.extend(vec![0; extra]);
        list.push(contents);
    }
    list.extend(length_changes(base));
    list
}

// FORMAT 2.3: no member, one alone, one missing, one put in again or a
// stranger put in, two exchanged.
fn member_changes(base: &[Vec<u8>], strangers: &[Vec<u8>]) -> Vec<Vec<u8>> {
    let mut list = vec![Vec::new()];
    list.extend(strangers.iter().cloned());
    for place in 0..base.len() {
        let mut without = base.to_vec();
        without.remove(place);
        list.push(without.concat());
        for other in 0..place {
            let mut exchanged = base.to_vec();
            exchanged.swap(place, other);
            list.push(exchanged.concat());
        }
    }
    let kinds = [0, 1, 0x10, 0x12, 0x13, 0x20, CONFIGURATION, EVENT, MAGIC];
    let odd = kinds.map(|kind| structure_of(kind, &[0, 0]));
    for place in 0..=base.len() {
        for stranger in strangers.iter().chain(&odd) {
            let mut with = base.to_vec();
            with.insert(place, stranger.clone());
            list.push(with.concat());
        }
    }
    list
}

// FORMAT 6.1, number 6: each member with a body of another size and a length to it;
// 2: with a length that its bytes don't reach.
fn length_changes(base: &[Vec<u8>]) -> Vec<Vec<u8>> {
    let mut list = Vec::new();
    for (place, member) in base.iter().enumerate() {
        let kind = word_at(member, 0).expect("a kind word");
        for off in -9..=9 {
            let length = shifted(member.len() - 8, off);
            let mut body = member[8..].to_vec();
            body.resize(length, 0);
            let mut changed = base.to_vec();
            changed[place] = structure_saying(kind, length as u32, &body);
            list.push(changed.concat());
            changed[place] = structure_saying(kind, length as u32 + 4, &body);
            list.push(changed[..=place].concat());
        }
    }
    list
}

// FORMAT 9.4, number 1: closings over outputs at the limit and over it.
fn aim_closing_limits(list: &mut Vec<(Call, usize)>) {
    let (entries, records) = valid_members();
    let kinds = [
        (None, entries.concat()),
        (Some([0, 1, 2]), records.concat()),
        (Some([0, 0, 7]), Vec::new()),
        (Some([3, 0, 0]), Vec::new()),
    ];
    for (event, contents) in kinds {
        let place = MOST_BYTES - 8 - contents.len();
        for (length, end) in [(MOST_BYTES, MOST_BYTES), (MOST_BYTES + 1, MOST_BYTES)] {
            list.push((closing_to(event, place, end, contents.clone()), length));
            list.push((closing_to(event, 16, end, contents.clone()), length));
        }
        let over = MOST_BYTES + 1;
        for end in [place, over, over + 1, usize::MAX] {
            list.push((closing_to(event, place, end, contents.clone()), MOST_BYTES));
            list.push((closing_to(event, place, end, contents.clone()), over));
        }
    }
}

// FORMAT 6.5: a file from contents, as its configuration's or its event's.
fn file_of(event: bool, contents: &[u8]) -> Vec<u8> {
    let length = contents.len() as u32;
    let mut file = words(&[MAGIC, VERSION]);
    if event {
        file.extend(structure_of(CONFIGURATION, &[]));
        file.extend(structure_saying(EVENT, length, contents));
    } else {
        file.extend(structure_saying(CONFIGURATION, length, contents));
    }
    file
}

// FORMAT 9.5: the file's refusal before 13; accepted files into outputs
// of every length around theirs.
fn aim_rewrites(list: &mut Vec<(Call, usize)>) {
    let (entries, records) = valid_members();
    for (event, base) in [(false, &entries), (true, &records)] {
        for contents in contents_of(base, &[&entries[..], &records[..]].concat()) {
            let file = file_of(event, &contents);
            let length = file.len() + contents.len() % 3;
            list.push((Call::Rewrite { file }, length));
        }
    }
    let mut file = file_of(false, &entries.concat());
    file.extend(&file_of(true, &records.concat())[16..]);
    for length in 0..file.len() + 8 {
        list.push((Call::Rewrite { file: file.clone() }, length));
    }
    for cut in 0..file.len() {
        let file = file[..cut].to_vec();
        list.push((Call::Rewrite { file }, cut));
    }
    aim_file_headers(&file, list);
}

// FORMAT 6.4, numbers 3 and 4: files with any other first word or format; the DAQ
// bytes are free.
fn aim_file_headers(file: &[u8], list: &mut Vec<(Call, usize)>) {
    let mut push = |place: usize, value: u8, length: usize| {
        let mut file = file.to_vec();
        file[place] = value;
        list.push((Call::Rewrite { file }, length));
    };
    for place in 0..8 {
        for value in (0..=255).step_by(3).chain([1, 2, 4]) {
            push(place, value, file.len());
            push(place, value, 5);
        }
    }
}

// FORMAT 9.5: 1 for either buffer, before the file's refusal and 13; the
// limit is not asked of a list that is handed over.
fn aim_rewrite_limits(list: &mut Vec<(Call, usize)>) {
    let (_, records) = valid_members();
    let good = file_of(true, &records.concat());
    for file in [good, words(&[MAGIC]), Vec::new()] {
        list.push((Call::Rewrite { file: file.clone() }, MOST_BYTES));
        list.push((Call::Rewrite { file }, MOST_BYTES + 1));
    }
    for (size, length) in [(0, 0), (1, 0), (1, 100), (1, MOST_BYTES + 1)] {
        let file = vec![0; MOST_BYTES + size];
        list.push((Call::Rewrite { file }, length));
    }
    let counts = [4_194_305, 1, 0, 0];
    list.push((history_call(counts, list_sizes(counts)), 64));
}

// ---------------------------------------------------------------------------------------------
// Random calls.

/// A single call of any sort with its output's length: a writer with a field changed or not,
/// a closing over contents damaged or not, or a rewriting of a file of any sort.
pub fn random_call(random: &mut Random) -> (Call, usize) {
    match random.below(4) {
        0 => random_write(random),
        1 | 2 => random_closing(random),
        _ => {
            let file = random_file(random);
            let length = around(random, file.len());
            (Call::Rewrite { file }, length)
        }
    }
}

// A length or an end that is right in most cases, or a little off.
fn around(random: &mut Random, right: usize) -> usize {
    match random.below(6) {
        0 => right.saturating_sub(random.below(10) as usize),
        1 | 2 => right + random.below(10) as usize,
        _ => right,
    }
}

// One entry or record of a random tree, with a field at a boundary or not.
fn random_write(random: &mut Random) -> (Call, usize) {
    let tree = valid_tree(random);
    let records = tree.events.into_iter().flat_map(|event| event.records);
    let mut all: Vec<Call> = tree.entries.into_iter().chain(records).collect();
    all.extend(bases());
    let mut call = all.swap_remove(random.below(all.len() as u64) as usize);
    for _ in 0..random.below(3) {
        let mut changed = variants(&call);
        let which = random.below(changed.len() as u64) as usize;
        call = changed.swap_remove(which);
    }
    let place = random.below(40) as usize;
    let length = around(random, place + call.size());
    (call.at(place), length)
}

// A closing over the contents of a random file's container, with up to three changes.
fn random_closing(random: &mut Random) -> (Call, usize) {
    let parts = valid_parts(random);
    let place = random.below(40) as usize;
    let (event, mut contents) = match parts.events.first() {
        Some((_, records)) if !random.once_in(3) => (Some(own_word(random)), records.concat()),
        _ => (None, parts.entries.concat()),
    };
    for _ in 0..random.below(4) {
        damage(random, &mut contents);
    }
    let end = around(random, place + 8 + contents.len());
    let length = around(random, end);
    (closing_to(event, place, end, contents), length)
}

// FORMAT 6.2: class, category and type, admitted in most cases.
fn own_word(random: &mut Random) -> [u32; 3] {
    let mut own = [
        random.pick(&[0, 2]),
        random.pick(&[0, 1, 6]),
        random.pick(&[0, 1, 2, 3, 4, 5, 6, 8, 9, 0xA]),
    ];
    match random.below(24) {
        0 => own[0] = random.pick(&CLASSES),
        1 => own[1] = random.pick(&CATEGORIES),
        2 => own[2] = random.pick(&TYPES),
        _ => {}
    }
    own
}

// FORMAT 9.4: one change of a container's contents.
fn damage(random: &mut Random, contents: &mut Vec<u8>) {
    if contents.is_empty() {
        contents.extend(words(&[random.pick(&CONTENT_WORDS), 0]));
        return;
    }
    let start = likely_start(random, contents);
    let place = match random.below(4) {
        0 => start,
        1 => start + 4,
        2 => start + 8 + 4 * random.below(12) as usize,
        _ => random.below(contents.len() as u64) as usize,
    };
    let held = word_at(contents, place).unwrap_or(0);
    match random.below(8) {
        0 => contents.truncate(place),
        1 => contents.extend(words(&[ADMINISTRATIVE, 24])),
        2 => contents.extend(structure_of(random.pick(&[TRACE, HISTORY, TLB]), &[0; 6])),
        3 => set_word(contents, place, held ^ 1 << random.below(32)),
        4 => set_word(contents, place, held.wrapping_add(1)),
        5 => set_word(contents, place, held.wrapping_sub(1)),
        _ => set_word(contents, place, random.pick(&CONTENT_WORDS)),
    }
}
