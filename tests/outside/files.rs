//! Files to read: building blocks, random valid files, damaged files.

use super::aimed::{aimed, Case};
use super::random::Random;

pub const MAGIC: u32 = 0x0102_0304;
pub const VERSION: u32 = 0x0100_0200;
pub const CONFIGURATION: u32 = 0x0001_0000;
pub const PHONON: u32 = 0x0001_0001;
pub const CHARGE: u32 = 0x0001_0002;
pub const EVENT: u32 = 0xA980_0000;
pub const ADMINISTRATIVE: u32 = 0x02;
pub const TRACE: u32 = 0x11;
pub const HISTORY: u32 = 0x21;
pub const GPS: u32 = 0x60;
pub const TRIGGER: u32 = 0x80;
pub const TLB: u32 = 0x81;

/// The kinds of an event's records.
pub const RECORD_KINDS: [u32; 6] = [ADMINISTRATIVE, TRACE, HISTORY, GPS, TRIGGER, TLB];

/// Words that stand near some rule of docs/FORMAT.md.
const TELLING_WORDS: [u32; 64] = [
    0,
    1,
    2,
    3,
    4,
    5,
    6,
    7,
    8,
    9,
    10,
    11,
    12,
    13,
    16,
    17,
    18,
    19,
    20,
    23,
    24,
    25,
    27,
    28,
    29,
    32,
    33,
    44,
    45,
    47,
    48,
    49,
    50,
    52,
    0x60,
    0x80,
    0x81,
    2359,
    2360,
    32_766,
    32_768,
    32_770,
    CONFIGURATION,
    PHONON,
    CHARGE,
    MAGIC,
    EVENT,
    EVENT + 7,
    EVENT + 0x0B,
    EVENT + 0x1000,
    EVENT + 0x2000,
    EVENT + 0x0200,
    EVENT + 0x0600,
    1_100_115,
    1_100_230,
    11_017_006,
    3_005_000,
    4_001_006,
    0x2005_0366,
    0x0100_0000,
    0x4000_0000,
    0x7FFF_FFFF,
    0x8000_0000,
    0xFFFF_FFFF,
];

// FORMAT 1.2: words of 32 bits, little-endian.
pub fn words(values: &[u32]) -> Vec<u8> {
    let mut bytes = Vec::with_capacity(4 * values.len());
    for value in values {
        bytes.extend_from_slice(&value.to_le_bytes());
    }
    bytes
}

// FORMAT 2.3: a kind word, a length word and bytes, the length as it is said.
pub fn structure_saying(kind: u32, length: u32, body: &[u8]) -> Vec<u8> {
    let mut bytes = words(&[kind, length]);
    bytes.extend_from_slice(body);
    bytes
}

// FORMAT 2.3: a kind word, a length word and those bytes.
pub fn structure(kind: u32, body: &[u8]) -> Vec<u8> {
    structure_saying(kind, body.len() as u32, body)
}

// FORMAT 2.3: a structure of words.
pub fn structure_of(kind: u32, body: &[u32]) -> Vec<u8> {
    structure(kind, &words(body))
}

// FORMAT 6.4: the file header.
pub fn header() -> Vec<u8> {
    words(&[MAGIC, VERSION])
}

// FORMAT 6.3: a configuration of entries.
pub fn configuration(entries: &[Vec<u8>]) -> Vec<u8> {
    structure(CONFIGURATION, &entries.concat())
}

// FORMAT 6.2: an event of records.
pub fn event(first_word: u32, records: &[Vec<u8>]) -> Vec<u8> {
    structure(first_word, &records.concat())
}

// FORMAT 1.2: the word at a place, if all of it stands there.
pub fn word_at(bytes: &[u8], place: usize) -> Option<u32> {
    let part = bytes.get(place..place.checked_add(4)?)?;
    Some(u32::from_le_bytes([part[0], part[1], part[2], part[3]]))
}

// FORMAT 1.2: puts a word at a place, as far as the bytes go.
pub fn set_word(bytes: &mut [u8], place: usize, value: u32) {
    for (offset, byte) in value.to_le_bytes().iter().enumerate() {
        if let Some(held) = bytes.get_mut(place + offset) {
            *held = *byte;
        }
    }
}

/// A file in parts: its header words, its entries, its events with their records.
pub struct Parts {
    pub version: u32,
    pub entries: Vec<Vec<u8>>,
    pub events: Vec<(u32, Vec<Vec<u8>>)>,
}

impl Parts {
    // FORMAT 6.5: header, configuration, events.
    pub fn bytes(&self) -> Vec<u8> {
        let mut bytes = words(&[MAGIC, self.version]);
        bytes.extend(configuration(&self.entries));
        for (first_word, records) in &self.events {
            bytes.extend(event(*first_word, records));
        }
        bytes
    }

    // FORMAT 7.3: how many rows the file has.
    pub fn row_count(&self) -> usize {
        let records: usize = self.events.iter().map(|(_, records)| records.len()).sum();
        2 + self.entries.len() + self.events.len() + records
    }
}

// FORMAT 6.5: a valid file of any shape; the DAQ bytes are free.
pub fn valid_parts(random: &mut Random) -> Parts {
    let entries = match random.below(8) {
        0..=3 => 0,
        4..=6 => random.between(1, 2),
        _ => random.between(3, 6),
    };
    let events = match random.below(8) {
        0 => 0,
        1..=4 => 1,
        5 | 6 => 2,
        _ => random.between(3, 5),
    };
    Parts {
        version: (random.word() & 0xFFFF_0000) | 0x0200,
        entries: (0..entries).map(|_| entry(random)).collect(),
        events: (0..events)
            .map(|_| (first_word(random), records(random)))
            .collect(),
    }
}

// FORMAT 6.2: a first word of two classes, three categories and ten types.
fn first_word(random: &mut Random) -> u32 {
    let class = random.pick(&[0, 2]);
    let category = random.pick(&[0, 1, 6]);
    let event_type = random.pick(&[0, 1, 2, 3, 4, 5, 6, 8, 9, 0xA]);
    EVENT | class << 12 | category << 8 | event_type
}

// FORMAT 6.2: administrative first, then others in any order, every kind but
// trace at most once.
fn records(random: &mut Random) -> Vec<Vec<u8>> {
    let mut others = Vec::new();
    if random.once_in(3) {
        others.push(history(random));
    }
    if random.once_in(3) {
        others.push(gps(random));
    }
    if random.once_in(3) {
        others.push(trigger(random));
    }
    if random.once_in(3) {
        others.push(tlb(random));
    }
    let traces = match random.below(8) {
        0..=2 => 0,
        3..=5 => 1,
        6 => 2,
        _ => random.between(3, 4),
    };
    others.extend((0..traces).map(|_| trace(random)));
    let mut records = vec![administrative(random)];
    while !others.is_empty() {
        let next = random.below(others.len() as u64) as usize;
        records.push(others.swap_remove(next));
    }
    records
}

// FORMAT 4.1, 4.2: a phonon or a charge entry; all but the code is free.
fn entry(random: &mut Random) -> Vec<u8> {
    let phonon = random.once_in(2);
    let channel = if phonon {
        phonon_channel(random)
    } else {
        charge_channel(random)
    };
    let mut body = vec![code(random, channel)];
    let (kind, length) = if phonon { (PHONON, 11) } else { (CHARGE, 8) };
    while body.len() < length {
        body.push(free_word(random));
    }
    structure_of(kind, &body)
}

// FORMAT 1.2: words that are free, signed ones too.
fn free_word(random: &mut Random) -> u32 {
    match random.below(4) {
        0 => random.pick(&TELLING_WORDS),
        1 => (random.below(2_000) as u32).wrapping_sub(1_000),
        2 => (25 * random.below(2_000) as u32).wrapping_sub(25_000),
        _ => random.word(),
    }
}

// FORMAT 3.1: a code of any detector number, from its three groups of digits.
fn code(random: &mut Random, channel: (u32, u32)) -> u32 {
    let number = match random.below(4) {
        0 => 0,
        1 => 17,
        2 => 999,
        _ => random.below(1_000) as u32,
    };
    channel.0 * 1_000_000 + number * 1_000 + channel.1
}

// FORMAT 3.2: type and channel number of a phonon channel.
fn phonon_channel(random: &mut Random) -> (u32, u32) {
    let detector_type = random.pick(&[1, 2, 4, 5, 6, 7, 10, 11]);
    let channel = match detector_type {
        1 => random.pick(&[3, 4]),
        7 => random.pick(&[1, 2]),
        10 | 11 => random.pick(&[2, 3, 4, 5, 8, 9, 10, 11]),
        _ => random.pick(&[2, 3, 4, 5]),
    };
    (detector_type, channel)
}

// FORMAT 3.2: type and channel number of a charge channel.
fn charge_channel(random: &mut Random) -> (u32, u32) {
    let detector_type = random.pick(&[1, 2, 4, 5, 6, 7, 10, 11]);
    let channel = match detector_type {
        1 => random.pick(&[1, 2]),
        7 => 0,
        10 | 11 => random.pick(&[0, 1, 6, 7]),
        _ => random.pick(&[0, 1]),
    };
    (detector_type, channel)
}

// FORMAT 3.2: any listed channel; the veto has 0 only.
fn any_channel(random: &mut Random) -> (u32, u32) {
    match random.below(7) {
        0 => (3, 0),
        1..=3 => phonon_channel(random),
        _ => charge_channel(random),
    }
}

// FORMAT 5.1: administrative.
fn administrative(random: &mut Random) -> Vec<u8> {
    let location = random.pick(&[0, 1, 2, 3, 6, 7, 50, 51, 52, 53, 56, 57]);
    let year = random.below(100) as u32;
    let month = random.between(1, 12) as u32;
    let last = u64::from(last_day(year, month));
    let day = match random.below(3) {
        0 => last as u32,
        _ => random.between(1, last) as u32,
    };
    let time = 100 * random.below(24) as u32 + random.below(60) as u32;
    let event_number = match random.below(3) {
        0 => random.word(),
        _ => random.pick(&[0, 1, 7, 0xFFFF_FFFF]),
    };
    let series = location * 1_000_000 + year * 10_000 + month * 100 + day;
    let body = [
        series,
        time,
        event_number,
        free_word(random),
        free_word(random),
        free_word(random),
    ];
    structure_of(ADMINISTRATIVE, &body)
}

// FORMAT 5.1: the last day of a month; every fourth year is leap.
pub fn last_day(year: u32, month: u32) -> u32 {
    let days = [31, 28, 31, 30, 31, 30, 31, 31, 30, 31, 30, 31];
    let leap_day = u32::from(month == 2 && year % 4 == 0);
    days[month as usize - 1] + leap_day
}

// FORMAT 5.2: trace.
fn trace(random: &mut Random) -> Vec<u8> {
    let n = match random.below(200) {
        0 => 2 * random.between(1, 400) as u32,
        1..=5 => 2 * random.between(8, 32) as u32,
        _ => 2 * random.between(1, 8) as u32,
    };
    let channel = any_channel(random);
    let mut body = vec![
        0x11,
        12,
        free_word(random),
        random.between(1, 8) as u32,
        code(random, channel),
        0x12,
        12,
        free_word(random),
        free_word(random).max(1),
        n,
        0x13,
        n,
    ];
    body.extend((0..n / 2).map(|_| random.word()));
    structure_of(TRACE, &body)
}

// FORMAT 5.3: history, sections missing or not.
fn history(random: &mut Random) -> Vec<u8> {
    let nvt = random.below(4) as u32;
    let nvw = if nvt == 0 {
        0
    } else {
        random.between(1, 3) as u32
    };
    let ntt = random.below(4).min(random.below(4)) as u32;
    let ntw = if ntt == 0 { 0 } else { 6 };
    let mut body = vec![nvt];
    body.extend((0..nvt).map(|_| free_word(random)));
    body.push(nvw);
    body.extend((0..nvt * nvw).map(|_| free_word(random)));
    body.push(ntt);
    body.extend((0..ntt).map(|_| free_word(random)));
    body.push(ntw);
    body.extend((0..ntt * ntw).map(|_| free_word(random)));
    structure_of(HISTORY, &body)
}

// FORMAT 5.4: GPS.
fn gps(random: &mut Random) -> Vec<u8> {
    let year = match random.below(3) {
        0 => random.pick(&[0, 4, 100, 400, 1900, 1999, 2000, 2004, 2100, 9996, 9999]),
        1 => random.between(1990, 2040) as u32,
        _ => random.below(10_000) as u32,
    };
    let leap = year % 400 == 0 || (year % 4 == 0 && year % 100 != 0);
    let last = if leap { 366 } else { 365 };
    let day = match random.below(4) {
        0 => last,
        1 => 1,
        _ => random.between(1, u64::from(last)) as u32,
    };
    let status = random.below(16) as u32;
    let hour = random.below(24) as u32;
    let minute = random.below(60) as u32;
    let second = random.below(60) as u32;
    let tenths = match random.below(4) {
        0 => 9_999_999,
        1 => 0,
        _ => random.below(10_000_000) as u32,
    };
    let clock = bcd(hour * 10_000 + minute * 100 + second);
    let body = [
        bcd(year) << 16 | bcd(day),
        status << 28 | clock,
        bcd(tenths),
    ];
    structure_of(GPS, &body)
}

// FORMAT 5.4: a number of at most eight digits in BCD.
pub fn bcd(value: u32) -> u32 {
    let mut rest = value;
    let mut digits = 0;
    for place in 0..8 {
        digits |= (rest % 10) << (4 * place);
        rest /= 10;
    }
    digits
}

// FORMAT 5.5: trigger; the masks are free.
fn trigger(random: &mut Random) -> Vec<u8> {
    let mut body = vec![0];
    body.extend((0..6).map(|_| free_word(random)));
    structure_of(TRIGGER, &body)
}

// FORMAT 5.6: TLB; each word is 0 or has its tower on top.
fn tlb(random: &mut Random) -> Vec<u8> {
    let mut body = Vec::new();
    for tower in 1..=6 {
        body.push(match random.below(4) {
            0 => 0,
            1 => tower << 24,
            _ => tower << 24 | random.word() >> 8,
        });
    }
    structure_of(TLB, &body)
}

// FORMAT 2.2: a valid file with one change.
fn damaged(random: &mut Random) -> Vec<u8> {
    let mut parts = valid_parts(random);
    if random.once_in(3) {
        damage_parts(random, &mut parts);
        parts.bytes()
    } else {
        let mut bytes = parts.bytes();
        damage_bytes(random, &mut bytes);
        bytes
    }
}

// FORMAT 2.2: a structure duplicated, removed, exchanged or moved.
fn damage_parts(random: &mut Random, parts: &mut Parts) {
    if random.once_in(6) && !parts.entries.is_empty() {
        damage_list(random, &mut parts.entries);
    } else if !parts.events.is_empty() {
        let chosen = random.below(parts.events.len() as u64) as usize;
        if random.once_in(6) {
            let stranger = foreign_structure(random);
            let records = &mut parts.events[chosen].1;
            let place = random.below(records.len() as u64 + 1) as usize;
            records.insert(place, stranger);
        } else {
            damage_list(random, &mut parts.events[chosen].1);
        }
    }
}

// FORMAT 2.3: a member of a container duplicated, removed or exchanged.
fn damage_list(random: &mut Random, list: &mut Vec<Vec<u8>>) {
    let first = random.below(list.len() as u64) as usize;
    let second = random.below(list.len() as u64) as usize;
    match random.below(3) {
        0 => {
            let copy = list[first].clone();
            list.insert(second, copy);
        }
        1 => {
            list.remove(first);
        }
        _ => list.swap(first, second),
    }
}

// FORMAT 2.3: a structure of any kind, perhaps not allowed where it is put.
fn foreign_structure(random: &mut Random) -> Vec<u8> {
    match random.below(6) {
        0 => entry(random),
        1 => configuration(&[]),
        2 => event(EVENT, &[administrative(random)]),
        3 => structure(random.pick(&RECORD_KINDS), &[]),
        4 => administrative(random),
        _ => structure_of(random.pick(&TELLING_WORDS), &[0, 0]),
    }
}

// FORMAT 2.2: one change of a file's bytes.
fn damage_bytes(random: &mut Random, bytes: &mut Vec<u8>) {
    match random.below(14) {
        0 => change_byte(random, bytes),
        1 => flip_bit(random, bytes),
        2 | 3 => change_word(random, bytes),
        4 => shorten(random, bytes),
        5 => append(random, bytes),
        6 | 7 => change_length(random, bytes),
        8 => change_kind(random, bytes),
        9 | 10 => change_field(random, bytes),
        _ => change_header_or_event_word(random, bytes),
    }
}

// One byte of the file takes any value.
fn change_byte(random: &mut Random, bytes: &mut [u8]) {
    if !bytes.is_empty() {
        let place = random.below(bytes.len() as u64) as usize;
        bytes[place] = random.below(256) as u8;
    }
}

// One bit of the file is turned.
fn flip_bit(random: &mut Random, bytes: &mut [u8]) {
    if !bytes.is_empty() {
        let place = random.below(bytes.len() as u64) as usize;
        bytes[place] ^= 1 << random.below(8);
    }
}

// FORMAT 1.2: one word of the file takes a telling value.
fn change_word(random: &mut Random, bytes: &mut [u8]) {
    let place = 4 * random.below(bytes.len() as u64 / 4 + 1) as usize;
    set_word(bytes, place, random.pick(&TELLING_WORDS));
}

// FORMAT 2.3, number 2: the file ends early.
fn shorten(random: &mut Random, bytes: &mut Vec<u8>) {
    let length = random.below(bytes.len() as u64 + 1) as usize;
    bytes.truncate(length);
}

// FORMAT 2.3, number 2: strays after the last structure.
fn append(random: &mut Random, bytes: &mut Vec<u8>) {
    for _ in 0..random.between(1, 12) {
        bytes.push(random.below(256) as u8);
    }
}

// FORMAT 2.3: a length word is a little off, or a telling word.
fn change_length(random: &mut Random, bytes: &mut [u8]) {
    let place = likely_start(random, bytes) + 4;
    if let Some(length) = word_at(bytes, place) {
        let value = match random.below(8) {
            0 => length.wrapping_add(1),
            1 => length.wrapping_sub(1),
            2 => length.wrapping_add(4),
            3 => length.wrapping_sub(4),
            4 => length.wrapping_add(8),
            5 => length.wrapping_sub(8),
            6 => 0,
            _ => random.pick(&TELLING_WORDS),
        };
        set_word(bytes, place, value);
    }
}

// FORMAT 2.3: a kind word becomes another one.
fn change_kind(random: &mut Random, bytes: &mut [u8]) {
    let place = likely_start(random, bytes);
    let kind = match random.below(3) {
        0 => random.pick(&TELLING_WORDS),
        _ => random.pick(&RECORD_KINDS),
    };
    set_word(bytes, place, kind);
}

// FORMAT 5: one of the first words after a length word is changed.
fn change_field(random: &mut Random, bytes: &mut [u8]) {
    let place = likely_start(random, bytes) + 8 + 4 * random.below(12) as usize;
    if let Some(held) = word_at(bytes, place) {
        let value = match random.below(4) {
            0 => held.wrapping_add(1),
            1 => held.wrapping_sub(1),
            2 => held ^ 1 << random.below(32),
            _ => random.pick(&TELLING_WORDS),
        };
        set_word(bytes, place, value);
    }
}

// FORMAT 6.2, 6.4: a word of the header or the low half of an event's first word.
fn change_header_or_event_word(random: &mut Random, bytes: &mut [u8]) {
    if random.once_in(3) {
        let place = random.below(8) as usize;
        if let Some(byte) = bytes.get_mut(place) {
            *byte = byte.wrapping_add(random.pick(&[1, 2, 0x80, 0xFF]));
        }
        return;
    }
    let starts = likely_starts(bytes, |kind| kind >> 16 == EVENT >> 16);
    if !starts.is_empty() {
        let class = random.pick(&[0, 0, 2, 2, 1, 3, 0xA]);
        let category = random.pick(&[0, 1, 6, 6, 2, 7]);
        let event_type = random.pick(&[7, 7, 7, 7, 0, 0xA, 0xB, 0x17]);
        let value = EVENT | class << 12 | category << 8 | event_type;
        set_word(bytes, random.pick(&starts), value);
    }
}

// FORMAT 2.3: a place where some structure seems to start, or else byte 0.
pub fn likely_start(random: &mut Random, bytes: &[u8]) -> usize {
    let starts = likely_starts(bytes, |kind| {
        kind >> 16 == EVENT >> 16
            || (CONFIGURATION..=CHARGE).contains(&kind)
            || RECORD_KINDS.contains(&kind)
    });
    if starts.is_empty() {
        0
    } else {
        random.pick(&starts)
    }
}

// FORMAT 2.3: the places of words that seem to be kinds.
fn likely_starts(bytes: &[u8], is_kind: impl Fn(u32) -> bool) -> Vec<usize> {
    let places = (8..bytes.len()).step_by(4);
    places
        .filter(|place| word_at(bytes, *place).map_or(false, &is_kind))
        .collect()
}

thread_local! {
    static AIMED: Vec<Case> = aimed();
}

// FORMAT 2.2: an aimed case, changed once more or not.
fn aimed_and_damaged(random: &mut Random) -> Vec<u8> {
    let mut bytes = AIMED.with(|cases| {
        let chosen = random.below(cases.len() as u64) as usize;
        cases[chosen].bytes.clone()
    });
    if random.once_in(2) {
        damage_bytes(random, &mut bytes);
    }
    bytes
}

// FORMAT 2.2, 6.5: a file of any sort.
pub fn random_file(random: &mut Random) -> Vec<u8> {
    match random.below(10) {
        0..=2 => valid_parts(random).bytes(),
        3..=6 => damaged(random),
        _ => aimed_and_damaged(random),
    }
}
