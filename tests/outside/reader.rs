//! The reading rules of docs/FORMAT.md, stated as pure functions over lent bytes.

/// FORMAT 1.1: the most bytes of a lent file.
pub const MOST_BYTES: usize = 16_777_216;

/// FORMAT 2.1: a refusal's number and place.
pub type Refusal = (u32, u64);

/// FORMAT 7.1: kind, start, whole length, parent's row number, two values.
pub type Row = [u32; 6];

/// FORMAT 8.2: Table's answer and the rows; none when refused.
#[derive(Clone, Debug, PartialEq, Eq)]
pub struct Table {
    pub number: u32,
    pub count: u32,
    pub place: u64,
    pub rows: Vec<Row>,
}

/// FORMAT 8.5: Record's answer: the fields of a record or an entry.
#[derive(Clone, Debug, PartialEq, Eq)]
pub enum Record {
    Phonon([i32; 11]),
    Charge([i32; 8]),
    Administrative {
        series_date: u32,
        series_time: u32,
        event_number: u32,
        event_time: u32,
        since_last: u32,
        live: u32,
    },
    Trace {
        base_address: u32,
        channel: u32,
        code: u32,
        t0: i32,
        delta_t: u32,
        n: u32,
    },
    History {
        nvt: u32,
        veto_times: u64,
        nvw: u32,
        veto_masks: u64,
        ntt: u32,
        trigger_times: u64,
        ntw: u32,
        trigger_masks: u64,
    },
    Gps {
        year: u32,
        day: u32,
        status: u32,
        hour: u32,
        minute: u32,
        second: u32,
        tenths: u32,
    },
    Trigger([u32; 6]),
    Tlb([u32; 6]),
}

/// FORMAT 8.6: an entry in working units.
#[derive(Clone, Debug, PartialEq)]
pub enum Setting {
    Phonon {
        code: i32,
        tower: i32,
        gain: f64,
        qet_bias: f64,
        squid_bias: f64,
        lockpoint: f64,
        rtf_offset: i32,
        variable_gain: i32,
        delta_t: i32,
        t0: i32,
        trace_length: i32,
    },
    Charge {
        code: i32,
        tower: i32,
        gain: f64,
        bias: i32,
        rtf_offset: i32,
        delta_t: i32,
        t0: i32,
        trace_length: i32,
    },
}

/// FORMAT 8.3: what a walker yields.
#[derive(Clone, Debug, PartialEq, Eq)]
pub enum Yield {
    Row(Row),
    End,
    Refused(u32, u64),
}

/// FORMAT 8.3: a walker over a lent file.
pub struct Walk {
    rows: Vec<Row>,
    last: Yield,
    reached: usize,
}

/// FORMAT 3.4: type, number, analysis name, cold name.
pub type Channel = (u32, u32, &'static [u8], &'static [u8]);

const MAGIC: u32 = 0x0102_0304;
const CONFIGURATION: u32 = 0x0001_0000;
const PHONON: u32 = 0x0001_0001;
const CHARGE: u32 = 0x0001_0002;
const ADMINISTRATIVE: u32 = 0x02;
const TRACE: u32 = 0x11;
const HISTORY: u32 = 0x21;
const GPS: u32 = 0x60;
const TRIGGER: u32 = 0x80;
const TLB: u32 = 0x81;

const ENTRIES: [u32; 2] = [PHONON, CHARGE];
const RECORDS: [u32; 6] = [ADMINISTRATIVE, TRACE, HISTORY, GPS, TRIGGER, TLB];
const RECORDS_AND_ENTRIES: [u32; 8] = [
    PHONON,
    CHARGE,
    ADMINISTRATIVE,
    TRACE,
    HISTORY,
    GPS,
    TRIGGER,
    TLB,
];

/// FORMAT 2.3: a kind word, a length word and a body.
struct Structure {
    kind: u32,
    start: u64,
    end: u64,
}

impl Structure {
    // FORMAT 2.3: the bytes that follow the length word.
    fn length(&self) -> u64 {
        self.end - self.start - 8
    }

    // FORMAT 2.3: a word after the length word, from 0.
    fn word(&self, file: &[u8], number: u64) -> u32 {
        word(file, self.start + 8 + 4 * number)
    }

    // FORMAT 2.2: a test of this structure, refused at its first byte.
    fn require(&self, holds: bool, number: u32) -> Result<(), Refusal> {
        require(holds, number, self.start)
    }
}

// FORMAT 1.2: 32 bits, little-endian.
fn word(file: &[u8], place: u64) -> u32 {
    let at = place as usize;
    u32::from_le_bytes([file[at], file[at + 1], file[at + 2], file[at + 3]])
}

// FORMAT 2.2: a rule that holds, or the refusal.
fn require(holds: bool, number: u32, place: u64) -> Result<(), Refusal> {
    if holds {
        Ok(())
    } else {
        Err((number, place))
    }
}

// FORMAT 1.1, number 1: the lent file is not over the limit.
fn limit(file: &[u8]) -> Result<(), Refusal> {
    require(file.len() <= MOST_BYTES, 1, 0)
}

// FORMAT 2.3, number 2: at least 8 bytes are left for a structure.
fn room(place: u64, parent_end: u64) -> Result<(), Refusal> {
    require(place <= parent_end && parent_end - place >= 8, 2, place)
}

// FORMAT 2.3, number 2: the length does not pass the parent; gives the end.
fn end_in_parent(file: &[u8], place: u64, parent_end: u64) -> Result<u64, Refusal> {
    let end = place + 8 + u64::from(word(file, place + 4));
    require(end <= parent_end, 2, place)?;
    Ok(end)
}

// FORMAT 6.1: room, kind, length against the parent, in this order.
fn structure(
    file: &[u8],
    place: u64,
    parent_end: u64,
    allowed: &[u32],
) -> Result<Structure, Refusal> {
    room(place, parent_end)?;
    let kind = word(file, place);
    require(allowed.contains(&kind), 5, place)?;
    let end = end_in_parent(file, place, parent_end)?;
    Ok(Structure {
        kind,
        start: place,
        end,
    })
}

// FORMAT 6.1: what a kind asks of its own: its length first, then its fields.
fn contents(file: &[u8], given: &Structure) -> Result<Record, Refusal> {
    match given.kind {
        PHONON => phonon(file, given),
        CHARGE => charge(file, given),
        ADMINISTRATIVE => administrative(file, given),
        TRACE => trace(file, given),
        HISTORY => history(file, given),
        GPS => gps(file, given),
        TRIGGER => trigger(file, given),
        _ => tlb(file, given),
    }
}

// FORMAT 4.1: the phonon entry, length 44, eleven signed words.
fn phonon(file: &[u8], given: &Structure) -> Result<Record, Refusal> {
    given.require(given.length() == 44, 6)?;
    given.require(names_phonon(given.word(file, 0)), 10)?;
    let mut signed = [0; 11];
    for (number, value) in signed.iter_mut().enumerate() {
        *value = given.word(file, number as u64) as i32;
    }
    Ok(Record::Phonon(signed))
}

// FORMAT 4.2: the charge entry, length 32, eight signed words.
fn charge(file: &[u8], given: &Structure) -> Result<Record, Refusal> {
    given.require(given.length() == 32, 6)?;
    given.require(names_charge(given.word(file, 0)), 10)?;
    let mut signed = [0; 8];
    for (number, value) in signed.iter_mut().enumerate() {
        *value = given.word(file, number as u64) as i32;
    }
    Ok(Record::Charge(signed))
}

// FORMAT 3.1: a phonon channel has a name beginning with P.
fn names_phonon(code: u32) -> bool {
    match channel_of(code) {
        Ok((_, _, analysis, _)) => analysis[0] == b'P',
        Err(()) => false,
    }
}

// FORMAT 3.1: a charge channel is Q, QI, QO or a side form of these.
fn names_charge(code: u32) -> bool {
    let listed: [&[u8]; 7] = [b"Q", b"QI", b"QO", b"QIS1", b"QOS1", b"QIS2", b"QOS2"];
    match channel_of(code) {
        Ok((_, _, analysis, _)) => listed.contains(&analysis),
        Err(()) => false,
    }
}

// FORMAT 5.1: administrative, length 24.
fn administrative(file: &[u8], given: &Structure) -> Result<Record, Refusal> {
    given.require(given.length() == 24, 6)?;
    let series_date = given.word(file, 0);
    given.require(is_series_date(series_date), 10)?;
    let series_time = given.word(file, 1);
    given.require(is_series_time(series_time), 10)?;
    Ok(Record::Administrative {
        series_date,
        series_time,
        event_number: given.word(file, 2),
        event_time: given.word(file, 3),
        since_last: given.word(file, 4),
        live: given.word(file, 5),
    })
}

// FORMAT 5.1: the series date, digit by digit.
fn is_series_date(value: u32) -> bool {
    let location = value / 1_000_000;
    let year = value / 10_000 % 100;
    let month = value / 100 % 100;
    let day = value % 100;
    value <= 99_999_999 && is_location(location) && is_date(year, month, day)
}

// FORMAT 5.1: the locations: six, and the same with 50 added.
fn is_location(location: u32) -> bool {
    let listed = [0, 1, 2, 3, 6, 7];
    listed.contains(&location) || (location >= 50 && listed.contains(&(location - 50)))
}

// FORMAT 5.1: a day that the month has; every fourth year is leap.
fn is_date(year: u32, month: u32, day: u32) -> bool {
    let last = match month {
        1 | 3 | 5 | 7 | 8 | 10 | 12 => 31,
        4 | 6 | 9 | 11 => 30,
        2 if year % 4 == 0 => 29,
        2 => 28,
        _ => 0,
    };
    day >= 1 && day <= last
}

// FORMAT 5.1: hours and minutes by their digits.
fn is_series_time(value: u32) -> bool {
    value <= 2359 && value % 100 < 60
}

// FORMAT 5.2: a trace; n is tested where it stands the second time, and the length at the end.
fn trace(file: &[u8], given: &Structure) -> Result<Record, Refusal> {
    given.require(given.length() >= 48, 6)?;
    given.require(given.word(file, 0) == 0x11, 5)?;
    given.require(given.word(file, 1) == 12, 6)?;
    let base_address = given.word(file, 2);
    let channel = given.word(file, 3);
    given.require((1..=8).contains(&channel), 10)?;
    let code = given.word(file, 4);
    given.require(channel_of(code).is_ok(), 10)?;
    given.require(given.word(file, 5) == 0x12, 5)?;
    given.require(given.word(file, 6) == 12, 6)?;
    let t0 = given.word(file, 7) as i32;
    let delta_t = given.word(file, 8);
    given.require(delta_t != 0, 10)?;
    let first_count = given.word(file, 9);
    given.require(given.word(file, 10) == 0x13, 5)?;
    let n = given.word(file, 11);
    given.require(is_sample_count(n) && n == first_count, 11)?;
    given.require(given.length() == 48 + 2 * u64::from(n), 6)?;
    Ok(Record::Trace {
        base_address,
        channel,
        code,
        t0,
        delta_t,
        n,
    })
}

// FORMAT 1.1, 5.2: an even number of samples within the limits.
fn is_sample_count(n: u32) -> bool {
    n % 2 == 0 && (2..=32_768).contains(&n)
}

// FORMAT 5.3: a history, count by count; at the end no word is missing and none is too many.
// Positions are numbers of words in the record.
fn history(file: &[u8], given: &Structure) -> Result<Record, Refusal> {
    given.require(given.length() >= 16 && given.length() % 4 == 0, 6)?;
    let words = given.length() / 4;
    let byte = |position: u64| given.start + 8 + 4 * position;

    let nvt = count_at(file, given, 0)?;
    let veto_times = 1;
    let nvw_position = veto_times + nvt;
    let nvw = count_at(file, given, nvw_position)?;
    given.require((nvt == 0) == (nvw == 0), 10)?;
    let veto_masks = nvw_position + 1;

    let ntt_position = veto_masks + nvt * nvw;
    let ntt = count_at(file, given, ntt_position)?;
    let trigger_times = ntt_position + 1;
    let ntw_position = trigger_times + ntt;
    let ntw = count_at(file, given, ntw_position)?;
    given.require(ntw == if ntt > 0 { 6 } else { 0 }, 10)?;
    let trigger_masks = ntw_position + 1;

    given.require(trigger_masks + ntt * ntw == words, 6)?;
    Ok(Record::History {
        nvt: nvt as u32,
        veto_times: byte(veto_times),
        nvw: nvw as u32,
        veto_masks: byte(veto_masks),
        ntt: ntt as u32,
        trigger_times: byte(trigger_times),
        ntw: ntw as u32,
        trigger_masks: byte(trigger_masks),
    })
}

// FORMAT 5.3: a history count; 6 past the end, 10 if negative.
fn count_at(file: &[u8], given: &Structure, position: u64) -> Result<u64, Refusal> {
    given.require(position < given.length() / 4, 6)?;
    let count = given.word(file, position) as i32;
    given.require(count >= 0, 10)?;
    Ok(count as u64)
}

// FORMAT 5.4: GPS, length 12, BCD.
fn gps(file: &[u8], given: &Structure) -> Result<Record, Refusal> {
    given.require(given.length() == 12, 6)?;
    let refusal = (10, given.start);
    let first = given.word(file, 0);
    let year = decimal(first >> 16, 4).ok_or(refusal)?;
    let day = decimal(first & 0xFFFF, 4).ok_or(refusal)?;
    given.require(day >= 1 && day <= days_in_year(year), 10)?;
    let second_word = given.word(file, 1);
    let status = second_word >> 28;
    given.require((second_word >> 24) & 0xF == 0, 10)?;
    let hour = decimal((second_word >> 16) & 0xFF, 2).ok_or(refusal)?;
    given.require(hour <= 23, 10)?;
    let minute = decimal((second_word >> 8) & 0xFF, 2).ok_or(refusal)?;
    given.require(minute <= 59, 10)?;
    let second = decimal(second_word & 0xFF, 2).ok_or(refusal)?;
    given.require(second <= 59, 10)?;
    let tenths = decimal(given.word(file, 2), 8).ok_or(refusal)?;
    given.require(tenths < 10_000_000, 10)?;
    Ok(Record::Gps {
        year,
        day,
        status,
        hour,
        minute,
        second,
        tenths,
    })
}

// FORMAT 5.4: the number that so many BCD digits stand for.
fn decimal(digits: u32, how_many: u32) -> Option<u32> {
    let mut value = 0;
    for from_left in 0..how_many {
        let digit = (digits >> (4 * (how_many - 1 - from_left))) & 0xF;
        if digit > 9 {
            return None;
        }
        value = 10 * value + digit;
    }
    Some(value)
}

// FORMAT 5.4: the days of a year in the Gregorian calendar.
fn days_in_year(year: u32) -> u32 {
    if year % 4 == 0 && (year % 100 != 0 || year % 400 == 0) {
        366
    } else {
        365
    }
}

// FORMAT 5.5: a trigger: 28 bytes, of which the time is 0 and the masks are free.
fn trigger(file: &[u8], given: &Structure) -> Result<Record, Refusal> {
    given.require(given.length() == 28, 6)?;
    given.require(given.word(file, 0) == 0, 10)?;
    Ok(Record::Trigger(six_words(file, given, 1)))
}

// FORMAT 5.6: a TLB mask: 24 bytes, each word 0 or with its tower on top.
fn tlb(file: &[u8], given: &Structure) -> Result<Record, Refusal> {
    given.require(given.length() == 24, 6)?;
    let masks = six_words(file, given, 0);
    for (before, mask) in masks.iter().enumerate() {
        let tower = before as u32 + 1;
        given.require(*mask == 0 || mask >> 24 == tower, 10)?;
    }
    Ok(Record::Tlb(masks))
}

// FORMAT 5: six words from a given one on.
fn six_words(file: &[u8], given: &Structure, first: u64) -> [u32; 6] {
    let mut words = [0; 6];
    for (number, value) in words.iter_mut().enumerate() {
        *value = given.word(file, first + number as u64);
    }
    words
}

/// FORMAT 5.6: whether a word has the bit of a ZIP, from 1 to 24.
pub fn zip(word: u32, zip: u32) -> bool {
    (1..=24).contains(&zip) && (word >> (zip - 1)) & 1 == 1
}

// FORMAT 3.2: the channel numbers of a type with analysis name and cold name.
fn listed_channels(detector_type: u32) -> &'static [(u32, &'static str, &'static str)] {
    match detector_type {
        1 => &[
            (1, "QI", "QI"),
            (2, "QO", "QO"),
            (3, "PS1", "PS1"),
            (4, "PS2", "PS2"),
        ],
        3 => &[(0, "Veto", "Veto")],
        2 | 4 | 5 | 6 => &[
            (0, "QI", "QI"),
            (1, "QO", "QO"),
            (2, "PA", "PA"),
            (3, "PB", "PB"),
            (4, "PC", "PC"),
            (5, "PD", "PD"),
        ],
        7 => &[(0, "Q", "Q"), (1, "PA", "PA"), (2, "PB", "PB")],
        10 => &[
            (0, "QIS1", "QIS1"),
            (1, "QOS1", "QOS1"),
            (2, "PAS1", "A1"),
            (3, "PBS2", "B1"),
            (4, "PCS1", "C1"),
            (5, "PDS1", "D1"),
            (6, "QIS2", "QIS2"),
            (7, "QOS2", "QOS2"),
            (8, "PAS2", "A2"),
            (9, "PBS1", "B2"),
            (10, "PCS2", "C2"),
            (11, "PDS2", "D2"),
        ],
        11 => &[
            (0, "QIS1", "QIS1"),
            (1, "QOS1", "QOS1"),
            (2, "PAS2", "A1"),
            (3, "PBS1", "B1"),
            (4, "PCS2", "C1"),
            (5, "PDS1", "D1"),
            (6, "QIS2", "QIS2"),
            (7, "QOS2", "QOS2"),
            (8, "PAS1", "A2"),
            (9, "PBS2", "B2"),
            (10, "PCS1", "C2"),
            (11, "PDS2", "D2"),
        ],
        _ => &[],
    }
}

/// FORMAT 3.4: what a code stands for, where it is listed.
pub fn channel_of(code: u32) -> Result<Channel, ()> {
    if code > 999_999_999 {
        return Err(());
    }
    let detector_type = code / 1_000_000;
    let number = code / 1_000 % 1_000;
    let channel = code % 1_000;
    for (listed, analysis, cold) in listed_channels(detector_type) {
        if *listed == channel {
            return Ok((detector_type, number, analysis.as_bytes(), cold.as_bytes()));
        }
    }
    Err(())
}

/// FORMAT 3.4: the code of a channel that is asked for by name.
pub fn code_of(detector_type: u32, number: u32, analysis_name: &[u8]) -> Result<u32, ()> {
    if number > 999 {
        return Err(());
    }
    for (channel, analysis, _) in listed_channels(detector_type) {
        if analysis.as_bytes() == analysis_name {
            return Ok(detector_type * 1_000_000 + number * 1_000 + channel);
        }
    }
    Err(())
}

/// FORMAT 8.2: for a buffer in which every row fits.
pub fn table(file: &[u8]) -> Table {
    match rows(file) {
        Ok(rows) => Table {
            number: 0,
            count: rows.len() as u32,
            place: file.len() as u64,
            rows,
        },
        Err((number, place)) => Table {
            number,
            count: 0,
            place,
            rows: Vec::new(),
        },
    }
}

/// FORMAT 8.2: for a buffer of so many 32-bit numbers; 12 is given last.
pub fn table_within(file: &[u8], capacity: u64) -> Table {
    let mut answer = table(file);
    if answer.number == 0 && 6 * u64::from(answer.count) > capacity {
        answer.number = 12;
        answer.rows = Vec::new();
    }
    answer
}

// FORMAT 6.5, 7: the whole file's rows in file order.
fn rows(file: &[u8]) -> Result<Vec<Row>, Refusal> {
    limit(file)?;
    let mut rows = vec![header(file)?];
    let mut place = configuration(file, &mut rows)?;
    while place < file.len() as u64 {
        place = event(file, place, &mut rows)?;
    }
    Ok(rows)
}

// FORMAT 6.4: the file header.
fn header(file: &[u8]) -> Result<Row, Refusal> {
    room(0, file.len() as u64)?;
    require(word(file, 0) == MAGIC, 3, 0)?;
    let version = word(file, 4);
    require(version & 0xFFFF == 0x0200, 4, 0)?;
    Ok([1, 0, 8, 0, version, 0])
}

// FORMAT 6.3: the configuration at byte 8 and its entries; gives its end.
fn configuration(file: &[u8], rows: &mut Vec<Row>) -> Result<u64, Refusal> {
    let own = structure(file, 8, file.len() as u64, &[CONFIGURATION])?;
    let own_row = rows.len();
    rows.push(row(2, &own, 0, (0, 0)));
    let mut place = own.start + 8;
    while place < own.end {
        let entry = structure(file, place, own.end, &ENTRIES)?;
        let record = contents(file, &entry)?;
        rows.push(record_row(file, &entry, &record, own_row));
        rows[own_row][4] += 1;
        place = entry.end;
    }
    Ok(own.end)
}

// FORMAT 6.2: an event and its records; gives its end.
fn event(file: &[u8], start: u64, rows: &mut Vec<Row>) -> Result<u64, Refusal> {
    let own = event_structure(file, start)?;
    let own_row = rows.len();
    rows.push(row(5, &own, 0, (own.kind & 0xFFFF, 0)));
    let mut seen = Vec::new();
    let mut place = own.start + 8;
    while place < own.end {
        let given = structure(file, place, own.end, &RECORDS)?;
        event_rules(&given, &mut seen)?;
        let record = contents(file, &given)?;
        rows.push(record_row(file, &given, &record, own_row));
        rows[own_row][5] += 1;
        place = given.end;
    }
    Ok(own.end)
}

// FORMAT 6.2: an event's own tests: room, 0xA980, 7, 8, its length against
// the file, then 9 for length 0.
fn event_structure(file: &[u8], start: u64) -> Result<Structure, Refusal> {
    room(start, file.len() as u64)?;
    let first_word = word(file, start);
    require(first_word >> 16 == 0xA980, 5, start)?;
    let class = (first_word >> 12) & 0xF;
    let category = (first_word >> 8) & 0xF;
    let event_type = first_word & 0xFF;
    require(class == 0 || class == 2, 7, start)?;
    require([0, 1, 6].contains(&category), 7, start)?;
    require(event_type <= 0xA, 7, start)?;
    require(event_type != 7, 8, start)?;
    let end = end_in_parent(file, start, file.len() as u64)?;
    require(end > start + 8, 9, start)?;
    Ok(Structure {
        kind: first_word,
        start,
        end,
    })
}

// FORMAT 6.2: the administrative record before all others, and nothing but traces twice. The
// list holds each kind seen so far once.
fn event_rules(given: &Structure, seen: &mut Vec<u32>) -> Result<(), Refusal> {
    given.require(!seen.is_empty() || given.kind == ADMINISTRATIVE, 9)?;
    if seen.contains(&given.kind) {
        given.require(given.kind == TRACE, 9)
    } else {
        seen.push(given.kind);
        Ok(())
    }
}

// FORMAT 7.1: a row's six numbers.
fn row(kind: u32, given: &Structure, parent: u32, values: (u32, u32)) -> Row {
    let whole_length = (given.end - given.start) as u32;
    [
        kind,
        given.start as u32,
        whole_length,
        parent,
        values.0,
        values.1,
    ]
}

// FORMAT 7.2: a record's or an entry's row; the parent's index is from 0.
fn record_row(file: &[u8], given: &Structure, record: &Record, parent_index: usize) -> Row {
    let values = match record {
        Record::Phonon(words) => (words[0] as u32, words[1] as u32),
        Record::Charge(words) => (words[0] as u32, words[1] as u32),
        Record::Administrative {
            event_number,
            event_time,
            ..
        } => (*event_number, *event_time),
        Record::Trace { code, n, .. } => (*code, *n),
        Record::History { nvt, ntt, .. } => (*nvt, *ntt),
        Record::Gps { .. } => (given.word(file, 0), given.word(file, 1)),
        Record::Trigger(masks) => (masks[0], masks[1]),
        Record::Tlb(masks) => (masks[0], masks[1]),
    };
    row(row_kind(record), given, parent_index as u32 + 1, values)
}

/// FORMAT 7.2: the row kind of a record or an entry.
pub fn row_kind(record: &Record) -> u32 {
    match record {
        Record::Phonon(_) => 3,
        Record::Charge(_) => 4,
        Record::Administrative { .. } => 6,
        Record::Trace { .. } => 7,
        Record::History { .. } => 8,
        Record::Gps { .. } => 9,
        Record::Trigger(_) => 10,
        Record::Tlb(_) => 11,
    }
}

/// FORMAT 8.3: opening a file.
pub fn walk(file: &[u8]) -> Walk {
    match rows(file) {
        Ok(rows) => Walk {
            rows,
            last: Yield::End,
            reached: 0,
        },
        Err((number, place)) => Walk {
            rows: Vec::new(),
            last: Yield::Refused(number, place),
            reached: 0,
        },
    }
}

impl Walk {
    /// FORMAT 8.3: one yield: the next row; behind the last row the end; of a refused file its
    /// refusal.
    pub fn step(&mut self) -> Yield {
        if self.reached < self.rows.len() {
            self.reached += 1;
            Yield::Row(self.rows[self.reached - 1])
        } else {
            self.last.clone()
        }
    }
}

/// FORMAT 8.5: what stands at a place, read without what stands around it.
pub fn record(file: &[u8], place: u64) -> Result<Record, Refusal> {
    limit(file)?;
    let given = structure(file, place, file.len() as u64, &RECORDS_AND_ENTRIES)?;
    contents(file, &given)
}

/// FORMAT 8.6: an entry in working units; after Record's refusals 5 for what is no entry.
pub fn setting(file: &[u8], place: u64) -> Result<Setting, Refusal> {
    match record(file, place)? {
        Record::Phonon(words) => Ok(Setting::Phonon {
            code: words[0],
            tower: words[1],
            gain: hundredth(words[2]),
            qet_bias: hundredth(words[3]),
            squid_bias: hundredth(words[4]),
            lockpoint: hundredth(words[5]),
            rtf_offset: words[6],
            variable_gain: words[7],
            delta_t: words[8],
            t0: words[9],
            trace_length: words[10],
        }),
        Record::Charge(words) => Ok(Setting::Charge {
            code: words[0],
            tower: words[1],
            gain: hundredth(words[2]),
            bias: words[3],
            rtf_offset: words[4],
            delta_t: words[5],
            t0: words[6],
            trace_length: words[7],
        }),
        _ => Err((5, place)),
    }
}

// FORMAT 8.6: a hundredth of a stored word.
fn hundredth(word: i32) -> f64 {
    f64::from(word) / 100.0
}

/// FORMAT 8.7: where the samples of the trace at a place start, and how many bytes they are;
/// no bytes where there is no trace.
pub fn samples(file: &[u8], place: u64) -> (u64, u64) {
    match record(file, place) {
        Ok(Record::Trace { n, .. }) => (place + 8 + 48, 2 * u64::from(n)),
        _ => (0, 0),
    }
}

/// FORMAT 8.7: a sample by number, from 1: a word has two, the first in its lower half.
pub fn sample(file: &[u8], place: u64, number: u64) -> Result<u16, Refusal> {
    match record(file, place)? {
        Record::Trace { n, .. } => {
            require(number >= 1 && number <= u64::from(n), 11, place)?;
            let pair = word(file, place + 8 + 48 + 4 * ((number - 1) / 2));
            let earlier = number % 2 == 1;
            Ok(if earlier {
                pair as u16
            } else {
                (pair >> 16) as u16
            })
        }
        _ => Err((5, place)),
    }
}

/// FORMAT 8.8: by the rows: the place of the first trace of a code in events of a number.
pub fn find(file: &[u8], number: u32, code: u32) -> Result<Option<u64>, Refusal> {
    let mut carries_number = false;
    for found in rows(file)? {
        match found[0] {
            5 => carries_number = false,
            6 => carries_number = found[4] == number,
            7 if carries_number && found[4] == code => return Ok(Some(u64::from(found[1]))),
            _ => {}
        }
    }
    Ok(None)
}
