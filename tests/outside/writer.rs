//! The writing rules of docs/FORMAT.md, stated as functions over a lent output.
//!
//! Readings of this implementation, where a rule could be taken in two ways:
//!
//!  1. Trigger: the time is a constant like a trace's inner words, and Record's answer here has
//!     six masks alone; the writer takes the six masks and writes the time 0 itself.
//!  2. Trace: n is handed over once and stands at both counts. It is tested where the reading
//!     rules test it, at its second count, so after delta t; the samples' size comes last.
//!  3. Parts handed over (samples, history lists) are neither a lent file nor an output: the
//!     limit of 16,777,216 bytes is not asked of them. A part that has its count's size but does
//!     not fit gives 13.
//!  4. Counts are 32-bit words: a history count from 0x8000_0000 on is a negative one, 10. A
//!     part's size is compared with its count without wrapping round.
//!  5. History: the missing rule is tested at nvw and at ntw, as in reading; so a list of times
//!     of a wrong size (6) goes before a wrong nvw or ntw (10).
//!  6. GPS: a year above 9999, a status above 15 and every other number that does not fit its
//!     digits is a field outside its rule, 10.
//!  7. A code in an entry is signed; a negative one names no channel, 10.
//!  8. No structure is empty, so a place equal to the output's length gives 13 to every writer,
//!     like a place past it.
//!  9. Closings ask nothing of the bytes before the place, from the end on, or of the eight free
//!     bytes; a configuration may be closed at any place, not at byte 8 alone.
//! 10. An event's class above 15, category above 15 or type above 255 is not admitted, 7; a type
//!     such as 0x107 too. Every 7 goes before 8, and both before 9 for length 0.
//! 11. Within a closing the parent of the contents ends at the end given, whatever follows it.
//! 12. Rewrite tests the output's room for the whole file before the first byte is written, so
//!     a refusal changes nothing, and its 13 has place 0.

use super::reader::{channel_of, record, table, Record, Row, MOST_BYTES};

/// FORMAT 9.1: a writer's refusal, its number and place.
pub type Refusal = (u32, usize);

/// FORMAT 9.1: the next place, or a refusal.
pub type Answer = Result<usize, Refusal>;

const MAGIC: u32 = 0x0102_0304;
const CONFIGURATION: u32 = 0x0001_0000;
const PHONON: u32 = 0x0001_0001;
const CHARGE: u32 = 0x0001_0002;
const EVENT: u32 = 0xA980_0000;
const ADMINISTRATIVE: u32 = 0x02;
const TRACE: u32 = 0x11;
const HISTORY: u32 = 0x21;
const GPS: u32 = 0x60;
const TRIGGER: u32 = 0x80;
const TLB: u32 = 0x81;

// FORMAT 2.2: a rule that holds, or the refusal.
fn require(holds: bool, number: u32, place: usize) -> Result<(), Refusal> {
    if holds {
        Ok(())
    } else {
        Err((number, place))
    }
}

// FORMAT 1.1, number 1: a lent file or output is not over the limit.
fn limit(buffer: &[u8]) -> Result<(), Refusal> {
    require(buffer.len() <= MOST_BYTES, 1, 0)
}

// FORMAT 9.1, number 13: so many bytes of the output from the place on.
fn room(out: &mut [u8], place: usize, size: usize) -> Result<&mut [u8], Refusal> {
    match out.get_mut(place..) {
        Some(rest) if rest.len() >= size => Ok(&mut rest[..size]),
        _ => Err((13, place)),
    }
}

// FORMAT 1.2: words of 32 bits, little-endian.
fn bytes(words: &[u32]) -> Vec<u8> {
    words.iter().flat_map(|word| word.to_le_bytes()).collect()
}

// FORMAT 1.2: signed words as the bits that stand in a file.
fn bits(words: &[i32]) -> Vec<u32> {
    words.iter().map(|word| *word as u32).collect()
}

// FORMAT 2.3, 9.1: a structure from its kind and its body in parts: all of it, or nothing and 13.
fn write(out: &mut [u8], place: usize, kind: u32, parts: &[&[u8]]) -> Answer {
    let length = parts
        .iter()
        .fold(0_usize, |sum, part| sum.saturating_add(part.len()));
    let held = room(out, place, length.saturating_add(8))?;
    let (own, mut rest) = held.split_at_mut(8);
    own.copy_from_slice(&bytes(&[kind, length as u32]));
    for part in parts {
        let (next, after) = rest.split_at_mut(part.len());
        next.copy_from_slice(part);
        rest = after;
    }
    Ok(place + 8 + length)
}

/// FORMAT 6.4: the file header, at byte 0; the two DAQ bytes are free.
pub fn header(out: &mut [u8], daq_major: u8, daq_minor: u8) -> Answer {
    limit(out)?;
    let version = u32::from_be_bytes([daq_major, daq_minor, 2, 0]);
    room(out, 0, 8)?.copy_from_slice(&bytes(&[MAGIC, version]));
    Ok(8)
}

/// FORMAT 4.1: a phonon entry; its code names a phonon channel.
pub fn phonon(out: &mut [u8], place: usize, words: &[i32; 11]) -> Answer {
    limit(out)?;
    require(names(words[0], b'P'), 10, place)?;
    write(out, place, PHONON, &[&bytes(&bits(words))])
}

/// FORMAT 4.2: a charge entry; its code names a charge channel.
pub fn charge(out: &mut [u8], place: usize, words: &[i32; 8]) -> Answer {
    limit(out)?;
    require(names(words[0], b'Q'), 10, place)?;
    write(out, place, CHARGE, &[&bytes(&bits(words))])
}

// FORMAT 3.2, 4: the code's name begins with this letter. Every
// listed name with Q is Q, QI, QO or a side form of these.
fn names(code: i32, letter: u8) -> bool {
    match channel_of(code as u32) {
        Ok((_, _, analysis, _)) => analysis.first() == Some(&letter),
        Err(()) => false,
    }
}

/// FORMAT 5.1: administrative.
#[allow(clippy::too_many_arguments)]
pub fn administrative(
    out: &mut [u8],
    place: usize,
    series_date: u32,
    series_time: u32,
    event_number: u32,
    event_time: u32,
    since_last: u32,
    live: u32,
) -> Answer {
    limit(out)?;
    require(is_series_date(series_date), 10, place)?;
    require(is_series_time(series_time), 10, place)?;
    let body = bytes(&[
        series_date,
        series_time,
        event_number,
        event_time,
        since_last,
        live,
    ]);
    write(out, place, ADMINISTRATIVE, &[&body])
}

// FORMAT 5.1: the series date, digit by digit: a location and a day.
fn is_series_date(value: u32) -> bool {
    let locations = [0, 1, 2, 3, 6, 7, 50, 51, 52, 53, 56, 57];
    let date = value % 1_000_000;
    locations.contains(&(value / 1_000_000)) && is_date(date / 10_000, date / 100 % 100, date % 100)
}

// FORMAT 5.1: a day that the month has; every fourth year is leap.
fn is_date(year: u32, month: u32, day: u32) -> bool {
    const DAYS: [u32; 13] = [0, 31, 28, 31, 30, 31, 30, 31, 31, 30, 31, 30, 31];
    match DAYS.get(month as usize) {
        Some(days) => {
            let leap_day = u32::from(month == 2 && year % 4 == 0);
            (1..=days + leap_day).contains(&day)
        }
        None => false,
    }
}

// FORMAT 5.1: hours and minutes by their digits.
fn is_series_time(value: u32) -> bool {
    value / 100 < 24 && value % 100 < 60
}

/// FORMAT 5.2: trace; the samples are bytes standing as in a file. The fields are tested as a
/// reader meets them, then the samples' size against n.
#[allow(clippy::too_many_arguments)]
pub fn trace(
    out: &mut [u8],
    place: usize,
    base_address: u32,
    channel: u32,
    code: u32,
    t0: i32,
    delta_t: u32,
    n: u32,
    samples: &[u8],
) -> Answer {
    limit(out)?;
    require((1..=8).contains(&channel), 10, place)?;
    require(channel_of(code).is_ok(), 10, place)?;
    require(delta_t != 0, 10, place)?;
    require(n % 2 == 0 && (2..=32_768).contains(&n), 11, place)?;
    require(samples.len() == 2 * n as usize, 6, place)?;
    let bookkeeping = bytes(&[0x11, 12, base_address, channel, code]);
    let timebase = bytes(&[0x12, 12, t0 as u32, delta_t, n]);
    let count = bytes(&[0x13, n]);
    write(
        out,
        place,
        TRACE,
        &[&bookkeeping, &timebase, &count, samples],
    )
}

/// FORMAT 5.3: history; the four lists are bytes standing as in a file. A count's own tests give
/// 10; behind each count comes its list, whose size gives 6.
#[allow(clippy::too_many_arguments)]
pub fn history(
    out: &mut [u8],
    place: usize,
    nvt: u32,
    veto_times: &[u8],
    nvw: u32,
    veto_masks: &[u8],
    ntt: u32,
    trigger_times: &[u8],
    ntw: u32,
    trigger_masks: &[u8],
) -> Answer {
    limit(out)?;
    require(is_count(nvt), 10, place)?;
    require(is_list(veto_times, nvt, 1), 6, place)?;
    require(is_count(nvw) && (nvt == 0) == (nvw == 0), 10, place)?;
    require(is_list(veto_masks, nvt, nvw), 6, place)?;
    require(is_count(ntt), 10, place)?;
    require(is_list(trigger_times, ntt, 1), 6, place)?;
    require(ntw == if ntt == 0 { 0 } else { 6 }, 10, place)?;
    require(is_list(trigger_masks, ntt, ntw), 6, place)?;
    let counts = [nvt, nvw, ntt, ntw].map(|count| bytes(&[count]));
    let parts: [&[u8]; 8] = [
        &counts[0],
        veto_times,
        &counts[1],
        veto_masks,
        &counts[2],
        trigger_times,
        &counts[3],
        trigger_masks,
    ];
    write(out, place, HISTORY, &parts)
}

// FORMAT 5.3: a count is below 2^31.
fn is_count(word: u32) -> bool {
    word as i32 >= 0
}

// FORMAT 5.3, number 6: a list's size is its counts', four bytes for each word.
fn is_list(list: &[u8], times: u32, words_per_time: u32) -> bool {
    list.len() as u128 == 4 * u128::from(times) * u128::from(words_per_time)
}

/// FORMAT 5.4: GPS from its seven numbers.
#[allow(clippy::too_many_arguments)]
pub fn gps(
    out: &mut [u8],
    place: usize,
    year: u32,
    day: u32,
    status: u32,
    hour: u32,
    minute: u32,
    second: u32,
    tenths: u32,
) -> Answer {
    limit(out)?;
    require(year <= 9_999, 10, place)?;
    require(day >= 1 && day <= days_in_year(year), 10, place)?;
    require(status <= 15, 10, place)?;
    require(hour <= 23, 10, place)?;
    require(minute <= 59, 10, place)?;
    require(second <= 59, 10, place)?;
    require(tenths < 10_000_000, 10, place)?;
    let date = decimal_digits(year) << 16 | decimal_digits(day);
    let clock = decimal_digits(hour) << 16 | decimal_digits(minute) << 8 | decimal_digits(second);
    let body = bytes(&[date, status << 28 | clock, decimal_digits(tenths)]);
    write(out, place, GPS, &[&body])
}

// FORMAT 5.4: the days of a year in the Gregorian calendar.
fn days_in_year(year: u32) -> u32 {
    let leap = if year % 100 == 0 {
        year % 400 == 0
    } else {
        year % 4 == 0
    };
    365 + u32::from(leap)
}

// FORMAT 5.4: a number in BCD, its last digit in the lowest four bits.
fn decimal_digits(value: u32) -> u32 {
    if value < 10 {
        value
    } else {
        (decimal_digits(value / 10) << 4) | (value % 10)
    }
}

/// FORMAT 5.5: trigger; the masks are free.
pub fn trigger(out: &mut [u8], place: usize, masks: &[u32; 6]) -> Answer {
    limit(out)?;
    write(out, place, TRIGGER, &[&bytes(&[0]), &bytes(masks)])
}

/// FORMAT 5.6: TLB mask; each word is 0 or has its tower on top.
pub fn tlb(out: &mut [u8], place: usize, masks: &[u32; 6]) -> Answer {
    limit(out)?;
    for (tower, mask) in (1..).zip(masks) {
        require(*mask == 0 || mask >> 24 == tower, 10, place)?;
    }
    write(out, place, TLB, &[&bytes(masks)])
}

/// FORMAT 9.4: a configuration's closing, over the entries that stand between its eight bytes and
/// the end.
pub fn close_configuration(out: &mut [u8], place: usize, end: usize) -> Answer {
    limit(out)?;
    span(out, place, end)?;
    entries(&out[..end], place + 8)?;
    Ok(put_own_words(out, place, end, CONFIGURATION))
}

/// FORMAT 9.4: an event's closing, over the records that stand between its eight bytes and the
/// end; its class, category and type are numbers of any size.
pub fn close_event(
    out: &mut [u8],
    place: usize,
    end: usize,
    class: u32,
    category: u32,
    event_type: u32,
) -> Answer {
    limit(out)?;
    span(out, place, end)?;
    admitted(class, category, event_type, place)?;
    require(end > place + 8, 9, place)?;
    records(&out[..end], place + 8)?;
    let first_word = EVENT | class << 12 | category << 8 | event_type;
    Ok(put_own_words(out, place, end, first_word))
}

// FORMAT 9.4, number 13: the eight bytes and what they close lie in the output.
fn span(out: &[u8], place: usize, end: usize) -> Result<(), Refusal> {
    let inside = place <= out.len() && end <= out.len();
    require(inside && end >= place + 8, 13, place)
}

// FORMAT 6.2: class, category and type in this order, each 7; then 8 for monitoring.
fn admitted(class: u32, category: u32, event_type: u32, place: usize) -> Result<(), Refusal> {
    require([0, 2].contains(&class), 7, place)?;
    require([0, 1, 6].contains(&category), 7, place)?;
    require(event_type <= 0xA, 7, place)?;
    require(event_type != 7, 8, place)
}

// FORMAT 9.4: a container's own eight bytes; gives its end.
fn put_own_words(out: &mut [u8], place: usize, end: usize, first_word: u32) -> usize {
    let length = (end - place - 8) as u32;
    out[place..place + 8].copy_from_slice(&bytes(&[first_word, length]));
    end
}

// FORMAT 6.3: entries from a place to the end of the part of the output.
fn entries(part: &[u8], first: usize) -> Result<(), Refusal> {
    let mut place = first;
    while place < part.len() {
        let (_, next) = structure(part, place, &[PHONON, CHARGE])?;
        read(part, place)?;
        place = next;
    }
    Ok(())
}

// FORMAT 6.2: records from a place to the end of the part of the output; the administrative one
// before all others, and nothing but traces twice.
fn records(part: &[u8], first: usize) -> Result<(), Refusal> {
    let allowed = [ADMINISTRATIVE, TRACE, HISTORY, GPS, TRIGGER, TLB];
    let mut seen = Vec::new();
    let mut place = first;
    while place < part.len() {
        let (kind, next) = structure(part, place, &allowed)?;
        require(place > first || kind == ADMINISTRATIVE, 9, place)?;
        require(kind == TRACE || !seen.contains(&kind), 9, place)?;
        seen.push(kind);
        read(part, place)?;
        place = next;
    }
    Ok(())
}

// FORMAT 6.1: room, kind, and a length that doesn't pass the part's end. Gives the kind and the
// next place.
fn structure(part: &[u8], place: usize, allowed: &[u32]) -> Result<(u32, usize), Refusal> {
    let left = part.len() - place;
    require(left >= 8, 2, place)?;
    let kind = word(part, place);
    require(allowed.contains(&kind), 5, place)?;
    let length = word(part, place + 4) as usize;
    require(length <= left - 8, 2, place)?;
    Ok((kind, place + 8 + length))
}

// FORMAT 1.2: the word at a place, little-endian.
fn word(part: &[u8], place: usize) -> u32 {
    let mut held = [0; 4];
    held.copy_from_slice(&part[place..place + 4]);
    u32::from_le_bytes(held)
}

// FORMAT 8.5: a record or an entry with its fields; by the reading rules.
fn read(part: &[u8], place: usize) -> Result<Record, Refusal> {
    record(part, place as u64).map_err(|(number, at)| (number, at as usize))
}

/// FORMAT 9.5: an accepted file's fields, handed to the writers from byte 0 on; of two faults the
/// limit's comes first, then the file's, then the room's.
pub fn rewrite(file: &[u8], out: &mut [u8]) -> Answer {
    limit(file)?;
    limit(out)?;
    let found = table(file);
    require(found.number == 0, found.number, found.place as usize)?;
    require(out.len() >= file.len(), 13, 0)?;
    let mut place = 0;
    let mut open = None;
    for row in &found.rows {
        if row[3] == 0 {
            close(out, open.take(), place)?;
        }
        match row[0] {
            1 => place = rewrite_header(row, out)?,
            2 | 5 => {
                open = Some((row, place));
                place += 8;
            }
            _ => place = rewrite_record(file, row[1] as usize, out, place)?,
        }
    }
    close(out, open, place)
}

// FORMAT 9.5: row 1: the version word's two highest bytes are the DAQ bytes.
fn rewrite_header(row: &Row, out: &mut [u8]) -> Answer {
    let [major, minor, _, _] = row[4].to_be_bytes();
    header(out, major, minor)
}

// FORMAT 9.5: rows 2 and 5: the container begun at a place is closed at an end;
// an event's first value is the low half of its first word.
fn close(out: &mut [u8], open: Option<(&Row, usize)>, end: usize) -> Answer {
    match open {
        Some((row, place)) if row[0] == 2 => close_configuration(out, place, end),
        Some((row, place)) => {
            let (class, category) = (row[4] >> 12 & 0xF, row[4] >> 8 & 0xF);
            close_event(out, place, end, class, category, row[4] & 0xFF)
        }
        None => Ok(end),
    }
}

// FORMAT 9.5: one record or entry, read at a place of the file, written
// at a place of the output.
fn rewrite_record(file: &[u8], from: usize, out: &mut [u8], place: usize) -> Answer {
    match read(file, from)? {
        Record::Phonon(words) => phonon(out, place, &words),
        Record::Charge(words) => charge(out, place, &words),
        Record::Trigger(masks) => trigger(out, place, &masks),
        Record::Tlb(masks) => tlb(out, place, &masks),
        Record::Administrative {
            series_date,
            series_time,
            event_number,
            event_time,
            since_last,
            live,
        } => administrative(
            out,
            place,
            series_date,
            series_time,
            event_number,
            event_time,
            since_last,
            live,
        ),
        Record::Trace {
            base_address,
            channel,
            code,
            t0,
            delta_t,
            n,
        } => {
            let samples = &file[from + 56..from + 56 + 2 * n as usize];
            trace(
                out,
                place,
                base_address,
                channel,
                code,
                t0,
                delta_t,
                n,
                samples,
            )
        }
        Record::History {
            nvt,
            veto_times,
            nvw,
            veto_masks,
            ntt,
            trigger_times,
            ntw,
            trigger_masks,
        } => history(
            out,
            place,
            nvt,
            list(file, veto_times, nvt),
            nvw,
            list(file, veto_masks, nvt * nvw),
            ntt,
            list(file, trigger_times, ntt),
            ntw,
            list(file, trigger_masks, ntt * ntw),
        ),
        Record::Gps {
            year,
            day,
            status,
            hour,
            minute,
            second,
            tenths,
        } => gps(out, place, year, day, status, hour, minute, second, tenths),
    }
}

// FORMAT 5.3: a list of so many words from where it starts.
fn list(file: &[u8], start: u64, words: u32) -> &[u8] {
    let start = start as usize;
    &file[start..start + 4 * words as usize]
}
