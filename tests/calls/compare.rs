//! One file, every call: the archive's answer and everything lent to it, against what the
//! outside implementation says that they are afterwards.
//!
//! What is lent holds a pattern before each call and has margins that aren't lent. So a stray
//! write shows, and so does a place that a refusal should have left alone.

use std::fmt::Debug;

use super::answers;
use super::files::likely_start;
use super::interface;
use super::random::Random;
use super::reader::{self, table, table_within, Row, Table};
use super::tally::Tally;

/// A call whose two answers differ.
pub struct Difference {
    pub call: String,
    pub outside: String,
    pub archive: String,
}

/// Numbers before and after each lent part that are not lent.
pub const MARGIN: usize = 8;
/// How much of a file is searched for likely starts.
const SEARCHED: usize = 4_096;
/// Places that no file has, some of them near the edge of a width.
pub const FAR_PLACES: [u64; 10] = [
    0x7FFF_FFFF,
    0x8000_0000,
    0xFFFF_FFF8,
    0xFFFF_FFFF,
    0x1_0000_0000,
    0x1_0000_0018,
    0x7FFF_FFFF_FFFF_FFFF,
    0x8000_0000_0000_0000,
    0xFFFF_FFFF_FFFF_FFF7,
    0xFFFF_FFFF_FFFF_FFFF,
];

/// A file as it is lent to the archive, and the copy that the outside implementation reads.
#[derive(Clone, Copy)]
pub struct File<'a> {
    pub lent: &'a [u8],
    pub copy: &'a [u8],
}

/// What a Record call leaves behind.
#[derive(Clone, PartialEq)]
struct RecordLeft {
    number: u32,
    values: [i64; 12 + 2 * MARGIN],
    refused_at: u64,
}

/// What a Setting call leaves behind, its floats by their bits.
#[derive(Clone, PartialEq)]
struct SettingLeft {
    number: u32,
    whole: [i64; 8 + 2 * MARGIN],
    units: [u64; 4 + 2 * MARGIN],
    refused_at: u64,
}

/// The comparison's state: its random source, its counts, and buffers that are used again.
pub struct Comparison {
    pub random: Random,
    pub tally: Tally,
    /// Where a walk over an earlier file stood.
    pub earlier_walker: [u64; 6],
    around: Vec<u8>,
    rows: Vec<u32>,
    rows_after: Vec<u32>,
}

/// Both answers alike, or the difference; the call's text is made only when it is wanted.
pub fn alike<T: PartialEq + Debug>(
    outside: &T,
    archive: &T,
    call: impl FnOnce() -> String,
) -> Result<(), Difference> {
    if outside == archive {
        return Ok(());
    }
    Err(Difference {
        call: call(),
        outside: format!("{outside:?}"),
        archive: format!("{archive:?}"),
    })
}

impl RecordLeft {
    // In words, against what was lent.
    fn shown(&self, before: &RecordLeft) -> String {
        let number = self.number;
        let values = part_shown(&self.values, &before.values);
        let refused_at = place_shown(self.refused_at, before.refused_at);
        format!("number {number}; values {values}; refused_at {refused_at}")
    }
}

impl SettingLeft {
    // In words, against what was lent.
    fn shown(&self, before: &SettingLeft) -> String {
        let number = self.number;
        let whole = part_shown(&self.whole, &before.whole);
        let units = part_shown(&self.units, &before.units);
        let refused_at = place_shown(self.refused_at, before.refused_at);
        format!(
            "number {number}; whole {whole}; units by their bits {units}; refused_at {refused_at}"
        )
    }
}

/// A lent part in words, and whether a number beside it has changed.
pub fn part_shown<T: PartialEq + Debug>(left: &[T], before: &[T]) -> String {
    let lent = MARGIN..left.len() - MARGIN;
    let mut text = if left[lent.clone()] == before[lent.clone()] {
        String::from("as they were")
    } else {
        format!("{:?}", &left[lent.clone()])
    };
    let beside = [0..MARGIN, lent.end..left.len()];
    if beside
        .iter()
        .any(|part| left[part.clone()] != before[part.clone()])
    {
        text.push_str(" and numbers beside them changed");
    }
    text
}

/// A refusal's place in words.
pub fn place_shown(left: u64, before: u64) -> String {
    if left == before {
        String::from("as it was")
    } else {
        left.to_string()
    }
}

// The pattern's number at a place.
fn patterned(pattern: u64, place: usize) -> u64 {
    pattern.wrapping_add((place as u64).wrapping_mul(0x9E37_79B9_7F4A_7C15))
}

/// An array of the pattern's numbers.
pub fn pattern_array<const N: usize>(pattern: u64) -> [i64; N] {
    let mut all = [0; N];
    for (place, value) in all.iter_mut().enumerate() {
        *value = patterned(pattern, place) as i64;
    }
    all
}

/// The part of an array between its margins.
pub fn lent<T, const N: usize>(all: &mut [T]) -> &mut [T; N] {
    (&mut all[MARGIN..MARGIN + N])
        .try_into()
        .expect("a part between margins")
}

impl Comparison {
    /// A comparison that starts from a seed.
    pub fn new(seed: u64) -> Comparison {
        Comparison {
            random: Random::new(seed),
            tally: Tally::default(),
            earlier_walker: [0; 6],
            around: Vec::new(),
            rows: Vec::new(),
            rows_after: Vec::new(),
        }
    }

    /// Every call on a file. It is lent at any alignment, amid what earlier files left there, and
    /// has to be the same afterwards.
    pub fn file(&mut self, bytes: &[u8]) -> Result<(), Difference> {
        let start = MARGIN + self.random.below(8) as usize;
        let end = start + bytes.len();
        let mut around = std::mem::take(&mut self.around);
        if around.len() < end + MARGIN {
            around.resize(end + MARGIN, 0);
        }
        around[start..end].copy_from_slice(bytes);
        let compared = self.calls(File {
            lent: &around[start..end],
            copy: bytes,
        });
        let kept = around[start..end] == *bytes;
        self.around = around;
        compared?;
        alike(&true, &kept, || String::from("the lent file is unchanged"))
    }

    /// Every call on a file where it stands.
    pub fn calls(&mut self, file: File) -> Result<(), Difference> {
        let expected = table(file.copy);
        for capacity in self.capacities(&expected) {
            self.table(file, capacity)?;
        }
        for row in &expected.rows {
            let place = row[1] as usize;
            self.record(file, place)?;
            self.samples(file, place)?;
            if row[0] == 3 || row[0] == 4 || self.random.once_in(3) {
                self.setting(file, place)?;
            }
        }
        for place in self.places(file.copy, &expected) {
            self.record(file, place)?;
            self.samples(file, place)?;
            if self.random.once_in(2) {
                self.setting(file, place)?;
            }
        }
        self.walk(file)?;
        self.visits(file, &expected)?;
        self.finds(file, &expected)
    }

    // How many numbers to lend for rows: enough, exactly enough, too few; refused whatever they are.
    fn capacities(&mut self, expected: &Table) -> Vec<usize> {
        let random = &mut self.random;
        if expected.number == 0 {
            let needed = 6 * u64::from(expected.count);
            let more = needed + random.between(1, 24);
            let fewer = random.below(needed);
            [needed, more, needed - 1, fewer]
                .map(|capacity| capacity as usize)
                .to_vec()
        } else {
            vec![random.below(96) as usize, 0]
        }
    }

    // Where to ask for a record besides the rows' starts: where structures seem to start, at the
    // refusal, at words, anywhere, around the end, far past it.
    fn places(&mut self, file: &[u8], expected: &Table) -> Vec<usize> {
        let random = &mut self.random;
        let length = file.len() as u64;
        let searched = &file[..file.len().min(SEARCHED)];
        let likely = likely_start(random, searched) as u64;
        let mut places = vec![
            likely,
            likely_start(random, searched) as u64,
            likely_start(random, searched) as u64,
            4 * random.below(length / 4 + 2),
            4 * random.below(length / 4 + 2),
            random.below(length + 9),
            length.saturating_sub(random.below(13)),
            length + random.below(9),
            likely + (random.between(1, 3) << 32),
            random.pick(&FAR_PLACES),
            u64::MAX - random.below(64),
        ];
        if expected.number != 0 {
            places.push(expected.place);
        }
        places.iter().map(|place| *place as usize).collect()
    }

    // Table with room for so many numbers: its answer, every row, the rest of the buffer.
    fn table(&mut self, file: File, capacity: usize) -> Result<(), Difference> {
        let expected = table_within(file.copy, capacity as u64);
        let pattern = self.random.draw();
        let (mut count, mut place) = (pattern, !pattern);
        let room = self.row_buffer(pattern, capacity, &expected.rows);
        let number = interface::table(file.lent, room, &mut count, &mut place);
        let call = || format!("dwj_table with room for {capacity} numbers");
        alike(
            &(expected.number, u64::from(expected.count), expected.place),
            &(number, count, place),
            || call() + ": number, count, place",
        )?;
        self.row_buffer_alike(call)?;
        self.tally.table.numbers[number as usize] += 1;
        for row in &expected.rows {
            self.tally.table.kinds[row[0] as usize] += 1;
        }
        Ok(())
    }

    /// The part that is lent for rows, amid the pattern; and, put by, what it is to be afterwards.
    pub fn row_buffer(&mut self, pattern: u64, capacity: usize, rows: &[Row]) -> &mut [u32] {
        let numbers = 0..capacity + 2 * MARGIN;
        self.rows.clear();
        self.rows
            .extend(numbers.map(|place| patterned(pattern, place) as u32));
        self.rows_after.clear();
        self.rows_after.extend_from_slice(&self.rows);
        let room = &mut self.rows_after[MARGIN..];
        for (row, held) in rows.iter().zip(room.chunks_exact_mut(6)) {
            held.copy_from_slice(row);
        }
        &mut self.rows[MARGIN..MARGIN + capacity]
    }

    /// The lent rows, and the pattern around them, are what they are to be.
    pub fn row_buffer_alike(&self, call: impl FnOnce() -> String) -> Result<(), Difference> {
        if self.rows == self.rows_after {
            Ok(())
        } else {
            Err(self.rows_difference(call()))
        }
    }

    // The first row that differs, or the first number outside the rows.
    fn rows_difference(&self, call: String) -> Difference {
        let pairs = self.rows.iter().zip(&self.rows_after);
        let first = pairs.take_while(|(held, after)| held == after).count();
        if first < MARGIN {
            return Difference {
                call: format!("{call}: {} numbers before the buffer", MARGIN - first),
                outside: format!("{:#x}, as it was", self.rows_after[first]),
                archive: format!("{:#x}", self.rows[first]),
            };
        }
        let row = (first - MARGIN) / 6;
        let from = MARGIN + 6 * row;
        let to = self.rows.len().min(from + 6);
        Difference {
            call: format!("{call}: the buffer's six numbers from {} on", 6 * row),
            outside: format!("{:?}", &self.rows_after[from..to]),
            archive: format!("{:?}", &self.rows[from..to]),
        }
    }

    // Record at a place: its answer, the values, the place of a refusal.
    fn record(&mut self, file: File, place: usize) -> Result<(), Difference> {
        let pattern = self.random.draw();
        let before = RecordLeft {
            number: 0,
            values: pattern_array(pattern),
            refused_at: !pattern,
        };
        let mut expected = before.clone();
        match answers::record(file.copy, place) {
            Ok(values) => *lent(&mut expected.values) = values,
            Err((number, at)) => {
                expected.number = number;
                expected.refused_at = at;
            }
        }
        let mut left = before.clone();
        left.number = interface::record(
            file.lent,
            place,
            lent(&mut left.values),
            &mut left.refused_at,
        );
        if left != expected {
            return Err(Difference {
                call: format!("dwj_record at {place}"),
                outside: expected.shown(&before),
                archive: left.shown(&before),
            });
        }
        self.tally.record.numbers[left.number as usize] += 1;
        if left.number == 0 {
            self.tally.record.kinds[left.values[MARGIN] as usize] += 1;
        }
        Ok(())
    }

    // Samples at a place, and some of them by number: around the first and the last, between, far off.
    fn samples(&mut self, file: File, place: usize) -> Result<(), Difference> {
        let pattern = self.random.draw();
        let expected = reader::samples(file.copy, place as u64);
        let (mut offset, mut size) = (pattern, !pattern);
        interface::samples(file.lent, place, &mut offset, &mut size);
        alike(&expected, &(offset, size), || {
            format!("dwj_samples at {place}: offset, size")
        })?;
        self.tally.samples[usize::from(size == 0)] += 1;
        let n = size / 2;
        let numbers = [
            self.random.below(3),
            n + self.random.below(3),
            self.random.below(n + 1),
            self.random.pick(&FAR_PLACES),
        ];
        let some = if size == 0 { 1 } else { numbers.len() };
        for number in &numbers[..some] {
            self.sample(file, place, *number as usize)?;
        }
        Ok(())
    }

    // A sample by number: its answer, the value, the place of a refusal.
    fn sample(&mut self, file: File, place: usize, number: usize) -> Result<(), Difference> {
        let pattern = self.random.draw();
        let before = (0, pattern as u32, !pattern);
        let mut expected = before;
        match reader::sample(file.copy, place as u64, number as u64) {
            Ok(value) => expected.1 = u32::from(value),
            Err((number, at)) => {
                expected.0 = number;
                expected.2 = at;
            }
        }
        let mut left = before;
        left.0 = interface::sample(file.lent, place, number, &mut left.1, &mut left.2);
        alike(&expected, &left, || {
            format!("dwj_sample {number} at {place}: number, value, refused_at")
        })?;
        self.tally.sample.numbers[left.0 as usize] += 1;
        Ok(())
    }

    // Setting at a place: its answer, the whole words, the units, the place of a refusal.
    fn setting(&mut self, file: File, place: usize) -> Result<(), Difference> {
        let pattern = self.random.draw();
        let before = SettingLeft {
            number: 0,
            whole: pattern_array(pattern),
            units: pattern_array(!pattern).map(|bits| bits as u64),
            refused_at: pattern.rotate_left(32),
        };
        let mut expected = before.clone();
        match answers::setting(file.copy, place) {
            Ok((whole, units)) => {
                *lent(&mut expected.whole) = whole;
                *lent(&mut expected.units) = units.map(f64::to_bits);
            }
            Err((number, at)) => {
                expected.number = number;
                expected.refused_at = at;
            }
        }
        let mut left = before.clone();
        let mut units = left.units.map(f64::from_bits);
        left.number = interface::setting(
            file.lent,
            place,
            lent(&mut left.whole),
            lent(&mut units),
            &mut left.refused_at,
        );
        left.units = units.map(f64::to_bits);
        if left != expected {
            return Err(Difference {
                call: format!("dwj_setting at {place}"),
                outside: expected.shown(&before),
                archive: left.shown(&before),
            });
        }
        self.tally.setting.numbers[left.number as usize] += 1;
        if left.number == 0 {
            self.tally.setting.kinds[left.whole[MARGIN] as usize] += 1;
        }
        Ok(())
    }
}
