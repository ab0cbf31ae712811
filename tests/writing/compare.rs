//! One call, both implementations: the answer, the two lent numbers, and every byte of the output
//! and around it. The output and what is handed over stand at any place of a line of memory.

use std::ops::Range;

use super::interface::{parts, perform, Lent};
use super::random::Random;
use super::tally::{name, Tally};
use super::trees::{self, Call};
use super::writer::Answer;

/// Bytes before and after an output that are not lent.
const MARGIN: usize = 16;
/// A line of memory. Outputs and parts start at any of its bytes.
pub const LINE: usize = 64;
/// What stands around the parts that are handed over.
const BETWEEN: [u8; MARGIN + LINE] = [0x5C; MARGIN + LINE];
/// How much of a call is shown.
const SHOWN: usize = 600;

/// A call whose two answers differ, or that leaves other bytes, in words.
pub struct Difference(pub String);

/// What stands in a single call's output where no contents do: one byte everywhere, or a pattern.
#[derive(Clone, Copy, PartialEq, Eq)]
pub enum Around {
    Filler,
    Pattern,
}

/// An output as it is lent to the archive, amid bytes that are not; and the same for the outside
/// implementation.
#[derive(Default)]
pub struct Output {
    archive: Vec<u8>,
    outside: Vec<u8>,
    start: usize,
}

impl Output {
    /// An output of those bytes, at any alignment, amid a pattern. The buffers are used again.
    pub fn hold(&mut self, random: &mut Random, bytes: &[u8]) {
        self.start = MARGIN + random.below(LINE as u64) as usize;
        let after = self.start + bytes.len();
        self.archive.clear();
        self.archive.resize(self.start, 0);
        self.archive.extend_from_slice(bytes);
        self.archive.resize(after + MARGIN, 0);
        let pattern = random.draw();
        fill(&mut self.archive[..self.start], pattern);
        fill(&mut self.archive[after..], !pattern);
        self.outside.clear();
        self.outside.extend_from_slice(&self.archive);
    }

    /// How long it is.
    pub fn length(&self) -> usize {
        self.archive.len() - self.start - MARGIN
    }

    /// The archive's output.
    pub fn bytes(&self) -> &[u8] {
        &self.archive[self.start..self.archive.len() - MARGIN]
    }
}

/// The parts of a call as they are handed over: copies in one buffer, which is used again.
#[derive(Default)]
struct Handed {
    bytes: Vec<u8>,
    places: [Range<usize>; 4],
}

impl Handed {
    // Copies the parts, each to any byte of a line, with other bytes around it.
    fn hold(&mut self, random: &mut Random, parts: [&[u8]; 4]) {
        let sizes = parts.map(|part| BETWEEN.len() + part.len());
        self.bytes.clear();
        self.bytes.reserve(sizes.iter().sum::<usize>() + MARGIN);
        let mut drawn = random.draw() as usize;
        for (place, part) in self.places.iter_mut().zip(parts) {
            let behind = self.bytes.as_ptr_range().end as usize;
            let gap = MARGIN + drawn.wrapping_sub(behind) % LINE;
            drawn /= LINE;
            self.bytes.extend_from_slice(&BETWEEN[..gap]);
            let start = self.bytes.len();
            self.bytes.extend_from_slice(part);
            *place = start..start + part.len();
        }
        self.bytes.extend_from_slice(&BETWEEN[..MARGIN]);
    }

    // The copies.
    fn parts(&self) -> [&[u8]; 4] {
        self.places.clone().map(|place| &self.bytes[place])
    }

    // Whether the copies, and the bytes around them, are as they were.
    fn is_kept(&self, parts: [&[u8]; 4]) -> bool {
        let starts = self.places.iter().map(|place| place.start);
        let ends = self.places.iter().map(|place| place.end);
        let mut gaps = std::iter::once(0)
            .chain(ends)
            .zip(starts.chain([self.bytes.len()]));
        gaps.all(|(end, start)| self.bytes[end..start] == BETWEEN[..start - end])
            && self.parts() == parts
    }
}

/// The comparison's state: its random source, its counts, and buffers that are used again.
pub struct Comparison {
    pub random: Random,
    pub tally: Tally,
    pub output: Output,
    handed: Handed,
}

/// Bytes of a pattern.
pub fn fill(part: &mut [u8], pattern: u64) {
    let mut random = Random::new(pattern);
    for bytes in part.chunks_mut(8) {
        let drawn = random.draw().to_le_bytes();
        bytes.copy_from_slice(&drawn[..bytes.len()]);
    }
}

// A call in words, cut short.
fn told(call: &Call, length: usize) -> String {
    let whole = format!("{call:?}");
    let shown: String = whole.chars().take(SHOWN).collect();
    format!("{} over {length} bytes: {shown}", name(call))
}

impl Comparison {
    /// A comparison that starts from a seed.
    pub fn new(seed: u64) -> Comparison {
        Comparison {
            random: Random::new(seed),
            tally: Tally::default(),
            output: Output::default(),
            handed: Handed::default(),
        }
    }

    /// A single call over an output of so many bytes: what is to be behind a closing's eight free
    /// bytes, and a filler or a pattern everywhere else.
    pub fn single(
        &mut self,
        call: &Call,
        length: usize,
        around: Around,
    ) -> Result<Answer, Difference> {
        let mut before = trees::output_before(call, length);
        if around == Around::Pattern {
            self.pattern_around_contents(call, &mut before);
        }
        let mut output = std::mem::take(&mut self.output);
        output.hold(&mut self.random, &before);
        let answer = self.call(call, &mut output);
        self.output = output;
        answer
    }

    // Random bytes wherever no contents of a closing stand.
    fn pattern_around_contents(&mut self, call: &Call, before: &mut [u8]) {
        let contents = match call {
            Call::CloseConfiguration {
                place, contents, ..
            }
            | Call::CloseEvent {
                place, contents, ..
            } => {
                let first = place.saturating_add(8).min(before.len());
                first..first.saturating_add(contents.len()).min(before.len())
            }
            _ => 0..0,
        };
        let pattern = self.random.draw();
        fill(&mut before[..contents.start], pattern);
        fill(&mut before[contents.end..], !pattern);
    }

    /// A call over an output: gives the answer that both gave.
    pub fn call(&mut self, call: &Call, output: &mut Output) -> Result<Answer, Difference> {
        let length = output.length();
        let lent = output.start..output.start + length;
        let answer = trees::perform(call, &mut output.outside[lent.clone()]);
        let pattern = self.random.draw();
        let before = Lent {
            next: pattern,
            refused_at: !pattern,
        };
        let (mut expected, mut left) = ((0, before), before);
        match answer {
            Ok(next) => expected.1.next = next as u64,
            Err((number, place)) => {
                expected.0 = number;
                expected.1.refused_at = place as u64;
            }
        }
        self.handed.hold(&mut self.random, parts(call));
        let handed = self.handed.parts();
        let number = perform(call, handed, &mut output.archive[lent], &mut left);
        if (number, left) != expected {
            return Err(Difference(format!(
                "{}\noutside  {}\narchive  {}",
                told(call, length),
                answer_shown(expected, before),
                answer_shown((number, left), before)
            )));
        }
        if output.archive != output.outside {
            return Err(self.bytes_difference(call, output));
        }
        if !self.handed.is_kept(parts(call)) {
            let call = told(call, length);
            return Err(Difference(format!("{call}\nwhat was handed over changed")));
        }
        self.tally.add(call, number);
        Ok(answer)
    }

    /// A call over an output longer than the limit; its bytes are for the caller to compare.
    pub fn refused_over_limit(&mut self, call: &Call, out: &mut [u8]) -> Result<(), Difference> {
        let pattern = self.random.draw();
        let before = Lent {
            next: pattern,
            refused_at: !pattern,
        };
        let mut left = before;
        let length = out.len();
        self.handed.hold(&mut self.random, parts(call));
        let number = perform(call, self.handed.parts(), out, &mut left);
        let expected = Lent {
            refused_at: 0,
            ..before
        };
        if (number, left) != (1, expected) {
            return Err(Difference(format!(
                "{}\noutside  {}\narchive  {}",
                told(call, length),
                answer_shown((1, expected), before),
                answer_shown((number, left), before)
            )));
        }
        self.tally.add(call, number);
        Ok(())
    }

    // The first byte that differs.
    fn bytes_difference(&self, call: &Call, output: &Output) -> Difference {
        let pairs = output.archive.iter().zip(&output.outside);
        let first = pairs.take_while(|(held, after)| held == after).count();
        Difference(format!(
            "{}\nbyte {} of the output\noutside  {:#04x}\narchive  {:#04x}",
            told(call, output.length()),
            first as i64 - output.start as i64,
            output.outside[first],
            output.archive[first]
        ))
    }
}

// A number and what it leaves in the two lent ones, in words.
fn answer_shown(left: (u32, Lent), before: Lent) -> String {
    let shown = |value: u64, before: u64| {
        if value == before {
            String::from("as it was")
        } else {
            value.to_string()
        }
    };
    let (number, lent) = left;
    let next = shown(lent.next, before.next);
    let refused_at = shown(lent.refused_at, before.refused_at);
    format!("number {number}; next {next}; refused_at {refused_at}")
}
