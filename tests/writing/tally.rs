//! How often each writer gave each answer and stored a long part, and how often it has to.

use std::fmt::Write;

use super::interface::parts;
use super::trees::Call;

/// The least times that a call gives a number that it can give.
const LEAST: u64 = 100;

/// How long a long part is: the writers store parts in blocks of so many bytes.
const LONG: usize = 4096;

/// The parts that traces and histories store.
const PARTS: [&str; 5] = [
    "samples",
    "veto times",
    "veto masks",
    "trigger times",
    "trigger masks",
];

/// Each call's name, and the numbers that it can give.
const CALLS: [(&str, &[usize]); 12] = [
    ("header", &[0, 1, 13]),
    ("phonon", &[0, 1, 10, 13]),
    ("charge", &[0, 1, 10, 13]),
    ("administrative", &[0, 1, 10, 13]),
    ("trace", &[0, 1, 6, 10, 11, 13]),
    ("history", &[0, 1, 6, 10, 13]),
    ("GPS", &[0, 1, 10, 13]),
    ("trigger", &[0, 1, 13]),
    ("TLB", &[0, 1, 10, 13]),
    ("close configuration", &[0, 1, 2, 5, 6, 10, 13]),
    ("close event", &[0, 1, 2, 5, 6, 7, 8, 9, 10, 11, 13]),
    ("rewrite", &[0, 1, 2, 3, 4, 5, 6, 7, 8, 9, 10, 11, 13]),
];

/// The answers of every call, by number.
#[derive(Default)]
pub struct Tally {
    numbers: [[u64; 14]; 12],
    /// Long parts of accepted calls.
    long: [u64; 5],
    /// Files of valid trees, accepted and restored.
    pub restored: u64,
}

// Where a call stands in the list.
fn which(call: &Call) -> usize {
    match call {
        Call::Header { .. } => 0,
        Call::Phonon { .. } => 1,
        Call::Charge { .. } => 2,
        Call::Administrative { .. } => 3,
        Call::Trace { .. } => 4,
        Call::History { .. } => 5,
        Call::Gps { .. } => 6,
        Call::Trigger { .. } => 7,
        Call::Tlb { .. } => 8,
        Call::CloseConfiguration { .. } => 9,
        Call::CloseEvent { .. } => 10,
        Call::Rewrite { .. } => 11,
    }
}

/// A call's name.
pub fn name(call: &Call) -> &'static str {
    CALLS[which(call)].0
}

impl Tally {
    /// One answer more.
    pub fn add(&mut self, call: &Call, number: u32) {
        self.numbers[which(call)][number as usize] += 1;
        let first = match call {
            Call::Trace { .. } => 0,
            Call::History { .. } => 1,
            _ => return,
        };
        for (times, part) in self.long[first..].iter_mut().zip(parts(call)) {
            *times += u64::from(number == 0 && part.len() >= LONG);
        }
    }

    /// How many calls were compared.
    pub fn calls(&self) -> u64 {
        self.numbers.iter().flatten().sum()
    }

    /// The counts as lines of text.
    pub fn lines(&self) -> String {
        let mut text = format!("{:<20}", "number");
        for number in 0..14 {
            let _ = write!(text, "{number:>8}");
        }
        for ((name, _), times) in CALLS.iter().zip(&self.numbers) {
            let _ = write!(text, "\n{name:<20}");
            for times in times {
                let _ = write!(text, "{times:>8}");
            }
        }
        let _ = write!(text, "\nstored, of {LONG} bytes or more:");
        for (name, times) in PARTS.iter().zip(self.long) {
            let _ = write!(text, " {name} {times};");
        }
        text.pop();
        text.push('\n');
        text
    }

    /// What occurred too seldom for the run to say much.
    pub fn too_seldom(&self) -> Vec<String> {
        let mut found = Vec::new();
        for ((name, numbers), times) in CALLS.iter().zip(&self.numbers) {
            for number in *numbers {
                if times[*number] < LEAST {
                    found.push(format!("{name} gave {number} {} times", times[*number]));
                }
            }
        }
        for (name, times) in PARTS.iter().zip(self.long) {
            if times < LEAST {
                found.push(format!("long {name} were stored {times} times"));
            }
        }
        if self.restored < LEAST {
            found.push(format!("{} files were restored", self.restored));
        }
        found
    }
}
