//! How often each answer occurred, and how often it has to.

use std::fmt::Write;

/// The least times that a refusal's number or a kind occurs in a run, and number 1.
const LEAST: u64 = 100;
const LEAST_OVER_LIMIT: u64 = 20;

/// The numbers that Table can give, that a call over a whole file can, and that Record, Setting
/// and Sample can.
const TABLE_NUMBERS: &[usize] = &[0, 1, 2, 3, 4, 5, 6, 7, 8, 9, 10, 11, 12];
const FILE_NUMBERS: &[usize] = &[0, 1, 2, 3, 4, 5, 6, 7, 8, 9, 10, 11];
const RECORD_NUMBERS: &[usize] = &[0, 1, 2, 5, 6, 10, 11];
/// The row kinds of a file, those after the header's, those of entries and records, and of entries.
const FILE_KINDS: &[usize] = &[1, 2, 3, 4, 5, 6, 7, 8, 9, 10, 11];
const LATER_KINDS: &[usize] = &[2, 3, 4, 5, 6, 7, 8, 9, 10, 11];
const RECORD_KINDS: &[usize] = &[3, 4, 6, 7, 8, 9, 10, 11];
const ENTRY_KINDS: &[usize] = &[3, 4];

const NUMBER_NAMES: [&str; 13] = [
    "accepted",
    "over the limit",
    "no room in the parent",
    "first word",
    "format",
    "kind",
    "length",
    "class, category or type",
    "type 7",
    "event's own rule",
    "field",
    "n",
    "rows don't fit",
];
const KIND_NAMES: [&str; 12] = [
    "",
    "header",
    "configuration",
    "phonon",
    "charge",
    "event",
    "administrative",
    "trace",
    "history",
    "GPS",
    "trigger",
    "TLB",
];

/// The answers of one call: by number, and by the row kinds given under 0.
#[derive(Default)]
pub struct Answers {
    pub numbers: [u64; 13],
    pub kinds: [u64; 12],
}

/// All answers that were compared; of the small calls those that were given, and refused.
#[derive(Default)]
pub struct Tally {
    pub table: Answers,
    pub record: Answers,
    pub setting: Answers,
    pub sample: Answers,
    pub find: Answers,
    pub open: Answers,
    pub next: Answers,
    pub visit: Answers,
    /// Traces found: the only one, the first of several in its event, one that another event has
    /// too; and none.
    pub found: [u64; 4],
    /// Walkers' answers at the end.
    pub ends: u64,
    /// Visits from past the last row.
    pub nothing_left: u64,
    /// Rows, ends and refusals from numbers that no walker need have.
    pub any_numbers: [u64; 3],
    pub samples: [u64; 2],
    pub channel: [u64; 2],
    pub code: [u64; 2],
    pub zip: [u64; 2],
}

/// A call whose answers have numbers: its name, its answers, the numbers and kinds that it can give.
type Numbered<'a> = (&'a str, &'a Answers, &'a [usize], &'a [usize]);

impl Tally {
    fn numbered(&self) -> [Numbered<'_>; 8] {
        [
            ("Table", &self.table, TABLE_NUMBERS, FILE_KINDS),
            ("Record", &self.record, RECORD_NUMBERS, RECORD_KINDS),
            ("Setting", &self.setting, RECORD_NUMBERS, ENTRY_KINDS),
            ("Sample", &self.sample, RECORD_NUMBERS, &[]),
            ("Find", &self.find, FILE_NUMBERS, &[]),
            ("Open", &self.open, FILE_NUMBERS, &[1]),
            ("Next", &self.next, FILE_NUMBERS, LATER_KINDS),
            ("Visit", &self.visit, FILE_NUMBERS, FILE_KINDS),
        ]
    }

    // The calls and answers that have no column: what each is, and how often it occurred.
    fn others(&self) -> [(&'static str, &[u64]); 8] {
        [
            (
                "Find: the only one, of several in an event, of several events', none",
                &self.found,
            ),
            ("Next: ends", std::slice::from_ref(&self.ends)),
            (
                "Visit: from past the last row",
                std::slice::from_ref(&self.nothing_left),
            ),
            (
                "Next from any numbers: rows, ends, refusals",
                &self.any_numbers,
            ),
            ("Samples: some, none", &self.samples),
            ("Channel: given, refused", &self.channel),
            ("Code: given, refused", &self.code),
            ("ZIP: set, not set", &self.zip),
        ]
    }

    /// How many calls were compared.
    pub fn calls(&self) -> u64 {
        let numbered = self.numbered();
        let large: u64 = numbered.iter().flat_map(|call| call.1.numbers).sum();
        let small = [self.samples, self.channel, self.code, self.zip];
        let twice = 2 * self.any_numbers.iter().sum::<u64>();
        large + twice + small.iter().flatten().sum::<u64>()
    }

    /// The counts as lines of text.
    pub fn lines(&self) -> String {
        let numbered = self.numbered();
        let mut text = format!("{:>32}", "");
        for (name, ..) in numbered {
            let _ = write!(text, "{name:>9}");
        }
        text.push('\n');
        for (number, name) in NUMBER_NAMES.iter().enumerate() {
            let times = numbered.map(|call| call.1.numbers[number]);
            text.push_str(&line("number", number, name, times));
        }
        for (kind, name) in KIND_NAMES.iter().enumerate().skip(1) {
            let times = numbered.map(|call| call.1.kinds[kind]);
            text.push_str(&line("kind", kind, name, times));
        }
        for (what, times) in self.others() {
            let _ = writeln!(text, "{what}: {}", listed(times));
        }
        text
    }

    /// What occurred too seldom for the run to say much.
    pub fn too_seldom(&self) -> Vec<String> {
        let mut found = Vec::new();
        for (call, answers, numbers, kinds) in self.numbered() {
            for number in numbers {
                let times = answers.numbers[*number];
                let least = if *number == 1 {
                    LEAST_OVER_LIMIT
                } else {
                    LEAST
                };
                if times < least {
                    found.push(format!("{call} gave number {number} {times} times"));
                }
            }
            for kind in kinds {
                let times = answers.kinds[*kind];
                if times < LEAST {
                    found.push(format!("{call} gave kind {kind} {times} times"));
                }
            }
        }
        for (what, times) in self.others() {
            if times.iter().any(|times| *times < LEAST) {
                found.push(format!("{what}: {}", listed(times)));
            }
        }
        found
    }
}

// One line of counts, a call to a column.
fn line(what: &str, number: usize, name: &str, times: [u64; 8]) -> String {
    let mut text = format!("{what:<7}{number:>2} {name:<22}");
    for times in times {
        let _ = write!(text, "{times:>9}");
    }
    text.push('\n');
    text
}

// Counts with commas between them.
fn listed(times: &[u64]) -> String {
    let texts: Vec<String> = times.iter().map(u64::to_string).collect();
    texts.join(", ")
}
