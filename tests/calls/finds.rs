//! Find: the first trace by its event's number and its code.

use super::compare::{alike, Comparison, Difference, File};
use super::files::{set_word, valid_parts};
use super::interface;
use super::random::Random;
use super::reader::{find, Row, Table};

/// The most traces that are asked for, one by one; of a file with many rows, some of them.
const MOST_ASKED: usize = 32;
const MANY_ROWS: usize = 10_000;
const FEW_ASKED: usize = 6;

/// Where an administrative record has its event's number.
const NUMBER_AT: usize = 16;

/// An event's number and a trace's code.
type Pair = (u32, u32);

/// What can be asked of an accepted file: its traces, each with the row of its event; its events'
/// numbers.
struct Asked {
    traces: Vec<(u32, Pair)>,
    numbers: Vec<u32>,
}

impl Asked {
    fn of(rows: &[Row]) -> Asked {
        let (mut traces, mut numbers) = (Vec::new(), vec![0]);
        for row in rows {
            match row[0] {
                6 => numbers.push(row[4]),
                7 => traces.push((row[3], (numbers[numbers.len() - 1], row[4]))),
                _ => {}
            }
        }
        Asked { traces, numbers }
    }

    // How the traces stand that a pair names: one, several in one event, several events'.
    fn standing(&self, pair: Pair) -> usize {
        let mut events = self.traces.iter().filter(|trace| trace.1 == pair);
        let first = events.next().map(|trace| trace.0);
        match events.last() {
            None => 0,
            Some(last) if first == Some(last.0) => 1,
            Some(_) => 2,
        }
    }
}

/// A valid file in which events come again, some of them with another number.
pub fn repeating(random: &mut Random) -> Vec<u8> {
    let mut parts = valid_parts(random);
    for _ in 0..random.between(1, 4) {
        let events = parts.events.len() as u64;
        if events == 0 {
            break;
        }
        let mut again = parts.events[random.below(events) as usize].clone();
        if random.once_in(2) {
            set_word(&mut again.1[0], NUMBER_AT, random.pick(&[0, 1, 7]));
        }
        let place = random.below(events + 1) as usize;
        parts.events.insert(place, again);
    }
    parts.bytes()
}

impl Comparison {
    /// The traces of a file, and pairs that it need not have.
    pub fn finds(&mut self, file: File, expected: &Table) -> Result<(), Difference> {
        let asked = Asked::of(&expected.rows);
        let traces = &asked.traces;
        let most = if expected.rows.len() <= MANY_ROWS {
            MOST_ASKED
        } else {
            FEW_ASKED
        };
        for turn in 0..traces.len().min(most) {
            let (_, pair) = match turn {
                _ if traces.len() <= most => traces[turn],
                0 => traces[traces.len() - 1],
                _ => self.random.pick(traces),
            };
            self.find(file, &asked, pair)?;
        }
        for pair in self.other_pairs(&asked) {
            self.find(file, &asked, pair)?;
        }
        Ok(())
    }

    // Near a pair that occurs, its halves exchanged, one's number with another's code, any.
    fn other_pairs(&mut self, asked: &Asked) -> Vec<Pair> {
        let random = &mut self.random;
        let mut pairs = vec![(random.word(), random.word()), (0, 0)];
        if !asked.traces.is_empty() {
            let (_, (number, code)) = random.pick(&asked.traces);
            let (_, (_, other_code)) = random.pick(&asked.traces);
            pairs.extend([
                (number, code.wrapping_add(1)),
                (number, code ^ 1 << random.below(32)),
                (number.wrapping_add(1), code),
                (number ^ 1 << random.below(32), code),
                (code, number),
                (number, other_code),
                (random.pick(&asked.numbers), code),
            ]);
        }
        pairs
    }

    // One pair: its answer, the trace's place, the place of a refusal.
    fn find(&mut self, file: File, asked: &Asked, pair: Pair) -> Result<(), Difference> {
        let (number, code) = pair;
        let pattern = self.random.draw();
        let before = (0, pattern, !pattern);
        let answer = find(file.copy, number, code);
        let mut expected = before;
        match answer {
            Ok(place) => expected.1 = place.unwrap_or(0),
            Err((number, at)) => {
                expected.0 = number;
                expected.2 = at;
            }
        }
        let mut left = before;
        left.0 = interface::find(file.lent, number, code, &mut left.1, &mut left.2);
        alike(&expected, &left, || {
            format!("dwj_find of number {number}, code {code}: number, place, refused_at")
        })?;
        self.tally.find.numbers[left.0 as usize] += 1;
        match answer {
            Ok(Some(_)) => self.tally.found[asked.standing(pair)] += 1,
            Ok(None) => self.tally.found[3] += 1,
            Err(_) => {}
        }
        Ok(())
    }
}
