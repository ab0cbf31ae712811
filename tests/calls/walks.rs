//! The walker: row by row through a file, and the end behind them; a refused file's refusal; and
//! what a call does with numbers that no walker has.

use super::compare::{alike, lent, part_shown, pattern_array, place_shown};
use super::compare::{Comparison, Difference, File, FAR_PLACES, MARGIN};
use super::interface;
use super::reader::{self, Row, Yield};

/// A walker's numbers.
pub type Numbers = [u64; 6];
/// A walker's call: it opens the file, or goes on from the numbers.
type Call = fn(&[u8], &mut Numbers, &mut Row, &mut u64) -> u32;

/// How many answers without a row end a walk: the first, and three more that have to be the same.
const LAST_ANSWERS: u32 = 4;
/// How many rows to take from numbers that no walker has, at most, in a file longer than SHORT.
const SOME_ROWS: usize = 64;
const SHORT: usize = 4_096;

/// What a walker's call leaves behind.
#[derive(Clone, PartialEq)]
struct Left {
    number: u32,
    walker: [u64; 6 + 2 * MARGIN],
    row: [u32; 6 + 2 * MARGIN],
    refused_at: u64,
}

impl Left {
    // What is lent: a pattern, and a walker's numbers amid it where a walker is at hand.
    fn before(pattern: u64, numbers: Option<Numbers>) -> Left {
        let mut left = Left {
            number: 0,
            walker: pattern_array(pattern).map(|value| value as u64),
            row: pattern_array(!pattern).map(|value| value as u32),
            refused_at: pattern.rotate_left(32),
        };
        if let Some(numbers) = numbers {
            *lent(&mut left.walker) = numbers;
        }
        left
    }

    // The same after a call.
    fn after(mut self, file: &[u8], call: Call) -> Left {
        let walker = lent(&mut self.walker);
        let row = lent(&mut self.row);
        self.number = call(file, walker, row, &mut self.refused_at);
        self
    }

    fn numbers(&mut self) -> Numbers {
        *lent(&mut self.walker)
    }

    fn row(&mut self) -> Row {
        *lent(&mut self.row)
    }

    // In words, against what was lent.
    fn shown(&self, before: &Left) -> String {
        let number = self.number;
        let walker = part_shown(&self.walker, &before.walker);
        let row = part_shown(&self.row, &before.row);
        let refused_at = place_shown(self.refused_at, before.refused_at);
        format!("number {number}; walker {walker}; row {row}; refused_at {refused_at}")
    }
}

impl Comparison {
    /// A walk from opening on, answer by answer, and past its end.
    pub fn walk(&mut self, file: File) -> Result<(), Difference> {
        let mut outside = reader::walk(file.copy);
        let mut numbers = None;
        let mut held = [0; 6];
        let (mut steps, mut without_row) = (0, 0);
        while without_row < LAST_ANSWERS {
            let given = outside.step();
            let reached = self.step(file, numbers, &given)?;
            numbers = Some(reached);
            steps += 1;
            if self.random.once_in(steps) {
                held = reached;
            }
            match given {
                Yield::Row(_) => without_row = 0,
                Yield::End | Yield::Refused(..) => without_row += 1,
            }
        }
        self.any_numbers(file, held)
    }

    // One call: what it gives, and all that was lent; the walker's numbers alone are its own.
    fn step(
        &mut self,
        file: File,
        numbers: Option<Numbers>,
        given: &Yield,
    ) -> Result<Numbers, Difference> {
        let call: Call = match numbers {
            Some(_) => interface::next,
            None => interface::open,
        };
        let before = Left::before(self.random.draw(), numbers);
        let mut left = before.clone().after(file.lent, call);
        let reached = left.numbers();
        let mut expected = before.clone();
        *lent(&mut expected.walker) = reached;
        match given {
            Yield::Row(row) => *lent(&mut expected.row) = *row,
            Yield::End => *lent(&mut expected.row) = [0; 6],
            Yield::Refused(number, place) => {
                expected.number = *number;
                expected.refused_at = *place;
            }
        }
        if left != expected {
            return Err(Difference {
                call: match numbers {
                    Some(numbers) => format!("dwj_next from {numbers:?}"),
                    None => String::from("dwj_open"),
                },
                outside: expected.shown(&before),
                archive: left.shown(&before),
            });
        }
        let answers = match numbers {
            Some(_) => &mut self.tally.next,
            None => &mut self.tally.open,
        };
        answers.numbers[left.number as usize] += 1;
        match given {
            Yield::Row(row) => answers.kinds[row[0] as usize] += 1,
            Yield::End => self.tally.ends += 1,
            Yield::Refused(..) => {}
        }
        Ok(reached)
    }

    // Numbers that no walker has, and a walk from each: numbers of any sort, those of a walker over
    // this file with one changed, and those of a walker over an earlier file.
    fn any_numbers(&mut self, file: File, held: Numbers) -> Result<(), Difference> {
        let mut any = [0; 6];
        for number in &mut any {
            *number = self.any_number(file, held[2]);
        }
        any[0] = self.any_refusal();
        let mut changed = [held; 2];
        for numbers in &mut changed {
            let which = self.random.below(6) as usize;
            numbers[which] = match which {
                0 => self.any_refusal(),
                _ => self.any_number(file, held[which]),
            };
        }
        let earlier = std::mem::replace(&mut self.earlier_walker, held);
        for numbers in [any, changed[0], changed[1], earlier] {
            self.walk_from(file, numbers)?;
        }
        Ok(())
    }

    // A walker's first number, which says whether its file is refused: seldom, so that rows are met.
    fn any_refusal(&mut self) -> u64 {
        match self.random.below(8) {
            0 => self.random.below(20),
            1 => self.random.draw(),
            2 => self.random.below(1 << 32) << 32,
            _ => 0,
        }
    }

    // A number of any sort: small, in the file, around its end, near one that is held, far off.
    fn any_number(&mut self, file: File, held: u64) -> u64 {
        let random = &mut self.random;
        let length = file.lent.len() as u64;
        match random.below(9) {
            0 => random.draw(),
            1 => 0,
            2 => random.below(17),
            3 => random.below(length + 9),
            4 => 4 * random.below(length / 4 + 2),
            5 => length.wrapping_add(random.below(17)).wrapping_sub(8),
            6 => held.wrapping_add(random.below(17)).wrapping_sub(8),
            7 => random.below(length + 9) + (random.between(1, 3) << 32),
            _ => random.pick(&FAR_PLACES),
        }
    }

    // From any numbers: each call answers twice alike; a row lies in the file, and the rows end.
    fn walk_from(&mut self, file: File, numbers: Numbers) -> Result<(), Difference> {
        let most = if file.lent.len() <= SHORT {
            file.lent.len() / 8 + 1
        } else {
            SOME_ROWS
        };
        let mut numbers = numbers;
        for _ in 0..most {
            match self.step_from(file, numbers)? {
                Some(reached) => numbers = reached,
                None => return Ok(()),
            }
        }
        if file.lent.len() > SHORT {
            return Ok(());
        }
        alike(&"at most a row for every 8 bytes", &"more rows", || {
            format!("dwj_next up to {numbers:?}")
        })
    }

    // One call from any numbers, twice; the numbers reached where it gives a row.
    fn step_from(&mut self, file: File, numbers: Numbers) -> Result<Option<Numbers>, Difference> {
        let call = || format!("dwj_next from {numbers:?}, which no walker need have");
        let before = Left::before(self.random.draw(), Some(numbers));
        let mut left = before.clone().after(file.lent, interface::next);
        let again = before.clone().after(file.lent, interface::next);
        if left != again {
            return Err(Difference {
                call: call() + ", called twice",
                outside: format!("the same again: {}", left.shown(&before)),
                archive: again.shown(&before),
            });
        }
        let (reached, row) = (left.numbers(), left.row());
        let mut expected = before.clone();
        *lent(&mut expected.walker) = reached;
        let refused = numbers[0] as u32;
        if refused == 0 {
            *lent(&mut expected.row) = row;
        } else {
            expected.number = refused;
            expected.refused_at = numbers[1];
        }
        if left != expected {
            return Err(Difference {
                call: call(),
                outside: expected.shown(&before),
                archive: left.shown(&before),
            });
        }
        if refused != 0 {
            self.tally.any_numbers[2] += 1;
            return Ok(None);
        }
        if row == [0; 6] {
            self.tally.any_numbers[1] += 1;
            return Ok(None);
        }
        let [kind, start, whole, ..] = row;
        let end = u64::from(start) + u64::from(whole);
        let inside = (1..=11).contains(&kind) && whole >= 8 && end <= file.lent.len() as u64;
        alike(&true, &inside, || {
            call() + &format!(": its row {row:?} lies in the file")
        })?;
        self.tally.any_numbers[0] += 1;
        Ok(Some(reached))
    }
}
