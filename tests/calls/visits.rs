//! The visitor: Table's rows from a number on, as many as the lent buffer holds.

use super::compare::{alike, Comparison, Difference, File};
use super::interface;
use super::reader::Table;

/// A file with more rows than this is asked for a few parts of them only.
const MANY_ROWS: usize = 10_000;

impl Comparison {
    /// Some of a file's rows from a number on, in buffers of several sizes; then all in pieces.
    pub fn visits(&mut self, file: File, expected: &Table) -> Result<(), Difference> {
        if expected.number != 0 {
            for (first, capacity) in [(0, 0), (0, 6), (usize::MAX, 5)] {
                self.visit(file, expected, first, capacity)?;
            }
            let first = self.random.below(9) as usize;
            let capacity = self.random.below(96) as usize;
            self.visit(file, expected, first, capacity)?;
            return Ok(());
        }
        let count = expected.rows.len();
        let between = self.random.below(count as u64) as usize;
        let far = self.random.draw() as usize;
        let firsts = [
            0,
            1,
            count / 2,
            between,
            count - 1,
            count,
            count + 1,
            far,
            usize::MAX,
        ];
        for first in firsts {
            let left = 6 * count.saturating_sub(first);
            let fewer = self.random.below(left as u64 + 1) as usize;
            for capacity in [0, 5, 6, fewer, left, left + 6] {
                if count <= MANY_ROWS || self.random.once_in(8) {
                    self.visit(file, expected, first, capacity)?;
                }
            }
        }
        self.in_pieces(file, expected)
    }

    // A whole file in pieces, the next from where the last ended, until there is nothing.
    fn in_pieces(&mut self, file: File, expected: &Table) -> Result<(), Difference> {
        let count = expected.rows.len() as u64;
        let least = count / 8 + 1;
        let rows = self.random.between(least, count + 1) as usize;
        let capacity = 6 * rows + self.random.below(6) as usize;
        let mut first = 0;
        loop {
            match self.visit(file, expected, first, capacity)? {
                0 => break,
                given => first += given,
            }
        }
        alike(&expected.rows.len(), &first, || {
            format!("dwj_visit in pieces of {rows} rows: rows in all")
        })
    }

    // One visit: its answer, every row, the rest of the buffer; gives how many rows there were.
    fn visit(
        &mut self,
        file: File,
        expected: &Table,
        first: usize,
        capacity: usize,
    ) -> Result<usize, Difference> {
        let left = expected.rows.get(first..).unwrap_or(&[]);
        let rows = &left[..left.len().min(capacity / 6)];
        let pattern = self.random.draw();
        let (mut count, mut place) = (pattern, !pattern);
        let room = self.row_buffer(pattern, capacity, rows);
        let number = interface::visit(file.lent, first, room, &mut count, &mut place);
        let call = || format!("dwj_visit from row {first} on, with room for {capacity} numbers");
        alike(
            &(expected.number, rows.len() as u64, expected.place),
            &(number, count, place),
            || call() + ": number, count, place",
        )?;
        self.row_buffer_alike(call)?;
        self.tally.visit.numbers[number as usize] += 1;
        for row in rows {
            self.tally.visit.kinds[row[0] as usize] += 1;
        }
        if number == 0 && left.is_empty() {
            self.tally.nothing_left += 1;
        }
        Ok(rows.len())
    }
}
