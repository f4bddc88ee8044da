//! Listing compared through the boundary: the answer and every row, into 64 rows and into other counts of them; and, beside a step,
//! what the list says of that step.

use independent::{Answer, Row, FIRST_WORDS, ROWS, WORDS};

use crate::hostile;
use crate::library::Call;
use crate::stepping::{alike, Comparison};

/// Counts of rows that are refused.
const OTHER_COUNTS: [usize; 6] = [0, 0, 1, 63, 65, 128];

fn bytes_of(rows: &[Row]) -> Vec<u8> {
    let words = rows
        .iter()
        .flat_map(|row| [row.identifier, row.forward, row.undo]);
    words.flat_map(u32::to_le_bytes).collect()
}

/// The code of a step by the list before it: the list's own where it is refused, else that of the row. None for a step of which the
/// list says nothing.
fn foretold(code: u32, rows: &[Row], process: u32, direction: u32) -> Option<u32> {
    if code != 0 {
        return Some(code);
    }
    let row = rows.iter().find(|row| row.identifier == process)?;
    [row.forward, row.undo].get(direction as usize).copied()
}

impl Comparison<'_> {
    /// One call of listing, both ways, into so many rows of anything: its code, and the rows after it.
    pub fn list(
        &mut self,
        image: &[u8],
        machine: &[u8],
        count: usize,
    ) -> Result<(u32, Vec<Row>), String> {
        let mut rows: Vec<Row> = (0..count).map(|_| self.any_row()).collect();
        let mut lent = bytes_of(&rows);
        self.library.ask(Call::List(image, machine), &lent);
        let theirs = independent::list_bytes(image, machine, &mut rows);
        let ours = self.library.answer(&mut lent);
        let what = format!("a list into {count} rows");
        alike(&what, image, (ours, &lent), (theirs, &bytes_of(&rows)))?;
        self.tally.list(theirs.code, &rows);
        Ok((theirs.code, rows))
    }

    fn any_row(&mut self) -> Row {
        let mut word = || self.for_lists.next() as u32;
        Row {
            identifier: word(),
            forward: word(),
            undo: word(),
        }
    }

    /// A list with all 64 rows used: main's seven children have forked eight each.
    pub fn list_a_crowd(&mut self) -> Result<(), String> {
        let image = hostile::crowded();
        let mut machine = vec![0; 4 * WORDS];
        self.start(&image, &[0; 4 * FIRST_WORDS], &mut machine)?;
        for process in (0..=7).flat_map(|process| [process, process]) {
            self.step(&image, &mut machine, process, 0)?;
        }
        self.look(&machine);
        self.list(&image, &machine, ROWS).map(drop)
    }

    /// Now and then a list into too few or too many rows.
    pub fn other_row_count(&mut self, image: &[u8], machine: &[u8]) -> Result<(), String> {
        if !self.for_lists.once_in(40) {
            return Ok(());
        }
        let count = self.for_lists.one_of(&OTHER_COUNTS);
        self.list(image, machine, count).map(drop)
    }

    /// A step, and once in so many a list before it, which says the step's code.
    pub fn listed_step(
        &mut self,
        image: &[u8],
        machine: &mut [u8],
        process: u32,
        direction: u32,
        rarity: usize,
    ) -> Result<Answer, String> {
        if !self.for_lists.once_in(rarity) {
            return self.step(image, machine, process, direction);
        }
        let (code, rows) = self.list(image, machine, ROWS)?;
        let answer = self.step(image, machine, process, direction)?;
        match foretold(code, &rows, process, direction) {
            Some(code) if code != answer.code => Err(format!(
                "{answer:?} for a step of {process:x}, direction {direction}, listed as {code}; image {image:02x?}"
            )),
            _ => Ok(answer),
        }
    }
}
