//! How often each code came up for steps of each direction, for lists and in their rows, and each clause of code 17; and which of them
//! must have.

use std::ops::RangeInclusive;

use independent::Row;

use crate::clauses;

pub const CODES: usize = 29;

const FORWARD: usize = 0;
const UNDO: usize = 1;
const OTHER: usize = 2;
const LIST: usize = 3;
const ROW_FORWARD: usize = 4;
const ROW_UNDO: usize = 5;
const COLUMNS: usize = 6;

/// Why codes never come in some columns.
type Never = (
    &'static str,
    &'static [(&'static [usize], RangeInclusive<usize>)],
);

const NEVER: [Never; 5] = [
    (
        "another direction is 19, which comes before 0, 18 and 20 to 28",
        &[
            (&[FORWARD, UNDO], 19..=19),
            (&[OTHER], 0..=0),
            (&[OTHER], 18..=18),
            (&[OTHER], 20..=28),
        ],
    ),
    (
        "26 is for a forward step only, as an undo keeps nothing",
        &[(&[UNDO, ROW_UNDO], 26..=26)],
    ),
    (
        "27 is for an undo only, as the graph holds no forward step",
        &[(&[FORWARD, ROW_FORWARD], 27..=27)],
    ),
    (
        "28 never comes: main's peak, at most 64, bounds the processes of every machine that fits",
        &[(&[FORWARD, UNDO, ROW_FORWARD, ROW_UNDO], 28..=28)],
    ),
    (
        "a list itself answers none of 18 to 28, and its rows are of live processes only, so none of 1 to 19",
        &[(&[LIST], 18..=28), (&[ROW_FORWARD, ROW_UNDO], 1..=19)],
    ),
];

fn is_never(column: usize, code: usize) -> bool {
    let mut all = NEVER.iter().flat_map(|(_, parts)| parts.iter());
    all.any(|(columns, codes)| columns.contains(&column) && codes.contains(&code))
}

#[derive(Default)]
pub struct Tally {
    pub steps: usize,
    pub starts: usize,
    pub lists: usize,
    pub programs: usize,
    pub most_kept: u32,
    pub most_live: u32,
    pub largest_process: u32,
    answers: [[usize; CODES]; COLUMNS],
    broken: [usize; clauses::COUNT],
    alone: [usize; clauses::COUNT],
}

impl Tally {
    pub fn step(&mut self, direction: u32, code: u32) {
        self.steps += 1;
        let column = (direction as usize).min(OTHER);
        self.answers[column][code as usize] += 1;
    }

    /// A list's code, and those of its used rows: the first, which is the root's, and those behind it that are not zero.
    pub fn list(&mut self, code: u32, rows: &[Row]) {
        self.lists += 1;
        self.answers[LIST][code as usize] += 1;
        if code != 0 {
            return;
        }
        let used = rows.iter().enumerate();
        for (_, row) in used.filter(|(at, row)| *at == 0 || row.identifier != 0) {
            self.answers[ROW_FORWARD][row.forward as usize] += 1;
            self.answers[ROW_UNDO][row.undo as usize] += 1;
        }
    }

    pub fn clauses(&mut self, broken: [bool; clauses::COUNT]) {
        let is_alone = broken.iter().filter(|&&clause| clause).count() == 1;
        for (clause, &is_broken) in broken.iter().enumerate() {
            self.broken[clause] += usize::from(is_broken);
            self.alone[clause] += usize::from(is_broken && is_alone);
        }
    }

    /// Prints all of it. False where something that can occur did not come up, or something that can't did.
    pub fn print(&self) -> bool {
        let (steps, starts, lists) = (self.steps, self.starts, self.lists);
        let programs = self.programs;
        println!("stepping: {steps} steps, {starts} starts and {lists} lists alike, on {programs} programs");
        let (live, kept, largest) = (self.most_live, self.most_kept, self.largest_process);
        println!("  at most {live} live processes and {kept} kept steps; largest identifier {largest:08x}");
        println!("  code     forward    undo   other    list  row forward  row undo");
        let lines = [0..=0, 1..=15]
            .into_iter()
            .chain((16..CODES).map(|code| code..=code));
        let wrong_codes = lines
            .filter(|codes| !self.print_codes(codes.clone()))
            .count();
        for (why, _) in NEVER {
            println!("  -: {why}");
        }
        let wrong_clauses = (0..clauses::COUNT)
            .filter(|&clause| !self.print_clause(clause))
            .count();
        wrong_codes + wrong_clauses == 0
    }

    /// A line of codes that never come in the same columns. In rows a code may be missing: a step has the same.
    fn print_codes(&self, codes: RangeInclusive<usize>) -> bool {
        let (first, last) = (*codes.start(), *codes.end());
        let times = |column: usize| self.answers[column][first..=last].iter().sum::<usize>();
        let shown = |column: usize| match times(column) {
            0 if is_never(column, first) => "-".to_string(),
            times => times.to_string(),
        };
        let is_wrong = |column: usize| match is_never(column, first) {
            true => times(column) > 0,
            false => times(column) == 0 && column <= LIST,
        };
        let right = !(0..COLUMNS).any(is_wrong);
        let mark = if right { "" } else { "   WRONG" };
        let name = if first == last {
            format!("{first:2}")
        } else {
            format!("{first} to {last}")
        };
        let [forward, undo, other, list, row_forward, row_undo] = std::array::from_fn(shown);
        println!("  {name:8}{forward:>8}{undo:>8}{other:>8}{list:>8}{row_forward:>13}{row_undo:>10}{mark}");
        right
    }

    fn print_clause(&self, clause: usize) -> bool {
        let (broken, alone) = (self.broken[clause], self.alone[clause]);
        let never_alone = clause == clauses::NEVER_ALONE;
        let right = broken > 0 && (alone == 0) == never_alone;
        let shown = if never_alone {
            "never".to_string()
        } else {
            alone.to_string()
        };
        let mark = if right { "" } else { "   WRONG" };
        let name = clauses::NAMES[clause];
        println!("  17, {name}: {broken}, alone {shown}{mark}");
        right
    }
}
