//! The machine: its layout as words, its start, and whether it fits the image (code 17).

use crate::answer::{Answer, Code};
use crate::block::{Block, Body, Call};
use crate::graph::Uses;
use crate::image::BLOCKS;
use crate::judge::Program;

pub const ROWS: usize = 64;
pub const ENTRIES: usize = 4096;
pub const FIRST_WORDS: usize = 288;

pub const LIVE_WORD: usize = 0;
pub const HISTORY_WORD: usize = 1;
pub const VARIABLE_WORD: usize = 2;
pub const CELL_WORD: usize = VARIABLE_WORD + 32;
pub const ROW_WORD: usize = CELL_WORD + 256;
pub const ENTRY_WORD: usize = ROW_WORD + 3 * ROWS;
pub const WORDS: usize = ENTRY_WORD + 2 * ENTRIES;

pub const BEGIN: u32 = 0;
pub const RUN: u32 = 1;
pub const END: u32 = 2;

pub type Machine = [u32; WORDS];

#[derive(Clone, Copy)]
pub struct ProcessRow {
    pub identifier: u32,
    pub label: u32,
    pub stage: u32,
}

#[derive(Clone, Copy)]
pub struct HistoryEntry {
    pub identifier: u32,
    pub block: u32,
}

pub fn row(machine: &Machine, index: usize) -> ProcessRow {
    let word = ROW_WORD + 3 * index;
    ProcessRow {
        identifier: machine[word],
        label: machine[word + 1],
        stage: machine[word + 2],
    }
}

pub fn entry(machine: &Machine, index: usize) -> HistoryEntry {
    let word = ENTRY_WORD + 2 * index;
    HistoryEntry {
        identifier: machine[word],
        block: machine[word + 1],
    }
}

/// How many of the first `count` rows, which ascend, stand below an identifier.
pub fn rows_below(machine: &Machine, count: usize, identifier: u32) -> usize {
    let (mut low, mut high) = (0, count);
    while low < high {
        let middle = (low + high) / 2;
        if machine[ROW_WORD + 3 * middle] < identifier {
            low = middle + 1;
        } else {
            high = middle;
        }
    }
    low
}

pub fn find_row(machine: &Machine, count: usize, identifier: u32) -> Option<usize> {
    let index = rows_below(machine, count, identifier);
    (index < count && machine[ROW_WORD + 3 * index] == identifier).then_some(index)
}

/// Writes every word of the machine, whatever it held: the root at main, begin, with no history.
pub fn start(image: &[u8], first: &[u32], machine: &mut [u32]) -> Answer {
    Answer::of(try_start(image, first, machine))
}

fn try_start(image: &[u8], first: &[u32], machine: &mut [u32]) -> Result<(), Answer> {
    Program::read(image, &mut [Block::BLANK; BLOCKS])?;
    if first.len() != FIRST_WORDS || machine.len() != WORDS {
        return Err(Code::SliceLength.into());
    }
    // The root's row is identifier 0, label 0 and stage 0.
    machine.fill(0);
    machine[LIVE_WORD] = 1;
    machine[VARIABLE_WORD..ROW_WORD].copy_from_slice(first);
    Ok(())
}

/// What code 17's look at the machine finds for one live process.
#[derive(Clone, Copy, Default)]
pub struct Standing {
    pub first_child: usize,
    pub children: usize,
    /// Its newest history entry and whether the cause graph holds that, if it is not at begin.
    pub newest: usize,
    pub is_held: bool,
}

/// A machine that fits the image: the standings of its live processes, in the order of rows.
pub struct Survey {
    pub live: usize,
    pub standings: [Standing; ROWS],
}

impl Survey {
    pub fn of(program: &Program, machine: &Machine) -> Result<Survey, Code> {
        let live = machine[LIVE_WORD] as usize;
        let history = machine[HISTORY_WORD] as usize;
        // Without an early way out many words are looked at together.
        let is_zero = |words: &[u32]| words.iter().fold(0, |all, word| all | word) == 0;
        let counts_fit = (1..=ROWS).contains(&live) && history <= ENTRIES;
        if !counts_fit
            || !is_zero(&machine[ROW_WORD + 3 * live..ENTRY_WORD])
            || !is_zero(&machine[ENTRY_WORD + 2 * history..])
        {
            return Err(Code::Machine);
        }
        let mut survey = Survey {
            live,
            standings: [Standing::default(); ROWS],
        };
        if !survey.rows_fit(program, machine) || !survey.history_fits(program, machine, history) {
            return Err(Code::Machine);
        }
        Ok(survey)
    }

    /// Rows ascend, so a parent's row, which has the lower identifier, is seen before its children.
    fn rows_fit(&mut self, program: &Program, machine: &Machine) -> bool {
        if row(machine, 0).identifier != 0 || !stands_in(program, row(machine, 0), 0) {
            return false;
        }
        for index in 1..self.live {
            let child = row(machine, index);
            let ascends = row(machine, index - 1).identifier < child.identifier;
            let label = self.own_label(program, machine, index);
            if !ascends || !label.is_some_and(|label| stands_in(program, child, label)) {
                return false;
            }
        }
        // Each child has a number from 1 to n and all differ, so n children are all of them.
        (0..self.live).all(|index| {
            let call = || call_before(program, row(machine, index));
            let children = self.standings[index].children;
            children == 0 || call().is_some_and(|call| call.labels().len() == children)
        })
    }

    /// The label that names a child's own process block, in the call its parent stands at.
    fn own_label(&mut self, program: &Program, machine: &Machine, index: usize) -> Option<u8> {
        let identifier = row(machine, index).identifier;
        let parent = find_row(machine, index, identifier >> 4)?;
        let call = call_before(program, row(machine, parent))?;
        let number = (identifier as usize & 15).checked_sub(1)?;
        let standing = &mut self.standings[parent];
        if standing.children == 0 {
            standing.first_child = index;
        }
        standing.children += 1;
        call.labels().get(number).copied()
    }

    /// Walks the history from its newest entry, so that at a process's newest one all that was
    /// kept after it is known.
    fn history_fits(&mut self, program: &Program, machine: &Machine, history: usize) -> bool {
        let mut later = Uses::default();
        let mut is_found = [false; ROWS];
        let mut missing = 0;
        for (index, found) in is_found.iter_mut().enumerate().take(self.live) {
            *found = row(machine, index).stage == BEGIN;
            missing += usize::from(!*found);
        }
        for newest in (0..history).rev() {
            let entry = entry(machine, newest);
            let block = entry.block as usize;
            if block >= program.blocks.len() || !digits_fit(entry.identifier) {
                return false;
            }
            if missing == 0 {
                continue;
            }
            let process = find_row(machine, self.live, entry.identifier);
            if let Some(index) = process.filter(|&index| !is_found[index]) {
                if block != block_before(program, row(machine, index)) {
                    return false;
                }
                is_found[index] = true;
                missing -= 1;
                self.standings[index].newest = newest;
                self.standings[index].is_held = program.uses[block].held_by(later);
            }
            later.add(program.uses[block]);
        }
        missing == 0
    }
}

/// Whether label and stage are of the process block that has the own label's begin.
fn stands_in(program: &Program, row: ProcessRow, own_label: u8) -> bool {
    let Some(label) = program.labels.get(row.label as usize) else {
        return false;
    };
    match row.stage {
        BEGIN | END => row.label == u32::from(own_label),
        RUN => {
            let process_block = program.process_blocks[usize::from(label.entry.block)];
            label.entry.count == 1 && process_block == program.process_block(own_label)
        }
        _ => false,
    }
}

/// The block whose exit holds the label: at run the ordinary label, else the end.
pub fn block_before(program: &Program, row: ProcessRow) -> usize {
    let label = &program.labels[row.label as usize];
    let seat = if row.stage == RUN {
        label.exit
    } else {
        label.end
    };
    usize::from(seat.block)
}

/// The call at whose exit label a process stands. At begin and end there is none, as the exit of
/// a call is no end.
fn call_before<'a>(program: &Program<'a>, row: ProcessRow) -> Option<&'a Call> {
    match &program.blocks[block_before(program, row)].body {
        Body::Call(call) => Some(call),
        Body::Instruction(_) => None,
    }
}

/// The root's 0 has no digits.
fn digits_fit(mut identifier: u32) -> bool {
    while identifier != 0 {
        if !(1..=8).contains(&(identifier & 15)) {
            return false;
        }
        identifier >>= 4;
    }
    true
}
