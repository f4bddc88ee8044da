//! One forward step or one undo of a chosen process. A step is planned on the machine as it is
//! and written only when it is accepted, so the list can ask for the same plans.

use crate::answer::{Answer, Code};
use crate::block::{Block, Body, Call, Instruction, Point};
use crate::image::BLOCKS;
use crate::judge::Program;
use crate::machine::{
    self, block_before, Machine, ProcessRow, Survey, BEGIN, END, ENTRIES, ENTRY_WORD, HISTORY_WORD,
    LIVE_WORD, ROWS, ROW_WORD, RUN,
};
use crate::memory::{Changes, Memory};

#[derive(Clone, Copy, PartialEq, Eq)]
pub enum Direction {
    Forward,
    Undo,
}

/// What becomes of the children's rows.
enum Children {
    Stay,
    Appear { stage: u32 },
    Vanish,
}

/// All that an accepted step writes: its block is kept in the history or taken from it.
pub struct Plan {
    block: usize,
    changes: Changes,
    label: u8,
    stage: u32,
    children: Children,
}

/// Answers for every input; any refusal leaves every word of the machine as handed in.
pub fn step(image: &[u8], machine: &mut [u32], process: u32, direction: u32) -> Answer {
    Answer::of(try_step(image, machine, process, direction))
}

fn try_step(image: &[u8], machine: &mut [u32], process: u32, direction: u32) -> Result<(), Answer> {
    let mut storage = [Block::BLANK; BLOCKS];
    let program = Program::read(image, &mut storage)?;
    let machine: &mut Machine = machine.try_into().map_err(|_| Code::SliceLength)?;
    let survey = Survey::of(&program, machine)?;
    let direction = match direction {
        0 => Direction::Forward,
        1 => Direction::Undo,
        _ => return Err(Code::Direction.into()),
    };
    let index = machine::find_row(machine, survey.live, process).ok_or(Code::NotLive)?;
    let plan = plan(&program, machine, &survey, index, direction)?;
    plan.write(&program, machine, &survey, index, direction);
    Ok(())
}

/// The step of the live process in row `index`, or its refusal: codes 21, 20, 26, 27, 28 and
/// then those of evaluation.
pub fn plan(
    program: &Program,
    machine: &Machine,
    survey: &Survey,
    index: usize,
    direction: Direction,
) -> Result<Plan, Code> {
    refuse_unready(machine, survey, index, direction)?;
    let row = machine::row(machine, index);
    let has_children = survey.standings[index].children > 0;
    let number = if direction == Direction::Undo || has_children {
        block_before(program, row)
    } else {
        block_after(program, row)
    };
    let block = &program.blocks[number];
    match &block.body {
        Body::Call(_) if has_children => Ok(plan_vanishing(block, number, row, direction)),
        Body::Call(call) => plan_appearing(block, number, call, survey, row, direction),
        Body::Instruction(instruction) => {
            plan_leaf(block, number, instruction, machine, row, direction)
        }
    }
}

/// Codes 21, 20, 26 and 27, before anything is evaluated.
fn refuse_unready(
    machine: &Machine,
    survey: &Survey,
    index: usize,
    direction: Direction,
) -> Result<(), Code> {
    let standing = &survey.standings[index];
    let last_stage = match direction {
        Direction::Forward => END,
        Direction::Undo => BEGIN,
    };
    if machine::row(machine, index).stage == last_stage {
        return Err(Code::Stage);
    }
    let mut children = standing.first_child..standing.first_child + standing.children;
    if !children.all(|child| machine::row(machine, child).stage == last_stage) {
        return Err(Code::Children);
    }
    match direction {
        Direction::Forward if machine[HISTORY_WORD] as usize == ENTRIES => Err(Code::HistoryFull),
        Direction::Undo if standing.is_held => Err(Code::Held),
        _ => Ok(()),
    }
}

/// The block whose entry holds the label of a process that is not at end.
fn block_after(program: &Program, row: ProcessRow) -> usize {
    let label = &program.labels[row.label as usize];
    let seat = if row.stage == RUN {
        label.entry
    } else {
        label.begin
    };
    usize::from(seat.block)
}

/// Forward the merge, where the process stays at the exit label; back the fork undone.
fn plan_vanishing(block: &Block, number: usize, row: ProcessRow, direction: Direction) -> Plan {
    let label = match direction {
        Direction::Forward => row.label as u8,
        Direction::Undo => block.entry.labels()[0],
    };
    Plan {
        block: number,
        changes: Changes::default(),
        label,
        stage: RUN,
        children: Children::Vanish,
    }
}

/// Forward the fork, back the merge undone: the process stands at the exit label.
fn plan_appearing(
    block: &Block,
    number: usize,
    call: &Call,
    survey: &Survey,
    row: ProcessRow,
    direction: Direction,
) -> Result<Plan, Code> {
    // Never so, as main's peak is at most 64 and bounds the live processes.
    if survey.live + call.labels().len() > ROWS {
        return Err(Code::NoRoom);
    }
    let (label, stage) = match direction {
        Direction::Forward => (block.exit.labels()[0], BEGIN),
        Direction::Undo => (row.label as u8, END),
    };
    Ok(Plan {
        block: number,
        changes: Changes::default(),
        label,
        stage: RUN,
        children: Children::Appear { stage },
    })
}

/// The point the process comes from is evaluated on the present memory and must give the present
/// label; the point it goes to is evaluated on the memory after the instruction.
fn plan_leaf(
    block: &Block,
    number: usize,
    instruction: &Instruction,
    machine: &Machine,
    row: ProcessRow,
    direction: Direction,
) -> Result<Plan, Code> {
    let (from, to, border_stage) = match direction {
        Direction::Forward => (&block.entry, &block.exit, END),
        Direction::Undo => (&block.exit, &block.entry, BEGIN),
    };
    let mut memory = Memory::new(machine);
    if u32::from(label_of(from, &memory)?) != row.label {
        return Err(Code::OtherLabel);
    }
    memory.act(instruction, direction)?;
    let label = label_of(to, &memory)?;
    let stage = if to.is_border() { border_stage } else { RUN };
    Ok(Plan {
        block: number,
        changes: memory.changes,
        label,
        stage,
        children: Children::Stay,
    })
}

/// The label that a point gives on this memory.
fn label_of(point: &Point, memory: &Memory) -> Result<u8, Code> {
    match point {
        Point::Plain(label) | Point::Border(label) => Ok(*label),
        Point::Condition(condition) => {
            let is_false = memory.evaluate(&condition.expression)? == 0;
            Ok(condition.labels[usize::from(is_false)])
        }
    }
}

impl Plan {
    fn write(
        &self,
        program: &Program,
        machine: &mut Machine,
        survey: &Survey,
        index: usize,
        direction: Direction,
    ) {
        for &(word, value) in self.changes.words() {
            machine[word] = value;
        }
        let word = ROW_WORD + 3 * index;
        let identifier = machine[word];
        machine[word + 1] = u32::from(self.label);
        machine[word + 2] = self.stage;
        match (&self.children, &program.blocks[self.block].body) {
            (Children::Appear { stage }, Body::Call(call)) => {
                add_children(machine, identifier, call, *stage)
            }
            (Children::Vanish, _) => remove_children(machine, survey, index),
            _ => {}
        }
        match direction {
            Direction::Forward => keep_entry(machine, identifier, self.block),
            Direction::Undo => close_up(machine, survey.standings[index].newest),
        }
    }
}

/// Child i of p is 16p + i, so the children's rows stand side by side.
fn add_children(machine: &mut Machine, process: u32, call: &Call, stage: u32) {
    let live = machine[LIVE_WORD] as usize;
    let first = machine::rows_below(machine, live, 16 * process + 1);
    let word = ROW_WORD + 3 * first;
    let added = 3 * call.labels().len();
    machine.copy_within(word..ROW_WORD + 3 * live, word + added);
    let rows = machine[word..word + added].chunks_exact_mut(3);
    for ((row, &label), identifier) in rows.zip(call.labels()).zip(16 * process + 1..) {
        row.copy_from_slice(&[identifier, u32::from(label), stage]);
    }
    machine[LIVE_WORD] += u32::from(call.count);
}

fn remove_children(machine: &mut Machine, survey: &Survey, index: usize) {
    let standing = &survey.standings[index];
    let word = ROW_WORD + 3 * standing.first_child;
    let removed = 3 * standing.children;
    let end = ROW_WORD + 3 * survey.live;
    machine.copy_within(word + removed..end, word);
    machine[end - removed..end].fill(0);
    machine[LIVE_WORD] -= standing.children as u32;
}

fn keep_entry(machine: &mut Machine, identifier: u32, block: usize) {
    let word = ENTRY_WORD + 2 * machine[HISTORY_WORD] as usize;
    machine[word] = identifier;
    machine[word + 1] = block as u32;
    machine[HISTORY_WORD] += 1;
}

/// Takes out one entry and closes the history up.
fn close_up(machine: &mut Machine, index: usize) {
    let word = ENTRY_WORD + 2 * index;
    let end = ENTRY_WORD + 2 * machine[HISTORY_WORD] as usize;
    machine.copy_within(word + 2..end, word);
    machine[end - 2..end].fill(0);
    machine[HISTORY_WORD] -= 1;
}
