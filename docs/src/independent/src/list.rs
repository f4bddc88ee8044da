//! The list: for every live process the codes that its forward step and its undo would answer.

use crate::answer::{Answer, Code};
use crate::block::Block;
use crate::image::BLOCKS;
use crate::judge::Program;
use crate::machine::{self, Machine, Survey, ROWS};
use crate::step::{plan, Direction};

/// One live process, or all zero in the rows after the last.
#[derive(Clone, Copy, Debug, Default, PartialEq, Eq)]
#[repr(C)]
pub struct Row {
    pub identifier: u32,
    pub forward: u32,
    pub undo: u32,
}

/// Writes all 64 rows, or none if the image, a length or the machine is refused.
pub fn list(image: &[u8], machine: &[u32], rows: &mut [Row]) -> Answer {
    Answer::of(try_list(image, machine, rows))
}

fn try_list(image: &[u8], machine: &[u32], rows: &mut [Row]) -> Result<(), Answer> {
    let mut storage = [Block::BLANK; BLOCKS];
    let program = Program::read(image, &mut storage)?;
    let machine: &Machine = machine.try_into().map_err(|_| Code::SliceLength)?;
    if rows.len() != ROWS {
        return Err(Code::SliceLength.into());
    }
    let survey = Survey::of(&program, machine)?;
    rows.fill(Row::default());
    for (index, row) in rows.iter_mut().enumerate().take(survey.live) {
        let code = |direction| match plan(&program, machine, &survey, index, direction) {
            Ok(_) => 0,
            Err(code) => code as u32,
        };
        *row = Row {
            identifier: machine::row(machine, index).identifier,
            forward: code(Direction::Forward),
            undo: code(Direction::Undo),
        };
    }
    Ok(())
}
