//! Variables and heap as an expression or an instruction sees them: the machine's words, with
//! the few changed words of a step laid over them until the step is known to be accepted.

use crate::answer::Code;
use crate::block::{Expression, Instruction, Left, Operand, Operator, Update};
use crate::machine::{Machine, CELL_WORD, VARIABLE_WORD};
use crate::step::Direction;

/// The machine words that one instruction changes, at most two, and their new values.
#[derive(Clone, Copy, Default)]
pub struct Changes {
    words: [(usize, u32); 2],
    count: usize,
}

impl Changes {
    pub fn words(&self) -> &[(usize, u32)] {
        &self.words[..self.count]
    }
}

pub struct Memory<'a> {
    machine: &'a Machine,
    pub changes: Changes,
}

impl Memory<'_> {
    pub fn new(machine: &Machine) -> Memory<'_> {
        Memory {
            machine,
            changes: Changes::default(),
        }
    }

    fn read(&self, word: usize) -> i32 {
        let mut changed = self.changes.words().iter();
        match changed.find(|change| change.0 == word) {
            Some(&(_, value)) => value as i32,
            None => self.machine[word] as i32,
        }
    }

    fn change(&mut self, word: usize, value: i32) {
        self.changes.words[self.changes.count] = (word, value as u32);
        self.changes.count += 1;
    }

    /// The machine word of a left operand; code 25 for a cell that is not in the heap.
    fn word(&self, left: Left) -> Result<usize, Code> {
        let variable = VARIABLE_WORD + usize::from(left.variable());
        match left {
            Left::Variable(_) => Ok(variable),
            Left::Cell(_) => match self.read(variable) {
                address @ 0..=255 => Ok(CELL_WORD + address as usize),
                _ => Err(Code::Address),
            },
        }
    }

    fn operand(&self, operand: &Operand) -> Result<i32, Code> {
        match *operand {
            Operand::Constant(constant) => Ok(constant),
            Operand::Left(left) => Ok(self.read(self.word(left)?)),
        }
    }

    pub fn evaluate(&self, expression: &Expression) -> Result<i32, Code> {
        match expression {
            Expression::Plain(operand) => self.operand(operand),
            Expression::Not(operand) => Ok(i32::from(self.operand(operand)? == 0)),
            Expression::Two(operator, first, second) => Ok(operate(
                *operator,
                self.operand(first)?,
                self.operand(second)?,
            )),
        }
    }

    /// The instruction, or its inverse for an undo.
    pub fn act(&mut self, instruction: &Instruction, direction: Direction) -> Result<(), Code> {
        let forward = direction == Direction::Forward;
        match instruction {
            Instruction::Update(left, update, expression) => {
                let update = if forward { *update } else { update.inverse() };
                self.update(*left, update, expression)
            }
            Instruction::Exchange(left, right) => self.exchange(*left, *right),
            Instruction::V(variable) => self.semaphore(*variable, forward),
            Instruction::P(variable) => self.semaphore(*variable, !forward),
            Instruction::Assert(expression) => match self.evaluate(expression)? {
                0 => Err(Code::AssertFalse),
                _ => Ok(()),
            },
            Instruction::Skip => Ok(()),
        }
    }

    fn update(&mut self, left: Left, update: Update, by: &Expression) -> Result<(), Code> {
        let word = self.word(left)?;
        let by = self.evaluate(by)?;
        let value = self.read(word);
        let value = match update {
            Update::Add => value.wrapping_add(by),
            Update::Subtract => value.wrapping_sub(by),
            Update::Xor => value ^ by,
        };
        self.change(word, value);
        Ok(())
    }

    fn exchange(&mut self, left: Left, right: Left) -> Result<(), Code> {
        let (first, second) = (self.word(left)?, self.word(right)?);
        let (first_value, second_value) = (self.read(first), self.read(second));
        self.change(first, second_value);
        self.change(second, first_value);
        Ok(())
    }

    /// V forward and P back need 0 and leave 1; the other two need 1 and leave 0.
    fn semaphore(&mut self, variable: u8, raises: bool) -> Result<(), Code> {
        let word = VARIABLE_WORD + usize::from(variable);
        if self.read(word) != i32::from(!raises) {
            return Err(Code::NotReady);
        }
        self.change(word, i32::from(raises));
        Ok(())
    }
}

fn operate(operator: Operator, first: i32, second: i32) -> i32 {
    match operator {
        Operator::Add => first.wrapping_add(second),
        Operator::Subtract => first.wrapping_sub(second),
        Operator::Xor => first ^ second,
        Operator::Equal => i32::from(first == second),
        Operator::NotEqual => i32::from(first != second),
        Operator::Less => i32::from(first < second),
        Operator::LessOrEqual => i32::from(first <= second),
        Operator::Greater => i32::from(first > second),
        Operator::GreaterOrEqual => i32::from(first >= second),
        Operator::And => i32::from(first != 0 && second != 0),
        Operator::Or => i32::from(first != 0 || second != 0),
    }
}
