//! Reading the records of an image into blocks, in byte order: codes 1 to 8.

use crate::answer::{Answer, Code};
use crate::block::*;
use crate::graph;

pub const IMAGE_BYTES: usize = 4096;
pub const BLOCKS: usize = 128;
const VARIABLE_LIMIT: u8 = 32;

const OPERATORS: [Operator; 11] = [
    Operator::Add,
    Operator::Subtract,
    Operator::Xor,
    Operator::Equal,
    Operator::NotEqual,
    Operator::Less,
    Operator::LessOrEqual,
    Operator::Greater,
    Operator::GreaterOrEqual,
    Operator::And,
    Operator::Or,
];

/// Reads the whole image into the storage and hands back the count of its blocks.
pub fn decode(image: &[u8], storage: &mut [Block; BLOCKS]) -> Result<usize, Answer> {
    if image.is_empty() || image.len() > IMAGE_BYTES {
        return Err(Answer::refused(Code::ImageLength, 0));
    }
    let mut cursor = Cursor { image, offset: 0 };
    for (number, block) in storage.iter_mut().enumerate() {
        *block = cursor.block()?;
        if cursor.offset == image.len() {
            return Ok(number + 1);
        }
    }
    Err(cursor.refused(Code::BlockCount))
}

/// The offset of the next record's kind byte; it never passes the image's length.
struct Cursor<'a> {
    image: &'a [u8],
    offset: usize,
}

impl Cursor<'_> {
    fn refused(&self, code: Code) -> Answer {
        Answer::refused(code, self.offset)
    }

    /// The kind of the record that must stand here. The cursor stays, so that a fault of the
    /// record gets its place.
    fn kind(&self) -> Result<u8, Answer> {
        let kind = self.image.get(self.offset).copied();
        kind.ok_or(self.refused(Code::Cut))
    }

    /// The body of the record that stands here; the cursor moves past the record.
    fn body(&mut self, length: usize) -> Result<&[u8], Answer> {
        let end = self.offset + 1 + length;
        let body = self.image.get(self.offset + 1..end);
        let body = body.ok_or(self.refused(Code::Cut))?;
        self.offset = end;
        Ok(body)
    }

    fn array<const LENGTH: usize>(&mut self) -> Result<[u8; LENGTH], Answer> {
        let mut array = [0; LENGTH];
        array.copy_from_slice(self.body(LENGTH)?);
        Ok(array)
    }

    fn block(&mut self) -> Result<Block, Answer> {
        let entry = self.point(0x20, false)?;
        let body = self.block_body(&entry)?;
        let exit = self.point(0x30, matches!(body, Body::Call(_)))?;
        Ok(Block { entry, body, exit })
    }

    /// An entry (first kind 20) or an exit (first kind 30). After a call only the plain exit may
    /// stand, and that is judged at the exit's own record.
    fn point(&mut self, first_kind: u8, after_call: bool) -> Result<Point, Answer> {
        let refusal = self.refused(Code::CallPoint);
        match self.kind()?.wrapping_sub(first_kind) {
            0 => self.array().map(|[label]| Point::Plain(label)),
            1 => {
                let labels = self.two_labels()?;
                if after_call {
                    return Err(refusal);
                }
                let expression = self.expression()?;
                Ok(Point::Condition(Condition { expression, labels }))
            }
            2 => {
                let [label] = self.array()?;
                if after_call {
                    return Err(refusal);
                }
                Ok(Point::Border(label))
            }
            _ => Err(self.refused(Code::Kind)),
        }
    }

    fn two_labels(&mut self) -> Result<[u8; 2], Answer> {
        let refusal = self.refused(Code::EqualLabels);
        let labels = self.array()?;
        if labels[0] == labels[1] {
            return Err(refusal);
        }
        Ok(labels)
    }

    fn block_body(&mut self, entry: &Point) -> Result<Body, Answer> {
        let kind = self.kind()?;
        if !(0x51..=0x58).contains(&kind) {
            return self.instruction(kind).map(Body::Instruction);
        }
        let refusal = self.refused(Code::CallPoint);
        let names = self.body(usize::from(kind - 0x50))?;
        let mut labels = [0; CALL_LABELS];
        labels[..names.len()].copy_from_slice(names);
        if !matches!(entry, Point::Plain(_)) {
            return Err(refusal);
        }
        let count = kind - 0x50;
        Ok(Body::Call(Call { count, labels }))
    }

    fn instruction(&mut self, kind: u8) -> Result<Instruction, Answer> {
        let refusal = self.refused(Code::NamesItself);
        let instruction = match kind {
            0x40 => self.update(Update::Add)?,
            0x41 => self.update(Update::Subtract)?,
            0x42 => self.update(Update::Xor)?,
            0x43 => {
                self.body(0)?;
                Instruction::Exchange(self.left()?, self.left()?)
            }
            0x44 => Instruction::V(self.variable()?),
            0x45 => Instruction::P(self.variable()?),
            0x46 => {
                self.body(0)?;
                Instruction::Assert(self.expression()?)
            }
            0x47 => {
                self.body(0)?;
                Instruction::Skip
            }
            _ => return Err(self.refused(Code::Kind)),
        };
        if names_itself(&instruction) {
            return Err(refusal);
        }
        Ok(instruction)
    }

    fn update(&mut self, update: Update) -> Result<Instruction, Answer> {
        self.body(0)?;
        let left = self.left()?;
        let expression = self.expression()?;
        Ok(Instruction::Update(left, update, expression))
    }

    fn expression(&mut self) -> Result<Expression, Answer> {
        match self.kind()? {
            0x10 => {
                self.body(0)?;
                Ok(Expression::Plain(self.operand()?))
            }
            0x11 => {
                self.body(0)?;
                Ok(Expression::Not(self.operand()?))
            }
            kind @ 0x12..=0x1C => {
                self.body(0)?;
                let operator = OPERATORS[usize::from(kind - 0x12)];
                Ok(Expression::Two(operator, self.operand()?, self.operand()?))
            }
            _ => Err(self.refused(Code::Kind)),
        }
    }

    fn operand(&mut self) -> Result<Operand, Answer> {
        if self.kind()? == 0x01 {
            let constant = i32::from_le_bytes(self.array()?);
            return Ok(Operand::Constant(constant));
        }
        self.left().map(Operand::Left)
    }

    fn left(&mut self) -> Result<Left, Answer> {
        match self.kind()? {
            0x02 => self.variable().map(Left::Variable),
            0x03 => self.variable().map(Left::Cell),
            _ => Err(self.refused(Code::Kind)),
        }
    }

    /// The one byte of body that is a variable's number.
    fn variable(&mut self) -> Result<u8, Answer> {
        let refusal = self.refused(Code::VariableNumber);
        let [variable] = self.array()?;
        if variable >= VARIABLE_LIMIT {
            return Err(refusal);
        }
        Ok(variable)
    }
}

/// Code 7. What an update changes may not be a resource its expression names: for a variable it
/// is the variable, for a cell the whole heap.
fn names_itself(instruction: &Instruction) -> bool {
    match *instruction {
        Instruction::Update(left, _, expression) => {
            graph::changed(left) & graph::named_by(&expression) != 0
        }
        Instruction::Exchange(left, right) => left.variable() == right.variable(),
        _ => false,
    }
}
