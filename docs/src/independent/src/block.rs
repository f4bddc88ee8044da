//! The blocks of an image, decoded once and used by judging and stepping alike.

pub const CALL_LABELS: usize = 8;

/// A left operand: variable x or heap cell M[x].
#[derive(Clone, Copy)]
pub enum Left {
    Variable(u8),
    Cell(u8),
}

impl Left {
    /// The variable named, as a value or as an address.
    pub fn variable(self) -> u8 {
        match self {
            Left::Variable(variable) | Left::Cell(variable) => variable,
        }
    }
}

#[derive(Clone, Copy)]
pub enum Operand {
    Constant(i32),
    Left(Left),
}

/// The operators of kinds 12 to 1C, in this order.
#[derive(Clone, Copy)]
pub enum Operator {
    Add,
    Subtract,
    Xor,
    Equal,
    NotEqual,
    Less,
    LessOrEqual,
    Greater,
    GreaterOrEqual,
    And,
    Or,
}

#[derive(Clone, Copy)]
pub enum Expression {
    Plain(Operand),
    Not(Operand),
    Two(Operator, Operand, Operand),
}

#[derive(Clone, Copy)]
pub enum Update {
    Add,
    Subtract,
    Xor,
}

impl Update {
    pub fn inverse(self) -> Update {
        match self {
            Update::Add => Update::Subtract,
            Update::Subtract => Update::Add,
            Update::Xor => Update::Xor,
        }
    }
}

#[derive(Clone, Copy)]
pub enum Instruction {
    Update(Left, Update, Expression),
    Exchange(Left, Left),
    V(u8),
    P(u8),
    Assert(Expression),
    Skip,
}

#[derive(Clone, Copy)]
pub struct Call {
    pub count: u8,
    pub labels: [u8; CALL_LABELS],
}

impl Call {
    /// The labels named, for the children 1 to n in this order.
    pub fn labels(&self) -> &[u8] {
        &self.labels[..usize::from(self.count)]
    }
}

#[derive(Clone, Copy)]
pub enum Body {
    Instruction(Instruction),
    Call(Call),
}

/// `l1;l2 <- e` or `e -> l1;l2`: the first label if the expression is true, else the second.
#[derive(Clone, Copy)]
pub struct Condition {
    pub expression: Expression,
    pub labels: [u8; 2],
}

/// An entry or an exit. A border is the `begin` of an entry and the `end` of an exit.
#[derive(Clone, Copy)]
pub enum Point {
    Plain(u8),
    Condition(Condition),
    Border(u8),
}

impl Point {
    /// The labels that stand here.
    pub fn labels(&self) -> &[u8] {
        match self {
            Point::Plain(label) | Point::Border(label) => std::slice::from_ref(label),
            Point::Condition(condition) => &condition.labels,
        }
    }

    pub fn is_border(&self) -> bool {
        matches!(self, Point::Border(_))
    }
}

#[derive(Clone, Copy)]
pub struct Block {
    pub entry: Point,
    pub body: Body,
    pub exit: Point,
}

impl Block {
    /// What the storage holds before an image is decoded into it.
    pub const BLANK: Block = Block {
        entry: Point::Plain(0),
        body: Body::Instruction(Instruction::Skip),
        exit: Point::Plain(0),
    };
}
