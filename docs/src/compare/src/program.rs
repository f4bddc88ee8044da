//! Random programs as blocks, each an entry, a body and an exit in bytes with their labels apart, so that damage can be aimed.

use crate::random::Random;

/// Variables below this one are ordinary, those from it on stand in V and P alone.
pub const SEMAPHORES: u8 = 28;
const VARIABLES: u8 = 32;

#[derive(Clone)]
pub enum Point {
    Plain(u8),
    Condition(u8, u8, Vec<u8>),
    Border(u8),
}

#[derive(Clone)]
pub enum Body {
    Instruction(Vec<u8>),
    Call(Vec<u8>),
}

#[derive(Clone)]
pub struct Block {
    pub entry: Point,
    pub body: Body,
    pub exit: Point,
}

impl Point {
    fn write(&self, kind: u8, out: &mut Vec<u8>) {
        match self {
            Point::Plain(label) => out.extend([kind, *label]),
            Point::Condition(first, second, expression) => {
                out.extend([kind + 1, *first, *second]);
                out.extend(expression);
            }
            Point::Border(label) => out.extend([kind + 2, *label]),
        }
    }

    /// The labels that stand here.
    pub fn labels(&self) -> Vec<u32> {
        match self {
            Point::Plain(label) | Point::Border(label) => vec![u32::from(*label)],
            Point::Condition(first, second, _) => vec![u32::from(*first), u32::from(*second)],
        }
    }

    /// Puts a label in the place of another wherever it stands.
    pub fn relabel(&mut self, old: u8, new: u8) {
        match self {
            Point::Plain(label) | Point::Border(label) if *label == old => *label = new,
            Point::Condition(first, second, _) => {
                for label in [first, second] {
                    if *label == old {
                        *label = new;
                    }
                }
            }
            _ => {}
        }
    }
}

impl Block {
    pub fn write(&self, out: &mut Vec<u8>) {
        self.entry.write(0x20, out);
        match &self.body {
            Body::Instruction(bytes) => out.extend(bytes),
            Body::Call(labels) => {
                out.push(0x50 + labels.len() as u8);
                out.extend(labels);
            }
        }
        self.exit.write(0x30, out);
    }
}

pub fn image(blocks: &[Block]) -> Vec<u8> {
    let mut out = Vec::new();
    for block in blocks {
        block.write(&mut out);
    }
    out
}

fn constant(random: &mut Random) -> Vec<u8> {
    let value = match random.below(4) {
        0 => random.next() as u32,
        1 => random.one_of(&[0x7FFF_FFFF, 0x8000_0000, 0xFFFF_FFFF, 255, 256]),
        _ => random.below(4) as u32,
    };
    [vec![1], value.to_le_bytes().to_vec()].concat()
}

/// A variable other than `avoid`; few of them, so that processes meet.
fn variable(random: &mut Random, avoid: Option<u8>) -> u8 {
    loop {
        let x = if random.once_in(5) {
            random.below(usize::from(SEMAPHORES)) as u8
        } else {
            random.below(5) as u8
        };
        if Some(x) != avoid {
            return x;
        }
    }
}

fn operand(random: &mut Random, avoid: Option<u8>, cells: bool) -> Vec<u8> {
    match random.below(if cells { 4 } else { 3 }) {
        0 => constant(random),
        3 => vec![3, variable(random, avoid)],
        _ => vec![2, variable(random, avoid)],
    }
}

/// An expression that names neither `avoid` nor, without `cells`, a cell.
pub fn expression(random: &mut Random, avoid: Option<u8>, cells: bool) -> Vec<u8> {
    let kind = if random.once_in(3) {
        0x10
    } else {
        0x10 + random.below(13) as u8
    };
    let mut bytes = vec![kind];
    bytes.extend(operand(random, avoid, cells));
    if kind >= 0x12 {
        bytes.extend(operand(random, avoid, cells));
    }
    bytes
}

pub fn instruction(random: &mut Random) -> Vec<u8> {
    match random.below(10) {
        0..=4 => {
            let kind = 0x40 + random.below(3) as u8;
            let x = variable(random, None);
            if random.once_in(3) {
                [vec![kind, 3, x], expression(random, None, false)].concat()
            } else {
                [vec![kind, 2, x], expression(random, Some(x), true)].concat()
            }
        }
        5 => {
            let x = variable(random, None);
            let y = variable(random, Some(x));
            vec![
                0x43,
                2 + random.below(2) as u8,
                x,
                2 + random.below(2) as u8,
                y,
            ]
        }
        6 | 7 => {
            let count = usize::from(VARIABLES - SEMAPHORES);
            vec![
                0x44 + random.below(2) as u8,
                SEMAPHORES + random.below(count) as u8,
            ]
        }
        8 => [vec![0x46], expression(random, None, true)].concat(),
        _ => vec![0x47],
    }
}

/// Builds a program label by label: process blocks call only those made before them.
pub struct Maker<'a> {
    random: &'a mut Random,
    labels: Vec<u8>,
    pub blocks: Vec<Block>,
    limit: usize,
}

impl Maker<'_> {
    fn label(&mut self) -> u8 {
        self.labels.pop().expect("256 labels serve 128 blocks")
    }

    fn body(&mut self, callable: &[u8]) -> Body {
        if !callable.is_empty() && self.random.once_in(2) {
            let most = self.random.one_of(&[1, 2, 2, 3, 8]);
            let count = 1 + self.random.below(most);
            return Body::Call((0..count).map(|_| self.random.one_of(callable)).collect());
        }
        Body::Instruction(instruction(self.random))
    }

    fn condition(&mut self, first: u8, second: u8) -> Point {
        let expression = expression(self.random, None, true);
        if self.random.once_in(2) {
            Point::Condition(first, second, expression)
        } else {
            Point::Condition(second, first, expression)
        }
    }

    /// A block in the midst of a process block: plain, a loop to itself, or two ways that meet again.
    fn middle(&mut self, from: u8, to: u8, callable: &[u8]) {
        match self.random.below(4) {
            0 => {
                let again = self.label();
                let entry = self.condition(from, again);
                let exit = self.condition(again, to);
                let body = Body::Instruction(instruction(self.random));
                self.blocks.push(Block { entry, body, exit });
            }
            1 if self.labels.len() > 8 => {
                let (a, b, c, d) = (self.label(), self.label(), self.label(), self.label());
                let exit = self.condition(a, b);
                self.instruction_block(Point::Plain(from), exit);
                self.instruction_block(Point::Plain(a), Point::Plain(c));
                self.instruction_block(Point::Plain(b), Point::Plain(d));
                let entry = self.condition(c, d);
                self.instruction_block(entry, Point::Plain(to));
            }
            _ => {
                let body = self.body(callable);
                self.blocks.push(Block {
                    entry: Point::Plain(from),
                    body,
                    exit: Point::Plain(to),
                });
            }
        }
    }

    fn instruction_block(&mut self, entry: Point, exit: Point) {
        let body = Body::Instruction(instruction(self.random));
        self.blocks.push(Block { entry, body, exit });
    }

    fn process_block(&mut self, label: u8, callable: &[u8]) {
        let most = self.random.one_of(&[1, 2, 3, 6]);
        let mut from = None;
        for _ in 0..self.random.below(most + 1) {
            if self.blocks.len() + 6 > self.limit || self.labels.len() < 10 {
                break;
            }
            let to = self.label();
            match from {
                None => self.instruction_block(Point::Border(label), Point::Plain(to)),
                Some(from) => self.middle(from, to, callable),
            }
            from = Some(to);
        }
        let entry = from.map_or(Point::Border(label), Point::Plain);
        self.instruction_block(entry, Point::Border(label));
    }
}

/// A program of at most `limit` blocks; most are accepted, some are too deep or too wide.
pub fn program(random: &mut Random, limit: usize) -> Vec<Block> {
    let mut labels: Vec<u8> = (1..=255).collect();
    random.shuffle(&mut labels);
    let mut maker = Maker {
        random,
        labels,
        blocks: Vec::new(),
        limit,
    };
    let mut callable = Vec::new();
    let processes = maker.random.below(limit / 3 + 1);
    for _ in 0..processes {
        if maker.blocks.len() + 8 > maker.limit || maker.labels.len() < 12 {
            break;
        }
        let label = maker.label();
        let nearest = callable.len().saturating_sub(4);
        let near = callable[nearest..].to_vec();
        maker.process_block(label, &near);
        callable.push(label);
    }
    maker.process_block(0, &callable);
    let mut blocks = maker.blocks;
    if random.once_in(2) {
        random.shuffle(&mut blocks);
    }
    blocks
}
