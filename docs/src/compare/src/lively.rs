//! Random programs that run on: loops that count and set their counter back, branches that meet again, semaphores in pairs,
//! nested calls, and few variables, so that processes get in each other's way. Now and then a wild instruction or condition.

use crate::program::{expression, image, instruction, Block, Body, Point, SEMAPHORES};
use crate::random::Random;

/// Variables 0 to 4 are shared by all processes, 5 to 7 hold addresses, and from 8 on each loop has its counter.
const SHARED: usize = 5;
const ADDRESSES: [u8; 3] = [5, 6, 7];
const COUNTERS: u8 = 8;

/// The blocks of an accepted program.
pub fn program(random: &mut Random) -> Vec<Block> {
    loop {
        let blocks = match random.below(8) {
            0 => crate::program::program(random, 24),
            1 => deep(random),
            2 => wide(random),
            _ => branched(random),
        };
        if independent::judge(&image(&blocks)).code == 0 {
            return blocks;
        }
    }
}

/// First memory as bytes: mostly one that a lively program can run on.
pub fn first_memory(random: &mut Random) -> Vec<u8> {
    let mut words = vec![0u32; independent::FIRST_WORDS];
    for (index, word) in words.iter_mut().enumerate() {
        let is_address = ADDRESSES.contains(&(index as u8));
        let is_shared = !(SHARED..32).contains(&index);
        *word = match random.below(24) {
            0 => random.one_of(&[1, 2, 255, 256, 0x7FFF_FFFF, 0x8000_0000, 0xFFFF_FFFF]),
            _ if is_address => random.one_of(&[0, 1, 1, 2, 254, 255]),
            _ if is_shared => random.below(4) as u32,
            _ => 0,
        };
    }
    words.iter().flat_map(|word| word.to_le_bytes()).collect()
}

/// A loop without an end that two processes share a variable with: a run of it fills the history.
pub fn endless() -> Vec<Block> {
    let mut maker = Maker::new(Vec::new());
    let call = Body::Call(vec![101, 102]);
    let skip = || Body::Instruction(vec![0x47]);
    maker.block(Point::Border(0), skip(), Point::Plain(1));
    maker.block(Point::Plain(1), call, Point::Plain(2));
    maker.block(Point::Plain(2), skip(), Point::Border(0));
    for (label, counter) in [(101, 10), (102, 20)] {
        let names = [label + 2, label + 4, label + 6];
        maker.block(Point::Border(label), skip(), Point::Plain(names[0]));
        let entry = Point::Condition(names[0], names[1], compared(0x15, counter, 0));
        let exit = Point::Condition(names[2], names[1], compared(0x15, counter, 1 << 20));
        maker.block(entry, added(0x40, counter, 1), exit);
        maker.block(Point::Plain(names[2]), skip(), Point::Border(label));
    }
    maker.blocks
}

fn constant(value: u32) -> Vec<u8> {
    [vec![1], value.to_le_bytes().to_vec()].concat()
}

/// A variable compared with a constant.
fn compared(kind: u8, variable: u8, value: u32) -> Vec<u8> {
    [vec![kind, 2, variable], constant(value)].concat()
}

/// A constant added to a variable, or taken from it.
fn added(kind: u8, variable: u8, value: u32) -> Body {
    Body::Instruction([vec![kind, 2, variable, 0x10], constant(value)].concat())
}

fn shared(random: &mut Random) -> u8 {
    random.below(SHARED) as u8
}

/// A shared variable or a cell, as a left operand.
fn left(random: &mut Random) -> Vec<u8> {
    match random.below(3) {
        0 => vec![3, random.one_of(&ADDRESSES)],
        _ => vec![2, shared(random)],
    }
}

fn update(random: &mut Random) -> Vec<u8> {
    let kind = 0x40 + random.below(3) as u8;
    match left(random)[..] {
        [2, x] => {
            let read = match random.below(3) {
                0 => vec![3, random.one_of(&ADDRESSES)],
                1 => constant(1),
                _ => vec![2, (x + 1) % SHARED as u8],
            };
            [vec![kind, 2, x, 0x10], read].concat()
        }
        _ => {
            let operands = vec![2, shared(random), 2, shared(random)];
            let operator = 0x12 + random.below(11) as u8;
            let start = vec![kind, 3, random.one_of(&ADDRESSES), operator];
            [start, operands].concat()
        }
    }
}

fn exchange(random: &mut Random) -> Vec<u8> {
    let x = shared(random);
    match random.below(3) {
        0 => vec![0x43, 2, x, 2, (x + 1) % SHARED as u8],
        1 => vec![0x43, 2, x, 3, random.one_of(&ADDRESSES)],
        _ => vec![0x43, 3, 5, 3, 6],
    }
}

/// An instruction that mostly succeeds.
fn mild(random: &mut Random) -> Body {
    Body::Instruction(match random.below(12) {
        0 => instruction(random),
        1 => exchange(random),
        2 => [vec![0x46], compared(0x16, shared(random), 255)].concat(),
        3 => [vec![0x46], compared(0x18, random.one_of(&ADDRESSES), 255)].concat(),
        4 => vec![0x47],
        _ => update(random),
    })
}

/// Levels of calls, the next level as the last child of eight at most: the longest identifiers.
fn deep(random: &mut Random) -> Vec<Block> {
    let mut maker = Maker::new(Vec::new());
    let levels = 5 + random.below(4) as u8;
    for level in 0..levels {
        let mut names = vec![levels; random.one_of(&[0, 1, 2, 5, 7])];
        names.push(level + 1);
        maker.calling(random, level, names);
    }
    maker.block(Point::Border(levels), mild(random), Point::Border(levels));
    maker.blocks
}

/// Main calls up to eight labels, each of which calls up to eight: the most processes.
fn wide(random: &mut Random) -> Vec<Block> {
    let mut maker = Maker::new(Vec::new());
    let is_full = random.once_in(2);
    let width = if is_full { 7 } else { 2 + random.below(7) };
    maker.calling(random, 0, (1..=width as u8).collect());
    for label in 1..=width as u8 {
        let count = if is_full { 8 } else { 5 + random.below(4) };
        maker.calling(random, label, vec![9; count]);
    }
    maker.block(Point::Border(9), mild(random), Point::Border(9));
    maker.blocks
}

/// Process blocks that call those made before them; main's calls stand in a loop.
fn branched(random: &mut Random) -> Vec<Block> {
    let mut labels: Vec<u8> = (1..=255).collect();
    random.shuffle(&mut labels);
    let mut maker = Maker::new(labels);
    let mut callable = Vec::new();
    for _ in 0..1 + random.below(6) {
        let label = maker.label();
        let nearest = callable.len().saturating_sub(3);
        maker.process_block(random, label, &callable[nearest..]);
        callable.push(label);
    }
    maker.main(random, &callable);
    let mut blocks = maker.blocks;
    if random.once_in(2) {
        random.shuffle(&mut blocks);
    }
    blocks
}

struct Maker {
    labels: Vec<u8>,
    counter: u8,
    blocks: Vec<Block>,
}

impl Maker {
    fn new(labels: Vec<u8>) -> Maker {
        Maker {
            labels,
            counter: COUNTERS,
            blocks: Vec::new(),
        }
    }

    fn label(&mut self) -> u8 {
        self.labels.pop().expect("few blocks, 255 labels")
    }

    fn block(&mut self, entry: Point, body: Body, exit: Point) {
        self.blocks.push(Block { entry, body, exit });
    }

    /// A process block of one call between two instructions.
    fn calling(&mut self, random: &mut Random, label: u8, names: Vec<u8>) {
        let (from, to) = (100 + label, 200 + label);
        self.block(Point::Border(label), mild(random), Point::Plain(from));
        self.block(Point::Plain(from), Body::Call(names), Point::Plain(to));
        self.block(Point::Plain(to), mild(random), Point::Border(label));
    }

    fn process_block(&mut self, random: &mut Random, label: u8, callable: &[u8]) {
        if random.once_in(4) {
            return self.block(Point::Border(label), mild(random), Point::Border(label));
        }
        let mut from = self.label();
        self.block(Point::Border(label), mild(random), Point::Plain(from));
        for _ in 0..random.below(4) {
            let to = self.label();
            self.segment(random, from, to, callable);
            from = to;
        }
        self.block(Point::Plain(from), mild(random), Point::Border(label));
    }

    fn main(&mut self, random: &mut Random, callable: &[u8]) {
        let (from, to) = (self.label(), self.label());
        self.block(Point::Border(0), mild(random), Point::Plain(from));
        self.repeated(random, from, to, callable);
        self.block(Point::Plain(to), mild(random), Point::Border(0));
    }

    fn segment(&mut self, random: &mut Random, from: u8, to: u8, callable: &[u8]) {
        let has_room = self.blocks.len() < 90 && self.counter < SEMAPHORES;
        match random.below(9) {
            0 if has_room => self.repeated(random, from, to, callable),
            1 if has_room => self.forked_way(random, from, to),
            2 if has_room => self.locked(random, from, to),
            3..=5 if !callable.is_empty() => self.call(random, from, to, callable),
            _ => self.block(Point::Plain(from), mild(random), Point::Plain(to)),
        }
    }

    fn call(&mut self, random: &mut Random, from: u8, to: u8, callable: &[u8]) {
        let most = random.one_of(&[1, 2, 3, 3, 8]);
        let count = 1 + random.below(most);
        let names = (0..count).map(|_| random.one_of(callable)).collect();
        self.block(Point::Plain(from), Body::Call(names), Point::Plain(to));
    }

    /// A loop around a call, or around another segment, with a counter that is set back behind it.
    fn repeated(&mut self, random: &mut Random, from: u8, to: u8, callable: &[u8]) {
        let (again, inside, after, out) = (self.label(), self.label(), self.label(), self.label());
        let counter = self.counter;
        self.counter += 1;
        let times = 1 + random.below(3) as u32;
        let entry = Point::Condition(from, again, compared(0x15, counter, 0));
        self.block(entry, added(0x40, counter, 1), Point::Plain(inside));
        if callable.is_empty() || random.once_in(3) {
            self.segment(random, inside, after, callable);
        } else {
            self.call(random, inside, after, callable);
        }
        let exit = Point::Condition(out, again, compared(0x15, counter, times));
        self.block(Point::Plain(after), mild(random), exit);
        self.block(
            Point::Plain(out),
            added(0x41, counter, times),
            Point::Plain(to),
        );
    }

    /// Two ways that meet again, mostly by a condition that nobody changes meanwhile.
    fn forked_way(&mut self, random: &mut Random, from: u8, to: u8) {
        let (a, b, c, d) = (self.label(), self.label(), self.label(), self.label());
        let condition = if random.once_in(3) {
            expression(random, None, true)
        } else {
            compared(0x17, random.one_of(&ADDRESSES), 2)
        };
        let exit = Point::Condition(a, b, condition.clone());
        self.block(Point::Plain(from), mild(random), exit);
        self.block(Point::Plain(a), mild(random), Point::Plain(c));
        self.block(Point::Plain(b), mild(random), Point::Plain(d));
        let entry = Point::Condition(c, d, condition);
        self.block(entry, mild(random), Point::Plain(to));
    }

    /// An instruction between V and P of one semaphore.
    fn locked(&mut self, random: &mut Random, from: u8, to: u8) {
        let semaphore = SEMAPHORES + random.below(2) as u8;
        let (inside, after) = (self.label(), self.label());
        let operation = |kind| Body::Instruction(vec![kind, semaphore]);
        self.block(Point::Plain(from), operation(0x44), Point::Plain(inside));
        self.block(Point::Plain(inside), mild(random), Point::Plain(after));
        self.block(Point::Plain(after), operation(0x45), Point::Plain(to));
    }
}
