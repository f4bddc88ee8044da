//! Damage to a program or to its bytes, aimed at every code of judging and at the order between codes.

use crate::program::{expression, image, instruction, Block, Body, Point, SEMAPHORES};
use crate::random::Random;

/// Kinds and numbers that mean something to a reader of records.
const TELLING: [u8; 30] = [
    0, 1, 2, 3, 4, 0x10, 0x11, 0x12, 0x1C, 0x1D, 0x1F, 0x20, 0x21, 0x22, 0x23, 0x30, 0x31, 0x32,
    0x33, 0x40, 0x42, 0x43, 0x44, 0x46, 0x47, 0x50, 0x51, 0x58, 0x59, 255,
];

/// Damage to the blocks: labels, names, calls.
pub fn damage_blocks(random: &mut Random, blocks: &mut Vec<Block>) {
    let at = random.below(blocks.len());
    match random.below(14) {
        0 => {
            blocks[at].body = Body::Instruction(vec![
                0x40,
                2,
                SEMAPHORES + random.below(4) as u8,
                0x10,
                1,
                1,
                0,
                0,
                0,
            ])
        }
        1 => blocks[at].entry = Point::Plain(random.byte()),
        2 => blocks[at].exit = Point::Plain(random.byte()),
        3 => blocks[at].exit = Point::Border(random.byte()),
        4 => blocks[at].entry = Point::Border(random.byte()),
        5 => {
            let block = blocks[at].clone();
            blocks.push(block);
        }
        6 => {
            blocks.remove(at);
        }
        7 => call_any(random, &mut blocks[at]),
        8 => swap_labels(random, blocks),
        9 => {
            let label = random.byte();
            blocks[at].exit = Point::Condition(label, label, expression(random, None, true));
        }
        10 => no_main(random, blocks),
        11 => cross(random, blocks),
        12 => {
            let label = random.byte();
            let body = Body::Instruction(vec![0x47]);
            blocks.push(Block {
                entry: Point::Plain(label),
                body,
                exit: Point::Plain(label),
            });
        }
        _ => blocks[at].body = Body::Instruction(updates_itself(random)),
    }
}

/// A call wherever the block stands: of an unknown label, of its own process block, of one above.
fn call_any(random: &mut Random, block: &mut Block) {
    let count = 1 + random.below(8);
    block.body = Body::Call((0..count).map(|_| random.byte() % 64).collect());
}

/// Two blocks trade exits: a process block runs into another's end.
fn cross(random: &mut Random, blocks: &mut [Block]) {
    let (a, b) = (random.below(blocks.len()), random.below(blocks.len()));
    let exit = blocks[a].exit.clone();
    blocks[a].exit = blocks[b].exit.clone();
    blocks[b].exit = exit;
}

fn swap_labels(random: &mut Random, blocks: &mut [Block]) {
    let (old, new) = (random.byte(), random.byte());
    for block in blocks {
        block.entry.relabel(old, new);
        if random.once_in(2) {
            block.exit.relabel(old, new);
        }
    }
}

/// Main's label is another one: code 13, or 12 where a call names it.
fn no_main(random: &mut Random, blocks: &mut [Block]) {
    let label = 1 + random.byte() % 255;
    for block in blocks {
        for point in [&mut block.entry, &mut block.exit] {
            if let Point::Border(0) = point {
                *point = Point::Border(label);
            }
        }
    }
}

fn updates_itself(random: &mut Random) -> Vec<u8> {
    let x = random.byte() % 34;
    match random.below(5) {
        0 => vec![0x40, 2, x, 0x12, 2, x, 2, random.byte() % 34],
        1 => vec![0x41, 2, x, 0x10, 3, x],
        2 => vec![0x42, 3, x, 0x11, 3, random.byte() % 34],
        3 => vec![0x43, 2 + random.byte() % 2, x, 2 + random.byte() % 2, x],
        _ => instruction(random),
    }
}

/// Damage to the bytes: a byte changed, taken out, put in, or the end cut off.
pub fn damage_bytes(random: &mut Random, image: &mut Vec<u8>) {
    for _ in 0..1 + random.below(3) {
        if image.is_empty() {
            return;
        }
        let at = random.below(image.len());
        let byte = if random.once_in(3) {
            random.byte()
        } else {
            random.one_of(&TELLING)
        };
        match random.below(5) {
            0 => image.truncate(at),
            1 => {
                image.remove(at);
            }
            2 => image.insert(at, byte),
            _ => image[at] = byte,
        }
    }
}

/// A hundred and thirty blocks and more: code 5, and the faults of block 127 before it.
pub fn too_many(random: &mut Random) -> Vec<u8> {
    let count = 126 + random.below(5);
    let mut bytes: Vec<u8> = (0..count)
        .flat_map(|b| [0x22, b as u8, 0x47, 0x32, b as u8])
        .collect();
    if random.once_in(2) {
        bytes.push(random.byte());
    }
    if random.once_in(3) {
        damage_bytes(random, &mut bytes);
    }
    bytes
}

/// An image of any length: noise, or one program after another until the length is reached.
pub fn of_length(random: &mut Random, length: usize) -> Vec<u8> {
    if random.once_in(2) {
        return (0..length).map(|_| random.one_of(&TELLING)).collect();
    }
    let mut bytes = Vec::new();
    while bytes.len() < length {
        bytes.extend(image(&crate::program::program(random, 24)));
    }
    bytes.truncate(length);
    bytes
}

/// Levels of labels that each call all labels of the next level: deep and wide graphs, circles now and then.
pub fn levels(random: &mut Random) -> Vec<u8> {
    let depth = 1 + random.below(11);
    let width = 1 + random.below(3);
    let mut bytes = Vec::new();
    for level in 0..=depth {
        for k in 0..if level == 0 { 1 } else { width } {
            let label = if level == 0 {
                0
            } else {
                (level * width + k) as u8
            };
            let (from, to) = (128 + label, 192 + label);
            bytes.extend([0x22, label, 0x47, 0x30, from]);
            let mut next = level + 1;
            if random.once_in(60) {
                next = random.below(depth + 1);
            }
            let count = if level == depth {
                0
            } else {
                1 + random.below(8)
            };
            let names: Vec<u8> = (0..count)
                .map(|_| (next * width + random.below(width)) as u8)
                .collect();
            bytes.extend([0x20, from]);
            if names.is_empty() {
                bytes.push(0x47);
            } else {
                bytes.push(0x50 + count as u8);
                bytes.extend(names);
            }
            bytes.extend([0x30, to, 0x20, to, 0x47, 0x32, label]);
        }
    }
    bytes
}
