//! Images that are hard to judge, with what makes them so; and two easy ones to measure by.

/// A process block of one block: `begin l`, skip, `end l`.
fn plain(label: u8) -> Vec<u8> {
    vec![0x22, label, 0x47, 0x32, label]
}

/// A process block whose middle blocks each make one of the calls, joined by labels from `next` on.
fn calling(label: u8, calls: &[Vec<u8>], next: &mut u8) -> Vec<u8> {
    let mut bytes = vec![0x22, label, 0x47, 0x30, *next];
    for names in calls {
        let from = *next;
        *next += 1;
        bytes.extend([0x20, from, 0x50 + names.len() as u8]);
        bytes.extend(names);
        bytes.extend([0x30, *next]);
    }
    bytes.extend([0x20, *next, 0x47, 0x32, label]);
    *next += 1;
    bytes
}

/// Levels of labels, each of which calls the next one many times over: a plain recursion makes 13 to the 8th calls.
fn levels(calls: usize, names: usize) -> Vec<u8> {
    let mut next = 100;
    let mut bytes = Vec::new();
    for level in 0..8 {
        let call = vec![level + 1; names];
        bytes.extend(calling(level, &vec![call; calls], &mut next));
    }
    bytes.extend(plain(8));
    bytes
}

/// Process blocks that each call eight others below them; `first` is main's place among them.
fn wide(blocks: u8) -> Vec<u8> {
    let mut next = 64;
    let mut bytes = Vec::new();
    for label in 0..blocks {
        let names: Vec<u8> = (1..=8).map(|k| label + k).filter(|&l| l < blocks).collect();
        if names.is_empty() {
            bytes.extend(plain(label));
        } else {
            bytes.extend(calling(label, &[names], &mut next));
        }
    }
    bytes
}

/// One process block of 128 blocks in a row, from the last block to the first: the longest chain of labels.
fn chain() -> Vec<u8> {
    let mut bytes = Vec::new();
    for block in (0..128u8).rev() {
        let entry = if block == 0 { [0x22, 0] } else { [0x20, block] };
        let exit = if block == 127 {
            [0x32, 0]
        } else {
            [0x30, block + 1]
        };
        bytes.extend(entry);
        bytes.push(0x47);
        bytes.extend(exit);
    }
    bytes
}

/// As many calls in one circle as fit: each reaches every other.
fn circle() -> Vec<u8> {
    let mut next = 64;
    let mut bytes = plain(0);
    for label in 1..43u8 {
        let names = vec![label % 42 + 1; 8];
        bytes.extend(calling(label, &[names], &mut next));
    }
    bytes
}

/// Conditions with four labels a block and a semaphore's name last: every label and every name is looked at.
fn named() -> Vec<u8> {
    let mut bytes = vec![0x22, 0, 0x45, 31, 0x30, 1];
    for block in 0..126u8 {
        bytes.extend([
            0x21,
            2 * block + 1,
            2 * block + 2,
            0x12,
            2,
            block % 31,
            3,
            block % 31,
        ]);
        bytes.extend([0x40, 2, 27, 0x12, 3, 1, 3, 2]);
        let (first, second) = (2 * block + 3, if block == 125 { 2 } else { 2 * block + 4 });
        bytes.extend([0x31, first, second, 0x12, 2, block % 30, 3, block % 29]);
    }
    bytes.extend([0x20, 253, 0x44, 31, 0x32, 0]);
    bytes
}

/// Main calls seven labels, each of which calls eight: 64 processes can live at once.
pub fn crowded() -> Vec<u8> {
    let mut next = 64;
    let mut bytes = calling(0, &[(1..=7).collect()], &mut next);
    for label in 1..=7 {
        bytes.extend(calling(label, &[vec![8; 8]], &mut next));
    }
    bytes.extend(plain(8));
    bytes
}

/// Each with the words that the benchmark prints.
pub fn images() -> Vec<(&'static str, Vec<u8>)> {
    let plain_blocks = std::iter::once(vec![0x22, 0, 0x47, 0x32, 0]);
    let others = (1..128u8).map(plain);
    vec![
        ("the 40-byte image", worked()),
        (
            "128 plain blocks",
            plain_blocks.chain(others).flatten().collect(),
        ),
        ("8 levels of 13 single calls", levels(13, 1)),
        ("8 levels of 13 calls of 8", levels(13, 8)),
        ("42 process blocks, each calling 8", wide(42)),
        ("a chain of 128 blocks", chain()),
        ("42 calls in one circle", circle()),
        ("126 blocks full of conditions", named()),
    ]
}

/// The image of document 01's worked session.
pub fn worked() -> Vec<u8> {
    include_bytes!("../../../../examples/worked/prog.cril").to_vec()
}
