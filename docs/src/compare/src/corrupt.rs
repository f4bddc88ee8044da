//! Damage to a machine that fits, aimed at each clause of code 17, so that where it can be only that clause is broken; and
//! changes that leave a machine that fits, though no run reaches it.

use independent::{
    CELL_WORD, ENTRIES, ENTRY_WORD, HISTORY_WORD, LIVE_WORD, ROWS, ROW_WORD, VARIABLE_WORD, WORDS,
};

use crate::clauses;
use crate::layout::{Entry, Layout, Parts, Row, BEGIN, END, RUN};
use crate::random::Random;

const LARGE: [u32; 6] = [65, 256, 4097, 0x7FFF_FFFF, 0x8000_0000, 0xFFFF_FFFF];
const VALUES: [u32; 8] = [0, 1, 2, 255, 256, 0x7FFF_FFFF, 0x8000_0000, 0xFFFF_FFFF];
const BAD_DIGITS: [u32; 9] = [
    9,
    0xF,
    0x10,
    0x101,
    0x19,
    0x91,
    0x1811_1119,
    0x8000_0000,
    0x9111_1111,
];

/// Damage aimed at a clause, by its number in `clauses::NAMES`, or at any word at all.
pub fn corrupt(random: &mut Random, clause: usize, words: &mut [u32], layout: &Layout) {
    let mut parts = Parts::of(words);
    match clause {
        0 => return counts(random, words),
        1 => return unused_word(random, words),
        2 => rows_out_of_order(random, &mut parts),
        3 => no_root(random, &mut parts, layout),
        4 => no_parent(random, &mut parts),
        5 => away_from_home(random, &mut parts, layout),
        6 => other_children(random, &mut parts, layout),
        7 => other_newest(random, &mut parts, layout),
        8 => no_such_block(random, &mut parts, layout),
        9 => bad_digits(random, &mut parts),
        _ => return any_word(random, words),
    }
    parts.write(words);
}

/// How many ways of damage there are: one a clause, and any word.
pub const WAYS: usize = clauses::COUNT + 1;

fn counts(random: &mut Random, words: &mut [u32]) {
    if random.once_in(2) {
        words[LIVE_WORD] = random.one_of(&LARGE);
    } else {
        words[HISTORY_WORD] = random.one_of(&LARGE[2..]);
    }
}

fn unused_word(random: &mut Random, words: &mut [u32]) {
    let row = ROW_WORD + 3 * words[LIVE_WORD] as usize;
    let entry = ENTRY_WORD + 2 * words[HISTORY_WORD] as usize;
    let (first, end) = if random.once_in(2) && row < ENTRY_WORD {
        (row, ENTRY_WORD)
    } else {
        (entry, WORDS)
    };
    if first < end {
        let any = first + random.below(end - first);
        let at = random.one_of(&[first, any, end - 1]);
        words[at] = 1 << random.below(32);
    }
}

fn rows_out_of_order(random: &mut Random, parts: &mut Parts) {
    let at = random.below(parts.rows.len());
    let other = random.below(parts.rows.len());
    let row = parts.rows[at];
    match random.below(4) {
        0 if parts.rows.len() < ROWS => parts.rows.insert(at, row),
        1 => parts.rows[at.saturating_sub(1)] = row,
        _ => parts.rows.swap(at, other),
    }
}

fn no_root(random: &mut Random, parts: &mut Parts, layout: &Layout) {
    match random.below(4) {
        0 => parts.rows.clear(),
        1 => {
            parts.rows.remove(0);
        }
        2 => parts.rows[0].identifier = 1 + random.below(16) as u32,
        _ => stand_anywhere(random, parts, 0, layout),
    }
}

/// A row without a parent, or a row with children taken out.
fn no_parent(random: &mut Random, parts: &mut Parts) {
    let at = random.below(parts.rows.len());
    if random.once_in(2) {
        parts.rows.remove(at);
        return;
    }
    let mut row = parts.rows[at];
    row.identifier = random.next() as u32 & 0x0888_8888 | 1 << (4 * random.below(8));
    insert(parts, row);
}

fn insert(parts: &mut Parts, row: Row) {
    let below = |other: &Row| other.identifier < row.identifier;
    let at = parts.rows.iter().take_while(|other| below(other)).count();
    if parts.rows.len() < ROWS {
        parts.rows.insert(at, row);
    }
}

fn away_from_home(random: &mut Random, parts: &mut Parts, layout: &Layout) {
    let at = random.below(parts.rows.len());
    match random.below(4) {
        0 => parts.rows[at].stage = random.one_of(&[0, 1, 2, 3, 256, 0xFFFF_FFFF]),
        1 => parts.rows[at].label = random.byte().into(),
        2 => parts.rows[at].label |= 0x100,
        _ => stand_anywhere(random, parts, at, layout),
    }
}

/// Puts a process at an entry's or exit's place of any block, and keeps the block before that as its newest entry.
fn stand_anywhere(random: &mut Random, parts: &mut Parts, at: usize, layout: &Layout) {
    let block = random.below(layout.blocks.len());
    let labels = layout.blocks[block].exit.labels();
    let label = random.one_of(&labels);
    let stage = random.one_of(&[BEGIN, RUN, END]);
    stand(parts, at, label, stage, layout);
}

fn stand(parts: &mut Parts, at: usize, label: u32, stage: u32, layout: &Layout) {
    let row = &mut parts.rows[at];
    (row.label, row.stage) = (label, stage);
    let identifier = row.identifier;
    if let Some(before) = layout.exit_block(label, stage) {
        keep(parts, identifier, before as u32);
    }
}

/// Keeps an entry as the newest; where there is no room, the oldest goes.
fn keep(parts: &mut Parts, identifier: u32, block: u32) {
    if parts.history.len() == ENTRIES {
        parts.history.remove(0);
    }
    parts.history.push(Entry { identifier, block });
}

/// A child taken out or put in, or the parent moved away.
fn other_children(random: &mut Random, parts: &mut Parts, layout: &Layout) {
    let has_children = |row: &&Row| !parts.children(row.identifier).is_empty();
    let parents: Vec<Row> = parts.rows.iter().filter(has_children).copied().collect();
    if parents.is_empty() {
        return;
    }
    let parent = random.one_of(&parents);
    let children = parts.children(parent.identifier);
    let child = random.one_of(&children);
    let at = |wanted: u32| parts.rows.iter().position(|row| row.identifier == wanted);
    match random.below(4) {
        0 => {
            let number = random.below(16) as u32;
            let mut row = *parts.row(child).expect("a child has a row");
            row.identifier = parent.identifier << 4 | number;
            insert(parts, row);
        }
        1 => {
            let parent_at = at(parent.identifier).expect("a parent has a row");
            stand_anywhere(random, parts, parent_at, layout);
        }
        _ => {
            let child_at = at(child).expect("a child has a row");
            parts.rows.remove(child_at);
        }
    }
}

fn other_newest(random: &mut Random, parts: &mut Parts, layout: &Layout) {
    let at = random.below(parts.rows.len());
    let identifier = parts.rows[at].identifier;
    let newest = parts
        .history
        .iter()
        .rposition(|entry| entry.identifier == identifier);
    let block = random.below(layout.blocks.len()) as u32;
    match (random.below(4), newest) {
        (0, _) => keep(parts, identifier, block),
        (1, Some(newest)) => parts.history[newest].block = block,
        (2, Some(newest)) => {
            parts.history.remove(newest);
        }
        _ => parts.history.retain(|entry| entry.identifier != identifier),
    }
}

fn no_such_block(random: &mut Random, parts: &mut Parts, layout: &Layout) {
    let count = layout.blocks.len() as u32;
    let block = random.one_of(&[count, count + 1, 128, 256, 0x8000_0000, 0xFFFF_FFFF]);
    if random.once_in(2) && !parts.history.is_empty() {
        let at = random.below(parts.history.len());
        parts.history[at].block = block;
    } else {
        put_in(
            random,
            parts,
            Entry {
                identifier: 8,
                block,
            },
        );
    }
}

fn bad_digits(random: &mut Random, parts: &mut Parts) {
    let identifier = random.one_of(&BAD_DIGITS);
    put_in(
        random,
        parts,
        Entry {
            identifier,
            block: 0,
        },
    );
}

/// Puts an entry of a process that need not live anywhere into the history.
fn put_in(random: &mut Random, parts: &mut Parts, entry: Entry) {
    if parts.history.len() < ENTRIES {
        let at = random.below(parts.history.len() + 1);
        parts.history.insert(at, entry);
    }
}

/// One bit of a word that is in use or near it.
fn any_word(random: &mut Random, words: &mut [u32]) {
    let row = ROW_WORD + random.below(3 * words[LIVE_WORD] as usize + 3);
    let entry = ENTRY_WORD + random.below(2 * words[HISTORY_WORD] as usize + 2);
    let at = random.one_of(&[LIVE_WORD, HISTORY_WORD, row, row, entry, entry]);
    words[at.min(WORDS - 1)] ^= 1 << random.one_of(&[0, 1, 2, 3, 4, 7, 8, 28, 31]);
}

/// A change after which the machine mostly still fits: memory, the order of history, the place of a process without children,
/// or a history that is all but full.
pub fn touch(random: &mut Random, words: &mut [u32], layout: &Layout) {
    match random.below(10) {
        0 => fill_history(random, words, layout),
        1 => swap_entries(random, words),
        2 => move_a_leaf(random, words, layout),
        _ => touch_memory(random, words),
    }
}

fn touch_memory(random: &mut Random, words: &mut [u32]) {
    for _ in 0..1 + random.below(6) {
        let at = match random.below(4) {
            0 => CELL_WORD + random.one_of(&[0, 1, 2, 254, 255]),
            1 => VARIABLE_WORD + 28 + random.below(4),
            _ => VARIABLE_WORD + random.below(12),
        };
        words[at] = random.one_of(&VALUES);
    }
}

/// Entries of a process that is not live, before all others.
fn fill_history(random: &mut Random, words: &mut [u32], layout: &Layout) {
    let mut parts = Parts::of(words);
    let room = ENTRIES - parts.history.len();
    let block = random.below(layout.blocks.len()) as u32;
    let older = Entry {
        identifier: random.one_of(&[0x8888_8888, 0x1234_5678]),
        block,
    };
    let count = room.saturating_sub(random.below(3));
    parts.history.splice(0..0, vec![older; count]);
    parts.write(words);
}

fn swap_entries(random: &mut Random, words: &mut [u32]) {
    let mut parts = Parts::of(words);
    if parts.history.len() > 1 {
        let at = random.below(parts.history.len() - 1);
        parts.history.swap(at, at + 1);
        parts.write(words);
    }
}

fn move_a_leaf(random: &mut Random, words: &mut [u32], layout: &Layout) {
    let mut parts = Parts::of(words);
    let at = random.below(parts.rows.len());
    let row = parts.rows[at];
    if !parts.children(row.identifier).is_empty() {
        return;
    }
    let label = own_label(&parts, &row, layout);
    let places = layout.places(label);
    if places.is_empty() || random.once_in(4) {
        let stage = random.one_of(&[BEGIN, END]);
        stand(&mut parts, at, label.into(), stage, layout);
    } else {
        let place = random.one_of(&places);
        stand(&mut parts, at, place, RUN, layout);
    }
    parts.write(words);
}

/// The label of a process's own process block, on a machine that fits.
fn own_label(parts: &Parts, row: &Row, layout: &Layout) -> u8 {
    if row.identifier == 0 {
        return 0;
    }
    let parent = parts.row(row.identifier >> 4).expect("the machine fits");
    layout.called(parent)[(row.identifier & 15) as usize - 1]
}
