//! The places of a program: which block's entry or exit holds one, and the process block that each block is of. And the machine
//! as rows and entries, so that damage can be aimed.

use independent::{ENTRIES, ENTRY_WORD, HISTORY_WORD, LIVE_WORD, ROWS, ROW_WORD, WORDS};

use crate::program::{Block, Body, Point};

pub const BEGIN: u32 = 0;
pub const RUN: u32 = 1;
pub const END: u32 = 2;

#[derive(Clone, Copy, PartialEq, Eq)]
pub struct Row {
    pub identifier: u32,
    pub label: u32,
    pub stage: u32,
}

#[derive(Clone, Copy, PartialEq, Eq)]
pub struct Entry {
    pub identifier: u32,
    pub block: u32,
}

/// The rows and entries that the counts speak of.
pub struct Parts {
    pub rows: Vec<Row>,
    pub history: Vec<Entry>,
}

impl Parts {
    pub fn of(words: &[u32]) -> Parts {
        let rows = words[ROW_WORD..ENTRY_WORD].chunks(3);
        let history = words[ENTRY_WORD..].chunks(2);
        Parts {
            rows: rows
                .take(words[LIVE_WORD] as usize)
                .map(|row| Row {
                    identifier: row[0],
                    label: row[1],
                    stage: row[2],
                })
                .collect(),
            history: history
                .take(words[HISTORY_WORD] as usize)
                .map(|entry| Entry {
                    identifier: entry[0],
                    block: entry[1],
                })
                .collect(),
        }
    }

    /// Writes as many rows and entries as there is room for, and zeros behind them.
    pub fn write(&self, words: &mut [u32]) {
        words[ROW_WORD..WORDS].fill(0);
        words[LIVE_WORD] = self.rows.len().min(ROWS) as u32;
        words[HISTORY_WORD] = self.history.len().min(ENTRIES) as u32;
        for (to, row) in words[ROW_WORD..ENTRY_WORD].chunks_mut(3).zip(&self.rows) {
            to.copy_from_slice(&[row.identifier, row.label, row.stage]);
        }
        for (to, entry) in words[ENTRY_WORD..].chunks_mut(2).zip(&self.history) {
            to.copy_from_slice(&[entry.identifier, entry.block]);
        }
    }

    pub fn row(&self, identifier: u32) -> Option<&Row> {
        self.rows.iter().find(|row| row.identifier == identifier)
    }

    /// The identifiers of a process's children, in the order of rows.
    pub fn children(&self, identifier: u32) -> Vec<u32> {
        let all = self.rows.iter().map(|row| row.identifier);
        all.filter(|&child| child != 0 && child >> 4 == identifier)
            .collect()
    }
}

pub struct Layout {
    pub blocks: Vec<Block>,
    /// The label of each block's process block.
    homes: Vec<u8>,
}

impl Layout {
    /// Of an accepted program.
    pub fn new(blocks: Vec<Block>) -> Layout {
        let homes = homes(&blocks);
        Layout { blocks, homes }
    }

    pub fn entry_block(&self, label: u32, stage: u32) -> Option<usize> {
        self.find(|block| &block.entry, label, stage, BEGIN)
    }

    pub fn exit_block(&self, label: u32, stage: u32) -> Option<usize> {
        self.find(|block| &block.exit, label, stage, END)
    }

    fn find(
        &self,
        point: fn(&Block) -> &Point,
        label: u32,
        stage: u32,
        border: u32,
    ) -> Option<usize> {
        let holds = |block: &Block| match point(block) {
            Point::Border(own) => stage == border && label == u32::from(*own),
            ordinary => stage == RUN && ordinary.labels().contains(&label),
        };
        self.blocks.iter().position(holds)
    }

    /// The labels of the call at whose exit label a process stands; none elsewhere.
    pub fn called(&self, row: &Row) -> &[u8] {
        match self.exit_block(row.label, row.stage) {
            Some(block) => self.names(block),
            None => &[],
        }
    }

    /// The labels that a block calls.
    pub fn names(&self, block: usize) -> &[u8] {
        match &self.blocks[block].body {
            Body::Call(names) => names,
            Body::Instruction(_) => &[],
        }
    }

    /// Whether a row's label and stage are of the process block of a label.
    pub fn stands_in(&self, label: u8, row: &Row) -> bool {
        match row.stage {
            BEGIN | END => row.label == u32::from(label),
            _ => self
                .entry_block(row.label, row.stage)
                .is_some_and(|block| self.homes[block] == label),
        }
    }

    /// All places at run of the process block of a label.
    pub fn places(&self, label: u8) -> Vec<u32> {
        let own = (0..self.blocks.len()).filter(|&block| self.homes[block] == label);
        let entries = own.map(|block| &self.blocks[block].entry);
        entries
            .filter(|entry| !matches!(entry, Point::Border(_)))
            .flat_map(Point::labels)
            .collect()
    }
}

/// Spreads the label of each begin over the blocks that ordinary labels join to it.
fn homes(blocks: &[Block]) -> Vec<u8> {
    let mut of_label = [None; 256];
    let mut homes = vec![None; blocks.len()];
    while homes.contains(&None) {
        for (home, block) in homes.iter_mut().zip(blocks) {
            for point in [&block.entry, &block.exit] {
                *home = home.or(match point {
                    Point::Border(label) => Some(*label),
                    ordinary => ordinary
                        .labels()
                        .iter()
                        .find_map(|&label| of_label[label as usize]),
                });
            }
            for point in [&block.entry, &block.exit] {
                if !matches!(point, Point::Border(_)) {
                    for label in point.labels() {
                        of_label[label as usize] = *home;
                    }
                }
            }
        }
    }
    homes
        .into_iter()
        .map(|home| home.expect("joined"))
        .collect()
}
