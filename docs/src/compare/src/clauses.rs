//! Code 17 clause by clause, as document 01 lists them: which of them a machine breaks. Slow and plain, so that a machine of the
//! comparison can be said to break one clause and no other.

use independent::{ENTRIES, ENTRY_WORD, HISTORY_WORD, LIVE_WORD, ROWS, ROW_WORD};

use crate::layout::{Entry, Layout, Parts, Row, BEGIN};

pub const COUNT: usize = 10;

pub const NAMES: [&str; COUNT] = [
    "a count out of range",
    "an unused word not zero",
    "rows not ascending",
    "no root in main",
    "a parent missing",
    "a label and stage not of the own process block",
    "children other than the call's",
    "a newest entry that is not the block before",
    "a history block not in the image",
    "a history identifier's digits",
];

/// The clause that never comes alone: a child without a parent has no process block of its own either.
pub const NEVER_ALONE: usize = 4;

/// Whether each clause is broken. With a count out of range nothing else can be asked.
pub fn broken(words: &[u32], layout: &Layout) -> [bool; COUNT] {
    let (live, history) = (words[LIVE_WORD] as usize, words[HISTORY_WORD] as usize);
    let mut broken = [false; COUNT];
    broken[0] = live > ROWS || history > ENTRIES;
    if broken[0] {
        return broken;
    }
    let unused_rows = &words[ROW_WORD + 3 * live..ENTRY_WORD];
    let unused_entries = &words[ENTRY_WORD + 2 * history..];
    let parts = Parts::of(words);
    let rows = &parts.rows;
    let each_row = |fits: fn(&Layout, &Parts, &Row) -> bool| {
        let mut rows = rows.iter();
        !rows.all(|row| fits(layout, &parts, row))
    };
    let each_entry = |fits: &dyn Fn(&Entry) -> bool| !parts.history.iter().all(fits);
    broken[1] = unused_rows.iter().chain(unused_entries).any(|&w| w != 0);
    broken[2] = rows
        .windows(2)
        .any(|pair| pair[0].identifier >= pair[1].identifier);
    broken[3] = !parts.row(0).is_some_and(|root| layout.stands_in(0, root));
    broken[4] = each_row(has_parent);
    broken[5] = each_row(is_at_home);
    broken[6] = each_row(has_its_children);
    broken[7] = each_row(has_newest);
    broken[8] = each_entry(&|entry| (entry.block as usize) < layout.blocks.len());
    broken[9] = each_entry(&|entry| entry.identifier == 0 || digits_fit(entry.identifier));
    broken
}

fn has_parent(_: &Layout, parts: &Parts, row: &Row) -> bool {
    row.identifier == 0 || parts.row(row.identifier >> 4).is_some()
}

fn is_at_home(layout: &Layout, parts: &Parts, row: &Row) -> bool {
    if row.identifier == 0 {
        return layout.stands_in(0, row);
    }
    let Some(parent) = parts.row(row.identifier >> 4) else {
        return false;
    };
    let number = (row.identifier & 15) as usize;
    let names = layout.called(parent);
    (1..=names.len()).contains(&number) && layout.stands_in(names[number - 1], row)
}

fn has_its_children(layout: &Layout, parts: &Parts, row: &Row) -> bool {
    let mut children = parts.children(row.identifier);
    children.sort_unstable();
    let called = layout.called(row).len() as u32;
    let wanted = (1..=called).map(|number| row.identifier << 4 | number);
    children.is_empty() || children.into_iter().eq(wanted)
}

fn has_newest(layout: &Layout, parts: &Parts, row: &Row) -> bool {
    let mut entries = parts.history.iter().rev();
    let newest = entries.find(|entry| entry.identifier == row.identifier);
    let before = layout.exit_block(row.label, row.stage);
    row.stage == BEGIN || newest.is_some_and(|entry| before == Some(entry.block as usize))
}

fn digits_fit(identifier: u32) -> bool {
    let text = format!("{identifier:x}");
    text.chars().all(|digit| ('1'..='8').contains(&digit))
}
