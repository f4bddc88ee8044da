//! Starting, code 16, and code 17 clause by clause: each breaks one thing of a machine that is
//! accepted before.

mod common;

use common::*;
use independent::*;

/// The worked image after F0 F0 F2: the root at the call's exit label, child 2 at end.
fn forked() -> Run {
    let mut run = Run::new(worked_image(), &[]);
    run.all_forward(&[0, 0, 2]);
    assert_eq!(run.rows(), [(0, 2, RUN), (1, 5, BEGIN), (2, 6, END)]);
    assert_eq!(run.history(), [(0, 0), (0, 1), (2, 4)]);
    run
}

/// What step and list answer to the changed machine; both must agree and change nothing.
fn code_after(change: impl Fn(&mut Run)) -> u32 {
    let mut run = forked();
    change(&mut run);
    let before = run.machine.clone();
    let code = run.step(0, 7);
    let mut rows = [Row::default(); ROWS];
    let listed = list(&run.image, &run.machine, &mut rows).code;
    assert!(before == run.machine);
    match code {
        // Not refused before the direction.
        19 => assert_eq!(listed, 0),
        _ => assert_eq!((listed, rows), (code, [Row::default(); ROWS])),
    }
    code
}

#[test]
fn starting_writes_every_word_and_looks_at_none() {
    let first: Vec<u32> = (1000..1288).collect();
    let image = worked_image();
    for junk in [0, 1, u32::MAX] {
        let mut machine = vec![junk; WORDS];
        assert_eq!(start(&image, &first, &mut machine), Answer::default());
        assert_eq!(machine[..VARIABLE_WORD], [1, 0]);
        assert_eq!(machine[VARIABLE_WORD..ROW_WORD], first);
        assert!(machine[ROW_WORD..].iter().all(|&word| word == 0));
    }
}

#[test]
fn the_layout_is_document_01s() {
    let words = [VARIABLE_WORD, CELL_WORD, ROW_WORD, ENTRY_WORD, WORDS];
    assert_eq!(words, [2, 34, 290, 482, 8674]);
}

#[test]
fn code_16_is_a_wrong_length_and_comes_after_1_to_15() {
    let image = worked_image();
    let refused = Answer { code: 16, place: 0 };
    for length in [0, 8673, 8675] {
        let mut machine = vec![7; length];
        assert_eq!(start(&image, &[0; 288], &mut machine), refused);
        assert_eq!(step(&image, &mut machine, 9, 9), refused);
        assert_eq!(list(&image, &machine, &mut [Row::default(); 64]), refused);
        assert_eq!(cause_graph(&image, &machine), Err(refused));
        assert!(machine.iter().all(|&word| word == 7));
        let cut = &image[..39];
        let place = Answer { code: 3, place: 38 };
        assert_eq!(start(cut, &[0; 288], &mut machine), place);
        assert_eq!(step(cut, &mut machine, 9, 9), place);
        assert_eq!(list(cut, &machine, &mut [Row::default(); 64]), place);
    }
    for length in [0, 287, 289] {
        let mut machine = vec![7; WORDS];
        assert_eq!(start(&image, &vec![0; length], &mut machine), refused);
        assert!(machine.iter().all(|&word| word == 7));
    }
}

#[test]
fn the_machine_before_any_change_is_accepted() {
    assert_eq!(code_after(|_| {}), 19);
}

#[test]
fn code_17_is_a_count_out_of_range() {
    for live in [0, 65, u32::MAX] {
        assert_eq!(code_after(|run| run.machine[LIVE_WORD] = live), 17);
    }
    let mut no_row = Run::new(worked_image(), &[]);
    no_row.machine[LIVE_WORD] = 0;
    assert_eq!(no_row.step(0, 0), 17);
    for history in [4097, u32::MAX] {
        assert_eq!(code_after(|run| run.machine[HISTORY_WORD] = history), 17);
    }
}

#[test]
fn code_17_is_an_unused_word_that_is_not_zero() {
    for word in [ROW_WORD + 9, ROW_WORD + 10, ROW_WORD + 11, ENTRY_WORD - 1] {
        assert_eq!(code_after(|run| run.machine[word] = 1), 17);
    }
    for word in [ENTRY_WORD + 6, ENTRY_WORD + 7, WORDS - 2, WORDS - 1] {
        assert_eq!(code_after(|run| run.machine[word] = 1), 17);
    }
}

#[test]
fn code_17_is_rows_that_do_not_ascend() {
    let swapped = |run: &mut Run| run.set_rows(&[(0, 2, RUN), (2, 6, END), (1, 5, BEGIN)]);
    assert_eq!(code_after(swapped), 17);
    let twice = |run: &mut Run| run.set_rows(&[(0, 2, RUN), (1, 5, BEGIN), (1, 5, BEGIN)]);
    assert_eq!(code_after(twice), 17);
    let root_twice = |run: &mut Run| run.set_rows(&[(0, 0, BEGIN), (0, 0, BEGIN)]);
    assert_eq!(code_after(root_twice), 17);
}

#[test]
fn rows_ascend_as_unsigned_words() {
    // Each level calls seven leaves and the next level last, down to 81111111.. of 8 digits.
    let mut text = "begin 0 | skip | -> 20
                    20 <- | call 9 9 9 9 9 9 9 1 | -> 21
                    21 <- | skip | end 0
                    begin 9 | skip | end 9\n"
        .to_string();
    for level in 1..8 {
        let next = if level == 7 { 9 } else { level + 1 };
        let (first, second) = (30 + 2 * level, 31 + 2 * level);
        text += &format!("begin {level} | skip | -> {first}\n");
        text += &format!("{first} <- | call {next} | -> {second}\n");
        text += &format!("{second} <- | skip | end {level}\n");
    }
    let mut run = Run::assembled(&text, &[]);
    let mut process: u32 = 0;
    for child in [8, 1, 1, 1, 1, 1, 1, 1] {
        run.all_forward(&[process, process]);
        process = 16 * process + child;
    }
    assert_eq!(process, 0x8111_1111);
    assert_eq!(run.rows().last(), Some(&(0x8111_1111, 9, BEGIN)));
    assert_eq!(run.rows()[7], (7, 9, BEGIN));
    run.all_forward(&[0x8111_1111, 7]);
    assert_eq!(run.history().last(), Some(&(7, 3)));
    run.all_undo(&[0x8111_1111, 7]);
}

#[test]
fn code_17_is_no_root_in_main() {
    let none = |run: &mut Run| run.set_rows(&[(1, 5, BEGIN), (2, 6, END)]);
    assert_eq!(code_after(none), 17);
    let other_number = |run: &mut Run| run.set_rows(&[(1, 0, BEGIN)]);
    assert_eq!(code_after(other_number), 17);
    let elsewhere = |run: &mut Run| run.set_rows(&[(0, 5, BEGIN)]);
    assert_eq!(code_after(elsewhere), 17);
    let at_main = |run: &mut Run| run.set_rows(&[(0, 0, BEGIN)]);
    assert_eq!(code_after(at_main), 19);
}

#[test]
fn code_17_is_a_missing_parent() {
    let orphan = |run: &mut Run| {
        run.set_rows(&[(0, 2, RUN), (1, 5, BEGIN), (2, 6, END), (0x31, 5, BEGIN)]);
    };
    assert_eq!(code_after(orphan), 17);
}

#[test]
fn code_17_is_a_label_and_stage_of_no_process_block_of_its_own() {
    for row in [
        (0, 2, 3),          // no such stage
        (0, 2, u32::MAX),   // nor this
        (0, 256, RUN),      // no such label
        (0, u32::MAX, RUN), // nor this
        (0, 256, BEGIN),    // main's label but for the ninth bit
        (0, 99, RUN),       // a label of no block
        (0, 0, RUN),        // main's own label at run
        (0, 1, BEGIN),      // an ordinary label at begin
        (0, 2, END),        // an ordinary label at end
        (0, 5, END),        // another's own label
    ] {
        // Whatever the newest entry is, as a label of no block has no block before it either.
        for block in 0..5 {
            let change = |run: &mut Run| {
                run.set_rows(&[row]);
                run.set_history(&[(0, block)]);
            };
            assert_eq!(code_after(change), 17, "{row:?} after {block}");
        }
    }
    let child = |run: &mut Run| run.set_rows(&[(0, 2, RUN), (1, 6, BEGIN), (2, 6, END)]);
    assert_eq!(code_after(child), 17);
}

#[test]
fn code_17_is_a_process_at_a_label_of_another_process_block() {
    let text = "begin 0 | skip | -> 1
                1 <- | call 5 | -> 2
                2 <- | skip | end 0
                begin 5 | skip | -> 3
                3 <- | skip | end 5";
    let mut run = Run::assembled(text, &[]);
    run.all_forward(&[0, 0, 1]);
    assert_eq!(run.rows(), [(0, 2, RUN), (1, 3, RUN)]);
    assert_eq!(run.step(0, 7), 19);
    let mut wrong_child = run.clone();
    wrong_child.set_rows(&[(0, 2, RUN), (1, 1, RUN)]);
    wrong_child.set_history(&[(0, 0), (0, 1), (1, 0)]);
    assert_eq!(wrong_child.step(0, 7), 17);
    run.set_rows(&[(0, 3, RUN)]);
    run.set_history(&[(0, 3)]);
    assert_eq!(run.step(0, 7), 17);
}

#[test]
fn code_17_is_a_parent_that_does_not_stand_at_run_at_a_calls_exit_label() {
    let children = [(1, 5, BEGIN), (2, 6, END)];
    for (root, newest) in [
        ((0, 1, RUN), (0, 0)),
        ((0, 0, END), (0, 2)),
        ((0, 0, BEGIN), (0, 1)),
    ] {
        let change = |run: &mut Run| {
            run.set_rows(&[&[root], &children[..]].concat());
            run.set_history(&[newest, (2, 4)]);
        };
        assert_eq!(code_after(change), 17, "{root:?}");
        let alone = |run: &mut Run| {
            run.set_rows(&[root]);
            run.set_history(&[newest]);
        };
        assert_eq!(code_after(alone), 19, "{root:?}");
    }
}

#[test]
fn code_17_is_children_other_than_exactly_1_to_n() {
    let root = (0, 2, RUN);
    let all = [
        vec![(1, 5, BEGIN)],                                // 2 is missing
        vec![(2, 6, END)],                                  // 1 is missing
        vec![(1, 5, BEGIN), (2, 6, END), (3, 5, BEGIN)],    // one more
        vec![(1, 5, BEGIN), (3, 6, BEGIN)],                 // another number
        vec![(1, 5, BEGIN), (2, 6, END), (9, 5, BEGIN)],    // a number over 8
        vec![(1, 5, BEGIN), (2, 6, END), (0x10, 5, BEGIN)], // child 0 of 1
        vec![(1, 6, BEGIN), (2, 5, BEGIN)],                 // in each other's process blocks
    ];
    for children in all {
        let change = |run: &mut Run| run.set_rows(&[&[root], &children[..]].concat());
        assert_eq!(code_after(change), 17, "{children:?}");
    }
}

#[test]
fn a_leaf_at_a_calls_exit_label_counts_as_merged() {
    // No run reaches this: one entry of the call, yet no children. The undo brings them back at
    // end, and that machine is refused, as they have no newest entries.
    let mut run = forked();
    run.set_rows(&[(0, 2, RUN)]);
    run.set_history(&[(0, 0), (0, 1)]);
    assert_eq!(run.undo(0), 0);
    assert_eq!(run.rows(), [(0, 2, RUN), (1, 5, END), (2, 6, END)]);
    assert_eq!(run.undo(1), 17);
}

#[test]
fn code_17_is_a_newest_entry_that_is_not_the_block_before() {
    for history in [
        vec![(0, 0), (0, 1)],                 // process 2 is at end without an entry
        vec![(0, 0), (0, 1), (2, 3)],         // with another block
        vec![(0, 0), (0, 1), (2, 4), (2, 0)], // with a newer one
        vec![(2, 4)],                         // the root is at run without an entry
        vec![(0, 1), (0, 0), (2, 4)],         // in the wrong order
    ] {
        assert_eq!(
            code_after(|run| run.set_history(&history)),
            17,
            "{history:?}"
        );
    }
    let order = [(2, 4), (0, 0), (0, 1)];
    assert_eq!(code_after(|run| run.set_history(&order)), 19);
}

#[test]
fn a_process_at_begin_may_have_entries_of_an_earlier_fork() {
    let history = [(0, 0), (0, 1), (2, 4), (1, 3), (1, 0)];
    assert_eq!(code_after(|run| run.set_history(&history)), 19);
}

#[test]
fn code_17_is_a_history_block_that_is_not_in_the_image() {
    for block in [5, 128, u32::MAX] {
        let history = [(3, block), (0, 0), (0, 1), (2, 4)];
        assert_eq!(code_after(|run| run.set_history(&history)), 17, "{block}");
    }
    let history = [(3, 4), (0, 0), (0, 1), (2, 4)];
    assert_eq!(code_after(|run| run.set_history(&history)), 19);
}

#[test]
fn code_17_is_a_history_identifier_with_a_digit_outside_1_to_8() {
    for identifier in [
        9,
        0xf,
        0x10,
        0x101,
        0x19,
        0x1811_1119,
        0x8000_0000,
        0x9111_1111,
    ] {
        let history = [(identifier, 0), (0, 0), (0, 1), (2, 4)];
        let code = code_after(|run| run.set_history(&history));
        assert_eq!(code, 17, "{identifier:x}");
    }
    // Entries of processes that are not live are held to nothing else.
    for identifier in [3, 8, 0x81, 0x1234_5678, 0x8888_8888] {
        let history = [(0, 0), (0, 1), (2, 4), (identifier, 0)];
        let code = code_after(|run| run.set_history(&history));
        assert_eq!(code, 19, "{identifier:x}");
    }
}
