//! Codes 18 to 27 of single steps and the order in which they are tried. Code 28 has no test: it
//! cannot occur, since a machine that fits the image has at most main's peak of 64 live processes,
//! also after the fork or the undone merge.

mod common;

use common::*;
use independent::{CELL_WORD, ENTRIES};

#[test]
fn codes_17_19_and_18_come_in_this_order() {
    let mut run = Run::new(worked_image(), &[]);
    assert_eq!(run.step(1, 0), 18);
    assert_eq!(run.step(1, 1), 18);
    assert_eq!(run.step(1, 2), 19);
    assert_eq!(run.step(0, u32::MAX), 19);
    run.machine[1] = 5000;
    assert_eq!(run.step(1, 2), 17);
}

#[test]
fn code_18_is_also_a_child_after_the_merge() {
    let mut run = Run::new(worked_image(), &[]);
    run.all_forward(&[0, 0, 1, 2]);
    assert_eq!(run.forward(1), 21);
    run.all_forward(&[0]);
    assert_eq!(run.forward(1), 18);
    assert_eq!(run.undo(1), 18);
}

#[test]
fn code_21_is_forward_at_end_and_undo_at_begin() {
    let mut run = Run::new(worked_image(), &[]);
    assert_eq!(run.undo(0), 21);
    run.all_forward(&[0, 0]);
    assert_eq!(run.undo(1), 21);
    run.all_forward(&[1, 2, 0, 0]);
    assert_eq!(run.forward(0), 21);
}

#[test]
fn code_21_is_undo_at_begin_also_with_entries_of_an_earlier_fork() {
    let text = "begin 0 | skip | -> 1
                1 <- | call 5 | -> 2
                2 <- | call 5 | -> 3
                3 <- | skip | end 0
                begin 5 | x0 += 1 | end 5";
    let mut run = Run::assembled(text, &[]);
    run.all_forward(&[0, 0, 1, 0, 0]);
    assert_eq!(run.rows(), [(0, 3, RUN), (1, 5, BEGIN)]);
    assert_eq!(run.undo(1), 21);
}

#[test]
fn code_20_is_a_parent_whose_children_are_not_all_done() {
    let mut run = Run::new(worked_image(), &[]);
    run.all_forward(&[0, 0]);
    assert_eq!(run.forward(0), 20);
    run.all_forward(&[2]);
    assert_eq!((run.forward(0), run.undo(0)), (20, 20));
    run.all_forward(&[1]);
    assert_eq!(run.undo(0), 20);
    run.all_forward(&[0]);
    run.all_undo(&[0, 1]);
    assert_eq!((run.forward(0), run.undo(0)), (20, 20));
    run.all_undo(&[2]);
    assert_eq!(run.forward(0), 20);
    run.all_undo(&[0]);
    assert_eq!(run.rows(), [(0, 1, RUN)]);
}

/// Fills the history up with older entries of a process that is not live.
fn fill_history(run: &mut Run) {
    let newest = run.history();
    let mut history = vec![(0x88, 0); ENTRIES - newest.len()];
    history.extend(newest);
    run.set_history(&history);
}

#[test]
fn codes_21_and_20_come_before_26() {
    let mut run = Run::new(worked_image(), &[]);
    run.all_forward(&[0, 0, 1]);
    fill_history(&mut run);
    assert_eq!(run.forward(0), 20);
    assert_eq!(run.forward(1), 21);
    assert_eq!(run.forward(2), 26);
    // An undo makes room.
    run.all_undo(&[1]);
    run.all_forward(&[2]);
    assert_eq!(run.forward(1), 26);
}

#[test]
fn code_26_also_meets_a_fork_and_a_merge() {
    let mut run = Run::new(worked_image(), &[]);
    run.all_forward(&[0]);
    let mut full = run.clone();
    fill_history(&mut full);
    assert_eq!(full.forward(0), 26);
    run.all_forward(&[0, 1, 2]);
    fill_history(&mut run);
    assert_eq!(run.forward(0), 26);
}

#[test]
fn with_a_full_history_nothing_is_evaluated() {
    let mut run = Run::assembled("begin 0 | assert M[x0] | end 0", &[(0, -1)]);
    assert_eq!(run.forward(0), 25);
    fill_history(&mut run);
    assert_eq!(run.forward(0), 26);
}

#[test]
fn code_27_comes_before_all_that_is_evaluated() {
    // Process 1 reads x0 in its exit, process 2 writes x0 after it.
    let text = "begin 0 | skip | -> 1
                1 <- | call 5 6 | -> 2
                2 <- | skip | end 0
                begin 5 | assert M[x1] == 0 | x0 == 0 -> 3;4
                3;4 <- x0 == 0 | skip | end 5
                begin 6 | x0 += 1 | end 6";
    let mut run = Run::assembled(text, &[]);
    run.all_forward(&[0, 0, 1]);
    assert_eq!(run.rows()[1], (1, 3, RUN));
    run.all_forward(&[2]);
    assert_eq!(run.undo(1), 27);
    run.set_variable(1, 256);
    assert_eq!(run.undo(1), 27);
    // Without the other's step, the changed memory gives 22 and then 25.
    run.set_history(&[(0, 0), (0, 1), (1, 3)]);
    run.set_rows(&[(0, 2, RUN), (1, 3, RUN), (2, 6, BEGIN)]);
    assert_eq!(run.undo(1), 22);
    run.set_variable(0, 0);
    assert_eq!(run.undo(1), 25);
    run.set_variable(1, 255);
    assert_eq!(run.undo(1), 0);
}

/// Main at run at label 2, before a block with this entry condition, body and exit condition.
fn before_block(condition: &str, body: &str, exit: &str, variables: &[(usize, i32)]) -> Run {
    let text = format!(
        "begin 0 | skip | 1 -> 2;3
         2;3 <- {condition} | {body} | {exit} -> 4;5
         4;5 <- 1 | skip | end 0"
    );
    let mut run = Run::assembled(&text, variables);
    run.all_forward(&[0]);
    assert_eq!(run.rows(), [(0, 2, RUN)]);
    run
}

#[test]
fn forward_meets_the_entry_then_the_instruction_then_the_exit() {
    let forward = |condition, body, exit, variables: &[(usize, i32)]| {
        before_block(condition, body, exit, variables).forward(0)
    };
    let bad = &[(0, 256)];
    assert_eq!(forward("M[x0]", "assert 0", "M[x0]", bad), 25);
    assert_eq!(forward("0", "assert M[x0]", "M[x0]", bad), 22);
    assert_eq!(forward("0", "P x1", "1", bad), 22);
    assert_eq!(forward("1", "assert M[x0] - 0", "1", bad), 25);
    assert_eq!(forward("1", "assert 0", "M[x0]", bad), 23);
    assert_eq!(forward("1", "P x1", "M[x0]", bad), 24);
    assert_eq!(forward("1", "skip", "M[x0]", bad), 25);
    assert_eq!(forward("1", "skip", "x0", bad), 0);
}

#[test]
fn the_exits_condition_sees_the_new_memory() {
    let mut run = before_block("x0 == 0", "x0 += 1", "x0 == 1", &[]);
    run.all_forward(&[0]);
    assert_eq!(run.rows(), [(0, 4, RUN)]);
    // Also for an address: cell 256 exists only before the update.
    let mut run = before_block("M[x0] == 0", "x0 += 1", "M[x0] == 0", &[(0, 255)]);
    assert_eq!(run.forward(0), 25);
    assert_eq!(run.variable(0), 255);
    let mut run = before_block("1", "x0 -= 1", "M[x0] == 7", &[(0, 256)]);
    run.machine[CELL_WORD + 255] = 7;
    run.all_forward(&[0]);
    assert_eq!(run.rows(), [(0, 4, RUN)]);
}

#[test]
fn a_condition_gives_the_second_label_when_false() {
    let mut run = before_block("x0 != 1", "skip", "x0 == 1", &[]);
    run.all_forward(&[0]);
    assert_eq!(run.rows(), [(0, 5, RUN)]);
    // The next block's condition leads to 4.
    assert_eq!(run.forward(0), 22);
}

#[test]
fn undo_meets_the_exit_then_the_inverse_then_the_entry() {
    // The memory is changed behind the machine's back, so that each part fails in its turn.
    let undo = |condition, body, exit, after: &[(usize, i32)]| {
        let mut run = before_block(condition, body, exit, &[(1, 1)]);
        run.all_forward(&[0]);
        for &(variable, value) in after {
            run.set_variable(variable, value);
        }
        run.undo(0)
    };
    assert_eq!(
        undo("1", "assert x1", "M[x0] == 0", &[(0, 256), (1, 0)]),
        25
    );
    assert_eq!(undo("1", "assert x1", "x0 == 0", &[(0, 1), (1, 0)]), 22);
    assert_eq!(undo("M[x2] == 0", "assert x1", "1", &[(1, 0), (2, -1)]), 23);
    assert_eq!(undo("1", "assert M[x0] == 0", "1", &[(0, -1)]), 25);
    assert_eq!(undo("M[x2] == 0", "V x0", "1", &[(0, 0), (2, -1)]), 24);
    assert_eq!(undo("M[x2] == 0", "P x1", "1", &[(1, 1), (2, -1)]), 24);
    assert_eq!(undo("M[x2] == 0", "skip", "1", &[(2, -1)]), 25);
    // The entry's condition on the earlier memory: address 4 - 5.
    assert_eq!(undo("M[x0] == 0", "x0 += 5", "1", &[(0, 4)]), 25);
    // It gives the label and none must be met: another one than before is no refusal.
    assert_eq!(undo("x2 == 0", "skip", "1", &[(2, 9)]), 0);
}

#[test]
fn undo_inverts_every_instruction() {
    for (body, changed) in [
        ("x0 += x1", 12),
        ("x0 -= x1 - 9", 11),
        ("x0 ^= 3", 4),
        ("x0 <-> x1", 5),
        ("x0 += ! x1", 7),
        ("assert x0 == 7", 7),
        ("skip", 7),
    ] {
        let mut run = before_block("1", body, "1", &[(0, 7), (1, 5)]);
        let before = run.machine.clone();
        run.all_forward(&[0]);
        assert_eq!(run.variable(0), changed, "{body}");
        run.all_undo(&[0]);
        assert!(run.machine == before, "{body}");
    }
}
