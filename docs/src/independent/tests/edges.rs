//! Document 01's "Edges to try", each bullet with and without a star.

mod common;

use common::programs::*;
use common::*;
use independent::*;

/// A run of a single block in main.
fn single(instruction: &str, variables: &[(usize, i32)]) -> Run {
    Run::assembled(&format!("begin 0 | {instruction} | end 0"), variables)
}

#[test]
fn the_empty_image_is_code_1() {
    let refused = Judged {
        code: 1,
        place: 0,
        blocks: 0,
        peak: 0,
    };
    assert_eq!(judge(&[]), refused);
}

#[test]
fn the_smallest_image_is_accepted_with_1_block_and_peak_1() {
    let accepted = Judged {
        code: 0,
        place: 0,
        blocks: 1,
        peak: 1,
    };
    assert_eq!(judge(&[0x22, 0x00, 0x47, 0x32, 0x00]), accepted);
}

#[test]
fn the_smallest_images_refusals() {
    assert_eq!(code_and_place(&[0x22, 0x00, 0x47, 0x32]), (3, 3));
    assert_eq!(code_and_place(&[0x22, 0x00, 0x47, 0x32, 0x01]), (10, 0));
    assert_eq!(code_and_place(&[0x22, 0x01, 0x47, 0x32, 0x01]), (13, 0));
}

#[test]
fn the_largest_value_plus_1_wraps_in_an_update_and_in_an_expression() {
    let mut run = single("x0 += 1", &[(0, i32::MAX)]);
    run.all_forward(&[0]);
    assert_eq!(run.variable(0), i32::MIN);
    run.all_undo(&[0]);
    assert_eq!(run.variable(0), i32::MAX);

    let mut run = single("x1 += x0 + 1", &[(0, i32::MAX)]);
    run.all_forward(&[0]);
    assert_eq!(run.variable(1), i32::MIN);

    let mut run = single("x0 -= x1 - 1", &[(0, i32::MIN), (1, 2)]);
    run.all_forward(&[0]);
    assert_eq!(run.variable(0), i32::MAX);
}

#[test]
fn minus_1_is_less_than_0() {
    let mut run = single("x1 += x0 < 0", &[(0, -1)]);
    run.all_forward(&[0]);
    assert_eq!(run.variable(1), 1);
}

#[test]
fn exclusive_or_of_5_and_3_is_6() {
    let mut run = single("x1 += x0 ^ 3", &[(0, 5)]);
    run.all_forward(&[0]);
    assert_eq!(run.variable(1), 6);
    let mut run = single("x0 ^= 3", &[(0, 5)]);
    run.all_forward(&[0]);
    assert_eq!(run.variable(0), 6);
}

#[test]
fn every_operator_on_signed_values() {
    let cases: [(&str, i32, i32, i32); 22] = [
        ("+", 7, -9, -2),
        ("-", i32::MIN, 1, i32::MAX),
        ("^", -1, 1, -2),
        ("==", 4, 4, 1),
        ("==", 4, -4, 0),
        ("!=", 4, 4, 0),
        ("!=", 4, -4, 1),
        ("<", i32::MIN, i32::MAX, 1),
        ("<", 3, 3, 0),
        ("<=", 3, 3, 1),
        ("<=", 0, -1, 0),
        (">", 0, -1, 1),
        (">", 3, 3, 0),
        (">=", 3, 3, 1),
        (">=", -1, 0, 0),
        ("&&", 2, 1, 1),
        ("&&", 2, 0, 0),
        ("&&", 0, -1, 0),
        ("||", 0, 0, 0),
        ("||", 0, -5, 1),
        ("||", 4, 0, 1),
        ("||", 2, 4, 1),
    ];
    for (operator, first, second, expected) in cases {
        let mut run = single(
            &format!("x2 += x0 {operator} x1"),
            &[(0, first), (1, second)],
        );
        run.all_forward(&[0]);
        assert_eq!(run.variable(2), expected, "{first} {operator} {second}");
    }
    for (value, expected) in [(0, 1), (1, 0), (-1, 0), (i32::MIN, 0)] {
        let mut run = single("x2 += ! x0", &[(0, value)]);
        run.all_forward(&[0]);
        assert_eq!(run.variable(2), expected, "! {value}");
    }
}

#[test]
fn cell_255_passes_and_256_and_minus_1_are_code_25() {
    let mut run = single("M[x0] += 7", &[(0, 255)]);
    run.all_forward(&[0]);
    assert_eq!(run.machine[CELL_WORD + 255], 7);
    let mut run = single("M[x0] += 7", &[(0, 0)]);
    run.all_forward(&[0]);
    assert_eq!(run.machine[CELL_WORD], 7);
    for address in [256, -1, i32::MAX, i32::MIN] {
        for instruction in [
            "M[x0] += 7",
            "x1 += M[x0]",
            "x1 <-> M[x0]",
            "M[x1] <-> M[x0]",
            "assert 0 && M[x0]",
            "assert 1 || M[x0]",
        ] {
            let mut run = single(instruction, &[(0, address)]);
            assert_eq!(run.forward(0), 25, "{instruction} at {address}");
        }
    }
}

#[test]
fn v_needs_exactly_0_and_p_exactly_1() {
    for (instruction, needed, left) in [("V x0", 0, 1), ("P x0", 1, 0)] {
        for value in [-1, 0, 1, 2, i32::MIN] {
            let mut run = single(instruction, &[(0, value)]);
            if value == needed {
                assert_eq!(run.forward(0), 0);
                assert_eq!(run.variable(0), left);
                assert_eq!(run.undo(0), 0);
                assert_eq!(run.variable(0), needed);
            } else {
                assert_eq!(run.forward(0), 24, "{instruction} at {value}");
            }
        }
    }
}

#[test]
fn peak_64_is_accepted_and_65_is_code_15() {
    let judged = judge(&two_levels(7, 8));
    assert_eq!((judged.code, judged.place, judged.peak), (0, 0, 64));
    assert_eq!(code_and_place(&two_levels(8, 7)), (15, 0));
}

#[test]
fn all_64_processes_of_peak_64_are_live_at_once_and_go_back() {
    let mut run = Run::new(two_levels(7, 8), &[]);
    let started = run.machine.clone();
    run.all_forward(&[0, 0]);
    // From the last child to the first, so that each fork makes room before other rows.
    for child in (1..=7).rev() {
        run.all_forward(&[child, child]);
    }
    assert_eq!(run.machine[LIVE_WORD], 64);
    let rows = run.rows();
    assert!(rows.windows(2).all(|pair| pair[0].0 < pair[1].0));
    assert_eq!(rows[8], (0x11, 200, BEGIN));
    assert_eq!(rows[63], (0x78, 200, BEGIN));
    run.all_forward(&[0x78, 0x11]);
    run.all_undo(&[0x11, 0x78]);
    for child in 1..=7 {
        run.all_undo(&[child, child]);
    }
    run.all_undo(&[0, 0]);
    assert!(run.machine == started);
}

#[test]
fn exchanging_one_cell_with_itself_changes_nothing_but_keeps_the_step() {
    let mut run = single("M[x0] <-> M[x1]", &[(0, 9), (1, 9)]);
    run.machine[CELL_WORD + 9] = 41;
    let memory = run.machine[VARIABLE_WORD..ROW_WORD].to_vec();
    run.all_forward(&[0]);
    assert_eq!(run.machine[VARIABLE_WORD..ROW_WORD], memory);
    assert_eq!(run.history(), [(0, 0)]);
    run.all_undo(&[0]);
    assert_eq!(run.machine[VARIABLE_WORD..ROW_WORD], memory);
}

#[test]
fn exchanges_swap_their_two_places() {
    let mut run = single("M[x0] <-> M[x1]", &[(0, 9), (1, 10)]);
    run.machine[CELL_WORD + 9] = 41;
    run.machine[CELL_WORD + 10] = 42;
    run.all_forward(&[0]);
    assert_eq!(run.machine[CELL_WORD + 9..][..2], [42, 41]);
    let mut run = single("x2 <-> M[x0]", &[(0, 9), (2, 5)]);
    run.machine[CELL_WORD + 9] = 41;
    run.all_forward(&[0]);
    assert_eq!((run.variable(2), run.machine[CELL_WORD + 9]), (41, 5));
    run.all_undo(&[0]);
    assert_eq!((run.variable(2), run.machine[CELL_WORD + 9]), (5, 41));
    let mut run = single("x0 <-> x1", &[(0, 9), (1, 5)]);
    run.all_forward(&[0]);
    assert_eq!(run.variables(), [5, 9]);
}

#[test]
fn entry_4096_is_kept_and_the_next_step_is_code_26() {
    let text = "begin 0 | skip | -> 1
                1;2 <- x0 == 0 | x0 += 1 | x0 == 100000 -> 3;2
                3 <- | skip | end 0";
    let mut run = Run::assembled(text, &[]);
    for _ in 0..4096 {
        assert_eq!(step(&run.image, &mut run.machine, 0, 0).code, 0);
    }
    assert_eq!(run.machine[HISTORY_WORD], 4096);
    assert_eq!(run.machine[WORDS - 2..], [0, 1]);
    assert_eq!(run.variable(0), 4095);
    assert_eq!(run.forward(0), 26);
    run.all_undo(&[0]);
    assert_eq!(run.machine[HISTORY_WORD], 4095);
    assert_eq!(run.variable(0), 4094);
    run.all_forward(&[0]);
    assert_eq!(run.forward(0), 26);
}
