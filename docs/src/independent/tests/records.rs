//! Codes 1 to 8: the faults of single records, their places, and which of two faults wins.

mod common;

use common::*;

/// `22 00`, this body, then these exit records.
fn after_begin(rest: &[u8]) -> Vec<u8> {
    [&[0x22, 0x00], rest].concat()
}

#[test]
fn code_1_is_length_0_or_over_4096() {
    assert_eq!(code_and_place(&[]), (1, 0));
    // The first record would be 2 at 0, but nothing is read.
    assert_eq!(code_and_place(&vec![0xff; 4097]), (1, 0));
    assert_eq!(code_and_place(&vec![0xff; 4096]), (2, 0));
}

#[test]
fn code_2_is_a_kind_that_may_not_stand_there() {
    for kind in [0x00, 0x01, 0x10, 0x1f, 0x23, 0x30, 0x47, 0xff] {
        assert_eq!(
            code_and_place(&[kind, 0, 0x47, 0x32, 0]),
            (2, 0),
            "entry {kind:x}"
        );
    }
    for kind in [0x02, 0x12, 0x20, 0x32, 0x3f, 0x48, 0x50, 0x59, 0xff] {
        assert_eq!(
            code_and_place(&after_begin(&[kind, 0, 0, 0])),
            (2, 2),
            "body {kind:x}"
        );
    }
    for kind in [0x22, 0x2f, 0x33, 0x47, 0xff] {
        assert_eq!(
            code_and_place(&after_begin(&[0x47, kind, 0])),
            (2, 3),
            "exit {kind:x}"
        );
    }
    for kind in [0x01, 0x02, 0x0f, 0x1d, 0x20, 0xff] {
        assert_eq!(
            code_and_place(&after_begin(&[0x46, kind, 0])),
            (2, 3),
            "expression {kind:x}"
        );
    }
    for kind in [0x00, 0x04, 0x10, 0xff] {
        let image = after_begin(&[0x46, 0x10, kind, 0]);
        assert_eq!(code_and_place(&image), (2, 4), "operand {kind:x}");
    }
}

#[test]
fn code_2_is_a_constant_as_left_operand() {
    let constant = [0x01, 0, 0, 0, 0];
    let update = [&[0x40], &constant[..]].concat();
    assert_eq!(code_and_place(&after_begin(&update)), (2, 3));
    let exchange = [&[0x43, 0x02, 0x00], &constant[..]].concat();
    assert_eq!(code_and_place(&after_begin(&exchange)), (2, 5));
}

#[test]
fn code_2_comes_before_3_at_the_last_byte() {
    assert_eq!(code_and_place(&after_begin(&[0x47, 0x33])), (2, 3));
    assert_eq!(code_and_place(&[0x47]), (2, 0));
}

#[test]
fn code_3_has_the_place_of_the_record_that_is_cut() {
    assert_eq!(code_and_place(&[0x22]), (3, 0));
    assert_eq!(code_and_place(&[0x21, 1]), (3, 0));
    assert_eq!(code_and_place(&after_begin(&[0x47, 0x32])), (3, 3));
    assert_eq!(code_and_place(&after_begin(&[0x44])), (3, 2));
    assert_eq!(
        code_and_place(&after_begin(&[0x46, 0x10, 0x01, 0, 0, 0])),
        (3, 4)
    );
    assert_eq!(
        code_and_place(&[0x20, 1, 0x58, 1, 2, 3, 4, 5, 6, 7]),
        (3, 2)
    );
}

#[test]
fn code_3_has_the_length_as_place_before_a_missing_record() {
    let images: [&[u8]; 7] = [
        &[0x22, 0],                               // no body
        &[0x22, 0, 0x47],                         // no exit
        &[0x21, 1, 2],                            // no expression
        &[0x22, 0, 0x46, 0x10],                   // no operand
        &[0x22, 0, 0x46, 0x12, 0x02, 0],          // no second operand
        &[0x22, 0, 0x43, 0x02, 0],                // no right side of an exchange
        &[0x22, 0, 0x47, 0x32, 0, 0x22, 1, 0x40], // no left operand in the second block
    ];
    for image in images {
        assert_eq!(code_and_place(image), (3, image.len() as u32), "{image:x?}");
    }
}

#[test]
fn code_4_is_a_variable_over_31() {
    assert_eq!(code_and_place(&after_begin(&[0x44, 31, 0x32, 0])), (0, 0));
    assert_eq!(code_and_place(&after_begin(&[0x44, 32])), (4, 2));
    assert_eq!(code_and_place(&after_begin(&[0x45, 255])), (4, 2));
    assert_eq!(
        code_and_place(&after_begin(&[0x46, 0x10, 0x02, 32])),
        (4, 4)
    );
    assert_eq!(
        code_and_place(&after_begin(&[0x46, 0x10, 0x03, 32])),
        (4, 4)
    );
    assert_eq!(
        code_and_place(&after_begin(&[0x43, 0x02, 1, 0x03, 32])),
        (4, 5)
    );
    // In one record 3 comes before 4.
    assert_eq!(code_and_place(&after_begin(&[0x44])), (3, 2));
}

/// `begin 0` and `end 0` with blocks between, `count` in all.
fn chain(count: usize) -> Vec<u8> {
    let mut image = vec![0x22, 0, 0x47, 0x30, 1];
    for label in 1..count as u8 - 1 {
        image.extend([0x20, label, 0x47, 0x30, label + 1]);
    }
    image.extend([0x20, count as u8 - 1, 0x47, 0x32, 0]);
    image
}

#[test]
fn code_5_is_a_byte_after_block_128() {
    let image = chain(128);
    let judged = independent::judge(&image);
    assert_eq!((judged.code, judged.blocks, judged.peak), (0, 128, 1));
    for byte in [0x00, 0x20, 0x22, 0xff] {
        let longer = [&image[..], &[byte]].concat();
        assert_eq!(code_and_place(&longer), (5, 640));
    }
    let much_longer = [&image[..], &[0x20; 100]].concat();
    assert_eq!(code_and_place(&much_longer), (5, 640));
}

#[test]
fn block_127s_own_faults_come_before_5() {
    let mut image = [chain(128), vec![0x20]].concat();
    image[635] = 0xff;
    assert_eq!(code_and_place(&image), (2, 635));
}

#[test]
fn code_6_is_two_equal_labels_before_the_expression_is_read() {
    assert_eq!(code_and_place(&[0x21, 7, 7]), (6, 0));
    assert_eq!(code_and_place(&[0x21, 7, 7, 0xff]), (6, 0));
    assert_eq!(code_and_place(&after_begin(&[0x47, 0x31, 7, 7])), (6, 3));
    // Cut labels can't be compared.
    assert_eq!(code_and_place(&[0x21, 7]), (3, 0));
}

/// The code of one instruction as main's only block.
fn instruction_code(instruction: &str) -> (u32, u32) {
    code_and_place(&assemble(&format!("begin 0 | {instruction} | end 0")))
}

#[test]
fn code_7_is_an_update_by_an_expression_that_names_what_it_changes() {
    for refused in [
        "x0 += x0",
        "x0 -= 1 + x0",
        "x0 ^= ! M[x0]",
        "x0 += M[x0] + 1",
        "M[x0] += M[x0]",
        "M[x0] += 1 + M[x1]",
        "M[x0] ^= ! M[x1]",
    ] {
        assert_eq!(instruction_code(refused), (7, 2), "{refused}");
    }
    for accepted in ["x0 += x1", "x0 += M[x1]", "M[x0] += x0", "M[x0] -= x0 + x1"] {
        assert_eq!(instruction_code(accepted), (0, 0), "{accepted}");
    }
}

#[test]
fn code_7_is_an_exchange_with_one_variable_on_both_sides() {
    for refused in [
        "x0 <-> x0",
        "x0 <-> M[x0]",
        "M[x0] <-> x0",
        "M[x0] <-> M[x0]",
    ] {
        assert_eq!(instruction_code(refused), (7, 2), "{refused}");
    }
    for accepted in [
        "x0 <-> x1",
        "x0 <-> M[x1]",
        "M[x0] <-> x1",
        "M[x0] <-> M[x1]",
    ] {
        assert_eq!(instruction_code(accepted), (0, 0), "{accepted}");
    }
}

#[test]
fn code_7_comes_after_the_last_operand_and_before_the_exit() {
    // x0 += x0 + x32, of which the last operand's 4 wins; x0 += x0 + nothing.
    assert_eq!(
        code_and_place(&after_begin(&[0x40, 2, 0, 0x12, 2, 0, 2, 0x20])),
        (4, 8)
    );
    assert_eq!(
        code_and_place(&after_begin(&[0x40, 2, 0, 0x12, 2, 0])),
        (3, 8)
    );
    // x0 += x0 with a wrong exit, and with none.
    assert_eq!(
        code_and_place(&after_begin(&[0x40, 2, 0, 0x10, 2, 0, 0xff])),
        (7, 2)
    );
    assert_eq!(
        code_and_place(&after_begin(&[0x40, 2, 0, 0x10, 2, 0])),
        (7, 2)
    );
}

#[test]
fn code_8_at_the_call_is_another_entry_than_kind_20() {
    assert_eq!(code_and_place(&after_begin(&[0x51, 5, 0x30, 1])), (8, 2));
    let conditional = [0x21, 1, 2, 0x10, 0x02, 0, 0x52, 5, 6, 0x30, 1];
    assert_eq!(code_and_place(&conditional), (8, 6));
    // The call's record must be whole, and its own 8 comes before any fault of the exit.
    assert_eq!(code_and_place(&after_begin(&[0x52, 5])), (3, 2));
    assert_eq!(code_and_place(&after_begin(&[0x51, 5, 0xff])), (8, 2));
}

#[test]
fn code_8_at_the_exit_is_another_exit_than_kind_30() {
    let call = |exit: &[u8]| [&[0x20, 1, 0x51, 5], exit].concat();
    // Its labels whole and different: 8, whatever follows, as the expression is not read.
    assert_eq!(code_and_place(&call(&[0x31, 2, 3])), (8, 4));
    assert_eq!(code_and_place(&call(&[0x31, 2, 3, 0xff])), (8, 4));
    assert_eq!(code_and_place(&call(&[0x31, 2])), (3, 4));
    assert_eq!(code_and_place(&call(&[0x31, 2, 2])), (6, 4));
    assert_eq!(code_and_place(&call(&[0x32, 0])), (8, 4));
    assert_eq!(code_and_place(&call(&[0x32])), (3, 4));
    assert_eq!(code_and_place(&call(&[0x33, 0])), (2, 4));
    assert_eq!(code_and_place(&call(&[])), (3, 4));
}

#[test]
fn the_first_fault_in_byte_order_wins() {
    // 4 in the first block, 2 in the second.
    let image = [0x22, 0, 0x44, 32, 0x32, 0, 0xff];
    assert_eq!(code_and_place(&image), (4, 2));
    // 9 to 15 come only after the last byte: `begin 1` would be 10 at block 0.
    let image = [0x22, 1, 0x47, 0x32, 0, 0x22, 0, 0x47];
    assert_eq!(code_and_place(&image), (3, 8));
}
