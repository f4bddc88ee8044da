//! Codes 9 to 15: the image as a whole, one code at a time over all blocks, and main's peak.

mod common;

use common::*;
use independent::judge;
use std::time::{Duration, Instant};

fn refusal(text: &str) -> (u32, u32) {
    code_and_place(&assemble(text))
}

/// Main and a callee, with this in place of the callee's body; block 3 is the callee.
fn with_callee(callee: &str) -> String {
    format!(
        "begin 0 | skip   | -> 1
         1 <-    | call 5 | -> 2
         2 <-    | skip   | end 0
         {callee}"
    )
}

#[test]
fn code_9_is_a_semaphore_named_elsewhere() {
    let named_in = |block: &str| refusal(&format!("begin 0 | V x3 | -> 1\n{block}"));
    for block in [
        "1 <- | x3 += 1 | end 0",
        "1 <- | M[x3] += 1 | end 0",
        "1 <- | x1 += x3 | end 0",
        "1 <- | x1 -= 1 + M[x3] | end 0",
        "1 <- | assert ! x3 | end 0",
        "1 <- | x1 <-> x3 | end 0",
        "1 <- | M[x3] <-> x1 | end 0",
    ] {
        assert_eq!(named_in(block), (9, 1), "{block}");
    }
    assert_eq!(named_in("1 <- | P x3 | end 0"), (0, 0));
    assert_eq!(named_in("1 <- | x1 += 3 | end 0"), (0, 0));
}

#[test]
fn code_9_also_counts_conditions_and_the_block_of_the_semaphore_itself() {
    let in_entry = "begin 0 | skip | -> 1
                    1;2 <- x3 == 0 | P x3 | x1 -> 2;3
                    3 <- | skip | end 0";
    assert_eq!(refusal(in_entry), (9, 1));
    let in_exit = "begin 0 | skip | -> 1
                   1;2 <- x1 | P x3 | x2 > M[x3] -> 2;3
                   3 <- | skip | end 0";
    assert_eq!(refusal(in_exit), (9, 1));
    // The place is the block that names it, not the lower one that holds the P.
    let later = "begin 0 | P x3 | -> 1
                 1 <- | skip | -> 2
                 2 <- | assert x3 | end 0";
    assert_eq!(refusal(later), (9, 2));
    // It may stand in another process block, also one that is never called, before the V.
    let apart = "begin 7 | assert x3 | end 7
                 begin 0 | V x3 | end 0";
    assert_eq!(refusal(apart), (9, 0));
}

#[test]
fn code_10_is_an_ordinary_label_without_exactly_one_entry_and_one_exit() {
    assert_eq!(refusal("begin 0 | skip | -> 1"), (10, 0));
    assert_eq!(refusal("1 <- | skip | end 0"), (10, 0));
    // Label 1 in two exits; in two entries. All other labels are in order.
    let two_exits = "begin 9 | skip | end 9
                     begin 0 | skip | -> 1
                     1 <- | skip | x0 -> 1;2
                     2 <- | skip | end 0";
    assert_eq!(refusal(two_exits), (10, 1));
    let two_entries = "begin 9 | skip | end 9
                       1 <- | skip | -> 3
                       1;2 <- x0 | skip | -> 4
                       3;4 <- x0 | skip | end 0
                       begin 0 | skip | x0 -> 1;2";
    assert_eq!(refusal(two_entries), (10, 1));
}

#[test]
fn code_10_is_a_begin_or_end_label_without_exactly_one_of_each() {
    assert_eq!(refusal("begin 0 | skip | end 1"), (10, 0));
    let two_begins = "begin 0 | skip | end 0
                      begin 0 | skip | -> 1
                      1 <- | skip | end 2";
    assert_eq!(refusal(two_begins), (10, 0));
    let two_ends = "begin 0 | skip | end 0
                    begin 3 | skip | end 3
                    begin 2 | skip | end 3";
    assert_eq!(refusal(two_ends), (10, 1));
}

#[test]
fn code_10_is_a_label_used_both_ways() {
    let both = "begin 0 | skip | end 0
                begin 4 | skip | -> 5
                5 <- | skip | end 4
                begin 6 | skip | -> 4
                4 <- | skip | end 6";
    assert_eq!(refusal(both), (10, 1));
}

#[test]
fn code_10_does_not_count_names_in_a_call() {
    // Label 1 is named in a call and ordinary: then it is a label no begin has, 12.
    let text = "begin 0 | skip | -> 1
                1 <- | call 1 | -> 2
                2 <- | skip | end 0";
    assert_eq!(refusal(text), (12, 1));
    let twice = with_callee("begin 5 | skip | end 5").replace("call 5", "call 5 5");
    assert_eq!(refusal(&twice), (0, 0));
}

#[test]
fn a_block_may_lead_to_itself_and_two_labels_may_join_the_same_blocks() {
    let text = "begin 0 | skip | x0 -> 1;2
                1;2 <- x0 | skip | x0 -> 3;4
                3;5 <- x0 | skip | x1 -> 5;6
                4;6 <- x1 | skip | end 0";
    assert_eq!(refusal(text), (0, 0));
}

#[test]
fn code_11_is_a_process_block_without_one_begin_and_one_end() {
    // A ring of two without begin and end, of which the lowest block is 1.
    let ring = "begin 0 | skip | end 0
                1 <- | skip | -> 2
                2 <- | skip | -> 1";
    assert_eq!(refusal(ring), (11, 1));
    // A block that only leads to itself.
    let alone = "begin 0 | skip | end 0
                 1 <- | skip | -> 1";
    assert_eq!(refusal(alone), (11, 1));
    // Begin 5 and begin 6 in one, with both ends.
    let two = "begin 0 | skip | end 0
               begin 5 | skip | -> 1
               begin 6 | skip | -> 2
               1;2 <- x0 | skip | x0 -> 3;4
               3 <- | skip | end 5
               4 <- | skip | end 6";
    assert_eq!(refusal(two), (11, 1));
}

#[test]
fn code_11_is_begin_and_end_of_different_labels() {
    let crossed = "begin 0 | skip | end 0
                   2 <- | skip | end 5
                   begin 5 | skip | -> 1
                   1 <- | skip | end 6
                   begin 6 | skip | -> 2";
    assert_eq!(refusal(crossed), (11, 1));
}

#[test]
fn code_11_has_the_lowest_block_of_the_lowest_bad_process_block() {
    // Two bad rings: blocks 1 and 4, blocks 2 and 3.
    let rings = "begin 0 | skip | end 0
                 1 <- | skip | -> 2
                 3 <- | skip | -> 4
                 4 <- | skip | -> 3
                 2 <- | skip | -> 1";
    assert_eq!(refusal(rings), (11, 1));
}

#[test]
fn the_end_need_not_be_reached() {
    // Main never leaves label 2's loop, and 7 is never called.
    let text = "begin 0 | skip | -> 1
                1;2 <- 1 | skip | 0 -> 3;2
                3 <- | skip | end 0
                begin 7 | skip | end 7";
    assert_eq!(refusal(text), (0, 0));
}

#[test]
fn code_12_is_a_call_of_a_label_that_no_begin_has() {
    assert_eq!(refusal(&with_callee("begin 6 | skip | end 6")), (12, 1));
    let second = with_callee("begin 5 | skip | end 5").replace("call 5", "call 5 9");
    assert_eq!(refusal(&second), (12, 1));
}

#[test]
fn code_12_comes_before_13() {
    let text = "begin 1 | skip | -> 2
                2 <- | call 0 | -> 3
                3 <- | skip | end 1";
    assert_eq!(refusal(text), (12, 1));
    assert_eq!(refusal(&text.replace("call 0", "skip")), (13, 0));
}

#[test]
fn code_13_comes_before_14() {
    let text = "begin 1 | skip | -> 2
                2 <- | call 1 | -> 3
                3 <- | skip | end 1";
    assert_eq!(refusal(text), (13, 0));
}

/// `begin label | skip`, a call in block 3n + 1, and the end, for the n-th of these.
fn callers(callers: &[(u8, &[u8])]) -> String {
    let mut text = String::new();
    for (number, (label, called)) in callers.iter().enumerate() {
        let (first, second) = (100 + 2 * number, 101 + 2 * number);
        let called: Vec<String> = called.iter().map(u8::to_string).collect();
        let called = called.join(" ");
        text += &format!("begin {label} | skip | -> {first}\n");
        text += &format!("{first} <- | call {called} | -> {second}\n");
        text += &format!("{second} <- | skip | end {label}\n");
    }
    text
}

#[test]
fn code_14_is_a_call_of_its_own_process_block() {
    assert_eq!(refusal(&callers(&[(0, &[0])])), (14, 1));
}

#[test]
fn code_14_has_its_place_on_the_circle_not_before_it() {
    // Main calls 5, 5 calls 6, 6 calls 5: main's call at 1 only leads into the circle.
    let text = callers(&[(0, &[5]), (5, &[6]), (6, &[5])]);
    assert_eq!(refusal(&text), (14, 4));
    // The call that closes the circle names it last, among innocent names.
    let leaf = "begin 9 | skip | end 9\n";
    let text = callers(&[(0, &[5, 9]), (5, &[9, 9]), (6, &[9, 7]), (7, &[9, 6])]) + leaf;
    assert_eq!(refusal(&text), (14, 7));
}

#[test]
fn code_14_refuses_circles_that_main_never_reaches() {
    let text = "begin 0 | skip | end 0\n".to_string() + &callers(&[(5, &[6]), (6, &[5])]);
    assert_eq!(refusal(&text), (14, 2));
}

#[test]
fn code_14_comes_before_15() {
    let deep = deep_text(9);
    assert_eq!(refusal(&deep), (15, 0));
    let circle = deep + &callers(&[(60, &[60])]).replace("10", "20");
    assert_eq!(refusal(&circle), (14, 29));
}

/// Main at the top of so many levels of one call each.
fn deep_text(levels: u8) -> String {
    let names: Vec<[u8; 1]> = (1..=levels).map(|label| [label]).collect();
    let levels: Vec<(u8, &[u8])> = (0..levels)
        .zip(names.iter().map(|name| &name[..]))
        .collect();
    let leaf = levels.len();
    callers(&levels) + &format!("begin {leaf} | skip | end {leaf}\n")
}

#[test]
fn depth_8_is_accepted_and_9_is_code_15() {
    let judged = judge(&assemble(&deep_text(8)));
    assert_eq!((judged.code, judged.blocks, judged.peak), (0, 25, 9));
    assert_eq!(refusal(&deep_text(9)), (15, 0));
}

#[test]
fn code_15_is_about_main_alone() {
    // Label 50 would be too deep as main, but main doesn't call it.
    let deep = deep_text(9)
        .replace("begin 0 ", "begin 50 ")
        .replace("end 0\n", "end 50\n");
    let text = deep + "begin 0 | skip | end 0";
    let judged = judge(&assemble(&text));
    assert_eq!((judged.code, judged.peak), (0, 1));
}

#[test]
fn the_peak_is_the_largest_call_and_not_their_sum() {
    let text = "begin 0 | skip | -> 1
                1 <- | call 5 5 5 | -> 2
                2 <- | call 5 6 | -> 3
                3 <- | call 5 | -> 4
                4 <- | skip | end 0
                begin 5 | skip | end 5
                begin 6 | skip | -> 7
                7 <- | call 5 5 | -> 8
                8 <- | skip | end 6";
    // 1 + max(1 + 1 + 1, 1 + (1 + 2), 1).
    assert_eq!(judge(&assemble(text)).peak, 5);
}

#[test]
fn codes_9_to_15_are_tried_one_at_a_time_over_all_blocks() {
    // Block 0 has 10, block 2 has 9; then block 1 has 12 and blocks 3 and 4 have 11.
    let text = "begin 0 | skip | -> 1
                begin 4 | V x0 | end 4
                begin 5 | assert x0 | end 5";
    assert_eq!(refusal(text), (9, 2));
    let text = "begin 0 | skip | -> 1
                1 <- | call 9 | -> 2
                2 <- | skip | end 0
                3 <- | skip | -> 4
                4 <- | skip | -> 3";
    assert_eq!(refusal(text), (11, 3));
    // Block 1 has 11, block 2 has 10.
    let text = "begin 0 | skip | end 0
                3 <- | skip | -> 3
                4 <- | skip | end 5";
    assert_eq!(refusal(text), (10, 2));
}

/// 8 levels of 13 calls each, every call naming the next level so many times.
fn hostile_image(times: usize) -> Vec<u8> {
    let mut image = Vec::new();
    for level in 0..8_u8 {
        let label = |call: u8| 10 + 14 * level + call;
        image.extend([0x22, level, 0x47, 0x30, label(0)]);
        for call in 0..13 {
            image.extend([0x20, label(call), 0x50 + times as u8]);
            image.extend(vec![level + 1; times]);
            image.extend([0x30, label(call + 1)]);
        }
        image.extend([0x20, label(13), 0x47, 0x32, level]);
    }
    image.extend([0x22, 8, 0x47, 0x32, 8]);
    for spare in 201..208 {
        image.extend([0x22, spare, 0x47, 0x32, spare]);
    }
    image
}

#[test]
fn a_hostile_image_is_judged_without_exponential_work() {
    let single = hostile_image(1);
    let began = Instant::now();
    let judged = judge(&single);
    let taken = began.elapsed();
    assert_eq!((judged.code, judged.blocks, judged.peak), (0, 128, 9));
    // 13 to the power of 8 visits would take seconds.
    assert!(taken < Duration::from_millis(100), "{taken:?}");
    assert_eq!(code_and_place(&hostile_image(8)), (15, 0));
}

#[test]
fn a_peak_over_every_word_does_no_harm() {
    // Label 1 is the top of 40 levels of 8 names each, 8 to the power of 40.
    let names: Vec<[u8; 8]> = (2..=41).map(|label| [label; 8]).collect();
    let levels: Vec<(u8, &[u8])> = (1..41).zip(names.iter().map(|name| &name[..])).collect();
    let text = callers(&levels) + "begin 41 | skip | end 41\n";
    let apart = text.clone() + "begin 0 | skip | end 0";
    assert_eq!(judge(&assemble(&apart)).peak, 1);
    let called = "begin 0 | skip | -> 50
                  50 <- | call 1 | -> 51
                  51 <- | skip | end 0";
    assert_eq!(refusal(&(text + called)), (15, 0));
}

#[test]
fn the_order_of_process_blocks_does_not_matter() {
    let leaf = "begin 9 | skip | end 9\n".to_string();
    let levels: [(u8, &[u8]); 3] = [(0, &[5, 9]), (5, &[6, 9]), (6, &[9, 9])];
    for order in [
        [0, 1, 2],
        [0, 2, 1],
        [1, 0, 2],
        [1, 2, 0],
        [2, 0, 1],
        [2, 1, 0],
    ] {
        let text = callers(&order.map(|level| levels[level]));
        for text in [text.clone() + &leaf, leaf.clone() + &text] {
            let judged = judge(&assemble(&text));
            assert_eq!((judged.code, judged.peak), (0, 7), "{text}");
        }
    }
}
