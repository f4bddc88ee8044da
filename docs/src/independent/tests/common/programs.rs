//! Programs that several tests run: 004's figures, and two levels of calls.

use super::{assemble, assemble_named};

const AIRLINE: [&str; 4] = ["seats", "agent1", "agent2", "semaphore"];

/// 004's figure 6: blocks 0 to 12 are b1 to b13.
pub fn figure_6() -> Vec<u8> {
    assemble_named(
        &AIRLINE,
        "begin 0            | seats += 3   | -> 1
         1 <-               | call 101 102 | -> 2
         2 <-               | skip         | end 0
         begin 101          | skip         | -> 3
         3;4 <- agent1 == 0 | skip         | seats > 0 -> 5;7
         5 <-               | seats -= 1   | -> 6
         6 <-               | agent1 += 1  | -> 4
         7 <-               | skip         | end 101
         begin 102          | skip         | -> 8
         8;9 <- agent2 == 0 | skip         | seats > 0 -> 10;12
         10 <-              | seats -= 1   | -> 11
         11 <-              | agent2 += 1  | -> 9
         12 <-              | skip         | end 102",
    )
}

/// 004's figure 8: blocks 13 and 14 are b'14 and b'15.
pub fn figure_8() -> Vec<u8> {
    assemble_named(
        &AIRLINE,
        "begin 0            | seats += 3   | -> 1
         1 <-               | call 101 102 | -> 2
         2 <-               | skip         | end 0
         begin 101          | skip         | -> 3
         3;4 <- agent1 == 0 | V semaphore  | seats > 0 -> 5;7
         5 <-               | seats -= 1   | -> 13
         6 <-               | agent1 += 1  | -> 4
         7 <-               | P semaphore  | end 101
         begin 102          | skip         | -> 8
         8;9 <- agent2 == 0 | V semaphore  | seats > 0 -> 10;12
         10 <-              | seats -= 1   | -> 14
         11 <-              | agent2 += 1  | -> 9
         12 <-              | P semaphore  | end 102
         13 <-              | P semaphore  | -> 6
         14 <-              | P semaphore  | -> 11",
    )
}

/// 004's figure 3, rebuilt: blocks 0 to 6 are b1 to b7.
pub fn figure_3() -> Vec<u8> {
    assemble_named(
        &["x", "y", "z"],
        "begin 0  | skip          | -> 1
         1 <-     | call 10 11 12 | -> 2
         2 <-     | skip          | end 0
         begin 10 | x += 1        | -> 3
         3 <-     | x += 1        | end 10
         begin 11 | y += x        | end 11
         begin 12 | z += x        | end 12",
    )
}

/// Main calls so many labels, each of which calls label 200 so many times.
pub fn two_levels(labels: u32, times: usize) -> Vec<u8> {
    let named: Vec<String> = (1..=labels).map(|label| label.to_string()).collect();
    let named = named.join(" ");
    let mut text = format!(
        "begin 0 | skip | -> 50
         50 <- | call {named} | -> 51
         51 <- | skip | end 0
         begin 200 | skip | end 200\n"
    );
    for label in 1..=labels {
        let (first, second) = (60 + label, 80 + label);
        let leaves = "200 ".repeat(times);
        text += &format!("begin {label} | skip | -> {first}\n");
        text += &format!("{first} <- | call {leaves} | -> {second}\n");
        text += &format!("{second} <- | skip | end {label}\n");
    }
    assemble(&text)
}
