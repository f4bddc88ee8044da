//! Judging compared: all four numbers, on valid images of up to 128 blocks and on damaged ones aimed at every code.

use crate::damage;
use crate::hostile;
use crate::library::Library;
use crate::program::{image, program};
use crate::random::Random;

const CODES: usize = 16;

/// So many images are asked for at once; their answers fit into a pipe.
const AT_ONCE: usize = 100;

/// Compares `count` random images and prints how often each code came up. False where two answers differ or a code is missing.
pub fn compare(library: &mut Library, random: &mut Random, count: usize) -> bool {
    let mut seen = [0usize; CODES];
    let hostile = hostile::images().into_iter().map(|(_, image)| image);
    let mut images = hostile.chain((0..count).map(|turn| an_image(random, turn)));
    loop {
        let some: Vec<Vec<u8>> = images.by_ref().take(AT_ONCE).collect();
        if some.is_empty() {
            break;
        }
        for (bytes, ours) in some.iter().zip(library.judge_all(&some)) {
            let theirs = independent::judge(bytes);
            if ours != theirs {
                println!("judging differs: {ours:?}, not {theirs:?}, for {bytes:02x?}");
                return false;
            }
            seen[ours.code as usize] += 1;
        }
    }
    println!("judging: {count} images alike");
    for (code, times) in seen.iter().enumerate() {
        println!("  code {code:2}: {times}");
    }
    seen.iter().all(|&times| times > 0)
}

fn an_image(random: &mut Random, turn: usize) -> Vec<u8> {
    match turn % 16 {
        0 if turn < 64 => damage::of_length(random, [0, 1, 4095, 4096, 4097][turn / 16 % 5]),
        0 => damage::too_many(random),
        1 => {
            let length = random.below(4200);
            damage::of_length(random, length)
        }
        2 | 3 => damage::levels(random),
        4 => image(&program(random, 128)),
        5 | 6 => image(&program(random, 24)),
        7..=11 => {
            let limit = random.one_of(&[6, 24, 24, 128]);
            let mut blocks = program(random, limit);
            for _ in 0..1 + random.below(2) {
                damage::damage_blocks(random, &mut blocks);
                if blocks.is_empty() {
                    break;
                }
            }
            image(&blocks)
        }
        _ => {
            let mut bytes = image(&program(random, 12));
            damage::damage_bytes(random, &mut bytes);
            bytes
        }
    }
}
