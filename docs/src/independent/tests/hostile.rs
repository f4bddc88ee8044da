//! Inputs that nobody means: random bytes and words, and good ones with a few of them changed.
//! Nothing may panic, and each refusal must leave every lent word.

mod common;

use common::*;
use independent::*;

/// Changes a few bytes of the image, or cuts or lengthens it.
fn spoil(image: &mut Vec<u8>, random: &mut Random) {
    for _ in 0..1 + random.below(3) {
        let place = random.below(image.len());
        match random.below(4) {
            0 => image[place] = random.below(256) as u8,
            1 => image[place] = image[random.below(image.len())],
            2 => image.truncate(place.max(1)),
            _ => image.insert(place, random.below(0x60) as u8),
        }
    }
}

#[test]
fn spoilt_images_are_judged_with_many_codes() {
    let mut random = Random(0xabcd_ef01_2345_6789);
    let mut met = [0; 29];
    for _ in 0..20_000 {
        let mut image = worked_image();
        spoil(&mut image, &mut random);
        let judged = judge(&image);
        met[judged.code as usize] += 1;
        let place_limit = if judged.code < 9 {
            image.len() + 1
        } else {
            128
        };
        assert!((judged.place as usize) < place_limit);
        if judged.code != 0 {
            assert_eq!((judged.blocks, judged.peak), (0, 0));
            let mut machine = vec![7; WORDS];
            let answer = start(&image, &[0; FIRST_WORDS], &mut machine);
            assert_eq!((answer.code, answer.place), (judged.code, judged.place));
            assert!(machine.iter().all(|&word| word == 7));
        }
    }
    for code in [0, 2, 3, 4, 7, 8, 10, 12, 14] {
        assert!(met[code] > 0, "code {code} was not met");
    }
}

#[test]
fn random_machines_are_refused_and_left() {
    let mut random = Random(0x5555_aaaa_1234_4321);
    let image = worked_image();
    for _ in 0..300 {
        let limit = [2, 3, 64, 4096, 1 << 40][random.below(5)];
        let machine = (0..WORDS).map(|_| random.below(limit) as u32).collect();
        let mut run = Run {
            image: image.clone(),
            machine,
        };
        // Random words everywhere are never all zero where they must be.
        assert_eq!(run.step(random.below(3) as u32, random.below(2) as u32), 17);
    }
}

/// One word of the machine's used part changed to a small or any value.
fn spoil_machine(run: &mut Run, random: &mut Random) {
    let used_rows = 3 * run.machine[LIVE_WORD] as usize;
    let used_entries = 2 * run.machine[HISTORY_WORD] as usize;
    let word = match random.below(4) {
        0 => random.below(2),
        1 => VARIABLE_WORD + random.below(32),
        2 => ROW_WORD + random.below(used_rows + 1),
        _ => ENTRY_WORD + random.below(used_entries + 1),
    };
    let limit = [4, 16, 300, 1 << 40][random.below(4)];
    run.machine[word] = random.below(limit) as u32;
}

#[test]
fn spoilt_machines_are_stepped_or_left() {
    let text = "begin 0 | x0 += 1 | -> 1
                1;2 <- x1 == 0 | x1 += 1 | -> 3
                3 <- | call 5 6 | -> 4
                4 <- | skip | x1 < 3 -> 2;7
                7 <- | skip | end 0
                begin 5 | M[x2] += x0 | end 5
                begin 6 | V x9 | -> 8
                8 <- | call 5 | -> 9
                9 <- | P x9 | end 6";
    let mut random = Random(0x7777_1111_2222_3333);
    let mut codes = [0; 29];
    for _ in 0..700 {
        let mut run = Run::assembled(text, &[]);
        for _ in 0..random.below(25) {
            let rows = run.rows();
            let process = rows[random.below(rows.len())].0;
            step(&run.image, &mut run.machine, process, 0);
        }
        spoil_machine(&mut run, &mut random);
        for process in [0, 1, 2, 0x21] {
            for direction in [0, 1] {
                // Checks by itself that a refusal leaves every word.
                codes[run.clone().step(process, direction) as usize] += 1;
            }
        }
    }
    for code in [0, 17, 18, 20, 21, 24, 25, 27] {
        assert!(codes[code] > 0, "code {code} was not met");
    }
}
