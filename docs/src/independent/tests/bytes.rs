//! The byte variants: words low byte first, and lengths that don't give the right number of words.

mod common;

use common::*;
use independent::*;

#[test]
fn starting_on_bytes_writes_the_words_low_byte_first() {
    let image = worked_image();
    let first: Vec<u32> = (0..288).map(|word| 0x0102_0304 + word).collect();
    let mut machine = vec![0xff; 4 * WORDS];
    assert_eq!(
        start_bytes(&image, &bytes_of(&first), &mut machine),
        Answer::default()
    );
    assert_eq!(machine[..12], [1, 0, 0, 0, 0, 0, 0, 0, 4, 3, 2, 1]);
    let mut words = vec![0; WORDS];
    start(&image, &first, &mut words);
    assert!(machine == bytes_of(&words));
}

#[test]
fn a_byte_length_that_does_not_give_the_words_is_16_after_1_to_15() {
    let image = worked_image();
    let cut = &image[..39];
    let first = [0; 4 * FIRST_WORDS];
    let refused = Answer { code: 16, place: 0 };
    let at_image = Answer { code: 3, place: 38 };
    for length in [0, 8674, 34_692, 34_695, 34_697, 34_700] {
        let mut machine = vec![7; length];
        let mut rows = [Row::default(); ROWS];
        assert_eq!(start_bytes(&image, &first, &mut machine), refused);
        assert_eq!(step_bytes(&image, &mut machine, 0, 9), refused);
        assert_eq!(list_bytes(&image, &machine, &mut rows), refused);
        assert_eq!(start_bytes(cut, &first, &mut machine), at_image);
        assert_eq!(step_bytes(cut, &mut machine, 0, 9), at_image);
        assert_eq!(list_bytes(cut, &machine, &mut rows), at_image);
        assert!(machine.iter().all(|&byte| byte == 7));
    }
    for length in [0, 288, 1148, 1151, 1153, 1156] {
        let mut machine = vec![7; 4 * WORDS];
        assert_eq!(start_bytes(&image, &vec![0; length], &mut machine), refused);
        assert_eq!(start_bytes(cut, &vec![0; length], &mut machine), at_image);
        assert!(machine.iter().all(|&byte| byte == 7));
    }
}

#[test]
fn listing_bytes_is_listing_words() {
    let mut run = Run::new(worked_image(), &[]);
    run.all_forward(&[0, 0, 2, 1]);
    let mut rows = [Row::default(); ROWS];
    let mut byte_rows = rows;
    assert_eq!(list(&run.image, &run.machine, &mut rows).code, 0);
    let bytes = bytes_of(&run.machine);
    assert_eq!(list_bytes(&run.image, &bytes, &mut byte_rows).code, 0);
    assert_eq!(rows, byte_rows);
    assert_eq!(rows[2].undo, 27);
    let mut few = [Row::default(); 63];
    assert_eq!(list_bytes(&run.image, &bytes, &mut few).code, 16);
}
