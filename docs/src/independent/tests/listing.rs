//! The list: one row for each live process with the codes of both directions, the rest zero.
//! That its codes are a step's is checked at every step of all other tests.

mod common;

use common::*;
use independent::*;

const JUNK: Row = Row {
    identifier: 9,
    forward: 9,
    undo: 9,
};

fn listed(run: &Run) -> Vec<(u32, u32, u32)> {
    let mut rows = [JUNK; ROWS];
    assert_eq!(list(&run.image, &run.machine, &mut rows), Answer::default());
    let live = run.machine[LIVE_WORD] as usize;
    assert!(rows[live..].iter().all(|row| *row == Row::default()));
    let rows = rows[..live].iter();
    rows.map(|row| (row.identifier, row.forward, row.undo))
        .collect()
}

#[test]
fn the_list_along_the_worked_session() {
    let mut run = Run::new(worked_image(), &[]);
    assert_eq!(listed(&run), [(0, 0, 21)]);
    run.all_forward(&[0]);
    assert_eq!(listed(&run), [(0, 0, 0)]);
    run.all_forward(&[0]);
    assert_eq!(listed(&run), [(0, 20, 0), (1, 0, 21), (2, 0, 21)]);
    run.all_forward(&[2]);
    assert_eq!(listed(&run), [(0, 20, 20), (1, 0, 21), (2, 21, 0)]);
    run.all_forward(&[1]);
    assert_eq!(listed(&run), [(0, 0, 20), (1, 21, 0), (2, 21, 27)]);
    run.all_forward(&[0]);
    assert_eq!(listed(&run), [(0, 0, 0)]);
}

#[test]
fn the_list_has_codes_of_evaluation() {
    let text = "begin 0 | skip | -> 1
                1 <- | call 5 6 7 | -> 2
                2 <- | skip | end 0
                begin 5 | P x9 | end 5
                begin 6 | assert x1 | end 6
                begin 7 | M[x2] += 1 | end 7";
    let mut run = Run::assembled(text, &[(2, 300)]);
    run.all_forward(&[0, 0]);
    let expected = [(0, 20, 0), (1, 24, 21), (2, 23, 21), (3, 25, 21)];
    assert_eq!(listed(&run), expected);
}

#[test]
fn a_refusal_leaves_every_row() {
    let image = worked_image();
    let run = Run::new(image.clone(), &[]);
    let refused = |image: &[u8], machine: &[u32], count: usize| {
        let mut rows = vec![JUNK; count];
        let answer = list(image, machine, &mut rows);
        assert!(rows.iter().all(|row| *row == JUNK));
        (answer.code, answer.place)
    };
    for count in [0, 63, 65] {
        assert_eq!(refused(&image, &run.machine, count), (16, 0));
        assert_eq!(refused(&image[..3], &run.machine, count), (3, 3));
    }
    assert_eq!(refused(&image, &run.machine[1..], 64), (16, 0));
    let mut unfit = run.machine.clone();
    unfit[WORDS - 1] = 1;
    assert_eq!(refused(&image, &unfit, 64), (17, 0));
    // 16 comes before 17.
    assert_eq!(refused(&image, &unfit, 63), (16, 0));
}
