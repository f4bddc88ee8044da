//! The cause graph: what blocks read and write, and that code 27 is exactly what document 01's
//! three conditions say, on random runs.

mod common;

use common::*;
use independent::*;
use std::collections::BTreeSet;

const HEAP: u32 = 32;

/// The resources that a block reads only, and those that it writes.
fn uses(instruction: &str) -> (BTreeSet<u32>, BTreeSet<u32>) {
    let mut run = Run::assembled(&format!("begin 0 | {instruction} | end 0"), &[(9, 1)]);
    run.all_forward(&[0]);
    let graph = run.graph();
    assert!(graph
        .edges
        .iter()
        .all(|edge| edge.from.is_none() && edge.to == node(0, 0)));
    let of = |is_write: bool| {
        let edges = graph.edges.iter().filter(|edge| edge.is_write == is_write);
        edges.map(|edge| edge.resource).collect()
    };
    (of(false), of(true))
}

#[test]
fn reads_and_writes_of_every_instruction() {
    let cases: [(&str, &[u32], &[u32]); 13] = [
        ("x1 += x2 + M[x3]", &[2, 3, HEAP], &[1]),
        ("x1 -= 0", &[], &[1]),
        ("M[x1] ^= x2", &[1, 2], &[HEAP]),
        ("M[x1] += x1", &[1], &[HEAP]),
        ("x1 <-> x2", &[], &[1, 2]),
        ("x1 <-> M[x2]", &[2], &[1, HEAP]),
        ("M[x2] <-> x1", &[2], &[1, HEAP]),
        ("M[x1] <-> M[x2]", &[1, 2], &[HEAP]),
        ("V x31", &[], &[31]),
        ("P x9", &[], &[9]),
        ("assert ! M[x1]", &[1, HEAP], &[]),
        ("assert x9", &[9], &[]),
        ("skip", &[], &[]),
    ];
    for (instruction, reads, writes) in cases {
        let expected = (
            reads.iter().copied().collect(),
            writes.iter().copied().collect(),
        );
        assert_eq!(uses(instruction), expected, "{instruction}");
    }
}

#[test]
fn conditions_are_read_and_a_call_reads_and_writes_nothing() {
    let text = "begin 0 | skip | x1 < 1 -> 1;2
                1;2 <- x2 == 0 | skip | -> 3
                3 <- | call 5 | -> 4
                4 <- | skip | end 0
                begin 5 | skip | end 5";
    let mut run = Run::assembled(text, &[]);
    run.all_forward(&[0, 0, 0, 1, 0, 0]);
    let edges: Vec<Edge> = run.graph().edges.into_iter().collect();
    let read = |resource, number| Edge {
        from: None,
        resource,
        to: node(0, number),
        is_write: false,
    };
    assert_eq!(edges, [read(1, 0), read(2, 1)]);
    assert_eq!(run.graph().nodes.len(), 6);
}

#[test]
fn the_heap_is_one_resource() {
    let text = "begin 0 | skip | -> 1
                1 <- | call 5 6 | -> 2
                2 <- | skip | end 0
                begin 5 | M[x1] += 1 | end 5
                begin 6 | M[x2] += 1 | end 6";
    let mut run = Run::assembled(text, &[(1, 10), (2, 20)]);
    run.all_forward(&[0, 0, 1, 2]);
    // Different cells, and yet the first is held.
    assert_eq!(run.undo(1), 27);
    run.all_undo(&[2, 1]);
}

#[test]
fn a_write_is_fixed_by_the_instruction_alone() {
    let text = "begin 0 | skip | -> 1
                1 <- | call 5 6 | -> 2
                2 <- | skip | end 0
                begin 5 | x1 += 0 | end 5
                begin 6 | assert x1 == 0 | end 6";
    let mut run = Run::assembled(text, &[]);
    run.all_forward(&[0, 0, 1, 2]);
    assert_eq!(run.undo(1), 27);
    let mut run = Run::assembled(text, &[]);
    run.all_forward(&[0, 0, 2, 1]);
    assert_eq!(run.undo(2), 27);
}

#[test]
fn two_readers_do_not_hold_each_other() {
    let text = "begin 0 | skip | -> 1
                1 <- | call 5 6 | -> 2
                2 <- | skip | end 0
                begin 5 | assert x1 == 0 | end 5
                begin 6 | x2 += x1 | end 6";
    let mut run = Run::assembled(text, &[]);
    run.all_forward(&[0, 0, 1, 2]);
    run.all_undo(&[1]);
    assert_eq!(run.history(), [(0, 0), (0, 1), (2, 4)]);
}

/// A machine that fits the image, at run in every process, with a made-up older history.
fn made_up(random: &mut Random) -> Run {
    let text = "begin 0 | skip | -> 1
                1 <- | call 5 6 7 | -> 2
                2 <- | skip | end 0
                begin 5 | x0 += x1 | -> 3
                3 <- | x1 += M[x2] | end 5
                begin 6 | x1 += 1 | -> 4
                4 <- | M[x2] += x0 | end 6
                begin 7 | x0 <-> x2 | -> 8
                8 <- | assert x1 == x2 | end 7";
    let mut run = Run::assembled(text, &[]);
    run.all_forward(&[0, 0]);
    let mut history = run.history();
    for _ in 0..random.below(30) {
        let process = [0, 1, 2, 3, 0x11, 0x22][random.below(6)];
        history.push((process, random.below(9) as u32));
    }
    // The newest entries that make the processes stand where they do, in some order.
    let mut newest = vec![(0, 1), (1, 3), (2, 6), (3, 7)];
    while !newest.is_empty() {
        history.push(newest.remove(random.below(newest.len())));
        history.push((0x33, random.below(9) as u32));
    }
    run.set_rows(&[(0, 2, RUN), (1, 3, RUN), (2, 6, END), (3, 8, RUN)]);
    run.set_history(&history);
    run
}

#[test]
fn code_27_is_what_the_three_conditions_say() {
    let mut random = Random(0x0123_4567_89ab_cdef);
    let mut seen = [0, 0];
    for _ in 0..1000 {
        let run = made_up(&mut random);
        let graph = run.graph();
        let mut rows = [Row::default(); ROWS];
        assert_eq!(list(&run.image, &run.machine, &mut rows).code, 0);
        for row in &rows[1..4] {
            let own = graph
                .nodes
                .iter()
                .filter(|node| node.process == row.identifier);
            let newest = *own.max().unwrap();
            let is_held = row.undo == 27;
            assert_eq!(is_held, !graph.is_removable(newest), "{newest:?}");
            seen[usize::from(is_held)] += 1;
        }
    }
    assert!(seen[0] > 100 && seen[1] > 100, "{seen:?}");
}
