//! The paper's airline: table 3's faulty run of figure 6's program, step by step, and figure 8's
//! version with the semaphore, with the chain of semaphore edges that section 4 lists.

mod common;

use common::*;
use independent::{Graph, Node};

const SEATS: u32 = 0;
const SEMAPHORE: u32 = 3;

fn figure_6() -> Run {
    Run::new(programs::figure_6(), &[])
}

fn figure_8() -> Run {
    Run::new(programs::figure_8(), &[])
}

/// Table 3: process, the paper's block, then seats, agent1 and agent2 after the step.
const TABLE_3: [(u32, u32, [i32; 3]); 22] = [
    (0, 1, [3, 0, 0]),
    (0, 2, [3, 0, 0]),
    (1, 4, [3, 0, 0]),
    (2, 9, [3, 0, 0]),
    (1, 5, [3, 0, 0]),
    (1, 6, [2, 0, 0]),
    (1, 7, [2, 1, 0]),
    (2, 10, [2, 1, 0]),
    (2, 11, [1, 1, 0]),
    (2, 12, [1, 1, 1]),
    (2, 10, [1, 1, 1]),
    (1, 5, [1, 1, 1]),
    (2, 11, [0, 1, 1]),
    (1, 6, [-1, 1, 1]),
    (2, 12, [-1, 1, 2]),
    (2, 10, [-1, 1, 2]),
    (2, 13, [-1, 1, 2]),
    (1, 7, [-1, 2, 2]),
    (1, 5, [-1, 2, 2]),
    (1, 8, [-1, 2, 2]),
    (0, 2, [-1, 2, 2]),
    (0, 3, [-1, 2, 2]),
];

/// The resource's write edges as one chain from the start mark, by their targets.
fn chain(graph: &Graph, resource: u32) -> Vec<Node> {
    let mut chain = Vec::new();
    let mut last = None;
    let mut edges: Vec<_> = graph.edges.iter().filter(|edge| edge.is_write).collect();
    edges.retain(|edge| edge.resource == resource);
    while let Some(edge) = edges.iter().find(|edge| edge.from == last) {
        chain.push(edge.to);
        last = Some(edge.to);
    }
    assert_eq!(chain.len(), edges.len());
    chain
}

fn nodes(all: &[(u32, u32)]) -> Vec<Node> {
    all.iter()
        .map(|&(process, number)| node(process, number))
        .collect()
}

#[test]
fn the_22_steps_of_table_3() {
    let mut run = figure_6();
    for (number, (process, block, values)) in TABLE_3.into_iter().enumerate() {
        run.all_forward(&[process]);
        assert_eq!(run.history().last(), Some(&(process, block - 1)));
        assert_eq!(run.variables(), values, "after step {number}");
    }
    assert_eq!(run.rows(), [(0, 0, END)]);
}

#[test]
fn the_seats_edges_of_table_3() {
    let mut run = figure_6();
    run.all_forward(&TABLE_3.map(|step| step.0));
    let graph = run.graph();
    let writers = nodes(&[(0, 0), (1, 2), (2, 2), (2, 5), (1, 5)]);
    assert_eq!(chain(&graph, SEATS), writers);
    // What (2, 2) left is checked by both agents and then updated once: the data race.
    let from = graph
        .edges
        .iter()
        .filter(|edge| edge.from == Some(node(2, 2)));
    let used: Vec<_> = from.map(|edge| (edge.to, edge.is_write)).collect();
    let expected = [(node(1, 4), false), (node(2, 4), false), (node(2, 5), true)];
    assert_eq!(used.len(), expected.len());
    assert!(expected.iter().all(|edge| used.contains(edge)));
}

#[test]
fn the_faulty_run_goes_back_to_its_start() {
    let mut run = figure_6();
    let started = run.machine.clone();
    run.all_forward(&TABLE_3.map(|step| step.0));
    let back: Vec<u32> = TABLE_3.iter().rev().map(|step| step.0).collect();
    run.all_undo(&back);
    assert!(run.machine == started);
}

/// Sub1 sells first, then sub2 twice; then sub1 and sub2 find no seats.
fn figure_9() -> Run {
    let mut run = figure_8();
    run.all_forward(&[0, 0]);
    run.all_forward(&[1; 5]);
    assert_eq!(run.variables(), [2, 1, 0, 0]);
    run.all_forward(&[2; 5]);
    assert_eq!(run.variables(), [1, 1, 1, 0]);
    run.all_forward(&[2; 4]);
    assert_eq!(run.variables(), [0, 1, 2, 0]);
    run.all_forward(&[1, 1]);
    run.all_forward(&[2, 2]);
    assert_eq!(run.variables(), [0, 1, 2, 0]);
    assert_eq!(run.rows(), [(0, 2, RUN), (1, 101, END), (2, 102, END)]);
    run.all_forward(&[0, 0]);
    run
}

#[test]
fn the_semaphore_edges_of_figure_9() {
    let run = figure_9();
    assert_eq!(run.rows(), [(0, 0, END)]);
    let first = [(1, 1), (1, 3), (2, 1), (2, 3), (2, 5), (2, 7)];
    let last = [(1, 5), (1, 6), (2, 9), (2, 10)];
    let expected = nodes(&[&first[..], &last[..]].concat());
    assert_eq!(chain(&run.graph(), SEMAPHORE), expected);
    let seats = nodes(&[(0, 0), (1, 2), (2, 2), (2, 6)]);
    assert_eq!(chain(&run.graph(), SEATS), seats);
}

#[test]
fn the_semaphore_edges_are_made_by_the_papers_blocks() {
    let run = figure_9();
    let history = run.history();
    let block = |process: u32, number: usize| {
        let mut own = history.iter().filter(|entry| entry.0 == process);
        own.nth(number).unwrap().1 + 1
    };
    assert_eq!(
        [block(1, 1), block(1, 3), block(2, 1), block(2, 3)],
        [5, 14, 10, 15]
    );
    assert_eq!(
        [block(1, 5), block(1, 6), block(2, 9), block(2, 10)],
        [5, 8, 10, 13]
    );
}

#[test]
fn the_semaphore_keeps_the_other_agent_out_forward_and_back() {
    let mut run = figure_8();
    run.all_forward(&[0, 0, 1, 2, 1]);
    assert_eq!(run.forward(2), 24);
    run.all_forward(&[1]);
    assert_eq!(run.forward(2), 24);
    run.all_forward(&[1, 2]);
    assert_eq!(run.undo(1), 27);

    let mut run = figure_9();
    run.all_undo(&[0, 0]);
    // Back, sub2 is ready, as (2, 10) is the last writer; then sub1; then (2, 7) in sub2.
    assert_eq!(run.undo(1), 27);
    run.all_undo(&[2]);
    assert_eq!(run.undo(1), 27);
    // (2, 9), and (2, 8), which has nothing to do with the semaphore.
    run.all_undo(&[2, 2]);
    assert_eq!(run.undo(2), 27);
    run.all_undo(&[1, 1]);
    assert_eq!(chain(&run.graph(), SEMAPHORE).last(), Some(&node(2, 7)));
    run.all_undo(&[2]);
    assert_eq!(chain(&run.graph(), SEMAPHORE).last(), Some(&node(2, 5)));
}
