//! The paper's first example: figure 3's program (rebuilt), its forward run (F1) to (F6) and its
//! undo (B1) to (B7), with the values and cause graphs that section 3.2 gives.

mod common;

use common::*;
use independent::{Edge, Graph, Node};
use std::collections::BTreeSet;

const X: u32 = 0;
const Y: u32 = 1;
const Z: u32 = 2;
const ROOT: u32 = 0;

/// Started on zeros; blocks 0 to 6 are the paper's b1 to b7.
fn figure_3() -> Run {
    Run::new(programs::figure_3(), &[])
}

fn write_edge(from: Option<Node>, resource: u32, to: Node) -> Edge {
    Edge {
        from,
        resource,
        to,
        is_write: true,
    }
}

fn read_edge(from: Option<Node>, resource: u32, to: Node) -> Edge {
    Edge {
        is_write: false,
        ..write_edge(from, resource, to)
    }
}

fn graph(nodes: &[(u32, u32)], edges: &[Edge]) -> Graph {
    Graph {
        nodes: nodes
            .iter()
            .map(|&(process, number)| node(process, number))
            .collect(),
        edges: edges.iter().copied().collect(),
    }
}

/// A2 to A6 and A8, and (B4)'s A4' at the end.
fn graphs() -> [Graph; 7] {
    let x_first = write_edge(None, X, node(1, 0));
    let y = [
        write_edge(None, Y, node(2, 0)),
        read_edge(Some(node(1, 0)), X, node(2, 0)),
    ];
    let z = [
        write_edge(None, Z, node(3, 0)),
        read_edge(Some(node(1, 0)), X, node(3, 0)),
    ];
    let x_second = write_edge(Some(node(1, 0)), X, node(1, 1));
    let root = [(ROOT, 0), (ROOT, 1)];
    let with = |more: &[(u32, u32)]| [&root[..], more].concat();
    let up_to_z = [x_first, y[0], y[1], z[0], z[1]];
    let up_to_end = [&up_to_z[..], &[x_second]].concat();
    let six = with(&[(1, 0), (2, 0), (3, 0), (1, 1)]);
    [
        graph(&root, &[]),
        graph(&with(&[(1, 0)]), &[x_first]),
        graph(&with(&[(1, 0), (2, 0)]), &up_to_z[..3]),
        graph(&with(&[(1, 0), (2, 0), (3, 0)]), &up_to_z),
        graph(&six, &up_to_end),
        graph(&[&six[..], &[(ROOT, 2), (ROOT, 3)]].concat(), &up_to_end),
        graph(&with(&[(1, 0), (3, 0)]), &[x_first, z[0], z[1]]),
    ]
}

fn removable(graph: &Graph) -> BTreeSet<Node> {
    let nodes = graph.nodes.iter().copied();
    nodes.filter(|&node| graph.is_removable(node)).collect()
}

/// The removable nodes of the subprocesses. In (B2) and (B3) the paper leaves out the root's own
/// newest node, which the graph lets go but whose children are not at begin.
fn removable_below(graph: &Graph) -> BTreeSet<Node> {
    let nodes = removable(graph).into_iter();
    nodes.filter(|node| node.process != ROOT).collect()
}

#[test]
fn the_forward_run_f1_to_f6() {
    let [a2, a3, a4, a5, a6, a8, _] = graphs();
    let mut run = figure_3();
    run.all_forward(&[ROOT, ROOT]);
    assert_eq!(run.graph(), a2);
    let steps = [
        (1, [1, 0, 0], a3),
        (2, [1, 1, 0], a4),
        (3, [1, 1, 1], a5),
        (1, [2, 1, 1], a6),
    ];
    for (process, values, graph) in steps {
        run.all_forward(&[process]);
        assert_eq!(run.variables(), values);
        assert_eq!(run.graph(), graph);
    }
    run.all_forward(&[ROOT, ROOT]);
    assert_eq!(run.graph(), a8);
    assert_eq!(run.variables(), [2, 1, 1]);
    assert_eq!(run.rows(), [(ROOT, 0, END)]);
    let blocks: Vec<u32> = run.history().iter().map(|entry| entry.1 + 1).collect();
    assert_eq!(blocks, [1, 2, 4, 6, 7, 5, 2, 3]);
}

#[test]
fn the_undo_b1_to_b7() {
    let [a2, a3, _, a5, a6, a8, a4_other] = graphs();
    let mut run = figure_3();
    let started = run.machine.clone();
    run.all_forward(&[ROOT, ROOT, 1, 2, 3, 1, ROOT, ROOT]);
    // (B1)
    assert_eq!(removable(&a8), BTreeSet::from([node(ROOT, 3), node(1, 1)]));
    run.all_undo(&[ROOT, ROOT]);
    assert_eq!(run.graph(), a6);
    assert_eq!(run.variables(), [2, 1, 1]);
    let ends = [(ROOT, 2, RUN), (1, 10, END), (2, 11, END), (3, 12, END)];
    assert_eq!(run.rows(), ends);
    // (B2)
    assert_eq!(removable_below(&a6), BTreeSet::from([node(1, 1)]));
    assert_eq!((run.undo(2), run.undo(3), run.undo(ROOT)), (27, 27, 20));
    run.all_undo(&[1]);
    // (B3)
    assert_eq!(run.graph(), a5);
    assert_eq!(
        removable_below(&a5),
        BTreeSet::from([node(2, 0), node(3, 0)])
    );
    assert_eq!(run.undo(1), 27);
    // (B4)
    run.all_undo(&[2]);
    assert_eq!(run.graph(), a4_other);
    assert_eq!(run.variables(), [1, 0, 1]);
    // (B5)
    run.all_undo(&[3]);
    assert_eq!(run.graph(), a3);
    assert_eq!(run.variables(), [1, 0, 0]);
    // (B6)
    run.all_undo(&[1]);
    assert_eq!(run.graph(), a2);
    assert_eq!(run.variables(), [0, 0, 0]);
    // (B7)
    run.all_undo(&[ROOT, ROOT]);
    assert!(run.machine == started);
}

#[test]
fn the_other_legitimate_order_b3_b2_b5_b6_b7_b4_b2_b1_goes_back_as_well() {
    let mut run = figure_3();
    let started = run.machine.clone();
    run.all_forward(&[ROOT, ROOT, 1, 2, 3, 1, ROOT, ROOT]);
    run.all_undo(&[ROOT, ROOT, 1, 2, 3, 1, ROOT, ROOT]);
    assert!(run.machine == started);
}

#[test]
fn the_order_of_table_1_b_is_refused() {
    // Without the graph b6 and b7 would go back on x = 2 and leave y and z at -1.
    let mut run = figure_3();
    run.all_forward(&[ROOT, ROOT, 1, 2, 3, 1, ROOT, ROOT]);
    run.all_undo(&[ROOT, ROOT]);
    assert_eq!(run.undo(3), 27);
    assert_eq!(run.variables(), [2, 1, 1]);
}

#[test]
fn graphs_are_equal_whatever_the_order_of_history() {
    let mut one = figure_3();
    one.all_forward(&[ROOT, ROOT, 1, 2, 3]);
    let mut other = figure_3();
    other.all_forward(&[ROOT, ROOT, 1, 3, 2]);
    assert_ne!(one.history(), other.history());
    assert_eq!(one.graph(), other.graph());
    // Another cause is another graph: here process 2 reads the first x.
    let mut third = figure_3();
    third.all_forward(&[ROOT, ROOT, 2, 1, 3]);
    assert_ne!(one.graph(), third.graph());
}
