//! Undoing in small: on random runs the newest entry always goes back, all entries go back to the
//! started machine, and a step and its undo leave no trace. Then the errors that look right.

mod common;

use common::*;

const PROGRAMS: [&str; 4] = [
    // Loops in two processes that race for x0 and the heap.
    "begin 0              | x5 += 3        | -> 1
     1 <-                 | call 10 20     | -> 2
     2 <-                 | skip           | end 0
     begin 10             | skip           | -> 3
     3;4 <- x1 == 0       | M[x2] += x0    | -> 5
     5 <-                 | x1 += 1        | x1 < x5 -> 4;6
     6 <-                 | x0 -= M[x2]    | end 10
     begin 20             | x3 ^= x0       | -> 7
     7 <-                 | x0 += 5        | -> 8
     8 <-                 | M[x4] <-> x3   | end 20",
    // A loop that forks again and again, in two levels.
    "begin 0              | skip           | -> 1
     1;2 <- x0 == 1       | x0 += 1        | -> 3
     3 <-                 | call 10 20 20  | -> 4
     4 <-                 | skip           | x0 < 4 -> 2;5
     5 <-                 | skip           | end 0
     begin 10             | x1 += x2       | -> 6
     6 <-                 | call 20        | -> 7
     7 <-                 | x1 -= 1        | end 10
     begin 20             | x2 += x0       | -> 8
     8 <-                 | M[x3] += x0    | end 20",
    // A semaphore around exchanges.
    "begin 0              | x7 <-> x8      | -> 1
     1 <-                 | call 10 20 10  | -> 2
     2 <-                 | assert x4 == 0 | end 0
     begin 10             | V x9           | -> 3
     3 <-                 | x5 <-> x6      | -> 4
     4 <-                 | P x9           | end 10
     begin 20             | V x9           | -> 5
     5 <-                 | x5 <-> M[x6]   | -> 6
     6 <-                 | P x9           | end 20",
    // Conditions that read what others write; no forward step need be possible to the end.
    "begin 0              | skip           | -> 1
     1 <-                 | call 10 20 30  | -> 2
     2 <-                 | skip           | end 0
     begin 10             | skip           | x0 < 2 -> 3;4
     3;4 <- x0 < 2        | x1 += 1        | end 10
     begin 20             | x0 += 1        | -> 5
     5 <-                 | x0 += 1        | -> 6
     6 <-                 | x0 -= 2        | end 20
     begin 30             | M[x0] += x0    | -> 7
     7 <-                 | assert x1 >= 0 | end 30",
];

const FIRST: [(usize, i32); 5] = [(0, 1), (2, 2), (4, 0), (6, 9), (8, -7)];

/// Some random steps, forward twice as often as back; refusals are part of it.
fn wander(run: &mut Run, random: &mut Random, steps: usize) {
    for _ in 0..steps {
        let rows = run.rows();
        let process = rows[random.below(rows.len())].0;
        let direction = u32::from(random.below(3) == 0);
        run.step(process, direction);
    }
}

#[test]
fn the_newest_entry_always_goes_back_and_all_of_them_to_the_start() {
    let mut random = Random(0x9e37_79b9_7f4a_7c15);
    for program in PROGRAMS {
        let mut longest = 0;
        for _ in 0..8 {
            let mut run = Run::assembled(program, &FIRST);
            let started = run.machine.clone();
            wander(&mut run, &mut random, 120);
            longest = longest.max(run.history().len());
            while let Some(&(process, _)) = run.history().last() {
                assert_eq!(run.undo(process), 0);
            }
            assert!(run.machine == started, "{program}");
        }
        assert!(longest > 8, "the runs of {program} come to nothing");
    }
}

#[test]
fn undoing_in_any_order_that_is_allowed_comes_to_the_start() {
    let mut random = Random(0x1234_5678_9abc_def1);
    for program in PROGRAMS {
        for _ in 0..8 {
            let mut run = Run::assembled(program, &FIRST);
            let started = run.machine.clone();
            wander(&mut run, &mut random, 100);
            for _ in 0..100_000 {
                let rows = run.rows();
                if run.history().is_empty() {
                    break;
                }
                run.undo(rows[random.below(rows.len())].0);
            }
            assert!(run.machine == started, "{program}");
        }
    }
}

#[test]
fn a_step_and_its_undo_leave_every_word() {
    let mut random = Random(0xfeed_f00d_dead_beef);
    for program in PROGRAMS {
        let mut run = Run::assembled(program, &FIRST);
        for _ in 0..60 {
            wander(&mut run, &mut random, 1);
            for (process, _, _) in run.rows() {
                let before = run.machine.clone();
                if run.forward(process) == 0 {
                    assert_eq!(run.undo(process), 0);
                    assert!(run.machine == before);
                }
                if run.undo(process) == 0 {
                    assert_eq!(run.forward(process), 0);
                    // The order of history may differ, the cause graph not.
                    let words = independent::ENTRY_WORD;
                    assert_eq!(run.machine[..words], before[..words]);
                    let other = independent::cause_graph(&run.image, &before).unwrap();
                    assert_eq!(run.graph(), other);
                    run.machine = before;
                }
            }
        }
    }
}

#[test]
fn looking_only_at_edges_that_leave_is_wrong() {
    // Process 2 read x0 before process 1 wrote it: no edge leaves (2, 0), yet it is held.
    let mut run = Run::new(worked_image(), &[]);
    run.all_forward(&[0, 0, 2, 1]);
    let leaves = |edge: &independent::Edge| edge.from == Some(node(2, 0));
    assert!(!run.graph().edges.iter().any(leaves));
    assert_eq!(run.undo(2), 27);
    run.all_undo(&[1, 2]);
}

#[test]
fn evaluating_the_exit_after_the_inverse_is_wrong() {
    let text = "begin 0 | x0 += 1 | x0 == 1 -> 1;2
                1;2 <- x0 == 1 | skip | end 0";
    let mut run = Run::assembled(text, &[]);
    run.all_forward(&[0]);
    assert_eq!(run.rows(), [(0, 1, RUN)]);
    // On the earlier memory x0 is 0, which would lead to label 2: 22.
    assert_eq!(run.clone().undo(0), 0);
    // Here the earlier memory would be 1 and lead to label 1, but the present is 2.
    run.set_variable(0, 2);
    assert_eq!(run.undo(0), 22);
}

#[test]
fn numbering_a_childs_nodes_anew_is_wrong() {
    let text = "begin 0 | skip | -> 1
                1 <- | call 5 6 | -> 2
                2 <- | call 5 6 | -> 3
                3 <- | skip | end 0
                begin 5 | x0 += 1 | end 5
                begin 6 | x1 += x0 | end 6";
    let mut run = Run::assembled(text, &[]);
    run.all_forward(&[0, 0, 1, 2, 0, 0, 1]);
    let graph = run.graph();
    let own: Vec<_> = graph
        .nodes
        .iter()
        .filter(|node| node.process == 1)
        .collect();
    assert_eq!(own, [&node(1, 0), &node(1, 1)]);
    // An edge leaves (1, 0) of the first fork, none (1, 1): numbered anew it would seem held.
    assert!(graph
        .edges
        .iter()
        .any(|edge| edge.from == Some(node(1, 0)) && edge.to == node(2, 0)));
    assert_eq!(run.undo(1), 0);
    assert_eq!(run.undo(1), 21);
}

#[test]
fn unsigned_comparison_is_wrong() {
    for (comparison, expected) in [("-1 < 0", 1), ("-1 > 0", 0), ("0 <= -1", 0), ("0 >= -1", 1)] {
        let mut run = Run::assembled(&format!("begin 0 | x0 += {comparison} | end 0"), &[]);
        run.all_forward(&[0]);
        assert_eq!(run.variable(0), expected, "{comparison}");
    }
}
