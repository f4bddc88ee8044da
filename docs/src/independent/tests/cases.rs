//! The cases that the proved program `cases_all` plays, in readable form: the stored script must be this one, and the stored output
//! what the independent program prints for it. With WRITE_CASES set, both are written anew.

mod common;

use common::programs::*;
use common::*;
use independent::*;
use std::fs;
use std::io::Write;
use std::process::{Command, Stdio};

const ROOT: u32 = 0;

/// Records of a script, as the program `play` describes them.
#[derive(Default)]
struct Script(Vec<u8>);

impl Script {
    fn record(mut self, kind: u8, first: u32, second: u32, bytes: &[u8]) -> Script {
        self.0.push(kind);
        self.0.extend(first.to_le_bytes());
        self.0.extend(second.to_le_bytes());
        self.0.extend(bytes);
        self
    }

    fn title(self, text: &str) -> Script {
        self.record(9, text.len() as u32, 0, text.as_bytes())
    }

    fn image(self, bytes: &[u8]) -> Script {
        self.record(3, bytes.len() as u32, 0, bytes)
    }

    /// A started machine, its first memory zero but for these words, and zero again afterwards.
    fn started(mut self, image: &[u8], first: &[(usize, i32)]) -> Script {
        self = self.image(image);
        for &(index, value) in first {
            self = self.record(4, index as u32, value as u32, &[]);
        }
        self = self.record(5, 0, 0, &[]);
        for &(index, _) in first {
            self = self.record(4, index as u32, 0, &[]);
        }
        self
    }

    fn assembled(self, text: &str, first: &[(usize, i32)]) -> Script {
        self.started(&assemble(text), first)
    }

    fn forward(mut self, processes: &[u32]) -> Script {
        for &process in processes {
            self = self.record(1, process, 1, &[]);
        }
        self
    }

    fn undo(mut self, processes: &[u32]) -> Script {
        for &process in processes {
            self = self.record(2, process, 1, &[]);
        }
        self
    }

    fn forward_times(self, process: u32, times: u32) -> Script {
        self.record(1, process, times, &[])
    }

    fn set_variable(self, variable: usize, value: i32) -> Script {
        self.record(6, (VARIABLE_WORD + variable) as u32, value as u32, &[])
    }

    fn words(self, index: usize, count: usize) -> Script {
        self.record(7, index as u32, count as u32, &[])
    }

    fn variables(self, count: usize) -> Script {
        self.words(VARIABLE_WORD, count)
    }

    fn rows(self, count: usize) -> Script {
        self.words(ROW_WORD, 3 * count)
    }

    fn graph(self) -> Script {
        self.record(8, 0, 0, &[])
    }
}

/// What `play` prints.
fn played(script: &[u8]) -> Vec<u8> {
    let mut command = Command::new(env!("CARGO_BIN_EXE_play"));
    command.stdin(Stdio::piped()).stdout(Stdio::piped());
    let mut child = command.spawn().unwrap();
    child.stdin.take().unwrap().write_all(script).unwrap();
    child.wait_with_output().unwrap().stdout
}

fn cells(script: Script) -> Script {
    let image = assemble("begin 0 | M[x0] += 7 | end 0");
    let last = CELL_WORD + 255;
    let mut script = script.title("cell 255 passes, forward and back");
    script = script.started(&image, &[(0, 255), (32 + 255, 3)]);
    script = script
        .forward(&[0])
        .words(last, 1)
        .undo(&[0])
        .words(last, 1);
    for address in [256, -1] {
        let title = format!("cell {address} is 25");
        script = script.title(&title).started(&image, &[(0, address)]);
        script = script.forward(&[0]).words(0, 2);
    }
    script
}

/// Forks from the last child to the first, so that each makes room before other rows, and back from the first to the last.
fn peaks(script: Script) -> Script {
    let mut script = script
        .title("no begin 0: 13")
        .image(&[0x22, 1, 0x47, 0x32, 1]);
    script = script.title("8 labels, each calling 7: peak 65 is 15");
    script = script.image(&two_levels(8, 7));
    script = script.title("7 labels, each calling 8: peak 64, all live at once, and back");
    script = script.started(&two_levels(7, 8), &[]).forward(&[0, 0]);
    for child in (1..=7).rev() {
        script = script.forward(&[child, child]);
    }
    script = script.rows(64).forward(&[0x78, 0x11]).undo(&[0x11, 0x78]);
    for child in 1..=7 {
        script = script.undo(&[child, child]);
    }
    script.undo(&[0, 0]).words(0, 2).rows(64)
}

fn exchanges(script: Script) -> Script {
    let image = assemble("begin 0 | M[x0] <-> M[x1] | end 0");
    let nine = CELL_WORD + 9;
    let cells = [(32 + 9, 41), (32 + 10, 42)];
    let equal = [&[(0, 9), (1, 9)], &cells[..]].concat();
    let other = [&[(0, 9), (1, 10)], &cells[..]].concat();
    let mut script =
        script.title("an exchange of one cell with itself changes nothing but the history");
    script = script.started(&image, &equal);
    script = script.forward(&[0]).words(nine, 2).words(0, 2);
    script = script.undo(&[0]).words(nine, 2).words(0, 2);
    script = script
        .title("an exchange of two cells")
        .started(&image, &other);
    script
        .forward(&[0])
        .words(nine, 2)
        .undo(&[0])
        .words(nine, 2)
}

fn full_history(script: Script) -> Script {
    let text = "begin 0 | skip | -> 1
                1;2 <- x0 == 0 | x0 += 1 | x0 == 100000 -> 3;2
                3 <- | skip | end 0";
    let script = script.title("entry 4,096 is kept and the next forward step is 26");
    let script = script.assembled(text, &[]).forward_times(0, 4095);
    let script = script.forward(&[0]).words(WORDS - 2, 2).variables(1);
    let script = script.forward(&[0]).variables(1);
    script.undo(&[0]).variables(1).forward(&[0, 0]).variables(1)
}

/// Document 01's edges without a star.
fn edges(script: Script) -> Script {
    full_history(exchanges(peaks(cells(script))))
}

fn first_example(script: Script) -> Script {
    let mut script = script.title("004, figure 3: (F1) to (F6), values and graphs");
    script = script.started(&figure_3(), &[]).forward(&[0, 0]).graph();
    for process in [1, 2, 3, 1] {
        script = script.forward(&[process]).variables(3).graph();
    }
    script = script.forward(&[0, 0]).variables(3).graph().rows(2);
    script = script.title("(B1) to (B7), the undos that the graph holds among them");
    script = script.undo(&[0, 0]).variables(3).graph();
    script = script.undo(&[2, 3, 0]).undo(&[1]).variables(3).graph();
    script = script.undo(&[1, 2]).variables(3).graph();
    script = script.undo(&[3]).variables(3).graph();
    script = script.undo(&[1]).variables(3).graph();
    script = script.undo(&[0, 0]).words(0, 5).rows(1);
    script = script.title("the other order, b3 b2 b5 b6 b7 b4 b2 b1");
    script = script.forward(&[0, 0, 1, 2, 3, 1, 0, 0]);
    script.undo(&[0, 0, 1, 2, 3, 1, 0, 0]).words(0, 5).rows(1)
}

/// The processes of table 3's 22 steps.
const TABLE_3: [u32; 22] = [
    0, 0, 1, 2, 1, 1, 1, 2, 2, 2, 2, 1, 2, 1, 2, 2, 2, 1, 1, 1, 0, 0,
];

fn faulty_airline(script: Script) -> Script {
    let mut script =
        script.title("004, table 3: the airline that sells too much, values after each step");
    script = script.started(&figure_6(), &[]);
    for process in TABLE_3 {
        script = script.forward(&[process]).variables(3);
    }
    script = script.title("its graph").graph();
    script = script.title("and back, step by step");
    for &process in TABLE_3.iter().rev() {
        script = script.undo(&[process]).variables(3);
    }
    script.words(0, 5).rows(1)
}

fn locked_airline(script: Script) -> Script {
    let mut script =
        script.title("004, figures 8 and 9: with the semaphore, sub1 sells once and sub2 twice");
    script = script.started(&figure_8(), &[]).forward(&[0, 0]);
    script = script
        .forward(&[1, 2, 1])
        .variables(4)
        .forward(&[2, 1, 2, 1, 1]);
    script = script
        .forward(&[2; 4])
        .variables(4)
        .forward(&[2; 4])
        .variables(4);
    script = script.forward(&[1, 1, 2, 2]).variables(4).rows(3);
    script = script.forward(&[0, 0]).graph();
    script = script.title("back: each agent waits for the other's semaphore");
    script = script.undo(&[0, 0, 1, 2, 1, 2, 2, 2, 1, 1, 2]);
    script.variables(4).graph()
}

/// The example runs of source document 004.
fn paper(script: Script) -> Script {
    locked_airline(faulty_airline(first_example(script)))
}

fn read_edges(script: Script) -> Script {
    let mut script =
        script.title("no edge leaves process 2's step, but what it read was written since");
    script = script.started(&worked_image(), &[]);
    script = script.forward(&[0, 0, 2, 1]).graph().undo(&[2]);
    script.undo(&[1, 2, 0]).words(0, 4)
}

fn exit_before_inverse(script: Script) -> Script {
    let text = "begin 0 | x0 += 1 | x0 == 1 -> 1;2
                1;2 <- x0 == 1 | skip | end 0";
    let mut script = script.title("an undo's exit is evaluated on the present memory");
    script = script.assembled(text, &[]).forward(&[0]).rows(1);
    script = script.undo(&[0]).variables(1).rows(1);
    script = script.title("another present memory leads to another label: 22");
    script
        .forward(&[0])
        .set_variable(0, 2)
        .undo(&[0])
        .variables(1)
}

fn nodes_through_forks(script: Script) -> Script {
    let text = "begin 0 | skip | -> 1
                1 <- | call 5 6 | -> 2
                2 <- | call 5 6 | -> 3
                3 <- | skip | end 0
                begin 5 | x0 += 1 | end 5
                begin 6 | x1 += x0 | end 6";
    let mut script = script.title("a child's nodes are counted on through a second fork");
    script = script.assembled(text, &[]);
    script = script.forward(&[0, 0, 1, 2, 0, 0, 1]).graph();
    script.undo(&[1, 1]).graph()
}

fn signed_comparisons(script: Script) -> Script {
    let mut script = script.title("comparisons are signed");
    for comparison in [
        "-1 < 0", "-1 <= 0", "-1 > 0", "-1 >= 0", "0 <= -1", "0 >= -1",
    ] {
        let text = format!("begin 0 | x0 += {comparison} | end 0");
        script = script.title(comparison).assembled(&text, &[]);
        script = script.forward(&[ROOT]).variables(1);
    }
    script
}

fn errors_that_look_right(script: Script) -> Script {
    signed_comparisons(nodes_through_forks(exit_before_inverse(read_edges(script))))
}

/// The program's standard input is the script, its standard output what `play` prints.
#[test]
fn the_stored_script_and_output_are_these() {
    let script = errors_that_look_right(paper(edges(Script::default())));
    let printed = played(&script.0);
    let folder = format!("{}/../../../crates/cases_all", env!("CARGO_MANIFEST_DIR"));
    for (file, bytes) in [("stdin", &script.0), ("stdout", &printed)] {
        let path = format!("{folder}/{file}");
        if std::env::var_os("WRITE_CASES").is_some() {
            fs::write(&path, bytes).unwrap();
        }
        let stored = fs::read(&path).unwrap();
        assert!(stored == *bytes, "another {file} is stored");
    }
}
