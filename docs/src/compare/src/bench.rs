//! How long judging, starting, stepping and listing take, ours beside the independent program's in the same run, and the stack of
//! a call.

use independent::{ENTRIES, ROWS, WORDS};

use crate::hostile;
use crate::layout::{Entry, Parts};
use crate::library::{Call, Library};
use crate::lively;
use crate::measure::{measure, Measured};
use crate::program::image;

const FORWARD: u32 = 0;
const UNDO: u32 = 1;
const LATER: [usize; 4] = [10, 100, 1000, 4000];

pub fn print(library: &mut Library) {
    heading("image");
    for (name, image) in hostile::images() {
        line(library, name, Call::Judge(&image), &[]);
    }
    println!();
    heading("call");
    starting(library);
    let cases = [worked_cases(), history_cases(), crowded_cases()];
    for case in cases.iter().flatten() {
        case.print(library);
    }
    for case in listed_cases() {
        case.print_list(library);
    }
}

fn heading(first: &str) {
    println!("| {first} | code | ours, µs | independent, µs | ratio | stack, bytes |");
    println!("|---|---|---|---|---|---|");
}

fn line(library: &mut Library, name: &str, call: Call, lent: &[u8]) {
    let code = library.call(call, &mut lent.to_vec()).code;
    let Measured {
        ours,
        theirs,
        stack,
    } = measure(library, call, lent);
    let ratio = ours / theirs;
    println!("| {name} | {code} | {ours:.1} | {theirs:.1} | {ratio:.1} | {stack} |");
}

fn starting(library: &mut Library) {
    let image = hostile::worked();
    let first = [0; 4 * independent::FIRST_WORDS];
    let call = Call::Start(&image, &first);
    line(library, "start, the 40-byte image", call, &[0; 4 * WORDS]);
}

/// One call of stepping or listing, measured on the same machine each time.
#[derive(Clone)]
struct Case {
    name: String,
    image: Vec<u8>,
    machine: Vec<u32>,
    process: u32,
    direction: u32,
}

impl Case {
    /// A machine started on zeros.
    fn new(image: Vec<u8>) -> Case {
        let mut machine = vec![0; WORDS];
        independent::start(&image, &[0; independent::FIRST_WORDS], &mut machine);
        Case {
            name: String::new(),
            image,
            machine,
            process: 0,
            direction: FORWARD,
        }
    }

    /// Forward steps that lead up to the call.
    fn after(mut self, processes: &[u32]) -> Case {
        for &process in processes {
            let code = independent::step(&self.image, &mut self.machine, process, FORWARD).code;
            assert_eq!(code, 0, "a step before the measured one");
        }
        self
    }

    /// Older entries of a process that is not live, until so many are kept.
    fn padded(mut self, kept: usize) -> Case {
        let mut parts = Parts::of(&self.machine);
        let older = Entry {
            identifier: 0x88,
            block: 0,
        };
        let count = kept - parts.history.len();
        parts.history.splice(0..0, vec![older; count]);
        parts.write(&mut self.machine);
        self
    }

    fn named(mut self, name: impl Into<String>) -> Case {
        self.name = name.into();
        self
    }

    fn call(mut self, name: impl Into<String>, process: u32, direction: u32) -> Case {
        (self.process, self.direction) = (process, direction);
        self.named(name)
    }

    fn bytes(&self) -> Vec<u8> {
        self.machine.iter().flat_map(|w| w.to_le_bytes()).collect()
    }

    fn print(&self, library: &mut Library) {
        let call = Call::Step(&self.image, self.process, self.direction);
        line(library, &self.name, call, &self.bytes());
    }

    fn print_list(&self, library: &mut Library) {
        let machine = self.bytes();
        let call = Call::List(&self.image, &machine);
        line(library, &self.name, call, &[0; 12 * ROWS]);
    }
}

fn worked_cases() -> Vec<Case> {
    let started = Case::new(hostile::worked());
    let stepped = started.clone().after(&[0]);
    let forked = stepped.clone().after(&[0]);
    let ended = forked.clone().after(&[2, 1]);
    let merged = ended.clone().after(&[0]);
    vec![
        started.call("a step, the 40-byte image", 0, FORWARD),
        stepped.clone().call("its undo", 0, UNDO),
        stepped.call("a fork, the 40-byte image", 0, FORWARD),
        forked.call("its undo", 0, UNDO),
        ended.clone().call("an undo that is held", 2, UNDO),
        ended.call("a merge, the 40-byte image", 0, FORWARD),
        merged.call("its undo", 0, UNDO),
    ]
}

/// Two loops that share nothing: process 1 made one step, process 2 so many after it.
fn history_cases() -> Vec<Case> {
    let forked = Case::new(image(&lively::endless())).after(&[0, 0, 1, 1]);
    let mut cases = Vec::new();
    for later in LATER {
        let name = format!("an undo after {later} later kept steps");
        let kept = forked.clone().after(&vec![2; later]);
        cases.push(kept.call(name, 1, UNDO));
    }
    let full = forked.after(&[2; 3996]);
    cases.push(full.clone().call("an undo of the newest of 4,000", 2, UNDO));
    cases.push(full.call("a step with 4,000 kept steps", 2, FORWARD));
    cases
}

/// As many live processes as there can be, each with a step of its own.
fn crowded() -> Case {
    let mut case = Case::new(hostile::crowded()).after(&[0, 0]);
    for process in 1..=7 {
        case = case.after(&[process, process]);
        let children: Vec<u32> = (1..=8).map(|child| 16 * process + child).collect();
        case = case.after(&children);
    }
    case
}

/// The same, and with older entries before the steps.
fn crowded_cases() -> Vec<Case> {
    let case = crowded();
    let full = case.clone().padded(ENTRIES - 1);
    vec![
        case.call("a merge among 64 live processes", 1, FORWARD),
        full.clone()
            .call("the same with 4,095 kept steps", 1, FORWARD),
        full.call("an undo there", 0x78, UNDO),
    ]
}

fn listed_cases() -> Vec<Case> {
    let forked = Case::new(hostile::worked()).after(&[0, 0]);
    let full = crowded().padded(ENTRIES - 1);
    vec![
        Case::new(hostile::worked()).named("a list, the 40-byte image"),
        forked.named("the same after its fork"),
        crowded().named("a list of 64 live processes"),
        full.named("the same with 4,095 kept steps"),
    ]
}
