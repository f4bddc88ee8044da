//! How long a call takes, ours at the other end of the bridge and the independent program's here, and how much stack ours uses.

use std::hint::black_box;
use std::time::{Duration, Instant};

use independent::{judge, list_bytes, start_bytes, step_bytes, Row, ROWS};

use crate::library::{Call, Library};

const ROUNDS: usize = 7;
const ROUND: Duration = Duration::from_millis(20);

/// The quickest call of some rounds, ours and theirs in turn, in microseconds; and the bytes of stack.
pub struct Measured {
    pub ours: f64,
    pub theirs: f64,
    pub stack: u32,
}

pub fn measure(library: &mut Library, call: Call, lent: &[u8]) -> Measured {
    let mut measured = Measured {
        ours: f64::MAX,
        theirs: f64::MAX,
        stack: library.stack(call, lent),
    };
    for _ in 0..ROUNDS {
        measured.ours = measured.ours.min(library.time(call, lent));
        measured.theirs = measured.theirs.min(round(call, lent));
    }
    measured
}

/// The quickest call of a round, as the bridge takes it: making ready for a call is not measured.
fn round(call: Call, ready: &[u8]) -> f64 {
    let mut best = Duration::MAX;
    let mut spent = Duration::ZERO;
    let mut lent = ready.to_vec();
    while spent < ROUND {
        lent.copy_from_slice(ready);
        let start = Instant::now();
        make(black_box(call), black_box(&mut lent));
        let took = start.elapsed();
        spent += took;
        best = best.min(took);
    }
    best.as_secs_f64() * 1e6
}

fn make(call: Call, lent: &mut [u8]) {
    match call {
        Call::Judge(image) => {
            black_box(judge(image));
        }
        Call::Start(image, first) => {
            black_box(start_bytes(image, first, lent));
        }
        Call::Step(image, process, direction) => {
            black_box(step_bytes(image, lent, process, direction));
        }
        Call::List(image, machine) => {
            black_box(list_bytes(image, machine, &mut [Row::default(); ROWS]));
        }
    }
}
