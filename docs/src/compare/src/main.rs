//! Compares the proved library with the independent program: `compare BRIDGE [seed] [count]` on random inputs, `compare BRIDGE
//! bench` for time and stack; BRIDGE is the command of the C client in bridge.c. It exits with 1 where two answers or lent bytes
//! differ, or where a code that can occur did not come up.

mod bench;
mod clauses;
mod corrupt;
mod damage;
mod hostile;
mod judging;
mod layout;
mod library;
mod listing;
mod lively;
mod measure;
mod program;
mod random;
mod stepping;
mod tally;

use library::Library;
use random::Random;

fn main() {
    let mut arguments = std::env::args().skip(1).peekable();
    let mut library = Library::new(&arguments.next().expect("the bridge's command"));
    if arguments.next_if(|word| word == "bench").is_some() {
        bench::print(&mut library);
        return;
    }
    let mut numbers = arguments.map(|word| word.parse().expect("a number"));
    let seed = numbers.next().unwrap_or(1);
    let count = numbers.next().unwrap_or(200_000) as usize;
    let judging = judging::compare(&mut library, &mut Random::new(seed), count);
    let stepping = stepping::compare(&mut library, seed, count);
    if !judging || !stepping {
        std::process::exit(1);
    }
}
