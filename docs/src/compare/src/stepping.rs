//! Starting and stepping compared through the boundary: the answer and every byte of the machine, on machines that runs reach,
//! on machines that only fit, on damaged ones, on wrong lengths and on refused images. listing.rs has the lists beside the steps.

use independent::{Answer, HISTORY_WORD, LIVE_WORD, ROW_WORD, WORDS};

use crate::clauses;
use crate::corrupt;
use crate::damage;
use crate::layout::{Layout, Parts};
use crate::library::{Call, Library};
use crate::lively;
use crate::program::{image, Block};
use crate::random::Random;
use crate::tally::Tally;

const MACHINE_BYTES: usize = 4 * WORDS;
const FORWARD: u32 = 0;
const UNDO: u32 = 1;
const OTHER_DIRECTIONS: [u32; 6] = [2, 3, 255, 256, 0x8000_0000, 0xFFFF_FFFF];
const WRONG_LENGTHS: [usize; 11] = [
    0,
    1,
    3,
    4,
    4 * WORDS - 4,
    4 * WORDS - 3,
    4 * WORDS - 1,
    4 * WORDS + 1,
    4 * WORDS + 3,
    4 * WORDS + 4,
    8 * WORDS,
];
/// How many steps there are to one with a list before it: a list of a machine that fits takes as long as many steps.
const SELDOM: usize = 30;
const ALWAYS: usize = 1;
/// A comparison of so many steps has one run among them that fills the history by itself.
const LONG_RUN: usize = 100_000;

/// Compares at least `count` steps. False where anything differs, or where a code or clause that can occur is missing.
pub fn compare(library: &mut Library, seed: u64, count: usize) -> bool {
    let mut comparison = Comparison {
        library,
        random: &mut Random::new(seed),
        for_lists: Random::new(!seed),
        tally: Tally::default(),
    };
    match comparison.run(count) {
        Ok(()) => comparison.tally.print(),
        Err(difference) => {
            println!("{difference}");
            false
        }
    }
}

pub struct Comparison<'a> {
    pub library: &'a mut Library,
    random: &'a mut Random,
    pub for_lists: Random,
    pub tally: Tally,
}

/// A program, its places, how often of ten a step of its session goes forward, and how many were refused in a row.
struct Session {
    image: Vec<u8>,
    layout: Layout,
    forward_of_ten: usize,
    refused: usize,
}

fn words_of(bytes: &[u8]) -> Vec<u32> {
    let (words, _) = bytes.as_chunks();
    words.iter().map(|word| u32::from_le_bytes(*word)).collect()
}

fn bytes_of(words: &[u32]) -> Vec<u8> {
    words.iter().flat_map(|word| word.to_le_bytes()).collect()
}

fn word(machine: &[u8], at: usize) -> u32 {
    words_of(&machine[4 * at..4 * at + 4])[0]
}

/// What is said where two outcomes differ.
pub fn alike(
    what: &str,
    image: &[u8],
    ours: (Answer, &[u8]),
    theirs: (Answer, &[u8]),
) -> Result<(), String> {
    if ours == theirs {
        return Ok(());
    }
    let place = ours.1.iter().zip(theirs.1).position(|(a, b)| a != b);
    let (ours, theirs) = (ours.0, theirs.0);
    Err(format!(
        "{what} differs: {ours:?}, not {theirs:?}; first other byte {place:?}; image {image:02x?}"
    ))
}

impl Comparison<'_> {
    fn run(&mut self, count: usize) -> Result<(), String> {
        self.list_a_crowd()?;
        if count >= LONG_RUN {
            self.fill_the_history()?;
        }
        while self.tally.steps < count {
            let blocks = lively::program(self.random);
            let turns = 100 + self.random.below(400);
            self.session(blocks, turns)?;
        }
        Ok(())
    }

    /// One call of stepping, both ways; the machine is then as it leaves it.
    pub fn step(
        &mut self,
        image: &[u8],
        machine: &mut [u8],
        process: u32,
        direction: u32,
    ) -> Result<Answer, String> {
        let mut other = machine.to_vec();
        self.library
            .ask(Call::Step(image, process, direction), machine);
        let theirs = independent::step_bytes(image, &mut other, process, direction);
        let ours = self.library.answer(machine);
        let what = format!("a step of {process:x}, direction {direction},");
        alike(&what, image, (ours, machine), (theirs, &other))?;
        self.tally.step(direction, ours.code);
        Ok(ours)
    }

    pub fn start(
        &mut self,
        image: &[u8],
        first: &[u8],
        machine: &mut [u8],
    ) -> Result<Answer, String> {
        let mut other = machine.to_vec();
        let ours = self.library.call(Call::Start(image, first), machine);
        let theirs = independent::start_bytes(image, first, &mut other);
        alike("a start", image, (ours, machine), (theirs, &other))?;
        self.tally.starts += 1;
        Ok(ours)
    }

    /// A real run that keeps 4,096 steps, is refused, and goes some way back.
    fn fill_the_history(&mut self) -> Result<(), String> {
        let image = image(&lively::endless());
        let mut machine = self.started(&image)?;
        for process in [0, 0, 1, 2] {
            self.step(&image, &mut machine, process, FORWARD)?;
        }
        for direction in [FORWARD, UNDO, FORWARD] {
            let steps = if direction == FORWARD { 4200 } else { 100 };
            for _ in 0..steps {
                let process = 1 + self.random.below(2) as u32;
                let answer = self.step(&image, &mut machine, process, direction)?;
                if answer.code == 26 {
                    break;
                }
            }
            self.look(&machine);
            self.list(&image, &machine, independent::ROWS)?;
        }
        Ok(())
    }

    pub fn look(&mut self, machine: &[u8]) {
        let live = word(machine, LIVE_WORD);
        let last = word(machine, ROW_WORD + 3 * (live as usize - 1));
        let tally = &mut self.tally;
        tally.most_kept = tally.most_kept.max(word(machine, HISTORY_WORD));
        tally.most_live = tally.most_live.max(live);
        tally.largest_process = tally.largest_process.max(last);
    }

    /// A machine of an accepted image, after refusals that leave it as it was.
    fn started(&mut self, image: &[u8]) -> Result<Vec<u8>, String> {
        let first = lively::first_memory(self.random);
        let mut machine = vec![self.random.byte(); MACHINE_BYTES];
        let mut other_image = image.to_vec();
        damage::damage_bytes(self.random, &mut other_image);
        self.start(&other_image, &first, &mut machine)?;
        let length = self
            .random
            .one_of(&[0, 1, 4, 1148, 1151, 1153, 1156, 34_696]);
        self.start(image, &vec![1; length], &mut machine)?;
        let length = self.random.one_of(&WRONG_LENGTHS);
        self.start(image, &first, &mut vec![2; length])?;
        self.start(image, &first, &mut machine)?;
        Ok(machine)
    }

    fn session(&mut self, blocks: Vec<Block>, turns: usize) -> Result<(), String> {
        let mut session = Session {
            image: image(&blocks),
            layout: Layout::new(blocks),
            forward_of_ten: 10,
            refused: 0,
        };
        self.tally.programs += 1;
        let mut machine = self.started(&session.image)?;
        for _ in 0..turns {
            self.turn(&mut session, &mut machine)?;
            self.other_row_count(&session.image, &machine)?;
            self.look(&machine);
        }
        Ok(())
    }

    /// Mostly one step of the session; else a call aside, on a copy of the machine.
    fn turn(&mut self, session: &mut Session, machine: &mut [u8]) -> Result<(), String> {
        match self.random.below(50) {
            0 => self.wrong_length(session, machine),
            1 => self.other_image(session, machine),
            2..=7 => self.damaged(session, machine),
            8..=13 => self.touched(session, machine),
            14 => self.unknown(session, machine),
            _ => self.walk(session, machine),
        }
    }

    /// A step of the session. Where many were refused it turns round, and now and then it does so anyway.
    fn walk(&mut self, session: &mut Session, machine: &mut [u8]) -> Result<(), String> {
        let (process, direction) = self.command(session, machine);
        let answer = self.listed_step(&session.image, machine, process, direction, SELDOM)?;
        session.refused = if answer.code == 0 {
            0
        } else {
            session.refused + 1
        };
        let live = word(machine, LIVE_WORD) as usize;
        if session.refused > 4 + 2 * live || self.random.once_in(100) {
            let is_forward = session.forward_of_ten > 5;
            let turned = if is_forward { [1, 5, 2] } else { [7, 9, 10] };
            session.forward_of_ten = self.random.one_of(&turned);
            session.refused = 0;
        }
        Ok(())
    }

    /// An unknown process, or an unknown direction.
    fn unknown(&mut self, session: &Session, machine: &mut [u8]) -> Result<(), String> {
        let (live, direction) = self.command(session, machine);
        let (process, direction) = if self.random.once_in(2) {
            (self.random.next() as u32 & 0xFF, direction)
        } else {
            (live, self.random.one_of(&OTHER_DIRECTIONS))
        };
        self.step(&session.image, machine, process, direction)
            .map(drop)
    }

    /// A live process, of the last one rather than of others, and a direction.
    fn command(&mut self, session: &Session, machine: &[u8]) -> (u32, u32) {
        let live = (word(machine, LIVE_WORD) as usize).clamp(1, independent::ROWS);
        let row = if self.random.once_in(5) {
            live - 1
        } else {
            self.random.below(live)
        };
        let is_forward = self.random.below(10) < session.forward_of_ten;
        let direction = if is_forward { FORWARD } else { UNDO };
        (word(machine, ROW_WORD + 3 * row), direction)
    }

    fn wrong_length(&mut self, session: &Session, machine: &[u8]) -> Result<(), String> {
        let (process, _) = self.command(session, machine);
        let direction = self.random.one_of(&[FORWARD, UNDO, 2]);
        let length = self.random.one_of(&WRONG_LENGTHS);
        let mut other = machine.to_vec();
        other.resize(length, 0);
        self.listed_step(&session.image, &mut other, process, direction, ALWAYS)
            .map(drop)
    }

    /// An image that is refused, or one that is accepted and is not the machine's.
    fn other_image(&mut self, session: &Session, machine: &[u8]) -> Result<(), String> {
        let (process, _) = self.command(session, machine);
        let direction = self.random.one_of(&[FORWARD, UNDO, 2]);
        let mut bytes = session.image.clone();
        damage::damage_bytes(self.random, &mut bytes);
        let length = self.random.one_of(&[0, 4, MACHINE_BYTES, MACHINE_BYTES]);
        let mut other = machine.to_vec();
        other.resize(length, 0);
        self.listed_step(&bytes, &mut other, process, direction, ALWAYS)
            .map(drop)
    }

    fn damaged(&mut self, session: &Session, machine: &[u8]) -> Result<(), String> {
        let mut words = words_of(machine);
        let way = self.random.below(corrupt::WAYS);
        corrupt::corrupt(self.random, way, &mut words, &session.layout);
        let (process, _) = self.command(session, machine);
        let direction = self.random.one_of(&[FORWARD, FORWARD, UNDO, UNDO, 2]);
        self.judged_step(session, &words, process, direction)
            .map(drop)
    }

    /// Some steps on from a changed machine.
    fn touched(&mut self, session: &Session, machine: &[u8]) -> Result<(), String> {
        let mut words = words_of(machine);
        corrupt::touch(self.random, &mut words, &session.layout);
        for _ in 0..1 + self.random.below(4) {
            let (any, _) = self.command(session, &bytes_of(&words));
            // No later step holds the last one, so that an undo of it comes to be evaluated.
            let last = Parts::of(&words)
                .history
                .last()
                .map(|entry| entry.identifier);
            let process = self.random.one_of(&[any, last.unwrap_or(any)]);
            let direction = self.random.one_of(&[FORWARD, UNDO, UNDO]);
            words = self.judged_step(session, &words, process, direction)?;
        }
        Ok(())
    }

    /// A step whose code is 17 exactly where some clause of it is broken.
    fn judged_step(
        &mut self,
        session: &Session,
        words: &[u32],
        process: u32,
        direction: u32,
    ) -> Result<Vec<u32>, String> {
        let broken = clauses::broken(words, &session.layout);
        let mut machine = bytes_of(words);
        let is_broken = broken.contains(&true);
        let rarity = if is_broken { ALWAYS } else { SELDOM };
        let answer = self.listed_step(&session.image, &mut machine, process, direction, rarity)?;
        if is_broken != (answer.code == 17) {
            let image = &session.image;
            return Err(format!(
                "{answer:?} for the clauses {broken:?}; image {image:02x?}"
            ));
        }
        self.tally.clauses(broken);
        Ok(words_of(&machine))
    }
}
