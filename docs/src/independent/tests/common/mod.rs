//! Shared by the tests: a tiny assembler for readable programs, a run that checks each step
//! against the list and the byte variants, and a small source of random numbers.
#![allow(dead_code)] // Each test file uses a part of it.

pub mod programs;

use independent::*;

/// The stages of a process.
pub const BEGIN: u32 = 0;
pub const RUN: u32 = 1;
pub const END: u32 = 2;

/// One block a line, `entry | body | exit`; variables are `x0` to `x31`, cells `M[x0]`, labels
/// numbers, and a call is `call 5 6`.
pub fn assemble(text: &str) -> Vec<u8> {
    let lines = text.lines().map(str::trim).filter(|line| !line.is_empty());
    lines.flat_map(block).collect()
}

/// Assembles with names for the variables, the first for x0. No name may be part of another word.
pub fn assemble_named(names: &[&str], text: &str) -> Vec<u8> {
    let mut text = text.to_string();
    for (number, name) in names.iter().enumerate() {
        text = text.replace(name, &format!("x{number}"));
    }
    assemble(&text)
}

fn block(line: &str) -> Vec<u8> {
    let parts: Vec<&str> = line.split(" | ").map(str::trim).collect();
    let [entry_text, body_text, exit_text] = parts[..] else {
        panic!("not an entry, a body and an exit: {line}");
    };
    [entry(entry_text), body(body_text), exit(exit_text)].concat()
}

fn entry(text: &str) -> Vec<u8> {
    if let Some(label) = text.strip_prefix("begin ") {
        return vec![0x22, number(label)];
    }
    let (labels, condition) = text.split_once("<-").expect("an entry");
    match labels.split_once(';') {
        None => vec![0x20, number(labels)],
        Some((first, second)) => [
            vec![0x21, number(first), number(second)],
            expression(condition),
        ]
        .concat(),
    }
}

fn exit(text: &str) -> Vec<u8> {
    if let Some(label) = text.strip_prefix("end ") {
        return vec![0x32, number(label)];
    }
    let (condition, labels) = text.split_once("->").expect("an exit");
    match labels.split_once(';') {
        None => vec![0x30, number(labels)],
        Some((first, second)) => [
            vec![0x31, number(first), number(second)],
            expression(condition),
        ]
        .concat(),
    }
}

fn body(text: &str) -> Vec<u8> {
    let (first, rest) = text.split_once(' ').unwrap_or((text, ""));
    match first {
        "skip" => return vec![0x47],
        "assert" => return [vec![0x46], expression(rest)].concat(),
        "V" => return vec![0x44, variable(rest)],
        "P" => return vec![0x45, variable(rest)],
        "call" => {
            let labels: Vec<u8> = rest.split_whitespace().map(number).collect();
            return [vec![0x50 + labels.len() as u8], labels].concat();
        }
        _ => {}
    }
    let (sign, rest) = rest.split_once(' ').expect("a left operand and a sign");
    let (kind, right) = match sign {
        "+=" => (0x40, expression(rest)),
        "-=" => (0x41, expression(rest)),
        "^=" => (0x42, expression(rest)),
        "<->" => (0x43, operand(rest)),
        _ => panic!("not an instruction: {text}"),
    };
    [vec![kind], operand(first), right].concat()
}

fn expression(text: &str) -> Vec<u8> {
    let operators = ["+", "-", "^", "==", "!=", "<", "<=", ">", ">=", "&&", "||"];
    match text.split_whitespace().collect::<Vec<&str>>()[..] {
        [only] => [vec![0x10], operand(only)].concat(),
        ["!", only] => [vec![0x11], operand(only)].concat(),
        [first, operator, second] => {
            let place = operators.iter().position(|known| *known == operator);
            let kind = 0x12 + place.expect("an operator") as u8;
            [vec![kind], operand(first), operand(second)].concat()
        }
        _ => panic!("not an expression: {text}"),
    }
}

fn operand(text: &str) -> Vec<u8> {
    if let Ok(constant) = text.parse::<i32>() {
        return [vec![0x01], constant.to_le_bytes().to_vec()].concat();
    }
    match text
        .strip_prefix("M[")
        .and_then(|rest| rest.strip_suffix(']'))
    {
        Some(address) => vec![0x03, variable(address)],
        None => vec![0x02, variable(text)],
    }
}

fn variable(text: &str) -> u8 {
    number(text.strip_prefix('x').expect("a variable"))
}

fn number(text: &str) -> u8 {
    text.trim().parse().expect("a number from 0 to 255")
}

/// The image of document 01's worked session.
pub fn worked_image() -> Vec<u8> {
    assemble(
        "begin 0 | skip     | -> 1
         1 <-    | call 5 6 | -> 2
         2 <-    | skip     | end 0
         begin 5 | x0 += 1  | end 5
         begin 6 | x1 += x0 | end 6",
    )
}

pub fn code_and_place(image: &[u8]) -> (u32, u32) {
    let judged = judge(image);
    if judged.code != 0 {
        assert_eq!((judged.blocks, judged.peak), (0, 0));
    }
    (judged.code, judged.place)
}

pub fn bytes_of(words: &[u32]) -> Vec<u8> {
    words.iter().flat_map(|word| word.to_le_bytes()).collect()
}

/// An accepted image and a machine started on it.
#[derive(Clone)]
pub struct Run {
    pub image: Vec<u8>,
    pub machine: Vec<u32>,
}

impl Run {
    /// First memory is zero but for these (variable, value) pairs.
    pub fn new(image: Vec<u8>, variables: &[(usize, i32)]) -> Run {
        let mut first = [0; FIRST_WORDS];
        for &(variable, value) in variables {
            first[variable] = value as u32;
        }
        let mut machine = vec![u32::MAX; WORDS];
        let answer = start(&image, &first, &mut machine);
        assert_eq!(answer, Answer { code: 0, place: 0 });
        Run { image, machine }
    }

    pub fn assembled(text: &str, variables: &[(usize, i32)]) -> Run {
        Run::new(assemble(text), variables)
    }

    /// A step's code. The byte variant and, for a live process, the list must agree with it, and
    /// a refusal must leave every word.
    pub fn step(&mut self, process: u32, direction: u32) -> u32 {
        let before = self.machine.clone();
        let listed = self.listed(process, direction);
        let mut bytes = bytes_of(&before);
        let answer = step(&self.image, &mut self.machine, process, direction);
        let byte_answer = step_bytes(&self.image, &mut bytes, process, direction);
        assert_eq!(byte_answer, answer);
        assert!(bytes == bytes_of(&self.machine));
        assert_eq!(answer.place, 0);
        if answer.code != 0 {
            assert!(before == self.machine, "a refusal changed the machine");
        }
        if let Some(listed) = listed {
            assert_eq!(listed, answer.code, "the list says otherwise");
        }
        answer.code
    }

    /// The code that the list gives, if the machine is accepted and the process is in it.
    fn listed(&self, process: u32, direction: u32) -> Option<u32> {
        let mut rows = [Row::default(); ROWS];
        if list(&self.image, &self.machine, &mut rows).code != 0 {
            return None;
        }
        let live = &rows[..self.machine[LIVE_WORD] as usize];
        let row = live.iter().find(|row| row.identifier == process)?;
        match direction {
            0 => Some(row.forward),
            1 => Some(row.undo),
            _ => None,
        }
    }

    pub fn forward(&mut self, process: u32) -> u32 {
        self.step(process, 0)
    }

    pub fn undo(&mut self, process: u32) -> u32 {
        self.step(process, 1)
    }

    /// Forward steps that must all be accepted.
    pub fn all_forward(&mut self, processes: &[u32]) {
        for &process in processes {
            assert_eq!(self.forward(process), 0, "forward of {process:x}");
        }
    }

    pub fn all_undo(&mut self, processes: &[u32]) {
        for &process in processes {
            assert_eq!(self.undo(process), 0, "undo of {process:x}");
        }
    }

    pub fn variable(&self, variable: usize) -> i32 {
        self.machine[VARIABLE_WORD + variable] as i32
    }

    pub fn set_variable(&mut self, variable: usize, value: i32) {
        self.machine[VARIABLE_WORD + variable] = value as u32;
    }

    /// The first variables, as many as asked for.
    pub fn variables<const COUNT: usize>(&self) -> [i32; COUNT] {
        std::array::from_fn(|variable| self.variable(variable))
    }

    /// The live rows: identifier, label and stage.
    pub fn rows(&self) -> Vec<(u32, u32, u32)> {
        let words = &self.machine[ROW_WORD..][..3 * self.machine[LIVE_WORD] as usize];
        let rows = words.chunks(3);
        rows.map(|row| (row[0], row[1], row[2])).collect()
    }

    pub fn set_rows(&mut self, rows: &[(u32, u32, u32)]) {
        self.machine[ROW_WORD..ENTRY_WORD].fill(0);
        self.machine[LIVE_WORD] = rows.len() as u32;
        for (words, row) in self.machine[ROW_WORD..].chunks_mut(3).zip(rows) {
            words.copy_from_slice(&[row.0, row.1, row.2]);
        }
    }

    /// The history: identifier and block.
    pub fn history(&self) -> Vec<(u32, u32)> {
        let words = &self.machine[ENTRY_WORD..][..2 * self.machine[HISTORY_WORD] as usize];
        words.chunks(2).map(|entry| (entry[0], entry[1])).collect()
    }

    pub fn set_history(&mut self, entries: &[(u32, u32)]) {
        self.machine[ENTRY_WORD..].fill(0);
        self.machine[HISTORY_WORD] = entries.len() as u32;
        for (words, entry) in self.machine[ENTRY_WORD..].chunks_mut(2).zip(entries) {
            words.copy_from_slice(&[entry.0, entry.1]);
        }
    }

    pub fn graph(&self) -> Graph {
        cause_graph(&self.image, &self.machine).expect("an accepted machine")
    }
}

pub fn node(process: u32, number: u32) -> Node {
    Node { process, number }
}

/// Some numbers that look random, the same in every run (xorshift).
pub struct Random(pub u64);

impl Random {
    pub fn below(&mut self, limit: usize) -> usize {
        self.0 ^= self.0 << 13;
        self.0 ^= self.0 >> 7;
        self.0 ^= self.0 << 17;
        (self.0 >> 16) as usize % limit
    }
}
