//! Plays a script of cases from standard input and prints what comes of each record; what it prints is what the proved program
//! must print. A record is a kind and two words, low byte first; an image and a title have as many bytes as their first word
//! says behind it.
//!
//! | kind | words | does | prints |
//! |---|---|---|---|
//! | 01, 02 | process, times | so many forward steps, or undos | F or B, process, code, live count and history count of the last |
//! | 03 | length, 0 | judges the image | J, code, place, blocks, peak |
//! | 04 | index, value | sets a word of first memory, which is zero before | |
//! | 05 | 0, 0 | starts the machine | S, code, place |
//! | 06 | index, value | sets a word of the machine | |
//! | 07 | index, count | | W, index, that many words of the machine |
//! | 08 | 0, 0 | | each node of the cause graph: N, process, number, its edges |
//! | 09 | length, 0 | | the title |
//!
//! An edge is W or R, its resource (32 is the heap), and the process and number of its source, or `start`. Processes and words of
//! the machine have eight hexadecimal digits, all other numbers are decimal.

use std::io::{self, Read, Write};

use independent::{
    cause_graph, judge, start, step, Edge, Node, ENTRY_WORD, FIRST_WORDS, HISTORY_WORD, LIVE_WORD,
    WORDS,
};

struct Player {
    image: Vec<u8>,
    first: Vec<u32>,
    machine: Vec<u32>,
}

fn main() -> io::Result<()> {
    let mut script = Vec::new();
    io::stdin().read_to_end(&mut script)?;
    let mut player = Player {
        image: Vec::new(),
        first: vec![0; FIRST_WORDS],
        machine: vec![0; WORDS],
    };
    let mut rest = &script[..];
    let mut lines = String::new();
    while let Some((record, behind)) = rest.split_at_checked(9) {
        let word = |at: usize| u32::from_le_bytes(record[at..at + 4].try_into().expect("four"));
        let (kind, first, second) = (record[0], word(1), word(5));
        let length = if matches!(kind, 3 | 9) { first } else { 0 };
        let (bytes, behind) = behind.split_at(length as usize);
        lines += &player.play(kind, first, second, bytes);
        rest = behind;
    }
    io::stdout().write_all(lines.as_bytes())
}

impl Player {
    /// Makes one record's call; what it prints.
    fn play(&mut self, kind: u8, first: u32, second: u32, bytes: &[u8]) -> String {
        match kind {
            1 => self.steps('F', 0, first, second),
            2 => self.steps('B', 1, first, second),
            3 => self.judge(bytes),
            4 => {
                self.first[first as usize] = second;
                String::new()
            }
            5 => {
                let answer = start(&self.image, &self.first, &mut self.machine);
                format!("S {} {}\n", answer.code, answer.place)
            }
            6 => {
                self.machine[first as usize] = second;
                String::new()
            }
            7 => self.words(first, second),
            8 => self.graph(),
            _ => format!("{}\n", String::from_utf8_lossy(bytes)),
        }
    }

    fn steps(&mut self, letter: char, direction: u32, process: u32, times: u32) -> String {
        let mut code = 0;
        for _ in 0..times {
            code = step(&self.image, &mut self.machine, process, direction).code;
        }
        let (live, history) = (self.machine[LIVE_WORD], self.machine[HISTORY_WORD]);
        format!("{letter} {process:08x} {code} {live} {history}\n")
    }

    fn judge(&mut self, image: &[u8]) -> String {
        self.image = image.to_vec();
        let judged = judge(image);
        let (code, place) = (judged.code, judged.place);
        format!("J {code} {place} {} {}\n", judged.blocks, judged.peak)
    }

    fn words(&self, index: u32, count: u32) -> String {
        let words = self.machine[index as usize..][..count as usize].iter();
        let words: String = words.map(|word| format!(" {word:08x}")).collect();
        format!("W {index}{words}\n")
    }

    /// In the order of history, the edges of a node by resource.
    fn graph(&self) -> String {
        let graph = cause_graph(&self.image, &self.machine).expect("an accepted machine");
        let mut lines = String::new();
        let history = &self.machine[ENTRY_WORD..][..2 * self.machine[HISTORY_WORD] as usize];
        let processes: Vec<u32> = history.chunks(2).map(|entry| entry[0]).collect();
        for (index, &process) in processes.iter().enumerate() {
            let earlier = processes[..index].iter().filter(|&&other| other == process);
            let number = earlier.count() as u32;
            let mut edges: Vec<&Edge> = graph
                .edges
                .iter()
                .filter(|edge| edge.to == Node { process, number })
                .collect();
            edges.sort_by_key(|edge| edge.resource);
            let edges: String = edges.into_iter().map(shown).collect();
            lines += &format!("N {process:08x} {number}{edges}\n");
        }
        lines
    }
}

fn shown(edge: &Edge) -> String {
    let letter = if edge.is_write { 'W' } else { 'R' };
    let resource = edge.resource;
    match edge.from {
        Some(Node { process, number }) => format!(" {letter} {resource} {process:08x} {number}"),
        None => format!(" {letter} {resource} start"),
    }
}
