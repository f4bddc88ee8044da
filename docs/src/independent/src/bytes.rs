//! Starting, stepping and listing for a caller whose words are bytes, four a word, low byte
//! first. Bytes of a wrong length become no words at all, which is code 16 in its turn.

use crate::answer::Answer;
use crate::list::{list, Row};
use crate::machine::{start, FIRST_WORDS, WORDS};
use crate::step::step;

pub fn start_bytes(image: &[u8], first: &[u8], machine: &mut [u8]) -> Answer {
    let mut words = [0; WORDS];
    let mut first_words = [0; FIRST_WORDS];
    if machine.len() != 4 * WORDS || !read_words(first, &mut first_words) {
        return start(image, &[], &mut []);
    }
    let answer = start(image, &first_words, &mut words);
    if answer.code == 0 {
        write_words(&words, machine);
    }
    answer
}

pub fn step_bytes(image: &[u8], machine: &mut [u8], process: u32, direction: u32) -> Answer {
    let mut words = [0; WORDS];
    if !read_words(machine, &mut words) {
        return step(image, &mut [], process, direction);
    }
    let answer = step(image, &mut words, process, direction);
    if answer.code == 0 {
        write_words(&words, machine);
    }
    answer
}

pub fn list_bytes(image: &[u8], machine: &[u8], rows: &mut [Row]) -> Answer {
    let mut words = [0; WORDS];
    if !read_words(machine, &mut words) {
        return list(image, &[], rows);
    }
    list(image, &words, rows)
}

/// Whether the bytes give exactly these words.
fn read_words(bytes: &[u8], words: &mut [u32]) -> bool {
    let (chunks, rest) = bytes.as_chunks();
    for (word, chunk) in words.iter_mut().zip(chunks) {
        *word = u32::from_le_bytes(*chunk);
    }
    rest.is_empty() && chunks.len() == words.len()
}

fn write_words(words: &[u32], bytes: &mut [u8]) {
    let (chunks, _) = bytes.as_chunks_mut();
    for (word, chunk) in words.iter().zip(chunks) {
        *chunk = word.to_le_bytes();
    }
}
