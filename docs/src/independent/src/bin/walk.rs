//! The session program `walk`: reads `prog.cril` and `first.mem` from the current folder, then
//! makes the steps that the commands on standard input ask for, a line for each as they come.

use std::fs::File;
use std::io::{self, Read, Write};

use independent::{start, step, FIRST_WORDS, HISTORY_WORD, IMAGE_BYTES, LIVE_WORD, WORDS};

fn main() {
    // If nobody takes the lines any more, there is nothing left to do.
    let _ = walk(&mut io::stdin().lock(), &mut io::stdout().lock());
}

fn walk(commands: &mut impl Read, lines: &mut impl Write) -> io::Result<()> {
    let image = read_file("prog.cril", IMAGE_BYTES);
    let first = words_of(&read_file("first.mem", 4 * FIRST_WORDS));
    let mut machine = vec![0; WORDS];
    let answer = start(&image, &first, &mut machine);
    if answer.code != 0 {
        writeln!(lines, "X {} {}", answer.code, answer.place)?;
        return lines.flush();
    }
    let mut kind = [0];
    while commands.read_exact(&mut kind).is_ok() {
        let Some((letter, direction, process)) = read_command(kind, commands) else {
            writeln!(lines, "K")?;
            return lines.flush();
        };
        let code = step(&image, &mut machine, process, direction).code;
        let (live, history) = (machine[LIVE_WORD], machine[HISTORY_WORD]);
        writeln!(lines, "{letter} {process:08x} {code} {live} {history}")?;
        lines.flush()?;
    }
    Ok(())
}

/// The letter, direction and identifier of a command; none for an unknown kind or a cut body.
fn read_command(kind: [u8; 1], commands: &mut impl Read) -> Option<(char, u32, u32)> {
    let (letter, direction) = match kind {
        [1] => ('F', 0),
        [2] => ('B', 1),
        _ => return None,
    };
    let mut body = [0; 4];
    commands.read_exact(&mut body).ok()?;
    Some((letter, direction, u32::from_le_bytes(body)))
}

/// A file that can't be opened or read counts as empty. One byte over the limit is read, so that
/// a longer file is seen to be longer.
fn read_file(name: &str, limit: usize) -> Vec<u8> {
    let mut bytes = Vec::new();
    let read =
        File::open(name).and_then(|file| file.take(limit as u64 + 1).read_to_end(&mut bytes));
    match read {
        Ok(_) => bytes,
        Err(_) => Vec::new(),
    }
}

/// Words low byte first; bytes that don't come in fours give none, which is a wrong length.
fn words_of(bytes: &[u8]) -> Vec<u32> {
    match bytes.as_chunks() {
        (words, []) => words.iter().map(|word| u32::from_le_bytes(*word)).collect(),
        _ => Vec::new(),
    }
}
