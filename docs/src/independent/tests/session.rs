//! The session program: the worked session line by line, refused starts, unknown and cut
//! commands, and that each line comes before the next command is given.

mod common;

use common::*;
use std::fs;
use std::io::{BufRead, BufReader, Write};
use std::path::PathBuf;
use std::process::{Child, Command, Stdio};
use std::sync::mpsc;
use std::time::Duration;

const MEMORY: [u8; 1152] = [0; 1152];

/// A folder of its own for each test; `None` leaves the file out.
fn folder(name: &str, image: Option<&[u8]>, memory: Option<&[u8]>) -> PathBuf {
    let own = format!("walk-{}-{name}", std::process::id());
    let folder = std::env::temp_dir().join(own);
    fs::create_dir_all(&folder).unwrap();
    for (file, bytes) in [("prog.cril", image), ("first.mem", memory)] {
        if let Some(bytes) = bytes {
            fs::write(folder.join(file), bytes).unwrap();
        }
    }
    folder
}

fn walk(folder: &PathBuf) -> Child {
    let mut command = Command::new(env!("CARGO_BIN_EXE_walk"));
    command.current_dir(folder);
    command.stdin(Stdio::piped()).stdout(Stdio::piped());
    command.spawn().unwrap()
}

/// What `walk` prints for all commands at once.
fn session(folder: PathBuf, commands: &[u8]) -> String {
    let mut child = walk(&folder);
    // A walk that stopped before reading may close its input first.
    let _ = child.stdin.take().unwrap().write_all(commands);
    let output = child.wait_with_output().unwrap();
    fs::remove_dir_all(folder).unwrap();
    String::from_utf8(output.stdout).unwrap()
}

fn commands(text: &str) -> Vec<u8> {
    let command = |word: &str| {
        let kind = if word.starts_with('F') { 1 } else { 2 };
        let identifier = u32::from_str_radix(&word[1..], 16).unwrap();
        [vec![kind], identifier.to_le_bytes().to_vec()].concat()
    };
    text.split_whitespace().flat_map(command).collect()
}

#[test]
fn the_worked_session_prints_its_eight_lines() {
    #[rustfmt::skip]
    let image = [
        0x22, 0x00, 0x47, 0x30, 0x01,
        0x20, 0x01, 0x52, 0x05, 0x06, 0x30, 0x02,
        0x20, 0x02, 0x47, 0x32, 0x00,
        0x22, 0x05, 0x40, 0x02, 0x00, 0x10, 0x01, 0x01, 0x00, 0x00, 0x00, 0x32, 0x05,
        0x22, 0x06, 0x40, 0x02, 0x01, 0x10, 0x02, 0x00, 0x32, 0x06,
    ];
    assert_eq!(image.to_vec(), worked_image());
    let folder = folder("worked", Some(&image), Some(&MEMORY));
    let printed = session(folder, &commands("F0 F0 F2 F1 B2 B1 B2 B0"));
    let expected = "F 00000000 0 1 1\n\
                    F 00000000 0 3 2\n\
                    F 00000002 0 3 3\n\
                    F 00000001 0 3 4\n\
                    B 00000002 27 3 4\n\
                    B 00000001 0 3 3\n\
                    B 00000002 0 3 2\n\
                    B 00000000 0 1 1\n";
    assert_eq!(printed, expected);
}

#[test]
fn a_missing_image_is_x_1_0() {
    let folder = folder("no-image", None, Some(&MEMORY));
    assert_eq!(session(folder, &commands("F0")), "X 1 0\n");
}

#[test]
fn an_image_that_opens_and_cannot_be_read_counts_as_empty() {
    let folder = folder("unreadable", None, Some(&MEMORY));
    fs::create_dir(folder.join("prog.cril")).unwrap();
    assert_eq!(session(folder, &[]), "X 1 0\n");
}

#[test]
fn an_image_of_4097_bytes_is_x_1_0_though_its_first_4096_are_not() {
    let mut image = vec![0x47; 4097];
    image[0] = 0x22;
    let too_long = folder("long-image", Some(&image), Some(&MEMORY));
    assert_eq!(session(too_long, &[]), "X 1 0\n");
    let longest = folder("longest-image", Some(&image[..4096]), Some(&MEMORY));
    assert_eq!(session(longest, &[]), "X 2 3\n");
}

#[test]
fn a_memory_file_of_another_length_is_x_16_0() {
    let image = worked_image();
    let missing = folder("no-memory", Some(&image), None);
    assert_eq!(session(missing, &commands("F0")), "X 16 0\n");
    for length in [0, 1148, 1151, 1153, 1156] {
        let memory = vec![0; length];
        let name = format!("memory-{length}");
        let folder = folder(&name, Some(&image), Some(&memory));
        assert_eq!(session(folder, &[]), "X 16 0\n", "{length} bytes");
    }
}

#[test]
fn the_images_refusal_comes_before_the_memory_files() {
    let folder = folder("both", Some(&[0x22, 0x00, 0x47, 0x32]), None);
    assert_eq!(session(folder, &[]), "X 3 3\n");
}

#[test]
fn first_memory_is_read_low_byte_first() {
    let image = assemble("begin 0 | assert x1 == 67305985 | end 0");
    let mut memory = MEMORY;
    memory[4..8].copy_from_slice(&[1, 2, 3, 4]);
    let folder = folder("low-first", Some(&image), Some(&memory));
    assert_eq!(session(folder, &commands("F0")), "F 00000000 0 1 1\n");
}

#[test]
fn an_unknown_kind_prints_k_and_stops() {
    for kind in [0, 3, 0xff] {
        let name = format!("kind-{kind}");
        let folder = folder(&name, Some(&worked_image()), Some(&MEMORY));
        let all = [commands("F0"), vec![kind], commands("F0")].concat();
        assert_eq!(session(folder, &all), "F 00000000 0 1 1\nK\n");
    }
}

#[test]
fn a_cut_body_prints_k_and_stops() {
    for length in 1..5 {
        let name = format!("cut-{length}");
        let folder = folder(&name, Some(&worked_image()), Some(&MEMORY));
        let all = [commands("F0"), commands("B0")[..length].to_vec()].concat();
        assert_eq!(session(folder, &all), "F 00000000 0 1 1\nK\n");
    }
}

#[test]
fn identifiers_are_read_low_byte_first_and_printed_in_lower_case() {
    let folder = folder("lower-case", Some(&worked_image()), Some(&MEMORY));
    let printed = session(folder, &[1, 0x0d, 0xef, 0xcd, 0xab]);
    assert_eq!(printed, "F abcdef0d 18 1 0\n");
}

#[test]
fn no_commands_print_nothing() {
    let folder = folder("silent", Some(&worked_image()), Some(&MEMORY));
    assert_eq!(session(folder, &[]), "");
}

#[test]
fn each_line_comes_before_the_next_command() {
    let folder = folder("interactive", Some(&worked_image()), Some(&MEMORY));
    let mut child = walk(&folder);
    let mut input = child.stdin.take().unwrap();
    let lines = BufReader::new(child.stdout.take().unwrap()).lines();
    let (sender, receiver) = mpsc::channel();
    let reader = std::thread::spawn(move || {
        lines.for_each(|line| sender.send(line.unwrap()).unwrap());
    });
    for (command, expected) in [("F0", "F 00000000 0 1 1"), ("B0", "B 00000000 0 1 0")] {
        input.write_all(&commands(command)).unwrap();
        input.flush().unwrap();
        let line = receiver.recv_timeout(Duration::from_secs(20)).unwrap();
        assert_eq!(line, expected);
    }
    drop(input);
    assert!(child.wait().unwrap().success());
    reader.join().unwrap();
    fs::remove_dir_all(folder).unwrap();
}
