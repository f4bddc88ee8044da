//! The C boundary of libtillerwrap.a, as include/tillerwrap.h declares it, through the C client of bridge.c at the other end of a
//! pipe: a call goes there with all that is lent, and the answer comes back with every byte.

use std::io::{Read, Write};
use std::process::{Child, ChildStdin, ChildStdout, Command, Stdio};

use independent::{Answer, Judged};

const ANSWER: u32 = 0;
const TIME: u32 = 1;
const STACK: u32 = 2;
const ANSWER_WORDS: usize = 6;

/// What a call of the boundary is made with. A machine is lent to be written; to a list the rows are, and the machine is only read.
#[derive(Clone, Copy)]
pub enum Call<'a> {
    Judge(&'a [u8]),
    Start(&'a [u8], &'a [u8]),
    Step(&'a [u8], u32, u32),
    List(&'a [u8], &'a [u8]),
}

pub struct Library {
    _bridge: Child,
    calls: ChildStdin,
    answers: ChildStdout,
}

impl Library {
    /// Starts the bridge by its command, the words of which stand between spaces.
    pub fn new(command: &str) -> Library {
        let mut words = command.split_whitespace();
        let mut bridge = Command::new(words.next().expect("a command"))
            .args(words)
            .stdin(Stdio::piped())
            .stdout(Stdio::piped())
            .spawn()
            .expect("the bridge starts");
        let calls = bridge.stdin.take().expect("piped");
        let answers = bridge.stdout.take().expect("piped");
        Library {
            _bridge: bridge,
            calls,
            answers,
        }
    }

    /// Judges some images, all asked before the first is answered.
    pub fn judge_all(&mut self, images: &[Vec<u8>]) -> Vec<Judged> {
        for image in images {
            self.send(ANSWER, Call::Judge(image), &[]);
        }
        images.iter().map(|_| self.judged()).collect()
    }

    fn judged(&mut self) -> Judged {
        let [code, place, blocks, peak, ..] = self.receive(&mut []);
        Judged {
            code,
            place,
            blocks,
            peak,
        }
    }

    /// Makes a call on what is lent to it.
    pub fn call(&mut self, call: Call, lent: &mut [u8]) -> Answer {
        self.ask(call, lent);
        self.answer(lent)
    }

    /// The first half of a call, so that something else can be done meanwhile.
    pub fn ask(&mut self, call: Call, lent: &[u8]) {
        self.send(ANSWER, call, lent);
    }

    /// The second half.
    pub fn answer(&mut self, lent: &mut [u8]) -> Answer {
        let [code, place, ..] = self.receive(lent);
        Answer { code, place }
    }

    /// Microseconds of the quickest call of a round.
    pub fn time(&mut self, call: Call, lent: &[u8]) -> f64 {
        f64::from(self.measure(TIME, call, lent)) / 1e3
    }

    /// Bytes of stack that a call uses.
    pub fn stack(&mut self, call: Call, lent: &[u8]) -> u32 {
        self.measure(STACK, call, lent)
    }

    fn measure(&mut self, wanted: u32, call: Call, lent: &[u8]) -> u32 {
        self.send(wanted, call, lent);
        let [.., measured] = self.receive(&mut lent.to_vec());
        measured
    }

    fn send(&mut self, wanted: u32, call: Call, lent: &[u8]) {
        let (function, image, given, process, direction) = match call {
            Call::Judge(image) => (0, image, &[][..], 0, 0),
            Call::Start(image, first) => (1, image, first, 0, 0),
            Call::Step(image, process, direction) => (2, image, &[][..], process, direction),
            Call::List(image, machine) => (3, image, machine, 0, 0),
        };
        let lengths = [image, given, lent].map(|bytes| bytes.len() as u32);
        let words = [&[function, wanted][..], &lengths, &[process, direction]].concat();
        let words: Vec<u8> = words.iter().flat_map(|word| word.to_le_bytes()).collect();
        let all = [&words, image, given, lent].concat();
        self.calls.write_all(&all).expect("the bridge reads");
    }

    /// The words of an answer. A write outside of what was lent ends the comparison.
    fn receive(&mut self, lent: &mut [u8]) -> [u32; ANSWER_WORDS] {
        let mut words = [[0; 4]; ANSWER_WORDS];
        let read = self.answers.read_exact(words.as_flattened_mut());
        read.expect("the bridge answers");
        let read = self.answers.read_exact(lent);
        read.expect("the bridge gives back what was lent");
        let words = words.map(u32::from_le_bytes);
        let [.., kept, _] = words;
        assert_eq!(kept, 1, "bytes that were not lent were written");
        words
    }
}
