//! Judging: the codes 9 to 15 over the decoded blocks, and what stepping needs of them.

use crate::answer::{Answer, Code, Judged};
use crate::block::{Block, Body, Call, Point};
use crate::graph::{self, Uses};
use crate::image::{self, BLOCKS};
use crate::machine::ROWS;

const LABELS: usize = 256;
const DEPTH_LIMIT: u32 = 8;
const MAIN: u8 = 0;

/// How often a label stands in one kind of point, and the last block it stands in.
#[derive(Clone, Copy, Default)]
pub struct Seat {
    pub count: u8,
    pub block: u8,
}

/// Where one label stands; names in a call don't count.
#[derive(Clone, Copy, Default)]
pub struct Label {
    pub entry: Seat,
    pub exit: Seat,
    pub begin: Seat,
    pub end: Seat,
}

impl Label {
    fn counts(&self) -> [u8; 4] {
        [self.entry, self.exit, self.begin, self.end].map(|seat| seat.count)
    }
}

/// An accepted image. A process block goes by the number of its lowest block.
pub struct Program<'a> {
    pub blocks: &'a [Block],
    pub uses: [Uses; BLOCKS],
    pub labels: [Label; LABELS],
    pub process_blocks: [u8; BLOCKS],
    pub peak: u32,
}

/// Answers for every image; only an accepted one has counts other than 0.
pub fn judge(image: &[u8]) -> Judged {
    match Program::read(image, &mut [Block::BLANK; BLOCKS]) {
        Ok(program) => Judged {
            code: 0,
            place: 0,
            blocks: program.blocks.len() as u32,
            peak: program.peak,
        },
        Err(Answer { code, place }) => Judged {
            code,
            place,
            ..Judged::default()
        },
    }
}

impl<'a> Program<'a> {
    pub fn read(image: &[u8], storage: &'a mut [Block; BLOCKS]) -> Result<Program<'a>, Answer> {
        let count = image::decode(image, storage)?;
        let blocks = &storage[..count];
        let mut program = Program {
            blocks,
            uses: [Uses::default(); BLOCKS],
            labels: count_labels(blocks),
            process_blocks: [0; BLOCKS],
            peak: 0,
        };
        program.judge_semaphores()?;
        program.judge_labels()?;
        program.process_blocks = join_blocks(blocks, &program.labels);
        program.judge_process_blocks()?;
        program.judge_called_labels()?;
        let reached = program.reached();
        program.judge_circles(&reached)?;
        program.peak = program.judge_size(&reached)?;
        for (uses, block) in program.uses.iter_mut().zip(blocks) {
            *uses = graph::uses(block);
        }
        Ok(program)
    }

    /// The process block that the label's `begin` belongs to.
    pub fn process_block(&self, label: u8) -> u8 {
        let begin = self.labels[usize::from(label)].begin;
        self.process_blocks[usize::from(begin.block)]
    }

    fn refuse_lowest(&self, code: Code, bad: impl Fn(&Block) -> bool) -> Result<(), Answer> {
        match self.blocks.iter().position(bad) {
            Some(block) => Err(Answer::refused(code, block)),
            None => Ok(()),
        }
    }

    /// Code 9.
    fn judge_semaphores(&self) -> Result<(), Answer> {
        let semaphores = self.blocks.iter().map(graph::semaphore);
        let semaphores = semaphores.fold(0, |all, one| all | one);
        self.refuse_lowest(Code::SemaphoreNamed, |block| {
            graph::named_elsewhere(block) & semaphores != 0
        })
    }

    /// Code 10.
    fn judge_labels(&self) -> Result<(), Answer> {
        let is_bad = |point: &Point| {
            let counts = if point.is_border() {
                [0, 0, 1, 1]
            } else {
                [1, 1, 0, 0]
            };
            let mut labels = point.labels().iter();
            labels.any(|&label| self.labels[usize::from(label)].counts() != counts)
        };
        self.refuse_lowest(Code::LabelCount, |block| {
            is_bad(&block.entry) || is_bad(&block.exit)
        })
    }

    /// Code 11. The lowest block of a bad process block is the one it goes by.
    fn judge_process_blocks(&self) -> Result<(), Answer> {
        let mut borders = [[(0_u8, 0_u8); 2]; BLOCKS];
        for (block, process_block) in self.blocks.iter().zip(self.process_blocks) {
            let [begin, end] = &mut borders[usize::from(process_block)];
            for (point, (count, label)) in [(&block.entry, begin), (&block.exit, end)] {
                if point.is_border() {
                    *count += 1;
                    *label = point.labels()[0];
                }
            }
        }
        let bad = |&block: &usize| {
            let [begin, end] = borders[block];
            usize::from(self.process_blocks[block]) == block && (begin.0 != 1 || begin != end)
        };
        match (0..self.blocks.len()).find(bad) {
            Some(block) => Err(Answer::refused(Code::ProcessBlock, block)),
            None => Ok(()),
        }
    }

    /// Codes 12 and 13.
    fn judge_called_labels(&self) -> Result<(), Answer> {
        let has_begin = |label: u8| self.labels[usize::from(label)].begin.count == 1;
        self.refuse_lowest(Code::CalledLabel, |block| match &block.body {
            Body::Call(call) => call.labels().iter().any(|&label| !has_begin(label)),
            Body::Instruction(_) => false,
        })?;
        if !has_begin(MAIN) {
            return Err(Answer::refused(Code::NoMain, 0));
        }
        Ok(())
    }

    /// The call blocks: the process block each stands in, and the call.
    fn calls(&self) -> impl Iterator<Item = (usize, &Call)> {
        let blocks = self.blocks.iter().zip(self.process_blocks);
        blocks.filter_map(|(block, process_block)| match &block.body {
            Body::Call(call) => Some((usize::from(process_block), call)),
            Body::Instruction(_) => None,
        })
    }

    /// The process blocks that each process block reaches through calls, a bit for each.
    fn reached(&self) -> [u128; BLOCKS] {
        let mut reached = [0_u128; BLOCKS];
        for (caller, call) in self.calls() {
            for &label in call.labels() {
                reached[caller] |= 1 << self.process_block(label);
            }
        }
        for middle in 0..self.blocks.len() {
            let further = reached[middle];
            if further != 0 {
                for reach in &mut reached[..self.blocks.len()] {
                    if *reach >> middle & 1 == 1 {
                        *reach |= further;
                    }
                }
            }
        }
        reached
    }

    /// Code 14, at the call blocks that lie on a circle.
    fn judge_circles(&self, reached: &[u128; BLOCKS]) -> Result<(), Answer> {
        for (number, block) in self.blocks.iter().enumerate() {
            let Body::Call(call) = &block.body else {
                continue;
            };
            let caller = self.process_blocks[number];
            // A caller that names its own label reaches itself.
            let is_on_circle = |&label: &u8| {
                let called = self.process_block(label);
                reached[usize::from(called)] >> caller & 1 == 1
            };
            if call.labels().iter().any(is_on_circle) {
                return Err(Answer::refused(Code::CallCircle, number));
            }
        }
        Ok(())
    }

    /// Code 15, else main's peak. A caller reaches more process blocks than each that it calls,
    /// so calls taken in the order of that number meet only finished depths and peaks. Only
    /// process blocks deeper than main may be can have a peak over any word.
    fn judge_size(&self, reached: &[u128; BLOCKS]) -> Result<u32, Answer> {
        let mut order = [None; BLOCKS];
        let mut count = 0;
        for call in self.calls() {
            order[count] = Some(call);
            count += 1;
        }
        let order = &mut order[..count];
        order.sort_unstable_by_key(|call| call.map(|(caller, _)| reached[caller].count_ones()));
        let mut depths = [0_u32; BLOCKS];
        let mut peaks = [1_u32; BLOCKS];
        for (caller, call) in order.iter().flatten() {
            let mut depth = 0;
            let mut peak = 1_u32;
            for &label in call.labels() {
                let called = usize::from(self.process_block(label));
                depth = depth.max(1 + depths[called]);
                peak = peak.saturating_add(peaks[called]);
            }
            depths[*caller] = depths[*caller].max(depth);
            peaks[*caller] = peaks[*caller].max(peak);
        }
        let main = usize::from(self.process_block(MAIN));
        if depths[main] > DEPTH_LIMIT || peaks[main] > ROWS as u32 {
            return Err(Answer::refused(Code::Size, 0));
        }
        Ok(peaks[main])
    }
}

fn count_labels(blocks: &[Block]) -> [Label; LABELS] {
    let mut labels = [Label::default(); LABELS];
    for (number, block) in blocks.iter().enumerate() {
        for (point, is_entry) in [(&block.entry, true), (&block.exit, false)] {
            for &label in point.labels() {
                let label = &mut labels[usize::from(label)];
                let seat = match (is_entry, point.is_border()) {
                    (true, false) => &mut label.entry,
                    (false, false) => &mut label.exit,
                    (true, true) => &mut label.begin,
                    (false, true) => &mut label.end,
                };
                // At most 128, as the two labels of a condition differ.
                seat.count += 1;
                seat.block = number as u8;
            }
        }
    }
    labels
}

/// Joins the blocks by ordinary labels over any chain; each gets the lowest block of its own.
fn join_blocks(blocks: &[Block], labels: &[Label; LABELS]) -> [u8; BLOCKS] {
    let mut lower: [u8; BLOCKS] = std::array::from_fn(|block| block as u8);
    for label in labels.iter().filter(|label| label.entry.count == 1) {
        let first = lowest(&mut lower, label.entry.block);
        let second = lowest(&mut lower, label.exit.block);
        lower[usize::from(first.max(second))] = first.min(second);
    }
    for block in 0..blocks.len() {
        lower[block] = lower[usize::from(lower[block])];
    }
    lower
}

/// The end of the chain of lower blocks that starts at a block; the chain is halved on the way.
fn lowest(lower: &mut [u8; BLOCKS], mut block: u8) -> u8 {
    while lower[usize::from(block)] != block {
        let next = lower[usize::from(lower[usize::from(block)])];
        lower[usize::from(block)] = next;
        block = next;
    }
    block
}
