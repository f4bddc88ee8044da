//! What the public functions answer: document 01's codes, and the place of a refused image.

/// The refusals of document 01's three tables, by its numbers.
#[derive(Clone, Copy)]
#[repr(u32)]
pub(crate) enum Code {
    ImageLength = 1,
    Kind = 2,
    Cut = 3,
    VariableNumber = 4,
    BlockCount = 5,
    EqualLabels = 6,
    NamesItself = 7,
    CallPoint = 8,
    SemaphoreNamed = 9,
    LabelCount = 10,
    ProcessBlock = 11,
    CalledLabel = 12,
    NoMain = 13,
    CallCircle = 14,
    Size = 15,
    SliceLength = 16,
    Machine = 17,
    NotLive = 18,
    Direction = 19,
    Children = 20,
    Stage = 21,
    OtherLabel = 22,
    AssertFalse = 23,
    NotReady = 24,
    Address = 25,
    HistoryFull = 26,
    Held = 27,
    NoRoom = 28,
}

/// Code 0 is accepted; the place is 0 for it and for every code from 16 on.
#[derive(Clone, Copy, Debug, Default, PartialEq, Eq)]
#[repr(C)]
pub struct Answer {
    pub code: u32,
    pub place: u32,
}

impl Answer {
    pub(crate) fn refused(code: Code, place: usize) -> Answer {
        Answer {
            code: code as u32,
            place: place as u32,
        }
    }

    pub(crate) fn of(outcome: Result<(), Answer>) -> Answer {
        outcome.err().unwrap_or_default()
    }
}

impl From<Code> for Answer {
    fn from(code: Code) -> Answer {
        Answer::refused(code, 0)
    }
}

/// What judging answers; a refused image gives 0 for both counts.
#[derive(Clone, Copy, Debug, Default, PartialEq, Eq)]
#[repr(C)]
pub struct Judged {
    pub code: u32,
    pub place: u32,
    pub blocks: u32,
    pub peak: u32,
}
