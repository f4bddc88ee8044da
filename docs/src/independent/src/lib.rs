//! A second, independent program of document 01: it judges an image, starts a machine, makes one
//! forward step or undo, and lists what each live process could do. Written from the documents
//! alone, so that two readings of them can be compared on the same inputs.

mod answer;
mod block;
mod bytes;
mod graph;
mod image;
mod judge;
mod list;
mod machine;
mod memory;
mod step;

pub use answer::{Answer, Judged};
pub use bytes::{list_bytes, start_bytes, step_bytes};
pub use graph::{cause_graph, Edge, Graph, Node};
pub use image::IMAGE_BYTES;
pub use judge::judge;
pub use list::{list, Row};
pub use machine::{
    start, CELL_WORD, ENTRIES, ENTRY_WORD, FIRST_WORDS, HISTORY_WORD, LIVE_WORD, ROWS, ROW_WORD,
    VARIABLE_WORD, WORDS,
};
pub use step::step;
