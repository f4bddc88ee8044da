//! What a block reads and writes, the test that holds an undo (code 27), and the cause graph
//! itself as a set of nodes and a set of edges.

use std::collections::{BTreeMap, BTreeSet};

use crate::answer::{Answer, Code};
use crate::block::{Block, Body, Expression, Instruction, Left, Operand, Point};
use crate::image::BLOCKS;
use crate::judge::Program;
use crate::machine::{self, Machine, Survey, HISTORY_WORD};

/// The resources are the variables, by their numbers, and the whole heap as number 32.
const HEAP: u32 = 32;
const RESOURCES: u32 = 33;

/// The resources a block reads and those it writes, a bit for each; what is written is also read.
#[derive(Clone, Copy, Default)]
pub struct Uses {
    pub reads: u64,
    pub writes: u64,
}

impl Uses {
    pub fn add(&mut self, other: Uses) {
        self.reads |= other.reads;
        self.writes |= other.writes;
    }

    /// Whether a kept step is held by all that was kept after it. A later step that reads what
    /// this one writes has an edge from it or from a later writer, which then has one; a later
    /// step that writes what this one only reads is a newer last writer.
    pub fn held_by(self, later: Uses) -> bool {
        self.writes & later.reads != 0 || self.reads & later.writes != 0
    }
}

fn named(left: Left) -> u64 {
    match left {
        Left::Variable(variable) => 1 << variable,
        Left::Cell(variable) => 1 << variable | 1 << HEAP,
    }
}

/// The resource that a change of the operand writes.
pub fn changed(left: Left) -> u64 {
    match left {
        Left::Variable(variable) => 1 << variable,
        Left::Cell(_) => 1 << HEAP,
    }
}

/// The resources that an expression names, as a value or as an address.
pub fn named_by(expression: &Expression) -> u64 {
    let operand = |operand: &Operand| match operand {
        Operand::Constant(_) => 0,
        Operand::Left(left) => named(*left),
    };
    match expression {
        Expression::Plain(only) | Expression::Not(only) => operand(only),
        Expression::Two(_, first, second) => operand(first) | operand(second),
    }
}

/// The variable of a V or P.
pub fn semaphore(block: &Block) -> u64 {
    match block.body {
        Body::Instruction(Instruction::V(variable) | Instruction::P(variable)) => 1 << variable,
        _ => 0,
    }
}

/// The resources that a block names elsewhere than in V or P.
pub fn named_elsewhere(block: &Block) -> u64 {
    let point = |point: &Point| match point {
        Point::Condition(condition) => named_by(&condition.expression),
        Point::Plain(_) | Point::Border(_) => 0,
    };
    let body = match &block.body {
        Body::Instruction(Instruction::Update(left, _, expression)) => {
            named(*left) | named_by(expression)
        }
        Body::Instruction(Instruction::Exchange(left, right)) => named(*left) | named(*right),
        Body::Instruction(Instruction::Assert(expression)) => named_by(expression),
        Body::Instruction(Instruction::V(_) | Instruction::P(_) | Instruction::Skip) => 0,
        Body::Call(_) => 0,
    };
    point(&block.entry) | body | point(&block.exit)
}

pub fn uses(block: &Block) -> Uses {
    let writes = match block.body {
        Body::Instruction(Instruction::Update(left, _, _)) => changed(left),
        Body::Instruction(Instruction::Exchange(left, right)) => changed(left) | changed(right),
        _ => semaphore(block),
    };
    Uses {
        reads: named_elsewhere(block) | semaphore(block),
        writes,
    }
}

/// A kept step: the process and how many earlier entries the process has.
#[derive(Clone, Copy, Debug, PartialEq, Eq, PartialOrd, Ord)]
pub struct Node {
    pub process: u32,
    pub number: u32,
}

/// From the resource's last writer, or from the start mark, which is `None`.
#[derive(Clone, Copy, Debug, PartialEq, Eq, PartialOrd, Ord)]
pub struct Edge {
    pub from: Option<Node>,
    pub resource: u32,
    pub to: Node,
    pub is_write: bool,
}

#[derive(Clone, Debug, Default, PartialEq, Eq)]
pub struct Graph {
    pub nodes: BTreeSet<Node>,
    pub edges: BTreeSet<Edge>,
}

/// The cause graph of an accepted machine's history, else the refusal that a step would give.
pub fn cause_graph(image: &[u8], machine: &[u32]) -> Result<Graph, Answer> {
    let mut storage = [Block::BLANK; BLOCKS];
    let program = Program::read(image, &mut storage)?;
    let machine: &Machine = machine.try_into().map_err(|_| Code::SliceLength)?;
    Survey::of(&program, machine)?;
    let mut graph = Graph::default();
    let mut numbers = BTreeMap::new();
    let mut writers = [None; RESOURCES as usize];
    for index in 0..machine[HISTORY_WORD] as usize {
        let entry = machine::entry(machine, index);
        let number = numbers.entry(entry.identifier).or_insert(0);
        let node = Node {
            process: entry.identifier,
            number: *number,
        };
        *number += 1;
        graph.keep(node, program.uses[entry.block as usize], &mut writers);
    }
    Ok(graph)
}

impl Graph {
    /// Adds a kept step with one edge for each resource it reads or writes.
    fn keep(&mut self, node: Node, uses: Uses, writers: &mut [Option<Node>]) {
        self.nodes.insert(node);
        for (resource, writer) in (0..).zip(writers) {
            let is_write = uses.writes >> resource & 1 == 1;
            if is_write || uses.reads >> resource & 1 == 1 {
                self.edges.insert(Edge {
                    from: *writer,
                    resource,
                    to: node,
                    is_write,
                });
            }
            if is_write {
                *writer = Some(node);
            }
        }
    }

    /// Document 01's three conditions, word for word: whether the node's step could be undone.
    pub fn is_removable(&self, node: Node) -> bool {
        let newer = Node {
            number: node.number + 1,
            ..node
        };
        let leaves = |edge: &Edge| edge.from == Some(node);
        let is_stale = |edge: &Edge| {
            edge.to == node && !edge.is_write && edge.from != self.last_writer(edge.resource)
        };
        self.nodes.contains(&node)
            && !self.nodes.contains(&newer)
            && !self.edges.iter().any(|edge| leaves(edge) || is_stale(edge))
    }

    /// The end of the resource's chain of write edges.
    fn last_writer(&self, resource: u32) -> Option<Node> {
        let writes = || {
            let edges = self.edges.iter();
            edges.filter(move |edge| edge.is_write && edge.resource == resource)
        };
        let is_last = |edge: &&Edge| !writes().any(|next| next.from == Some(edge.to));
        writes().find(is_last).map(|edge| edge.to)
    }
}
