//! Questions and plans written as bytes, and job J.
use crate::evaluator::{Block, Condition, Element, Relation};
use Element::*;

#[derive(Clone)]
pub struct Job {
    pub data: Vec<i32>,
    pub question: Vec<u8>,
    pub plan: Vec<u8>,
}

fn put(bytes: &mut Vec<u8>, element: Element) {
    let (kind, argument) = match element {
        Empty => (0, [0; 8]),
        Constant(c) => (1, c.to_le_bytes()),
        Variable(v) => (2, v.to_le_bytes()),
        Fixed(v) => (3, v.to_le_bytes()),
        Aggregate { function, block, column } => (4, [function, block, column, 0, 0, 0, 0, 0]),
    };
    bytes.push(kind);
    bytes.extend(argument);
}

pub fn question_bytes(blocks: &[Block]) -> Vec<u8> {
    let mut bytes = Vec::new();
    for block in blocks {
        bytes.extend([b'B', b'K', block.parent]);
        for Relation { table, entries } in &block.relations {
            bytes.extend([b'R', b'W', *table, entries.len() as u8]);
            entries.iter().for_each(|e| put(&mut bytes, *e));
        }
        for Condition { operator, left, right } in &block.conditions {
            bytes.extend([b'C', b'D', *operator]);
            put(&mut bytes, *left);
            put(&mut bytes, *right);
        }
        bytes.extend([b'O', b'L', block.outputs.len() as u8]);
        block.outputs.iter().for_each(|e| put(&mut bytes, *e));
    }
    bytes.extend(b"EN");
    bytes
}

pub fn plan_bytes(paths: &[(u8, u8)]) -> Vec<u8> {
    paths.iter().flat_map(|(path, column)| [b'P', b'L', *path, *column]).collect()
}

pub fn data_words(tables: &[(usize, Vec<Vec<i32>>)]) -> Vec<i32> {
    let mut words = vec![tables.len() as i32];
    words.extend(tables.iter().flat_map(|(columns, rows)| [*columns as i32, rows.len() as i32]));
    words.extend(tables.iter().flat_map(|(_, rows)| rows.iter().flatten().copied()));
    words
}

pub fn job_j_blocks() -> Vec<Block> {
    let average = Aggregate { function: 4, block: 1, column: 1 };
    vec![
        Block {
            parent: 255,
            relations: vec![Relation { table: 0, entries: vec![Variable(0)] }],
            conditions: vec![],
            outputs: vec![Variable(0), average],
        },
        Block {
            parent: 0,
            relations: vec![Relation { table: 1, entries: vec![Variable(1), Fixed(0), Variable(2)] }],
            conditions: vec![],
            outputs: vec![Variable(1), Variable(2)],
        },
    ]
}

pub fn job_j() -> Job {
    let pans = vec![vec![1], vec![2], vec![3], vec![2]];
    let samples = vec![vec![11, 1, 910], vec![12, 1, 913], vec![13, 2, 905], vec![14, 2, 905]];
    Job {
        data: data_words(&[(1, pans), (3, samples)]),
        question: question_bytes(&job_j_blocks()),
        plan: plan_bytes(&[(0, 0), (2, 1)]),
    }
}
