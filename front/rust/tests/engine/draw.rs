//! Random jobs from a small generator: mostly valid questions of 1 to 5 blocks over small tables, admitted plans, damage.
use crate::evaluator::{admitted, ratio, Block, Condition, Element, Relation};
use crate::job::{data_words, plan_bytes, question_bytes, Job};
use Element::*;

/// xorshift64*.
pub struct Random(u64);

impl Random {
    pub fn new(seed: u64) -> Self {
        Random(seed.wrapping_mul(0x9e3779b97f4a7c15) | 1)
    }
    pub fn next(&mut self) -> u64 {
        self.0 ^= self.0 >> 12;
        self.0 ^= self.0 << 25;
        self.0 ^= self.0 >> 27;
        self.0.wrapping_mul(0x2545f4914f6cdd1d)
    }
    pub fn below(&mut self, n: usize) -> usize {
        ((self.next() >> 32) as usize) % n
    }
    pub fn percent(&mut self, p: usize) -> bool {
        self.below(100) < p
    }
    pub fn pick<T: Copy>(&mut self, from: &[T]) -> T {
        from[self.below(from.len())]
    }
}

fn tables(r: &mut Random, wide: bool) -> Vec<(usize, Vec<Vec<i32>>)> {
    let spread = r.pick(&[2, 3, 5, 30]);
    (0..1 + r.below(3))
        .map(|t| {
            let columns = 1 + r.below(3);
            let rows = if wide && t == 0 { 14 + r.below(8) } else { r.below(6) };
            let cell = |r: &mut Random, row: usize| match r.below(60) {
                0 => r.pick(&[-1_000_000, 1_000_000]),
                _ if wide && t == 0 => row as i32 - 8,
                _ => r.below(spread) as i32 - 1,
            };
            (columns, (0..rows).map(|row| (0..columns).map(|_| cell(r, row)).collect()).collect())
        })
        .collect()
}

fn constant(r: &mut Random) -> Element {
    Constant(match r.below(40) {
        0 => r.pick(&[1_000_000_000_000_000, -1_000_000_000_000_000, 1_000_000, -1_000_001]),
        _ => r.below(5) as i64 - 1,
    })
}

/// Blocks that no number from 5 to 10 refuses, save now and then.
fn blocks(r: &mut Random, tables: &[(usize, Vec<Vec<i32>>)], wide: bool) -> Vec<Block> {
    let count = if wide { 1 + r.below(2) } else { r.pick(&[1, 2, 2, 2, 3, 3, 3, 4, 4, 5]) };
    let mut blocks: Vec<Block> = Vec::new();
    let mut levels = Vec::new();
    let mut free: Vec<i64> = (0..16).collect();
    for at in 0..count {
        let (parent, level) = if at == 0 {
            (255, 1)
        } else {
            let early: Vec<usize> = (0..at).filter(|b| levels[*b] < 4).collect();
            let parent = if r.percent(60) { early[early.len() - 1] } else { r.pick(&early) };
            (parent as u8, levels[parent] + 1)
        };
        levels.push(level);
        let mut ancestor_variables = Vec::new();
        let mut up = parent;
        while up != 255 {
            ancestor_variables.extend(variables(&blocks[up as usize]));
            up = blocks[up as usize].parent;
        }
        // One variable from outside alone, as often as not: then merging is admitted.
        if !ancestor_variables.is_empty() && r.percent(50) {
            ancestor_variables = vec![r.pick(&ancestor_variables)];
        }
        let mut own: Vec<i64> = Vec::new();
        let mut block = Block { parent, ..Block::default() };
        let relations = if wide { 2 } else { r.pick(&[0, 1, 1, 1, 1, 1, 2, 2, 3]) };
        for _ in 0..relations {
            let table = if wide { 0 } else { r.below(tables.len()) };
            let all_empty = r.percent(5);
            let entry = |r: &mut Random| match r.below(if wide { 5 } else { 10 }) {
                _ if all_empty => Empty,
                0..=3 if free.is_empty() || (!own.is_empty() && r.percent(if wide { 5 } else { 30 })) => {
                    if own.is_empty() { Empty } else { Variable(r.pick(&own)) }
                }
                0..=3 => {
                    let v = free.swap_remove(r.below(free.len()));
                    own.push(v);
                    Variable(v)
                }
                4 => Empty,
                5 => constant(r),
                _ if ancestor_variables.is_empty() => constant(r),
                _ => Fixed(r.pick(&ancestor_variables)),
            };
            let mut entry = entry;
            let entries = (0..tables[table].0).map(|_| entry(r)).collect();
            block.relations.push(Relation { table: table as u8, entries });
        }
        blocks.push(block);
    }
    // Conditions and output lists, the deepest first: an aggregate's column must be there.
    let mut naming = [0; 5];
    for at in (0..count).rev() {
        let own = variables(&blocks[at]);
        let mut outer = Vec::new();
        let mut up = blocks[at].parent;
        while up != 255 {
            outer.extend(variables(&blocks[up as usize]));
            up = blocks[up as usize].parent;
        }
        let children: Vec<usize> = (at + 1..count).filter(|b| blocks[*b].parent as usize == at).collect();
        let mut aggregate = |r: &mut Random| -> Option<Element> {
            let open: Vec<usize> = children.iter().copied().filter(|c| naming[*c] < 3).collect();
            if open.is_empty() {
                return None;
            }
            let child = r.pick(&open);
            naming[child] += 1;
            let column = r.below(blocks[child].outputs.len());
            let bad = ratio(&blocks, child, column) && !r.percent(3);
            let function = if bad { r.pick(&[0, 2, 3]) } else { r.below(5) as u8 };
            Some(Aggregate { function, block: child as u8, column: if function == 0 { 0 } else { column as u8 } })
        };
        let (mut outputs, mut more) = (Vec::new(), None);
        for _ in 0..1 + r.below(3) {
            let made = if own.is_empty() || r.percent(50) { aggregate(r) } else { None };
            outputs.extend(made.or(if own.is_empty() { None } else { Some(Variable(r.pick(&own))) }));
        }
        if outputs.is_empty() {
            // Nothing to put out: a relation row more, with a variable.
            let v = if free.is_empty() || r.percent(3) { 0 } else { free.swap_remove(r.below(free.len())) };
            outputs.push(Variable(v));
            let table = r.below(tables.len());
            let mut entries = vec![Empty; tables[table].0];
            let column = r.below(entries.len());
            entries[column] = Variable(v);
            more = Some(Relation { table: table as u8, entries });
        }
        let mut conditions = Vec::new();
        for _ in 0..r.pick(&[0, 0, 0, 1, 1, 2]) {
            let mut side = |r: &mut Random| match r.below(4) {
                0 if !own.is_empty() => Variable(r.pick(&own)),
                1 if !outer.is_empty() && r.percent(50) => Fixed(r.pick(&outer)),
                2 => aggregate(r).unwrap_or(Constant(1)),
                _ => constant(r),
            };
            conditions.push(Condition { operator: r.below(6) as u8, left: side(r), right: side(r) });
        }
        if more.is_some() {
            blocks[at].relations.truncate(2);
        }
        blocks[at].relations.extend(more);
        blocks[at].outputs = outputs;
        blocks[at].conditions = conditions;
    }
    blocks
}

fn variables(block: &Block) -> Vec<i64> {
    let mut found: Vec<i64> = Vec::new();
    for e in block.relations.iter().flat_map(|r| &r.entries) {
        match e {
            Variable(v) if !found.contains(v) => found.push(*v),
            _ => {}
        }
    }
    found
}

/// A plan that is admitted, by index or merging where it can be, as often as not.
pub fn plan(r: &mut Random, blocks: &[Block]) -> Vec<u8> {
    let path = |(at, _): (usize, &Block)| {
        let mut ways = vec![(0, 0)];
        for (path, column) in (1..3).flat_map(|p| (0..8).map(move |c| (p, c))) {
            if admitted(blocks, at, path, column) {
                ways.extend(vec![(path, column); if path == 1 { 2 } else { 5 }]);
            }
        }
        r.pick(&ways)
    };
    plan_bytes(&blocks.iter().enumerate().map(path).collect::<Vec<_>>())
}

pub fn job(r: &mut Random) -> (Job, Vec<Block>) {
    let wide = r.percent(6);
    let tables = tables(r, wide);
    let blocks = blocks(r, &tables, wide);
    let job = Job { data: data_words(&tables), question: question_bytes(&blocks), plan: plan(r, &blocks) };
    (job, blocks)
}

/// One change of some bytes: a byte replaced or nudged, one taken out, put in, or the end cut.
fn damage_bytes(r: &mut Random, bytes: &mut Vec<u8>) {
    if bytes.is_empty() {
        bytes.push(r.next() as u8);
        return;
    }
    let at = r.below(bytes.len());
    match r.below(12) {
        0 => bytes.truncate(at),
        1 => bytes.insert(at, r.next() as u8),
        2 => drop(bytes.remove(at)),
        3..=5 => bytes[at] = r.next() as u8,
        6..=8 => bytes[at] = r.below(6) as u8,
        9 => bytes[at] ^= 1 << r.below(8),
        _ => bytes[at] = bytes[at].wrapping_add(r.pick(&[1, 255])),
    }
}

fn damage_words(r: &mut Random, words: &mut Vec<i32>) {
    let at = r.below(words.len());
    match r.below(6) {
        0 => words.truncate(at),
        1 => words.push(0),
        2 => words[at] = r.pick(&[1_000_001, -1_000_001, i32::MAX, i32::MIN, 257, 9, -1]),
        3 => {
            let front = r.below(words.len().min(7));
            words[front] += r.pick(&[1, -1]);
        }
        _ => words[at] = r.below(4) as i32,
    }
}

pub fn damage(r: &mut Random, job: &mut Job) {
    match r.below(10) {
        0..=6 => (0..1 + r.below(3)).for_each(|_| damage_bytes(r, &mut job.question)),
        7 | 8 => damage_bytes(r, &mut job.plan),
        _ => damage_words(r, &mut job.data),
    }
}

/// One change of the blocks themselves: a count brought to its limit or past it, or something absent, out of scope, of the
/// wrong kind or out of range put in.
pub fn alter(r: &mut Random, blocks: &mut Vec<Block>) {
    let count = blocks.len();
    let at = r.below(count);
    let over = r.below(2);
    let any = |r: &mut Random| match r.below(5) {
        0 => Constant(r.pick(&[1, 0, 1_000_000_000_000_000, 1_000_000_000_000_001, -1_000_000_000_000_001, i64::MIN])),
        1 => Variable(r.pick(&[0, 1, 2, 5, 15, 16, -1, 256])),
        2 => Fixed(r.pick(&[0, 1, 2, 5, 15, 16, -1, 256])),
        _ => {
            let function = r.below(5) as u8;
            let column = if function == 0 { 0 } else { r.below(3) as u8 };
            Aggregate { function, block: r.below(count + 1) as u8, column }
        }
    };
    let block = &mut blocks[at];
    match r.below(12) {
        0 if !block.relations.is_empty() => {
            while block.relations.len() < 3 + over {
                block.relations.push(block.relations[0].clone());
            }
        }
        1 => {
            while block.conditions.len() < 8 + over {
                let value = block.conditions.first().map_or(Constant(1), |c| c.left);
                block.conditions.push(Condition { operator: r.below(6) as u8, left: value, right: Constant(2) });
            }
        }
        2 if !block.outputs.is_empty() => {
            while block.outputs.len() < 4 + over {
                block.outputs.push(block.outputs[0]);
            }
        }
        3 => block.outputs.clear(),
        4 => {
            let named = Aggregate { function: 0, block: r.pick(&[1, 1, 2, 77]), column: 0 };
            block.conditions = vec![Condition { operator: 5, left: named, right: named }];
            if over == 1 {
                block.outputs.extend([named, named]);
            }
        }
        5 => {
            let mut more = blocks[at].clone();
            more.parent = r.pick(&[0, 1, at as u8, count as u8, 255]);
            more.relations.clear();
            more.conditions.clear();
            more.outputs = vec![any(r)];
            if !matches!(more.outputs[0], Variable(_) | Aggregate { .. }) {
                more.outputs = vec![Variable(0)];
            }
            blocks.push(more);
        }
        6 => block.parent = r.pick(&[0, 1, 2, 3, 255]),
        7 | 8 if !block.relations.is_empty() => {
            let which = r.below(block.relations.len());
            let relation = &mut block.relations[which];
            match r.below(5) {
                0 => relation.table = r.pick(&[0, 1, 2, 3, 8, 255]),
                1 => drop(relation.entries.pop()),
                2 => relation.entries.push(Empty),
                _ => {
                    let new = any(r);
                    let column = r.below(relation.entries.len().max(1));
                    if let (Some(e), false) = (relation.entries.get_mut(column), matches!(new, Aggregate { .. })) {
                        *e = new;
                    }
                }
            }
        }
        9 => {
            let column = r.below(block.outputs.len().max(1));
            let new = any(r);
            if let (Some(e), Variable(_) | Aggregate { .. }) = (block.outputs.get_mut(column), new) {
                *e = new;
            }
        }
        10 => {
            // An average of a column, which may be one of averages itself.
            let function = r.pick(&[1, 4]);
            let child = blocks.iter().rposition(|b| b.parent != 255).unwrap_or(0);
            let parent = (blocks[child].parent as usize).min(count - 1);
            blocks[parent].outputs = vec![Aggregate { function, block: child as u8, column: 0 }];
        }
        _ => {
            let (left, right) = (any(r), any(r));
            block.conditions.truncate(7);
            block.conditions.push(Condition { operator: r.below(6) as u8, left, right });
        }
    }
}
