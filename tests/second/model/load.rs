//! Load: an export of the old editor is judged and, if it is sound, put into
//! the table.

use crate::answer::{refuse, refuse_at, refuse_for, Refusal};
use crate::answer::{BAD_CHAIN, BAD_EXPORT, FREE_REACHED, SIZE};
use crate::record::{begin, refused, size_is_good, Record};
use crate::table::{Table, FREE, LEFT, NIL, RIGHT, WHITE};

/// The two lists that are lent, by their side. Their numbers are wider than
/// an edge and are judged as they are.
pub type Export = [Vec<u32>; 2];

fn edge(export: &Export, node: usize, side: usize) -> usize {
    export[side][node] as usize
}

/// Code 11: the lowest node that has a bad edge, and its side, left before right; NIL
/// must have edges 0.
fn judge_edges(export: &Export, m: usize) -> Result<(), Refusal> {
    for node in 0..m {
        for side in [LEFT, RIGHT] {
            let target = edge(export, node, side);
            let bad = target >= m || target == FREE;
            let from_nil = node == NIL && target != NIL;
            if bad || from_nil {
                return refuse_for(BAD_EXPORT, node, side);
            }
        }
    }
    Ok(())
}

/// Code 12. The chain from its first node, FREE, to its end.
fn chain_of(export: &Export, r: usize) -> Result<Vec<usize>, Refusal> {
    let mut chain = vec![FREE];
    let mut node = FREE;
    loop {
        let next = edge(export, node, LEFT);
        let right_is_set = edge(export, node, RIGHT) != NIL;
        let to_a_slot = next >= 2 && next <= r + 1;
        let passed = chain.contains(&next);
        if right_is_set || to_a_slot || passed {
            return refuse_at(BAD_CHAIN, node);
        }
        if next == NIL {
            return Ok(chain);
        }
        chain.push(next);
        node = next;
    }
}

/// Whether a slot reaches a node, for every node: by any edges, those of free
/// nodes among them.
fn reached_by_slots(export: &Export, m: usize, r: usize) -> Vec<bool> {
    let mut reached = vec![false; m];
    let mut waiting: Vec<usize> = (2..r + 2).collect();
    while let Some(node) = waiting.pop() {
        if !reached[node] {
            reached[node] = true;
            waiting.push(edge(export, node, LEFT));
            waiting.push(edge(export, node, RIGHT));
        }
    }
    reached
}

/// Codes 11, 12 and 13, in this order. Answers the chain's end and how many free
/// nodes it has.
fn judge(export: &Export, m: usize, r: usize) -> Result<(usize, usize), Refusal> {
    judge_edges(export, m)?;
    let chain = chain_of(export, r)?;
    let reached = reached_by_slots(export, m, r);
    // FREE is no free node.
    let found = chain.iter().skip(1).copied().filter(|&node| reached[node]);
    if let Some(lowest) = found.min() {
        return refuse_at(FREE_REACHED, lowest);
    }
    Ok((chain[chain.len() - 1], chain.len() - 1))
}

/// All that Load writes into the slices.
fn put(table: &mut Table, export: &Export, m: usize) {
    for node in 0..m {
        table.set_edge(node, LEFT, edge(export, node, LEFT));
        table.set_edge(node, RIGHT, edge(export, node, RIGHT));
        table.colours[node] = WHITE;
    }
}

/// Code 1 is Fresh's, and the lists that are lent are held to M as well.
fn judge_and_put(
    table: &mut Table,
    export: &Export,
    m: usize,
    r: usize,
) -> Result<(usize, usize), Refusal> {
    let [left, right] = export;
    if !size_is_good(table, m, r) || left.len() != m || right.len() != m {
        return refuse(SIZE);
    }
    let last_and_free = judge(export, m, r)?;
    put(table, export, m);
    Ok(last_and_free)
}

/// Answers last; the record is that of a new table but for last and the count of
/// free nodes, and of a refused Fresh where the export is refused.
pub fn load(
    table: &mut Table,
    export: &Export,
    m: usize,
    r: usize,
) -> (Result<usize, Refusal>, Record) {
    let reply = judge_and_put(table, export, m, r);
    let record = match reply {
        Ok((last, free)) => begin(m, r, last, free),
        Err(_) => refused(),
    };
    (reply.map(|(last, _)| last), record)
}
