//! Nodes in use: how many some slot reaches, asked of the table as it stands.
//! Nothing is written.

use crate::answer::Refusal;
use crate::record::Record;
use crate::table::{Table, LEFT, NIL, RIGHT};

/// Whether a slot reaches a node along good edges, for every node. Slots' nodes
/// are reached; NIL is left out, and its edges are not read.
fn reached_by_slots(table: &Table, record: &Record) -> Vec<bool> {
    let mut reached = vec![false; record.m];
    let mut waiting: Vec<usize> = (2..record.r + 2).collect();
    while let Some(node) = waiting.pop() {
        if node == NIL || reached[node] {
            continue;
        }
        reached[node] = true;
        for side in [LEFT, RIGHT] {
            // A bad edge leads nowhere; the other one is gone along all the same.
            waiting.extend(table.edge(record, node, side).ok());
        }
    }
    reached
}

/// Codes 1 and 2, then 7 with the lowest node that is reached and has a bad edge, and
/// the side, left before right. Answers how many are reached, slots' nodes left out.
pub fn nodes_in_use(table: &Table, record: &Record) -> Result<usize, Refusal> {
    record.judge(table)?;
    let reached = reached_by_slots(table, record);
    for node in 0..record.m {
        for side in [LEFT, RIGHT] {
            if reached[node] {
                table.edge(record, node, side)?;
            }
        }
    }
    let first = record.r + 2;
    Ok((first..record.m).filter(|&node| reached[node]).count())
}
