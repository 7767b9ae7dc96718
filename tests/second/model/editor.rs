//! Places and the editor's steps. Codes 1, 2 and 10 have been judged before.

use crate::answer::{answer, refuse, Did, Refusal, Reply};
use crate::answer::{ABSENT, EMPTY, NOTHING_OWED, OWED, SLOT, TURNS};
use crate::record::Record;
use crate::table::{Table, FREE, LEFT, NIL};

/// [Places 1]
#[derive(Clone, Copy, Default)]
pub struct Place {
    pub slot: usize,
    pub count: usize,
    pub word: usize,
}

/// Codes 3 and 4 of one place, in this order [Places 8].
fn judge_place(record: &Record, place: Place) -> Result<(), Refusal> {
    // [Codes 3]
    if place.slot >= record.r {
        return refuse(SLOT);
    }
    // [Codes 4]
    if place.count > 12 || place.word >> place.count != 0 {
        return refuse(TURNS);
    }
    Ok(())
}

/// [Places 4] [Places 5] an edge for each turn, until NIL
fn walk(table: &Table, record: &Record, place: Place) -> Result<usize, Refusal> {
    // [Table 8]
    let mut node = place.slot + 2;
    for j in 0..place.count {
        if node == NIL {
            return Ok(NIL);
        }
        // [Places 2]
        let side = (place.word >> j) & 1;
        node = table.edge(record, node, side)?;
    }
    Ok(node)
}

/// [Codes 5], then the walk to the source, then [Codes 8]
fn source_of(table: &Table, record: &Record, place: Place) -> Result<usize, Refusal> {
    if record.owed.is_some() {
        return refuse(OWED);
    }
    let source = walk(table, record, place)?;
    if source == NIL {
        return refuse(ABSENT);
    }
    Ok(source)
}

/// [Look 1] [Look 2]
pub fn look(table: &Table, record: &Record, place: Place) -> Reply {
    judge_place(record, place)?;
    let node = walk(table, record, place)?;
    answer(Did::Edited, node)
}

/// [Link 1] moves the edge, [Link 2] and owes the target's shade
pub fn link(table: &mut Table, record: &mut Record, from: Place, side: usize, to: Place) -> Reply {
    // [Order 1] the first place's codes before the second's
    judge_place(record, from)?;
    judge_place(record, to)?;
    // [Order 2] the source's walk and code 8 before the target's walk; [Link 4]
    // both walks before the edge is moved
    let source = source_of(table, record, from)?;
    let target = walk(table, record, to)?;
    table.set_edge(source, side, target);
    record.owed = Some(target);
    // [Link 5]
    answer(Did::Edited, target)
}

/// [Shade 1] [Shade 2] pays the shade owed
pub fn shade(table: &mut Table, record: &mut Record) -> Reply {
    // [Codes 6]
    let Some(node) = record.owed else {
        return refuse(NOTHING_OWED);
    };
    table.colour(node)?;
    table.shade(node);
    record.owed = None;
    answer(Did::Edited, node)
}

/// [Take 1] f is the first free node, g the one after it
pub fn take(table: &mut Table, record: &mut Record, place: Place, side: usize) -> Reply {
    judge_place(record, place)?;
    let source = source_of(table, record, place)?;
    // [Order 3] [Codes 9]
    let f = table.free_edge(record, FREE)?;
    if f == 0 {
        return refuse(EMPTY);
    }
    // [Take 2]
    let g = table.free_edge(record, f)?;
    table.colour(f)?;
    if g != 0 {
        table.colour(g)?;
    }
    // [Take 3] the edges in their order, [Take 4] the shading, [Take 5] last; the
    // count falls by one, but not below 0
    table.set_edge(source, side, f);
    table.set_edge(FREE, LEFT, g);
    table.set_edge(f, LEFT, 0);
    table.shade(f);
    if g != 0 {
        table.shade(g);
    } else {
        record.last = 1;
    }
    record.free = record.free.saturating_sub(1);
    // [Take 6] [Take 7]
    answer(Did::Edited, f)
}
