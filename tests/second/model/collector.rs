//! The collector's steps. Codes 1 and 2 have been judged before.

use crate::answer::{answer, refuse_for, Did, Refusal, Reply};
use crate::answer::{UNFIT, UNFIT_GRAY, UNFIT_LAST, UNFIT_ROOT};
use crate::record::{Phase, Record, LARGEST_CYCLES};
use crate::table::{Table, BLACK, GRAY, LEFT, RIGHT, WHITE};

/// [Collector 1] the step of the phase
pub fn collect(table: &mut Table, record: &mut Record) -> Reply {
    match record.phase {
        Phase::Roots(i) => roots(table, record, i),
        Phase::Scan(i, k) => scan(table, record, i, k),
        Phase::Left(i) => read_edge(table, record, i, LEFT),
        Phase::LeftRead(i, node) => shade_read(table, record, i, LEFT, node),
        Phase::Right(i) => read_edge(table, record, i, RIGHT),
        Phase::RightRead(i, node) => shade_read(table, record, i, RIGHT, node),
        Phase::Black(i) => black(table, record, i),
        Phase::Append(i) => append(table, record, i),
    }
}

/// [Collector 2] one more step is done
fn move_on(record: &mut Record, phase: Phase) {
    record.steps += 1;
    record.phase = phase;
}

/// [Collector 3] the node after i
fn next(record: &Record, i: usize) -> usize {
    (i + 1) % record.m
}

/// [Roots 1] [Roots 2]
fn roots(table: &mut Table, record: &mut Record, i: usize) -> Reply {
    table.colour(i)?;
    table.shade(i);
    if i == record.r + 1 {
        move_on(record, Phase::Scan(0, record.m));
    } else {
        move_on(record, Phase::Roots(i + 1));
    }
    answer(Did::Shaded, i)
}

/// [Scan 1] [Scan 2] [Scan 3] [Scan 4]
fn scan(table: &mut Table, record: &mut Record, i: usize, k: usize) -> Reply {
    if table.colour(i)? == GRAY {
        move_on(record, Phase::Left(i));
    } else if k == 1 {
        move_on(record, Phase::Append(0));
        // [Record 10]
        record.blackened_last_cycle = record.blackened;
    } else {
        move_on(record, Phase::Scan(next(record, i), k - 1));
    }
    answer(Did::Looked, i)
}

/// [Edges 1] the first half of Left and of Right: the edge is read, and no colour
fn read_edge(table: &Table, record: &mut Record, i: usize, side: usize) -> Reply {
    let node = table.edge(record, i, side)?;
    let shading = [Phase::LeftRead(i, node), Phase::RightRead(i, node)];
    move_on(record, shading[side]);
    answer(Did::Looked, i)
}

/// [Edges 2] [Edges 3] the second half: the number read is shaded, and no edge is read
fn shade_read(table: &mut Table, record: &mut Record, i: usize, side: usize, node: usize) -> Reply {
    table.colour(node)?;
    table.shade(node);
    move_on(record, [Phase::Right(i), Phase::Black(i)][side]);
    answer(Did::Shaded, node)
}

/// [Black 1] [Black 2] [Black 3]
fn black(table: &mut Table, record: &mut Record, i: usize) -> Reply {
    table.colours[i] = BLACK;
    record.blackened += 1;
    move_on(record, Phase::Scan(next(record, i), record.m));
    answer(Did::Blackened, i)
}

/// [Damage 4] Code 15: gray, a white root, the white node that is last. FREE can be
/// both of the latter, and is then a root.
fn judge_fit(record: &Record, i: usize, colour: u8) -> Result<(), Refusal> {
    if colour == GRAY {
        return refuse_for(UNFIT, i, UNFIT_GRAY);
    }
    if colour == WHITE && i <= record.r + 1 {
        return refuse_for(UNFIT, i, UNFIT_ROOT);
    }
    if colour == WHITE && i == record.last {
        return refuse_for(UNFIT, i, UNFIT_LAST);
    }
    Ok(())
}

/// [Append 1] reads the colour; [Append 2] black, [Append 3] white; [Append 4]
fn append(table: &mut Table, record: &mut Record, i: usize) -> Reply {
    // [Damage 3]
    let colour = table.colour(i)?;
    judge_fit(record, i, colour)?;
    let did;
    if colour == BLACK {
        table.colours[i] = WHITE;
        did = Did::Whitened;
    } else {
        table.set_edge(i, LEFT, 0);
        table.set_edge(i, RIGHT, 0);
        table.set_edge(record.last, LEFT, i);
        record.last = i;
        record.free += 1;
        did = Did::Appended;
    }
    if i == record.m - 1 {
        complete_cycle(record);
    } else {
        move_on(record, Phase::Append(i + 1));
    }
    answer(did, i)
}

/// [Append 5]
fn complete_cycle(record: &mut Record) {
    move_on(record, Phase::Roots(0));
    record.last_cycle_steps = record.steps;
    record.steps = 0;
    record.blackened = 0;
    // [Record 7]
    if record.cycles < LARGEST_CYCLES {
        record.cycles += 1;
    }
}
