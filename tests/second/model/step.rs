//! One step record, and a run of them.

use crate::answer::{refuse, Refusal, Reply, DONE, UNREADABLE};
use crate::collector::collect;
use crate::editor::{link, look, shade, take, Place};
use crate::record::Record;
use crate::table::{Table, LEFT, RIGHT};

/// [Steps 1] a step's numbers, [Steps 2] its kinds, [Steps 3] and what they read
#[derive(Clone, Copy, Default)]
pub struct Step {
    pub kind: usize,
    pub place: Place,
    pub side: usize,
    pub to_place: Place,
}

pub const TAKE: usize = 0;
pub const LINK: usize = 1;
pub const SHADE: usize = 2;
pub const COLLECT: usize = 3;
pub const LOOK: usize = 4;

/// [Codes 10]
fn judge_readable(step: &Step) -> Result<(), Refusal> {
    if step.kind > LOOK {
        return refuse(UNREADABLE);
    }
    let has_side = step.kind == TAKE || step.kind == LINK;
    if has_side && step.side != LEFT && step.side != RIGHT {
        return refuse(UNREADABLE);
    }
    Ok(())
}

/// [Order 1] codes 1, 2 and 10, then those that each step's own function judges
pub fn do_step(table: &mut Table, record: &mut Record, step: &Step) -> Reply {
    record.judge(table)?;
    judge_readable(step)?;
    match step.kind {
        TAKE => take(table, record, step.place, step.side),
        LINK => link(table, record, step.place, step.side, step.to_place),
        SHADE => shade(table, record),
        COLLECT => collect(table, record),
        _ => look(table, record, step.place),
    }
}

/// A step, and how many colours it changed: those that are not as they were
/// before, whatever the step is.
pub fn do_and_count(table: &mut Table, record: &mut Record, step: &Step) -> (Reply, usize) {
    let before = table.colours.clone();
    let reply = do_step(table, record, step);
    let pairs = before.iter().zip(&table.colours);
    let changed = pairs.filter(|(was, is)| was != is).count();
    (reply, changed)
}

/// How many steps of a run were done, the code and the detail, and the colours
/// changed, summed over the steps done.
pub type Run = (usize, usize, usize, usize);

/// [Schedules 1] [Schedules 2] [Schedules 3]
pub fn do_run(table: &mut Table, record: &mut Record, steps: &[Step]) -> Run {
    // [Schedules 4]
    if let Err(refusal) = record.judge(table) {
        return (0, refusal.code, refusal.detail, 0);
    }
    let mut sum = 0;
    for (done, step) in steps.iter().enumerate() {
        let (reply, changed) = do_and_count(table, record, step);
        if let Err(refusal) = reply {
            return (done, refusal.code, refusal.detail, sum);
        }
        sum += changed;
    }
    (steps.len(), DONE, 0, sum)
}
