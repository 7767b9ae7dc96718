//! The schedule program.

use std::io::{self, BufRead, Read, Write};

use crate::answer::{DONE, UNREADABLE};
use crate::load::{load, Export};
use crate::record::{fresh, Record};
use crate::step::{do_step, Step, COLLECT};
use crate::table::{Table, LEFT, RIGHT};
use crate::text::{begins_export, export_line, first_line, later_line, Line, Lines};

/// [Program 7] so many steps, or until one is refused; [Program 14] the node
fn collect_many(table: &mut Table, record: &mut Record, count: usize) -> (usize, usize) {
    let mut one = Step::default();
    one.kind = COLLECT;
    let mut node = 0;
    for _ in 0..count {
        let before = record.phase.position();
        match do_step(table, record, &one) {
            Ok(_) => node = before,
            Err(refusal) => return (refusal.code, node),
        }
    }
    (DONE, node)
}

fn do_line(table: &mut Table, record: &mut Record, line: &[u8]) -> (usize, usize) {
    match later_line(line) {
        // [Program 9]
        None => (UNREADABLE, 0),
        Some(Line::Collect(count)) => collect_many(table, record, count),
        Some(Line::One(step)) => match do_step(table, record, &step) {
            Ok(answer) => (DONE, answer.node),
            Err(refusal) => (refusal.code, refusal.node),
        },
    }
}

/// The export of m lines, the first of which is held already; None if a line of
/// it is not of the form, out of turn, or missing.
fn read_export<I>(lines: &mut Lines<I>, held: &mut Option<Vec<u8>>, m: usize) -> Option<Export>
where
    I: Iterator<Item = io::Result<u8>>,
{
    let mut export = [Vec::new(), Vec::new()];
    for due in 0..m {
        let line = held.take().or_else(|| lines.next_line())?;
        let (node, left, right) = export_line(&line)?;
        if node != due {
            return None;
        }
        // At most 7 digits: nothing is cut.
        export[LEFT].push(left as u32);
        export[RIGHT].push(right as u32);
    }
    Some(export)
}

/// The answer of Load, or that of an export which cannot be read.
fn do_load(table: &mut Table, record: &mut Record, export: Option<Export>) -> (usize, usize) {
    let Some(export) = export else {
        return (UNREADABLE, 0);
    };
    let (reply, loaded) = load(table, &export, record.m, record.r);
    *record = loaded;
    match reply {
        Ok(last) => (DONE, last),
        Err(refusal) => (refusal.code, refusal.node),
    }
}

fn print(output: &mut dyn Write, code: usize, node: usize) -> io::Result<()> {
    writeln!(output, "code={} node={}", code, node)
}

pub fn program(input: &mut dyn BufRead, output: &mut dyn Write) -> io::Result<()> {
    let mut lines = Lines(input.bytes());

    // [Program 12]
    let first = lines.next_line().unwrap_or_default();
    // [Program 10]
    let Some((m, r)) = first_line(&first) else {
        return print(output, UNREADABLE, 0);
    };
    // [Program 15] M entries of each array are lent. A size out of range is
    // refused whatever is lent.
    let lent = m.min(4096);
    let (edges, colours) = ([vec![0; lent], vec![0; lent]], vec![0; lent]);
    let mut table = Table { edges, colours };
    let (code, mut record) = fresh(&mut table, m, r);
    // [Program 13] of the first line, last
    print(output, code, record.last)?;
    if code != DONE {
        return Ok(());
    }

    let mut held = lines.next_line();
    if begins_export(held.as_deref().unwrap_or_default()) {
        let export = read_export(&mut lines, &mut held, m);
        let (code, node) = do_load(&mut table, &mut record, export);
        print(output, code, node)?;
        if code != DONE {
            return Ok(());
        }
    }

    while let Some(line) = held.take().or_else(|| lines.next_line()) {
        let (code, node) = do_line(&mut table, &mut record, &line);
        print(output, code, node)?;
    }
    Ok(())
}
