//! The modes --state, --run, --fresh, --load, --inuse and --free.

use std::convert::TryFrom;
use std::io::{self, BufRead, Write};

use crate::answer::{Refusal, DONE};
use crate::editor::Place;
use crate::inuse::nodes_in_use;
use crate::load::load;
use crate::record::{fresh, Phase, Record, LARGEST_CYCLES};
use crate::step::{do_and_count, do_run, Step};
use crate::table::Table;

fn phase_of(tag: usize, i: usize, k: usize, read: usize) -> Option<Phase> {
    match tag {
        0 => Some(Phase::Roots(i)),
        1 => Some(Phase::Scan(i, k)),
        2 => Some(Phase::Left(i)),
        3 => Some(Phase::Right(i)),
        4 => Some(Phase::Black(i)),
        5 => Some(Phase::Append(i)),
        6 => Some(Phase::LeftRead(i, read)),
        7 => Some(Phase::RightRead(i, read)),
        _ => None,
    }
}

/// The decimal numbers of one line, taken one after the other.
pub struct Numbers<'a>(std::str::Split<'a, char>);

impl<'a> Numbers<'a> {
    fn take(&mut self) -> Option<usize> {
        self.0.next()?.parse::<usize>().ok()
    }

    fn owed(&mut self) -> Option<Option<usize>> {
        let (owing, node) = (self.take()?, self.take()?);
        [None, Some(node)].get(owing).copied()
    }

    /// The number read stands last of all, far behind the rest of its phase.
    fn record(&mut self) -> Option<Record> {
        let (m, r) = (self.take()?, self.take()?);
        let (tag, i, k) = (self.take()?, self.take()?, self.take()?);
        Some(Record {
            m,
            r,
            owed: self.owed()?,
            last: self.take()?,
            steps: self.take()?,
            cycles: self.take().filter(|&cycles| cycles <= LARGEST_CYCLES)?,
            last_cycle_steps: self.take()?,
            blackened: self.take()?,
            blackened_last_cycle: self.take()?,
            free: self.take()?,
            phase: phase_of(tag, i, k, self.take()?)?,
        })
    }

    /// A length, then so many numbers that fit.
    fn array<T: TryFrom<usize>>(&mut self) -> Option<Vec<T>> {
        let length = self.take()?;
        let one = |_| T::try_from(self.take()?).ok();
        (0..length).map(one).collect()
    }

    fn table(&mut self) -> Option<Table> {
        let edges = [self.array()?, self.array()?];
        let colours = self.array()?;
        Some(Table { edges, colours })
    }

    fn place(&mut self) -> Option<Place> {
        let (slot, count, word) = (self.take()?, self.take()?, self.take()?);
        Some(Place { slot, count, word })
    }

    fn step(&mut self) -> Option<Step> {
        Some(Step {
            kind: self.take()?,
            place: self.place()?,
            side: self.take()?,
            to_place: self.place()?,
        })
    }

    /// Nothing stands behind the last number.
    fn end(&mut self) -> Option<()> {
        self.0.next().map_or(Some(()), |_| None)
    }
}

fn show(record: &Record, table: &Table) -> String {
    let (tag, k, read) = match record.phase {
        Phase::Roots(_) => (0, 0, 0),
        Phase::Scan(_, k) => (1, k, 0),
        Phase::Left(_) => (2, 0, 0),
        Phase::Right(_) => (3, 0, 0),
        Phase::Black(_) => (4, 0, 0),
        Phase::Append(_) => (5, 0, 0),
        Phase::LeftRead(_, read) => (6, 0, read),
        Phase::RightRead(_, read) => (7, 0, read),
    };
    let (owing, owed) = record.owed.map_or((0, 0), |node| (1, node));
    let mut numbers = vec![record.m, record.r, tag, record.phase.position(), k];
    numbers.extend([owing, owed, record.last, record.steps, record.cycles]);
    numbers.extend([record.last_cycle_steps, record.blackened]);
    numbers.extend([record.blackened_last_cycle, record.free, read]);
    for edges in &table.edges {
        numbers.push(edges.len());
        numbers.extend(edges.iter().map(|&edge| edge as usize));
    }
    numbers.push(table.colours.len());
    numbers.extend(table.colours.iter().map(|&colour| colour as usize));
    let words: Vec<String> = numbers.iter().map(|number| number.to_string()).collect();
    words.join(" ")
}

/// Code, node or number, and detail.
fn tell(reply: Result<usize, Refusal>) -> String {
    let (code, node, detail) = match reply {
        Ok(node) => (DONE, node, 0),
        Err(refusal) => (refusal.code, refusal.node, refusal.detail),
    };
    format!("{} {} {}", code, node, detail)
}

pub fn state_line(numbers: &mut Numbers) -> Option<String> {
    let mut record = numbers.record()?;
    let mut table = numbers.table()?;
    let step = numbers.step()?;
    numbers.end()?;
    let (reply, changed) = do_and_count(&mut table, &mut record, &step);
    let did = reply.as_ref().map_or(0, |answer| answer.did as usize);
    let told = tell(reply.map(|answer| answer.node));
    let after = show(&record, &table);
    Some(format!("{} {} {} {}", told, changed, did, after))
}

pub fn run_line(numbers: &mut Numbers) -> Option<String> {
    let mut record = numbers.record()?;
    let mut table = numbers.table()?;
    let count = numbers.take()?;
    let steps: Vec<Step> = (0..count).map(|_| numbers.step()).collect::<Option<_>>()?;
    numbers.end()?;
    let (done, code, detail, changed) = do_run(&mut table, &mut record, &steps);
    let after = show(&record, &table);
    Some(format!(
        "{} {} {} {} {}",
        done, code, detail, changed, after
    ))
}

pub fn fresh_line(numbers: &mut Numbers) -> Option<String> {
    let (m, r) = (numbers.take()?, numbers.take()?);
    let mut table = numbers.table()?;
    numbers.end()?;
    let (code, record) = fresh(&mut table, m, r);
    // Code 1 has no detail.
    Some(format!("{} 0 {}", code, show(&record, &table)))
}

pub fn load_line(numbers: &mut Numbers) -> Option<String> {
    let (m, r) = (numbers.take()?, numbers.take()?);
    let export = [numbers.array()?, numbers.array()?];
    let mut table = numbers.table()?;
    numbers.end()?;
    let (reply, record) = load(&mut table, &export, m, r);
    Some(format!("{} {}", tell(reply), show(&record, &table)))
}

pub fn inuse_line(numbers: &mut Numbers) -> Option<String> {
    let record = numbers.record()?;
    let table = numbers.table()?;
    numbers.end()?;
    Some(tell(nodes_in_use(&table, &record)))
}

pub fn free_line(numbers: &mut Numbers) -> Option<String> {
    let record = numbers.record()?;
    let table = numbers.table()?;
    numbers.end()?;
    Some(tell(record.count_free(&table)))
}

pub fn program(
    input: &mut dyn BufRead,
    output: &mut dyn Write,
    one_line: fn(&mut Numbers) -> Option<String>,
) -> io::Result<()> {
    let mut text = Vec::new();
    loop {
        text.clear();
        if input.read_until(b'\n', &mut text)? == 0 {
            return Ok(());
        }
        let line = String::from_utf8_lossy(&text);
        let mut numbers = Numbers(line.trim_end().split(' '));
        let result = one_line(&mut numbers).unwrap_or("bad line".to_string());
        writeln!(output, "{}", result)?;
    }
}
