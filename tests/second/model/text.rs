//! The lines of a schedule and their form.

use std::io;

use crate::editor::Place;
use crate::step::{Step, LINK, LOOK, SHADE, TAKE};
use crate::table::{LEFT, RIGHT};

/// [Program 8]
const LONGEST_LINE: usize = 80;

/// The lines of the input. Of a line no more than 81 bytes are kept, which is
/// enough to know that it is over 80.
pub struct Lines<I: Iterator<Item = io::Result<u8>>>(pub I);

impl<I: Iterator<Item = io::Result<u8>>> Lines<I> {
    /// The next line without its newline, or None at the end of the input.
    /// [Program 11] The last line may end with the input.
    pub fn next_line(&mut self) -> Option<Vec<u8>> {
        let mut line = Vec::new();
        loop {
            match self.0.next() {
                Some(Ok(b'\n')) => return Some(line),
                Some(Ok(byte)) if line.len() <= LONGEST_LINE => line.push(byte),
                Some(Ok(_)) => {}
                // A reading error counts as the end of the input.
                Some(Err(_)) | None if line.is_empty() => return None,
                Some(Err(_)) | None => return Some(line),
            }
        }
    }
}

/// The line cut at each blank, unless it is too long. Two blanks in a row, or
/// one at an end, give an empty piece, which no form below accepts.
fn pieces(line: &[u8]) -> Option<Vec<&[u8]>> {
    if line.len() > LONGEST_LINE {
        return None;
    }
    Some(line.split(|&byte| byte == b' ').collect())
}

/// What stands after `key=` in the piece.
fn value<'a>(piece: &'a [u8], key: &str) -> Option<&'a [u8]> {
    piece.strip_prefix(key.as_bytes())?.strip_prefix(b"=")
}

/// [Program 4]
fn number(piece: &[u8], key: &str) -> Option<usize> {
    let text = value(piece, key)?;
    if text.is_empty() || text.len() > 7 {
        return None;
    }
    if text.len() > 1 && text[0] == b'0' {
        return None;
    }
    let mut result = 0;
    for &byte in text {
        if !byte.is_ascii_digit() {
            return None;
        }
        result = result * 10 + (byte - b'0') as usize;
    }
    Some(result)
}

/// [Program 5] Answers count and word.
fn turns(piece: &[u8], key: &str) -> Option<(usize, usize)> {
    let text = value(piece, key)?;
    if text == b"-" {
        return Some((0, 0));
    }
    if text.is_empty() {
        return None;
    }
    let mut word = 0;
    for (j, &letter) in text.iter().enumerate() {
        match letter {
            b'L' => {}
            // Above 12 turns the count alone gives code 4.
            b'R' if j < 12 => word |= 1 << j,
            b'R' => {}
            _ => return None,
        }
    }
    Some((text.len(), word))
}

/// [Program 6]
fn side(piece: &[u8]) -> Option<usize> {
    match value(piece, "side")? {
        b"L" => Some(LEFT),
        b"R" => Some(RIGHT),
        _ => None,
    }
}

/// The place of `slot=` `turns=`, or with `to` that of `toslot=` `toturns=`.
fn place(to: &str, slot_piece: &[u8], turns_piece: &[u8]) -> Option<Place> {
    let slot = number(slot_piece, &format!("{}slot", to))?;
    let (count, word) = turns(turns_piece, &format!("{}turns", to))?;
    Some(Place { slot, count, word })
}

/// [Program 2]
pub fn first_line(line: &[u8]) -> Option<(usize, usize)> {
    match pieces(line)?[..] {
        [nodes, slots] => Some((number(nodes, "nodes")?, number(slots, "slots")?)),
        _ => None,
    }
}

/// Directly after the first line, what begins so begins an export, of the form
/// or not.
pub fn begins_export(line: &[u8]) -> bool {
    line.starts_with(b"node=")
}

/// A line of an export: its node, its left and its right edge.
pub fn export_line(line: &[u8]) -> Option<(usize, usize, usize)> {
    match pieces(line)?[..] {
        [node, left, right] => {
            let node = number(node, "node")?;
            Some((node, number(left, "left")?, number(right, "right")?))
        }
        _ => None,
    }
}

/// One later line: a step, or `op=collect` with its count.
pub enum Line {
    One(Step),
    Collect(usize),
}

/// [Program 3]
pub fn later_line(line: &[u8]) -> Option<Line> {
    let mut step = Step::default();
    match pieces(line)?[..] {
        [b"op=take", slot, turns, edge] => {
            step.kind = TAKE;
            step.place = place("", slot, turns)?;
            step.side = side(edge)?;
        }
        [b"op=link", slot, turns, edge, toslot, toturns] => {
            step.kind = LINK;
            step.place = place("", slot, turns)?;
            step.side = side(edge)?;
            step.to_place = place("to", toslot, toturns)?;
        }
        [b"op=shade"] => step.kind = SHADE,
        [b"op=look", slot, turns] => {
            step.kind = LOOK;
            step.place = place("", slot, turns)?;
        }
        // [Program 7] [Program 9]
        [b"op=collect", count] => {
            let count = number(count, "count")?;
            return (count <= 1_000_000).then_some(Line::Collect(count));
        }
        _ => return None,
    }
    Some(Line::One(step))
}
