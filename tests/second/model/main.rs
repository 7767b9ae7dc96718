//! A second program, written from the studio's document 01 alone, without a look
//! at the first, and Load, nodes in use, colours changed, the count of free nodes, the
//! kinds of damage and the smaller collector steps from the studio's requests for them
//! in the same way. The comments cite the rules of docs/RULES.md that it follows.
//!
//!     rustc -O main.rs -o model
//!
//! `model` is the schedule program: standard input to standard output.
//!
//! `model --state` reads one state and one step per line, as decimal numbers
//! between single blanks (shown here in pieces):
//!
//!     M R phase i k owing owed last steps cycles last-steps blackened
//!     blackened-last-cycle free read
//!     len left[0] .. len right[0] .. len colour[0] ..
//!     kind slot count word side toslot tocount toword
//!
//! phase: 0 Roots, 1 Scan, 2 Left, 3 Right, 4 Black, 5 Append, 6 the second half
//! of Left, 7 that of Right. k is taken for Scan only and printed 0 elsewhere; so is
//! read, the number read, for 6 and 7. owing: 0 nothing (owed is not read and is
//! printed 0), 1 a node. Edges have 16 bits, colours 8, cycles 32; every other number
//! may have 64. A line not of this form prints "bad line". The answer is one line:
//!
//!     code node detail changed did, then M R .. colour.. as they are afterwards
//!
//! detail: the side of the bad edge for code 7 (0 left, 1 right), the reason for 15
//! (0 gray, 1 a white root, 2 a white last), else 0. changed: how many colours the
//! step changed, 0 for a refusal. did: 0 an editor step or a refusal, 1 shaded, 2
//! looked, 3 blackened, 4 whitened, 5 appended.
//!
//! `model --run` has after the arrays the number of steps and then so many
//! times the eight numbers of a step, and answers: done code detail changed M R
//! .. colour.. with the colours changed, summed over the steps that were done.
//!
//! `model --fresh` reads: M R len left.. len right.. len colour.. and answers:
//! code detail M R .. colour.. with the detail 0.
//!
//! `model --load` reads M and R, the two lists of edges that are lent, and the
//! three slices as they are before; each of the five has its own length, which
//! need not be M (shown here in pieces):
//!
//!     M R
//!     len lent-left[0] .. len lent-right[0] ..
//!     len left[0] .. len right[0] .. len colour[0] ..
//!
//! The edges that are lent have 32 bits, those in the slices 16, colours 8, M
//! and R and the lengths 64. The answer is one line:
//!
//!     code node detail, then M R .. colour.. as they are afterwards
//!
//! node is last where code is 0, the node refused where code is 11, 12 or 13, and 0
//! where it is 1; detail is the side where code is 11, else 0. The record printed (M
//! to read) is all 0 where code is not 0, and the slices are then as they were.
//!
//! `model --inuse` reads a record and the three slices as `--state` does, without
//! a step, and answers: code number detail. number is that of the nodes in use where
//! code is 0, the node refused where it is 7, else 0; detail is the side for 7, else 0.
//!
//! `model --free` reads the same and answers: code count detail, with the count of
//! free nodes where code is 0, else 0; detail is always 0.

mod answer;
mod collector;
mod editor;
mod inuse;
mod load;
mod record;
mod schedule;
mod states;
mod step;
mod table;
mod text;

use std::io::{self, BufReader, BufWriter, Write};

fn main() {
    let arguments: Vec<String> = std::env::args().skip(1).collect();
    let words: Vec<&str> = arguments.iter().map(|word| word.as_str()).collect();
    let mut input = BufReader::new(io::stdin().lock());
    let mut output = BufWriter::new(io::stdout().lock());
    let result = match words.as_slice() {
        [] => schedule::program(&mut input, &mut output),
        ["--state"] => states::program(&mut input, &mut output, states::state_line),
        ["--run"] => states::program(&mut input, &mut output, states::run_line),
        ["--fresh"] => states::program(&mut input, &mut output, states::fresh_line),
        ["--load"] => states::program(&mut input, &mut output, states::load_line),
        ["--inuse"] => states::program(&mut input, &mut output, states::inuse_line),
        ["--free"] => states::program(&mut input, &mut output, states::free_line),
        _ => {
            eprintln!("usage: model [--state | --run | --fresh | --load | --inuse | --free]");
            std::process::exit(2);
        }
    };
    // An output that nobody reads any more ends the run quietly.
    if result.and_then(|_| output.flush()).is_err() {
        std::process::exit(1);
    }
}
