//! Codes, refusals and answers.

pub const DONE: usize = 0;
pub const SIZE: usize = 1;
pub const RECORD: usize = 2;
pub const SLOT: usize = 3;
pub const TURNS: usize = 4;
pub const OWED: usize = 5;
pub const NOTHING_OWED: usize = 6;
pub const DAMAGED: usize = 7;
pub const ABSENT: usize = 8;
pub const EMPTY: usize = 9;
pub const UNREADABLE: usize = 10;
/// of Load alone: an edge, the free chain, a free node that a slot reaches
pub const BAD_EXPORT: usize = 11;
pub const BAD_CHAIN: usize = 12;
pub const FREE_REACHED: usize = 13;
/// a colour above 2, and a node that Append should not meet
pub const COLOUR: usize = 14;
pub const UNFIT: usize = 15;

/// The details of code 15. Those of 7 and 11 are sides, and all others are 0.
pub const UNFIT_GRAY: usize = 0;
pub const UNFIT_ROOT: usize = 1;
pub const UNFIT_LAST: usize = 2;

/// [Answers 3]
pub struct Refusal {
    pub code: usize,
    pub node: usize,
    pub detail: usize,
}

pub fn refuse<T>(code: usize) -> Result<T, Refusal> {
    refuse_at(code, 0)
}

pub fn refuse_at<T>(code: usize, node: usize) -> Result<T, Refusal> {
    refuse_for(code, node, 0)
}

pub fn refuse_for<T>(code: usize, node: usize, detail: usize) -> Result<T, Refusal> {
    Err(Refusal { code, node, detail })
}

/// [Codes 7] with the node that has the bad edge, and the edge's side
pub fn bad_edge<T>(node: usize, side: usize) -> Result<T, Refusal> {
    refuse_for(DAMAGED, node, side)
}

/// Code 14, with the node that has the bad colour.
pub fn bad_colour<T>(node: usize) -> Result<T, Refusal> {
    refuse_at(COLOUR, node)
}

/// [Answers 1] what a collector step did; the values are the `did` column of
/// `--state`.
#[derive(Clone, Copy)]
pub enum Did {
    Edited = 0,
    Shaded = 1,
    Looked = 2,
    Blackened = 3,
    Whitened = 4,
    Appended = 5,
}

pub struct Answer {
    pub did: Did,
    pub node: usize,
}

pub type Reply = Result<Answer, Refusal>;

pub fn answer(did: Did, node: usize) -> Reply {
    Ok(Answer { did, node })
}
