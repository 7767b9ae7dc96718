//! The record that travels beside the table, Fresh, and codes 1 and 2.

use crate::answer::{refuse, Refusal, DONE, RECORD, SIZE};
use crate::table::{Table, FREE, LEFT, RIGHT, WHITE};

/// [Record 2] Left and Right read an edge; the two cases behind them shade the number
/// read, which they hold beside i.
#[derive(Clone, Copy)]
pub enum Phase {
    Roots(usize),
    Scan(usize, usize),
    Left(usize),
    LeftRead(usize, usize),
    Right(usize),
    RightRead(usize, usize),
    Black(usize),
    Append(usize),
}

impl Phase {
    /// the i of the case
    pub fn position(self) -> usize {
        match self {
            Phase::Roots(i) | Phase::Scan(i, _) => i,
            Phase::Left(i) | Phase::LeftRead(i, _) => i,
            Phase::Right(i) | Phase::RightRead(i, _) => i,
            Phase::Black(i) | Phase::Append(i) => i,
        }
    }
}

/// [Record 1] the record: [Record 4] the shade owed, [Record 5] last, the counts
/// [Record 6] [Record 7] [Record 8] [Record 9] [Record 10] and that of the free nodes
#[derive(Clone, Copy)]
pub struct Record {
    pub m: usize,
    pub r: usize,
    pub phase: Phase,
    pub owed: Option<usize>,
    pub last: usize,
    pub steps: usize,
    pub cycles: usize,
    pub last_cycle_steps: usize,
    pub blackened: usize,
    pub blackened_last_cycle: usize,
    pub free: usize,
}

/// [Record 7]
pub const LARGEST_CYCLES: usize = 4_294_967_295;

/// [Fresh 5] the record of a new table
pub fn begin(m: usize, r: usize, last: usize, free: usize) -> Record {
    Record {
        m,
        r,
        phase: Phase::Roots(0),
        owed: None,
        last,
        steps: 0,
        cycles: 0,
        last_cycle_steps: 0,
        blackened: 0,
        blackened_last_cycle: 0,
        free,
    }
}

/// [Fresh 7] [Fresh 8] the record of one that was refused
pub fn refused() -> Record {
    begin(0, 0, 0, 0)
}

/// [Fresh 1] makes a new table of m nodes and r slots
pub fn fresh(table: &mut Table, m: usize, r: usize) -> (usize, Record) {
    if !size_is_good(table, m, r) {
        return (SIZE, refused());
    }
    for node in 0..m {
        // [Fresh 2] all white, [Fresh 4] edges 0 but for the free list's
        table.colours[node] = WHITE;
        table.set_edge(node, LEFT, 0);
        table.set_edge(node, RIGHT, 0);
    }
    // [Fresh 3] the free list, [Table 7] by its left edges; [Record 5] last
    let mut last = FREE;
    for node in r + 2..m {
        table.set_edge(last, LEFT, node);
        last = node;
    }
    (DONE, begin(m, r, last, m - r - 2))
}

/// [Table 1] the sizes' range, and [Codes 1] the lengths of the arrays
pub fn size_is_good(table: &Table, m: usize, r: usize) -> bool {
    let in_range = m >= 3 && m <= 4096 && r >= 1 && r <= 64 && r + 2 <= m;
    let [left, right] = &table.edges;
    in_range && left.len() == m && right.len() == m && table.colours.len() == m
}

impl Record {
    /// [Record 11] B
    fn bound(&self) -> usize {
        self.m * self.m + 7 * self.m + self.r + 2
    }

    /// [Record 3]
    fn position_inside(&self) -> bool {
        match self.phase {
            Phase::Roots(i) => i <= self.r + 1,
            Phase::Scan(i, k) => i < self.m && k >= 1 && k <= self.m,
            Phase::LeftRead(i, node) | Phase::RightRead(i, node) => {
                i < self.m && node != FREE && node < self.m
            }
            other => other.position() < self.m,
        }
    }

    /// The count of free nodes is 0 exactly when last is 1.
    fn free_goes_with_last(&self) -> bool {
        let none_with_last = self.free == 0 && self.last != 1;
        let some_without_last = self.free != 0 && self.last == 1;
        !none_with_last && !some_without_last
    }

    /// Codes 1 and 2, in this order.
    pub fn judge(&self, table: &Table) -> Result<(), Refusal> {
        // [Codes 1]
        if !size_is_good(table, self.m, self.r) {
            return refuse(SIZE);
        }
        // [Codes 2] the position, and the number read
        if !self.position_inside() {
            return refuse(RECORD);
        }
        // the node owed
        if let Some(owed) = self.owed {
            if owed == 1 || owed >= self.m {
                return refuse(RECORD);
            }
        }
        // last
        let last_is_a_free_place = self.last >= self.r + 2 && self.last <= self.m - 1;
        if self.last != 1 && !last_is_a_free_place {
            return refuse(RECORD);
        }
        // the counts of nodes
        if self.blackened > self.m || self.blackened_last_cycle > self.m {
            return refuse(RECORD);
        }
        // the counts of steps
        if self.steps >= self.bound() || self.last_cycle_steps > self.bound() {
            return refuse(RECORD);
        }
        // the count of free nodes
        if self.free > self.m - self.r - 2 || !self.free_goes_with_last() {
            return refuse(RECORD);
        }
        Ok(())
    }

    /// How many nodes are free: the count, and no look at the chain.
    pub fn count_free(&self, table: &Table) -> Result<usize, Refusal> {
        self.judge(table)?;
        Ok(self.free)
    }
}
