//! The node table and the values read from it.

use crate::answer::{bad_colour, bad_edge, Refusal};
use crate::record::Record;

/// [Table 5]
pub const NIL: usize = 0;
/// [Table 6]
pub const FREE: usize = 1;

/// [Table 4]
pub const WHITE: u8 = 0;
pub const GRAY: u8 = 1;
pub const BLACK: u8 = 2;

/// [Table 12]
pub const LEFT: usize = 0;
pub const RIGHT: usize = 1;

/// [Table 2] The edges stand by their side.
pub struct Table {
    pub edges: [Vec<u16>; 2],
    pub colours: Vec<u8>,
}

impl Table {
    pub fn set_edge(&mut self, node: usize, side: usize, target: usize) {
        self.edges[side][node] = target as u16;
    }

    /// [Table 11]
    pub fn shade(&mut self, node: usize) {
        if self.colours[node] == WHITE {
            self.colours[node] = GRAY;
        }
    }

    /// [Damage 1]
    pub fn edge(&self, record: &Record, node: usize, side: usize) -> Result<usize, Refusal> {
        let edge = self.edges[side][node] as usize;
        if edge >= record.m || edge == 1 {
            return bad_edge(node, side);
        }
        Ok(edge)
    }

    /// [Damage 2]
    pub fn free_edge(&self, record: &Record, node: usize) -> Result<usize, Refusal> {
        let edge = self.edges[LEFT][node] as usize;
        if (edge >= 1 && edge <= record.r + 1) || edge >= record.m {
            return bad_edge(node, LEFT);
        }
        Ok(edge)
    }

    /// [Damage 3]
    pub fn colour(&self, node: usize) -> Result<u8, Refusal> {
        let colour = self.colours[node];
        if colour > BLACK {
            return bad_colour(node);
        }
        Ok(colour)
    }
}
