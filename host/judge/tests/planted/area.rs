//! The numbers of a plan (docs/PLAN.md), found so that one of them can be altered.

use std::ops::{Range, RangeInclusive};

const HEADER: usize = 6;
const CELL: usize = 4;

/// An area that holds a plan.
pub struct Area<'a>(pub &'a mut [u32]);

impl Area<'_> {
    /// Where the plan ends.
    pub fn end(&self) -> usize {
        self.0[5] as usize
    }

    /// The place of the first cell of some kinds.
    fn cell(&self, kinds: RangeInclusive<u32>) -> Option<usize> {
        let cells = (0..self.0[2] as usize).map(|cell| HEADER + CELL * cell);
        cells.into_iter().find(|place| kinds.contains(&self.0[*place]))
    }

    /// The places of the own numbers of the first node of a kind.
    fn node(&self, kind: u32) -> Option<Range<usize>> {
        let mut place = HEADER + CELL * self.0[2] as usize;
        for _ in 0..self.0[3] {
            let own = place + 2..place + 2 + self.0[place + 1] as usize;
            if self.0[place] == kind {
                return Some(own);
            }
            place = own.end;
        }
        None
    }

    /// Alters the bits of a number of the first cell of some kinds.
    pub fn alter_cell(&mut self, kinds: RangeInclusive<u32>, number: usize, bits: u32) {
        if let Some(place) = self.cell(kinds) {
            self.0[place + number] ^= bits;
        }
    }

    pub fn exchange_operands(&mut self) {
        if let Some(place) = self.cell(16..=27) {
            self.0.swap(place + 1, place + 2);
        }
    }

    /// Alters the bits of a number of the first node of a kind.
    pub fn alter_node(&mut self, kind: u32, number: usize, bits: u32) {
        if let Some(own) = self.node(kind) {
            self.0[own.start + number] ^= bits;
        }
    }

    /// Sets numbers of the first node of a kind to zero.
    pub fn clear_node(&mut self, kind: u32, numbers: Range<usize>) {
        if let Some(own) = self.node(kind) {
            self.0[own.start + numbers.start..own.start + numbers.end].fill(0);
        }
    }

    /// Makes the first node of a kind one of another.
    pub fn rename_node(&mut self, kind: u32, other: u32) {
        if let Some(own) = self.node(kind) {
            self.0[own.start - 2] = other;
        }
    }

    /// Turns the targets of the first remap by one.
    pub fn turn_targets(&mut self) {
        if let Some(own) = self.node(10) {
            self.0[own.start + 1..own.end].rotate_left(1);
        }
    }
}
