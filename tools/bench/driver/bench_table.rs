//! Reads the private pair table of a compiled program, without copying the ops.
//!
//! A child of `crate::ligkern`, so that the private fields are visible; it changes nothing.

use super::compiler::Replacement;
use super::{CompiledProgram, IntermediateOp};
use crate::Char;

/// One row of the table.
pub struct Row<'a> {
    pub pair: (Option<Char>, Char),
    replacement: &'a Replacement,
}

impl Row<'_> {
    /// The last character, and whether it is a ligature.
    pub fn last(&self) -> (i32, i32) {
        (self.replacement.1.c.0 as i32, self.replacement.1.is_lig as i32)
    }
    /// How many operations it has.
    pub fn count(&self) -> i32 {
        self.replacement.0.len() as i32
    }
    /// Its operations: 0 and a character, 1 and a ligature's character, or 2 and a kern in scaled points.
    pub fn ops(&self) -> impl Iterator<Item = (i32, i32)> + '_ {
        self.replacement.0.iter().map(|op| match op {
            IntermediateOp::Kern(kern) => (2, kern.0),
            IntermediateOp::C(c) => (c.is_lig as i32, c.c.0 as i32),
        })
    }
}

/// The rows in ascending order of their pairs, the boundary first.
pub fn rows(program: &CompiledProgram) -> Vec<Row<'_>> {
    let mut rows: Vec<Row> = program.replacements.iter().map(|(pair, replacement)| Row { pair: *pair, replacement }).collect();
    rows.sort_unstable_by_key(|row| row.pair);
    rows
}
