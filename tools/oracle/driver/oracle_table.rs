//! Reads the private pair table of a compiled program.
//!
//! A child of `crate::ligkern`, so that the private fields are visible; it
//! changes nothing.

use super::{CompiledProgram, IntermediateOp};
use crate::Char;

/// One row of the table. An operation is a pair of numbers: 0 and a character,
/// 1 and a ligature's character, or 2 and a kern in scaled points.
pub struct Row {
    pub pair: (Option<Char>, Char),
    pub last: Char,
    pub last_is_lig: bool,
    pub ops: Vec<(i64, i64)>,
}

/// The rows in ascending order of their pairs, the boundary first.
pub fn rows(program: &CompiledProgram) -> Vec<Row> {
    let mut rows: Vec<Row> = program
        .replacements
        .iter()
        .map(|(pair, replacement)| Row {
            pair: *pair,
            last: replacement.1.c,
            last_is_lig: replacement.1.is_lig,
            ops: replacement
                .0
                .iter()
                .map(|op| match op {
                    IntermediateOp::Kern(kern) => (2, kern.0 as i64),
                    IntermediateOp::C(c) => (c.is_lig as i64, c.c.0 as i64),
                })
                .collect(),
        })
        .collect();
    rows.sort_by_key(|row| row.pair);
    rows
}
