//! The published functions as the comparison calls them: numbers in, numbers out, laid out as the C library lays them
//! out (c/ligkern.h), so that two answers are compared number for number.
//!
//! It stands as the module `oracle` of the crate that tools/oracle lays out around the published text, since one
//! function that it needs, `lig_kern_operation_from_bytes`, is private to that crate. It decides nothing: where the
//! published text panics, so does the function here.

use crate::ligkern::lang::{
    Instruction, InvalidEntrypointError, Operation, PostLigOperation, Program, ReachableIterItem, ValidationWarning,
};
pub use crate::ligkern::CompiledProgram;
use crate::ligkern::{oracle_table, RunOptions};
use crate::{Char, FixWord};
use common::font::TextItem;
use std::collections::HashMap;

/// The numbers of an answer, one after the other.
pub type Numbers = Vec<i64>;

/// A font in the types of the published text.
pub struct Font {
    program: Program,
    kerns: Vec<FixWord>,
    entries: Vec<(Char, u16)>,
    op_bytes: Vec<i64>,
}

/// The numbers of an instruction: next, right character, kind, operand.
fn instruction(numbers: &[i32; 4]) -> Instruction {
    let operation = match numbers[2] {
        0 => Operation::Kern(FixWord(numbers[3])),
        1 => Operation::KernAtIndex(numbers[3] as u16),
        2 => {
            let [op_byte, inserted] = (numbers[3] as u16).to_be_bytes();
            Operation::lig_kern_operation_from_bytes(op_byte, inserted)
        }
        _ => Operation::EntrypointRedirect(numbers[3] as u16, numbers[3] >= 65536),
    };
    Instruction { next_instruction: u8::try_from(numbers[0]).ok(), right_char: Char(numbers[1] as u8), operation }
}

/// The standard byte of an operation (TeX section 545).
fn standard_byte(operation: PostLigOperation) -> i64 {
    match operation {
        PostLigOperation::RetainNeitherMoveToInserted => 0,
        PostLigOperation::RetainRightMoveToInserted => 1,
        PostLigOperation::RetainLeftMoveNowhere => 2,
        PostLigOperation::RetainBothMoveNowhere => 3,
        PostLigOperation::RetainRightMoveToRight => 5,
        PostLigOperation::RetainLeftMoveToInserted => 6,
        PostLigOperation::RetainBothMoveToInserted => 7,
        PostLigOperation::RetainBothMoveToRight => 11,
    }
}

/// The kind and the operand of an operation. Of an invalid op byte the Rust knows only that it is invalid: `byte`, the
/// one that the instruction was made from, stands in its place.
fn operands(operation: Operation, byte: i64) -> [i64; 2] {
    match operation {
        Operation::Kern(kern) => [0, kern.0 as i64],
        Operation::KernAtIndex(index) => [1, index as i64],
        Operation::Ligature { char_to_insert, post_lig_operation, post_lig_tag_invalid } => {
            let byte = if post_lig_tag_invalid { byte } else { standard_byte(post_lig_operation) };
            [2, 256 * byte + char_to_insert.0 as i64]
        }
        Operation::EntrypointRedirect(target, flag) => [3, target as i64 + 65536 * flag as i64],
    }
}

fn pair(pair: (Option<Char>, Char)) -> [i64; 2] {
    [pair.0.map_or(-1, |c| c.0 as i64), pair.1 .0 as i64]
}

impl Font {
    pub fn new(
        instructions: &[[i32; 4]],
        kerns: &[i32],
        entries: &[[i32; 2]],
        boundary: i32,
        left_entry: i32,
        passthrough: &[u16],
    ) -> Font {
        Font {
            program: Program {
                instructions: instructions.iter().map(instruction).collect(),
                left_boundary_char_entrypoint: u16::try_from(left_entry).ok(),
                right_boundary_char: u8::try_from(boundary).ok().map(Char),
                passthrough: passthrough.iter().copied().collect(),
            },
            kerns: kerns.iter().map(|k| FixWord(*k)).collect(),
            entries: entries.iter().map(|e| (Char(e[0] as u8), e[1] as u16)).collect(),
            op_bytes: instructions.iter().map(|i| (i[3] / 256) as i64).collect(),
        }
    }

    fn map(&self) -> HashMap<Char, u16> {
        self.entries.iter().copied().collect()
    }

    /// The instructions as numbers, those from `offset` on being the ones that the font was made with.
    fn put_instructions(&self, out: &mut Numbers, offset: usize) {
        for (i, instruction) in self.program.instructions.iter().enumerate() {
            let byte = i.checked_sub(offset).and_then(|i| self.op_bytes.get(i)).copied().unwrap_or(-1);
            out.push(instruction.next_instruction.map_or(-1, i64::from));
            out.push(instruction.right_char.0 as i64);
            out.extend(operands(instruction.operation, byte));
        }
    }

    fn put_passthrough(&self, out: &mut Numbers) {
        out.extend((0..self.program.instructions.len()).map(|i| self.program.passthrough.contains(&(i as u16)) as i64));
    }

    /// How many indices of the passthrough are past the program.
    pub fn passed_outside(&self) -> usize {
        self.program.passthrough.iter().filter(|i| **i as usize >= self.program.instructions.len()).count()
    }

    /// The compiled font; and the counts of pairs, ops and loops, and the three lists.
    pub fn compile(&self, design: i32) -> (CompiledProgram, Numbers) {
        let (compiled, loops) = CompiledProgram::compile(&self.program, FixWord(design), &self.kerns, self.map());
        let rows = oracle_table::rows(&compiled);
        let mut pairs = vec![];
        let mut ops: Numbers = vec![];
        for row in &rows {
            pairs.extend(pair(row.pair));
            pairs.extend([row.last.0 as i64, row.last_is_lig as i64, ops.len() as i64 / 2, row.ops.len() as i64]);
            ops.extend(row.ops.iter().flat_map(|(kind, value)| [*kind, *value]));
        }
        let mut out = vec![rows.len() as i64, ops.len() as i64 / 2, loops.len() as i64];
        out.extend(pairs);
        out.extend(ops);
        out.extend(loops.iter().flat_map(|l| pair(l.starting_pair)));
        (compiled, out)
    }

    /// How many, and the indices.
    pub fn instructions_for_entrypoint(&self, entry: i32) -> Numbers {
        let indices = self.program.instructions_for_entrypoint(entry as u16).map(|(i, _)| i as i64);
        let mut out = vec![0];
        out.extend(indices);
        out[0] = out.len() as i64 - 1;
        out
    }

    pub fn is_seven_bit_safe(&self) -> Numbers {
        vec![self.program.is_seven_bit_safe(self.map()) as i64]
    }

    /// The entry and the passthrough after it; or 8 or 9.
    pub fn unpack_entrypoint(&mut self, entry: i32) -> Result<Numbers, u32> {
        match self.program.unpack_entrypoint(entry as u8) {
            Ok(unpacked) => {
                let mut out = vec![unpacked as i64];
                self.put_passthrough(&mut out);
                Ok(out)
            }
            Err(InvalidEntrypointError::Direct { .. }) => Err(8),
            Err(InvalidEntrypointError::Indirect { .. }) => Err(9),
        }
    }

    /// How many, and two numbers an instruction.
    pub fn reachable_iter(&self) -> Numbers {
        let mut out = vec![self.program.instructions.len() as i64];
        for item in self.program.reachable_iter(self.entries.iter().copied()) {
            out.extend(match item {
                ReachableIterItem::Unreachable => [0, -1],
                ReachableIterItem::Reachable { adjusted_skip } => [1, adjusted_skip.map_or(-1, i64::from)],
                ReachableIterItem::Passthrough => [2, -1],
            });
        }
        out
    }

    /// The count of instructions, the offset of the old ones, the count of redirects; the instructions, the entries.
    /// An instruction in front is a redirect unless its target is 0: it holds the boundary character then.
    pub fn pack_entrypoints(&mut self) -> Numbers {
        let old = self.program.instructions.len();
        let left = self.program.left_boundary_char_entrypoint;
        let packed = self.program.pack_entrypoints(self.map());
        assert_eq!(left, self.program.left_boundary_char_entrypoint, "packing shifted the left-boundary field");
        let now = self.program.instructions.len();
        let offset = now - old - left.is_some() as usize;
        let front = &self.program.instructions[..offset];
        let holds = |i: &&Instruction| matches!(i.operation, Operation::EntrypointRedirect(t, _) if t != 0);
        let mut out = vec![now as i64, offset as i64, front.iter().filter(holds).count() as i64];
        self.put_instructions(&mut out, offset);
        out.extend(self.entries.iter().flat_map(|(c, _)| [c.0 as i64, packed[c] as i64]));
        out
    }

    /// How many instructions, and the instructions.
    pub fn pack_kerns(&mut self) -> Numbers {
        self.program.pack_kerns(&self.kerns);
        let mut out = vec![self.program.instructions.len() as i64];
        self.put_instructions(&mut out, 0);
        out
    }

    /// How many kerns, the instructions, the kerns.
    pub fn unpack_kerns(&mut self) -> Numbers {
        let kerns = self.program.unpack_kerns();
        let mut out = vec![kerns.len() as i64];
        self.put_instructions(&mut out, 0);
        out.extend(kerns.iter().map(|k| k.0 as i64));
        out
    }

    /// The count of warnings, the left entry; the warnings, the instructions, the passthrough.
    pub fn validate_and_fix(&mut self, smallest: i32, existing: &[u64; 4]) -> Numbers {
        let entries: Vec<(Char, u8)> = self.entries.iter().map(|(c, e)| (*c, *e as u8)).collect();
        let exists = |c: Char| existing[c.0 as usize / 64] >> (c.0 % 64) & 1 == 1;
        let warnings = self.program.validate_and_fix(Char(smallest as u8), entries.into_iter(), exists, &self.kerns);
        let left = self.program.left_boundary_char_entrypoint.map_or(-1, i64::from);
        let mut out = vec![warnings.len() as i64, left];
        out.extend(warnings.iter().flat_map(warning));
        self.put_instructions(&mut out, 0);
        self.put_passthrough(&mut out);
        out
    }
}

fn warning(w: &ValidationWarning) -> [i64; 4] {
    use ValidationWarning::*;
    match w {
        InvalidBoundaryCharEntrypoint => [1, 0, 0, 0],
        InvalidEntrypoint(c) => [2, c.0 as i64, 0, 0],
        SkipTooLarge(i) => [3, *i as i64, 0, 0],
        LigatureStepForNonExistentCharacter { instruction_index, right_char, new_right_char } => {
            [4, *instruction_index as i64, right_char.0 as i64, new_right_char.0 as i64]
        }
        KernStepForNonExistentCharacter { instruction_index, right_char, new_right_char } => {
            [5, *instruction_index as i64, right_char.0 as i64, new_right_char.0 as i64]
        }
        LigatureStepProducesNonExistentCharacter { instruction_index, replacement_char, new_replacement_char } => {
            [6, *instruction_index as i64, replacement_char.0 as i64, new_replacement_char.0 as i64]
        }
        KernIndexTooBig(i) => [7, *i as i64, 0, 0],
        InvalidLigTag(i) => [8, *i as i64, 0, 0],
        EntrypointRedirectTooBig(i) => [9, *i as i64, 0, 0],
        InfiniteLoop(error) => {
            let [left, right] = pair(error.starting_pair);
            [10, left, right, 0]
        }
    }
}

// ---- a compiled font

fn character(c: i32) -> Option<char> {
    u8::try_from(c).ok().map(char::from)
}

/// A kern in scaled points.
pub fn to_scaled(kern: i32, design: i32) -> Numbers {
    vec![FixWord(kern).to_scaled(FixWord(design)).0 as i64]
}

pub fn has_replacement(compiled: &CompiledProgram, left: i32, right: i32) -> Numbers {
    vec![compiled.has_replacement(character(left), character(right)) as i64]
}

/// How many, and the pairs.
pub fn all_pairs(compiled: &CompiledProgram) -> Numbers {
    let pairs = compiled.all_pairs_with_replacements();
    let mut out = vec![pairs.len() as i64];
    out.extend(pairs.into_iter().flat_map(pair));
    out
}

pub fn table_is_seven_bit_safe(compiled: &CompiledProgram) -> Numbers {
    vec![compiled.is_seven_bit_safe() as i64]
}

/// A letter, which is never asked about where it is none.
fn letter(code: u32) -> char {
    char::from_u32(code).expect("a letter")
}

/// The six numbers of an item, after so many letters. An original is checked to be the part of the word that is named.
fn item(item: TextItem, word: &[char], given: &mut usize) -> [i64; 6] {
    let start = *given;
    match item {
        TextItem::Char(c) => {
            *given += 1;
            [0, c as i64, start as i64, 1, 0, 0]
        }
        TextItem::Kern(kern) => [2, kern.0 as i64, 0, 0, 0, 0],
        TextItem::Ligature { c, original, includes_left_boundary, includes_right_boundary } => {
            let length = original.chars().count();
            *given += length;
            assert!(
                original.chars().eq(word[start..*given].iter().copied()),
                "an original is no part of the word"
            );
            [1, c as i64, start as i64, length as i64, includes_left_boundary as i64, includes_right_boundary as i64]
        }
    }
}

/// How many items, and the items. After the end two further calls are made, which must give the end.
pub fn set_word(compiled: &CompiledProgram, word: &[u32], disable_left_boundary: bool, over: i32) -> Numbers {
    let right_boundary_override = (over >= 0).then(|| letter(over as u32));
    let options = RunOptions { disable_left_boundary, right_boundary_override };
    let word: Vec<char> = word.iter().map(|c| letter(*c)).collect();
    let mut iter = compiled.run_with_options(word.iter().copied(), options);
    let mut out = Vec::with_capacity(12 * word.len() + 13);
    out.push(0);
    let mut given = 0;
    while let Some(next) = iter.next() {
        out[0] += 1;
        out.extend(item(next, &word, &mut given));
    }
    assert!(iter.next().is_none() && iter.next().is_none(), "an item after the end");
    assert!(given == word.len(), "a letter is lost");
    out
}
