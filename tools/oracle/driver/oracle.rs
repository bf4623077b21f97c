//! The driver: reads requests, calls the published functions, writes answers.

use crate::ligkern::lang::{
    Instruction, InvalidEntrypointError, Operation, PostLigOperation, Program, ReachableIterItem,
    ValidationWarning,
};
use crate::ligkern::{oracle_table, CompiledProgram, RunOptions};
use crate::{Char, FixWord};
use common::font::TextItem;
use std::collections::{HashMap, HashSet};
use std::io::{BufRead, Write};
use std::panic::{catch_unwind, AssertUnwindSafe};
use std::sync::Mutex;

/// The numbers of one request. Every reading fails on a number out of range. The request is marked once a font is read
/// of which a chain that is compiled reaches a redirect.
struct Numbers {
    list: Vec<i64>,
    next: usize,
    marked: bool,
}

type Read<T> = Result<T, String>;

impl Numbers {
    fn int(&mut self, low: i64, high: i64) -> Read<i64> {
        let n = *self.list.get(self.next).ok_or("the line is too short")?;
        self.next += 1;
        if n < low || n > high {
            return Err(format!("number {}: {n} not in {low}..{high}", self.next));
        }
        Ok(n)
    }
    fn byte(&mut self) -> Read<u8> {
        Ok(self.int(0, 255)? as u8)
    }
    fn half(&mut self) -> Read<u16> {
        Ok(self.int(0, 65535)? as u16)
    }
    fn flag(&mut self) -> Read<bool> {
        Ok(self.int(0, 1)? == 1)
    }
    fn number(&mut self) -> Read<i32> {
        Ok(self.int(i32::MIN as i64, i32::MAX as i64)? as i32)
    }
    fn word(&mut self) -> Read<FixWord> {
        Ok(FixWord(self.number()?))
    }
    /// A design size, a size and a magnification.
    fn sized(&mut self) -> Read<Sized> {
        Ok(Sized { design: self.word()?, size: self.word()?.0, magnification: self.word()?.0 })
    }
    fn optional_byte(&mut self) -> Read<Option<u8>> {
        Ok(u8::try_from(self.int(-1, 255)?).ok())
    }
    fn optional_half(&mut self) -> Read<Option<u16>> {
        Ok(u16::try_from(self.int(-1, 65535)?).ok())
    }
    fn many<T>(&mut self, mut one: impl FnMut(&mut Self) -> Read<T>) -> Read<Vec<T>> {
        let n = self.int(0, 1 << 20)?;
        (0..n).map(|_| one(self)).collect()
    }
    fn instruction(&mut self) -> Read<Instruction> {
        let next_instruction = self.optional_byte()?;
        let right_char = Char(self.byte()?);
        let operation = match self.int(0, 3)? {
            0 => Operation::Kern(self.word()?),
            1 => Operation::KernAtIndex(self.half()?),
            2 => {
                let [op_byte, inserted] = (self.int(0, 128 * 256 - 1)? as u16).to_be_bytes();
                Operation::lig_kern_operation_from_bytes(op_byte, inserted)
            }
            _ => {
                let n = self.int(0, 131071)?;
                Operation::EntrypointRedirect((n % 65536) as u16, n >= 65536)
            }
        };
        Ok(Instruction {
            next_instruction,
            right_char,
            operation,
        })
    }
    fn font(&mut self) -> Read<Font> {
        let instructions = self.many(Self::instruction)?;
        let kerns = self.many(Self::word)?;
        let entries = self.many(|n| Ok((Char(n.byte()?), n.half()?)))?;
        let right_boundary_char = self.optional_byte()?.map(Char);
        let left_boundary_char_entrypoint = self.optional_half()?;
        Ok(Font {
            program: Program {
                instructions,
                left_boundary_char_entrypoint,
                right_boundary_char,
                passthrough: HashSet::new(),
            },
            kerns,
            entries,
        })
    }
    /// A font to be compiled: where a chain reaches a redirect, the request is marked, and the chains are written out.
    fn compiled_font(&mut self) -> Read<Font> {
        let font = self.font()?;
        self.marked = font.reaches_redirect();
        Ok(if self.marked { font.written_out() } else { font })
    }
    fn passthrough(&mut self) -> Read<HashSet<u16>> {
        Ok(self.many(Self::half)?.into_iter().collect())
    }
    fn damaged(&mut self) -> Read<Damaged> {
        let smallest = Char(self.byte()?);
        let mut existing = [0; 8];
        for word in &mut existing {
            *word = self.int(i32::MIN as i64, i32::MAX as i64)? as u32;
        }
        let passthrough = self.passthrough()?;
        let mut font = self.font()?;
        font.program.passthrough = passthrough;
        let entries = font
            .entries
            .iter()
            .map(|(c, e)| u8::try_from(*e).map(|e| (*c, e)))
            .collect::<Result<_, _>>()
            .map_err(|_| "an entry of a request X is over 255")?;
        let damaged = Damaged {
            smallest,
            existing,
            entries,
            font,
        };
        // Repair leaves it as it is which instructions a chain has, and which of them are redirects.
        self.marked = damaged.unpacked().reaches_redirect();
        Ok(damaged)
    }
}

#[derive(Clone)]
struct Font {
    program: Program,
    kerns: Vec<FixWord>,
    entries: Vec<(Char, u16)>,
}

fn is_redirect(instruction: &Instruction) -> bool {
    matches!(instruction.operation, Operation::EntrypointRedirect(..))
}

impl Font {
    fn map(&self) -> HashMap<Char, u16> {
        self.entries.iter().copied().collect()
    }
    /// Whether the chain of an entry, or of the left-boundary entry, reaches a redirect. There the port passes it over,
    /// as TeX does, and the Rust acts on it.
    fn reaches_redirect(&self) -> bool {
        let left = self.program.left_boundary_char_entrypoint;
        let mut starts = self.map().into_values().chain(left);
        starts.any(|e| self.program.instructions_for_entrypoint(e).any(|(_, i)| is_redirect(i)))
    }
    /// The same font with the chain of each left written out without its redirects, one after the other. A left that
    /// has nothing else on its chain has no entry.
    fn written_out(&self) -> Font {
        let mut instructions = vec![];
        let mut copied = |entry: u16| self.copy_chain(entry, &mut instructions);
        let entries = self.entries.iter().filter_map(|(c, e)| Some((*c, copied(*e)?))).collect();
        let left_boundary_char_entrypoint = self.program.left_boundary_char_entrypoint.and_then(copied);
        Font {
            program: Program {
                instructions,
                left_boundary_char_entrypoint,
                ..self.program.clone()
            },
            kerns: self.kerns.clone(),
            entries,
        }
    }
    /// Puts the chain of an entry, without its redirects, behind the instructions, each leading to the next; its entry
    /// there.
    fn copy_chain(&self, entry: u16, instructions: &mut Vec<Instruction>) -> Option<u16> {
        let start = instructions.len();
        for (_, instruction) in self.program.instructions_for_entrypoint(entry) {
            if !is_redirect(instruction) {
                instructions.push(Instruction {
                    next_instruction: Some(0),
                    ..instruction.clone()
                });
            }
        }
        instructions[start..].last_mut()?.next_instruction = None;
        Some(u16::try_from(start).expect("the chains written out are too long"))
    }
    /// The same font with its entries above 511 lowered to 512, 513 and so on in their order, and without
    /// the left-boundary entry: it packs with as many redirects, and no sum comes near 65536.
    fn lowered(mut self) -> Font {
        let mut high: Vec<u16> = self.entries.iter().map(|(_, e)| *e).filter(|e| *e > 511).collect();
        high.sort();
        high.dedup();
        for (_, e) in &mut self.entries {
            if let Ok(i) = high.binary_search(e) {
                *e = 512 + i as u16;
            }
        }
        self.program.left_boundary_char_entrypoint = None;
        self
    }
    fn compile(&self, design: FixWord) -> (CompiledProgram, Vec<(Option<Char>, Char)>) {
        let (compiled, loops) =
            CompiledProgram::compile(&self.program, design, &self.kerns, self.map());
        (compiled, loops.into_iter().map(|l| l.starting_pair).collect())
    }
}

impl Font {
    /// The pair table and the loops.
    fn table(&self, design: FixWord) -> Answer {
        let (compiled, loops) = self.compile(design);
        let rows = oracle_table::rows(&compiled);
        let mut out = vec![rows.len() as i64];
        for row in rows {
            put_pair(&mut out, row.pair);
            out.push(row.last.0 as i64);
            out.push(row.last_is_lig as i64);
            out.push(row.ops.len() as i64);
            for (kind, value) in row.ops {
                out.push(kind);
                out.push(value);
            }
        }
        put_pairs(&mut out, &loops);
        out
    }
}

/// A design size with a size in scaled points or a magnification in thousandths; 0 is not asked for. The Rust
/// has only a design size: sixteen times z, the size itself or the design size magnified (docs/RULES.md).
struct Sized {
    design: FixWord,
    size: i32,
    magnification: i32,
}

impl Sized {
    /// The design size to ask the Rust for; the number of the refusal where there is none.
    fn at(&self) -> Result<FixWord, i64> {
        let z = match (self.size as i64, self.magnification as i64) {
            (0, 0) => return Ok(self.design),
            (size, 0) => size,
            (0, magnification @ 1..=32768) => self.design.0 as i64 / 16 * magnification / 1000,
            _ => return Err(19),
        };
        if (1..=134217727).contains(&z) { Ok(FixWord(16 * z as i32)) } else { Err(19) }
    }

    /// The Rust's answer at that size. 5 comes before its refusals, and 19 after them.
    fn answer<A>(&self, ask: impl FnOnce(FixWord) -> A) -> A {
        assert!(self.design.0 >= 0, "rule 5");
        let at = self.at();
        let answer = ask(at.unwrap_or(FixWord(0)));
        assert!(at.is_ok(), "rule 19");
        answer
    }
}

/// A font to be repaired, with its packed entries.
struct Damaged {
    smallest: Char,
    existing: [u32; 8],
    entries: Vec<(Char, u8)>,
    font: Font,
}

/// A kern of the program that stands elsewhere for the time: its index and its value.
type Kept = (usize, FixWord);

fn scales(kern: FixWord) -> bool {
    matches!(kern.0.to_be_bytes()[0], 0 | 255)
}

impl Font {
    /// The pairs of the loop list. No loop hangs on a kern, so that those that do not scale are 0 here.
    fn loops(mut self) -> Vec<(Option<Char>, Char)> {
        self.without_odd_kerns();
        self.compile(FixWord::ONE * 10).1
    }
    /// Sets each kern that does not scale to 0. Those of the program are handed back.
    fn without_odd_kerns(&mut self) -> Vec<Kept> {
        for kern in &mut self.kerns {
            if !scales(*kern) {
                *kern = FixWord::ZERO;
            }
        }
        let mut kept = vec![];
        for (i, instruction) in self.program.instructions.iter_mut().enumerate() {
            if let Operation::Kern(kern) = &mut instruction.operation {
                if !scales(*kern) {
                    kept.push((i, *kern));
                    *kern = FixWord::ZERO;
                }
            }
        }
        kept
    }
}

impl Damaged {
    /// The font with the entries that unpack, unpacked.
    fn unpacked(&self) -> Font {
        let mut program = self.font.program.clone();
        let unpacked = |(c, e): &(Char, u8)| Some((*c, program.unpack_entrypoint(*e).ok()?));
        Font {
            entries: self.entries.iter().filter_map(unpacked).collect(),
            ..self.font.clone()
        }
    }
    /// The warnings of the Rust, which leaves the program repaired. Where a chain of that program reaches a redirect,
    /// the warnings of loops are those of the program with its chains written out.
    fn warnings(&mut self) -> Vec<[i64; 4]> {
        let existing = self.existing;
        let unpacked = self.unpacked().entries;
        let said = self.font.program.validate_and_fix(
            self.smallest,
            self.entries.iter().copied(),
            |c: Char| existing[c.0 as usize / 32] >> (c.0 % 32) & 1 == 1,
            &self.font.kerns,
        );
        let mut warnings: Vec<[i64; 4]> = said.iter().map(warning).collect();
        let repaired = Font {
            entries: unpacked,
            ..self.font.clone()
        };
        if repaired.reaches_redirect() {
            warnings.retain(|w| w[0] != LOOP);
            warnings.extend(repaired.written_out().loops().into_iter().map(loop_warning));
        }
        warnings
    }
    /// The answer to X, with the kept kerns back where the instruction is still the same kern.
    fn repair(mut self, kept: &[Kept]) -> Answer {
        let warnings = self.warnings();
        let program = &mut self.font.program;
        for (i, kern) in kept {
            if program.instructions[*i].operation == Operation::Kern(FixWord::ZERO) {
                program.instructions[*i].operation = Operation::Kern(*kern);
            }
        }
        let mut out = vec![warnings.len() as i64];
        out.extend(warnings.into_iter().flatten());
        put_instructions(&mut out, &program.instructions);
        out.push(program.left_boundary_char_entrypoint.map_or(-1, i64::from));
        put_set(&mut out, &program.passthrough);
        out
    }
}

/// The standard byte of an operation (TeX section 545).
fn standard_byte(operation: PostLigOperation) -> i64 {
    match operation {
        PostLigOperation::RetainNeitherMoveToInserted => 0,
        PostLigOperation::RetainRightMoveToInserted => 1,
        PostLigOperation::RetainLeftMoveNowhere => 2,
        PostLigOperation::RetainBothMoveNowhere => 3,
        PostLigOperation::RetainRightMoveToRight => 5,
        PostLigOperation::RetainLeftMoveToInserted => 6,
        PostLigOperation::RetainBothMoveToInserted => 7,
        PostLigOperation::RetainBothMoveToRight => 11,
    }
}

type Answer = Vec<i64>;

fn put_instructions(out: &mut Answer, instructions: &[Instruction]) {
    out.push(instructions.len() as i64);
    for i in instructions {
        out.push(i.next_instruction.map_or(-1, i64::from));
        out.push(i.right_char.0 as i64);
        let (kind, operand) = match i.operation {
            Operation::Kern(kern) => (0, kern.0 as i64),
            Operation::KernAtIndex(index) => (1, index as i64),
            Operation::Ligature {
                char_to_insert,
                post_lig_operation,
                post_lig_tag_invalid,
            } => {
                let byte = if post_lig_tag_invalid {
                    4
                } else {
                    standard_byte(post_lig_operation)
                };
                (2, 256 * byte + char_to_insert.0 as i64)
            }
            Operation::EntrypointRedirect(u, flag) => (3, u as i64 + 65536 * flag as i64),
        };
        out.push(kind);
        out.push(operand);
    }
}

fn put_set(out: &mut Answer, set: &HashSet<u16>) {
    let mut sorted: Vec<i64> = set.iter().map(|u| *u as i64).collect();
    sorted.sort();
    out.push(sorted.len() as i64);
    out.extend(sorted);
}

fn put_pair(out: &mut Answer, pair: (Option<Char>, Char)) {
    out.push(pair.0.map_or(-1, |c| c.0 as i64));
    out.push(pair.1 .0 as i64);
}

fn put_pairs(out: &mut Answer, pairs: &[(Option<Char>, Char)]) {
    out.push(pairs.len() as i64);
    for pair in pairs {
        put_pair(out, *pair);
    }
}

/// The kind of a warning of a loop.
const LOOP: i64 = 10;

fn loop_warning((left, right): (Option<Char>, Char)) -> [i64; 4] {
    [LOOP, left.map_or(-1, |c| c.0 as i64), right.0 as i64, 0]
}

fn warning(w: &ValidationWarning) -> [i64; 4] {
    use ValidationWarning::*;
    match w {
        InvalidBoundaryCharEntrypoint => [1, 0, 0, 0],
        InvalidEntrypoint(c) => [2, c.0 as i64, 0, 0],
        SkipTooLarge(i) => [3, *i as i64, 0, 0],
        LigatureStepForNonExistentCharacter {
            instruction_index,
            right_char,
            new_right_char,
        } => [
            4,
            *instruction_index as i64,
            right_char.0 as i64,
            new_right_char.0 as i64,
        ],
        KernStepForNonExistentCharacter {
            instruction_index,
            right_char,
            new_right_char,
        } => [
            5,
            *instruction_index as i64,
            right_char.0 as i64,
            new_right_char.0 as i64,
        ],
        LigatureStepProducesNonExistentCharacter {
            instruction_index,
            replacement_char,
            new_replacement_char,
        } => [
            6,
            *instruction_index as i64,
            replacement_char.0 as i64,
            new_replacement_char.0 as i64,
        ],
        KernIndexTooBig(i) => [7, *i as i64, 0, 0],
        InvalidLigTag(i) => [8, *i as i64, 0, 0],
        EntrypointRedirectTooBig(i) => [9, *i as i64, 0, 0],
        InfiniteLoop(error) => loop_warning(error.starting_pair),
    }
}

/// A letter of a word. What the Rust has no `char` for, the rules refuse.
fn char_of(code: i32) -> char {
    let c = char::from_u32(code as u32);
    assert!(c.is_some(), "rule 20");
    c.unwrap()
}

/// A request whose numbers have all been read. Calling it calls the published text.
type Call = Box<dyn FnOnce() -> Answer>;

fn read(letter: &str, n: &mut Numbers) -> Read<Call> {
    Ok(match letter {
        "S" => {
            let (kern, design) = (n.word()?, n.word()?);
            Box::new(move || vec![kern.to_scaled(design).0 as i64])
        }
        "Z" => {
            let (kern, sized) = (n.word()?, n.sized()?);
            Box::new(move || vec![sized.answer(|design| kern.to_scaled(design)).0 as i64])
        }
        "O" => {
            let (op_byte, remainder) = (n.byte()?, n.byte()?);
            Box::new(move || {
                match Operation::lig_kern_operation_from_bytes(op_byte, remainder) {
                    Operation::KernAtIndex(index) => vec![1, index as i64],
                    Operation::Ligature {
                        char_to_insert,
                        post_lig_operation,
                        post_lig_tag_invalid,
                    } => vec![
                        2,
                        standard_byte(post_lig_operation),
                        char_to_insert.0 as i64,
                        post_lig_tag_invalid as i64,
                    ],
                    other => unreachable!("{other:?}"),
                }
            })
        }
        "V" => {
            let c = Char(n.byte()?);
            Box::new(move || vec![c.is_seven_bit() as i64])
        }
        "I" => {
            let entry = n.half()?;
            let font = n.font()?;
            Box::new(move || {
                let indices: Answer = font
                    .program
                    .instructions_for_entrypoint(entry)
                    .map(|(i, _)| i as i64)
                    .collect();
                let mut out = vec![indices.len() as i64];
                out.extend(indices);
                out
            })
        }
        "K" => {
            let mut font = n.font()?;
            Box::new(move || {
                let kerns = font.program.unpack_kerns();
                let mut out = vec![kerns.len() as i64];
                out.extend(kerns.iter().map(|k| k.0 as i64));
                put_instructions(&mut out, &font.program.instructions);
                out
            })
        }
        "J" => {
            let mut font = n.font()?;
            Box::new(move || {
                font.program.pack_kerns(&font.kerns);
                let mut out = vec![];
                put_instructions(&mut out, &font.program.instructions);
                out
            })
        }
        "U" => {
            let entry = n.byte()?;
            let passthrough = n.passthrough()?;
            let mut font = n.font()?;
            font.program.passthrough = passthrough;
            Box::new(move || match font.program.unpack_entrypoint(entry) {
                Ok(unpacked) => {
                    let mut out = vec![0, unpacked as i64];
                    put_set(&mut out, &font.program.passthrough);
                    out
                }
                Err(InvalidEntrypointError::Direct { .. }) => vec![8],
                Err(InvalidEntrypointError::Indirect { .. }) => vec![9],
            })
        }
        "B" => {
            let font = n.font()?;
            Box::new(move || vec![font.program.is_seven_bit_safe(font.map()) as i64])
        }
        "R" => {
            let passthrough = n.passthrough()?;
            let mut font = n.font()?;
            font.program.passthrough = passthrough;
            Box::new(move || {
                let mut out = vec![0];
                for item in font.program.reachable_iter(font.entries.iter().copied()) {
                    out[0] += 1;
                    out.extend(match item {
                        ReachableIterItem::Unreachable => [0, -1],
                        ReachableIterItem::Reachable { adjusted_skip } => {
                            [1, adjusted_skip.map_or(-1, i64::from)]
                        }
                        ReachableIterItem::Passthrough => [2, -1],
                    });
                }
                out
            })
        }
        "P" => {
            let mut font = n.font()?;
            Box::new(move || {
                let packed = font.program.pack_entrypoints(font.map());
                let mut out = vec![];
                put_instructions(&mut out, &font.program.instructions);
                out.push(font.entries.len() as i64);
                for (c, _) in &font.entries {
                    out.push(c.0 as i64);
                    out.push(packed[c] as i64);
                }
                out.push(font.program.left_boundary_char_entrypoint.map_or(-1, i64::from));
                out
            })
        }
        "C" => {
            let design = n.word()?;
            let font = n.compiled_font()?;
            Box::new(move || font.table(design))
        }
        "M" => {
            let (size, magnification) = (n.word()?.0, n.word()?.0);
            let sized = Sized { design: n.word()?, size, magnification };
            let font = n.compiled_font()?;
            Box::new(move || sized.answer(|design| font.table(design)))
        }
        "W" => {
            let use_left_boundary = n.flag()?;
            let right = n.number()?;
            let word = n.many(Numbers::number)?;
            let design = n.word()?;
            let font = n.compiled_font()?;
            Box::new(move || {
                let (compiled, _) = font.compile(design);
                assert!(right >= -1, "rule 4");
                let word: Vec<char> = word.into_iter().map(char_of).collect();
                let right_boundary_override = (right >= 0).then(|| char_of(right));
                let mut iter = compiled.run_with_options(
                    word.into_iter(),
                    RunOptions {
                        disable_left_boundary: !use_left_boundary,
                        right_boundary_override,
                    },
                );
                let mut out = vec![0];
                let mut flags = vec![];
                let mut given = 0;
                loop {
                    flags.push(iter.is_separation_point() as i64);
                    let Some(item) = iter.next() else { break };
                    out[0] += 1;
                    out.extend(match item {
                        TextItem::Char(c) => {
                            let start = given;
                            given += 1;
                            [0, c as i64, start, 1, 0, 0]
                        }
                        TextItem::Ligature {
                            c,
                            original,
                            includes_left_boundary,
                            includes_right_boundary,
                        } => {
                            let start = given;
                            let length = original.chars().count() as i64;
                            given += length;
                            [
                                1,
                                c as i64,
                                start,
                                length,
                                includes_left_boundary as i64,
                                includes_right_boundary as i64,
                            ]
                        }
                        TextItem::Kern(kern) => [2, kern.0 as i64, 0, 0, 0, 0],
                    });
                }
                out.extend(flags);
                out
            })
        }
        "A" => {
            let design = n.word()?;
            let font = n.compiled_font()?;
            Box::new(move || {
                let (compiled, _) = font.compile(design);
                let mut out = vec![];
                put_pairs(&mut out, &compiled.all_pairs_with_replacements());
                out.push(compiled.is_seven_bit_safe() as i64);
                out
            })
        }
        "X" => {
            let damaged = n.damaged()?;
            Box::new(move || damaged.repair(&[]))
        }
        _ => return Err("unknown request".into()),
    })
}

fn split(line: &str) -> Read<(&str, Numbers)> {
    let mut words = line.split_ascii_whitespace();
    let letter = words.next().ok_or("empty line")?;
    let list = words
        .map(|w| {
            w.parse::<i64>()
                .map_err(|_| format!("not a number: {w}"))
        })
        .collect::<Read<Vec<i64>>>()?;
    let numbers = Numbers {
        list,
        next: 0,
        marked: false,
    };
    Ok((letter, numbers))
}

/// The letter that the answer begins with, a small one where the request is marked, and the call.
fn parse(line: &str) -> Read<(String, Call)> {
    let (letter, mut numbers) = split(line)?;
    let call = read(letter, &mut numbers)?;
    if numbers.next != numbers.list.len() {
        return Err("the line is too long".into());
    }
    let first = if numbers.marked { letter.to_lowercase() } else { letter.to_string() };
    Ok((first, call))
}

/// What the last panic said.
static SAID: Mutex<String> = Mutex::new(String::new());

fn listen() {
    std::panic::set_hook(Box::new(|info| {
        let payload = info.payload();
        let text = match payload.downcast_ref::<&str>() {
            Some(text) => text.to_string(),
            None => payload.downcast_ref::<String>().cloned().unwrap_or_default(),
        };
        *SAID.lock().unwrap() = text;
    }));
}

/// The number of the refusal that the last panic stands for, by what it said: the assertion of
/// `to_scaled`; the offset of packing counted past a byte; the target of a redirect, an entry or the
/// left-boundary entry plus the offset past 65535; the refusals of a size and of a
/// letter, which the Rust has not.
fn said(letter: &str) -> Option<i64> {
    let text = SAID.lock().unwrap();
    if text.ends_with("a == 0 || a == 255") {
        Some(13)
    } else if text.starts_with("rule ") {
        text["rule ".len()..].parse().ok()
    } else if letter == "P" && text.contains("cannot exceed 256") {
        Some(10)
    } else if letter == "P" && (text.contains("enough space") || text.ends_with("add with overflow")) {
        Some(11)
    } else {
        None
    }
}

/// The number of the refusal that the panic on this line stands for. Where 11 holds, 10 comes before it
/// if it holds too: the Rust is asked once more, on the lowered font, where only 10 can be the answer.
fn refusal(line: &str) -> Option<i64> {
    let (letter, mut numbers) = split(line).ok()?;
    let number = said(letter)?;
    if number == 11 {
        let mut font = numbers.font().ok()?.lowered();
        let map = font.map();
        if catch_unwind(AssertUnwindSafe(|| font.program.pack_entrypoints(map))).is_err() {
            return said(letter);
        }
    }
    Some(number)
}

/// The answer to an X whose kerns do not all scale, where the Rust panicked over one of them: it is asked
/// once more without these kerns, which are no matter to repair.
fn repaired(line: &str) -> Option<Answer> {
    let (letter, mut numbers) = split(line).ok()?;
    if letter != "X" || said(letter) != Some(13) {
        return None;
    }
    let mut damaged = numbers.damaged().ok()?;
    let kept = damaged.font.without_odd_kerns();
    catch_unwind(AssertUnwindSafe(|| damaged.repair(&kept))).ok()
}

/// Answers the requests on standard input; the exit status is returned.
pub fn main() -> i32 {
    listen();
    let mut out = std::io::BufWriter::new(std::io::stdout().lock());
    for (i, line) in std::io::stdin().lock().lines().enumerate() {
        let line = match line {
            Ok(line) => line,
            Err(error) => {
                eprintln!("oracle: line {}: {error}", i + 1);
                return 2;
            }
        };
        let (mut text, call) = match parse(&line) {
            Ok(request) => request,
            Err(error) => {
                let _ = out.flush();
                eprintln!("oracle: line {}: {error}", i + 1);
                return 2;
            }
        };
        match catch_unwind(AssertUnwindSafe(call)).ok().or_else(|| repaired(&line)) {
            Some(numbers) => {
                for number in numbers {
                    text.push(' ');
                    text.push_str(&number.to_string());
                }
            }
            None => {
                let number = refusal(&line);
                text.push_str(if matches!(number, Some(4 | 5 | 19 | 20)) { " ?" } else { " panic" });
                if let Some(number) = number {
                    text.push_str(&format!(" {number}"));
                }
            }
        }
        if writeln!(out, "{text}").is_err() {
            return 2;
        }
    }
    if out.flush().is_err() {
        return 2;
    }
    0
}
