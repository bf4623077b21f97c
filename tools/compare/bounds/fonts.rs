//! The calls tried on one font: each with its lists, how long they must be, and the number due where one is short
//! (docs/RULES.md: 12 of the work buffer and the pair table, 14 of the op table, 15 of the others; 1, 4 and 7 of lists
//! that are read and are not whole). captions.rs has compiling and what follows from it.

use crate::calls::*;
use crate::captions::compiled;
use crate::drawn::{damage, one_byte, passthrough, Drawn};
use crate::font::{Damage, Font};
use crate::list::{of_i32, of_u8, Content, List};
use crate::mended::mended;
use crate::random::Random;
use crate::reading;
use crate::trial::{Call, Counts, Sink, Source};

pub type Tried = Result<(), String>;

pub fn sink(width: usize, length: usize, short: u32) -> Sink {
    Sink { width, length, short }
}

/// The list `values`, with so many numbers.
pub fn values(count: usize) -> Sink {
    sink(8, count, 15)
}

pub fn source(content: Content, short: Option<u32>) -> Source {
    Source { content, short }
}

pub fn instructions(font: &Font) -> Source {
    source(of_i32(&font.instructions.concat()), Some(1))
}

pub fn kerns(font: &Font) -> Source {
    source(of_i32(&font.kerns), None)
}

pub fn entries(font: &Font) -> Source {
    source(of_i32(&font.entries.concat()), Some(4))
}

/// One byte an instruction.
fn passed(indices: &[u16], count: usize) -> Source {
    let bytes: Vec<u8> = (0..count).map(|i| indices.contains(&(i as u16)) as u8).collect();
    source(of_u8(&bytes), Some(4))
}

/// A call with more and more room in one list until it is taken; what `count` then says. Only to learn exact sizes.
pub fn learned(number_and_count: impl Fn(usize) -> (u32, usize)) -> usize {
    (4..24).map(|k| number_and_count(1 << k)).find(|(number, _)| *number != 15 && *number != 14).map_or(0, |(_, n)| n)
}

/// All calls on one font.
pub fn font(r: &mut Random, drawn: &Drawn, counts: &mut Counts) -> Tried {
    compiled(r, drawn, counts)?;
    programs(r, &drawn.font, counts)?;
    packed(&drawn.font, counts)?;
    kerns_written(&drawn.font, counts)?;
    let damaged = one_byte(&drawn.font);
    let damage = damage(r, &drawn.letters, damaged.instructions.len());
    repaired(&damaged, &damage, counts)
}

// ---- programs

fn programs(r: &mut Random, font: &Font, counts: &mut Counts) -> Tried {
    let count = font.instructions.len();
    let safe = |i: &[List], o: &[List]| unsafe {
        ligkern_program_is_seven_bit_safe(
            i[0].pointer(), i[0].length, i[1].pointer(), i[1].length, o[0].pointer(), o[0].length,
        )
    };
    let sources = vec![instructions(font), entries(font)];
    let name = "ligkern_program_is_seven_bit_safe";
    Call { name, refusals: &[], sources, sinks: vec![values(1)], call: &safe }.try_all(counts)?;
    let entry = r.within(0, count as i64) as i32;
    let walk = |i: &[List], o: &[List]| unsafe {
        ligkern_instructions_for_entrypoint(
            i[0].pointer(), i[0].length, entry, o[0].pointer(), o[0].length, o[1].pointer(), o[1].length,
        )
    };
    let sinks = vec![sink(4, reading::chain(font, entry).len(), 15), values(1)];
    let name = "ligkern_instructions_for_entrypoint";
    Call { name, refusals: &[], sources: vec![instructions(font)], sinks, call: &walk }.try_all(counts)?;
    let indices = passthrough(r, count);
    unpacked(font, entry.min(255), &indices, counts)?;
    reached(font, &indices, counts)
}

fn unpacked(font: &Font, entry: i32, indices: &[u16], counts: &mut Counts) -> Tried {
    let count = font.instructions.len();
    let call = |i: &[List], o: &[List]| unsafe {
        ligkern_unpack_entrypoint(
            i[0].pointer(), i[0].length, entry, i[1].pointer(), i[1].length, o[0].pointer(), o[0].length,
            o[1].pointer(), o[1].length,
        )
    };
    let sources = vec![instructions(font), passed(indices, count)];
    let sinks = vec![sink(1, count, 15), values(1)];
    Call { name: "ligkern_unpack_entrypoint", refusals: &[8, 9], sources, sinks, call: &call }.try_all(counts).map(|_| ())
}

fn reached(font: &Font, indices: &[u16], counts: &mut Counts) -> Tried {
    let count = font.instructions.len();
    let call = |i: &[List], o: &[List]| unsafe {
        ligkern_reachable_iter(
            i[0].pointer(), i[0].length, i[1].pointer(), i[1].length, font.left_entry, i[2].pointer(), i[2].length,
            o[0].pointer(), o[0].length, o[1].pointer(), o[1].length,
        )
    };
    let sources = vec![instructions(font), entries(font), passed(indices, count)];
    let sinks = vec![sink(4, 2 * count, 15), values(1)];
    Call { name: "ligkern_reachable_iter", refusals: &[], sources, sinks, call: &call }.try_all(counts).map(|_| ())
}

// ---- programs written anew

fn packed(font: &Font, counts: &mut Counts) -> Tried {
    let call = |i: &[List], o: &[List]| unsafe {
        ligkern_pack_entrypoints(
            i[0].pointer(), i[0].length, i[1].pointer(), i[1].length, font.boundary, font.left_entry,
            o[0].pointer(), o[0].length, o[1].pointer(), o[1].length, o[2].pointer(), o[2].length,
        )
    };
    let packed = learned(|room| {
        let lists = [List::new(&instructions(font).content), List::new(&entries(font).content)];
        let outs = [
            List::new(&Content::filled(4, 4 * room)),
            List::new(&Content::filled(4, 2 * font.entries.len())),
            List::new(&Content::filled(8, 3)),
        ];
        (call(&lists, &outs), outs[2].content().count(0))
    });
    let sources = vec![instructions(font), entries(font)];
    let sinks = vec![sink(4, 4 * packed, 15), sink(4, 2 * font.entries.len(), 15), values(3)];
    Call { name: "ligkern_pack_entrypoints", refusals: &[10, 11], sources, sinks, call: &call }.try_all(counts).map(|_| ())
}

fn kerns_written(font: &Font, counts: &mut Counts) -> Tried {
    let count = font.instructions.len();
    let pack = |i: &[List], o: &[List]| unsafe {
        ligkern_pack_kerns(
            i[0].pointer(), i[0].length, i[1].pointer(), i[1].length, o[0].pointer(), o[0].length, o[1].pointer(),
            o[1].length,
        )
    };
    let sources = vec![instructions(font), kerns(font)];
    let sinks = vec![sink(4, 4 * count, 15), values(1)];
    Call { name: "ligkern_pack_kerns", refusals: &[], sources, sinks, call: &pack }.try_all(counts)?;
    let unpack = |i: &[List], o: &[List]| unsafe {
        ligkern_unpack_kerns(
            i[0].pointer(), i[0].length, o[0].pointer(), o[0].length, o[1].pointer(), o[1].length, o[2].pointer(),
            o[2].length,
        )
    };
    let mut distinct: Vec<i32> = font.instructions.iter().filter(|i| i[2] == 0).map(|i| i[3]).collect();
    distinct.sort();
    distinct.dedup();
    let sinks = vec![sink(4, 4 * count, 15), sink(4, distinct.len(), 15), values(1)];
    let name = "ligkern_unpack_kerns";
    Call { name, refusals: &[], sources: vec![instructions(font)], sinks, call: &unpack }.try_all(counts).map(|_| ())
}

// ---- repair

fn repaired(font: &Font, damage: &Damage, counts: &mut Counts) -> Tried {
    let count = font.instructions.len();
    let rules = reading::read(&mended(font, damage)).rules.len();
    let sources = || vec![instructions(font), kerns(font), entries(font), passed(&damage.passthrough, count)];
    let ask = |i: &[List], o: &[List]| unsafe {
        ligkern_ask_repair(
            i[0].pointer(), i[0].length, i[1].pointer(), i[1].length, i[2].pointer(), i[2].length, font.boundary,
            font.left_entry, damage.smallest, damage.existing[0], damage.existing[1], damage.existing[2],
            damage.existing[3], i[3].pointer(), i[3].length, o[0].pointer(), o[0].length, o[1].pointer(),
            o[1].length, o[2].pointer(), o[2].length,
        )
    };
    let sinks = |warnings: usize| vec![sink(4, 4 * warnings, 15), sink(4, 16 * rules, 12), values(1)];
    let warnings = learned(|room| {
        let lists: Vec<List> = sources().iter().map(|s| List::new(&s.content)).collect();
        let outs: Vec<List> = sinks(room).iter().map(|s| List::new(&Content::filled(s.width, s.length))).collect();
        (ask(&lists, &outs), outs[2].content().count(0))
    });
    let name = "ligkern_ask_repair";
    let asked = Call { name, refusals: &[], sources: sources(), sinks: sinks(warnings), call: &ask }.try_all(counts)?;
    let told = asked.expect("asking is taken")[0].clone();
    committed(font, damage, rules, source(told, Some(25)), counts)
}

/// With what asking told; one number less is 25.
fn committed(font: &Font, damage: &Damage, rules: usize, handed: Source, counts: &mut Counts) -> Tried {
    let count = font.instructions.len();
    let commit = |i: &[List], o: &[List]| unsafe {
        ligkern_commit_repair(
            i[0].pointer(), i[0].length, i[1].pointer(), i[1].length, i[2].pointer(), i[2].length, i[3].pointer(),
            i[3].length, font.boundary, font.left_entry, damage.smallest, damage.existing[0], damage.existing[1],
            damage.existing[2], damage.existing[3], i[4].pointer(), i[4].length, o[0].pointer(), o[0].length,
            o[1].pointer(), o[1].length, o[2].pointer(), o[2].length, o[3].pointer(), o[3].length, o[4].pointer(),
            o[4].length,
        )
    };
    let sinks = vec![
        sink(4, 4 * count, 15),
        sink(1, count, 15),
        sink(4, handed.content.length(), 15),
        sink(4, 16 * rules, 12),
        sink(4, 1, 15),
    ];
    let sources = vec![handed, instructions(font), kerns(font), entries(font), passed(&damage.passthrough, count)];
    Call { name: "ligkern_commit_repair", refusals: &[], sources, sinks, call: &commit }.try_all(counts).map(|_| ())
}

/// For a self-test: an op table that is said to be one longer than it is.
pub fn overstate() {
    let font = Font { instructions: vec![[-1, 66, 2, 67]], entries: vec![[65, 0]], boundary: -1, left_entry: -1, kerns: vec![] };
    let call = |i: &[List], o: &[List]| unsafe {
        ligkern_pack_kerns(
            i[0].pointer(), i[0].length, i[1].pointer(), i[1].length, o[1].pointer(), o[1].length, o[0].pointer(),
            o[0].length,
        )
    };
    let sinks = vec![values(1), sink(4, 4, 15)];
    Call { name: "overstated", refusals: &[], sources: vec![instructions(&font), kerns(&font)], sinks, call: &call }.overstate();
}
