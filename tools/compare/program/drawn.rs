//! Fonts by chance. Most are small, so that pairs meet, redirects stand on chains, right characters come twice and
//! loops are frequent; some are large, some are made for packing, and some for very many ops.

use crate::font::{Damage, Font};
use crate::random::Random;

pub const DESIGN: i32 = 10_485_760;

/// A font, the letters that it is about, and the design size.
pub struct Drawn {
    pub font: Font,
    pub letters: Vec<i32>,
    pub design: i32,
}

/// How a font is drawn: so many letters and instructions, and how often, in a hundred, an instruction ends its chain,
/// and a number is a strange one.
struct Shape {
    letters: (i64, i64),
    instructions: (i64, i64),
    stops: u64,
    strange: u64,
}

const SMALL: Shape = Shape { letters: (2, 5), instructions: (0, 12), stops: 25, strange: 3 };
const DAMAGED: Shape = Shape { letters: (2, 6), instructions: (0, 9), stops: 20, strange: 25 };
const MIDDLE: Shape = Shape { letters: (5, 20), instructions: (10, 60), stops: 20, strange: 2 };
const LARGE: Shape = Shape { letters: (20, 256), instructions: (50, 400), stops: 25, strange: 1 };

pub fn drawn(r: &mut Random) -> Drawn {
    match r.within(0, 199) {
        0..=149 => by_shape(r, &SMALL),
        150..=169 => by_shape(r, &DAMAGED),
        170..=187 => by_shape(r, &MIDDLE),
        188..=189 => by_shape(r, &LARGE),
        190..=195 => packing(r),
        _ => doubling(r),
    }
}

/// Letters that stand together, most often; among them the ends of the code and of seven bits.
fn letters(r: &mut Random, count: i64) -> Vec<i32> {
    if r.percent(8) || count > 100 {
        let mut all: Vec<i32> = (0..256).collect();
        for i in 0..count as usize {
            all.swap(i, r.within(i as i64, 255) as usize);
        }
        all.truncate(count as usize);
        return all;
    }
    let low = match r.within(0, 9) {
        0..=4 => 97,
        5..=7 => 128 - r.within(1, count - 1),
        8 => 0,
        _ => 256 - count,
    };
    (low..low + count).map(|c| c as i32).collect()
}

fn kern(r: &mut Random, odd: bool) -> i32 {
    match r.within(0, 9) {
        0 if odd => r.pick(&[16_777_216, -16_777_217, i32::MAX, i32::MIN, 1 << 30]),
        0 | 1 => r.pick(&[0, 1, -1, 16_777_215, -16_777_216, 1_048_576]),
        2..=5 => r.within(-16_777_216, 16_777_215) as i32,
        _ => 65_536 * r.within(-4, 4) as i32,
    }
}

fn op_byte(r: &mut Random) -> i32 {
    match r.percent(75) {
        true => r.pick(&[0, 1, 1, 2, 2, 3, 3, 5, 6, 7, 11]),
        false => r.within(0, 127) as i32,
    }
}

/// A redirect whose target is two bytes for a chain, or an instruction of the program.
fn redirect(r: &mut Random, letters: &[i32], count: i64, strange: bool) -> i32 {
    let target = match r.within(0, 9) {
        _ if strange => r.within(0, 65_535) as i32,
        0..=3 => 256 * op_byte(r) + r.pick(letters),
        4 | 5 => 256 * r.within(128, 255) as i32 + r.within(0, 3) as i32,
        _ => r.within(0, count + 1) as i32,
    };
    target + 65_536 * r.within(0, 1) as i32
}

fn instruction(r: &mut Random, shape: &Shape, letters: &[i32], count: i64, kerns: &[i32], odd: bool) -> [i32; 4] {
    let strange = r.percent(shape.strange);
    let next = match r.within(0, 9) {
        _ if strange => r.within(0, 255) as i32,
        _ if r.percent(shape.stops) => -1,
        0..=6 => 0,
        _ => r.within(0, 4) as i32,
    };
    let right = if strange { r.within(0, 255) as i32 } else { r.pick(letters) };
    let inserted = if strange { r.within(0, 255) as i32 } else { r.pick(letters) };
    let (kind, operand) = match r.within(0, 99) {
        0..=11 => (0, kern(r, odd)),
        12..=21 => (1, if strange { 65_535 } else { r.within(0, kerns.len() as i64) as i32 }),
        22..=85 => (2, 256 * op_byte(r) + inserted),
        _ => (3, redirect(r, letters, count, strange)),
    };
    [next, right, kind, operand]
}

/// An index of the program, now and then the one after its end.
fn entry(r: &mut Random, count: i64, strange: bool) -> i32 {
    let inside = r.percent(90) as i64;
    match strange {
        true => r.pick(&[0, 254, 255, 256, 257, 511, 512, 65_279, 65_280, 65_534, 65_535]),
        false => r.within(0, (count - inside).max(0)) as i32,
    }
}

/// In an order by chance, which is the order that warnings and packed entries have.
fn entries(r: &mut Random, letters: &[i32], count: i64, strange: u64) -> Vec<[i32; 2]> {
    let mut entries = vec![];
    for c in letters {
        if r.percent(75) {
            let odd = r.percent(strange);
            let place = r.within(0, entries.len() as i64) as usize;
            entries.insert(place, [*c, entry(r, count, odd)]);
        }
    }
    entries
}

/// A design size. A fifth are sixteen times a z of which the library is asked by a size or a magnification (library.rs).
fn design(r: &mut Random) -> i32 {
    if r.percent(20) {
        let bits = r.within(3, 26);
        let z = 7 * r.within(0, (1 << bits) / 7) + r.within(1, 2);
        return (16 * z) as i32;
    }
    match r.percent(85) {
        true => DESIGN,
        false => match r.percent(50) {
            true => r.pick(&[0, 1, 15, 16, 134_217_727, 134_217_728, 1 << 30, i32::MAX]),
            false => r.within(0, i32::MAX as i64) as i32,
        },
    }
}

fn by_shape(r: &mut Random, shape: &Shape) -> Drawn {
    let wanted = r.within(shape.letters.0, shape.letters.1);
    let letters = letters(r, wanted);
    let count = r.within(shape.instructions.0, shape.instructions.1);
    let odd = r.percent(10);
    let kerns: Vec<i32> = (0..r.within(0, 4)).map(|_| kern(r, odd)).collect();
    let instructions = (0..count).map(|_| instruction(r, shape, &letters, count, &kerns, odd)).collect();
    let entries = entries(r, &letters, count, shape.strange);
    let boundary = if r.percent(40) { -1 } else { r.pick(&letters) };
    let far = r.percent(shape.strange);
    let left_entry = if r.percent(45) { -1 } else { entry(r, count, far) };
    Drawn { font: Font { instructions, kerns, entries, boundary, left_entry }, letters, design: design(r) }
}

/// Few instructions and many entries, about 255 or the end of 16 bits: redirects, up to 256 of them.
fn packing(r: &mut Random) -> Drawn {
    let letters = if r.percent(50) { (256, 256) } else { (150, 256) };
    let mut drawn = by_shape(r, &Shape { letters, instructions: (0, 3), stops: 50, strange: 0 });
    let low = r.pick(&[0, 1, 100, 200, 254, 255, 256, 300, 65_000, 65_279, 65_280]);
    let spread = r.pick(&[3, 100, 255, 256, 300]);
    let all = r.percent(50);
    drawn.font.entries.clear();
    for (i, c) in drawn.letters.iter().enumerate() {
        let e = if all { low + i as i64 } else { low + r.within(0, spread) };
        drawn.font.entries.push([*c, e.min(65_535) as i32]);
    }
    drawn
}

/// A ladder on which each pair passes twice through the next, so that each level doubles the count of ops
/// (tools/oracle/requests), and a few changes by chance.
fn doubling(r: &mut Random) -> Drawn {
    let depth = r.within(1, 40) as i32;
    let mut rules = vec![(10 + depth, 60 + depth, 11, 9)];
    for k in 0..depth {
        rules.push((10 + k, 60 + k, 3, 110 + k));
        rules.push((10 + k, 110 + k, 1, 11 + k));
        rules.push((11 + k, 110 + k, 2, 61 + k));
        rules.push((60 + depth, 60 + k, 1, 11 + k));
        rules.push((11 + k, 60 + k, 2, 61 + k));
    }
    rules.sort();
    for _ in 0..r.within(0, 2) {
        let i = r.within(0, rules.len() as i64 - 1) as usize;
        rules[i].2 = op_byte(r);
    }
    let mut font = Font { boundary: -1, left_entry: -1, ..Font::default() };
    for (i, (left, right, op, inserted)) in rules.iter().enumerate() {
        let last = rules.get(i + 1).is_none_or(|next| next.0 != *left);
        if i == 0 || rules[i - 1].0 != *left {
            font.entries.push([*left, i as i32]);
        }
        font.instructions.push([if last { -1 } else { 0 }, *right, 2, 256 * op + inserted]);
    }
    Drawn { font, letters: vec![10, 60, 110, 11, 61], design: DESIGN }
}

// ---- what is asked beside a font

/// A letter that no font has: at the ends of the ranges, or one of these letters but for higher bits.
pub fn beyond(r: &mut Random, letters: &[i32]) -> u32 {
    let c = r.pick(letters) as u32;
    r.pick(&[256, 300, 55_295, 57_344, 1_114_111, c + 256, c + 65_536])
}

/// A word of these letters, in one of five with letters beyond the font among them.
pub fn word(r: &mut Random, letters: &[i32]) -> Vec<u32> {
    let length = if r.percent(4) { r.within(7, 30) } else { r.within(0, 6) };
    let mut word: Vec<u32> =
        (0..length).map(|_| if r.percent(97) { r.pick(letters) as u32 } else { r.within(0, 255) as u32 }).collect();
    if r.percent(20) {
        for letter in &mut word {
            if r.percent(30) {
                *letter = beyond(r, letters);
            }
        }
    }
    word
}

/// An override: one of the letters, in one of five beyond the font.
pub fn over(r: &mut Random, letters: &[i32]) -> i32 {
    if r.percent(20) {
        beyond(r, letters) as i32
    } else {
        r.pick(letters)
    }
}

/// Indices that are passed over; now and then one past the program, which the Rust's set can hold.
pub fn passthrough(r: &mut Random, count: usize) -> Vec<u16> {
    let mut indices: Vec<u16> = (0..count as u16).filter(|_| r.percent(25)).collect();
    if r.percent(5) {
        indices.push(count as u16 + r.within(0, 9) as u16);
    }
    indices
}

/// What repair is lent: most letters exist, and other characters by chance.
pub fn damage(r: &mut Random, letters: &[i32], count: usize) -> Damage {
    let mut existing = [r.next(), r.next(), r.next(), r.next()];
    for c in letters {
        let bit = 1 << (c % 64);
        match r.percent(75) {
            true => existing[*c as usize / 64] |= bit,
            false => existing[*c as usize / 64] &= !bit,
        }
    }
    if r.percent(10) {
        existing = [r.pick(&[0, u64::MAX]); 4];
    }
    let smallest = if r.percent(80) { r.pick(letters) } else { r.within(0, 255) as i32 };
    Damage { smallest, existing, passthrough: passthrough(r, count) }
}

/// The font with entries of one byte, as repair takes them.
pub fn one_byte(font: &Font) -> Font {
    let mut font = font.clone();
    font.entries.iter_mut().for_each(|e| e[1] %= 256);
    font
}
