//! A damaged font put right as far as its pairs go, from the rules: only to know how much work repair needs and
//! whether the Rust, which compiles the repaired font, can be asked. No answer is compared with it.

use crate::font::{Damage, Font};

/// What a packed entry stands for, if it can be followed.
fn unpacked(font: &Font, entry: i32) -> Option<i32> {
    let instruction = font.instructions.get(entry as usize)?;
    let target = instruction[3] % 65536;
    match instruction[2] {
        3 => ((target as usize) < font.instructions.len()).then_some(target),
        _ => Some(entry),
    }
}

fn exists(damage: &Damage, c: i32) -> bool {
    damage.existing[c as usize / 64] >> (c % 64) & 1 == 1
}

/// The font with its entries unpacked and every character that does not exist replaced.
pub fn mended(font: &Font, damage: &Damage) -> Font {
    let mut mended = font.clone();
    mended.entries = font.entries.iter().filter_map(|e| Some([e[0], unpacked(font, e[1])?])).collect();
    if font.left_entry >= font.instructions.len() as i32 {
        mended.left_entry = -1;
    }
    for instruction in mended.instructions.iter_mut().filter(|i| i[2] != 3) {
        if !exists(damage, instruction[1]) && instruction[1] != font.boundary {
            instruction[1] = damage.smallest;
        }
        if instruction[2] == 2 && !exists(damage, instruction[3] % 256) {
            instruction[3] = instruction[3] / 256 * 256 + damage.smallest;
        }
    }
    mended
}
