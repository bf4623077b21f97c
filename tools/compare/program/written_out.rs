//! The font on which the Rust is asked where a chain reaches a redirect: the chain of each left written out without its
//! redirects, one after the other.
//!
//! It has the same rules in the same order. A walk of the loop list starts by left and then by the index of its rule,
//! and along one chain the indices ascend, here as there.

use crate::font::Font;
use crate::reading::{chain, is_redirect};

/// Puts the chain of an entry behind the instructions; its entry there, or -1 where nothing is left of it.
fn put_chain(font: &Font, entry: i32, instructions: &mut Vec<[i32; 4]>) -> i32 {
    let start = instructions.len();
    for i in chain(font, entry).into_iter().filter(|i| !is_redirect(font, *i)) {
        let [_, right, kind, operand] = font.instructions[i];
        instructions.push([0, right, kind, operand]);
    }
    if instructions.len() == start {
        return -1;
    }
    instructions.last_mut().unwrap()[0] = -1;
    assert!(start <= 65_535, "the chains written out are too long");
    start as i32
}

pub fn written_out(font: &Font) -> Font {
    let mut out = Font { instructions: vec![], entries: vec![], ..font.clone() };
    for [c, entry] in &font.entries {
        out.entries.push([*c, put_chain(font, *entry, &mut out.instructions)]);
    }
    out.entries.retain(|[_, entry]| *entry >= 0);
    if font.left_entry >= 0 {
        out.left_entry = put_chain(font, font.left_entry, &mut out.instructions);
    }
    out
}
