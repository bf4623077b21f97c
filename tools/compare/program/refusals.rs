//! Questions with one number out of range, of which the Rust's types know nothing: the library must answer with the
//! number of docs/RULES.md ('Refusals') and leave zeros.

use crate::compare::{ask_refused, Mismatch};
use crate::drawn::{damage, one_byte, Drawn};
use crate::font::{Ask, Font};
use crate::random::Random;
use crate::tally::Tally;

/// The calls that are lent the part of a font that is out of range.
fn asks(r: &mut Random, drawn: &Drawn, design: i32, number: u32, part: Part) -> Vec<Ask> {
    let repair = Ask::Repair(damage(r, &drawn.letters, drawn.font.instructions.len()));
    let passthrough = vec![];
    let compile = Ask::Compile { design };
    match (number, part) {
        (2, _) => vec![
            compile,
            Ask::ProgramSafe,
            Ask::Chain { entry: 0 },
            Ask::Unpack { entry: 0, passthrough: vec![] },
            Ask::Reach { passthrough },
            Ask::Pack,
            Ask::PackKerns,
            Ask::UnpackKerns,
            repair,
        ],
        (_, Part::Entries) => vec![compile, Ask::ProgramSafe, Ask::Reach { passthrough }, Ask::Pack, repair],
        (_, Part::Left) => vec![compile, Ask::Reach { passthrough }, Ask::Pack, repair],
        (_, Part::Boundary) => vec![compile, Ask::Pack, repair],
        _ => vec![compile],
    }
}

#[derive(Clone, Copy)]
enum Part {
    Instructions,
    Entries,
    Boundary,
    Left,
    Design,
}

/// An instruction that is none.
fn no_instruction(r: &mut Random) -> [i32; 4] {
    r.pick(&[
        [-2, 65, 0, 0],
        [256, 65, 0, 0],
        [0, -1, 0, 0],
        [0, 256, 0, 0],
        [0, 65, -1, 0],
        [0, 65, 4, 0],
        [0, 65, 1, -1],
        [0, 65, 1, 65_536],
        [0, 65, 2, -1],
        [0, 65, 2, 32_768],
        [0, 65, 3, -1],
        [0, 65, 3, 131_072],
    ])
}

/// Puts one number of the font out of range; the part, and the number due.
fn spoilt(r: &mut Random, font: &mut Font, design: &mut i32) -> (Part, u32) {
    match r.within(0, 4) {
        0 => {
            let place = r.within(0, font.instructions.len() as i64) as usize;
            font.instructions.insert(place, no_instruction(r));
            (Part::Instructions, 2)
        }
        1 => {
            let place = r.within(0, font.entries.len() as i64) as usize;
            let twice = font.entries.first().map_or([256, 0], |e| [e[0], 0]);
            let entry = r.pick(&[[-1, 0], [256, 0], [i32::MAX, 0], twice]);
            font.entries.insert(place, entry);
            (Part::Entries, 4)
        }
        2 => {
            font.boundary = r.pick(&[-2, 256, i32::MIN, i32::MAX]);
            (Part::Boundary, 4)
        }
        3 => {
            font.left_entry = r.pick(&[-2, 65_536, i32::MIN, i32::MAX]);
            (Part::Left, 4)
        }
        _ => {
            *design = r.pick(&[-1, i32::MIN]);
            (Part::Design, 5)
        }
    }
}

/// One number of a drawn font put out of range, and every call that is lent it.
pub fn questions(r: &mut Random, drawn: &Drawn, spare: usize, tally: &mut Tally) -> Result<(), Box<Mismatch>> {
    let mut font = one_byte(&drawn.font);
    let mut design = drawn.design;
    let (part, number) = spoilt(r, &mut font, &mut design);
    for ask in asks(r, drawn, design, number, part) {
        ask_refused(&ask, &font, number, spare, tally)?;
    }
    Ok(())
}
