//! The limits of the rules: the longest program, list of kerns and word, compared with the Rust, and each one longer,
//! which is refused with 1, 3 or 6. And the characters that a question about a table can name out of range, with 4, and
//! what is no letter, with 20.

use crate::compare::{ask_program, ask_refused, compile, Mismatch};
use crate::drawn::DESIGN;
use crate::font::{Ask, Damage, Font, Setting};
use crate::reading;
use crate::tally::Tally;

const INSTRUCTIONS: usize = 32_767;
const KERNS: usize = 32_767;
const LETTERS: usize = 65_535;

/// One limit each.
pub const QUESTIONS: u64 = 4;

type Asked = Result<(), Box<Mismatch>>;

pub fn questions(number: u64, tally: &mut Tally) -> Asked {
    match number {
        0 => instructions(tally),
        1 => kerns(tally),
        2 => letters(tally),
        _ => characters(tally),
    }
}

fn font(instructions: Vec<[i32; 4]>) -> Font {
    Font { instructions, entries: vec![[65, 0], [66, 7]], boundary: 65, left_entry: 1, kerns: vec![] }
}

/// Every question about a program.
fn programs(font: &Font) -> Vec<Ask> {
    let passthrough: Vec<u16> = (0..font.instructions.len() as u16).step_by(3).collect();
    let damage = Damage { smallest: 65, existing: [u64::MAX, u64::MAX, 0, 0], passthrough: passthrough.clone() };
    vec![
        Ask::ProgramSafe,
        Ask::Chain { entry: 0 },
        Ask::Unpack { entry: 3, passthrough: passthrough.clone() },
        Ask::Reach { passthrough },
        Ask::Pack,
        Ask::PackKerns,
        Ask::UnpackKerns,
        Ask::Repair(damage),
    ]
}

/// One chain through the longest program, a ligature or a kern in each place.
fn instructions(tally: &mut Tally) -> Asked {
    let one = |i: usize| match i % 3 {
        0 => [0, (i % 256) as i32, 0, i as i32],
        1 => [(i % 2) as i32, (i % 256) as i32, 2, 256 * (i % 128) as i32 + (i % 251) as i32],
        _ => [0, (i % 256) as i32, 1, i as i32],
    };
    let mut font = font((0..INSTRUCTIONS).map(one).collect());
    compile(&font, DESIGN, 1, &reading::read(&font), tally)?;
    for ask in programs(&font) {
        ask_program(&ask, &font, 1, tally)?;
    }
    font.instructions.push([0, 65, 0, 0]);
    ask_refused(&Ask::Compile { design: DESIGN }, &font, 1, 1, tally)?;
    for ask in programs(&font) {
        ask_refused(&ask, &font, 1, 1, tally)?;
    }
    Ok(())
}

/// The last kern of the longest list, and the index after it.
fn kerns(tally: &mut Tally) -> Asked {
    let mut font = font(vec![[0, 65, 1, KERNS as i32 - 1], [-1, 66, 1, KERNS as i32]]);
    font.kerns = (0..KERNS as i32).collect();
    let lent: Vec<Ask> = programs(&font).into_iter().filter(|a| matches!(a, Ask::PackKerns | Ask::Repair(_))).collect();
    compile(&font, DESIGN, 1, &reading::read(&font), tally)?;
    for ask in &lent {
        ask_program(ask, &font, 1, tally)?;
    }
    font.kerns.push(1);
    ask_refused(&Ask::Compile { design: DESIGN }, &font, 3, 1, tally)?;
    for ask in &lent {
        ask_refused(ask, &font, 3, 1, tally)?;
    }
    Ok(())
}

/// The longest word, of ligatures, kerns and boundaries.
fn letters(tally: &mut Tally) -> Asked {
    let font = font(vec![[0, 66, 2, 256 + 67], [0, 65, 0, -65_536], [-1, 67, 2, 65]]);
    let Some(mut both) = compile(&font, DESIGN, 1, &reading::read(&font), tally)? else { return Ok(()) };
    let mut word: Vec<u32> = (0..LETTERS).map(|i| [65, 66, 67, 65, 65, 68][i * i % 6]).collect();
    for disable_left_boundary in [false, true] {
        let setting = Setting { design: DESIGN, word: word.clone(), disable_left_boundary, over: 66 };
        both.ask_all_ways(setting, &font, tally)?;
    }
    word.push(65);
    let setting = Setting { design: DESIGN, word, disable_left_boundary: false, over: -1 };
    both.ask_refused(&Ask::SetWord(setting.clone()), &font, 6, tally)?;
    both.ask_refused(&Ask::Steps(setting), &font, 6, tally)
}

/// Characters out of range beside a table.
fn characters(tally: &mut Tally) -> Asked {
    let font = font(vec![[-1, 66, 2, 67]]);
    let Some(mut both) = compile(&font, DESIGN, 1, &reading::read(&font), tally)? else { return Ok(()) };
    for (left, right) in [(-2, 66), (256, 66), (65, -2), (65, 256), (i32::MIN, i32::MAX)] {
        both.ask_refused(&Ask::HasReplacement { design: DESIGN, left, right }, &font, 4, tally)?;
    }
    for (over, number) in [(-2, 4), (i32::MIN, 4), (0xd800, 20), (0xdfff, 20), (1_114_112, 20), (i32::MAX, 20)] {
        let setting = Setting { design: DESIGN, word: vec![65, 66], disable_left_boundary: false, over };
        both.ask_refused(&Ask::SetWord(setting.clone()), &font, number, tally)?;
        both.ask_refused(&Ask::Steps(setting), &font, number, tally)?;
    }
    for letter in [0xd800, 0xdfff, 1_114_112, u32::MAX] {
        let setting = Setting { design: DESIGN, word: vec![65, letter], disable_left_boundary: false, over: -1 };
        both.ask_refused(&Ask::SetWord(setting.clone()), &font, 20, tally)?;
        both.ask_refused(&Ask::Indexed(setting.clone()), &font, 20, tally)?;
        both.ask_refused(&Ask::Steps(setting), &font, 20, tally)?;
    }
    Ok(())
}
