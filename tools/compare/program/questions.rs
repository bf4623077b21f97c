//! What is asked of a drawn font: every call, words with all options, and the font repaired.

use crate::broken;
use crate::compare::{ask_program, compile, Mismatch};
use crate::drawn::{self, Drawn};
use crate::features;
use crate::font::{Ask, Font, Setting};
use crate::random::Random;
use crate::reading;
use crate::refusals;
use crate::tally::Tally;

type Asked = Result<(), Box<Mismatch>>;

/// All questions about font `number` of the run.
pub fn font(seed: u64, number: u64, tally: &mut Tally) -> Asked {
    let mut r = Random::new(seed, number);
    let drawn = drawn::drawn(&mut r);
    let spare = spare(number);
    table(&mut r, &drawn, spare, tally)?;
    program(&mut r, &drawn, spare, tally)?;
    repair(&mut r, &drawn, spare, tally)?;
    refusals::questions(&mut r, &drawn, spare, tally)
}

/// How many elements each list has more than it needs, by the font's number.
pub fn spare(number: u64) -> usize {
    (number % 6) as usize
}

/// Compiling, the questions about the table, and words.
fn table(r: &mut Random, drawn: &Drawn, spare: usize, tally: &mut Tally) -> Asked {
    let (font, design) = (&drawn.font, drawn.design);
    let reading = reading::read(font);
    features::count(font, &reading, tally);
    let Some(mut both) = compile(font, design, spare, &reading, tally)? else { return Ok(()) };
    features::count_loops(both.loops(), reading.endless, tally);
    both.ask(&Ask::AllPairs { design }, font, tally)?;
    both.ask(&Ask::TableSafe { design }, font, tally)?;
    for (left, right) in asked_pairs(r, &drawn.letters) {
        both.ask(&Ask::HasReplacement { design, left, right }, font, tally)?;
    }
    for _ in 0..3 {
        let word = drawn::word(r, &drawn.letters);
        for over in [-1, drawn::over(r, &drawn.letters)] {
            for disable_left_boundary in [false, true] {
                let setting = Setting { design, word: word.clone(), disable_left_boundary, over };
                both.ask_all_ways(setting, font, tally)?;
            }
        }
    }
    both.unchanged(font, design)?;
    let word = drawn::word(r, &drawn.letters);
    let setting = Setting { design, word, disable_left_boundary: r.percent(50), over: -1 };
    broken::questions(r, &both, font, setting, tally)
}

/// All pairs of few letters, the boundary at each side; some of many.
fn asked_pairs(r: &mut Random, letters: &[i32]) -> Vec<(i32, i32)> {
    let sides: Vec<i32> = std::iter::once(-1).chain(letters.iter().copied()).collect();
    match letters.len() {
        0..=4 => sides.iter().flat_map(|l| sides.iter().map(|r| (*l, *r))).collect(),
        _ => (0..20).map(|_| (r.pick(&sides), r.pick(&sides))).collect(),
    }
}

/// The calls about a program.
fn program(r: &mut Random, drawn: &Drawn, spare: usize, tally: &mut Tally) -> Asked {
    let font = &drawn.font;
    let count = font.instructions.len();
    for ask in [Ask::ProgramSafe, Ask::Pack, Ask::PackKerns, Ask::UnpackKerns] {
        ask_program(&ask, font, spare, tally)?;
    }
    for kern in [r.within(-16_777_216, 16_777_215) as i32, r.within(i32::MIN as i64, i32::MAX as i64) as i32] {
        ask_program(&Ask::Scale { kern, design: drawn.design }, font, spare, tally)?;
    }
    for entry in [0, r.within(0, count as i64 + 1) as i32, r.pick(&[255, 256, 32_766, 65_535])] {
        ask_program(&Ask::Chain { entry }, font, spare, tally)?;
    }
    for entry in [r.within(0, count as i64).min(255), r.within(0, count as i64).min(255), r.within(0, 255)] {
        let passthrough = drawn::passthrough(r, count);
        ask_program(&Ask::Unpack { entry: entry as i32, passthrough }, font, spare, tally)?;
    }
    ask_program(&Ask::Reach { passthrough: drawn::passthrough(r, count) }, font, spare, tally)
}

/// The font as a damaged one, with its entries packed.
fn repair(r: &mut Random, drawn: &Drawn, spare: usize, tally: &mut Tally) -> Asked {
    let font: Font = drawn::one_byte(&drawn.font);
    for _ in 0..2 {
        let damage = drawn::damage(r, &drawn.letters, font.instructions.len());
        ask_program(&Ask::Repair(damage), &font, spare, tally)?;
    }
    Ok(())
}
