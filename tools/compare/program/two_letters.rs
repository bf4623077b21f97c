//! All fonts of two letters, as the README defines them: the six pairs of a left boundary, a and b with a and b; for
//! each pair no rule, a kern, or one of the eight ops inserting a or b; three boundary characters; all words up to
//! length 3; all options.

use crate::compare::{compile, Mismatch};
use crate::drawn::DESIGN;
use crate::features;
use crate::font::{Font, Setting};
use crate::questions::spare;
use crate::reading;
use crate::tally::Tally;

const A: i32 = 97;
const B: i32 = 98;
const OPS: [i32; 8] = [0, 1, 2, 3, 5, 6, 7, 11];

/// For each pair a rule: 0 none, 1 a kern, then the ops inserting a, then those inserting b. In this order: (boundary,
/// a), (boundary, b), (a, a), (a, b), (b, a), (b, b).
type Rules = [u8; 6];
const CHOICES: u8 = 18;

fn is_member(rules: &Rules, most: usize) -> bool {
    let boundary = rules[0] != 0 || rules[1] != 0;
    !boundary || rules.iter().filter(|r| **r != 0).count() <= most
}

/// The members of the family: all choices for the four pairs of letters without a left boundary, and all in which at
/// most so many of the six pairs have a rule.
pub fn family(most: usize) -> Vec<Rules> {
    let mut family = vec![];
    let mut rules = [0; 6];
    loop {
        if is_member(&rules, most) {
            family.push(rules);
        }
        let Some(i) = rules.iter().rposition(|r| *r != CHOICES - 1) else { return family };
        rules[i] += 1;
        rules[i + 1..].fill(0);
    }
}

/// The instruction of a rule; kerns of different pairs differ, and every other one is negative.
fn instruction(pair: usize, rule: u8) -> [i32; 4] {
    let right = if pair % 2 == 0 { A } else { B };
    let sign = if pair % 2 == 0 { 1 } else { -1 };
    let (kind, operand) = match rule {
        1 => (0, sign * 65_536 * (pair as i32 + 1)),
        r if r < 10 => (2, 256 * OPS[r as usize - 2] + A),
        r => (2, 256 * OPS[r as usize - 10] + B),
    };
    [-1, right, kind, operand]
}

/// The instructions of one left, chained.
fn put_left(font: &mut Font, rules: &Rules, side: usize) -> Option<i32> {
    let entry = font.instructions.len();
    for pair in [2 * side, 2 * side + 1] {
        if rules[pair] != 0 {
            if font.instructions.len() > entry {
                font.instructions[entry][0] = 0;
            }
            font.instructions.push(instruction(pair, rules[pair]));
        }
    }
    (font.instructions.len() > entry).then_some(entry as i32)
}

fn font_of(rules: &Rules) -> Font {
    let mut font = Font { boundary: -1, left_entry: -1, ..Font::default() };
    font.left_entry = put_left(&mut font, rules, 0).unwrap_or(-1);
    for (side, c) in [(1, A), (2, B)] {
        if let Some(entry) = put_left(&mut font, rules, side) {
            font.entries.push([c, entry]);
        }
    }
    font
}

/// All words of the two letters up to length 3.
fn words() -> Vec<Vec<u32>> {
    let mut words: Vec<Vec<u32>> = vec![vec![]];
    let mut longest = words.clone();
    for _ in 0..3 {
        longest = longest.iter().flat_map(|w| [A, B].map(|c| [&w[..], &[c as u32]].concat())).collect();
        words.extend(longest.clone());
    }
    words
}

/// All questions about one member: compiled once for each boundary character, and every word with every option.
pub fn questions(rules: &Rules, number: u64, tally: &mut Tally) -> Result<(), Box<Mismatch>> {
    let mut font = font_of(rules);
    let reading = reading::read(&font);
    let words = words();
    for boundary in [-1, A, B] {
        font.boundary = boundary;
        features::count(&font, &reading, tally);
        let Some(mut both) = compile(&font, DESIGN, spare(number), &reading, tally)? else { continue };
        features::count_loops(both.loops(), reading.endless, tally);
        for word in &words {
            let mut setting = Setting { design: DESIGN, word: word.clone(), disable_left_boundary: false, over: -1 };
            for (disable_left_boundary, over) in [(false, -1), (false, A), (false, B), (true, -1), (true, A), (true, B)]
            {
                setting.disable_left_boundary = disable_left_boundary;
                setting.over = over;
                setting = both.ask_all_ways(setting, &font, tally)?;
            }
        }
        both.unchanged(&font, DESIGN)?;
    }
    Ok(())
}
