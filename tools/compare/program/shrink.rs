//! A failing question made small: parts of it are left out, and numbers made plain, as long as the two sides still
//! differ.

use crate::compare::{mismatch, Mismatch};
use crate::drawn::DESIGN;
use crate::font::{request, Ask, Damage, Font, Setting};

type Question = (Ask, Font);

/// How long a question is, and how large its numbers are; -1, which is absent, is the smallest.
fn cost(question: &Question) -> (usize, u64) {
    let text = request(&question.0, &question.1);
    let numbers: Vec<i64> = text.split(' ').skip(1).map(|n| n.parse().unwrap()).collect();
    (numbers.len(), numbers.iter().map(|n| if *n < -1 { n.unsigned_abs() } else { (n + 1) as u64 }).sum())
}

/// The parts of a list that are tried without: halves, quarters, and so on down to single elements.
fn parts(length: usize) -> Vec<(usize, usize)> {
    let mut parts = vec![];
    let mut size = length;
    while size > 0 {
        parts.extend((0..length.div_ceil(size)).map(|i| (i * size, length.min((i + 1) * size))));
        size /= 2;
    }
    parts
}

fn without<T: Clone>(list: &[T], part: (usize, usize)) -> Vec<T> {
    [&list[..part.0], &list[part.1..]].concat()
}

/// An index as it is after instructions were left out.
fn moved(index: i32, part: (usize, usize)) -> i32 {
    let (from, to) = (part.0 as i32, part.1 as i32);
    match index {
        i if i >= to => i - (to - from),
        i if i >= from => from,
        i => i,
    }
}

/// The indices of a passthrough as they are then.
fn moved_ask(ask: &Ask, part: (usize, usize)) -> Ask {
    let mut ask = ask.clone();
    match &mut ask {
        Ask::Unpack { passthrough, .. } | Ask::Reach { passthrough } => {
            passthrough.iter_mut().for_each(|i| *i = moved(*i as i32, part) as u16)
        }
        Ask::Repair(damage) => damage.passthrough.iter_mut().for_each(|i| *i = moved(*i as i32, part) as u16),
        _ => {}
    }
    ask
}

/// Questions with fewer instructions: entries and passthrough moved with them, or left as they are.
fn without_instructions((ask, font): &Question) -> Vec<Question> {
    let mut out = vec![];
    for part in parts(font.instructions.len()) {
        let plain = Font { instructions: without(&font.instructions, part), ..font.clone() };
        let mut shifted = plain.clone();
        shifted.entries.iter_mut().for_each(|e| e[1] = moved(e[1], part));
        shifted.left_entry = moved(shifted.left_entry, part);
        out.extend([(moved_ask(ask, part), shifted), (ask.clone(), plain)]);
    }
    out
}

fn smaller_fonts(font: &Font) -> Vec<Font> {
    let mut out = vec![];
    out.extend(
        parts(font.entries.len()).into_iter().map(|p| Font { entries: without(&font.entries, p), ..font.clone() }),
    );
    out.extend(parts(font.kerns.len()).into_iter().map(|p| Font { kerns: without(&font.kerns, p), ..font.clone() }));
    out.push(Font { boundary: -1, ..font.clone() });
    out.push(Font { left_entry: -1, ..font.clone() });
    out.push(Font { left_entry: 0, ..font.clone() });
    for i in 0..font.entries.len() {
        let mut plain = font.clone();
        plain.entries[i][1] = 0;
        out.push(plain);
    }
    for i in 0..font.instructions.len() {
        plainer_instructions(font, i, &mut out);
    }
    for i in 0..font.kerns.len() {
        let mut plain = font.clone();
        plain.kerns[i] = 0;
        out.push(plain);
    }
    out
}

/// One instruction with one number made plain.
fn plainer_instructions(font: &Font, i: usize, out: &mut Vec<Font>) {
    let [next, right, kind, operand] = font.instructions[i];
    let plain_operand = if kind == 2 { 256 * (operand / 256) } else { 0 };
    let tried = [
        [-1, right, kind, operand],
        [0, right, kind, operand],
        [next, right, 0, 0],
        [next, right, kind, 0],
        [next, right, kind, plain_operand],
        [next, right, kind, operand % 256],
        [next, right, kind, operand % 65536],
        [next, 0, kind, operand],
    ];
    for instruction in tried {
        let mut plain = font.clone();
        plain.instructions[i] = instruction;
        out.push(plain);
    }
}

fn smaller_settings(setting: &Setting) -> Vec<Setting> {
    let mut out: Vec<Setting> = parts(setting.word.len())
        .into_iter()
        .map(|p| Setting { word: without(&setting.word, p), ..setting.clone() })
        .collect();
    out.push(Setting { over: -1, ..setting.clone() });
    out.push(Setting { disable_left_boundary: true, ..setting.clone() });
    out.push(Setting { design: DESIGN, ..setting.clone() });
    out
}

fn smaller_passthrough(passthrough: &[u16]) -> Vec<Vec<u16>> {
    parts(passthrough.len()).into_iter().map(|p| without(passthrough, p)).collect()
}

fn smaller_asks(ask: &Ask) -> Vec<Ask> {
    match ask {
        Ask::SetWord(s) => smaller_settings(s).into_iter().map(Ask::SetWord).collect(),
        Ask::Steps(s) => smaller_settings(s).into_iter().map(Ask::Steps).collect(),
        Ask::Indexed(s) => smaller_settings(s).into_iter().map(Ask::Indexed).collect(),
        Ask::Compile { .. } => vec![Ask::Compile { design: DESIGN }],
        Ask::AllPairs { .. } => vec![Ask::AllPairs { design: DESIGN }],
        Ask::TableSafe { .. } => vec![Ask::TableSafe { design: DESIGN }],
        Ask::HasReplacement { left, right, .. } => {
            vec![Ask::HasReplacement { design: DESIGN, left: *left, right: *right }]
        }
        Ask::Chain { .. } => vec![Ask::Chain { entry: 0 }],
        Ask::Unpack { entry, passthrough } => {
            let mut out = vec![Ask::Unpack { entry: 0, passthrough: passthrough.clone() }];
            let smaller = smaller_passthrough(passthrough).into_iter();
            out.extend(smaller.map(|passthrough| Ask::Unpack { entry: *entry, passthrough }));
            out
        }
        Ask::Reach { passthrough } => {
            smaller_passthrough(passthrough).into_iter().map(|passthrough| Ask::Reach { passthrough }).collect()
        }
        Ask::Repair(damage) => {
            let mut out: Vec<Ask> = smaller_passthrough(&damage.passthrough)
                .into_iter()
                .map(|passthrough| Ask::Repair(Damage { passthrough, ..damage.clone() }))
                .collect();
            for existing in [[u64::MAX; 4], [0; 4]] {
                out.push(Ask::Repair(Damage { existing, ..damage.clone() }));
            }
            out.push(Ask::Repair(Damage { smallest: 0, ..damage.clone() }));
            out
        }
        Ask::ProgramSafe | Ask::Pack | Ask::PackKerns | Ask::UnpackKerns | Ask::Scale { .. } => vec![],
    }
}

/// The smaller questions that are tried in place of one.
fn smaller(question: &Question) -> Vec<Question> {
    let (ask, font) = question;
    let mut out = without_instructions(question);
    out.extend(smaller_fonts(font).into_iter().map(|font| (ask.clone(), font)));
    out.extend(smaller_asks(ask).into_iter().map(|ask| (ask, font.clone())));
    out
}

/// The smallest failing question that is found from one that fails.
pub fn smallest(first: Mismatch, spare: usize) -> Mismatch {
    let mut found = first;
    loop {
        let question = (found.ask.clone(), found.font.clone());
        let now = cost(&question);
        let next = smaller(&question).into_iter().filter(|q| cost(q) < now).find_map(|q| mismatch(&q.0, &q.1, spare));
        match next {
            Some(next) => found = *next,
            None => return found,
        }
    }
}
