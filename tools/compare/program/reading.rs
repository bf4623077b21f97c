//! A reading of a font that is neither the Rust's nor the library's, from docs/RULES.md, R55 to R76: which pairs
//! have a rule, which of them finish, and how many ops they have in all. It says how much room a call is lent and
//! whether the Rust can be asked at all (a pair can have more ops than fit in memory), and what the fonts are like.
//! A redirect on a chain is passed over; the Rust takes it for a rule, and so does `read_as_rust`.

use crate::font::Font;
use std::collections::HashMap;

/// A left (-1 the boundary) and a right.
pub type Pair = (i32, i32);

/// What a rule does.
#[derive(Clone, Copy, PartialEq)]
pub enum Rule {
    Kern(i32),
    Ligature(i32, i32),
}

/// The reading of a pair: still under way, without an end, or its count of ops and its last.
#[derive(Clone, Copy)]
enum Read {
    UnderWay,
    Endless,
    Ends(u128, i32),
}

pub struct Reading {
    pub rules: HashMap<Pair, usize>,
    pub ops: u128,
    pub endless: usize,
    pub scales: bool,
}

pub fn scales(kern: i32) -> bool {
    matches!(kern.to_be_bytes()[0], 0 | 255)
}

/// The indices of a chain.
pub fn chain(font: &Font, entry: i32) -> Vec<usize> {
    let mut indices = vec![];
    let mut next = entry as usize;
    while let Some(instruction) = font.instructions.get(next) {
        indices.push(next);
        if instruction[0] < 0 {
            break;
        }
        next += 1 + instruction[0] as usize;
    }
    indices
}

/// The lefts that have an entry, the boundary among them.
pub fn lefts(font: &Font) -> Vec<Pair> {
    let mut lefts: Vec<Pair> = font.entries.iter().map(|e| (e[0], e[1])).collect();
    if font.left_entry >= 0 {
        lefts.push((-1, font.left_entry));
    }
    lefts
}

pub fn is_redirect(font: &Font, index: usize) -> bool {
    font.instructions[index][2] == 3
}

/// Whether a chain reaches a redirect.
pub fn reaches_redirect(font: &Font) -> bool {
    lefts(font).iter().any(|(_, entry)| chain(font, *entry).iter().any(|i| is_redirect(font, *i)))
}

/// The first instruction for each right on the chain of each left, among those that count.
fn firsts(font: &Font, counts: impl Fn(usize) -> bool) -> HashMap<Pair, usize> {
    let mut firsts = HashMap::new();
    for (left, entry) in lefts(font) {
        for i in chain(font, entry).into_iter().filter(|i| counts(*i)) {
            firsts.entry((left, font.instructions[i][1])).or_insert(i);
        }
    }
    firsts
}

/// The redirects that the Rust takes for the rule of a pair.
pub fn taken_for_rules(font: &Font) -> Vec<usize> {
    firsts(font, |_| true).into_values().filter(|i| is_redirect(font, *i)).collect()
}

/// What an instruction does as the rule of a pair. In the Rust a redirect acts by its target's two bytes.
pub fn rule(font: &Font, index: usize) -> Rule {
    let [_, _, kind, operand] = font.instructions[index];
    let by_index = |k: i32| Rule::Kern(font.kerns.get(k as usize).copied().unwrap_or(0));
    let (byte, rest) = (operand / 256 % 256, operand % 256);
    match kind {
        0 => Rule::Kern(operand),
        1 => by_index(operand),
        3 if byte >= 128 => by_index(256 * (byte - 128) + rest),
        _ => Rule::Ligature(byte, rest),
    }
}

struct Reader<'a> {
    font: &'a Font,
    rules: &'a HashMap<Pair, usize>,
    read: HashMap<Pair, Read>,
}

impl Reader<'_> {
    /// The ops and the last of two items at the cursor; none where the reading never ends.
    fn pair(&mut self, pair: Pair) -> Option<(u128, i32)> {
        let given = (pair.0 >= 0) as u128;
        let Some(index) = self.rules.get(&pair) else { return Some((given, pair.1)) };
        match self.read.insert(pair, Read::UnderWay) {
            Some(Read::Ends(ops, last)) => {
                self.read.insert(pair, Read::Ends(ops, last));
                return Some((ops, last));
            }
            Some(_) => return self.endless(pair),
            None => {}
        }
        let ends = match rule(self.font, *index) {
            Rule::Kern(_) => Some((given + 1, pair.1)),
            Rule::Ligature(byte, inserted) => self.ligature(pair, given, byte, inserted),
        };
        let Some((ops, last)) = ends else { return self.endless(pair) };
        self.read.insert(pair, Read::Ends(ops, last));
        Some((ops, last))
    }

    fn endless(&mut self, pair: Pair) -> Option<(u128, i32)> {
        self.read.insert(pair, Read::Endless);
        None
    }

    /// TeX 545: what each op byte leaves at the cursor.
    fn ligature(&mut self, (left, right): Pair, given: u128, byte: i32, inserted: i32) -> Option<(u128, i32)> {
        match byte {
            1 => self.pair((inserted, right)),
            2 => self.pair((left, inserted)),
            3 => {
                let (first, last) = self.pair((left, inserted))?;
                let (second, last) = self.pair((last, right))?;
                Some((first.saturating_add(second), last))
            }
            5 => Some((1, right)),
            6 => Some((given, inserted)),
            7 => {
                let (ops, last) = self.pair((inserted, right))?;
                Some((ops.saturating_add(given), last))
            }
            11 => Some((given + 1, right)),
            _ => Some((0, inserted)),
        }
    }
}

/// The reading by the rule of each pair, the first instruction for its right that is no redirect.
pub fn read(font: &Font) -> Reading {
    read_by(font, firsts(font, |i| !is_redirect(font, i)))
}

/// The reading by what the Rust takes for the rule of each pair: a redirect too.
pub fn read_as_rust(font: &Font) -> Reading {
    read_by(font, firsts(font, |_| true))
}

fn read_by(font: &Font, rules: HashMap<Pair, usize>) -> Reading {
    let mut reader = Reader { font, rules: &rules, read: HashMap::new() };
    let mut ops: u128 = 0;
    let mut endless = 0;
    let mut all_scale = true;
    for (pair, index) in &rules {
        match reader.pair(*pair) {
            Some((count, _)) => ops = ops.saturating_add(count),
            None => endless += 1,
        }
        all_scale &= !matches!(rule(font, *index), Rule::Kern(kern) if !scales(kern));
    }
    Reading { ops, endless, scales: all_scale, rules }
}
