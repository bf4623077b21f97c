//! What a run counts: the questions of each call and how they were answered, the classes of answer that are not the
//! Rust's, and what the fonts were like.

use crate::answer::Answer;
use crate::font::CALLS;
use std::collections::BTreeMap;

/// Where what is due is not simply the Rust's answer.
pub const CLASSES: [&str; 13] = [
    "13 due: the Rust panics in to_scaled (compiling, one kern)",
    "14 due: over the op table lent, by a count of the ops of our own; the Rust is not asked",
    "10 due: the Rust panics at the 256th redirect (packing)",
    "10 due: the Rust panics over 65,535 first, and at the 256th redirect when it is asked with lower entries (packing)",
    "11 due: the Rust panics where an entry and the offset pass 65,535 (packing)",
    "an empty answer due: the Rust panics on no instructions with a left entry (reach)",
    "an answer due: the Rust panics in to_scaled, and is asked once more without the kerns that do not scale (repair)",
    "nothing is compared: the repaired font has too many ops for the Rust, and neither side is asked (repair)",
    "the Rust alone was lent a passthrough index past the program; its answer is compared without it (unpacking, reach, repair)",
    "1 to 6 due: a number out of range or a list past its limit; the Rust is not asked",
    "7 due: a table that is not of the form; the Rust is not asked",
    "a chain reaches a redirect: the Rust is asked on the font with its chains written out without redirects (compiling)",
    "a chain reaches a redirect: the warnings of loops due are those of the repaired font, compiled so (repair)",
];
pub const SCALED: usize = 0;
pub const VAST: usize = 1;
pub const REDIRECTS: usize = 2;
pub const REDIRECTS_LATER: usize = 3;
pub const SHIFTED: usize = 4;
pub const REACH_EMPTY: usize = 5;
pub const REPAIR_SCALED: usize = 6;
pub const REPAIR_VAST: usize = 7;
pub const PASSED_OUTSIDE: usize = 8;
pub const OUT_OF_RANGE: usize = 9;
pub const BROKEN: usize = 10;
pub const WRITTEN_OUT: usize = 11;
pub const REPAIR_WRITTEN_OUT: usize = 12;

/// What the items of the words are.
const ITEMS: [&str; 8] = [
    "characters",
    "ligatures",
    "kerns",
    "ligatures with the left flag",
    "ligatures with the right flag",
    "ligatures with both flags",
    "ligatures with an empty original",
    "ligatures with an original of three letters or more",
];

#[derive(Default)]
pub struct Tally {
    answered: [u64; CALLS.len()],
    refused: BTreeMap<(usize, u32), u64>,
    classes: [u64; CLASSES.len()],
    features: BTreeMap<&'static str, u64>,
    warnings: BTreeMap<i64, u64>,
    items: [u64; ITEMS.len()],
    /// A bit for each op byte that was seen in a ligature that is a rule, and in a redirect that the Rust takes for one.
    lig_bytes: u128,
    redirect_bytes: [u128; 2],
}

impl Tally {
    /// A question of this call that both sides answered alike.
    pub fn agreed(&mut self, call: usize, answer: &Answer) {
        match answer {
            Answer::Refused(number) => *self.refused.entry((call, *number)).or_default() += 1,
            _ => self.answered[call] += 1,
        }
    }

    pub fn class(&mut self, class: usize) {
        self.classes[class] += 1;
    }

    pub fn feature(&mut self, name: &'static str, holds: bool) {
        *self.features.entry(name).or_default() += holds as u64;
    }

    /// The op byte of a ligature that is the rule of a pair.
    pub fn op_byte(&mut self, byte: i32) {
        self.lig_bytes |= 1 << byte;
    }

    /// The first byte of the target of a redirect that the Rust takes for the rule of a pair.
    pub fn redirect_byte(&mut self, byte: i32) {
        self.redirect_bytes[byte as usize / 128] |= 1 << (byte % 128);
    }

    /// The kinds of the warnings of an answer of repair.
    pub fn warned(&mut self, answer: &Answer) {
        if let Answer::Is(numbers) = answer {
            for warning in numbers[2..2 + 4 * numbers[0] as usize].chunks(4) {
                *self.warnings.entry(warning[0]).or_default() += 1;
            }
        }
    }

    /// The items of an answer of a word.
    pub fn set(&mut self, answer: &Answer) {
        let Answer::Is(numbers) = answer else { return };
        for item in numbers[1..].chunks_exact(6) {
            self.items[item[0] as usize] += 1;
            if item[0] == 1 {
                self.items[3] += item[4] as u64;
                self.items[4] += item[5] as u64;
                self.items[5] += (item[4] & item[5]) as u64;
                self.items[6] += (item[3] == 0) as u64;
                self.items[7] += (item[3] >= 3) as u64;
            }
        }
    }

    pub fn add(&mut self, other: &Tally) {
        add_all(&mut self.items, &other.items);
        add_all(&mut self.answered, &other.answered);
        add_all(&mut self.classes, &other.classes);
        self.lig_bytes |= other.lig_bytes;
        self.redirect_bytes[0] |= other.redirect_bytes[0];
        self.redirect_bytes[1] |= other.redirect_bytes[1];
        add_map(&mut self.refused, &other.refused);
        add_map(&mut self.features, &other.features);
        add_map(&mut self.warnings, &other.warnings);
    }

    pub fn questions(&self) -> u64 {
        self.answered.iter().sum::<u64>() + self.refused.values().sum::<u64>()
    }

    /// Writes the counts to standard output.
    pub fn print(&self) {
        if !self.features.is_empty() {
            self.print_features();
        }
        println!("  questions to which the library gave the answer that is due, call by call");
        for (call, name) in CALLS.iter().enumerate().filter(|(call, _)| self.asked(*call)) {
            println!("{:>14}  {name}{}", self.answered[call], self.refusals(call));
        }
        println!("{:>14}  in all", self.questions());
        self.print_items();
        self.print_warnings();
        println!("  what is due is the Rust's answer, but for these");
        self.classes.iter().zip(CLASSES).for_each(|(count, name)| println!("{count:>14}  {name}"));
    }

    fn asked(&self, call: usize) -> bool {
        self.answered[call] > 0 || self.refused.keys().any(|(c, _)| *c == call)
    }

    fn print_features(&self) {
        println!("  what the fonts have");
        for (name, count) in self.features.iter().filter(|(_, count)| **count > 0) {
            println!("{count:>14}  {name}");
        }
        let redirects: u32 = self.redirect_bytes.iter().map(|bits| bits.count_ones()).sum();
        println!("{:>14}  op bytes of 128 met as a pair's rule, in a ligature", self.lig_bytes.count_ones());
        println!("{redirects:>14}  op bytes of 256 met in a redirect that the Rust takes for a pair's rule");
    }

    fn refusals(&self, call: usize) -> String {
        let numbers: Vec<String> = self
            .refused
            .iter()
            .filter(|((c, _), _)| *c == call)
            .map(|((_, number), count)| format!("{count} with {number}"))
            .collect();
        match numbers.is_empty() {
            true => String::new(),
            false => format!(", and refusals due: {}", numbers.join(", ")),
        }
    }

    fn print_items(&self) {
        let items: Vec<String> = self.items.iter().zip(ITEMS).map(|(n, name)| format!("{n} {name}")).collect();
        println!("  items of the words: {}", items.join(", "));
    }

    fn print_warnings(&self) {
        if !self.warnings.is_empty() {
            let kinds: Vec<String> = self.warnings.iter().map(|(kind, n)| format!("{kind}: {n}")).collect();
            println!("  warnings of repair by kind: {}", kinds.join(", "));
        }
    }
}

fn add_all(to: &mut [u64], from: &[u64]) {
    to.iter_mut().zip(from).for_each(|(to, from)| *to += from);
}

fn add_map<K: Ord + Copy>(to: &mut BTreeMap<K, u64>, from: &BTreeMap<K, u64>) {
    from.iter().for_each(|(key, count)| *to.entry(*key).or_default() += count);
}
