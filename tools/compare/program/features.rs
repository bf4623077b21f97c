//! What a drawn font is like, for the counts at the end: a run is worth what its fonts have.

use crate::font::Font;
use crate::reading::{self, chain, lefts, rule, scales, Reading, Rule};
use crate::tally::Tally;
use std::collections::HashSet;

const STANDARD: [i32; 8] = [0, 1, 2, 3, 5, 6, 7, 11];

/// Counts the features of a font that its chains and rules show.
pub fn count(font: &Font, reading: &Reading, tally: &mut Tally) {
    let chains: Vec<Vec<usize>> = lefts(font).iter().map(|(_, entry)| chain(font, *entry)).collect();
    let twice = |c: &Vec<usize>| c.iter().map(|i| font.instructions[*i][1]).collect::<HashSet<_>>().len() < c.len();
    let past = |i: &usize| i + 1 + font.instructions[*i][0].max(-1) as usize >= font.instructions.len();
    let past = |i: &usize| font.instructions[*i][0] >= 0 && past(i);
    tally.feature("fonts", true);
    tally.feature("fonts with a right character twice on a chain", chains.iter().any(twice));
    tally.feature("fonts with a skip past the end on a chain", chains.iter().flatten().any(past));
    tally.feature("fonts with an entry past the program", chains.iter().any(|c| c.is_empty()));
    tally.feature("fonts with a boundary character", font.boundary >= 0);
    tally.feature("fonts with a rule for the left boundary", reading.rules.keys().any(|p| p.0 == -1));
    tally.feature("fonts with both boundaries", font.boundary >= 0 && reading.rules.keys().any(|p| p.0 == -1));
    tally.feature("fonts with 50 entries or more", font.entries.len() >= 50);
    tally.feature("fonts with 100 instructions or more", font.instructions.len() >= 100);
    count_rules(font, reading, tally);
    count_redirects(font, tally);
}

/// Counts what the chains pass over.
fn count_redirects(font: &Font, tally: &mut Tally) {
    let taken = reading::taken_for_rules(font);
    tally.feature("fonts with a chain that reaches a redirect", reading::reaches_redirect(font));
    tally.feature("fonts with a redirect that the Rust takes for a pair's rule", !taken.is_empty());
    for i in taken {
        tally.redirect_byte(font.instructions[i][3] / 256 % 256);
    }
}

fn count_rules(font: &Font, reading: &Reading, tally: &mut Tally) {
    let rules = || reading.rules.values().map(|i| (*i, rule(font, *i)));
    let kern = |holds: fn(i32) -> bool| rules().any(|(_, r)| matches!(r, Rule::Kern(k) if holds(k)));
    let past = |i: usize| font.instructions[i][2] == 1 && font.instructions[i][3] as usize >= font.kerns.len();
    let strange = |r: Rule| matches!(r, Rule::Ligature(byte, _) if !STANDARD.contains(&byte));
    tally.feature("fonts with a kern index past the list as a rule", rules().any(|(i, _)| past(i)));
    tally.feature("fonts with a nonstandard op byte as a rule", rules().any(|(_, r)| strange(r)));
    tally.feature("fonts with a negative kern as a rule", kern(|k| k < 0));
    tally.feature("fonts with a kern as a rule that does not scale", kern(|k| !scales(k)));
    tally.feature("fonts with more than 1,000 ops", reading.ops > 1000);
    for (_, r) in rules() {
        if let Rule::Ligature(byte, _) = r {
            tally.op_byte(byte);
        }
    }
}

/// Counts the features that the loop list and the reading show together.
pub fn count_loops(loops: usize, endless: usize, tally: &mut Tally) {
    tally.feature("fonts with a loop", loops >= 1);
    tally.feature("fonts with two loops", loops == 2);
    tally.feature("fonts with three loops or more", loops >= 3);
    tally.feature("fonts with more endless pairs than loops", endless > loops);
}
