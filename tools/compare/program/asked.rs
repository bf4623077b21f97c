//! The Rust asked: the published functions, with their panics caught and told apart by what they say. Where a panic
//! is a refusal of docs/RULES.md, its number is the answer, and it is counted. The same is found in the same way by
//! tools/oracle (its README, 'Which refusal a panic is'). Where a chain reaches a redirect, which the Rust takes for a
//! rule, it is asked on the font with its chains written out without redirects, and this is counted too.

use crate::answer::Answer;
use crate::drawn::DESIGN;
use crate::font::{Damage, Font};
use crate::reading::{reaches_redirect, scales};
use crate::tally::{self, Tally};
use crate::written_out::written_out;
use std::cell::RefCell;
use std::panic::{catch_unwind, AssertUnwindSafe};
use tfm::oracle as published;
pub use tfm::oracle::CompiledProgram;

thread_local! {
    /// What the last panic of this thread said.
    static SAID: RefCell<String> = const { RefCell::new(String::new()) };
    /// Whether a panic of this thread is only listened to.
    static QUIET: RefCell<bool> = const { RefCell::new(false) };
}

/// Panics inside of `caught` are listened to and not printed; others are printed as ever.
pub fn listen() {
    let usual = std::panic::take_hook();
    std::panic::set_hook(Box::new(move |info| {
        if !QUIET.with(|q| *q.borrow()) {
            return usual(info);
        }
        let payload = info.payload();
        let text = match payload.downcast_ref::<&str>() {
            Some(text) => text.to_string(),
            None => payload.downcast_ref::<String>().cloned().unwrap_or_default(),
        };
        SAID.with(|said| *said.borrow_mut() = text);
    }));
}

/// What a function gives, or what its panic said.
fn caught<T>(f: impl FnOnce() -> T) -> Result<T, String> {
    QUIET.with(|q| *q.borrow_mut() = true);
    let result = catch_unwind(AssertUnwindSafe(f));
    QUIET.with(|q| *q.borrow_mut() = false);
    result.map_err(|_| SAID.with(|said| said.borrow().clone()))
}

fn odd(said: String) -> Answer {
    Answer::Odd(format!("the Rust panicked: {said}"))
}

fn plain(result: Result<Vec<i64>, String>) -> Answer {
    match result {
        Ok(numbers) => Answer::Is(numbers),
        Err(said) => odd(said),
    }
}

/// The assertion of `to_scaled` on the top byte.
fn is_unscaled(said: &str) -> bool {
    said.ends_with("a == 0 || a == 255")
}

fn lend(font: &Font, passthrough: &[u16]) -> published::Font {
    published::Font::new(&font.instructions, &font.kerns, &font.entries, font.boundary, font.left_entry, passthrough)
}

fn lend_counted(font: &Font, passthrough: &[u16], tally: &mut Tally) -> published::Font {
    let lent = lend(font, passthrough);
    if lent.passed_outside() > 0 {
        tally.class(tally::PASSED_OUTSIDE);
    }
    lent
}

// ---- one kern

pub fn to_scaled(kern: i32, design: i32, tally: &mut Tally) -> Answer {
    match caught(|| published::to_scaled(kern, design)) {
        Err(said) if is_unscaled(&said) => {
            tally.class(tally::SCALED);
            Answer::Refused(13)
        }
        result => plain(result),
    }
}

// ---- a compiled font

/// The font to be compiled, as it is lent to the Rust.
fn lend_passing(font: &Font, tally: &mut Tally) -> published::Font {
    if !reaches_redirect(font) {
        return lend(font, &[]);
    }
    tally.class(tally::WRITTEN_OUT);
    lend(&written_out(font), &[])
}

pub fn compile(font: &Font, design: i32, tally: &mut Tally) -> (Answer, Option<CompiledProgram>) {
    let lent = lend_passing(font, tally);
    match caught(|| lent.compile(design)) {
        Ok((compiled, numbers)) => (Answer::Is(numbers), Some(compiled)),
        Err(said) if is_unscaled(&said) => {
            tally.class(tally::SCALED);
            (Answer::Refused(13), None)
        }
        Err(said) => (odd(said), None),
    }
}

pub fn set_word(compiled: &CompiledProgram, word: &[u32], disable_left_boundary: bool, over: i32) -> Answer {
    plain(caught(|| published::set_word(compiled, word, disable_left_boundary, over)))
}

pub fn has_replacement(compiled: &CompiledProgram, left: i32, right: i32) -> Answer {
    plain(caught(|| published::has_replacement(compiled, left, right)))
}

pub fn all_pairs(compiled: &CompiledProgram) -> Answer {
    plain(caught(|| published::all_pairs(compiled)))
}

pub fn table_is_seven_bit_safe(compiled: &CompiledProgram) -> Answer {
    plain(caught(|| published::table_is_seven_bit_safe(compiled)))
}

// ---- programs

pub fn program_is_seven_bit_safe(font: &Font) -> Answer {
    plain(caught(|| lend(font, &[]).is_seven_bit_safe()))
}

pub fn instructions_for_entrypoint(font: &Font, entry: i32) -> Answer {
    plain(caught(|| lend(font, &[]).instructions_for_entrypoint(entry)))
}

pub fn unpack_entrypoint(font: &Font, entry: i32, passthrough: &[u16], tally: &mut Tally) -> Answer {
    let mut lent = lend_counted(font, passthrough, tally);
    match caught(|| lent.unpack_entrypoint(entry)) {
        Ok(Ok(numbers)) => Answer::Is(numbers),
        Ok(Err(number)) => Answer::Refused(number),
        Err(said) => odd(said),
    }
}

pub fn reachable_iter(font: &Font, passthrough: &[u16], tally: &mut Tally) -> Answer {
    let lent = lend_counted(font, passthrough, tally);
    match caught(|| lent.reachable_iter()) {
        Ok(numbers) => Answer::Is(numbers),
        Err(said) if font.instructions.is_empty() && said.ends_with("subtract with overflow") => {
            tally.class(tally::REACH_EMPTY);
            Answer::Is(vec![0])
        }
        Err(said) => odd(said),
    }
}

pub fn pack_kerns(font: &Font) -> Answer {
    plain(caught(|| lend(font, &[]).pack_kerns()))
}

pub fn unpack_kerns(font: &Font) -> Answer {
    plain(caught(|| lend(font, &[]).unpack_kerns()))
}

/// The number that a panic of packing is.
fn packing_number(said: &str) -> Option<u32> {
    if said.contains("cannot exceed 256") {
        Some(10)
    } else if said.contains("enough space") || said.ends_with("add with overflow") {
        Some(11)
    } else {
        None
    }
}

/// The font with its entries above 511 lowered to 512, 513 and so on in their order, and without the left entry: it
/// needs as many redirects, and no sum comes near 65,536.
fn lowered(font: &Font) -> Font {
    let mut high: Vec<i32> = font.entries.iter().map(|e| e[1]).filter(|e| *e > 511).collect();
    high.sort();
    high.dedup();
    let mut font = font.clone();
    for entry in &mut font.entries {
        if let Ok(i) = high.binary_search(&entry[1]) {
            entry[1] = 512 + i as i32;
        }
    }
    font.left_entry = -1;
    font
}

/// Where 11 holds, 10 comes before it if it holds too: the Rust is asked once more on the lowered font.
pub fn pack_entrypoints(font: &Font, tally: &mut Tally) -> Answer {
    let pack = |font: &Font| caught(|| lend(font, &[]).pack_entrypoints());
    let said = match pack(font) {
        Ok(numbers) => return Answer::Is(numbers),
        Err(said) => said,
    };
    let class = match packing_number(&said) {
        Some(10) => tally::REDIRECTS,
        Some(_) => match pack(&lowered(font)) {
            Ok(_) => tally::SHIFTED,
            Err(said) if packing_number(&said) == Some(10) => tally::REDIRECTS_LATER,
            Err(said) => return odd(said),
        },
        None => return odd(said),
    };
    tally.class(class);
    Answer::Refused(if class == tally::SHIFTED { 11 } else { 10 })
}

// ---- repair

/// The kind of a warning of a loop.
const LOOP: i64 = 10;

/// The font with each kern that does not scale set to 0.
fn scaled_alone(font: &Font) -> Font {
    let mut font = font.clone();
    font.kerns.iter_mut().filter(|k| !scales(**k)).for_each(|k| *k = 0);
    font.instructions.iter_mut().filter(|i| i[2] == 0 && !scales(i[3])).for_each(|i| i[3] = 0);
    font
}

/// Puts the kerns of the font back where the instruction is still the kern of zero that stood for it.
fn put_back(numbers: &mut [i64], font: &Font) {
    let start = 2 + 4 * numbers[0] as usize;
    for (i, instruction) in font.instructions.iter().enumerate() {
        let now = &mut numbers[start + 4 * i..start + 4 * i + 4];
        if instruction[2] == 0 && !scales(instruction[3]) && now[2] == 0 && now[3] == 0 {
            now[3] = instruction[3] as i64;
        }
    }
}

/// The entries that unpack, unpacked.
fn unpacked(font: &Font) -> Vec<[i32; 2]> {
    let mut lent = lend(font, &[]);
    font.entries.iter().filter_map(|e| Some([e[0], lent.unpack_entrypoint(e[1]).ok()?[0] as i32])).collect()
}

/// The repaired font of an answer of repair, with its entries unpacked.
fn repaired(font: &Font, numbers: &[i64]) -> Font {
    let start = 2 + 4 * numbers[0] as usize;
    let steps = numbers[start..].chunks_exact(4).take(font.instructions.len());
    let instructions = steps.map(|s| [s[0] as i32, s[1] as i32, s[2] as i32, s[3] as i32]).collect();
    Font { instructions, left_entry: numbers[1] as i32, entries: unpacked(font), ..font.clone() }
}

/// The loop list of a font of which a chain reaches a redirect. No loop hangs on a kern: those that do not scale are 0.
fn loops(font: &Font) -> Result<Vec<i64>, String> {
    let lent = lend(&scaled_alone(&written_out(font)), &[]);
    let (_, numbers) = caught(|| lent.compile(DESIGN))?;
    Ok(numbers[numbers.len() - 2 * numbers[2] as usize..].to_vec())
}

/// The answer of repair with other warnings of loops, which are the last.
fn with_loops(numbers: &[i64], loops: &[i64]) -> Vec<i64> {
    let (warnings, rest) = numbers[2..].split_at(4 * numbers[0] as usize);
    let kept = warnings.chunks(4).filter(|w| w[0] != LOOP).count();
    let mut out = vec![(kept + loops.len() / 2) as i64, numbers[1]];
    out.extend(&warnings[..4 * kept]);
    out.extend(loops.chunks(2).flat_map(|pair| [LOOP, pair[0], pair[1], 0]));
    out.extend(rest);
    out
}

/// Where a chain of the repaired font reaches a redirect, the warnings of loops are those that compiling it gives.
pub fn validate_and_fix(font: &Font, damage: &Damage, tally: &mut Tally) -> Answer {
    let answer = validate_and_fix_as_rust(font, damage, tally);
    let Answer::Is(numbers) = answer else { return answer };
    let repaired = repaired(font, &numbers);
    if !reaches_redirect(&repaired) {
        return Answer::Is(numbers);
    }
    tally.class(tally::REPAIR_WRITTEN_OUT);
    plain(loops(&repaired).map(|loops| with_loops(&numbers, &loops)))
}

/// Repair finds loops at a dummy design size, and a kern that does not scale is no matter to it: after that panic the
/// Rust is asked once more without these kerns.
fn validate_and_fix_as_rust(font: &Font, damage: &Damage, tally: &mut Tally) -> Answer {
    let mut lent = lend_counted(font, &damage.passthrough, tally);
    match caught(|| lent.validate_and_fix(damage.smallest, &damage.existing)) {
        Ok(numbers) => return Answer::Is(numbers),
        Err(said) if is_unscaled(&said) => tally.class(tally::REPAIR_SCALED),
        Err(said) => return odd(said),
    }
    let mut lent = lend(&scaled_alone(font), &damage.passthrough);
    match caught(|| lent.validate_and_fix(damage.smallest, &damage.existing)) {
        Ok(mut numbers) => {
            put_back(&mut numbers, font);
            Answer::Is(numbers)
        }
        Err(said) => odd(said),
    }
}
