//! One question put to both sides. The Rust is asked first; the library is lent as much room as the expected answer
//! needs, and some to spare.

use crate::answer::Answer;
use crate::asked::{self, CompiledProgram};
use crate::font::{Ask, Damage, Font, Setting};
use crate::library::{self, Lent, Stop};
use crate::mended::mended;
use crate::reading::{self, Reading};
use crate::table::Table;
use crate::tally::{self, Tally};
use std::sync::atomic::{AtomicUsize, Ordering};

/// The ops that a font may have for the Rust to be asked to write them out.
pub const OPS: u128 = 20_000;

/// Two answers to one question.
pub struct Answers {
    pub published: Answer,
    pub library: Answer,
}

/// A question on which the two sides differ. It is made small by asking smaller ones, unless the Rust cannot be asked.
pub struct Mismatch {
    pub ask: Ask,
    pub font: Font,
    pub answers: Answers,
    pub for_both: bool,
    /// The table that was lent, where it is not the font's.
    pub table: Option<(Vec<i32>, Vec<i32>)>,
}

/// A font that both sides compiled alike.
pub struct Both {
    compiled: CompiledProgram,
    table: Table,
    loops: usize,
}

/// In a self-test, one more than the call whose answers are spoilt; else 0.
pub static SPOILT: AtomicUsize = AtomicUsize::new(0);

/// Spoils an answer of the library in a self-test: its last number is one more wherever the sum of all is 1 modulo 3.
fn spoil(call: usize, answer: &mut Answer) {
    if SPOILT.load(Ordering::Relaxed) != call + 1 {
        return;
    }
    if let Answer::Is(numbers) = answer {
        if numbers.iter().sum::<i64>().rem_euclid(3) == 1 {
            *numbers.last_mut().unwrap() += 1;
        }
    }
}

/// The two answers, where they agree; they are counted then.
fn agree(ask: &Ask, font: &Font, mut answers: Answers, tally: &mut Tally) -> Result<Answers, Box<Mismatch>> {
    spoil(ask.call(), &mut answers.library);
    if answers.published == answers.library && !matches!(answers.library, Answer::Odd(_)) {
        tally.agreed(ask.call(), &answers.library);
        Ok(answers)
    } else {
        Err(Box::new(Mismatch { ask: ask.clone(), font: font.clone(), answers, for_both: true, table: None }))
    }
}

// ---- compiling

/// What is due, where compiling can be left out: 14, by the count of the ops.
fn vast(reading: &Reading) -> bool {
    reading.scales && reading.ops > OPS
}

/// Compiles a font on both sides.
pub fn compile(
    font: &Font,
    design: i32,
    spare: usize,
    reading: &Reading,
    tally: &mut Tally,
) -> Result<Option<Both>, Box<Mismatch>> {
    let (published, compiled) = if vast(reading) {
        tally.class(tally::VAST);
        (Answer::Refused(14), None)
    } else {
        asked::compile(font, design, tally)
    };
    let ops = if vast(reading) { OPS as usize } else { published.count(1) };
    let room = [reading.rules.len(), ops, published.count(2)];
    let (given, table) = match Lent::new(font, spare).compile(design, room) {
        Ok((numbers, table)) => (Ok(numbers), Some(table)),
        Err(stop) => (Err(stop), None),
    };
    let answers = Answers { published, library: library::answer(given) };
    let loops = agree(&Ask::Compile { design }, font, answers, tally)?.library.count(2);
    Ok(compiled.zip(table).map(|(compiled, table)| Both { compiled, table, loops }))
}

impl Both {
    /// How many pairs the loop list has.
    pub fn loops(&self) -> usize {
        self.loops
    }

    /// A question about a table.
    pub fn ask(&mut self, ask: &Ask, font: &Font, tally: &mut Tally) -> Result<(), Box<Mismatch>> {
        let (compiled, table) = (&self.compiled, &mut self.table);
        let (published, given) = match ask {
            Ask::SetWord(s) | Ask::Steps(s) | Ask::Indexed(s) => {
                let published = asked::set_word(compiled, &s.word, s.disable_left_boundary, s.over);
                return self.ask_word(ask, published, font, tally).map(|_| ());
            }
            Ask::HasReplacement { left, right, .. } => {
                (asked::has_replacement(compiled, *left, *right), table.has_replacement(*left, *right))
            }
            Ask::AllPairs { .. } => (asked::all_pairs(compiled), table.all_pairs()),
            _ => (asked::table_is_seven_bit_safe(compiled), table.is_seven_bit_safe()),
        };
        agree(ask, font, Answers { published, library: library::answer(given) }, tally).map(|_| ())
    }

    /// A word set whole, by an index or by steps, where the Rust has answered already.
    fn ask_word(
        &mut self,
        ask: &Ask,
        published: Answer,
        font: &Font,
        tally: &mut Tally,
    ) -> Result<Answers, Box<Mismatch>> {
        let room = published.count(0);
        let given = match ask {
            Ask::Steps(setting) => self.table.steps(setting, room),
            Ask::SetWord(setting) => self.table.set_word(setting, room),
            Ask::Indexed(setting) => self.table.set_word_indexed(setting, room),
            _ => unreachable!("no word is set"),
        };
        agree(ask, font, Answers { published, library: library::answer(given) }, tally)
    }

    /// A word set whole, by an index and by steps; the Rust is asked once.
    pub fn ask_all_ways(
        &mut self,
        setting: Setting,
        font: &Font,
        tally: &mut Tally,
    ) -> Result<Setting, Box<Mismatch>> {
        let published = asked::set_word(&self.compiled, &setting.word, setting.disable_left_boundary, setting.over);
        let whole = Ask::SetWord(setting);
        let published = self.ask_word(&whole, published, font, tally)?.published;
        tally.set(&published);
        let Ask::SetWord(setting) = whole else { unreachable!("a word is set") };
        let indexed = Ask::Indexed(setting);
        let published = self.ask_word(&indexed, published, font, tally)?.published;
        let Ask::Indexed(setting) = indexed else { unreachable!("a word is set") };
        let steps = Ask::Steps(setting);
        self.ask_word(&steps, published, font, tally)?;
        let Ask::Steps(setting) = steps else { unreachable!("a word is set") };
        Ok(setting)
    }

    /// After all questions about a table: no call wrote to it.
    pub fn unchanged(&self, font: &Font, design: i32) -> Result<(), Box<Mismatch>> {
        self.table.unchanged().map_err(|fault| {
            let answers = Answers { published: Answer::Is(vec![]), library: Answer::Odd(fault) };
            Box::new(Mismatch {
                ask: Ask::Compile { design },
                font: font.clone(),
                answers,
                for_both: false,
                table: None,
            })
        })
    }
}

// ---- programs

/// Repair, unless the repaired font has too many ops for the Rust, which compiles it, redirects and all.
fn repair(
    font: &Font,
    damage: &Damage,
    lent: &mut Lent,
    tally: &mut Tally,
) -> Option<(Answer, Result<Vec<i64>, Stop>)> {
    let mended = mended(font, damage);
    let reading = reading::read(&mended);
    if reading.ops > OPS || reading::read_as_rust(&mended).ops > OPS {
        tally.class(tally::REPAIR_VAST);
        return None;
    }
    let published = asked::validate_and_fix(font, damage, tally);
    tally.warned(&published);
    let given = lent.repair(damage, [published.count(0), reading.rules.len()]);
    Some((published, given))
}

/// A question about a program.
pub fn ask_program(ask: &Ask, font: &Font, spare: usize, tally: &mut Tally) -> Result<(), Box<Mismatch>> {
    let mut lent = Lent::new(font, spare);
    let (published, given) = match ask {
        Ask::Chain { entry } => {
            let published = asked::instructions_for_entrypoint(font, *entry);
            let room = published.count(0);
            (published, lent.instructions_for_entrypoint(*entry, room))
        }
        Ask::Unpack { entry, passthrough } => {
            (asked::unpack_entrypoint(font, *entry, passthrough, tally), lent.unpack_entrypoint(*entry, passthrough))
        }
        Ask::Reach { passthrough } => {
            (asked::reachable_iter(font, passthrough, tally), lent.reachable_iter(passthrough))
        }
        Ask::Pack => {
            let published = asked::pack_entrypoints(font, tally);
            let room = published.count(0);
            (published, lent.pack_entrypoints(room))
        }
        Ask::PackKerns => (asked::pack_kerns(font), lent.pack_kerns()),
        Ask::Scale { kern, design } => (asked::to_scaled(*kern, *design, tally), lent.to_scaled(*kern, *design)),
        Ask::UnpackKerns => {
            let published = asked::unpack_kerns(font);
            let room = published.count(0);
            (published, lent.unpack_kerns(room))
        }
        Ask::Repair(damage) => match repair(font, damage, &mut lent, tally) {
            Some(answers) => answers,
            None => return Ok(()),
        },
        _ => (asked::program_is_seven_bit_safe(font), lent.program_is_seven_bit_safe()),
    };
    agree(ask, font, Answers { published, library: library::answer(given) }, tally).map(|_| ())
}

// ---- what the Rust cannot be asked

/// A question whose numbers are out of range, so that the Rust's types cannot hold it: a number of the rules is due.
pub fn ask_refused(ask: &Ask, font: &Font, due: u32, spare: usize, tally: &mut Tally) -> Result<(), Box<Mismatch>> {
    let mut lent = Lent::new(font, spare);
    let given = match ask {
        Ask::Compile { design } => lent.compile(*design, [8, 8, 8]).map(|(numbers, _)| numbers),
        Ask::Chain { entry } => lent.instructions_for_entrypoint(*entry, 8),
        Ask::Unpack { entry, passthrough } => lent.unpack_entrypoint(*entry, passthrough),
        Ask::Reach { passthrough } => lent.reachable_iter(passthrough),
        Ask::Pack => lent.pack_entrypoints(8),
        Ask::PackKerns => lent.pack_kerns(),
        Ask::UnpackKerns => lent.unpack_kerns(8),
        Ask::Repair(damage) => lent.repair(damage, [8, 8]),
        _ => lent.program_is_seven_bit_safe(),
    };
    tally.class(tally::OUT_OF_RANGE);
    refused(ask, font, due, given, tally)
}

fn refused(
    ask: &Ask,
    font: &Font,
    due: u32,
    given: Result<Vec<i64>, Stop>,
    tally: &mut Tally,
) -> Result<(), Box<Mismatch>> {
    let answers = Answers { published: Answer::Refused(due), library: library::answer(given) };
    agree(ask, font, answers, tally).map(|_| ()).map_err(|m| Box::new(Mismatch { for_both: false, ..*m }))
}

impl Both {
    /// The same of a question about a table.
    pub fn ask_refused(&mut self, ask: &Ask, font: &Font, due: u32, tally: &mut Tally) -> Result<(), Box<Mismatch>> {
        let given = match ask {
            Ask::SetWord(setting) => self.table.set_word(setting, 8),
            Ask::Steps(setting) => self.table.steps(setting, 8),
            Ask::Indexed(setting) => self.table.set_word_indexed(setting, 8),
            Ask::HasReplacement { left, right, .. } => self.table.has_replacement(*left, *right),
            _ => unreachable!("no number of this question can be out of range"),
        };
        tally.class(tally::OUT_OF_RANGE);
        refused(ask, font, due, given, tally)
    }

    /// The pairs and the ops.
    pub fn lists(&self) -> (Vec<i32>, Vec<i32>) {
        self.table.lists()
    }

    /// A question about another table, which is not of the form.
    pub fn ask_broken(
        &self,
        ask: &Ask,
        font: &Font,
        (pairs, ops): (&[i32], &[i32]),
        tally: &mut Tally,
    ) -> Result<(), Box<Mismatch>> {
        let mut table = self.table.with(pairs, ops);
        let given = match ask {
            Ask::SetWord(setting) => table.set_word(setting, 8),
            Ask::Steps(setting) => table.steps(setting, 8),
            Ask::Indexed(setting) => table.set_word_indexed(setting, 8),
            Ask::AllPairs { .. } => table.all_pairs(),
            _ => table.is_seven_bit_safe(),
        };
        tally.class(tally::BROKEN);
        let table = Some((pairs.to_vec(), ops.to_vec()));
        refused(ask, font, 7, given, tally).map_err(|m| Box::new(Mismatch { table, ..*m }))
    }
}

// ---- any question, on its own

/// The design size of a question about a table.
fn design(ask: &Ask) -> Option<i32> {
    match ask {
        Ask::SetWord(s) | Ask::Steps(s) | Ask::Indexed(s) => Some(s.design),
        Ask::HasReplacement { design, .. } | Ask::AllPairs { design } | Ask::TableSafe { design } => Some(*design),
        Ask::Compile { design } => Some(*design),
        _ => None,
    }
}

/// The question asked anew, from nothing. None where the sides agree, or where the font of a question about a table is
/// not compiled alike, which is another question.
pub fn mismatch(ask: &Ask, font: &Font, spare: usize) -> Option<Box<Mismatch>> {
    let tally = &mut Tally::default();
    let Some(design) = design(ask) else { return ask_program(ask, font, spare, tally).err() };
    let compiled = compile(font, design, spare, &reading::read(font), tally);
    if matches!(ask, Ask::Compile { .. }) {
        return compiled.err();
    }
    compiled.ok()??.ask(ask, font, tally).err()
}
