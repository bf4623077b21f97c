//! The library asked about a font: each call on lists that are lent as lent.rs says, with room to spare, and the numbers
//! that it leaves there, laid out as those of published.rs. A refusal must leave zeros in every list that the call
//! writes, an answer zeros after it; what is only read must stay as it was. table.rs has the calls about a table.

use crate::answer::Answer;
use crate::calls::*;
use crate::font::{Damage, Font};
use crate::lent::{put, Element, Fault, Input, Output};
use crate::table::Table;

/// Why there is no answer: the number of a refusal, or a list that is not left as it must be.
pub enum Stop {
    Number(u32),
    Fault(Fault),
}

impl From<Fault> for Stop {
    fn from(fault: Fault) -> Stop {
        Stop::Fault(fault)
    }
}

pub type Given = Result<Vec<i64>, Stop>;

pub fn answer(given: Given) -> Answer {
    match given {
        Ok(numbers) => Answer::Is(numbers),
        Err(Stop::Number(number)) => Answer::Refused(number),
        Err(Stop::Fault(fault)) => Answer::Odd(fault),
    }
}

/// A list that a refusal zeroes.
pub trait Zeroed {
    fn zeroed(&self) -> Result<(), Fault>;
}

impl<T: Element> Zeroed for Output<T> {
    fn zeroed(&self) -> Result<(), Fault> {
        self.zeros()
    }
}

/// Goes on where a call was taken.
pub fn taken(number: u32, outputs: &[&dyn Zeroed]) -> Result<(), Stop> {
    if number == 0 {
        return Ok(());
    }
    for output in outputs {
        output.zeroed()?;
    }
    Err(Stop::Number(number))
}

/// The design size, size and magnification that the library is asked for, where the Rust is asked for this design size.
/// Sixteen times z is asked for by the size z where z is one more than a multiple of seven, and by a magnification of
/// another design size where it is two more; drawn.rs makes a fifth of the fonts such ones.
fn asked_at(design: i32) -> [i32; 3] {
    let z = design as i64 / 16;
    let magnification = 1 + z % 1000;
    let magnified = 16 * ((1000 * z + magnification - 1) / magnification);
    match (design % 16 == 0 && design > 0, z % 7) {
        (true, 1) => [(37 * z % i32::MAX as i64) as i32, z as i32, 0],
        (true, 2) if magnified <= i32::MAX as i64 => [magnified as i32, 0, magnification as i32],
        _ => [design, 0, 0],
    }
}

/// A list of values, and so many of them.
pub fn values(spare: usize, count: usize) -> Output<u64> {
    Output::new("values", count + spare)
}

/// A font as it is lent.
pub struct Lent {
    instructions: Input<i32>,
    kerns: Input<i32>,
    entries: Input<i32>,
    boundary: i32,
    left_entry: i32,
    /// How many elements each list has more than it needs.
    spare: usize,
}

/// One byte an instruction; any byte but 0 means set.
fn bytes(passthrough: &[u16], count: usize) -> Input<u8> {
    let mut bytes = vec![0; count];
    for i in passthrough {
        if let Some(byte) = bytes.get_mut(*i as usize) {
            *byte = 1 + (*i % 255) as u8;
        }
    }
    Input::new(bytes)
}

impl Lent {
    pub fn new(font: &Font, spare: usize) -> Lent {
        Lent {
            instructions: Input::new(font.instructions.concat()),
            kerns: Input::new(font.kerns.clone()),
            entries: Input::new(font.entries.concat()),
            boundary: font.boundary,
            left_entry: font.left_entry,
            spare,
        }
    }

    fn count(&self) -> usize {
        self.instructions.length() / 4
    }

    fn unchanged(&self) -> Result<(), Fault> {
        self.instructions.unchanged("instructions")?;
        self.kerns.unchanged("kerns")?;
        self.entries.unchanged("entries")
    }

    /// The counts of pairs, ops and loops, and the three lists; and the table. Lent so many pairs of room (unfinished
    /// ones counted), ops and loops.
    pub fn compile(&mut self, design: i32, room: [usize; 3]) -> Result<(Vec<i64>, Table), Stop> {
        let spare = self.spare;
        let mut pairs = Output::<i32>::new("pairs", 6 * room[0] + spare);
        let mut ops = Output::<i32>::new("ops", 2 * room[1] + spare % 2);
        let mut loops = Output::<i32>::new("loops", 2 * room[2] + spare);
        let mut work = Output::<u32>::new("work", 16 * room[0] + spare);
        let mut counts = Output::<u64>::new("counts", 3 + spare);
        let [design, size, magnification] = asked_at(design);
        let number = unsafe {
            ligkern_compile(
                self.instructions.pointer(),
                self.instructions.length(),
                self.kerns.pointer(),
                self.kerns.length(),
                self.entries.pointer(),
                self.entries.length(),
                self.boundary,
                self.left_entry,
                design,
                size,
                magnification,
                pairs.pointer(),
                pairs.length(),
                ops.pointer(),
                ops.length(),
                loops.pointer(),
                loops.length(),
                work.pointer(),
                work.length(),
                counts.pointer(),
                counts.length(),
            )
        };
        self.unchanged()?;
        work.zeros()?;
        taken(number, &[&pairs, &ops, &loops, &counts])?;
        let counts = counts.taken(3)?;
        let pairs = pairs.taken(6 * counts[0] as usize)?;
        let ops = ops.taken(2 * counts[1] as usize)?;
        let mut out = vec![];
        put(&mut out, counts);
        put(&mut out, pairs);
        put(&mut out, ops);
        put(&mut out, loops.taken(2 * counts[2] as usize)?);
        Ok((out, Table::new(pairs.to_vec(), ops.to_vec(), self.boundary, spare)))
    }

    /// One kern, which need not be the font's.
    pub fn to_scaled(&mut self, kern: i32, design: i32) -> Given {
        let mut scaled = Output::<i32>::new("scaled", 1 + self.spare);
        let [design, size, magnification] = asked_at(design);
        let number = unsafe {
            ligkern_to_scaled(kern, design, size, magnification, scaled.pointer(), scaled.length())
        };
        taken(number, &[&scaled])?;
        Ok(vec![scaled.taken(1)?[0] as i64])
    }

    pub fn program_is_seven_bit_safe(&mut self) -> Given {
        let mut values = values(self.spare, 1);
        let number = unsafe {
            ligkern_program_is_seven_bit_safe(
                self.instructions.pointer(),
                self.instructions.length(),
                self.entries.pointer(),
                self.entries.length(),
                values.pointer(),
                values.length(),
            )
        };
        self.unchanged()?;
        taken(number, &[&values])?;
        Ok(vec![values.taken(1)?[0] as i64])
    }

    pub fn instructions_for_entrypoint(&mut self, entry: i32, room: usize) -> Given {
        let mut out = Output::<u32>::new("out", room + self.spare);
        let mut values = values(self.spare, 1);
        let number = unsafe {
            ligkern_instructions_for_entrypoint(
                self.instructions.pointer(),
                self.instructions.length(),
                entry,
                out.pointer(),
                out.length(),
                values.pointer(),
                values.length(),
            )
        };
        self.unchanged()?;
        taken(number, &[&out, &values])?;
        let count = values.taken(1)?[0];
        let mut numbers = vec![count as i64];
        put(&mut numbers, out.taken(count as usize)?);
        Ok(numbers)
    }

    pub fn unpack_entrypoint(&mut self, entry: i32, passthrough: &[u16]) -> Given {
        let count = self.count();
        let mut passthrough = bytes(passthrough, count);
        let mut out = Output::<u8>::new("out", count + self.spare);
        let mut values = values(self.spare, 1);
        let number = unsafe {
            ligkern_unpack_entrypoint(
                self.instructions.pointer(),
                self.instructions.length(),
                entry,
                passthrough.pointer(),
                passthrough.length(),
                out.pointer(),
                out.length(),
                values.pointer(),
                values.length(),
            )
        };
        self.unchanged()?;
        passthrough.unchanged("passthrough")?;
        taken(number, &[&out, &values])?;
        let mut numbers = vec![values.taken(1)?[0] as i64];
        put(&mut numbers, out.taken(count)?);
        Ok(numbers)
    }

    pub fn reachable_iter(&mut self, passthrough: &[u16]) -> Given {
        let mut passthrough = bytes(passthrough, self.count());
        let mut out = Output::<i32>::new("out", 2 * self.count() + self.spare);
        let mut values = values(self.spare, 1);
        let number = unsafe {
            ligkern_reachable_iter(
                self.instructions.pointer(),
                self.instructions.length(),
                self.entries.pointer(),
                self.entries.length(),
                self.left_entry,
                passthrough.pointer(),
                passthrough.length(),
                out.pointer(),
                out.length(),
                values.pointer(),
                values.length(),
            )
        };
        self.unchanged()?;
        passthrough.unchanged("passthrough")?;
        taken(number, &[&out, &values])?;
        let count = values.taken(1)?[0];
        let mut numbers = vec![count as i64];
        put(&mut numbers, out.taken(2 * count as usize)?);
        Ok(numbers)
    }

    pub fn pack_entrypoints(&mut self, room: usize) -> Given {
        let entries = self.entries.length();
        let mut out = Output::<i32>::new("out", 4 * room + self.spare);
        let mut entries_out = Output::<i32>::new("entries_out", entries + self.spare);
        let mut values = values(self.spare, 3);
        let number = unsafe {
            ligkern_pack_entrypoints(
                self.instructions.pointer(),
                self.instructions.length(),
                self.entries.pointer(),
                self.entries.length(),
                self.boundary,
                self.left_entry,
                out.pointer(),
                out.length(),
                entries_out.pointer(),
                entries_out.length(),
                values.pointer(),
                values.length(),
            )
        };
        self.unchanged()?;
        taken(number, &[&out, &entries_out, &values])?;
        let sizes = values.taken(3)?;
        let mut numbers = vec![];
        put(&mut numbers, sizes);
        put(&mut numbers, out.taken(4 * sizes[0] as usize)?);
        put(&mut numbers, entries_out.taken(entries)?);
        Ok(numbers)
    }

    pub fn pack_kerns(&mut self) -> Given {
        let mut out = Output::<i32>::new("out", self.instructions.length() + self.spare);
        let mut values = values(self.spare, 1);
        let number = unsafe {
            ligkern_pack_kerns(
                self.instructions.pointer(),
                self.instructions.length(),
                self.kerns.pointer(),
                self.kerns.length(),
                out.pointer(),
                out.length(),
                values.pointer(),
                values.length(),
            )
        };
        self.unchanged()?;
        taken(number, &[&out, &values])?;
        let count = values.taken(1)?[0];
        let mut numbers = vec![count as i64];
        put(&mut numbers, out.taken(4 * count as usize)?);
        Ok(numbers)
    }

    pub fn unpack_kerns(&mut self, room: usize) -> Given {
        let length = self.instructions.length();
        let mut out = Output::<i32>::new("out", length + self.spare);
        let mut kerns = Output::<i32>::new("kerns", room + self.spare);
        let mut values = values(self.spare, 1);
        let number = unsafe {
            ligkern_unpack_kerns(
                self.instructions.pointer(),
                self.instructions.length(),
                out.pointer(),
                out.length(),
                kerns.pointer(),
                kerns.length(),
                values.pointer(),
                values.length(),
            )
        };
        self.unchanged()?;
        taken(number, &[&out, &kerns, &values])?;
        let count = values.taken(1)?[0];
        let mut numbers = vec![count as i64];
        put(&mut numbers, out.taken(length)?);
        put(&mut numbers, kerns.taken(count as usize)?);
        Ok(numbers)
    }

    /// The warnings, lent so many and, in the work buffer, so many pairs of room.
    fn ask_repair(&mut self, damage: &Damage, room: [usize; 2]) -> Result<Vec<i32>, Stop> {
        let (count, spare) = (self.count(), self.spare);
        let mut passthrough = bytes(&damage.passthrough, count);
        let mut warnings = Output::<i32>::new("warnings", 4 * room[0] + spare);
        let mut work = Output::<u32>::new("work", 16 * room[1] + spare);
        let mut values = values(spare, 1);
        let number = unsafe {
            ligkern_ask_repair(
                self.instructions.pointer(),
                self.instructions.length(),
                self.kerns.pointer(),
                self.kerns.length(),
                self.entries.pointer(),
                self.entries.length(),
                self.boundary,
                self.left_entry,
                damage.smallest,
                damage.existing[0],
                damage.existing[1],
                damage.existing[2],
                damage.existing[3],
                passthrough.pointer(),
                passthrough.length(),
                warnings.pointer(),
                warnings.length(),
                work.pointer(),
                work.length(),
                values.pointer(),
                values.length(),
            )
        };
        self.unchanged()?;
        passthrough.unchanged("passthrough")?;
        work.zeros()?;
        taken(number, &[&warnings, &values])?;
        let given = values.taken(1)?[0];
        Ok(warnings.taken(4 * given as usize)?.to_vec())
    }

    /// The left entry, the instructions and the passthrough, with these warnings handed over.
    fn commit_repair(&mut self, handed: &[i32], damage: &Damage, pairs: usize) -> Given {
        let (length, count, spare) = (self.instructions.length(), self.count(), self.spare);
        let mut warnings = Input::new(handed.to_vec());
        let mut passthrough = bytes(&damage.passthrough, count);
        let mut fixed = Output::<i32>::new("fixed", length + spare);
        let mut through = Output::<u8>::new("through", count + spare);
        let mut found = Output::<i32>::new("found", handed.len() + spare);
        let mut work = Output::<u32>::new("work", 16 * pairs + spare);
        let mut left = Output::<i32>::new("left", 1 + spare);
        let number = unsafe {
            ligkern_commit_repair(
                warnings.pointer(),
                warnings.length(),
                self.instructions.pointer(),
                self.instructions.length(),
                self.kerns.pointer(),
                self.kerns.length(),
                self.entries.pointer(),
                self.entries.length(),
                self.boundary,
                self.left_entry,
                damage.smallest,
                damage.existing[0],
                damage.existing[1],
                damage.existing[2],
                damage.existing[3],
                passthrough.pointer(),
                passthrough.length(),
                fixed.pointer(),
                fixed.length(),
                through.pointer(),
                through.length(),
                found.pointer(),
                found.length(),
                work.pointer(),
                work.length(),
                left.pointer(),
                left.length(),
            )
        };
        self.unchanged()?;
        warnings.unchanged("warnings")?;
        passthrough.unchanged("passthrough")?;
        work.zeros()?;
        found.zeros()?;
        taken(number, &[&fixed, &through, &left])?;
        let mut numbers = vec![left.taken(1)?[0] as i64];
        put(&mut numbers, fixed.taken(length)?);
        put(&mut numbers, through.taken(count)?);
        Ok(numbers)
    }

    /// A list that is not what was asked for is refused with this number.
    fn not_committed(&mut self, handed: &[i32], damage: &Damage, pairs: usize, due: u32) -> Result<(), Stop> {
        match self.commit_repair(handed, damage, pairs) {
            Err(Stop::Number(number)) if number == due => Ok(()),
            Err(Stop::Fault(fault)) => Err(Stop::Fault(fault)),
            _ => Err(Stop::Fault(format!("{due} is due of committing with {handed:?}"))),
        }
    }

    /// Asks, and commits with what was told; lent so many warnings and, in the work buffer, so many pairs of room. A list
    /// that is changed in one number, or one warning longer, is 25; where asking is refused, committing is so too.
    pub fn repair(&mut self, damage: &Damage, room: [usize; 2]) -> Given {
        let warnings = match self.ask_repair(damage, room) {
            Err(Stop::Number(number)) if number != 15 => {
                self.not_committed(&[], damage, room[1], number)?;
                return Err(Stop::Number(number));
            }
            asked => asked?,
        };
        let mut other = warnings.clone();
        if let Some(number) = other.get_mut(warnings.len() * 5 / 7) {
            *number = number.wrapping_add(1);
            self.not_committed(&other, damage, room[1], 25)?;
        }
        other = [&warnings[..], &[0; 4]].concat();
        self.not_committed(&other, damage, room[1], 25)?;
        let repaired = self.commit_repair(&warnings, damage, room[1])?;
        let mut numbers = vec![warnings.len() as i64 / 4, repaired[0]];
        put(&mut numbers, &warnings);
        numbers.extend(&repaired[1..]);
        Ok(numbers)
    }
}
