//! Compiling tried on one font, and then the calls on the table that it wrote: questions, and words set whole and step by
//! step. As fonts.rs.

use crate::calls::*;
use crate::drawn::{over, word, Drawn};
use crate::font::Font;
use crate::fonts::{entries, instructions, kerns, learned, sink, source, values, Tried};
use crate::list::{of_u32, Content, List};
use crate::random::Random;
use crate::reading;
use crate::trial::{Call, Counts, Source};

fn roomy<T: Copy + Default>(length: usize) -> Vec<T> {
    vec![T::default(); length]
}

/// The counts of ops and loops of a font, and whether it is taken at all.
fn compiled_sizes(font: &Font, design: i32, rules: usize, ops: usize) -> [usize; 2] {
    let (is, es) = (font.instructions.concat(), font.entries.concat());
    let (mut pairs, mut work) = (roomy::<i32>(6 * rules), roomy::<u32>(16 * rules));
    let (mut ops, mut loops, mut counts) = (roomy::<i32>(2 * ops), roomy::<i32>(2 * rules), [0u64; 3]);
    unsafe {
        ligkern_compile(
            is.as_ptr(), is.len(), font.kerns.as_ptr(), font.kerns.len(), es.as_ptr(), es.len(), font.boundary,
            font.left_entry, design, 0, 0, pairs.as_mut_ptr(), pairs.len(), ops.as_mut_ptr(), ops.len(),
            loops.as_mut_ptr(), loops.len(), work.as_mut_ptr(), work.len(), counts.as_mut_ptr(), counts.len(),
        )
    };
    [counts[1] as usize, counts[2] as usize]
}

/// Compiling, and the table that it wrote asked and used.
pub fn compiled(r: &mut Random, drawn: &Drawn, counts: &mut Counts) -> Tried {
    let (font, design) = (&drawn.font, drawn.design);
    let reading = reading::read(font);
    let rules = reading.rules.len();
    let [ops, loops] = compiled_sizes(font, design, rules, reading.ops as usize);
    let kern = r.within(-20_000_000, 20_000_000) as i32;
    let scale = |_: &[List], o: &[List]| unsafe {
        ligkern_to_scaled(kern, design, 0, 0, o[0].pointer(), o[0].length)
    };
    Call { name: "ligkern_to_scaled", refusals: &[13], sources: vec![], sinks: vec![sink(4, 1, 15)], call: &scale }
        .try_all(counts)?;
    let call = compile_call(font, design);
    let tried = Call {
        name: "ligkern_compile",
        refusals: &[13],
        sources: vec![instructions(font), kerns(font), entries(font)],
        sinks: vec![sink(4, 6 * rules, 12), sink(4, 2 * ops, 14), sink(4, 2 * loops, 15), sink(4, 16 * rules, 12), values(3)],
        call: &call,
    };
    let Some(left) = tried.try_all(counts)? else { return Ok(()) };
    let pairs = Content { width: 4, bytes: left[0].bytes[..24 * left[4].count(0)].to_vec() };
    let table = Table { pairs, ops: left[1].clone(), boundary: font.boundary };
    table.questions(r, &drawn.letters, counts)?;
    let index = table.index(counts)?;
    for disable_left_boundary in [false, true] {
        for over in [-1, over(r, &drawn.letters)] {
            let word = word(r, &drawn.letters);
            table.word(&Run { word, disable_left_boundary, over }, &index, counts)?;
        }
    }
    Ok(())
}

fn compile_call(font: &Font, design: i32) -> impl Fn(&[List], &[List]) -> u32 {
    let (boundary, left_entry) = (font.boundary, font.left_entry);
    move |i, o| unsafe {
        ligkern_compile(
            i[0].pointer(), i[0].length, i[1].pointer(), i[1].length, i[2].pointer(), i[2].length, boundary,
            left_entry, design, 0, 0, o[0].pointer(), o[0].length, o[1].pointer(), o[1].length, o[2].pointer(),
            o[2].length, o[3].pointer(), o[3].length, o[4].pointer(), o[4].length,
        )
    }
}

/// How many numbers an index has.
const INDEX: usize = 1285;

/// The pairs and the ops that compiling wrote.
struct Table {
    pairs: Content,
    ops: Content,
    boundary: i32,
}

/// A word and its options.
struct Run {
    word: Vec<u32>,
    disable_left_boundary: bool,
    over: i32,
}

impl Table {
    /// A table that is not whole is refused with 7.
    fn sources(&self) -> Vec<Source> {
        vec![source(self.pairs.clone(), Some(7)), source(self.ops.clone(), Some(7))]
    }

    /// The pairs alone.
    fn pairs(&self) -> Vec<Source> {
        vec![source(self.pairs.clone(), Some(7))]
    }

    fn questions(&self, r: &mut Random, letters: &[i32], counts: &mut Counts) -> Tried {
        self.has_replacement(r.pick(letters), r.pick(letters), counts)?;
        self.all_pairs(counts)?;
        self.is_seven_bit_safe(counts)
    }

    fn has_replacement(&self, left: i32, right: i32, counts: &mut Counts) -> Tried {
        let call = |i: &[List], o: &[List]| unsafe {
            ligkern_has_replacement(i[0].pointer(), i[0].length, self.boundary, left, right, o[0].pointer(), o[0].length)
        };
        let name = "ligkern_has_replacement";
        Call { name, refusals: &[], sources: self.pairs(), sinks: vec![values(1)], call: &call }.try_all(counts).map(|_| ())
    }

    fn all_pairs(&self, counts: &mut Counts) -> Tried {
        let call = |i: &[List], o: &[List]| unsafe {
            ligkern_all_pairs_with_replacements(
                i[0].pointer(), i[0].length, o[0].pointer(), o[0].length, o[1].pointer(), o[1].length,
            )
        };
        let name = "ligkern_all_pairs_with_replacements";
        let sinks = vec![sink(4, self.pairs.length() / 3, 15), values(1)];
        Call { name, refusals: &[], sources: self.pairs(), sinks, call: &call }.try_all(counts).map(|_| ())
    }

    fn is_seven_bit_safe(&self, counts: &mut Counts) -> Tried {
        let call = |i: &[List], o: &[List]| unsafe {
            ligkern_table_is_seven_bit_safe(
                i[0].pointer(), i[0].length, i[1].pointer(), i[1].length, o[0].pointer(), o[0].length,
            )
        };
        let name = "ligkern_table_is_seven_bit_safe";
        Call { name, refusals: &[], sources: self.sources(), sinks: vec![values(1)], call: &call }.try_all(counts).map(|_| ())
    }

    /// The index of the table.
    fn index(&self, counts: &mut Counts) -> Result<Content, String> {
        let call = |i: &[List], o: &[List]| unsafe {
            ligkern_fill_index(i[0].pointer(), i[0].length, o[0].pointer(), o[0].length)
        };
        let sinks = vec![sink(8, INDEX, 15)];
        let tried = Call { name: "ligkern_fill_index", refusals: &[], sources: self.pairs(), sinks, call: &call };
        let left = tried.try_all(counts)?.ok_or("a table that was compiled has no index")?;
        Ok(left[0].clone())
    }

    /// A word set whole, by the table and by its index, begun, and set step by step.
    fn word(&self, run: &Run, index: &Content, counts: &mut Counts) -> Tried {
        let mut sources = self.sources();
        sources.push(source(of_u32(&run.word), None));
        let call = self.set_word_call(run);
        let items = learned(|room| {
            let lists: Vec<List> = sources.iter().map(|s| List::new(&s.content)).collect();
            let outs = [List::new(&Content::filled(4, 6 * room)), List::new(&Content::filled(8, 1))];
            (call(&lists, &outs), outs[1].content().count(0))
        });
        let name = "ligkern_set_word";
        Call { name, refusals: &[], sources, sinks: vec![sink(4, 6 * items, 15), values(1)], call: &call }.try_all(counts)?;
        self.word_indexed(run, index, items, counts)?;
        self.steps(run, items, counts)
    }

    /// An index one number short is another index, of which only memcheck judges.
    fn word_indexed(&self, run: &Run, index: &Content, items: usize, counts: &mut Counts) -> Tried {
        let call = |i: &[List], o: &[List]| unsafe {
            ligkern_set_word_indexed(
                i[3].pointer(), i[3].length, i[0].pointer(), i[0].length, i[1].pointer(), i[1].length, self.boundary,
                i[2].pointer(), i[2].length, run.disable_left_boundary, run.over, o[0].pointer(), o[0].length,
                o[1].pointer(), o[1].length,
            )
        };
        let mut sources = self.sources();
        sources.push(source(of_u32(&run.word), None));
        sources.push(source(index.clone(), None));
        let sinks = vec![sink(4, 6 * items, 15), values(1)];
        Call { name: "ligkern_set_word_indexed", refusals: &[], sources, sinks, call: &call }.try_all(counts).map(|_| ())
    }

    fn set_word_call<'a>(&'a self, run: &'a Run) -> impl Fn(&[List], &[List]) -> u32 + 'a {
        move |i, o| unsafe {
            ligkern_set_word(
                i[0].pointer(), i[0].length, i[1].pointer(), i[1].length, self.boundary, i[2].pointer(), i[2].length,
                run.disable_left_boundary, run.over, o[0].pointer(), o[0].length, o[1].pointer(), o[1].length,
            )
        }
    }

    fn begin(&self, run: &Run, counts: &mut Counts) -> Result<Content, String> {
        let call = |i: &[List], o: &[List]| unsafe {
            ligkern_begin(
                i[0].pointer(), i[0].length, i[1].pointer(), i[1].length, self.boundary, i[2].pointer(), i[2].length,
                run.disable_left_boundary, run.over, o[0].pointer(), o[0].length,
            )
        };
        let mut sources = self.sources();
        sources.push(source(of_u32(&run.word), None));
        let tried = Call { name: "ligkern_begin", refusals: &[], sources, sinks: vec![values(9)], call: &call };
        let left = tried.try_all(counts)?.ok_or("a word that was set could not be begun")?;
        Ok(left[0].clone())
    }

    /// Steps to the end and one further, each tried with the item and the state one short too, and with a longer item: a
    /// refused step leaves the state as it was, and zeros stand after an item.
    fn steps(&self, run: &Run, items: usize, counts: &mut Counts) -> Tried {
        let mut state = self.begin(run, counts)?;
        for place in 0..items.min(40) + 2 {
            for (given, length, due) in [(state.clone(), 6, 15), (state.one_short(), 7, 7)] {
                let (number, after, item) = self.step(run, &given, length);
                if number != due || after.bytes != given.bytes || !item.is_zero() {
                    return Err(format!("ligkern_step: one short gave {number} where {due} is due, or wrote something"));
                }
                counts.short_step();
            }
            let (number, after, item) = self.step(run, &state, 7);
            let (wide_number, wide_after, wide_item) = self.step(run, &state, 10);
            let (front, back) = wide_item.bytes.split_at(item.bytes.len());
            if (wide_number, &wide_after.bytes, front) != (number, &after.bytes, &item.bytes[..]) || back.iter().any(|b| *b != 0) {
                return Err(format!("ligkern_step: a longer item is not the same at step {place}, or has no zeros after it"));
            }
            let ended = item.bytes[..4] == [0; 4];
            if number != 0 || ended != (place >= items) {
                return Err(format!("ligkern_step: step {place} of {items} items gave {number}"));
            }
            counts.full_step();
            state = after;
        }
        Ok(())
    }

    /// The number of one step, the state after it, and the item.
    fn step(&self, run: &Run, state: &Content, length: usize) -> (u32, Content, Content) {
        let lists = [List::new(&self.pairs), List::new(&self.ops), List::new(&of_u32(&run.word))];
        let (state, item) = (List::new(state), List::new(&Content::filled(4, length)));
        let number = unsafe {
            ligkern_step(
                lists[0].pointer(), lists[0].length, lists[1].pointer(), lists[1].length, self.boundary,
                lists[2].pointer(), lists[2].length, run.disable_left_boundary, run.over, state.pointer(),
                state.length, item.pointer(), item.length,
            )
        };
        (number, state.content(), item.content())
    }
}
