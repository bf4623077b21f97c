//! The library asked about a table: words set whole and step by step, and questions. As library.rs of fonts.

use crate::calls::*;
use crate::font::Setting;
use crate::lent::{put, Fault, Input, Output};
use crate::library::{taken, values, Given, Stop};

/// The pairs and the ops that compiling wrote, and the boundary character beside them.
pub struct Table {
    pairs: Input<i32>,
    ops: Input<i32>,
    boundary: i32,
    spare: usize,
    index: Option<Output<u64>>,
}

const INDEX: usize = 1285;
const STATE: usize = 9;
const ITEM: usize = 7;

/// How many items, and the items.
fn counted(number: u32, items: &Output<i32>, count: &Output<u64>) -> Given {
    taken(number, &[items, count])?;
    let count = count.taken(1)?[0];
    let mut numbers = Vec::with_capacity(1 + 6 * count as usize);
    numbers.push(count as i64);
    put(&mut numbers, items.taken(6 * count as usize)?);
    Ok(numbers)
}

impl Table {
    pub fn new(pairs: Vec<i32>, ops: Vec<i32>, boundary: i32, spare: usize) -> Table {
        Table { pairs: Input::new(pairs), ops: Input::new(ops), boundary, spare, index: None }
    }

    /// The pairs and the ops.
    pub fn lists(&self) -> (Vec<i32>, Vec<i32>) {
        (self.pairs.list().to_vec(), self.ops.list().to_vec())
    }

    /// Other pairs and ops beside the same boundary character.
    pub fn with(&self, pairs: &[i32], ops: &[i32]) -> Table {
        Table::new(pairs.to_vec(), ops.to_vec(), self.boundary, self.spare)
    }

    /// Whether no call wrote to it. Asked once, after all the calls on a table.
    pub fn unchanged(&self) -> Result<(), Fault> {
        self.pairs.unchanged("pairs")?;
        self.ops.unchanged("ops")
    }

    /// How many items, and the items. Lent so many items of room.
    pub fn set_word(&mut self, setting: &Setting, room: usize) -> Given {
        let mut word = Input::<u32>::new(setting.word.clone());
        let mut items = Output::<i32>::new("items", 6 * room + self.spare);
        let mut count = Output::<u64>::new("count", 1 + self.spare);
        let number = unsafe {
            ligkern_set_word(
                self.pairs.pointer(),
                self.pairs.length(),
                self.ops.pointer(),
                self.ops.length(),
                self.boundary,
                word.pointer(),
                word.length(),
                setting.disable_left_boundary,
                setting.over,
                items.pointer(),
                items.length(),
                count.pointer(),
                count.length(),
            )
        };
        word.unchanged("word")?;
        counted(number, &items, &count)
    }

    /// The index of the table, which is filled once.
    fn fill_index(&mut self) -> Result<(), Stop> {
        if self.index.is_some() {
            return Ok(());
        }
        let mut index = Output::<u64>::new("index", INDEX + self.spare);
        let number = unsafe {
            ligkern_fill_index(self.pairs.pointer(), self.pairs.length(), index.pointer(), index.length())
        };
        taken(number, &[&index])?;
        index.taken(INDEX)?;
        self.index = Some(index);
        Ok(())
    }

    /// As set_word, by the index.
    pub fn set_word_indexed(&mut self, setting: &Setting, room: usize) -> Given {
        self.fill_index()?;
        let index = self.index.as_mut().expect("it is filled");
        let mut word = Input::<u32>::new(setting.word.clone());
        let mut items = Output::<i32>::new("items", 6 * room + self.spare);
        let mut count = Output::<u64>::new("count", 1 + self.spare);
        let number = unsafe {
            ligkern_set_word_indexed(
                index.pointer(),
                index.length(),
                self.pairs.pointer(),
                self.pairs.length(),
                self.ops.pointer(),
                self.ops.length(),
                self.boundary,
                word.pointer(),
                word.length(),
                setting.disable_left_boundary,
                setting.over,
                items.pointer(),
                items.length(),
                count.pointer(),
                count.length(),
            )
        };
        word.unchanged("word")?;
        counted(number, &items, &count)
    }

    fn begin(&mut self, word: &mut Input<u32>, setting: &Setting, state: &mut Output<u64>) -> Result<(), Stop> {
        let number = unsafe {
            ligkern_begin(
                self.pairs.pointer(),
                self.pairs.length(),
                self.ops.pointer(),
                self.ops.length(),
                self.boundary,
                word.pointer(),
                word.length(),
                setting.disable_left_boundary,
                setting.over,
                state.pointer(),
                state.length(),
            )
        };
        taken(number, &[&*state])?;
        state.taken(STATE)?;
        Ok(())
    }

    /// One step; whether there was an item.
    fn step(
        &mut self,
        word: &mut Input<u32>,
        setting: &Setting,
        state: &mut Output<u64>,
        item: &mut Output<i32>,
    ) -> Result<bool, Stop> {
        item.fill();
        let number = unsafe {
            ligkern_step(
                self.pairs.pointer(),
                self.pairs.length(),
                self.ops.pointer(),
                self.ops.length(),
                self.boundary,
                word.pointer(),
                word.length(),
                setting.disable_left_boundary,
                setting.over,
                state.pointer(),
                state.length(),
                item.pointer(),
                item.length(),
            )
        };
        taken(number, &[&*item])?;
        item.taken(ITEM)?;
        match item.number(0) {
            0 => item.zeros().map(|_| false).map_err(Stop::Fault),
            1 => Ok(true),
            n => Err(Stop::Fault(format!("a step that gave {n} items"))),
        }
    }

    /// How many items, and the items, step by step; no more than one past the expected count. Two further steps must
    /// give the end.
    pub fn steps(&mut self, setting: &Setting, expected: usize) -> Given {
        let mut word = Input::<u32>::new(setting.word.clone());
        let mut state = Output::<u64>::new("state", STATE + self.spare);
        let mut item = Output::<i32>::new("item", ITEM + self.spare);
        self.begin(&mut word, setting, &mut state)?;
        let mut numbers = Vec::with_capacity(1 + 6 * expected);
        numbers.push(0);
        while numbers[0] <= expected as i64 && self.step(&mut word, setting, &mut state, &mut item)? {
            numbers[0] += 1;
            put(&mut numbers, &item.taken(ITEM)?[1..]);
        }
        for _ in 0..2 {
            if self.step(&mut word, setting, &mut state, &mut item)? {
                return Err(Stop::Fault("an item after the end, or too many items".into()));
            }
        }
        state.taken(STATE)?;
        word.unchanged("word")?;
        Ok(numbers)
    }

    pub fn has_replacement(&mut self, left: i32, right: i32) -> Given {
        let mut values = values(self.spare, 1);
        let number = unsafe {
            ligkern_has_replacement(
                self.pairs.pointer(),
                self.pairs.length(),
                self.boundary,
                left,
                right,
                values.pointer(),
                values.length(),
            )
        };
        taken(number, &[&values])?;
        Ok(vec![values.taken(1)?[0] as i64])
    }

    pub fn all_pairs(&mut self) -> Given {
        let mut out = Output::<i32>::new("out", self.pairs.length() / 3 + self.spare);
        let mut values = values(self.spare, 1);
        let number = unsafe {
            ligkern_all_pairs_with_replacements(
                self.pairs.pointer(),
                self.pairs.length(),
                out.pointer(),
                out.length(),
                values.pointer(),
                values.length(),
            )
        };
        taken(number, &[&out, &values])?;
        let count = values.taken(1)?[0];
        let mut numbers = vec![count as i64];
        put(&mut numbers, out.taken(2 * count as usize)?);
        Ok(numbers)
    }

    pub fn is_seven_bit_safe(&mut self) -> Given {
        let mut values = values(self.spare, 1);
        let number = unsafe {
            ligkern_table_is_seven_bit_safe(
                self.pairs.pointer(),
                self.pairs.length(),
                self.ops.pointer(),
                self.ops.length(),
                values.pointer(),
                values.length(),
            )
        };
        taken(number, &[&values])?;
        Ok(vec![values.taken(1)?[0] as i64])
    }
}
