//! Tables that are not of the form (docs/RULES.md, R256 to R262), which the Rust's own table cannot be: 7 is due. A
//! compiled table is changed in one place, so that one rule of the form does not hold.

use crate::compare::{Both, Mismatch};
use crate::font::{Ask, Font, Setting};
use crate::random::Random;
use crate::tally::Tally;

/// Changes a row (left, right, last, flag, first op, op count). Whether a left or a right, or their order, is wrong
/// then; none where the change is none.
fn broken_row(r: &mut Random, pairs: &mut Vec<i32>) -> Option<bool> {
    let rows = pairs.len() as i64 / 6;
    let row = 6 * r.within(0, rows - 1) as usize;
    let kind = r.within(0, 8);
    match kind {
        0 => pairs[row] = r.pick(&[-2, 256]),
        1 => pairs[row + 1] = r.pick(&[-1, 256]),
        2 => {
            let twice = pairs[row..row + 6].to_vec();
            pairs.splice(row..row, twice);
        }
        3 if row > 0 => (0..6).for_each(|i| pairs.swap(row + i, row - 6 + i)),
        4 => pairs[row + 2] = r.pick(&[-1, 256]),
        5 => pairs[row + 3] = r.pick(&[-1, 2]),
        6 => pairs[row + 4] += r.pick(&[-1, 1]),
        7 => pairs[row + 5] += 1,
        8 if pairs[row + 3] == 0 => pairs[row + 2] = (pairs[row + 1] + 1) % 256,
        _ => return None,
    }
    Some(kind <= 3)
}

/// Changes an op (kind, value), or leaves the last one out.
fn broken_op(r: &mut Random, ops: &mut Vec<i32>) -> Option<bool> {
    let op = 2 * r.within(0, ops.len() as i64 / 2 - 1) as usize;
    match r.within(0, 2) {
        0 => ops.truncate(ops.len() - 2),
        1 => ops[op] = r.pick(&[-1, 3]),
        _ if ops[op] < 2 => ops[op + 1] = r.pick(&[-1, 256]),
        _ => return None,
    }
    Some(false)
}

/// The calls that check a table whole; and all pairs, where a left or a right is wrong.
fn asks(setting: Setting, keys: bool) -> Vec<Ask> {
    let design = setting.design;
    let mut asks = vec![Ask::SetWord(setting.clone()), Ask::Steps(setting), Ask::TableSafe { design }];
    if keys {
        asks.push(Ask::AllPairs { design });
    }
    asks
}

/// The table of a font, broken in one place.
pub fn questions(
    r: &mut Random,
    both: &Both,
    font: &Font,
    setting: Setting,
    tally: &mut Tally,
) -> Result<(), Box<Mismatch>> {
    let (mut pairs, mut ops) = both.lists();
    if pairs.is_empty() {
        return Ok(());
    }
    let keys = match ops.is_empty() || r.percent(70) {
        true => broken_row(r, &mut pairs),
        false => broken_op(r, &mut ops),
    };
    let Some(keys) = keys else { return Ok(()) };
    for ask in asks(setting, keys) {
        both.ask_broken(&ask, font, (&pairs, &ops), tally)?;
    }
    Ok(())
}
