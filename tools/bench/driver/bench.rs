//! rust FONT LETTERS CALL HOW N: one call of the published Rust on the numbers of FONT (tools/bench/font) and the first LETTERS letters of its word.
//!
//! CALL: compile; word (`run_with_options`, then `next` to the end, each item written as six numbers into a list that has room for all); next (the same,
//! each item dropped as it comes); text (FONT is a column text: read, compiled, its word set, the reply written).
//! HOW: answer writes the table, the ops, the loops and the items, or the reply; count N is one call that is not counted, then N that are; time MS is calls
//! for so many milliseconds, at least three, and writes the least time in nanoseconds.

use crate::ligkern::bench_table::rows;
use crate::ligkern::lang::{Instruction, Operation, Program};
use crate::ligkern::{CompiledProgram, InfiniteLoopError, RunOptions};
use crate::{Char, FixWord};
use common::font::TextItem;
use std::collections::{HashMap, HashSet};
use std::hint::black_box;
use std::io::Write;

/// callgrind begins and stops to count here.
#[no_mangle]
#[inline(never)]
pub fn measured(call: &mut dyn FnMut()) {
    call();
    black_box(());
}

struct Font {
    program: Program,
    kerns: Vec<FixWord>,
    entries: HashMap<Char, u16>,
    design: FixWord,
    word: Vec<char>,
}

fn instruction(next: i32, right: i32, kind: i32, operand: i32) -> Instruction {
    Instruction {
        next_instruction: u8::try_from(next).ok(),
        right_char: Char(right as u8),
        operation: match kind {
            0 => Operation::Kern(FixWord(operand)),
            1 => Operation::KernAtIndex(operand as u16),
            2 => {
                let [op_byte, inserted] = (operand as u16).to_be_bytes();
                Operation::lig_kern_operation_from_bytes(op_byte, inserted)
            }
            _ => Operation::EntrypointRedirect(operand as u16, operand >= 65536),
        },
    }
}

fn char_of(code: i32) -> char {
    char::from_u32(code as u32).expect("a letter")
}

/// The numbers of a request W.
fn read_font(text: &str, letters: usize) -> Font {
    let mut numbers = text.strip_prefix('W').expect("a request W").split_ascii_whitespace().map(|n| n.parse::<i32>().expect("a number"));
    let mut next = || numbers.next().expect("a number");
    assert_eq!((next(), next()), (1, -1), "the left boundary and no override");
    let mut list = |next: &mut dyn FnMut() -> i32, each: i32| -> Vec<i32> { (0..next() * each).map(|_| next()).collect() };
    let word = list(&mut next, 1)[..letters].iter().map(|c| char_of(*c)).collect();
    let design = FixWord(next());
    let instructions = list(&mut next, 4).chunks(4).map(|i| instruction(i[0], i[1], i[2], i[3])).collect();
    let kerns = list(&mut next, 1).into_iter().map(FixWord).collect();
    let entries = list(&mut next, 2).chunks(2).map(|e| (Char(e[0] as u8), e[1] as u16)).collect();
    let right_boundary_char = u8::try_from(next()).ok().map(Char);
    let left_boundary_char_entrypoint = u16::try_from(next()).ok();
    let program = Program { instructions, left_boundary_char_entrypoint, right_boundary_char, passthrough: HashSet::new() };
    Font { program, kerns, entries, design, word }
}

/// The six numbers of each item, after one another. "Letters given before" is the sum of the lengths of the items before.
fn set_word(compiled: &CompiledProgram, word: &[char], items: &mut Vec<i32>) {
    let mut given = 0;
    for item in compiled.run_with_options(word.iter().copied(), RunOptions::default()) {
        items.extend_from_slice(&match item {
            TextItem::Char(c) => {
                given += 1;
                [0, c as i32, given - 1, 1, 0, 0]
            }
            TextItem::Ligature { c, original, includes_left_boundary, includes_right_boundary } => {
                let length = original.chars().count() as i32;
                given += length;
                [1, c as i32, given - length, length, includes_left_boundary as i32, includes_right_boundary as i32]
            }
            TextItem::Kern(kern) => [2, kern.0, 0, 0, 0, 0],
        });
    }
}

/// A run to its end, each item dropped as it comes.
fn run_to_end(compiled: &CompiledProgram, word: &[char]) {
    let mut run = compiled.run_with_options(word.iter().copied(), RunOptions::default());
    while let Some(item) = black_box(run.next()) {
        drop(item);
    }
}

/// The number of a field. The field is taken to be one. (With `from_utf8`, `trim_start` and `parse` it takes 250 instructions more.)
fn field_of(field: &[u8]) -> i32 {
    let (mut number, mut sign) = (0i32, 1);
    for b in field {
        match b {
            b'0'..=b'9' => number = number.wrapping_mul(10).wrapping_add(sign * (b - b'0') as i32),
            b'-' => sign = -1,
            _ => {}
        }
    }
    number
}

/// A column text as a font. It is taken to be well formed: little is checked.
fn read_text(text: &str) -> (Font, bool) {
    let mut program = Program { instructions: vec![], left_boundary_char_entrypoint: None, right_boundary_char: None, passthrough: HashSet::new() };
    let (mut kerns, mut entries, mut design, mut word, mut has_word) = (vec![], HashMap::new(), 0, vec![], false);
    for line in text.lines() {
        let mut fields = line.as_bytes()[1..].chunks_exact(12).map(field_of);
        let mut next = || fields.next().expect("a field");
        match line.as_bytes()[0] {
            b'D' => design = next(),
            b'I' => program.instructions.push(instruction(next(), next(), next(), next())),
            b'K' => kerns.push(FixWord(next())),
            b'E' => {
                entries.insert(Char(next() as u8), next() as u16);
            }
            b'R' => program.right_boundary_char = u8::try_from(next()).ok().map(Char),
            b'L' => program.left_boundary_char_entrypoint = u16::try_from(next()).ok(),
            b'W' => {
                word.extend(fields.map(char_of));
                has_word = true;
            }
            _ => panic!("an unknown line"),
        }
    }
    (Font { program, kerns, entries, design: FixWord(design), word }, has_word)
}

/// A number in twelve columns, right-justified. (With `write!` it takes 740 instructions more.)
fn put_field(reply: &mut Vec<u8>, number: i32) {
    let mut field = [b' '; 12];
    let (mut at, mut rest) = (11, number.unsigned_abs());
    loop {
        field[at] = b'0' + (rest % 10) as u8;
        rest /= 10;
        if rest == 0 {
            break;
        }
        at -= 1;
    }
    if number < 0 {
        field[at - 1] = b'-';
    }
    reply.extend_from_slice(&field);
}

fn put_line(reply: &mut Vec<u8>, letter: u8, fields: &[i32]) {
    reply.push(letter);
    for field in fields {
        put_field(reply, *field);
    }
    reply.push(b'\n');
}

fn code_of(c: Option<Char>) -> i32 {
    c.map_or(-1, |c| c.0 as i32)
}

/// A column text in, its reply out.
fn answer_text(text: &str, reply: &mut Vec<u8>) {
    let (font, has_word) = read_text(text);
    let (compiled, loops) = CompiledProgram::compile(&font.program, font.design, &font.kerns, font.entries);
    for row in rows(&compiled) {
        put_line(reply, b'P', &[code_of(row.pair.0), row.pair.1 .0 as i32, row.last().0, row.last().1, row.count()]);
        for (kind, value) in row.ops() {
            put_line(reply, b'O', &[kind, value]);
        }
    }
    for InfiniteLoopError { starting_pair: (left, right) } in loops {
        put_line(reply, b'X', &[code_of(left), right.0 as i32]);
    }
    if has_word {
        let mut items = vec![];
        set_word(&compiled, &font.word, &mut items);
        put_line(reply, b'W', &[font.word.len() as i32]);
        for item in items.chunks(6) {
            put_line(reply, b'T', item);
        }
    }
}

/// The table, the ops, the loops and the items, as driver/setter.c writes them.
fn put_answer(font: &Font, compiled: &CompiledProgram, loops: &[InfiniteLoopError]) {
    let (mut pairs, mut ops, mut looped, mut items) = (vec![], vec![], vec![], vec![]);
    for row in rows(compiled) {
        pairs.extend([code_of(row.pair.0), row.pair.1 .0 as i32, row.last().0, row.last().1, ops.len() as i32 / 2, row.count()]);
        ops.extend(row.ops().flat_map(|(kind, value)| [kind, value]));
    }
    for InfiniteLoopError { starting_pair: (left, right) } in loops {
        looped.extend([code_of(*left), right.0 as i32]);
    }
    set_word(compiled, &font.word, &mut items);
    let mut out = std::io::BufWriter::new(std::io::stdout().lock());
    for (name, list, each) in [("pairs", pairs, 6), ("ops", ops, 2), ("loops", looped, 2), ("items", items, 6)] {
        writeln!(out, "{name} {}", list.len() / each).unwrap();
        for numbers in list.chunks(each) {
            let words: Vec<String> = numbers.iter().map(|n| n.to_string()).collect();
            writeln!(out, "{}", words.join(" ")).unwrap();
        }
    }
}

/// The clocks of driver/meter.h. The standard library has no clock of a thread.
#[repr(C)]
struct Timespec {
    seconds: i64,
    nanoseconds: i64,
}

extern "C" {
    fn clock_gettime(clock: i32, time: *mut Timespec) -> i32;
}

const MONOTONIC: i32 = 1;
const THREAD_CPUTIME: i32 = 3;

fn now_ns(clock: i32) -> i64 {
    let mut t = Timespec { seconds: 0, nanoseconds: 0 };
    unsafe { clock_gettime(clock, &mut t) };
    t.seconds * 1_000_000_000 + t.nanoseconds
}

/// Counts or times calls that are set up one by one, as driver/meter.h does.
struct Meter {
    counting: bool,
    n: i64,
    done: i64,
    end: i64,
    clock: i32,
    least: i64,
}

impl Meter {
    fn new(how: &str, n: i64) -> Meter {
        assert!(how == "count" || how == "time");
        Meter { counting: how == "count", n, done: 0, end: now_ns(MONOTONIC) + n * 1_000_000, clock: MONOTONIC, least: i64::MAX }
    }
    fn more(&self) -> bool {
        self.done <= if self.counting { self.n } else { 3 } || !self.counting && now_ns(MONOTONIC) < self.end
    }
    /// The first call is neither counted nor timed.
    fn call(&mut self, call: &mut dyn FnMut()) {
        let start = now_ns(self.clock);
        if self.counting && self.done > 0 {
            measured(call);
        } else {
            call();
        }
        let took = now_ns(self.clock) - start;
        if self.done > 0 {
            self.least = self.least.min(took);
        } else if took > 100_000 {
            self.clock = THREAD_CPUTIME;
        }
        self.done += 1;
    }
    fn say(&self) {
        if !self.counting {
            println!("{}", self.least);
        }
    }
}

pub fn main() {
    let args: Vec<String> = std::env::args().collect();
    let text = std::fs::read_to_string(&args[1]).expect("the file");
    let (letters, call, how) = (args[2].parse().expect("letters"), args[3].as_str(), args[4].as_str());
    if call == "text" {
        let mut reply = Vec::with_capacity(65536);
        if how == "answer" {
            answer_text(&text, &mut reply);
            std::io::stdout().write_all(&reply).unwrap();
            return;
        }
        let mut meter = Meter::new(how, args[5].parse().expect("N"));
        while meter.more() {
            reply.clear();
            meter.call(&mut || answer_text(&text, &mut reply));
        }
        return meter.say();
    }
    let font = read_font(&text, letters);
    let compile = |entries| CompiledProgram::compile(&font.program, font.design, &font.kerns, entries);
    let (compiled, loops) = compile(font.entries.clone());
    if how == "answer" {
        return put_answer(&font, &compiled, &loops);
    }
    let mut meter = Meter::new(how, args[5].parse().expect("N"));
    let mut items = Vec::with_capacity(6 * 3 * letters);
    while meter.more() {
        match call {
            "compile" => {
                let (mut entries, mut made) = (Some(font.entries.clone()), None);
                meter.call(&mut || made = entries.take().map(compile));
            }
            "word" => {
                items.clear();
                meter.call(&mut || set_word(&compiled, &font.word, &mut items));
            }
            "next" => meter.call(&mut || run_to_end(&compiled, &font.word)),
            _ => panic!("no such call"),
        }
    }
    meter.say();
}
