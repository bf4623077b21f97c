//! Compares the library of c/ligkern.h with the published Rust, in one process, on fonts by chance and on all fonts of
//! two letters. See README.md.

mod answer;
mod asked;
mod broken;
mod calls;
mod compare;
mod drawn;
mod features;
mod font;
mod lent;
mod library;
mod limits;
mod mended;
mod questions;
mod random;
mod reading;
mod refusals;
mod shrink;
mod table;
mod tally;
mod two_letters;
mod written_out;

use compare::{Mismatch, SPOILT};
use font::{request, CALLS};
use std::sync::atomic::{AtomicBool, AtomicU64, Ordering::Relaxed};
use std::time::{Duration, Instant};
use tally::Tally;

const THREADS: u64 = 2;
const STACK: usize = 512 << 20;

struct Options {
    seed: u64,
    fonts: u64,
    rules: usize,
    selftest: bool,
}

fn options() -> Result<Options, String> {
    let mut options = Options { seed: 1, fonts: 300_000, rules: 3, selftest: false };
    let mut words = std::env::args().skip(1);
    while let Some(word) = words.next() {
        if word == "--selftest" {
            options.selftest = true;
            continue;
        }
        let number = words.next().and_then(|n| n.parse::<u64>().ok()).ok_or(format!("{word} wants a number"))?;
        match word.as_str() {
            "--seed" => options.seed = number,
            "--fonts" => options.fonts = number,
            "--rules" => options.rules = number as usize,
            _ => return Err(format!("{word} is no option")),
        }
    }
    Ok(options)
}

/// A mismatch, and the number of the font on which it was met.
struct Found {
    number: u64,
    mismatch: Box<Mismatch>,
}

/// What the threads of a run share.
struct Shared {
    name: &'static str,
    count: u64,
    done: AtomicU64,
    stop: AtomicBool,
}

type Question<'a> = &'a (dyn Fn(u64, &mut Tally) -> Result<(), Box<Mismatch>> + Sync);

/// The fonts of one thread: every second number.
fn thread(shared: &Shared, first: u64, question: Question) -> (Tally, Option<Found>) {
    let mut tally = Tally::default();
    let mut number = first;
    while number < shared.count && !shared.stop.load(Relaxed) {
        if let Err(mismatch) = question(number, &mut tally) {
            shared.stop.store(true, Relaxed);
            return (tally, Some(Found { number, mismatch }));
        }
        shared.done.fetch_add(1, Relaxed);
        number += THREADS;
    }
    (tally, None)
}

/// Says how far a run is, every few seconds, until it ends.
fn progress(shared: &Shared, start: Instant, ended: &dyn Fn() -> bool) {
    let mut said = Instant::now();
    while !ended() {
        std::thread::sleep(Duration::from_millis(50));
        if said.elapsed() >= Duration::from_secs(5) {
            said = Instant::now();
            let done = shared.done.load(Relaxed);
            eprintln!("compare: {}: {done} of {}, {} s", shared.name, shared.count, start.elapsed().as_secs());
        }
    }
}

/// Asks the questions of every number below the count, on two threads.
fn run(name: &'static str, count: u64, question: Question) -> (Tally, Option<Found>) {
    let shared = &Shared { name, count, done: AtomicU64::new(0), stop: AtomicBool::new(false) };
    let start = Instant::now();
    let mut tally = Tally::default();
    let mut found = None;
    std::thread::scope(|scope| {
        let spawn = |first| {
            let builder = std::thread::Builder::new().stack_size(STACK);
            builder.spawn_scoped(scope, move || thread(shared, first, question)).expect("no thread")
        };
        let threads: Vec<_> = (0..THREADS).map(spawn).collect();
        progress(shared, start, &|| threads.iter().all(|t| t.is_finished()));
        for thread in threads {
            let (counted, met) = thread.join().expect("a thread of the comparison panicked");
            tally.add(&counted);
            found = found.take().or(met);
        }
    });
    (tally, found)
}

/// Makes a mismatch small, on a thread with as much stack as it was met with.
fn smallest(found: Found) -> Mismatch {
    let spare = questions::spare(found.number);
    let builder = std::thread::Builder::new().stack_size(STACK);
    let thread = builder.spawn(move || shrink::smallest(*found.mismatch, spare)).expect("no thread");
    thread.join().expect("a smaller question panicked")
}

fn print_mismatch(found: Found) {
    println!("  the call {} differs on font {}", CALLS[found.mismatch.ask.call()], found.number);
    let small = if found.mismatch.for_both { smallest(found) } else { *found.mismatch };
    println!("  smallest failing request: {}", request(&small.ask, &small.font));
    println!("    as a question: {:?}", small.ask);
    if let Some((pairs, ops)) = &small.table {
        println!("    on the pairs:  {pairs:?}, and the ops {ops:?}");
    }
    println!("    the Rust:      {}", small.answers.published);
    println!("    the library:   {}", small.answers.library);
}

/// Runs one family, writes what it counted, and says whether all agreed.
fn family(name: &'static str, count: u64, question: Question) -> bool {
    let start = Instant::now();
    let (tally, found) = run(name, count, question);
    println!("{name}: {count}, in {} s", start.elapsed().as_secs());
    tally.print();
    match found {
        Some(found) => {
            print_mismatch(found);
            false
        }
        None => true,
    }
}

/// Spoils the answers of each call in turn: each must be found, and is made small.
fn selftest(options: &Options) -> bool {
    let mut all = lent::selftest();
    println!("faults of lists: {}", if all { "found" } else { "NOT FOUND" });
    for (call, name) in CALLS.iter().enumerate() {
        SPOILT.store(call + 1, Relaxed);
        let (_, found) =
            run("spoilt fonts", options.fonts, &|number, tally| questions::font(options.seed, number, tally));
        println!("{name} spoilt: {}", if found.is_some() { "found" } else { "NOT FOUND" });
        all &= found.as_ref().is_some_and(|f| f.mismatch.ask.call() == call);
        if let Some(found) = found {
            print_mismatch(found);
        }
    }
    all
}

fn compare(options: &Options) -> bool {
    println!("seed {}", options.seed);
    let seed = options.seed;
    let mut alike = family("limits", limits::QUESTIONS, &limits::questions)
        && family("random fonts", options.fonts, &|number, tally| questions::font(seed, number, tally));
    if alike && options.rules > 0 {
        let members = two_letters::family(options.rules);
        let question =
            |number: u64, tally: &mut Tally| two_letters::questions(&members[number as usize], number, tally);
        alike = family("fonts of two letters", members.len() as u64, &question);
    }
    println!("{}", if alike { "no difference" } else { "A DIFFERENCE" });
    alike
}

fn main() {
    let options = options().unwrap_or_else(|error| {
        eprintln!("compare: {error}");
        std::process::exit(2);
    });
    asked::listen();
    let alike = if options.selftest { selftest(&options) } else { compare(&options) };
    std::process::exit(!alike as i32);
}
