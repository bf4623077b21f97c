//! Calls the library of c/ligkern.h on lists of exactly the size that they need and one element short of it, each in a
//! block of its own. It is run under memcheck: see README.md, 'Memory'.

#[path = "../program/calls.rs"]
mod calls;
#[path = "../program/drawn.rs"]
mod drawn;
#[path = "../program/font.rs"]
#[allow(dead_code)]
mod font;
#[path = "../program/mended.rs"]
mod mended;
#[path = "../program/random.rs"]
mod random;
#[path = "../program/reading.rs"]
#[allow(dead_code)]
mod reading;

// The many arguments of a call stand in rows.
#[rustfmt::skip]
mod captions;
#[rustfmt::skip]
mod fonts;
mod list;
mod trial;

use random::Random;
use std::time::{Duration, Instant};

/// A font with more ops is passed over, and the next is drawn.
const OPS: u128 = 2_000;

struct Options {
    seed: u64,
    fonts: u64,
    selftest: bool,
}

fn options() -> Result<Options, String> {
    let mut options = Options { seed: 1, fonts: 300, selftest: false };
    let mut words = std::env::args().skip(1);
    while let Some(word) = words.next() {
        if word == "--selftest" {
            options.selftest = true;
            continue;
        }
        let number = words.next().and_then(|n| n.parse::<u64>().ok()).ok_or(format!("{word} wants a number"))?;
        match word.as_str() {
            "--seed" => options.seed = number,
            "--fonts" => options.fonts = number,
            _ => return Err(format!("{word} is no option")),
        }
    }
    Ok(options)
}

/// Tries so many fonts; how many were passed over, and the counts.
fn tried(options: &Options) -> Result<(u64, trial::Counts), String> {
    let mut counts = trial::Counts::default();
    let (mut done, mut over, mut said) = (0, 0, Instant::now());
    while done < options.fonts {
        let number = done + over;
        let mut r = Random::new(options.seed, number);
        let drawn = drawn::drawn(&mut r);
        if reading::read(&drawn.font).ops > OPS {
            over += 1;
            continue;
        }
        fonts::font(&mut r, &drawn, &mut counts)
            .map_err(|fault| format!("font {number}: {fault}\n{:?}", drawn.font))?;
        done += 1;
        if said.elapsed() >= Duration::from_secs(5) {
            said = Instant::now();
            eprintln!("memory: {done} of {} fonts", options.fonts);
        }
    }
    Ok((over, counts))
}

fn main() {
    let options = options().unwrap_or_else(|error| {
        eprintln!("memory: {error}");
        std::process::exit(2);
    });
    if options.selftest {
        return fonts::overstate();
    }
    match tried(&options) {
        Ok((over, counts)) => {
            println!("seed {}, {} fonts ({over} with more than {OPS} ops passed over)", options.seed, options.fonts);
            counts.print();
        }
        Err(fault) => {
            println!("{fault}");
            std::process::exit(1);
        }
    }
}
