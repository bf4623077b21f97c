//! One call tried with every list of exactly its size, and then with each list in turn one element short.

use crate::list::{Content, List};
use std::collections::BTreeMap;

/// A list that is only read. One short, the call is refused with `short`, or answers something else where there is none.
pub struct Source {
    pub content: Content,
    pub short: Option<u32>,
}

/// A list that is written: its width, its exact length, and the number due where it is one short.
pub struct Sink {
    pub width: usize,
    pub length: usize,
    pub short: u32,
}

/// A call, its lists, and the numbers with which it may be refused where every list has its size.
pub struct Call<'a> {
    pub name: &'static str,
    pub refusals: &'static [u32],
    pub sources: Vec<Source>,
    pub sinks: Vec<Sink>,
    pub call: &'a dyn Fn(&[List], &[List]) -> u32,
}

/// What was tried, call by call: full, refused as a whole, a written list one short, a list that is read one short.
#[derive(Default)]
pub struct Counts(BTreeMap<&'static str, [u64; 4]>);

impl Counts {
    fn add(&mut self, name: &'static str, column: usize) {
        self.0.entry(name).or_default()[column] += 1;
    }
    /// A step taken, with a state and an item of exact size.
    pub fn full_step(&mut self) {
        self.add("ligkern_step", 0);
    }
    /// A step refused, with the state or the item one short.
    pub fn short_step(&mut self) {
        self.add("ligkern_step", 2);
    }
    pub fn print(&self) {
        println!("          full       refused  output short   input short");
        let mut sums = [0; 4];
        for (name, counts) in &self.0 {
            println!("{}  {name}", counts.map(|n| format!("{n:>14}")).concat());
            sums.iter_mut().zip(counts).for_each(|(sum, n)| *sum += n);
        }
        println!("{}  in all", sums.map(|n| format!("{n:>14}")).concat());
    }
}

/// The number of a call and what it leaves in the lists that it writes. What it reads must stay.
fn tried(call: &Call, sources: &[Content], sinks: &[Content], overstated: bool) -> Result<(u32, Vec<Content>), String> {
    let read: Vec<List> = sources.iter().map(List::new).collect();
    let mut written: Vec<List> = sinks.iter().map(List::new).collect();
    if overstated {
        let last = written.pop().expect("a list is written");
        written.push(last.overstated());
    }
    let number = (call.call)(&read, &written);
    if read.iter().zip(sources).any(|(list, source)| list.content().bytes != source.bytes) {
        return Err(format!("{}: a list that is only read was written", call.name));
    }
    Ok((number, written.iter().map(|list| list.content()).collect()))
}

/// The number due, and zeros after a refusal.
fn due(call: &Call, what: &str, due: u32, number: u32, left: &[Content]) -> Result<(), String> {
    if number != due {
        return Err(format!("{}: {what} gave {number} where {due} is due", call.name));
    }
    if number != 0 && !left.iter().all(Content::is_zero) {
        return Err(format!("{}: {what} was refused with {number} and did not leave zeros", call.name));
    }
    Ok(())
}

/// The list with some elements more.
fn wider(sink: &Sink) -> Content {
    Content::filled(sink.width, sink.length + 3)
}

impl Call<'_> {
    /// Tries the call; what it leaves in the lists that it writes, where it is taken.
    pub fn try_all(&self, counts: &mut Counts) -> Result<Option<Vec<Content>>, String> {
        let sources: Vec<Content> = self.sources.iter().map(|s| s.content.clone()).collect();
        let exact: Vec<Content> = self.sinks.iter().map(|s| Content::filled(s.width, s.length)).collect();
        let wide: Vec<Content> = self.sinks.iter().map(wider).collect();
        let (number, left) = tried(self, &sources, &exact, false)?;
        let (wide_number, wide_left) = tried(self, &sources, &wide, false)?;
        due(self, "wider lists", number, wide_number, &wide_left)?;
        if number != 0 && !self.refusals.contains(&number) {
            return Err(format!("{}: lists of exact size were refused with {number}", self.name));
        }
        if number != 0 {
            due(self, "lists of exact size", number, number, &left)?;
            counts.add(self.name, 1);
            return Ok(None);
        }
        for (list, wide) in left.iter().zip(&wide_left) {
            let (front, back) = wide.bytes.split_at(list.bytes.len());
            if front != list.bytes || back.iter().any(|b| *b != 0) {
                return Err(format!("{}: exact and wider lists do not hold the same", self.name));
            }
        }
        counts.add(self.name, 0);
        self.try_short_sinks(&sources, &exact, counts)?;
        self.try_short_sources(&sources, &exact, counts)?;
        Ok(Some(left))
    }

    fn try_short_sinks(&self, sources: &[Content], exact: &[Content], counts: &mut Counts) -> Result<(), String> {
        for (i, sink) in self.sinks.iter().enumerate().filter(|(_, sink)| sink.length > 0) {
            let mut short = exact.to_vec();
            short[i] = short[i].one_short();
            let (number, left) = tried(self, sources, &short, false)?;
            due(self, &format!("written list {i} one short"), sink.short, number, &left)?;
            counts.add(self.name, 2);
        }
        Ok(())
    }

    fn try_short_sources(&self, sources: &[Content], exact: &[Content], counts: &mut Counts) -> Result<(), String> {
        for (i, source) in self.sources.iter().enumerate().filter(|(_, s)| s.content.length() > 0) {
            let mut short = sources.to_vec();
            short[i] = short[i].one_short();
            let (number, left) = tried(self, &short, exact, false)?;
            due(self, &format!("read list {i} one short"), source.short.unwrap_or(number), number, &left)?;
            counts.add(self.name, 3);
        }
        Ok(())
    }

    /// For a self-test of memcheck: the last list that is written is said to be one longer than it is.
    pub fn overstate(&self) {
        let sources: Vec<Content> = self.sources.iter().map(|s| s.content.clone()).collect();
        let exact: Vec<Content> = self.sinks.iter().map(|s| Content::filled(s.width, s.length)).collect();
        let _ = tried(self, &sources, &exact, true);
    }
}
