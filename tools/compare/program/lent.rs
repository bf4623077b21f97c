//! Lists that are lent to the library. An input is a copy, so that a write to it is seen. An output is filled with
//! other bytes than zeros, with some elements after it that are not lent, so that what a call leaves in it, and any
//! write past its length, is seen.

/// An element of a list.
pub trait Element: Copy + PartialEq + Default {
    const FILLED: Self;
    fn number(self) -> i64;
}

impl Element for i32 {
    const FILLED: i32 = 0x5A5A_5A5A;
    fn number(self) -> i64 {
        self as i64
    }
}

impl Element for u32 {
    const FILLED: u32 = 0x5A5A_5A5A;
    fn number(self) -> i64 {
        self as i64
    }
}

impl Element for u64 {
    const FILLED: u64 = 0x5A5A_5A5A_5A5A_5A5A;
    fn number(self) -> i64 {
        self as i64
    }
}

impl Element for u8 {
    const FILLED: u8 = 0x5A;
    fn number(self) -> i64 {
        self as i64
    }
}

/// What is wrong with a list after a call.
pub type Fault = String;

pub struct Input<T> {
    lent: Vec<T>,
    kept: Vec<T>,
}

impl<T: Element> Input<T> {
    pub fn new(list: Vec<T>) -> Input<T> {
        Input { kept: list.clone(), lent: list }
    }
    pub fn pointer(&mut self) -> *const T {
        self.lent.as_mut_ptr()
    }
    pub fn length(&self) -> usize {
        self.lent.len()
    }
    /// The list as it was lent.
    pub fn list(&self) -> &[T] {
        &self.kept
    }
    pub fn unchanged(&self, name: &str) -> Result<(), Fault> {
        if self.lent == self.kept {
            Ok(())
        } else {
            Err(format!("the list {name}, which is only read, was written"))
        }
    }
}

const GUARD: usize = 4;

pub struct Output<T> {
    list: Vec<T>,
    length: usize,
    name: &'static str,
}

impl<T: Element> Output<T> {
    pub fn new(name: &'static str, length: usize) -> Output<T> {
        Output { list: vec![T::FILLED; length + GUARD], length, name }
    }
    pub fn pointer(&mut self) -> *mut T {
        self.list.as_mut_ptr()
    }
    pub fn length(&self) -> usize {
        self.length
    }
    /// Filled anew.
    pub fn fill(&mut self) {
        self.list.fill(T::FILLED);
    }

    fn guarded(&self) -> Result<(), Fault> {
        if self.list[self.length..].iter().all(|e| *e == T::FILLED) {
            Ok(())
        } else {
            Err(format!("the list {} was written past its length", self.name))
        }
    }

    /// The first elements of the list, as many as an answer has; after them there must be zeros.
    pub fn taken(&self, count: usize) -> Result<&[T], Fault> {
        self.guarded()?;
        if count > self.length {
            return Err(format!("an answer of {count} numbers in the list {} of {}", self.name, self.length));
        }
        if self.list[count..self.length].iter().any(|e| *e != T::default()) {
            return Err(format!("no zeros after the answer in the list {}", self.name));
        }
        Ok(&self.list[..count])
    }

    /// All zeros, as after a refusal.
    pub fn zeros(&self) -> Result<(), Fault> {
        self.taken(0).map(|_| ()).map_err(|fault| fault.replace("no zeros after the answer", "not all zeros"))
    }

    /// Number i of the list.
    pub fn number(&self, i: usize) -> i64 {
        self.list[i].number()
    }
}

/// The numbers of a list at the end of an answer.
pub fn put<T: Element>(out: &mut Vec<i64>, list: &[T]) {
    out.extend(list.iter().map(|e| e.number()));
}

/// For a self-test: each fault that a list can have is seen.
pub fn selftest() -> bool {
    let mut past = Output::<i32>::new("past", 3);
    past.list.fill(0);
    let mut after = Output::<u64>::new("after", 3);
    after.list[..2].fill(0);
    let mut read = Input::<u8>::new(vec![1, 2]);
    read.lent[1] = 3;
    let mut right = Output::<u32>::new("right", 2);
    right.list[..2].fill(0);
    past.zeros().is_err()
        && after.zeros().is_err()
        && after.taken(4).is_err()
        && read.unchanged("read").is_err()
        && right.zeros().is_ok()
}
