//! Lists on the heap of exactly the size that is lent: each has a block of its own from malloc, so that memcheck sees
//! any read or write outside of it.

extern "C" {
    fn malloc(size: usize) -> *mut u8;
    fn free(block: *mut u8);
}

const FILLED: u8 = 0x5A;

/// Elements of so many bytes each.
#[derive(Clone)]
pub struct Content {
    pub width: usize,
    pub bytes: Vec<u8>,
}

macro_rules! content {
    ($name:ident, $t:ty) => {
        pub fn $name(list: &[$t]) -> Content {
            Content { width: size_of::<$t>(), bytes: list.iter().flat_map(|e| e.to_ne_bytes()).collect() }
        }
    };
}
content!(of_i32, i32);
content!(of_u32, u32);
content!(of_u8, u8);

impl Content {
    pub fn length(&self) -> usize {
        self.bytes.len() / self.width
    }
    /// So many elements, none of them zero.
    pub fn filled(width: usize, length: usize) -> Content {
        Content { width, bytes: vec![FILLED; width * length] }
    }
    /// Without its last element.
    pub fn one_short(&self) -> Content {
        Content { width: self.width, bytes: self.bytes[..self.bytes.len() - self.width].to_vec() }
    }
    pub fn is_zero(&self) -> bool {
        self.bytes.iter().all(|b| *b == 0)
    }
    /// Element i of a list of u64, 0 where it has none.
    pub fn count(&self, i: usize) -> usize {
        let bytes = self.bytes.get(8 * i..8 * i + 8);
        bytes.map_or(0, |b| u64::from_ne_bytes(b.try_into().unwrap()) as usize)
    }
}

/// A block that holds a content, and the length that is lent.
pub struct List {
    block: *mut u8,
    size: usize,
    width: usize,
    pub length: usize,
}

impl List {
    pub fn new(content: &Content) -> List {
        let size = content.bytes.len();
        let block = unsafe { malloc(size) };
        assert!(!block.is_null(), "no memory");
        unsafe { std::ptr::copy_nonoverlapping(content.bytes.as_ptr(), block, size) };
        List { block, size, width: content.width, length: content.length() }
    }
    /// For a self-test: a length that is one more than the block has.
    pub fn overstated(mut self) -> List {
        self.length += 1;
        self
    }
    pub fn pointer<T>(&self) -> *mut T {
        assert_eq!(self.width, size_of::<T>());
        self.block.cast()
    }
    pub fn content(&self) -> Content {
        let bytes = unsafe { std::slice::from_raw_parts(self.block, self.size) }.to_vec();
        Content { width: self.width, bytes }
    }
}

impl Drop for List {
    fn drop(&mut self) {
        unsafe { free(self.block) }
    }
}
