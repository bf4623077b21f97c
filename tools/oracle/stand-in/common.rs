//! Stand-in for the crate `common`: only the names that the published text uses.
//!
//! Arithmetic on `Scaled` is checked: an overflow panics.

/// A length in scaled points.
#[derive(Clone, Copy, Debug, Default, PartialEq, Eq, PartialOrd, Ord, Hash)]
pub struct Scaled(pub i32);

impl std::ops::Add for Scaled {
    type Output = Scaled;
    fn add(self, rhs: Scaled) -> Scaled {
        Scaled(self.0.checked_add(rhs.0).expect("overflow"))
    }
}

impl std::ops::Sub for Scaled {
    type Output = Scaled;
    fn sub(self, rhs: Scaled) -> Scaled {
        Scaled(self.0.checked_sub(rhs.0).expect("overflow"))
    }
}

impl std::ops::Mul<i32> for Scaled {
    type Output = Scaled;
    fn mul(self, rhs: i32) -> Scaled {
        Scaled(self.0.checked_mul(rhs).expect("overflow"))
    }
}

/// Rounds towards zero, as `/` on `i32` does.
impl std::ops::Div<i32> for Scaled {
    type Output = Scaled;
    fn div(self, rhs: i32) -> Scaled {
        Scaled(self.0.checked_div(rhs).expect("overflow or zero divisor"))
    }
}

impl std::ops::DivAssign<i32> for Scaled {
    fn div_assign(&mut self, rhs: i32) {
        *self = *self / rhs;
    }
}

#[derive(Clone, Copy, Debug, Default, PartialEq, Eq)]
pub enum GlueOrder {
    #[default]
    Normal,
}

#[derive(Clone, Copy, Debug, Default, PartialEq, Eq)]
pub struct Glue {
    pub width: Scaled,
    pub stretch: Scaled,
    pub stretch_order: GlueOrder,
    pub shrink: Scaled,
    pub shrink_order: GlueOrder,
}

pub trait FontFormat: Sized {
    const DEFAULT_FILE_EXTENSION: &'static str;
    type Error;
    fn parse(b: &[u8]) -> Result<Self, Self::Error>;
}

pub mod font {
    use super::{Glue, Scaled};

    #[derive(Clone, Debug, PartialEq, Eq)]
    pub enum TextItem {
        Char(char),
        Kern(Scaled),
        Ligature {
            c: char,
            original: Box<str>,
            includes_left_boundary: bool,
            includes_right_boundary: bool,
        },
    }

    pub trait TextIter: Iterator<Item = TextItem> {
        fn is_separation_point(&self) -> bool;
    }

    #[derive(Clone, Copy, Debug, Default)]
    pub struct BuildTextOptions {
        pub disable_left_boundary: bool,
        pub right_boundary_override: Option<char>,
    }

    pub trait Format {
        fn null() -> Self;
        fn width(&self, c: char) -> Option<Scaled>;
        fn height(&self, c: char) -> Option<Scaled>;
        fn depth(&self, c: char) -> Option<Scaled>;
        fn default_space(&self) -> Glue;
        fn extra_space(&self) -> Scaled;
    }

    pub trait TextBuilder {
        type TextIter<'a, Word: Iterator<Item = char>>: TextIter
        where
            Self: 'a;
        fn build_text<'a, Word: Iterator<Item = char>>(
            &'a self,
            word: Word,
            options: BuildTextOptions,
        ) -> Self::TextIter<'a, Word>;
        fn has_replacement(&self, left: Option<char>, right: Option<char>) -> bool;
    }
}
