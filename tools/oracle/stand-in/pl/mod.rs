//! Stand-in for the property list module: the types that `lib.rs` and
//! `ligkern/mod.rs` name. Nothing the driver calls comes here.

use crate::{ligkern, Char, ExtensibleRecipe, FixWord, Header};
use std::collections::{BTreeMap, HashMap};

pub struct CharDimensions {
    pub width: Option<FixWord>,
    pub height: Option<FixWord>,
    pub depth: Option<FixWord>,
    pub italic_correction: Option<FixWord>,
}

pub enum CharTag {
    Ligature(u16),
    List(Char),
    Extension(ExtensibleRecipe),
}

pub struct File {
    pub header: Header,
    pub char_dimens: BTreeMap<Char, CharDimensions>,
    pub char_tags: BTreeMap<Char, CharTag>,
    pub unset_char_tags: BTreeMap<Char, u8>,
    pub lig_kern_program: ligkern::lang::Program,
    pub params: Vec<FixWord>,
    pub additional_widths: Vec<FixWord>,
    pub additional_heights: Vec<FixWord>,
    pub additional_depths: Vec<FixWord>,
    pub additional_italics: Vec<FixWord>,
}

impl File {
    pub fn lig_kern_entrypoints(&self, _: bool) -> HashMap<Char, u16> {
        unreachable!("stand-in")
    }
}
