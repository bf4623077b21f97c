//! A font as numbers, what can be asked of it, and both as a line in the language of tools/oracle.

/// docs/RULES.md, 'What goes in': four numbers an instruction, two an entry, -1 for what is absent.
#[derive(Clone, Debug, Default, PartialEq)]
pub struct Font {
    pub instructions: Vec<[i32; 4]>,
    pub kerns: Vec<i32>,
    pub entries: Vec<[i32; 2]>,
    pub boundary: i32,
    pub left_entry: i32,
}

/// One question about a font: a call, and what it is lent beside the font.
#[derive(Clone, Debug, PartialEq)]
pub enum Ask {
    Compile { design: i32 },
    SetWord(Setting),
    Steps(Setting),
    Indexed(Setting),
    HasReplacement { design: i32, left: i32, right: i32 },
    AllPairs { design: i32 },
    TableSafe { design: i32 },
    ProgramSafe,
    Chain { entry: i32 },
    Unpack { entry: i32, passthrough: Vec<u16> },
    Reach { passthrough: Vec<u16> },
    Pack,
    PackKerns,
    UnpackKerns,
    Repair(Damage),
    Scale { kern: i32, design: i32 },
}

/// A word and the options of a run.
#[derive(Clone, Debug, PartialEq)]
pub struct Setting {
    pub design: i32,
    pub word: Vec<u32>,
    pub disable_left_boundary: bool,
    pub over: i32,
}

/// What repair is lent beside a font.
#[derive(Clone, Debug, PartialEq)]
pub struct Damage {
    pub smallest: i32,
    pub existing: [u64; 4],
    pub passthrough: Vec<u16>,
}

/// The calls, in the order of `Ask`.
pub const CALLS: [&str; 16] = [
    "ligkern_compile",
    "ligkern_set_word",
    "ligkern_begin, ligkern_step",
    "ligkern_has_replacement",
    "ligkern_all_pairs_with_replacements",
    "ligkern_table_is_seven_bit_safe",
    "ligkern_program_is_seven_bit_safe",
    "ligkern_instructions_for_entrypoint",
    "ligkern_unpack_entrypoint",
    "ligkern_reachable_iter",
    "ligkern_pack_entrypoints",
    "ligkern_pack_kerns",
    "ligkern_unpack_kerns",
    "ligkern_ask_repair, ligkern_commit_repair",
    "ligkern_fill_index, ligkern_set_word_indexed",
    "ligkern_to_scaled",
];

impl Ask {
    /// The place of the call in `CALLS`.
    pub fn call(&self) -> usize {
        match self {
            Ask::Compile { .. } => 0,
            Ask::SetWord(_) => 1,
            Ask::Steps(_) => 2,
            Ask::HasReplacement { .. } => 3,
            Ask::AllPairs { .. } => 4,
            Ask::TableSafe { .. } => 5,
            Ask::ProgramSafe => 6,
            Ask::Chain { .. } => 7,
            Ask::Unpack { .. } => 8,
            Ask::Reach { .. } => 9,
            Ask::Pack => 10,
            Ask::PackKerns => 11,
            Ask::UnpackKerns => 12,
            Ask::Repair(_) => 13,
            Ask::Indexed(_) => 14,
            Ask::Scale { .. } => 15,
        }
    }
}

fn put<T: ToString>(out: &mut String, number: T) {
    out.push(' ');
    out.push_str(&number.to_string());
}

fn put_list<T: ToString + Copy>(out: &mut String, list: &[T]) {
    put(out, list.len());
    list.iter().for_each(|n| put(out, *n));
}

fn put_font(out: &mut String, font: &Font) {
    put(out, font.instructions.len());
    font.instructions.iter().flatten().for_each(|n| put(out, *n));
    put_list(out, &font.kerns);
    put(out, font.entries.len());
    font.entries.iter().flatten().for_each(|n| put(out, *n));
    put(out, font.boundary);
    put(out, font.left_entry);
}

fn put_setting(out: &mut String, setting: &Setting) {
    put(out, !setting.disable_left_boundary as i32);
    put(out, setting.over);
    put_list(out, &setting.word);
    put(out, setting.design);
}

fn put_damage(out: &mut String, damage: &Damage) {
    put(out, damage.smallest);
    for word in damage.existing {
        put(out, word as u32 as i32);
        put(out, (word >> 32) as i32);
    }
    put_list(out, &damage.passthrough);
}

/// The request of tools/oracle that asks the same. Has_replacement has no request of its own: that of the table is
/// written, which names every pair that it says yes to.
pub fn request(ask: &Ask, font: &Font) -> String {
    let mut out = String::new();
    match ask {
        Ask::Compile { design } => {
            out.push('C');
            put(&mut out, *design);
        }
        Ask::SetWord(setting) | Ask::Steps(setting) | Ask::Indexed(setting) => {
            out.push('W');
            put_setting(&mut out, setting);
        }
        Ask::HasReplacement { design, .. } | Ask::AllPairs { design } | Ask::TableSafe { design } => {
            out.push('A');
            put(&mut out, *design);
        }
        Ask::ProgramSafe => out.push('B'),
        Ask::Chain { entry } => {
            out.push('I');
            put(&mut out, *entry);
        }
        Ask::Unpack { entry, passthrough } => {
            out.push('U');
            put(&mut out, *entry);
            put_list(&mut out, passthrough);
        }
        Ask::Reach { passthrough } => {
            out.push('R');
            put_list(&mut out, passthrough);
        }
        Ask::Pack => out.push('P'),
        Ask::PackKerns => out.push('J'),
        Ask::UnpackKerns => out.push('K'),
        Ask::Repair(damage) => {
            out.push('X');
            put_damage(&mut out, damage);
        }
        Ask::Scale { kern, design } => {
            out.push('S');
            put(&mut out, *kern);
            put(&mut out, *design);
            return out;
        }
    }
    put_font(&mut out, font);
    out
}
