//! Stand-in for writing .tfm files; nothing the driver calls comes here.

pub fn serialize(_: &crate::File) -> Vec<u8> {
    unreachable!("stand-in")
}
