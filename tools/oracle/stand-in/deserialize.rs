//! Stand-in for reading .tfm files; nothing the driver calls comes here.

#[derive(Clone, Debug, PartialEq, Eq)]
pub struct DeserializationError;

#[derive(Clone, Debug, PartialEq, Eq)]
pub struct DeserializationWarning;

#[derive(Clone, Debug)]
pub struct RawFile<'a>(pub &'a [u8]);

#[derive(Clone, Debug)]
pub struct SubFileSizes;

pub fn from_raw_file(_: &RawFile) -> crate::File {
    unreachable!("stand-in")
}

pub fn deserialize(
    _: &[u8],
) -> (
    Result<crate::File, DeserializationError>,
    Vec<DeserializationWarning>,
) {
    unreachable!("stand-in")
}
