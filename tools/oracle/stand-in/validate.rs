//! Stand-in for checking whole .tfm files; nothing the driver calls comes here.

#[derive(Clone, Debug, PartialEq, Eq)]
pub struct ValidationWarning;

pub fn validate_and_fix(_: &mut crate::File) -> Vec<ValidationWarning> {
    unreachable!("stand-in")
}
