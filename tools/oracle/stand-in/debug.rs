//! Stand-in for the debug printer; nothing the driver calls comes here.

pub struct Debug<'a> {
    pub sub_file_sizes: crate::SubFileSizes,
    pub path: Option<&'a str>,
    pub raw_file: Option<&'a crate::RawFile<'a>>,
    pub tfm_file: Option<&'a crate::File>,
    pub sections: Vec<crate::Section>,
}

impl std::fmt::Display for Debug<'_> {
    fn fmt(&self, _: &mut std::fmt::Formatter<'_>) -> std::fmt::Result {
        unreachable!("stand-in")
    }
}
