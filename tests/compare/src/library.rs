//! Which library is under test: the linked one, the one behind a pipe, or the second program standing in for it.

/// A C call over slices: ground record in, a room to write in, one number back.
pub type Library = fn(&[u8], &mut [u8]) -> u32;

/// A C call that is told first how many neighbours are asked for, and then in which manner.
pub type LibraryBy = fn(u32, u32, &[u8], &mut [u8]) -> u32;

/// The calls of one library, each under its name in the header.
#[derive(Clone, Copy)]
pub struct Libraries {
    /// What the first line of a run says about it.
    pub description: &'static str,
    pub askvimur_network: Library,
    pub askvimur_lakes: Library,
    pub askvimur_network_by: LibraryBy,
}

/// The second program, which all are compared with.
pub const SECOND: Libraries = Libraries {
    description: "the second program in place of the libraries, which are not linked",
    askvimur_network: second::call,
    askvimur_lakes: second::lakes_call,
    askvimur_network_by: second::network_by_call,
};

/// The library under test.
#[cfg(feature = "linked")]
pub fn under_test() -> Libraries {
    crate::linked::LIBRARIES
}

/// The library under test.
#[cfg(not(feature = "linked"))]
pub fn under_test() -> Libraries {
    match crate::piped::is_named() {
        true => crate::piped::LIBRARIES,
        false => SECOND,
    }
}
