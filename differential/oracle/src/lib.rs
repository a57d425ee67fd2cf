//! The original's answers, told by the numbers and places of document 01.
//!
//! Nothing here decides anything: every answer is the original's, and this crate only names it.

/// A place in the text: bytes taken, line from 1, column from 0.
#[derive(Clone, Copy, Debug, PartialEq, Eq, Default)]
pub struct Place {
    pub byte: u64,
    pub line: u64,
    pub column: u64,
}

/// Document 01's number of a refusal, with the place where one is told.
#[derive(Clone, Copy, Debug, PartialEq, Eq)]
pub struct Refusal {
    pub number: u32,
    pub place: Option<Place>,
}

/// What an accepted header says.
#[derive(Clone, Copy, Debug, PartialEq, Eq)]
pub struct Header {
    pub width: u32,
    pub height: u32,
    pub hotspot: Option<(i32, i32)>,
}

/// An accepted header with the length of its name and the place after its `{`.
#[derive(Clone, Copy, Debug, PartialEq, Eq)]
pub struct ReadHeader {
    pub header: Header,
    pub name_length: usize,
    pub place: Place,
}

/// The length of the name buffer that the original lends to itself.
pub const NAME_BUFFER_LENGTH: usize = 256;

#[cfg(has_original)]
#[allow(dead_code)]
mod copy {
    include!(concat!(env!("OUT_DIR"), "/original.rs"));
}

#[cfg(has_original)]
pub use copy::original::exposed::{
    parse_i32, parse_u32, read_header, read_image, read_image_naming, Decoder,
};
#[cfg(has_original)]
pub use copy::original::XbmDecoder;
