//! Opens the private parts of the original. A child module of its copy, so that it sees all of them.

use super::*;
use crate::{Header, Place, ReadHeader, Refusal};
use std::error::Error;
use std::io::Read;
use std::iter::Copied;
use std::slice::Iter;

const _: () = assert!(MAX_IDENTIFIER_LENGTH == crate::NAME_BUFFER_LENGTH);

pub fn parse_u32(token: &[u8]) -> Option<u32> {
    super::parse_u32(token)
}

pub fn parse_i32(token: &[u8]) -> Option<i32> {
    super::parse_i32(token)
}

/// `read_xbm_header` from the start of a text, with a name buffer of any length.
pub fn read_header(text: &[u8], name: &mut [u8]) -> Result<ReadHeader, Refusal> {
    let mut reader = TextReader::new(text.iter().copied());
    match read_xbm_header(&mut reader, name) {
        Ok((name, header)) => Ok(ReadHeader {
            header: header_told(&header),
            name_length: name.len(),
            place: place_told(reader.loc()),
        }),
        Err(error) => Err(refusal(&error)),
    }
}

/// The reference: `XbmDecoder::new`, then `read_image`.
pub fn read_image(text: &[u8], pixels: &mut [u8]) -> Result<Header, Refusal> {
    let decoder = XbmDecoder::new(text).map_err(|e| image_refusal(&e))?;
    finish(decoder, pixels)
}

/// The same with a lent name buffer of any length in place of the original's own of 256 bytes.
pub fn read_image_naming(
    text: &[u8],
    name: &mut [u8],
    pixels: &mut [u8],
) -> Result<Header, Refusal> {
    let mut r = TextReader::new(IoAdapter {
        reader: text.bytes(),
        error: None,
    });
    let (_, header) = read_xbm_header(&mut r, name).map_err(|e| refusal(&e))?;
    let base = XbmStreamDecoder {
        r,
        current_position: 0,
        header,
    };
    finish(XbmDecoder { base }, pixels)
}

fn finish(decoder: XbmDecoder<&[u8]>, pixels: &mut [u8]) -> Result<Header, Refusal> {
    let (width, height) = decoder.dimensions();
    let header = Header {
        width,
        height,
        hotspot: decoder.hotspot(),
    };
    match decoder.read_image(pixels) {
        Ok(()) => Ok(header),
        Err(error) => Err(image_refusal(&error)),
    }
}

/// The original's `XbmStreamDecoder` over a slice.
pub struct Decoder<'t> {
    base: XbmStreamDecoder<Copied<Iter<'t, u8>>>,
}

impl<'t> Decoder<'t> {
    /// After the header of a text.
    pub fn new(text: &'t [u8]) -> Result<Decoder<'t>, Refusal> {
        match XbmStreamDecoder::new(text.iter().copied()) {
            Ok(base) => Ok(Decoder { base }),
            Err((_, error)) => Err(refusal(&error)),
        }
    }

    /// Made with any numbers; the place's byte is at most the text's length.
    pub fn lent(text: &'t [u8], width: u32, height: u32, position: u64, place: Place) -> Self {
        let mut r = TextReader::new(text[place.byte as usize..].iter().copied());
        r.location = TextLocation {
            byte: place.byte,
            line: place.line,
            column: place.column,
        };
        let header = XbmHeaderData {
            width,
            height,
            hotspot: None,
        };
        Decoder {
            base: XbmStreamDecoder {
                r,
                current_position: position,
                header,
            },
        }
    }

    pub fn next_byte(&mut self) -> Result<Option<u8>, Refusal> {
        self.base.next_byte().map_err(|e| refusal(&e))
    }

    pub fn header(&self) -> Header {
        header_told(&self.base.header)
    }

    pub fn position(&self) -> u64 {
        self.base.current_position
    }

    pub fn place(&self) -> Place {
        place_told(self.base.r.loc())
    }
}

fn header_told(header: &XbmHeaderData) -> Header {
    Header {
        width: header.width,
        height: header.height,
        hotspot: header.hotspot,
    }
}

fn place_told(location: TextLocation) -> Place {
    Place {
        byte: location.byte,
        line: location.line,
        column: location.column,
    }
}

/// Document 01's number of a part.
fn number(part: XbmPart) -> u32 {
    match part {
        XbmPart::Width => 1,
        XbmPart::Height => 2,
        XbmPart::HotspotX => 3,
        XbmPart::HotspotY => 4,
        XbmPart::Array => 5,
        XbmPart::Data => 6,
        XbmPart::ArrayEnd => 7,
        XbmPart::Trailing => 8,
    }
}

fn refusal(error: &XbmDecodeError) -> Refusal {
    match *error {
        XbmDecodeError::Parse(part, location) => Refusal {
            number: number(part),
            place: Some(place_told(location)),
        },
        XbmDecodeError::DecodeInteger(part) => silent(10 + number(part)),
        XbmDecodeError::ZeroWidth => silent(21),
        XbmDecodeError::ZeroHeight => silent(22),
    }
}

fn image_refusal(error: &ImageError) -> Refusal {
    match error {
        ImageError::Decoding(error) => {
            let inner = error.source().and_then(|e| e.downcast_ref());
            refusal(inner.expect("a decoding error holds the reader's own"))
        }
        ImageError::Parameter(error) => match error.kind() {
            ParameterErrorKind::DimensionMismatch => silent(31),
        },
        ImageError::IoError(error) => panic!("reading a slice failed: {error}"),
    }
}

/// A refusal that tells no place.
fn silent(number: u32) -> Refusal {
    Refusal {
        number,
        place: None,
    }
}
