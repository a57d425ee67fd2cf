//! The few types and the one trait of the crate `image` that the original XBM reader imports.

pub mod error;

pub use error::{ImageError, ImageResult};

/// Colour of a pixel as decoded.
#[derive(Clone, Copy, Debug, PartialEq, Eq)]
pub enum ColorType {
    L8,
}

/// Colour of a pixel as stored in the file.
#[derive(Clone, Copy, Debug, PartialEq, Eq)]
pub enum ExtendedColorType {
    L1,
}

/// A decoder whose header has been read.
pub trait ImageDecoder {
    fn dimensions(&self) -> (u32, u32);

    fn color_type(&self) -> ColorType;

    fn original_color_type(&self) -> ExtendedColorType;

    fn read_image(self, buf: &mut [u8]) -> ImageResult<()>
    where
        Self: Sized;

    fn read_image_boxed(self: Box<Self>, buf: &mut [u8]) -> ImageResult<()>;
}
