//! The errors of the crate `image` that the original XBM reader makes; each keeps what it was made from.

use std::error::Error;
use std::fmt;

pub type ImageResult<T> = Result<T, ImageError>;

#[derive(Debug)]
pub enum ImageError {
    Decoding(DecodingError),
    Parameter(ParameterError),
    IoError(std::io::Error),
}

#[derive(Clone, Debug, PartialEq, Eq)]
pub enum ImageFormatHint {
    Name(String),
}

/// A fault of the text, with the format's own error inside.
#[derive(Debug)]
pub struct DecodingError {
    format: ImageFormatHint,
    underlying: Box<dyn Error + Send + Sync>,
}

impl DecodingError {
    pub fn new(format: ImageFormatHint, err: impl Into<Box<dyn Error + Send + Sync>>) -> Self {
        DecodingError { format, underlying: err.into() }
    }

    pub fn format_hint(&self) -> ImageFormatHint {
        self.format.clone()
    }
}

/// A fault of the caller.
#[derive(Debug)]
pub struct ParameterError {
    kind: ParameterErrorKind,
}

#[derive(Clone, Debug, PartialEq, Eq)]
pub enum ParameterErrorKind {
    DimensionMismatch,
}

impl ParameterError {
    pub fn from_kind(kind: ParameterErrorKind) -> Self {
        ParameterError { kind }
    }

    pub fn kind(&self) -> ParameterErrorKind {
        self.kind.clone()
    }
}

impl fmt::Display for DecodingError {
    fn fmt(&self, f: &mut fmt::Formatter<'_>) -> fmt::Result {
        write!(f, "{:?}: {}", self.format, self.underlying)
    }
}

impl Error for DecodingError {
    fn source(&self) -> Option<&(dyn Error + 'static)> {
        Some(&*self.underlying)
    }
}

impl fmt::Display for ParameterError {
    fn fmt(&self, f: &mut fmt::Formatter<'_>) -> fmt::Result {
        write!(f, "{:?}", self.kind)
    }
}

impl Error for ParameterError {}

impl fmt::Display for ImageError {
    fn fmt(&self, f: &mut fmt::Formatter<'_>) -> fmt::Result {
        match self {
            ImageError::Decoding(e) => e.fmt(f),
            ImageError::Parameter(e) => e.fmt(f),
            ImageError::IoError(e) => e.fmt(f),
        }
    }
}

impl Error for ImageError {}
