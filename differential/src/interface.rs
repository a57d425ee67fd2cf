//! The C interface of the proved reader and writer, called on slices.

use crate::writing::Picture;
use oracle::Place;
use std::{fmt, ptr};

/// A place as C has it: the original's three numbers, and the count of bytes at which its line starts.
#[derive(Clone, Copy, Debug, PartialEq, Eq)]
#[repr(C)]
pub struct TextLocation {
    pub byte: u64,
    pub line: u64,
    pub column: u64,
    pub start: u64,
}

impl TextLocation {
    /// The place at which every text begins.
    pub const START: TextLocation = TextLocation { byte: 0, line: 1, column: 0, start: 0 };

    /// A place with the start that it must have: its byte less its column, wrapping where the column is above.
    pub fn new(byte: u64, line: u64, column: u64) -> TextLocation {
        TextLocation { byte, line, column, start: byte.wrapping_sub(column) }
    }

    /// The original's part of it.
    pub fn place(self) -> Place {
        Place { byte: self.byte, line: self.line, column: self.column }
    }
}

/// A decoder as C lends it: sides, data bytes spent, place. The original's has its own kind of place.
#[derive(Clone, Copy, Debug, PartialEq, Eq)]
#[repr(C)]
pub struct StreamDecoder<L = TextLocation> {
    pub width: u32,
    pub height: u32,
    pub current_position: u64,
    pub location: L,
}

/// The calls of the interface.
#[derive(Clone, Copy, Debug, PartialEq, Eq)]
pub enum Call {
    ReadHeader,
    ReadImage,
    NextByte,
    Write,
}

/// Entries of a report.
pub mod entry {
    pub const BYTE: usize = 0;
    pub const LINE: usize = 1;
    pub const COLUMN: usize = 2;
    pub const WIDTH: usize = 3;
    pub const HEIGHT: usize = 4;
    pub const NAME_LENGTH: usize = 5;
    pub const HAS_HOTSPOT: usize = 6;
    pub const DATA_BYTE: usize = 7;
    pub const START: usize = 8;
    /// Always 0.
    pub const RESERVED: usize = 9;
}

/// How many entries a report has.
pub const ENTRIES: usize = 10;

/// The data byte's entry when none is left.
pub const NONE_LEFT: u64 = 256;

pub type Report = [u64; ENTRIES];
pub type Hotspot = [i32; 2];

pub type ReadHeader =
    unsafe extern "C" fn(*const u8, usize, *mut u8, usize, *mut u64, *mut i32) -> u32;
pub type NextByte = unsafe extern "C" fn(*const u8, usize, *mut StreamDecoder, *mut u64) -> u32;
pub type ReadImage = unsafe extern "C" fn(
    *const u8,
    usize,
    *mut u8,
    usize,
    *mut u8,
    usize,
    *mut u64,
    *mut i32,
) -> u32;

pub type Write = unsafe extern "C" fn(
    *const u8,
    usize,
    u32,
    u32,
    u32,
    i32,
    i32,
    *const u8,
    usize,
    *mut u8,
    usize,
    *mut u64,
) -> u32;

/// The four calls.
#[derive(Clone, Copy)]
pub struct Interface {
    pub read_header: ReadHeader,
    pub next_byte: NextByte,
    pub read_image: ReadImage,
    pub write: Write,
}

/// All that the call that writes tells beside its output.
#[derive(Clone, Copy, Debug, PartialEq, Eq)]
pub struct Written {
    pub result: u32,
    pub length: u64,
    /// Where it wrote beside the length, or beside a buffer.
    pub stray: Option<Stray>,
}

/// All that a call tells beside the buffers it is lent. The original's has its own kind of report.
#[derive(Clone, Copy, Debug, PartialEq, Eq)]
pub struct Answer<R = Report> {
    pub result: u32,
    pub report: R,
    pub hotspot: Hotspot,
    /// Where it wrote beside its report, its hotspot or its decoder.
    pub stray: Option<Stray>,
}

impl Answer {
    /// The place told.
    pub fn location(&self) -> TextLocation {
        TextLocation {
            byte: self.report[entry::BYTE],
            line: self.report[entry::LINE],
            column: self.report[entry::COLUMN],
            start: self.report[entry::START],
        }
    }

    /// The decoder after an accepted header, filled from its report as `xbm.h` says.
    pub fn decoder(&self) -> StreamDecoder {
        StreamDecoder {
            width: self.report[entry::WIDTH] as u32,
            height: self.report[entry::HEIGHT] as u32,
            current_position: 0,
            location: self.location(),
        }
    }
}

/// A write just before or just past a lent thing.
#[derive(Clone, Copy, Debug, PartialEq, Eq)]
pub struct Stray {
    pub thing: &'static str,
    pub past: bool,
}

impl Stray {
    /// What the two guards of a thing tell.
    pub fn found(thing: &'static str, before_kept: bool, after_kept: bool) -> Option<Stray> {
        (!(before_kept && after_kept)).then_some(Stray { thing, past: before_kept })
    }
}

impl fmt::Display for Stray {
    fn fmt(&self, out: &mut fmt::Formatter) -> fmt::Result {
        write!(out, "wrote {} the {}", if self.past { "past" } else { "before" }, self.thing)
    }
}

/// What report and hotspot hold before a call, and what stands beside them.
const JUNK: u64 = 0xa5a5_5a5a_c3c3_3c3c;
const JUNK_HOTSPOT: i32 = 0x5a5a_3c3c;

/// A lent thing between words that no call may touch.
#[repr(C)]
struct Guarded<T> {
    before: [u64; 2],
    lent: T,
    after: [u64; 2],
}

impl<T> Guarded<T> {
    /// The guards touch the thing: nothing lies between them.
    const CLOSE: () = assert!(size_of::<Guarded<T>>() == size_of::<T>() + 32);

    fn new(lent: T) -> Guarded<T> {
        let () = Self::CLOSE;
        Guarded { before: [JUNK; 2], lent, after: [JUNK; 2] }
    }

    fn pointer<E>(&mut self) -> *mut E {
        (&raw mut self.lent).cast()
    }

    fn stray(&self, thing: &'static str) -> Option<Stray> {
        Stray::found(thing, self.before == [JUNK; 2], self.after == [JUNK; 2])
    }
}

/// What a call is to fill beside the buffers.
struct Told {
    report: Guarded<Report>,
    hotspot: Guarded<Hotspot>,
}

impl Told {
    fn new() -> Told {
        Told { report: Guarded::new([JUNK; ENTRIES]), hotspot: Guarded::new([JUNK_HOTSPOT; 2]) }
    }

    fn answer(self, result: u32) -> Answer {
        Answer {
            result,
            report: self.report.lent,
            hotspot: self.hotspot.lent,
            stray: self.report.stray("report").or(self.hotspot.stray("hotspot")),
        }
    }
}

/// An empty buffer goes as a null pointer.
fn pointer(bytes: &mut [u8]) -> *mut u8 {
    if bytes.is_empty() {
        ptr::null_mut()
    } else {
        bytes.as_mut_ptr()
    }
}

/// A text is lent as memory of the caller's own, so that a write to it can be seen.
impl Interface {
    pub fn read_header(&self, text: &mut [u8], name: &mut [u8]) -> Answer {
        let mut told = Told::new();
        let result = unsafe {
            (self.read_header)(
                pointer(text),
                text.len(),
                pointer(name),
                name.len(),
                told.report.pointer(),
                told.hotspot.pointer(),
            )
        };
        told.answer(result)
    }

    /// The call has no hotspot; the answer's is as it was filled.
    pub fn next_byte(&self, text: &mut [u8], decoder: &mut StreamDecoder) -> Answer {
        let mut told = Told::new();
        let mut lent = Guarded::new(*decoder);
        let result = unsafe {
            (self.next_byte)(pointer(text), text.len(), lent.pointer(), told.report.pointer())
        };
        *decoder = lent.lent;
        let answer = told.answer(result);
        Answer { stray: lent.stray("decoder").or(answer.stray), ..answer }
    }

    pub fn read_image(&self, text: &mut [u8], name: &mut [u8], pixels: &mut [u8]) -> Answer {
        let mut told = Told::new();
        let result = unsafe {
            (self.read_image)(
                pointer(text),
                text.len(),
                pointer(name),
                name.len(),
                pointer(pixels),
                pixels.len(),
                told.report.pointer(),
                told.hotspot.pointer(),
            )
        };
        told.answer(result)
    }

    /// Sides and hotspot are taken from the mask; its name and its cells are lent as memory of the caller's own.
    pub fn write(
        &self,
        mask: &Picture,
        name: &mut [u8],
        cells: &mut [u8],
        out: &mut [u8],
    ) -> Written {
        let mut length = Guarded::new(JUNK);
        let result = unsafe {
            (self.write)(
                pointer(name),
                name.len(),
                mask.width,
                mask.height,
                mask.has_hotspot,
                mask.hotspot[0],
                mask.hotspot[1],
                pointer(cells),
                cells.len(),
                pointer(out),
                out.len(),
                length.pointer(),
            )
        };
        Written { result, length: length.lent, stray: length.stray("length") }
    }
}

/// The hotspot of a call that has none: as it was filled.
pub const NO_HOTSPOT_ENTRY: Hotspot = [JUNK_HOTSPOT; 2];

/// The static library's calls, if this was built with it. `library::linked` also asks whether it is the right one.
pub(crate) fn built_in() -> Option<Interface> {
    #[cfg(has_library)]
    return Some(library::INTERFACE);
    #[cfg(not(has_library))]
    return None;
}

#[cfg(has_library)]
mod library {
    use super::{Interface, StreamDecoder};

    extern "C" {
        fn xbm_read_header(
            text: *const u8,
            text_len: usize,
            name: *mut u8,
            name_len: usize,
            report: *mut u64,
            hotspot: *mut i32,
        ) -> u32;

        fn xbm_next_byte(
            text: *const u8,
            text_len: usize,
            decoder: *mut StreamDecoder,
            report: *mut u64,
        ) -> u32;

        fn xbm_read_image(
            text: *const u8,
            text_len: usize,
            name: *mut u8,
            name_len: usize,
            pixels: *mut u8,
            pixels_len: usize,
            report: *mut u64,
            hotspot: *mut i32,
        ) -> u32;

        fn xbm_write(
            name: *const u8,
            name_len: usize,
            width: u32,
            height: u32,
            has_hotspot: u32,
            x: i32,
            y: i32,
            cells: *const u8,
            cells_len: usize,
            out: *mut u8,
            out_len: usize,
            length: *mut u64,
        ) -> u32;
    }

    pub const INTERFACE: Interface = Interface {
        read_header: xbm_read_header,
        next_byte: xbm_next_byte,
        read_image: xbm_read_image,
        write: xbm_write,
    };
}
