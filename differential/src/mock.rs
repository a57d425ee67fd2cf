//! A stand-in for the proved reader, made of the original, and for the proved writer, with faults planted at will.
//! It only tests the comparison: no result of it says anything of the proved reader and writer.

use crate::integers::{self, LEADING_ZERO, NOTHING_THERE, NO_DIGIT, OUT_OF_RANGE};
use crate::interface::{entry, Call, Interface, StreamDecoder, TextLocation, ENTRIES};
use crate::writing::{self, Picture};
use oracle::{Decoder, Header, Place, Refusal};
use std::cell::Cell;
use std::slice;

/// A fault such as a reader could have.
#[derive(Clone, Copy, Debug, PartialEq, Eq)]
pub enum Fault {
    /// A refused trailer's column counts one too many.
    Column,
    /// A refused newline is told on its own line.
    Line,
    /// The last cell of a row one past whole bytes is not written.
    Cell,
    /// Cells of a remainder shorter than a row are written.
    Remainder,
    /// The last byte of a symbol that is too long is not stored.
    NameByte,
    /// The name is taken back by a refusal after the header.
    NameTakenBack,
    /// A refused data byte is not spent.
    Position,
    /// The buffer's length is checked before data and trailer.
    EarlyMismatch,
    /// A foreign decoder loses its position.
    ForeignChanged,
    /// A column above its byte is not seen as foreign.
    ForeignMissed,
    /// The hotspot of a refused image is still told.
    Hotspot,
    /// An entry of the report is left as it was where it is to be 0.
    Unwritten(usize),
    /// Highest bit first.
    Bits,
    /// The largest width is taken for an integer that does not fit.
    WidestRefused,
    /// A cell is wrong where the text is above 60,000 bytes.
    LongText,
    /// A cell is wrong where the width is above 2,000.
    Wide,
    /// The line is one too few after a preamble above 60,000 bytes.
    LongPreamble,
    /// The length of a name above 270 bytes is one too few.
    LongName,
    /// A cell is wrong in a long run of bytes parted by a comma and a tab.
    Tabs,
    /// The byte after the text is read too.
    Overread,
    /// A newline does not move the start.
    StartKept,
    /// The start counts the bytes before the newline, not the newline too.
    StartEarly,
    /// A call begins a line.
    StartAtCall,
    /// The start counts from where the call began.
    StartOfCall,
    /// The start is looked up in the text, whatever the decoder has.
    StartLookedUp,
    /// The report tells no start.
    StartUntold,
    /// A refused data byte or trailer tells the start from before the call.
    StartStale,
    /// An accepted image tells the start that its header told.
    StartWithoutPlace,
    /// The decoder's start becomes 0.
    StartLost,
    /// The decoder's start is left as it was.
    StartLeft,
    /// The report's last entry tells the start too.
    Reserved,
    /// Some starts, or all, are not seen as foreign.
    ForeignStart(Unseen),
    /// A foreign decoder's start is put right.
    ForeignStartChanged,
    /// The faults of an integer are mixed up.
    Integer(Mixed),
    /// A mask is not written as it must be.
    Written(Slip),
    /// The call changes its text.
    TextChanged(Call),
    /// The call writes a byte just before or just past something that it is lent.
    Stray(Call, Thing, Side),
}

/// Ways to mix up the faults of an integer.
#[derive(Clone, Copy, Debug, PartialEq, Eq)]
pub enum Mixed {
    /// The call does not tell them apart: it gives the original's number.
    OneNumber(Call),
    /// Digits are tested before the leading zero.
    DigitsFirst,
    /// The reading stops where the number becomes too large.
    StopsAtOverflow,
    /// The same, but only at the last of eleven bytes.
    StopsBeforeTheLast,
    /// A zero is a leading one only before a digit.
    ZeroBeforeDigit,
    /// A zero is a leading one only before another byte than `-`.
    ZeroBeforeSign,
    /// A zero after the sign is no leading one.
    ZeroAfterSign,
    /// Where nothing is there, that is a byte that is no digit.
    Nothing,
    /// A sign alone is a byte that is no digit.
    SignAlone,
    /// A side may have a sign.
    SignOfSide,
    /// A number that is too small has a byte that is no digit.
    TooSmall,
    /// A number that is too small gets a fifth number.
    FifthNumber,
    /// A fault of y is told of x.
    OtherLine,
    /// A byte above the digits, just past them, is taken for one.
    Colon,
    /// And so is a byte above 127.
    HighByte,
}

/// Ways to write a mask amiss.
#[derive(Clone, Copy, Debug, PartialEq, Eq)]
pub enum Slip {
    /// A bit beside the last cells of a row is set.
    Padding,
    /// Capital digits.
    Capitals,
    /// A whole last line is ended as if another followed.
    LineAfterTheLast,
    /// Highest bit first.
    Bits,
    /// Only 1 gives a hotspot.
    FlagOfOne,
    /// The hotspot's numbers change places.
    SpotTurned,
    /// A refused call leaves the length.
    LengthKept,
    /// A text that is too long fills the output.
    Filled,
    /// The output is cleared past the text.
    Cleared,
    /// An output of just the text's length is too short.
    Exact,
    /// A tab may stand in a name.
    Tab,
    /// A name may have 251 bytes, or only 249.
    LongerName,
    ShorterName,
    /// The cells are counted before the sides are looked at.
    CellsFirst,
    /// The cells are looked at before they are counted.
    ValuesFirst,
    /// The product of the sides has 32 bits.
    Product,
    /// Any cell but 0 counts as 255.
    Grey,
    /// The name changes, or a cell does.
    NameChanged,
    CellChanged,
}

/// Foreign starts that a fault takes. The last four leave out what is close to another of them.
#[derive(Clone, Copy, Debug, PartialEq, Eq)]
pub enum Unseen {
    All,
    UpToByte,
    AboveByte,
    /// In column 0.
    Zero,
    Largest,
    OneTooFew,
    OneTooMany,
}

/// What a call is lent.
#[derive(Clone, Copy, Debug, PartialEq, Eq)]
pub enum Thing {
    Text,
    Name,
    Pixels,
    Decoder,
    Report,
    Hotspot,
    Cells,
    Output,
    Length,
}

#[derive(Clone, Copy, Debug, PartialEq, Eq)]
pub enum Side {
    Before,
    Past,
}

/// Each call with what it is lent.
const LENT: [(Call, &[Thing]); 4] = [
    (Call::ReadHeader, &[Thing::Text, Thing::Name, Thing::Report, Thing::Hotspot]),
    (Call::NextByte, &[Thing::Text, Thing::Decoder, Thing::Report]),
    (Call::ReadImage, &[Thing::Text, Thing::Name, Thing::Pixels, Thing::Report, Thing::Hotspot]),
    (Call::Write, &[Thing::Name, Thing::Cells, Thing::Output, Thing::Length]),
];

impl Fault {
    /// Those of the answers and the cells.
    pub const ANSWERS: [Fault; 20] = [
        Fault::Column,
        Fault::Line,
        Fault::Cell,
        Fault::Remainder,
        Fault::NameByte,
        Fault::NameTakenBack,
        Fault::Position,
        Fault::EarlyMismatch,
        Fault::ForeignChanged,
        Fault::ForeignMissed,
        Fault::Hotspot,
        Fault::Unwritten(entry::DATA_BYTE),
        Fault::Bits,
        Fault::WidestRefused,
        Fault::LongText,
        Fault::Wide,
        Fault::LongPreamble,
        Fault::LongName,
        Fault::Tabs,
        Fault::Overread,
    ];

    /// Those of the starts and of the entry that is kept free, each with what is to be said of it.
    pub const STARTS: [(Fault, &str); 14] = [
        (Fault::StartKept, "the report has start 0, but the line starts at 37"),
        (Fault::StartEarly, "the report has start 36, but the line starts at 37"),
        (Fault::StartAtCall, "but the line starts at"),
        (Fault::StartOfCall, "but the line starts at"),
        (Fault::StartLookedUp, "but the line starts at"),
        (Fault::StartUntold, "the report has start 0, but the line starts at 37"),
        (Fault::StartStale, "the report has start"),
        (Fault::StartWithoutPlace, "the report has start 37, but no place is to be told"),
        (Fault::StartLost, "the decoder has start 0, but the line starts at"),
        (Fault::StartLeft, "the decoder has start"),
        (Fault::Unwritten(entry::START), "but no place is to be told"),
        (Fault::Unwritten(entry::RESERVED), "the report's entry 9 is"),
        (Fault::Reserved, "the report's entry 9 is 37, not 0"),
        (Fault::ForeignStartChanged, "the decoder has start 0, but"),
    ];

    /// Those of the starts that a lent decoder alone shows.
    pub const LENT_STARTS: [Fault; 6] = [
        Fault::StartAtCall,
        Fault::StartOfCall,
        Fault::StartLookedUp,
        Fault::StartStale,
        Fault::StartLost,
        Fault::StartLeft,
    ];

    /// Those that take a foreign start.
    pub const FOREIGN_STARTS: [Fault; 7] = [
        Fault::ForeignStart(Unseen::All),
        Fault::ForeignStart(Unseen::UpToByte),
        Fault::ForeignStart(Unseen::AboveByte),
        Fault::ForeignStart(Unseen::Zero),
        Fault::ForeignStart(Unseen::Largest),
        Fault::ForeignStart(Unseen::OneTooFew),
        Fault::ForeignStart(Unseen::OneTooMany),
    ];

    /// Those of the integers, each with what is to be said of it.
    pub const INTEGERS: [(Fault, &str); 16] = [
        (Fault::Integer(Mixed::OneNumber(Call::ReadHeader)), "the number is 1"),
        (Fault::Integer(Mixed::OneNumber(Call::ReadImage)), "the number is 1"),
        (Fault::Integer(Mixed::DigitsFirst), "3, but \"0"),
        (Fault::Integer(Mixed::StopsAtOverflow), "4, but \""),
        (Fault::Integer(Mixed::StopsBeforeTheLast), "4, but \""),
        (Fault::Integer(Mixed::ZeroBeforeDigit), "3, but \"0"),
        (Fault::Integer(Mixed::ZeroBeforeSign), "3, but \"0-"),
        (Fault::Integer(Mixed::ZeroAfterSign), "but \"-0"),
        (Fault::Integer(Mixed::Nothing), "3, but \"\" gets 1"),
        (Fault::Integer(Mixed::SignAlone), "3, but \"-\" gets 1"),
        (Fault::Integer(Mixed::SignOfSide), "but \"-"),
        (Fault::Integer(Mixed::TooSmall), "3, but \"-"),
        (Fault::Integer(Mixed::FifthNumber), "the number is 135, but \"-"),
        (Fault::Integer(Mixed::OtherLine), "the number is 13"),
        (Fault::Integer(Mixed::Colon), ":"),
        (Fault::Integer(Mixed::HighByte), "\\x"),
    ];

    /// Those of what is written.
    pub const WRITTEN: [Slip; 19] = [
        Slip::Padding,
        Slip::Capitals,
        Slip::LineAfterTheLast,
        Slip::Bits,
        Slip::FlagOfOne,
        Slip::SpotTurned,
        Slip::LengthKept,
        Slip::Filled,
        Slip::Cleared,
        Slip::Exact,
        Slip::Tab,
        Slip::LongerName,
        Slip::ShorterName,
        Slip::CellsFirst,
        Slip::ValuesFirst,
        Slip::Product,
        Slip::Grey,
        Slip::NameChanged,
        Slip::CellChanged,
    ];

    /// Those that write where nothing may be written, each with what is to be said of it.
    pub fn writes() -> Vec<(Fault, String)> {
        let mut all = Vec::new();
        for (call, things) in LENT {
            if things.contains(&Thing::Text) {
                all.push((Fault::TextChanged(call), "ours changed byte 0 of the text".into()));
            }
            for &thing in things {
                for side in [Side::Before, Side::Past] {
                    let name = match thing {
                        Thing::Text => "text",
                        Thing::Name if call == Call::Write => "name",
                        Thing::Name => "name buffer",
                        Thing::Pixels => "pixel buffer",
                        Thing::Decoder => "decoder",
                        Thing::Report => "report",
                        Thing::Hotspot => "hotspot",
                        Thing::Cells => "cells",
                        Thing::Output => "output",
                        Thing::Length => "length",
                    };
                    let side_name = if side == Side::Past { "past" } else { "before" };
                    let said = format!("wrote {side_name} the {name}");
                    all.push((Fault::Stray(call, thing, side), said));
                }
            }
        }
        all
    }
}

thread_local! {
    static PLANTED: Cell<Option<Fault>> = const { Cell::new(None) };
}

pub fn without_fault() -> Interface {
    plant(None)
}

/// The fault stays planted in this thread until the next call of this or of `without_fault`.
pub fn with_fault(fault: Fault) -> Interface {
    plant(Some(fault))
}

fn plant(fault: Option<Fault>) -> Interface {
    PLANTED.set(fault);
    Interface { read_header, next_byte, read_image, write }
}

fn planted(fault: Fault) -> bool {
    PLANTED.get() == Some(fault)
}

/// Writes beside what a call is lent, where that is planted.
unsafe fn stray<T>(call: Call, thing: Thing, lent: *mut T, length: usize) {
    let bytes = lent.cast::<u8>();
    for side in [Side::Before, Side::Past] {
        if planted(Fault::Stray(call, thing, side)) && length > 0 {
            let place = match side {
                Side::Before => bytes.sub(1),
                Side::Past => bytes.add(length * size_of::<T>()),
            };
            *place = !*place;
        }
    }
}

/// Changes the first byte of a call's text where that is planted: at the call's end, so that its answer is right.
struct Changing {
    call: Call,
    text: *mut u8,
    length: usize,
}

impl Drop for Changing {
    fn drop(&mut self) {
        if planted(Fault::TextChanged(self.call)) && self.length > 0 {
            unsafe { *self.text = !*self.text };
        }
    }
}

/// The text that a call is lent, and one byte more where that is planted.
unsafe fn text_part<'a>(call: Call, text: *const u8, length: usize) -> (&'a [u8], Changing) {
    let lent = text.cast_mut();
    stray(call, Thing::Text, lent, length);
    let read = if planted(Fault::Overread) && length > 0 { length + 1 } else { length };
    (part(text, read), Changing { call, text: lent, length })
}

unsafe fn part<'a>(pointer: *const u8, length: usize) -> &'a [u8] {
    if length == 0 {
        return &[];
    }
    slice::from_raw_parts(pointer, length)
}

unsafe fn part_mut<'a>(pointer: *mut u8, length: usize) -> &'a mut [u8] {
    if length == 0 {
        return &mut [];
    }
    slice::from_raw_parts_mut(pointer, length)
}

/// The place at which a call arrives that began at another: the start moves where the line did.
fn located(text: &[u8], from: TextLocation, place: Place) -> TextLocation {
    let Place { byte, line, column } = place;
    let moved = line > from.line;
    let mut start = if moved { byte - column } else { from.start };
    if planted(Fault::StartKept) {
        start = from.start;
    }
    if planted(Fault::StartEarly) && moved {
        start -= 1;
    }
    if planted(Fault::StartAtCall) && !moved {
        start = from.byte;
    }
    if planted(Fault::StartOfCall) && moved {
        start -= from.byte;
    }
    if planted(Fault::StartLookedUp) {
        let newline = text[..byte as usize].iter().rposition(|&b| b == b'\n');
        start = newline.map_or(0, |at| at as u64 + 1);
    }
    TextLocation { byte, line, column, start }
}

fn tell(report: &mut [u64], place: TextLocation) {
    report[..3].copy_from_slice(&[place.byte, place.line, place.column]);
    if !planted(Fault::StartUntold) {
        report[8] = place.start;
    }
    if planted(Fault::Reserved) {
        report[9] = place.start;
    }
}

fn tell_header(report: &mut [u64], hotspot: &mut [i32], header: Header) {
    report[3] = header.width.into();
    report[4] = header.height.into();
    if let Some((x, y)) = header.hotspot {
        report[6] = 1;
        hotspot.copy_from_slice(&[x, y]);
    }
}

fn refuse(
    call: Call,
    report: &mut [u64],
    text: &[u8],
    from: TextLocation,
    refusal: Refusal,
) -> u32 {
    if let Some(place) = refusal.place {
        let mut place = located(text, from, place);
        if planted(Fault::Column) && refusal.number == 7 {
            place.column += 1;
        }
        let last = place.byte.checked_sub(1).map(|at| text[at as usize]);
        if planted(Fault::Line) && last == Some(b'\n') && refusal.number == 2 {
            place.line -= 1;
        }
        if planted(Fault::StartStale) && refusal.number >= 6 {
            place.start = from.start;
        }
        tell(report, place);
    }
    our_number(call, text, refusal.number)
}

/// Our number for one of the original's: of an integer it tells the fault.
fn our_number(call: Call, text: &[u8], original: u32) -> u32 {
    let mixed = |how| planted(Fault::Integer(how));
    let Some(line) = integers::line(original) else {
        return original;
    };
    if mixed(Mixed::OneNumber(call)) {
        return original;
    }
    let token = integers::token(text, line).expect("a line that the original has read");
    let negative = token.starts_with(b"-") && (line > 1 || mixed(Mixed::SignOfSide));
    let part = &token[usize::from(negative)..];
    let is_digit = |b: &u8| match b {
        b'0'..=b'9' => true,
        b':' => mixed(Mixed::Colon),
        128.. => mixed(Mixed::HighByte),
        _ => false,
    };
    let digits = part.iter().take_while(|b| is_digit(b)).count();
    let zero = match part {
        [] | [b'0'] => false,
        [b'0', ..] if negative && mixed(Mixed::ZeroAfterSign) => false,
        [b'0', b'-', ..] if mixed(Mixed::ZeroBeforeSign) => false,
        [b'0', after, ..] => !mixed(Mixed::ZeroBeforeDigit) || is_digit(after),
        _ => false,
    };
    let other_byte = digits < part.len();
    // Where a byte that is no digit is not looked for any more.
    let stops = mixed(Mixed::StopsAtOverflow)
        || mixed(Mixed::StopsBeforeTheLast) && token.len() == 11 && digits + 1 == part.len();
    let overflow = part[..digits].iter().fold(0, |n, &b| 10 * n + u64::from(b & 15)) >> 32 > 0;
    let fault = if part.is_empty() {
        let missed = mixed(Mixed::Nothing) || negative && mixed(Mixed::SignAlone);
        [NOTHING_THERE, NO_DIGIT][usize::from(missed)]
    } else if zero && !(other_byte && mixed(Mixed::DigitsFirst)) {
        LEADING_ZERO
    } else if other_byte && !(stops && overflow) || negative && mixed(Mixed::TooSmall) {
        NO_DIGIT
    } else if negative && mixed(Mixed::FifthNumber) {
        5
    } else {
        OUT_OF_RANGE
    };
    let told_of = if mixed(Mixed::OtherLine) { original.min(13) } else { original };
    10 * told_of + fault
}

/// Report and hotspot, all entries 0.
unsafe fn cleared<'a>(report: *mut u64, hotspot: *mut i32) -> (&'a mut [u64], &'a mut [i32]) {
    let report = slice::from_raw_parts_mut(report, ENTRIES);
    for (i, entry) in report.iter_mut().enumerate() {
        if !planted(Fault::Unwritten(i)) {
            *entry = 0;
        }
    }
    let hotspot = slice::from_raw_parts_mut(hotspot, 2);
    hotspot.fill(0);
    (report, hotspot)
}

unsafe extern "C" fn read_header(
    text: *const u8,
    text_len: usize,
    name: *mut u8,
    name_len: usize,
    report: *mut u64,
    hotspot: *mut i32,
) -> u32 {
    const CALL: Call = Call::ReadHeader;
    stray(CALL, Thing::Name, name, name_len);
    stray(CALL, Thing::Report, report, ENTRIES);
    stray(CALL, Thing::Hotspot, hotspot, 2);
    let (text, _changing) = text_part(CALL, text, text_len);
    let name = part_mut(name, name_len);
    let (report, hotspot) = cleared(report, hotspot);
    let last = name.last().copied();
    match oracle::read_header(text, name) {
        Ok(read) => {
            if planted(Fault::WidestRefused) && read.header.width == u32::MAX {
                return 114;
            }
            tell(report, located(text, TextLocation::START, read.place));
            tell_header(report, hotspot, read.header);
            report[5] = read.name_length as u64;
            if planted(Fault::LongName) && read.name_length > 270 {
                report[5] -= 1;
            }
            let after_preamble = text.windows(2).take(60_000).all(|pair| pair != b"\n#");
            if planted(Fault::LongPreamble) && text[0] != b'#' && after_preamble {
                report[1] -= 1;
            }
            0
        }
        Err(refusal) => {
            if planted(Fault::NameByte) && refusal.place.is_some_and(|p| p.byte == 264) {
                *name.last_mut().unwrap() = last.unwrap();
            }
            refuse(CALL, report, text, TextLocation::START, refusal)
        }
    }
}

unsafe extern "C" fn next_byte(
    text: *const u8,
    text_len: usize,
    decoder: *mut StreamDecoder,
    report: *mut u64,
) -> u32 {
    const CALL: Call = Call::NextByte;
    stray(CALL, Thing::Decoder, decoder, 1);
    stray(CALL, Thing::Report, report, ENTRIES);
    let (text, _changing) = text_part(CALL, text, text_len);
    let decoder = &mut *decoder;
    let (report, _) = cleared(report, [0; 2].as_mut_ptr());
    let StreamDecoder { width, height, current_position, location } = *decoder;
    let data = u64::from(width.div_ceil(8)) * u64::from(height);
    let past_column = location.column > location.byte && !planted(Fault::ForeignMissed);
    let foreign = width == 0
        || height == 0
        || current_position > data
        || location.byte > text_len as u64
        || past_column
        || location.line > location.byte + 1
        || foreign_start(location);
    if foreign {
        if planted(Fault::ForeignChanged) {
            decoder.current_position = 0;
        }
        if planted(Fault::ForeignStartChanged) {
            decoder.location.start = location.byte.wrapping_sub(location.column);
        }
        return 9;
    }
    let mut original = Decoder::lent(text, width, height, current_position, location.place());
    let read = original.next_byte();
    let kept = planted(Fault::Position) && read.is_err();
    decoder.current_position = if kept { current_position } else { original.position() };
    let later = located(text, location, original.place());
    decoder.location = later;
    if planted(Fault::StartLost) {
        decoder.location.start = 0;
    }
    if planted(Fault::StartLeft) {
        decoder.location.start = location.start;
    }
    match read {
        Ok(byte) => {
            tell(report, later);
            report[7] = byte.map_or(256, u64::from);
            0
        }
        Err(refusal) => refuse(CALL, report, text, location, refusal),
    }
}

/// Whether the start is not the byte less the column, by numbers that wrap around.
fn foreign_start(location: TextLocation) -> bool {
    let TextLocation { byte, column, start, .. } = location;
    let right = byte.wrapping_sub(column);
    let unseen = match PLANTED.get() {
        Some(Fault::ForeignStart(unseen)) => match unseen {
            Unseen::All => true,
            Unseen::UpToByte => start <= byte,
            Unseen::AboveByte => start > byte,
            Unseen::Zero => start == 0 && column == 0 && byte > 1,
            Unseen::Largest => start == u64::MAX && right > 0,
            Unseen::OneTooFew => right.checked_sub(1) == Some(start) && column > 0,
            Unseen::OneTooMany => right.checked_add(1) == Some(start) && column > 1,
        },
        _ => false,
    };
    start != right && !unseen
}

unsafe extern "C" fn read_image(
    text: *const u8,
    text_len: usize,
    name: *mut u8,
    name_len: usize,
    pixels: *mut u8,
    pixels_len: usize,
    report: *mut u64,
    hotspot: *mut i32,
) -> u32 {
    const CALL: Call = Call::ReadImage;
    stray(CALL, Thing::Name, name, name_len);
    stray(CALL, Thing::Pixels, pixels, pixels_len);
    stray(CALL, Thing::Report, report, ENTRIES);
    stray(CALL, Thing::Hotspot, hotspot, 2);
    let (text, _changing) = text_part(CALL, text, text_len);
    let name = part_mut(name, name_len);
    let (report, hotspot) = cleared(report, hotspot);
    let pixels = part_mut(pixels, pixels_len);
    let lent = pixels.to_vec();
    let mut scratch = vec![0; name_len];
    let read = oracle::read_header(text, name);
    report[5] = read.map_or(0, |read| read.name_length as u64);
    if let (Ok(read), true) = (read, planted(Fault::EarlyMismatch)) {
        let exact = u64::from(read.header.width) * u64::from(read.header.height);
        if pixels_len as u64 / u64::from(read.header.width) != u64::from(read.header.height) {
            assert_ne!(pixels_len as u64, exact);
            return 31;
        }
    }
    let answer = oracle::read_image_naming(text, &mut scratch, pixels);
    match answer {
        Ok(header) => {
            let width = header.width as usize;
            spoil(text, pixels, &lent, width);
            tell_header(report, hotspot, header);
            if let (Ok(read), true) = (read, planted(Fault::StartWithoutPlace)) {
                report[8] = read.place.byte - read.place.column;
            }
            0
        }
        Err(refusal) => {
            if planted(Fault::NameTakenBack) {
                report[5] = 0;
            }
            if let (Ok(Some((x, y))), true) =
                (read.map(|r| r.header.hotspot), planted(Fault::Hotspot))
            {
                hotspot.copy_from_slice(&[x, y]);
            }
            refuse(CALL, report, text, TextLocation::START, refusal)
        }
    }
}

/// Plants the faults that touch the cells of an accepted picture.
fn spoil(text: &[u8], pixels: &mut [u8], lent: &[u8], width: usize) {
    let whole = pixels.len() / width * width;
    let wrong_cell = planted(Fault::LongText) && text.len() > 60_000
        || planted(Fault::Wide) && width > 2_000
        || planted(Fault::Tabs) && text.windows(4).filter(|w| w == b",\t0x").count() > 100;
    if wrong_cell {
        pixels[whole - 1] = !pixels[whole - 1];
    }
    if planted(Fault::Cell) && width % 8 == 1 {
        pixels[width - 1] = lent[width - 1];
    }
    if planted(Fault::Remainder) {
        pixels[whole..].fill(255);
    }
    if planted(Fault::Bits) && width.is_multiple_of(8) {
        pixels[..whole].chunks_mut(8).for_each(|byte| byte.reverse());
    }
}

unsafe extern "C" fn write(
    name: *const u8,
    name_len: usize,
    width: u32,
    height: u32,
    has_hotspot: u32,
    x: i32,
    y: i32,
    cells: *const u8,
    cells_len: usize,
    out: *mut u8,
    out_len: usize,
    length: *mut u64,
) -> u32 {
    const CALL: Call = Call::Write;
    stray(CALL, Thing::Name, name.cast_mut(), name_len);
    stray(CALL, Thing::Cells, cells.cast_mut(), cells_len);
    stray(CALL, Thing::Output, out, out_len);
    stray(CALL, Thing::Length, length, 1);
    let slip = |slip| planted(Fault::Written(slip));
    let mask = Picture {
        name: part(name, name_len).to_vec(),
        width,
        height,
        has_hotspot: if slip(Slip::FlagOfOne) { u32::from(has_hotspot == 1) } else { has_hotspot },
        hotspot: if slip(Slip::SpotTurned) { [y, x] } else { [x, y] },
        cells: part(cells, cells_len).to_vec(),
    };
    for (changes, lent, lent_length) in
        [(Slip::NameChanged, name, name_len), (Slip::CellChanged, cells, cells_len)]
    {
        if slip(changes) && lent_length > 0 {
            *lent.cast_mut() = !*lent;
        }
    }
    let out = part_mut(out, out_len);
    match mask_written(&mask, out) {
        Ok(size) => {
            *length = size as u64;
            0
        }
        Err(number) => {
            if !slip(Slip::LengthKept) {
                *length = 0;
            }
            number
        }
    }
}

/// The text's length, or the number of the refusal.
fn mask_written(mask: &Picture, out: &mut [u8]) -> Result<usize, u32> {
    let slip = |slip| planted(Fault::Written(slip));
    match fault(mask) {
        Some(number) => return Err(number),
        None if mask.fault().is_some() && !slip(Slip::Grey) => return Ok(0),
        None => {}
    }
    let mut mask = mask.clone();
    if slip(Slip::Bits) && mask.width.is_multiple_of(8) {
        mask.cells.chunks_mut(8).for_each(|unit| unit.reverse());
    }
    let mut text = mask.text();
    let end = text.len() - "};\n".len();
    if slip(Slip::Padding) && !mask.width.is_multiple_of(8) {
        let digit = text[end - 2];
        text[end - 2] = [digit, b'8'][usize::from(digit == b'0')];
    }
    if slip(Slip::Capitals) {
        text[end - 1].make_ascii_uppercase();
    }
    if slip(Slip::LineAfterTheLast) && mask.data().len().is_multiple_of(12) {
        text.splice(end..end, *b",\n   ");
    }
    if text.len() + usize::from(slip(Slip::Exact)) > out.len() {
        if slip(Slip::Filled) {
            out.copy_from_slice(&text[..out.len()]);
        }
        return Err(55);
    }
    out[..text.len()].copy_from_slice(&text);
    if slip(Slip::Cleared) {
        out[text.len()..].fill(0);
    }
    Ok(text.len())
}

/// What is wrong with a mask; some of it unseen, or seen too early, where that is planted.
fn fault(mask: &Picture) -> Option<u32> {
    let slip = |slip| planted(Fault::Written(slip));
    let Picture { name, width, height, cells, .. } = mask;
    let counted = cells.len() as u64 == u64::from(*width) * u64::from(*height);
    let wrapped = cells.len() as u32 == width.wrapping_mul(*height);
    let grey = cells.iter().any(|cell| ![0, 255].contains(cell));
    match mask.fault() {
        None if slip(Slip::ShorterName) && name.len() == writing::LONGEST_NAME => Some(51),
        Some(51) if slip(Slip::LongerName) && name.len() == writing::LONGEST_NAME + 1 => None,
        Some(51) if slip(Slip::Tab) && name.contains(&b'\t') => None,
        Some(52) if slip(Slip::CellsFirst) && !counted => Some(53),
        Some(53) if slip(Slip::ValuesFirst) && grey => Some(54),
        Some(53) if slip(Slip::Product) && wrapped => None,
        Some(54) if slip(Slip::Grey) => None,
        right => right,
    }
}
