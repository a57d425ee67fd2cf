//! One call on both sides, with everything compared: answer, report, hotspot, whole buffers, decoder, and what
//! must stay as it was: the text, and the bytes beside each lent thing. What the original does not tell is taken off
//! first and held to the text: the start of a line, and which fault an integer has.

use crate::classes::Reached;
use crate::integers;
use crate::interface::{entry, Answer, Call, Interface, Stray, StreamDecoder, TextLocation};
use crate::interface::{Written, NONE_LEFT, NO_HOTSPOT_ENTRY};
use crate::random::Random;
use crate::starts::{self, Taken};
use crate::writing::Picture;
use oracle::{Decoder, Header, Place, Refusal, NAME_BUFFER_LENGTH};
use std::fmt::{Debug, Write};

/// What is printed where the two sides part.
pub type Difference = String;

/// Cells beside a lent buffer that no call may touch.
const GUARD: usize = 16;

/// The longest buffer that is ever lent.
pub const LONGEST_BUFFER: usize = 1 << 18;

/// So many bytes of a text are printed; the seed gives the rest again.
const SHOWN: usize = 4000;

/// The number that a foreign decoder gets. The original has none.
const FOREIGN: u32 = 9;

/// The entries of a report that the original has too: those before the start.
pub type OriginalReport = [u64; entry::START];

/// A report that tells nothing.
const NOTHING: OriginalReport = [0; entry::START];

/// What is compared with the original: an answer with its numbers and without the start.
impl Answer {
    pub fn as_original(self) -> Answer<OriginalReport> {
        let Answer { result, report, hotspot, stray } = self;
        let [report @ .., _start, _reserved] = report;
        Answer { result: integers::of_original(result), report, hotspot, stray }
    }
}

/// And a decoder without the start.
impl StreamDecoder {
    pub fn without_start(self) -> StreamDecoder<Place> {
        let StreamDecoder { width, height, current_position, location } = self;
        StreamDecoder { width, height, current_position, location: location.place() }
    }
}

/// A header that both sides accepted, and the decoder that ours gives after it.
#[derive(Clone, Copy)]
pub struct Accepted {
    pub header: Header,
    pub decoder: StreamDecoder,
}

/// A lent buffer between two guards, filled with bytes that differ from cell to cell.
#[derive(Default)]
struct Lent {
    bytes: Vec<u8>,
}

impl Lent {
    fn fill(&mut self, length: usize, filling: &[u8]) {
        self.bytes.clear();
        self.bytes.extend_from_slice(&filling[..length + 2 * GUARD]);
    }

    fn part(&mut self) -> &mut [u8] {
        let end = self.bytes.len() - GUARD;
        &mut self.bytes[GUARD..end]
    }

    /// Whether the guards are as in another that was filled alike.
    fn stray(&self, thing: &'static str, other: &Lent) -> Option<Stray> {
        let end = self.bytes.len() - GUARD;
        let before_kept = self.bytes[..GUARD] == other.bytes[..GUARD];
        Stray::found(thing, before_kept, self.bytes[end..] == other.bytes[end..])
    }
}

/// A text to be read, with the bytes that stand after it in memory: for a cut, what was cut off.
#[derive(Clone, Copy)]
pub struct Text<'t> {
    bytes: &'t [u8],
    rest: &'t [u8],
}

impl<'t> Text<'t> {
    /// The first `n` bytes of a whole.
    pub fn cut(whole: &'t [u8], n: usize) -> Text<'t> {
        let (bytes, rest) = whole.split_at(n);
        Text { bytes, rest }
    }

    pub fn bytes(&self) -> &'t [u8] {
        self.bytes
    }
}

impl<'t> From<&'t [u8]> for Text<'t> {
    fn from(bytes: &'t [u8]) -> Text<'t> {
        Text { bytes, rest: &[] }
    }
}

impl<'t> From<&'t Vec<u8>> for Text<'t> {
    fn from(bytes: &'t Vec<u8>) -> Text<'t> {
        bytes.as_slice().into()
    }
}

/// Stands after texts, from a start that goes round: a reader past the end would read on.
const TEMPTING: &[u8] = b", 0x5a, 0x5a};\n ,\n   0X5A,0x5a};\n  9\n#define d_height 1\n";

/// A copy of a text between two guards, the second of which begins with the text's rest.
#[derive(Default)]
struct LentText {
    bytes: Vec<u8>,
    length: usize,
    before: Vec<u8>,
    after: Vec<u8>,
}

impl LentText {
    fn fill(&mut self, text: Text, filling: &[u8], turn: usize) {
        self.length = text.bytes.len();
        self.before.clear();
        self.before.extend_from_slice(&filling[..GUARD]);
        self.after.clear();
        self.after.extend_from_slice(text.rest);
        self.after.extend(TEMPTING.iter().cycle().skip(turn % TEMPTING.len()).take(GUARD));
        self.bytes.clear();
        for part in [&self.before, text.bytes, &self.after] {
            self.bytes.extend_from_slice(part);
        }
    }

    fn part(&mut self) -> &mut [u8] {
        &mut self.bytes[GUARD..GUARD + self.length]
    }

    /// Whether the text is as it was lent.
    fn kept(&self, text: Text) -> bool {
        self.bytes[GUARD..GUARD + self.length] == *text.bytes
    }

    fn stray(&self) -> Option<Stray> {
        let before_kept = self.bytes.starts_with(&self.before);
        let after_kept = self.bytes[GUARD + self.length..] == self.after;
        Stray::found("text", before_kept, after_kept)
    }
}

/// The buffers that one side is lent.
#[derive(Default)]
struct Side {
    name: Lent,
    pixels: Lent,
    /// Where a text is written.
    out: Lent,
}

const CALLS: [(Call, &str); 4] = [
    (Call::ReadHeader, "read_header"),
    (Call::ReadImage, "read_image"),
    (Call::NextByte, "next_byte"),
    (Call::Write, "write"),
];

/// Accepted `next_byte` calls that gave no byte are counted apart, under a number that no refusal has.
const ACCEPTED_NONE: usize = 10;

/// And so are decoders that are foreign by their start alone.
const FOREIGN_START: usize = 15;

/// The numbers that each call can give, all of which a run must reach.
#[rustfmt::skip]
const REACHED: [&[usize]; CALLS.len()] = [
    &[
        0, 1, 2, 3, 4, 5, 21, 22,
        111, 112, 113, 114, 121, 122, 123, 124, 131, 132, 133, 134, 141, 142, 143, 144,
    ],
    &[
        0, 1, 2, 3, 4, 5, 6, 7, 8, 21, 22, 31,
        111, 112, 113, 114, 121, 122, 123, 124, 131, 132, 133, 134, 141, 142, 143, 144,
    ],
    &[0, 6, 7, 8, FOREIGN as usize, ACCEPTED_NONE, FOREIGN_START],
    &[0, 51, 52, 53, 54, 55],
];

/// No call gives a number as large as this.
const NUMBERS: usize = 145;

/// How often each call of ours gave each number.
#[derive(Clone)]
pub struct Tally {
    counts: [[u64; NUMBERS]; CALLS.len()],
}

impl Default for Tally {
    fn default() -> Tally {
        Tally { counts: [[0; NUMBERS]; CALLS.len()] }
    }
}

impl Tally {
    fn add(&mut self, call: Call, number: usize) {
        self.counts[call as usize][number] += 1;
    }

    pub fn total(&self) -> u64 {
        self.counts.iter().flatten().sum()
    }

    /// One line: every call with the numbers it gave and how often.
    pub fn summary(&self) -> String {
        let mut line = format!("{} comparisons", self.total());
        for (call, name) in CALLS {
            write!(line, "; {name}").unwrap();
            for (number, count) in self.counts[call as usize].iter().enumerate() {
                if *count > 0 {
                    write!(line, " {}:{count}", label(call, number)).unwrap();
                }
            }
        }
        line
    }

    /// The numbers that the calls can give and that no text led to.
    pub fn unreached(&self) -> Vec<String> {
        let mut out = Vec::new();
        for ((call, name), numbers) in CALLS.into_iter().zip(REACHED) {
            for &number in numbers {
                if self.counts[call as usize][number] == 0 {
                    out.push(format!("{name} {}", label(call, number)));
                }
            }
        }
        out
    }
}

fn label(call: Call, number: usize) -> String {
    match (call, number) {
        (Call::NextByte, 0) => "byte".into(),
        (_, 0) => "accepted".into(),
        (_, ACCEPTED_NONE) => "none".into(),
        (_, FOREIGN_START) => "9 by the start alone".into(),
        _ => number.to_string(),
    }
}

pub struct Comparison<'i> {
    interface: &'i Interface,
    /// The text that ours is lent. The original cannot write to its own.
    text: LentText,
    original: Side,
    ours: Side,
    /// Bytes from which fillings are cut; none is 0 or 255, so that a written cell shows.
    fillings: Vec<u8>,
    /// Where the next filling begins.
    next_filling: usize,
    /// What ours gave to the last header or image.
    pub last_number: u32,
    pub tally: Tally,
    pub reached: Reached,
}

impl<'i> Comparison<'i> {
    pub fn new(interface: &'i Interface) -> Comparison<'i> {
        let mut random = Random::new(0);
        let length = LONGEST_BUFFER + 2 * GUARD + FILLINGS;
        Comparison {
            interface,
            text: LentText::default(),
            original: Side::default(),
            ours: Side::default(),
            fillings: (0..length).map(|_| random.within(1, 254) as u8).collect(),
            next_filling: 0,
            last_number: 0,
            tally: Tally::default(),
            reached: Reached::default(),
        }
    }

    fn fill(&mut self, text: Text, name_length: usize, pixel_length: usize) {
        self.next_filling = (self.next_filling + 1) % FILLINGS;
        let filling = &self.fillings[self.next_filling..];
        self.text.fill(text, filling, self.next_filling);
        for side in [&mut self.original, &mut self.ours] {
            side.name.fill(name_length, filling);
            side.pixels.fill(pixel_length, filling);
        }
    }

    /// `read_header` beside `read_xbm_header` with the same name buffer. Gives what was accepted.
    pub fn read_header<'t>(
        &mut self,
        text: impl Into<Text<'t>>,
        name_length: usize,
    ) -> Result<Option<Accepted>, Difference> {
        let text = text.into();
        self.fill(text, name_length, 0);
        let read = oracle::read_header(text.bytes, self.original.name.part());
        let ours = self.interface.read_header(self.text.part(), self.ours.name.part());
        let expected = match read {
            Ok(read) => Answer {
                report: with_place(header_report(&read.header, read.name_length), read.place),
                ..accepted_header(&read.header)
            },
            Err(refusal) => refused(&refusal),
        };
        self.settle(Call::ReadHeader, text, expected, ours)?;
        Ok(read.ok().map(|read| Accepted { header: read.header, decoder: ours.decoder() }))
    }

    /// `read_image` beside the original's two calls.
    pub fn read_image<'t>(
        &mut self,
        text: impl Into<Text<'t>>,
        name_length: usize,
        pixel_length: usize,
    ) -> Result<(), Difference> {
        let text = text.into();
        let expected = self.image(text, name_length, pixel_length)?;
        self.reached.add(text.bytes, name_length, &expected);
        Ok(())
    }

    fn image(
        &mut self,
        text: Text,
        name_length: usize,
        pixel_length: usize,
    ) -> Result<Answer<OriginalReport>, Difference> {
        self.fill(text, name_length, pixel_length);
        let original = &mut self.original;
        let expected = original_image(text.bytes, original.name.part(), original.pixels.part());
        let (lent, side) = (self.text.part(), &mut self.ours);
        let ours = self.interface.read_image(lent, side.name.part(), side.pixels.part());
        self.settle(Call::ReadImage, text, expected, ours)?;
        Ok(expected)
    }

    /// Calls of `next_byte` with the decoder that a header of this text gave.
    pub fn next_bytes_after<'t>(
        &mut self,
        text: impl Into<Text<'t>>,
        header: Accepted,
        calls: usize,
    ) -> Result<(), Difference> {
        self.follow(text.into(), header.decoder, Taken::FROM_THE_FIRST, calls)
    }

    /// Calls of `next_byte` with any decoder.
    pub fn next_bytes<'t>(
        &mut self,
        text: impl Into<Text<'t>>,
        decoder: StreamDecoder,
        calls: usize,
    ) -> Result<(), Difference> {
        self.follow(text.into(), decoder, Taken::after(&decoder), calls)
    }

    /// Up to `calls` calls of `next_byte` in a row, on the decoder as the last one left it.
    /// A few calls follow the first that gives no byte.
    fn follow(
        &mut self,
        text: Text,
        decoder: StreamDecoder,
        taken: Taken,
        calls: usize,
    ) -> Result<(), Difference> {
        self.fill(text, 0, 0);
        if foreign(text.bytes, &decoder) {
            return self.next_byte_foreign(text, decoder);
        }
        let StreamDecoder { width, height, current_position, location } = decoder.without_start();
        let mut original = Decoder::lent(text.bytes, width, height, current_position, location);
        let mut ours = decoder;
        let mut left = calls;
        while left > 0 {
            left -= 1;
            let before = ours;
            let read = original.next_byte();
            let answer = self.interface.next_byte(self.text.part(), &mut ours);
            let later = StreamDecoder {
                width: original.header().width,
                height: original.header().height,
                current_position: original.position(),
                location: original.place(),
            };
            let expected = match read {
                Ok(byte) => {
                    let mut report = with_place(NOTHING, later.location);
                    report[entry::DATA_BYTE] = byte.map_or(NONE_LEFT, u64::from);
                    Answer { result: 0, report, hotspot: NO_HOTSPOT_ENTRY, stray: None }
                }
                Err(refusal) => Answer { hotspot: NO_HOTSPOT_ENTRY, ..refused(&refusal) },
            };
            if !matches!(read, Ok(Some(_))) {
                left = left.min(CALLS_AFTER_THE_LAST_BYTE);
            }
            let wrong = starts::wrong(Call::NextByte, text.bytes, taken, &answer, Some(&ours));
            self.settle_decoder(text, before, (expected, later), (answer, ours), wrong)?;
            let none = expected.report[entry::DATA_BYTE] == NONE_LEFT;
            let number = if none { ACCEPTED_NONE } else { expected.result as usize };
            self.tally.add(Call::NextByte, number);
        }
        Ok(())
    }

    /// A foreign decoder gets 9 and stays as it is.
    fn next_byte_foreign(&mut self, text: Text, lent: StreamDecoder) -> Result<(), Difference> {
        let mut ours = lent;
        let answer = self.interface.next_byte(self.text.part(), &mut ours);
        let expected =
            Answer { result: FOREIGN, report: NOTHING, hotspot: NO_HOTSPOT_ENTRY, stray: None };
        let wrong = starts::wrong_foreign(&answer, &lent, &ours);
        let later = lent.without_start();
        self.settle_decoder(text, lent, (expected, later), (answer, ours), wrong)?;
        let by_start = !foreign_without_start(text.bytes, &later);
        self.tally.add(Call::NextByte, if by_start { FOREIGN_START } else { FOREIGN as usize });
        Ok(())
    }

    /// `write` beside the number, the length and the text that it must give. What is written is then read by the
    /// original and by ours.
    pub fn write(&mut self, mask: &Picture, out_length: usize) -> Result<(), Difference> {
        self.next_filling = (self.next_filling + 1) % FILLINGS;
        let filling = &self.fillings[self.next_filling..];
        for side in [&mut self.original, &mut self.ours] {
            side.name.fill(mask.name.len(), filling);
            side.name.part().copy_from_slice(&mask.name);
            side.pixels.fill(mask.cells.len(), filling);
            side.pixels.part().copy_from_slice(&mask.cells);
            side.out.fill(out_length, filling);
        }
        let text = mask.fault().map_or_else(|| Ok(mask.text()), Err);
        let text = text.and_then(|text| if text.len() > out_length { Err(55) } else { Ok(text) });
        let expected = match &text {
            Ok(text) => {
                self.original.out.part()[..text.len()].copy_from_slice(text);
                Written { result: 0, length: text.len() as u64, stray: None }
            }
            Err(number) => Written { result: *number, length: 0, stray: None },
        };
        let Side { name, pixels, out } = &mut self.ours;
        let mut ours = self.interface.write(mask, name.part(), pixels.part(), out.part());
        let mut changed = String::new();
        for (thing, lent, later) in [
            ("name", &self.original.name, &self.ours.name),
            ("cells", &self.original.pixels, &self.ours.pixels),
            ("output", &self.original.out, &self.ours.out),
        ] {
            ours.stray = ours.stray.or(later.stray(thing, lent));
            let pairs = lent.bytes.iter().zip(&later.bytes);
            for (i, (a, b)) in pairs.enumerate().filter(|(_, (a, b))| a != b).take(8) {
                let at = i as i64 - GUARD as i64;
                writeln!(changed, "byte {at} of the {thing}: expected {a}, ours {b}").unwrap();
            }
        }
        if expected != ours || !changed.is_empty() {
            let stray = ours.stray.map_or(String::new(), |stray| format!("ours {stray}\n"));
            return Err(format!(
                "write differs with an output of {out_length} bytes on {}{changed}{stray}\
                 expected: result {}, length {}\nours:     result {}, length {}\n",
                shown(mask),
                expected.result,
                expected.length,
                ours.result,
                ours.length
            ));
        }
        self.tally.add(Call::Write, ours.result as usize);
        text.map_or(Ok(()), |text| self.read_again(mask, &text))
    }

    /// What was written of a mask yields it again, on both sides. It is no drawn text: it counts for no class.
    fn read_again(&mut self, mask: &Picture, text: &[u8]) -> Result<(), Difference> {
        let header = self.read_header(text, NAME_BUFFER_LENGTH)?.map(|read| read.header);
        let answer = self.image(text.into(), NAME_BUFFER_LENGTH, mask.cells.len())?;
        let Picture { name, width, height, cells, .. } = mask;
        let kept = [&mut self.original, &mut self.ours].into_iter().all(|side| {
            side.name.part().starts_with(name) && side.pixels.part() == cells.as_slice()
        });
        let wanted = Header { width: *width, height: *height, hotspot: mask.spot() };
        let told =
            Answer { report: header_report(&wanted, name.len()), ..accepted_header(&wanted) };
        if kept && header == Some(wanted) && answer == told {
            return Ok(());
        }
        let text = text.escape_ascii();
        Err(format!("read again as another mask: \"{text}\"\nwritten of {}", shown(mask)))
    }

    fn settle(
        &mut self,
        call: Call,
        text: Text,
        expected: Answer<OriginalReport>,
        mut ours: Answer,
    ) -> Result<(), Difference> {
        let wrong_start = starts::wrong(call, text.bytes, Taken::FROM_THE_FIRST, &ours, None);
        let wrong_fault = integers::wrong(text.bytes, expected.result, ours.result);
        let wrong = wrong_fault.or(wrong_start);
        let (original, side) = (&self.original, &self.ours);
        ours.stray = ours.stray.or(side.name.stray("name buffer", &original.name));
        ours.stray = ours.stray.or(side.pixels.stray("pixel buffer", &original.pixels));
        ours.stray = ours.stray.or(self.text.stray());
        let buffers_agree =
            original.name.bytes == side.name.bytes && original.pixels.bytes == side.pixels.bytes;
        let answers_agree = expected == ours.as_original() && wrong.is_none();
        if answers_agree && buffers_agree && self.text.kept(text) {
            self.last_number = ours.result;
            self.tally.add(call, ours.result as usize);
            return Ok(());
        }
        let mut out = self.heading(CALLS[call as usize].1, text);
        let filling = &self.fillings[self.next_filling..];
        let sides = [
            ("name", &self.original.name, &self.ours.name),
            ("pixel", &self.original.pixels, &self.ours.pixels),
        ];
        for (buffer, original, ours) in sides {
            let length = original.bytes.len() - 2 * GUARD;
            writeln!(out, "{buffer} buffer lent: {length} cells").unwrap();
            let pairs = original.bytes.iter().zip(&ours.bytes);
            for (i, (a, b)) in pairs.enumerate().filter(|(_, (a, b))| a != b).take(8) {
                let cell = i as i64 - GUARD as i64;
                let lent = filling[i];
                writeln!(out, "  {buffer} cell {cell}: expected {a}, ours {b}, lent {lent}")
                    .unwrap();
            }
        }
        write_answers(&mut out, &expected, &ours, wrong);
        Err(out)
    }

    fn settle_decoder(
        &mut self,
        text: Text,
        lent: StreamDecoder,
        expected: (Answer<OriginalReport>, StreamDecoder<Place>),
        mut ours: (Answer, StreamDecoder),
        wrong_start: Option<String>,
    ) -> Result<(), Difference> {
        ours.0.stray = ours.0.stray.or(self.text.stray());
        let compared = (ours.0.as_original(), ours.1.without_start());
        if expected == compared && wrong_start.is_none() && self.text.kept(text) {
            return Ok(());
        }
        let mut out = self.heading("next_byte", text);
        writeln!(out, "decoder lent:   {lent:?}").unwrap();
        writeln!(out, "expected later: {:?}", expected.1).unwrap();
        writeln!(out, "ours later:     {:?}", ours.1).unwrap();
        write_answers(&mut out, &expected.0, &ours.0, wrong_start);
        Err(out)
    }

    /// The call and its text, and what became of the text if it changed.
    fn heading(&self, call: &str, text: Text) -> String {
        let length = text.bytes.len();
        let shown = &text.bytes[..length.min(SHOWN)];
        let mut out = format!("{call} differs on this text of {length} bytes:\n");
        let more = if shown.len() < length { " and more" } else { "" };
        writeln!(out, "\"{}\"{more}", shown.escape_ascii()).unwrap();
        let pairs = text.bytes.iter().zip(&self.text.bytes[GUARD..]);
        for (i, (a, b)) in pairs.enumerate().filter(|(_, (a, b))| a != b).take(8) {
            writeln!(out, "ours changed byte {i} of the text from {a} to {b}").unwrap();
        }
        out
    }
}

/// A mask as it was lent, on one line.
fn shown(mask: &Picture) -> String {
    let Picture { name, width, height, has_hotspot, hotspot, cells } = mask;
    let more = if cells.len() > SHOWN { " and more" } else { "" };
    let some = &cells[..cells.len().min(SHOWN)];
    format!(
        "a mask \"{}\" of {width} by {height}, hotspot {has_hotspot} {hotspot:?}, {} cells {some:?}{more}\n",
        name.escape_ascii(),
        cells.len()
    )
}

/// How many fillings differ from each other.
const FILLINGS: usize = 1024;

/// The longest name buffer that is ever lent.
pub const LONGEST_NAME: usize = 400;

/// Calls made after one that gave no byte: a refusal or the trailer.
const CALLS_AFTER_THE_LAST_BYTE: usize = 3;

/// Document 01's foreign decoder, and one whose start is not its byte less its column.
fn foreign(text: &[u8], decoder: &StreamDecoder) -> bool {
    let TextLocation { byte, column, start, .. } = decoder.location;
    foreign_without_start(text, &decoder.without_start()) || byte.checked_sub(column) != Some(start)
}

/// Document 01's foreign decoder, on numbers wide enough for any sum.
fn foreign_without_start(text: &[u8], decoder: &StreamDecoder<Place>) -> bool {
    let Place { byte, line, column } = decoder.location;
    decoder.width == 0
        || decoder.height == 0
        || u128::from(decoder.current_position) > data_size(decoder.width, decoder.height)
        || byte > text.len() as u64
        || column > byte
        || u128::from(line) > u128::from(byte) + 1
}

/// All data bytes of a picture.
pub fn data_size(width: u32, height: u32) -> u128 {
    u128::from(width.div_ceil(8)) * u128::from(height)
}

/// The original's two calls, as our one call tells them. The name is as `read_xbm_header` leaves it.
pub fn original_image(text: &[u8], name: &mut [u8], pixels: &mut [u8]) -> Answer<OriginalReport> {
    let read = oracle::read_header(text, name);
    let answer = if name.len() == NAME_BUFFER_LENGTH {
        oracle::read_image(text, pixels)
    } else {
        oracle::read_image_naming(text, &mut [0; LONGEST_NAME][..name.len()], pixels)
    };
    // Only a refused header takes the name back.
    let named = read.map_or(0, |read| read.name_length);
    match answer {
        Ok(header) => Answer { report: header_report(&header, named), ..accepted_header(&header) },
        Err(refusal) => {
            let mut expected = refused(&refusal);
            expected.report[entry::NAME_LENGTH] = named as u64;
            expected
        }
    }
}

fn accepted_header(header: &Header) -> Answer<OriginalReport> {
    let (x, y) = header.hotspot.unwrap_or((0, 0));
    Answer { result: 0, report: NOTHING, hotspot: [x, y], stray: None }
}

fn header_report(header: &Header, name_length: usize) -> OriginalReport {
    let mut report = NOTHING;
    report[entry::WIDTH] = header.width.into();
    report[entry::HEIGHT] = header.height.into();
    report[entry::NAME_LENGTH] = name_length as u64;
    report[entry::HAS_HOTSPOT] = header.hotspot.is_some().into();
    report
}

fn with_place(mut report: OriginalReport, place: Place) -> OriginalReport {
    report[entry::BYTE] = place.byte;
    report[entry::LINE] = place.line;
    report[entry::COLUMN] = place.column;
    report
}

fn refused(refusal: &Refusal) -> Answer<OriginalReport> {
    let report = refusal.place.map_or(NOTHING, |place| with_place(NOTHING, place));
    Answer { result: refusal.number, report, hotspot: [0, 0], stray: None }
}

fn write_answers(
    out: &mut String,
    expected: &Answer<OriginalReport>,
    ours: &Answer,
    wrong: Option<String>,
) {
    writeln!(out, "expected: {}", told(expected)).unwrap();
    writeln!(out, "ours:     {}", told(ours)).unwrap();
    let counted = integers::of_original(ours.result);
    if integers::line(counted).is_some() {
        writeln!(out, "ours:     {} counts as the original's {counted}", ours.result).unwrap();
    }
    if let Some(wrong) = wrong {
        writeln!(out, "ours:     {wrong}").unwrap();
    }
}

fn told<R: Debug>(answer: &Answer<R>) -> String {
    let Answer { result, report, hotspot, stray } = answer;
    let stray = stray.map_or(String::new(), |stray| format!(", {stray}"));
    format!("result {result}, report {report:?}, hotspot {hotspot:?}{stray}")
}
