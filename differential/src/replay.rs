//! The stored list of the original's answers, which `crates/replay` replays where there is no Rust.
//! `docs/REPLAY.md` tells its format.

use crate::comparison::{original_image, OriginalReport};
use crate::interface::{entry, Answer};
use crate::random::Random;
use crate::texts::{self, Layout, Mask, TELLING, TOKENS};
use crate::trials::{drawn_text, lengths, nth_newline, words, SOUND};
use oracle::{Header, NAME_BUFFER_LENGTH};
use std::fmt::Write;
use std::iter;

/// The folder of the replaying program, and in it the list and what the program is to print.
pub const PROGRAM: &str = concat!(env!("CARGO_MANIFEST_DIR"), "/../crates/replay");
pub const ANSWERS: &str = "data/answers.bin";
pub const SUMMARY: &str = "stdout";

/// The seed of the stored list.
const SEED: u64 = 20_260_925;

/// What a list begins with; the count of its cases follows.
const MAGIC: &[u8; 8] = b"xbm list";

/// The numbers of a record, four bytes each.
const RECORD: usize = 15;

/// The longest text and the longest pixel buffer, for which the replaying program has room.
const ROOM: usize = 4096;

/// The longest drawn text that the list takes up.
const LONGEST_DRAWN: usize = 800;

/// How many drawn texts the list takes up.
const DRAWN: usize = 900;

/// The numbers that the original gives.
const NUMBERS: [usize; 15] = [1, 2, 3, 4, 5, 6, 7, 8, 11, 12, 13, 14, 21, 22, 31];

/// What answers for a text, a name buffer and a pixel buffer. The list has the original's numbers, and no starts.
type Reader<'r> = &'r dyn Fn(&[u8], &mut [u8], &mut [u8]) -> Answer<OriginalReport>;

/// A list while it is made.
pub struct List<'r> {
    reader: Reader<'r>,
    /// The records so far, each with the text that it brings.
    records: Vec<u8>,
    /// The text that was brought last.
    text: Vec<u8>,
    /// How often each number was given; 0 is accepted.
    tally: [u32; 32],
}

impl<'r> List<'r> {
    fn new(reader: Reader<'r>) -> List<'r> {
        List { reader, records: Vec::new(), text: Vec::new(), tally: [0; 32] }
    }

    /// The list that is stored: the original's answers for all families.
    pub fn stored() -> List<'static> {
        List::of_families(&original_image)
    }

    fn of_families(reader: Reader<'r>) -> List<'r> {
        let mut families = Families { list: List::new(reader), random: Random::new(SEED) };
        families.all();
        families.list
    }

    /// The cases of a list, answered by the original as it is now.
    pub fn asked_again(bytes: &[u8]) -> Option<List<'static>> {
        let mut list = List::new(&original_image);
        for case in cases(bytes)? {
            list.add(&case.text, case.cells);
        }
        Some(list)
    }

    /// One case: a text and the length of the pixel buffer that is lent with it.
    fn add(&mut self, text: &[u8], cells: usize) {
        assert!(text.len() <= ROOM && cells <= ROOM);
        let mut name = lent(NAME_BUFFER_LENGTH);
        let mut pixels = lent(cells);
        let answer = (self.reader)(text, &mut name, &mut pixels);
        self.tally[answer.result as usize] += 1;

        let brought: &[u8] = if self.text.starts_with(text) { &[] } else { text };
        let Answer { result, report, hotspot: [x, y], .. } = answer;
        let short = |number: u64| u32::try_from(number).unwrap();
        // With 2^31 added, so that none is negative; 0 without a hotspot.
        let has_hotspot = report[entry::HAS_HOTSPOT] != 0;
        let raised = |z: i32| if has_hotspot { (i64::from(z) + (1 << 31)) as u32 } else { 0 };
        let record: [u32; RECORD] = [
            brought.len() as u32,
            text.len() as u32,
            cells as u32,
            result,
            short(report[entry::BYTE]),
            short(report[entry::LINE]),
            short(report[entry::COLUMN]),
            short(report[entry::WIDTH]),
            short(report[entry::HEIGHT]),
            short(report[entry::NAME_LENGTH]),
            short(report[entry::HAS_HOTSPOT]),
            raised(x),
            raised(y),
            sum(&name),
            sum(&pixels),
        ];
        self.records.extend(record.into_iter().flat_map(u32::to_le_bytes));
        self.records.extend_from_slice(brought);
        if !brought.is_empty() {
            self.text = brought.to_vec();
        }
    }

    /// The numbers that the original gives and no case has, 0 for accepted.
    pub fn unreached(&self) -> Vec<usize> {
        iter::once(0).chain(NUMBERS).filter(|&number| self.tally[number] == 0).collect()
    }

    pub fn cases(&self) -> u32 {
        self.tally.iter().sum()
    }

    fn opening(&self) -> Vec<u8> {
        [MAGIC.as_slice(), &self.cases().to_le_bytes()].concat()
    }

    /// The file.
    pub fn bytes(&self) -> Vec<u8> {
        [self.opening().as_slice(), &self.records].concat()
    }

    /// What the program prints that agrees in every case.
    pub fn summary(&self) -> String {
        let mut out = format!("{} cases, 0 differences\n", self.cases());
        writeln!(out, "accepted: {}", self.tally[0]).unwrap();
        for number in NUMBERS {
            writeln!(out, "refused {number}: {}", self.tally[number]).unwrap();
        }
        out
    }
}

/// What is lent in a case.
pub struct Case {
    pub text: Vec<u8>,
    pub cells: usize,
}

/// The cases of a list, if it is whole.
pub fn cases(bytes: &[u8]) -> Option<Vec<Case>> {
    let (_, mut rest) = bytes.split_at_checked(MAGIC.len() + 4)?;
    let mut text: &[u8] = &[];
    let mut cases = Vec::new();
    while !rest.is_empty() {
        let (record, after) = rest.split_at_checked(RECORD * 4)?;
        let number = |k: usize| u32::from_le_bytes(record[4 * k..][..4].try_into().unwrap());
        let (brought, after) = after.split_at_checked(number(0) as usize)?;
        if !brought.is_empty() {
            text = brought;
        }
        let text = text.get(..number(1) as usize)?.to_vec();
        let cells = number(2) as usize;
        if text.len() > ROOM || cells > ROOM {
            return None;
        }
        cases.push(Case { text, cells });
        rest = after;
    }
    Some(cases)
}

/// A buffer as it is lent: no cell is 0 or 255, so that a written one shows.
fn lent(length: usize) -> Vec<u8> {
    (0..length).map(|i| (i % 251 + 2) as u8).collect()
}

/// By which the later contents of a buffer are compared: its cells as digits to the base 257, modulo a prime.
fn sum(cells: &[u8]) -> u32 {
    let digits = cells.iter().map(|&cell| u64::from(cell));
    digits.fold(0, |sum, digit| (sum * 257 + digit) % 4_294_967_291) as u32
}

/// Makes the cases: fixed families at the limits first, then drawn texts.
struct Families<'r> {
    list: List<'r>,
    random: Random,
}

impl Families<'_> {
    fn all(&mut self) {
        self.masks();
        self.cuts();
        self.pixel_buffers();
        self.changes();
        self.integers();
        self.digits();
        self.symbols();
        self.preambles();
        self.separators();
        self.cells();
        self.drawn();
    }

    /// A text with the exact buffer, or a small one if its header is refused.
    fn exact(&mut self, text: &[u8]) {
        self.list.add(text, buffers(text)[0]);
    }

    /// Document 01's masks that no family below has.
    fn masks(&mut self) {
        let m = std::str::from_utf8(SOUND[0]).expect("mask M is ASCII");
        for cells in [9, 17, 18, 8] {
            for text in [
                m.into(),
                "#define d_width 9\n\n".into(),
                m.replace("0x00}", "0x00,}"),
                m.replace("0x00}", "0x00,0x00}"),
                m.replace("0x01", "0y01"),
                m.replace("};", "}:"),
                format!("{m}z"),
                format!("#include \"x\"\n{m}"),
                format!("/* any\nline */\n\n{m}"),
            ] {
                self.list.add(text.as_bytes(), cells);
            }
        }
    }

    /// Every cut of the sound texts, with the buffer that the whole wants.
    fn cuts(&mut self) {
        for text in SOUND {
            let cells = buffers(text)[0];
            for n in (0..=text.len()).rev() {
                self.list.add(&text[..n], cells);
            }
        }
    }

    /// Buffers of every telling length, for the sound texts, and with a byte too few, a byte too many, a tail.
    fn pixel_buffers(&mut self) {
        for text in SOUND {
            let last = text.windows(2).rposition(|w| w.eq_ignore_ascii_case(b"0x")).expect("data");
            let (before, after) = text.split_at(last);
            let fewer = [before, &after[4..]].concat();
            let more = [before, b"0x5a,", after].concat();
            let tail = [text, b" x"].concat();
            for text in [text, &fewer, &more, &tail] {
                for cells in buffers(text) {
                    self.list.add(text, cells);
                }
            }
        }
    }

    /// At every byte of the sound texts one change: another byte, one more, one less, two swapped.
    fn changes(&mut self) {
        for text in SOUND {
            for at in 0..text.len() {
                let mut changed = text.to_vec();
                match self.random.below(6) {
                    0..=2 => changed[at] = self.random.pick_byte(TELLING),
                    3 => changed.insert(at, self.random.pick_byte(TELLING)),
                    4 => drop(changed.remove(at)),
                    _ => changed.swap(at, (at + 1) % text.len()),
                }
                self.exact(&changed);
            }
        }
    }

    /// Every listed token in all four lines: alone, with a wrong byte after it, and cut off after it.
    fn integers(&mut self) {
        let mut mask = Mask::new("d", 9, 1, vec![1, 0]);
        mask.layout = Layout::Compact;
        for token in TOKENS {
            for line in 0..4 {
                for end in ["", " z"] {
                    let mut mask = mask.clone();
                    let mut tokens = ["9", "1", "3", "4"].map(|t| t.as_bytes().to_vec());
                    tokens[line] = format!("{token}{end}").into();
                    let [width, height, x, y] = tokens;
                    (mask.width, mask.height) = (width, height);
                    mask.hotspot = (line > 1).then_some([x, y]);
                    let text = mask.text(&mut self.random);
                    self.exact(&text);
                    if end.is_empty() {
                        self.list.add(&text[..nth_newline(&text, line)], 9);
                    }
                }
            }
        }
    }

    /// The bytes at and beside the ends of the runs of digits, in tokens and in data bytes.
    fn digits(&mut self) {
        let text =
            b"#define d_width 16\n#define d_height 1\n#define d_x_hot 12\n#define d_y_hot 13\n\
            static char d_bits[] = {0x23, 0x45};\n";
        for at in (0..text.len()).filter(|&at| text[at].is_ascii_digit()) {
            for byte in *b"/09:@AFG`afg" {
                let mut changed = text.to_vec();
                changed[at] = byte;
                self.exact(&changed);
            }
        }
    }

    /// Symbols around the limit of the name buffer, with and without their ending, and cuts around their end.
    fn symbols(&mut self) {
        for length in [0, 1, 249, 250, 251, 256, 257, 300] {
            for ending in ["_width", "_widt", "width", "_Width"] {
                let mut mask = Mask::new("", 9, 1, vec![1, 0]);
                mask.name = vec![b'n'; length];
                let mut text = mask.text(&mut self.random);
                let start = "#define ".len() + length;
                text.splice(start..start + "_width".len(), ending.bytes());
                let end = start + ending.len();
                for cut in [text.len(), end + 1, end, end - 1] {
                    self.list.add(&text[..cut], 9);
                }
            }
        }
    }

    /// Leading lines, with bytes that a search by words could take for a newline.
    fn preambles(&mut self) {
        for length in 0..=24 {
            for byte in *b"c\x0b\x8a#" {
                let mut text = vec![b'/'];
                text.resize(1 + length, byte);
                text.push(b'\n');
                text.extend_from_slice(SOUND[0]);
                self.exact(&text);
                // No newline before the define.
                text[length + 1] = b' ';
                self.exact(&text);
            }
        }
    }

    /// Every short run of bytes between two data bytes.
    fn separators(&mut self) {
        for between in words(b", \n\t0", 3) {
            let mut text =
                b"#define d_width 18\n#define d_height 1\nstatic char d_bits[] = {".to_vec();
            text.extend_from_slice(b"0x01, 0x02");
            text.extend_from_slice(&between);
            text.extend_from_slice(b"0xA3};");
            self.list.add(&text, 18);
        }
    }

    /// Data bytes of every shape at every width up to three bytes.
    fn cells(&mut self) {
        for width in 1..=24 {
            for value in [0x00, 0xff, 0x01, 0x80, 0x5c] {
                let row = texts::row_bytes(width);
                let data = (0..2 * row as u32).map(|i| u8::rotate_left(value, i)).collect();
                let text = Mask::new("d", width, 2, data).text(&mut self.random);
                self.exact(&text);
            }
        }
    }

    /// Drawn texts that are not long, each with one or two buffers.
    fn drawn(&mut self) {
        for _ in 0..DRAWN {
            let text = loop {
                let text = drawn_text(&mut self.random);
                if text.len() <= LONGEST_DRAWN {
                    break text;
                }
            };
            let [exact, others @ ..] = buffers(&text);
            self.list.add(&text, exact);
            if self.random.once_in(3) {
                self.list.add(&text, others[self.random.below(others.len())]);
            }
        }
    }
}

/// Telling lengths of the pixel buffer for a text; the first is exact where there is room for it.
fn buffers(text: &[u8]) -> [usize; 9] {
    let read = oracle::read_header(text, &mut [0; NAME_BUFFER_LENGTH]);
    let header = read.map_or(Header { width: 9, height: 1, hotspot: None }, |read| read.header);
    lengths(&header).map(|length| length.min(ROOM))
}

#[cfg(test)]
mod tests {
    use super::*;
    use crate::interface::Interface;
    use crate::mock::{self, Fault, Mixed};
    use std::fs;

    #[test]
    fn stored_list_is_what_the_original_answers() {
        let stored = fs::read(format!("{PROGRAM}/{ANSWERS}")).unwrap();
        let now = List::asked_again(&stored).expect("a whole list");
        assert!(now.bytes() == stored, "the original answers otherwise than is stored");
        assert_eq!(now.summary(), fs::read_to_string(format!("{PROGRAM}/{SUMMARY}")).unwrap());
        assert!(List::stored().bytes() == stored, "make_replay would write another list");
    }

    #[test]
    fn every_number_is_in_the_list() {
        assert_eq!(List::stored().unreached(), Vec::<usize>::new());
    }

    /// Those of the planted faults that a record can show: it has no hotspot of a refused image.
    #[test]
    fn planted_faults_change_the_list() {
        let stored = List::stored().bytes();
        let made_by = |interface: Interface| {
            List::of_families(&|text, name, pixels| {
                interface.read_image(&mut text.to_vec(), name, pixels).as_original()
            })
            .bytes()
        };
        assert!(made_by(mock::without_fault()) == stored);
        for fault in [
            Fault::Column,
            Fault::Line,
            Fault::Cell,
            Fault::Remainder,
            Fault::NameTakenBack,
            Fault::EarlyMismatch,
            Fault::Bits,
            Fault::Integer(Mixed::OtherLine),
        ] {
            assert!(made_by(mock::with_fault(fault)) != stored, "{fault:?} passed unseen");
        }
        // The four faults of an integer have one number in the list.
        assert!(made_by(mock::with_fault(Fault::Integer(Mixed::DigitsFirst))) == stored);
    }
}
