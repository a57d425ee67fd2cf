//! Which texts and buffers are tried: fixed families at the limits first, then drawn ones up to a count.

use crate::classes::Reached;
use crate::comparison::{data_size, Accepted, Comparison, Difference, Tally, Text};
use crate::comparison::{LONGEST_BUFFER, LONGEST_NAME};
use crate::integers;
use crate::interface::{Interface, StreamDecoder, TextLocation};
use crate::random::Random;
use crate::texts::{self, Layout, Mask, TELLING, TOKENS};
use crate::writing::{self, Picture};
use oracle::{Header, NAME_BUFFER_LENGTH};

type Tried = Result<(), Difference>;

/// The seed of a run that names none.
pub const SEED: u64 = 20_260_924;

/// The drawn comparisons of a run that names no count, and of the gate's.
pub const COUNT: u64 = 2_000_000;

/// A run without a difference.
pub struct Run {
    /// Comparisons of the families.
    pub families: u64,
    /// Comparisons of drawn texts.
    pub drawn: u64,
    /// The answers of both.
    pub tally: Tally,
    /// What the drawn texts reached.
    pub reached: Reached,
}

impl Run {
    /// Numbers that no text led to, and classes that no drawn text was of.
    pub fn unreached(&self) -> Vec<String> {
        [self.tally.unreached(), self.reached.unreached()].concat()
    }
}

/// Runs all families, then drawn texts until these made so many comparisons.
pub fn run(interface: &Interface, seed: u64, count: u64) -> Result<Run, Difference> {
    let mut trials = Trials { comparison: Comparison::new(interface), random: Random::new(seed) };
    trials.families()?;
    let families = trials.comparison.tally.total();
    trials.comparison.reached = Reached::default();
    while trials.comparison.tally.total() < families + count {
        trials.drawn()?;
    }
    let Comparison { tally, reached, .. } = trials.comparison;
    Ok(Run { families, drawn: tally.total() - families, tally, reached })
}

/// A dozen sound texts, each with a part that the others lack.
pub const SOUND: [&[u8]; 13] = [
    b"#define d_width 9\n#define d_height 1\nstatic char d_bits[] = {0x01,0x00};\n",
    b"#define d_width 9\n#define d_height 2\n#define d_x_hot -1\n#define d_y_hot 17\n\
      static unsigned char d_bits[] = {\n   0x01, 0x00, 0xaB, 0X7f};\n",
    b"/* a */\n\n * b #\n#define q_width 8\n#define q_height 3\nstatic char q_bits[] = {0x81,0xFf,0x00,};",
    b"#define _width 1\n#define _height 2\nstatic char _bits[] = {0x00,0x01};",
    b"#define\t d_width\t 3 \t\n#define  d_height 1\t\nstatic\tunsigned \tchar \td_bits[]\t=\t{ 0x05 } ; ",
    b"#define a_width_width 17\n#define a_width_height 1\nstatic char a_width_bits[] = {0x10 , 0x20\n,\n\t0x01\n}\n;\n",
    b"#define \xff\0\r#_width 16\n#define \xff\0\r#_height 1\nstatic char \xff\0\r#_bits[] = {0x5a, 0xa5};\n",
    b"#define s_width 2\n#define s_height 2\n#define s_x_hot -2147483648\n#define s_y_hot 2147483647\n\
      static char s_bits[] = {0x03,0x02};\n",
    b"#define u_width 100\n#define u_height 1\nstatic unsigned char u_bits[] = {\n   0x00, 0x01, 0x02, 0x03, \
      0x04, 0x05, 0x06, 0x07, 0x08, 0x09, 0x0a, 0x0b,\n   0x0c};\n",
    b"\n\n\n#define d_width 7\n#define d_height 1\nstatic char d_bits[] = {0x7F,\n\n\n};\n\n\n",
    b"#define c_width 24\n#define c_height 2\nstatic char c_bits[] = {0x00,0x11,0x22,\n0x33,0x44,0x55};\n",
    b"x\n#define nn_width 10\n#define nn_height 1\n#define nn_x_hot 0\n#define nn_y_hot -0\n\
      static char nn_bits[] = {  0xfE  ,  0x03  ,  }  ;  ",
    b"#define 0_width 8\n#define 0_height 4\nstatic unsigned char 0_bits[] = {\n   0x80, 0x40, 0x20, 0x10};\n",
];

/// Data and trailers with newlines in many places, some right at the start and the end.
const LINES: [&[u8]; 3] =
    [b"0x01,\n0x02,0x03\n};\n", b"\n\n 0x01 ,\n\n\t0x02\n,0x03,\n}\n ;\n \n", b"0x01,0x02\n,z};"];

struct Trials<'i> {
    comparison: Comparison<'i>,
    random: Random,
}

impl Trials<'_> {
    fn families(&mut self) -> Tried {
        self.cuts()?;
        self.single_changes()?;
        self.integers()?;
        self.faults_of_integers()?;
        self.symbols()?;
        self.preambles()?;
        self.cells()?;
        self.pixel_buffers()?;
        self.separators()?;
        self.short_tails()?;
        self.decoders_at_the_limits()?;
        self.lent_starts()?;
        self.foreign_starts()?;
        self.masks()
    }

    /// Every cut of the sound texts. The bytes after the cut stand after it in memory.
    fn cuts(&mut self) -> Tried {
        for text in SOUND {
            let whole = self.header(text)?;
            let header = whole.expect("a sound text").header;
            for n in 0..=text.len() {
                let cut = Text::cut(text, n);
                for pixels in lengths(&header) {
                    self.image(cut, pixels)?;
                }
                self.every_call(cut)?;
            }
        }
        Ok(())
    }

    /// Every byte of the sound texts changed, put in, taken out, doubled and swapped with the next.
    fn single_changes(&mut self) -> Tried {
        let every: Vec<u8> = (0..=255).collect();
        for (i, text) in SOUND.into_iter().enumerate() {
            let bytes = if i < 2 { &every } else { TELLING };
            for at in 0..text.len() {
                let mut changed = text.to_vec();
                for &byte in bytes {
                    changed[at] = byte;
                    self.main_calls(&changed)?;
                }
                let mut longer = text.to_vec();
                longer.insert(at, text[at]);
                self.main_calls(&longer)?;
                for &byte in TELLING {
                    longer[at] = byte;
                    self.main_calls(&longer)?;
                }
                let mut shorter = text.to_vec();
                shorter.remove(at);
                self.main_calls(&shorter)?;
                if at + 1 < text.len() {
                    let mut swapped = text.to_vec();
                    swapped.swap(at, at + 1);
                    self.main_calls(&swapped)?;
                }
            }
        }
        Ok(())
    }

    /// Every listed token and every short one in all four lines, with what may and may not follow it.
    fn integers(&mut self) -> Tried {
        let mut tokens: Vec<Vec<u8>> = TOKENS.iter().map(|t| t.as_bytes().to_vec()).collect();
        tokens.extend(words(b"019-+ \rz", 3));
        for length in 9..=13 {
            for first in *b"0149-" {
                for last in *b"0159z\r " {
                    let mut token = vec![b'2'; length];
                    token[0] = first;
                    token[length - 1] = last;
                    tokens.push(token);
                }
            }
        }
        let mut mask = Mask::new("d", 9, 1, vec![1, 0]);
        mask.layout = Layout::Compact;
        mask.hotspot = Some([b"3".to_vec(), b"4".to_vec()]);
        for token in &tokens {
            for line in 0..4 {
                for end in ["", " ", "\t ", " z"] {
                    let mut mask = mask.clone();
                    *mask.token(line) = [token, end.as_bytes()].concat();
                    let text = mask.text(&mut self.random);
                    self.main_calls(&text)?;
                    // The text ends with the token.
                    let place = nth_newline(&text, line);
                    self.main_calls(Text::cut(&text, place))?;
                    self.main_calls(Text::cut(&text, place + 1))?;
                }
            }
        }
        Ok(())
    }

    /// Tokens with each fault in all four lines: both calls must give the number that the token calls for.
    fn faults_of_integers(&mut self) -> Tried {
        let mut mask = Mask::new("d", 9, 1, vec![1, 0]);
        mask.layout = Layout::Compact;
        for token in tokens() {
            for line in 0..integers::LINES {
                let mut mask = mask.clone();
                mask.token(line).clone_from(&token);
                let text = mask.text(&mut self.random);
                let wanted = number_of_header(&token, line);
                self.header(&text)?;
                self.wanted("read_header", &text, wanted)?;
                self.image(&text, 9)?;
                if wanted != 0 {
                    self.wanted("read_image", &text, wanted)?;
                }
            }
        }
        Ok(())
    }

    /// Holds the number that ours gave last to the one that a text was made for.
    fn wanted(&self, call: &str, text: &[u8], wanted: u32) -> Tried {
        let number = self.comparison.last_number;
        if number == wanted {
            return Ok(());
        }
        let shown = text.escape_ascii();
        Err(format!("{call} on \"{shown}\":\nours gives {number}, not {wanted}\n"))
    }

    /// Symbols around the limit of the lent name buffer, with and without their ending.
    fn symbols(&mut self) -> Tried {
        for length in (0..=8).chain(240..=256) {
            for ending in ["_width", "_widt", "width", "_Width"] {
                let mut mask = Mask::new("", 9, 1, vec![1, 0]);
                mask.name = vec![b'n'; length];
                let mut text = mask.text(&mut self.random);
                let start = "#define ".len() + length;
                text.splice(start..start + "_width".len(), ending.bytes());
                let end = start + ending.len();
                let symbol = length + ending.len();
                let around = symbol.saturating_sub(8)..=symbol + 2;
                for buffer in around.chain(0..=8).chain([NAME_BUFFER_LENGTH, LONGEST_NAME]) {
                    for cut in [end - 1, end, end + 1, text.len()] {
                        let cut = Text::cut(&text, cut);
                        self.comparison.read_header(cut, buffer)?;
                        self.comparison.read_image(cut, buffer, 9)?;
                    }
                    for byte in *b"\n\t\rz" {
                        let mut ended = text.clone();
                        ended[end] = byte;
                        self.comparison.read_header(&ended, buffer)?;
                    }
                }
            }
        }
        Ok(())
    }

    /// Leading lines of every short length, with bytes that a search by words could take for a newline.
    fn preambles(&mut self) -> Tried {
        for length in 0..=40usize {
            for byte in *b"c\x0b\x8a\0\xff\t#" {
                for newline in [0, length / 3, length / 2, length.saturating_sub(1), length] {
                    let mut text = vec![byte; length];
                    text.insert(0, b'/');
                    text.insert(newline + 1, b'\n');
                    text.extend_from_slice(b"\n");
                    text.extend_from_slice(SOUND[0]);
                    self.main_calls(&text)?;
                    for cut in 0..=length + 4 {
                        self.header(Text::cut(&text, cut))?;
                    }
                    // No newline at all before the define.
                    let flat: Vec<u8> =
                        text.iter().map(|&b| if b == b'\n' { b'n' } else { b }).collect();
                    self.header(&flat)?;
                }
            }
        }
        Ok(())
    }

    /// Every value of a data byte at every width up to three bytes.
    fn cells(&mut self) -> Tried {
        for width in 1..=24 {
            let row = texts::row_bytes(width);
            for value in 0..=255u8 {
                let data = (0..2 * row).map(|i| value.rotate_left(i as u32)).collect();
                let mut mask = Mask::new("d", width, 2, data);
                mask.layout = if value % 2 == 0 { Layout::Compact } else { Layout::Tools };
                let text = mask.text(&mut self.random);
                self.image(&text, 2 * width)?;
            }
        }
        Ok(())
    }

    /// Every length of the pixel buffer up to two rows too many, for sound and broken texts.
    fn pixel_buffers(&mut self) -> Tried {
        for (width, height) in
            [(1, 3), (3, 3), (7, 1), (8, 2), (9, 1), (9, 4), (16, 2), (17, 2), (40, 1)]
        {
            let bytes = texts::row_bytes(width) * height;
            let data: Vec<u8> = (0..bytes).map(|i| (i * 37 + 11) as u8).collect();
            for layout in [Layout::Compact, Layout::Tools, Layout::Loose] {
                for given in bytes.saturating_sub(2)..=bytes + 1 {
                    let mut mask = Mask::new("d", width, height, data.clone());
                    mask.data.resize(given, 0x66);
                    mask.layout = layout;
                    let text = mask.text(&mut self.random);
                    for ending in ["", "z", "\n ;"] {
                        let text = [&text, ending.as_bytes()].concat();
                        for pixels in 0..=(height + 2) * width + 1 {
                            self.image(&text, pixels)?;
                        }
                    }
                }
            }
        }
        Ok(())
    }

    /// Every short run of bytes between two data bytes, and every cut of what follows.
    fn separators(&mut self) -> Tried {
        let header = "#define d_width 32\n#define d_height 1\nstatic char d_bits[] = {";
        for between in words(b", \n\t0", 4) {
            let mut text = header.as_bytes().to_vec();
            text.extend_from_slice(b"0x01, 0x02");
            text.extend_from_slice(&between);
            text.extend_from_slice(b"0xA3, 0x0f};");
            self.image(&text, 32)?;
            for spent in 0..=1 {
                let byte = header.len() as u64 + 4 * spent;
                let location = TextLocation::new(byte, 3, byte - 38);
                let decoder =
                    StreamDecoder { width: 32, height: 1, current_position: spent, location };
                self.comparison.next_bytes(&text, decoder, 8)?;
            }
            for cut in header.len() + 8..text.len() {
                self.image(Text::cut(&text, cut), 32)?;
            }
        }
        Ok(())
    }

    /// Every short text after a header's end, with decoders before, between and past the data bytes.
    fn short_tails(&mut self) -> Tried {
        for tail in words(b"0x1,}; \ng", 5) {
            for position in 0..=2 {
                let decoder = StreamDecoder {
                    width: 9,
                    height: 1,
                    current_position: position,
                    location: TextLocation::START,
                };
                self.comparison.next_bytes(&tail, decoder, 4)?;
            }
        }
        Ok(())
    }

    /// Decoders whose numbers stand at, before and past each limit of the foreign rule.
    fn decoders_at_the_limits(&mut self) -> Tried {
        let sides = [0, 1, 7, 8, 9, 64, u32::MAX - 7, u32::MAX];
        for text in [SOUND[0], b"", b"0x01", b"\n\n,0x01\n};", b"};", b"\n"] {
            let length = text.len() as u64;
            for width in sides {
                for height in sides {
                    let size = data_size(width, height) as u64;
                    for current_position in near(size).chain([0, 1]) {
                        for byte in near(length).chain([0, length / 2]) {
                            for line in near(byte.wrapping_add(1)).chain([0, 1]) {
                                for column in near(byte).chain([0]) {
                                    let location = TextLocation::new(byte, line, column);
                                    let decoder =
                                        StreamDecoder { width, height, current_position, location };
                                    self.comparison.next_bytes(text, decoder, 2)?;
                                }
                            }
                        }
                    }
                }
            }
        }
        Ok(())
    }

    /// Decoders at every byte with every column up to it: their lines start where no header would say so.
    fn lent_starts(&mut self) -> Tried {
        for text in LINES {
            for byte in 0..=text.len() as u64 {
                for column in 0..=byte {
                    for current_position in 0..=3 {
                        let location = TextLocation::new(byte, 1, column);
                        let decoder =
                            StreamDecoder { width: 17, height: 1, current_position, location };
                        self.comparison.next_bytes(text, decoder, 6)?;
                    }
                }
            }
        }
        Ok(())
    }

    /// Decoders at every byte whose start is one more or less than it must be, or 0, or past the byte.
    fn foreign_starts(&mut self) -> Tried {
        for text in LINES {
            for byte in 0..=text.len() as u64 {
                for column in [0, 1, byte / 2, byte.saturating_sub(1), byte, byte + 1] {
                    let location = TextLocation::new(byte, 1, column);
                    let right = location.start;
                    let beside = [right.wrapping_sub(1), right.wrapping_add(1)];
                    for start in near(byte).chain(beside).chain([0, 1, 1 << 32, 1 << 63]) {
                        let location = TextLocation { start, ..location };
                        let decoder =
                            StreamDecoder { width: 17, height: 1, current_position: 0, location };
                        self.comparison.next_bytes(text, decoder, 2)?;
                    }
                }
            }
        }
        Ok(())
    }

    /// Masks of every small size written, with hotspots and names at the limits, and masks with which something is wrong.
    fn masks(&mut self) -> Tried {
        let sides = (1..=26).flat_map(|width| [1, 2, 3, 12, 13].map(|height| (width, height)));
        for (width, height) in sides.chain([(8, 24), (8, 25), (96, 1), (97, 2), (300, 40)]) {
            let mask = Picture::new(b"d", width, height, |cell| cell % 5 % 3 == 0);
            self.mask(&mask)?;
            self.mask(&Picture { has_hotspot: 1, ..mask })?;
        }
        let mask = Picture::new(b"d", 9, 2, |cell| cell == 9);
        for has_hotspot in [0, 1, 2, 7, 256, 1 << 31, u32::MAX] {
            for hotspot in [[0, 0], [-1, 9], [10, -10], [i32::MIN, i32::MAX], [i32::MAX, i32::MIN]]
            {
                self.mask(&Picture { has_hotspot, hotspot, ..mask.clone() })?;
            }
        }
        for byte in 0..=255 {
            for name in [vec![byte], vec![b'd', byte, b'd'], vec![byte; writing::LONGEST_NAME]] {
                self.mask(&Picture { name, has_hotspot: 1, ..mask.clone() })?;
            }
            self.mask(&Picture { cells: vec![byte; 18], ..mask.clone() })?;
        }
        // Each with something wrong, in each field that may be.
        for length in [0, 1, 249, 250, 251, 252, 256, 300] {
            for (width, height) in
                [(9, 2), (2, 9), (0, 0), (0, 18), (18, 0), (3, 5), (1 << 16, 1 << 16)]
            {
                for cells in
                    [vec![], vec![0; 17], vec![0; 18], vec![7; 18], vec![255; 19], vec![7; 1]]
                {
                    self.mask(&Picture {
                        name: vec![b'n'; length],
                        width,
                        height,
                        cells,
                        ..mask.clone()
                    })?;
                }
            }
        }
        // The same product in 32 bits.
        let sides = [(u32::MAX, u32::MAX), ((1 << 31) + 9, 2), (9, (1 << 31) + 2)];
        for (width, height) in sides {
            self.mask(&Picture { width, height, ..mask.clone() })?;
            self.mask(&Picture { width, height, cells: vec![0], ..mask.clone() })?;
        }
        Ok(())
    }

    /// A mask, with outputs about as long as its text and far from it.
    fn mask(&mut self, mask: &Picture) -> Tried {
        if mask.fault().is_some() {
            return [0, 1, 2000].into_iter().try_for_each(|out| self.comparison.write(mask, out));
        }
        let exact = mask.text().len();
        let room = writing::room(mask.width, mask.height) as usize;
        let lengths = [exact, exact - 1, exact + 1, exact + 100, room, exact / 2, 1, 0];
        lengths.into_iter().try_for_each(|out| self.comparison.write(mask, out))
    }

    /// A drawn mask, with something wrong at times, and an output of any length.
    fn drawn_mask(&mut self) -> Tried {
        let random = &mut self.random;
        let mut mask = Picture::random(random);
        let exact = mask.text().len();
        let spoilt = random.once_in(3);
        if spoilt {
            mask.spoil(random);
        }
        let out = match random.below(8) {
            0 => exact - 1,
            1 => random.below(exact),
            2 => exact + random.within(1, 100),
            3 => writing::room(mask.width.min(500), mask.height) as usize,
            _ => exact,
        };
        self.comparison.write(&mask, out)
    }

    /// A long mask or one in a layout of real files, damaged at times; one with a token mistyped; or any text.
    fn drawn(&mut self) -> Tried {
        let random = &mut self.random;
        let text = match random.below(64) {
            kind @ 0..=15 => {
                let mask = if kind == 0 { Mask::long(random) } else { Mask::real(random) };
                let mut text = mask.text(random);
                if random.once_in(3) {
                    texts::damage(random, &mut text);
                }
                text
            }
            16..=19 => texts::mistyped(random),
            _ => drawn_text(random),
        };
        self.every_call(&text)?;
        if self.random.once_in(4) {
            self.drawn_mask()?;
        }
        Ok(())
    }

    /// The header with a name buffer of the original's length.
    fn header<'t>(&mut self, text: impl Into<Text<'t>>) -> Result<Option<Accepted>, Difference> {
        self.comparison.read_header(text, NAME_BUFFER_LENGTH)
    }

    /// The image with a name buffer of the original's length.
    fn image<'t>(&mut self, text: impl Into<Text<'t>>, pixel_length: usize) -> Tried {
        self.comparison.read_image(text, NAME_BUFFER_LENGTH, pixel_length)
    }

    /// The header, the image with a drawn pixel buffer, a few data bytes.
    fn main_calls<'t>(&mut self, text: impl Into<Text<'t>>) -> Tried {
        let text = text.into();
        let read = self.header(text)?;
        let pixels = self.pixel_length(read.map(|read| read.header));
        self.image(text, pixels)?;
        if let Some(read) = read {
            let calls = self.random.within(1, 8);
            self.comparison.next_bytes_after(text, read, calls)?;
        }
        Ok(())
    }

    /// The main calls, then the same with other name buffers, all data bytes and a lent decoder.
    fn every_call<'t>(&mut self, text: impl Into<Text<'t>>) -> Tried {
        let text = text.into();
        self.main_calls(text)?;
        let name = match self.random.below(4) {
            0 => self.random.within(0, 12),
            1 => self.random.within(240, 310),
            2 => LONGEST_NAME,
            _ => self.random.within(0, 300),
        };
        let read = self.comparison.read_header(text, name)?;
        let header = read.map(|read| read.header);
        if self.random.once_in(4) {
            let pixels = self.pixel_length(header);
            self.comparison.read_image(text, name, pixels)?;
        }
        if let (Some(read), true) = (read, self.random.once_in(8)) {
            // All of a long picture only at times, so that the count is not spent on a few texts.
            let calls = if self.random.once_in(16) { usize::MAX } else { 200 };
            self.comparison.next_bytes_after(text, read, calls)?;
        }
        let decoder = self.decoder(text.bytes(), header);
        let calls = self.random.within(1, 6);
        self.comparison.next_bytes(text, decoder, calls)?;
        if self.random.once_in(4) {
            // The same once more, so that wrong starts do not take the place of sound decoders.
            let location = self.wrong_start(decoder.location);
            self.comparison.next_bytes(text, StreamDecoder { location, ..decoder }, calls)?;
        }
        Ok(())
    }

    /// A pixel buffer: exact, a row or a cell away from it, empty, shorter than a row, or any.
    fn pixel_length(&mut self, header: Option<Header>) -> usize {
        let Some(header) = header else {
            return self.random.below(40);
        };
        let [exact, others @ ..] = lengths(&header);
        match self.random.below(12) {
            0..=3 => exact,
            4 => self.random.below(exact + 2).min(LONGEST_BUFFER),
            _ => others[self.random.below(others.len())],
        }
    }

    /// A decoder with drawn numbers: mostly ones that some header could have given, some foreign.
    /// The start is the byte less the column.
    fn decoder(&mut self, text: &[u8], header: Option<Header>) -> StreamDecoder {
        let random = &mut self.random;
        let side = |random: &mut Random| match random.below(16) {
            0 => u32::MAX - random.below(9) as u32,
            1 => random.word() as u32,
            2 if random.once_in(4) => 0,
            _ => random.within(1, 20) as u32,
        };
        let (width, height) = match header {
            Some(header) if random.once_in(2) => (header.width, header.height),
            _ => (side(random), side(random)),
        };
        let size = data_size(width, height) as u64;
        let current_position = match random.below(10) {
            0 | 1 => 0,
            2 | 3 => size,
            4 => size.saturating_sub(1),
            5 => size + 1 - u64::from(random.once_in(2)),
            6 if random.once_in(4) => random.word(),
            _ => random.word() % (size + 1),
        };
        let byte = match random.below(10) {
            0..=5 => byte_in_data(random, text),
            6 if random.once_in(4) => random.word(),
            7 if random.once_in(4) => text.len() as u64 + 1,
            _ => random.below(text.len() + 1) as u64,
        };
        let line = match random.below(8) {
            0 => byte.saturating_add(1),
            1 if random.once_in(4) => byte.saturating_add(2),
            2 => 0,
            _ => random.word() % byte.saturating_add(2).max(1),
        };
        let column = match random.below(8) {
            0 => byte,
            1 if random.once_in(4) => byte.saturating_add(1),
            2 => 0,
            _ => random.word() % byte.saturating_add(1).max(1),
        };
        let location = TextLocation::new(byte, line, column);
        StreamDecoder { width, height, current_position, location }
    }

    /// The place with another start, one that is foreign but by rare chance.
    fn wrong_start(&mut self, location: TextLocation) -> TextLocation {
        let TextLocation { byte, start: right, .. } = location;
        let random = &mut self.random;
        let start = match random.below(8) {
            0 | 1 => right.wrapping_add(1),
            2 | 3 => right.wrapping_sub(1),
            4 => byte.saturating_add(1 + random.below(3) as u64),
            5 => u64::MAX,
            6 => random.word(),
            _ => return TextLocation { column: 0, start: 0, ..location },
        };
        TextLocation { start, ..location }
    }
}

/// One drawn text: sound, damaged, misshapen, or no mask at all.
pub fn drawn_text(random: &mut Random) -> Vec<u8> {
    match random.below(16) {
        0..=4 => Mask::random(random).text(random),
        5..=10 => {
            let mut text = if random.once_in(3) {
                random.pick(&SOUND).to_vec()
            } else {
                Mask::random(random).text(random)
            };
            for _ in 0..random.within(1, 3) {
                texts::damage(random, &mut text);
            }
            text
        }
        11..=14 => texts::misshapen(random),
        _ => {
            let length = random.below(40);
            (0..length).map(|_| random.pick_byte(TELLING)).collect()
        }
    }
}

/// A place in the data: after the brace, or before some comma, digit or brace of the end.
fn byte_in_data(random: &mut Random, text: &[u8]) -> u64 {
    let brace = text.iter().position(|&b| b == b'{').map_or(0, |at| at + 1);
    let from = brace + random.below(text.len() - brace + 1);
    let stops: &[u8] = random.pick(&[b",", b"0", b"}", b"{", b";"]);
    let found = text[from..].iter().position(|b| stops.contains(b));
    found.map_or(brace, |at| from + at) as u64
}

/// Telling lengths of the pixel buffer for a header; the first is exact where the picture is small.
pub fn lengths(header: &Header) -> [usize; 9] {
    let (width, height) = (header.width as usize, header.height as usize);
    let exact = width.saturating_mul(height);
    let some = if exact <= LONGEST_BUFFER / 2 {
        [
            exact,
            exact + width,
            exact - width,
            exact + 1,
            exact - 1,
            0,
            width - 1,
            width,
            exact + 2 * width + 1,
        ]
    } else if width <= LONGEST_BUFFER / 4 {
        [width, 2 * width, 3 * width, width + 1, 2 * width - 1, 0, width - 1, 1, 2 * width + 1]
    } else {
        [9, 18, 27, 1, 100, 0, 8, 16, 17]
    };
    some.map(|length| length.min(LONGEST_BUFFER))
}

/// Tokens with each fault and with none: short ones, those at the limits, and long ones with a byte changed.
fn tokens() -> Vec<Vec<u8>> {
    let mut all = words(b"019-+z\r\0", 3);
    for token in TOKENS {
        all.push(token.as_bytes().to_vec());
        all.push([token.as_bytes(), b"z"].concat());
    }
    for token in ["014z", "-014z", "4294967296z", "9999999999z", "-999999999z", "-2147483650"] {
        all.push(token.as_bytes().to_vec());
    }
    for first in ["", "-", "0", "-0", "--", "+", "00"] {
        // Ten of a digit fit, are too large, and are too large for a hotspot alone.
        for digit in *b"193" {
            for length in first.len() + 1..=integers::LONGEST + 1 {
                let mut token = first.as_bytes().to_vec();
                token.resize(length, digit);
                for at in 0..length {
                    for byte in *b"z-+\r\0/:0\xff" {
                        let mut wrong = token.clone();
                        wrong[at] = byte;
                        all.push(wrong);
                    }
                }
                all.push(token);
            }
        }
    }
    all
}

/// What a header gets that is sound but for the token in the line with this index.
fn number_of_header(token: &[u8], line: usize) -> u32 {
    if token.len() > integers::LONGEST {
        return 1 + line as u32;
    }
    integers::number(token, line).unwrap_or(match (token, line) {
        (b"0", 0) => 21,
        (b"0", 1) => 22,
        _ => 0,
    })
}

/// All words of at most so many of the letters.
pub fn words(letters: &[u8], longest: usize) -> Vec<Vec<u8>> {
    let mut all = vec![Vec::new()];
    let mut last = all.clone();
    for _ in 0..longest {
        last = last
            .iter()
            .flat_map(|word| letters.iter().map(|&b| [word.as_slice(), &[b]].concat()))
            .collect();
        all.extend_from_slice(&last);
    }
    all
}

/// A number, the ones beside it, and the largest.
fn near(number: u64) -> impl Iterator<Item = u64> {
    [number.saturating_sub(1), number, number.saturating_add(1), u64::MAX].into_iter()
}

/// The index of the newline that ends the line counted from 0.
pub fn nth_newline(text: &[u8], line: usize) -> usize {
    let newlines = text.iter().enumerate().filter(|(_, &b)| b == b'\n');
    newlines.map(|(at, _)| at).nth(line).expect("a header has its lines")
}

#[cfg(test)]
mod tests {
    use super::*;
    use crate::library;
    use crate::mock::{self, Fault};

    const NONE: [String; 0] = [];

    #[test]
    fn original_agrees_with_itself_and_reaches_every_number() {
        let run = run(&mock::without_fault(), SEED, 0).unwrap_or_else(|e| panic!("{e}"));
        assert_eq!(run.tally.unreached(), NONE, "{}", run.tally.summary());
        assert_eq!(run.drawn, 0);
    }

    fn trials(interface: &Interface) -> Trials<'_> {
        Trials { comparison: Comparison::new(interface), random: Random::new(SEED) }
    }

    /// Drawn texts that are tried without the families.
    const TEXTS: usize = 20_000;

    #[test]
    fn drawn_texts_alone_reach_every_number_and_class() {
        let interface = mock::without_fault();
        let mut trials = trials(&interface);
        for _ in 0..TEXTS {
            trials.drawn().unwrap_or_else(|e| panic!("{e}"));
        }
        let Comparison { tally, reached, .. } = trials.comparison;
        assert_eq!(tally.unreached(), NONE, "{}", tally.summary());
        assert_eq!(reached.unreached(), NONE, "{}", reached.summary());
    }

    #[test]
    fn count_is_of_drawn_comparisons() {
        let run = run(&mock::without_fault(), SEED, 1000).unwrap_or_else(|e| panic!("{e}"));
        assert!(run.drawn >= 1000);
        assert_eq!(run.tally.total(), run.families + run.drawn);
    }

    /// Without drawn texts nothing is reached, though the families have some of the layouts.
    #[test]
    fn families_alone_are_not_enough() {
        let run = run(&mock::without_fault(), SEED, 0).unwrap_or_else(|e| panic!("{e}"));
        assert_eq!(run.unreached(), Reached::default().unreached());
        assert!(!run.unreached().is_empty());
    }

    #[test]
    #[cfg_attr(not(has_library), ignore = "skipped: built without the proved reader")]
    fn library_agrees_with_the_original() {
        let interface = library::linked().unwrap_or_else(|e| panic!("{e}"));
        run(&interface, SEED, 0).unwrap_or_else(|e| panic!("{e}"));
    }

    /// What the gate's run says of a fault.
    fn difference(fault: Fault) -> Difference {
        let Err(difference) = run(&mock::with_fault(fault), SEED, COUNT) else {
            panic!("{fault:?} passed unseen");
        };
        difference
    }

    #[test]
    fn faults_in_answers_and_cells_are_caught() {
        for fault in Fault::ANSWERS {
            difference(fault);
        }
    }

    /// By their family, and drawn.
    #[test]
    fn masks_written_amiss_are_caught() {
        for slip in Fault::WRITTEN {
            let interface = mock::with_fault(Fault::Written(slip));
            assert!(trials(&interface).masks().is_err(), "{slip:?} passed unseen");
            let mut trials = trials(&interface);
            assert!((0..TEXTS).any(|_| trials.drawn_mask().is_err()), "{slip:?} not drawn");
        }
    }

    /// By their family alone, and by drawn masks alone.
    #[test]
    fn masks_reach_all_their_numbers() {
        let interface = mock::without_fault();
        let mut family = trials(&interface);
        family.masks().unwrap_or_else(|e| panic!("{e}"));
        let mut drawn = trials(&interface);
        for _ in 0..TEXTS / 10 {
            drawn.drawn_mask().unwrap_or_else(|e| panic!("{e}"));
        }
        for trials in [family, drawn] {
            let unreached = trials.comparison.tally.unreached();
            assert!(!unreached.iter().any(|number| number.starts_with("write")), "{unreached:?}");
        }
    }

    #[test]
    fn faults_in_starts_are_caught_and_named() {
        let foreign = Fault::FOREIGN_STARTS.map(|fault| (fault, "expected: result 9"));
        for (fault, said) in Fault::STARTS.into_iter().chain(foreign) {
            let difference = difference(fault);
            assert!(difference.contains(said), "{fault:?}: no {said:?} in\n{difference}");
        }
    }

    /// Lent by their family, and drawn.
    #[test]
    fn starts_of_each_kind_are_lent() {
        for fault in Fault::LENT_STARTS {
            let interface = mock::with_fault(fault);
            assert!(trials(&interface).lent_starts().is_err(), "{fault:?} passed unseen");
        }
        for fault in Fault::FOREIGN_STARTS {
            let interface = mock::with_fault(fault);
            assert!(trials(&interface).foreign_starts().is_err(), "{fault:?} passed unseen");
        }
        for fault in Fault::LENT_STARTS.into_iter().chain(Fault::FOREIGN_STARTS) {
            let interface = mock::with_fault(fault);
            let mut trials = trials(&interface);
            assert!((0..TEXTS).any(|_| trials.drawn().is_err()), "{fault:?} not drawn");
        }
    }

    #[test]
    fn faults_in_integers_are_caught_and_named() {
        for (fault, said) in Fault::INTEGERS {
            let difference = difference(fault);
            assert!(difference.contains(said), "{fault:?}: no {said:?} in\n{difference}");
        }
    }

    /// By their family, and drawn.
    #[test]
    fn integers_with_each_fault_are_tried() {
        for (fault, _) in Fault::INTEGERS {
            let interface = mock::with_fault(fault);
            assert!(trials(&interface).faults_of_integers().is_err(), "{fault:?} passed unseen");
            let mut trials = trials(&interface);
            assert!((0..TEXTS).any(|_| trials.drawn().is_err()), "{fault:?} not drawn");
        }
    }

    /// All that a sound text with another token in one line can get, by that family alone.
    #[test]
    fn family_of_integers_reaches_all_their_numbers() {
        let interface = mock::without_fault();
        let mut trials = trials(&interface);
        trials.faults_of_integers().unwrap_or_else(|e| panic!("{e}"));
        let mut unreached = trials.comparison.tally.unreached();
        unreached.retain(|number| number.starts_with("read_"));
        // The array line, and bytes after the semicolon.
        assert_eq!(unreached, ["read_header 5", "read_image 5", "read_image 8"]);
    }

    /// The family does not lean on the comparison's own look at the token.
    #[test]
    fn number_is_held_to_the_one_wanted() {
        let interface = mock::without_fault();
        let mut trials = trials(&interface);
        let text = b"#define d_width 014z\n";
        trials.header(text.as_slice()).unwrap_or_else(|e| panic!("{e}"));
        assert_eq!(trials.wanted("read_header", text, 112), Ok(()));
        let said = "read_header on \"#define d_width 014z\\n\":\nours gives 112, not 113\n";
        assert_eq!(trials.wanted("read_header", text, 113), Err(said.into()));
    }

    #[test]
    fn writes_beside_what_is_lent_are_caught_and_named() {
        for (fault, said) in Fault::writes() {
            let difference = difference(fault);
            assert!(difference.contains(&said), "{fault:?}: no {said:?} in\n{difference}");
        }
    }
}
