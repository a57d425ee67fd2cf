//! Texts of masks: sound ones in the layouts that the format allows, and damaged copies of them.

use crate::random::Random;

/// Bytes that mean something to a reader, or nearly do.
pub const TELLING: &[u8] = b" \t\n\r\x0b\0,;{}[]=#_-+/09x1X8aAfFgGs\x8a\xff";

/// Tokens at the limits of the integers, and beside the rules for them.
#[rustfmt::skip]
pub const TOKENS: &[&str] = &[
    "0", "-0", "1", "-1", "9", "10", "7", "8", "00", "01", "014", "-01", "-00", "+1", "+0", "-",
    "--1", "", "1-", "0x10", "1z", "z", "9\r", "\r", "1.0", "127", "128", "255", "256", "65535",
    "65536", "2147483646", "2147483647", "2147483648", "2147483649", "-2147483647", "-2147483648",
    "-2147483649", "4294967294", "4294967295", "4294967296", "4294967297", "-4294967295",
    "-4294967296", "4294967300", "4294967305", "5000000000", "6442450944", "8589934592",
    "8589934593", "9999999999", "-9999999999", "10000000000", "12345678901", "42949672950",
    "42949672951", "42949672960", "99999999999", "00000000001", "-0000000001", "123456789012",
    "-12345678901", "000000000001", "1234567890123", "-123456789012",
];

/// How the data and the space around it stand.
#[derive(Clone, Copy, Debug, PartialEq, Eq)]
pub enum Layout {
    /// `{0x01,0x02};`
    Compact,
    /// As the X tools write: a fresh line, three spaces, twelve bytes a line.
    Tools,
    /// `0x01, 0x02`, all on one line.
    OneLine,
    /// A comma and a newline after each byte.
    ByteALine,
    /// Bare commas, fifteen bytes a line after one space.
    BareLines,
    /// Tabs for spaces, in the header too.
    Tabs,
    /// As the X tools write, but `0X` and capital digits.
    Capitals,
    /// Any space that the format allows, drawn anew for each place.
    Loose,
}

/// A layout in which nothing is drawn.
#[derive(Clone, Copy)]
pub struct Spacing {
    pub title: &'static str,
    /// In the header, where a gap stands.
    gap: &'static str,
    /// Before the first byte.
    opening: &'static str,
    /// Between two bytes of a line.
    between: &'static str,
    /// Between two lines.
    turn: &'static str,
    /// Bytes to a line.
    line: usize,
    /// `0x` or `0X`, with digits alike.
    prefix: &'static str,
}

impl Layout {
    /// Those of real files.
    pub const REAL: [Layout; 7] = [
        Layout::Compact,
        Layout::Tools,
        Layout::OneLine,
        Layout::ByteALine,
        Layout::BareLines,
        Layout::Tabs,
        Layout::Capitals,
    ];

    /// None where the space is drawn.
    pub fn spacing(self) -> Option<Spacing> {
        let tools = Spacing {
            title: "twelve to a line",
            gap: " ",
            opening: "\n   ",
            between: ", ",
            turn: ",\n   ",
            line: 12,
            prefix: "0x",
        };
        // The same between any two bytes.
        let even = |title, opening, between| Spacing {
            title,
            opening,
            between,
            turn: between,
            line: 1,
            ..tools
        };
        Some(match self {
            Layout::Compact => even("compact", "", ","),
            Layout::Tools => tools,
            Layout::OneLine => even("one line", "", ", "),
            Layout::ByteALine => even("comma and newline", "\n", ",\n"),
            Layout::BareLines => Spacing {
                title: "bare commas in lines",
                opening: "\n ",
                between: ",",
                turn: ",\n ",
                line: 15,
                ..tools
            },
            Layout::Tabs => Spacing {
                title: "tabs",
                gap: "\t",
                opening: "\n\t",
                between: ",\t",
                turn: ",\n\t",
                line: 8,
                ..tools
            },
            Layout::Capitals => Spacing { title: "0X", prefix: "0X", ..tools },
            Layout::Loose => return None,
        })
    }
}

impl Spacing {
    /// What stands before the data byte with this index.
    fn before(&self, index: usize) -> &'static str {
        match index {
            0 => self.opening,
            _ if index.is_multiple_of(self.line) => self.turn,
            _ => self.between,
        }
    }

    /// Whether a sound text has its data so, with a turn among it.
    pub fn is_of(&self, text: &[u8]) -> bool {
        let brace = text.iter().rposition(|&b| b == b'{');
        let mut rest = &text[brace.map_or(0, |at| at + 1)..];
        let mut bytes = 0;
        while !rest.starts_with(b"}") {
            let spaced = rest.strip_prefix(self.before(bytes).as_bytes());
            let digits = spaced.and_then(|form| form.strip_prefix(self.prefix.as_bytes()));
            match digits.and_then(|digits| digits.get(2..)) {
                Some(after) => rest = after,
                None => return false,
            }
            bytes += 1;
        }
        bytes > self.line
    }
}

/// A mask as its text tells it. Tokens are bytes, so that any of them can be wrong.
#[derive(Clone)]
pub struct Mask {
    pub preamble: Vec<u8>,
    pub name: Vec<u8>,
    pub width: Vec<u8>,
    pub height: Vec<u8>,
    pub hotspot: Option<[Vec<u8>; 2]>,
    pub unsigned: bool,
    pub data: Vec<u8>,
    pub layout: Layout,
}

/// The data bytes in a row.
pub fn row_bytes(width: usize) -> usize {
    width.div_ceil(8)
}

impl Mask {
    /// A mask of these sides and bytes, without anything optional.
    pub fn new(name: &str, width: usize, height: usize, data: Vec<u8>) -> Mask {
        Mask {
            preamble: Vec::new(),
            name: name.into(),
            width: width.to_string().into(),
            height: height.to_string().into(),
            hotspot: None,
            unsigned: true,
            data,
            layout: Layout::Tools,
        }
    }

    /// A mask with drawn sides, bytes and parts.
    pub fn random(random: &mut Random) -> Mask {
        let (width, height) = sides(random);
        let data = (0..row_bytes(width) * height).map(|_| random.byte()).collect();
        let mut mask = Mask::new("", width, height, data);
        mask.name = name(random);
        mask.layout = match random.below(4) {
            0 => Layout::Compact,
            1 => Layout::Tools,
            _ => Layout::Loose,
        };
        mask.unsigned = random.once_in(2);
        if random.once_in(3) {
            mask.preamble = preamble(random);
        }
        if random.once_in(2) {
            mask.hotspot = Some([hotspot(random), hotspot(random)]);
        }
        mask
    }

    /// A drawn mask in a layout of real files.
    pub fn real(random: &mut Random) -> Mask {
        let mut mask = Mask::random(random);
        mask.layout = Layout::REAL[random.below(Layout::REAL.len())];
        mask
    }

    /// A mask of a wide picture, of much data, after a long preamble or with a long name, in any layout.
    pub fn long(random: &mut Random) -> Mask {
        let kind = random.below(4);
        let (width, height) = match kind {
            0 => (random.within(2001, 40_000), random.within(1, 3)),
            1 => {
                let width = random.within(1, 600);
                (width, random.within(10_000, 14_000).div_ceil(row_bytes(width)))
            }
            _ => (random.within(1, 40), random.within(1, 40)),
        };
        let mut mask = Mask::real(random);
        (mask.width, mask.height) = (width.to_string().into(), height.to_string().into());
        mask.data = (0..row_bytes(width) * height).map(|_| random.byte()).collect();
        if random.once_in(8) {
            mask.layout = Layout::Loose;
        }
        match kind {
            2 => mask.preamble = long_preamble(random),
            3 => mask.name = vec![random.pick_byte(b"n_\xff"); random.within(245, 300)],
            _ => (),
        }
        mask
    }

    /// The token of the line with this index: width, height, x, y. The mask gets a hotspot.
    pub fn token(&mut self, line: usize) -> &mut Vec<u8> {
        let [x, y] = self.hotspot.get_or_insert([b"1".to_vec(), b"2".to_vec()]);
        match line {
            0 => &mut self.width,
            1 => &mut self.height,
            2 => x,
            _ => y,
        }
    }

    /// The mask's text. Only the loose layout draws numbers.
    pub fn text(&self, random: &mut Random) -> Vec<u8> {
        let spacing = self.layout.spacing();
        let mut out = Writer { text: self.preamble.clone(), spacing, random };
        out.define(&self.name, b"_width", &self.width);
        out.define(&self.name, b"_height", &self.height);
        if let Some([x, y]) = &self.hotspot {
            out.define(&self.name, b"_x_hot", x);
            out.define(&self.name, b"_y_hot", y);
        }
        out.put(b"static");
        out.gap();
        if self.unsigned {
            out.put(b"unsigned");
            out.gap();
        }
        out.put(b"char");
        out.gap();
        out.put(&self.name);
        out.put(b"_bits[]");
        out.gap();
        out.put(b"=");
        out.gap();
        out.put(b"{");
        out.data(&self.data);
        out.text
    }
}

struct Writer<'r> {
    text: Vec<u8>,
    /// None where the space is drawn.
    spacing: Option<Spacing>,
    random: &'r mut Random,
}

impl Writer<'_> {
    fn put(&mut self, bytes: &[u8]) {
        self.text.extend_from_slice(bytes);
    }

    fn loose(&self) -> bool {
        self.spacing.is_none()
    }

    fn define(&mut self, name: &[u8], suffix: &[u8], token: &[u8]) {
        self.put(b"#define");
        self.gap();
        self.put(name);
        self.put(suffix);
        self.gap();
        self.put(token);
        if self.loose() && self.random.once_in(3) {
            self.gap();
        }
        self.put(b"\n");
    }

    /// One or more blanks.
    fn gap(&mut self) {
        if let Some(spacing) = self.spacing {
            return self.put(spacing.gap.as_bytes());
        }
        for _ in 0..self.random.within(1, 3) {
            let blank = self.random.pick_byte(b"  \t");
            self.text.push(blank);
        }
    }

    /// Any run of space, tab and newline, most often a short one.
    fn space(&mut self) {
        if !self.loose() {
            return;
        }
        let longest = if self.random.once_in(20) { 20 } else { 2 };
        for _ in 0..self.random.below(longest + 1) {
            let byte = self.random.pick_byte(b"   \t\n");
            self.text.push(byte);
        }
    }

    fn data(&mut self, data: &[u8]) {
        for (i, &byte) in data.iter().enumerate() {
            if let Some(spacing) = self.spacing {
                self.put(spacing.before(i).as_bytes());
            } else {
                if i > 0 {
                    self.space();
                    self.put(b",");
                }
                self.space();
            }
            self.hex_byte(byte);
        }
        self.space();
        if self.loose() && self.random.once_in(3) {
            self.put(b",");
            self.space();
        }
        self.put(b"}");
        self.space();
        self.put(b";");
        self.space();
        if !self.loose() {
            self.put(b"\n");
        }
    }

    fn hex_byte(&mut self, byte: u8) {
        // A bit for the prefix and for each digit: capital or not.
        let form = match self.spacing {
            Some(spacing) if spacing.prefix == "0X" => 7,
            Some(_) => 0,
            None => self.random.below(8),
        };
        self.put(if form % 2 == 0 { b"0x" } else { b"0X" });
        for (k, digit) in [byte >> 4, byte & 15].into_iter().enumerate() {
            let upper = form >> (k + 1) & 1 == 1;
            let from = if upper { b"0123456789ABCDEF" } else { b"0123456789abcdef" };
            self.text.push(from[digit as usize]);
        }
    }
}

fn sides(random: &mut Random) -> (usize, usize) {
    if random.once_in(200) {
        return (random.within(1, 300), random.within(1, 300));
    }
    match random.below(16) {
        0 => (random.within(41, 3000), random.within(1, 2)),
        1 => (random.within(1, 3), random.within(1, 300)),
        2 => (random.within(1, 8) * 8, random.within(1, 20)),
        3..=8 => (random.within(1, 18), random.within(1, 4)),
        _ => (random.within(1, 40), random.within(1, 40)),
    }
}

/// A name of 0 to about 300 bytes; some hold any byte but blanks and newlines.
fn name(random: &mut Random) -> Vec<u8> {
    let length = match random.below(16) {
        0 | 1 => 0,
        2 => random.within(246, 254),
        3 => random.within(0, 300),
        _ => random.within(1, 12),
    };
    let letters: &[u8] = match random.below(6) {
        0 => b"_width",
        1 => b"#_\r\0\x0b\x8a\xffsu=",
        2 => &[],
        _ => b"abcdefghijklmnopqrstuvwxyz_0123456789",
    };
    let mut name: Vec<u8> = (0..length).map(|_| odd_byte(random, letters)).collect();
    if random.once_in(20) {
        name.extend_from_slice(b"_width");
    }
    name
}

/// One of the letters, or any byte that a symbol may hold if there are none.
fn odd_byte(random: &mut Random, letters: &[u8]) -> u8 {
    if !letters.is_empty() {
        return random.pick_byte(letters);
    }
    loop {
        let byte = random.byte();
        if !b" \t\n".contains(&byte) {
            return byte;
        }
    }
}

/// Leading lines, each with a first byte other than `#`, empty ones too.
pub fn preamble(random: &mut Random) -> Vec<u8> {
    let mut out = Vec::new();
    for _ in 0..random.within(1, 4) {
        let longest = if random.once_in(10) { 200 } else { 20 };
        let length = random.below(longest + 1);
        leading_line(random, length, &mut out);
    }
    out
}

/// Leading lines of 4 to 70 KiB together: of one byte, of any short length, or one line alone.
fn long_preamble(random: &mut Random) -> Vec<u8> {
    let least = if random.once_in(2) { 60 << 10 } else { 4 << 10 };
    let total = random.within(least, 70 << 10);
    let kind = random.below(3);
    let mut out = Vec::new();
    while out.len() < total {
        let length = match kind {
            0 => 1,
            1 => random.below(121),
            _ => total,
        };
        leading_line(random, length, &mut out);
    }
    out
}

fn leading_line(random: &mut Random, length: usize, out: &mut Vec<u8>) {
    let start = out.len();
    for _ in 0..length {
        // Bytes beside the newline try a search that looks at whole words.
        let byte = match random.below(4) {
            0 => random.pick_byte(b"\x09\x0b\x0c\x0d\x8a\x8b\0\xff#"),
            _ => random.within(32, 126) as u8,
        };
        out.push(byte);
    }
    if out.get(start) == Some(&b'#') {
        out[start] = b'/';
    }
    out.push(b'\n');
}

fn hotspot(random: &mut Random) -> Vec<u8> {
    let value = match random.below(8) {
        0 => i32::MIN as i64 + random.below(3) as i64,
        1 => i32::MAX as i64 - random.below(3) as i64,
        2 => random.word() as i32 as i64,
        3 => return b"-0".to_vec(),
        _ => random.below(50) as i64 - 5,
    };
    value.to_string().into()
}

/// One damage: a byte changed, put in, taken out or doubled; a stretch swapped, doubled or dropped; a cut.
pub fn damage(random: &mut Random, text: &mut Vec<u8>) {
    if text.is_empty() {
        text.push(random.pick_byte(TELLING));
        return;
    }
    let at = spot(random, text);
    match random.below(12) {
        0..=3 => text[at] = any_byte(random),
        4 | 5 => text.insert(at, any_byte(random)),
        6 | 7 => {
            text.remove(at);
        }
        8 => text.insert(at, text[at]),
        9 => {
            let other = if random.once_in(2) { at + 1 } else { random.below(text.len()) };
            if other < text.len() {
                text.swap(at, other);
            }
        }
        10 => {
            let end = (at + random.within(1, 30)).min(text.len());
            if random.once_in(2) {
                text.drain(at..end);
            } else {
                let stretch = text[at..end].to_vec();
                text.splice(at..at, stretch);
            }
        }
        _ => {
            if random.once_in(2) {
                text.truncate(at);
            } else {
                text.push(any_byte(random));
            }
        }
    }
}

fn any_byte(random: &mut Random) -> u8 {
    if random.once_in(4) {
        random.byte()
    } else {
        random.pick_byte(TELLING)
    }
}

/// A place for a damage: half of them anywhere, the others in the header or near the end.
fn spot(random: &mut Random, text: &[u8]) -> usize {
    let length = text.len();
    match random.below(4) {
        0 | 1 => random.below(length),
        2 => {
            let brace = text.iter().position(|&b| b == b'{').unwrap_or(length - 1);
            random.below(brace + 1)
        }
        _ => length - 1 - random.below(length.min(12)),
    }
}

/// A mask with one part that is wrong as a whole: a token, a line left out or in another's stead.
pub fn misshapen(random: &mut Random) -> Vec<u8> {
    let mut mask = Mask::random(random);
    if random.once_in(2) {
        let token: Vec<u8> = match random.below(8) {
            0 => b"0".to_vec(),
            1..=4 => random.pick(TOKENS).into(),
            _ => (0..random.within(1, 13)).map(|_| random.pick_byte(b"0123456789-")).collect(),
        };
        *mask.token(random.below(4)) = token;
    }
    let surplus = random.below(3);
    match random.below(6) {
        0 => mask.data.truncate(mask.data.len() - surplus.min(mask.data.len())),
        1 => mask.data.extend(vec![0x5a; surplus]),
        _ => (),
    }
    let text = mask.text(random);
    if random.once_in(3) {
        return reordered(random, &text);
    }
    text
}

/// A mask with one token mistyped: a sign, a zero and digits, each drawn or left out, and at times another byte.
pub fn mistyped(random: &mut Random) -> Vec<u8> {
    let mut token = Vec::new();
    if random.once_in(3) {
        token.push(b'-');
    }
    if random.once_in(4) {
        token.push(b'0');
    }
    for _ in 0..random.below(12 - token.len()) {
        token.push(random.pick_byte(b"0123456789"));
    }
    if random.once_in(2) {
        let at = random.below(token.len() + 1);
        let letters: &[u8] = if random.once_in(2) { b"/:z-+\r\0" } else { &[] };
        token.insert(at, odd_byte(random, letters));
    }
    let mut mask = Mask::random(random);
    *mask.token(random.below(4)) = token;
    mask.text(random)
}

/// The text with two lines exchanged, or one left out or doubled.
fn reordered(random: &mut Random, text: &[u8]) -> Vec<u8> {
    let mut lines: Vec<&[u8]> = text.split_inclusive(|&b| b == b'\n').collect();
    let few = lines.len().min(6);
    let (one, other) = (random.below(few), random.below(few));
    match random.below(3) {
        0 => lines.swap(one, other),
        1 => {
            lines.remove(one);
        }
        _ => lines.insert(one, lines[other]),
    }
    lines.concat()
}
